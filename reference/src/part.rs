//! Parts of a module that know their place.

/// A number that is stored in a module, and its place.
#[derive(Clone, Copy, Debug, PartialEq, Eq)]
pub struct Field {
    pub place: u64,
    pub value: u64,
}

impl Field {
    /// The value of a field of two bytes, read as a signed number.
    pub fn signed(self) -> i64 {
        let value = self.value as i64;
        if value < 0x8000 {
            value
        } else {
            value - 0x1_0000
        }
    }
}

/// Some bytes of a module, and the place of the first byte.
#[derive(Clone, Copy, Debug, PartialEq, Eq)]
pub struct Part<'a> {
    pub place: u64,
    pub bytes: &'a [u8],
}

impl<'a> Part<'a> {
    /// The whole module.
    pub fn whole(module: &'a [u8]) -> Part<'a> {
        Part {
            place: 0,
            bytes: module,
        }
    }

    pub fn length(self) -> u64 {
        self.bytes.len() as u64
    }

    /// Takes bytes from the beginning. None if there are fewer.
    pub fn take(&mut self, length: u64) -> Option<Part<'a>> {
        let (taken, left) = self.bytes.split_at_checked(usize::try_from(length).ok()?)?;
        let place = self.place;
        *self = Part {
            place: place + length,
            bytes: left,
        };
        Some(Part {
            place,
            bytes: taken,
        })
    }

    /// Takes a big-endian number of this many bytes from the beginning.
    pub fn number(&mut self, bytes: u64) -> Option<Field> {
        let taken = self.take(bytes)?;
        let value = taken
            .bytes
            .iter()
            .fold(0, |value, &byte| value * 256 + u64::from(byte));
        Some(Field {
            place: taken.place,
            value,
        })
    }

    /// The part as two-byte numbers.
    pub fn numbers(self) -> impl Iterator<Item = Field> + 'a {
        let mut left = self;
        std::iter::from_fn(move || left.number(2))
    }
}
