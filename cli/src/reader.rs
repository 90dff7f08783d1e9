//! Reads chunks, blocks and numbers from a module's bytes.
//!
//! This code makes no decision. The library decides whether a module is accepted, what is wrong with it, and what differs between two. This
//! code only finds the bytes that explain.rs and differences.rs describe. It is tested, not proved. Every read is bounds-checked and returns
//! None outside the module.

/// The identifier of a chunk.
pub type Name = [u8; 4];

/// The length of a module's header, and of a chunk's header.
pub const HEADER: usize = 8;

/// A big-endian number of `length` bytes, at most 8.
pub fn number(bytes: &[u8], place: usize, length: usize) -> Option<u64> {
    let end = place.checked_add(length)?;
    let stored = bytes.get(place..end)?;
    Some(
        stored
            .iter()
            .fold(0, |number, &byte| number << 8 | u64::from(byte)),
    )
}

/// A signed big-endian number of two bytes.
pub fn signed(bytes: &[u8], place: usize) -> Option<i64> {
    let number = number(bytes, place, 2)?;
    Some(i64::from(number as u16 as i16))
}

/// A chunk: the place of its header, its identifier and its data.
#[derive(Clone, Copy)]
pub struct Chunk<'m> {
    pub place: usize,
    pub name: Name,
    pub data: &'m [u8],
}

impl Chunk<'_> {
    /// The place of the data in the module.
    pub fn data_place(&self) -> usize {
        self.place + HEADER
    }
}

/// The chunks from the beginning, up to the first that is cut.
pub struct Chunks<'m> {
    module: &'m [u8],
    place: usize,
}

pub fn chunks(module: &[u8]) -> Chunks<'_> {
    Chunks {
        module,
        place: HEADER,
    }
}

impl<'m> Iterator for Chunks<'m> {
    type Item = Chunk<'m>;

    fn next(&mut self) -> Option<Chunk<'m>> {
        let place = self.place;
        let name = identifier(self.module, place)?;
        let length = usize::try_from(number(self.module, place + 4, 4)?).ok()?;
        let start = place + HEADER;
        let data = self.module.get(start..start.checked_add(length)?)?;
        self.place = start + length;
        Some(Chunk { place, name, data })
    }
}

/// The four bytes of an identifier.
pub fn identifier(module: &[u8], place: usize) -> Option<Name> {
    module.get(place..place.checked_add(4)?)?.try_into().ok()
}

/// The first chunk with this name.
pub fn find<'m>(module: &'m [u8], name: &Name) -> Option<Chunk<'m>> {
    chunks(module).find(|chunk| chunk.name == *name)
}

/// The five numbers of INFO.
#[derive(Clone, Copy)]
pub struct Counts {
    pub instruments: u64,
    pub samples: u64,
    pub songs: u64,
    pub patterns: u64,
    pub tracks: u64,
}

pub fn counts(module: &[u8]) -> Option<Counts> {
    let info = find(module, b"INFO")?.data;
    Some(Counts {
        instruments: number(info, 0, 2)?,
        samples: number(info, 2, 2)?,
        songs: number(info, 4, 2)?,
        patterns: number(info, 6, 2)?,
        tracks: number(info, 8, 2)?,
    })
}

/// The kind of the blocks of a chunk.
#[derive(Clone, Copy, PartialEq, Eq)]
pub enum Blocks {
    Songs,
    Instruments,
    Patterns,
    Samples,
    VolumeEnvelopes,
    PanningEnvelopes,
}

impl Blocks {
    /// The kind of the blocks in the chunk with this name.
    pub fn of(name: &Name) -> Option<Blocks> {
        match name {
            b"SONG" => Some(Blocks::Songs),
            b"INST" => Some(Blocks::Instruments),
            b"PATT" => Some(Blocks::Patterns),
            b"SMPL" => Some(Blocks::Samples),
            b"VENV" => Some(Blocks::VolumeEnvelopes),
            b"PENV" => Some(Blocks::PanningEnvelopes),
            _ => None,
        }
    }

    /// The place of the first block in the data. Envelopes are preceded by their count.
    pub fn first(self) -> usize {
        match self {
            Blocks::VolumeEnvelopes | Blocks::PanningEnvelopes => 2,
            _ => 0,
        }
    }

    /// The number of blocks: from INFO, or the count before the envelopes.
    pub fn count(self, counts: &Counts, data: &[u8]) -> Option<u64> {
        match self {
            Blocks::Songs => Some(counts.songs),
            Blocks::Instruments => Some(counts.instruments),
            Blocks::Patterns => Some(counts.patterns),
            Blocks::Samples => Some(counts.samples),
            Blocks::VolumeEnvelopes | Blocks::PanningEnvelopes => number(data, 0, 2),
        }
    }

    /// The length of the block at the beginning of these bytes, even if fewer are left. None if there are too few bytes to know.
    pub fn length(self, bytes: &[u8]) -> Option<u64> {
        match self {
            Blocks::Songs => Some(46 + 2 * number(bytes, 44, 2)?),
            Blocks::Instruments => Some(50),
            Blocks::Patterns => {
                let packed = number(bytes, 2, 4)?;
                Some(6 + packed + packed % 2)
            }
            Blocks::Samples => Some(8 + number(bytes, 4, 4)? * frame_bytes(bytes)?),
            Blocks::VolumeEnvelopes | Blocks::PanningEnvelopes => Some(136),
        }
    }
}

/// The bytes of one frame of the sample at the beginning of these bytes. 0 if its flags are invalid.
fn frame_bytes(bytes: &[u8]) -> Option<u64> {
    match number(bytes, 0, 4)? {
        flags @ (1 | 2 | 4) => Some(flags),
        _ => Some(0),
    }
}

/// A block: its index, its place in the data of its chunk, and its bytes.
#[derive(Clone, Copy)]
pub struct Block<'m> {
    pub index: u64,
    pub place: usize,
    pub bytes: &'m [u8],
}

impl<'m> Block<'m> {
    /// The packed rows of a pattern, without the filler.
    pub fn packed_rows(&self) -> Option<&'m [u8]> {
        let length = usize::try_from(number(self.bytes, 2, 4)?).ok()?;
        self.bytes.get(6..)?.get(..length)
    }

    /// The frames of a sample.
    pub fn frames(&self) -> Option<&'m [u8]> {
        self.bytes.get(8..)
    }
}

/// The blocks of the chunk with this name, up to the first that is cut.
pub fn blocks_of<'m>(module: &'m [u8], name: &Name) -> Option<impl Iterator<Item = Block<'m>>> {
    let kind = Blocks::of(name)?;
    let data = find(module, name)?.data;
    let count = kind.count(&counts(module)?, data)?;
    Some(blocks(kind, data, count))
}

/// The first `count` blocks of a chunk's data, up to the first that is cut.
pub fn blocks<'m>(
    kind: Blocks,
    data: &'m [u8],
    count: u64,
) -> impl Iterator<Item = Block<'m>> + 'm {
    let mut place = kind.first();
    let mut index = 0;
    std::iter::from_fn(move || {
        if index == count {
            return None;
        }
        let left = data.get(place..)?;
        let length = usize::try_from(kind.length(left)?).ok()?;
        let block = Block {
            index,
            place,
            bytes: left.get(..length)?,
        };
        index += 1;
        place += length;
        Some(block)
    })
}

/// The bits of a mask that name fields. Bits 6 and 7 are ignored.
const FIELD_BITS: u8 = 0x3F;

/// The length of the row end or of the entry at a place of packed rows.
pub fn entry_length(stream: &[u8], place: usize) -> Option<usize> {
    match *stream.get(place)? {
        0 => Some(1),
        _ => Some(2 + (stream.get(place + 1)? & FIELD_BITS).count_ones() as usize),
    }
}
