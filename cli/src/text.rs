//! Builds text from pieces, directly in the output buffer.

/// A piece of text.
pub trait Piece {
    fn put(&self, text: &mut String);
}

/// Appends pieces to a text: `put!(text; "pattern ", number, ": ", rows)`.
macro_rules! put {
    ($text:expr; $($piece:expr),+) => {{
        let text: &mut String = $text;
        $($crate::text::Piece::put(&$piece, text);)+
    }};
}
pub(crate) use put;

impl Piece for &str {
    fn put(&self, text: &mut String) {
        text.push_str(self);
    }
}

impl Piece for bool {
    fn put(&self, text: &mut String) {
        text.push_str(if *self { "true" } else { "false" });
    }
}

/// Decimal digits without leading zeros.
impl Piece for u64 {
    fn put(&self, text: &mut String) {
        let mut digits = [b'0'; 20];
        let mut first = digits.len();
        let mut left = *self;
        loop {
            first -= 1;
            digits[first] += (left % 10) as u8;
            left /= 10;
            if left == 0 {
                break;
            }
        }
        for &digit in &digits[first..] {
            text.push(char::from(digit));
        }
    }
}

macro_rules! number_pieces {
    ($($number:ty),+) => {$(
        impl Piece for $number {
            fn put(&self, text: &mut String) {
                (*self as u64).put(text);
            }
        }
    )+};
}
number_pieces!(u8, u16, u32, usize);

/// A minus sign before the digits of a negative number.
macro_rules! signed_pieces {
    ($($number:ty),+) => {$(
        impl Piece for $number {
            fn put(&self, text: &mut String) {
                if *self < 0 {
                    text.push('-');
                }
                self.unsigned_abs().put(text);
            }
        }
    )+};
}
signed_pieces!(i16, i32);

/// Two lowercase hexadecimal digits.
#[derive(Clone, Copy)]
pub struct Hex(pub u8);

impl Piece for Hex {
    fn put(&self, text: &mut String) {
        for digit in [self.0 >> 4, self.0 & 15] {
            text.push(char::from(b"0123456789abcdef"[usize::from(digit)]));
        }
    }
}

/// `1 row`, `2 rows`.
pub struct Many<Count>(pub Count, pub &'static str);

impl<Count: Into<u64> + Copy> Piece for Many<Count> {
    fn put(&self, text: &mut String) {
        let Many(count, noun) = *self;
        put!(text; count.into(), " ", noun);
        if count.into() != 1 {
            text.push('s');
        }
    }
}

#[cfg(test)]
mod tests {
    use super::{Hex, Many};

    /// The same text as the standard library prints.
    #[test]
    fn numbers() {
        let mut powers: Vec<u64> = (0..20).map(|power| 10u64.pow(power)).collect();
        powers.extend((0..64).map(|power| 1u64 << power));
        for power in powers {
            for number in [power - 1, power, power.saturating_add(1), u64::MAX - power] {
                let mut text = String::new();
                put!(&mut text; number, " ", number as u32, " ", number as u16);
                let expected = format!("{number} {} {}", number as u32, number as u16);
                assert_eq!(text, expected);
            }
        }
        for number in i16::MIN..=i16::MAX {
            let mut text = String::new();
            put!(&mut text; number);
            assert_eq!(text, number.to_string());
        }
        for number in [i32::MIN, i32::MIN + 1, -65_536, -1, 0, 1, 65_536, i32::MAX] {
            let mut text = String::new();
            put!(&mut text; number);
            assert_eq!(text, number.to_string());
        }
        for number in 0..=u8::MAX {
            let mut text = String::new();
            put!(&mut text; number, " ", Hex(number));
            assert_eq!(text, format!("{number} {number:02x}"));
        }
    }

    #[test]
    fn words() {
        let mut text = String::from("a ");
        put!(&mut text; true, " ", false, " ", Many(0u16, "row"), " ", Many(1u16, "row"), " ", Many(2u64, "byte"));
        assert_eq!(text, "a true false 0 rows 1 row 2 bytes");
    }
}
