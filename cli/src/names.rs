//! Formats names and file names for printing.

use std::ffi::OsStr;
use std::os::unix::ffi::OsStrExt;

use crate::text::{put, Hex, Piece};

/// A name of a module, which is bytes, between quotes. The zeros at its end are padding and are not printed. Printable ASCII except the
/// quote and the backslash is printed as it is. All other bytes are printed as \xHH.
#[derive(PartialEq, Eq)]
pub struct Quoted<'n>(pub &'n [u8]);

impl Piece for Quoted<'_> {
    fn put(&self, text: &mut String) {
        text.push('"');
        put_escaped(text, self.0, "\\");
        text.push('"');
    }
}

/// The same without the quotes, and with each backslash escaped for a JSON string.
pub struct JsonName<'n>(pub &'n [u8]);

impl Piece for JsonName<'_> {
    fn put(&self, text: &mut String) {
        put_escaped(text, self.0, "\\\\");
    }
}

pub fn quoted(name: &[u8]) -> String {
    let mut text = String::new();
    put!(&mut text; Quoted(name));
    text
}

/// The same without the quotes.
pub fn escaped(name: &[u8]) -> String {
    let mut text = String::new();
    put_escaped(&mut text, name, "\\");
    text
}

fn put_escaped(text: &mut String, name: &[u8], backslash: &str) {
    let end = name
        .iter()
        .rposition(|&byte| byte != 0)
        .map_or(0, |last| last + 1);
    for &byte in &name[..end] {
        match byte {
            b'"' | b'\\' => put!(text; backslash, "x", Hex(byte)),
            0x20..=0x7E => text.push(char::from(byte)),
            _ => put!(text; backslash, "x", Hex(byte)),
        }
    }
}

/// A file name as it was given, except for bytes that do not fit in one line of text. Control characters, backslashes and bytes that are
/// not UTF-8 are printed as \xHH.
pub fn file(name: &OsStr) -> String {
    let mut text = String::new();
    for part in name.as_bytes().utf8_chunks() {
        for character in part.valid().chars() {
            if character.is_control() || character == '\\' {
                let mut bytes = [0; 4];
                for &byte in character.encode_utf8(&mut bytes).as_bytes() {
                    push_hex(&mut text, byte);
                }
            } else {
                text.push(character);
            }
        }
        for &byte in part.invalid() {
            push_hex(&mut text, byte);
        }
    }
    text
}

fn push_hex(text: &mut String, byte: u8) {
    put!(text; "\\x", Hex(byte));
}
