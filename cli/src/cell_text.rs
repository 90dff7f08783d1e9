//! The fields of a cell as text.

use crate::library::{self, Cell, Refusal, NOTE_KEY_OFF, NOTE_NONE, NOTE_PITCH};

/// The number of fields in a cell, one byte each: note, instrument, command 1, parameter 1, command 2, parameter 2.
pub const FIELDS: usize = 6;

pub struct CellText {
    /// The text of each of the 256 note bytes.
    notes: Vec<String>,
}

impl CellText {
    pub fn new() -> Result<CellText, Refusal> {
        Ok(CellText { notes: notes()? })
    }

    pub fn note(&self, byte: u8) -> &str {
        &self.notes[usize::from(byte)]
    }

    /// Appends any field. Fields are counted from 0.
    pub fn push_field(&self, text: &mut String, field: usize, byte: u8) {
        match field {
            0 => text.push_str(self.note(byte)),
            2 | 4 => push_command(text, byte),
            _ => push_hex(text, byte),
        }
    }
}

const DIGITS: &[u8; 36] = b"0123456789ABCDEFGHIJKLMNOPQRSTUVWXYZ";

pub fn push_hex(text: &mut String, byte: u8) {
    for digit in [byte >> 4, byte & 15] {
        text.push(char::from(DIGITS[usize::from(digit)]));
    }
}

/// A command is one digit, 0 to 9 and A to Z. A larger command is printed as its byte in brackets.
pub fn push_command(text: &mut String, command: u8) {
    match DIGITS.get(usize::from(command)) {
        Some(&digit) => text.push(char::from(digit)),
        None => {
            text.push('[');
            push_hex(text, command);
            text.push(']');
        }
    }
}

/// A module with one pattern of one row. The row has 4 packed bytes: track 1, a mask with the note bit, the note, the row end.
const ONE_NOTE: &[u8; 68] = b"DBM0\x03\x00\x00\x00\
    INFO\x00\x00\x00\x0A\x00\x00\x00\x00\x00\x00\x00\x01\x00\x04\
    SONG\x00\x00\x00\x00INST\x00\x00\x00\x00SMPL\x00\x00\x00\x00\
    PATT\x00\x00\x00\x0A\x00\x01\x00\x00\x00\x04\x01\x01\x00\x00";

/// The place of the note in `ONE_NOTE`.
const NOTE: usize = 66;

/// The text of each of the 256 note bytes. The library classifies each byte as a pitch, a key off, none or unknown.
fn notes() -> Result<Vec<String>, Refusal> {
    let mut module = *ONE_NOTE;
    (0..=255)
        .map(|note| {
            module[NOTE] = note;
            library::cell(&module, 0, 0, 1).map(|cell| note_text(&cell))
        })
        .collect()
}

fn note_text(cell: &Cell) -> String {
    const SEMITONES: [&str; 12] = [
        "C-", "C#", "D-", "D#", "E-", "F-", "F#", "G-", "G#", "A-", "A#", "B-",
    ];
    match cell.kind {
        NOTE_NONE => "---".to_string(),
        NOTE_KEY_OFF => "===".to_string(),
        NOTE_PITCH => match SEMITONES.get(usize::from(cell.semitone)) {
            Some(semitone) => format!("{semitone}{}", cell.octave),
            None => "???".to_string(),
        },
        _ => format!("?{:02X}", cell.unknown),
    }
}
