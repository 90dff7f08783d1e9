//! Packed rows.
//!
//! A stream is read into rows of entries, and every call works on these. The check only reads them, the unpacker applies them to cells, and
//! the repacker packs the resulting cells.

use std::collections::BTreeMap;

use crate::refusal::{broken, not_there, out_of_range, too_short};

pub use crate::refusal::Refusal;

/// A cell has six fields: note, instrument, command 1, parameter 1, command 2, parameter 2.
pub const FIELDS: usize = 6;

/// The note of a cell in an answer.
#[derive(Clone, Copy, Debug, PartialEq, Eq)]
pub enum Note {
    None,
    KeyOff,
    Pitch { octave: u8, semitone: u8 },
    Unknown(u8),
}

/// A cell in an answer.
#[derive(Clone, Copy, Debug, PartialEq, Eq)]
pub struct Cell {
    pub note: Note,
    pub instrument: u8,
    pub command1: u8,
    pub parameter1: u8,
    pub command2: u8,
    pub parameter2: u8,
}

/// The place of a field: its row from 0, its track from 1, and its place in the cell, from 1 to 6.
pub type FieldPlace = (u16, u16, u16);

/// Valid rows and tracks: at most 65,535 rows; an even number of tracks from 4 to 254.
#[derive(Clone, Copy)]
struct Shape {
    rows: usize,
    tracks: usize,
}

impl Shape {
    fn new(rows: u64, tracks: u64) -> Result<Shape, Refusal> {
        let rows = u16::try_from(rows).map_err(|_| out_of_range())?;
        let tracks = u8::try_from(tracks).map_err(|_| out_of_range())?;
        if !(4..=254).contains(&tracks) || tracks % 2 != 0 {
            return Err(out_of_range());
        }
        Ok(Shape {
            rows: usize::from(rows),
            tracks: usize::from(tracks),
        })
    }

    fn row_bytes(self) -> usize {
        self.tracks * FIELDS
    }

    /// At most 65,535 × 254 × 6.
    fn cell_bytes(self) -> usize {
        self.rows * self.row_bytes()
    }
}

/// One entry: its track, and for each of the six fields the value to store if its mask bit is set. Bits 6 and 7 of the mask name no field.
#[derive(Clone, Copy)]
struct Entry {
    track: u8,
    named: [Option<u8>; FIELDS],
}

impl Entry {
    /// The first entry of `bytes` and the rest. None if there is no valid entry.
    fn take(bytes: &[u8], tracks: usize) -> Option<(Entry, &[u8])> {
        let (&track, bytes) = bytes.split_first()?;
        let (&mask, mut bytes) = bytes.split_first()?;
        if track == 0 || usize::from(track) > tracks {
            return None;
        }
        let mut named = [None; FIELDS];
        for (bit, field) in named.iter_mut().enumerate() {
            if mask & (1 << bit) != 0 {
                let (&value, after) = bytes.split_first()?;
                *field = Some(value);
                bytes = after;
            }
        }
        Some((Entry { track, named }, bytes))
    }

    /// Stores the fields that the mask names in a cell of a row. The others are unchanged.
    fn apply(&self, row: &mut [u8]) {
        let start = (usize::from(self.track) - 1) * FIELDS;
        for (stored, named) in row[start..start + FIELDS].iter_mut().zip(self.named) {
            if let Some(value) = named {
                *stored = value;
            }
        }
    }
}

/// The rows of a stream, each as its entries. The memory grows with the stream, never with `shape.rows` alone.
fn read(stream: &[u8], shape: Shape) -> Result<Vec<Vec<Entry>>, Refusal> {
    let mut rows = Vec::new();
    let mut left = stream;
    while rows.len() < shape.rows {
        let mut row = Vec::new();
        loop {
            match left.first() {
                None => return Err(broken(stream.len())),
                Some(0) => {
                    left = &left[1..];
                    break;
                }
                Some(_) => {
                    let place = stream.len() - left.len();
                    let (entry, after) = Entry::take(left, shape.tracks).ok_or(broken(place))?;
                    row.push(entry);
                    left = after;
                }
            }
        }
        rows.push(row);
    }
    if left.is_empty() {
        Ok(rows)
    } else {
        Err(broken(stream.len() - left.len()))
    }
}

/// The cells of one row after its entries are applied in order.
fn cells_of(row: &[Entry], shape: Shape) -> Vec<u8> {
    let mut cells = vec![0; shape.row_bytes()];
    for entry in row {
        entry.apply(&mut cells);
    }
    cells
}

/// Appends the packer's bytes for one row of cells.
fn pack_row(cells: &[u8], packed: &mut Vec<u8>) {
    for (cell, track) in cells.chunks(FIELDS).zip(1u8..) {
        let named: Vec<usize> = (0..FIELDS).filter(|&field| cell[field] != 0).collect();
        if named.is_empty() {
            continue;
        }
        packed.push(track);
        packed.push(named.iter().map(|field| 1u8 << field).sum());
        packed.extend(named.iter().map(|&field| cell[field]));
    }
    packed.push(0);
}

/// Copies the bytes to the beginning of the output, or refuses with 17 and changes nothing.
pub(crate) fn put(bytes: &[u8], out: &mut [u8]) -> Result<u64, Refusal> {
    let needed = bytes.len() as u64;
    out.get_mut(..bytes.len())
        .ok_or(too_short(needed))?
        .copy_from_slice(bytes);
    Ok(needed)
}

/// Refusals: 16, 15.
pub fn check(stream: &[u8], rows: u64, tracks: u64) -> Result<(), Refusal> {
    let shape = Shape::new(rows, tracks)?;
    read(stream, shape)?;
    Ok(())
}

/// Writes the cells and returns their length in bytes. Refusals: 16, 17, 15.
pub fn unpack(stream: &[u8], rows: u64, tracks: u64, out: &mut [u8]) -> Result<u64, Refusal> {
    let shape = Shape::new(rows, tracks)?;
    let needed = shape.cell_bytes();
    let cells = out.get_mut(..needed).ok_or(too_short(needed as u64))?;
    let rows = read(stream, shape)?;
    for (row, place) in rows.iter().zip(cells.chunks_mut(shape.row_bytes())) {
        place.copy_from_slice(&cells_of(row, shape));
    }
    Ok(needed as u64)
}

/// Writes the packed stream of the cells and returns its length. Refusals: 16, 17.
pub fn pack(cells: &[u8], rows: u64, tracks: u64, out: &mut [u8]) -> Result<u64, Refusal> {
    let shape = Shape::new(rows, tracks)?;
    if cells.len() != shape.cell_bytes() {
        return Err(out_of_range());
    }
    let mut packed = Vec::new();
    for row in cells.chunks(shape.row_bytes()) {
        pack_row(row, &mut packed);
    }
    put(&packed, out)
}

/// Writes the packer's stream for the cells of a stream and returns its length. Refusals: 16, 15, 17.
pub fn repack(stream: &[u8], rows: u64, tracks: u64, out: &mut [u8]) -> Result<u64, Refusal> {
    let shape = Shape::new(rows, tracks)?;
    let rows = read(stream, shape)?;
    let mut packed = Vec::new();
    for row in &rows {
        pack_row(&cells_of(row, shape), &mut packed);
    }
    put(&packed, out)
}

/// One cell. Rows are counted from 0, tracks from 1. Refusals: 16, 18, 15.
pub fn cell(stream: &[u8], rows: u64, tracks: u64, row: u64, track: u64) -> Result<Cell, Refusal> {
    let shape = Shape::new(rows, tracks)?;
    if row >= rows || track == 0 || track > tracks {
        return Err(not_there());
    }
    let read = read(stream, shape)?;
    let cells = cells_of(&read[row as usize], shape);
    let wanted = cells
        .chunks(FIELDS)
        .nth(track as usize - 1)
        .expect("the track is in range");
    Ok(shown(wanted.try_into().expect("a cell has six bytes")))
}

/// The fields of all cells that are not 0. Refusals: 16, 15.
pub fn fields(stream: &[u8], rows: u64, tracks: u64) -> Result<BTreeMap<FieldPlace, u8>, Refusal> {
    let mut fields = BTreeMap::new();
    for (entries, row) in read(stream, Shape::new(rows, tracks)?)?.iter().zip(0..) {
        for entry in entries {
            for (named, field) in entry.named.into_iter().zip(1..) {
                if let Some(value) = named {
                    fields.insert((row, u16::from(entry.track), field), value);
                }
            }
        }
    }
    fields.retain(|_, value| *value != 0);
    Ok(fields)
}

/// The fields of a cell in an answer.
pub fn shown(cell: [u8; FIELDS]) -> Cell {
    let [note, instrument, command1, parameter1, command2, parameter2] = cell;
    let note = match (note, note / 16, note % 16) {
        (0x00, _, _) => Note::None,
        (0x1F, _, _) => Note::KeyOff,
        (_, octave @ 1..=8, semitone @ 0..=11) => Note::Pitch { octave, semitone },
        _ => Note::Unknown(note),
    };
    Cell {
        note,
        instrument,
        command1,
        parameter1,
        command2,
        parameter2,
    }
}
