//! The cells of single rows. Unpacking whole patterns would take far longer if few of their rows are needed.

use crate::cell_text::FIELDS;
use crate::library;
use crate::reader::entry_length;

/// The packed rows of all patterns of a module, and the cells of one row.
pub struct Rows<'m> {
    streams: Vec<&'m [u8]>,
    tracks: u16,
    /// The pattern and the number of the unpacked row.
    unpacked: Option<(usize, usize)>,
    cells: Vec<u8>,
    /// The bytes after that row.
    rest: &'m [u8],
}

impl<'m> Rows<'m> {
    pub fn new(streams: Vec<&'m [u8]>, tracks: u16) -> Rows<'m> {
        Rows {
            streams,
            tracks,
            unpacked: None,
            cells: vec![0; FIELDS * usize::from(tracks)],
            rest: &[],
        }
    }

    /// The cells of a row. This is fast if the rows of a pattern are requested in their order. None if there is no such row.
    pub fn cells(&mut self, pattern: usize, row: usize) -> Option<&[u8]> {
        if self.unpacked != Some((pattern, row)) {
            self.unpack(pattern, row)?;
        }
        Some(&self.cells)
    }

    fn unpack(&mut self, pattern: usize, row: usize) -> Option<()> {
        let (skipped, from) = match self.unpacked.take() {
            Some((same, before)) if same == pattern && before < row => {
                (row - before - 1, self.rest)
            }
            _ => (row, *self.streams.get(pattern)?),
        };
        let mut rest = from;
        for _ in 0..skipped {
            rest = first_row(rest)?.1;
        }
        let (stream, rest) = first_row(rest)?;
        library::unpack_row(stream, self.tracks.into(), &mut self.cells).ok()?;
        self.rest = rest;
        self.unpacked = Some((pattern, row));
        Some(())
    }
}

/// The bytes of the first row, with its row end, and the bytes after it.
fn first_row(stream: &[u8]) -> Option<(&[u8], &[u8])> {
    let mut place = 0;
    while *stream.get(place)? != 0 {
        place += entry_length(stream, place)?;
    }
    Some(stream.split_at(place + 1))
}
