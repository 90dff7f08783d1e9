//! Words for the values of records, as `report`, `replace` and `compare` print them.

use crate::library::Info;
use crate::records::{Instrument, Loop, Sample};
use crate::text::{put, Many, Piece};

/// The numbers of INFO in their order, each with its name.
pub fn counts(info: &Info) -> [(&'static str, u16); 5] {
    [
        ("instruments", info.instruments),
        ("samples", info.samples),
        ("songs", info.songs),
        ("patterns", info.patterns),
        ("tracks", info.tracks),
    ]
}

/// The sample of an instrument, by its number.
#[derive(PartialEq, Eq)]
pub struct SampleWords(pub u16);

impl Piece for SampleWords {
    fn put(&self, text: &mut String) {
        match self.0 {
            0 => put!(text; "no sample"),
            sample => put!(text; "sample ", sample),
        }
    }
}

/// The loop of an instrument: its kind, and start + length. If the loop is off but its stored numbers are not 0, they are printed too.
#[derive(PartialEq, Eq)]
pub struct LoopWords {
    kind: Loop,
    start: u32,
    length: u32,
}

impl LoopWords {
    pub fn of(instrument: &Instrument) -> LoopWords {
        LoopWords {
            kind: instrument.loop_kind(),
            start: instrument.loop_start,
            length: instrument.loop_length,
        }
    }
}

impl Piece for LoopWords {
    fn put(&self, text: &mut String) {
        let LoopWords {
            kind,
            start,
            length,
        } = *self;
        match kind {
            Loop::Forward => put!(text; "forward loop ", start, " + ", length),
            Loop::PingPong => put!(text; "ping-pong loop ", start, " + ", length),
            Loop::None if start == 0 && length == 0 => put!(text; "no loop"),
            Loop::None => put!(text; "no loop (stored: ", start, " + ", length, ")"),
        }
    }
}

/// `64 frames of 8 bits`.
#[derive(PartialEq, Eq)]
pub struct FrameWords<'s>(pub &'s Sample);

impl Piece for FrameWords<'_> {
    fn put(&self, text: &mut String) {
        put!(text; Many(self.0.frames, "frame"), " of ", self.0.width, " bits");
    }
}

/// The size of a pattern: `64 rows of 8 tracks`.
#[derive(Clone, Copy, PartialEq, Eq)]
pub struct PatternSize {
    pub rows: u16,
    pub tracks: u16,
}

impl Piece for PatternSize {
    fn put(&self, text: &mut String) {
        put!(text; Many(self.rows, "row"), " of ", Many(self.tracks, "track"));
    }
}

/// A point of an envelope: position and value.
#[derive(PartialEq, Eq)]
pub struct PointWords(pub u16, pub i16);

impl Piece for PointWords {
    fn put(&self, text: &mut String) {
        put!(text; self.0, ":", self.1);
    }
}
