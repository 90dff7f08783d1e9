//! The blocks of the six chunks that have blocks.
//!
//! Each `take` function parses a block at the beginning of the rest of its chunk. It returns None if there is no such block.

use crate::part::{Field, Part};

/// The number of points of an envelope, used or not.
pub const POINTS: u64 = 32;

/// A song: its name, and its playlist as two-byte numbers.
#[derive(Clone, Copy, Debug, PartialEq, Eq)]
pub struct Song<'a> {
    pub place: u64,
    pub name: &'a [u8],
    pub playlist: Part<'a>,
}

impl<'a> Song<'a> {
    pub fn take(left: &mut Part<'a>) -> Option<Song<'a>> {
        let place = left.place;
        let name = left.take(44)?.bytes;
        let entries = left.number(2)?;
        let playlist = left.take(2 * entries.value)?;
        Some(Song {
            place,
            name,
            playlist,
        })
    }
}

#[derive(Clone, Copy, Debug, PartialEq, Eq)]
pub struct Instrument<'a> {
    pub place: u64,
    pub name: &'a [u8],
    pub sample: Field,
    pub volume: Field,
    pub rate: Field,
    pub loop_start: Field,
    pub loop_length: Field,
    pub panning: Field,
    pub flags: Field,
}

impl<'a> Instrument<'a> {
    pub fn take(left: &mut Part<'a>) -> Option<Instrument<'a>> {
        Some(Instrument {
            place: left.place,
            name: left.take(30)?.bytes,
            sample: left.number(2)?,
            volume: left.number(2)?,
            rate: left.number(4)?,
            loop_start: left.number(4)?,
            loop_length: left.number(4)?,
            panning: left.number(2)?,
            flags: left.number(2)?,
        })
    }

    /// Whether the loop has a length and one of the two kinds of loop is set.
    pub fn is_looped(&self) -> bool {
        self.loop_length.value != 0 && self.flags.value & 0b11 != 0
    }
}

/// A pattern: its rows and its packed stream.
#[derive(Clone, Copy, Debug, PartialEq, Eq)]
pub struct Pattern<'a> {
    pub place: u64,
    pub rows: u64,
    pub stream: &'a [u8],
}

impl<'a> Pattern<'a> {
    pub fn take(left: &mut Part<'a>) -> Option<Pattern<'a>> {
        let place = left.place;
        let rows = left.number(2)?.value;
        let length = left.number(4)?.value;
        let stream = left.take(length)?.bytes;
        left.take(length % 2)?;
        Some(Pattern {
            place,
            rows,
            stream,
        })
    }
}

/// A sample: the bytes of one frame, the number of frames, and the frames.
#[derive(Clone, Copy, Debug, PartialEq, Eq)]
pub struct Sample<'a> {
    pub place: u64,
    pub frame_bytes: u64,
    pub frames: u64,
    pub data: Part<'a>,
}

impl<'a> Sample<'a> {
    pub fn take(left: &mut Part<'a>) -> Option<Sample<'a>> {
        let place = left.place;
        let frame_bytes = match left.number(4)?.value {
            1 => 1,
            2 => 2,
            4 => 4,
            _ => return None,
        };
        let frames = left.number(4)?.value;
        let data = left.take(frames * frame_bytes)?;
        Some(Sample {
            place,
            frame_bytes,
            frames,
            data,
        })
    }
}

/// An envelope. Its points are 32 pairs of a position and a value, two bytes each.
#[derive(Clone, Copy, Debug, PartialEq, Eq)]
pub struct Envelope<'a> {
    pub place: u64,
    pub instrument: Field,
    pub flags: Field,
    pub sections: Field,
    pub first_sustain: Field,
    pub loop_first: Field,
    pub loop_last: Field,
    pub second_sustain: Field,
    pub points: Part<'a>,
}

impl<'a> Envelope<'a> {
    pub fn take(left: &mut Part<'a>) -> Option<Envelope<'a>> {
        Some(Envelope {
            place: left.place,
            instrument: left.number(2)?,
            flags: left.number(1)?,
            sections: left.number(1)?,
            first_sustain: left.number(1)?,
            loop_first: left.number(1)?,
            loop_last: left.number(1)?,
            second_sustain: left.number(1)?,
            points: left.take(4 * POINTS)?,
        })
    }

    /// Whether a bit of the flags is set.
    pub fn has(&self, bit: u32) -> bool {
        self.flags.value >> bit & 1 == 1
    }

    /// The position and the value of the points in use, one more than the number of sections.
    pub fn points_in_use(&self) -> impl Iterator<Item = (Field, Field)> + 'a {
        let in_use = self.sections.value as usize + 1;
        let mut left = self.points;
        std::iter::from_fn(move || left.number(2).zip(left.number(2))).take(in_use)
    }

    /// The values of the points in use.
    pub fn values_in_use(&self) -> impl Iterator<Item = Field> + 'a {
        self.points_in_use().map(|(_, value)| value)
    }
}

/// Exactly `count` blocks that fill the data.
pub fn all<'a, Block>(
    mut data: Part<'a>,
    count: u64,
    take: fn(&mut Part<'a>) -> Option<Block>,
) -> Option<Vec<Block>> {
    let mut blocks = Vec::new();
    for _ in 0..count {
        blocks.push(take(&mut data)?);
    }
    data.bytes.is_empty().then_some(blocks)
}

/// The envelopes of a chunk, which begins with their count.
pub fn envelopes(mut data: Part) -> Option<Vec<Envelope>> {
    let count = data.number(2)?.value;
    all(data, count, Envelope::take)
}
