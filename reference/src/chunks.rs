//! The header and the chunks of a module: refusals 1 to 10.
//!
//! The chunks are collected first, up to the end or to the first bytes that are not a chunk. Then they are checked from the beginning.

use std::collections::BTreeSet;
use std::ops::RangeInclusive;

use crate::part::{Field, Part};
use crate::refusal::{
    before_info, cut_chunk, missing_chunk, not_a_module, repeated, too_long, unknown_version,
    wrong_identifier, wrong_info, wrong_length, Refusal,
};

/// The maximum length of a module in bytes.
pub const MOST_BYTES: u64 = 16_777_216;

pub type Name = [u8; 4];

/// The chunks whose contents are checked. Each occurs at most once.
pub const COVERED: [Name; 8] = [
    *b"NAME", *b"INFO", *b"SONG", *b"INST", *b"PATT", *b"SMPL", *b"VENV", *b"PENV",
];

/// The chunks that follow INFO.
pub const AFTER_INFO: [Name; 4] = [*b"SONG", *b"INST", *b"PATT", *b"SMPL"];

const NAME_BYTES: u64 = 44;
const INFO_BYTES: u64 = 10;

/// The header, with both bytes as stored.
#[derive(Clone, Copy, Debug, PartialEq, Eq)]
pub struct Header {
    pub version: u8,
    pub revision: u8,
}

impl Header {
    fn take(left: &mut Part) -> Result<Header, Refusal> {
        let header = left.take(8).ok_or(not_a_module())?.bytes;
        let (letters, version, revision) = (&header[..4], header[4], header[5]);
        if letters != b"DBM0" {
            return Err(not_a_module());
        }
        let decimal = revision / 16 <= 9 && revision % 16 <= 9;
        if !(version == 2 || version == 3) || !decimal {
            return Err(unknown_version());
        }
        Ok(Header { version, revision })
    }
}

/// A chunk: the place of its header, its identifier and its data.
#[derive(Clone, Copy, Debug, PartialEq, Eq)]
pub struct Chunk<'a> {
    pub place: u64,
    pub name: Name,
    pub data: Part<'a>,
}

impl<'a> Chunk<'a> {
    fn take(left: &mut Part<'a>) -> Result<Chunk<'a>, Refusal> {
        let place = left.place;
        let mut header = left.take(8).ok_or(cut_chunk(place))?;
        let letters = header.take(4).ok_or(cut_chunk(place))?.bytes;
        let length = header.number(4).ok_or(cut_chunk(place))?;
        let name: Name = letters.try_into().expect("four bytes were taken");
        if !name.iter().all(u8::is_ascii_uppercase) {
            return Err(wrong_identifier(place));
        }
        let data = left.take(length.value).ok_or(cut_chunk(place))?;
        Ok(Chunk { place, name, data })
    }
}

/// The five numbers of INFO.
#[derive(Clone, Copy, Debug, PartialEq, Eq)]
pub struct Info {
    pub instruments: u64,
    pub samples: u64,
    pub songs: u64,
    pub patterns: u64,
    pub tracks: u64,
}

impl Info {
    fn read(chunk: Chunk) -> Result<Info, Refusal> {
        let mut left = chunk.data;
        let mut number = || left.number(2).ok_or(wrong_length(chunk.place));
        let [instruments, samples, songs, patterns, tracks] =
            [number()?, number()?, number()?, number()?, number()?];
        let info = Info {
            instruments: within(instruments, 0..=255)?,
            samples: within(samples, 0..=255)?,
            songs: within(songs, 0..=32_767)?,
            patterns: within(patterns, 0..=1_024)?,
            tracks: within(tracks, 4..=254)?,
        };
        if info.tracks.is_multiple_of(2) {
            Ok(info)
        } else {
            Err(wrong_info(tracks.place))
        }
    }
}

fn within(field: Field, range: RangeInclusive<u64>) -> Result<u64, Refusal> {
    if range.contains(&field.value) {
        Ok(field.value)
    } else {
        Err(wrong_info(field.place))
    }
}

/// A module whose chunks are valid, without regard to their blocks.
#[derive(Clone, Debug, PartialEq, Eq)]
pub struct Chunks<'a> {
    pub header: Header,
    pub info: Info,
    pub chunks: Vec<Chunk<'a>>,
}

impl<'a> Chunks<'a> {
    /// Refusals: 1, 2, 3; then, from the beginning, 4, 5, 6, 7, 9, 10; then 8.
    pub fn read(module: &'a [u8]) -> Result<Chunks<'a>, Refusal> {
        let mut left = Part::whole(module);
        let length = left.length();
        if length > MOST_BYTES {
            return Err(too_long());
        }
        let header = Header::take(&mut left)?;
        let (chunks, fault) = collect(left);
        let info = check_chunks(&chunks)?;
        if let Some(refusal) = fault {
            return Err(refusal);
        }
        let there = |name| chunks.iter().any(|chunk| chunk.name == name);
        match info {
            Some(info) if AFTER_INFO.into_iter().all(there) => Ok(Chunks {
                header,
                info,
                chunks,
            }),
            _ => Err(missing_chunk(length)),
        }
    }

    /// The first chunk with this name.
    pub fn find(&self, name: &Name) -> Option<Chunk<'a>> {
        self.chunks
            .iter()
            .copied()
            .find(|chunk| chunk.name == *name)
    }
}

/// The chunks from the beginning, and the refusal if they are followed by bytes that are not a chunk.
fn collect(mut left: Part) -> (Vec<Chunk>, Option<Refusal>) {
    let mut chunks = Vec::new();
    while !left.bytes.is_empty() {
        match Chunk::take(&mut left) {
            Ok(chunk) => chunks.push(chunk),
            Err(refusal) => return (chunks, Some(refusal)),
        }
    }
    (chunks, None)
}

/// The numbers of INFO, if there is one. Refusals, from the beginning: 6, 7, 9, 10.
fn check_chunks(chunks: &[Chunk]) -> Result<Option<Info>, Refusal> {
    let mut met = BTreeSet::new();
    let mut info = None;
    for &chunk in chunks {
        if COVERED.contains(&chunk.name) && !met.insert(chunk.name) {
            return Err(repeated(chunk.place));
        }
        if AFTER_INFO.contains(&chunk.name) && info.is_none() {
            return Err(before_info(chunk.place));
        }
        let expected = match &chunk.name {
            b"NAME" => NAME_BYTES,
            b"INFO" => INFO_BYTES,
            _ => chunk.data.length(),
        };
        if chunk.data.length() != expected {
            return Err(wrong_length(chunk.place));
        }
        if chunk.name == *b"INFO" {
            info = Some(Info::read(chunk)?);
        }
    }
    Ok(info)
}
