//! Compares two modules.
//!
//! Both modules are parsed, and everything that is compared is copied from each of them into values: names, numbers, playlists, frames, and
//! the fields of the cells. Then the values are compared, and the differences are collected in a set, which sorts them.

use std::collections::{BTreeMap, BTreeSet};

use crate::blocks;
use crate::chunks::Info;
use crate::module::{read, Module};
use crate::pattern::{self, put, FieldPlace};
use crate::records::{
    of_kind, shown_envelope, shown_instrument, shown_name, Envelope, Instrument, Kind,
};
use crate::refusal::Refusal;

/// An entry of the list: kind, number, row, track and field. The last three are 0, except for a field of a cell.
pub type Difference = [u16; 5];

/// The bytes of an entry.
pub const ENTRY_BYTES: usize = 10;

/// The kinds of entries.
pub const NAME: u16 = 1;
pub const INFO: u16 = 2;
pub const SONG: u16 = 3;
pub const INSTRUMENT: u16 = 4;
pub const VOLUME_ENVELOPE: u16 = 5;
pub const PANNING_ENVELOPE: u16 = 6;
pub const SAMPLE: u16 = 7;
pub const PATTERN: u16 = 8;

/// Writes the differences, each as five big-endian numbers of two bytes, and returns how many there are. Refusals: those of the first module,
/// those of the second, 17.
pub fn compare(first: &[u8], second: &[u8], out: &mut [u8]) -> Result<u64, Refusal> {
    let differences = differences(first, second)?;
    let bytes: Vec<u8> = differences
        .iter()
        .flatten()
        .flat_map(|number| number.to_be_bytes())
        .collect();
    put(&bytes, out)?;
    Ok(differences.len() as u64)
}

/// The differences between two modules. Refusals: those of the first module, those of the second.
pub fn differences(first: &[u8], second: &[u8]) -> Result<BTreeSet<Difference>, Refusal> {
    let first = read(first)?;
    let second = read(second)?;
    Ok(Shown::of(&first).differences(&Shown::of(&second)))
}

/// Everything of a module that is compared.
struct Shown {
    name: [u8; 44],
    info: [u64; 5],
    songs: Vec<Song>,
    instruments: Vec<Instrument>,
    volume_envelopes: Vec<Envelope>,
    panning_envelopes: Vec<Envelope>,
    samples: Vec<Sample>,
    patterns: Vec<Pattern>,
}

/// A song. The length of the playlist is the number of its entries.
#[derive(PartialEq)]
struct Song {
    name: Vec<u8>,
    playlist: Vec<u64>,
}

/// A sample: the bytes of a frame, and the value of each frame.
#[derive(PartialEq)]
struct Sample {
    frame_bytes: u64,
    frames: Vec<i32>,
}

/// A pattern: its rows and tracks, and the fields of its cells that are not 0.
struct Pattern {
    rows: u64,
    tracks: u64,
    fields: BTreeMap<FieldPlace, u8>,
}

impl Shown {
    fn of(module: &Module) -> Shown {
        let envelopes = |kind| {
            let version = module.header.version;
            let shown = |envelope| shown_envelope(envelope, kind, version);
            of_kind(module, kind).iter().map(shown).collect()
        };
        let tracks = module.info.tracks;
        Shown {
            name: shown_name(module),
            info: numbers(module.info),
            songs: module.songs.iter().map(Song::of).collect(),
            instruments: module.instruments.iter().map(shown_instrument).collect(),
            volume_envelopes: envelopes(Kind::Volume),
            panning_envelopes: envelopes(Kind::Panning),
            samples: module.samples.iter().map(Sample::of).collect(),
            patterns: module
                .patterns
                .iter()
                .map(|pattern| Pattern::of(pattern, tracks))
                .collect(),
        }
    }

    fn differences(&self, other: &Shown) -> BTreeSet<Difference> {
        let mut differences = BTreeSet::new();
        if self.name != other.name {
            differences.insert(whole(NAME, 0));
        }
        differences.extend(records(INFO, 0, &self.info, &other.info));
        differences.extend(records(SONG, 0, &self.songs, &other.songs));
        differences.extend(records(
            INSTRUMENT,
            1,
            &self.instruments,
            &other.instruments,
        ));
        differences.extend(records(
            VOLUME_ENVELOPE,
            0,
            &self.volume_envelopes,
            &other.volume_envelopes,
        ));
        differences.extend(records(
            PANNING_ENVELOPE,
            0,
            &self.panning_envelopes,
            &other.panning_envelopes,
        ));
        differences.extend(records(SAMPLE, 1, &self.samples, &other.samples));
        differences.extend(patterns(&self.patterns, &other.patterns));
        differences
    }
}

/// The numbers of INFO in the order of the chunk.
fn numbers(info: Info) -> [u64; 5] {
    [
        info.instruments,
        info.samples,
        info.songs,
        info.patterns,
        info.tracks,
    ]
}

impl Song {
    fn of(song: &blocks::Song) -> Song {
        Song {
            name: song.name.to_vec(),
            playlist: song.playlist.numbers().map(|entry| entry.value).collect(),
        }
    }
}

impl Sample {
    fn of(sample: &blocks::Sample) -> Sample {
        let frames = sample.data.bytes.chunks(sample.frame_bytes as usize);
        Sample {
            frame_bytes: sample.frame_bytes,
            frames: frames.map(frame_value).collect(),
        }
    }
}

/// The value of a frame of 8, 16 or 32 bits, at its own width.
fn frame_value(frame: &[u8]) -> i32 {
    match *frame {
        [a] => i8::from_be_bytes([a]).into(),
        [a, b] => i16::from_be_bytes([a, b]).into(),
        [a, b, c, d] => i32::from_be_bytes([a, b, c, d]),
        _ => unreachable!("a frame has 1, 2 or 4 bytes"),
    }
}

impl Pattern {
    fn of(pattern: &blocks::Pattern, tracks: u64) -> Pattern {
        let fields = pattern::fields(pattern.stream, pattern.rows, tracks);
        Pattern {
            rows: pattern.rows,
            tracks,
            fields: fields.expect("the stream was checked"),
        }
    }

    fn has_the_shape_of(&self, other: &Pattern) -> bool {
        self.rows == other.rows && self.tracks == other.tracks
    }
}

/// The entry for a whole record.
fn whole(kind: u16, number: usize) -> Difference {
    let number = u16::try_from(number).expect("there are at most 65,535 records of a kind");
    [kind, number, 0, 0, 0]
}

/// An entry for each record that differs, or that only one of the two lists has. The numbers begin with `first_number`.
fn records<Record: PartialEq>(
    kind: u16,
    first_number: usize,
    some: &[Record],
    others: &[Record],
) -> Vec<Difference> {
    (0..some.len().max(others.len()))
        .filter(|&index| some.get(index) != others.get(index))
        .map(|index| whole(kind, first_number + index))
        .collect()
}

/// One entry for a pattern that only one of the two lists has, or whose rows or tracks differ. Otherwise one for each field that differs.
fn patterns(some: &[Pattern], others: &[Pattern]) -> Vec<Difference> {
    let mut differences = Vec::new();
    for number in 0..some.len().max(others.len()) {
        match (some.get(number), others.get(number)) {
            (Some(one), Some(other)) if one.has_the_shape_of(other) => {
                differences.extend(fields(number as u16, one, other));
            }
            _ => differences.push(whole(PATTERN, number)),
        }
    }
    differences
}

/// An entry for each field of a cell that differs. A place that a pattern does not have is 0 there.
fn fields(number: u16, one: &Pattern, other: &Pattern) -> Vec<Difference> {
    let places: BTreeSet<FieldPlace> = one
        .fields
        .keys()
        .chain(other.fields.keys())
        .copied()
        .collect();
    places
        .into_iter()
        .filter(|place| one.fields.get(place) != other.fields.get(place))
        .map(|(row, track, field)| [PATTERN, number, row, track, field])
        .collect()
}
