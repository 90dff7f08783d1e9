//! Every query about a module.
//!
//! Each query parses the whole module and returns the module's own refusal, if there is one. Then it looks up the item: 18 if there is no
//! such item, and 17 if the output is too short. Instruments, samples and tracks are counted from 1, everything else from 0. The conversion
//! of a block to its record is written once (`shown_song` and so on), for the queries and for all records together (all_records.rs).

use crate::blocks::{self, POINTS};
use crate::chunks::Info;
use crate::module::{read, Module};
use crate::part::{Field, Part};
use crate::pattern::{self, put, Cell};
use crate::refusal::{not_there, Refusal};

/// A song: its name, and the number of entries in its playlist.
#[derive(Clone, Copy, Debug, PartialEq, Eq)]
pub struct Song {
    pub name: [u8; 44],
    pub length: u16,
}

/// An instrument, with all fields as stored.
#[derive(Clone, Copy, Debug, PartialEq, Eq)]
pub struct Instrument {
    pub name: [u8; 30],
    pub sample: u16,
    pub volume: u16,
    pub rate: u32,
    pub loop_start: u32,
    pub loop_length: u32,
    pub panning: i16,
    pub flags: u16,
}

/// The two kinds of envelopes.
#[derive(Clone, Copy, Debug, PartialEq, Eq)]
pub enum Kind {
    Volume,
    Panning,
}

/// A point of an envelope.
#[derive(Clone, Copy, Debug, PartialEq, Eq)]
pub struct Point {
    pub position: u16,
    pub value: i16,
}

/// The answer for a point that is not in use.
pub const UNUSED: Point = Point {
    position: 0,
    value: 0,
};

/// An envelope. All fields are as stored, except the panning values in version 2 and the points that are not in use.
#[derive(Clone, Copy, Debug, PartialEq, Eq)]
pub struct Envelope {
    pub instrument: u16,
    pub flags: u8,
    pub sections: u8,
    pub first_sustain: u8,
    pub loop_first: u8,
    pub loop_last: u8,
    pub second_sustain: u8,
    pub points: [Point; POINTS as usize],
}

/// A sample: the bits of a frame (8, 16 or 32), and the number of frames.
#[derive(Clone, Copy, Debug, PartialEq, Eq)]
pub struct Sample {
    pub width: u8,
    pub frames: u32,
}

/// The item with this number, counted from 0. Refusal: 18.
fn from_0<Thing>(things: impl IntoIterator<Item = Thing>, number: u64) -> Result<Thing, Refusal> {
    let index = usize::try_from(number).map_err(|_| not_there())?;
    things.into_iter().nth(index).ok_or(not_there())
}

/// The item with this number, counted from 1. Refusal: 18.
fn from_1<Thing>(things: impl IntoIterator<Item = Thing>, number: u64) -> Result<Thing, Refusal> {
    from_0(things, number.checked_sub(1).ok_or(not_there())?)
}

/// A name, whose length is fixed.
fn array<const LENGTH: usize>(bytes: &[u8]) -> [u8; LENGTH] {
    bytes.try_into().expect("so many bytes were taken")
}

/// The version byte and the revision byte. Refusals: the module's own.
pub fn version(module: &[u8]) -> Result<(u8, u8), Refusal> {
    let header = read(module)?.header;
    Ok((header.version, header.revision))
}

/// The name, or zeros if the module has none. Refusals: the module's own.
pub fn name(module: &[u8]) -> Result<[u8; 44], Refusal> {
    Ok(shown_name(&read(module)?))
}

pub(crate) fn shown_name(module: &Module) -> [u8; 44] {
    module.name.map_or([0; 44], array)
}

/// The numbers of instruments, samples, songs, patterns and tracks. Refusals: the module's own.
pub fn info(module: &[u8]) -> Result<Info, Refusal> {
    Ok(read(module)?.info)
}

/// Refusals: the module's own, 18.
pub fn song(module: &[u8], song: u64) -> Result<Song, Refusal> {
    let read = read(module)?;
    from_0(&read.songs, song).map(shown_song)
}

pub(crate) fn shown_song(song: &blocks::Song) -> Song {
    Song {
        name: array(song.name),
        length: song.playlist.numbers().count() as u16,
    }
}

/// The pattern number of an entry of a song's playlist. Refusals: the module's own, 18.
pub fn entry(module: &[u8], song: u64, entry: u64) -> Result<u16, Refusal> {
    let read = read(module)?;
    let song = from_0(&read.songs, song)?;
    Ok(from_0(song.playlist.numbers(), entry)?.value as u16)
}

/// Writes all entries of a song's playlist, two bytes each, and returns their length. Refusals: the module's own, 18, 17.
pub fn playlist(module: &[u8], song: u64, out: &mut [u8]) -> Result<u64, Refusal> {
    let read = read(module)?;
    let song = from_0(&read.songs, song)?;
    put(song.playlist.bytes, out)
}

/// Refusals: the module's own, 18.
pub fn instrument(module: &[u8], instrument: u64) -> Result<Instrument, Refusal> {
    let read = read(module)?;
    from_1(&read.instruments, instrument).map(shown_instrument)
}

pub(crate) fn shown_instrument(instrument: &blocks::Instrument) -> Instrument {
    Instrument {
        name: array(instrument.name),
        sample: instrument.sample.value as u16,
        volume: instrument.volume.value as u16,
        rate: instrument.rate.value as u32,
        loop_start: instrument.loop_start.value as u32,
        loop_length: instrument.loop_length.value as u32,
        panning: instrument.panning.signed() as i16,
        flags: instrument.flags.value as u16,
    }
}

/// The number of volume envelopes. Refusals: the module's own.
pub fn volume_envelopes(module: &[u8]) -> Result<u64, Refusal> {
    Ok(of_kind(&read(module)?, Kind::Volume).len() as u64)
}

/// The number of panning envelopes. Refusals: the module's own.
pub fn panning_envelopes(module: &[u8]) -> Result<u64, Refusal> {
    Ok(of_kind(&read(module)?, Kind::Panning).len() as u64)
}

/// Refusals: the module's own, 18.
pub fn envelope(module: &[u8], kind: Kind, envelope: u64) -> Result<Envelope, Refusal> {
    let read = read(module)?;
    from_0(of_kind(&read, kind), envelope)
        .map(|envelope| shown_envelope(envelope, kind, read.header.version))
}

pub(crate) fn shown_envelope(envelope: &blocks::Envelope, kind: Kind, version: u8) -> Envelope {
    let mut points = [UNUSED; POINTS as usize];
    for (point, (position, value)) in points.iter_mut().zip(envelope.points_in_use()) {
        *point = Point {
            position: position.value as u16,
            value: shown_value(kind, version, value),
        };
    }
    Envelope {
        instrument: envelope.instrument.value as u16,
        flags: envelope.flags.value as u8,
        sections: envelope.sections.value as u8,
        first_sustain: envelope.first_sustain.value as u8,
        loop_first: envelope.loop_first.value as u8,
        loop_last: envelope.loop_last.value as u8,
        second_sustain: envelope.second_sustain.value as u8,
        points,
    }
}

/// The envelopes of a kind. The list is empty if their chunk is missing.
pub(crate) fn of_kind<'m, 'a>(module: &'m Module<'a>, kind: Kind) -> &'m [blocks::Envelope<'a>] {
    match kind {
        Kind::Volume => &module.volume_envelopes,
        Kind::Panning => &module.panning_envelopes,
    }
}

/// The value of a point in use as it is answered. Panning 0 to 64 of version 2 is converted to -128 to 128.
fn shown_value(kind: Kind, version: u8, value: Field) -> i16 {
    let shown = match (kind, version) {
        (Kind::Volume, _) => value.value as i64,
        (Kind::Panning, 2) => 4 * value.value as i64 - 128,
        (Kind::Panning, _) => value.signed(),
    };
    shown as i16
}

/// The number of rows of a pattern. Refusals: the module's own, 18.
pub fn pattern(module: &[u8], pattern: u64) -> Result<u16, Refusal> {
    let read = read(module)?;
    Ok(from_0(&read.patterns, pattern)?.rows as u16)
}

/// One cell of a pattern. Refusals: the module's own, 18.
pub fn cell(module: &[u8], pattern: u64, row: u64, track: u64) -> Result<Cell, Refusal> {
    let read = read(module)?;
    let pattern = from_0(&read.patterns, pattern)?;
    pattern::cell(pattern.stream, pattern.rows, read.info.tracks, row, track)
}

/// Writes all cells of a pattern and returns their length in bytes. Refusals: the module's own, 18, 17.
pub fn unpack(module: &[u8], pattern: u64, out: &mut [u8]) -> Result<u64, Refusal> {
    let read = read(module)?;
    let pattern = from_0(&read.patterns, pattern)?;
    pattern::unpack(pattern.stream, pattern.rows, read.info.tracks, out)
}

/// Refusals: the module's own, 18.
pub fn sample(module: &[u8], sample: u64) -> Result<Sample, Refusal> {
    let read = read(module)?;
    from_1(&read.samples, sample).map(shown_sample)
}

pub(crate) fn shown_sample(sample: &blocks::Sample) -> Sample {
    Sample {
        width: 8 * sample.frame_bytes as u8,
        frames: sample.frames as u32,
    }
}

/// The part of the module that has the frames of a sample.
fn part(module: &[u8], sample: u64) -> Result<Part<'_>, Refusal> {
    let read = read(module)?;
    Ok(from_1(&read.samples, sample)?.data)
}

/// The place of a sample's frames in the module, and their length in bytes. Both are 0 if `frames_refusal` returns a refusal.
pub fn frames(module: &[u8], sample: u64) -> (u64, u64) {
    part(module, sample).map_or((0, 0), |part| (part.place, part.length()))
}

/// The refusal for `frames`, if any: the module's own, 18.
pub fn frames_refusal(module: &[u8], sample: u64) -> Option<Refusal> {
    part(module, sample).err()
}

/// One frame of a sample at 16 bits. Refusals: the module's own, 18.
pub fn frame(module: &[u8], sample: u64, frame: u64) -> Result<i16, Refusal> {
    let read = read(module)?;
    let sample = from_1(&read.samples, sample)?;
    from_0(stored_frames(sample), frame).map(at_16_bits)
}

/// Writes all frames of a sample at 16 bits, two bytes each, and returns their length in bytes. Refusals: the module's own, 18, 17.
pub fn all_frames(module: &[u8], sample: u64, out: &mut [u8]) -> Result<u64, Refusal> {
    let read = read(module)?;
    let sample = from_1(&read.samples, sample)?;
    let shown: Vec<u8> = stored_frames(sample)
        .flat_map(|frame| at_16_bits(frame).to_be_bytes())
        .collect();
    put(&shown, out)
}

/// The bytes of each frame of a sample.
fn stored_frames<'a>(sample: &blocks::Sample<'a>) -> impl Iterator<Item = &'a [u8]> {
    sample.data.bytes.chunks(sample.frame_bytes as usize)
}

/// A frame at 16 bits: 8 bits times 256, 32 bits divided by 65,536 and rounded down.
fn at_16_bits(frame: &[u8]) -> i16 {
    match *frame {
        [a] => i16::from(i8::from_be_bytes([a])) * 256,
        [a, b] => i16::from_be_bytes([a, b]),
        [a, b, c, d] => i32::from_be_bytes([a, b, c, d]).div_euclid(65_536) as i16,
        _ => unreachable!("a frame has 1, 2 or 4 bytes"),
    }
}
