//! Writes all records of a module, one after the other (Q16).
//!
//! The module is parsed once. Each record equals the answer of its own query, written as bytes. All numbers are big-endian.

use crate::module::{read, Module};
use crate::pattern::put;
use crate::records::{
    of_kind, shown_envelope, shown_instrument, shown_name, shown_sample, shown_song, Envelope,
    Instrument, Kind, Sample, Song,
};
use crate::refusal::Refusal;

/// The bytes before the first song: version and revision, the name, the five numbers of INFO, and the two counts of envelopes.
pub const SUMMARY: u32 = 2 + 44 + 5 * 2 + 2 * 2;

/// Writes all records and returns their length. Refusals: the module's own, 17.
pub fn write(module: &[u8], out: &mut [u8]) -> Result<u64, Refusal> {
    put(&all(&read(module)?), out)
}

fn all(module: &Module) -> Vec<u8> {
    let mut bytes = summary(module);
    for song in &module.songs {
        bytes.extend(of_song(&shown_song(song)));
        bytes.extend(song.playlist.bytes);
    }
    for instrument in &module.instruments {
        bytes.extend(of_instrument(&shown_instrument(instrument)));
    }
    for pattern in &module.patterns {
        bytes.extend((pattern.rows as u16).to_be_bytes());
    }
    for sample in &module.samples {
        bytes.extend(of_sample(&shown_sample(sample)));
    }
    for kind in [Kind::Volume, Kind::Panning] {
        for envelope in of_kind(module, kind) {
            let shown = shown_envelope(envelope, kind, module.header.version);
            bytes.extend(of_envelope(&shown));
        }
    }
    bytes
}

/// 60 bytes.
fn summary(module: &Module) -> Vec<u8> {
    let info = module.info;
    let numbers = [
        info.instruments,
        info.samples,
        info.songs,
        info.patterns,
        info.tracks,
        module.volume_envelopes.len() as u64,
        module.panning_envelopes.len() as u64,
    ];
    let mut bytes = vec![module.header.version, module.header.revision];
    bytes.extend(shown_name(module));
    for number in numbers {
        bytes.extend((number as u16).to_be_bytes());
    }
    bytes
}

/// 46 bytes. The entries of the playlist follow.
fn of_song(song: &Song) -> Vec<u8> {
    let mut bytes = song.name.to_vec();
    bytes.extend(song.length.to_be_bytes());
    bytes
}

/// 50 bytes.
fn of_instrument(instrument: &Instrument) -> Vec<u8> {
    let mut bytes = instrument.name.to_vec();
    bytes.extend(instrument.sample.to_be_bytes());
    bytes.extend(instrument.volume.to_be_bytes());
    bytes.extend(instrument.rate.to_be_bytes());
    bytes.extend(instrument.loop_start.to_be_bytes());
    bytes.extend(instrument.loop_length.to_be_bytes());
    bytes.extend(instrument.panning.to_be_bytes());
    bytes.extend(instrument.flags.to_be_bytes());
    bytes
}

/// 6 bytes.
fn of_sample(sample: &Sample) -> Vec<u8> {
    let mut bytes = u16::from(sample.width).to_be_bytes().to_vec();
    bytes.extend(sample.frames.to_be_bytes());
    bytes
}

/// 136 bytes.
fn of_envelope(envelope: &Envelope) -> Vec<u8> {
    let mut bytes = envelope.instrument.to_be_bytes().to_vec();
    bytes.extend([
        envelope.flags,
        envelope.sections,
        envelope.first_sustain,
        envelope.loop_first,
        envelope.loop_last,
        envelope.second_sustain,
    ]);
    for point in envelope.points {
        bytes.extend(point.position.to_be_bytes());
        bytes.extend(point.value.to_be_bytes());
    }
    bytes
}
