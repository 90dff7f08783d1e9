//! Replaces a sample of a module.
//!
//! The module is parsed and rewritten, chunk by chunk in the same order. The data of INST and SMPL is made from the parsed blocks, with the
//! new frames instead of the old sample, and without the loops that end after the new frames. All other chunks keep their bytes.

use crate::blocks::{Instrument, Sample};
use crate::chunks::MOST_BYTES;
use crate::module::{read, Module};
use crate::pattern::put;
use crate::refusal::{not_there, odd_frames, too_long, Refusal};

/// The length of the written module, and the number of instruments whose loop was cleared.
#[derive(Clone, Copy, Debug, Default, PartialEq, Eq)]
pub struct Replaced {
    pub length: u64,
    pub cleared: u64,
}

/// Writes the module with a sample replaced. Samples are counted from 1. The new frames have 16 bits, big-endian. Refusals: the module's
/// own, 18, 19, 1, 17.
pub fn replace_sample(
    module: &[u8],
    sample: u64,
    frames: &[u8],
    out: &mut [u8],
) -> Result<Replaced, Refusal> {
    let read = read(module)?;
    read.sample(sample).ok_or(not_there())?;
    if frames.len() % 2 == 1 {
        return Err(odd_frames());
    }
    let change = Change { sample, frames };
    let bytes = change.module(&module[..8], &read);
    if bytes.len() as u64 > MOST_BYTES {
        return Err(too_long());
    }
    Ok(Replaced {
        length: put(&bytes, out)?,
        cleared: change.cleared(&read.instruments),
    })
}

/// The number of the sample, and the bytes of its new frames.
struct Change<'a> {
    sample: u64,
    frames: &'a [u8],
}

impl Change<'_> {
    fn module(&self, header: &[u8], read: &Module) -> Vec<u8> {
        let mut bytes = header.to_vec();
        for chunk in &read.chunks {
            let data = match &chunk.name {
                b"INST" => self.instruments(&read.instruments),
                b"SMPL" => self.samples(&read.samples),
                _ => chunk.data.bytes.to_vec(),
            };
            bytes.extend(chunk.name);
            bytes.extend(number(data.len() as u64, 4));
            bytes.extend(data);
        }
        bytes
    }

    /// Whether the instrument's loop is cleared: there is one, it is a loop of this sample, and it ends after the last new frame.
    fn clears(&self, instrument: &Instrument) -> bool {
        let frames = self.frames.len() as u64 / 2;
        let end = instrument.loop_start.value + instrument.loop_length.value;
        instrument.is_looped() && instrument.sample.value == self.sample && end > frames
    }

    fn cleared(&self, instruments: &[Instrument]) -> u64 {
        let cleared = instruments
            .iter()
            .filter(|instrument| self.clears(instrument));
        cleared.count() as u64
    }

    /// The data of INST.
    fn instruments(&self, instruments: &[Instrument]) -> Vec<u8> {
        instruments
            .iter()
            .flat_map(|instrument| self.instrument(instrument))
            .collect()
    }

    /// The block of an instrument. If the loop is cleared, its start, its length and the flags are 0.
    fn instrument(&self, instrument: &Instrument) -> Vec<u8> {
        let [start, length, flags] = if self.clears(instrument) {
            [0; 3]
        } else {
            [
                instrument.loop_start.value,
                instrument.loop_length.value,
                instrument.flags.value,
            ]
        };
        let mut bytes = instrument.name.to_vec();
        bytes.extend(number(instrument.sample.value, 2));
        bytes.extend(number(instrument.volume.value, 2));
        bytes.extend(number(instrument.rate.value, 4));
        bytes.extend(number(start, 4));
        bytes.extend(number(length, 4));
        bytes.extend(number(instrument.panning.value, 2));
        bytes.extend(number(flags, 2));
        bytes
    }

    /// The data of SMPL.
    fn samples(&self, samples: &[Sample]) -> Vec<u8> {
        let mut data = Vec::new();
        for (sample, at) in samples.iter().zip(1..) {
            if at == self.sample {
                data.extend(block(2, self.frames));
            } else {
                data.extend(block(sample.frame_bytes, sample.data.bytes));
            }
        }
        data
    }
}

/// The block of a sample: the bytes of a frame, which are also the flags, then the number of frames, and the frames.
fn block(frame_bytes: u64, frames: &[u8]) -> Vec<u8> {
    let mut bytes = number(frame_bytes, 4);
    bytes.extend(number(frames.len() as u64 / frame_bytes, 4));
    bytes.extend(frames);
    bytes
}

/// A big-endian number of this many bytes.
fn number(value: u64, bytes: usize) -> Vec<u8> {
    value.to_be_bytes()[8 - bytes..].to_vec()
}
