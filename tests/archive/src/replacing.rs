//! Replacing a sample of a module, tested by writing.rs. The call has further arguments, so each test chooses a sample and new frames.

use std::ops::Range;

use crate::compare::{same_answer, GuardedOutput};
use crate::large::{with_last, MOST};
use crate::queries::{self, Queries};
use crate::records::{show_the_same_except, Skipped};
use crate::writing::{Call, WritingAnswer};
use interface::{Answer, Instrument, ModuleAnswer, RecordAnswer, Replaced, Sample};
use reference::chunks::Name;
use reference::draft;
use reference::generate::{bytes, Random};
use reference::replace::replace_sample;

pub type ReplaceAnswer = RecordAnswer<Replaced>;

impl WritingAnswer for ReplaceAnswer {
    fn answer(self) -> Answer {
        Answer {
            number: self.number,
            place: self.place,
            length: self.record.length,
        }
    }

    fn with_length(mut self, length: u64) -> ReplaceAnswer {
        self.record.length = length;
        self
    }

    fn refused(number: u64, place: usize) -> ReplaceAnswer {
        queries::refused(number, place as u64)
    }
}

/// The answer of a call that writes `length` bytes and clears this many loops.
pub fn replaced(length: usize, cleared: u64) -> ReplaceAnswer {
    queries::success(Replaced {
        length: length as u64,
        cleared,
    })
}

/// The call with this sample and these frames: libdbm0.a against the reference.
#[macro_export]
macro_rules! replacing {
    ($sample:expr, $frames:expr) => {
        $crate::writing::Call {
            name: "replace_sample",
            library: &|module, output| $crate::replacing::library(module, $sample, $frames, output),
            queries: &$crate::queries::ARCHIVE,
            reference: &|module, output| {
                $crate::replacing::reference(module, $sample, $frames, output)
            },
            enough: &|length| length + $frames.len(),
            refusal: &|queries, module| {
                $crate::replacing::refusal(queries, module, $sample, $frames)
            },
            properties: &|call, module, answer, written, random| {
                $crate::replacing::Replacement::new($sample, $frames)
                    .changes_nothing_else(call, module, answer, written, random)
            },
        }
    };
}

pub fn library(
    module: &[u8],
    sample: usize,
    frames: &[u8],
    output: &mut GuardedOutput,
) -> ReplaceAnswer {
    interface::replace_sample(module, sample, frames, output.slice())
}

pub fn reference(
    module: &[u8],
    sample: usize,
    frames: &[u8],
    output: &mut GuardedOutput,
) -> ReplaceAnswer {
    match replace_sample(module, sample as u64, frames, output.slice()) {
        Ok(written) => replaced(written.length as usize, written.cleared),
        Err(refusal) => queries::refused(refusal.number, refusal.place),
    }
}

/// The refusal for an output that is long enough: that of the query about the sample, 19 and 1.
pub fn refusal(queries: &Queries, module: &[u8], sample: usize, frames: &[u8]) -> ModuleAnswer {
    let found = (queries.sample)(module, sample);
    let (number, place) = if found.number != 0 {
        (found.number, found.place)
    } else if frames.len() % 2 == 1 {
        (19, 0)
    } else if module.len() - frame_bytes(found.record) + frames.len() > MOST {
        (1, 0)
    } else {
        (0, 0)
    };
    ModuleAnswer { number, place }
}

fn frame_bytes(sample: Sample) -> usize {
    sample.frames as usize * usize::from(sample.width / 8)
}

/// Chooses a sample and frames, and runs all checks of the call on the module.
pub fn agrees(module: &[u8], random: &mut Random) -> Result<(), String> {
    let (sample, frames) = drawn(module, random);
    replacing!(sample, &frames)
        .agrees(module, random)
        .map_err(|what| format!("sample {sample}, frames {frames:02x?}: {what}"))
}

/// A sample and new frames. In most cases there is such a sample, and the number of frames is near the end of one of its loops.
fn drawn(module: &[u8], random: &mut Random) -> (usize, Vec<u8>) {
    let library = &queries::REFERENCE;
    // All zeros if the module is refused.
    let info = (library.info)(module).record;
    let samples = usize::from(info.samples);
    let sample = match random.below(12) {
        0 => random.pick(&[0, samples + 1, samples + 257, samples + 65_537, usize::MAX]),
        _ => 1 + random.below(samples.max(1) as u64) as usize,
    };
    let mut counts = vec![0, 1, random.below(40)];
    counts.push((library.sample)(module, sample).record.frames.into());
    for number in 1..=usize::from(info.instruments) {
        let instrument = (library.instrument)(module, number).record;
        if usize::from(instrument.sample) == sample {
            counts.extend([end(&instrument); 3]);
        }
    }
    let count = (random.pick(&counts) + random.below(3)).saturating_sub(1);
    let length = 2 * count.min(1_000) + u64::from(random.chance(10));
    (sample, bytes(random, length))
}

/// A module with three samples and many instruments on them, most of them looped.
pub fn module_with_many_loops(random: &mut Random) -> Vec<u8> {
    let samples: Vec<draft::Sample> = (0..3)
        .map(|_| draft::Sample::new(1, &vec![0; 20 + random.below(20) as usize]))
        .collect();
    let instruments = (0..random.below(256))
        .map(|number| {
            let sample = random.below(3);
            let frames = u64::from(samples[sample as usize].frames);
            let loop_start = random.below(frames);
            draft::Instrument {
                name: number.to_string().into_bytes(),
                sample: sample as u16 + 1,
                loop_start: loop_start as u32,
                loop_length: random.below(frames - loop_start + 1) as u32,
                flags: random.below(4) as u16,
                panning: random.below(257) as i16 - 128,
                ..draft::Instrument::default()
            }
        })
        .collect();
    let tune = draft::Tune {
        instruments,
        samples,
        ..draft::Tune::default()
    };
    match random.chance(50) {
        true => tune.bytes(),
        false => with_last(&tune, b"INST").bytes(),
    }
}

/// The first frame after the loop.
fn end(instrument: &Instrument) -> u64 {
    u64::from(instrument.loop_start) + u64::from(instrument.loop_length)
}

fn is_looped(instrument: &Instrument) -> bool {
    instrument.loop_length != 0 && instrument.flags & 3 != 0
}

/// The number of a sample, and its new frames.
pub struct Replacement<'a> {
    sample: usize,
    frames: &'a [u8],
}

impl<'a> Replacement<'a> {
    pub fn new(sample: usize, frames: &'a [u8]) -> Replacement<'a> {
        Replacement { sample, frames }
    }

    /// The result is accepted and has the new sample. The loops that end after it are cleared and counted, and nothing else is changed.
    /// Replacing the sample by the same frames again changes nothing.
    pub fn changes_nothing_else(
        &self,
        call: &Call<ReplaceAnswer>,
        module: &[u8],
        answer: ReplaceAnswer,
        written: &[u8],
        random: &mut Random,
    ) -> Result<(), String> {
        let refusal = queries::refusal(call.queries, written);
        let accepted = ModuleAnswer {
            number: 0,
            place: 0,
        };
        same_answer("the query about the result", refusal, accepted)?;
        self.is_there(call.queries, written)?;
        let cleared = self.cleared(call.queries, module, written)?;
        let counted = answer.record.cleared;
        same_answer("replace_sample (cleared)", counted, cleared.len() as u64)?;
        loops_fit(call.queries, written)?;
        if written != self.result(module, &cleared) {
            return Err("the result has other bytes".to_string());
        }
        let skipped = Skipped {
            sample: Some(self.sample),
            instruments: cleared,
        };
        show_the_same_except(call.queries, written, module, &skipped, random)?;
        let mut again = GuardedOutput::new((call.enough)(written.len()));
        let is = (call.library)(written, &mut again);
        same_answer("replace_sample", is, replaced(written.len(), 0))?;
        match again.slice().starts_with(written) {
            true => Ok(()),
            false => Err("the same frames again change it".to_string()),
        }
    }

    /// The queries return the new sample.
    fn is_there(&self, queries: &Queries, written: &[u8]) -> Result<(), String> {
        let expected = Sample {
            width: 16,
            frames: self.frames.len() as u32 / 2,
        };
        let sample = (queries.sample)(written, self.sample).record;
        same_answer("sample", sample, expected)?;
        let place = (queries.frames)(written, self.sample).record;
        let part = place.offset as usize..(place.offset + place.length) as usize;
        match written.get(part) == Some(self.frames) {
            true => Ok(()),
            false => Err("the sample has other frames".to_string()),
        }
    }

    /// The instruments whose answers differ. Each of them had a loop of this sample that ends after the new frames, and only the loop and
    /// the flags are 0 now.
    fn cleared(
        &self,
        queries: &Queries,
        module: &[u8],
        written: &[u8],
    ) -> Result<Vec<usize>, String> {
        let mut cleared = Vec::new();
        for number in 1..=usize::from((queries.info)(module).record.instruments) {
            let old = (queries.instrument)(module, number).record;
            let outside = end(&old) > self.frames.len() as u64 / 2;
            let mut expected = old;
            if is_looped(&old) && usize::from(old.sample) == self.sample && outside {
                (expected.loop_start, expected.loop_length, expected.flags) = (0, 0, 0);
            }
            let new = (queries.instrument)(written, number).record;
            same_answer("instrument", new, expected)
                .map_err(|what| format!("{what} (instrument {number})"))?;
            if new != old {
                cleared.push(number);
            }
        }
        Ok(cleared)
    }

    /// The module with the block of the sample, the length of SMPL and the cleared instruments changed.
    fn result(&self, module: &[u8], cleared: &[usize]) -> Vec<u8> {
        let block = sample_block(module, self.sample);
        let mut result = [
            &module[..block.start],
            &2u32.to_be_bytes(),
            &(self.frames.len() as u32 / 2).to_be_bytes(),
            self.frames,
            &module[block.end..],
        ]
        .concat();
        let place = chunk(module, b"SMPL") + 4;
        let length = number(module, place) - block.len() + 8 + self.frames.len();
        result[place..place + 4].copy_from_slice(&(length as u32).to_be_bytes());
        for &instrument in cleared {
            clear(&mut result, instrument);
        }
        result
    }
}

/// No looped instrument reaches past its sample.
fn loops_fit(queries: &Queries, module: &[u8]) -> Result<(), String> {
    for number in 1..=usize::from((queries.info)(module).record.instruments) {
        let instrument = (queries.instrument)(module, number).record;
        let sample = (queries.sample)(module, instrument.sample.into()).record;
        if is_looped(&instrument) && end(&instrument) > sample.frames.into() {
            return Err(format!("the loop of instrument {number} is too long"));
        }
    }
    Ok(())
}

/// The place of the header of a chunk in an accepted module.
pub fn chunk(module: &[u8], name: &Name) -> usize {
    let mut place = 8;
    while module[place..place + 4] != *name {
        place += 8 + number(module, place + 4);
    }
    place
}

/// The four-byte number at a place.
pub fn number(module: &[u8], place: usize) -> usize {
    let bytes = module[place..place + 4].try_into();
    u32::from_be_bytes(bytes.expect("four bytes were taken")) as usize
}

/// The block of a sample in an accepted module.
pub fn sample_block(module: &[u8], sample: usize) -> Range<usize> {
    let mut start = chunk(module, b"SMPL") + 8;
    let block = |start: usize| start..start + 8 + number(module, start) * number(module, start + 4);
    for _ in 1..sample {
        start = block(start).end;
    }
    block(start)
}

/// The place of the block of an instrument in an accepted module.
pub fn instrument_block(module: &[u8], instrument: usize) -> usize {
    chunk(module, b"INST") + 8 + 50 * (instrument - 1)
}

/// Clears the loop of an instrument.
pub fn clear(module: &mut [u8], instrument: usize) {
    let place = instrument_block(module, instrument);
    module[place + 38..place + 46].fill(0);
    module[place + 48..place + 50].fill(0);
}
