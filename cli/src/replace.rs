//! `dbm0 replace`: writes the module with a sample replaced, and prints which loops were cleared.

use std::ffi::{OsStr, OsString};

use crate::fault::{Fault, EXIT_OK};
use crate::input;
use crate::library::{self, Refusal, MOST_BYTES, NOT_THERE, ODD_FRAMES, TOO_LONG};
use crate::names::Quoted;
use crate::output::Output;
use crate::output_file;
use crate::records::{Instrument, Report, Sample};
use crate::text::{put, Many};
use crate::words::{FrameWords, LoopWords};

/// The file of the module, the number of the sample in decimal digits, and the file of the new frames.
pub struct Replacement {
    pub from: OsString,
    pub sample: String,
    pub frames: OsString,
}

pub fn run(replacement: &Replacement, to: &OsStr, out: &mut Output) -> Result<u8, Fault> {
    let module = input::read(&replacement.from)?;
    let frames = input::read_frames(&replacement.frames)?;
    // A number that is too large for `usize` is not the number of a sample either.
    let sample = replacement.sample.parse().unwrap_or(usize::MAX);
    let (replaced, cleared) = library::replace(&module, sample, &frames)
        .map_err(|refusal| refused(replacement, &module, refusal))?;
    let summary = summary(&module, sample, &replaced, cleared)
        .ok_or_else(|| Fault::not_understood(&replacement.from))?;
    output_file::write(to, &replaced, &summary, out)?;
    Ok(EXIT_OK)
}

/// The refusal of an accepted module is an error in the arguments.
fn refused(replacement: &Replacement, module: &[u8], refusal: Refusal) -> Fault {
    let Replacement {
        from,
        sample,
        frames,
    } = replacement;
    match refusal.number {
        NOT_THERE => Fault::argument(from, refusal, &no_sample(sample, module)),
        ODD_FRAMES => Fault::argument(
            frames,
            refusal,
            "it has an odd number of bytes: give frames of 16 bits, 2 bytes each",
        ),
        TOO_LONG if module.len() <= MOST_BYTES => Fault::argument(
            frames,
            refusal,
            &format!("the module would have more than {MOST_BYTES} bytes: give fewer frames"),
        ),
        _ => Fault::refused(from, module, refusal),
    }
}

fn no_sample(sample: &str, module: &[u8]) -> String {
    let there = match library::info(module).map_or(0, |info| info.samples) {
        0 => "the module has none".to_string(),
        1 => "the module has 1 sample: choose 1".to_string(),
        count => format!("the module has {count} samples: choose one from 1 to {count}"),
    };
    format!("there is no sample {sample}: {there}")
}

/// What is shown of a module: the sample, and all instruments.
struct Shown {
    sample: Sample,
    instruments: Vec<Instrument>,
}

impl Shown {
    fn of(records: &[u8], sample: usize) -> Option<Shown> {
        let report = Report::without_envelopes(records)?;
        let mut samples = report.samples.into_iter();
        Some(Shown {
            sample: samples.nth(sample.checked_sub(1)?)?,
            instruments: report.instruments,
        })
    }
}

/// A line for the sample and one for each loop that was cleared. None if the records of the library are not as expected.
fn summary(module: &[u8], sample: usize, replaced: &[u8], cleared: u64) -> Option<Vec<String>> {
    // The records of both modules use the same memory, one after the other.
    let mut memory = Vec::new();
    let before = Shown::of(library::records_in(&mut memory, module).ok()?, sample)?;
    let after = Shown::of(library::records_in(&mut memory, replaced).ok()?, sample)?;
    let (old, new) = (before.sample, after.sample);
    let mut line = String::new();
    put!(&mut line; "sample ", sample, ": ", FrameWords(&old), " became ");
    put!(&mut line; new.frames, " of ", new.width, " bits; ", Many(cleared, "loop"), " cleared");
    let mut lines = vec![line];
    let pairs = before.instruments.iter().zip(&after.instruments);
    for (number, (old, new)) in (1..).zip(pairs) {
        if old != new {
            lines.push(cleared_line(number, old));
        }
    }
    (lines.len() as u64 == 1 + cleared).then_some(lines)
}

fn cleared_line(number: usize, instrument: &Instrument) -> String {
    let mut line = String::new();
    put!(&mut line; "instrument ", number, " ", Quoted(&instrument.name), ": ", LoopWords::of(instrument), " cleared");
    line
}
