//! Compares all queries about a module.

use std::fmt::Debug;

use crate::compare::{rooms, same_answer, same_output, with_module, GuardedOutput};
use crate::queries::{Queries, REFERENCE};
use interface::{Answer, Frames, Info, RecordAnswer, OUTPUT_TOO_SHORT};
use reference::generate::Random;

/// Runs all queries about a module on a library and on the reference. The error message has the difference, and the whole module if it is
/// short.
///
/// The queries cover every song, entry, instrument, envelope, pattern, row, track, sample and frame (some of them if the module is long),
/// the numbers just outside, and some that are far outside. Outputs are too short, exactly long enough, and longer.
pub fn all(library: &Queries, module: &[u8], random: &mut Random) -> Result<(), String> {
    let stored = module.to_vec();
    let is = Side { library, module };
    let expected = Side {
        library: &REFERENCE,
        module,
    };
    compare(is, expected, &Skipped::default(), random)?;
    if module != stored {
        return Err(with_module("the module is changed".to_string(), &stored));
    }
    Ok(())
}

/// Runs all queries about two modules, whose answers should be the same. Frames are compared by their bytes, not by their place.
pub fn show_the_same(
    library: &Queries,
    module: &[u8],
    expected: &[u8],
    random: &mut Random,
) -> Result<(), String> {
    show_the_same_except(library, module, expected, &Skipped::default(), random)
}

/// The sample and the instruments that are not compared.
#[derive(Default)]
pub struct Skipped {
    pub sample: Option<usize>,
    pub instruments: Vec<usize>,
}

/// The same without the queries about one sample and some instruments.
pub fn show_the_same_except(
    library: &Queries,
    module: &[u8],
    expected: &[u8],
    skipped: &Skipped,
    random: &mut Random,
) -> Result<(), String> {
    let of = |module| Side { library, module };
    compare(of(module), of(expected), skipped, random)
}

fn compare(is: Side, expected: Side, skipped: &Skipped, random: &mut Random) -> Result<(), String> {
    let module = expected.module;
    let mut comparison = QueryComparison {
        is,
        expected,
        skipped,
        info: (expected.library.info)(module).record,
        many: if module.len() <= 2_000 { 16 } else { 3 },
        random,
    };
    comparison.all().map_err(|what| with_module(what, module))
}

/// A library, and the module of the queries.
#[derive(Clone, Copy)]
struct Side<'a> {
    library: &'a Queries,
    module: &'a [u8],
}

struct QueryComparison<'a> {
    is: Side<'a>,
    expected: Side<'a>,
    skipped: &'a Skipped,
    /// All zeros if the module is refused.
    info: Info,
    /// If there are more items than this, only some are compared.
    many: usize,
    random: &'a mut Random,
}

impl QueryComparison<'_> {
    fn all(&mut self) -> Result<(), String> {
        self.same("version", &[], |of| (of.library.version)(of.module))?;
        self.same("name", &[], |of| (of.library.name)(of.module))?;
        self.same("info", &[], |of| (of.library.info)(of.module))?;
        self.songs()?;
        self.instruments()?;
        self.envelopes()?;
        self.patterns()?;
        self.samples()
    }

    fn songs(&mut self) -> Result<(), String> {
        let Side { library, module } = self.expected;
        for song in self.numbers(0, usize::from(self.info.songs)) {
            self.same("song", &[song], |of| (of.library.song)(of.module, song))?;
            self.same_output("playlist", song, |of, output| {
                (of.library.playlist)(of.module, song, output)
            })?;
            let entries = (library.song)(module, song).record.length;
            for entry in self.numbers(0, usize::from(entries)) {
                self.same("entry", &[song, entry], |of| {
                    (of.library.entry)(of.module, song, entry)
                })?;
            }
        }
        Ok(())
    }

    fn instruments(&mut self) -> Result<(), String> {
        for instrument in self.numbers(1, usize::from(self.info.instruments)) {
            if self.skipped.instruments.contains(&instrument) {
                continue;
            }
            self.same("instrument", &[instrument], |of| {
                (of.library.instrument)(of.module, instrument)
            })?;
        }
        Ok(())
    }

    fn envelopes(&mut self) -> Result<(), String> {
        let Side { library, module } = self.expected;
        self.same("volume_envelopes", &[], |of| {
            (of.library.volume_envelopes)(of.module)
        })?;
        self.same("panning_envelopes", &[], |of| {
            (of.library.panning_envelopes)(of.module)
        })?;
        let count = (library.volume_envelopes)(module).record;
        for envelope in self.numbers(0, usize::from(count)) {
            self.same("volume_envelope", &[envelope], |of| {
                (of.library.volume_envelope)(of.module, envelope)
            })?;
        }
        let count = (library.panning_envelopes)(module).record;
        for envelope in self.numbers(0, usize::from(count)) {
            self.same("panning_envelope", &[envelope], |of| {
                (of.library.panning_envelope)(of.module, envelope)
            })?;
        }
        Ok(())
    }

    fn patterns(&mut self) -> Result<(), String> {
        let Side { library, module } = self.expected;
        for pattern in self.numbers(0, usize::from(self.info.patterns)) {
            self.same("rows", &[pattern], |of| {
                (of.library.rows)(of.module, pattern)
            })?;
            self.same_output("cells", pattern, |of, output| {
                (of.library.cells)(of.module, pattern, output)
            })?;
            let rows = (library.rows)(module, pattern).record;
            for row in self.numbers(0, usize::from(rows)) {
                for track in self.numbers(1, usize::from(self.info.tracks)) {
                    self.same("cell", &[pattern, row, track], |of| {
                        (of.library.cell)(of.module, pattern, row, track)
                    })?;
                }
            }
        }
        Ok(())
    }

    fn samples(&mut self) -> Result<(), String> {
        let Side { library, module } = self.expected;
        for sample in self.numbers(1, usize::from(self.info.samples)) {
            if self.skipped.sample == Some(sample) {
                continue;
            }
            self.same("sample", &[sample], |of| {
                (of.library.sample)(of.module, sample)
            })?;
            self.frames(sample)?;
            self.same_output("all_frames", sample, |of, output| {
                (of.library.all_frames)(of.module, sample, output)
            })?;
            let frames = (library.sample)(module, sample).record.frames;
            for frame in self.numbers(0, frames as usize) {
                self.same("frame", &[sample, frame], |of| {
                    (of.library.frame)(of.module, sample, frame)
                })?;
            }
        }
        Ok(())
    }

    /// If both sides have the same module, the frames are at the same place. Otherwise they have the same bytes.
    fn frames(&mut self, sample: usize) -> Result<(), String> {
        for Side { library, module } in [self.is, self.expected] {
            within(module, (library.frames)(module, sample))
                .map_err(|what| format!("frames of {sample} {what}"))?;
        }
        let frames_of = |of: Side| (of.library.frames)(of.module, sample);
        if std::ptr::eq(self.is.module, self.expected.module) {
            return self.same("frames", &[sample], |of| part(frames_of(of)));
        }
        self.same("frames", &[sample], |of| {
            let RecordAnswer { number, place, .. } = frames_of(of);
            (number, place)
        })?;
        let [is, expected] = [self.is, self.expected].map(|of| bytes(of.module, frames_of(of)));
        if is != expected {
            return Err(format!("the frames of {sample} are other bytes"));
        }
        Ok(())
    }

    /// Both sides return the same answer.
    fn same<A: PartialEq + Debug>(
        &self,
        call: &str,
        items: &[usize],
        query: impl Fn(Side) -> A,
    ) -> Result<(), String> {
        same_answer(call, query(self.is), query(self.expected))
            .map_err(|what| format!("{what} (items {items:?})"))
    }

    /// The same with outputs of several lengths around the needed length. The expected bytes are those of the other side.
    fn same_output(
        &mut self,
        call: &str,
        item: usize,
        query: impl Fn(Side, &mut GuardedOutput) -> Answer,
    ) -> Result<(), String> {
        let needed = match query(self.expected, &mut GuardedOutput::new(0)) {
            answer if answer.number == OUTPUT_TOO_SHORT => answer.place as usize,
            _ => 0,
        };
        for room in rooms(needed, needed, self.random) {
            let is = |output: &mut GuardedOutput| query(self.is, output);
            let expected = |output: &mut GuardedOutput| query(self.expected, output);
            same_output(call, room, is, expected)
                .map_err(|what| format!("{what} (item {item}, room {room})"))?;
        }
        Ok(())
    }

    /// Numbers to test if there are `count` items, counted from `first`.
    fn numbers(&mut self, first: usize, count: usize) -> Vec<usize> {
        let end = first + count;
        let mut numbers = vec![0, end, usize::MAX];
        let any = first + self.random.below(count.max(1) as u64) as usize;
        if count <= self.many {
            numbers.extend(first..end);
        } else {
            numbers.extend([first, any, end - 1]);
        }
        // A number that is valid again if it is truncated to fewer bits, and a random number.
        numbers.push(any + (1 << self.random.pick(&[8, 16, 31, 32, 63])));
        numbers.push(self.random.number() as usize >> self.random.below(64));
        numbers.sort_unstable();
        numbers.dedup();
        numbers
    }
}

/// The frames are inside the module.
fn within(module: &[u8], frames: RecordAnswer<Frames>) -> Result<(), String> {
    let Frames { offset, length } = frames.record;
    match offset.checked_add(length) {
        Some(end) if end <= module.len() as u64 => Ok(()),
        _ => Err(format!("are {frames:?}, outside the module")),
    }
}

/// The bytes of the frames, which are inside the module.
fn bytes(module: &[u8], frames: RecordAnswer<Frames>) -> &[u8] {
    let Frames { offset, length } = frames.record;
    &module[offset as usize..(offset + length) as usize]
}

/// The frames in the form that is compared. If there are none, the place is ignored.
fn part(frames: RecordAnswer<Frames>) -> RecordAnswer<Frames> {
    match frames {
        RecordAnswer {
            number: 0,
            place,
            record: Frames { length: 0, .. },
        } => RecordAnswer {
            number: 0,
            place,
            record: Frames::default(),
        },
        _ => frames,
    }
}
