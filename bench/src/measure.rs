//! Interleaved timing in CPU time of the process.

use std::hint::black_box;

use interface::DIFFERENCE_BYTES;

use crate::corpus::{Corpus, Pattern, Random};
use crate::implementations::{Answer, Implementation, COUNT, IMPLEMENTATIONS, OURS};
use crate::modules::{Module, Replacement};
use crate::pairs::Pair;

#[derive(Clone, Copy)]
pub enum Function {
    Check,
    Unpack,
    Pack,
}

pub const FUNCTIONS: [Function; 3] = [Function::Check, Function::Unpack, Function::Pack];

impl Function {
    pub fn name(self) -> &'static str {
        match self {
            Function::Check => "check",
            Function::Unpack => "unpack",
            Function::Pack => "pack",
        }
    }
}

/// The times of one implementation, one value for each round.
pub struct Times(Vec<f64>);

impl Times {
    pub fn median(&self) -> f64 {
        let middle = self.0.len() / 2;
        if self.0.len() % 2 == 1 {
            self.0[middle]
        } else {
            (self.0[middle - 1] + self.0[middle]) / 2.0
        }
    }

    pub fn minimum(&self) -> f64 {
        self.0[0]
    }
}

/// The times of one function on one corpus, module or pair of modules, for each implementation.
pub struct Line {
    pub corpus: &'static str,
    pub function: &'static str,
    pub times: [Times; COUNT],
}

impl Line {
    fn new(corpus: &'static str, function: &'static str, rounds: usize) -> Line {
        Line {
            corpus,
            function,
            times: std::array::from_fn(|_| Times(Vec::with_capacity(rounds))),
        }
    }
}

/// Nanoseconds per cell for the patterns, microseconds per module for the check and the repacking of modules and the replacing of a sample,
/// microseconds per pair for the comparing of modules.
pub struct Measured {
    pub patterns: Vec<Line>,
    pub modules: Vec<Line>,
    pub repacked: Vec<Line>,
    pub replaced: Vec<Line>,
    pub compared: Vec<Line>,
}

/// The outputs of a corpus: one buffer of exactly the needed length for each pattern, used by every implementation.
struct Outputs {
    cells: Vec<Vec<u8>>,
    streams: Vec<Vec<u8>>,
}

pub fn measure(corpora: &[Corpus], modules: &[Module], pairs: &[Pair], rounds: usize) -> Measured {
    let mut outputs: Vec<Outputs> = corpora
        .iter()
        .map(|corpus| Outputs {
            cells: buffers(corpus, |pattern| pattern.cells.len()),
            streams: buffers(corpus, |pattern| pattern.stream.len()),
        })
        .collect();
    let mut lines: Vec<Line> = corpora
        .iter()
        .flat_map(|corpus| {
            FUNCTIONS.map(|function| Line::new(corpus.name, function.name(), rounds))
        })
        .collect();
    let mut module_lines: Vec<Line> = modules
        .iter()
        .map(|module| Line::new(module.name, "check", rounds))
        .collect();
    let repacked: Vec<&Module> = modules.iter().filter(|module| module.of_corpus).collect();
    let mut repacked_outputs: Vec<Vec<u8>> = repacked.iter().map(|module| room(module)).collect();
    let mut repacked_lines: Vec<Line> = repacked
        .iter()
        .map(|module| Line::new(module.name, "repack", rounds))
        .collect();
    let replaced: Vec<(&Module, &Replacement)> = modules
        .iter()
        .filter_map(|module| Some((module, module.replacement.as_ref()?)))
        .collect();
    let mut replaced_outputs: Vec<Vec<u8>> = replaced
        .iter()
        .map(|(module, replacement)| replaced_room(module, replacement))
        .collect();
    let mut replaced_lines: Vec<Line> = replaced
        .iter()
        .map(|(module, _)| Line::new(module.name, "replace", rounds))
        .collect();
    let mut compared_outputs: Vec<Vec<u8>> = pairs.iter().map(compared_room).collect();
    let mut compared_lines: Vec<Line> = pairs
        .iter()
        .map(|pair| Line::new(pair.name, pair.differs, rounds))
        .collect();

    let mut random = Random(6);
    for round in 0..=rounds {
        let mut line = lines.iter_mut();
        for (corpus, outputs) in corpora.iter().zip(&mut outputs) {
            for (function, line) in FUNCTIONS.into_iter().zip(&mut line) {
                for which in shuffled(&mut random) {
                    let time = pass(corpus, outputs, function, &IMPLEMENTATIONS[which]);
                    // The first round only warms the caches.
                    if round > 0 {
                        line.times[which].0.push(time / corpus.cells() as f64);
                    }
                }
            }
        }
        for (module, line) in modules.iter().zip(&mut module_lines) {
            for which in shuffled(&mut random) {
                let time = module_pass(module, &IMPLEMENTATIONS[which]);
                if round > 0 {
                    line.times[which].0.push(time / 1e3 / module.repeats as f64);
                }
            }
        }
        let outputs = repacked.iter().zip(&mut repacked_outputs);
        for ((module, out), line) in outputs.zip(&mut repacked_lines) {
            for which in shuffled(&mut random) {
                let time = repack_pass(module, out, &IMPLEMENTATIONS[which]);
                if round > 0 {
                    line.times[which].0.push(time / 1e3);
                }
            }
        }
        let outputs = replaced.iter().zip(&mut replaced_outputs);
        for (((module, replacement), out), line) in outputs.zip(&mut replaced_lines) {
            for which in shuffled(&mut random) {
                let time = replace_pass(module, replacement, out, &IMPLEMENTATIONS[which]);
                if round > 0 {
                    line.times[which].0.push(time / 1e3);
                }
            }
        }
        let outputs = pairs.iter().zip(&mut compared_outputs);
        for ((pair, out), line) in outputs.zip(&mut compared_lines) {
            if !pair.is_measured_in(round) {
                continue;
            }
            for which in shuffled(&mut random) {
                let time = compare_pass(pair, out, &IMPLEMENTATIONS[which]);
                line.times[which].0.push(time / 1e3);
            }
        }
    }
    let all = lines
        .iter_mut()
        .chain(&mut module_lines)
        .chain(&mut repacked_lines)
        .chain(&mut replaced_lines)
        .chain(&mut compared_lines);
    for line in all {
        for times in &mut line.times {
            times.0.sort_by(f64::total_cmp);
        }
    }
    Measured {
        patterns: lines,
        modules: module_lines,
        repacked: repacked_lines,
        replaced: replaced_lines,
        compared: compared_lines,
    }
}

/// The implementations in random order, so that none always follows the same one.
fn shuffled(random: &mut Random) -> [usize; COUNT] {
    let mut order = std::array::from_fn(|which| which);
    for last in (1..COUNT).rev() {
        order.swap(last, random.below(last as u64 + 1) as usize);
    }
    order
}

fn buffers(corpus: &Corpus, length: impl Fn(&Pattern) -> usize) -> Vec<Vec<u8>> {
    corpus
        .patterns
        .iter()
        .map(|pattern| vec![0; length(pattern)])
        .collect()
}

/// The nanoseconds of one implementation for the whole corpus.
fn pass(
    corpus: &Corpus,
    outputs: &mut Outputs,
    function: Function,
    implementation: &Implementation,
) -> f64 {
    let patterns = &corpus.patterns;
    let start = cpu_time();
    match function {
        Function::Check => {
            for pattern in patterns {
                expect_success((implementation.check)(
                    &pattern.stream,
                    pattern.rows,
                    pattern.tracks,
                ));
            }
        }
        Function::Unpack => {
            for (pattern, out) in patterns.iter().zip(&mut outputs.cells) {
                expect_success((implementation.unpack)(
                    &pattern.stream,
                    pattern.rows,
                    pattern.tracks,
                    black_box(out),
                ));
            }
        }
        Function::Pack => {
            for (pattern, out) in patterns.iter().zip(&mut outputs.streams) {
                expect_success((implementation.pack)(
                    &pattern.cells,
                    pattern.rows,
                    pattern.tracks,
                    black_box(out),
                ));
            }
        }
    }
    cpu_time() - start
}

/// The nanoseconds of one implementation for a module, checked `repeats` times.
fn module_pass(module: &Module, implementation: &Implementation) -> f64 {
    let start = cpu_time();
    for _ in 0..module.repeats {
        let verdict = (implementation.check_module)(black_box(&module.bytes));
        assert_eq!(verdict.number, 0, "a module is refused");
    }
    cpu_time() - start
}

/// An output of exactly the needed length for the module.
fn room(module: &Module) -> Vec<u8> {
    let answer = (IMPLEMENTATIONS[OURS].repack_module)(&module.bytes, &mut []);
    assert_eq!(answer.number, 17, "no room is too short");
    vec![0; answer.place as usize]
}

/// The nanoseconds of one implementation for repacking a module.
fn repack_pass(module: &Module, out: &mut [u8], implementation: &Implementation) -> f64 {
    let start = cpu_time();
    let answer = (implementation.repack_module)(black_box(&module.bytes), black_box(out));
    let time = cpu_time() - start;
    assert_eq!(answer.number, 0, "a module is refused");
    time
}

/// An output of exactly the needed length for the module with the sample replaced.
fn replaced_room(module: &Module, replacement: &Replacement) -> Vec<u8> {
    let Replacement { sample, frames } = replacement;
    let answer = (IMPLEMENTATIONS[OURS].replace_sample)(&module.bytes, *sample, frames, &mut []);
    assert_eq!(answer.number, 17, "no room is too short");
    vec![0; answer.place as usize]
}

/// The nanoseconds of one implementation for replacing a sample.
fn replace_pass(
    module: &Module,
    replacement: &Replacement,
    out: &mut [u8],
    implementation: &Implementation,
) -> f64 {
    let Replacement { sample, frames } = replacement;
    let start = cpu_time();
    let answer =
        (implementation.replace_sample)(black_box(&module.bytes), *sample, frames, black_box(out));
    let time = cpu_time() - start;
    assert_eq!(answer.number, 0, "a module is refused");
    assert_eq!(
        answer.record.cleared, 1,
        "another number of loops is cleared"
    );
    time
}

/// An output of exactly the needed length for the list of differences. It is written once, so that no measured call is the first to write it.
fn compared_room(pair: &Pair) -> Vec<u8> {
    vec![1; DIFFERENCE_BYTES * pair.entries]
}

/// The nanoseconds of one implementation for comparing two modules.
fn compare_pass(pair: &Pair, out: &mut [u8], implementation: &Implementation) -> f64 {
    let start = cpu_time();
    let answer = (implementation.compare_modules)(
        black_box(&pair.first),
        black_box(&pair.second),
        black_box(out),
    );
    let time = cpu_time() - start;
    assert_eq!(answer.number, 0, "a pair is refused");
    assert_eq!(
        answer.record.entries, pair.entries as u64,
        "another number of differences"
    );
    time
}

fn expect_success(answer: Answer) {
    assert_eq!(answer.number, 0, "a corpus pattern is refused");
}

#[repr(C)]
struct Timespec {
    seconds: i64,
    nanoseconds: i64,
}

const CLOCK_PROCESS_CPUTIME_ID: i32 = 2;

unsafe extern "C" {
    fn clock_gettime(clock: i32, time: *mut Timespec) -> i32;
}

/// The CPU time of the process in nanoseconds.
fn cpu_time() -> f64 {
    let mut time = Timespec {
        seconds: 0,
        nanoseconds: 0,
    };
    // SAFETY: `time` is a timespec of x86-64 Linux, and outlives the call.
    let failed = unsafe { clock_gettime(CLOCK_PROCESS_CPUTIME_ID, &mut time) };
    assert_eq!(
        failed, 0,
        "the clock of the process's CPU time cannot be read"
    );
    time.seconds as f64 * 1e9 + time.nanoseconds as f64
}
