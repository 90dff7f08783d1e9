//! The pairs of modules whose comparison is measured. They are the same on every run.

use reference::draft::{Pattern, Sample, Tune};

use crate::corpus::Corpus;
use crate::modules::{self, Module};

pub struct Pair {
    pub name: &'static str,
    /// What differs, in one word.
    pub differs: &'static str,
    pub holds: String,
    pub first: Vec<u8>,
    pub second: Vec<u8>,
    /// The number of differences.
    pub entries: usize,
    /// It is measured in one of so many rounds.
    pub every: usize,
}

impl Pair {
    /// Rounds are counted from 1. Round 0 does not count, and no pair takes part in it.
    pub fn is_measured_in(&self, round: usize) -> bool {
        round > 0 && (round - 1).is_multiple_of(self.every)
    }
}

/// A pair is measured in every tenth round, because Rust takes long. A long pair is measured in every hundredth.
const FEW_ROUNDS: usize = 10;
const FEWEST_ROUNDS: usize = 100;

/// If some cells differ, it is each of these.
const SOME_CELLS: usize = 500;

const MOST_ROWS: usize = 65_535;
const MOST_TRACKS: u16 = 254;
const MOST_PATTERNS: usize = 1_024;
const MOST_SAMPLES: usize = 255;

/// The pairs of the corpora and of the module of samples.
pub fn pairs(corpora: &[Corpus], modules: &[Module]) -> Vec<Pair> {
    let equal = modules
        .iter()
        .filter(|module| module.replacement.is_some())
        .map(equal);
    let some = corpora
        .iter()
        .map(|corpus| other_notes(corpus, "some", SOME_CELLS));
    let all = corpora.iter().map(|corpus| other_notes(corpus, "all", 1));
    equal.chain(some).chain(all).collect()
}

/// Pairs that are compared but not measured: the second module has random bits 6 and 7 in each mask, once with the same notes, once with
/// some others.
pub fn with_upper_bits(corpora: &[Corpus]) -> Vec<Pair> {
    let with = |pair: Pair, second: &Corpus| Pair {
        second: modules::of_corpus(&second.with_upper_bits()).bytes,
        ..pair
    };
    let of = |corpus: &Corpus| {
        let other = corpus.with_other_notes(SOME_CELLS);
        [
            with(equal(&modules::of_corpus(corpus)), corpus),
            with(other_notes(corpus, "some", SOME_CELLS), &other),
        ]
    };
    corpora.iter().flat_map(of).collect()
}

fn equal(module: &Module) -> Pair {
    Pair {
        name: module.name,
        differs: "equal",
        holds: String::from("the module and a copy of it"),
        first: module.bytes.clone(),
        second: module.bytes.clone(),
        entries: 0,
        every: FEW_ROUNDS,
    }
}

/// The module of a corpus, and the module with another note in each n-th cell.
fn other_notes(corpus: &Corpus, differs: &'static str, n: usize) -> Pair {
    let entries = corpus.cells().div_ceil(n);
    Pair {
        name: corpus.name,
        differs,
        holds: format!("another note in {entries} cells"),
        first: modules::of_corpus(corpus).bytes,
        second: modules::of_corpus(&corpus.with_other_notes(n)).bytes,
        entries,
        every: FEW_ROUNDS,
    }
}

/// Pairs of modules of about this length: two equal modules, and those that took the longest time of all that were tried. The latter have
/// 254 tracks, and entries without fields, which leave every cell empty. Their names differ, so that the list is written too.
pub fn long_pairs(corpora: &[Corpus], length: usize) -> Vec<Pair> {
    vec![
        long_equal(&corpora[0], length),
        of_rows(
            "long, entries in turns",
            "odd rows have an entry in the first module, even rows in the second",
            length,
            |row| match row % 2 {
                0 => (row_of(&[]), row_of(&[254])),
                _ => (row_of(&[254]), row_of(&[])),
            },
        ),
        of_rows(
            "long, one entry a row",
            "all rows have an entry, for the last track and for the first one",
            length,
            |_| (row_of(&[254]), row_of(&[1])),
        ),
        of_rows(
            "long, four entries a row",
            "all rows have four entries, each for a track of another group of eight",
            length,
            |_| (row_of(&[1, 9, 17, 25]), row_of(&[65, 73, 81, 89])),
        ),
        of_rows(
            "long, empty rows",
            "all rows are empty but the last one but one, which has an entry in the second module",
            length,
            |row| match MOST_ROWS - row {
                2 => (row_of(&[]), row_of(&[254])),
                _ => (row_of(&[]), row_of(&[])),
            },
        ),
    ]
}

/// A row with an entry without fields for each of these tracks.
fn row_of(tracks: &[u8]) -> Vec<u8> {
    let entries = tracks.iter().flat_map(|&track| [track, 0]);
    entries.chain([0]).collect()
}

/// Patterns of a corpus, up to a third of the length, then samples.
fn long_equal(corpus: &Corpus, length: usize) -> Pair {
    let count = length / 3 * corpus.patterns.len() / corpus.packed_bytes();
    let patterns = corpus.patterns.iter().cycle();
    let patterns = patterns.map(|it| Pattern::new(it.rows as u16, &it.stream));
    let mut tune = Tune {
        tracks: corpus.patterns[0].tracks as u16,
        patterns: patterns.take(count.min(MOST_PATTERNS)).collect(),
        ..Tune::default()
    };
    let sample_bytes =
        (length - tune.bytes().len()) / MOST_SAMPLES - Sample::default().bytes().len();
    tune.samples = vec![Sample::new(1, &vec![5; sample_bytes]); MOST_SAMPLES];
    Pair {
        name: "long, tune and samples",
        differs: "equal",
        holds: format!(
            "{} patterns of the first corpus, {MOST_SAMPLES} samples of {sample_bytes} bytes, and a copy of the module",
            tune.patterns.len()
        ),
        first: tune.bytes(),
        second: tune.bytes(),
        entries: 0,
        every: FEWEST_ROUNDS,
    }
}

/// Two modules of as many patterns as fit. `row` gives a row for the first module and for the second.
fn of_rows(
    name: &'static str,
    holds: &str,
    length: usize,
    row: impl Fn(usize) -> (Vec<u8>, Vec<u8>),
) -> Pair {
    let (first, second): (Vec<_>, Vec<_>) = (0..MOST_ROWS).map(row).unzip();
    let streams = [first.concat(), second.concat()];
    let longer = streams[0].len().max(streams[1].len());
    let patterns = (length - 200) / (longer + 8);
    let module = |name: &[u8], stream: &[u8]| {
        let tune = Tune {
            tracks: MOST_TRACKS,
            name: Some(name.to_vec()),
            patterns: vec![Pattern::new(MOST_ROWS as u16, stream); patterns],
            ..Tune::default()
        };
        tune.bytes()
    };
    Pair {
        name,
        differs: "name",
        holds: format!("{patterns} patterns of {MOST_ROWS} rows and {MOST_TRACKS} tracks; {holds}"),
        first: module(b"one", &streams[0]),
        second: module(b"another", &streams[1]),
        entries: 1,
        every: FEWEST_ROUNDS,
    }
}
