//! Comparing two modules, tested by writing.rs. The module of the `Call` is the first one, and each test chooses the second one. Pairs of
//! modules are made by `reference::pairs`.

use crate::compare::{same_answer, with_module, GuardedOutput};
use crate::queries::{self, Queries};
use crate::writing::WritingAnswer;
use interface::{Answer, Compared, Info, ModuleAnswer, RecordAnswer, Sample, Song};
use reference::compare::{
    compare, Difference, ENTRY_BYTES, INFO, INSTRUMENT, NAME, PANNING_ENVELOPE, PATTERN, SAMPLE,
    SONG, VOLUME_ENVELOPE,
};
use reference::generate::{damaged, module, tune, Limits, Random};
use reference::pairs::{pair, Change, Pair, Relation, CHANGES, FEW, RELATIONS};
use reference::repack::repack;

pub type CompareAnswer = RecordAnswer<Compared>;

/// The length of the list is that of its entries.
impl WritingAnswer for CompareAnswer {
    fn answer(self) -> Answer {
        Answer {
            number: self.number,
            place: self.place,
            length: self.record.entries.saturating_mul(ENTRY_BYTES as u64),
        }
    }

    fn with_length(mut self, length: u64) -> CompareAnswer {
        self.record.entries = length / ENTRY_BYTES as u64;
        self
    }

    fn refused(number: u64, place: usize) -> CompareAnswer {
        queries::refused(number, place as u64)
    }
}

/// The answer of a call that writes this many entries.
pub fn compared(entries: usize) -> CompareAnswer {
    queries::success(Compared {
        entries: entries as u64,
    })
}

/// Version 2.21, 6 tracks, and no name: one instrument, two samples, one song, two patterns, a panning envelope of 0 and 64. The stream of
/// pattern 0 is not the packer's. PNAM is at 349.
pub const FIRST: &[u8; 359] = b"DBM0\x02\x21\xDE\xAD\
    INFO\x00\x00\x00\x0A\x00\x01\x00\x02\x00\x01\x00\x02\x00\x06\
    SMPL\x00\x00\x00\x17\
    \x00\x00\x00\x02\x00\x00\x00\x02INST\
    \x00\x00\x00\x01\x00\x00\x00\x03abc\
    INST\x00\x00\x00\x32\
    forward, and all of the frames\x00\x01\x00\x40\x00\x00\x20\xAB\x00\x00\x00\x00\x00\x00\x00\x02\xFF\x80\x00\x03\
    PATT\x00\x00\x00\x16\
    \x00\x02\x00\x00\x00\x08\x02\x01\x47\x02\x02\x01\x00\x00\
    \x00\x01\x00\x00\x00\x01\x00\xFF\
    SONG\x00\x00\x00\x32\
    A song, whose name has exactly 44 letters...\x00\x02\x00\x00\x00\x01\
    PENV\x00\x00\x00\x8A\x00\x01\
    \x00\x01\x01\x01\x99\x98\x97\x96\x00\x00\x00\x00\x00\x09\x00\x40\
    cccccccccccccccccccccccccccccccccccccccccccccccccccccccccccccccccccccccccccccccccccccccccccccccccccccccccccccccccccccccc\
    PNAM\x00\x00\x00\x02\x80\x81";

/// Version 3.05, a name and a volume envelope: one instrument more, other frames of sample 2, another playlist, and patterns that differ in one field and in
/// their rows. The panning envelope of -128 and 128 is the same. PNAM is at 602.
pub const SECOND: &[u8; 612] = b"DBM0\x03\x05\x00\x00\
    NAME\x00\x00\x00\x2CA name that has all of the forty-four bytes.\
    VENV\x00\x00\x00\x8A\x00\x01\
    \x00\x02\x00\x01\x99\x98\x97\x96\x00\x00\x00\x00\x00\x09\x00\x40\
    vvvvvvvvvvvvvvvvvvvvvvvvvvvvvvvvvvvvvvvvvvvvvvvvvvvvvvvvvvvvvvvvvvvvvvvvvvvvvvvvvvvvvvvvvvvvvvvvvvvvvvvvvvvvvvvvvvvvvvvv\
    INFO\x00\x00\x00\x0A\x00\x02\x00\x02\x00\x01\x00\x02\x00\x06\
    PENV\x00\x00\x00\x8A\x00\x01\
    \x00\x01\x01\x01\x99\x98\x97\x96\x00\x00\xFF\x80\x00\x09\x00\x80\
    dddddddddddddddddddddddddddddddddddddddddddddddddddddddddddddddddddddddddddddddddddddddddddddddddddddddddddddddddddddddd\
    SONG\x00\x00\x00\x32\
    A song, whose name has exactly 44 letters...\x00\x02\x00\x01\x00\x01\
    INST\x00\x00\x00\x64\
    forward, and all of the frames\x00\x01\x00\x40\x00\x00\x20\xAB\x00\x00\x00\x00\x00\x00\x00\x02\xFF\x80\x00\x03\
    only the second module has it!\x00\x02\x00\x01\x00\x00\x00\x00\xFF\xFF\xFF\xFF\xFF\xFF\xFF\xFF\x00\x00\x00\x00\
    PATT\x00\x00\x00\x18\
    \x00\x02\x00\x00\x00\x09\x02\x03\x47\x01\x00\x06\x20\x99\x00\x00\
    \x00\x02\x00\x00\x00\x02\x00\x00\
    SMPL\x00\x00\x00\x1A\
    \x00\x00\x00\x02\x00\x00\x00\x02INST\
    \x00\x00\x00\x02\x00\x00\x00\x03a\x00b\x00c\x00\
    PNAM\x00\x00\x00\x02\x80\x81";

/// Other values for a byte of these modules.
pub fn byte_values(stored: u8) -> [u8; 7] {
    [
        stored ^ 1,
        stored ^ 2,
        stored ^ 0x40,
        stored.wrapping_add(1),
        stored.wrapping_sub(1),
        0,
        0xFF,
    ]
}

/// Some pairs of each kind that the tests use: of all relations, with one change of each kind, and with one byte changed. Those that take the
/// longest are last.
pub fn some_pairs() -> Vec<Pair> {
    let mut pairs = Vec::new();
    for seed in 1..=60 {
        let random = &mut Random::new(seed);
        let short = RELATIONS.into_iter().filter(|&it| it != Relation::Many);
        pairs.extend(short.map(|relation| pair(random, relation)));
        if seed <= 20 {
            pairs.extend(CHANGES.map(|(_, change)| changed_pair(random, change)));
        }
    }
    for module in [&FIRST[..], SECOND] {
        for (place, bits) in (0..module.len()).flat_map(|place| [1, 2, 3].map(|bits| (place, bits)))
        {
            let mut changed = module.to_vec();
            changed[place] ^= bits;
            pairs.push((module.to_vec(), changed));
        }
    }
    pairs.extend((1..=6).map(|seed| pair(&mut Random::new(seed), Relation::Many)));
    pairs
}

/// A random module, and the same after a change. It is one that has what is changed.
pub fn changed_pair(random: &mut Random, change: Change) -> Pair {
    loop {
        let tune = tune(random, &FEW);
        let mut changed = tune.clone();
        change(random, &mut changed);
        if changed != tune {
            return (tune.bytes(), changed.bytes());
        }
    }
}

/// Entries as bytes.
pub fn list(entries: &[Difference]) -> Vec<u8> {
    let numbers = entries.iter().flatten();
    numbers.flat_map(|number| number.to_be_bytes()).collect()
}

/// The entries of a list.
pub fn entries(bytes: &[u8]) -> Vec<Difference> {
    bytes
        .chunks_exact(ENTRY_BYTES)
        .map(|entry| {
            std::array::from_fn(|index| {
                u16::from_be_bytes([entry[2 * index], entry[2 * index + 1]])
            })
        })
        .collect()
}

/// The call with this second module: libdbm0.a against the reference.
#[macro_export]
macro_rules! comparing {
    ($second:expr) => {
        $crate::writing::Call {
            name: "compare",
            library: &|first, output| $crate::comparing::library(first, $second, output),
            queries: &$crate::queries::ARCHIVE,
            reference: &|first, output| $crate::comparing::reference(first, $second, output),
            enough: &|length| $crate::comparing::enough(length, $second.len()),
            refusal: &|queries, first| $crate::comparing::refusal(queries, first, $second),
            properties: &|call, first, _, written, _| {
                $crate::comparing::is_what_the_queries_answer(call.queries, first, $second, written)
            },
        }
    };
}

pub fn library(first: &[u8], second: &[u8], output: &mut GuardedOutput) -> CompareAnswer {
    interface::compare(first, second, output.slice())
}

pub fn reference(first: &[u8], second: &[u8], output: &mut GuardedOutput) -> CompareAnswer {
    match compare(first, second, output.slice()) {
        Ok(entries) => compared(entries as usize),
        Err(refusal) => queries::refused(refusal.number, refusal.place),
    }
}

/// The length of an output that is always enough. Each entry is about a record or a field that one of the modules has, so there are no more
/// entries than bytes.
pub fn enough(first: usize, second: usize) -> usize {
    ENTRY_BYTES * (first + second)
}

/// The refusal for an output that is long enough: that of the first module, then that of the second.
pub fn refusal(queries: &Queries, first: &[u8], second: &[u8]) -> ModuleAnswer {
    match queries::refusal(queries, first) {
        ModuleAnswer { number: 0, .. } => queries::refusal(queries, second),
        refusal => refusal,
    }
}

/// Runs all checks of the call on two modules. The second module is not changed either.
pub fn pair_agrees(first: &[u8], second: &[u8], random: &mut Random) -> Result<(), String> {
    let stored = second.to_vec();
    comparing!(second)
        .agrees(first, random)
        .and_then(|()| match second == stored {
            true => Ok(()),
            false => Err("the second module is changed".to_string()),
        })
        .map_err(|what| with_module(format!("{what}\nand the second"), &stored))
}

/// Chooses another module, and runs all checks of the call on both, in either order.
pub fn agrees(module: &[u8], random: &mut Random) -> Result<(), String> {
    let other = other_module(module, random);
    match random.chance(50) {
        true => pair_agrees(module, &other, random),
        false => pair_agrees(&other, module, random),
    }
}

/// The module itself, repacked or damaged, or a random module.
fn other_module(given: &[u8], random: &mut Random) -> Vec<u8> {
    match random.below(6) {
        0 => given.to_vec(),
        1 => {
            let mut out = vec![0; given.len()];
            match repack(given, &mut out) {
                Ok(length) => out[..length as usize].to_vec(),
                Err(_) => given.to_vec(),
            }
        }
        2..=4 => damaged(random, given),
        _ => module(random, &Limits::SMALL).bytes(),
    }
}

/// The list has an entry for each difference between the answers of the queries, ascending, and no others.
pub fn is_what_the_queries_answer(
    queries: &Queries,
    first: &[u8],
    second: &[u8],
    written: &[u8],
) -> Result<(), String> {
    let both = Both {
        queries,
        modules: [first, second],
    };
    same_answer("compare", entries(written), both.differences())
}

/// Two accepted modules, and the queries about them.
struct Both<'a> {
    queries: &'a Queries,
    modules: [&'a [u8]; 2],
}

impl<'a> Both<'a> {
    /// The differences between the answers of the queries. A query about a record that a module does not have is refused, so its answer
    /// differs from that of the other module.
    fn differences(&self) -> Vec<Difference> {
        let queries = self.queries;
        let info = self.modules.map(|module| (queries.info)(module).record);
        let most = |count: fn(&Info) -> u16| usize::from(count(&info[0]).max(count(&info[1])));
        let mut list = Vec::new();
        self.records(&mut list, NAME, 0..1, |module, _| (queries.name)(module));
        self.records(&mut list, INFO, 0..5, |module, number| {
            numbers((queries.info)(module).record)[number]
        });
        self.records(
            &mut list,
            SONG,
            0..most(|info| info.songs),
            |module, song| self.song(module, song),
        );
        let instruments = 1..most(|info| info.instruments) + 1;
        self.records(&mut list, INSTRUMENT, instruments, queries.instrument);
        let envelopes = |count: fn(&[u8]) -> RecordAnswer<u16>| {
            let [one, other] = self.modules.map(|module| count(module).record);
            0..usize::from(one.max(other))
        };
        let volume = envelopes(queries.volume_envelopes);
        self.records(&mut list, VOLUME_ENVELOPE, volume, queries.volume_envelope);
        let panning = envelopes(queries.panning_envelopes);
        self.records(
            &mut list,
            PANNING_ENVELOPE,
            panning,
            queries.panning_envelope,
        );
        let samples = 1..most(|info| info.samples) + 1;
        self.records(&mut list, SAMPLE, samples, |module, sample| {
            self.sample(module, sample)
        });
        for pattern in 0..most(|info| info.patterns) {
            self.pattern(&mut list, pattern, info.map(|info| info.tracks));
        }
        list
    }

    /// An entry for each number for which the answers about the two modules differ.
    fn records<A: PartialEq>(
        &self,
        list: &mut Vec<Difference>,
        kind: u16,
        numbers: std::ops::Range<usize>,
        query: impl Fn(&'a [u8], usize) -> A,
    ) {
        for number in numbers {
            let [one, other] = self.modules.map(|module| query(module, number));
            if one != other {
                list.push([kind, number as u16, 0, 0, 0]);
            }
        }
    }

    /// A song and its entries.
    fn song(&self, module: &[u8], song: usize) -> (RecordAnswer<Song>, Vec<u16>) {
        let answer = (self.queries.song)(module, song);
        let entry = |entry| (self.queries.entry)(module, song, entry).record;
        let playlist = (0..answer.record.length.into()).map(entry);
        (answer, playlist.collect())
    }

    /// A sample and the bytes of its frames.
    fn sample(&self, module: &'a [u8], sample: usize) -> (RecordAnswer<Sample>, &'a [u8]) {
        let part = (self.queries.frames)(module, sample).record;
        let end = part.offset + part.length;
        let frames = &module[part.offset as usize..end as usize];
        ((self.queries.sample)(module, sample), frames)
    }

    /// One entry if the rows or the tracks differ, otherwise one for each field.
    fn pattern(&self, list: &mut Vec<Difference>, pattern: usize, tracks: [u16; 2]) {
        let rows = self
            .modules
            .map(|module| (self.queries.rows)(module, pattern));
        let number = pattern as u16;
        if rows[0] != rows[1] || tracks[0] != tracks[1] {
            list.push([PATTERN, number, 0, 0, 0]);
            return;
        }
        let row_bytes = 6 * usize::from(tracks[0]);
        let mut cells = self.modules.map(|module| {
            let mut output = GuardedOutput::new(usize::from(rows[0].record) * row_bytes);
            (self.queries.cells)(module, pattern, &mut output);
            output
        });
        let [one, other] = cells.each_mut().map(|output| output.slice());
        for place in (0..one.len()).filter(|&place| one[place] != other[place]) {
            let (row, within) = (place / row_bytes, place % row_bytes);
            let (track, field) = (within / 6 + 1, within % 6 + 1);
            list.push([PATTERN, number, row as u16, track as u16, field as u16]);
        }
    }
}

/// The numbers of INFO in the order of the chunk.
fn numbers(info: Info) -> [u16; 5] {
    [
        info.instruments,
        info.samples,
        info.songs,
        info.patterns,
        info.tracks,
    ]
}
