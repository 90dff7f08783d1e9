//! Compares all implementations before the measurement: their answers and their outputs must be the same, byte for byte.

use std::collections::BTreeSet;
use std::fmt::Debug;

use interface::DIFFERENCE_BYTES;
use reference::chunks::MOST_BYTES;
use reference::draft::{self, Chunk, Draft, Sample, Tune};
use reference::generate::{self, Limits};
use reference::pairs::{pair, valid_change, RELATIONS};

use crate::corpus::{self, Corpus, Pattern, Random};
use crate::implementations::{Answer, Implementation, Verdict, IMPLEMENTATIONS, OURS};
use crate::modules::{Module, Replacement};
use crate::pairs::Pair;

/// The bytes after the needed length, which must not change.
const SPARE: usize = 16;
const UNTOUCHED: u8 = 0xA5;
/// The number for each pattern.
const DAMAGED_STREAMS: usize = 20;
const OTHER_SIZES: usize = 400;
/// The number for each module, made from its draft and from its bytes.
const DAMAGED_MODULES: usize = 30;
/// The number of modules of some hundred bytes, and of some thousand.
const SMALL_MODULES: usize = 3_000;
/// The number of small pairs for each relation of the second program's generator, and of pairs of modules with many tracks.
const RELATED_PAIRS: usize = 300;
const WIDE_PAIRS: usize = 500;
/// The number of changed copies of each module.
const CHANGED_MODULES: usize = 2;

/// Returns the number of compared calls, or the first difference.
pub fn compare(corpora: &[Corpus]) -> Result<usize, String> {
    let mut random = Random(5);
    let mut calls = 0;
    for corpus in corpora {
        calls += compare_patterns(corpus.name, &corpus.patterns, &mut random)?;
    }
    let others = corpus::other_sizes(OTHER_SIZES);
    calls += compare_patterns("other sizes", &others, &mut random)?;
    let masks = corpus::every_mask();
    calls += compare_patterns("every mask", &masks, &mut random)?;
    for it in &masks {
        for length in 0..it.stream.len() {
            let cut = &it.stream[..length];
            calls += compare_stream("every mask, cut", cut, it.rows, it.tracks)?;
        }
    }
    Ok(calls)
}

/// Each pattern with its own stream, and with random bits 6 and 7 in the masks of the stream.
fn compare_patterns(
    name: &str,
    patterns: &[Pattern],
    random: &mut Random,
) -> Result<usize, String> {
    let mut calls = 0;
    for (index, pattern) in patterns.iter().enumerate() {
        for pattern in [pattern, &pattern.with_upper_bits(random)] {
            calls += compare_pattern(pattern, random)
                .map_err(|difference| format!("{name}, pattern {index}: {difference}"))?;
        }
    }
    Ok(calls)
}

fn compare_pattern(pattern: &Pattern, random: &mut Random) -> Result<usize, String> {
    let Pattern {
        rows,
        tracks,
        cells,
        stream,
    } = pattern;
    let (rows, tracks) = (*rows, *tracks);
    let mut calls = 0;

    calls += same("check", |one| {
        ((one.check)(stream, rows, tracks), Vec::new())
    })?;
    calls += same_as("unpack", cells, |one, out| {
        (one.unpack)(stream, rows, tracks, out)
    })?;
    let packed = pattern.packed();
    calls += same_as("pack", &packed, |one, out| {
        (one.pack)(cells, rows, tracks, out)
    })?;

    let short = random.below(cells.len() as u64 + 1) as usize;
    calls += same("unpack, short output", |one| {
        into(short, |out| (one.unpack)(stream, rows, tracks, out))
    })?;
    let short = random.below(packed.len() as u64 + 1) as usize;
    calls += same("pack, short output", |one| {
        into(short, |out| (one.pack)(cells, rows, tracks, out))
    })?;
    calls += same("pack, one track less", |one| {
        into(packed.len(), |out| (one.pack)(cells, rows, tracks - 1, out))
    })?;

    for _ in 0..DAMAGED_STREAMS {
        let damaged = damage(stream, random);
        let rows = (rows + random.below(3)).saturating_sub(1);
        calls += compare_stream("damaged", &damaged, rows, tracks)?;
    }
    Ok(calls)
}

/// The check and the unpacking of a stream, which may be broken.
fn compare_stream(what: &str, stream: &[u8], rows: u64, tracks: u64) -> Result<usize, String> {
    let checked = same(&format!("check, {what}"), |one| {
        ((one.check)(stream, rows, tracks), Vec::new())
    })?;
    let unpacked = same(&format!("unpack, {what}"), |one| {
        into((rows * tracks * 6) as usize, |out| {
            (one.unpack)(stream, rows, tracks, out)
        })
    })?;
    Ok(checked + unpacked)
}

/// The stream with a few bytes changed, and sometimes with its end cut off.
fn damage(stream: &[u8], random: &mut Random) -> Vec<u8> {
    let mut damaged = stream.to_vec();
    if damaged.is_empty() {
        damaged.push(0);
    }
    for _ in 0..random.below(3) {
        let place = random.below(damaged.len() as u64) as usize;
        damaged[place] = random.below(80) as u8;
    }
    if random.below(3) == 0 {
        let cut = random.below(12) as usize;
        damaged.truncate(damaged.len().saturating_sub(cut));
    }
    damaged
}

/// The answer of a call, and the output of this length after it, including the bytes after it.
fn into<A>(length: usize, fill: impl FnOnce(&mut [u8]) -> A) -> (A, Vec<u8>) {
    let mut out = vec![UNTOUCHED; length + SPARE];
    let answer = fill(&mut out[..length]);
    (answer, out)
}

fn same<A: PartialEq + Debug>(
    what: &str,
    call: impl Fn(&Implementation) -> (A, Vec<u8>),
) -> Result<usize, String> {
    same_result(what, call).map(|_| IMPLEMENTATIONS.len())
}

/// What all implementations answer, and the output that they leave.
fn same_result<A: PartialEq + Debug>(
    what: &str,
    call: impl Fn(&Implementation) -> (A, Vec<u8>),
) -> Result<(A, Vec<u8>), String> {
    let first = call(&IMPLEMENTATIONS[0]);
    for other in &IMPLEMENTATIONS[1..] {
        let second = call(other);
        if first.0 != second.0 {
            return Err(format!(
                "{what}: {} answers {:?}, {} answers {:?}",
                IMPLEMENTATIONS[0].name, first.0, other.name, second.0
            ));
        }
        if first.1 != second.1 {
            return Err(format!(
                "{what}: {} and {} leave different outputs",
                IMPLEMENTATIONS[0].name, other.name
            ));
        }
    }
    Ok(first)
}

/// The call succeeds with exactly this output and does not change the bytes after it, both for an output of the needed length and for a
/// longer one.
fn same_as(
    what: &str,
    expected: &[u8],
    fill: impl Fn(&Implementation, &mut [u8]) -> Answer,
) -> Result<usize, String> {
    let success = Answer::written(expected.len());
    for room in [expected.len(), expected.len() + SPARE] {
        for one in &IMPLEMENTATIONS {
            let (answer, out) = into(room, |out| fill(one, out));
            if answer != success {
                return Err(format!("{what}: {} answers {answer:?}", one.name));
            }
            let (written, after) = out.split_at(expected.len());
            if written != expected || after.iter().any(|&byte| byte != UNTOUCHED) {
                return Err(format!("{what}: {} leaves a wrong output", one.name));
            }
        }
    }
    Ok(2 * IMPLEMENTATIONS.len())
}

/// Returns the number of compared calls on modules, or the first difference. Every refusal must occur in the answers.
pub fn compare_modules(modules: &[&Module]) -> Result<usize, String> {
    let mut compared = Compared::default();
    let mut random = Random(7);
    let mut faults = generate::Random::new(8);
    for module in modules {
        let name = module.name;
        compared.same(name, &module.bytes)?;
        for turn in 0..DAMAGED_MODULES {
            let what = format!("{name}, damaged, turn {turn}");
            compared.same(&what, &damaged_draft(&module.draft, &mut faults))?;
            compared.same(&what, &damaged_bytes(&module.bytes, &mut random))?;
        }
    }
    for most in [Limits::SMALL, Limits::USUAL] {
        for turn in 0..SMALL_MODULES {
            let what = format!("small module, turn {turn}");
            let draft = generate::module(&mut faults, &most);
            let bytes = draft.bytes();
            compared.same(&what, &bytes)?;
            compared.same(&what, &damaged_draft(&draft, &mut faults))?;
            compared.same(&what, &damaged_bytes(&bytes, &mut random))?;
        }
    }
    for module in modules_of_masks() {
        compared.same("every mask", &module)?;
    }
    let whole = generate::module(&mut faults, &Limits::USUAL).bytes();
    for length in 0..whole.len() {
        compared.same("beginning of a module", &whole[..length])?;
    }
    let mut longest = longest_module();
    compared.same("longest module", &longest)?;
    longest.push(0);
    compared.same("one byte too long", &longest)?;

    match (0..=15).find(|number| !compared.numbers.contains(number)) {
        Some(number) => Err(format!("no module is answered with {number}")),
        None => Ok(compared.calls),
    }
}

/// Returns the number of compared repack calls, or the first difference. The outputs are empty, too short, exactly long enough and longer.
pub fn compare_repacked(modules: &[&Module]) -> Result<usize, String> {
    let mut random = Random(9);
    let mut faults = generate::Random::new(10);
    let mut calls = 0;
    for module in modules {
        calls += same_repacked(module.name, &module.bytes, &mut random)?;
        for turn in 0..DAMAGED_MODULES / 10 {
            let what = format!("{}, damaged, turn {turn}", module.name);
            let damaged = damaged_draft(&module.draft, &mut faults);
            calls += same_repacked(&what, &damaged, &mut random)?;
        }
    }
    for most in [Limits::SMALL, Limits::USUAL] {
        for turn in 0..SMALL_MODULES {
            let what = format!("small module, turn {turn}");
            let draft = generate::module(&mut faults, &most);
            calls += same_repacked(&what, &draft.bytes(), &mut random)?;
            let damaged = damaged_draft(&draft, &mut faults);
            calls += same_repacked(&what, &damaged, &mut random)?;
        }
    }
    for module in modules_of_masks() {
        calls += same_repacked("every mask", &module, &mut random)?;
    }
    calls += same_repacked("longest module", &longest_module(), &mut random)?;
    Ok(calls)
}

fn same_repacked(what: &str, module: &[u8], random: &mut Random) -> Result<usize, String> {
    let asked = (IMPLEMENTATIONS[0].repack_module)(module, &mut []);
    let needed = match asked.number {
        17 => asked.place as usize,
        _ => module.len(),
    };
    let short = random.below(needed as u64 + 1) as usize;
    let mut calls = 0;
    for room in [0, short, needed.saturating_sub(1), needed, module.len() + 1] {
        calls += same(what, |one| {
            into(room, |out| (one.repack_module)(module, out))
        })?;
    }
    Ok(calls)
}

/// Returns the number of compared calls that replace a sample, or the first difference. The outputs are empty, too short, exactly long
/// enough and longer. Each refusal that is not the module's own must occur in the answers.
pub fn compare_replaced(modules: &[&Module]) -> Result<usize, String> {
    let mut compared = Compared::default();
    let mut random = Random(11);
    let mut faults = generate::Random::new(12);
    for module in modules {
        if let Some(Replacement { sample, frames }) = &module.replacement {
            compared.same_replaced(module.name, &module.bytes, *sample, frames, &mut random)?;
        }
        compared.same_drawn(module.name, &module.bytes, &mut random)?;
        for turn in 0..DAMAGED_MODULES / 10 {
            let what = format!("{}, damaged, turn {turn}", module.name);
            let damaged = damaged_draft(&module.draft, &mut faults);
            compared.same_drawn(&what, &damaged, &mut random)?;
        }
    }
    for most in [Limits::SMALL, Limits::USUAL] {
        for turn in 0..SMALL_MODULES {
            let what = format!("small module, turn {turn}");
            let draft = generate::module(&mut faults, &most);
            compared.same_drawn(&what, &draft.bytes(), &mut random)?;
            let damaged = damaged_draft(&draft, &mut faults);
            compared.same_drawn(&what, &damaged, &mut random)?;
        }
    }
    let tune = Tune {
        samples: vec![Sample::new(1, &[5; 100])],
        ..Tune::default()
    };
    let longest = filled_up(tune.draft());
    for length in [98, 100, 102] {
        compared.same_replaced("longest module", &longest, 1, &vec![7; length], &mut random)?;
    }
    match [0, 1, 17, 18, 19]
        .into_iter()
        .find(|number| !compared.numbers.contains(number))
    {
        Some(number) => Err(format!("no replacement is answered with {number}")),
        None => Ok(compared.calls),
    }
}

/// Returns the number of compared calls that compare two modules, or the first difference. Each refusal and each kind of entry must occur.
pub fn compare_compared(
    modules: &[Module],
    pairs: &[Pair],
    others: &[Pair],
) -> Result<usize, String> {
    let mut compared = Compared::default();
    let mut random = Random(13);
    let mut faults = generate::Random::new(14);
    for pair in pairs.iter().chain(others) {
        compared.same_long(pair.name, &pair.first, &pair.second)?;
        let listed = listed_bytes(&pair.first, &pair.second);
        if listed != pair.entries * DIFFERENCE_BYTES {
            return Err(format!(
                "{}: the list of differences has {listed} bytes",
                pair.name
            ));
        }
    }
    for it in corpus::every_mask() {
        let stored = module_of(it.rows, it.tracks, &it.stream);
        let packed = module_of(it.rows, it.tracks, &it.packed());
        compared.same_equal("every mask", &stored, &packed)?;
        compared.same_equal("every mask", &packed, &stored)?;
    }
    for module in modules {
        let what = module.name;
        for copy in copies(module, &mut faults) {
            compared.same_long(what, &module.bytes, &copy)?;
        }
        for turn in 0..DAMAGED_MODULES / 10 {
            let what = format!("{what}, damaged, turn {turn}");
            let damaged = damaged_draft(&module.draft, &mut faults);
            match turn % 2 {
                0 => compared.same_long(&what, &damaged, &module.bytes)?,
                _ => compared.same_long(&what, &module.bytes, &damaged)?,
            }
        }
    }
    for turn in 0..SMALL_MODULES {
        let what = format!("small pair, turn {turn}");
        let draft = generate::module(&mut faults, &Limits::SMALL);
        let (bytes, damaged) = (draft.bytes(), damaged_draft(&draft, &mut faults));
        compared.same_short(&what, &damaged, &bytes, &mut random)?;
        compared.same_short(&what, &bytes, &damaged, &mut random)?;
    }
    for relation in RELATIONS {
        for turn in 0..RELATED_PAIRS {
            let what = format!("{relation:?}, turn {turn}");
            let (first, second) = pair(&mut faults, relation);
            compared.same_short(&what, &first, &second, &mut random)?;
        }
    }
    for turn in 0..WIDE_PAIRS {
        let what = format!("many tracks, turn {turn}");
        let (first, second) = wide_pair(&mut faults);
        compared.same_short(&what, &first, &second, &mut random)?;
    }
    let mut longest = longest_module();
    let other = longest.clone();
    compared.same_long("longest modules", &longest, &other)?;
    longest.push(0);
    compared.same_long("one byte too long", &longest, &other)?;

    let mut numbers = (0..=15).chain([17]);
    if let Some(number) = numbers.find(|number| !compared.numbers.contains(number)) {
        return Err(format!("no comparison is answered with {number}"));
    }
    match (1..=8).find(|kind| !compared.kinds.contains(kind)) {
        Some(kind) => Err(format!("no entry is of kind {kind}")),
        None => Ok(compared.calls),
    }
}

/// The bytes of the list of differences, or 0 if a module is refused.
fn listed_bytes(first: &[u8], second: &[u8]) -> usize {
    let asked = (IMPLEMENTATIONS[OURS].compare_modules)(first, second, &mut []);
    match asked.number {
        17 => asked.place as usize,
        _ => 0,
    }
}

/// A module itself, repacked, with a sample replaced, and with changes of its records.
fn copies(module: &Module, random: &mut generate::Random) -> Vec<Vec<u8>> {
    let bytes = &module.bytes;
    let mut copies = vec![bytes.clone()];
    let mut out = vec![0; 2 * bytes.len()];
    let answer = (IMPLEMENTATIONS[OURS].repack_module)(bytes, &mut out);
    copies.push(out[..answer.length as usize].to_vec());
    if let Some(Replacement { sample, frames }) = &module.replacement {
        let answer = (IMPLEMENTATIONS[OURS].replace_sample)(bytes, *sample, frames, &mut out);
        copies.push(out[..answer.record.length as usize].to_vec());
    }
    copies.extend((0..CHANGED_MODULES).map(|_| valid_change(random, &module.tune).bytes()));
    copies
}

/// A module with one pattern.
fn module_of(rows: u64, tracks: u64, stream: &[u8]) -> Vec<u8> {
    let tune = Tune {
        tracks: tracks as u16,
        patterns: vec![draft::Pattern::new(rows as u16, stream)],
        ..Tune::default()
    };
    tune.bytes()
}

/// Modules with every mask in each entry, and the same with the stream cut at every length.
fn modules_of_masks() -> impl Iterator<Item = Vec<u8>> {
    corpus::every_mask().into_iter().flat_map(|it| {
        (0..=it.stream.len()).map(move |length| module_of(it.rows, it.tracks, &it.stream[..length]))
    })
}

/// Two modules with a pattern of up to 40 rows and up to 254 tracks. A row of the second module is the same as in the first, or empty, or
/// another one, or has one more entry, or other bits 6 and 7 in its masks.
fn wide_pair(random: &mut generate::Random) -> (Vec<u8>, Vec<u8>) {
    let tracks = 4 + 2 * random.below(126);
    let rows = random.below(41);
    let most_entries = random.pick(&[1, 3, 20]);
    let (empty, changed) = (random.pick(&[0, 50, 95]), random.pick(&[5, 50]));
    let mut streams = (Vec::new(), Vec::new());
    for _ in 0..rows {
        let most = if random.chance(empty) {
            0
        } else {
            most_entries
        };
        let row = generate::valid_stream(random, 1, tracks, most);
        let other = if random.chance(changed) {
            changed_row(random, &row, tracks, most_entries)
        } else {
            row.clone()
        };
        streams.0.extend(row);
        streams.1.extend(other);
    }
    let module = |stream: &[u8]| module_of(rows, tracks, stream);
    (module(&streams.0), module(&streams.1))
}

fn changed_row(random: &mut generate::Random, row: &[u8], tracks: u64, most: u64) -> Vec<u8> {
    let entry = generate::entry(random, tracks);
    match random.below(6) {
        0 => vec![0],
        1 => generate::valid_stream(random, 1, tracks, most),
        2 => [&[entry[0], 0], row].concat(),
        3 => [&entry, row].concat(),
        4 => corpus::with_upper_bits(row, || random.byte()),
        _ => [&row[..row.len() - 1], &entry, &[0]].concat(),
    }
}

/// The number of calls so far, the numbers in their answers, and the kinds of entries in lists of differences.
#[derive(Default)]
struct Compared {
    calls: usize,
    numbers: BTreeSet<u64>,
    kinds: BTreeSet<u8>,
}

impl Compared {
    fn same(&mut self, what: &str, module: &[u8]) -> Result<(), String> {
        let verdicts: Vec<Verdict> = IMPLEMENTATIONS
            .iter()
            .map(|one| (one.check_module)(module))
            .collect();
        let first = verdicts[0];
        for (other, second) in IMPLEMENTATIONS.iter().zip(&verdicts) {
            if *second != first {
                return Err(format!(
                    "{what}: {} answers {first:?}, {} answers {second:?}",
                    IMPLEMENTATIONS[0].name, other.name
                ));
            }
        }
        self.calls += verdicts.len();
        self.numbers.insert(first.number);
        Ok(())
    }

    /// A random sample, which may not exist, is replaced by random frames, which may have an odd number of bytes.
    fn same_drawn(&mut self, what: &str, module: &[u8], random: &mut Random) -> Result<(), String> {
        let sample = random.below(5) as usize;
        let length = 2 * random.below(30) + u64::from(random.below(8) == 0);
        let frames: Vec<u8> = (0..length).map(|_| random.byte()).collect();
        self.same_replaced(what, module, sample, &frames, random)
    }

    fn same_replaced(
        &mut self,
        what: &str,
        module: &[u8],
        sample: usize,
        frames: &[u8],
        random: &mut Random,
    ) -> Result<(), String> {
        let asked = (IMPLEMENTATIONS[0].replace_sample)(module, sample, frames, &mut []);
        let enough = module.len() + frames.len();
        let needed = match asked.number {
            17 => asked.place as usize,
            _ => enough,
        };
        let short = random.below(needed as u64 + 1) as usize;
        for room in [0, short, needed.saturating_sub(1), needed, enough + 1] {
            self.calls += same(what, |one| {
                into(room, |out| {
                    (one.replace_sample)(module, sample, frames, out)
                })
            })?;
        }
        let (answer, _) = into(enough, |out| {
            (IMPLEMENTATIONS[0].replace_sample)(module, sample, frames, out)
        });
        self.numbers.extend([asked.number, answer.number]);
        Ok(())
    }

    /// Short modules, with outputs that are empty, too short, exactly long enough and longer.
    fn same_short(
        &mut self,
        what: &str,
        first: &[u8],
        second: &[u8],
        random: &mut Random,
    ) -> Result<(), String> {
        let needed = listed_bytes(first, second);
        let short = random.below(needed as u64 + 1) as usize;
        for room in [0, short, needed.saturating_sub(1), needed, needed + 1] {
            self.same_listed(what, first, second, room)?;
        }
        Ok(())
    }

    /// Accepted modules without differences: an output without bytes is enough.
    fn same_equal(&mut self, what: &str, first: &[u8], second: &[u8]) -> Result<(), String> {
        match self.same_listed(what, first, second, 0)? {
            0 => Ok(()),
            number => Err(format!(
                "{what}: two equal modules are answered with {number}"
            )),
        }
    }

    /// Long modules, with outputs that are one byte too short and exactly long enough.
    fn same_long(&mut self, what: &str, first: &[u8], second: &[u8]) -> Result<(), String> {
        let needed = listed_bytes(first, second);
        if needed > 0 {
            self.same_listed(what, first, second, needed - 1)?;
        }
        self.same_listed(what, first, second, needed)?;
        Ok(())
    }

    /// Returns the number in the answers.
    fn same_listed(
        &mut self,
        what: &str,
        first: &[u8],
        second: &[u8],
        room: usize,
    ) -> Result<u64, String> {
        let (answer, out) = same_result(what, |one| {
            into(room, |out| (one.compare_modules)(first, second, out))
        })?;
        let listed = answer.record.entries as usize * DIFFERENCE_BYTES;
        let kinds = out[..listed].chunks(DIFFERENCE_BYTES).map(|entry| entry[1]);
        self.calls += IMPLEMENTATIONS.len();
        self.numbers.insert(answer.number);
        self.kinds.extend(kinds);
        Ok(answer.number)
    }
}

/// A module with one or two typical faults.
fn damaged_draft(draft: &Draft, random: &mut generate::Random) -> Vec<u8> {
    let mut damaged = draft.clone();
    for _ in 0..1 + random.below(2) {
        generate::damage(random, &mut damaged);
    }
    damaged.bytes()
}

/// The module with a few bytes changed, and sometimes with its end cut off.
fn damaged_bytes(module: &[u8], random: &mut Random) -> Vec<u8> {
    let mut damaged = module.to_vec();
    for _ in 0..1 + random.below(3) {
        let place = random.below(damaged.len() as u64) as usize;
        damaged[place] = random.byte();
    }
    if random.below(4) == 0 {
        damaged.truncate(random.below(damaged.len() as u64) as usize);
    }
    damaged
}

/// An accepted module of the maximum length.
fn longest_module() -> Vec<u8> {
    filled_up(Tune::default().draft())
}

/// The draft with another chunk, so that the module has the maximum length.
fn filled_up(mut draft: Draft) -> Vec<u8> {
    let left = MOST_BYTES as usize - draft.bytes().len() - 8;
    draft.chunks.push(Chunk::new(b"ZZZZ", vec![0; left]));
    draft.bytes()
}
