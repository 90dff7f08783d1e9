//! The modules on which whole-module comparisons run: those of the corpus, the files in `samples`, random ones, valid and damaged, and all
//! variants of a module with one change.

use crate::seeds::for_seeds;
use reference::corpus::{module_cases, record_cases, Case};
use reference::draft::Draft;
use reference::generate::{bytes, damage, damaged, module, Limits, Random};
use reference::module::check;
use reference::tunes::files;

/// A comparison of one module.
pub trait Comparison: Fn(&[u8], &mut Random) -> Result<(), String> {}

impl<F: Fn(&[u8], &mut Random) -> Result<(), String>> Comparison for F {}

/// A small module, or a larger one in `larger` percent of the cases.
fn drawn(random: &mut Random, larger: u64) -> Draft {
    let most = if random.chance(larger) {
        Limits::USUAL
    } else {
        Limits::SMALL
    };
    module(random, &most)
}

/// The modules of all cases. There are at least `least`.
pub fn corpus(agrees: impl Comparison, least: usize) {
    let cases = [module_cases(), record_cases()].concat();
    let mut count = 0;
    for (index, case) in cases.iter().enumerate() {
        if let Case::Module { module, .. } | Case::Records { module, .. } = case {
            agrees(module, &mut Random::new(index as u64))
                .unwrap_or_else(|what| panic!("case {index} of the corpus: {what}"));
            count += 1;
        }
    }
    assert!(count >= least, "only {count} cases");
}

pub fn sample_files(agrees: impl Comparison) {
    for (name, module) in files() {
        agrees(&module, &mut Random::new(1)).unwrap_or_else(|what| panic!("{name}: {what}"));
    }
}

pub fn valid(agrees: impl Comparison, cases: u64, larger: u64) {
    for_seeds(cases, |random| {
        let module = drawn(random, larger).bytes();
        check(&module).expect("it is valid");
        agrees(&module, random)
    });
}

/// Modules with damaged chunks, blocks and fields.
pub fn damaged_parts(agrees: impl Comparison, cases: u64, larger: u64) {
    for_seeds(cases, |random| {
        let mut draft = drawn(random, larger);
        for _ in 0..1 + random.below(3) {
            damage(random, &mut draft);
        }
        agrees(&draft.bytes(), random)
    });
}

/// Modules with bytes removed, inserted and changed at any place.
pub fn damaged_bytes(agrees: impl Comparison, cases: u64, larger: u64) {
    for_seeds(cases, |random| {
        let module = drawn(random, larger).bytes();
        agrees(&damaged(random, &module), random)
    });
}

/// Random bytes. Limits have the beginning of a module, but few are one.
pub fn any_bytes(agrees: impl Comparison, cases: u64) {
    for_seeds(cases, |random| {
        let length = random.below(100);
        let mut module = bytes(random, length);
        for (byte, expected) in module.iter_mut().zip(*b"DBM0\x03\x00\x00\x00") {
            if random.chance(98) {
                *byte = expected;
            }
        }
        agrees(&module, random)
    });
}

/// Every prefix of a module, the module without each byte, and the module with an extra byte.
pub fn every_cut(module: &[u8], agrees: impl Comparison) {
    for place in 0..module.len() {
        let random = &mut Random::new(place as u64);
        agrees(&module[..place], random).unwrap();
        let (before, after) = module.split_at(place);
        agrees(&[before, &after[1..]].concat(), random).unwrap();
        for byte in [0, after[0], 0xFF] {
            agrees(&[before, &[byte], after].concat(), random).unwrap();
        }
    }
}

/// A module with each byte changed to each of the given values.
pub fn every_change<const COUNT: usize>(
    module: &[u8],
    values: impl Fn(u8) -> [u8; COUNT],
    agrees: impl Comparison,
) {
    let mut module = module.to_vec();
    for place in 0..module.len() {
        let stored = module[place];
        for byte in values(stored) {
            module[place] = byte;
            agrees(&module, &mut Random::new(place as u64)).unwrap();
        }
        module[place] = stored;
    }
}

/// All values of a byte.
pub fn all_values(_: u8) -> [u8; 256] {
    std::array::from_fn(|value| value as u8)
}

/// The module can be at any address, and the bytes before and after it have no effect.
pub fn at_every_alignment(module: &[u8], agrees: impl Comparison) {
    for start in 0..64 {
        for filler in [0, b'A', 0xFF] {
            let mut memory = vec![filler; module.len() + 128];
            let place = start..start + module.len();
            memory[place.clone()].copy_from_slice(module);
            agrees(&memory[place], &mut Random::new(start as u64)).unwrap();
        }
    }
}

/// A file of the folder `samples`.
pub fn file(wanted: &str) -> Vec<u8> {
    let found = files().into_iter().find(|(name, _)| *name == wanted);
    found.expect("there is such a file").1
}

/// The files in `samples`, and this many modules made from seeds. Every fourth of these is damaged.
pub fn some(seeds: u64) -> Vec<Vec<u8>> {
    let mut modules: Vec<Vec<u8>> = files().into_iter().map(|(_, module)| module).collect();
    for seed in 0..seeds {
        let random = &mut Random::new(seed);
        let mut draft = module(random, &Limits::SMALL);
        if seed % 4 == 0 {
            damage(random, &mut draft);
        }
        modules.push(draft.bytes());
    }
    modules
}
