//! Damaged files and random bytes: no panic, the same number and place as the second program, and a description.

mod common;

use std::collections::BTreeMap;
use std::path::PathBuf;

use common::{run, run_on, sample, sample_bytes, text, Folder};
use reference::draft::{Pattern, Tune};
use reference::generate::{self, Limits, Random};
use reference::module;
use reference::tunes;

/// The number of files that one run of the program checks.
const AT_ONCE: usize = 250;

/// Checks modules in runs of many files, and compares each line. Returns how often each number occurs; 0 is accepted.
fn compare(modules: &[Vec<u8>]) -> BTreeMap<u64, u32> {
    let mut numbers = BTreeMap::new();
    for some in modules.chunks(AT_ONCE) {
        let folder = Folder::new();
        let files: Vec<PathBuf> = some
            .iter()
            .enumerate()
            .map(|(number, module)| folder.file(&format!("{number}.dbm"), module))
            .collect();
        let mut arguments = vec!["check"];
        arguments.extend(files.iter().map(|file| text(file)));
        let run = run(&arguments);
        assert_eq!(run.err, "");
        let printed = run.text();
        let lines: Vec<&str> = printed.lines().collect();
        assert_eq!(lines.len(), some.len());
        let mut any = false;
        for ((module, file), line) in some.iter().zip(&files).zip(lines) {
            let number = compare_line(module, text(file), line);
            any |= number != 0;
            *numbers.entry(number).or_insert(0) += 1;
        }
        assert_eq!(run.status, Some(i32::from(any)));
    }
    numbers
}

/// The line of a module agrees with the second program. Returns the number of the refusal.
fn compare_line(module: &[u8], file: &str, line: &str) -> u64 {
    let Err(refusal) = module::check(module) else {
        assert_eq!(line, format!("{file}: accepted"));
        return 0;
    };
    let expected = format!("{file}: refused {} at {}: ", refusal.number, refusal.place);
    let Some(words) = line.strip_prefix(&expected) else {
        panic!("{line}\nshould begin with {expected}\nmodule {module:02x?}");
    };
    assert!(
        words.bytes().all(|byte| (b' '..=b'~').contains(&byte)),
        "{words}"
    );
    assert!(
        names_its_place(refusal.number, words),
        "{line}\nmodule {module:02x?}"
    );
    refusal.number
}

/// The description names the part that is at fault.
fn names_its_place(number: u64, words: &str) -> bool {
    let begins = |with: &[&str]| with.iter().any(|with| words.starts_with(with));
    match number {
        1 => begins(&["the module has more than"]),
        2 => begins(&["this is no DBM0 module: it "]),
        3 => begins(&["version ", "revision "]),
        4 => begins(&["chunk ", "the header of a chunk is cut: "]),
        5 => begins(&["the chunk's identifier \""]),
        6 | 7 => begins(&["chunk "]) && words.contains(" stands "),
        8 => words.contains(" missing") && begins(&["chunk ", "the chunks "]),
        9 => begins(&["chunk NAME has ", "chunk INFO has "]),
        10 => begins(&["INFO says "]),
        11 => begins(&["chunk ", "sample "]),
        12 | 13 => {
            begins(&[
                "song ",
                "instrument ",
                "volume envelope ",
                "panning envelope ",
            ]) && words.contains(": ")
        }
        14 => begins(&["instrument "]) && words.contains(": loop "),
        15 => begins(&["pattern "]) && words.ends_with(" packed bytes)"),
        _ => false,
    }
}

/// Generated modules with one to three faults.
#[test]
fn damaged_modules() {
    let mut modules = Vec::new();
    for seed in 1..=4_000 {
        let mut random = Random::new(seed);
        let most = if seed % 4 == 0 {
            Limits::USUAL
        } else {
            Limits::SMALL
        };
        let mut draft = generate::module(&mut random, &most);
        for _ in 0..1 + random.below(3) {
            generate::damage(&mut random, &mut draft);
        }
        modules.push(draft.bytes());
    }
    let numbers = compare(&modules);
    for number in [0, 2, 3, 4, 5, 6, 7, 8, 9, 10, 11, 12, 13, 14, 15] {
        assert!(
            numbers.contains_key(&number),
            "no {number} among {numbers:?}"
        );
    }
}

/// The samples with bytes changed, cut off, removed and inserted.
#[test]
fn damaged_samples() {
    let mut modules = Vec::new();
    for (_, sample) in tunes::files() {
        for seed in 1..=500 {
            let mut random = Random::new(seed);
            modules.push(generate::damaged(&mut random, &sample));
        }
    }
    compare(&modules);
}

/// A sample with each byte changed in turn, and with each length.
#[test]
fn every_byte_and_every_length() {
    let carousel = sample_bytes("carousel.dbm");
    let mut modules = Vec::new();
    for place in 0..carousel.len() {
        for change in [1, 0x80, 0xFF] {
            let mut module = carousel.clone();
            module[place] ^= change;
            modules.push(module);
        }
        modules.push(carousel[..place].to_vec());
    }
    compare(&modules);
}

/// Each of the 256 masks in the first, the second and the last entry of a pattern, whole and cut after each byte.
#[test]
fn every_mask_and_every_cut() {
    let mut modules = Vec::new();
    for mask in 0..=255 {
        for place in 0..3 {
            let entry = |number: u8| {
                let mask = if number == place { mask } else { 0x85 };
                let fields = 0x11 * (number + 1)..;
                let named = fields.take((mask & 0x3F_u8).count_ones() as usize);
                [number + 1, mask].into_iter().chain(named)
            };
            let row_end = || std::iter::once(0);
            let first_row = entry(0).chain(entry(1)).chain(row_end());
            let stream: Vec<u8> = first_row.chain(entry(2)).chain(row_end()).collect();
            modules.extend((0..=stream.len()).map(|length| {
                let tune = Tune {
                    patterns: vec![Pattern::new(2, &stream[..length])],
                    ..Tune::default()
                };
                tune.bytes()
            }));
        }
    }
    let numbers = compare(&modules);
    assert_eq!(numbers[&0], 3 * 256, "{numbers:?}");
    assert_eq!(numbers.len(), 2, "{numbers:?}");
    assert!(numbers.contains_key(&15), "{numbers:?}");
}

/// Random bytes, with and without the letters at the beginning.
#[test]
fn any_bytes() {
    let mut modules = Vec::new();
    for seed in 1..=1_000 {
        let mut random = Random::new(seed);
        let length = random.below(300);
        let mut module = match random.below(3) {
            0 => Vec::new(),
            1 => b"DBM0\x03\0\0\0".to_vec(),
            _ => b"DBM0\x02\x10\0\0INFO\0\0\0\x0A\0\x01\0\x01\0\x01\0\x01\0\x04".to_vec(),
        };
        module.extend(generate::bytes(&mut random, length));
        modules.push(module);
    }
    compare(&modules);
}

/// The other commands on damaged modules: the line of the check and no output, or the command's normal result.
#[test]
fn the_other_commands() {
    let folder = Folder::new();
    let out = folder.0.join("out.dbm");
    let frames = sample("short-organ.frames");
    let carousel = sample("carousel.dbm");
    for seed in 1..=300 {
        let mut random = Random::new(9_000 + seed);
        let mut draft = generate::module(&mut random, &Limits::SMALL);
        generate::damage(&mut random, &mut draft);
        let module = draft.bytes();
        let check = run_on(&["check", "-"], &module);
        let accepted = check.status == Some(0);
        assert_eq!(accepted, module::check(&module).is_ok(), "seed {seed}");
        for arguments in [
            &["report", "-"][..],
            &["report", "--json", "-"],
            &["cells", "-", "0"],
            &["compare", "-", text(&carousel)],
            &["compare", text(&carousel), "-"],
            &["repack", "-", "-"],
            &["repack", "-", text(&out)],
            &["replace", "-", "1", text(&frames), "-"],
        ] {
            let run = run_on(arguments, &module);
            if accepted {
                let fine = match arguments[0] {
                    // Pattern 0 or sample 1 may not exist.
                    "cells" | "replace" => matches!(run.status, Some(0 | 2)),
                    "compare" => run.status == Some(3),
                    _ => run.status == Some(0),
                };
                assert!(fine, "seed {seed}: {run:?}");
            } else {
                run.is(1, "", &check.text());
            }
        }
        assert_eq!(out.exists(), accepted, "seed {seed}");
        let _ = std::fs::remove_file(&out);
        assert!(folder.names().is_empty(), "seed {seed}");
    }
}
