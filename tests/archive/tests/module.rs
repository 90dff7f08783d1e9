//! libdbm0.a against the reference. DBM0_CASES is the number of random cases and DBM0_SEED the first seed. Modules of the maximum length
//! are in large/mod.rs.

mod large;

use archive::compare::{self, ARCHIVE};
use archive::masks::{self, UPPER_BITS};
use archive::modules;
use archive::seeds::for_seeds;
use interface::ModuleAnswer;
use reference::chunks::{Name, COVERED};
use reference::corpus::module_cases;
use reference::draft::{Chunk, Draft, Envelope, Instrument, Pattern, Sample, Song, Tune};
use reference::generate::{bytes, Random};

const ACCEPTED: ModuleAnswer = ModuleAnswer {
    number: 0,
    place: 0,
};

/// The archive agrees with the reference.
fn agrees(module: &[u8], _: &mut Random) -> Result<(), String> {
    compare::module(ARCHIVE, module)
}

/// The archive agrees with the reference, and both accept the module.
fn accepted(module: &[u8]) -> Result<(), String> {
    compare::module(ARCHIVE, module)?;
    match interface::check_module(module) {
        ACCEPTED => Ok(()),
        answer => Err(format!("{answer:?} for a module that is valid")),
    }
}

/// All eight covered chunks and two others. Each list has at least two blocks.
fn everything() -> Draft {
    let song = |name: &[u8], playlist: &[u16]| Song {
        name: name.to_vec(),
        playlist: playlist.to_vec(),
    };
    let instrument = |sample, loop_start, loop_length, flags| Instrument {
        name: b"reed".to_vec(),
        sample,
        volume: 64,
        rate: 8_363,
        loop_start,
        loop_length,
        panning: -128,
        flags,
    };
    let envelope = |instrument, points: &[(u16, i16)]| Envelope {
        instrument,
        flags: 0b1111,
        sections: points.len() as u8 - 1,
        first_sustain: 1,
        loop_first: 1,
        loop_last: 2,
        second_sustain: 2,
        points: points.to_vec(),
    };
    let tune = Tune {
        revision: 0x12,
        name: Some(b"Everything".to_vec()),
        songs: vec![song(b"one", &[0, 2, 1]), song(b"two", &[2])],
        instruments: vec![
            instrument(1, 1, 2, 1),
            instrument(3, 0, 3, 2),
            instrument(0, 9, 9, 0),
        ],
        patterns: vec![
            Pattern::new(2, &[2, 3, 0x47, 1, 0, 0]),
            Pattern::new(1, &[4, 0x3F, 1, 2, 3, 4, 5, 6, 0]),
            Pattern::new(0, &[]),
        ],
        samples: vec![
            Sample::new(1, &[1, 2, 3]),
            Sample::new(2, &[1, 2, 3, 4]),
            Sample::new(4, &[1, 2, 3, 4, 5, 6, 7, 8, 9, 10, 11, 12]),
        ],
        volume_envelopes: Some(vec![
            envelope(1, &[(0, 64), (5, 0), (9, 32)]),
            envelope(3, &[(0, 1), (1, 2), (2, 3), (3, 64)]),
        ]),
        panning_envelopes: Some(vec![envelope(2, &[(0, -128), (7, 128), (9, 0)])]),
        ..Tune::default()
    };
    let mut draft = tune.draft();
    draft
        .chunks
        .insert(1, Chunk::new(b"PNAM", b"\0\x01x".to_vec()));
    draft.chunks.push(Chunk::new(b"DSPE", vec![0, 0, 0, 0]));
    draft
}

/// Every list has one block, and the envelopes have one section.
fn small(version: u8, sample: Sample) -> Vec<u8> {
    let envelope = |points: [(u16, i16); 2]| Envelope {
        instrument: 1,
        flags: 0b1111,
        sections: 1,
        loop_last: 1,
        second_sustain: 1,
        points: points.to_vec(),
        ..Envelope::default()
    };
    let tune = Tune {
        version,
        name: Some(vec![]),
        songs: vec![Song {
            name: vec![],
            playlist: vec![0],
        }],
        instruments: vec![Instrument {
            sample: 1,
            volume: 64,
            loop_start: 1,
            loop_length: 2,
            panning: 128,
            flags: 1,
            ..Instrument::default()
        }],
        patterns: vec![Pattern::new(2, &[0, 2, 3, 0x47, 1, 0])],
        samples: vec![sample],
        volume_envelopes: Some(vec![envelope([(0, 64), (9, 0)])]),
        panning_envelopes: Some(vec![envelope([(0, 64), (9, 0)])]),
        ..Tune::default()
    };
    tune.bytes()
}

#[test]
fn the_corpus() {
    let cases = module_cases();
    for (index, case) in cases.iter().enumerate() {
        if let Err(what) = compare::case(ARCHIVE, case) {
            panic!("case {index} of the modules of the corpus: {what}");
        }
    }
    assert!(cases.len() > 500, "only {} cases", cases.len());
}

#[test]
fn the_sample_files() {
    modules::sample_files(agrees);
}

#[test]
fn valid_modules() {
    modules::valid(|module, _| accepted(module), 20_000, 10);
}

#[test]
fn damaged_modules() {
    modules::damaged_parts(agrees, 100_000, 10);
}

#[test]
fn damaged_bytes() {
    modules::damaged_bytes(agrees, 50_000, 10);
}

/// Chunks in any order and number. Limits are valid if all counts are 0.
#[test]
fn heaps_of_chunks() {
    const OTHER: [Name; 4] = [*b"DSPE", *b"AAAA", *b"ZZZZ", *b"IN O"];
    for_seeds(50_000, |random| {
        let mut draft = Tune::default().draft();
        draft.chunks.truncate(random.below(6) as usize);
        for _ in 0..random.below(8) {
            let name = if random.chance(75) {
                random.pick(&COVERED)
            } else {
                random.pick(&OTHER)
            };
            let length = match &name {
                _ if random.chance(10) => random.below(50),
                b"NAME" => 44,
                b"INFO" => 10,
                b"VENV" | b"PENV" => 2,
                _ => 0,
            };
            let mut data = vec![0; length as usize];
            if name == *b"INFO" && length == 10 {
                data[9] = random.pick(&[4, 4, 4, 3, 6]);
            }
            let place = random.below(draft.chunks.len() as u64 + 1) as usize;
            draft.chunks.insert(place, Chunk::new(&name, data));
        }
        if random.chance(10) {
            let length = random.below(12);
            draft.tail = bytes(random, length);
        }
        compare::module(ARCHIVE, &draft.bytes())
    });
}

#[test]
fn any_bytes() {
    modules::any_bytes(agrees, 20_000);
}

/// Every prefix of a module with all chunks, in two orders of the chunks; the module without each byte, and with an extra byte.
#[test]
fn every_cut() {
    let reversed = everything().ordered(&[
        *b"PENV", *b"VENV", *b"DSPE", *b"INFO", *b"SMPL", *b"PATT", *b"INST", *b"SONG", *b"NAME",
    ]);
    for draft in [everything(), reversed] {
        let module = draft.bytes();
        accepted(&module).unwrap();
        modules::every_cut(&module, agrees);
    }
}

/// A small module of each version, with each byte changed to every value.
#[test]
fn every_change_of_a_byte() {
    for version in [2, 3] {
        let module = small(version, Sample::new(1, &[0x40, 0x80, 0xC0]));
        accepted(&module).unwrap();
        modules::every_change(&module, modules::all_values, agrees);
    }
    accepted(UPPER_BITS).unwrap();
    modules::every_change(UPPER_BITS, modules::all_values, agrees);
}

/// A pattern whose second row has an entry with each mask byte: whole, cut at every byte, and with a track that is too high.
#[test]
fn every_mask() {
    let with_row = |row: &[u8]| {
        let stream = [&[2, 0xC3, 5, 6, 0], row].concat();
        let tune = Tune {
            patterns: vec![Pattern::new(2, &stream)],
            ..Tune::default()
        };
        tune.bytes()
    };
    let broken = ModuleAnswer {
        number: 15,
        place: 50,
    };
    for mask in 0..=255 {
        let entry = masks::entry(4, mask);
        accepted(&with_row(&[&entry[..], &[0]].concat())).unwrap();
        let too_high = [&masks::entry(5, mask)[..], &[0]].concat();
        let cuts = (0..=entry.len()).map(|cut| &entry[..cut]);
        for row in cuts.chain([&too_high[..]]) {
            let module = with_row(row);
            compare::module(ARCHIVE, &module).unwrap();
            assert_eq!(interface::check_module(&module), broken, "{row:02x?}");
        }
    }
}

/// The four bytes at every place, as a number increased so far that a sum or product of 32 bits would wrap.
#[test]
fn wild_numbers() {
    for width in [1, 2, 4] {
        let mut module = small(3, Sample::new(width, &[0; 12]));
        accepted(&module).unwrap();
        for place in 0..module.len() - 3 {
            let stored: [u8; 4] = module[place..place + 4].try_into().unwrap();
            for eighth in 0..8u32 {
                for rest in [0, 1, 2, 4, 8, 1 << 16, 1 << 24] {
                    for moved in [(eighth << 29) + rest, (eighth << 29).wrapping_sub(rest)] {
                        let number = u32::from_be_bytes(stored).wrapping_add(moved);
                        module[place..place + 4].copy_from_slice(&number.to_be_bytes());
                        compare::module(ARCHIVE, &module).unwrap();
                    }
                }
            }
            module[place..place + 4].copy_from_slice(&stored);
        }
    }
}

/// Every loop from a list of starts and lengths, on samples of few frames and of none.
#[test]
fn every_loop() {
    const HALF: u32 = 1 << 31;
    let near = |number: u32| (0..8).map(move |offset| number.wrapping_add(offset).wrapping_sub(3));
    let numbers: Vec<u32> = near(0).chain(near(HALF)).collect();
    for frames in 0..5 {
        let mut tune = Tune {
            samples: vec![Sample::new(2, &vec![0; 2 * frames])],
            instruments: vec![Instrument::default()],
            ..Tune::default()
        };
        for sample in [0, 1] {
            for flags in 0..4 {
                for &loop_start in &numbers {
                    for &loop_length in &numbers {
                        let instrument = &mut tune.instruments[0];
                        instrument.sample = sample;
                        instrument.flags = flags;
                        instrument.loop_start = loop_start;
                        instrument.loop_length = loop_length;
                        let looped = flags > 0 && loop_length > 0;
                        let end = u64::from(loop_start) + u64::from(loop_length);
                        let fits = sample == 1 && end <= frames as u64;
                        one_loop(&tune.bytes(), !looped || fits);
                    }
                }
            }
        }
    }
}

/// INST follows INFO and an empty SONG at 8 + 18 + 8. Its first block is 8 bytes further.
fn one_loop(module: &[u8], is_valid: bool) {
    let expected = if is_valid {
        ACCEPTED
    } else {
        ModuleAnswer {
            number: 14,
            place: 42,
        }
    };
    assert_eq!(interface::check_module(module), expected, "{module:02x?}");
    compare::module(ARCHIVE, module).unwrap();
}

/// Every two-byte number in the fields of INFO, with all counts 0 and no blocks.
#[test]
fn every_number_of_info() {
    let mut module = Tune::default().bytes();
    for field in [16, 18, 20, 22, 24] {
        let stored = [module[field], module[field + 1]];
        for number in 0..=u16::MAX {
            module[field..field + 2].copy_from_slice(&number.to_be_bytes());
            compare::module(ARCHIVE, &module).unwrap();
        }
        module[field..field + 2].copy_from_slice(&stored);
    }
}

#[test]
fn no_bytes() {
    let refused = ModuleAnswer {
        number: 2,
        place: 0,
    };
    assert_eq!(interface::check_module_at_null(), refused);
    assert_eq!(interface::check_module(&[]), refused);
}

/// The module can be at any address, and the bytes before and after it have no effect.
#[test]
fn modules_at_every_alignment() {
    modules::at_every_alignment(&everything().bytes(), |module, _| {
        accepted(module)?;
        compare::module(ARCHIVE, &module[..module.len() - 1])
    });
}
