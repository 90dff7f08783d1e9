//! Comparing two modules: libdbm0.a against the reference, and its own properties. DBM0_CASES is the number of random cases and DBM0_SEED the
//! first seed. Modules of the maximum length are in large_compare.rs.

use std::collections::BTreeMap;

use archive::compare::GuardedOutput;
use archive::comparing;
use archive::comparing::{
    agrees, byte_values, changed_pair, compared, enough, entries, library, list, pair_agrees,
    CompareAnswer, FIRST, SECOND,
};
use archive::masks::{places_in_module, NO_UPPER_BITS, UPPER_BITS};
use archive::modules::{self, at_every_alignment, file};
use archive::replacing::{self, module_with_many_loops};
use archive::seeds::for_seeds;
use archive::writing::{writes, WritingAnswer};
use reference::compare::Difference;
use reference::corpus::{comparison_cases, Case};
use reference::draft::{Chunk, Envelope, Pattern, Sample, Song, Tune};
use reference::generate::{bytes, module, Limits, Random};
use reference::module::check;
use reference::pairs::{pair, valid_change, Relation, CHANGES, RELATIONS};

/// The differences between the two typed modules.
const LIST: &[u8; 80] = b"\
    \x00\x01\x00\x00\x00\x00\x00\x00\x00\x00\
    \x00\x02\x00\x00\x00\x00\x00\x00\x00\x00\
    \x00\x03\x00\x00\x00\x00\x00\x00\x00\x00\
    \x00\x04\x00\x02\x00\x00\x00\x00\x00\x00\
    \x00\x05\x00\x00\x00\x00\x00\x00\x00\x00\
    \x00\x07\x00\x02\x00\x00\x00\x00\x00\x00\
    \x00\x08\x00\x00\x00\x01\x00\x06\x00\x06\
    \x00\x08\x00\x01\x00\x00\x00\x00\x00\x00";

archive::tests_on_modules! {
    agrees: agrees,
    cut: [&FIRST[..], SECOND, UPPER_BITS],
    valid modules: 3_000,
    damaged modules: 6_000,
}

/// The library answers this and writes this list, and the same for the modules swapped.
#[track_caller]
fn differ(first: &[u8], second: &[u8], expected: &[Difference]) {
    let answer = compared(expected.len());
    comparing!(second).answers(first, answer, &list(expected));
    comparing!(first).answers(second, answer, &list(expected));
}

#[test]
fn outputs_of_every_length_and_alignment() {
    writes(LIST, |output| library(FIRST, SECOND, output).answer());
    writes(LIST, |output| library(SECOND, FIRST, output).answer());
}

#[test]
fn modules_at_every_alignment() {
    at_every_alignment(FIRST, |first, _| {
        comparing!(&SECOND[..]).answers(first, compared(8), LIST);
        comparing!(first).answers(SECOND, compared(8), LIST);
        Ok(())
    });
}

/// NULL for the output and for each module if the length is 0.
#[test]
fn memory_of_no_bytes() {
    let refused = CompareAnswer::refused;
    let into_null = interface::compare_into_null;
    assert_eq!(into_null(FIRST, SECOND), refused(17, 80));
    assert_eq!(into_null(FIRST, FIRST), compared(0));
    assert_eq!(into_null(&FIRST[..358], SECOND), refused(4, 349));
    assert_eq!(into_null(FIRST, &SECOND[..611]), refused(4, 602));
    assert_eq!(into_null(&[], &[]), refused(2, 0));
    let mut out = [0xAA; 100];
    let null_with = interface::compare_null_with;
    assert_eq!(null_with(SECOND, &mut out), refused(2, 0));
    assert_eq!(null_with(&[], &mut []), refused(2, 0));
    assert_eq!(null_with(&SECOND[..611], &mut out), refused(2, 0));
    let with_null = interface::compare_with_null;
    assert_eq!(with_null(FIRST, &mut out), refused(2, 0));
    assert_eq!(with_null(&FIRST[..358], &mut out), refused(4, 349));
    assert_eq!(out, [0xAA; 100]);
}

/// The numbers that the request for this call names.
#[test]
fn the_carousel() {
    let (carousel, old) = (file("carousel.dbm"), file("old.dbm"));
    differ(&carousel, &carousel, &[]);
    let mut repacked = vec![0; carousel.len()];
    let length = interface::repack(&carousel, &mut repacked).length as usize;
    differ(&carousel, &repacked[..length], &[]);
    let mut shorter = vec![0; 1_168];
    let frames: Vec<u8> = (0..80).collect();
    let replaced = interface::replace_sample(&carousel, 2, &frames, &mut shorter);
    assert_eq!(replaced.record.length, 1_168);
    differ(&carousel, &shorter, &[[4, 2, 0, 0, 0], [7, 2, 0, 0, 0]]);
    let all = [
        [1, 0, 0, 0, 0],
        [2, 0, 0, 0, 0],
        [2, 1, 0, 0, 0],
        [2, 2, 0, 0, 0],
        [2, 3, 0, 0, 0],
        [3, 0, 0, 0, 0],
        [3, 1, 0, 0, 0],
        [4, 1, 0, 0, 0],
        [4, 2, 0, 0, 0],
        [4, 3, 0, 0, 0],
        [5, 0, 0, 0, 0],
        [6, 0, 0, 0, 0],
        [7, 1, 0, 0, 0],
        [7, 2, 0, 0, 0],
        [7, 3, 0, 0, 0],
        [8, 0, 0, 0, 0],
        [8, 1, 0, 0, 0],
        [8, 2, 0, 0, 0],
    ];
    differ(&carousel, &old, &all);
    let refused = CompareAnswer::refused;
    for (first, second) in [(&carousel, &old), (&old, &carousel)] {
        assert_eq!(interface::compare(first, second, &mut []), refused(17, 180));
    }
}

/// Bits 6 and 7 of masks are no difference, and real differences of the same entries are listed.
#[test]
fn upper_bits_of_masks() {
    differ(UPPER_BITS, NO_UPPER_BITS, &[]);
    let mut repacked = [0; 103];
    let length = interface::repack(UPPER_BITS, &mut repacked).length as usize;
    differ(UPPER_BITS, &repacked[..length], &[]);
    let with = |module: &[u8], place: usize, byte: u8| {
        let mut module = module.to_vec();
        module[place] = byte;
        module
    };
    for other in [&UPPER_BITS[..], NO_UPPER_BITS] {
        differ(UPPER_BITS, &with(other, 72, 0x96), &[[8, 0, 1, 3, 6]]);
        let track = with(other, 56, 1);
        differ(UPPER_BITS, &track, &[[8, 0, 0, 1, 1], [8, 0, 0, 4, 1]]);
        let mask = with(other, 57, other[57] ^ 3);
        differ(UPPER_BITS, &mask, &[[8, 0, 0, 4, 1], [8, 0, 0, 4, 2]]);
    }
    // Each of the masks changed to every value.
    for place in places_in_module(UPPER_BITS) {
        for mask in modules::all_values(0) {
            let changed = with(UPPER_BITS, place, mask);
            for other in [&UPPER_BITS[..], NO_UPPER_BITS] {
                pair_agrees(&changed, other, &mut Random::new(1)).unwrap();
            }
            if mask & 63 == NO_UPPER_BITS[place] {
                differ(&changed, NO_UPPER_BITS, &[]);
            }
        }
    }
}

/// A module of no bytes.
const NOTHING: [u8; 0] = [];

/// A pair of modules that are refused, in both orders, and each with an accepted one.
#[test]
fn refused_modules() {
    let (short_organ, broken_pattern) = (file("short-organ.dbm"), file("broken-pattern.dbm"));
    let carousel = file("carousel.dbm");
    comparing!(&broken_pattern).refuses(&short_organ, 14, 540);
    comparing!(&short_organ).refuses(&broken_pattern, 15, 728);
    comparing!(&carousel).refuses(&short_organ, 14, 540);
    comparing!(&short_organ).refuses(&carousel, 14, 540);
    comparing!(&broken_pattern).refuses(&carousel, 15, 728);
    comparing!(&NOTHING).refuses(&short_organ, 14, 540);
    comparing!(&NOTHING).refuses(&carousel, 2, 0);
}

/// A module with one panning envelope, which has these three values.
fn panning(values: [i16; 3], version: u8) -> Vec<u8> {
    let points = values.into_iter().zip([0, 10, 20]);
    let tune = Tune {
        version,
        instruments: vec![Default::default()],
        panning_envelopes: Some(vec![Envelope {
            instrument: 1,
            sections: 2,
            points: points.map(|(value, position)| (position, value)).collect(),
            ..Envelope::default()
        }]),
        ..Tune::default()
    };
    tune.bytes()
}

#[test]
fn panning_of_both_versions() {
    let old = panning([0, 32, 64], 2);
    differ(&old, &panning([-128, 0, 128], 3), &[]);
    for values in [[0, 32, 64], [-127, 0, 128], [-128, 1, 128], [-128, 0, 127]] {
        differ(&old, &panning(values, 3), &[[6, 0, 0, 0, 0]]);
    }
    for value in 0..=64 {
        let old = panning([value; 3], 2);
        for scaled in -128..=128 {
            let expected: &[Difference] = match scaled == 4 * value - 128 {
                true => &[],
                false => &[[6, 0, 0, 0, 0]],
            };
            let mut output = GuardedOutput::new(10);
            let new = panning([4 * value - 128, scaled, 4 * value - 128], 3);
            assert_eq!(library(&old, &new, &mut output), compared(expected.len()));
            assert!(output.slice().starts_with(&list(expected)));
        }
    }
}

/// The answer with an output that is always enough.
fn differences(first: &[u8], second: &[u8]) -> Option<Vec<Difference>> {
    let mut output = GuardedOutput::new(enough(first.len(), second.len()));
    let answer = library(first, second, &mut output);
    let length = answer.answer().length as usize;
    (answer.number == 0).then(|| entries(&output.slice()[..length]))
}

/// The cases of the corpus, with the room of the case and around the needed length, in both orders.
#[test]
fn cases_of_the_corpus() {
    let (mut refused, mut listed) = (0, 0);
    for (index, case) in comparison_cases().iter().enumerate() {
        let Case::Comparison {
            room,
            first,
            second,
        } = case
        else {
            panic!("case {index} is of another kind");
        };
        for (first, second) in [(first, second), (second, first)] {
            let random = &mut Random::new(index as u64);
            comparing!(second)
                .into_room(first, *room as usize)
                .and_then(|()| pair_agrees(first, second, random))
                .unwrap_or_else(|what| panic!("case {index}: {what}"));
            match differences(first, second) {
                None => refused += 1,
                Some(list) => listed += list.len(),
            }
        }
    }
    assert!(refused >= 60 && listed >= 600, "{refused} and {listed}");
}

/// Pairs of all relations. All kinds of entries occur.
#[test]
fn pairs() {
    for relation in RELATIONS {
        let cases = match relation {
            Relation::Many => 12,
            _ => 500,
        };
        for_seeds(cases, |random| {
            let (first, second) = pair(random, relation);
            pair_agrees(&first, &second, random).map_err(|what| format!("{relation:?}: {what}"))
        });
    }
    // The number of entries of each kind, with those for fields of cells apart, in the pairs of the first seeds.
    let mut counts = BTreeMap::new();
    for seed in 1..=100 {
        let (first, second) = pair(&mut Random::new(seed), Relation::SomeChanges);
        for [kind, _, _, track, _] in differences(&first, &second).expect("both are accepted") {
            *counts.entry((kind, track > 0)).or_insert(0) += 1;
        }
    }
    let kinds: Vec<(u16, bool)> = counts.keys().copied().collect();
    let mut all: Vec<(u16, bool)> = (1..=8).map(|kind| (kind, false)).collect();
    all.push((8, true));
    assert_eq!(kinds, all);
    assert!(counts.values().all(|&count| count >= 5), "{counts:?}");
}

/// One change of each kind, alone.
#[test]
fn every_change() {
    for (name, change) in CHANGES {
        for_seeds(60, |random| {
            let (first, second) = changed_pair(random, change);
            pair_agrees(&first, &second, random).map_err(|what| format!("{name}: {what}"))
        });
    }
}

/// What holds without the reference: the list of the modules swapped is the same, a module and itself have none, and it has as many entries as
/// the answer of an output without room says.
#[test]
fn swapped_and_with_itself() {
    for_seeds(1_500, |random| {
        let relation = random.pick(&[
            Relation::OneChange,
            Relation::SomeChanges,
            Relation::Unrelated,
        ]);
        let (first, second) = pair(random, relation);
        let list = differences(&first, &second).ok_or("it is refused")?;
        if differences(&second, &first).as_ref() != Some(&list) {
            return Err("another list for the modules swapped".to_string());
        }
        if !list.windows(2).all(|two| two[0] < two[1]) {
            return Err("the entries do not ascend".to_string());
        }
        for module in [&first, &second] {
            if differences(module, module) != Some(vec![]) {
                return Err("a module and itself differ".to_string());
            }
        }
        let no_room = interface::compare(&first, &second, &mut []);
        let expected = match list.len() {
            0 => compared(0),
            count => CompareAnswer::refused(17, 10 * count),
        };
        match no_room == expected {
            true => Ok(()),
            false => Err(format!("{no_room:?} without room")),
        }
    });
}

/// A module repacked by the library has no differences. After the library has replaced a sample, the list has as many instruments as loops were
/// cleared, and at most that sample.
#[test]
fn after_the_other_calls_of_the_library() {
    let mut cleared = 0;
    for seed in 1..=1_000 {
        let random = &mut Random::new(seed);
        let given = match seed % 10 {
            0 => module_with_many_loops(random),
            _ => module(random, &Limits::SMALL).bytes(),
        };
        let mut out = vec![0; given.len()];
        let length = interface::repack(&given, &mut out).length as usize;
        assert_eq!(differences(&given, &out[..length]), Some(vec![]), "{seed}");
        let frames = random.below(8);
        let frames = bytes(random, 2 * frames);
        let mut output = GuardedOutput::new(given.len() + frames.len());
        let replaced = replacing::library(&given, 1, &frames, &mut output);
        if replaced.number != 0 {
            continue;
        }
        let result = &output.slice()[..replaced.record.length as usize];
        let list = differences(&given, result).expect("both are accepted");
        let count = |kind| list.iter().filter(|entry| entry[0] == kind).count();
        assert_eq!(count(4) as u64, replaced.record.cleared, "{seed}");
        let same = result == given;
        let sample = usize::from(!same);
        assert!(list[count(4)..] == vec![[7, 1, 0, 0, 0]; sample], "{seed}");
        cleared += replaced.record.cleared;
    }
    assert!(cleared >= 100, "only {cleared}");
}

/// Each module with each byte changed, compared with the other one and with itself.
#[test]
fn every_change_of_a_byte() {
    for (given, other) in [(&FIRST[..], &SECOND[..]), (SECOND, FIRST)] {
        modules::every_change(given, byte_values, |module, _| {
            for second in [other, given] {
                let call = comparing!(second);
                call.into_room(module, 0)?;
                call.into_room(module, 90)?;
            }
            comparing!(module).into_room(given, 90)
        });
    }
}

/// Both modules are the same memory, or parts of the same memory: one inside the other, or the end of one and the beginning of the other.
#[test]
fn modules_that_overlap() {
    for_seeds(600, |random| {
        let outer = module(random, &Limits::SMALL);
        let inner = module(random, &Limits::SMALL).bytes();
        let inner_place = 8 + 8;
        let mut with_inner = outer.clone();
        let chunk = Chunk::new(b"INNR", inner.clone());
        with_inner.chunks.insert(0, chunk);
        let memory = with_inner.bytes();
        check(&memory).expect("it is valid");
        let inside = &memory[inner_place..inner_place + inner.len()];
        let expected = differences(&outer.bytes(), &inner);
        for (first, second) in [(&memory[..], inside), (inside, &memory[..])] {
            pair_agrees(first, second, random)?;
            if differences(first, second) != expected {
                return Err("another list than for modules that are apart".to_string());
            }
        }
        pair_agrees(&memory, &memory, random)?;
        // Any two parts.
        let mut part = || {
            let length = memory.len() as u64;
            let (one, other) = (random.below(length + 1), random.below(length + 1));
            &memory[one.min(other) as usize..one.max(other) as usize]
        };
        let (one, other) = (part(), part());
        pair_agrees(one, other, random)?;
        pair_agrees(&memory, one, random)?;
        pair_agrees(other, &memory, random)
    });
}

/// Larger modules, with few changes.
#[test]
fn larger_modules() {
    for_seeds(60, |random| {
        let tune = reference::generate::tune(random, &Limits::USUAL);
        let mut changed = tune.clone();
        for _ in 0..random.below(4) {
            changed = valid_change(random, &changed);
        }
        pair_agrees(&tune.bytes(), &changed.bytes(), random)
    });
}

/// Numbers over 255: songs, envelopes, patterns and rows; and 254 tracks.
#[test]
fn large_numbers() {
    let envelope = Envelope {
        instrument: 1,
        ..Envelope::default()
    };
    let row = |fields: [u8; 2]| [1, 0x01, fields[0], 254, 0x20, fields[1], 0];
    let of = |value: u8, fields: [u8; 2]| {
        let song = |name: u8| Song {
            name: vec![name],
            playlist: vec![0],
        };
        let mut stream = vec![0; 299];
        stream.extend(row(fields));
        let mut tune = Tune {
            tracks: 254,
            songs: vec![song(1); 400],
            instruments: vec![Default::default(); 255],
            samples: vec![Sample::new(1, &[7]); 255],
            patterns: vec![Pattern::new(1, &[0]); 300],
            volume_envelopes: Some(vec![envelope.clone(); 300]),
            panning_envelopes: Some(vec![envelope.clone(); 257]),
            ..Tune::default()
        };
        tune.songs[399] = song(value);
        tune.songs[255] = song(value);
        tune.instruments[254].volume = value.into();
        tune.samples[254] = Sample::new(1, &[value]);
        tune.patterns[299] = Pattern::new(300, &stream);
        tune.volume_envelopes.as_mut().expect("they are there")[299].flags = value & 1;
        tune.panning_envelopes.as_mut().expect("they are there")[256].flags = value & 1;
        tune.bytes()
    };
    differ(
        &of(2, [3, 4]),
        &of(3, [0, 5]),
        &[
            [3, 255, 0, 0, 0],
            [3, 399, 0, 0, 0],
            [4, 255, 0, 0, 0],
            [5, 299, 0, 0, 0],
            [6, 256, 0, 0, 0],
            [7, 255, 0, 0, 0],
            [8, 299, 299, 1, 1],
            [8, 299, 299, 254, 6],
        ],
    );
}
