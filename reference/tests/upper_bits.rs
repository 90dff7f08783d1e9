//! Bits 6 and 7 of masks in whole modules, with expectations typed by hand: they are ignored by the check, by the queries and by comparing,
//! repacking writes them as 0, and replacing a sample keeps them.

use std::collections::BTreeSet;

use reference::compare::{compare, differences, Difference};
use reference::draft::{Pattern, Sample, Tune};
use reference::generate::{tune as made_tune, Limits, Random};
use reference::module::{check, read};
use reference::pairs::{pair, Relation};
use reference::pattern::{shown, Cell, Note};
use reference::records;
use reference::refusal::Refusal;
use reference::repack::repack;
use reference::replace::{replace_sample, Replaced};

/// Two patterns, and a sample of 8 bits. In row 0 of the first pattern, tracks 4, 2 and 1 have masks with bits 6 and 7, bit 6, and bit 7; in
/// row 1 all fields of track 3 are named by a mask with bit 6. The entry of the second pattern names no field.
///
///        0 header
///        8 INFO
///       26 SONG
///       34 INST
///       42 PATT   50 two rows, stream at 56, masks at 57, 60, 63 and 66, 74 one row, stream at 80, its mask at 81, 84 the end
///       84 SMPL   92 the sample, 103 the end
const GIVEN: &[u8; 103] = b"DBM0\x03\x00\x00\x00\
    INFO\x00\x00\x00\x0A\x00\x00\x00\x01\x00\x00\x00\x02\x00\x04\
    SONG\x00\x00\x00\x00INST\x00\x00\x00\x00\
    PATT\x00\x00\x00\x22\
    \x00\x02\x00\x00\x00\x12\
    \x04\xC1\x47\x02\x42\x09\x01\x80\x00\x03\x7F\x11\x12\x13\x14\x15\x16\x00\
    \x00\x01\x00\x00\x00\x03\x01\xC0\x00\x99\
    SMPL\x00\x00\x00\x0B\x00\x00\x00\x01\x00\x00\x00\x03\x21\x22\x23";

/// The same with masks that do not have the two bits.
const CLEARED: &[u8; 103] = b"DBM0\x03\x00\x00\x00\
    INFO\x00\x00\x00\x0A\x00\x00\x00\x01\x00\x00\x00\x02\x00\x04\
    SONG\x00\x00\x00\x00INST\x00\x00\x00\x00\
    PATT\x00\x00\x00\x22\
    \x00\x02\x00\x00\x00\x12\
    \x04\x01\x47\x02\x02\x09\x01\x00\x00\x03\x3F\x11\x12\x13\x14\x15\x16\x00\
    \x00\x01\x00\x00\x00\x03\x01\x00\x00\x99\
    SMPL\x00\x00\x00\x0B\x00\x00\x00\x01\x00\x00\x00\x03\x21\x22\x23";

/// Both are repacked to these 99 bytes.
const PACKED: &[u8; 99] = b"DBM0\x03\x00\x00\x00\
    INFO\x00\x00\x00\x0A\x00\x00\x00\x01\x00\x00\x00\x02\x00\x04\
    SONG\x00\x00\x00\x00INST\x00\x00\x00\x00\
    PATT\x00\x00\x00\x1E\
    \x00\x02\x00\x00\x00\x10\
    \x02\x02\x09\x04\x01\x47\x00\x03\x3F\x11\x12\x13\x14\x15\x16\x00\
    \x00\x01\x00\x00\x00\x01\x00\x00\
    SMPL\x00\x00\x00\x0B\x00\x00\x00\x01\x00\x00\x00\x03\x21\x22\x23";

/// The first module with another sample.
const REPLACED: &[u8; 104] = b"DBM0\x03\x00\x00\x00\
    INFO\x00\x00\x00\x0A\x00\x00\x00\x01\x00\x00\x00\x02\x00\x04\
    SONG\x00\x00\x00\x00INST\x00\x00\x00\x00\
    PATT\x00\x00\x00\x22\
    \x00\x02\x00\x00\x00\x12\
    \x04\xC1\x47\x02\x42\x09\x01\x80\x00\x03\x7F\x11\x12\x13\x14\x15\x16\x00\
    \x00\x01\x00\x00\x00\x03\x01\xC0\x00\x99\
    SMPL\x00\x00\x00\x0C\x00\x00\x00\x02\x00\x00\x00\x02\x80\x01\x7F\xFE";

/// The places of the masks in the first two modules.
const MASKS: [usize; 5] = [57, 60, 63, 66, 81];

fn refused<T>(number: u64, place: u64) -> Result<T, Refusal> {
    Err(Refusal { number, place })
}

/// The module with another byte at a place.
fn with(module: &[u8], place: usize, byte: u8) -> Vec<u8> {
    let mut module = module.to_vec();
    module[place] = byte;
    module
}

/// The repacked module, in an output of the module's own length.
#[track_caller]
fn repacked(module: &[u8]) -> Vec<u8> {
    let mut out = vec![0xAA; module.len()];
    let length = repack(module, &mut out).expect("an accepted module, no longer than it was");
    out.truncate(length as usize);
    out
}

/// The module with its first sample replaced by two frames.
#[track_caller]
fn with_new_sample(module: &[u8]) -> Vec<u8> {
    let mut out = vec![0xAA; module.len() + 4];
    let replaced = replace_sample(module, 1, b"\x80\x01\x7F\xFE", &mut out);
    out.truncate(replaced.expect("an accepted module").length as usize);
    out
}

/// These are the differences of the two modules, in both orders.
#[track_caller]
fn differ(one: &[u8], other: &[u8], expected: &[Difference]) {
    let list: BTreeSet<Difference> = expected.iter().copied().collect();
    assert_eq!(differences(one, other).as_ref(), Ok(&list));
    assert_eq!(differences(other, one), Ok(list));
    let count = expected.len() as u64;
    assert_eq!(
        compare(one, other, &mut vec![0; 10 * expected.len()]),
        Ok(count)
    );
}

/// The cells of a pattern.
#[track_caller]
fn unpacked(module: &[u8], pattern: u64, length: usize) -> Vec<u8> {
    let mut cells = vec![0xAA; length];
    assert_eq!(
        records::unpack(module, pattern, &mut cells),
        Ok(length as u64)
    );
    cells
}

#[test]
fn the_check_and_the_queries_ignore_them() {
    let cells = [
        0, 0, 0, 0, 0, 0, 0, 9, 0, 0, 0, 0, 0, 0, 0, 0, 0, 0, 0x47, 0, 0, 0, 0, 0, //
        0, 0, 0, 0, 0, 0, 0, 0, 0, 0, 0, 0, 0x11, 0x12, 0x13, 0x14, 0x15, 0x16, 0, 0, 0, 0, 0, 0,
    ];
    for module in [&GIVEN[..], CLEARED, PACKED, REPLACED] {
        assert_eq!(check(module), Ok(()));
        assert_eq!(records::pattern(module, 0), Ok(2));
        assert_eq!(unpacked(module, 0, 48), cells);
        assert_eq!(unpacked(module, 1, 24), [0; 24]);
        let note = Note::Pitch {
            octave: 4,
            semitone: 7,
        };
        let empty = shown([0; 6]);
        assert_eq!(records::cell(module, 0, 0, 4), Ok(Cell { note, ..empty }));
        let instrument = 9;
        assert_eq!(
            records::cell(module, 0, 0, 2),
            Ok(Cell {
                instrument,
                ..empty
            })
        );
        assert_eq!(records::cell(module, 0, 0, 1), Ok(empty));
        let full = shown([0x11, 0x12, 0x13, 0x14, 0x15, 0x16]);
        assert_eq!(records::cell(module, 0, 1, 3), Ok(full));
        assert_eq!(records::cell(module, 1, 0, 1), Ok(empty));
    }
}

#[test]
fn repacking_writes_them_as_0() {
    for module in [&GIVEN[..], CLEARED, PACKED] {
        for room in 0..99 {
            let mut out = vec![0xAA; room];
            assert_eq!(repack(module, &mut out), refused(17, 99));
            assert_eq!(out, vec![0xAA; room]);
        }
        let mut out = [0xAA; 103];
        assert_eq!(repack(module, &mut out), Ok(99));
        assert_eq!(out[..99], PACKED[..]);
        assert_eq!(out[99..], [0xAA; 4]);
    }
}

#[test]
fn replacing_a_sample_keeps_them() {
    let frames = b"\x80\x01\x7F\xFE";
    let mut out = [0xAA; 106];
    let answer = replace_sample(GIVEN, 1, frames, &mut out);
    let (length, cleared) = (104, 0);
    assert_eq!(answer, Ok(Replaced { length, cleared }));
    assert_eq!(out[..104], REPLACED[..]);
    assert_eq!(out[104..], [0xAA; 2]);
    let answer = replace_sample(GIVEN, 1, frames, &mut out[..103]);
    assert_eq!(answer, refused(17, 104));
}

#[test]
fn comparing_ignores_them() {
    for other in [&GIVEN[..], CLEARED, PACKED] {
        differ(GIVEN, other, &[]);
        differ(REPLACED, other, &[[7, 1, 0, 0, 0]]);
    }
    // A field, a track and a mask of entries with these bits, and of the others.
    for other in [&GIVEN[..], CLEARED] {
        let field = with(other, 72, 0x96);
        differ(GIVEN, &field, &[[8, 0, 1, 3, 6]]);
        let track = with(other, 56, 1);
        differ(GIVEN, &track, &[[8, 0, 0, 1, 1], [8, 0, 0, 4, 1]]);
        let mask = with(other, 57, other[57] ^ 0x03);
        differ(GIVEN, &mask, &[[8, 0, 0, 4, 1], [8, 0, 0, 4, 2]]);
    }
}

/// Each of the two bits in each of the masks, with all choices of the others.
#[test]
fn each_mask_has_them_or_not() {
    for bits in 0..1u16 << 10 {
        let mut module = CLEARED.to_vec();
        for (index, place) in MASKS.into_iter().enumerate() {
            module[place] |= ((bits >> (2 * index) & 3) << 6) as u8;
        }
        assert_eq!(repacked(&module), PACKED);
        differ(&module, GIVEN, &[]);
        let replaced = with_new_sample(&module);
        assert_eq!(replaced[..84], module[..84]);
        assert_eq!(replaced[84..], REPLACED[84..]);
    }
}

/// A module with one pattern of two rows, whose second row has these bytes, and a sample.
fn with_row(row: &[u8]) -> Vec<u8> {
    let tune = Tune {
        patterns: vec![Pattern::new(2, &[&[2, 0xC3, 5, 6, 0], row].concat())],
        samples: vec![Sample::new(1, &[0x21])],
        ..Tune::default()
    };
    tune.bytes()
}

/// All 256 masks in the entry of a row. Its bytes are made from the bits 0 to 5. Each cut of it is 15 at the pattern's block.
#[test]
fn every_mask_and_every_cut() {
    for mask in 0..=255u8 {
        let named: Vec<usize> = (0..6).filter(|bit| (mask & 63) >> bit & 1 == 1).collect();
        let fields: Vec<u8> = named.iter().map(|&bit| 0xF1 + bit as u8).collect();
        let of = |mask: u8| with_row(&[&[3, mask], &fields[..], &[0]].concat());
        let (module, low) = (of(mask), of(mask & 63));
        assert_eq!(check(&module), Ok(()), "{mask}");
        let mut cells = [0; 48];
        cells[6..8].copy_from_slice(&[5, 6]);
        for (&bit, &field) in named.iter().zip(&fields) {
            cells[36 + bit] = field;
        }
        assert_eq!(unpacked(&module, 0, 48), cells, "{mask}");
        assert_eq!(repacked(&module), repacked(&low), "{mask}");
        differ(&module, &low, &[]);
        let [new, new_low] = [&module, &low].map(|module| with_new_sample(module));
        assert_eq!(new == new_low, mask < 64, "{mask}");
        assert_eq!(with(&new, 62, mask & 63), new_low, "{mask}");
        // Without the row end the entry is whole, and with fewer bytes it is cut.
        let entry = [&[3, mask], &fields[..]].concat();
        for cut in 0..=entry.len() {
            assert_eq!(check(&with_row(&entry[..cut])), refused(15, 50), "{mask}");
        }
        let too_high = with_row(&[&[5, mask], &fields[..], &[0]].concat());
        assert_eq!(check(&too_high), refused(15, 50), "{mask}");
    }
}

/// The stream with masks that do not have the two bits.
fn without_upper_bits(stream: &[u8]) -> Vec<u8> {
    let mut stream = stream.to_vec();
    let mut place = 0;
    while place < stream.len() {
        if stream[place] == 0 {
            place += 1;
            continue;
        }
        stream[place + 1] &= 63;
        place += 2 + stream[place + 1].count_ones() as usize;
    }
    stream
}

/// Modules with random masks. Those with the two bits cleared show the same, are repacked to the same, and differ after replacing a sample
/// exactly in the masks.
#[test]
fn made_modules() {
    let mut with_bits = 0;
    for seed in 0..1_000 {
        let given = made_tune(&mut Random::new(seed), &Limits::SMALL);
        let mut low = given.clone();
        for pattern in &mut low.patterns {
            pattern.stream = without_upper_bits(&pattern.stream);
        }
        let [module, other] = [&given, &low].map(Tune::bytes);
        with_bits += u64::from(module != other);
        assert_eq!(check(&other), Ok(()), "seed {seed}");
        differ(&module, &other, &[]);
        assert_eq!(repacked(&module), repacked(&other), "seed {seed}");
        let kept = repacked(&module);
        for pattern in read(&kept).expect("it is accepted").patterns {
            assert_eq!(
                pattern.stream,
                without_upper_bits(pattern.stream),
                "seed {seed}"
            );
        }
        if !given.samples.is_empty() {
            let [new, new_other] = [&module, &other].map(|module| with_new_sample(module));
            let streams = |module: &[u8]| -> Vec<Vec<u8>> {
                let patterns = read(module).expect("it is accepted").patterns;
                patterns
                    .iter()
                    .map(|pattern| pattern.stream.to_vec())
                    .collect()
            };
            assert_eq!(streams(&new), streams(&module), "seed {seed}");
            assert_eq!(streams(&new_other), streams(&other), "seed {seed}");
        }
    }
    assert!((200..800).contains(&with_bits), "{with_bits}");
}

/// Two modules with the same records. Often one of them has the two bits in a mask that the other does not have.
#[test]
fn made_pairs() {
    let bits = |module: &[u8]| -> usize {
        let patterns = read(module).expect("it is accepted").patterns;
        let with_bits = patterns
            .iter()
            .filter(|pattern| without_upper_bits(pattern.stream) != pattern.stream);
        with_bits.count()
    };
    let mut other_bits = 0;
    for seed in 0..300 {
        let (one, other) = pair(&mut Random::new(seed), Relation::SameRecords);
        differ(&one, &other, &[]);
        other_bits += u64::from(bits(&one) != bits(&other));
    }
    assert!(other_bits >= 60, "{other_bits}");
}
