//! Repacking a whole module: libdbm0.a against the reference, and its own properties. DBM0_CASES is the number of random cases and
//! DBM0_SEED the first seed. Modules of the maximum length are in large_repack.rs.

use archive::masks::{NO_UPPER_BITS, UPPER_BITS};
use archive::modules::{all_values, every_change};
use archive::repacking::REPACK;
use archive::seeds::for_seeds;
use reference::draft::{Chunk, Pattern, Sample, Song, Tune};
use reference::generate::{damaged, module, tune, Limits, Random};
use reference::module::check;

/// P2, a filler in the packer's own stream, tracks in descending order; chunks before and after PATT. INFO is at 8, PATT at 26, PNAM at
/// 106.
const BEFORE: &[u8; 116] = b"DBM0\x02\x21\xDE\xAD\
    INFO\x00\x00\x00\x0A\x00\x00\x00\x01\x00\x00\x00\x03\x00\x06\
    PATT\x00\x00\x00\x24\
    \x00\x02\x00\x00\x00\x08\x02\x01\x47\x02\x02\x01\x00\x00\
    \x00\x01\x00\x00\x00\x01\x00\xFF\
    \x00\x01\x00\x00\x00\x07\x06\x20\x09\x01\x01\x05\x00\x77\
    SONG\x00\x00\x00\x00INST\x00\x00\x00\x00\
    SMPL\x00\x00\x00\x0C\x00\x00\x00\x02\x00\x00\x00\x02PATT\
    PNAM\x00\x00\x00\x02\x80\x81";

/// The same with P1 instead of P2.
const AFTER: &[u8; 114] = b"DBM0\x02\x21\xDE\xAD\
    INFO\x00\x00\x00\x0A\x00\x00\x00\x01\x00\x00\x00\x03\x00\x06\
    PATT\x00\x00\x00\x22\
    \x00\x02\x00\x00\x00\x06\x02\x03\x47\x01\x00\x00\
    \x00\x01\x00\x00\x00\x01\x00\x00\
    \x00\x01\x00\x00\x00\x07\x01\x01\x05\x06\x20\x09\x00\x00\
    SONG\x00\x00\x00\x00INST\x00\x00\x00\x00\
    SMPL\x00\x00\x00\x0C\x00\x00\x00\x02\x00\x00\x00\x02PATT\
    PNAM\x00\x00\x00\x02\x80\x81";

/// The patterns of `UPPER_BITS` and `NO_UPPER_BITS` are packed to these: bits 6 and 7 of the masks are 0.
const PACKED: &[u8; 99] = b"DBM0\x03\x00\x00\x00\
    INFO\x00\x00\x00\x0A\x00\x00\x00\x01\x00\x00\x00\x02\x00\x04\
    SONG\x00\x00\x00\x00INST\x00\x00\x00\x00\
    PATT\x00\x00\x00\x1E\
    \x00\x02\x00\x00\x00\x10\
    \x02\x02\x09\x04\x01\x47\x00\x03\x3F\x11\x12\x13\x14\x15\x16\x00\
    \x00\x01\x00\x00\x00\x01\x00\x00\
    SMPL\x00\x00\x00\x0B\x00\x00\x00\x01\x00\x00\x00\x03\x21\x22\x23";

archive::tests_of_a_call! {
    call: REPACK,
    typed: [(&BEFORE[..], &AFTER[..]), (AFTER, AFTER), (UPPER_BITS, PACKED), (NO_UPPER_BITS, PACKED)],
    into null: interface::repack_into_null,
    of null: interface::repack_null,
    cut: [&BEFORE[..], AFTER, UPPER_BITS],
    valid modules: 4_000,
    damaged modules: 10_000,
}

/// Streams with faults, in blocks of the right length. Some of the streams remain valid.
#[test]
fn damaged_streams() {
    for_seeds(10_000, |random| {
        let mut tune = tune(random, &Limits::SMALL);
        for pattern in &mut tune.patterns {
            if random.chance(60) {
                pattern.stream = damaged(random, &pattern.stream);
            }
            pattern.filler = random.byte();
        }
        agrees(&tune.bytes(), random)
    });
}

/// Patterns of many tracks and rows.
#[test]
fn wide_patterns() {
    let most = Limits {
        patterns: 4,
        rows: 20,
        row_entries: 300,
        tracks: 254,
        ..Limits::SMALL
    };
    for_seeds(100, |random| agrees(&module(random, &most).bytes(), random));
}

/// Many chunks and patterns, and only a few bytes of streams.
#[test]
fn many_chunks_and_patterns() {
    let most = Limits {
        patterns: 1_024,
        rows: 2,
        row_entries: 2,
        others: 200,
        other_bytes: 9,
        ..Limits::SMALL
    };
    for_seeds(50, |random| {
        REPACK.compare(&module(random, &most).bytes(), random)
    });
}

/// Two modules with each byte changed to every value.
#[test]
fn every_change_of_a_byte() {
    for (module, rooms) in [
        (&BEFORE[..], [0, 113, 114, 116, 130]),
        (UPPER_BITS, [0, 98, 99, 103, 110]),
    ] {
        every_change(module, all_values, |module, _| {
            rooms
                .into_iter()
                .try_for_each(|room| REPACK.into_room(module, room))
        });
    }
}

/// PATT at each place after INFO, with an empty chunk and one of one byte around it.
#[test]
fn patt_at_every_place() {
    let patterns = vec![
        Pattern {
            rows: 1,
            stream: vec![4, 1, 1, 1, 0, 0],
            filler: 0,
        },
        Pattern {
            rows: 2,
            stream: vec![3, 7, 0, 0, 9, 0, 0],
            filler: 0x5A,
        },
    ];
    let tune = Tune {
        name: Some(b"any".to_vec()),
        songs: vec![Song {
            name: b"PATT".to_vec(),
            playlist: vec![0, 1],
        }],
        patterns,
        samples: vec![Sample::new(4, b"PATTPATT")],
        volume_envelopes: Some(vec![]),
        panning_envelopes: Some(vec![]),
        ..Tune::default()
    };
    let mut draft = tune.draft().ordered(&[*b"INFO"]);
    draft.chunks.push(Chunk::new(b"PATU", vec![]));
    draft.chunks.push(Chunk::new(b"PBTT", vec![7]));
    let index = draft.index(b"PATT");
    let patt = draft.chunks.remove(index);
    for place in 1..=draft.chunks.len() {
        let mut draft = draft.clone();
        draft.chunks.insert(place, patt.clone());
        let module = draft.bytes();
        check(&module).expect("it is valid");
        agrees(&module, &mut Random::new(place as u64)).unwrap();
    }
}
