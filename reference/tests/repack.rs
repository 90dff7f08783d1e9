//! Repacking a whole module, with expectations typed by hand.
//!
//! Modules before and after, numbers and places are literals, computed from the layout beside each module below.

use std::collections::BTreeSet;

use reference::draft::{Chunk, Pattern, Tune};
use reference::generate::{damage, module as made, tune as made_tune, Limits, Random};
use reference::module::check;
use reference::pattern;
use reference::records::{self, Kind};
use reference::refusal::Refusal;
use reference::repack::repack;
use reference::tunes::files;

fn refused(number: u64, place: u64) -> Result<u64, Refusal> {
    Err(Refusal { number, place })
}

/// The module with other bytes at a place.
fn with(module: &[u8], place: usize, bytes: &[u8]) -> Vec<u8> {
    let mut module = module.to_vec();
    module[place..place + bytes.len()].copy_from_slice(bytes);
    module
}

/// The repacked module, in an output of the module's own length.
#[track_caller]
fn repacked(module: &[u8]) -> Vec<u8> {
    let mut out = vec![0xAA; module.len()];
    let length = repack(module, &mut out).expect("an accepted module, no longer than it was");
    let (written, after) = out.split_at(length as usize);
    assert!(after.iter().all(|&byte| byte == 0xAA));
    written.to_vec()
}

/// The module is repacked to these bytes, for outputs of every length. A shorter output is refused with 17 and the needed length, and
/// nothing is written. The bytes after the needed length are unchanged. The result is accepted, and repacks to itself.
#[track_caller]
fn becomes(module: &[u8], bytes: &[u8]) {
    let needed = bytes.len();
    for room in 0..needed {
        let mut out = vec![0xAA; room];
        assert_eq!(repack(module, &mut out), refused(17, needed as u64));
        assert_eq!(out, vec![0xAA; room]);
    }
    for more in [0, 1, 2, 7, 100] {
        let mut out = vec![0xAA; needed + more];
        assert_eq!(repack(module, &mut out), Ok(needed as u64));
        assert_eq!(out[..needed], *bytes);
        assert_eq!(out[needed..], vec![0xAA; more]);
    }
    assert!(needed <= module.len());
    assert_eq!(check(bytes), Ok(()));
    assert_eq!(repacked(bytes), bytes);
}

/// 58 bytes and one pattern: INFO at 8, SONG at 26, INST at 34, PATT at 42 with its block at 50, and SMPL after it.
fn one_pattern(tracks: u8, patt: &[u8]) -> Vec<u8> {
    let length = (patt.len() as u32).to_be_bytes();
    let module = [
        &b"DBM0\x03\x00\x00\x00"[..],
        b"INFO\x00\x00\x00\x0A\x00\x00\x00\x00\x00\x00\x00\x01\x00",
        &[tracks],
        b"SONG\x00\x00\x00\x00INST\x00\x00\x00\x00",
        b"PATT",
        &length,
        patt,
        b"SMPL\x00\x00\x00\x00",
    ];
    module.concat()
}

/// Blocks with the streams P1 to P6: rows, packed length, stream, and a filler if the stream is odd.
const P1: &[u8] = b"\x00\x02\x00\x00\x00\x06\x02\x03\x47\x01\x00\x00";
const P2: &[u8] = b"\x00\x02\x00\x00\x00\x08\x02\x01\x47\x02\x02\x01\x00\x00";
const P3: &[u8] = b"\x00\x02\x00\x00\x00\x07\x02\x07\x47\x01\x00\x00\x00\xFF";
const P4: &[u8] = b"\x00\x01\x00\x00\x00\x07\x01\x01\x47\x01\x01\x00\x00\x01";
const P5: &[u8] = b"\x00\x01\x00\x00\x00\x03\x01\x00\x00\x80";
const P6: &[u8] = b"\x00\x00\x00\x00\x00\x00";
const EMPTY_ROW: &[u8] = b"\x00\x01\x00\x00\x00\x01\x00\x00";

#[test]
fn p1_to_p6() {
    for (before, after) in [
        (P1, P1),
        (P2, P1),
        (P3, P1),
        (P4, EMPTY_ROW),
        (P5, EMPTY_ROW),
        (P6, P6),
        (EMPTY_ROW, EMPTY_ROW),
    ] {
        becomes(&one_pattern(4, before), &one_pattern(4, after));
    }
}

/// The bytes before and after, without the functions above.
#[test]
fn p2_byte_by_byte() {
    let before = b"DBM0\x03\x00\x00\x00\
        INFO\x00\x00\x00\x0A\x00\x00\x00\x00\x00\x00\x00\x01\x00\x04\
        SONG\x00\x00\x00\x00INST\x00\x00\x00\x00\
        PATT\x00\x00\x00\x0E\x00\x02\x00\x00\x00\x08\x02\x01\x47\x02\x02\x01\x00\x00\
        SMPL\x00\x00\x00\x00";
    let after = b"DBM0\x03\x00\x00\x00\
        INFO\x00\x00\x00\x0A\x00\x00\x00\x00\x00\x00\x00\x01\x00\x04\
        SONG\x00\x00\x00\x00INST\x00\x00\x00\x00\
        PATT\x00\x00\x00\x0C\x00\x02\x00\x00\x00\x06\x02\x03\x47\x01\x00\x00\
        SMPL\x00\x00\x00\x00";
    let mut out = [0xAA; 72];
    assert_eq!(repack(before, &mut out), Ok(70));
    assert_eq!(out[..70], *after);
    assert_eq!(out[70..], [0xAA; 2]);
    let mut out = [0xAA; 69];
    assert_eq!(repack(before, &mut out), refused(17, 70));
    assert_eq!(out, [0xAA; 69]);
    assert_eq!(repack(before, &mut []), refused(17, 70));
}

/// Also if the stream is already the packer's own.
#[test]
fn every_filler_becomes_0() {
    for filler in 0..=255 {
        let module = with(&one_pattern(4, EMPTY_ROW), 57, &[filler]);
        becomes(&module, &one_pattern(4, EMPTY_ROW));
    }
}

/// A pattern of one row, of 4 tracks.
fn one_row(stream: &[u8], filler: &[u8]) -> Vec<u8> {
    let head = [0, 1, 0, 0, 0, stream.len() as u8];
    one_pattern(4, &[&head[..], stream, filler].concat())
}

#[test]
fn odd_and_even_lengths() {
    let odd_to_odd = one_row(&[3, 1, 9, 1, 1, 5, 3, 0, 0], &[0x99]);
    becomes(&odd_to_odd, &one_row(&[1, 1, 5, 3, 1, 9, 0], &[0]));
    let odd_to_even = one_row(&[1, 3, 5, 0, 0], &[0x99]);
    becomes(&odd_to_even, &one_row(&[1, 1, 5, 0], &[]));
    let even_to_odd = one_row(&[1, 3, 5, 6, 1, 1, 7, 0], &[]);
    becomes(&even_to_odd, &one_row(&[1, 3, 7, 6, 0], &[0]));
    let even_to_even = one_row(&[4, 0, 2, 1, 5, 0], &[]);
    becomes(&even_to_even, &one_row(&[2, 1, 5, 0], &[]));
}

/// A stream that has the packer's length but not the packer's bytes.
#[test]
fn tracks_in_another_order() {
    let before = one_row(&[4, 1, 9, 1, 1, 5, 0], &[0]);
    becomes(&before, &one_row(&[1, 1, 5, 4, 1, 9, 0], &[0]));
}

/// Two rows of 6 tracks: ascending tracks, one entry for each, and only fields that are not 0.
#[test]
fn entries_of_every_kind() {
    let before = [
        &[0, 2, 0, 0, 0, 26][..],
        &[6, 0x3F, 1, 2, 3, 4, 5, 6, 2, 0x09, 7, 8, 6, 0x04, 0, 0],
        &[1, 0x20, 9, 5, 0x02, 0, 5, 0x10, 3, 0],
    ];
    let after = [
        &[0, 2, 0, 0, 0, 19][..],
        &[2, 0x09, 7, 8, 6, 0x3B, 1, 2, 4, 5, 6, 0],
        &[1, 0x20, 9, 5, 0x10, 3, 0],
        &[0],
    ];
    becomes(
        &one_pattern(6, &before.concat()),
        &one_pattern(6, &after.concat()),
    );
}

/// 254 tracks from the last to the first, with all fields of each: 254 × 8 + 1 = 2,033 bytes, which is $7F1.
#[test]
fn the_most_tracks() {
    let full = |tracks: &[u8], filler| {
        let entries = tracks
            .iter()
            .flat_map(|&track| [track, 0x3F, track, 2, 3, 4, 5, 6]);
        let head = [0, 1, 0, 0, 0x07, 0xF1];
        let block: Vec<u8> = head.into_iter().chain(entries).chain([0, filler]).collect();
        one_pattern(254, &block)
    };
    let ascending: Vec<u8> = (1..=254).collect();
    let descending: Vec<u8> = (1..=254).rev().collect();
    assert_eq!(repacked(&full(&descending, 0x55)), full(&ascending, 0));
    assert_eq!(
        repack(&full(&descending, 0), &mut []),
        refused(17, 58 + 2_040)
    );
}

/// 65,535 rows, each with an entry without fields: 196,605 bytes, which is $2FFFD, become 65,535.
#[test]
fn the_most_rows() {
    let before = [
        &[0xFF, 0xFF, 0, 2, 0xFF, 0xFD][..],
        &[2, 0, 0].repeat(65_535),
        &[0xFF],
    ];
    let after = [&[0xFF, 0xFF, 0, 0, 0xFF, 0xFF][..], &[0; 65_535], &[0]];
    let before = one_pattern(4, &before.concat());
    assert_eq!(repacked(&before), one_pattern(4, &after.concat()));
    assert_eq!(repack(&before, &mut [0; 65_599]), refused(17, 65_600));
}

/// A module with all covered chunks and others, valid in both versions. It has 642 bytes if the blocks of PATT have 56.
///
/// - PATS at 8.
/// - NAME at 20.
/// - VENV at 72.
/// - DSPE at 218, empty.
/// - INFO at 226: tracks at 242.
/// - PENV at 244.
/// - SMPL at 390. The frames are the letters of PATT.
/// - PATT at 423: the first block at 431.
/// - DSPE at 487.
/// - SONG at 504: entries at 558, 560 and 562.
/// - AAAA at 564.
/// - INST at 573: block at 581, volume at 613, loop length at 623.
/// - DSPE at 631.
#[rustfmt::skip]
fn full(version: u8, length: [u8; 4], patterns: &[&[u8]]) -> Vec<u8> {
    let module = [
        &b"DBM0"[..], &[version, 0x99, 0xDE, 0xAD],

        b"PATS\x00\x00\x00\x04", &[0, 2, 0, 0],
        b"NAME\x00\x00\x00\x2C", &[0xFE; 44],
        b"VENV\x00\x00\x00\x8A", &[0, 1],
        &[0, 1, 0x00, 1, 0xFF, 0xFE, 0xFD, 0xFC], &[0, 1, 0, 64, 0xFF, 0xFF, 0, 0], &[0x81; 120],
        b"DSPE\x00\x00\x00\x00",
        b"INFO\x00\x00\x00\x0A", &[0, 1, 0, 2, 0, 1, 0, 5, 0, 4],
        b"PENV\x00\x00\x00\x8A", &[0, 1],
        &[0, 1, 0x01, 0, 9, 9, 9, 9], &[0xAB, 0xCD, 0, 64], &[0x82; 124],
        b"SMPL\x00\x00\x00\x19",
        &[0, 0, 0, 1, 0, 0, 0, 5], b"PATT\x00", &[0, 0, 0, 4, 0, 0, 0, 1], b"PATT",

        b"PATT", &length, &patterns.concat(),

        b"DSPE\x00\x00\x00\x09", b"\x02\x01\x47\x02\x02\x01\x00\x00\xFF",
        b"SONG\x00\x00\x00\x34", &[0x80; 44], &[0, 3, 0, 4, 0, 0, 0, 2],
        b"AAAA\x00\x00\x00\x01\xFF",
        b"INST\x00\x00\x00\x32",
        &[0xC3; 30], &[0, 1], &[0, 64], &[1, 2, 3, 4], &[0, 0, 0, 2], &[0, 0, 0, 3], &[0xFF, 0x80], &[0, 3],
        b"DSPE\x00\x00\x00\x03", &[1, 2, 3],
    ];
    module.concat()
}

/// P2, P3, an empty row, no rows, and descending tracks.
fn before(version: u8) -> Vec<u8> {
    let tracks = b"\x00\x02\x00\x00\x00\x08\x04\x01\x09\x01\x01\x05\x00\x00";
    full(
        version,
        [0, 0, 0, 56],
        &[P2, P3, &[0, 1, 0, 0, 0, 1, 0, 0x77], P6, tracks],
    )
}

fn after(version: u8) -> Vec<u8> {
    let tracks = b"\x00\x02\x00\x00\x00\x08\x01\x01\x05\x04\x01\x09\x00\x00";
    full(version, [0, 0, 0, 52], &[P1, P1, EMPTY_ROW, P6, tracks])
}

#[test]
fn all_other_chunks_stay_as_they_are() {
    for version in [2, 3] {
        assert_eq!(before(version).len(), 642);
        assert_eq!(after(version).len(), 638);
        becomes(&before(version), &after(version));
    }
}

/// PATT before or after the three others, and as the last chunk of the module.
#[test]
fn patt_anywhere_after_info() {
    let info = b"INFO\x00\x00\x00\x0A\x00\x00\x00\x00\x00\x00\x00\x02\x00\x04";
    let others = [
        *b"SONG\x00\x00\x00\x00",
        *b"INST\x00\x00\x00\x00",
        *b"SMPL\x00\x00\x00\x00",
    ];
    for place in 0..=3 {
        let module = |patt: &[u8]| {
            let (before, after) = others.split_at(place);
            let parts = [
                &b"DBM0\x02\x10\x00\x01"[..],
                info,
                &before.concat(),
                patt,
                &after.concat(),
            ];
            parts.concat()
        };
        let before = [&b"PATT\x00\x00\x00\x18"[..], P3, P5].concat();
        let after = [&b"PATT\x00\x00\x00\x14"[..], P1, EMPTY_ROW].concat();
        becomes(&module(&before), &module(&after));
    }
}

#[test]
fn without_patterns_all_stays() {
    let mut smallest = b"DBM0\x03\x00\x00\x00INFO\x00\x00\x00\x0A".to_vec();
    smallest.extend([0, 0, 0, 0, 0, 0, 0, 0, 0, 4]);
    for name in [b"SONG", b"INST", b"PATT", b"SMPL"] {
        smallest.extend(name);
        smallest.extend([0; 4]);
    }
    assert_eq!(smallest.len(), 58);
    becomes(&smallest, &smallest);
}

/// 1,024 patterns without rows.
#[test]
fn the_most_patterns() {
    let patt = [0; 6 * 1_024];
    let module = with(&one_pattern(4, &patt), 22, &[0x04, 0x00]);
    assert_eq!(repacked(&module), module);
    assert_eq!(repack(&module, &mut []), refused(17, 58 + 6_144));
}

/// Each of the module's own refusals, with outputs that are too short, long enough and longer.
#[test]
fn refusals_write_nothing() {
    let good = before(3);
    let too_long = [&good[..], &vec![0; 16_777_217 - 642]].concat();
    let wrong = [
        (too_long, 1, 0),
        (with(&good, 0, b"X"), 2, 0),
        (with(&good, 4, &[4]), 3, 4),
        (with(&good, 638, &[4]), 4, 631),
        (with(&good, 634, b"e"), 5, 631),
        (with(&good, 631, b"NAME"), 6, 631),
        (with(&good, 8, b"PATT"), 7, 8),
        (with(&good, 504, b"SONH"), 8, 642),
        (with(&good, 8, b"NAME"), 9, 8),
        (with(&good, 242, &[0, 5]), 10, 242),
        (with(&good, 436, &[6]), 11, 423),
        (with(&good, 558, &[0, 5]), 12, 558),
        (with(&good, 613, &[0, 65]), 13, 613),
        (with(&good, 623, &[0, 0, 0, 4]), 14, 581),
        (with(&good, 451, &[5]), 15, 445),
    ];
    for (module, number, place) in wrong {
        for room in [0, 1, 637, 638, 642, 1_000] {
            let mut out = vec![0xAA; room];
            assert_eq!(repack(&module, &mut out), refused(number, place));
            assert_eq!(out, vec![0xAA; room], "{number} writes");
        }
    }
    for module in [&[][..], b"DBM0", &good[..641]] {
        let mut out = [0xAA; 700];
        assert_eq!(repack(module, &mut out), check(module).map(|()| 0));
        assert_eq!(out, [0xAA; 700]);
    }
}

/// All queries about both modules return the same. Frames are compared by their bytes, since their place may differ.
#[track_caller]
fn show_the_same(one: &[u8], other: &[u8]) {
    assert_eq!(check(one), Ok(()));
    assert_eq!(check(other), Ok(()));
    assert_eq!(records::version(one), records::version(other));
    assert_eq!(records::name(one), records::name(other));
    let info = records::info(one).expect("it is accepted");
    assert_eq!(Ok(info), records::info(other));
    for song in 0..=info.songs {
        assert_eq!(records::song(one, song), records::song(other, song));
        assert_eq!(
            filled(|out| records::playlist(one, song, out)),
            filled(|out| records::playlist(other, song, out))
        );
    }
    for instrument in 0..=info.instruments + 1 {
        assert_eq!(
            records::instrument(one, instrument),
            records::instrument(other, instrument)
        );
    }
    assert_eq!(
        records::volume_envelopes(one),
        records::volume_envelopes(other)
    );
    assert_eq!(
        records::panning_envelopes(one),
        records::panning_envelopes(other)
    );
    for kind in [Kind::Volume, Kind::Panning] {
        for envelope in 0..=6 {
            assert_eq!(
                records::envelope(one, kind, envelope),
                records::envelope(other, kind, envelope)
            );
        }
    }
    for pattern in 0..=info.patterns {
        assert_eq!(
            records::pattern(one, pattern),
            records::pattern(other, pattern)
        );
        assert_eq!(
            filled(|out| records::unpack(one, pattern, out)),
            filled(|out| records::unpack(other, pattern, out))
        );
    }
    for sample in 0..=info.samples + 1 {
        assert_eq!(records::sample(one, sample), records::sample(other, sample));
        assert_eq!(part(one, sample), part(other, sample));
        assert_eq!(
            records::frames_refusal(one, sample),
            records::frames_refusal(other, sample)
        );
    }
}

/// The result of a query with an output that is long enough for all queries here.
fn filled(query: impl Fn(&mut [u8]) -> Result<u64, Refusal>) -> (Result<u64, Refusal>, Vec<u8>) {
    let mut out = vec![0xAA; 64 * 32 * 6];
    (query(&mut out), out)
}

/// The frames of a sample.
fn part(module: &[u8], sample: u64) -> &[u8] {
    let (place, length) = records::frames(module, sample);
    &module[place as usize..(place + length) as usize]
}

/// The module is repacked. The result is accepted, returns the same answers, is not longer, and repacks to itself.
#[track_caller]
fn keeps(module: &[u8]) -> Vec<u8> {
    let out = repacked(module);
    assert!(out.len() <= module.len());
    show_the_same(module, &out);
    assert_eq!(repacked(&out), out);
    assert_eq!(repack(module, &mut []), refused(17, out.len() as u64));
    out
}

#[test]
fn typed_modules_show_the_same() {
    for version in [2, 3] {
        keeps(&before(version));
    }
    for block in [P1, P2, P3, P4, P5, P6] {
        keeps(&one_pattern(4, block));
    }
}

/// The patterns of the files were packed by the packer.
#[test]
fn the_sample_files() {
    for (name, module) in files() {
        match check(&module) {
            Ok(()) => assert_eq!(keeps(&module), module, "{name}"),
            Err(refusal) => assert_eq!(repack(&module, &mut [0; 2_000]), Err(refusal), "{name}"),
        }
    }
}

#[test]
fn drawn_modules_show_the_same() {
    let (mut shorter, mut same_length, mut same) = (0, 0, 0);
    for seed in 0..400 {
        let random = &mut Random::new(seed);
        let most = if seed % 8 == 0 {
            Limits::USUAL
        } else {
            Limits::SMALL
        };
        let module = made(random, &most).bytes();
        let out = keeps(&module);
        if out.len() < module.len() {
            shorter += 1;
        } else if out != module {
            same_length += 1;
        } else {
            same += 1;
        }
    }
    for count in [shorter, same_length, same] {
        assert!(count >= 30, "{shorter} {same_length} {same}");
    }
}

/// The packer's stream of a pattern's cells, and filler 0.
fn packed(given: &Pattern, tracks: u16) -> Pattern {
    let (rows, tracks) = (u64::from(given.rows), u64::from(tracks));
    let mut cells = vec![0; (rows * tracks * 6) as usize];
    pattern::unpack(&given.stream, rows, tracks, &mut cells).expect("a valid stream");
    let mut stream = vec![0; (rows * (1 + 8 * tracks)) as usize];
    let length = pattern::pack(&cells, rows, tracks, &mut stream).expect("there is enough room");
    Pattern::new(given.rows, &stream[..length as usize])
}

/// A module is written from records, and again with every pattern packed. Repacking the first gives the second. Both are the same module if
/// and only if every stream was the packer's and every filler 0.
#[test]
fn as_if_written_with_packed_patterns() {
    let (mut same, mut different) = (0, 0);
    for seed in 0..2_000 {
        let random = &mut Random::new(seed);
        let given = made_tune(random, &Limits::SMALL);
        let patterns: Vec<Pattern> = given
            .patterns
            .iter()
            .map(|pattern| packed(pattern, given.tracks))
            .collect();
        let is_packed = given.patterns.iter().zip(&patterns).all(|(given, packed)| {
            given.stream == packed.stream && (given.stream.len() % 2 == 0 || given.filler == 0)
        });
        let order = if seed % 2 == 0 {
            [*b"INFO", *b"PATT", *b"SMPL"]
        } else {
            [*b"VENV", *b"INFO", *b"SONG"]
        };
        let written = |tune: &Tune| {
            let mut draft = tune.draft().ordered(&order);
            draft.chunks.push(Chunk::new(b"PATS", vec![1, 2, 3]));
            draft.bytes()
        };
        let module = written(&given);
        let out = repacked(&module);
        assert_eq!(out, written(&Tune { patterns, ..given }), "seed {seed}");
        assert_eq!(out == module, is_packed, "seed {seed}");
        if is_packed {
            same += 1;
        } else {
            different += 1;
        }
    }
    assert!(same >= 200 && different >= 200, "{same} {different}");
}

/// A refused module is refused with the same refusal, for outputs of any length.
#[test]
fn damaged_modules_are_refused_as_by_the_check() {
    let mut numbers = BTreeSet::new();
    for seed in 0..3_000 {
        let random = &mut Random::new(seed);
        let mut draft = made(random, &Limits::SMALL);
        for _ in 0..1 + seed % 2 {
            damage(random, &mut draft);
        }
        let module = draft.bytes();
        let Err(refusal) = check(&module) else {
            keeps(&module);
            continue;
        };
        numbers.insert(refusal.number);
        for room in [0, module.len(), 2 * module.len()] {
            let mut out = vec![0xAA; room];
            assert_eq!(repack(&module, &mut out), Err(refusal), "seed {seed}");
            assert!(out.iter().all(|&byte| byte == 0xAA), "seed {seed}");
        }
    }
    assert_eq!(numbers, (2..=15).collect());
}
