//! Comparing two modules, with expectations typed by hand.
//!
//! Entries are typed as their five numbers: kind, number, row, track, field. In the first test they are typed as bytes.

use std::collections::{BTreeMap, BTreeSet};

use reference::compare::{
    compare, differences, Difference, ENTRY_BYTES, INFO, INSTRUMENT, NAME, PANNING_ENVELOPE,
    PATTERN, SAMPLE, SONG, VOLUME_ENVELOPE,
};
use reference::draft::{Chunk, Draft, Envelope, Instrument, Pattern, Sample, Song, Tune};
use reference::generate::{tune as made_tune, valid_stream, Limits, Random};
use reference::module::check;
use reference::pairs::{in_the_other_version, pair, valid_change, Relation, CHANGES, RELATIONS};
use reference::pattern::{fields, unpack};
use reference::records::{instrument as shown_instrument, sample as shown_sample};
use reference::refusal::Refusal;
use reference::repack::repack;
use reference::replace::replace_sample;

const CAROUSEL: &[u8] = include_bytes!("../../samples/carousel.dbm");
const OLD: &[u8] = include_bytes!("../../samples/old.dbm");
const SMALLEST: &[u8] = include_bytes!("../../samples/smallest.dbm");
const SHORT_ORGAN: &[u8] = include_bytes!("../../samples/short-organ.dbm");
const BROKEN_PATTERN: &[u8] = include_bytes!("../../samples/broken-pattern.dbm");
const SHORT_ORGAN_FRAMES: &[u8] = include_bytes!("../../samples/short-organ.frames");

fn refused(number: u64, place: u64) -> Result<u64, Refusal> {
    Err(Refusal { number, place })
}

/// The module with other bytes at a place.
fn with(module: &[u8], place: usize, bytes: &[u8]) -> Vec<u8> {
    let mut module = module.to_vec();
    module[place..place + bytes.len()].copy_from_slice(bytes);
    module
}

/// The entries as bytes.
fn entry_bytes(entries: &[Difference]) -> Vec<u8> {
    entries
        .iter()
        .flatten()
        .flat_map(|number| [(number >> 8) as u8, *number as u8])
        .collect()
}

/// These bytes are written, for outputs of every length up to two more than needed. A shorter output is refused with 17 and the needed
/// length, and nothing is written. The bytes after the needed length are unchanged.
#[track_caller]
fn writes(first: &[u8], second: &[u8], bytes: &[u8]) {
    let needed = bytes.len();
    for room in 0..needed {
        let mut out = vec![0xAA; room];
        assert_eq!(
            compare(first, second, &mut out),
            refused(17, needed as u64),
            "room {room}"
        );
        assert_eq!(out, vec![0xAA; room]);
    }
    for room in needed..needed + 3 {
        let mut out = vec![0xAA; room];
        let answer = compare(first, second, &mut out);
        assert_eq!(answer, Ok(needed as u64 / 10));
        assert_eq!(out[..needed], *bytes);
        assert_eq!(out[needed..], vec![0xAA; room - needed]);
    }
}

/// These are the differences, in either order of the modules. Both modules are accepted.
#[track_caller]
fn differ(one: &[u8], other: &[u8], expected: &[Difference]) {
    assert_eq!((check(one), check(other)), (Ok(()), Ok(())));
    for (first, second) in [(one, other), (other, one)] {
        let is: Vec<Difference> = differences(first, second).unwrap().into_iter().collect();
        assert_eq!(is, expected);
        writes(first, second, &entry_bytes(expected));
    }
}

/// The call is refused, and nothing is written into outputs of several lengths.
#[track_caller]
fn is_refused(first: &[u8], second: &[u8], number: u64, place: u64) {
    for room in [0, 1, 9, 10, 179, 180, 2_000] {
        let mut out = vec![0xAA; room];
        assert_eq!(
            compare(first, second, &mut out),
            refused(number, place),
            "room {room}"
        );
        assert_eq!(out, vec![0xAA; room]);
    }
}

/// The bytes of a text of hexadecimal digits.
fn bytes(text: &str) -> Vec<u8> {
    let digits: Vec<u32> = text
        .chars()
        .filter(|letter| !letter.is_whitespace())
        .map(|digit| digit.to_digit(16).expect("a hexadecimal digit"))
        .collect();
    digits
        .chunks(2)
        .map(|pair| (16 * pair[0] + pair[1]) as u8)
        .collect()
}

/// Version 2.21: two instruments, two samples, two songs, three patterns, four tracks; no name, no volume envelope, two panning envelopes.
const FIRST: &str = "
    44424d30 02 21 dead
    494e464f 0000000a 0002 0002 0002 0003 0004
    50454e56 00000112 0002
        0001 01 01 ff000000  0000 0000  0008 0040
            11111111111111111111111111111111 11111111111111111111111111111111 11111111111111111111111111111111
            11111111111111111111111111111111 11111111111111111111111111111111 11111111111111111111111111111111
            11111111111111111111111111111111 1111111111111111
        0002 00 00 00000000  0000 0020
            00000000000000000000000000000000 00000000000000000000000000000000 00000000000000000000000000000000
            00000000000000000000000000000000 00000000000000000000000000000000 00000000000000000000000000000000
            00000000000000000000000000000000 000000000000000000000000
    534f4e47 00000062
        4d6f726e696e6700000000000000000000000000000000000000000000000000000000000000000000000000
            0003 0001 0000 0002
        4e6967687400000000000000000000000000000000000000000000000000000000000000000000000000ff00
            0000
    494e5354 00000064
        6f7267616e0000000000000000000000000000000000000000000000ff00
            0001 0040 000020ab 00000000 00000002 ff80 0003
        ffffffffffffffffffffffffffffffffffffffffffffffffffffffffffff
            0000 0000 ffffffff fffffffe 80000000 0080 0000
    50415454 0000001e
        0002 00000009 0103470100 04209900 77
        0001 00000001 00 88
        0000 00000000
    534d504c 00000014
        00000001 00000002 01ff
        00000002 00000001 0100";

/// Version 3.00: one instrument, three samples, a name, a volume envelope and one panning envelope. The chunks are in another order, and
/// there is another chunk.
const SECOND: &str = "
    44424d30 03 00 0000
    56454e56 0000008a 0001
        0001 00 00 00000000  0000 0000
            00000000000000000000000000000000 00000000000000000000000000000000 00000000000000000000000000000000
            00000000000000000000000000000000 00000000000000000000000000000000 00000000000000000000000000000000
            00000000000000000000000000000000 000000000000000000000000
    494e464f 0000000a 0001 0003 0002 0003 0004
    534d504c 0000001b
        00000001 00000002 01ff
        00000001 00000001 01
        00000004 00000000
    50454e56 0000008a 0001
        0001 01 01 ff000000  0000 ff80  0008 0080
            00000000000000000000000000000000 00000000000000000000000000000000 00000000000000000000000000000000
            00000000000000000000000000000000 00000000000000000000000000000000 00000000000000000000000000000000
            00000000000000000000000000000000 0000000000000000
    494e5354 00000032
        6f7267616e0000000000000000000000000000000000000000000000ff00
            0001 0040 000020ab 00000000 00000002 ff80 0003
    44535045 00000003 010203
    50415454 0000001e
        0002 00000009 010100 0103480100 00 00
        0002 00000002 0000
        0000 00000000
    534f4e47 00000064
        4d6f726e696e6700000000000000000000000000000000000000000000000000000000000000000000000000
            0003 0001 0000 0002
        4e6967687400000000000000000000000000000000000000000000000000000000000000000000000000ff00
            0001 0000
    4e414d45 0000002c
        4e616d6500000000000000000000000000000000000000000000000000000000000000000000000000000000";

/// All kinds of entries: the name; instruments and samples of INFO; the playlist of song 1; instrument 2, which is in the first module only;
/// volume envelope 0, in the second only; panning envelope 1, in the first only; sample 2, which has 8 bits or 16; sample 3, in the second
/// only; the note of track 1 in row 0 of pattern 0, and the last field of track 4 in row 1; pattern 1, which has one row or two.
const LIST: &str = "
    0001 0000 0000 0000 0000
    0002 0000 0000 0000 0000
    0002 0001 0000 0000 0000
    0003 0001 0000 0000 0000
    0004 0002 0000 0000 0000
    0005 0000 0000 0000 0000
    0006 0001 0000 0000 0000
    0007 0002 0000 0000 0000
    0007 0003 0000 0000 0000
    0008 0000 0000 0001 0001
    0008 0000 0001 0004 0006
    0008 0001 0000 0000 0000";

#[test]
fn byte_by_byte() {
    let (first, second, list) = (bytes(FIRST), bytes(SECOND), bytes(LIST));
    assert_eq!((check(&first), check(&second)), (Ok(()), Ok(())));
    assert_eq!(list.len(), 120);
    let mut out = [0xAA; 123];
    assert_eq!(compare(&first, &second, &mut out), Ok(12));
    assert_eq!(out[..120], list);
    assert_eq!(out[120..], [0xAA; 3]);
    assert_eq!(compare(&second, &first, &mut out), Ok(12));
    assert_eq!(out[..120], list);
    let mut out = [0xAA; 119];
    assert_eq!(
        compare(&first, &second, &mut out),
        Err(Refusal {
            number: 17,
            place: 120
        })
    );
    assert_eq!(out, [0xAA; 119]);
    writes(&first, &second, &list);
    writes(&second, &first, &list);
    for module in [&first, &second] {
        let mut out = [0xAA; 3];
        assert_eq!(compare(module, module, &mut out), Ok(0));
        assert_eq!(out, [0xAA; 3]);
    }
}

/// The carousel compared with itself, and with itself repacked. Its streams are those of the packer, so they are also packed in another way:
/// the first entry of pattern 0, at 654, is written as two.
#[test]
fn the_carousel_and_itself() {
    differ(CAROUSEL, CAROUSEL, &[]);
    let mut repacked = vec![0; CAROUSEL.len()];
    assert_eq!(repack(CAROUSEL, &mut repacked), Ok(1_152));
    differ(CAROUSEL, &repacked, &[]);
    // The track, its mask and four fields.
    assert_eq!(CAROUSEL[654..660], [1, 0x33, 0x30, 1, 0x0F, 0x70]);
    let two = [1, 0x30, 0x0F, 0x70, 1, 0x03, 0x30, 1];
    let loose = [&CAROUSEL[..654], &two, &CAROUSEL[660..]].concat();
    // PATT at 640 has $C2 bytes, and its first pattern $4A packed bytes.
    let loose = with(&with(&loose, 644, &[0, 0, 0, 0xC4]), 650, &[0, 0, 0, 0x4C]);
    assert_eq!(check(&loose), Ok(()));
    assert_ne!(loose, CAROUSEL);
    differ(CAROUSEL, &loose, &[]);
    let length = repack(&loose, &mut repacked);
    assert_eq!((length, &repacked[..]), (Ok(1_152), CAROUSEL));
}

/// Instrument 2 had the loop 16 + 48, which the 40 new frames of sample 2 do not fit.
#[test]
fn the_carousel_and_the_short_organ() {
    let mut out = vec![0; 1_168];
    assert!(replace_sample(CAROUSEL, 2, SHORT_ORGAN_FRAMES, &mut out).is_ok());
    let list = b"\x00\x04\x00\x02\x00\x00\x00\x00\x00\x00\x00\x07\x00\x02\x00\x00\x00\x00\x00\x00";
    assert_eq!(list.len(), 20);
    writes(CAROUSEL, &out, list);
    writes(&out, CAROUSEL, list);
    differ(CAROUSEL, &out, &[[4, 2, 0, 0, 0], [7, 2, 0, 0, 0]]);
    // The same frames as 16 bits keep the loop.
    let wide: Vec<u8> = CAROUSEL[962..1_026]
        .iter()
        .flat_map(|&byte| [byte, 0])
        .collect();
    let mut out = vec![0; 1_216];
    assert!(replace_sample(CAROUSEL, 2, &wide, &mut out).is_ok());
    differ(CAROUSEL, &out, &[[7, 2, 0, 0, 0]]);
}

/// The carousel has 3 instruments, 3 samples, 2 songs, 3 patterns, a volume envelope and a panning envelope. `old.dbm` has one of each, but no
/// volume envelope. Both have 4 tracks. The first patterns have 12 rows and 8.
const CAROUSEL_AND_OLD: [Difference; 18] = [
    [1, 0, 0, 0, 0],
    [2, 0, 0, 0, 0],
    [2, 1, 0, 0, 0],
    [2, 2, 0, 0, 0],
    [2, 3, 0, 0, 0],
    [3, 0, 0, 0, 0],
    [3, 1, 0, 0, 0],
    [4, 1, 0, 0, 0],
    [4, 2, 0, 0, 0],
    [4, 3, 0, 0, 0],
    [5, 0, 0, 0, 0],
    [6, 0, 0, 0, 0],
    [7, 1, 0, 0, 0],
    [7, 2, 0, 0, 0],
    [7, 3, 0, 0, 0],
    [8, 0, 0, 0, 0],
    [8, 1, 0, 0, 0],
    [8, 2, 0, 0, 0],
];

#[test]
fn the_carousel_and_old() {
    differ(CAROUSEL, OLD, &CAROUSEL_AND_OLD);
    for (first, second) in [(CAROUSEL, OLD), (OLD, CAROUSEL)] {
        assert_eq!(compare(first, second, &mut []), refused(17, 180));
        let mut out = [0xAA; 179];
        assert_eq!(compare(first, second, &mut out), refused(17, 180));
        assert_eq!(out, [0xAA; 179]);
        assert_eq!(compare(first, second, &mut [0; 180]), Ok(18));
    }
}

/// The smallest module has 4 tracks and nothing else.
#[test]
fn the_smallest_module() {
    differ(SMALLEST, SMALLEST, &[]);
    // Like `CAROUSEL_AND_OLD`: the counts differ, and all records are in one module only.
    differ(SMALLEST, CAROUSEL, &CAROUSEL_AND_OLD);
}

/// The loop of instrument 2 at 540 is refused in the first, the pattern at 728 in the second.
#[test]
fn refused_samples() {
    is_refused(SHORT_ORGAN, BROKEN_PATTERN, 14, 540);
    is_refused(BROKEN_PATTERN, SHORT_ORGAN, 15, 728);
    for accepted in [CAROUSEL, OLD, SMALLEST] {
        is_refused(SHORT_ORGAN, accepted, 14, 540);
        is_refused(accepted, SHORT_ORGAN, 14, 540);
        is_refused(BROKEN_PATTERN, accepted, 15, 728);
        is_refused(accepted, BROKEN_PATTERN, 15, 728);
    }
    is_refused(SHORT_ORGAN, SHORT_ORGAN, 14, 540);
}

/// PENV of `old.dbm` is at 78, its envelope at 88, and the values of its points at 98, 102 and 106.
#[test]
fn panning_of_both_versions() {
    assert_eq!(OLD[78..82], *b"PENV");
    assert_eq!(OLD[96..108], [0, 0, 0, 0, 0, 10, 0, 32, 0, 20, 0, 64]);
    let twin = |values: [[u8; 2]; 3]| {
        let mut twin = with(OLD, 4, &[3, 0x05]);
        for (value, place) in values.into_iter().zip([98, 102, 106]) {
            twin = with(&twin, place, &value);
        }
        twin
    };
    let scaled = twin([[0xFF, 0x80], [0, 0], [0, 0x80]]);
    differ(OLD, &scaled, &[]);
    // 0, 32 and 64 as they are stored, and one of the three values one less or one more.
    let as_stored = twin([[0, 0], [0, 32], [0, 64]]);
    differ(OLD, &as_stored, &[[6, 0, 0, 0, 0]]);
    for (place, value) in [
        (98, [0xFF, 0x81]),
        (102, [0xFF, 0xFF]),
        (102, [0, 1]),
        (106, [0, 0x7F]),
    ] {
        differ(OLD, &with(&scaled, place, &value), &[[6, 0, 0, 0, 0]]);
    }
    // A stored 1 is -124, and a stored 63 is 124.
    let other = with(&with(OLD, 98, &[0, 1]), 106, &[0, 63]);
    differ(&other, &twin([[0xFF, 0x84], [0, 0], [0, 0x7C]]), &[]);
    differ(&other, OLD, &[[6, 0, 0, 0, 0]]);
    // The panning of an instrument is not scaled. It is -128 in both, at 336.
    assert_eq!(OLD[336..338], [0xFF, 0x80]);
    differ(OLD, &with(&scaled, 336, &[0, 0]), &[[4, 1, 0, 0, 0]]);
}

/// Volume envelopes are the same numbers in both versions.
#[test]
fn volume_of_both_versions() {
    let mut tune = Tune {
        version: 2,
        instruments: vec![Instrument::default()],
        volume_envelopes: Some(vec![Envelope {
            instrument: 1,
            sections: 2,
            points: vec![(0, 0), (1, 32), (2, 64)],
            ..Envelope::default()
        }]),
        ..Tune::default()
    };
    let old = tune.bytes();
    tune.version = 3;
    differ(&old, &tune.bytes(), &[]);
}

/// Two of each record. No instrument is looped.
fn whole() -> Tune {
    let instrument = |name: &[u8], sample| Instrument {
        name: name.to_vec(),
        sample,
        volume: 0x20,
        rate: 0x0102_0304,
        loop_start: 0xFFFF_FFFF,
        loop_length: 7,
        panning: -2,
        flags: 0,
    };
    let envelope = |instrument, value: i16| Envelope {
        instrument,
        flags: 0,
        sections: 2,
        first_sustain: 9,
        loop_first: 10,
        loop_last: 11,
        second_sustain: 12,
        points: (0..32).map(|point| (100 * point, value)).collect(),
    };
    Tune {
        revision: 0x05,
        name: Some(b"A name".to_vec()),
        songs: vec![
            Song {
                name: b"One song".to_vec(),
                playlist: vec![0, 1, 0],
            },
            Song {
                name: b"Another song".to_vec(),
                playlist: vec![1],
            },
        ],
        instruments: vec![instrument(b"One", 2), instrument(b"Another", 0)],
        patterns: vec![
            Pattern::new(3, &[1, 3, 0x47, 1, 0, 0, 4, 0x20, 0x99, 0]),
            Pattern::new(1, &[2, 1, 0x1F, 0]),
        ],
        samples: vec![
            Sample::new(1, &[0x01, 0x80]),
            Sample::new(2, &[0x01, 0x00, 0xFF, 0xFF]),
        ],
        volume_envelopes: Some(vec![envelope(1, 60), envelope(2, 0)]),
        panning_envelopes: Some(vec![envelope(2, -128), envelope(1, 28)]),
        ..Tune::default()
    }
}

/// The module and the same after a change have these differences.
#[track_caller]
fn changes(change: impl FnOnce(&mut Tune), expected: &[Difference]) {
    let mut tune = whole();
    change(&mut tune);
    assert_ne!(tune, whole(), "nothing is changed");
    differ(&whole().bytes(), &tune.bytes(), expected);
}

#[test]
fn every_byte_of_the_name() {
    for place in 0..44 {
        changes(
            |tune| {
                let name = tune.name.as_mut().expect("a name");
                name.resize(44, 0);
                name[place] ^= 1;
            },
            &[[1, 0, 0, 0, 0]],
        );
    }
    changes(|tune| tune.name = None, &[[1, 0, 0, 0, 0]]);
}

#[test]
fn a_name_of_zeros_and_none() {
    let mut named = whole();
    named.name = Some(vec![0; 44]);
    changes(|tune| tune.name = Some(vec![0; 44]), &[[1, 0, 0, 0, 0]]);
    let mut nameless = whole();
    nameless.name = None;
    differ(&named.bytes(), &nameless.bytes(), &[]);
}

/// Each number of INFO alone, and the records that are in one module only.
#[test]
fn every_number_of_info() {
    changes(
        |tune| tune.instruments.push(Instrument::default()),
        &[[2, 0, 0, 0, 0], [4, 3, 0, 0, 0]],
    );
    changes(
        |tune| tune.samples.push(Sample::new(4, &[])),
        &[[2, 1, 0, 0, 0], [7, 3, 0, 0, 0]],
    );
    changes(
        |tune| tune.songs.push(Song::default()),
        &[[2, 2, 0, 0, 0], [3, 2, 0, 0, 0]],
    );
    changes(
        |tune| tune.patterns.push(Pattern::default()),
        &[[2, 3, 0, 0, 0], [8, 2, 0, 0, 0]],
    );
    changes(
        |tune| tune.tracks = 6,
        &[[2, 4, 0, 0, 0], [8, 0, 0, 0, 0], [8, 1, 0, 0, 0]],
    );
    // Three more of each, and other tracks: each is an entry.
    changes(
        |tune| {
            tune.instruments.resize(5, Instrument::default());
            tune.samples.resize(5, Sample::new(1, &[]));
            tune.songs.resize(5, Song::default());
            tune.patterns.resize(5, Pattern::default());
            tune.tracks = 254;
        },
        &[
            [2, 0, 0, 0, 0],
            [2, 1, 0, 0, 0],
            [2, 2, 0, 0, 0],
            [2, 3, 0, 0, 0],
            [2, 4, 0, 0, 0],
            [3, 2, 0, 0, 0],
            [3, 3, 0, 0, 0],
            [3, 4, 0, 0, 0],
            [4, 3, 0, 0, 0],
            [4, 4, 0, 0, 0],
            [4, 5, 0, 0, 0],
            [7, 3, 0, 0, 0],
            [7, 4, 0, 0, 0],
            [7, 5, 0, 0, 0],
            [8, 0, 0, 0, 0],
            [8, 1, 0, 0, 0],
            [8, 2, 0, 0, 0],
            [8, 3, 0, 0, 0],
            [8, 4, 0, 0, 0],
        ],
    );
}

/// A record is removed before others: the others are compared by their numbers.
#[test]
fn records_are_compared_by_their_numbers() {
    changes(
        |tune| drop(tune.songs.remove(0)),
        &[[2, 2, 0, 0, 0], [3, 0, 0, 0, 0], [3, 1, 0, 0, 0]],
    );
    changes(
        |tune| tune.songs.swap(0, 1),
        &[[3, 0, 0, 0, 0], [3, 1, 0, 0, 0]],
    );
    changes(
        |tune| tune.samples.swap(0, 1),
        &[[7, 1, 0, 0, 0], [7, 2, 0, 0, 0]],
    );
}

#[test]
fn every_byte_of_a_song() {
    for (song, number) in [(0, 0), (1, 1)] {
        for place in 0..44 {
            changes(
                |tune| {
                    tune.songs[song].name.resize(44, 0);
                    tune.songs[song].name[place] ^= 0x80;
                },
                &[[3, number, 0, 0, 0]],
            );
        }
        // Longer, shorter, another entry, another order.
        let playlist = |playlist: &[u16]| {
            changes(
                |tune| tune.songs[song].playlist = playlist.to_vec(),
                &[[3, number, 0, 0, 0]],
            );
        };
        playlist(&[0, 1, 0, 0]);
        playlist(&[]);
        playlist(&[0, 1]);
        playlist(&[0, 1, 1]);
        playlist(&[1, 1, 0]);
        playlist(&[0, 0, 1]);
    }
}

/// The bytes of a block of 50 bytes that can have another value, each with the bits that change. Instrument 2 has no sample, and no loop.
#[test]
fn every_field_of_an_instrument() {
    let tune = whole();
    let draft = tune.draft();
    for (instrument, number) in [(0, 1), (1, 2)] {
        let others = (0..30)
            .map(|place| (place, 1))
            .chain([(31, 2), (33, 1)])
            .chain((34..46).map(|place| (place, 0x40)))
            .chain([(46, 0xFF), (47, 2)]);
        for (place, bits) in others {
            let mut draft = draft.clone();
            draft.chunk(b"INST").data[50 * instrument + place] ^= bits;
            if place == 46 {
                // -2 becomes 2: both bytes of the panning change.
                draft.put(b"INST", 50 * instrument + 46, &[0, 2]);
            }
            differ(&tune.bytes(), &draft.bytes(), &[[4, number, 0, 0, 0]]);
        }
        // Flags with a loop length of 0: the loop has no effect, and the flags count.
        for flags in [1, 2, 3] {
            let mut silent = whole();
            silent.instruments[instrument].loop_length = 0;
            let mut other = silent.clone();
            other.instruments[instrument].flags = flags;
            differ(&silent.bytes(), &other.bytes(), &[[4, number, 0, 0, 0]]);
        }
    }
}

/// All fields count, also those of a sustain or a loop that is off. Kind 5 is VENV, kind 6 PENV.
#[test]
fn every_field_of_an_envelope() {
    let fields: [fn(&mut Envelope); 12] = [
        |envelope| envelope.instrument = 3 - envelope.instrument,
        |envelope| envelope.flags = 1,
        |envelope| envelope.sections = 1,
        |envelope| envelope.first_sustain ^= 1,
        |envelope| envelope.loop_first ^= 1,
        |envelope| envelope.loop_last ^= 0x80,
        |envelope| envelope.second_sustain ^= 1,
        |envelope| envelope.points[0].0 ^= 1,
        |envelope| envelope.points[1].0 ^= 0x8000,
        |envelope| envelope.points[2].0 ^= 0x100,
        |envelope| envelope.points[0].1 += 1,
        |envelope| envelope.points[2].1 += 1,
    ];
    for field in fields {
        for (envelope, number) in [(0, 0), (1, 1)] {
            changes(
                |tune| field(&mut tune.volume_envelopes.as_mut().unwrap()[envelope]),
                &[[5, number, 0, 0, 0]],
            );
            changes(
                |tune| field(&mut tune.panning_envelopes.as_mut().unwrap()[envelope]),
                &[[6, number, 0, 0, 0]],
            );
        }
    }
}

/// Points 3 to 31 are not in use. They are shown as zeros, whatever is stored.
#[test]
fn points_that_are_not_in_use() {
    for point in 3..32 {
        for stored in [(0, 0), (1, 1), (0xFFFF, -1)] {
            for envelope in [0, 1] {
                changes(
                    |tune| tune.volume_envelopes.as_mut().unwrap()[envelope].points[point] = stored,
                    &[],
                );
                changes(
                    |tune| {
                        tune.panning_envelopes.as_mut().unwrap()[envelope].points[point] = stored;
                    },
                    &[],
                );
            }
        }
    }
    // One point more is in use. It is all zeros, as it was shown before, but the number of sections differs.
    changes(
        |tune| {
            let envelope = &mut tune.volume_envelopes.as_mut().unwrap()[0];
            envelope.sections = 3;
            envelope.points[3] = (0, 0);
        },
        &[[5, 0, 0, 0, 0]],
    );
}

/// The number of envelopes is not in INFO. Each envelope in one module only is an entry.
#[test]
fn numbers_of_envelopes() {
    changes(
        |tune| tune.volume_envelopes = None,
        &[[5, 0, 0, 0, 0], [5, 1, 0, 0, 0]],
    );
    changes(
        |tune| tune.panning_envelopes = Some(vec![]),
        &[[6, 0, 0, 0, 0], [6, 1, 0, 0, 0]],
    );
    changes(
        |tune| drop(tune.panning_envelopes.as_mut().unwrap().pop()),
        &[[6, 1, 0, 0, 0]],
    );
    let empty = |envelopes: Option<Vec<Envelope>>| Tune {
        volume_envelopes: envelopes.clone(),
        panning_envelopes: envelopes,
        ..Tune::default()
    };
    differ(&empty(None).bytes(), &empty(Some(vec![])).bytes(), &[]);
}

#[test]
fn samples() {
    // The width, with the same bytes, the same values, and no bytes at all.
    let of = |samples: &[Sample]| Tune {
        samples: samples.to_vec(),
        ..Tune::default()
    };
    let sample = |one: Sample, other: Sample| {
        let (one, other) = (of(&[one]).bytes(), of(&[other]).bytes());
        differ(&one, &other, &[[7, 1, 0, 0, 0]]);
    };
    let bits = Sample::new;
    sample(bits(1, &[1]), bits(2, &[1, 0]));
    sample(bits(1, &[1]), bits(2, &[0, 1]));
    sample(bits(1, &[0, 0, 0, 0]), bits(2, &[0, 0, 0, 0]));
    sample(bits(2, &[0, 0, 0, 0]), bits(4, &[0, 0, 0, 0]));
    sample(bits(1, &[0, 0, 0, 0]), bits(4, &[0, 0, 0, 0]));
    sample(bits(1, &[]), bits(2, &[]));
    sample(bits(1, &[]), bits(4, &[]));
    sample(bits(2, &[]), bits(4, &[]));
    // Every byte, and frames more or less.
    for width in [1, 2, 4] {
        let frames = [7; 8];
        for place in 0..8 {
            let mut other = frames;
            other[place] ^= 0x80;
            sample(bits(width, &frames), bits(width, &other));
        }
        sample(bits(width, &frames), bits(width, &[7; 4]));
        sample(bits(width, &frames), bits(width, &[7; 12]));
        sample(bits(width, &frames), bits(width, &[]));
    }
    // Of three samples the second, and of the first and the last none.
    let some = |second: Sample| of(&[bits(1, &[9]), second, bits(4, &[1, 2, 3, 4])]).bytes();
    differ(
        &some(bits(1, &[1, 2])),
        &some(bits(1, &[1, 3])),
        &[[7, 2, 0, 0, 0]],
    );
}

/// A module with these patterns of 4 tracks.
fn patterned(patterns: &[Pattern]) -> Vec<u8> {
    let tune = Tune {
        patterns: patterns.to_vec(),
        ..Tune::default()
    };
    tune.bytes()
}

/// One pattern with one stream, and the same with another: these fields of its cells differ, given as row, track and field.
#[track_caller]
fn streams(rows: u16, one: &[u8], other: &[u8], expected: &[[u16; 3]]) {
    let expected: Vec<Difference> = expected
        .iter()
        .map(|&[row, track, field]| [8, 0, row, track, field])
        .collect();
    let of = |stream| patterned(&[Pattern::new(rows, stream)]);
    differ(&of(one), &of(other), &expected);
}

#[test]
fn fields_of_cells() {
    // Each field alone: against an empty cell, and against another value.
    for field in 1u8..=6 {
        let mask = 1 << (field - 1);
        let (one, other) = ([2, mask, 5, 0], [2, mask, 6, 0]);
        let place = [0, 2, u16::from(field)];
        streams(1, &one, &[0], &[place]);
        streams(1, &one, &other, &[place]);
        streams(1, &one, &[2, mask, 0, 0], &[place]);
    }
    // All fields, and some.
    let all = [
        [0, 2, 1],
        [0, 2, 2],
        [0, 2, 3],
        [0, 2, 4],
        [0, 2, 5],
        [0, 2, 6],
    ];
    streams(1, &[2, 0x3F, 1, 2, 3, 4, 5, 6, 0], &[0], &all);
    streams(
        1,
        &[2, 0x3F, 1, 2, 3, 4, 5, 6, 0],
        &[2, 0x3F, 9, 2, 9, 4, 5, 9, 0],
        &[[0, 2, 1], [0, 2, 3], [0, 2, 6]],
    );
    // Another track has the same fields.
    streams(
        1,
        &[1, 0x03, 0x47, 1, 0],
        &[4, 0x03, 0x47, 1, 0],
        &[[0, 1, 1], [0, 1, 2], [0, 4, 1], [0, 4, 2]],
    );
    // Another row has them.
    streams(
        3,
        &[1, 0x03, 0x47, 1, 0, 0, 0],
        &[0, 0, 1, 0x03, 0x47, 1, 0],
        &[[0, 1, 1], [0, 1, 2], [2, 1, 1], [2, 1, 2]],
    );
}

/// Rows before tracks, and tracks before fields: the second is track 4 of row 0, the third track 1 of row 1.
#[test]
fn the_order_of_fields() {
    streams(
        2,
        &[4, 0x21, 7, 8, 1, 0x20, 9, 0, 2, 0x01, 5, 1, 0x22, 6, 7, 0],
        &[0, 0],
        &[
            [0, 1, 6],
            [0, 4, 1],
            [0, 4, 6],
            [1, 1, 2],
            [1, 1, 6],
            [1, 2, 1],
        ],
    );
}

/// Streams that are packed in different ways, with the same cells: tracks in another order, an entry in two parts, entries that are
/// overwritten, zeros that are stored, and empty masks.
#[test]
fn packing_is_not_compared() {
    let packed = [1, 0x03, 0x47, 1, 3, 0x20, 9, 0, 0];
    for other in [
        &[3, 0x20, 9, 1, 0x03, 0x47, 1, 0, 0][..],
        &[1, 0x01, 0x47, 3, 0x20, 9, 1, 0x02, 1, 0, 0],
        &[1, 0x03, 0x50, 7, 1, 0x03, 0x47, 1, 3, 0x20, 9, 0, 0],
        &[1, 0x07, 0x47, 1, 0, 3, 0x21, 0, 9, 2, 0x00, 0, 0],
        &[2, 0x01, 5, 1, 0x03, 0x47, 1, 3, 0x20, 9, 2, 0x01, 0, 0, 0],
        &[
            1, 0x03, 0x47, 1, 3, 0x20, 9, 0, 4, 0x3F, 0, 0, 0, 0, 0, 0, 0,
        ],
    ] {
        streams(2, &packed, other, &[]);
    }
    // The later of two entries counts, field by field.
    streams(
        1,
        &[1, 0x03, 0x50, 7, 1, 0x01, 0x47, 0],
        &[1, 0x03, 0x47, 8, 0],
        &[[0, 1, 2]],
    );
    // A filler.
    let of = |filler| {
        patterned(&[Pattern {
            rows: 1,
            stream: vec![0],
            filler,
        }])
    };
    differ(&of(0), &of(0xFF), &[]);
}

/// Patterns of unequal rows are one entry, whatever their cells are, and so are patterns of unequal tracks, even with 0 rows.
#[test]
fn rows_and_tracks() {
    let some = [1, 0x03, 0x47, 1, 0];
    let two = [1, 0x03, 0x50, 2, 0, 4, 0x01, 0x60, 0];
    let of = |tracks, patterns: &[(u16, &[u8])]| {
        let patterns = patterns.iter();
        let tune = Tune {
            tracks,
            patterns: patterns
                .map(|(rows, stream)| Pattern::new(*rows, stream))
                .collect(),
            ..Tune::default()
        };
        tune.bytes()
    };
    differ(
        &of(4, &[(1, &some)]),
        &of(4, &[(2, &two)]),
        &[[8, 0, 0, 0, 0]],
    );
    differ(
        &of(4, &[(0, &[])]),
        &of(4, &[(1, &[0])]),
        &[[8, 0, 0, 0, 0]],
    );
    differ(&of(4, &[(0, &[])]), &of(4, &[(0, &[])]), &[]);
    differ(
        &of(4, &[(1, &some), (0, &[])]),
        &of(6, &[(1, &some), (0, &[])]),
        &[[2, 4, 0, 0, 0], [8, 0, 0, 0, 0], [8, 1, 0, 0, 0]],
    );
    // Other tracks and no patterns, and a pattern more.
    differ(&of(4, &[]), &of(8, &[]), &[[2, 4, 0, 0, 0]]);
    differ(
        &of(4, &[(0, &[])]),
        &of(8, &[(0, &[]), (0, &[])]),
        &[
            [2, 3, 0, 0, 0],
            [2, 4, 0, 0, 0],
            [8, 0, 0, 0, 0],
            [8, 1, 0, 0, 0],
        ],
    );
    // The same number of cells: 3 rows of 4 tracks, and 2 rows of 6.
    differ(
        &of(4, &[(3, &[0, 0, 0])]),
        &of(6, &[(2, &[0, 0])]),
        &[[2, 4, 0, 0, 0], [8, 0, 0, 0, 0]],
    );
    // Cells of the first pattern, rows of the second, fields of the third, and the fourth is in one module only.
    differ(
        &of(4, &[(1, &some), (1, &[0]), (2, &two), (0, &[])]),
        &of(4, &[(1, &[0]), (3, &[0, 0, 0]), (2, &[0, 0])]),
        &[
            [2, 3, 0, 0, 0],
            [8, 0, 0, 1, 1],
            [8, 0, 0, 1, 2],
            [8, 1, 0, 0, 0],
            [8, 2, 0, 1, 1],
            [8, 2, 0, 1, 2],
            [8, 2, 1, 4, 1],
            [8, 3, 0, 0, 0],
        ],
    );
}

/// Version, revision, the reserved word, other chunks and the order of the chunks.
#[test]
fn what_is_not_compared() {
    let mut tune = whole();
    // The panning values -128 and 28 are 0 and 39 in version 2.
    tune = in_the_other_version(&tune).expect("version 3 has a twin");
    let values = |envelope: &Envelope| envelope.points[0].1;
    let panning = tune.panning_envelopes.as_ref().unwrap();
    assert_eq!((values(&panning[0]), values(&panning[1])), (0, 39));
    tune.revision = 0x99;
    tune.reserved = [0xBE, 0xEF];
    let mut draft = tune
        .draft()
        .ordered(&[*b"PENV", *b"INFO", *b"SMPL", *b"PATT", *b"NAME"]);
    for name in [b"DSPE", b"PNAM", b"MPEG", b"DSPE"] {
        draft.chunks.insert(2, Chunk::new(name, vec![1, 2, 3]));
    }
    differ(&whole().bytes(), &draft.bytes(), &[]);
}

/// A draft of `whole` with a fault, and its refusal.
fn faults() -> Vec<(Vec<u8>, u64, u64)> {
    let fault = |change: fn(&mut Draft)| {
        let mut draft = whole().draft();
        change(&mut draft);
        draft.bytes()
    };
    // NAME at 8, INFO at 60, VENV at 78, PENV at 360, SONG at 642, INST at 750, PATT at 858, SMPL at 892, the end at 922.
    assert_eq!(whole().bytes().len(), 922);
    vec![
        (vec![0; 16_777_217], 1, 0),
        (vec![], 2, 0),
        (fault(|draft| draft.header[3] = b'1'), 2, 0),
        (fault(|draft| draft.header[4] = 1), 3, 4),
        (fault(|draft| draft.tail = vec![0; 3]), 4, 922),
        (fault(|draft| draft.chunk(b"SMPL").name = *b"SMPl"), 5, 892),
        (
            fault(|draft| draft.chunks.push(Chunk::new(b"NAME", vec![0; 44]))),
            6,
            922,
        ),
        (fault(|draft| draft.chunks.swap(1, 4)), 7, 60),
        (fault(|draft| drop(draft.chunks.pop())), 8, 892),
        (fault(|draft| draft.chunk(b"NAME").data.truncate(43)), 9, 8),
        (fault(|draft| draft.put(b"INFO", 8, &[0, 5])), 10, 76),
        (fault(|draft| draft.chunk(b"SONG").data.push(0)), 11, 642),
        (fault(|draft| draft.put(b"SONG", 46, &[0, 2])), 12, 696),
        (fault(|draft| draft.put(b"INST", 32, &[0, 65])), 13, 790),
        (fault(|draft| draft.put(b"INST", 48, &[0, 1])), 14, 758),
        (fault(|draft| draft.put(b"PATT", 6, &[5])), 15, 866),
    ]
}

#[test]
fn every_refusal_of_the_first_and_of_the_second() {
    let good = whole().bytes();
    let faults = faults();
    for (module, number, place) in &faults {
        let refusal = Refusal {
            number: *number,
            place: *place,
        };
        assert_eq!(check(module), Err(refusal), "{number}");
        is_refused(module, &good, *number, *place);
        is_refused(&good, module, *number, *place);
        is_refused(module, module, *number, *place);
    }
    // Both are refused: the first one decides, also if its number is the larger one.
    for (first, number, place) in &faults {
        for (second, ..) in &faults {
            let answer = compare(first, second, &mut [0; 10]);
            assert_eq!(answer, refused(*number, *place));
        }
    }
}

/// The module's own refusals come before 17, and 17 is not given if nothing is needed.
#[test]
fn no_room() {
    let good = whole().bytes();
    assert_eq!(compare(&good, &good, &mut []), Ok(0));
    assert_eq!(compare(CAROUSEL, &good[..921], &mut []), refused(4, 892));
    assert_eq!(compare(&good[..921], CAROUSEL, &mut []), refused(4, 892));
}

/// One module is in a chunk of the other one, which is another chunk and not compared.
#[test]
fn a_module_inside_a_chunk_of_the_other() {
    let mut draft = whole().draft();
    let inner = Chunk::new(b"INNR", CAROUSEL.to_vec());
    draft.chunks.push(inner);
    let module = draft.bytes();
    let inside = &module[module.len() - CAROUSEL.len()..];
    assert_eq!(inside, CAROUSEL);
    let apart = differences(&whole().bytes(), CAROUSEL);
    assert!(apart.as_ref().is_ok_and(|list| !list.is_empty()));
    assert_eq!(differences(&module, inside), apart);
    assert_eq!(differences(inside, &module), apart);
}

/// The largest number of each kind: 32,767 songs, 255 instruments, 65,535 envelopes, 255 samples, 1,024 patterns.
#[test]
fn the_largest_numbers() {
    let envelope = Envelope {
        instrument: 1,
        ..Envelope::default()
    };
    let most = Tune {
        songs: vec![Song::default(); 32_767],
        instruments: vec![Instrument::default(); 255],
        volume_envelopes: Some(vec![envelope.clone(); 65_535]),
        panning_envelopes: Some(vec![envelope; 300]),
        samples: vec![Sample::new(1, &[]); 255],
        patterns: vec![Pattern::default(); 1_024],
        ..Tune::default()
    };
    let found = differences(&most.bytes(), SMALLEST).unwrap();
    let counts = found.iter().fold(BTreeMap::new(), |mut counts, entry| {
        *counts.entry(entry[0]).or_insert(0) += 1;
        counts
    });
    let expected = [
        (INFO, 4),
        (SONG, 32_767),
        (INSTRUMENT, 255),
        (VOLUME_ENVELOPE, 65_535),
        (PANNING_ENVELOPE, 300),
        (SAMPLE, 255),
        (PATTERN, 1_024),
    ];
    assert_eq!(counts, BTreeMap::from(expected));
    for last in [
        [3, 32_766, 0, 0, 0],
        [4, 255, 0, 0, 0],
        [5, 65_534, 0, 0, 0],
        [6, 299, 0, 0, 0],
        [7, 255, 0, 0, 0],
        [8, 1_023, 0, 0, 0],
    ] {
        assert!(found.contains(&last), "{last:?}");
    }
    // The last record of each kind differs, and nothing else.
    let mut other = most.clone();
    other.songs[32_766].name = b"x".to_vec();
    other.instruments[254].volume = 1;
    other.volume_envelopes.as_mut().unwrap()[65_534].flags = 1;
    other.panning_envelopes.as_mut().unwrap()[299].flags = 1;
    other.samples[254] = Sample::new(2, &[]);
    other.patterns[1_023] = Pattern::new(1, &[0]);
    let is: Vec<Difference> = differences(&most.bytes(), &other.bytes())
        .unwrap()
        .into_iter()
        .collect();
    assert_eq!(
        is,
        [
            [3, 32_766, 0, 0, 0],
            [4, 255, 0, 0, 0],
            [5, 65_534, 0, 0, 0],
            [6, 299, 0, 0, 0],
            [7, 255, 0, 0, 0],
            [8, 1_023, 0, 0, 0],
        ]
    );
}

/// 65,535 rows of 254 tracks. The first field of the first cell and the last field of the last cell differ.
#[test]
fn the_largest_pattern() {
    let of = |first: u8, last: u8| {
        let mut stream = vec![1, 0x01, first];
        stream.extend([0; 65_535]);
        let end = stream.pop().expect("the last row end");
        stream.extend([254, 0x20, last, end]);
        let tune = Tune {
            tracks: 254,
            patterns: vec![Pattern::new(65_535, &stream)],
            ..Tune::default()
        };
        tune.bytes()
    };
    differ(
        &of(1, 2),
        &of(0, 3),
        &[[8, 0, 0, 1, 1], [8, 0, 65_534, 254, 6]],
    );
}

/// `fields` and `unpack` read the same cells from a stream, and refuse the same streams.
#[test]
fn fields_are_the_bytes_that_are_unpacked() {
    for seed in 0..500 {
        let random = &mut Random::new(seed);
        let (rows, tracks) = (random.below(6), 4 + 2 * random.below(4));
        let mut stream = valid_stream(random, rows, tracks, 5);
        if seed % 5 == 0 {
            stream.pop();
        }
        let mut cells = vec![0; (rows * tracks * 6) as usize];
        let unpacked = unpack(&stream, rows, tracks, &mut cells);
        let fields = fields(&stream, rows, tracks);
        assert_eq!(fields.as_ref().err(), unpacked.as_ref().err());
        let Ok(fields) = fields else {
            continue;
        };
        let mut expected = BTreeMap::new();
        for (&value, place) in cells.iter().zip(0..) {
            let (row, track, field) = (place / 6 / tracks, place / 6 % tracks + 1, place % 6 + 1);
            if value != 0 {
                expected.insert((row as u16, track as u16, field as u16), value);
            }
        }
        assert_eq!(fields, expected, "seed {seed}");
    }
}

/// The bytes of a name, padded with zeros.
fn padded(name: &[u8], length: usize) -> Vec<u8> {
    let mut name = name.to_vec();
    name.resize(length, 0);
    name
}

/// What is compared of an envelope: its fields, and the points in use as they are shown.
fn envelope_values(envelope: &Envelope, scaled: bool) -> Envelope {
    let mut shown = envelope.clone();
    shown.points.resize(32, (0, 0));
    shown.points.truncate(usize::from(envelope.sections) + 1);
    for (_, value) in &mut shown.points {
        if scaled {
            *value = 4 * *value - 128;
        }
    }
    shown
}

/// The entries for the records that differ in two lists, or are in one of them.
fn by_number<T: PartialEq>(kind: u16, first: u16, one: Vec<T>, other: Vec<T>) -> Vec<Difference> {
    (0..one.len().max(other.len()))
        .filter(|&index| one.get(index) != other.get(index))
        .map(|index| [kind, first + index as u16, 0, 0, 0])
        .collect()
}

/// The differences between two modules, from the records that they were written from.
fn from_tunes(one: &Tune, other: &Tune) -> Vec<Difference> {
    let name = |tune: &Tune| vec![padded(tune.name.as_deref().unwrap_or_default(), 44)];
    let info = |tune: &Tune| {
        vec![
            tune.instruments.len(),
            tune.samples.len(),
            tune.songs.len(),
            tune.patterns.len(),
            tune.tracks.into(),
        ]
    };
    let songs = |tune: &Tune| {
        let songs = tune.songs.iter();
        songs
            .map(|song| (padded(&song.name, 44), song.playlist.clone()))
            .collect()
    };
    let instruments = |tune: &Tune| {
        let instruments = tune.instruments.iter();
        instruments
            .map(|instrument| Instrument {
                name: padded(&instrument.name, 30),
                ..instrument.clone()
            })
            .collect()
    };
    let volume = |tune: &Tune| {
        let envelopes = tune.volume_envelopes.iter().flatten();
        envelopes.map(|it| envelope_values(it, false)).collect()
    };
    let panning = |tune: &Tune| {
        let envelopes = tune.panning_envelopes.iter().flatten();
        envelopes
            .map(|it| envelope_values(it, tune.version == 2))
            .collect()
    };
    let mut entries = by_number(NAME, 0, name(one), name(other));
    entries.extend(by_number(INFO, 0, info(one), info(other)));
    let of_songs: (Vec<_>, Vec<_>) = (songs(one), songs(other));
    entries.extend(by_number(SONG, 0, of_songs.0, of_songs.1));
    let of_instruments: (Vec<_>, Vec<_>) = (instruments(one), instruments(other));
    entries.extend(by_number(INSTRUMENT, 1, of_instruments.0, of_instruments.1));
    let of_volume: (Vec<_>, Vec<_>) = (volume(one), volume(other));
    entries.extend(by_number(VOLUME_ENVELOPE, 0, of_volume.0, of_volume.1));
    let of_panning: (Vec<_>, Vec<_>) = (panning(one), panning(other));
    entries.extend(by_number(PANNING_ENVELOPE, 0, of_panning.0, of_panning.1));
    entries.extend(by_number(
        SAMPLE,
        1,
        one.samples.clone(),
        other.samples.clone(),
    ));
    for number in 0..one.patterns.len().max(other.patterns.len()) {
        entries.extend(pattern_entries(number, one, other));
    }
    entries
}

/// The entries for one pattern.
fn pattern_entries(number: usize, one: &Tune, other: &Tune) -> Vec<Difference> {
    let entry = number as u16;
    let cells = |tune: &Tune| -> Option<Vec<u8>> {
        let pattern = tune.patterns.get(number)?;
        let (rows, tracks) = (u64::from(pattern.rows), u64::from(tune.tracks));
        let mut cells = vec![0; (rows * tracks * 6) as usize];
        unpack(&pattern.stream, rows, tracks, &mut cells).expect("it is valid");
        Some(cells)
    };
    match (cells(one), cells(other)) {
        (Some(first), Some(second))
            if one.tracks == other.tracks && first.len() == second.len() =>
        {
            let row_bytes = 6 * usize::from(one.tracks);
            (0..first.len())
                .filter(|&place| first[place] != second[place])
                .map(|place| {
                    let (row, within) = (place / row_bytes, place % row_bytes);
                    let (track, field) = (within / 6 + 1, within % 6 + 1);
                    [PATTERN, entry, row as u16, track as u16, field as u16]
                })
                .collect()
        }
        _ => vec![[PATTERN, entry, 0, 0, 0]],
    }
}

/// Modules are written from records, and their differences are those of the records.
#[test]
fn as_the_records_say() {
    let limits = Limits {
        envelopes: 2,
        ..Limits::SMALL
    };
    let mut kinds = BTreeSet::new();
    let mut empty = 0;
    for seed in 0..3_000 {
        let random = &mut Random::new(seed);
        let one = made_tune(random, &limits);
        let mut other = match seed % 3 {
            0 => made_tune(random, &limits),
            _ => one.clone(),
        };
        for _ in 0..seed % 4 {
            other = valid_change(random, &other);
        }
        let is = differences(&one.bytes(), &other.bytes()).expect("both are accepted");
        let expected = from_tunes(&one, &other);
        let is: Vec<Difference> = is.into_iter().collect();
        assert_eq!(is, expected, "seed {seed}");
        kinds.extend(is.iter().map(|entry| (entry[0], entry[3] != 0)));
        empty += u64::from(is.is_empty());
    }
    let mut all: BTreeSet<(u16, bool)> = (1..=8).map(|kind| (kind, false)).collect();
    all.insert((PATTERN, true));
    assert_eq!(kinds, all);
    assert!((100..2_000).contains(&empty), "{empty}");
}

/// Each change of records makes entries of its kinds only. Some of them make none.
#[test]
fn every_change_has_its_kinds() {
    let mut found: BTreeMap<&str, BTreeSet<u16>> = BTreeMap::new();
    for (name, change) in CHANGES {
        for seed in 0..300 {
            let random = &mut Random::new(seed);
            let one = made_tune(random, &Limits::SMALL);
            let mut other = one.clone();
            change(random, &mut other);
            if let Ok(list) = differences(&one.bytes(), &other.bytes()) {
                let kinds = list.iter().map(|entry| entry[0]);
                found.entry(name).or_default().extend(kinds);
            }
        }
    }
    let expected: [(&str, &[u16]); 43] = [
        ("header", &[]),
        ("instrument loop", &[4]),
        ("instrument name", &[4]),
        ("instrument panning", &[4]),
        ("instrument rate", &[4]),
        ("instrument sample", &[4]),
        ("instrument volume", &[4]),
        ("instruments", &[2, 4]),
        ("name", &[1]),
        ("packing", &[]),
        ("panning envelope instrument", &[6]),
        ("panning envelope flags", &[6]),
        ("panning envelope sections", &[6]),
        ("panning envelope first sustain", &[6]),
        ("panning envelope loop first", &[6]),
        ("panning envelope loop last", &[6]),
        ("panning envelope second sustain", &[6]),
        ("panning envelope point", &[6]),
        ("panning envelopes", &[6]),
        ("pattern fields", &[8]),
        ("pattern rows", &[8]),
        ("patterns", &[2, 8]),
        ("playlist entry", &[3]),
        ("playlist length", &[3]),
        ("playlist order", &[3]),
        ("sample frame", &[7]),
        ("sample frames", &[7]),
        ("sample width", &[7]),
        ("samples", &[2, 7]),
        ("several patterns", &[8]),
        ("song name", &[3]),
        ("songs", &[2, 3]),
        ("tracks", &[2, 8]),
        ("unused point", &[]),
        ("volume envelope instrument", &[5]),
        ("volume envelope flags", &[5]),
        ("volume envelope sections", &[5]),
        ("volume envelope first sustain", &[5]),
        ("volume envelope loop first", &[5]),
        ("volume envelope loop last", &[5]),
        ("volume envelope second sustain", &[5]),
        ("volume envelope point", &[5]),
        ("volume envelopes", &[5]),
    ];
    assert_eq!(expected.len(), found.len());
    for (name, kinds) in expected {
        let kinds: BTreeSet<u16> = kinds.iter().copied().collect();
        assert_eq!(found.get(name), Some(&kinds), "{name}");
    }
}

/// What holds for all pairs: the refusal is the first module's, then the second's. The list is the same for the modules swapped, and it is
/// not longer than ten times both modules. A module and itself have no differences.
#[test]
fn pairs_of_all_relations() {
    for relation in RELATIONS {
        let mut found = BTreeMap::new();
        let seeds = match relation {
            Relation::Many => 30,
            _ => 300,
        };
        for seed in 0..seeds {
            let (first, second) = pair(&mut Random::new(seed), relation);
            let is = differences(&first, &second);
            let refusal = check(&first).and(check(&second)).err();
            assert_eq!(is.as_ref().err(), refusal.as_ref());
            assert_eq!(differences(&first, &first).is_ok(), check(&first).is_ok());
            if let Ok(list) = &is {
                assert_eq!(differences(&second, &first).as_ref(), Ok(list));
                assert!(list.len() <= first.len() + second.len());
                assert_eq!(differences(&first, &first), Ok(BTreeSet::new()));
                writes_once(&first, &second, list);
            }
            *found
                .entry(is.map(|list| list.len().min(1)).ok())
                .or_insert(0) += 1;
        }
        // The numbers of pairs that are refused, without differences, and with differences.
        let [refused, same, other] = [None, Some(0), Some(1)].map(|kind| found.get(&kind));
        let few = |count: Option<&u64>| count.is_some_and(|&count| 5 * count >= seeds);
        let none = |count: Option<&u64>| count.is_none();
        let holds = match relation {
            Relation::SameRecords | Relation::Repacked => none(refused) && none(other),
            Relation::OneChange | Relation::SomeChanges => none(refused) && few(other),
            Relation::Versions => none(refused) && few(same) && few(other),
            Relation::Replaced | Relation::Unrelated | Relation::Many => {
                none(refused) && few(other)
            }
            Relation::Damaged => few(refused) && other.is_some(),
            Relation::AnyBytes => few(refused) && none(other),
        };
        assert!(holds, "{relation:?}: {found:?}");
    }
}

/// The list is written as it is.
#[track_caller]
fn writes_once(first: &[u8], second: &[u8], list: &BTreeSet<Difference>) {
    let entries: Vec<Difference> = list.iter().copied().collect();
    let expected = entry_bytes(&entries);
    let mut out = vec![0xAA; ENTRY_BYTES * list.len() + 2];
    assert_eq!(compare(first, second, &mut out), Ok(list.len() as u64));
    assert_eq!(out[..expected.len()], expected);
    assert_eq!(out[expected.len()..], [0xAA; 2]);
}

/// After a sample is replaced, the list has the instruments whose loop was cleared, and the sample if its width or its frames are other.
#[test]
fn a_module_and_the_same_with_a_sample_replaced() {
    let mut most = 0;
    for seed in 0..1_000 {
        let (one, other) = pair(&mut Random::new(seed), Relation::Replaced);
        let list = differences(&one, &other).expect("both are accepted");
        let cleared = list.iter().filter(|entry| entry[0] == INSTRUMENT);
        let samples: Vec<&Difference> = list.iter().filter(|entry| entry[0] == SAMPLE).collect();
        for entry in cleared.clone() {
            let [before, after] =
                [&one, &other].map(|module| shown_instrument(module, entry[1].into()).unwrap());
            assert_eq!(before.sample, after.sample);
            assert!(before.flags == 0 || after.flags == 0);
            assert_eq!(samples, [&[SAMPLE, before.sample, 0, 0, 0]]);
        }
        for entry in &samples {
            let shown = [&one, &other].map(|module| shown_sample(module, entry[1].into()).unwrap());
            assert!(shown.iter().any(|sample| sample.width == 16));
        }
        assert!(samples.len() <= 1);
        assert_eq!(cleared.clone().count() + samples.len(), list.len());
        most = most.max(cleared.count());
    }
    assert!(most >= 2, "{most}");
}
