//! The queries about a module, with expectations typed by hand.
//!
//! Numbers and places are literals, computed from the layout beside each module below.

use std::collections::BTreeSet;

use reference::chunks::Info;
use reference::generate::{damage, module as made, Limits, Random};
use reference::module::check;
use reference::pattern::{Cell, Note};
use reference::records::{self, Envelope, Instrument, Kind, Point, Sample, Song};
use reference::refusal::Refusal;

const MOST: u64 = u64::MAX;

/// Numbers of items that `full` does not have. Some are 0, 1 or 2 if truncated to fewer bits.
const BEYOND: [u64; 10] = [
    256,
    257,
    258,
    65_536,
    65_537,
    4_294_967_296,
    4_294_967_297,
    4_294_967_298,
    9_223_372_036_854_775_808,
    MOST,
];

const KINDS: [Kind; 2] = [Kind::Volume, Kind::Panning];

fn refused<T>(number: u64, place: u64) -> Result<T, Refusal> {
    Err(Refusal { number, place })
}

fn not_there<T>() -> Result<T, Refusal> {
    refused(18, 0)
}

/// The module with other bytes at a place.
fn with(module: &[u8], place: usize, bytes: &[u8]) -> Vec<u8> {
    let mut module = module.to_vec();
    module[place..place + bytes.len()].copy_from_slice(bytes);
    module
}

/// All points of an envelope. Those that are not given are zeros.
fn points(given: &[(u16, i16)]) -> [Point; 32] {
    let mut points = [Point {
        position: 0,
        value: 0,
    }; 32];
    for (point, &(position, value)) in points.iter_mut().zip(given) {
        *point = Point { position, value };
    }
    points
}

/// The call with an output of every length. If it is shorter than these bytes, 17 is returned and nothing is written. Otherwise they are
/// written, and the bytes after them are unchanged.
fn writes(bytes: &[u8], call: impl Fn(&mut [u8]) -> Result<u64, Refusal>) {
    let needed = bytes.len();
    for room in 0..needed {
        let mut out = vec![0xAA; room];
        assert_eq!(call(&mut out), refused(17, needed as u64));
        assert_eq!(out, vec![0xAA; room]);
    }
    for more in [0, 1, 2, 7, 100] {
        let mut out = vec![0xAA; needed + more];
        assert_eq!(call(&mut out), Ok(needed as u64));
        assert_eq!(out[..needed], *bytes);
        assert_eq!(out[needed..], vec![0xAA; more]);
    }
}

const NAME: [u8; 44] = *b"\xFFModule with every record\x00and a tail \x80 of it";
const SONG_0: [u8; 44] = *b"\x80First song whose playlist has three entries";
const SONG_1: [u8; 44] = *b"Second song: nothing is played in it, nothin";
const SONG_2: [u8; 44] = *b"\x00Third song\xFF\x01the name goes on behind zeros\x00\x00";
const INSTRUMENT_1: [u8; 30] = *b"\xFFFirst instrument, and looped\x00";
const INSTRUMENT_2: [u8; 30] = *b"Second instrument\x00\x80\x00\x00no loop!\x01";

/// A module with every kind of record, 1,032 bytes, valid in both versions.
///
/// - PENV at 8: count at 16, blocks at 18 and 154.
/// - NAME at 290.
/// - INFO at 342: numbers at 350, 352, 354, 356 and 358.
/// - XYZW at 360.
/// - SMPL at 371: blocks at 379, 392, 406 and 430, their frames at 387, 400, 414 and 438.
/// - INST at 438: blocks at 446 and 496. Of the first, sample at 476, volume at 478, loop at 484 and 488, panning at 492.
/// - PATT at 546: blocks at 554, 582 and 588, their streams at 560, 588 and 594.
/// - SONG at 596: blocks at 604, 656 and 702. Of the first, length at 648, entries at 650, 652 and 654.
/// - VENV at 750: count at 758, blocks at 760 and 896.
///
/// The points that are not in use are $FF.
#[rustfmt::skip]
fn full(version: u8) -> Vec<u8> {
    let module = [
        &b"DBM0"[..], &[version, 0x21, 0xDE, 0xAD],

        b"PENV\x00\x00\x01\x12", &[0, 2],
        &[0, 2, 0x0F, 2, 1, 0, 2, 2],
        &[0x00, 0x00, 0, 0, 0x01, 0x02, 0, 32, 0xFF, 0xFE, 0, 64], &[0xFF; 116],
        &[0, 1, 0x00, 0, 0xFF, 0xFE, 0x20, 0x80],
        &[0x80, 0x01, 0, 1], &[0xFF; 124],

        b"NAME\x00\x00\x00\x2C", &NAME,

        b"INFO\x00\x00\x00\x0A", &[0, 2, 0, 4, 0, 3, 0, 3, 0, 6],

        b"XYZW\x00\x00\x00\x03", b"any",

        b"SMPL\x00\x00\x00\x3B",
        &[0, 0, 0, 1, 0, 0, 0, 5], &[0x80, 0xFF, 0x00, 0x01, 0x7F],
        &[0, 0, 0, 2, 0, 0, 0, 3], &[0x80, 0x00, 0xFF, 0xFE, 0x7F, 0xFF],
        &[0, 0, 0, 4, 0, 0, 0, 4], &[0xFF, 0xFF, 0xFF, 0xFF, 0x80, 0x00, 0x00, 0x00],
        &[0x00, 0x01, 0x00, 0x00, 0x12, 0x34, 0x56, 0x78],
        &[0, 0, 0, 2, 0, 0, 0, 0],

        b"INST\x00\x00\x00\x64",
        &INSTRUMENT_1, &[0, 3], &[0, 64], &[0x01, 0x02, 0x03, 0x04], &[0, 0, 0, 1], &[0, 0, 0, 3],
        &[0xFF, 0x80], &[0, 1],
        &INSTRUMENT_2, &[0, 0], &[0, 33], &[0xFF, 0xFE, 0xFD, 0xFC], &[0x80, 0x00, 0x00, 0x01],
        &[0xFE, 0xDC, 0xBA, 0x98], &[0x00, 0x80], &[0, 0],

        b"PATT\x00\x00\x00\x2A",
        &[0, 2], &[0, 0, 0, 21],
        &[0x06, 0x3F, 0x1F, 0x02, 0x0A, 0x0B, 0x0C, 0x0D, 0x02, 0x01, 0x47, 0x02, 0x02, 0x01, 0x00],
        &[0x01, 0x31, 0x9C, 0x66, 0x77, 0x00], &[0x55],
        &[0, 0], &[0, 0, 0, 0],
        &[0, 1], &[0, 0, 0, 1], &[0x00], &[0x77],

        b"SONG\x00\x00\x00\x92",
        &SONG_0, &[0, 3], &[0, 2, 0, 0, 0, 1],
        &SONG_1, &[0, 0],
        &SONG_2, &[0, 1], &[0, 2],

        b"VENV\x00\x00\x01\x12", &[0, 2],
        &[0, 1, 0x0E, 1, 1, 0, 1, 1],
        &[0x00, 0x00, 0, 64, 0x12, 0x34, 0, 0], &[0xFF; 120],
        &[0, 2, 0x01, 3, 0xC8, 7, 6, 0xFF],
        &[0xFF, 0xFF, 0, 1, 0x80, 0x00, 0, 2, 0x00, 0x01, 0, 63, 0x00, 0x00, 0, 64], &[0xFF; 112],
    ]
    .concat();
    assert_eq!(module.len(), 1_032);
    module
}

fn chunk(name: &[u8; 4], data: &[u8]) -> Vec<u8> {
    [&name[..], &(data.len() as u32).to_be_bytes(), data].concat()
}

/// A module with the data of SONG, INST, PATT and SMPL, in this order and directly after INFO.
fn module(version: u8, info: [u16; 5], [song, inst, patt, smpl]: [&[u8]; 4]) -> Vec<u8> {
    [
        b"DBM0".to_vec(),
        vec![version, 0, 0, 0],
        chunk(b"INFO", &info.map(u16::to_be_bytes).concat()),
        chunk(b"SONG", song),
        chunk(b"INST", inst),
        chunk(b"PATT", patt),
        chunk(b"SMPL", smpl),
    ]
    .concat()
}

/// 58 bytes.
fn smallest(version: u8) -> Vec<u8> {
    module(version, [0, 0, 0, 0, 4], [&[]; 4])
}

/// One sample and nothing else. SMPL at 50, its block at 58, its frames at 66.
fn sampled(frame_bytes: u8, data: &[u8]) -> Vec<u8> {
    let frames = data.len() as u32 / u32::from(frame_bytes);
    let block = [&[0, 0, 0, frame_bytes], &frames.to_be_bytes()[..], data].concat();
    module(3, [0, 1, 0, 0, 4], [&[], &[], &[], &block])
}

/// One instrument of zeros, and one envelope with these points. The other points are $FF.
/// INST at 34, its block at 42. The envelopes at 108: count at 116, block at 118, the value of point k at 128 + 4k.
fn enveloped(version: u8, name: &[u8; 4], first: [u8; 8], given: &[(u16, i16)]) -> Vec<u8> {
    let mut data = [&[0, 1], &first[..]].concat();
    for (position, value) in given {
        data.extend(position.to_be_bytes());
        data.extend(value.to_be_bytes());
    }
    data.resize(138, 0xFF);
    let head = module(version, [1, 0, 0, 0, 4], [&[], &[0; 50], &[], &[]]);
    assert_eq!(head.len(), 108);
    [head, chunk(name, &data)].concat()
}

// Every record of one module.

#[test]
fn both_versions_are_accepted() {
    assert_eq!(check(&full(2)), Ok(()));
    assert_eq!(check(&full(3)), Ok(()));
}

#[test]
fn header_name_and_info() {
    assert_eq!(records::version(&full(2)), Ok((0x02, 0x21)));
    assert_eq!(records::version(&full(3)), Ok((0x03, 0x21)));
    for version in [2, 3] {
        assert_eq!(records::name(&full(version)), Ok(NAME));
        assert_eq!(
            records::info(&full(version)),
            Ok(Info {
                instruments: 2,
                samples: 4,
                songs: 3,
                patterns: 3,
                tracks: 6,
            })
        );
    }
}

#[test]
fn songs_and_entries() {
    for version in [2, 3] {
        let module = full(version);
        for (song, name, length) in [(0, SONG_0, 3), (1, SONG_1, 0), (2, SONG_2, 1)] {
            assert_eq!(records::song(&module, song), Ok(Song { name, length }));
        }
        for (song, entry, pattern) in [(0, 0, 2), (0, 1, 0), (0, 2, 1), (2, 0, 2)] {
            assert_eq!(records::entry(&module, song, entry), Ok(pattern));
        }
    }
}

#[test]
fn playlists() {
    for version in [2, 3] {
        let module = full(version);
        writes(&[0, 2, 0, 0, 0, 1], |out| {
            records::playlist(&module, 0, out)
        });
        writes(&[], |out| records::playlist(&module, 1, out));
        writes(&[0, 2], |out| records::playlist(&module, 2, out));
    }
}

#[test]
fn instruments() {
    for version in [2, 3] {
        assert_eq!(
            records::instrument(&full(version), 1),
            Ok(Instrument {
                name: INSTRUMENT_1,
                sample: 3,
                volume: 64,
                rate: 0x0102_0304,
                loop_start: 1,
                loop_length: 3,
                panning: -128,
                flags: 1,
            })
        );
        assert_eq!(
            records::instrument(&full(version), 2),
            Ok(Instrument {
                name: INSTRUMENT_2,
                sample: 0,
                volume: 33,
                rate: 0xFFFE_FDFC,
                loop_start: 0x8000_0001,
                loop_length: 0xFEDC_BA98,
                panning: 128,
                flags: 0,
            })
        );
    }
}

#[test]
fn volume_envelopes() {
    for version in [2, 3] {
        assert_eq!(records::volume_envelopes(&full(version)), Ok(2));
        assert_eq!(
            records::envelope(&full(version), Kind::Volume, 0),
            Ok(Envelope {
                instrument: 1,
                flags: 0x0E,
                sections: 1,
                first_sustain: 1,
                loop_first: 0,
                loop_last: 1,
                second_sustain: 1,
                points: points(&[(0, 64), (0x1234, 0)]),
            })
        );
        // Only bit 0 of the flags is set: S1, L1, L2 and S2 are not checked, and are returned as stored.
        assert_eq!(
            records::envelope(&full(version), Kind::Volume, 1),
            Ok(Envelope {
                instrument: 2,
                flags: 0x01,
                sections: 3,
                first_sustain: 200,
                loop_first: 7,
                loop_last: 6,
                second_sustain: 255,
                points: points(&[(0xFFFF, 1), (0x8000, 2), (1, 63), (0, 64)]),
            })
        );
    }
}

#[test]
fn panning_envelopes() {
    for (version, first, second) in [(2, [-128, 0, 128], -124), (3, [0, 32, 64], 1)] {
        assert_eq!(records::panning_envelopes(&full(version)), Ok(2));
        assert_eq!(
            records::envelope(&full(version), Kind::Panning, 0),
            Ok(Envelope {
                instrument: 2,
                flags: 0x0F,
                sections: 2,
                first_sustain: 1,
                loop_first: 0,
                loop_last: 2,
                second_sustain: 2,
                points: points(&[(0, first[0]), (0x0102, first[1]), (0xFFFE, first[2])]),
            })
        );
        assert_eq!(
            records::envelope(&full(version), Kind::Panning, 1),
            Ok(Envelope {
                instrument: 1,
                flags: 0x00,
                sections: 0,
                first_sustain: 255,
                loop_first: 254,
                loop_last: 32,
                second_sustain: 128,
                points: points(&[(0x8001, second)]),
            })
        );
    }
}

const EMPTY: Cell = Cell {
    note: Note::None,
    instrument: 0,
    command1: 0,
    parameter1: 0,
    command2: 0,
    parameter2: 0,
};

#[test]
fn patterns_and_cells() {
    for version in [2, 3] {
        let module = full(version);
        assert_eq!(records::pattern(&module, 0), Ok(2));
        assert_eq!(records::pattern(&module, 1), Ok(0));
        assert_eq!(records::pattern(&module, 2), Ok(1));
        for (row, track) in [
            (0, 1),
            (0, 3),
            (0, 4),
            (0, 5),
            (1, 2),
            (1, 3),
            (1, 4),
            (1, 5),
            (1, 6),
        ] {
            assert_eq!(records::cell(&module, 0, row, track), Ok(EMPTY));
        }
        assert_eq!(
            records::cell(&module, 0, 0, 2),
            Ok(Cell {
                note: Note::Pitch {
                    octave: 4,
                    semitone: 7,
                },
                instrument: 1,
                ..EMPTY
            })
        );
        assert_eq!(
            records::cell(&module, 0, 0, 6),
            Ok(Cell {
                note: Note::KeyOff,
                instrument: 2,
                command1: 0x0A,
                parameter1: 0x0B,
                command2: 0x0C,
                parameter2: 0x0D,
            })
        );
        assert_eq!(
            records::cell(&module, 0, 1, 1),
            Ok(Cell {
                note: Note::Unknown(0x9C),
                command2: 0x66,
                parameter2: 0x77,
                ..EMPTY
            })
        );
        for track in 1..=6 {
            assert_eq!(records::cell(&module, 2, 0, track), Ok(EMPTY));
        }
    }
}

#[test]
fn unpacked_patterns() {
    #[rustfmt::skip]
    let cells = [
        0, 0, 0, 0, 0, 0,
        0x47, 0x01, 0, 0, 0, 0,
        0, 0, 0, 0, 0, 0,
        0, 0, 0, 0, 0, 0,
        0, 0, 0, 0, 0, 0,
        0x1F, 0x02, 0x0A, 0x0B, 0x0C, 0x0D,
        0x9C, 0, 0, 0, 0x66, 0x77,
        0, 0, 0, 0, 0, 0,
        0, 0, 0, 0, 0, 0,
        0, 0, 0, 0, 0, 0,
        0, 0, 0, 0, 0, 0,
        0, 0, 0, 0, 0, 0,
    ];
    for version in [2, 3] {
        let module = full(version);
        writes(&cells, |out| records::unpack(&module, 0, out));
        writes(&[], |out| records::unpack(&module, 1, out));
        writes(&[0; 36], |out| records::unpack(&module, 2, out));
    }
}

#[test]
fn samples_and_their_frames() {
    for version in [2, 3] {
        let module = full(version);
        for (number, width, frames, part) in [
            (1, 8, 5, (387, 5)),
            (2, 16, 3, (400, 6)),
            (3, 32, 4, (414, 16)),
            (4, 16, 0, (438, 0)),
        ] {
            assert_eq!(
                records::sample(&module, number),
                Ok(Sample { width, frames })
            );
            assert_eq!(records::frames(&module, number), part);
            assert_eq!(records::frames_refusal(&module, number), None);
        }
        assert_eq!(module[387..392], [0x80, 0xFF, 0x00, 0x01, 0x7F]);
        assert_eq!(module[400..406], [0x80, 0x00, 0xFF, 0xFE, 0x7F, 0xFF]);
        assert_eq!(module[414..418], [0xFF, 0xFF, 0xFF, 0xFF]);
        assert_eq!(module[426..430], [0x12, 0x34, 0x56, 0x78]);
    }
}

#[test]
fn frames_at_16_bits() {
    for version in [2, 3] {
        let module = full(version);
        for (sample, frame, shown) in [
            (1, 0, -32_768),
            (1, 1, -256),
            (1, 2, 0),
            (1, 3, 256),
            (1, 4, 32_512),
            (2, 0, -32_768),
            (2, 1, -2),
            (2, 2, 32_767),
            (3, 0, -1),
            (3, 1, -32_768),
            (3, 2, 1),
            (3, 3, 0x1234),
        ] {
            assert_eq!(records::frame(&module, sample, frame), Ok(shown));
        }
        writes(
            &[0x80, 0x00, 0xFF, 0x00, 0x00, 0x00, 0x01, 0x00, 0x7F, 0x00],
            |out| records::all_frames(&module, 1, out),
        );
        writes(&[0x80, 0x00, 0xFF, 0xFE, 0x7F, 0xFF], |out| {
            records::all_frames(&module, 2, out)
        });
        writes(&[0xFF, 0xFF, 0x80, 0x00, 0x00, 0x01, 0x12, 0x34], |out| {
            records::all_frames(&module, 3, out)
        });
        writes(&[], |out| records::all_frames(&module, 4, out));
    }
}

// The register.

/// One instrument on a sample of 100 frames of 8 bits. INST at 34, its block at 42.
fn looped(start: u32, length: u32) -> Vec<u8> {
    let inst = [
        &[0; 30][..],
        &[0, 1, 0, 64, 0, 0, 0x20, 0xAB],
        &start.to_be_bytes(),
        &length.to_be_bytes(),
        &[0, 0, 0, 1],
    ]
    .concat();
    let smpl = [&[0, 0, 0, 1, 0, 0, 0, 100][..], &[0x80; 100]].concat();
    module(3, [1, 1, 0, 0, 4], [&[], &inst, &[], &smpl])
}

#[test]
fn p10() {
    let module = looped(90, 10);
    assert_eq!(
        records::instrument(&module, 1),
        Ok(Instrument {
            name: [0; 30],
            sample: 1,
            volume: 64,
            rate: 8_363,
            loop_start: 90,
            loop_length: 10,
            panning: 0,
            flags: 1,
        })
    );
    assert_eq!(
        records::sample(&module, 1),
        Ok(Sample {
            width: 8,
            frames: 100,
        })
    );
    // Without a length there is no loop, and its start is returned as stored.
    let start = records::instrument(&looped(4_294_967_295, 0), 1).map(|record| record.loop_start);
    assert_eq!(start, Ok(4_294_967_295));
    for (start, length) in [(90, 11), (4_294_967_295, 2)] {
        every_query_refuses(&looped(start, length), 14, 42);
    }
}

#[test]
fn p11() {
    let one = |value| enveloped(2, b"PENV", [0, 1, 1, 0, 0, 0, 0, 0], &[(0, value)]);
    for (value, shown) in [(0, -128), (32, 0), (64, 128)] {
        let envelope = records::envelope(&one(value), Kind::Panning, 0);
        assert_eq!(envelope.map(|shown| shown.points[0].value), Ok(shown));
    }
    every_query_refuses(&one(65), 13, 128);
}

#[test]
fn p12() {
    let wide = sampled(4, &[0xFF, 0xFF, 0xFF, 0xFF]);
    assert_eq!(records::frame(&wide, 1, 0), Ok(-1));
    writes(&[0xFF, 0xFF], |out| records::all_frames(&wide, 1, out));
    let narrow = sampled(1, &[0x80]);
    assert_eq!(records::frame(&narrow, 1, 0), Ok(-32_768));
    writes(&[0x80, 0x00], |out| records::all_frames(&narrow, 1, out));
}

// Header, name, songs and instruments.

#[test]
fn version_and_revision_are_the_stored_bytes() {
    for version in [2, 3] {
        for revision in [0x00, 0x05, 0x09, 0x10, 0x21, 0x90, 0x99] {
            let module = with(&smallest(version), 5, &[revision]);
            assert_eq!(records::version(&module), Ok((version, revision)));
            // The reserved word is not returned.
            let module = with(&module, 6, &[0xFF, 0xFE]);
            assert_eq!(records::version(&module), Ok((version, revision)));
        }
    }
}

#[test]
fn a_missing_name_is_zeros() {
    for version in [2, 3] {
        assert_eq!(records::name(&smallest(version)), Ok([0; 44]));
        // The NAME of `full` is renamed.
        let module = with(&full(version), 290, b"NAMX");
        assert_eq!(records::name(&module), Ok([0; 44]));
        // For a name of all zeros the answer is the same.
        let module = [smallest(version), chunk(b"NAME", &[0; 44])].concat();
        assert_eq!(records::name(&module), Ok([0; 44]));
    }
}

/// Bytes that count up from the first, with 0 after 255.
fn counting<const LENGTH: usize>(first: u8) -> [u8; LENGTH] {
    std::array::from_fn(|index| first.wrapping_add(index as u8))
}

#[test]
fn names_hold_any_bytes() {
    let mut met = BTreeSet::new();
    for first in [0, 30, 60, 90, 120, 150, 180, 210, 240] {
        let name: [u8; 44] = counting(first);
        let short: [u8; 30] = counting(first);
        met.extend(short);
        let song = [&name[..], &[0, 0]].concat();
        let instrument = [&short[..], &[0; 20]].concat();
        for version in [2, 3] {
            let module = module(version, [1, 0, 1, 0, 4], [&song, &instrument, &[], &[]]);
            let module = [module, chunk(b"NAME", &name)].concat();
            assert_eq!(records::name(&module), Ok(name));
            assert_eq!(records::song(&module, 0), Ok(Song { name, length: 0 }));
            assert_eq!(
                records::instrument(&module, 1).map(|shown| shown.name),
                Ok(short)
            );
        }
    }
    assert_eq!(met.len(), 256);
}

#[test]
fn numbers_of_info() {
    let info = |tracks| Info {
        instruments: 0,
        samples: 0,
        songs: 0,
        patterns: 0,
        tracks,
    };
    assert_eq!(records::info(&smallest(2)), Ok(info(4)));
    let wide = module(3, [0, 0, 0, 0, 254], [&[]; 4]);
    assert_eq!(records::info(&wide), Ok(info(254)));
}

#[test]
fn entries_have_two_bytes() {
    // 1,024 patterns of no rows, and a playlist of 300 entries: 0, 255, 256, 258, 1,023, then zeros.
    let mut song = [&[0; 44][..], &[0x01, 0x2C]].concat();
    song.extend([0, 0, 0x00, 0xFF, 0x01, 0x00, 0x01, 0x02, 0x03, 0xFF]);
    song.resize(46 + 600, 0);
    let module = module(3, [0, 0, 1, 1_024, 4], [&song, &[], &[0; 6 * 1_024], &[]]);
    let name = [0; 44];
    assert_eq!(records::song(&module, 0), Ok(Song { name, length: 300 }));
    for (entry, pattern) in [(0, 0), (1, 255), (2, 256), (3, 258), (4, 1_023), (299, 0)] {
        assert_eq!(records::entry(&module, 0, entry), Ok(pattern));
    }
    assert_eq!(records::entry(&module, 0, 300), not_there());
    let mut out = [0xAA; 601];
    assert_eq!(
        records::playlist(&module, 0, &mut out[..599]),
        refused(17, 600)
    );
    assert_eq!(out, [0xAA; 601]);
    assert_eq!(records::playlist(&module, 0, &mut out), Ok(600));
    assert_eq!(out[..10], [0, 0, 0, 255, 1, 0, 1, 2, 3, 255]);
    assert_eq!(out[10..600], [0; 590]);
    assert_eq!(out[600], 0xAA);
}

#[test]
fn the_longest_playlist() {
    let song = [&[b's'; 44][..], &[0xFF, 0xFF], &[0; 131_070]].concat();
    let module = module(3, [0, 0, 1, 1, 4], [&song, &[], &[0; 6], &[]]);
    let shown = Song {
        name: [b's'; 44],
        length: 65_535,
    };
    assert_eq!(records::song(&module, 0), Ok(shown));
    assert_eq!(records::entry(&module, 0, 65_534), Ok(0));
    assert_eq!(records::entry(&module, 0, 65_535), not_there());
    assert_eq!(
        records::playlist(&module, 0, &mut [0; 131_069]),
        refused(17, 131_070)
    );
    assert_eq!(
        records::playlist(&module, 0, &mut [0; 131_070]),
        Ok(131_070)
    );
}

#[test]
fn fields_of_instruments_are_as_stored() {
    // Of the first, sample at 476, volume at 478, panning at 492, flags at 494.
    for version in [2, 3] {
        let shown = |place, bytes: [u8; 2]| {
            let module = with(&full(version), place, &bytes);
            records::instrument(&module, 1).expect("the module is accepted")
        };
        for (bytes, panning) in [
            ([0xFF, 0x80], -128),
            ([0xFF, 0x81], -127),
            ([0xFF, 0xC0], -64),
            ([0xFF, 0xFF], -1),
            ([0x00, 0x00], 0),
            ([0x00, 0x01], 1),
            ([0x00, 0x20], 32),
            ([0x00, 0x40], 64),
            ([0x00, 0x7F], 127),
            ([0x00, 0x80], 128),
        ] {
            assert_eq!(shown(492, bytes).panning, panning);
        }
        for flags in 0..=3 {
            assert_eq!(shown(494, [0, flags]).flags, u16::from(flags));
        }
        for volume in [0, 1, 63, 64] {
            assert_eq!(shown(478, [0, volume]).volume, u16::from(volume));
        }
        assert_eq!(shown(476, [0, 1]).sample, 1);
        // Sample 0, with flags 0 so that there is no loop.
        let module = with(&full(version), 476, &[0, 0]);
        let shown = records::instrument(&with(&module, 494, &[0, 0]), 1);
        assert_eq!(shown.map(|shown| (shown.sample, shown.flags)), Ok((0, 0)));
    }
}

// Envelopes.

#[test]
fn without_their_chunk_there_are_no_envelopes() {
    let counts = |module: &[u8]| {
        [
            records::volume_envelopes(module),
            records::panning_envelopes(module),
        ]
    };
    for version in [2, 3] {
        assert_eq!(counts(&smallest(version)), [Ok(0), Ok(0)]);
        // VENV at 750 and PENV at 8 are renamed, both or one of them.
        let no_volume = with(&full(version), 750, b"VENX");
        let no_panning = with(&full(version), 8, b"PENX");
        let neither = with(&no_volume, 8, b"PENX");
        assert_eq!(counts(&no_volume), [Ok(0), Ok(2)]);
        assert_eq!(counts(&no_panning), [Ok(2), Ok(0)]);
        assert_eq!(counts(&neither), [Ok(0), Ok(0)]);
        for number in [0, 1, 2, MOST] {
            assert_eq!(
                records::envelope(&no_volume, Kind::Volume, number),
                not_there()
            );
            assert_eq!(
                records::envelope(&no_panning, Kind::Panning, number),
                not_there()
            );
        }
        assert!(records::envelope(&no_volume, Kind::Panning, 1).is_ok());
        assert!(records::envelope(&no_panning, Kind::Volume, 1).is_ok());
        // Their chunks exist, without envelopes.
        let counted = [
            smallest(version),
            chunk(b"VENV", &[0, 0]),
            chunk(b"PENV", &[0, 0]),
        ]
        .concat();
        assert_eq!(counts(&counted), [Ok(0), Ok(0)]);
        for kind in KINDS {
            assert_eq!(records::envelope(&counted, kind, 0), not_there());
        }
    }
}

/// The points of the only envelope of a module.
fn shown_points(module: &[u8], kind: Kind) -> [Point; 32] {
    let shown = records::envelope(module, kind, 0);
    shown.expect("the module is accepted").points
}

#[test]
fn one_point_in_use() {
    let first = [0, 1, 1, 0, 0, 0, 0, 0];
    let given = [(0xFEDC, 9)];
    for (version, name, kind, value) in [
        (2, b"VENV", Kind::Volume, 9),
        (3, b"VENV", Kind::Volume, 9),
        (2, b"PENV", Kind::Panning, -92),
        (3, b"PENV", Kind::Panning, 9),
    ] {
        let module = enveloped(version, name, first, &given);
        // All other points are $FF.
        assert_eq!(module[130..254], [0xFF; 124]);
        assert_eq!(shown_points(&module, kind), points(&[(0xFEDC, value)]));
    }
}

#[test]
fn all_points_in_use() {
    let stored = [
        0, 2, 4, 6, 8, 10, 12, 14, 16, 18, 20, 22, 24, 26, 28, 30, 32, 34, 36, 38, 40, 42, 44, 46,
        48, 50, 52, 54, 56, 58, 60, 64,
    ];
    let scaled = [
        -128, -120, -112, -104, -96, -88, -80, -72, -64, -56, -48, -40, -32, -24, -16, -8, 0, 8,
        16, 24, 32, 40, 48, 56, 64, 72, 80, 88, 96, 104, 112, 128,
    ];
    // Positions in any order.
    let mut positions = [0x8000; 32];
    positions[0] = 7;
    positions[1] = 6;
    positions[30] = 0;
    positions[31] = 65_535;
    let placed =
        |values: [i16; 32]| -> Vec<(u16, i16)> { positions.into_iter().zip(values).collect() };
    for (version, name, kind, values) in [
        (2, b"VENV", Kind::Volume, stored),
        (3, b"VENV", Kind::Volume, stored),
        (2, b"PENV", Kind::Panning, scaled),
        (3, b"PENV", Kind::Panning, stored),
    ] {
        let first = [0, 1, 1, 31, 0, 0, 0, 0];
        let module = enveloped(version, name, first, &placed(stored));
        assert_eq!(shown_points(&module, kind), points(&placed(values)));
        let shown = records::envelope(&module, kind, 0);
        assert_eq!(shown.map(|shown| shown.sections), Ok(31));
        // With 30 sections the last point is not in use.
        let module = with(&module, 121, &[30]);
        assert_eq!(shown_points(&module, kind), points(&placed(values)[..31]));
    }
}

#[test]
fn points_not_in_use_are_zeros() {
    let first = [0, 1, 1, 1, 0, 0, 0, 0];
    for (version, name, kind, values) in [
        (2, b"VENV", Kind::Volume, [64, 0]),
        (3, b"VENV", Kind::Volume, [64, 0]),
        (2, b"PENV", Kind::Panning, [128, -128]),
        (3, b"PENV", Kind::Panning, [64, 0]),
    ] {
        // Whatever their bytes are: $FF, zeros, or values that are valid in use.
        let module = enveloped(version, name, first, &[(5, 64), (6, 0)]);
        let expected = points(&[(5, values[0]), (6, values[1])]);
        assert_eq!(expected[2].value, 0);
        assert_eq!(shown_points(&module, kind), expected);
        for byte in [0x00, 0x20, 0x7F, 0x80] {
            let module = with(&module, 134, &[byte; 120]);
            assert_eq!(shown_points(&module, kind), expected);
        }
    }
}

#[test]
fn values_of_panning_in_version_3() {
    let values = [-128, -127, -64, -1, 0, 1, 32, 64, 65, 127, 128];
    let given = values.map(|value| (1, value));
    let module = enveloped(3, b"PENV", [0, 1, 0, 10, 0, 0, 0, 0], &given);
    // The first is stored as $FF80.
    assert_eq!(module[128..130], [0xFF, 0x80]);
    assert_eq!(shown_points(&module, Kind::Panning), points(&given));
}

#[test]
fn every_value_of_version_2() {
    let mut expected = -128;
    for value in 0..=64 {
        let first = [0, 1, 0, 0, 0, 0, 0, 0];
        let panning = enveloped(2, b"PENV", first, &[(3, value)]);
        assert_eq!(
            shown_points(&panning, Kind::Panning),
            points(&[(3, expected)])
        );
        let volume = enveloped(2, b"VENV", first, &[(3, value)]);
        assert_eq!(shown_points(&volume, Kind::Volume), points(&[(3, value)]));
        expected += 4;
    }
    assert_eq!(expected, 132);
}

#[test]
fn fields_of_envelopes_that_are_not_checked() {
    for (name, kind) in [(b"VENV", Kind::Volume), (b"PENV", Kind::Panning)] {
        for version in [2, 3] {
            // Bit 1 leaves L1, L2 and S2 unchecked; bit 2 leaves S1 and S2; bit 3 leaves S1, L1 and L2.
            for (flags, [s1, l1, l2, s2]) in [
                (0x00, [255, 255, 0, 255]),
                (0x03, [2, 255, 254, 253]),
                (0x05, [99, 1, 2, 98]),
                (0x09, [32, 33, 34, 2]),
                (0x0F, [0, 1, 1, 2]),
            ] {
                let first = [0, 1, flags, 2, s1, l1, l2, s2];
                let module = enveloped(version, name, first, &[(0, 32); 3]);
                let value = if version == 2 && kind == Kind::Panning {
                    0
                } else {
                    32
                };
                assert_eq!(
                    records::envelope(&module, kind, 0),
                    Ok(Envelope {
                        instrument: 1,
                        flags,
                        sections: 2,
                        first_sustain: s1,
                        loop_first: l1,
                        loop_last: l2,
                        second_sustain: s2,
                        points: points(&[(0, value); 3]),
                    })
                );
            }
        }
    }
}

// Patterns.

#[test]
fn a_pattern_without_rows() {
    for tracks in [4, 254] {
        let module = module(3, [0, 0, 0, 1, tracks], [&[], &[], &[0; 6], &[]]);
        assert_eq!(records::pattern(&module, 0), Ok(0));
        writes(&[], |out| records::unpack(&module, 0, out));
        for row in [0, 1, MOST] {
            for track in [0, 1, 4, MOST] {
                assert_eq!(records::cell(&module, 0, row, track), not_there());
            }
        }
    }
}

#[test]
fn the_last_track() {
    // Track 254 is D-5.
    let patt = [0, 1, 0, 0, 0, 4, 0xFE, 0x01, 0x52, 0x00];
    let module = module(3, [0, 0, 0, 1, 254], [&[], &[], &patt, &[]]);
    let d5 = Cell {
        note: Note::Pitch {
            octave: 5,
            semitone: 2,
        },
        ..EMPTY
    };
    assert_eq!(records::cell(&module, 0, 0, 254), Ok(d5));
    assert_eq!(records::cell(&module, 0, 0, 253), Ok(EMPTY));
    assert_eq!(records::cell(&module, 0, 0, 255), not_there());
    assert_eq!(records::cell(&module, 0, 0, 256 + 254), not_there());
    let mut cells = [0; 1_524];
    cells[1_518] = 0x52;
    writes(&cells, |out| records::unpack(&module, 0, out));
}

#[test]
fn the_last_row() {
    // 65,535 rows, of which only the last has an entry.
    let stream = [&[0; 65_534][..], &[0x01, 0x02, 0x09, 0x00]].concat();
    let patt = [&[0xFF, 0xFF, 0x00, 0x01, 0x00, 0x02][..], &stream].concat();
    let of = |tracks| module(3, [0, 0, 0, 1, tracks], [&[], &[], &patt, &[]]);
    let nine = Cell {
        instrument: 9,
        ..EMPTY
    };
    let module = of(4);
    assert_eq!(records::pattern(&module, 0), Ok(65_535));
    assert_eq!(records::cell(&module, 0, 65_534, 1), Ok(nine));
    assert_eq!(records::cell(&module, 0, 65_533, 1), Ok(EMPTY));
    assert_eq!(records::cell(&module, 0, 65_535, 1), not_there());
    assert_eq!(records::cell(&module, 0, 65_536, 1), not_there());
    // 65,535 × 4 × 6, and an output that is one byte too short.
    let mut out = vec![0xAA; 1_572_840];
    assert_eq!(
        records::unpack(&module, 0, &mut out[..1_572_839]),
        refused(17, 1_572_840)
    );
    assert!(out.iter().all(|&byte| byte == 0xAA));
    assert_eq!(records::unpack(&module, 0, &mut out), Ok(1_572_840));
    assert!(out[..1_572_817].iter().all(|&byte| byte == 0));
    assert_eq!(out[1_572_817], 9);
    assert!(out[1_572_818..].iter().all(|&byte| byte == 0));
    // 65,535 × 254 × 6.
    assert_eq!(
        records::unpack(&of(254), 0, &mut [0; 100]),
        refused(17, 99_875_340)
    );
}

// Frames.

/// Each number of the list is one frame, and is returned as the other number.
fn frames_show(frame_bytes: u8, list: &[(i32, i16)]) {
    let skipped = 4 - usize::from(frame_bytes);
    let stored: Vec<u8> = list
        .iter()
        .flat_map(|(stored, _)| stored.to_be_bytes()[skipped..].to_vec())
        .collect();
    let module = sampled(frame_bytes, &stored);
    for (frame, &(_, shown)) in (0..).zip(list) {
        assert_eq!(records::frame(&module, 1, frame), Ok(shown));
    }
    let shown: Vec<u8> = list
        .iter()
        .flat_map(|(_, shown)| shown.to_be_bytes())
        .collect();
    writes(&shown, |out| records::all_frames(&module, 1, out));
    assert_eq!(records::frames(&module, 1), (66, stored.len() as u64));
}

#[test]
fn frames_of_8_bits() {
    frames_show(
        1,
        &[
            (-128, -32_768),
            (-127, -32_512),
            (-2, -512),
            (-1, -256),
            (0, 0),
            (1, 256),
            (2, 512),
            (64, 16_384),
            (126, 32_256),
            (127, 32_512),
        ],
    );
}

#[test]
fn frames_of_16_bits() {
    frames_show(
        2,
        &[
            (-32_768, -32_768),
            (-32_767, -32_767),
            (-257, -257),
            (-256, -256),
            (-255, -255),
            (-1, -1),
            (0, 0),
            (1, 1),
            (255, 255),
            (256, 256),
            (32_767, 32_767),
        ],
    );
}

#[test]
fn frames_of_32_bits_are_rounded_down() {
    frames_show(
        4,
        &[
            (0, 0),
            (1, 0),
            (65_535, 0),
            (65_536, 1),
            (65_537, 1),
            (131_071, 1),
            (131_072, 2),
            (131_073, 2),
            (-1, -1),
            (-65_535, -1),
            (-65_536, -1),
            (-65_537, -2),
            (-131_071, -2),
            (-131_072, -2),
            (-131_073, -3),
            (-196_607, -3),
            (-196_608, -3),
            (-196_609, -4),
        ],
    );
    // The ends: 32,767 × 65,536 is 2,147,418,112.
    frames_show(
        4,
        &[
            (2_147_418_111, 32_766),
            (2_147_418_112, 32_767),
            (2_147_418_113, 32_767),
            (2_147_483_647, 32_767),
            (-2_147_418_111, -32_767),
            (-2_147_418_112, -32_767),
            (-2_147_418_113, -32_768),
            (-2_147_483_647, -32_768),
            (-2_147_483_648, -32_768),
        ],
    );
}

#[test]
fn a_sample_without_frames() {
    for (frame_bytes, width) in [(1, 8), (2, 16), (4, 32)] {
        let module = sampled(frame_bytes, &[]);
        assert_eq!(records::sample(&module, 1), Ok(Sample { width, frames: 0 }));
        assert_eq!(records::frames(&module, 1), (66, 0));
        assert_eq!(records::frames_refusal(&module, 1), None);
        writes(&[], |out| records::all_frames(&module, 1, out));
        for frame in [0, 1, MOST] {
            assert_eq!(records::frame(&module, 1, frame), not_there());
        }
    }
}

#[test]
fn many_frames() {
    let mut data = vec![0; 70_000];
    data[65_536] = 0x7F;
    data[69_999] = 0xFF;
    let module = sampled(1, &data);
    assert_eq!(
        records::sample(&module, 1),
        Ok(Sample {
            width: 8,
            frames: 70_000,
        })
    );
    assert_eq!(records::frames(&module, 1), (66, 70_000));
    assert_eq!(records::frame(&module, 1, 0), Ok(0));
    assert_eq!(records::frame(&module, 1, 65_536), Ok(32_512));
    assert_eq!(records::frame(&module, 1, 69_999), Ok(-256));
    assert_eq!(records::frame(&module, 1, 70_000), not_there());
    let mut out = vec![0xAA; 140_001];
    assert_eq!(
        records::all_frames(&module, 1, &mut out[..139_999]),
        refused(17, 140_000)
    );
    assert!(out.iter().all(|&byte| byte == 0xAA));
    assert_eq!(records::all_frames(&module, 1, &mut out), Ok(140_000));
    assert_eq!(out[131_072..131_074], [0x7F, 0x00]);
    assert_eq!(out[139_998..], [0xFF, 0x00, 0xAA]);
}

#[test]
fn the_longest_sample() {
    // 16,777,216 bytes in all, 66 of them before the frames. At 16 bits the frames need more bytes than a module can have.
    let module = sampled(1, &vec![0x80; 16_777_150]);
    assert_eq!(module.len(), 16_777_216);
    assert_eq!(records::frames(&module, 1), (66, 16_777_150));
    assert_eq!(records::frame(&module, 1, 16_777_149), Ok(-32_768));
    assert_eq!(records::frame(&module, 1, 16_777_150), not_there());
    assert_eq!(
        records::all_frames(&module, 1, &mut [0; 8]),
        refused(17, 33_554_300)
    );
}

// The last item of the maximum number.

#[test]
fn the_last_instrument_sample_and_pattern() {
    // The rate of an instrument, its sample and the frames of a sample are its number. The last pattern has 3 rows.
    let (mut inst, mut smpl) = (Vec::new(), Vec::new());
    for number in 1..=255 {
        inst.extend([0; 31]);
        inst.extend([number, 0, 0, 0, 0, 0, number]);
        inst.extend([0; 12]);
        smpl.extend([0, 0, 0, 1, 0, 0, 0, number]);
        smpl.resize(smpl.len() + usize::from(number), number);
    }
    let patt = [&[0; 6 * 1_023][..], &[0, 3, 0, 0, 0, 3, 0, 0, 0, 0]].concat();
    let module = module(3, [255, 255, 0, 1_024, 4], [&[], &inst, &patt, &smpl]);
    for number in [1, 2, 127, 128, 254, 255] {
        let shown = records::instrument(&module, u64::from(number));
        assert_eq!(
            shown.map(|shown| (shown.sample, shown.rate)),
            Ok((number, u32::from(number)))
        );
        let shown = records::sample(&module, u64::from(number));
        assert_eq!(shown.map(|shown| shown.frames), Ok(u32::from(number)));
    }
    assert_eq!(records::frame(&module, 255, 254), Ok(-256));
    assert_eq!(records::frame(&module, 255, 255), not_there());
    assert_eq!(records::frame(&module, 128, 127), Ok(-32_768));
    assert_eq!(records::pattern(&module, 1_023), Ok(3));
    assert_eq!(records::pattern(&module, 1_022), Ok(0));
    assert_eq!(records::cell(&module, 1_023, 2, 4), Ok(EMPTY));
    for number in [0, 256, 257, 511, MOST] {
        assert_eq!(records::instrument(&module, number), not_there());
        assert_eq!(records::sample(&module, number), not_there());
    }
    assert_eq!(records::pattern(&module, 1_024), not_there());
}

#[test]
fn the_last_song() {
    let mut songs = vec![0; 46 * 32_766];
    songs.extend([b'z'; 44]);
    songs.extend([0, 0]);
    let module = module(3, [0, 0, 32_767, 0, 4], [&songs, &[], &[], &[]]);
    let last = Song {
        name: [b'z'; 44],
        length: 0,
    };
    let other = Song {
        name: [0; 44],
        length: 0,
    };
    assert_eq!(records::song(&module, 32_766), Ok(last));
    assert_eq!(records::song(&module, 32_765), Ok(other));
    assert_eq!(records::song(&module, 32_767), not_there());
}

#[test]
fn the_last_envelope() {
    // 65,535 envelopes of instrument 1. The last one has position 77.
    let one = [&[0, 1][..], &[0; 134]].concat();
    for (name, kind) in [(b"VENV", Kind::Volume), (b"PENV", Kind::Panning)] {
        let mut data = [&[0xFF, 0xFF], &one.repeat(65_535)[..]].concat();
        data[2 + 136 * 65_534 + 9] = 77;
        let head = module(3, [1, 0, 0, 0, 4], [&[], &[0; 50], &[], &[]]);
        let module = [head, chunk(name, &data)].concat();
        let counts = [
            records::volume_envelopes(&module),
            records::panning_envelopes(&module),
        ];
        match kind {
            Kind::Volume => assert_eq!(counts, [Ok(65_535), Ok(0)]),
            Kind::Panning => assert_eq!(counts, [Ok(0), Ok(65_535)]),
        }
        let position = |number| {
            let shown = records::envelope(&module, kind, number);
            shown.map(|shown| shown.points[0].position)
        };
        assert_eq!(position(65_534), Ok(77));
        assert_eq!(position(65_533), Ok(0));
        assert_eq!(position(65_535), not_there());
    }
}

// Refusal 18.

#[test]
fn no_such_song_or_entry() {
    let module = full(3);
    for song in [3, 4].into_iter().chain(BEYOND) {
        assert_eq!(records::song(&module, song), not_there());
        assert_eq!(records::playlist(&module, song, &mut [0; 100]), not_there());
        for entry in [0, 1, MOST] {
            assert_eq!(records::entry(&module, song, entry), not_there());
        }
    }
    // The songs have 3, 0 and 1 entries.
    for (song, entries) in [(0, [3, 4, 5]), (1, [0, 1, 2]), (2, [1, 2, 3])] {
        for entry in entries.into_iter().chain(BEYOND) {
            assert_eq!(records::entry(&module, song, entry), not_there());
        }
    }
}

#[test]
fn no_such_instrument() {
    for instrument in [0, 3, 4].into_iter().chain(BEYOND) {
        assert_eq!(records::instrument(&full(3), instrument), not_there());
    }
    for instrument in [0, 1, MOST] {
        assert_eq!(records::instrument(&smallest(3), instrument), not_there());
    }
}

#[test]
fn no_such_envelope() {
    for kind in KINDS {
        for envelope in [2, 3, 4].into_iter().chain(BEYOND) {
            assert_eq!(records::envelope(&full(2), kind, envelope), not_there());
            assert_eq!(records::envelope(&full(3), kind, envelope), not_there());
        }
    }
}

#[test]
fn no_such_pattern_row_or_track() {
    let module = full(3);
    for pattern in [3, 4].into_iter().chain(BEYOND) {
        assert_eq!(records::pattern(&module, pattern), not_there());
        assert_eq!(records::cell(&module, pattern, 0, 1), not_there());
        assert_eq!(
            records::unpack(&module, pattern, &mut [0; 999]),
            not_there()
        );
    }
    // Pattern 0 has 2 rows, 1 has none, 2 has one; there are 6 tracks.
    for (pattern, rows) in [(0, [2, 3]), (1, [0, 1]), (2, [1, 2])] {
        for row in rows.into_iter().chain(BEYOND) {
            for track in [1, 6] {
                assert_eq!(records::cell(&module, pattern, row, track), not_there());
            }
        }
    }
    for track in [0, 7, 8].into_iter().chain(BEYOND) {
        assert_eq!(records::cell(&module, 0, 0, track), not_there());
        assert_eq!(records::cell(&module, 0, 1, track), not_there());
        assert_eq!(records::cell(&module, 2, 0, track), not_there());
        assert_eq!(records::cell(&module, MOST, MOST, track), not_there());
    }
}

#[test]
fn no_such_sample_or_frame() {
    let module = full(3);
    for sample in [0, 5, 6].into_iter().chain(BEYOND) {
        assert_eq!(records::sample(&module, sample), not_there());
        assert_eq!(records::frames(&module, sample), (0, 0));
        assert_eq!(
            records::frames_refusal(&module, sample),
            not_there::<()>().err()
        );
        assert_eq!(
            records::all_frames(&module, sample, &mut [0; 99]),
            not_there()
        );
        for frame in [0, 1, MOST] {
            assert_eq!(records::frame(&module, sample, frame), not_there());
        }
    }
    for (sample, frames) in [(1, [5, 6]), (2, [3, 4]), (3, [4, 5]), (4, [0, 1])] {
        for frame in frames.into_iter().chain(BEYOND) {
            assert_eq!(records::frame(&module, sample, frame), not_there());
        }
    }
}

#[test]
fn nothing_is_there_in_the_smallest() {
    for version in [2, 3] {
        let module = smallest(version);
        for number in [0, 1, MOST] {
            let refusals = [
                records::song(&module, number).err(),
                records::entry(&module, number, 0).err(),
                records::playlist(&module, number, &mut []).err(),
                records::instrument(&module, number).err(),
                records::envelope(&module, Kind::Volume, number).err(),
                records::envelope(&module, Kind::Panning, number).err(),
                records::pattern(&module, number).err(),
                records::cell(&module, number, 0, 1).err(),
                records::unpack(&module, number, &mut []).err(),
                records::sample(&module, number).err(),
                records::frames_refusal(&module, number),
                records::frame(&module, number, 0).err(),
                records::all_frames(&module, number, &mut []).err(),
            ];
            assert_eq!(refusals, [not_there::<()>().err(); 13]);
            assert_eq!(records::frames(&module, number), (0, 0));
        }
    }
}

// The order of the refusals.

/// 18 has priority over 17, and nothing is written, with an empty output and with a longer one.
#[test]
fn what_is_not_there_comes_before_the_room() {
    let module = full(3);
    for room in [0, 1, 5, 71, 200] {
        let mut out = vec![0xAA; room];
        for number in [3, MOST] {
            assert_eq!(records::playlist(&module, number, &mut out), not_there());
            assert_eq!(records::unpack(&module, number, &mut out), not_there());
        }
        for number in [0, 5, MOST] {
            assert_eq!(records::all_frames(&module, number, &mut out), not_there());
        }
        assert_eq!(out, vec![0xAA; room]);
    }
}

/// Every query, with this number for every item and an output of this length: all return this refusal, and nothing is written.
fn all_refuse(module: &[u8], number: u64, room: usize, refusal: Refusal) {
    let mut out = vec![0xAA; room];
    let refusals = [
        records::version(module).err(),
        records::name(module).err(),
        records::info(module).err(),
        records::song(module, number).err(),
        records::entry(module, number, number).err(),
        records::playlist(module, number, &mut out).err(),
        records::instrument(module, number).err(),
        records::volume_envelopes(module).err(),
        records::panning_envelopes(module).err(),
        records::envelope(module, Kind::Volume, number).err(),
        records::envelope(module, Kind::Panning, number).err(),
        records::pattern(module, number).err(),
        records::cell(module, number, number, number).err(),
        records::unpack(module, number, &mut out).err(),
        records::sample(module, number).err(),
        records::frames_refusal(module, number),
        records::frame(module, number, number).err(),
        records::all_frames(module, number, &mut out).err(),
    ];
    assert_eq!(refusals, [Some(refusal); 18]);
    assert_eq!(records::frames(module, number), (0, 0));
    assert_eq!(out, vec![0xAA; room]);
}

/// The module's own refusal is returned whether or not the item exists and the output is long enough.
fn every_query_refuses(module: &[u8], number: u64, place: u64) {
    for query in [0, 1, MOST] {
        for room in [0, 200] {
            all_refuse(module, query, room, Refusal { number, place });
        }
    }
}

#[test]
fn the_own_refusal_of_the_module_comes_first() {
    every_query_refuses(&vec![0; 16_777_217], 1, 0);
    every_query_refuses(b"", 2, 0);
    for version in [2, 3] {
        let full = full(version);
        every_query_refuses(&full[..7], 2, 0);
        every_query_refuses(&with(&full, 3, b"1"), 2, 0);
        every_query_refuses(&with(&full, 4, &[4]), 3, 4);
        every_query_refuses(&with(&full, 5, &[0x2A]), 3, 4);
        // VENV, the last chunk, is cut; then three bytes follow it.
        every_query_refuses(&full[..1_031], 4, 750);
        every_query_refuses(&[&full[..], &[1, 2, 3]].concat(), 4, 1_032);
        // XYZW is xYZW, then a second NAME.
        every_query_refuses(&with(&full, 360, b"x"), 5, 360);
        every_query_refuses(&with(&full, 360, b"NAME"), 6, 360);
        // NAME, which is before INFO, is renamed to SONG.
        every_query_refuses(&with(&full, 290, b"SONG"), 7, 290);
        every_query_refuses(&with(&full, 596, b"XONG"), 8, 1_032);
        // NAME is renamed to NAMX, and XYZW with its three bytes to NAME.
        let renamed = with(&with(&full, 290, b"NAMX"), 360, b"NAME");
        every_query_refuses(&renamed, 9, 360);
        every_query_refuses(&with(&full, 358, &[0, 7]), 10, 358);
        // The flags of the first sample, then the count of VENV.
        every_query_refuses(&with(&full, 379, &[0, 0, 0, 3]), 11, 371);
        every_query_refuses(&with(&full, 758, &[0, 1]), 11, 750);
        every_query_refuses(&with(&full, 652, &[0, 3]), 12, 652);
        every_query_refuses(&with(&full, 478, &[0, 65]), 13, 478);
        // The loop 1 + 4 in 4 frames.
        every_query_refuses(&with(&full, 488, &[0, 0, 0, 4]), 14, 446);
        // Track 7 of 6; and in the last pattern an entry without a mask.
        every_query_refuses(&with(&full, 560, &[7]), 15, 554);
        every_query_refuses(&with(&full, 594, &[1]), 15, 588);
    }
}

#[test]
fn panning_that_one_version_allows() {
    // PENV at 8, its first block at 18: the value of point 0 is at 28.
    for bytes in [[0, 65], [0, 128], [0xFF, 0xFF], [0xFF, 0x80]] {
        every_query_refuses(&with(&full(2), 28, &bytes), 13, 28);
        let module = with(&full(3), 28, &bytes);
        let shown = records::envelope(&module, Kind::Panning, 0);
        assert_eq!(
            shown.map(|shown| shown.points[0].value),
            Ok(i16::from_be_bytes(bytes))
        );
    }
}

#[test]
fn whatever_is_refused_is_refused_by_every_query() {
    let mut numbers = BTreeSet::new();
    for seed in 0..1_500 {
        let random = &mut Random::new(seed);
        let mut draft = made(random, &Limits::SMALL);
        damage(random, &mut draft);
        let module = draft.bytes();
        if let Err(refusal) = check(&module) {
            numbers.insert(refusal.number);
            let query = random.pick(&[0, 1, 2, MOST]);
            all_refuse(&module, query, random.pick(&[0, 64]), refusal);
        }
    }
    assert_eq!(
        numbers.into_iter().collect::<Vec<u64>>(),
        [2, 3, 4, 5, 6, 7, 8, 9, 10, 11, 12, 13, 14, 15]
    );
}

// The modules of the folder `samples`.

/// A name padded with zeros.
fn padded<const LENGTH: usize>(text: &[u8]) -> [u8; LENGTH] {
    let mut name = [0; LENGTH];
    name[..text.len()].copy_from_slice(text);
    name
}

#[test]
fn carousel() {
    let module = include_bytes!("../../samples/carousel.dbm");
    assert_eq!(records::version(module), Ok((3, 0x05)));
    assert_eq!(records::name(module), Ok(padded(b"The Golden Gallopers")));
    let song = Song {
        name: padded(b"Morning ride"),
        length: 4,
    };
    assert_eq!(records::song(module, 0), Ok(song));
    writes(&[0, 0, 0, 1, 0, 0, 0, 2], |out| {
        records::playlist(module, 0, out)
    });
    assert_eq!(
        records::instrument(module, 2),
        Ok(Instrument {
            name: padded(b"organ"),
            sample: 2,
            volume: 64,
            rate: 8_363,
            loop_start: 16,
            loop_length: 48,
            panning: -40,
            flags: 1,
        })
    );
    assert_eq!(
        records::envelope(module, Kind::Panning, 0),
        Ok(Envelope {
            instrument: 3,
            flags: 0x05,
            sections: 2,
            first_sustain: 0,
            loop_first: 0,
            loop_last: 2,
            second_sustain: 0,
            points: points(&[(0, -64), (24, 64), (48, -64)]),
        })
    );
    assert_eq!(
        records::cell(module, 0, 0, 1),
        Ok(Cell {
            note: Note::Pitch {
                octave: 3,
                semitone: 0,
            },
            instrument: 1,
            command1: 0,
            parameter1: 0,
            command2: 0x0F,
            parameter2: 0x70,
        })
    );
    // 24 × 80,000,000 is 1,920,000,000, which is 29,296.875 × 65,536; the third frame is -1,760,000,000.
    assert_eq!(records::frame(module, 3, 0), Ok(29_296));
    assert_eq!(records::frame(module, 3, 2), Ok(-26_856));
}

#[test]
fn old() {
    let module = include_bytes!("../../samples/old.dbm");
    assert_eq!(records::version(module), Ok((2, 0x21)));
    assert_eq!(
        records::instrument(module, 1).map(|shown| shown.panning),
        Ok(-128)
    );
    assert_eq!(
        shown_points(module, Kind::Panning),
        points(&[(0, -128), (10, 0), (20, 128)])
    );
    assert_eq!(records::volume_envelopes(module), Ok(0));
}
