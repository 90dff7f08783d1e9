//! The queries of libdbm0.a, compared with answers typed by hand.

use std::mem::{offset_of, size_of};

use archive::queries::{refused, success};
use interface::{
    Answer, Cell, Envelope, Frames, Info, Instrument, Name, RecordAnswer, Sample, Song, Version,
};
use reference::draft::{self, Tune};

/// The answer for an item that does not exist.
fn not_there<Record: Default>() -> RecordAnswer<Record> {
    refused(18, 0)
}

/// A name padded with zeros.
fn padded<const LENGTH: usize>(text: &[u8]) -> [u8; LENGTH] {
    let mut name = [0; LENGTH];
    name[..text.len()].copy_from_slice(text);
    name
}

fn numbers(list: &[u16]) -> Vec<u8> {
    list.iter()
        .flat_map(|number| number.to_be_bytes())
        .collect()
}

/// An envelope that begins with these points. All other points have $FFFF.
fn envelope(points: &[(u16, i16)]) -> draft::Envelope {
    let mut all = points.to_vec();
    all.resize(32, (0xFFFF, -1));
    draft::Envelope {
        instrument: 1,
        sections: points.len() as u8 - 1,
        points: all,
        ..draft::Envelope::default()
    }
}

/// The points in an answer: positions and values, followed by zeros.
fn points(points: &[(u16, i32)]) -> ([u16; 32], [i32; 32]) {
    let (mut positions, mut values) = ([0; 32], [0; 32]);
    for (index, &(position, value)) in points.iter().enumerate() {
        positions[index] = position;
        values[index] = value;
    }
    (positions, values)
}

fn shown_points(answer: RecordAnswer<Envelope>) -> ([u16; 32], [i32; 32]) {
    assert_eq!((answer.number, answer.place), (0, 0));
    (answer.record.positions, answer.record.values)
}

/// A module with one sample.
fn sampled(frame_bytes: u32, data: &[u8]) -> Vec<u8> {
    let tune = Tune {
        samples: vec![draft::Sample::new(frame_bytes, data)],
        ..Tune::default()
    };
    tune.bytes()
}

/// All frames of a module's first sample at 16 bits.
fn all_frames(module: &[u8]) -> Vec<i16> {
    let needed = interface::all_frames(module, 1, &mut []).place;
    let mut out = vec![0xAA; needed as usize];
    let answer = interface::all_frames(module, 1, &mut out);
    assert_eq!((answer.number, answer.length), (0, needed));
    let frame = |bytes: &[u8]| i16::from_be_bytes([bytes[0], bytes[1]]);
    out.chunks(2).map(frame).collect()
}

/// Two or three of each item.
///
/// NAME is at 8, INFO at 60 with the tracks at 76, VENV at 78, SONG at 360 with the first entry at 414, INST at 466 with its first block at
/// 474, PATT at 574 with its first block at 582. SMPL is last, and its frames end the module.
fn tune(version: u8) -> Tune {
    Tune {
        version,
        revision: 0x21,
        reserved: [0xDE, 0xAD],
        tracks: 6,
        name: Some(b"\xFFA name\x00and more \x80".to_vec()),
        songs: vec![
            draft::Song {
                name: b"First".to_vec(),
                playlist: vec![1, 0, 1],
            },
            draft::Song {
                name: vec![0xFE; 44],
                playlist: vec![],
            },
        ],
        instruments: vec![
            draft::Instrument {
                name: b"drum".to_vec(),
                sample: 2,
                volume: 64,
                rate: 8_363,
                loop_start: 1,
                loop_length: 2,
                panning: -128,
                flags: 3,
            },
            draft::Instrument {
                name: vec![0x80; 30],
                sample: 0,
                volume: 0,
                rate: 0xFFFF_FFFE,
                loop_start: 0x8000_0001,
                loop_length: 0xFEDC_BA98,
                panning: 128,
                flags: 0,
            },
        ],
        patterns: vec![
            // Row 0: track 6 with all fields, track 2 in two entries. Row 1: an unknown note, and the second command. A filler follows.
            draft::Pattern {
                rows: 2,
                stream: vec![
                    6, 0x3F, 0x1F, 2, 10, 11, 12, 13, 2, 1, 0x47, 2, 2, 1, 0, 1, 0x31, 0x9C, 66,
                    77, 0,
                ],
                filler: 0x55,
            },
            draft::Pattern::new(0, &[]),
            draft::Pattern::new(1, &[0]),
        ],
        samples: vec![
            draft::Sample::new(1, &[0x80, 0xFF, 0x01]),
            draft::Sample::new(2, &[0x80, 0x00, 0xFF, 0xFE, 0x7F, 0xFF]),
            draft::Sample::new(4, &[0xFF; 8]),
        ],
        volume_envelopes: Some(vec![
            draft::Envelope {
                flags: 0x0F,
                first_sustain: 1,
                loop_first: 0,
                loop_last: 1,
                second_sustain: 1,
                ..envelope(&[(0, 64), (0x1234, 0)])
            },
            // If their bits are not set, the four numbers can have any value.
            draft::Envelope {
                instrument: 2,
                flags: 1,
                first_sustain: 200,
                loop_first: 7,
                loop_last: 6,
                second_sustain: 255,
                ..envelope(&[(0xFFFF, 1)])
            },
        ]),
        ..Tune::default()
    }
}

#[test]
fn header_name_and_info() {
    for version in [2, 3] {
        let module = tune(version).bytes();
        let revision = 0x21;
        assert_eq!(
            interface::version(&module),
            success(Version { version, revision })
        );
        let name = Name(padded(b"\xFFA name\x00and more \x80"));
        assert_eq!(interface::name(&module), success(name));
        let info = Info {
            instruments: 2,
            samples: 3,
            songs: 2,
            patterns: 3,
            tracks: 6,
        };
        assert_eq!(interface::info(&module), success(info));
    }
}

#[test]
fn a_missing_name() {
    let module = Tune::default().bytes();
    assert_eq!(interface::name(&module), success(Name([0; 44])));
}

#[test]
fn songs_from_0() {
    let module = tune(3).bytes();
    let first = Song {
        name: Name(padded(b"First")),
        length: 3,
    };
    let second = Song {
        name: Name([0xFE; 44]),
        length: 0,
    };
    assert_eq!(interface::song(&module, 0), success(first));
    assert_eq!(interface::song(&module, 1), success(second));
    assert_eq!(interface::song(&module, 2), not_there());
    let entry = |song, entry| interface::entry(&module, song, entry);
    assert_eq!(
        [entry(0, 0), entry(0, 1), entry(0, 2)],
        [success(1), success(0), success(1)]
    );
    assert_eq!([entry(0, 3), entry(1, 0), entry(2, 0)], [not_there(); 3]);
    let mut out = [0xAA; 8];
    let answer = interface::playlist(&module, 0, &mut out);
    assert_eq!((answer.number, answer.place, answer.length), (0, 0, 6));
    assert_eq!(out, [0, 1, 0, 0, 0, 1, 0xAA, 0xAA]);
}

/// The panning of an instrument is never scaled.
#[test]
fn instruments_from_1() {
    for version in [2, 3] {
        let module = tune(version).bytes();
        let first = Instrument {
            name: padded(b"drum"),
            sample: 2,
            volume: 64,
            panning: -128,
            flags: 3,
            rate: 8_363,
            loop_start: 1,
            loop_length: 2,
        };
        let second = Instrument {
            name: [0x80; 30],
            sample: 0,
            volume: 0,
            panning: 128,
            flags: 0,
            rate: 0xFFFF_FFFE,
            loop_start: 0x8000_0001,
            loop_length: 0xFEDC_BA98,
        };
        assert_eq!(interface::instrument(&module, 0), not_there());
        assert_eq!(interface::instrument(&module, 1), success(first));
        assert_eq!(interface::instrument(&module, 2), success(second));
        assert_eq!(interface::instrument(&module, 3), not_there());
    }
}

#[test]
fn every_panning_of_an_instrument() {
    for version in [2, 3] {
        for panning in -128..=128 {
            let module = Tune {
                version,
                instruments: vec![draft::Instrument {
                    panning,
                    ..draft::Instrument::default()
                }],
                ..Tune::default()
            };
            let answer = interface::instrument(&module.bytes(), 1);
            assert_eq!((answer.number, answer.record.panning), (0, panning));
        }
    }
}

#[test]
fn volume_envelopes_from_0() {
    for version in [2, 3] {
        let module = tune(version).bytes();
        let (positions, values) = points(&[(0, 64), (0x1234, 0)]);
        let first = Envelope {
            instrument: 1,
            flags: 0x0F,
            sections: 1,
            first_sustain: 1,
            loop_first: 0,
            loop_last: 1,
            second_sustain: 1,
            positions,
            values,
        };
        let (positions, values) = points(&[(0xFFFF, 1)]);
        let second = Envelope {
            instrument: 2,
            flags: 1,
            sections: 0,
            first_sustain: 200,
            loop_first: 7,
            loop_last: 6,
            second_sustain: 255,
            positions,
            values,
        };
        assert_eq!(interface::volume_envelopes(&module), success(2));
        assert_eq!(interface::volume_envelope(&module, 0), success(first));
        assert_eq!(interface::volume_envelope(&module, 1), success(second));
        assert_eq!(interface::volume_envelope(&module, 2), not_there());
        // There is no PENV.
        assert_eq!(interface::panning_envelopes(&module), success(0));
        assert_eq!(interface::panning_envelope(&module, 0), not_there());
    }
}

/// P11: in version 2 a stored v is returned as 4v - 128. A point that is not in use is returned as 0.
#[test]
fn panning_of_both_versions() {
    let panning = |version, stored: &[(u16, i16)]| {
        let tune = Tune {
            version,
            panning_envelopes: Some(vec![envelope(stored)]),
            instruments: vec![draft::Instrument::default()],
            ..Tune::default()
        };
        shown_points(interface::panning_envelope(&tune.bytes(), 0))
    };
    let stored = [(0, 0), (10, 32), (20, 64)];
    assert_eq!(
        panning(2, &stored),
        points(&[(0, -128), (10, 0), (20, 128)])
    );
    assert_eq!(panning(3, &stored), points(&[(0, 0), (10, 32), (20, 64)]));
    let stored = [(7, -128), (8, -1), (9, 128)];
    assert_eq!(panning(3, &stored), points(&[(7, -128), (8, -1), (9, 128)]));
    // All 32 points, and every value.
    for first in [0, 32, 33] {
        let stored: Vec<(u16, i16)> = (first..first + 32).map(|v| (v as u16, v)).collect();
        let scaled: Vec<(u16, i32)> = (i32::from(first)..)
            .map(|v| (v as u16, 4 * v - 128))
            .take(32)
            .collect();
        assert_eq!(panning(2, &stored), points(&scaled));
    }
}

/// Volume values are not scaled.
#[test]
fn every_volume_of_a_point() {
    for version in [2, 3] {
        for first in [0, 32, 33] {
            let stored: Vec<(u16, i16)> = (first..first + 32).map(|v| (v as u16, v)).collect();
            let tune = Tune {
                version,
                volume_envelopes: Some(vec![envelope(&stored)]),
                instruments: vec![draft::Instrument::default()],
                ..Tune::default()
            };
            let expected: Vec<(u16, i32)> = stored.iter().map(|&(p, v)| (p, v.into())).collect();
            assert_eq!(
                shown_points(interface::volume_envelope(&tune.bytes(), 0)),
                points(&expected)
            );
        }
    }
}

/// The number of points: one more than the number of sections.
#[test]
fn every_number_of_sections() {
    for sections in 0..32 {
        let stored: Vec<(u16, i16)> = (0..=sections).map(|index| (index + 1, 64)).collect();
        let tune = Tune {
            version: 2,
            volume_envelopes: Some(vec![envelope(&stored)]),
            panning_envelopes: Some(vec![envelope(&stored)]),
            instruments: vec![draft::Instrument::default()],
            ..Tune::default()
        };
        let module = tune.bytes();
        let with = |value| -> Vec<(u16, i32)> { stored.iter().map(|&(p, _)| (p, value)).collect() };
        let volume = interface::volume_envelope(&module, 0);
        assert_eq!(volume.record.sections, sections as u8);
        assert_eq!(shown_points(volume), points(&with(64)));
        let panning = interface::panning_envelope(&module, 0);
        assert_eq!(panning.record.sections, sections as u8);
        assert_eq!(shown_points(panning), points(&with(128)));
    }
}

#[test]
fn patterns_and_rows_from_0_tracks_from_1() {
    let module = tune(3).bytes();
    assert_eq!(interface::rows(&module, 0), success(2));
    assert_eq!(interface::rows(&module, 1), success(0));
    assert_eq!(interface::rows(&module, 2), success(1));
    assert_eq!(interface::rows(&module, 3), not_there());
    let cell = |pattern, row, track| interface::cell(&module, pattern, row, track);
    let key_off = Cell {
        kind: 1,
        instrument: 2,
        command1: 10,
        parameter1: 11,
        command2: 12,
        parameter2: 13,
        ..Cell::default()
    };
    let pitch = Cell {
        kind: 2,
        octave: 4,
        semitone: 7,
        instrument: 1,
        ..Cell::default()
    };
    let unknown = Cell {
        kind: 3,
        unknown: 0x9C,
        command2: 66,
        parameter2: 77,
        ..Cell::default()
    };
    assert_eq!(cell(0, 0, 6), success(key_off));
    assert_eq!(cell(0, 0, 2), success(pitch));
    assert_eq!(cell(0, 1, 1), success(unknown));
    assert_eq!(cell(0, 0, 1), success(Cell::default()));
    assert_eq!(cell(0, 1, 6), success(Cell::default()));
    let outside = [
        (0, 0, 0),
        (0, 0, 7),
        (0, 2, 1),
        (1, 0, 1),
        (2, 1, 1),
        (3, 0, 1),
    ];
    for (pattern, row, track) in outside {
        assert_eq!(cell(pattern, row, track), not_there());
    }
    let mut expected = [0; 72];
    expected[6..12].copy_from_slice(&[0x47, 1, 0, 0, 0, 0]);
    expected[30..36].copy_from_slice(&[0x1F, 2, 10, 11, 12, 13]);
    expected[36..42].copy_from_slice(&[0x9C, 0, 0, 0, 66, 77]);
    let mut out = [0xAA; 72];
    assert_eq!(interface::cells(&module, 0, &mut out).length, 72);
    assert_eq!(out, expected);
    let nothing = interface::cells(&module, 1, &mut out);
    assert_eq!((nothing.number, nothing.length), (0, 0));
    assert_eq!(out, expected);
}

/// Every byte of a note.
#[test]
fn every_note() {
    for note in 0..=255 {
        let tune = Tune {
            patterns: vec![draft::Pattern::new(1, &[3, 1, note, 0])],
            ..Tune::default()
        };
        let (octave, semitone) = (note >> 4, note & 0x0F);
        let expected = match note {
            0x00 => Cell::default(),
            0x1F => Cell {
                kind: 1,
                ..Cell::default()
            },
            0x10..=0x8F if semitone <= 11 => Cell {
                kind: 2,
                octave,
                semitone,
                ..Cell::default()
            },
            _ => Cell {
                kind: 3,
                unknown: note,
                ..Cell::default()
            },
        };
        assert_eq!(interface::cell(&tune.bytes(), 0, 0, 3), success(expected));
    }
}

/// The frames are at the module's end: 3, 6 and 8 bytes, with 8 bytes before each.
#[test]
fn samples_from_1() {
    let module = tune(3).bytes();
    let expected = [(8, 3, 33, 3), (16, 3, 22, 6), (32, 2, 8, 8)];
    for (number, (width, frames, from_end, length)) in (1..).zip(expected) {
        assert_eq!(
            interface::sample(&module, number),
            success(Sample { width, frames })
        );
        let offset = module.len() as u64 - from_end;
        assert_eq!(
            interface::frames(&module, number),
            success(Frames { offset, length })
        );
    }
    for number in [0, 4] {
        assert_eq!(interface::sample(&module, number), not_there());
        assert_eq!(interface::frames(&module, number), not_there());
        assert_eq!(interface::frame(&module, number, 0), not_there());
    }
    let frame = |sample, frame| interface::frame(&module, sample, frame);
    assert_eq!([frame(1, 0), frame(1, 2)], [success(-32_768), success(256)]);
    assert_eq!([frame(2, 1), frame(2, 2)], [success(-2), success(32_767)]);
    assert_eq!([frame(3, 0), frame(3, 1)], [success(-1), success(-1)]);
    assert_eq!([frame(1, 3), frame(2, 3), frame(3, 2)], [not_there(); 3]);
}

/// P12, and nearby numbers: 32 bits are divided by 65,536 and rounded down.
#[test]
fn frames_of_32_bits() {
    const EXPECTED: [(u32, i16); 12] = [
        (0xFFFF_FFFF, -1),
        (0xFFFF_0001, -1),
        (0xFFFF_0000, -1),
        (0xFFFE_FFFF, -2),
        (0xFFFE_0000, -2),
        (0x8000_0000, -32_768),
        (0x8000_FFFF, -32_768),
        (0x8001_0000, -32_767),
        (0x7FFF_FFFF, 32_767),
        (0x0001_0000, 1),
        (0x0000_FFFF, 0),
        (0x0000_0000, 0),
    ];
    let data: Vec<u8> = EXPECTED
        .iter()
        .flat_map(|(stored, _)| stored.to_be_bytes())
        .collect();
    let module = sampled(4, &data);
    for (index, (_, expected)) in EXPECTED.iter().enumerate() {
        assert_eq!(interface::frame(&module, 1, index), success(*expected));
    }
    assert_eq!(all_frames(&module), EXPECTED.map(|(_, expected)| expected));
}

/// Every number of 8 bits, times 256.
#[test]
fn frames_of_8_bits() {
    let data: Vec<u8> = (0..=255).collect();
    let module = sampled(1, &data);
    let expected: Vec<i16> = (0..128).chain(-128..0).map(|frame| frame * 256).collect();
    assert_eq!(all_frames(&module), expected);
    for (index, &frame) in expected.iter().enumerate() {
        assert_eq!(interface::frame(&module, 1, index), success(frame));
    }
    assert_eq!(expected[0x80], -32_768);
    assert_eq!(expected[0xFF], -256);
}

/// Every number of 16 bits, unchanged; and as the upper half of 32 bits with any lower half.
#[test]
fn frames_of_16_bits_and_upper_halves() {
    let expected: Vec<i16> = (0..=32_767).chain(-32_768..=-1).collect();
    let every: Vec<u16> = (0..=65_535).collect();
    let module = sampled(2, &numbers(&every));
    assert_eq!(all_frames(&module), expected);
    for (index, &frame) in expected.iter().enumerate() {
        assert_eq!(interface::frame(&module, 1, index), success(frame));
    }
    for lower in [0, 1, 0x7FFF, 0x8000, 0xFFFF] {
        let data: Vec<u8> = every
            .iter()
            .flat_map(|&upper| numbers(&[upper, lower]))
            .collect();
        assert!(all_frames(&sampled(4, &data)) == expected, "{lower:#x}");
    }
}

#[test]
fn a_sample_without_frames() {
    for width in [1, 2, 4] {
        let module = sampled(width, &[]);
        let answer = interface::sample(&module, 1);
        assert_eq!(answer.record.width, 8 * width as u8);
        assert_eq!(answer.record.frames, 0);
        let answer = interface::frames(&module, 1);
        assert_eq!(
            (answer.number, answer.place, answer.record.length),
            (0, 0, 0)
        );
        assert_eq!(interface::frame(&module, 1, 0), not_there());
        let answer = interface::all_frames(&module, 1, &mut []);
        assert_eq!((answer.number, answer.length), (0, 0));
    }
}

/// Every query about a module, with this number for every item and an output of this length. Each returns this refusal and zeros, and does
/// not change the output.
fn all_refuse(module: &[u8], item: usize, room: usize, number: u64, place: u64) {
    let mut out = vec![0xAA; room];
    let refusal = Answer::refused(number, place as usize);
    assert_eq!(interface::playlist(module, item, &mut out), refusal);
    assert_eq!(interface::cells(module, item, &mut out), refusal);
    assert_eq!(interface::all_frames(module, item, &mut out), refusal);
    assert_eq!(out, vec![0xAA; room]);
    assert_eq!(interface::song(module, item), refused(number, place));
    assert_eq!(interface::entry(module, item, item), refused(number, place));
    assert_eq!(interface::instrument(module, item), refused(number, place));
    assert_eq!(
        interface::volume_envelope(module, item),
        refused(number, place)
    );
    assert_eq!(
        interface::panning_envelope(module, item),
        refused(number, place)
    );
    assert_eq!(interface::rows(module, item), refused(number, place));
    assert_eq!(
        interface::cell(module, item, item, item),
        refused(number, place)
    );
    assert_eq!(interface::sample(module, item), refused(number, place));
    assert_eq!(interface::frames(module, item), refused(number, place));
    assert_eq!(interface::frame(module, item, item), refused(number, place));
}

/// 18 has priority over 17.
#[test]
fn what_is_not_there() {
    for (module, item) in [
        (Tune::default().bytes(), [0, 1, 4_294_967_296, usize::MAX]),
        (tune(2).bytes(), [4, 257, 4_294_967_297, usize::MAX]),
    ] {
        for item in item {
            for room in [0, 200] {
                all_refuse(&module, item, room, 18, 0);
            }
        }
    }
}

/// The module's own refusal has priority over 18 and 17.
#[test]
fn refused_modules() {
    let valid = tune(3);
    let broken = |change: fn(&mut Tune)| {
        let mut tune = valid.clone();
        change(&mut tune);
        tune.bytes()
    };
    for (module, number, place) in [
        (vec![], 2, 0),
        (broken(|tune| tune.version = 4), 3, 4),
        (valid.bytes()[..100].to_vec(), 4, 78),
        (broken(|tune| tune.tracks = 5), 10, 76),
        (broken(|tune| tune.songs[0].playlist[1] = 3), 12, 416),
        (broken(|tune| tune.instruments[0].volume = 65), 13, 506),
        (broken(|tune| tune.instruments[0].loop_length = 3), 14, 474),
        (broken(|tune| tune.patterns[0].stream[0] = 7), 15, 582),
    ] {
        assert_eq!(interface::version(&module), refused(number, place));
        assert_eq!(interface::name(&module), refused(number, place));
        assert_eq!(interface::info(&module), refused(number, place));
        assert_eq!(interface::volume_envelopes(&module), refused(number, place));
        assert_eq!(
            interface::panning_envelopes(&module),
            refused(number, place)
        );
        for item in [0, 1, usize::MAX] {
            for room in [0, 200] {
                all_refuse(&module, item, room, number, place);
            }
        }
    }
}

/// The structs of dbm0.h, as C lays them out.
#[test]
fn layouts() {
    assert_eq!(size_of::<RecordAnswer<Version>>(), 24);
    assert_eq!(offset_of!(RecordAnswer<Version>, record.revision), 17);
    assert_eq!(size_of::<RecordAnswer<Name>>(), 64);
    assert_eq!(size_of::<RecordAnswer<Info>>(), 32);
    assert_eq!(offset_of!(RecordAnswer<Info>, record.tracks), 24);
    assert_eq!(size_of::<RecordAnswer<Song>>(), 64);
    assert_eq!(offset_of!(RecordAnswer<Song>, record.length), 60);
    assert_eq!(size_of::<RecordAnswer<u16>>(), 24);
    assert_eq!(size_of::<Answer>(), 24);
    assert_eq!(size_of::<RecordAnswer<Instrument>>(), 72);
    assert_eq!(offset_of!(RecordAnswer<Instrument>, record.sample), 46);
    assert_eq!(offset_of!(RecordAnswer<Instrument>, record.flags), 52);
    assert_eq!(offset_of!(RecordAnswer<Instrument>, record.rate), 56);
    assert_eq!(offset_of!(RecordAnswer<Instrument>, record.loop_length), 64);
    assert_eq!(size_of::<RecordAnswer<Envelope>>(), 216);
    assert_eq!(offset_of!(RecordAnswer<Envelope>, record.positions), 24);
    assert_eq!(offset_of!(RecordAnswer<Envelope>, record.values), 88);
    assert_eq!(size_of::<RecordAnswer<Cell>>(), 32);
    assert_eq!(offset_of!(RecordAnswer<Cell>, record.parameter2), 24);
    assert_eq!(size_of::<RecordAnswer<Sample>>(), 24);
    assert_eq!(offset_of!(RecordAnswer<Sample>, record.frames), 20);
    assert_eq!(size_of::<RecordAnswer<Frames>>(), 32);
    assert_eq!(offset_of!(RecordAnswer<Frames>, record.length), 24);
    assert_eq!(size_of::<RecordAnswer<i16>>(), 24);
}
