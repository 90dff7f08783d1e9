//! The queries about modules of the maximum length. The expected answers are also typed by hand.

use std::fmt::Debug;

use archive::large::{filled_up, with_last, MOST};
use archive::queries::{refused, success, Queries, ARCHIVE, REFERENCE};
use archive::writing::writes_around;
use interface::{Cell, Envelope, Frames, Info, Instrument, Name, RecordAnswer, Sample, Song};
use reference::draft::{self, Tune};
use reference::records;

/// The archive agrees with the reference, and this is the answer.
#[track_caller]
fn gives<Record>(query: impl Fn(&Queries) -> RecordAnswer<Record>, expected: RecordAnswer<Record>)
where
    Record: PartialEq + Debug,
{
    assert_eq!(query(&REFERENCE), expected, "the reference");
    assert_eq!(query(&ARCHIVE), expected, "the archive");
}

fn not_there<Record: Default>() -> RecordAnswer<Record> {
    refused(18, 0)
}

fn name(text: &[u8]) -> Name {
    let mut name = Name::default();
    name.0[..text.len()].copy_from_slice(text);
    name
}

/// A sample that fills the module: nearly 17 million frames of 8 bits, or as many of 16 or 32 bits as fit. SMPL is at 50, its block at 58,
/// its frames at 66.
#[test]
fn a_long_sample() {
    for (width, frames) in [(1, 16_777_150), (2, 8_388_575), (4, 4_194_287)] {
        let data: Vec<u8> = (0..frames * width)
            .map(|place| (place ^ place >> 8 ^ place >> 16) as u8)
            .collect();
        let tune = Tune {
            samples: vec![draft::Sample::new(width as u32, &data)],
            ..Tune::default()
        };
        let module = tune.bytes();
        assert!(module.len() <= MOST && module.len() > MOST - width);
        let sample = Sample {
            width: 8 * width as u8,
            frames: frames as u32,
        };
        gives(|library| (library.sample)(&module, 1), success(sample));
        let part = Frames {
            offset: 66,
            length: data.len() as u64,
        };
        gives(|library| (library.frames)(&module, 1), success(part));
        for frame in [0, 1, 65_535, 65_536, frames / 2, frames - 1] {
            // The upper two bytes, or one byte and 0.
            let stored = &data[width * frame..width * (frame + 1)];
            let expected = i16::from_be_bytes([stored[0], *stored.get(1).unwrap_or(&0)]);
            gives(
                |library| (library.frame)(&module, 1, frame),
                success(expected),
            );
        }
        for frame in [frames, frames + 1, 1 << 32, usize::MAX] {
            gives(|library| (library.frame)(&module, 1, frame), not_there());
        }
        let mut expected = vec![0; 2 * frames];
        records::all_frames(&module, 1, &mut expected).expect("there is room");
        writes_around(&expected, |output| {
            interface::all_frames(&module, 1, output.slice())
        });
    }
}

/// 32,767 songs. The last has the maximum number of entries.
#[test]
fn all_songs() {
    let mut tune = Tune {
        songs: vec![draft::Song::default(); 32_767],
        patterns: vec![draft::Pattern::default(); 1_024],
        ..Tune::default()
    };
    let playlist: Vec<u16> = (0..65_535).map(|entry| entry % 1_024).collect();
    tune.songs[32_765].name = b"last but one".to_vec();
    tune.songs[32_766].name = b"last".to_vec();
    tune.songs[32_766].playlist = playlist.clone();
    let module = filled_up(with_last(&tune, b"SONG"), MOST);
    let song = |name_is: &[u8], length| Song {
        name: name(name_is),
        length,
    };
    let expected = [
        (0, song(b"", 0)),
        (32_765, song(b"last but one", 0)),
        (32_766, song(b"last", 65_535)),
    ];
    for (number, expected) in expected {
        gives(|library| (library.song)(&module, number), success(expected));
    }
    gives(|library| (library.song)(&module, 32_767), not_there());
    let entry = |song, entry, expected| {
        gives(|library| (library.entry)(&module, song, entry), expected);
    };
    entry(32_766, 0, success(0));
    entry(32_766, 1_023, success(1_023));
    entry(32_766, 65_534, success(1_022));
    entry(32_766, 65_535, not_there());
    entry(32_765, 0, not_there());
    let bytes: Vec<u8> = playlist
        .iter()
        .flat_map(|entry| entry.to_be_bytes())
        .collect();
    writes_around(&bytes, |output| {
        interface::playlist(&module, 32_766, output.slice())
    });
}

/// 1,024 patterns of 254 tracks, each with different fields.
#[test]
fn all_patterns() {
    let cells = |pattern: usize| -> Vec<u8> {
        (0..254 * 6)
            .map(|field| ((field + pattern) % 255) as u8 + 1)
            .collect()
    };
    let stream = |pattern| -> Vec<u8> {
        let cells = cells(pattern);
        let entries = cells.chunks(6).zip(1..).flat_map(|(cell, track)| {
            let mut entry = vec![track, 0x3F];
            entry.extend(cell);
            entry
        });
        entries.chain([0]).collect()
    };
    let tune = Tune {
        tracks: 254,
        patterns: (0..1_024)
            .map(|pattern| draft::Pattern::new(1, &stream(pattern)))
            .collect(),
        ..Tune::default()
    };
    let module = filled_up(with_last(&tune, b"PATT"), MOST);
    for pattern in [0, 1, 255, 256, 1_023] {
        gives(|library| (library.rows)(&module, pattern), success(1));
        writes_around(&cells(pattern), |output| {
            interface::cells(&module, pattern, output.slice())
        });
    }
    gives(|library| (library.rows)(&module, 1_024), not_there());
    // The last cell of the last pattern: fields 1,518 to 1,523, and 1,023 more; 2,541 is 246 more than 9 times 255.
    let last = Cell {
        kind: 3,
        unknown: 247,
        instrument: 248,
        command1: 249,
        parameter1: 250,
        command2: 251,
        parameter2: 252,
        ..Cell::default()
    };
    gives(
        |library| (library.cell)(&module, 1_023, 0, 254),
        success(last),
    );
    gives(
        |library| (library.cell)(&module, 1_023, 0, 255),
        not_there(),
    );
    gives(
        |library| (library.cell)(&module, 1_023, 1, 254),
        not_there(),
    );
}

/// One pattern of 65,535 rows of 254 tracks: nearly 100 million bytes of cells.
#[test]
fn a_long_pattern() {
    const ROWS: usize = 65_535;
    const CELLS: usize = ROWS * 254 * 6;
    let mut stream = vec![254, 0x21, 0x8B, 0xFF];
    stream.resize(4 + ROWS - 1, 0);
    stream.extend([254, 0x02, 7, 1, 0x01, 0x10, 0]);
    let tune = Tune {
        tracks: 254,
        patterns: vec![draft::Pattern::new(ROWS as u16, &stream)],
        ..Tune::default()
    };
    let module = filled_up(with_last(&tune, b"PATT"), MOST);
    gives(|library| (library.rows)(&module, 0), success(65_535));
    let first = Cell {
        kind: 2,
        octave: 8,
        semitone: 11,
        parameter2: 0xFF,
        ..Cell::default()
    };
    let last = Cell {
        instrument: 7,
        ..Cell::default()
    };
    gives(|library| (library.cell)(&module, 0, 0, 254), success(first));
    gives(
        |library| (library.cell)(&module, 0, 65_534, 254),
        success(last),
    );
    gives(
        |library| (library.cell)(&module, 0, 65_533, 254),
        success(Cell::default()),
    );
    gives(
        |library| (library.cell)(&module, 0, 65_535, 254),
        not_there(),
    );
    let mut expected = vec![0; CELLS];
    expected[253 * 6] = 0x8B;
    expected[253 * 6 + 5] = 0xFF;
    expected[CELLS - 254 * 6] = 0x10;
    expected[CELLS - 5] = 7;
    writes_around(&expected, |output| {
        interface::cells(&module, 0, output.slice())
    });
}

/// 255 instruments and 255 samples.
#[test]
fn all_instruments_and_samples() {
    const COUNT: usize = 255;
    let width = |sample: usize| [1, 2, 4][sample % 3];
    let frames = |sample: usize| 16_000 + sample;
    let tune = Tune {
        samples: (1..=COUNT)
            .map(|sample| {
                let length = frames(sample) * width(sample);
                draft::Sample::new(width(sample) as u32, &vec![sample as u8; length])
            })
            .collect(),
        instruments: (1..=COUNT)
            .map(|number| draft::Instrument {
                name: vec![number as u8; 30],
                sample: (256 - number) as u16,
                volume: number as u16 % 65,
                rate: number as u32 * 0x0101_0101,
                loop_start: 1,
                loop_length: number as u32,
                panning: 128 - number as i16,
                flags: number as u16 % 4,
            })
            .collect(),
        ..Tune::default()
    };
    let module = filled_up(with_last(&tune, b"SMPL"), MOST);
    let info = Info {
        instruments: 255,
        samples: 255,
        tracks: 4,
        ..Info::default()
    };
    gives(|library| (library.info)(&module), success(info));
    let mut end = MOST;
    for number in (1..=COUNT).rev() {
        let instrument = Instrument {
            name: [number as u8; 30],
            sample: (256 - number) as u16,
            volume: number as u16 % 65,
            panning: 128 - number as i16,
            flags: number as u16 % 4,
            rate: number as u32 * 0x0101_0101,
            loop_start: 1,
            loop_length: number as u32,
        };
        gives(
            |library| (library.instrument)(&module, number),
            success(instrument),
        );
        let length = frames(number) * width(number);
        let part = Frames {
            offset: (end - length) as u64,
            length: length as u64,
        };
        gives(|library| (library.frames)(&module, number), success(part));
        let expected = i16::from_be_bytes([number as u8; 2]);
        let expected = if width(number) == 1 {
            expected & -256
        } else {
            expected
        };
        gives(
            |library| (library.frame)(&module, number, frames(number) - 1),
            success(expected),
        );
        end -= length + 8;
    }
    for number in [0, 256, 257, 511, 65_537] {
        gives(|library| (library.instrument)(&module, number), not_there());
        gives(|library| (library.sample)(&module, number), not_there());
    }
}

/// 65,535 volume envelopes, and as many panning envelopes as fit beside them.
#[test]
fn all_envelopes() {
    let volume = |number: u16| draft::Envelope {
        instrument: 1,
        points: vec![(number, 64)],
        ..draft::Envelope::default()
    };
    let panning = |number: u16| draft::Envelope {
        instrument: 1,
        sections: 31,
        points: (0..32).map(|point| (number, point + 32)).collect(),
        ..draft::Envelope::default()
    };
    let tune = Tune {
        version: 2,
        instruments: vec![draft::Instrument::default()],
        volume_envelopes: Some((0..65_535).map(volume).collect()),
        panning_envelopes: Some((0..57_000).map(panning).collect()),
        ..Tune::default()
    };
    let module = filled_up(tune.draft(), MOST);
    gives(
        |library| (library.volume_envelopes)(&module),
        success(65_535),
    );
    gives(
        |library| (library.panning_envelopes)(&module),
        success(57_000),
    );
    for number in [0, 255, 256, 32_768, 65_534] {
        let mut expected = Envelope {
            instrument: 1,
            ..Envelope::default()
        };
        expected.positions[0] = number as u16;
        expected.values[0] = 64;
        gives(
            |library| (library.volume_envelope)(&module, number),
            success(expected),
        );
    }
    for number in [0, 255, 256, 32_768, 56_999] {
        // 32 to 63 are returned as 0 to 124.
        let mut values = [0; 32];
        for (value, point) in values.iter_mut().zip(0..) {
            *value = 4 * point;
        }
        let expected = Envelope {
            instrument: 1,
            sections: 31,
            positions: [number as u16; 32],
            values,
            ..Envelope::default()
        };
        gives(
            |library| (library.panning_envelope)(&module, number),
            success(expected),
        );
    }
    gives(
        |library| (library.volume_envelope)(&module, 65_535),
        not_there(),
    );
    gives(
        |library| (library.panning_envelope)(&module, 57_000),
        not_there(),
    );
}

/// One byte more than the maximum length of a module.
#[test]
fn one_byte_too_many() {
    let mut module = filled_up(Tune::default().draft(), MOST);
    gives(|library| (library.name)(&module), success(Name::default()));
    module.push(0);
    gives(|library| (library.name)(&module), refused(1, 0));
    gives(|library| (library.song)(&module, 0), refused(1, 0));
    gives(|library| (library.frames)(&module, 0), refused(1, 0));
}
