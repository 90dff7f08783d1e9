//! All records of modules of the maximum length. The expected bytes are also made by hand.

use archive::all_records::RECORDS;
use archive::large::{fill_playlists, filled_up, with_last, MOST};
use reference::draft::{Chunk, Envelope, Instrument, Pattern, Sample, Song, Tune};

/// The summary: version 3.00, no name, and the numbers of instruments, samples, songs, patterns, tracks, volume envelopes and panning
/// envelopes.
fn summary(numbers: [u16; 7]) -> Vec<u8> {
    let mut bytes = vec![3, 0];
    bytes.extend([0; 44]);
    bytes.extend(numbers.into_iter().flat_map(u16::to_be_bytes));
    bytes
}

/// 32,767 songs, whose playlists fill the module. The longest have 65,535 entries.
#[test]
fn all_songs() {
    let mut tune = Tune {
        songs: (0..32_767)
            .map(|song| Song {
                name: format!("song {song}").into_bytes(),
                playlist: vec![],
            })
            .collect(),
        patterns: vec![Pattern::default(); 1_024],
        ..Tune::default()
    };
    fill_playlists(&mut tune);
    let module = with_last(&tune, b"SONG").bytes();
    assert_eq!(module.len(), MOST);
    let mut records = summary([0, 0, 32_767, 1_024, 4, 0, 0]);
    records.extend(tune.songs.iter().flat_map(Song::bytes));
    records.extend([0; 2_048]);
    RECORDS.gives(&module, &records);
}

/// 65,535 volume envelopes of two points, and as many panning envelopes of 32 points as fit. The unused points of the first are not 0.
#[test]
fn all_envelopes() {
    let volume = |number: u16| Envelope {
        instrument: 1 + number % 255,
        sections: 1,
        points: (0..32).map(|point| (number, point)).collect(),
        ..Envelope::default()
    };
    let panning = |number: u16| Envelope {
        instrument: 255 - number % 255,
        flags: 0x0F,
        sections: 31,
        first_sustain: 31,
        loop_first: 30,
        loop_last: 31,
        second_sustain: 29,
        points: (0..32)
            .map(|point| (number ^ 0xFFFF, point * 8 - 128))
            .collect(),
    };
    let instruments: Vec<Instrument> = (0..255)
        .map(|number| Instrument {
            name: vec![number; 30],
            rate: 0xFFFF_FFFF - u32::from(number),
            panning: i16::from(number) - 128,
            ..Instrument::default()
        })
        .collect();
    let mut tune = Tune {
        instruments,
        volume_envelopes: Some((0..65_535).map(volume).collect()),
        panning_envelopes: Some(vec![]),
        ..Tune::default()
    };
    let count = ((MOST - tune.bytes().len()) / 136) as u16;
    tune.panning_envelopes = Some((0..count).map(panning).collect());
    let module = with_last(&tune, b"VENV").bytes();
    assert!(module.len() > MOST - 136);
    let mut records = summary([255, 0, 0, 0, 4, 65_535, count]);
    records.extend(tune.instruments.iter().flat_map(Instrument::bytes));
    for number in 0..65_535 {
        let mut shown = volume(number);
        shown.points.truncate(2);
        records.extend(shown.bytes());
    }
    records.extend((0..count).flat_map(|number| panning(number).bytes()));
    RECORDS.gives(&module, &records);
}

/// In version 2 the stored values 0 to 64 are returned as -128 to 128 in steps of 4.
#[test]
fn all_envelopes_of_version_2() {
    let envelope = |value: fn(i16) -> i16, number: u16| Envelope {
        instrument: 1,
        sections: 31,
        points: (0..32).map(|point| (number, value(point))).collect(),
        ..Envelope::default()
    };
    let mut tune = Tune {
        version: 2,
        instruments: vec![Instrument::default()],
        panning_envelopes: Some(
            (0..65_535)
                .map(|n| envelope(|point| 2 * point + 1, n))
                .collect(),
        ),
        ..Tune::default()
    };
    tune.name = Some(b"old".to_vec());
    let module = tune.bytes();
    let mut records = summary([1, 0, 0, 0, 4, 0, 65_535]);
    records[0] = 2;
    records[2..5].copy_from_slice(b"old");
    records.extend([0; 50]);
    records.extend((0..65_535).flat_map(|n| envelope(|point| 8 * point - 124, n).bytes()));
    RECORDS.gives(&module, &records);
}

/// 1,024 patterns of packed rows and 255 samples, which fill the module and have short records.
#[test]
fn patterns_and_samples() {
    let row = [[4, 0x3F, 1, 2, 3, 4, 5, 6].repeat(99), vec![0]].concat();
    let tune = Tune {
        patterns: (0..1_024)
            .map(|number| Pattern::new(number % 19, &row.repeat(usize::from(number % 19))))
            .collect(),
        samples: (0..255)
            .map(|number| {
                let width = [1, 2, 4][number % 3];
                Sample::new(width as u32, &vec![0x80; width * (9_000 + number)])
            })
            .collect(),
        ..Tune::default()
    };
    let module = filled_up(with_last(&tune, b"PATT"), MOST);
    let mut records = summary([0, 255, 0, 1_024, 4, 0, 0]);
    for number in 0..1_024 {
        records.extend([0, (number % 19) as u8]);
    }
    for number in 0..255 {
        records.extend([0, [8, 16, 32][number % 3]]);
        records.extend((9_000 + number as u32).to_be_bytes());
    }
    RECORDS.gives(&module, &records);
}

/// As many empty chunks as fit, before and after the others.
#[test]
fn as_many_chunks_as_fit() {
    let mut draft = Tune::default().draft();
    let count = (MOST - draft.bytes().len()) / 8;
    let empty = Chunk::new(b"ABCD", vec![]);
    for chunk in draft.chunks.drain(..).collect::<Vec<Chunk>>() {
        draft.chunks.extend(vec![empty.clone(); count / 5]);
        draft.chunks.push(chunk);
    }
    RECORDS.gives(&draft.bytes(), &summary([0, 0, 0, 0, 4, 0, 0]));
}

#[test]
fn one_byte_too_many() {
    RECORDS.one_byte_too_many(|_| summary([0, 0, 0, 0, 4, 0, 0]));
}
