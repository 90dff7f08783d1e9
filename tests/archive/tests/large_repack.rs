//! Repacking modules of the maximum length. The expected modules are also typed by hand.

use archive::large::{filled_up, with_last, MOST};
use archive::repacking::REPACK;
use reference::draft::{Chunk, Draft, Pattern, Sample, Tune};
use reference::generate::Random;

/// The module is repacked to this one, which repacks to itself and returns the same answers.
#[track_caller]
fn becomes(module: &[u8], expected: &[u8]) {
    REPACK.gives(module, expected);
    REPACK.into_room(expected, expected.len()).unwrap();
    REPACK
        .check_properties(module, &mut Random::new(1))
        .unwrap();
}

/// The draft with other patterns.
fn with_patterns(mut draft: Draft, patterns: &[Pattern]) -> Draft {
    draft.chunk(b"PATT").data = patterns.iter().flat_map(Pattern::bytes).collect();
    draft
}

/// One row of 254 full tracks.
fn row(tracks: impl Iterator<Item = u8>) -> Vec<u8> {
    tracks
        .flat_map(|track| [track, 0x3F, 1, 2, 3, 4, 5, track])
        .chain([0])
        .collect()
}

/// 1,024 patterns of 8 rows of 254 full tracks in descending order: the result has the same length and other bytes. A chunk before all
/// others fills the module, and one of a few bytes follows PATT.
#[test]
fn all_patterns() {
    let of_rows = |row: &[u8]| vec![Pattern::new(8, &row.repeat(8)); 1_024];
    let tune = Tune {
        tracks: 254,
        patterns: of_rows(&row((1..=254).rev())),
        ..Tune::default()
    };
    let mut draft = with_last(&tune, b"PATT");
    draft.chunks.push(Chunk::new(b"LAST", vec![1, 2, 3]));
    let module = filled_up(draft.clone(), MOST);
    let packed = with_patterns(draft, &of_rows(&row(1..=254)));
    becomes(&module, &filled_up(packed, MOST));
}

/// One pattern of 65,535 rows whose stream has over 16 million bytes. Each row has 31 entries for the same track, of which the last is
/// effective. The first row begins with some thousands of entries without fields. Each row is repacked to 8 bytes and the row end.
#[test]
fn a_long_pattern() {
    const ROWS: usize = 65_535;
    let mut row = [254, 0x3F, 9, 9, 9, 9, 9, 9].repeat(30);
    let last = [254, 0x3F, 1, 2, 3, 4, 5, 6, 0];
    row.extend(last);
    let mut stream = [7, 0].repeat((MOST - 58 - 6 - 1 - ROWS * row.len()) / 2);
    stream.extend(row.repeat(ROWS));
    assert_eq!(stream.len() % 2, 1);
    let long = Pattern {
        rows: ROWS as u16,
        stream,
        filler: 0xFF,
    };
    let tune = Tune {
        tracks: 254,
        patterns: vec![long],
        ..Tune::default()
    };
    let module = tune.bytes();
    assert_eq!(module.len(), MOST);
    let packed = Pattern::new(ROWS as u16, &last.repeat(ROWS));
    // 65,535 rows of 9 bytes and the filler: 589,816 bytes.
    assert_eq!(packed.bytes().len(), 6 + 589_816);
    let tune = Tune {
        patterns: vec![packed],
        ..tune
    };
    becomes(&module, &tune.bytes());
}

/// A short PATT, with about 8 million bytes before it and after it, which move by two.
#[test]
fn long_chunks_around_patt() {
    let data: Vec<u8> = (0..8_000_000)
        .map(|place| (place ^ place >> 8 ^ place >> 16) as u8)
        .collect();
    let with = |stream: &[u8]| {
        let tune = Tune {
            patterns: vec![Pattern::new(2, stream)],
            samples: vec![Sample::new(4, &data)],
            ..Tune::default()
        };
        let mut draft = tune.draft();
        draft.chunks.insert(0, Chunk::new(b"LONG", data.clone()));
        draft.bytes()
    };
    let module = with(&[2, 1, 0x47, 2, 2, 1, 0, 0]);
    becomes(&module, &with(&[2, 3, 0x47, 1, 0, 0]));
}

#[test]
fn one_byte_too_many() {
    REPACK.one_byte_too_many(<[u8]>::to_vec);
}
