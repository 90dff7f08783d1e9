//! Comparing modules of the maximum length. The expected lists are typed by hand.

use std::collections::BTreeSet;

use archive::compare::same_output;
use archive::comparing::{compared, library, list, CompareAnswer};
use archive::large::{fill_playlists, filled_up, with_last, MOST};
use archive::writing::{answering, WritingAnswer};
use reference::compare::{differences, Difference};
use reference::draft::{Envelope, Pattern, Sample, Song, Tune};
use reference::module::check;

/// The library writes this list into outputs around its length, for both orders of the modules. Shorter outputs are refused with 17.
#[track_caller]
fn gives(first: &[u8], second: &[u8], expected: &[Difference]) {
    let (answer, bytes) = (compared(expected.len()), list(expected));
    let needed = bytes.len();
    for room in BTreeSet::from([0, needed.saturating_sub(1), needed, needed + 1]) {
        for (first, second) in [(first, second), (second, first)] {
            let is = |output: &mut _| library(first, second, output);
            same_output("compare", room, is, |output| {
                answering(answer, &bytes, output)
            })
            .unwrap();
        }
    }
}

/// The same, and the reference finds these differences too.
#[track_caller]
fn agree(first: &[u8], second: &[u8], expected: &[Difference]) {
    let found = differences(first, second).expect("both are accepted");
    assert!(found.iter().eq(expected));
    gives(first, second, expected);
}

/// With an output of any length the library refuses.
#[track_caller]
fn refuses(first: &[u8], second: &[u8], number: u64, place: usize) {
    for room in [0, 10, 1_000] {
        let is = |output: &mut _| library(first, second, output);
        let refusal = CompareAnswer::refused(number, place);
        same_output("compare", room, is, |_| refusal).unwrap();
    }
}

/// The module with one byte changed.
fn with(module: &[u8], place: usize, byte: u8) -> Vec<u8> {
    let mut module = module.to_vec();
    assert_ne!(module[place], byte);
    module[place] = byte;
    module
}

#[test]
fn one_byte_too_many() {
    let short = Tune::default().bytes();
    let most = filled_up(Tune::default().draft(), MOST);
    agree(&most, &short, &[]);
    agree(&most, &most, &[]);
    let more = filled_up(Tune::default().draft(), MOST + 1);
    refuses(&more, &short, 1, 0);
    refuses(&short, &more, 1, 0);
    refuses(&more, &short[..57], 1, 0);
    refuses(&short[..57], &more, 4, 50);
    refuses(&more, &more, 1, 0);
}

/// A sample that takes nearly the whole module. The first or the last byte of its frames differs, or one frame is missing.
#[test]
fn a_long_sample() {
    for width in [1, 2, 4] {
        let frames = (MOST - 200) / width;
        let of = |frames: usize| {
            let tune = Tune {
                samples: vec![
                    Sample::new(1, &[5]),
                    Sample::new(width as u32, &vec![0x11; frames * width]),
                ],
                ..Tune::default()
            };
            tune.bytes()
        };
        let module = of(frames);
        let start = module.len() - frames * width;
        agree(&module, &module, &[]);
        gives(&module, &module.clone(), &[]);
        gives(&module, &with(&module, start, 0x12), &[[7, 2, 0, 0, 0]]);
        gives(
            &module,
            &with(&module, start + 9_999_999, 0x91),
            &[[7, 2, 0, 0, 0]],
        );
        agree(
            &module,
            &with(&module, module.len() - 1, 0x10),
            &[[7, 2, 0, 0, 0]],
        );
        gives(&module, &of(frames - 1), &[[7, 2, 0, 0, 0]]);
    }
}

/// 32,767 songs, with playlists that fill the module. The last entry of the last song differs, and a byte of the name of the last but one.
#[test]
fn all_songs() {
    let mut tune = Tune {
        songs: vec![Song::default(); 32_767],
        patterns: vec![Pattern::default(); 1_024],
        ..Tune::default()
    };
    fill_playlists(&mut tune);
    let module = with_last(&tune, b"SONG").bytes();
    assert_eq!(module.len(), MOST);
    gives(&module, &module.clone(), &[]);
    // The last entry is 1,022.
    let other = with(&module, MOST - 1, 0xFD);
    agree(&module, &other, &[[3, 32_766, 0, 0, 0]]);
    // The last song has 65,535 entries, and the song before it none.
    let other = with(&other, MOST - 2 * 65_535 - 46 - 3, 1);
    gives(
        &module,
        &other,
        &[[3, 32_765, 0, 0, 0], [3, 32_766, 0, 0, 0]],
    );
    // A module without songs and patterns: all of them, and the two numbers of INFO.
    let mut all = vec![[2, 2, 0, 0, 0], [2, 3, 0, 0, 0]];
    all.extend((0..32_767).map(|song| [3, song, 0, 0, 0]));
    all.extend((0..1_024).map(|pattern| [8, pattern, 0, 0, 0]));
    agree(&module, &Tune::default().bytes(), &all);
}

/// 65,535 volume envelopes of two points. The last value in use of the last one differs, or the first that is not in use.
#[test]
fn all_envelopes() {
    let envelope = Envelope {
        instrument: 1,
        sections: 1,
        points: vec![(0xFFFF, 64); 2],
        ..Envelope::default()
    };
    let tune = Tune {
        instruments: vec![Default::default()],
        volume_envelopes: Some(vec![envelope; 65_535]),
        ..Tune::default()
    };
    let module = with_last(&tune, b"VENV").bytes();
    let last = module.len() - 136;
    agree(
        &module,
        &with(&module, last + 15, 63),
        &[[5, 65_534, 0, 0, 0]],
    );
    gives(&module, &with(&module, last + 16, 63), &[]);
    gives(&module, &with(&module, last + 135, 63), &[]);
    let all: Vec<Difference> = (0..65_535).map(|number| [5, number, 0, 0, 0]).collect();
    let none = Tune {
        volume_envelopes: None,
        ..tune
    };
    agree(&module, &none.bytes(), &all);
}

/// A full row of 254 tracks.
fn full_row() -> Vec<u8> {
    let entries = (1..=254).flat_map(|track| [track, 0x3F, 1, 2, 3, 4, 5, 6]);
    entries.chain([0]).collect()
}

fn of_254_tracks(patterns: Vec<Pattern>) -> Vec<u8> {
    let tune = Tune {
        tracks: 254,
        patterns,
        ..Tune::default()
    };
    with_last(&tune, b"PATT").bytes()
}

/// 1,024 patterns of 8 full rows. The first field of the first pattern and the last field of the last one differ.
#[test]
fn all_patterns() {
    let pattern = Pattern::new(8, &full_row().repeat(8));
    let module = of_254_tracks(vec![pattern.clone(); 1_024]);
    let first = module.len() - 1_024 * pattern.bytes().len() + 6;
    let other = with(&module, first + 2, 9);
    let other = with(&other, module.len() - 2, 7);
    gives(&module, &other, &[[8, 0, 0, 1, 1], [8, 1_023, 7, 254, 6]]);
    gives(&module, &module.clone(), &[]);
}

/// 255 patterns of 65,535 rows. All rows are empty but for the last one of the last pattern.
#[test]
fn the_most_rows() {
    let empty = Pattern::new(65_535, &vec![0; 65_535]);
    let of = |last: [u8; 3]| {
        let mut stream = vec![0; 65_534];
        stream.extend(last);
        stream.push(0);
        let mut patterns = vec![empty.clone(); 254];
        patterns.push(Pattern::new(65_535, &stream));
        of_254_tracks(patterns)
    };
    let (module, other) = (of([254, 0x20, 1]), of([254, 0x10, 1]));
    check(&module).expect("it is valid");
    let expected = [[8, 254, 65_534, 254, 5], [8, 254, 65_534, 254, 6]];
    agree(&module, &other, &expected);
    gives(&module, &module.clone(), &[]);
}

/// Rows with entries that name no field, and rows without entries: nothing differs, although no stream is the same.
#[test]
fn rows_that_differ_in_nothing() {
    let of = |row: &[u8]| {
        let pattern = Pattern::new(65_535, &row.repeat(65_535));
        of_254_tracks(vec![pattern; 8])
    };
    let (plain, named) = (of(&[0]), of(&[254, 0, 0]));
    agree(&plain, &named, &[]);
}

/// The fields of these rows of a pattern.
fn fields_of(pattern: u16, rows: impl Iterator<Item = u16>) -> Vec<Difference> {
    let cells = rows.flat_map(|row| (1..=254).map(move |track| (row, track)));
    cells
        .flat_map(|(row, track)| (1..=6).map(move |field| [8, pattern, row, track, field]))
        .collect()
}

/// 500 full rows against empty ones: 762,000 entries.
#[test]
fn many_entries() {
    let full = Pattern::new(500, &full_row().repeat(500));
    let empty = Pattern::new(500, &[0; 500]);
    let [one, other] =
        [full, empty].map(|pattern| of_254_tracks(vec![Pattern::default(), pattern]));
    let expected = fields_of(1, 0..500);
    assert_eq!(expected.len(), 762_000);
    agree(&one, &other, &expected);
}

/// The most entries: each module fills 16 MiB with full rows, and has empty rows where the other one has full ones. There are 8,200 full rows in
/// each, which are 2 × 8,200 × 254 × 6 entries of 10 bytes.
#[test]
fn the_most_entries() {
    let of = |first: &[u8], second: &[u8]| {
        let rows = [first, second].concat().repeat(8_200);
        of_254_tracks(vec![Pattern::new(16_400, &rows)])
    };
    let full = full_row();
    let (one, other) = (of(&full, &[0]), of(&[0], &full));
    assert!(one.len() > MOST - 120_000 && one.len() <= MOST);
    let needed = 249_936_000;
    assert_eq!(needed, 2 * 8_200 * 254 * 6 * 10);
    for (first, second) in [(&one, &other), (&other, &one)] {
        let answer = interface::compare(first, second, &mut []);
        assert_eq!(answer, CompareAnswer::refused(17, needed));
    }
}
