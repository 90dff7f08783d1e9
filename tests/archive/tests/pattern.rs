//! libpattern.a against the reference. DBM0_CASES is the number of random cases and DBM0_SEED the first seed.

use archive::compare::{self, answer, ARCHIVE, REFERENCE};
use archive::masks::entry;
use archive::seeds::for_seeds;
use archive::writing::writes;
use interface::Answer;
use reference::corpus::{pattern_cases, Case};
use reference::generate::{bytes, cells, damaged, likely_bytes, valid_stream, Random};
use reference::pattern::{check, pack, repack, unpack};

/// Rows and tracks, mostly small numbers.
fn shape(random: &mut Random) -> (u64, u64) {
    let rows = if random.chance(5) {
        random.below(300)
    } else {
        random.below(9)
    };
    let tracks = if random.chance(10) {
        4 + 2 * random.below(126)
    } else {
        4 + 2 * random.below(5)
    };
    (rows, tracks)
}

/// An output length near the needed one: mostly exactly enough, sometimes a little less or more.
fn room(random: &mut Random, needed: u64) -> usize {
    let room = match random.below(8) {
        0 => needed.saturating_sub(1),
        1 => needed + 1,
        2 => random.below(needed + 1),
        3 => needed + random.below(100),
        4 => 0,
        _ => needed,
    };
    room as usize
}

/// The rows and tracks to pass. Sometimes they differ from those of the stream.
fn passed_shape(random: &mut Random, rows: u64, tracks: u64) -> (u64, u64) {
    match random.below(20) {
        0 => (rows + 1, tracks),
        1 => (rows.saturating_sub(1), tracks),
        2 => (rows, tracks + 2),
        3 => (rows, tracks.saturating_sub(2)),
        4 => (rows, random.below(300)),
        5 => (random.number() >> random.below(64), tracks),
        6 => (rows, random.number() >> random.below(64)),
        _ => (rows, tracks),
    }
}

/// The length of the cells if that is not too long to allocate, else a small length.
fn needed(rows: u64, tracks: u64) -> u64 {
    let bytes = rows
        .checked_mul(tracks)
        .and_then(|cells| cells.checked_mul(6));
    bytes.filter(|&bytes| bytes <= 1_000_000).unwrap_or(60)
}

fn compare_stream(
    random: &mut Random,
    stream: &[u8],
    rows: u64,
    tracks: u64,
) -> Result<(), String> {
    let (rows, tracks) = passed_shape(random, rows, tracks);
    let room = room(random, needed(rows, tracks));
    compare::stream(ARCHIVE, stream, rows, tracks, room)
}

/// Each case with its own output length, and streams also with exactly the needed length.
#[test]
fn the_corpus() {
    let cases = pattern_cases();
    for (index, case) in cases.iter().enumerate() {
        let mut outcome = compare::case(ARCHIVE, case);
        if let Case::Stream {
            rows,
            tracks,
            stream,
            ..
        } = case
        {
            let room = needed(*rows, *tracks) as usize;
            outcome = outcome.and_then(|()| compare::stream(ARCHIVE, stream, *rows, *tracks, room));
        }
        if let Err(what) = outcome {
            panic!("case {index} of the corpus: {what}");
        }
    }
    assert!(cases.len() > 3000, "only {} cases", cases.len());
}

#[test]
fn valid_streams() {
    for_seeds(20_000, |random| {
        let (rows, tracks) = shape(random);
        let most = random.below(12);
        let stream = valid_stream(random, rows, tracks, most);
        compare_stream(random, &stream, rows, tracks)
    });
}

#[test]
fn the_packers_streams() {
    for_seeds(10_000, |random| {
        let (rows, tracks) = shape(random);
        let stream = valid_stream(random, rows, tracks, 8);
        let mut packed = vec![0; stream.len()];
        let length = repack(&stream, rows, tracks, &mut packed).expect("no longer than the stream");
        compare_stream(random, &packed[..length as usize], rows, tracks)
    });
}

#[test]
fn damaged_streams() {
    for_seeds(20_000, |random| {
        let (rows, tracks) = shape(random);
        let stream = valid_stream(random, rows, tracks, 6);
        let stream = damaged(random, &stream);
        compare_stream(random, &stream, rows, tracks)
    });
}

#[test]
fn random_bytes() {
    for_seeds(20_000, |random| {
        let length = random.below(60);
        let stream = match random.below(3) {
            0 => bytes(random, length),
            _ => likely_bytes(random, length),
        };
        let tracks = 4 + 2 * random.below(126);
        let tracks = random.pick(&[4, 4, tracks, 254]);
        // The number of rows for which the bytes are a valid stream, if there is one.
        let valid = (0..=length).find(|&rows| check(&stream, rows, tracks).is_ok());
        let rows = valid.unwrap_or(random.below(12));
        compare_stream(random, &stream, rows, tracks)
    });
}

#[test]
fn random_cells() {
    for_seeds(20_000, |random| {
        let (rows, tracks) = shape(random);
        let (filled, named) = (
            random.pick(&[0, 3, 10, 30, 50, 80, 100]),
            random.pick(&[5, 20, 50, 80, 100]),
        );
        let mut cells = cells(random, rows, tracks, filled, named);
        compare::round_trip(ARCHIVE, &cells, rows, tracks)?;
        let length = answer(pack(&cells, rows, tracks, &mut [])).place;
        let room = room(random, length);
        // Sometimes there are too few or too many cells.
        match random.below(12) {
            0 => drop(cells.pop()),
            1 => cells.push(random.byte()),
            2 => cells.truncate(random.below(cells.len() as u64 + 1) as usize),
            _ => (),
        }
        let (rows, tracks) = passed_shape(random, rows, tracks);
        compare::cells(ARCHIVE, &cells, rows, tracks, room)
    });
}

/// One or two fields at every place.
#[test]
fn cells_with_one_or_two_bytes() {
    for first in 0..48 {
        for second in first..48 {
            let mut cells = [0; 48];
            cells[first] = 0x80;
            cells[second] = 0x01;
            compare::cells(ARCHIVE, &cells, 2, 4, 20).unwrap();
            compare::round_trip(ARCHIVE, &cells, 2, 4).unwrap();
        }
    }
}

/// Every pair of a track and a mask byte, before a row end and at the end of the stream.
#[test]
fn every_track_and_mask() {
    for track in 0..=255 {
        for mask in 0..=255 {
            let stream = [track, mask, 1, 2, 3, 4, 5, 6, 0];
            let fields = (mask & 0x3Fu8).count_ones() as usize;
            let ended = [&stream[..2 + fields], &[0]].concat();
            compare::stream(ARCHIVE, &ended, 1, 128, 768).unwrap();
            compare::stream(ARCHIVE, &stream[..2 + fields], 1, 254, 1524).unwrap();
            if fields > 0 {
                compare::stream(ARCHIVE, &stream[..1 + fields], 1, 4, 24).unwrap();
            }
        }
    }
}

/// Every mask byte in each of the three entries of two rows, with outputs around the needed length, and cut at every byte.
#[test]
fn every_mask_at_every_place() {
    for mask in 0..=255 {
        let given = entry(2, mask);
        for chosen in 0..6 {
            let row = |first: usize| -> Vec<u8> {
                let entries = (first..first + 3).flat_map(|index| match index == chosen {
                    true => given.clone(),
                    false => vec![1 + index as u8 % 4, 0x0A, 7, 8],
                });
                entries.chain([0]).collect()
            };
            let stream = [row(0), row(3)].concat();
            check(&stream, 2, 4).expect("it is valid");
            for room in [0, 47, 48, 49] {
                compare::stream(ARCHIVE, &stream, 2, 4, room).unwrap();
            }
            for cut in 0..stream.len() {
                compare::stream(ARCHIVE, &stream[..cut], 2, 4, 48).unwrap();
            }
        }
    }
}

/// Every value of each byte of an entry whose mask has bits 6 and 7, in a stream of one and of two rows.
#[test]
fn every_byte_of_an_entry() {
    let stream = [1, 0xC5, 7, 0, 3, 0xFF, 1, 2, 3, 4, 5, 6, 0];
    for place in 0..stream.len() {
        for byte in 0..=255 {
            let mut stream = stream;
            stream[place] = byte;
            for rows in [1, 2, 3] {
                compare::stream(ARCHIVE, &stream, rows, 4, 72).unwrap();
            }
        }
    }
}

/// The answers that the request names: bits 6 and 7 are ignored, also when the length of an entry is measured, and are written as 0.
#[test]
fn upper_bits_of_masks() {
    let mut cells = [0; 24];
    let unpacks = |stream: &[u8], cells: &[u8]| {
        assert_eq!(interface::check_pattern(stream, 1, 4), Answer::written(0));
        writes(cells, |output| {
            interface::unpack_pattern(stream, 1, 4, output.slice())
        });
    };
    for stream in [[0x01, 0x40, 0x00], [0x01, 0x80, 0x00], [0x01, 0xC0, 0x00]] {
        unpacks(&stream, &cells);
    }
    writes(&[0x00], |output| {
        interface::pack_pattern(&cells, 1, 4, output.slice())
    });
    cells[0] = 0x47;
    unpacks(&[0x01, 0x41, 0x47, 0x00], &cells);
    writes(&[0x01, 0x01, 0x47, 0x00], |output| {
        interface::pack_pattern(&cells, 1, 4, output.slice())
    });
    for (stream, place) in [
        (&[0x01, 0xC0][..], 2),
        (&[0x01, 0x41], 0),
        (&[0x01, 0xFF, 1, 2, 3, 4, 5], 0),
        (&[0x01, 0xFF, 1, 2, 3, 4, 5, 6], 8),
        (&[0x05, 0xC0, 0x00], 0),
        (&[0x01, 0xC0, 0x00, 0x00], 3),
    ] {
        let refused = Answer::refused(15, place);
        assert_eq!(interface::check_pattern(stream, 1, 4), refused);
        let mut out = [0xAA; 24];
        assert_eq!(interface::unpack_pattern(stream, 1, 4, &mut out), refused);
        assert_eq!(out, [0xAA; 24]);
    }
}

/// 65,535 rows of 254 tracks, about 100 MB of cells, some of them not empty.
#[test]
fn the_largest_pattern() {
    const ROWS: u64 = 65_535;
    const TRACKS: u64 = 254;
    const CELLS: usize = 99_875_340;
    let random = &mut Random::new(7);
    let mut cells = vec![0; CELLS];
    for _ in 0..200_000 {
        let place = random.below(CELLS as u64) as usize;
        cells[place] = random.byte();
    }
    cells[0] = 1;
    cells[CELLS - 1] = 2;

    let needed = answer(pack(&cells, ROWS, TRACKS, &mut [])).place as usize;
    let (mut expected, mut is) = (vec![0xAA; needed + 1], vec![0xAA; needed + 1]);
    let expected_answer = answer(pack(&cells, ROWS, TRACKS, &mut expected));
    assert_eq!(expected_answer.length as usize, needed);
    assert_eq!(
        interface::pack_pattern(&cells, ROWS, TRACKS, &mut is[..needed - 1]),
        answer(pack(&cells, ROWS, TRACKS, &mut [])),
    );
    assert!(
        is.iter().all(|&byte| byte == 0xAA),
        "a refusal changes the output"
    );
    assert_eq!(
        interface::pack_pattern(&cells, ROWS, TRACKS, &mut is),
        expected_answer
    );
    assert!(is == expected, "the packed streams differ");
    let short = &cells[..CELLS - 1];
    assert_eq!(
        interface::pack_pattern(short, ROWS, TRACKS, &mut is),
        answer(pack(short, ROWS, TRACKS, &mut []))
    );

    let stream = &expected[..needed];
    let left_over = [stream, &[0]].concat();
    let mut out = vec![0xAA; CELLS + 1];
    for stream in [stream, &stream[..needed - 1], &left_over] {
        assert_eq!(
            interface::check_pattern(stream, ROWS, TRACKS),
            (REFERENCE.check)(stream, ROWS, TRACKS)
        );
        assert_eq!(
            interface::unpack_pattern(stream, ROWS, TRACKS, &mut out[..CELLS - 1]),
            answer(unpack(stream, ROWS, TRACKS, &mut [])),
        );
        assert_eq!(
            interface::unpack_pattern(stream, ROWS, TRACKS, &mut out[..CELLS - 1]).number,
            17
        );
    }
    // Without its last byte a row end is missing, which is reported at the length. With an extra byte, that byte is left over.
    for (stream, place) in [(&stream[..needed - 1], needed - 1), (&left_over, needed)] {
        let is = interface::unpack_pattern(stream, ROWS, TRACKS, &mut out);
        assert_eq!((is.number, is.place as usize, is.length), (15, place, 0));
    }
    assert!(
        out.iter().all(|&byte| byte == 0xAA),
        "a refusal changes the output"
    );
    assert_eq!(
        interface::unpack_pattern(stream, ROWS, TRACKS, &mut out).length as usize,
        CELLS
    );
    assert!(out[..CELLS] == cells[..], "the cells differ");
    assert_eq!(out[CELLS], 0xAA);
}

/// The longest packed stream: no field is 0.
#[test]
fn a_full_pattern_of_many_rows() {
    let (rows, tracks) = (4096, 254);
    let cells = vec![0xFF; (rows * tracks * 6) as usize];
    let length = (rows * (1 + 8 * tracks)) as usize;
    let mut packed = vec![0xAA; length];
    assert_eq!(
        interface::pack_pattern(&cells, rows, tracks, &mut packed[..length - 1]).place as usize,
        length
    );
    assert!(packed.iter().all(|&byte| byte == 0xAA));
    assert_eq!(
        interface::pack_pattern(&cells, rows, tracks, &mut packed).length as usize,
        length
    );
    let mut expected = vec![0; length];
    pack(&cells, rows, tracks, &mut expected).unwrap();
    assert!(packed == expected);
    let mut out = vec![0xAA; cells.len()];
    assert_eq!(
        interface::unpack_pattern(&packed, rows, tracks, &mut out).length as usize,
        cells.len()
    );
    assert!(out == cells);
}

#[test]
fn outputs_of_every_length_and_alignment() {
    let stream = [1, 0x3F, 1, 2, 3, 4, 5, 6, 4, 0x21, 7, 8, 0, 2, 0x02, 9, 0];
    let mut cells = [0; 48];
    unpack(&stream, 2, 4, &mut cells).unwrap();
    writes(&cells, |output| {
        interface::unpack_pattern(&stream, 2, 4, output.slice())
    });
    writes(&stream, |output| {
        interface::pack_pattern(&cells, 2, 4, output.slice())
    });
}
