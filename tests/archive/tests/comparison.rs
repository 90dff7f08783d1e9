//! Tests of the comparison: it finds no difference between the reference and itself, and it detects each of these wrong libraries.

use archive::compare::{self, GuardedOutput, Library, REFERENCE};
use archive::masks;
use archive::writing::writing;
use interface::Answer;
use reference::corpus::{pattern_cases, Case};
use reference::generate::{cells, Random};

/// The number of cases of the corpus that differ.
fn differences(library: Library) -> usize {
    pattern_cases()
        .iter()
        .filter(|case| compare::case(library, case).is_err())
        .count()
}

const ACCEPTED: Answer = Answer::written(0);

#[test]
fn nothing_between_the_reference_and_itself() {
    assert_eq!(differences(REFERENCE), 0);
    let random = &mut Random::new(3);
    let cells = cells(random, 4, 6, 50, 50);
    assert_eq!(compare::round_trip(REFERENCE, &cells, 4, 6), Ok(()));
}

#[test]
fn a_check_that_accepts_everything() {
    assert!(
        differences(Library {
            check: |_, _, _| ACCEPTED,
            ..REFERENCE
        }) > 100
    );
}

#[test]
fn a_check_that_refuses_everything() {
    let check = |_: &[u8], _, _| Answer::refused(15, 0);
    assert!(differences(Library { check, ..REFERENCE }) > 100);
}

#[test]
fn another_place() {
    let check = |stream: &[u8], rows, tracks| {
        let answer = (REFERENCE.check)(stream, rows, tracks);
        Answer {
            place: if answer.number == 15 {
                answer.place + 1
            } else {
                answer.place
            },
            ..answer
        }
    };
    assert!(differences(Library { check, ..REFERENCE }) > 100);
}

#[test]
fn an_unpacker_that_writes_nothing() {
    let unpack = |stream: &[u8], rows, tracks, output: &mut GuardedOutput| {
        let room = output.slice().len();
        (REFERENCE.unpack)(stream, rows, tracks, &mut GuardedOutput::new(room))
    };
    assert!(
        differences(Library {
            unpack,
            ..REFERENCE
        }) > 100
    );
}

#[test]
fn an_unpacker_that_fills_row_0_only() {
    let unpack = |stream: &[u8], rows, tracks: u64, output: &mut GuardedOutput| {
        let answer = (REFERENCE.unpack)(stream, rows, tracks, output);
        if answer.length > 0 {
            output.slice()[tracks as usize * 6..answer.length as usize].fill(0);
        }
        answer
    };
    assert!(
        differences(Library {
            unpack,
            ..REFERENCE
        }) > 100
    );
}

#[test]
fn an_unpacker_that_clears_its_output_first() {
    let unpack = |stream: &[u8], rows, tracks, output: &mut GuardedOutput| {
        let answer = (REFERENCE.unpack)(stream, rows, tracks, output);
        if answer.number == 15 {
            output.slice().fill(0);
        }
        answer
    };
    assert!(
        differences(Library {
            unpack,
            ..REFERENCE
        }) > 100
    );
}

#[test]
fn an_unpacker_that_gives_15_before_17() {
    let unpack = |stream: &[u8], rows, tracks, output: &mut GuardedOutput| {
        let check = (REFERENCE.check)(stream, rows, tracks);
        if check.number != 0 {
            return check;
        }
        (REFERENCE.unpack)(stream, rows, tracks, output)
    };
    assert!(
        differences(Library {
            unpack,
            ..REFERENCE
        }) > 100
    );
}

#[test]
fn a_byte_before_or_past_the_output() {
    for past in [false, true] {
        let unpack: fn(&[u8], u64, u64, &mut GuardedOutput) -> Answer = if past {
            |stream, rows, tracks, output| {
                let answer = (REFERENCE.unpack)(stream, rows, tracks, output);
                let end = output.bytes.len() - 64;
                output.bytes[end] ^= 1;
                answer
            }
        } else {
            |stream, rows, tracks, output| {
                let answer = (REFERENCE.unpack)(stream, rows, tracks, output);
                output.bytes[63] ^= 1;
                answer
            }
        };
        let streams = pattern_cases()
            .iter()
            .filter(|case| matches!(case, Case::Stream { .. }))
            .count();
        assert_eq!(
            differences(Library {
                unpack,
                ..REFERENCE
            }),
            streams
        );
    }
}

#[test]
fn a_packer_that_clears_the_rest() {
    let pack = |cells: &[u8], rows, tracks, output: &mut GuardedOutput| {
        let answer = (REFERENCE.pack)(cells, rows, tracks, output);
        if answer.number == 0 {
            output.slice()[answer.length as usize..].fill(0);
        }
        answer
    };
    assert!(differences(Library { pack, ..REFERENCE }) > 20);
}

#[test]
fn a_needed_length_that_is_invented() {
    let pack = |cells: &[u8], rows, tracks, output: &mut GuardedOutput| {
        let answer = (REFERENCE.pack)(cells, rows, tracks, output);
        Answer {
            place: if answer.number == 17 {
                rows * (1 + 8 * tracks)
            } else {
                0
            },
            ..answer
        }
    };
    let library = Library { pack, ..REFERENCE };
    assert!(differences(library) > 50);
    assert!(compare::round_trip(library, &[0; 24], 1, 4).is_err());
}

#[test]
fn a_packer_that_names_all_six_fields() {
    let pack = |cells: &[u8], rows: u64, tracks: u64, output: &mut GuardedOutput| {
        let answer = (REFERENCE.pack)(cells, rows, tracks, output);
        if answer.number == 16 {
            return answer;
        }
        let mut packed = Vec::new();
        for row in cells.chunks(tracks as usize * 6) {
            for (cell, track) in row.chunks(6).zip(1..) {
                packed.extend([track, 0x3F]);
                packed.extend(cell);
            }
            packed.push(0);
        }
        writing(&packed, output)
    };
    let library = Library { pack, ..REFERENCE };
    assert!(differences(library) > 100);
    // The round trip alone does not detect it, but the comparison does.
    assert_eq!(compare::round_trip(library, &[0; 24], 1, 4), Ok(()));
}

#[test]
fn a_round_trip_that_loses_a_field() {
    let pack = |cells: &[u8], rows, tracks, output: &mut GuardedOutput| {
        let mut cells = cells.to_vec();
        cells
            .iter_mut()
            .skip(5)
            .step_by(6)
            .for_each(|field| *field = 0);
        (REFERENCE.pack)(&cells, rows, tracks, output)
    };
    let library = Library { pack, ..REFERENCE };
    assert!(compare::round_trip(library, &[1; 24], 1, 4).is_err());
    assert!(differences(library) > 50);
}

/// The number of cases of the corpus that differ for a reader with another rule for masks, in its check and in its unpacker.
fn differences_in_masks<const REFUSED: u8, const COUNTED: u8>() -> [usize; 2] {
    let check = masks::check::<REFUSED, COUNTED>;
    let unpack = masks::unpacked::<REFUSED, COUNTED>;
    [
        differences(Library { check, ..REFERENCE }),
        differences(Library {
            unpack,
            ..REFERENCE
        }),
    ]
}

/// A reader that refuses masks with bit 6, with bit 7 or with both, and one that counts bit 6, bit 7 or both as fields. The right one shows no
/// differences.
#[test]
fn another_rule_for_the_upper_bits_of_masks() {
    assert_eq!(differences_in_masks::<0, 63>(), [0, 0]);
    for found in [
        differences_in_masks::<0x40, 63>(),
        differences_in_masks::<0x80, 63>(),
        differences_in_masks::<0xC0, 63>(),
        differences_in_masks::<0, 127>(),
        differences_in_masks::<0, 191>(),
        differences_in_masks::<0, 255>(),
    ] {
        assert!(found.iter().all(|&count| count > 200), "{found:?}");
    }
}

/// The packer writes bit 6, bit 7 or both in each mask. The round trip alone does not detect it.
#[test]
fn a_packer_that_writes_the_upper_bits() {
    fn wrong<const UPPER: u8>(
        cells: &[u8],
        rows: u64,
        tracks: u64,
        output: &mut GuardedOutput,
    ) -> Answer {
        let answer = (REFERENCE.pack)(cells, rows, tracks, output);
        let packed = &mut output.slice()[..answer.length as usize];
        for place in masks::places(packed) {
            packed[place] |= UPPER;
        }
        answer
    }
    for pack in [wrong::<0x40>, wrong::<0x80>, wrong::<0xC0>] {
        let library = Library { pack, ..REFERENCE };
        assert!(differences(library) > 100);
        assert_eq!(compare::round_trip(library, &[7; 24], 1, 4), Ok(()));
    }
}
