//! Packed rows, with expectations typed by hand.

use reference::pattern::{cell, check, pack, repack, shown, unpack, Cell, Note, Refusal};

const MOST: u64 = u64::MAX;

fn refused<T>(number: u64, place: u64) -> Result<T, Refusal> {
    Err(Refusal { number, place })
}

/// The result of unpacking into an output of exactly the needed length.
fn unpacked(stream: &[u8], rows: u64, tracks: u64) -> Vec<u8> {
    let mut out = vec![0xAA; (rows * tracks * 6) as usize];
    assert_eq!(
        unpack(stream, rows, tracks, &mut out),
        Ok(rows * tracks * 6)
    );
    out
}

/// The result of repacking.
fn repacked(stream: &[u8], rows: u64, tracks: u64) -> Vec<u8> {
    let mut out = vec![0xAA; 1000];
    let length = repack(stream, rows, tracks, &mut out).unwrap() as usize;
    assert!(out[length..].iter().all(|&byte| byte == 0xAA));
    out.truncate(length);
    out
}

/// The result of packing.
fn packed(cells: &[u8], rows: u64, tracks: u64) -> Vec<u8> {
    let mut out = vec![0xAA; 10_000];
    let length = pack(cells, rows, tracks, &mut out).unwrap() as usize;
    assert!(out[length..].iter().all(|&byte| byte == 0xAA));
    out.truncate(length);
    out
}

/// The stream is accepted. It has these cells, in every query, and repacking it gives the same bytes as packing them.
#[track_caller]
fn reads_as(stream: &[u8], rows: u64, tracks: u64, cells: &[u8], bytes: &[u8]) {
    assert_eq!(check(stream, rows, tracks), Ok(()), "{stream:02x?}");
    assert_eq!(unpacked(stream, rows, tracks), cells, "{stream:02x?}");
    assert_eq!(repacked(stream, rows, tracks), bytes, "{stream:02x?}");
    assert_eq!(packed(cells, rows, tracks), bytes);
    for (index, stored) in cells.chunks(6).enumerate() {
        let (row, track) = (index as u64 / tracks, index as u64 % tracks + 1);
        let expected = shown(stored.try_into().expect("a cell has six bytes"));
        assert_eq!(cell(stream, rows, tracks, row, track), Ok(expected));
    }
}

/// The cells of P1: row 0, track 2 is G-4 with instrument 1.
fn g4() -> Vec<u8> {
    let mut cells = vec![0; 48];
    cells[6] = 0x47;
    cells[7] = 0x01;
    cells
}

const G4: Cell = Cell {
    note: Note::Pitch {
        octave: 4,
        semitone: 7,
    },
    instrument: 1,
    command1: 0,
    parameter1: 0,
    command2: 0,
    parameter2: 0,
};

const EMPTY: Cell = Cell {
    note: Note::None,
    instrument: 0,
    command1: 0,
    parameter1: 0,
    command2: 0,
    parameter2: 0,
};

// The register samples.

#[test]
fn p1() {
    let stream = [0x02, 0x03, 0x47, 0x01, 0x00, 0x00];
    assert_eq!(check(&stream, 2, 4), Ok(()));
    assert_eq!(unpacked(&stream, 2, 4), g4());
    assert_eq!(repacked(&stream, 2, 4), stream);
    assert_eq!(packed(&g4(), 2, 4), stream);
    assert_eq!(cell(&stream, 2, 4, 0, 2), Ok(G4));
    assert_eq!(cell(&stream, 2, 4, 0, 1), Ok(EMPTY));
    assert_eq!(cell(&stream, 2, 4, 1, 2), Ok(EMPTY));
    assert_eq!(cell(&stream, 2, 4, 1, 4), Ok(EMPTY));
}

#[test]
fn p2() {
    let stream = [0x02, 0x01, 0x47, 0x02, 0x02, 0x01, 0x00, 0x00];
    assert_eq!(check(&stream, 2, 4), Ok(()));
    assert_eq!(unpacked(&stream, 2, 4), g4());
    assert_eq!(
        repacked(&stream, 2, 4),
        [0x02, 0x03, 0x47, 0x01, 0x00, 0x00]
    );
    assert_eq!(cell(&stream, 2, 4, 0, 2), Ok(G4));
}

#[test]
fn p3() {
    let stream = [0x02, 0x07, 0x47, 0x01, 0x00, 0x00, 0x00];
    assert_eq!(check(&stream, 2, 4), Ok(()));
    assert_eq!(unpacked(&stream, 2, 4), g4());
    assert_eq!(
        repacked(&stream, 2, 4),
        [0x02, 0x03, 0x47, 0x01, 0x00, 0x00]
    );
    assert_eq!(cell(&stream, 2, 4, 0, 2), Ok(G4));
}

#[test]
fn p4() {
    let stream = [0x01, 0x01, 0x47, 0x01, 0x01, 0x00, 0x00];
    assert_eq!(check(&stream, 1, 4), Ok(()));
    assert_eq!(unpacked(&stream, 1, 4), [0; 24]);
    assert_eq!(repacked(&stream, 1, 4), [0x00]);
    assert_eq!(packed(&[0; 24], 1, 4), [0x00]);
    assert_eq!(cell(&stream, 1, 4, 0, 1), Ok(EMPTY));
}

#[test]
fn p5() {
    let stream = [0x01, 0x00, 0x00];
    assert_eq!(check(&stream, 1, 4), Ok(()));
    assert_eq!(unpacked(&stream, 1, 4), [0; 24]);
    assert_eq!(repacked(&stream, 1, 4), [0x00]);
}

#[test]
fn p6() {
    assert_eq!(check(&[], 0, 4), Ok(()));
    assert_eq!(unpacked(&[], 0, 4), []);
    assert_eq!(repacked(&[], 0, 4), []);
    assert_eq!(packed(&[], 0, 4), []);
    assert_eq!(check(&[0x00], 0, 4), refused(15, 0));
    assert_eq!(unpack(&[0x00], 0, 4, &mut []), refused(15, 0));
    assert_eq!(repack(&[0x00], 0, 4, &mut []), refused(15, 0));
}

#[test]
fn p7() {
    let stream = [0x05, 0x01, 0x47, 0x00];
    assert_eq!(check(&stream, 1, 4), refused(15, 0));
    assert_eq!(unpack(&stream, 1, 4, &mut [0; 24]), refused(15, 0));
    assert_eq!(check(&stream, 1, 6), Ok(()));
    let mut cells = vec![0; 36];
    cells[24] = 0x47;
    assert_eq!(unpacked(&stream, 1, 6), cells);
    assert_eq!(repacked(&stream, 1, 6), stream);
}

#[test]
fn p8() {
    let stream = [0x01, 0x41, 0x47, 0x00];
    let mut cells = [0; 24];
    cells[0] = 0x47;
    reads_as(&stream, 1, 4, &cells, &[0x01, 0x01, 0x47, 0x00]);
    let note = G4.note;
    assert_eq!(cell(&stream, 1, 4, 0, 1), Ok(Cell { note, ..EMPTY }));
    assert_eq!(cell(&stream, 1, 4, 0, 2), Ok(EMPTY));
}

#[test]
fn p9() {
    assert_eq!(check(&[0x00], 2, 4), refused(15, 1));
    assert_eq!(unpack(&[0x00], 2, 4, &mut [0; 48]), refused(15, 1));
    assert_eq!(repack(&[0x00], 2, 4, &mut [0; 48]), refused(15, 1));
}

#[test]
fn a_full_row_of_four_tracks_has_33_bytes() {
    let cells: Vec<u8> = (1..=24).collect();
    let stream = [
        1, 0x3F, 1, 2, 3, 4, 5, 6, //
        2, 0x3F, 7, 8, 9, 10, 11, 12, //
        3, 0x3F, 13, 14, 15, 16, 17, 18, //
        4, 0x3F, 19, 20, 21, 22, 23, 24, //
        0,
    ];
    assert_eq!(stream.len(), 33);
    assert_eq!(packed(&cells, 1, 4), stream);
    assert_eq!(unpacked(&stream, 1, 4), cells);
    assert_eq!(repacked(&stream, 1, 4), stream);
    assert_eq!(pack(&cells, 1, 4, &mut [0; 32]), refused(17, 33));
    assert_eq!(pack(&cells, 1, 4, &mut [0; 33]), Ok(33));
}

// Refusal 15.

/// Every call that reads the stream returns the same refusal.
fn is_broken(stream: &[u8], rows: u64, tracks: u64, place: u64) {
    let mut out = vec![0xAA; (rows * tracks * 6) as usize + 100];
    assert_eq!(check(stream, rows, tracks), refused(15, place));
    assert_eq!(unpack(stream, rows, tracks, &mut out), refused(15, place));
    assert_eq!(repack(stream, rows, tracks, &mut out), refused(15, place));
    assert!(out.iter().all(|&byte| byte == 0xAA));
    for row in 0..rows {
        for track in 1..=tracks {
            assert_eq!(cell(stream, rows, tracks, row, track), refused(15, place));
        }
    }
}

#[test]
fn a_track_too_high_is_broken() {
    is_broken(&[5, 0, 0], 1, 4, 0);
    is_broken(&[4, 0, 5, 0, 0], 1, 4, 2);
    is_broken(&[0, 1, 1, 0x47, 255, 0, 0], 2, 4, 4);
    is_broken(&[255, 0, 0], 1, 254, 0);
    assert_eq!(check(&[254, 0, 0], 1, 254), Ok(()));
    assert_eq!(check(&[4, 0, 0], 1, 4), Ok(()));
}

#[test]
fn a_stream_cut_after_a_track_is_broken_there() {
    is_broken(&[1], 1, 4, 0);
    is_broken(&[0, 4], 2, 4, 1);
    is_broken(&[2, 1, 0x47, 2], 1, 4, 3);
}

#[test]
fn a_stream_cut_inside_the_fields_is_broken_at_the_entry() {
    is_broken(&[1, 0x01], 1, 4, 0);
    is_broken(&[1, 0x3F, 1, 2, 3, 4, 5], 1, 4, 0);
    is_broken(&[1, 0x21, 7], 1, 4, 0);
    is_broken(&[0, 1, 0x00, 4, 0x03, 0x00], 2, 4, 3);
}

#[test]
fn missing_row_ends_are_reported_at_the_length() {
    is_broken(&[], 1, 4, 0);
    is_broken(&[], 65, 4, 0);
    is_broken(&[0, 0], 3, 4, 2);
    is_broken(&[1, 0x01, 0x47], 1, 4, 3);
    is_broken(&[1, 0x01, 0x00], 1, 4, 3);
    is_broken(&[1, 0x00], 1, 4, 2);
    assert_eq!(check(&[], 65_535, 254), refused(15, 0));
    assert_eq!(check(&[0; 65_534], 65_535, 254), refused(15, 65_534));
    assert_eq!(check(&[0; 65_535], 65_535, 254), Ok(()));
}

#[test]
fn bytes_left_over_are_reported_at_the_first() {
    is_broken(&[0, 0], 1, 4, 1);
    is_broken(&[0, 1, 1, 0x47], 1, 4, 1);
    is_broken(&[0, 0xFF], 1, 4, 1);
    is_broken(&[2, 1, 0x47, 0, 0, 0, 0], 2, 4, 5);
    assert_eq!(check(&[0; 65_536], 65_535, 4), refused(15, 65_535));
}

#[test]
fn with_no_rows_any_byte_is_left_over() {
    for byte in [0, 1, 4, 5, 255] {
        is_broken(&[byte], 0, 4, 0);
        is_broken(&[byte, 0], 0, 4, 0);
    }
}

#[test]
fn the_first_fault_is_reported() {
    // A track that is too high, then another one; then a cut entry; then row ends that are missing.
    is_broken(&[5, 0, 6, 0], 1, 4, 0);
    is_broken(&[1, 0, 5, 0, 1, 0x01], 1, 4, 2);
    is_broken(&[0, 5, 0], 3, 4, 1);
    // A cut entry, and row ends that are missing.
    is_broken(&[0, 1, 0x01], 3, 4, 1);
    is_broken(&[1, 0x01], 2, 4, 0);
}

// Bits 6 and 7 of a mask.

/// The three ways to set one of the two bits or both.
const UPPER: [u8; 3] = [0x40, 0x80, 0xC0];

/// An entry, and the cell that it gives. The fields are named by the mask's bits 0 to 5, and the value of each is its place in the cell
/// twice: 0x11 for the note, 0x66 for parameter 2.
fn entry(track: u8, mask: u8) -> (Vec<u8>, [u8; 6]) {
    let (mut entry, mut cell) = (vec![track, mask], [0; 6]);
    for (field, stored) in cell.iter_mut().enumerate() {
        if (mask & 63) >> field & 1 == 1 {
            *stored = 0x11 * (field as u8 + 1);
            entry.push(*stored);
        }
    }
    (entry, cell)
}

#[test]
fn the_upper_bits_name_no_field() {
    for upper in UPPER {
        reads_as(&[1, upper, 0], 1, 4, &[0; 24], &[0]);
        let full = [1, upper | 0x3F, 1, 2, 3, 4, 5, 6, 0];
        let mut cells = [0; 24];
        cells[..6].copy_from_slice(&[1, 2, 3, 4, 5, 6]);
        reads_as(&full, 1, 4, &cells, &[1, 0x3F, 1, 2, 3, 4, 5, 6, 0]);
        // The byte after the mask is a track, or a row end.
        reads_as(&[1, upper, 1, 0, 0], 1, 4, &[0; 24], &[0]);
        reads_as(&[1, upper, 0, 0], 2, 4, &[0; 48], &[0, 0]);
    }
    let stream = [0, 3, 0x3F, 1, 2, 3, 4, 5, 6, 2, 0x81, 9, 0];
    let mut cells = [0; 48];
    cells[30] = 9;
    cells[36..42].copy_from_slice(&[1, 2, 3, 4, 5, 6]);
    let bytes = [0, 2, 0x01, 9, 3, 0x3F, 1, 2, 3, 4, 5, 6, 0];
    reads_as(&stream, 2, 4, &cells, &bytes);
}

/// An entry with the upper bits stores its fields over those of an earlier entry, and the others stay.
#[test]
fn the_upper_bits_change_no_field() {
    for upper in UPPER {
        let stream = [1, upper | 0x3F, 1, 2, 3, 4, 5, 6, 1, upper | 0x14, 7, 8, 0];
        assert_eq!(unpacked(&stream, 1, 4)[..6], [1, 2, 7, 4, 8, 6]);
        assert_eq!(repacked(&stream, 1, 4), [1, 0x3F, 1, 2, 7, 4, 8, 6, 0]);
        let stream = [1, 0x3F, 1, 2, 3, 4, 5, 6, 1, upper, 0];
        assert_eq!(unpacked(&stream, 1, 4)[..6], [1, 2, 3, 4, 5, 6]);
    }
}

/// All 256 masks, as the only entry of a row, between two others, and in the second row.
#[test]
fn every_mask() {
    for mask in 0..=255 {
        let (given, stored) = entry(2, mask);
        let own = match mask & 63 {
            0 => vec![],
            low => entry(2, low).0,
        };
        let mut cells = [0; 48];
        cells[6..12].copy_from_slice(&stored);
        let alone = [&given[..], &[0]].concat();
        reads_as(&alone, 1, 4, &cells[..24], &[&own[..], &[0]].concat());
        let (first, last) = ([1, 0xC1, 7], [4, 0x60, 9]);
        let between = [&first[..], &given, &last, &[0], &given, &[0]].concat();
        let bytes = [&[1, 0x01, 7], &own[..], &[4, 0x20, 9, 0], &own, &[0]].concat();
        (cells[0], cells[23]) = (7, 9);
        cells[30..36].copy_from_slice(&stored);
        reads_as(&between, 2, 4, &cells, &bytes);
    }
}

/// Two rows of three entries. The upper bits are set in each choice of the six.
#[test]
fn the_upper_bits_in_any_entries() {
    let plain = [
        1, 0x01, 7, 2, 0x12, 8, 9, 3, 0x20, 10, 0, //
        1, 0x02, 11, 3, 0x0C, 12, 13, 4, 0x3F, 1, 2, 3, 4, 5, 6, 0,
    ];
    let masks = [1, 4, 8, 12, 15, 19];
    let cells = [
        7, 0, 0, 0, 0, 0, 0, 8, 0, 0, 9, 0, 0, 0, 0, 0, 0, 10, 0, 0, 0, 0, 0, 0, //
        0, 11, 0, 0, 0, 0, 0, 0, 0, 0, 0, 0, 0, 0, 12, 13, 0, 0, 1, 2, 3, 4, 5, 6,
    ];
    for chosen in 0..64 {
        for upper in UPPER {
            let mut stream = plain;
            for (index, mask) in masks.into_iter().enumerate() {
                stream[mask] |= if chosen >> index & 1 == 1 { upper } else { 0 };
            }
            reads_as(&stream, 2, 4, &cells, &plain);
        }
    }
}

/// `01 C0` is a whole entry. `01 41` is cut, since bit 0 names a field.
#[test]
fn cut_entries_with_upper_bits() {
    is_broken(&[0x01, 0xC0], 1, 4, 2);
    is_broken(&[0x01, 0x41], 1, 4, 0);
    is_broken(&[0x01, 0xFF, 1, 2, 3, 4, 5], 1, 4, 0);
    is_broken(&[0x01, 0xFF, 1, 2, 3, 4, 5, 6], 1, 4, 8);
    is_broken(&[0x05, 0xC0, 0x00], 1, 4, 0);
    is_broken(&[0x01, 0xC0, 0x05, 0xC0, 0x00], 1, 4, 2);
    is_broken(&[0x01, 0xC0, 0x00, 0x00], 1, 4, 3);
    is_broken(&[0x01, 0xC0, 0x00], 2, 4, 3);
}

/// Every cut of an entry with each of the 256 masks. The whole entry without a row end is broken at the stream's length.
#[test]
fn every_cut_of_every_mask() {
    for mask in 0..=255 {
        let (given, _) = entry(3, mask);
        for before in [&[][..], &[0], &[1, 0xFF, 1, 2, 3, 4, 5, 6, 0]] {
            let rows = 1 + u64::from(!before.is_empty());
            for cut in 1..given.len() {
                let stream = [before, &given[..cut]].concat();
                is_broken(&stream, rows, 4, before.len() as u64);
            }
            let stream = [before, &given].concat();
            is_broken(&stream, rows, 4, stream.len() as u64);
        }
    }
}

/// A track that is too high, with each of the 256 masks.
#[test]
fn a_track_too_high_with_every_mask() {
    for mask in 0..=255 {
        let (given, _) = entry(5, mask);
        is_broken(&[&[0], &given[..], &[0]].concat(), 2, 4, 1);
        assert_eq!(check(&[&given[..], &[0]].concat(), 1, 6), Ok(()));
    }
}

// Refusal 16.

#[test]
fn rows_out_of_range() {
    for rows in [65_536, 65_537, 1 << 32, 1 << 63, (1 << 61) + 1, MOST] {
        let mut out = [0xAA; 48];
        assert_eq!(check(&[0], rows, 4), refused(16, 0));
        assert_eq!(unpack(&[0], rows, 4, &mut out), refused(16, 0));
        assert_eq!(pack(&[0; 24], rows, 4, &mut out), refused(16, 0));
        assert_eq!(pack(&[], rows, 4, &mut out), refused(16, 0));
        assert_eq!(repack(&[0], rows, 4, &mut out), refused(16, 0));
        assert_eq!(cell(&[0], rows, 4, 0, 1), refused(16, 0));
        assert_eq!(out, [0xAA; 48]);
    }
}

#[test]
fn tracks_out_of_range() {
    for tracks in [
        0,
        1,
        2,
        3,
        5,
        253,
        255,
        256,
        260,
        (1 << 32) + 4,
        1 << 63,
        MOST - 1,
        MOST,
    ] {
        let mut out = [0xAA; 48];
        assert_eq!(check(&[0], 1, tracks), refused(16, 0));
        assert_eq!(check(&[], 0, tracks), refused(16, 0));
        assert_eq!(unpack(&[0], 1, tracks, &mut out), refused(16, 0));
        assert_eq!(pack(&[0; 24], 1, tracks, &mut out), refused(16, 0));
        assert_eq!(pack(&[], 0, tracks, &mut out), refused(16, 0));
        assert_eq!(repack(&[0], 1, tracks, &mut out), refused(16, 0));
        assert_eq!(cell(&[0], 1, tracks, 0, 1), refused(16, 0));
        assert_eq!(out, [0xAA; 48]);
    }
    for tracks in [4, 6, 128, 252, 254] {
        assert_eq!(check(&[0], 1, tracks), Ok(()));
    }
}

#[test]
fn cells_of_another_length() {
    for (length, rows) in [
        (0, 1),
        (23, 1),
        (25, 1),
        (24, 0),
        (1, 0),
        (24, 2),
        (47, 2),
        (49, 2),
        (24, 65_535),
    ] {
        let mut out = [0xAA; 48];
        assert_eq!(pack(&vec![1; length], rows, 4, &mut out), refused(16, 0));
        assert_eq!(out, [0xAA; 48]);
    }
}

#[test]
fn both_ranges_to_their_ends() {
    assert_eq!(check(&[0; 65_535], 65_535, 4), Ok(()));
    assert_eq!(check(&[0; 65_536], 65_536, 4), refused(16, 0));
}

// Refusal 17.

#[test]
fn an_output_too_short_reports_the_needed_length() {
    let stream = [0x02, 0x03, 0x47, 0x01, 0x00, 0x00];
    assert_eq!(unpack(&stream, 2, 4, &mut [0; 47]), refused(17, 48));
    assert_eq!(unpack(&stream, 2, 4, &mut []), refused(17, 48));
    assert_eq!(unpack(&[], 65_535, 254, &mut []), refused(17, 99_875_340));
    assert_eq!(pack(&g4(), 2, 4, &mut [0; 5]), refused(17, 6));
    assert_eq!(pack(&g4(), 2, 4, &mut []), refused(17, 6));
    assert_eq!(pack(&[0; 24], 1, 4, &mut []), refused(17, 1));
    assert_eq!(
        repack(
            &[0x02, 0x07, 0x47, 0x01, 0x00, 0x00, 0x00],
            2,
            4,
            &mut [0; 5]
        ),
        refused(17, 6)
    );
    assert_eq!(repack(&[0x01, 0x00, 0x00], 1, 4, &mut []), refused(17, 1));
}

#[test]
fn an_output_of_nothing_is_enough_for_no_rows() {
    assert_eq!(unpack(&[], 0, 254, &mut []), Ok(0));
    assert_eq!(pack(&[], 0, 254, &mut []), Ok(0));
    assert_eq!(repack(&[], 0, 254, &mut []), Ok(0));
}

// Refusal 18.

#[test]
fn rows_and_tracks_that_are_not_there() {
    let stream = [0x02, 0x03, 0x47, 0x01, 0x00, 0x00];
    for (row, track) in [
        (2, 2),
        (0, 0),
        (0, 5),
        (MOST, 2),
        (0, MOST),
        (MOST, MOST),
        (256, 2),
        (0, 258),
        (65_536, 2),
    ] {
        assert_eq!(cell(&stream, 2, 4, row, track), refused(18, 0));
    }
    assert_eq!(cell(&[], 0, 4, 0, 1), refused(18, 0));
    assert_eq!(
        cell(&[254, 1, 0x8B, 0], 1, 254, 0, 254).unwrap().note,
        Note::Pitch {
            octave: 8,
            semitone: 11
        }
    );
    assert_eq!(cell(&[254, 1, 0x8B, 0], 1, 254, 0, 255), refused(18, 0));
}

// Orders.

#[test]
fn unpacking_gives_16_then_17_then_15() {
    assert_eq!(unpack(&[9], 65_536, 4, &mut []), refused(16, 0));
    assert_eq!(unpack(&[9], 1, 5, &mut []), refused(16, 0));
    assert_eq!(unpack(&[9], 1, 4, &mut [0; 23]), refused(17, 24));
    assert_eq!(unpack(&[9], 1, 4, &mut [0; 24]), refused(15, 0));
}

#[test]
fn packing_gives_16_then_17() {
    assert_eq!(pack(&[1; 23], 1, 4, &mut []), refused(16, 0));
    assert_eq!(pack(&[1; 24], 1, 5, &mut []), refused(16, 0));
    assert_eq!(pack(&[1; 24], 1, 4, &mut []), refused(17, 33));
}

#[test]
fn repacking_gives_16_then_15_then_17() {
    assert_eq!(repack(&[9], 65_536, 4, &mut []), refused(16, 0));
    assert_eq!(repack(&[0, 9], 1, 4, &mut []), refused(15, 1));
    assert_eq!(repack(&[0], 1, 4, &mut []), refused(17, 1));
}

#[test]
fn one_cell_gives_16_then_18_then_15() {
    assert_eq!(cell(&[9], 1, 5, 7, 7), refused(16, 0));
    assert_eq!(cell(&[9], 65_536, 4, MOST, 1), refused(16, 0));
    assert_eq!(cell(&[0, 9], 1, 4, 1, 1), refused(18, 0));
    assert_eq!(cell(&[0, 9], 1, 4, 0, 5), refused(18, 0));
    // The fault is after the selected row.
    assert_eq!(cell(&[0, 9], 1, 4, 0, 1), refused(15, 1));
    assert_eq!(cell(&[1, 1, 0x47, 0, 9, 0], 2, 4, 0, 1), refused(15, 4));
}

// Applying entries.

#[test]
fn fields_that_an_entry_does_not_name_stay() {
    let stream = [1, 0x3F, 1, 2, 3, 4, 5, 6, 1, 0x14, 7, 8, 0];
    assert_eq!(unpacked(&stream, 1, 4)[..6], [1, 2, 7, 4, 8, 6]);
    assert_eq!(repacked(&stream, 1, 4), [1, 0x3F, 1, 2, 7, 4, 8, 6, 0]);
    let stream = [1, 0x3F, 1, 2, 3, 4, 5, 6, 1, 0x00, 0];
    assert_eq!(unpacked(&stream, 1, 4)[..6], [1, 2, 3, 4, 5, 6]);
    let stream = [1, 0x3F, 1, 2, 3, 4, 5, 6, 2, 0x01, 9, 1, 0x21, 0, 0, 0];
    assert_eq!(
        unpacked(&stream, 1, 4)[..12],
        [0, 2, 3, 4, 5, 0, 9, 0, 0, 0, 0, 0]
    );
    assert_eq!(
        repacked(&stream, 1, 4),
        [1, 0x1E, 2, 3, 4, 5, 2, 0x01, 9, 0]
    );
}

#[test]
fn a_row_begins_with_zeros() {
    let stream = [1, 0x3F, 1, 2, 3, 4, 5, 6, 0, 1, 0x02, 9, 0];
    let cells = unpacked(&stream, 2, 4);
    assert_eq!(cells[..6], [1, 2, 3, 4, 5, 6]);
    assert_eq!(cells[6..24], [0; 18]);
    assert_eq!(cells[24..30], [0, 9, 0, 0, 0, 0]);
    assert_eq!(cells[30..], [0; 18]);
    assert_eq!(
        cell(&stream, 2, 4, 1, 1).unwrap(),
        Cell {
            instrument: 9,
            ..EMPTY
        }
    );
}

#[test]
fn tracks_in_any_order() {
    let stream = [
        4, 0x20, 0x44, 2, 0x01, 0x22, 3, 0x02, 0x33, 2, 0x08, 0x55, 0,
    ];
    let cells = [
        0, 0, 0, 0, 0, 0, //
        0x22, 0, 0, 0x55, 0, 0, //
        0, 0x33, 0, 0, 0, 0, //
        0, 0, 0, 0, 0, 0x44,
    ];
    assert_eq!(unpacked(&stream, 1, 4), cells);
    assert_eq!(
        repacked(&stream, 1, 4),
        [2, 0x09, 0x22, 0x55, 3, 0x02, 0x33, 4, 0x20, 0x44, 0]
    );
    assert_eq!(
        packed(&cells, 1, 4),
        [2, 0x09, 0x22, 0x55, 3, 0x02, 0x33, 4, 0x20, 0x44, 0]
    );
}

#[test]
fn the_last_of_254_tracks() {
    let mut cells = vec![0; 2 * 254 * 6];
    cells[2 * 254 * 6 - 1] = 0xFF;
    cells[127 * 6] = 0x10;
    assert_eq!(
        packed(&cells, 2, 254),
        [128, 0x01, 0x10, 0, 254, 0x20, 0xFF, 0]
    );
    assert_eq!(
        unpacked(&[128, 0x01, 0x10, 0, 254, 0x20, 0xFF, 0], 2, 254),
        cells
    );
}

// Output memory.

#[test]
fn a_refusal_changes_nothing() {
    let mut out = [0xAA; 24];
    // The fault is at the end of the stream.
    assert_eq!(
        unpack(&[1, 0x3F, 1, 2, 3, 4, 5, 6, 0, 0], 1, 4, &mut out),
        refused(15, 9)
    );
    assert_eq!(
        unpack(&[1, 0x3F, 1, 2, 3, 4, 5, 6, 0], 1, 4, &mut out[..23]),
        refused(17, 24)
    );
    assert_eq!(
        repack(&[1, 0x3F, 1, 2, 3, 4, 5, 6, 0, 0], 1, 4, &mut out),
        refused(15, 9)
    );
    assert_eq!(
        repack(&[1, 0x3F, 1, 2, 3, 4, 5, 6, 0], 1, 4, &mut out[..8]),
        refused(17, 9)
    );
    assert_eq!(pack(&[1; 24], 1, 4, &mut out), refused(17, 33));
    assert_eq!(pack(&[1; 25], 1, 4, &mut out), refused(16, 0));
    assert_eq!(out, [0xAA; 24]);
}

#[test]
fn bytes_past_the_needed_length_stay() {
    let mut out = [0xAA; 30];
    assert_eq!(unpack(&[4, 0x20, 7, 0], 1, 4, &mut out), Ok(24));
    assert_eq!(out[..23], [0; 23]);
    assert_eq!(out[23..], [7, 0xAA, 0xAA, 0xAA, 0xAA, 0xAA, 0xAA]);
    let mut out = [0xAA; 8];
    assert_eq!(pack(&g4(), 2, 4, &mut out), Ok(6));
    assert_eq!(out, [0x02, 0x03, 0x47, 0x01, 0x00, 0x00, 0xAA, 0xAA]);
    let mut out = [0xAA; 3];
    assert_eq!(repack(&[1, 0, 0], 1, 4, &mut out), Ok(1));
    assert_eq!(out, [0x00, 0xAA, 0xAA]);
    assert_eq!(unpack(&[], 0, 4, &mut out), Ok(0));
    assert_eq!(out, [0x00, 0xAA, 0xAA]);
}

// Cells in answers.

fn note(byte: u8) -> Note {
    shown([byte, 0, 0, 0, 0, 0]).note
}

#[test]
fn notes() {
    let pitch = |octave, semitone| Note::Pitch { octave, semitone };
    assert_eq!(note(0x00), Note::None);
    assert_eq!(note(0x01), Note::Unknown(0x01));
    assert_eq!(note(0x0B), Note::Unknown(0x0B));
    assert_eq!(note(0x0F), Note::Unknown(0x0F));
    assert_eq!(note(0x10), pitch(1, 0));
    assert_eq!(note(0x1B), pitch(1, 11));
    assert_eq!(note(0x1C), Note::Unknown(0x1C));
    assert_eq!(note(0x1E), Note::Unknown(0x1E));
    assert_eq!(note(0x1F), Note::KeyOff);
    assert_eq!(note(0x20), pitch(2, 0));
    assert_eq!(note(0x2F), Note::Unknown(0x2F));
    assert_eq!(note(0x47), pitch(4, 7));
    assert_eq!(note(0x7B), pitch(7, 11));
    assert_eq!(note(0x80), pitch(8, 0));
    assert_eq!(note(0x8B), pitch(8, 11));
    assert_eq!(note(0x8C), Note::Unknown(0x8C));
    assert_eq!(note(0x8F), Note::Unknown(0x8F));
    assert_eq!(note(0x90), Note::Unknown(0x90));
    assert_eq!(note(0xF0), Note::Unknown(0xF0));
    assert_eq!(note(0xFF), Note::Unknown(0xFF));
    let pitches = (0..=255)
        .filter(|&byte| matches!(note(byte), Note::Pitch { .. }))
        .count();
    assert_eq!(pitches, 96);
}

#[test]
fn the_other_fields_are_shown_as_stored() {
    let cell = shown([0x47, 1, 2, 3, 4, 255]);
    assert_eq!(
        cell.note,
        Note::Pitch {
            octave: 4,
            semitone: 7
        }
    );
    assert_eq!((cell.instrument, cell.command1, cell.parameter1), (1, 2, 3));
    assert_eq!((cell.command2, cell.parameter2), (4, 255));
    assert_eq!(
        shown([0, 9, 0, 0, 0, 0]),
        Cell {
            instrument: 9,
            ..EMPTY
        }
    );
}
