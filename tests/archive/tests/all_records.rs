//! Writing all records of a module at once: libdbm0.a against the reference, and against its own queries. DBM0_CASES is the number of
//! random cases and DBM0_SEED the first seed. Modules of the maximum length are in large_all_records.rs.

use archive::all_records::RECORDS;
use archive::modules::{all_values, every_change, file};
use archive::seeds::for_seeds;
use reference::generate::{module, Limits};
use reference::module::check;

/// A song of one entry, no instruments, a pattern of one row, and a sample of 32 bits. SONG is at 26, PATT at 90, SMPL at 106, PNAM at 130.
const MODULE: &[u8; 140] = b"DBM0\x03\x21\xDE\xAD\
    INFO\x00\x00\x00\x0A\x00\x00\x00\x01\x00\x01\x00\x01\x00\x06\
    SONG\x00\x00\x00\x30A song of forty-four bytes, all of them used\x00\x01\x00\x00\
    INST\x00\x00\x00\x00\
    PATT\x00\x00\x00\x08\x00\x01\x00\x00\x00\x01\x00\xFF\
    SMPL\x00\x00\x00\x10\x00\x00\x00\x04\x00\x00\x00\x02\x01\x02\x03\x04\x05\x06\x07\x08\
    PNAM\x00\x00\x00\x02\x80\x81";

/// The records of `MODULE`: 60 bytes, the song, the rows, the sample.
const SHOWN: &[u8; 116] = b"\x03\x21\
    \0\0\0\0\0\0\0\0\0\0\0\0\0\0\0\0\0\0\0\0\0\0\0\0\0\0\0\0\0\0\0\0\0\0\0\0\0\0\0\0\0\0\0\0\
    \x00\x00\x00\x01\x00\x01\x00\x01\x00\x06\x00\x00\x00\x00\
    A song of forty-four bytes, all of them used\x00\x01\x00\x00\
    \x00\x01\
    \x00\x20\x00\x00\x00\x02";

archive::tests_of_a_call! {
    call: RECORDS,
    typed: [(MODULE, SHOWN)],
    into null: interface::records_into_null,
    of null: interface::records_of_null,
    cut: [MODULE.to_vec(), file("old.dbm")],
    valid modules: 3_000,
    damaged modules: 6_000,
}

/// Many records of all kinds, compared only with the reference, since the queries would take long.
#[test]
fn many_records() {
    let most = Limits {
        songs: 300,
        entries: 200,
        instruments: 255,
        patterns: 1_024,
        rows: 3,
        row_entries: 2,
        samples: 255,
        frames: 40,
        envelopes: 200,
        others: 30,
        other_bytes: 50,
        ..Limits::SMALL
    };
    for_seeds(60, |random| {
        let module = module(random, &most).bytes();
        check(&module).expect("it is valid");
        RECORDS.compare(&module, random)
    });
}

/// Outputs of every length, for modules that have records of all kinds.
#[test]
fn every_room() {
    for name in ["carousel.dbm", "old.dbm"] {
        let module = file(name);
        for room in 0..=module.len() + 70 {
            RECORDS.into_room(&module, room).unwrap();
        }
    }
}

/// A module of each version, with each byte changed to every value.
#[test]
fn every_change_of_a_byte() {
    for version in [2, 3] {
        let mut module = file("old.dbm");
        module[4] = version;
        every_change(&module, all_values, |module, _| {
            RECORDS.into_room(module, 0)?;
            RECORDS.into_room(module, module.len() + 60)
        });
    }
}
