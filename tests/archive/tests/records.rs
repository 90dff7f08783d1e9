//! The queries of libdbm0.a against the reference. DBM0_CASES is the number of random cases and DBM0_SEED the first seed. Modules of the
//! maximum length are in large_records.rs.

use archive::masks::{places_in_module, UPPER_BITS, UPPER_BITS_CELLS};
use archive::modules::{self, all_values, at_every_alignment, every_change, file};
use archive::queries::ARCHIVE;
use archive::records::all;
use archive::writing::writes;
use reference::generate::Random;
use reference::records;

/// The archive answers every query as the reference does.
fn agrees(module: &[u8], random: &mut Random) -> Result<(), String> {
    all(&ARCHIVE, module, random)
}

#[test]
fn the_corpus() {
    modules::corpus(agrees, 601);
}

#[test]
fn the_sample_files() {
    modules::sample_files(agrees);
}

#[test]
fn valid_modules() {
    modules::valid(agrees, 1_000, 2);
}

#[test]
fn damaged_modules() {
    modules::damaged_parts(agrees, 4_000, 2);
}

#[test]
fn damaged_bytes() {
    modules::damaged_bytes(agrees, 4_000, 2);
}

/// Every prefix of a module.
#[test]
fn every_cut() {
    let module = file("old.dbm");
    for length in 0..module.len() {
        agrees(&module[..length], &mut Random::new(length as u64)).unwrap();
    }
}

/// A module of each version, with each byte changed: the change is visible where it should be, and nowhere else.
#[test]
fn every_change_of_a_byte() {
    for version in [2, 3] {
        let mut module = file("old.dbm");
        module[4] = version;
        every_change(&module, |stored| [stored ^ 1, 0x80, 0xFF], agrees);
    }
}

/// Masks with bits 6 and 7: the cells, into outputs of every length, and the queries with each of the masks changed to every value.
#[test]
fn upper_bits_of_masks() {
    writes(&UPPER_BITS_CELLS, |output| {
        interface::cells(UPPER_BITS, 0, output.slice())
    });
    writes(&[0; 24], |output| {
        interface::cells(UPPER_BITS, 1, output.slice())
    });
    for place in places_in_module(UPPER_BITS) {
        for mask in all_values(0) {
            let mut module = UPPER_BITS.to_vec();
            module[place] = mask;
            agrees(&module, &mut Random::new(1)).unwrap();
        }
    }
}

#[test]
fn modules_at_every_alignment() {
    at_every_alignment(&file("old.dbm"), agrees);
}

#[test]
fn outputs_of_every_length_and_alignment() {
    let module = file("carousel.dbm");
    writes(&[0, 0, 0, 1, 0, 0, 0, 2], |output| {
        interface::playlist(&module, 0, output.slice())
    });
    // 6 rows of 4 tracks.
    let mut bytes = [0; 144];
    records::unpack(&module, 2, &mut bytes).expect("it is there");
    writes(&bytes, |output| {
        interface::cells(&module, 2, output.slice())
    });
    for (sample, frames) in [(1, 48), (2, 64), (3, 24)] {
        let mut bytes = vec![0; 2 * frames];
        records::all_frames(&module, sample, &mut bytes).expect("it is there");
        writes(&bytes, |output| {
            interface::all_frames(&module, sample as usize, output.slice())
        });
    }
}
