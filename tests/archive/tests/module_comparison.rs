//! Tests of the comparison of modules: it finds no difference between the reference and itself, and it detects each of these wrong checks.

use archive::compare::{self, Library, REFERENCE};
use archive::masks;
use interface::ModuleAnswer;
use reference::chunks::Chunks;
use reference::corpus::module_cases;
use reference::draft::{Chunk, Tune};

const ACCEPTED: ModuleAnswer = ModuleAnswer {
    number: 0,
    place: 0,
};

/// The number of modules of the corpus that differ.
fn differences(check_module: fn(&[u8]) -> ModuleAnswer) -> usize {
    let library = Library {
        check_module,
        ..REFERENCE
    };
    module_cases()
        .iter()
        .filter(|case| compare::case(library, case).is_err())
        .count()
}

fn right(module: &[u8]) -> ModuleAnswer {
    (REFERENCE.check_module)(module)
}

#[test]
fn nothing_between_the_reference_and_itself() {
    assert_eq!(differences(right), 0);
}

#[test]
fn a_check_that_accepts_everything() {
    assert!(differences(|_| ACCEPTED) > 300);
}

#[test]
fn a_check_that_refuses_everything() {
    let refused = |_: &[u8]| ModuleAnswer {
        number: 8,
        place: 0,
    };
    assert!(differences(refused) > 300);
}

/// Every number is covered: without it, replaced by its neighbour, and with another place.
#[test]
fn one_number_given_wrongly() {
    fn forgets<const NUMBER: u64>(module: &[u8]) -> ModuleAnswer {
        let answer = right(module);
        if answer.number == NUMBER {
            ACCEPTED
        } else {
            answer
        }
    }
    fn renumbers<const NUMBER: u64>(module: &[u8]) -> ModuleAnswer {
        let ModuleAnswer { number, place } = right(module);
        let number = if number == NUMBER { number + 1 } else { number };
        ModuleAnswer { number, place }
    }
    fn moves<const NUMBER: u64>(module: &[u8]) -> ModuleAnswer {
        let ModuleAnswer { number, place } = right(module);
        let place = if number == NUMBER { place ^ 2 } else { place };
        ModuleAnswer { number, place }
    }
    fn noticed<const NUMBER: u64>() {
        let wrong: [fn(&[u8]) -> ModuleAnswer; 3] =
            [forgets::<NUMBER>, renumbers::<NUMBER>, moves::<NUMBER>];
        for check_module in wrong {
            let differences = differences(check_module);
            assert!(differences >= 2, "number {NUMBER}: {differences}");
        }
    }
    noticed::<2>();
    noticed::<3>();
    noticed::<4>();
    noticed::<5>();
    noticed::<6>();
    noticed::<7>();
    noticed::<8>();
    noticed::<9>();
    noticed::<10>();
    noticed::<11>();
    noticed::<12>();
    noticed::<13>();
    noticed::<14>();
    noticed::<15>();
}

/// An accepted module has the place 0.
#[test]
fn a_place_without_a_refusal() {
    let check_module = |module: &[u8]| {
        let answer = right(module);
        let place = if answer == ACCEPTED { 4 } else { answer.place };
        ModuleAnswer { place, ..answer }
    };
    assert!(differences(check_module) > 50);
}

/// The message differs from that of a place which is only another one.
#[test]
fn a_place_past_the_end() {
    let library = Library {
        check_module: |module| ModuleAnswer {
            number: 8,
            place: module.len() as u64 + 1,
        },
        ..REFERENCE
    };
    let what = compare::module(library, b"DBM0\x03\x00\x00\x00").unwrap_err();
    assert!(what.contains("past the end"), "{what}");
}

#[test]
fn a_check_that_looks_at_no_block() {
    let check_module = |module: &[u8]| match Chunks::read(module) {
        Ok(_) => ACCEPTED,
        Err(_) => right(module),
    };
    assert!(differences(check_module) > 100);
}

/// The loop's start and length, at 38 and 42 of the instrument's block, added with 32 bits.
#[test]
fn a_check_that_adds_at_32_bits() {
    let check_module = |module: &[u8]| {
        let answer = right(module);
        let number = |offset| {
            let place = answer.place as usize + offset;
            let bytes = module[place..place + 4].try_into();
            u32::from_be_bytes(bytes.expect("four bytes were taken"))
        };
        if answer.number == 14 && number(38).checked_add(number(42)).is_none() {
            ACCEPTED
        } else {
            answer
        }
    };
    assert!(differences(check_module) >= 1);
}

/// The patterns are checked by a reader that refuses masks with bit 6 or 7, or counts these bits as fields. The right one shows no differences.
#[test]
fn another_rule_for_the_upper_bits_of_masks() {
    assert_eq!(differences(masks::check_module::<0, 63>), 0);
    for wrong in [
        masks::check_module::<0x40, 63>,
        masks::check_module::<0x80, 63>,
        masks::check_module::<0, 127>,
        masks::check_module::<0, 191>,
    ] {
        let found = differences(wrong);
        assert!(found >= 10, "{found}");
    }
}

/// The word after the revision is not examined.
#[test]
fn a_check_that_examines_the_reserved_word() {
    let check_module = |module: &[u8]| {
        let answer = right(module);
        if answer == ACCEPTED && module[6..8] != [0, 0] {
            return ModuleAnswer {
                number: 3,
                place: 4,
            };
        }
        answer
    };
    assert!(differences(check_module) >= 1);
}

/// A limit that is wrong by one byte is detected at exactly that length.
#[test]
fn another_limit() {
    let mut draft = Tune::default().draft();
    draft
        .chunks
        .push(Chunk::new(b"FILL", vec![0; 16_777_216 - 58 - 8]));
    let mut module = draft.bytes();
    let lower = Library {
        check_module: |module| match module.len() {
            16_777_216.. => ModuleAnswer {
                number: 1,
                place: 0,
            },
            _ => right(module),
        },
        ..REFERENCE
    };
    assert!(compare::module(lower, &module).is_err());
    let higher = Library {
        check_module: |module| match module.len() {
            16_777_217 => right(&module[..16_777_216]),
            _ => right(module),
        },
        ..REFERENCE
    };
    assert_eq!(compare::module(higher, &module), Ok(()));
    module.push(0);
    assert!(compare::module(higher, &module).is_err());
}
