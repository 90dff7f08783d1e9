//! Tests of the comparison of two modules: it finds no difference between the reference and itself, and it detects each of these wrong
//! libraries.

use std::collections::{BTreeMap, BTreeSet};
use std::ops::Range;
use std::sync::OnceLock;

use archive::compare::GuardedOutput;
use archive::comparing;
use archive::comparing::{compared, list, reference, some_pairs, CompareAnswer};
use archive::masks;
use archive::writing::{answering, WritingAnswer};
use reference::blocks::{Envelope, Sample, POINTS};
use reference::compare::{
    differences, Difference, ENTRY_BYTES, INFO, INSTRUMENT, NAME, PANNING_ENVELOPE, PATTERN,
    SAMPLE, SONG, VOLUME_ENVELOPE,
};
use reference::generate::fields_named;
use reference::module::{check, read, Module};
use reference::pairs::Pair;
use reference::pattern::fields;

/// All kinds of records. Most modules have other ones.
const CAROUSEL: &[u8] = include_bytes!("../../../samples/carousel.dbm");

archive::tests_of_the_comparison!(comparing!(CAROUSEL));

/// Two modules, and the differences between them, or none if one is refused.
struct Known {
    first: Vec<u8>,
    second: Vec<u8>,
    found: Option<Vec<Difference>>,
}

/// The pairs of the tests, with the right answers.
fn pairs() -> &'static [Known] {
    static PAIRS: OnceLock<Vec<Known>> = OnceLock::new();
    PAIRS.get_or_init(|| {
        let known = |(first, second): Pair| {
            let found = differences(&first, &second).map(|found| found.into_iter().collect());
            Known {
                found: found.ok(),
                first,
                second,
            }
        };
        some_pairs().into_iter().map(known).collect()
    })
}

/// A library in place of the archive.
type Library<'a> = &'a dyn Fn(&[u8], &[u8], &mut GuardedOutput) -> CompareAnswer;

/// Whether a library is detected for a pair by comparison with the reference, and without it: 1 or 0 for both.
fn detected(known: &Known, library: Library) -> (usize, usize) {
    let second = &known.second;
    comparing!(second).differences_on(std::slice::from_ref(&known.first), &|first, output| {
        library(first, second, output)
    })
}

/// The library is detected for three pairs by comparison with the reference, and also without it.
#[track_caller]
fn notices(library: Library) {
    notices_in(pairs().iter(), library);
}

#[track_caller]
fn notices_in<'k>(pairs: impl Iterator<Item = &'k Known>, library: Library) {
    let (mut differ, mut alone) = (0, 0);
    for known in pairs {
        let found = detected(known, library);
        differ += found.0;
        alone += found.1;
        if differ >= 3 && alone >= 3 {
            return;
        }
    }
    panic!("only {differ} and {alone}");
}

/// The library is detected only by comparison with the reference, since it is wrong only for short outputs.
#[track_caller]
fn notices_beside_the_reference(library: Library) {
    let mut differ = 0;
    for (known, index) in pairs().iter().zip(1..) {
        let found = detected(known, library);
        differ += found.0;
        assert_eq!(found.1, 0);
        if differ >= 3 && index >= 20 {
            return;
        }
    }
    panic!("only {differ}");
}

#[test]
fn nothing_between_the_reference_and_itself_for_pairs() {
    for known in pairs().iter().step_by(3) {
        assert_eq!(detected(known, &reference), (0, 0));
        // The stand-ins below, with lists and with modules that are not changed.
        assert_eq!(detected(known, &changing(|_, _, _| {})), (0, 0));
        assert_eq!(detected(known, &ignoring(|_, _, _| {})), (0, 0));
    }
}

/// A library that writes this list.
fn writing(entries: &[Difference], output: &mut GuardedOutput) -> CompareAnswer {
    answering(compared(entries.len()), &list(entries), output)
}

/// A change of the list. It depends on the modules.
trait ListChange: Fn(&Module, &Module, &mut Vec<Difference>) {}

impl<F: Fn(&Module, &Module, &mut Vec<Difference>)> ListChange for F {}

/// A library that finds the right differences and then changes the list.
fn changing(change: impl ListChange) -> impl Fn(&[u8], &[u8], &mut GuardedOutput) -> CompareAnswer {
    move |first, second, output| match differences(first, second) {
        Ok(found) => {
            let found = found.into_iter().collect();
            writing(&changed_list(first, second, found, &change), output)
        }
        Err(_) => reference(first, second, output),
    }
}

/// The list of two accepted modules after a change.
fn changed_list(
    first: &[u8],
    second: &[u8],
    mut found: Vec<Difference>,
    change: impl ListChange,
) -> Vec<Difference> {
    let [first, second] = [first, second].map(|module| read(module).expect("it is accepted"));
    change(&first, &second, &mut found);
    found
}

/// The library that changes lists is detected. Pairs whose list it does not change are not tested.
#[track_caller]
fn notices_change(change: impl ListChange) {
    let wrong = |known: &&Known| {
        known.found.as_ref().is_some_and(|found| {
            changed_list(&known.first, &known.second, found.clone(), &change) != *found
        })
    };
    notices_in(pairs().iter().filter(wrong), &changing(&change));
}

/// The list is changed, whatever the modules are.
#[track_caller]
fn notices_list(change: impl Fn(&mut Vec<Difference>)) {
    notices_change(|_, _, entries| change(entries));
}

/// Each entry is changed.
#[track_caller]
fn notices_entries(change: impl Fn(&mut Difference)) {
    notices_list(|entries| entries.iter_mut().for_each(&change));
}

/// Each entry of a kind is changed.
#[track_caller]
fn notices_entries_of(kind: u16, change: impl Fn(&mut Difference)) {
    notices_entries(|entry| {
        if entry[0] == kind {
            change(entry);
        }
    });
}

/// The list is changed in a way that depends on the modules, and then sorted.
#[track_caller]
fn notices_found(change: impl ListChange) {
    notices_change(|first, second, entries| {
        change(first, second, entries);
        entries.sort_unstable();
    });
}

/// Copies bytes of the first module to a place of the second one.
trait Copying: Fn(&Module, &Module, &mut dyn FnMut(u64, &[u8])) {}

impl<F: Fn(&Module, &Module, &mut dyn FnMut(u64, &[u8]))> Copying for F {}

/// A library that copies some bytes of the first module into the second one, so that they do not count, and then compares. If that module is
/// not accepted, the right answer is given.
fn ignoring(copy: impl Copying) -> impl Fn(&[u8], &[u8], &mut GuardedOutput) -> CompareAnswer {
    move |first, second, output| match (read(first), read(second)) {
        (Ok(_), Ok(_)) => reference(first, &copied(first, second, &copy), output),
        _ => reference(first, second, output),
    }
}

/// The second of two accepted modules after bytes were copied, if it is still accepted.
fn copied(first: &[u8], second: &[u8], copy: impl Copying) -> Vec<u8> {
    let [one, other] = [first, second].map(|module| read(module).expect("it is accepted"));
    let mut changed = second.to_vec();
    copy(&one, &other, &mut |place, bytes| {
        let place = place as usize;
        changed[place..place + bytes.len()].copy_from_slice(bytes);
    });
    match check(&changed) {
        Ok(()) => changed,
        Err(_) => second.to_vec(),
    }
}

/// The library that ignores bytes is detected. Pairs whose second module it does not change are not tested.
#[track_caller]
fn notices_ignored(copy: impl Copying) {
    let wrong = |known: &&Known| {
        known.found.is_some() && copied(&known.first, &known.second, &copy) != known.second
    };
    notices_in(pairs().iter().filter(wrong), &ignoring(&copy));
}

/// The entry for a whole record.
fn whole(kind: u16, number: usize) -> Difference {
    [kind, number as u16, 0, 0, 0]
}

/// Whether an entry is about a field of a cell.
fn is_field(entry: &Difference) -> bool {
    entry[3] != 0
}

/// Nothing is ever found, everything is one difference, and each kind is left out or found alone.
#[test]
fn kinds_left_out() {
    notices_list(Vec::clear);
    notices(
        &|first, second, output| match (check(first), check(second)) {
            (Ok(()), Ok(())) if first == second => writing(&[], output),
            (Ok(()), Ok(())) => writing(&[[1, 0, 0, 0, 0]], output),
            _ => reference(first, second, output),
        },
    );
    for kind in 1..=8 {
        notices_list(|entries| entries.retain(|entry| entry[0] != kind));
        notices_list(|entries| entries.retain(|entry| entry[0] == kind));
    }
    for number in 0..5 {
        notices_list(|entries| entries.retain(|entry| entry[..2] != [INFO, number]));
    }
}

/// The first or the last entry is left out, or is written twice. Another entry follows or is first.
#[test]
fn one_entry_less_or_more() {
    notices_list(|entries| entries.truncate(entries.len().saturating_sub(1)));
    notices_list(|entries| entries.truncate(1));
    notices_list(|entries| drop(entries.drain(..entries.len().min(1))));
    notices_list(|entries| entries.extend(entries.last().copied()));
    notices_list(|entries| {
        if let Some(first) = entries.first().copied() {
            entries.insert(0, first);
        }
    });
    notices_list(|entries| entries.push([9, 0, 0, 0, 0]));
    notices_list(|entries| entries.insert(0, [0; 5]));
    notices_list(|entries| {
        if !entries.is_empty() {
            entries.insert(0, [NAME, 0, 0, 0, 0]);
            entries.dedup();
        }
    });
}

/// Descending; by number before kind; songs, instruments, patterns, samples and envelopes, as all records of a module are written.
#[test]
fn other_orders() {
    notices_list(|entries| entries.reverse());
    notices_list(|entries| entries.sort_by_key(|entry| (entry[1], entry[0])));
    notices_list(|entries| {
        let order = [NAME, INFO, SONG, INSTRUMENT, PATTERN, SAMPLE];
        let rank = |kind: u16| order.iter().position(|other| *other == kind);
        entries.sort_by_key(|entry| rank(entry[0]).unwrap_or(order.len()));
    });
    // Panning envelopes first; samples before envelopes.
    notices_list(|entries| {
        entries.sort_by_key(|entry| match entry[0] {
            VOLUME_ENVELOPE => 2 * PANNING_ENVELOPE + 1,
            kind => 2 * kind,
        });
    });
    notices_list(|entries| {
        entries.sort_by_key(|entry| match entry[0] {
            SAMPLE => 2 * VOLUME_ENVELOPE - 1,
            kind => 2 * kind,
        });
    });
    // Tracks before rows, fields before tracks, fields first.
    notices_list(|entries| {
        entries.sort_by_key(|&[a, b, row, track, field]| (a, b, track, row, field))
    });
    notices_list(|entries| {
        entries.sort_by_key(|&[a, b, row, track, field]| (a, b, row, field, track))
    });
    notices_list(|entries| {
        entries.sort_by_key(|&[a, b, row, track, field]| (a, b, field, row, track))
    });
    // Whole patterns after those whose fields differ.
    notices_list(|entries| entries.sort_by_key(|entry| (entry[0], is_field(entry))));
    notices_list(|entries| entries.sort_by_key(|entry| (entry[0], !is_field(entry))));
}

/// Numbers that begin with 0 instead of 1, or with 1 instead of 0, and other kinds.
#[test]
fn other_numbers() {
    for kind in [INSTRUMENT, SAMPLE] {
        notices_entries_of(kind, |entry| entry[1] -= 1);
    }
    for kind in [NAME, INFO, SONG, VOLUME_ENVELOPE, PANNING_ENVELOPE, PATTERN] {
        notices_entries_of(kind, |entry| entry[1] += 1);
    }
    notices_entries(|entry| entry[2] += u16::from(is_field(entry)));
    notices_entries(|entry| entry[3] = entry[3].saturating_sub(1));
    notices_entries(|entry| entry[4] = entry[4].saturating_sub(1));
    // The number of the mask's bit.
    notices_entries(|entry| {
        entry[4] = if is_field(entry) {
            1 << (entry[4] - 1)
        } else {
            0
        }
    });
    for kind in 1..=8 {
        notices_entries_of(kind, |entry| entry[0] += 8);
        notices_entries_of(kind, |entry| entry[0] -= 1);
    }
    let swapped = |one: u16, other: u16| {
        notices_entries(|entry| {
            if entry[0] == one || entry[0] == other {
                entry[0] = one + other - entry[0];
            }
        });
    };
    swapped(VOLUME_ENVELOPE, PANNING_ENVELOPE);
    swapped(SAMPLE, PATTERN);
    swapped(SONG, INSTRUMENT);
    // INFO in another order.
    for (one, other) in [(0, 1), (1, 2), (2, 3), (3, 4)] {
        notices_entries_of(INFO, |entry| {
            if entry[1] == one || entry[1] == other {
                entry[1] = one + other - entry[1];
            }
        });
    }
}

/// Numbers of one byte, and numbers that are not big-endian.
#[test]
fn other_bytes() {
    notices_list(|entries| {
        for entry in entries.iter_mut() {
            entry[1] %= 256;
        }
    });
    notices_entries(|entry| entry[2] %= 256);
    notices_entries(|entry| *entry = entry.map(u16::swap_bytes));
    for index in 0..5 {
        notices_entries(|entry| entry[index] = entry[index].swap_bytes());
    }
    // The last three numbers of an entry for a whole record.
    for index in 2..5 {
        notices_entries(|entry| entry[index] = entry[index].max(1));
    }
}

/// The number of entries: one more, one less, 0, the number of bytes; and not 0 on a refusal.
#[test]
fn another_count() {
    let counting = |count: fn(u64) -> u64| {
        move |first: &[u8], second: &[u8], output: &mut GuardedOutput| {
            let mut answer = reference(first, second, output);
            if answer.number == 0 {
                answer.record.entries = count(answer.record.entries);
            }
            answer
        }
    };
    notices(&counting(|entries| entries + 1));
    notices(&counting(|entries| entries.saturating_sub(1)));
    notices(&counting(|_| 0));
    notices(&counting(|entries| 10 * entries));
    notices(&|first, second, output| {
        let mut answer = reference(first, second, output);
        answer.record.entries += u64::from(answer.number != 0);
        answer
    });
    notices_beside_the_reference(&|first, second, output| {
        let mut answer = reference(first, second, output);
        if answer.number == 17 {
            answer.record.entries = answer.place / 10;
        }
        answer
    });
}

/// The place of 17 is the number of entries, one entry less, one byte more, or the number of entries that fit.
#[test]
fn another_place_of_17() {
    let placing = |place: fn(u64, u64) -> u64| {
        move |first: &[u8], second: &[u8], output: &mut GuardedOutput| {
            let mut answer = reference(first, second, output);
            if answer.number == 17 {
                answer.place = place(answer.place, output.slice().len() as u64);
            }
            answer
        }
    };
    notices_beside_the_reference(&placing(|needed, _| needed / 10));
    notices_beside_the_reference(&placing(|needed, _| needed - 10));
    notices_beside_the_reference(&placing(|needed, _| needed + 1));
    notices_beside_the_reference(&placing(|needed, room| needed - room / 10 * 10));
    notices_beside_the_reference(&placing(|_, _| 0));
}

/// No 17 with an output that is one byte, or up to nine bytes, too short; 17 with an output that is exactly long enough; 17 for an empty list.
#[test]
fn another_needed_length_for_a_list() {
    for lacking in [1, 9] {
        notices_beside_the_reference(&|first, second, output| {
            let needed = reference(first, second, &mut GuardedOutput::new(0));
            let room = output.slice().len() as u64;
            match needed.number == 17 && room < needed.place && room + lacking >= needed.place {
                true => compared(needed.place as usize / ENTRY_BYTES),
                false => reference(first, second, output),
            }
        });
    }
    notices_beside_the_reference(&|first, second, output| {
        let answer = reference(first, second, &mut GuardedOutput::new(output.slice().len()));
        let length = answer.answer().length;
        match answer.number == 0 && length > 0 && length == output.slice().len() as u64 {
            true => CompareAnswer::refused(17, length as usize),
            false => reference(first, second, output),
        }
    });
    notices_beside_the_reference(&|first, second, output| {
        let answer = reference(first, second, output);
        match answer.number == 0 && output.slice().is_empty() {
            true => CompareAnswer::refused(17, 0),
            false => answer,
        }
    });
}

/// As many entries as fit are written although the answer is 17; the list is written although the second module is refused.
#[test]
fn writing_before_a_refusal() {
    notices_beside_the_reference(&|first, second, output| {
        let answer = reference(first, second, output);
        if answer.number == 17 {
            let found = differences(first, second).expect("both are accepted");
            let entries: Vec<Difference> = found.into_iter().collect();
            let fits = output.slice().len() / ENTRY_BYTES * ENTRY_BYTES;
            output.slice()[..fits].copy_from_slice(&list(&entries)[..fits]);
        }
        answer
    });
    notices(&|first, second, output| {
        let answer = reference(first, second, output);
        if check(first).is_ok() && check(second).is_err() {
            let same = output.slice().len().min(ENTRY_BYTES);
            output.slice()[..same].fill(0);
        }
        answer
    });
}

/// The second module's refusal before the first one's; one of them not at all; 17 before one of them; the place of the second after the first.
#[test]
fn other_refusals() {
    notices(&|first, second, output| reference(second, first, output));
    notices(
        &|first, second, output| match (check(first), check(second)) {
            (Err(_), Ok(())) => writing(&[], output),
            _ => reference(first, second, output),
        },
    );
    notices(
        &|first, second, output| match (check(first), check(second)) {
            (Ok(()), Err(_)) => writing(&[], output),
            _ => reference(first, second, output),
        },
    );
    // The smaller of the two numbers.
    notices(&|first, second, output| {
        let [one, other] = [check(first), check(second)].map(Result::err);
        match (one, other) {
            (Some(one), Some(other)) if other.number < one.number => {
                CompareAnswer::refused(other.number, other.place as usize)
            }
            _ => reference(first, second, output),
        }
    });
    notices(&|first, second, output| {
        let mut answer = reference(first, second, output);
        if check(first).is_ok() && check(second).is_err() {
            answer.place += first.len() as u64;
        }
        answer
    });
    for of_first in [false, true] {
        notices_beside_the_reference(&|first, second, output| {
            let refused = match of_first {
                true => check(first).is_err(),
                false => check(first).is_ok() && check(second).is_err(),
            };
            match refused && output.slice().len() < ENTRY_BYTES {
                true => CompareAnswer::refused(17, ENTRY_BYTES),
                false => reference(first, second, output),
            }
        });
    }
}

/// Only as many records as the module with fewer has, for each kind; and no INFO entry if the counts differ, or nothing but it.
#[test]
fn records_of_one_module() {
    let counts = |module: &Module| {
        [
            (SONG, module.songs.len()),
            (INSTRUMENT, module.instruments.len() + 1),
            (VOLUME_ENVELOPE, module.volume_envelopes.len()),
            (PANNING_ENVELOPE, module.panning_envelopes.len()),
            (SAMPLE, module.samples.len() + 1),
            (PATTERN, module.patterns.len()),
        ]
    };
    for index in 0..6 {
        let (kind, _) = counts(&read(CAROUSEL).expect("it is accepted"))[index];
        // Not those of the first module only, not those of the second only, and neither.
        for (of_first, of_second) in [(true, false), (false, true), (true, true)] {
            notices_found(|first, second, entries| {
                let [one, other] = [first, second].map(|module| counts(module)[index].1);
                let least = match (of_first && one > other, of_second && other > one) {
                    (false, false) => usize::MAX,
                    _ => one.min(other),
                };
                entries.retain(|entry| entry[0] != kind || usize::from(entry[1]) < least);
            });
        }
        // Only the first of them.
        notices_found(|first, second, entries| {
            let [one, other] = [first, second].map(|module| counts(module)[index].1);
            let least = one.min(other);
            entries.retain(|entry| entry[0] != kind || usize::from(entry[1]) <= least);
        });
    }
    notices_found(|first, second, entries| {
        for number in 0..4 {
            let [one, other] = [first, second].map(|module| {
                let info = module.info;
                [info.instruments, info.samples, info.songs, info.patterns][number]
            });
            if one != other {
                entries.retain(|entry| *entry != whole(INFO, number));
            }
        }
    });
    // The numbers of envelopes, as if they were in INFO.
    notices_found(|first, second, entries| {
        if first.volume_envelopes.len() != second.volume_envelopes.len() {
            entries.push(whole(INFO, 5));
        }
    });
}

/// Some bytes of the blocks of instruments are not compared.
#[test]
fn fields_of_instruments() {
    for bytes in [
        0..29,
        0..1,
        29..30,
        30..32,
        32..34,
        34..38,
        34..36,
        38..42,
        42..46,
        46..48,
        48..50,
    ] {
        notices_ignored(|first, second, copy| {
            for (one, other) in first.instruments.iter().zip(&second.instruments) {
                let block = instrument_block(one);
                copy(other.place + bytes.start as u64, &block[bytes.clone()]);
            }
        });
    }
    // Only instruments that are looped have a loop.
    notices_found(|first, second, entries| {
        let both = first.instruments.iter().zip(&second.instruments);
        for ((one, other), number) in both.zip(1..) {
            let [mut some, mut others] = [one, other].map(instrument_block);
            for (block, instrument) in [(&mut some, one), (&mut others, other)] {
                if !instrument.is_looped() {
                    block[38..46].fill(0);
                    block[48..].fill(0);
                }
            }
            if some == others {
                entries.retain(|entry| *entry != whole(INSTRUMENT, number));
            }
        }
    });
    // The panning is scaled in version 2.
    notices_found(|first, second, entries| {
        if first.header.version != second.header.version {
            let both = first.instruments.iter().zip(&second.instruments);
            for ((one, other), number) in both.zip(1..) {
                let entry = whole(INSTRUMENT, number);
                if one.panning.value == other.panning.value && !entries.contains(&entry) {
                    entries.push(entry);
                }
            }
        }
    });
}

/// The bytes of an instrument's block, from its fields.
fn instrument_block(instrument: &reference::blocks::Instrument) -> Vec<u8> {
    let number = |value: u64, bytes: usize| value.to_be_bytes()[8 - bytes..].to_vec();
    let block = [
        instrument.name.to_vec(),
        number(instrument.sample.value, 2),
        number(instrument.volume.value, 2),
        number(instrument.rate.value, 4),
        number(instrument.loop_start.value, 4),
        number(instrument.loop_length.value, 4),
        number(instrument.panning.value, 2),
        number(instrument.flags.value, 2),
    ];
    block.concat()
}

/// The name of a song, the length of its playlist, its entries, or some of these, are not compared.
#[test]
fn fields_of_songs() {
    for bytes in [0..44, 0..1, 30..44, 43..44] {
        notices_ignored(|first, second, copy| {
            for (one, other) in first.songs.iter().zip(&second.songs) {
                copy(other.place + bytes.start as u64, &one.name[bytes.clone()]);
            }
        });
    }
    let playlists = |same: fn(&[u8], &[u8]) -> bool| {
        notices_found(|first, second, entries| {
            let both = first.songs.iter().zip(&second.songs);
            for ((one, other), number) in both.zip(0..) {
                let lists = same(one.playlist.bytes, other.playlist.bytes);
                if one.name == other.name && lists {
                    entries.retain(|entry| *entry != whole(SONG, number));
                }
            }
        });
    };
    playlists(|_, _| true);
    playlists(|one, other| one.len() == other.len());
    playlists(|one, other| one.iter().zip(other).all(|(one, other)| one == other));
    playlists(|one, other| one.get(..2) == other.get(..2) && one.len() == other.len());
    playlists(|one, other| {
        let sorted = |list: &[u8]| {
            let mut list: Vec<_> = list.chunks(2).map(<[u8]>::to_vec).collect();
            list.sort_unstable();
            list
        };
        sorted(one) == sorted(other)
    });
    notices_found(|first, second, entries| {
        for (name, number) in first.songs.iter().zip(&second.songs).zip(0..) {
            let (one, other) = name;
            if one.name != other.name && one.playlist.bytes == other.playlist.bytes {
                entries.retain(|entry| *entry != whole(SONG, number));
            }
        }
    });
}

/// The envelopes of both modules with their kind, the number of each, and whether their values are scaled.
fn envelopes<'m, 'a>(
    first: &'m Module<'a>,
    second: &'m Module<'a>,
) -> Vec<(Difference, &'m Envelope<'a>, &'m Envelope<'a>)> {
    let kinds = [
        (
            VOLUME_ENVELOPE,
            &first.volume_envelopes,
            &second.volume_envelopes,
        ),
        (
            PANNING_ENVELOPE,
            &first.panning_envelopes,
            &second.panning_envelopes,
        ),
    ];
    let of = |(kind, some, others): (u16, &'m Vec<Envelope<'a>>, &'m Vec<Envelope<'a>>)| {
        let both = some.iter().zip(others).zip(0..);
        both.map(move |((one, other), number)| (whole(kind, number), one, other))
    };
    kinds.into_iter().flat_map(of).collect()
}

/// The first eight bytes of an envelope's block, from its fields.
fn envelope_head(envelope: &Envelope) -> [u8; 8] {
    let [high, low] = (envelope.instrument.value as u16).to_be_bytes();
    let rest = [
        envelope.flags,
        envelope.sections,
        envelope.first_sustain,
        envelope.loop_first,
        envelope.loop_last,
        envelope.second_sustain,
    ];
    let [flags, sections, first, start, end, second] = rest.map(|field| field.value as u8);
    [high, low, flags, sections, first, start, end, second]
}

/// The points in use of an envelope.
fn in_use(envelope: &Envelope) -> Range<usize> {
    0..envelope.sections.value as usize + 1
}

/// Some bytes of an envelope are not compared: its fields, the positions, the values, the first point, the last one in use.
#[test]
fn fields_of_envelopes() {
    for kind in [VOLUME_ENVELOPE, PANNING_ENVELOPE] {
        for bytes in [0..2, 2..3, 3..4, 4..5, 5..6, 6..7, 7..8, 0..8] {
            notices_ignored(|first, second, copy| {
                for (entry, one, other) in envelopes(first, second) {
                    if entry[0] == kind {
                        let head = envelope_head(one);
                        copy(other.place + bytes.start as u64, &head[bytes.clone()]);
                    }
                }
            });
        }
        let points = |copied: fn(Range<usize>) -> Range<usize>, bytes: Range<usize>| {
            notices_ignored(|first, second, copy| {
                for (entry, one, other) in envelopes(first, second) {
                    let same_version = first.header.version == second.header.version;
                    if entry[0] != kind || !(same_version || kind == VOLUME_ENVELOPE) {
                        continue;
                    }
                    for point in copied(in_use(other)) {
                        let place = 4 * point + bytes.start;
                        let stored = &one.points.bytes[place..place + bytes.len()];
                        copy(other.points.place + place as u64, stored);
                    }
                }
            });
        };
        points(|points| points, 0..2);
        points(|points| points, 2..4);
        points(|points| points.start..1, 0..4);
        points(|points| points.end - 1..points.end, 0..4);
        points(|points| 1..points.end, 0..4);
    }
    // Fields that have no effect: each of them counts only if its flag is set.
    notices_found(|first, second, entries| {
        for (entry, one, other) in envelopes(first, second) {
            let [some, others] = [one, other].map(|envelope| {
                let mut head = envelope_head(envelope);
                for (byte, bit) in [(4, 1), (5, 2), (6, 2), (7, 3)] {
                    head[byte] *= u8::from(envelope.has(bit));
                }
                head
            });
            let differ = envelope_head(one) != envelope_head(other);
            if differ && some == others {
                entries.retain(|other| *other != entry);
            }
        }
    });
}

/// Points that are not in use are compared.
#[test]
fn unused_points() {
    for kind in [VOLUME_ENVELOPE, PANNING_ENVELOPE] {
        notices_found(|first, second, entries| {
            for (entry, one, other) in envelopes(first, second) {
                let from = 4 * in_use(one).end.max(in_use(other).end);
                let [some, others] = [one, other].map(|envelope| &envelope.points.bytes[from..]);
                if entry[0] == kind && some != others && !entries.contains(&entry) {
                    entries.push(entry);
                }
            }
        });
        // Only the one after those in use, or only the last of all.
        for last in [false, true] {
            notices_found(|first, second, entries| {
                for (entry, one, other) in envelopes(first, second) {
                    let unused = in_use(one).end.max(in_use(other).end);
                    let at = match last {
                        true => POINTS as usize - 1,
                        false => unused,
                    };
                    let [some, others] =
                        [one, other].map(|it| it.points.bytes.get(4 * at..4 * at + 4));
                    let counts = at >= unused && entry[0] == kind && some != others;
                    if counts && !entries.contains(&entry) {
                        entries.push(entry);
                    }
                }
            });
        }
    }
}

/// Version 2 is compared as stored; only if both versions are 2; its values are scaled without the 128, or by another number; volume is scaled
/// too.
#[test]
fn other_versions() {
    let as_version_3 = |module: &[u8]| {
        let mut module = module.to_vec();
        module[4] = 3;
        module
    };
    let as_stored = |first: &[u8], second: &[u8], output: &mut GuardedOutput| match (
        check(first),
        check(second),
    ) {
        (Ok(()), Ok(())) => reference(&as_version_3(first), &as_version_3(second), output),
        _ => reference(first, second, output),
    };
    notices(&as_stored);
    let scaled = |scale: fn(u16, u8, i64) -> i64| {
        notices_found(|first, second, entries| {
            for (entry, one, other) in envelopes(first, second) {
                let [some, others] = [(one, first), (other, second)].map(|(envelope, module)| {
                    let shown =
                        |(position, value): (reference::part::Field, reference::part::Field)| {
                            let version = module.header.version;
                            (position.value, scale(entry[0], version, value.signed()))
                        };
                    let points: Vec<(u64, i64)> = envelope.points_in_use().map(shown).collect();
                    (envelope_head(envelope), points)
                });
                entries.retain(|other| *other != entry);
                if some != others {
                    entries.push(entry);
                }
            }
        });
    };
    scaled(|kind, version, value| match (kind, version) {
        (PANNING_ENVELOPE, 2) => 4 * value,
        _ => value,
    });
    scaled(|kind, version, value| match (kind, version) {
        (PANNING_ENVELOPE, 2) => value - 32,
        _ => value,
    });
    scaled(|kind, version, value| match (kind, version) {
        (PANNING_ENVELOPE, 2) => (4 * value - 128).clamp(-128, 127),
        _ => value,
    });
    scaled(|_, version, value| match version {
        2 => 4 * value - 128,
        _ => value,
    });
    // Both at the scale of version 2: the last two bits are lost.
    scaled(|kind, version, value| match (kind, version) {
        (PANNING_ENVELOPE, 3) => (value + 128) / 4,
        _ => value,
    });
}

/// What is not compared, compared: version, revision, reserved word, other chunks, the order of chunks, packing, fillers, and chunks that are
/// missing.
#[test]
fn too_much_is_compared() {
    notices_found(|first, second, entries| {
        if first.header.version != second.header.version {
            entries.push(whole(INFO, 5));
        }
    });
    notices_found(|first, second, entries| {
        if first.header.revision != second.header.revision {
            entries.push(whole(INFO, 5));
        }
    });
    notices(&|first, second, output| match differences(first, second) {
        Ok(found) if first[6..8] != second[6..8] => {
            let mut entries: Vec<Difference> = found.into_iter().collect();
            entries.push([9, 0, 0, 0, 0]);
            writing(&entries, output)
        }
        _ => reference(first, second, output),
    });
    let names = |module: &Module, covered: bool| -> Vec<[u8; 4]> {
        let all = module.chunks.iter().map(|chunk| chunk.name);
        let kept = |name: &[u8; 4]| reference::chunks::COVERED.contains(name) == covered;
        all.filter(kept).collect()
    };
    for covered in [true, false] {
        notices_found(|first, second, entries| {
            if names(first, covered) != names(second, covered) {
                entries.push([9, 0, 0, 0, 0]);
            }
        });
    }
    notices_found(|first, second, entries| {
        if first.name.is_some() != second.name.is_some() && !entries.contains(&whole(NAME, 0)) {
            entries.push(whole(NAME, 0));
        }
    });
    for chunk in [b"VENV", b"PENV"] {
        notices_found(|first, second, entries| {
            let there = |module: &Module| names(module, true).contains(chunk);
            if there(first) != there(second) {
                entries.push([9, 0, 0, 0, 0]);
            }
        });
    }
    notices_found(|first, second, entries| {
        let both = first.patterns.iter().zip(&second.patterns);
        for ((one, other), number) in both.zip(0..) {
            let listed = entries.iter().any(|entry| entry[..2] == [PATTERN, number]);
            if one.stream != other.stream && !listed {
                entries.push(whole(PATTERN, number.into()));
            }
        }
    });
    notices(&|first, second, output| {
        let Ok(found) = differences(first, second) else {
            return reference(first, second, output);
        };
        let mut entries: Vec<Difference> = found.into_iter().collect();
        let fillers = |bytes: &[u8]| -> Vec<u8> {
            let module = read(bytes).expect("it is accepted");
            let odd = module.patterns.iter().filter(|it| it.stream.len() % 2 == 1);
            odd.map(|it| bytes[it.place as usize + 6 + it.stream.len()])
                .collect()
        };
        if fillers(first) != fillers(second) {
            entries.push([9, 0, 0, 0, 0]);
        }
        writing(&entries, output)
    });
}

/// The samples of both modules, and their entry.
fn samples<'m, 'a>(
    first: &'m Module<'a>,
    second: &'m Module<'a>,
) -> impl Iterator<Item = (Difference, &'m Sample<'a>, &'m Sample<'a>)> {
    let both = first.samples.iter().zip(&second.samples).zip(1..);
    both.map(|((one, other), number)| (whole(SAMPLE, number), one, other))
}

/// Samples that are the same for this test are not listed.
#[track_caller]
fn notices_samples(same: impl Fn(&Sample, &Sample) -> bool) {
    notices_found(|first, second, entries| {
        for (entry, one, other) in samples(first, second) {
            if same(one, other) {
                entries.retain(|other| *other != entry);
            }
        }
    });
}

/// The frames of a sample at 16 bits.
fn at_16_bits(sample: &Sample) -> Vec<i32> {
    let frames = sample.data.bytes.chunks(sample.frame_bytes as usize);
    frames
        .map(|frame| match *frame {
            [a] => i32::from(i16::from_be_bytes([a, 0])),
            [a, b, ..] => i32::from(i16::from_be_bytes([a, b])),
            [] => unreachable!("a frame has at least one byte"),
        })
        .collect()
}

/// The width is not compared, or only if there are frames; frames are compared at 16 bits; the first, the last or all frames are not compared;
/// only the shorter of two samples is compared; the number of frames is the number of bytes.
#[test]
fn fields_of_samples() {
    notices_samples(|one, other| one.data.bytes == other.data.bytes);
    notices_samples(|one, other| one.frames == 0 && other.frames == 0);
    notices_samples(|one, other| at_16_bits(one) == at_16_bits(other));
    let same_shape = |one: &Sample, other: &Sample| {
        one.frame_bytes == other.frame_bytes && one.frames == other.frames
    };
    notices_samples(same_shape);
    notices_samples(|one, other| {
        let without = |sample: &Sample, at: usize| {
            let mut bytes = sample.data.bytes.to_vec();
            if at < bytes.len() {
                bytes.remove(at);
            }
            bytes
        };
        let last = one.data.bytes.len().saturating_sub(1);
        same_shape(one, other) && without(one, last) == without(other, last)
    });
    notices_samples(|one, other| {
        let rest = |sample: &Sample| sample.data.bytes.get(1..).map(<[u8]>::to_vec);
        same_shape(one, other) && rest(one) == rest(other)
    });
    notices_samples(|one, other| {
        let mut bytes = one.data.bytes.iter().zip(other.data.bytes);
        one.frame_bytes == other.frame_bytes && bytes.all(|(one, other)| one == other)
    });
    notices_samples(|one, other| {
        let [one, other] = [one, other].map(|sample| sample.data.bytes);
        one.len() == other.len() && one == other
    });
    notices_samples(|one, other| one.frames == other.frames);
    // The values without regard to the width: 8-bit 1 is 16-bit 1.
    notices_samples(|one, other| {
        let values = |sample: &Sample| -> Vec<i64> {
            let frames = sample.data.bytes.chunks(sample.frame_bytes as usize);
            frames
                .map(|frame| {
                    let value = frame
                        .iter()
                        .fold(0, |value, &byte| value * 256 + i64::from(byte));
                    value
                        - if frame[0] >= 0x80 {
                            1 << (8 * frame.len())
                        } else {
                            0
                        }
                })
                .collect()
        };
        values(one) == values(other)
    });
}

/// One entry for each cell, for each row, or for each pattern, instead of one for each field.
#[test]
fn entries_for_more_than_a_field() {
    let joined = |join: fn(&mut Difference)| {
        notices_list(|entries| {
            for entry in entries.iter_mut().filter(|entry| is_field(entry)) {
                join(entry);
            }
            entries.dedup();
        });
    };
    joined(|entry| entry[4] = 0);
    joined(|entry| entry[4] = 1);
    joined(|entry| (entry[3], entry[4]) = (0, 0));
    joined(|entry| (entry[2], entry[3], entry[4]) = (0, 0, 0));
    // The first field of each cell only, the first cell of each row, the first field of each pattern.
    for kept in [4, 3, 2] {
        notices_list(|entries| entries.dedup_by_key(|entry| entry[..kept].to_vec()));
    }
    // An entry for the pattern beside those for its fields.
    notices_list(|entries| {
        let patterns: BTreeSet<Difference> = entries
            .iter()
            .filter(|entry| is_field(entry))
            .map(|entry| whole(PATTERN, entry[1].into()))
            .collect();
        entries.extend(patterns);
        entries.sort_unstable();
    });
}

/// Some fields, rows and tracks are not compared.
#[test]
fn fields_of_cells() {
    for field in 1..=6 {
        notices_list(|entries| entries.retain(|entry| entry[4] != field));
    }
    notices_list(|entries| entries.retain(|entry| !is_field(entry) || entry[2] != 0));
    notices_list(|entries| entries.retain(|entry| entry[3] != 1));
    notices_found(|first, _, entries| {
        let tracks = first.info.tracks;
        entries.retain(|entry| u64::from(entry[3]) != tracks);
    });
    notices_found(|first, _, entries| {
        entries.retain(|entry| {
            let rows = first.patterns.get(usize::from(entry[1])).map(|it| it.rows);
            !is_field(entry) || rows != Some(u64::from(entry[2]) + 1)
        });
    });
    // Only fields that are not 0 in the first module, in the second, or in both.
    for (of_first, of_second) in [(true, false), (false, true), (true, true)] {
        notices_found(|first, second, entries| {
            entries.retain(|&[_, number, row, track, field]| {
                let there = |module: &Module| {
                    let pattern = &module.patterns[usize::from(number)];
                    let fields = fields(pattern.stream, pattern.rows, module.info.tracks);
                    fields
                        .expect("it is accepted")
                        .contains_key(&(row, track, field))
                };
                track == 0 || (!of_first || there(first)) && (!of_second || there(second))
            });
        });
    }
}

/// The fields that differ in patterns of any rows and tracks.
fn unequal(first: &Module, second: &Module, number: usize) -> Vec<Difference> {
    let [one, other] = [first, second].map(|module| match module.patterns.get(number) {
        Some(it) => fields(it.stream, it.rows, module.info.tracks).expect("it is accepted"),
        None => Default::default(),
    });
    let places: BTreeSet<(u16, u16, u16)> = one.keys().chain(other.keys()).copied().collect();
    let differ = |place: &(u16, u16, u16)| one.get(place) != other.get(place);
    let entry = |(row, track, field)| [PATTERN, number as u16, row, track, field];
    places.into_iter().filter(differ).map(entry).collect()
}

/// How the shapes of a pattern differ.
#[derive(Clone, Copy, PartialEq)]
enum Shapes {
    OtherRows,
    OtherTracks,
    InOneOnly,
}

fn shapes(first: &Module, second: &Module, number: usize) -> Option<Shapes> {
    match (first.patterns.get(number), second.patterns.get(number)) {
        (Some(_), Some(_)) if first.info.tracks != second.info.tracks => Some(Shapes::OtherTracks),
        (Some(one), Some(other)) if one.rows != other.rows => Some(Shapes::OtherRows),
        (Some(_), Some(_)) | (None, None) => None,
        _ => Some(Shapes::InOneOnly),
    }
}

/// Patterns of unequal rows or tracks, and those in one module only: they are compared field by field, up to the smaller shape or all of it, or
/// not at all; or those without rows are not listed.
#[test]
fn patterns_of_other_shapes() {
    for shape in [Shapes::OtherRows, Shapes::OtherTracks, Shapes::InOneOnly] {
        let replacing = |by: fn(&Module, &Module, usize) -> Vec<Difference>| {
            notices_found(|first, second, entries| {
                for number in 0..first.patterns.len().max(second.patterns.len()) {
                    if shapes(first, second, number) == Some(shape) {
                        entries.retain(|entry| entry[..2] != [PATTERN, number as u16]);
                        entries.extend(by(first, second, number));
                    }
                }
            });
        };
        replacing(|_, _, _| vec![]);
        replacing(unequal);
        replacing(|first, second, number| {
            let rows = |module: &Module| module.patterns.get(number).map_or(0, |it| it.rows);
            let least = rows(first).min(rows(second));
            let tracks = first.info.tracks.min(second.info.tracks);
            let mut entries = unequal(first, second, number);
            entries.retain(|entry| u64::from(entry[2]) < least && u64::from(entry[3]) <= tracks);
            entries
        });
        // The entry for the pattern, and those for its fields.
        replacing(|first, second, number| {
            [vec![whole(PATTERN, number)], unequal(first, second, number)].concat()
        });
        // No entry if neither has a cell, or if no field differs.
        replacing(|first, second, number| {
            let rows = |module: &Module| module.patterns.get(number).map_or(0, |it| it.rows);
            match rows(first) + rows(second) == 0 && shapes(first, second, number).is_some() {
                true => vec![],
                false => match unequal(first, second, number).is_empty() {
                    true => vec![],
                    false => vec![whole(PATTERN, number)],
                },
            }
        });
    }
    // Without rows the tracks are not compared.
    notices_found(|first, second, entries| {
        entries.retain(|entry| {
            let number = usize::from(entry[1]);
            let both = (first.patterns.get(number), second.patterns.get(number));
            let empty = matches!(both, (Some(one), Some(other)) if one.rows + other.rows == 0);
            entry[0] != PATTERN || !empty
        });
    });
    // The same number of cells is the same shape.
    notices_found(|first, second, entries| {
        entries.retain(|entry| {
            let number = usize::from(entry[1]);
            let cells = |module: &Module| {
                let pattern = module.patterns.get(number);
                pattern.map(|it| it.rows * module.info.tracks)
            };
            entry[0] != PATTERN || is_field(entry) || cells(first) != cells(second)
        });
    });
}

/// Each cell also has bits 6 and 7 of its last mask, and a difference of them is listed as one of its last field. Modules that have them are
/// refused.
#[test]
fn upper_bits_of_masks() {
    notices_found(|first, second, entries| {
        for number in 0..first.patterns.len().min(second.patterns.len()) {
            if shapes(first, second, number).is_none() {
                let [one, other] = [first, second].map(|module| {
                    let pattern = &module.patterns[number];
                    last_upper_bits(pattern.stream)
                });
                let cells: BTreeSet<_> = one.keys().chain(other.keys()).collect();
                for cell in cells {
                    if one.get(cell).unwrap_or(&0) != other.get(cell).unwrap_or(&0) {
                        entries.push([PATTERN, number as u16, cell.0, cell.1, 6]);
                    }
                }
            }
        }
        entries.sort_unstable();
        entries.dedup();
    });
    notices(&|first, second, output| {
        let refusals = [first, second].map(masks::check_module::<0xC0, 63>);
        match refusals.into_iter().find(|refusal| refusal.number != 0) {
            Some(refusal) => CompareAnswer::refused(refusal.number, refusal.place as usize),
            None => reference(first, second, output),
        }
    });
}

/// Bits 6 and 7 of the last mask of each row and track that has one.
fn last_upper_bits(stream: &[u8]) -> BTreeMap<(u16, u16), u8> {
    let mut bits = BTreeMap::new();
    let (mut row, mut end) = (0, 0);
    for place in masks::places(stream) {
        // The row ends between the last entry and this one.
        row += (place - 1 - end) as u16;
        bits.insert((row, stream[place - 1].into()), stream[place] & 0xC0);
        end = place + 1 + fields_named(stream[place]);
    }
    bits
}

/// The first entry of a track in a row counts and not the last one; entries add up; fields that are not named become 0.
#[test]
fn other_readers_of_streams() {
    let reading = |store: fn(&mut u8, Option<u8>, bool)| {
        notices_found(|first, second, entries| {
            entries.retain(|entry| !is_field(entry));
            for number in 0..first.patterns.len().min(second.patterns.len()) {
                if shapes(first, second, number).is_some() {
                    continue;
                }
                let tracks = first.info.tracks as usize;
                let [one, other] = [first, second].map(|module| {
                    let pattern = &module.patterns[number];
                    cells(pattern.stream, pattern.rows as usize, tracks, store)
                });
                for place in (0..one.len()).filter(|&place| one[place] != other[place]) {
                    let (cell, field) = (place / 6, place % 6 + 1);
                    let (row, track) = (cell / tracks, cell % tracks + 1);
                    entries.push([
                        PATTERN,
                        number as u16,
                        row as u16,
                        track as u16,
                        field as u16,
                    ]);
                }
            }
        });
    };
    let stored = |field: &mut u8, named: Option<u8>, _: bool| *field = named.unwrap_or(*field);
    assert_eq!(
        cells(&[1, 3, 7, 8, 1, 1, 9, 0], 1, 4, stored)[..3],
        [9, 8, 0]
    );
    reading(|field, named, again| {
        if !again {
            *field = named.unwrap_or(*field);
        }
    });
    reading(|field, named, _| *field = field.wrapping_add(named.unwrap_or(0)));
    reading(|field, named, _| *field = named.unwrap_or(0));
    // A stored 0 changes nothing.
    reading(|field, named, _| *field = named.filter(|&value| value != 0).unwrap_or(*field));
}

/// The cells of a stream, read with a wrong way to store the fields of an entry. `store` also gets whether the track was met in this row.
fn cells(
    stream: &[u8],
    rows: usize,
    tracks: usize,
    store: fn(&mut u8, Option<u8>, bool),
) -> Vec<u8> {
    let mut cells = vec![0; rows * tracks * 6];
    let mut left = stream.iter().copied();
    for row in cells.chunks_mut(tracks * 6) {
        let mut met = BTreeSet::new();
        while let Some(track) = left.next().filter(|&track| track != 0) {
            let mask = left.next().expect("a mask follows");
            let start = 6 * (usize::from(track) - 1);
            let again = !met.insert(track);
            for bit in 0..6 {
                let named = (mask >> bit & 1 == 1).then(|| left.next().expect("a field follows"));
                store(&mut row[start + bit], named, again);
            }
        }
    }
    cells
}
