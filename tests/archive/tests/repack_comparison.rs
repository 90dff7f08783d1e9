//! Tests of the comparison of repacked modules: it finds no difference between the reference and itself, and it detects each of these wrong
//! repackers.

use archive::compare::GuardedOutput;
use archive::masks;
use archive::repacking::REPACK;
use archive::writing::writing;
use interface::Answer;

archive::tests_of_the_comparison!(REPACK);

/// The place of PATT's header in a module.
fn patt(module: &[u8]) -> usize {
    let mut place = 8;
    while module[place..place + 4] != *b"PATT" {
        place += 8 + number(module, place + 4);
    }
    place
}

/// The four-byte number at a place.
fn number(module: &[u8], place: usize) -> usize {
    let bytes = module[place..place + 4].try_into();
    u32::from_be_bytes(bytes.expect("four bytes were taken")) as usize
}

/// The begin and the end of the packed bytes of each pattern.
fn streams(module: &[u8]) -> Vec<(usize, usize)> {
    let header = patt(module);
    let mut place = header + 8;
    let end = place + number(module, header + 4);
    let mut streams = Vec::new();
    while place < end {
        let length = number(module, place + 2);
        streams.push((place + 6, place + 6 + length));
        place += 6 + length + length % 2;
    }
    streams
}

/// Nothing is repacked: the module is copied.
#[test]
fn a_copy() {
    REPACK.notices_beside_the_reference(&|module, output| {
        let answer = (REPACK.reference)(module, output);
        if answer.number != 0 || output.slice().len() < module.len() {
            return answer;
        }
        output.slice()[..module.len()].copy_from_slice(module);
        Answer::written(module.len())
    });
}

#[test]
fn the_length_of_patt_as_it_was() {
    REPACK.notices(&REPACK.changed(|module, out| {
        let place = patt(module) + 4;
        out[place..place + 4].copy_from_slice(&module[place..place + 4]);
    }));
}

/// Fillers keep their value, in streams of the same length.
#[test]
fn fillers_as_they_were() {
    REPACK.notices_beside_the_reference(&REPACK.changed(|module, out| {
        for ((_, old), (begin, new)) in streams(module).into_iter().zip(streams(out)) {
            if old == new && (new - begin) % 2 == 1 {
                out[new] = module[old];
            }
        }
    }));
}

/// The bytes after PATT are moved by one byte if PATT has become shorter.
#[test]
fn chunks_after_patt_shifted() {
    REPACK.notices(&REPACK.changed(|module, out| {
        let end = patt(out) + 8 + number(out, patt(out) + 4);
        if out.len() < module.len() && end < out.len() {
            out[end..].rotate_right(1);
        }
    }));
}

/// The first two entries of a pattern are swapped: the module has the same length and is accepted.
#[test]
fn tracks_that_descend() {
    REPACK.notices_beside_the_reference(&REPACK.changed(|_, out| {
        for (begin, end) in streams(out) {
            let stream = &mut out[begin..end];
            let entry = |place: usize| match stream.get(place) {
                None | Some(0) => None,
                Some(_) => Some(2 + stream[place + 1].count_ones() as usize),
            };
            if let Some(first) = entry(0) {
                if let Some(second) = entry(first) {
                    stream[..first + second].rotate_left(first);
                }
            }
        }
    }));
}

/// All patterns except the first are unchanged.
#[test]
fn the_first_pattern_only() {
    REPACK.notices_beside_the_reference(&|module, output| {
        let mut whole = GuardedOutput::new(module.len());
        let answer = (REPACK.reference)(module, &mut whole);
        if answer.number != 0 || streams(module).len() < 2 {
            return (REPACK.reference)(module, output);
        }
        let header = patt(module);
        let end = header + 8 + number(module, header + 4);
        let out = whole.slice();
        let first = &out[header + 8..streams(out)[1].0 - 6];
        let others = &module[streams(module)[1].0 - 6..end];
        let length = (first.len() + others.len()) as u32;
        let made = [
            &module[..header + 4],
            &length.to_be_bytes(),
            first,
            others,
            &module[end..],
        ]
        .concat();
        writing(&made, output)
    });
}

/// Bits 6 and 7 of masks are set, or are kept in the first entry of a pattern if it has the same track.
#[test]
fn upper_bits_of_masks() {
    REPACK.notices_beside_the_reference(&REPACK.changed(|_, out| {
        for place in masks::places_in_module(out) {
            out[place] |= 0x40;
        }
    }));
    REPACK.notices_beside_the_reference(&REPACK.changed(|module, out| {
        for ((old, _), (begin, end)) in streams(module).into_iter().zip(streams(out)) {
            if begin < end && out[begin] != 0 && out[begin] == module[old] {
                out[begin + 1] |= module[old + 1] & 0xC0;
            }
        }
    }));
}

/// Modules with bits 6 or 7 in a mask are refused.
#[test]
fn upper_bits_of_masks_refused() {
    REPACK.notices(
        &|module, output| match masks::check_module::<0xC0, 63>(module) {
            refusal if refusal.number == 15 => Answer::refused(15, refusal.place as usize),
            _ => (REPACK.reference)(module, output),
        },
    );
}

#[test]
fn rows_and_cells_that_differ() {
    REPACK.notices(&REPACK.changed(|_, out| {
        for (begin, end) in streams(out) {
            if end - begin > 3 && out[begin] != 0 {
                out[begin + 2] ^= 0x80;
            }
        }
    }));
    REPACK.notices(&REPACK.changed(|_, out| {
        for (begin, _) in streams(out) {
            out[begin - 5] = out[begin - 5].wrapping_add(1);
        }
    }));
}

/// The reserved word, which no query returns, and the version.
#[test]
fn another_header() {
    REPACK.notices_beside_the_reference(&REPACK.changed(|_, out| out[6..8].fill(0)));
    REPACK.notices(&REPACK.changed(|_, out| out[4] ^= 1));
}
