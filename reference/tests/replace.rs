//! Replacing a sample of a module, with expectations typed by hand.
//!
//! Modules before and after, numbers and places are literals, computed from the layout beside each module below.

use std::collections::BTreeSet;

use reference::chunks::Name;
use reference::draft::{Chunk, Instrument, Sample, Tune};
use reference::generate::{bytes, damage, module as made, tune as made_tune, Limits, Random};
use reference::module::check;
use reference::records::{self, Kind};
use reference::refusal::Refusal;
use reference::replace::{replace_sample, Replaced};

const CAROUSEL: &[u8] = include_bytes!("../../samples/carousel.dbm");
const SHORT_ORGAN: &[u8] = include_bytes!("../../samples/short-organ.dbm");

fn refused(number: u64, place: u64) -> Result<Replaced, Refusal> {
    Err(Refusal { number, place })
}

fn answered(length: u64, cleared: u64) -> Result<Replaced, Refusal> {
    Ok(Replaced { length, cleared })
}

/// The module with other bytes at a place.
fn with(module: &[u8], place: usize, bytes: &[u8]) -> Vec<u8> {
    let mut module = module.to_vec();
    module[place..place + bytes.len()].copy_from_slice(bytes);
    module
}

/// The result and the number of cleared loops, in an output of the module's length and that of the frames.
#[track_caller]
fn replaced(module: &[u8], sample: u64, frames: &[u8]) -> (Vec<u8>, u64) {
    let mut out = vec![0xAA; module.len() + frames.len()];
    let replaced = replace_sample(module, sample, frames, &mut out).expect("it can be replaced");
    let (written, after) = out.split_at(replaced.length as usize);
    assert!(after.iter().all(|&byte| byte == 0xAA));
    (written.to_vec(), replaced.cleared)
}

/// The result is these bytes, for outputs of every length. A shorter output is refused with 17 and the needed length, and nothing is
/// written. The bytes after the needed length are unchanged. The result is accepted.
#[track_caller]
fn becomes(module: &[u8], sample: u64, frames: &[u8], bytes: &[u8], cleared: u64) {
    let needed = bytes.len();
    for room in 0..needed {
        let mut out = vec![0xAA; room];
        let answer = replace_sample(module, sample, frames, &mut out);
        assert_eq!(answer, refused(17, needed as u64));
        assert_eq!(out, vec![0xAA; room]);
    }
    for more in [0, 1, 2, 7, 100] {
        let mut out = vec![0xAA; needed + more];
        let answer = replace_sample(module, sample, frames, &mut out);
        assert_eq!(answer, answered(needed as u64, cleared));
        assert_eq!(out[..needed], *bytes);
        assert_eq!(out[needed..], vec![0xAA; more]);
    }
    assert_eq!(check(bytes), Ok(()));
}

/// The call is refused, and nothing is written into outputs of several lengths.
#[track_caller]
fn is_refused(module: &[u8], sample: u64, frames: &[u8], number: u64, place: u64) {
    for room in [0, 1, module.len(), module.len() + frames.len() + 9] {
        let mut out = vec![0xAA; room];
        assert_eq!(
            replace_sample(module, sample, frames, &mut out),
            refused(number, place)
        );
        assert!(out.iter().all(|&byte| byte == 0xAA), "{number} writes");
    }
}

/// All bytes before and after, without the functions above. Sample 1 has three frames of 8 bits and is replaced by two of 16 bits. The
/// first instrument has the loop 1 + 2 of it, the second the loop 0 + 1 of the other sample.
#[test]
fn byte_by_byte() {
    let before = b"DBM0\x03\x14\xBE\xEF\
        INFO\x00\x00\x00\x0A\x00\x02\x00\x02\x00\x00\x00\x01\x00\x04\
        SONG\x00\x00\x00\x00\
        INST\x00\x00\x00\x64\
        first instrument, with a loop!\x00\x01\x00\x40\x00\x00\x20\xAB\
        \x00\x00\x00\x01\x00\x00\x00\x02\xFF\x80\x00\x01\
        second instrument, also looped\x00\x02\x00\x20\x01\x02\x03\x04\
        \x00\x00\x00\x00\x00\x00\x00\x01\x00\x80\x00\x02\
        PATT\x00\x00\x00\x0A\x00\x01\x00\x00\x00\x03\x01\x00\x00\x99\
        SMPL\x00\x00\x00\x15\
        \x00\x00\x00\x01\x00\x00\x00\x03\x11\x22\x33\
        \x00\x00\x00\x02\x00\x00\x00\x01\x44\x55\
        DSPE\x00\x00\x00\x01\xEE";
    let after = b"DBM0\x03\x14\xBE\xEF\
        INFO\x00\x00\x00\x0A\x00\x02\x00\x02\x00\x00\x00\x01\x00\x04\
        SONG\x00\x00\x00\x00\
        INST\x00\x00\x00\x64\
        first instrument, with a loop!\x00\x01\x00\x40\x00\x00\x20\xAB\
        \x00\x00\x00\x00\x00\x00\x00\x00\xFF\x80\x00\x00\
        second instrument, also looped\x00\x02\x00\x20\x01\x02\x03\x04\
        \x00\x00\x00\x00\x00\x00\x00\x01\x00\x80\x00\x02\
        PATT\x00\x00\x00\x0A\x00\x01\x00\x00\x00\x03\x01\x00\x00\x99\
        SMPL\x00\x00\x00\x16\
        \x00\x00\x00\x02\x00\x00\x00\x02\x80\x01\x7F\xFE\
        \x00\x00\x00\x02\x00\x00\x00\x01\x44\x55\
        DSPE\x00\x00\x00\x01\xEE";
    assert_eq!(before.len(), 198);
    assert_eq!(after.len(), 199);
    let frames = b"\x80\x01\x7F\xFE";
    let mut out = [0xAA; 201];
    assert_eq!(
        replace_sample(before, 1, frames, &mut out),
        Ok(Replaced {
            length: 199,
            cleared: 1
        })
    );
    assert_eq!(out[..199], *after);
    assert_eq!(out[199..], [0xAA; 2]);
    let mut out = [0xAA; 198];
    assert_eq!(
        replace_sample(before, 1, frames, &mut out),
        Err(Refusal {
            number: 17,
            place: 199
        })
    );
    assert_eq!(out, [0xAA; 198]);
    assert_eq!(check(before), Ok(()));
    assert_eq!(check(after), Ok(()));
}

/// The module has 1,152 bytes. Its sample 2 has 64 bytes, and the loop of its instrument 2 ends with frame 64.
#[test]
fn the_organ_of_the_carousel() {
    let new = |bytes: usize| vec![0x5A; bytes];
    let answer = |sample, bytes, room: usize| {
        let mut out = vec![0xAA; room];
        let answer = replace_sample(CAROUSEL, sample, &new(bytes), &mut out);
        if answer.is_err() {
            assert_eq!(out, vec![0xAA; room]);
        }
        answer
    };
    assert_eq!(answer(2, 80, 1_168), answered(1_168, 1));
    assert_eq!(answer(2, 128, 1_216), answered(1_216, 0));
    assert_eq!(answer(2, 126, 1_214), answered(1_214, 1));
    assert_eq!(answer(2, 79, 2_000), refused(19, 0));
    assert_eq!(answer(4, 3, 2_000), refused(18, 0));
    assert_eq!(answer(4, 4, 2_000), refused(18, 0));
    assert_eq!(answer(0, 80, 2_000), refused(18, 0));
    assert_eq!(answer(2, 80, 1_167), refused(17, 1_168));
    assert_eq!(answer(2, 80, 0), refused(17, 1_168));
    assert_eq!(answer(2, 0, 1_088), answered(1_088, 1));
    assert_eq!(answer(2, 130, 1_218), answered(1_218, 0));
}

/// INST is at 482, and its second block at 540: loop start at 578, loop length at 582, flags at 588. SMPL is at 842, and its second block
/// at 954 with frames from 962 to 1,026. SMPL's length is 280, with 40 frames of 16 bits 296, which is $128.
#[test]
fn only_these_bytes_of_the_carousel_differ() {
    let frames: Vec<u8> = (0..80).collect();
    let after = [
        &CAROUSEL[..578],
        &[0, 0, 0, 0, 0, 0, 0, 0],
        &[0xFF, 0xD8],
        &[0, 0],
        &CAROUSEL[590..846],
        &[0, 0, 1, 0x28],
        &CAROUSEL[850..954],
        &[0, 0, 0, 2, 0, 0, 0, 40],
        &frames,
        &CAROUSEL[1_026..],
    ];
    becomes(CAROUSEL, 2, &frames, &after.concat(), 1);
}

/// The loop of 16 + 48 is outside the 40 frames. This is the refusal, whatever the new frames are.
#[test]
fn a_module_with_a_loop_outside_its_sample() {
    for bytes in [0, 80, 126, 128, 129] {
        is_refused(SHORT_ORGAN, 2, &vec![0; bytes], 14, 540);
    }
}

/// An instrument: its sample, loop start, loop length and flags, 2, 4, 4 and 2 bytes.
fn instrument(sample: u8, start: [u8; 4], length: [u8; 4], flags: u8) -> Vec<u8> {
    let block = [
        &[0xC3; 30][..],
        &[0, sample],
        &[0, 64, 1, 2, 3, 4],
        &start,
        &length,
        &[0xFF, 0xFE],
        &[0, flags],
    ];
    block.concat()
}

/// A module without songs and patterns: INFO at 8, SONG at 26, PATT at 34, and then INST and SMPL, or SMPL and INST.
fn with_chunks(inst_first: bool, instruments: &[Vec<u8>], samples: &[&[u8]]) -> Vec<u8> {
    let counts = [0, instruments.len() as u8, 0, samples.len() as u8];
    let chunk = |name: &Name, data: Vec<u8>| {
        let length = (data.len() as u32).to_be_bytes();
        [&name[..], &length, &data].concat()
    };
    let inst = chunk(b"INST", instruments.concat());
    let smpl = chunk(b"SMPL", samples.concat());
    let (one, other) = if inst_first {
        (inst, smpl)
    } else {
        (smpl, inst)
    };
    let module = [
        &b"DBM0\x03\x00\x00\x00INFO\x00\x00\x00\x0A"[..],
        &counts,
        &[0, 0, 0, 0, 0, 4],
        b"SONG\x00\x00\x00\x00PATT\x00\x00\x00\x00",
        &one,
        &other,
    ];
    module.concat()
}

/// Blocks of samples: four frames of 8 bits, of 16 bits and of 32 bits.
const BITS_8: &[u8] = b"\x00\x00\x00\x01\x00\x00\x00\x04INST";
const BITS_16: &[u8] = b"\x00\x00\x00\x02\x00\x00\x00\x04SMPLSMPL";
const BITS_32: &[u8] = b"\x00\x00\x00\x04\x00\x00\x00\x04abcdefghijklmnop";
const NONE: &[u8] = b"\x00\x00\x00\x02\x00\x00\x00\x00";
const ONE: &[u8] = b"\x00\x00\x00\x02\x00\x00\x00\x01\x12\x34";
const THREE: &[u8] = b"\x00\x00\x00\x02\x00\x00\x00\x03\x12\x34\x56\x78\x9A\xBC";
const FOUR: &[u8] = b"\x00\x00\x00\x02\x00\x00\x00\x04\x12\x34\x56\x78\x9A\xBC\xDE\xF0";

/// A loop 2 + 2 with these flags, and the same instrument after its loop was cleared.
fn looped(sample: u8, flags: u8) -> Vec<u8> {
    instrument(sample, [0, 0, 0, 2], [0, 0, 0, 2], flags)
}

fn cleared(sample: u8) -> Vec<u8> {
    instrument(sample, [0; 4], [0; 4], 0)
}

#[test]
fn every_width_in_every_place_and_both_orders() {
    let old = [BITS_8, BITS_16, BITS_32];
    for inst_first in [true, false] {
        for sample in 1..=3 {
            let loops = [looped(1, 1), looped(2, 1), looped(3, 1)];
            let before = with_chunks(inst_first, &loops, &old);
            for (new, clears) in [(NONE, 1), (ONE, 1), (THREE, 1), (FOUR, 0)] {
                let mut blocks = old;
                blocks[sample - 1] = new;
                let mut after = loops.clone();
                if clears == 1 {
                    after[sample - 1] = cleared(sample as u8);
                }
                let after = with_chunks(inst_first, &after, &blocks);
                becomes(&before, sample as u64, &new[8..], &after, clears);
            }
        }
    }
}

/// Start, length and flags go. Panning, which is between them, stays.
#[test]
fn both_bits_of_the_flags_go() {
    for inst_first in [true, false] {
        for flags in [1, 2, 3] {
            let before = with_chunks(inst_first, &[looped(1, flags)], &[BITS_16]);
            let after = with_chunks(inst_first, &[cleared(1)], &[THREE]);
            becomes(&before, 1, &THREE[8..], &after, 1);
            let after = with_chunks(inst_first, &[looped(1, flags)], &[FOUR]);
            becomes(&before, 1, &FOUR[8..], &after, 0);
        }
    }
}

/// On sample 2: loops that end at 2, 3 and 4, and instruments that are not looped. Others are on sample 1 or on none.
#[test]
fn several_instruments() {
    let wild = [0xFF; 4];
    let all = |cleared: [bool; 3]| {
        let one = |clears, start, length, flags| {
            let zero = [0; 4];
            if clears {
                instrument(2, zero, zero, 0)
            } else {
                instrument(2, [0, 0, 0, start], [0, 0, 0, length], flags)
            }
        };
        vec![
            one(cleared[0], 1, 1, 3),
            instrument(1, [0; 4], [0, 0, 0, 4], 1),
            instrument(2, wild, wild, 0),
            one(cleared[2], 3, 1, 1),
            instrument(0, wild, [0; 4], 3),
            instrument(2, wild, [0; 4], 3),
            one(cleared[1], 0, 3, 2),
            instrument(2, [0; 4], [0, 0, 1, 0], 0),
        ]
    };
    let five: &[u8] = b"\x00\x00\x00\x02\x00\x00\x00\x05\x01\x02\x03\x04\x05\x06\x07\x08\x09\x0A";
    let two: &[u8] = b"\x00\x00\x00\x02\x00\x00\x00\x02\x01\x02\x03\x04";
    for inst_first in [true, false] {
        let before = with_chunks(inst_first, &all([false; 3]), &[BITS_32, BITS_8, BITS_16]);
        for (block, clears, count) in [
            (NONE, [true, true, true], 3),
            (ONE, [true, true, true], 3),
            (two, [false, true, true], 2),
            (THREE, [false, false, true], 1),
            (FOUR, [false, false, false], 0),
            (five, [false, false, false], 0),
        ] {
            let after = with_chunks(inst_first, &all(clears), &[BITS_32, block, BITS_16]);
            becomes(&before, 2, &block[8..], &after, count);
        }
        // Sample 1 has one looped instrument, sample 3 none.
        let mut instruments = all([false; 3]);
        let after = with_chunks(inst_first, &instruments, &[BITS_32, BITS_8, NONE]);
        becomes(&before, 3, &[], &after, 0);
        instruments[1] = instrument(1, [0; 4], [0; 4], 0);
        let after = with_chunks(inst_first, &instruments, &[THREE, BITS_8, BITS_16]);
        becomes(&before, 1, &THREE[8..], &after, 1);
    }
}

/// Loop start + loop length is more than 32 bits can have, or would be small if it had only 32 bits.
#[test]
fn instruments_that_are_not_looped_keep_their_fields() {
    let most = [0xFF; 4];
    for (start, length, flags) in [
        (most, most, 0),
        (most, [0, 0, 0, 2], 0),
        ([0, 0, 0, 1], most, 0),
        (most, [0; 4], 1),
        (most, [0; 4], 2),
        (most, [0; 4], 3),
        ([0, 0, 0, 1], [0, 0, 0, 9], 0),
        ([0, 0, 0, 9], [0; 4], 3),
    ] {
        for inst_first in [true, false] {
            for block in [NONE, ONE, FOUR] {
                let kept = [instrument(1, start, length, flags)];
                let before = with_chunks(inst_first, &kept, &[BITS_8]);
                let after = with_chunks(inst_first, &kept, &[block]);
                becomes(&before, 1, &block[8..], &after, 0);
            }
        }
    }
}

/// 255 instruments on the same sample, all of them cleared.
#[test]
fn the_most_instruments() {
    for inst_first in [true, false] {
        let before = with_chunks(inst_first, &vec![looped(1, 2); 255], &[BITS_8]);
        let after = with_chunks(inst_first, &vec![cleared(1); 255], &[THREE]);
        assert_eq!(replaced(&before, 1, &THREE[8..]), (after, 255));
    }
}

/// 255 samples, of which the last one has 300 frames of 32 bits and a loop 200 + 60.
#[test]
fn the_most_samples() {
    let last = [&[0, 0, 0, 4, 0, 0, 1, 44][..], &[0x77; 1_200]].concat();
    let on_last = instrument(255, [0, 0, 0, 200], [0, 0, 0, 60], 1);
    let with_last = |instrument: Vec<u8>, last: &[u8]| {
        let blocks = [&[ONE; 254][..], &[last]].concat();
        with_chunks(true, &[instrument], &blocks)
    };
    let before = with_last(on_last.clone(), &last);
    for (count, clears) in [(259, 1), (260, 0)] {
        let new = [
            &[0, 0, 0, 2, 0, 0, 1, (count - 256) as u8][..],
            &vec![0x66; 2 * count],
        ]
        .concat();
        let kept = if clears == 1 {
            cleared(255)
        } else {
            on_last.clone()
        };
        let after = with_last(kept, &new);
        assert_eq!(replaced(&before, 255, &new[8..]), (after, clears));
    }
    is_refused(&before, 256, &[], 18, 0);
}

#[test]
fn a_sample_of_16_bits_with_its_own_frames_gives_the_module() {
    assert_eq!(
        replaced(CAROUSEL, 1, &CAROUSEL[858..954]),
        (CAROUSEL.to_vec(), 0)
    );
    for inst_first in [true, false] {
        let loops = [looped(1, 1), looped(2, 3)];
        let module = with_chunks(inst_first, &loops, &[BITS_16, FOUR, NONE]);
        becomes(&module, 1, b"SMPLSMPL", &module, 0);
        becomes(&module, 2, &FOUR[8..], &module, 0);
        becomes(&module, 3, b"", &module, 0);
    }
}

/// Of the sample's own bytes those of 8 and 32 bits are stored as 16 bits too.
#[test]
fn the_flags_become_2() {
    let before = with_chunks(true, &[], &[BITS_8, BITS_32]);
    let two: &[u8] = b"\x00\x00\x00\x02\x00\x00\x00\x02INST";
    becomes(
        &before,
        1,
        b"INST",
        &with_chunks(true, &[], &[two, BITS_32]),
        0,
    );
    let eight: &[u8] = b"\x00\x00\x00\x02\x00\x00\x00\x08abcdefghijklmnop";
    let after = with_chunks(true, &[], &[BITS_8, eight]);
    becomes(&before, 2, b"abcdefghijklmnop", &after, 0);
}

/// A module with all covered chunks and others, valid in both versions. Chunks are between, before and after INST and SMPL.
#[rustfmt::skip]
fn full(version: u8, instrument: &[u8], smpl: &[u8]) -> Vec<u8> {
    let module = [
        &b"DBM0"[..], &[version, 0x99, 0xDE, 0xAD],

        b"SMPM\x00\x00\x00\x04", &[0, 2, 0, 0],
        b"NAME\x00\x00\x00\x2C", &[0xFE; 44],
        b"VENV\x00\x00\x00\x8A", &[0, 1],
        &[0, 1, 0x00, 1, 0xFF, 0xFE, 0xFD, 0xFC], &[0, 1, 0, 64, 0xFF, 0xFF, 0, 0], &[0x81; 120],
        b"DSPE\x00\x00\x00\x00",
        b"INFO\x00\x00\x00\x0A", &[0, 1, 0, 2, 0, 1, 0, 2, 0, 4],
        b"PENV\x00\x00\x00\x8A", &[0, 1],
        &[0, 1, 0x01, 0, 9, 9, 9, 9], &[0xAB, 0xCD, 0, 64], &[0x82; 124],

        b"SMPL", smpl,

        b"PATT\x00\x00\x00\x18",
        b"\x00\x02\x00\x00\x00\x07\x02\x07\x47\x01\x00\x00\x00\xFF", b"\x00\x01\x00\x00\x00\x03\x01\x00\x00\x80",
        b"DSPE\x00\x00\x00\x09", b"\x02\x01\x47\x02\x02\x01\x00\x00\xFF",
        b"SONG\x00\x00\x00\x34", &[0x80; 44], &[0, 3, 0, 1, 0, 0, 0, 1],
        b"AAAA\x00\x00\x00\x01\xFF",
        b"INST\x00\x00\x00\x32", instrument,
        b"DSPE\x00\x00\x00\x03", &[1, 2, 3],
    ];
    module.concat()
}

/// The frames are the letters of chunks. The instrument is on sample 1, and its loop is 2 + 3.
fn before(version: u8) -> Vec<u8> {
    let smpl = b"\x00\x00\x00\x19\
        \x00\x00\x00\x01\x00\x00\x00\x05INST\x00\x00\x00\x00\x04\x00\x00\x00\x01SMPL";
    let kept = instrument(1, [0, 0, 0, 2], [0, 0, 0, 3], 3);
    full(version, &kept, smpl)
}

/// Streams and fillers that the packer does not write stay, and so do envelopes, names and other chunks.
#[test]
fn all_other_bytes_stay() {
    let kept = instrument(1, [0, 0, 0, 2], [0, 0, 0, 3], 3);
    for version in [2, 3] {
        let module = before(version);
        assert_eq!(check(&module), Ok(()));
        assert_eq!(module.len(), 610);
        let four = b"\x00\x00\x00\x1C\
            \x00\x00\x00\x02\x00\x00\x00\x04PATTPATT\x00\x00\x00\x04\x00\x00\x00\x01SMPL";
        let after = full(version, &cleared(1), four);
        becomes(&module, 1, b"PATTPATT", &after, 1);
        let five = b"\x00\x00\x00\x1E\
            \x00\x00\x00\x02\x00\x00\x00\x05PATTPATTPA\x00\x00\x00\x04\x00\x00\x00\x01SMPL";
        becomes(&module, 1, b"PATTPATTPA", &full(version, &kept, five), 0);
        let second = b"\x00\x00\x00\x17\
            \x00\x00\x00\x01\x00\x00\x00\x05INST\x00\x00\x00\x00\x02\x00\x00\x00\x01SM";
        becomes(&module, 2, b"SM", &full(version, &kept, second), 0);
    }
}

/// What the queries show of a result: the new sample, the cleared instrument, and all else as before.
#[test]
fn the_queries_show_the_new_sample() {
    let module = before(2);
    let (out, count) = replaced(&module, 1, b"\x80\x00\xFF\xFF\x00\x01\x7F\xFF");
    assert_eq!(count, 1);
    assert_eq!(check(&out), Ok(()));
    let shown = records::Sample {
        width: 16,
        frames: 4,
    };
    assert_eq!(records::sample(&out, 1), Ok(shown));
    for (frame, value) in [(0, -32_768), (1, -1), (2, 1), (3, 32_767)] {
        assert_eq!(records::frame(&out, 1, frame), Ok(value));
    }
    let not_there = Refusal {
        number: 18,
        place: 0,
    };
    assert_eq!(records::frame(&out, 1, 4), Err(not_there));
    assert_eq!(
        records::instrument(&out, 1),
        Ok(records::Instrument {
            name: [0xC3; 30],
            sample: 1,
            volume: 64,
            rate: 0x0102_0304,
            loop_start: 0,
            loop_length: 0,
            panning: -2,
            flags: 0,
        })
    );
    all_else_is_the_same(&module, &out, 1);
}

/// All queries about both modules return the same, except those about this sample and about instruments. The frames of the other samples
/// are compared by their bytes, since their place may differ.
#[track_caller]
fn all_else_is_the_same(one: &[u8], other: &[u8], replaced: u64) {
    assert_eq!(records::version(one), records::version(other));
    assert_eq!(records::name(one), records::name(other));
    let info = records::info(one).expect("it is accepted");
    assert_eq!(Ok(info), records::info(other));
    for song in 0..=info.songs {
        assert_eq!(records::song(one, song), records::song(other, song));
        assert_eq!(
            filled(|out| records::playlist(one, song, out)),
            filled(|out| records::playlist(other, song, out))
        );
    }
    for kind in [Kind::Volume, Kind::Panning] {
        for envelope in 0..=6 {
            assert_eq!(
                records::envelope(one, kind, envelope),
                records::envelope(other, kind, envelope)
            );
        }
    }
    for pattern in 0..=info.patterns {
        assert_eq!(
            filled(|out| records::unpack(one, pattern, out)),
            filled(|out| records::unpack(other, pattern, out))
        );
    }
    for sample in (1..=info.samples).filter(|&sample| sample != replaced) {
        assert_eq!(records::sample(one, sample), records::sample(other, sample));
        assert_eq!(part(one, sample), part(other, sample));
    }
}

/// The result of a query with an output that is long enough for all queries here.
fn filled(query: impl Fn(&mut [u8]) -> Result<u64, Refusal>) -> (Result<u64, Refusal>, Vec<u8>) {
    let mut out = vec![0xAA; 64 * 32 * 6];
    (query(&mut out), out)
}

/// The frames of a sample.
fn part(module: &[u8], sample: u64) -> &[u8] {
    let (place, length) = records::frames(module, sample);
    &module[place as usize..(place + length) as usize]
}

/// Number 0, the numbers after the last sample, and numbers that would be samples with fewer bits.
#[test]
fn no_such_sample() {
    let module = with_chunks(true, &[], &[BITS_8, NONE, BITS_32]);
    for sample in [
        0,
        4,
        5,
        255,
        256,
        257,
        65_536,
        65_537,
        1 << 32,
        (1 << 32) + 1,
        (1 << 63) + 2,
        u64::MAX,
    ] {
        for frames in [&[][..], &[1], &[1, 2], &[1, 2, 3]] {
            is_refused(&module, sample, frames, 18, 0);
        }
    }
    let none = with_chunks(false, &[], &[]);
    assert_eq!(none.len(), 58);
    for sample in [0, 1, u64::MAX] {
        is_refused(&none, sample, &[], 18, 0);
        is_refused(&none, sample, &[1], 18, 0);
    }
}

#[test]
fn odd_numbers_of_bytes() {
    let module = with_chunks(true, &[looped(1, 1)], &[BITS_8, NONE, BITS_32]);
    for sample in 1..=3 {
        for bytes in [1, 3, 5, 7, 255, 257, 65_535] {
            is_refused(&module, sample, &vec![0; bytes], 19, 0);
        }
    }
}

/// Each of the module's own refusals, with and without a sample that does not exist and an odd number of bytes.
#[test]
fn the_modules_own_refusals_come_first() {
    // SMPL at 390 with its blocks at 398 and 411, PATT at 423 with its blocks at 431 and 445, SONG at 472, INST at 541 with its block at
    // 549, DSPE at 599.
    let good = before(3);
    let too_long = [&good[..], &vec![0; 16_777_217 - 610]].concat();
    let wrong = [
        (too_long, 1, 0),
        (with(&good, 0, b"X"), 2, 0),
        (with(&good, 4, &[4]), 3, 4),
        (with(&good, 606, &[4]), 4, 599),
        (with(&good, 602, b"e"), 5, 599),
        (with(&good, 599, b"SMPL"), 6, 599),
        (with(&good, 8, b"SMPL"), 7, 8),
        (with(&good, 472, b"SONH"), 8, 610),
        (with(&good, 8, b"NAME"), 9, 8),
        (with(&good, 242, &[0, 5]), 10, 242),
        (with(&good, 401, &[3]), 11, 390),
        (with(&good, 526, &[0, 2]), 12, 526),
        (with(&good, 579, &[0, 3]), 12, 579),
        (with(&good, 581, &[0, 65]), 13, 581),
        (with(&good, 591, &[0, 0, 0, 4]), 14, 549),
        (with(&good, 451, &[5]), 15, 445),
    ];
    for (module, number, place) in wrong {
        for sample in [0, 1, 2, 3, u64::MAX] {
            for frames in [&[][..], &[1], &[1, 2, 3, 4, 5, 6, 7, 8, 9, 10, 11, 12]] {
                is_refused(&module, sample, frames, number, place);
            }
        }
    }
    for module in [&[][..], b"DBM0", &good[..609]] {
        let refusal = check(module).expect_err("it is refused");
        is_refused(module, 1, &[0, 0], refusal.number, refusal.place);
    }
}

/// A module with one sample of four frames of 8 bits, and another chunk of this many bytes. Its length is 78 and these bytes.
fn padded(bytes: usize) -> Vec<u8> {
    let mut module = with_chunks(true, &[], &[BITS_8]);
    module.extend(b"MPEG");
    module.extend((bytes as u32).to_be_bytes());
    module.resize(module.len() + bytes, 0x20);
    assert_eq!(module.len(), 78 + bytes);
    module
}

/// Without the four bytes of the old frames the module has 74 bytes and those of the other chunk.
#[test]
fn results_of_the_most_bytes() {
    // The other chunk is long.
    for (bytes, frames, length) in [
        (16_777_138, 4, Some(16_777_216)),
        (16_777_138, 2, Some(16_777_214)),
        (16_777_138, 6, None),
        (16_777_138, 0, Some(16_777_212)),
        (16_777_137, 4, Some(16_777_215)),
        (16_777_137, 6, None),
        (16_777_136, 6, Some(16_777_216)),
    ] {
        limited(&padded(bytes), &vec![0x31; frames], length);
    }
    // The new frames are long. 16,777,142 and 74 are the most.
    for (bytes, frames, length) in [
        (0, 16_777_142, Some(16_777_216)),
        (0, 16_777_144, None),
        (1, 16_777_142, None),
        (1, 16_777_140, Some(16_777_215)),
        (2, 16_777_140, Some(16_777_216)),
        (0, 16_777_216, None),
        (0, 16_777_218, None),
        (0, 17 * 1_048_576, None),
        (0, 33_554_432, None),
    ] {
        limited(&padded(bytes), &vec![0x31; frames], length);
    }
}

/// The result has this length, or is refused with 1. 1 comes before 17, and 18 and 19 before it.
#[track_caller]
fn limited(module: &[u8], frames: &[u8], length: Option<u64>) {
    assert_eq!(check(module), Ok(()));
    let mut out = vec![0xAA; 16_777_220];
    let answer = replace_sample(module, 1, frames, &mut out);
    match length {
        Some(length) => {
            assert_eq!(answer, answered(length, 0));
            assert_eq!(check(&out[..length as usize]), Ok(()));
            assert_eq!(part(&out[..length as usize], 1), frames);
            assert!(out[length as usize..].iter().all(|&byte| byte == 0xAA));
            let answer = replace_sample(module, 1, frames, &mut [0xAA; 100]);
            assert_eq!(answer, refused(17, length));
        }
        None => {
            assert_eq!(answer, refused(1, 0));
            assert!(out.iter().all(|&byte| byte == 0xAA));
            assert_eq!(replace_sample(module, 1, frames, &mut []), refused(1, 0));
        }
    }
    let odd = [frames, &[0]].concat();
    assert_eq!(replace_sample(module, 1, &odd, &mut []), refused(19, 0));
    assert_eq!(replace_sample(module, 2, frames, &mut []), refused(18, 0));
    assert_eq!(replace_sample(module, 0, &odd, &mut []), refused(18, 0));
}

/// A loop that ends after 65,535 frames, and a chunk length that needs three bytes.
#[test]
fn long_loops() {
    let old = [&[0, 0, 0, 1, 0, 1, 0, 1][..], &[0; 65_537]].concat();
    let kept = instrument(1, [0, 0, 0xFF, 0xFF], [0, 0, 0, 2], 1);
    let module = with_chunks(false, std::slice::from_ref(&kept), &[&old]);
    for (count, clears) in [
        (0, 1),
        (1, 1),
        (2, 1),
        (65_535, 1),
        (65_536, 1),
        (65_537, 0),
        (65_538, 0),
    ] {
        let count: u32 = count;
        let head = [[0, 0, 0, 2], count.to_be_bytes()].concat();
        let new = [&head[..], &vec![0x42; 2 * count as usize]].concat();
        let after = if clears == 1 {
            cleared(1)
        } else {
            kept.clone()
        };
        let after = with_chunks(false, &[after], &[&new]);
        assert_eq!(replaced(&module, 1, &new[8..]), (after, clears));
    }
}

/// The records with the sample replaced, and the number of loops that are cleared.
fn changed(tune: &Tune, sample: u16, frames: &[u8]) -> (Tune, u64) {
    let mut tune = tune.clone();
    tune.samples[usize::from(sample) - 1] = Sample::new(2, frames);
    let mut count = 0;
    for instrument in &mut tune.instruments {
        let Instrument {
            loop_start,
            loop_length,
            flags,
            ..
        } = *instrument;
        let end = u64::from(loop_start) + u64::from(loop_length);
        let is_looped = loop_length != 0 && flags != 0;
        if is_looped && instrument.sample == sample && 2 * end > frames.len() as u64 {
            instrument.loop_start = 0;
            instrument.loop_length = 0;
            instrument.flags = 0;
            count += 1;
        }
    }
    (tune, count)
}

/// A module is written from records, and again with the new sample and without the loops that do not fit. Replacing the sample of the first
/// gives the second.
#[test]
fn as_if_written_with_the_new_sample() {
    let most = Limits {
        instruments: 6,
        samples: 4,
        frames: 8,
        ..Limits::SMALL
    };
    let mut counts = BTreeSet::new();
    let (mut shorter, mut longer) = (0, 0);
    for seed in 0..2_000 {
        let random = &mut Random::new(seed);
        let given = made_tune(random, &most);
        if given.samples.is_empty() {
            continue;
        }
        let sample = 1 + random.below(given.samples.len() as u64) as u16;
        let length = 2 * random.below(10);
        let frames = bytes(random, length);
        let order = if seed % 2 == 0 {
            [*b"INFO", *b"INST", *b"SMPL"]
        } else {
            [*b"VENV", *b"INFO", *b"SMPL"]
        };
        let written = |tune: &Tune| {
            let mut draft = tune.draft().ordered(&order);
            draft.chunks.push(Chunk::new(b"SMPM", vec![1, 2, 3]));
            draft.bytes()
        };
        let (new, count) = changed(&given, sample, &frames);
        let (module, expected) = (written(&given), written(&new));
        let (out, cleared) = replaced(&module, u64::from(sample), &frames);
        assert_eq!(out, expected, "seed {seed}");
        assert_eq!(cleared, count, "seed {seed}");
        assert_eq!(check(&out), Ok(()), "seed {seed}");
        all_else_is_the_same(&module, &out, u64::from(sample));
        // The same frames again change nothing.
        assert_eq!(replaced(&out, u64::from(sample), &frames), (out.clone(), 0));
        let needed = out.len() as u64;
        let room = &mut vec![0xAA; out.len() - 1];
        assert_eq!(
            replace_sample(&module, u64::from(sample), &frames, room),
            refused(17, needed)
        );
        counts.insert(count);
        shorter += usize::from(out.len() < module.len());
        longer += usize::from(out.len() > module.len());
    }
    assert!(counts.is_superset(&(0..=4).collect()), "{counts:?}");
    assert!(shorter >= 200 && longer >= 200, "{shorter} {longer}");
}

/// A refused module is refused with the same refusal, whatever the sample, the frames and the output are.
#[test]
fn damaged_modules_are_refused_as_by_the_check() {
    let mut numbers = BTreeSet::new();
    for seed in 0..3_000 {
        let random = &mut Random::new(seed);
        let mut draft = made(random, &Limits::SMALL);
        for _ in 0..1 + seed % 2 {
            damage(random, &mut draft);
        }
        let module = draft.bytes();
        if let Err(Refusal { number, place }) = check(&module) {
            numbers.insert(number);
            let length = random.below(9);
            let frames = bytes(random, length);
            is_refused(&module, random.below(4), &frames, number, place);
        }
    }
    assert_eq!(numbers, (2..=15).collect());
}
