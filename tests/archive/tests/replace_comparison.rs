//! Tests of the comparison of modules with a replaced sample: it finds no difference between the reference and itself, and it detects each
//! of these wrong libraries.

use archive::compare::GuardedOutput;
use archive::masks;
use archive::queries::REFERENCE;
use archive::replacing;
use archive::replacing::{
    chunk, clear, instrument_block, module_with_many_loops, number, reference, replaced,
    sample_block, ReplaceAnswer,
};
use archive::writing::{answering, Call, Fill, WritingAnswer};
use reference::generate::Random;
use reference::repack::repack;

/// Most loops of sample 1 end after this frame.
const FRAME: &[u8] = b"\x80\x01";

archive::tests_of_the_comparison!(replacing!(1, FRAME));

/// The stand-in is detected, also without the reference.
#[track_caller]
fn notices(library: Fill<ReplaceAnswer>) {
    replacing!(1, FRAME).notices(library);
}

/// The reference, followed by a change of the bytes that it has written.
#[track_caller]
fn notices_change(change: impl Fn(&[u8], &mut [u8])) {
    let call = replacing!(1, FRAME);
    call.notices(&call.changed(change));
}

/// The numbers of the instruments of an accepted module.
fn instruments(module: &[u8]) -> std::ops::RangeInclusive<usize> {
    1..=usize::from((REFERENCE.info)(module).record.instruments)
}

/// The instruments whose blocks differ in the result.
fn cleared(module: &[u8], out: &[u8]) -> Vec<usize> {
    let differs = |&number: &usize| {
        let (old, new) = (
            instrument_block(module, number),
            instrument_block(out, number),
        );
        module[old..old + 50] != out[new..new + 50]
    };
    instruments(module).filter(differs).collect()
}

/// Some bytes of the blocks of cleared instruments are as they were.
#[track_caller]
fn notices_kept(bytes: std::ops::Range<usize>) {
    notices_change(|module, out| {
        for number in cleared(module, out) {
            let (old, new) = (
                instrument_block(module, number),
                instrument_block(out, number),
            );
            out[new + bytes.start..new + bytes.end]
                .copy_from_slice(&module[old + bytes.start..old + bytes.end]);
        }
    });
}

/// Nothing is replaced: the module is copied.
#[test]
fn a_copy() {
    notices(&|module, output| {
        let answer = reference(module, 1, FRAME, output);
        if answer.number != 0 || output.slice().len() < module.len() {
            return answer;
        }
        answering(
            replaced(module.len(), answer.record.cleared),
            module,
            output,
        )
    });
}

/// The sample before it or after it is replaced instead.
#[test]
fn another_sample() {
    replacing!(2, FRAME).notices(&|module, output| reference(module, 1, FRAME, output));
    replacing!(1, FRAME).notices(&|module, output| reference(module, 2, FRAME, output));
}

#[test]
fn another_block() {
    let at = |out: &[u8], offset: usize| sample_block(out, 1).start + offset;
    // The flags and the number of frames of the old sample, bytes instead of frames, and the bytes of the frame in the other order.
    notices_change(|module, out| {
        let (from, to) = (at(module, 0), at(out, 0));
        out[to..to + 4].copy_from_slice(&module[from..from + 4]);
    });
    notices_change(|module, out| {
        let (from, to) = (at(module, 4), at(out, 4));
        out[to..to + 4].copy_from_slice(&module[from..from + 4]);
    });
    notices_change(|_, out| out[at(out, 7)] = 2);
    notices_change(|_, out| {
        let frame = at(out, 8);
        out[frame..frame + 2].reverse();
    });
}

/// The length of SMPL is as it was, or one more.
#[test]
fn another_length_of_smpl() {
    notices_change(|module, out| {
        let place = chunk(module, b"SMPL") + 4;
        out[place..place + 4].copy_from_slice(&module[place..place + 4]);
    });
    notices_change(|_, out| {
        let place = chunk(out, b"SMPL") + 4;
        let length = number(out, place) as u32 + 1;
        out[place..place + 4].copy_from_slice(&length.to_be_bytes());
    });
}

/// The bytes after the block are moved by one byte.
#[test]
fn bytes_after_the_block_shifted() {
    notices_change(|_, out| {
        let end = sample_block(out, 1).end;
        let rest = &mut out[end..];
        if !rest.is_empty() {
            rest.rotate_right(1);
        }
    });
}

/// All loops stay, or some of their numbers, or the panning between them is cleared too.
#[test]
fn loops_as_they_were() {
    notices_kept(0..50);
    notices_kept(38..42);
    notices_kept(42..46);
    notices_kept(48..50);
    notices_change(|module, out| {
        for number in cleared(module, out) {
            let block = instrument_block(out, number);
            out[block + 46..block + 48].fill(0x55);
        }
    });
}

/// 100 modules with many loops, and the number for which a stand-in for this call is detected: by the reference, and without it.
fn differences_on_many_loops(
    call: &Call<ReplaceAnswer>,
    library: Fill<ReplaceAnswer>,
) -> (usize, usize) {
    let modules: Vec<Vec<u8>> = (1..=100)
        .map(|seed| module_with_many_loops(&mut Random::new(seed)))
        .collect();
    call.differences_on(&modules, library)
}

/// All loops but the first or the last one stay.
#[test]
fn one_loop_only() {
    for first in [false, true] {
        let call = replacing!(1, FRAME);
        let library = call.changed(|module, out| {
            let mut cleared = cleared(module, out);
            match first {
                true => drop(cleared.drain(..cleared.len().min(1))),
                false => drop(cleared.pop()),
            }
            for number in cleared {
                let (old, new) = (
                    instrument_block(module, number),
                    instrument_block(out, number),
                );
                out[new..new + 50].copy_from_slice(&module[old..old + 50]);
            }
        });
        let (differ, alone) = differences_on_many_loops(&call, &library);
        assert!(differ >= 90 && alone >= 90, "only {differ} and {alone}");
    }
}

/// Loops of other samples, loops that fit, and numbers of instruments that are not looped are cleared too.
#[test]
fn too_many_loops() {
    notices_change(|module, out| {
        for number in instruments(module) {
            if (REFERENCE.instrument)(module, number).record.sample != 1 {
                clear(out, number);
            }
        }
    });
    let call = replacing!(1, b"abcdefghijklmnopqrstuvwxyzabcdefghijklmnopqrstuvwxyz");
    call.notices(&call.changed(|module, out| {
        for number in instruments(module) {
            let instrument = (REFERENCE.instrument)(module, number).record;
            if instrument.sample == 1 && instrument.loop_length != 0 && instrument.flags != 0 {
                clear(out, number);
            }
        }
    }));
    notices_change(|module, out| {
        for number in instruments(module) {
            let instrument = (REFERENCE.instrument)(module, number).record;
            if instrument.sample == 1 && (instrument.loop_length == 0 || instrument.flags == 0) {
                clear(out, number);
            }
        }
    });
}

/// A library that compares the loop with another number of frames. Its result for the right number of frames is correct.
fn comparing_with(
    module: &[u8],
    frames: usize,
    output: &mut GuardedOutput,
    loop_frames: u64,
) -> ReplaceAnswer {
    let new = vec![7; 2 * frames];
    let mut whole = GuardedOutput::new(module.len() + new.len());
    let answer = reference(module, 1, &new, &mut whole);
    if answer.number != 0 {
        return reference(module, 1, &new, output);
    }
    let mut result = whole.slice()[..answer.record.length as usize].to_vec();
    let mut count = 0;
    for number in instruments(module) {
        let (old, new) = (
            instrument_block(module, number),
            instrument_block(&result, number),
        );
        result[new..new + 50].copy_from_slice(&module[old..old + 50]);
        let instrument = (REFERENCE.instrument)(module, number).record;
        let end = u64::from(instrument.loop_start) + u64::from(instrument.loop_length);
        let looped = instrument.loop_length != 0 && instrument.flags != 0;
        if looped && instrument.sample == 1 && end > loop_frames {
            clear(&mut result, number);
            count += 1;
        }
    }
    answering(replaced(result.len(), count), &result, output)
}

/// The loop is compared with one frame more or less, or with the number of bytes. With the right number nothing is detected.
#[test]
fn another_number_of_frames() {
    for (loop_frames, wrong) in [(7, true), (8, false), (9, true), (16, true)] {
        let call = replacing!(1, &[7; 16]);
        let (differ, alone) = differences_on_many_loops(&call, &|module, output| {
            comparing_with(module, 8, output, loop_frames)
        });
        match wrong {
            true => assert!(
                differ >= 20 && alone >= 20,
                "{loop_frames}: {differ}, {alone}"
            ),
            false => assert_eq!((differ, alone), (0, 0)),
        }
    }
}

/// The number of cleared loops: one more, one less, 0, and the number of all instruments on the sample.
#[test]
fn another_count() {
    let counting = |count: fn(&[u8], u64) -> u64| {
        move |module: &[u8], output: &mut GuardedOutput| {
            let mut answer = reference(module, 1, FRAME, output);
            if answer.number == 0 {
                answer.record.cleared = count(module, answer.record.cleared);
            }
            answer
        }
    };
    notices(&counting(|_, cleared| cleared + 1));
    notices(&counting(|_, cleared| cleared.saturating_sub(1)));
    notices(&counting(|_, _| 0));
    notices(&counting(|module, _| {
        let of_sample = |&number: &usize| {
            let instrument = (REFERENCE.instrument)(module, number).record;
            instrument.sample == 1
        };
        instruments(module).filter(of_sample).count() as u64
    }));
    // On a refusal.
    notices(&|module, output| {
        let mut answer = reference(module, 1, FRAME, output);
        answer.record.cleared += u64::from(answer.number != 0);
        answer
    });
}

/// 19 before 18 or before the module's own refusal, 19 after 17, and no 19 at all.
#[test]
fn odd_frames() {
    const ODD: &[u8] = b"abc";
    let call = replacing!(1, ODD);
    assert_eq!(call.differences(call.reference), (0, 0));
    call.notices(&call.answering(|answer, _, _| match answer.number {
        18 => ReplaceAnswer::refused(19, 0),
        _ => answer,
    }));
    call.notices(&call.answering(|answer, _, _| match answer.number {
        0 => answer,
        _ => ReplaceAnswer::refused(19, 0),
    }));
    call.notices_beside_the_reference(&|module, output| {
        let even = reference(module, 1, &ODD[..2], &mut GuardedOutput::new(0));
        match even.number == 17 && output.slice().len() < 10 {
            true => ReplaceAnswer::refused(17, even.place as usize),
            false => reference(module, 1, ODD, output),
        }
    });
    call.notices(&|module, output| reference(module, 1, &ODD[..2], output));
    call.notices(&call.answering(|answer, _, _| match answer.number {
        19 => ReplaceAnswer::refused(19, 2),
        _ => answer,
    }));
}

/// A sample that does not exist: the last one, the first one, or one of fewer bits is replaced instead.
#[test]
fn a_sample_that_is_not_there() {
    let call = replacing!(0, FRAME);
    assert_eq!(call.differences(call.reference), (0, 0));
    call.notices(&|module, output| reference(module, 1, FRAME, output));
    let call = replacing!(257, FRAME);
    call.notices(&|module, output| reference(module, 1, FRAME, output));
    call.notices(&call.answering(|answer, _, _| match answer.number {
        18 => ReplaceAnswer::refused(18, 257),
        _ => answer,
    }));
}

/// The reserved word and other header bytes.
#[test]
fn another_header() {
    notices_change(|_, out| out[6..8].fill(0x11));
    notices_change(|_, out| out[4] ^= 1);
}

/// Bits 6 and 7 of masks are cleared, or modules that have them are refused.
#[test]
fn upper_bits_of_masks() {
    notices_change(|_, out| {
        for place in masks::places_in_module(out) {
            out[place] &= 63;
        }
    });
    notices(
        &|module, output| match masks::check_module::<0xC0, 63>(module) {
            refusal if refusal.number == 15 => ReplaceAnswer::refused(15, refusal.place as usize),
            _ => reference(module, 1, FRAME, output),
        },
    );
}

/// Fillers and streams of patterns.
#[test]
fn repacked_patterns() {
    notices(&|module, output| {
        let mut whole = GuardedOutput::new(module.len() + FRAME.len());
        let answer = reference(module, 1, FRAME, &mut whole);
        if answer.number != 0 {
            return reference(module, 1, FRAME, output);
        }
        let result = &whole.slice()[..answer.record.length as usize];
        let mut repacked = vec![0; result.len()];
        let length = repack(result, &mut repacked).expect("it is accepted");
        repacked.truncate(length as usize);
        answering(
            replaced(repacked.len(), answer.record.cleared),
            &repacked,
            output,
        )
    });
}
