//! Replacing a sample of modules of the maximum length, and results of that length. The expected modules are also made by hand.

use archive::large::{filled_up, with_last, MOST};
use archive::replacing;
use archive::replacing::{replaced, ReplaceAnswer};
use archive::writing::WritingAnswer;
use reference::draft::{Chunk, Draft, Instrument, Pattern, Sample, Tune};
use reference::generate::Random;

/// Bytes without a short period.
fn pattern_bytes(length: usize) -> Vec<u8> {
    (0..length)
        .map(|at| (at ^ at >> 8 ^ at >> 16) as u8)
        .collect()
}

/// The sample of the module is replaced, the result is this one, and so many loops are cleared.
#[track_caller]
fn becomes(module: &[u8], sample: usize, frames: &[u8], expected: &[u8], cleared: u64) {
    let call = replacing!(sample, frames);
    call.answers(module, replaced(expected.len(), cleared), expected);
    call.check_properties(module, &mut Random::new(1)).unwrap();
}

/// 255 samples, and an instrument on sample 2 or on its own for each. The loop reaches to the last frame.
fn many_instruments(frames: usize) -> Tune {
    let data = pattern_bytes(2 * frames);
    Tune {
        samples: vec![Sample::new(2, &data); 255],
        instruments: (1..=255)
            .map(|number| Instrument {
                name: format!("instrument {number}").into_bytes(),
                sample: if number % 2 == 0 { 2 } else { number },
                loop_start: 5,
                loop_length: frames as u32 - 5,
                flags: 1 + number % 3,
                panning: -1,
                ..Instrument::default()
            })
            .collect(),
        ..Tune::default()
    }
}

/// The tune after sample 2 was replaced by these frames, and the loops of the instruments on it were cleared.
fn without_loops(mut tune: Tune, frames: &[u8]) -> Tune {
    tune.samples[1] = Sample::new(2, frames);
    for instrument in &mut tune.instruments {
        if instrument.sample == 2 {
            instrument.loop_start = 0;
            instrument.loop_length = 0;
            instrument.flags = 0;
        }
    }
    tune
}

/// 127 loops are cleared. INST is before SMPL, or after it at the end of the module.
#[test]
fn many_loops() {
    let tune = many_instruments(32_000);
    let frames = pattern_bytes(63_998);
    let after = without_loops(tune.clone(), &frames);
    // A chunk after the header fills the module.
    let with_rest = |draft: Draft, rest: usize| {
        let mut draft = draft;
        draft
            .chunks
            .insert(0, Chunk::new(b"REST", pattern_bytes(rest)));
        draft.bytes()
    };
    let rest = MOST - tune.bytes().len() - 8;
    for last in [b"SMPL", b"INST"] {
        let module = with_rest(with_last(&tune, last), rest);
        assert_eq!(module.len(), MOST);
        let expected = with_rest(with_last(&after, last), rest);
        becomes(&module, 2, &frames, &expected, 127);
    }
}

/// A short sample becomes one that fills the module. INST is moved by nearly 16 MiB.
#[test]
fn a_sample_that_fills_the_module() {
    let tune = Tune {
        samples: vec![
            Sample::new(4, &[1; 8]),
            Sample::new(1, &[2; 9]),
            Sample::new(2, &[3; 6]),
        ],
        instruments: vec![Instrument {
            sample: 2,
            loop_length: 9,
            flags: 2,
            ..Instrument::default()
        }],
        patterns: vec![Pattern {
            rows: 1,
            stream: vec![0],
            filler: 0xFF,
        }],
        ..Tune::default()
    };
    for last in [b"SMPL", b"INST"] {
        let module = with_last(&tune, last).bytes();
        let kept = module.len() - 9;
        assert_eq!(kept % 2, 0);
        let frames = pattern_bytes(MOST - kept);
        let mut after = tune.clone();
        after.samples[1] = Sample::new(2, &frames);
        let expected = with_last(&after, last).bytes();
        assert_eq!(expected.len(), MOST);
        becomes(&module, 2, &frames, &expected, 0);
        // Two bytes more are too many. One byte more is odd first.
        let mut frames = frames;
        frames.extend([0; 2]);
        replacing!(2, &frames).refuses(&module, 1, 0);
        replacing!(2, &frames[1..]).refuses(&module, 19, 0);
        replacing!(4, &frames).refuses(&module, 18, 0);
        // Many times as long as a module.
        let frames = vec![0; 3 * MOST];
        replacing!(2, &frames).refuses(&module, 1, 0);
        replacing!(2, &frames[1..]).refuses(&module, 19, 0);
        // The long sample becomes a short one again.
        let short = with_last(&without_loops(tune.clone(), &[]), last).bytes();
        becomes(&expected, 2, &[], &short, 1);
    }
}

/// The result has an odd length: one byte less than the most is accepted, one byte more is refused.
#[test]
fn one_byte_too_many() {
    let tune = Tune {
        samples: vec![Sample::new(1, &[2; 8])],
        ..Tune::default()
    };
    let mut draft = tune.draft();
    draft.chunks.push(Chunk::new(b"ODDS", vec![9]));
    let module = draft.bytes();
    let kept = module.len() - 8;
    let frames = pattern_bytes(MOST + 1 - kept);
    replacing!(1, &frames).refuses(&module, 1, 0);
    let frames = &frames[2..];
    draft.chunk(b"SMPL").data = Sample::new(2, frames).bytes();
    let expected = draft.bytes();
    assert_eq!(expected.len(), MOST - 1);
    becomes(&module, 1, frames, &expected, 0);
}

/// A module of the maximum length with as many bytes of new frames, with fewer, and with two bytes more. With one byte more the module
/// itself is refused.
#[test]
fn the_longest_module() {
    let tune = Tune {
        samples: vec![Sample::new(4, &[7; 4_000])],
        instruments: vec![Instrument {
            sample: 1,
            loop_start: 1,
            loop_length: 999,
            flags: 1,
            ..Instrument::default()
        }],
        ..Tune::default()
    };
    let mut module = filled_up(tune.draft(), MOST);
    let after = |frames: &[u8], keeps_loop: bool| {
        let mut after = tune.clone();
        after.samples[0] = Sample::new(2, frames);
        if !keeps_loop {
            let instrument = &mut after.instruments[0];
            (
                instrument.loop_start,
                instrument.loop_length,
                instrument.flags,
            ) = (0, 0, 0);
        }
        filled_up(after.draft(), MOST - 4_000 + frames.len())
    };
    let frames = pattern_bytes(4_002);
    replacing!(1, &frames).refuses(&module, 1, 0);
    replacing!(1, &frames[1..]).refuses(&module, 19, 0);
    for (length, keeps_loop) in [(4_000, true), (2_000, true), (1_998, false), (0, false)] {
        let frames = &frames[..length];
        let expected = after(frames, keeps_loop);
        becomes(&module, 1, frames, &expected, u64::from(!keeps_loop));
    }
    // The frames are the module itself.
    let whole = module.clone();
    replacing!(1, &whole).refuses(&module, 1, 0);
    module.push(0);
    replacing!(1, &frames[..4_000]).refuses(&module, 1, 0);
    replacing!(2, &frames[..3]).refuses(&module, 1, 0);
    let into_null = interface::replace_sample_into_null(&module, 1, &frames);
    assert_eq!(into_null, ReplaceAnswer::refused(1, 0));
}
