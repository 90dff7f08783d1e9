//! Tests of the comparison of the queries: it finds no difference between the reference and itself, and it detects each of these wrong
//! queries.

use archive::compare::GuardedOutput;
use archive::masks;
use archive::modules;
use archive::queries::{refused, success, Queries, REFERENCE};
use archive::records::all;
use interface::{Answer, Envelope, RecordAnswer};
use reference::draft::{Sample, Tune};
use reference::generate::Random;

/// The number of modules with a difference.
fn differences(library: Queries) -> usize {
    modules::some(60)
        .iter()
        .filter(|module| all(&library, module, &mut Random::new(1)).is_err())
        .count()
}

#[track_caller]
fn noticed(library: Queries) {
    let differences = differences(library);
    assert!(differences >= 3, "only {differences}");
}

#[test]
fn nothing_between_the_reference_and_itself() {
    assert_eq!(differences(REFERENCE), 0);
}

/// A query that refuses everything, and one that returns a record of zeros for everything.
#[test]
fn one_record_for_everything() {
    macro_rules! always {
        ($query:ident, |$($asked:tt),*|) => {
            noticed(Queries { $query: |$($asked),*| refused(18, 0), ..REFERENCE });
            noticed(Queries { $query: |$($asked),*| success(Default::default()), ..REFERENCE });
        };
    }
    always!(version, |_|);
    always!(name, |_|);
    always!(info, |_|);
    always!(song, |_, _|);
    always!(entry, |_, _, _|);
    always!(instrument, |_, _|);
    always!(volume_envelopes, |_|);
    always!(panning_envelopes, |_|);
    always!(volume_envelope, |_, _|);
    always!(panning_envelope, |_, _|);
    always!(rows, |_, _|);
    always!(cell, |_, _, _, _|);
    always!(sample, |_, _|);
    always!(frames, |_, _|);
    always!(frame, |_, _, _|);
}

/// The query about rows and the one about cells refuse modules with bit 6 or 7 in a mask.
#[test]
fn upper_bits_of_masks() {
    fn refusal(module: &[u8]) -> Option<usize> {
        let refusal = masks::check_module::<0xC0, 63>(module);
        (refusal.number == 15).then_some(refusal.place as usize)
    }
    noticed(Queries {
        rows: |module, pattern| match refusal(module) {
            Some(place) => refused(15, place as u64),
            None => (REFERENCE.rows)(module, pattern),
        },
        ..REFERENCE
    });
    noticed(Queries {
        cells: |module, pattern, output| match refusal(module) {
            Some(place) => Answer::refused(15, place),
            None => (REFERENCE.cells)(module, pattern, output),
        },
        ..REFERENCE
    });
}

type Filling = fn(&[u8], usize, &mut GuardedOutput) -> Answer;

/// Each of the three queries that fill an output, with the same fault.
macro_rules! noticed_in_outputs {
    ($wrong:ident) => {
        noticed(Queries {
            playlist: |module, song, output| $wrong(REFERENCE.playlist, module, song, output),
            ..REFERENCE
        });
        noticed(Queries {
            cells: |module, pattern, output| $wrong(REFERENCE.cells, module, pattern, output),
            ..REFERENCE
        });
        noticed(Queries {
            all_frames: |module, sample, output| {
                $wrong(REFERENCE.all_frames, module, sample, output)
            },
            ..REFERENCE
        });
    };
}

#[test]
fn outputs_with_nothing_written() {
    fn wrong(right: Filling, module: &[u8], number: usize, output: &mut GuardedOutput) -> Answer {
        let room = output.slice().len();
        right(module, number, &mut GuardedOutput::new(room))
    }
    noticed_in_outputs!(wrong);
}

#[test]
fn outputs_with_the_first_bytes_only() {
    fn wrong(right: Filling, module: &[u8], number: usize, output: &mut GuardedOutput) -> Answer {
        let answer = right(module, number, output);
        output.slice()[..answer.length as usize]
            .iter_mut()
            .skip(2)
            .for_each(|byte| *byte = 0);
        answer
    }
    noticed_in_outputs!(wrong);
}

#[test]
fn outputs_with_an_extra_byte() {
    fn wrong(right: Filling, module: &[u8], number: usize, output: &mut GuardedOutput) -> Answer {
        let answer = right(module, number, output);
        if let Some(byte) = output.slice().get_mut(answer.length as usize) {
            *byte ^= 1;
        }
        answer
    }
    noticed_in_outputs!(wrong);
}

/// The guards are before and after the output.
#[test]
fn outputs_with_a_byte_outside() {
    fn before(right: Filling, module: &[u8], number: usize, output: &mut GuardedOutput) -> Answer {
        output.bytes[63] ^= 1;
        right(module, number, output)
    }
    fn after(right: Filling, module: &[u8], number: usize, output: &mut GuardedOutput) -> Answer {
        let end = 64 + output.slice().len();
        output.bytes[end] ^= 1;
        right(module, number, output)
    }
    noticed_in_outputs!(before);
    noticed_in_outputs!(after);
}

#[test]
fn outputs_cleared_on_a_refusal() {
    fn wrong(right: Filling, module: &[u8], number: usize, output: &mut GuardedOutput) -> Answer {
        let answer = right(module, number, output);
        if answer.number == 17 {
            output.slice().fill(0);
        }
        answer
    }
    noticed_in_outputs!(wrong);
}

/// The length of the output instead of the needed length, or one byte more.
#[test]
fn another_needed_length() {
    fn lent_one(
        right: Filling,
        module: &[u8],
        number: usize,
        output: &mut GuardedOutput,
    ) -> Answer {
        let answer = right(module, number, output);
        let place = match answer.number {
            17 => output.slice().len() as u64,
            _ => answer.place,
        };
        Answer { place, ..answer }
    }
    fn one_more(
        right: Filling,
        module: &[u8],
        number: usize,
        output: &mut GuardedOutput,
    ) -> Answer {
        let answer = right(module, number, output);
        let place = answer.place + u64::from(answer.number == 17);
        Answer { place, ..answer }
    }
    noticed_in_outputs!(lent_one);
    noticed_in_outputs!(one_more);
}

#[test]
fn outputs_that_give_17_before_18() {
    fn wrong(right: Filling, module: &[u8], number: usize, output: &mut GuardedOutput) -> Answer {
        let answer = right(module, number, output);
        if answer.number == 18 && output.slice().is_empty() {
            return Answer::refused(17, 2);
        }
        answer
    }
    noticed_in_outputs!(wrong);
}

/// A query for an item that does not exist in a refused module still returns the module's refusal.
#[test]
fn a_query_that_gives_18_first() {
    noticed(Queries {
        instrument: |module, number| match number {
            0 => refused(18, 0),
            _ => (REFERENCE.instrument)(module, number),
        },
        ..REFERENCE
    });
}

#[test]
fn a_record_beside_a_refusal() {
    noticed(Queries {
        instrument: |module, number| {
            let mut answer = (REFERENCE.instrument)(module, number);
            if answer.number != 0 {
                answer.record.flags = 1;
            }
            answer
        },
        ..REFERENCE
    });
    noticed(Queries {
        frames: |module, number| {
            let mut answer = (REFERENCE.frames)(module, number);
            if answer.number != 0 {
                answer.record.offset = 8;
            }
            answer
        },
        ..REFERENCE
    });
}

/// Instruments, samples and tracks are counted from 1, everything else from 0.
#[test]
fn numbers_counted_from_elsewhere() {
    noticed(Queries {
        song: |module, song| (REFERENCE.song)(module, song.wrapping_sub(1)),
        ..REFERENCE
    });
    noticed(Queries {
        instrument: |module, number| (REFERENCE.instrument)(module, number.wrapping_add(1)),
        ..REFERENCE
    });
    noticed(Queries {
        sample: |module, number| (REFERENCE.sample)(module, number.wrapping_add(1)),
        ..REFERENCE
    });
    noticed(Queries {
        cell: |module, pattern, row, track| {
            (REFERENCE.cell)(module, pattern, row, track.wrapping_add(1))
        },
        ..REFERENCE
    });
    noticed(Queries {
        frame: |module, sample, frame| (REFERENCE.frame)(module, sample, frame.wrapping_sub(1)),
        ..REFERENCE
    });
}

/// A number is not truncated to fewer bits.
#[test]
fn numbers_cut_to_few_bits() {
    noticed(Queries {
        rows: |module, pattern| (REFERENCE.rows)(module, pattern & 0xFFFF),
        ..REFERENCE
    });
    noticed(Queries {
        entry: |module, song, entry| (REFERENCE.entry)(module, song, entry & 0xFFFF_FFFF),
        ..REFERENCE
    });
    noticed(Queries {
        frame: |module, sample, frame| (REFERENCE.frame)(module, sample, frame & 0xFFFF_FFFF),
        ..REFERENCE
    });
}

#[test]
fn panning_of_an_instrument_scaled_in_version_2() {
    noticed(Queries {
        instrument: |module, number| {
            let mut answer = (REFERENCE.instrument)(module, number);
            if answer.number == 0 && module[4] == 2 {
                answer.record.panning = answer.record.panning.wrapping_mul(4) - 128;
            }
            answer
        },
        ..REFERENCE
    });
}

/// A panning envelope with changed points, in version 2 only.
fn panning_of_version_2(
    module: &[u8],
    number: usize,
    change: fn(&mut Envelope, usize),
) -> RecordAnswer<Envelope> {
    let mut answer = (REFERENCE.panning_envelope)(module, number);
    if answer.number == 0 && module[4] == 2 {
        let in_use = usize::from(answer.record.sections) + 1;
        change(&mut answer.record, in_use);
    }
    answer
}

#[test]
fn panning_of_version_2_as_it_is_stored() {
    noticed(Queries {
        panning_envelope: |module, number| {
            panning_of_version_2(module, number, |envelope, in_use| {
                for value in &mut envelope.values[..in_use] {
                    *value = (*value + 128) / 4;
                }
            })
        },
        ..REFERENCE
    });
}

#[test]
fn points_that_are_not_in_use_scaled_too() {
    noticed(Queries {
        panning_envelope: |module, number| {
            panning_of_version_2(module, number, |envelope, in_use| {
                envelope.values[in_use..].fill(-128);
            })
        },
        ..REFERENCE
    });
}

#[test]
fn one_point_too_few() {
    noticed(Queries {
        volume_envelope: |module, number| {
            let mut answer = (REFERENCE.volume_envelope)(module, number);
            let last = usize::from(answer.record.sections);
            answer.record.positions[last] = 0;
            answer.record.values[last] = 0;
            answer
        },
        ..REFERENCE
    });
}

#[test]
fn a_kind_of_envelopes_for_the_other() {
    noticed(Queries {
        volume_envelope: REFERENCE.panning_envelope,
        ..REFERENCE
    });
    noticed(Queries {
        panning_envelopes: REFERENCE.volume_envelopes,
        ..REFERENCE
    });
}

/// 32-bit frames divided and rounded towards 0. The frame is read from the module itself.
#[test]
fn frames_rounded_to_zero() {
    noticed(Queries {
        frame: |module, sample, frame| {
            let mut answer = (REFERENCE.frame)(module, sample, frame);
            let part = (REFERENCE.frames)(module, sample).record;
            if answer.number == 0 && (REFERENCE.sample)(module, sample).record.width == 32 {
                let place = part.offset as usize + 4 * frame;
                let stored = module[place..place + 4].try_into().expect("four bytes");
                answer.record = (i32::from_be_bytes(stored) / 65_536) as i16;
            }
            answer
        },
        ..REFERENCE
    });
}

#[test]
fn frames_with_the_bytes_before_them() {
    noticed(Queries {
        frames: |module, sample| {
            let mut answer = (REFERENCE.frames)(module, sample);
            answer.record.offset = answer.record.offset.saturating_sub(8);
            answer
        },
        ..REFERENCE
    });
}

/// If there are no frames, their place can be anywhere inside the module, but not outside.
#[test]
fn no_frames_elsewhere() {
    let tune = Tune {
        samples: vec![Sample::new(2, &[])],
        ..Tune::default()
    };
    let module = tune.bytes();
    let elsewhere = Queries {
        frames: |module, sample| {
            let mut answer = (REFERENCE.frames)(module, sample);
            if answer.number == 0 && answer.record.length == 0 {
                answer.record.offset = 3;
            }
            answer
        },
        ..REFERENCE
    };
    assert_eq!(all(&elsewhere, &module, &mut Random::new(1)), Ok(()));
    let outside = Queries {
        frames: |module, sample| {
            let mut answer = (REFERENCE.frames)(module, sample);
            if answer.number == 0 && answer.record.length == 0 {
                answer.record.offset = module.len() as u64 + 1;
            }
            answer
        },
        ..REFERENCE
    };
    let what = all(&outside, &module, &mut Random::new(1)).unwrap_err();
    assert!(what.contains("outside the module"), "{what}");
}
