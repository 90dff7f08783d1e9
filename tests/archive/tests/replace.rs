//! Replacing a sample of a module: libdbm0.a against the reference, and its own properties. DBM0_CASES is the number of random cases and
//! DBM0_SEED the first seed. Modules of the maximum length are in large_replace.rs.

use archive::compare::GuardedOutput;
use archive::masks::{places_in_module, UPPER_BITS};
use archive::modules::{all_values, at_every_alignment, every_change, file};
use archive::queries::ARCHIVE;
use archive::replacing;
use archive::replacing::{
    agrees, library, module_with_many_loops, replaced, sample_block, ReplaceAnswer,
};
use archive::seeds::for_seeds;
use archive::writing::{writes, WritingAnswer};
use reference::corpus::{replacement_cases, Case};
use reference::draft::{Chunk, Instrument, Sample, Song, Tune};
use reference::generate::{bytes, module, Limits, Random};
use reference::module::check;

/// Two samples and three instruments on the second one; SMPL before INST, and PNAM after them. INFO is at 8, SMPL at 26, its second block
/// at 46, INST at 57, its blocks at 65, 115 and 165, PNAM at 231.
const BEFORE: &[u8; 241] = b"DBM0\x02\x21\xDE\xAD\
    INFO\x00\x00\x00\x0A\x00\x03\x00\x02\x00\x00\x00\x00\x00\x06\
    SMPL\x00\x00\x00\x17\
    \x00\x00\x00\x02\x00\x00\x00\x02INST\
    \x00\x00\x00\x01\x00\x00\x00\x03abc\
    INST\x00\x00\x00\x96\
    ping-pong, to the last frame!!\x00\x02\x00\x40\x00\x00\x20\xAB\x00\x00\x00\x01\x00\x00\x00\x02\xFF\x80\x00\x02\
    forward, of the first frame!!!\x00\x02\x00\x00\xFF\xFF\xFF\xFF\x00\x00\x00\x00\x00\x00\x00\x01\x00\x80\x00\x03\
    not looped, and wild numbers!!\x00\x02\x00\x01\x00\x00\x00\x00\xFF\xFF\xFF\xFF\xFF\xFF\xFF\xFF\x00\x00\x00\x00\
    PATT\x00\x00\x00\x00SONG\x00\x00\x00\x00\
    PNAM\x00\x00\x00\x02\x80\x81";

/// Sample 2 has one frame of 16 bits, and the loop of the first instrument is cleared.
const AFTER: &[u8; 240] = b"DBM0\x02\x21\xDE\xAD\
    INFO\x00\x00\x00\x0A\x00\x03\x00\x02\x00\x00\x00\x00\x00\x06\
    SMPL\x00\x00\x00\x16\
    \x00\x00\x00\x02\x00\x00\x00\x02INST\
    \x00\x00\x00\x02\x00\x00\x00\x01\x80\x01\
    INST\x00\x00\x00\x96\
    ping-pong, to the last frame!!\x00\x02\x00\x40\x00\x00\x20\xAB\x00\x00\x00\x00\x00\x00\x00\x00\xFF\x80\x00\x00\
    forward, of the first frame!!!\x00\x02\x00\x00\xFF\xFF\xFF\xFF\x00\x00\x00\x00\x00\x00\x00\x01\x00\x80\x00\x03\
    not looped, and wild numbers!!\x00\x02\x00\x01\x00\x00\x00\x00\xFF\xFF\xFF\xFF\xFF\xFF\xFF\xFF\x00\x00\x00\x00\
    PATT\x00\x00\x00\x00SONG\x00\x00\x00\x00\
    PNAM\x00\x00\x00\x02\x80\x81";

/// The new frames.
const FRAME: &[u8] = b"\x80\x01";

archive::tests_on_modules! {
    agrees: agrees,
    cut: [&BEFORE[..], AFTER, UPPER_BITS],
    valid modules: 6_000,
    damaged modules: 10_000,
}

/// The answer without the number of cleared loops, which is this one on success and 0 on a refusal.
fn clears(loops: u64, is: ReplaceAnswer) -> interface::Answer {
    let expected = match is.number {
        0 => loops,
        _ => 0,
    };
    assert_eq!(is.record.cleared, expected);
    is.answer()
}

#[test]
fn outputs_of_every_length_and_alignment() {
    writes(AFTER, |output| clears(1, library(BEFORE, 2, FRAME, output)));
    writes(AFTER, |output| clears(0, library(AFTER, 2, FRAME, output)));
}

#[test]
fn inputs_at_every_alignment() {
    at_every_alignment(BEFORE, |module, _| {
        replacing!(2, FRAME).answers(module, replaced(240, 1), AFTER);
        Ok(())
    });
    at_every_alignment(FRAME, |frames, _| {
        replacing!(2, frames).answers(BEFORE, replaced(240, 1), AFTER);
        Ok(())
    });
}

/// NULL for the output, the frames and the module if the length is 0.
#[test]
fn memory_of_no_bytes() {
    let into_null = |module: &[u8], sample, frames: &[u8]| {
        interface::replace_sample_into_null(module, sample, frames)
    };
    assert_eq!(into_null(BEFORE, 2, FRAME), ReplaceAnswer::refused(17, 240));
    assert_eq!(into_null(BEFORE, 2, b"abc"), ReplaceAnswer::refused(19, 0));
    assert_eq!(into_null(BEFORE, 3, FRAME), ReplaceAnswer::refused(18, 0));
    assert_eq!(
        into_null(&BEFORE[..240], 2, FRAME),
        ReplaceAnswer::refused(4, 231)
    );
    assert_eq!(into_null(&[], 2, FRAME), ReplaceAnswer::refused(2, 0));
    let mut out = [0xAA; 250];
    let of_null = interface::replace_sample_of_null(2, FRAME, &mut out);
    assert_eq!(of_null, ReplaceAnswer::refused(2, 0));
    let by_null = interface::replace_sample_by_null(BEFORE, 3, &mut out);
    assert_eq!(by_null, ReplaceAnswer::refused(18, 0));
    let by_null = interface::replace_sample_by_null(BEFORE, 2, &mut out[..237]);
    assert_eq!(by_null, ReplaceAnswer::refused(17, 238));
    assert_eq!(out, [0xAA; 250]);
    // No frames: the loops of the first two instruments are cleared.
    let by_null = interface::replace_sample_by_null(BEFORE, 2, &mut out);
    assert_eq!(by_null, replaced(238, 2));
    replacing!(2, b"").answers(BEFORE, replaced(238, 2), &out[..238]);
}

/// `UPPER_BITS` with another sample. The masks keep bits 6 and 7.
const UPPER_BITS_KEPT: &[u8; 104] = b"DBM0\x03\x00\x00\x00\
    INFO\x00\x00\x00\x0A\x00\x00\x00\x01\x00\x00\x00\x02\x00\x04\
    SONG\x00\x00\x00\x00INST\x00\x00\x00\x00\
    PATT\x00\x00\x00\x22\
    \x00\x02\x00\x00\x00\x12\
    \x04\xC1\x47\x02\x42\x09\x01\x80\x00\x03\x7F\x11\x12\x13\x14\x15\x16\x00\
    \x00\x01\x00\x00\x00\x03\x01\xC0\x00\x99\
    SMPL\x00\x00\x00\x0C\x00\x00\x00\x02\x00\x00\x00\x02\x80\x01\x7F\xFE";

/// Into outputs of every length, and with each of the masks changed to every value.
#[test]
fn upper_bits_of_masks() {
    let frames = b"\x80\x01\x7F\xFE";
    writes(UPPER_BITS_KEPT, |output| {
        clears(0, library(UPPER_BITS, 1, frames, output))
    });
    for place in places_in_module(UPPER_BITS) {
        for mask in all_values(0) {
            let mut module = UPPER_BITS.to_vec();
            module[place] = mask;
            let call = replacing!(1, frames);
            call.agrees(&module, &mut Random::new(1)).unwrap();
            if mask & 63 == UPPER_BITS[place] & 63 {
                let mut kept = UPPER_BITS_KEPT.to_vec();
                kept[place] = mask;
                call.answers(&module, replaced(104, 0), &kept);
            }
        }
    }
}

/// The numbers that the request for this call names.
#[test]
fn the_carousel() {
    let carousel = file("carousel.dbm");
    let into = |sample, frames: &[u8], room| {
        library(&carousel, sample, frames, &mut GuardedOutput::new(room))
    };
    let frames: Vec<u8> = (0..128).collect();
    assert_eq!(into(2, &frames[..80], 2_000), replaced(1_168, 1));
    assert_eq!(into(2, &frames, 2_000), replaced(1_216, 0));
    assert_eq!(into(2, &frames[..126], 2_000), replaced(1_214, 1));
    let refused = ReplaceAnswer::refused;
    assert_eq!(into(2, &frames[..79], 2_000), refused(19, 0));
    assert_eq!(into(4, &frames[..3], 2_000), refused(18, 0));
    assert_eq!(into(2, &frames[..80], 1_167), refused(17, 1_168));
    for length in 0..=128 {
        for sample in 0..=4 {
            let frames = &frames[..length];
            let random = &mut Random::new(length as u64);
            replacing!(sample, frames)
                .agrees(&carousel, random)
                .unwrap();
        }
    }
}

/// The cases of the corpus, with the room of the case and around the needed length.
#[test]
fn cases_of_the_corpus() {
    let (mut written, mut cleared) = (0, 0);
    for (index, case) in replacement_cases().iter().enumerate() {
        let Case::Replacement {
            sample,
            room,
            frames,
            module,
        } = case
        else {
            panic!("case {index} is of another kind");
        };
        let sample = *sample as usize;
        let call = replacing!(sample, frames);
        call.into_room(module, *room as usize)
            .and_then(|()| call.agrees(module, &mut Random::new(index as u64)))
            .unwrap_or_else(|what| panic!("case {index}: {what}"));
        let room = module.len() + frames.len();
        let answer = library(module, sample, frames, &mut GuardedOutput::new(room));
        written += u64::from(answer.number == 0);
        cleared += answer.record.cleared;
    }
    assert!(written >= 20 && cleared >= 10, "{written} and {cleared}");
}

/// The module with each byte changed to every value.
#[test]
fn every_change_of_a_byte() {
    every_change(BEFORE, all_values, |module, _| {
        let call = replacing!(2, FRAME);
        [0, 239, 240, 241, 250]
            .into_iter()
            .try_for_each(|room| call.into_room(module, room))
    });
}

/// Each 16-bit sample of a module, replaced by its own frames, which are a part of the module: the module itself.
#[test]
fn its_own_frames() {
    for_seeds(2_000, |random| {
        let module = module(random, &Limits::SMALL).bytes();
        for sample in 1..=usize::from((ARCHIVE.info)(&module).record.samples) {
            let frames = &module[sample_block(&module, sample)][8..];
            let call = replacing!(sample, frames);
            if (ARCHIVE.sample)(&module, sample).record.width == 16 {
                call.answers(&module, replaced(module.len(), 0), &module);
            } else {
                call.agrees(&module, random)?;
            }
        }
        Ok(())
    });
}

/// The frames are any part of the module, up to the whole module.
#[test]
fn frames_inside_the_module() {
    for_seeds(3_000, |random| {
        let module = module(random, &Limits::SMALL).bytes();
        let length = module.len() as u64;
        let (one, other) = (random.below(length + 1), random.below(length + 1));
        let part = &module[one.min(other) as usize..one.max(other) as usize];
        let sample = 1 + random.below(3) as usize;
        replacing!(sample, part).agrees(&module, random)?;
        replacing!(sample, &module[..]).agrees(&module, random)
    });
}

/// INST and SMPL at each place after INFO, with other chunks around them, some with similar names and data.
#[test]
fn chunks_at_every_place() {
    let instrument = |sample, loop_start, flags| Instrument {
        name: b"SMPLINST".to_vec(),
        sample,
        loop_start,
        loop_length: 2,
        flags,
        ..Instrument::default()
    };
    let tune = Tune {
        name: Some(b"SMPL".to_vec()),
        songs: vec![Song {
            name: b"INST".to_vec(),
            playlist: vec![],
        }],
        instruments: vec![
            instrument(1, 2, 1),
            instrument(2, 0, 2),
            instrument(1, 1, 3),
            instrument(0, 9, 0),
        ],
        samples: vec![Sample::new(1, b"SMPL"), Sample::new(4, b"INSTSMPL")],
        volume_envelopes: Some(vec![]),
        ..Tune::default()
    };
    let mut draft = tune.draft().ordered(&[*b"INFO"]);
    draft.chunks.push(Chunk::new(b"SMPM", vec![]));
    draft.chunks.push(Chunk::new(b"INSU", b"SMPL".to_vec()));
    let taken = [b"INST", b"SMPL"].map(|name| {
        let index = draft.index(name);
        draft.chunks.remove(index)
    });
    for first in 1..=draft.chunks.len() {
        for second in 1..=draft.chunks.len() + 1 {
            let mut draft = draft.clone();
            draft.chunks.insert(first, taken[0].clone());
            draft.chunks.insert(second, taken[1].clone());
            let module = draft.bytes();
            check(&module).expect("it is valid");
            for frames in [&b""[..], b"ab", b"abcd", b"abcdef", b"abcdefgh"] {
                for sample in 1..=2 {
                    let random = &mut Random::new(first as u64);
                    replacing!(sample, frames).agrees(&module, random).unwrap();
                }
            }
        }
    }
}

/// Many instruments on few samples, in most cases looped.
#[test]
fn many_loops() {
    let mut cleared = 0;
    for seed in 1..=400 {
        let random = &mut Random::new(seed);
        let module = module_with_many_loops(random);
        let length = 2 * random.below(40);
        let (sample, frames) = (1 + random.below(3) as usize, bytes(random, length));
        replacing!(sample, &frames).agrees(&module, random).unwrap();
        let mut output = GuardedOutput::new(module.len() + frames.len());
        cleared += library(&module, sample, &frames, &mut output)
            .record
            .cleared;
    }
    assert!(cleared > 1_000, "only {cleared}");
}
