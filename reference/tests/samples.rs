//! The files in `samples`, with expectations typed by hand.

use reference::listing::listing;
use reference::module::{check, read};
use reference::records::{all_frames, instrument, sample, Sample};
use reference::refusal::Refusal;
use reference::replace::{replace_sample, Replaced};
use reference::tunes::{files, frames_file};

const SMALLEST: &[u8] = include_bytes!("../../samples/smallest.dbm");
const CAROUSEL: &[u8] = include_bytes!("../../samples/carousel.dbm");
const OLD: &[u8] = include_bytes!("../../samples/old.dbm");
const SHORT_ORGAN: &[u8] = include_bytes!("../../samples/short-organ.dbm");
const BROKEN_PATTERN: &[u8] = include_bytes!("../../samples/broken-pattern.dbm");
const SHORT_ORGAN_FRAMES: &[u8] = include_bytes!("../../samples/short-organ.frames");

#[test]
fn the_files_are_those_that_are_made() {
    let there = [
        ("smallest.dbm", SMALLEST),
        ("carousel.dbm", CAROUSEL),
        ("old.dbm", OLD),
        ("short-organ.dbm", SHORT_ORGAN),
        ("broken-pattern.dbm", BROKEN_PATTERN),
    ];
    let made = files();
    assert_eq!(made.len(), there.len());
    for ((name, bytes), (made_name, made_bytes)) in there.into_iter().zip(made) {
        assert_eq!(name, made_name);
        assert!(bytes == made_bytes, "{name}");
    }
    assert_eq!(
        frames_file(),
        ("short-organ.frames", SHORT_ORGAN_FRAMES.to_vec())
    );
}

/// The table in the folder's README: file, contents, first line.
#[test]
fn the_readme_has_the_first_line() {
    let readme = include_str!("../../samples/README.md");
    for (name, bytes) in files() {
        let row = readme
            .lines()
            .find(|row| row.starts_with(&format!("| `{name}` | ")))
            .expect("a row for each file");
        let text = listing(&bytes);
        let first = text.lines().next().expect("a first line");
        assert!(row.ends_with(&format!(" | `{first}` |")), "{name}: {first}");
    }
    let row = readme
        .lines()
        .find(|row| row.starts_with("| `short-organ.frames` | "));
    assert!(row.is_some_and(|row| row.ends_with(" | 80 bytes |")));
}

#[test]
fn smallest() {
    assert_eq!(check(SMALLEST), Ok(()));
    assert_eq!(
        listing(SMALLEST),
        "version 3.00\ninstruments 0\nsamples 0\nsongs 0\npatterns 0\ntracks 4\naccepted 58\n"
    );
}

#[test]
fn carousel() {
    assert_eq!(check(CAROUSEL), Ok(()));
    assert_eq!(
        listing(CAROUSEL),
        "version 3.05\ninstruments 3\nsamples 3\nsongs 2\npatterns 3\ntracks 4\naccepted 1152\n"
    );
    let module = read(CAROUSEL).unwrap();
    let names: Vec<[u8; 4]> = module.chunks.iter().map(|chunk| chunk.name).collect();
    assert_eq!(
        names,
        [
            *b"NAME", *b"INFO", *b"VENV", *b"PENV", *b"SONG", *b"INST", *b"PATT", *b"SMPL",
            *b"DSPE"
        ]
    );
    let widths: Vec<u64> = module
        .samples
        .iter()
        .map(|sample| sample.frame_bytes)
        .collect();
    assert_eq!(widths, [2, 1, 4]);
    let looped: Vec<bool> = module
        .instruments
        .iter()
        .map(|instrument| instrument.is_looped())
        .collect();
    assert_eq!(looped, [false, true, false]);
    assert_eq!(&module.instruments[1].name[..6], b"organ\0");
    assert_eq!(module.volume_envelopes.len(), 1);
    assert_eq!(module.panning_envelopes.len(), 1);
}

#[test]
fn old() {
    assert_eq!(check(OLD), Ok(()));
    assert_eq!(
        listing(OLD),
        "version 2.21\ninstruments 1\nsamples 1\nsongs 1\npatterns 1\ntracks 4\naccepted 426\n"
    );
    let module = read(OLD).unwrap();
    let values: Vec<u64> = module.panning_envelopes[0]
        .values_in_use()
        .map(|value| value.value)
        .collect();
    assert_eq!(values, [0, 32, 64]);
    assert_eq!(module.instruments[0].panning.signed(), -128);
}

/// NAME at 8, INFO at 60, VENV at 78, PENV at 224, SONG at 370, INST at 482: the second block is at 482 + 8 + 50.
#[test]
fn short_organ() {
    let refusal = Refusal {
        number: 14,
        place: 540,
    };
    assert_eq!(check(SHORT_ORGAN), Err(refusal));
    assert_eq!(listing(SHORT_ORGAN), "refused 14 at 540\n");
    // 24 frames of 8 bits less, and the same bytes up to the length of SMPL.
    assert_eq!(SHORT_ORGAN.len(), 1152 - 24);
    assert_eq!(SHORT_ORGAN[..848], CAROUSEL[..848]);
}

/// PATT at 640: the first block has 6 + 74 bytes, so the second is at 640 + 8 + 80.
#[test]
fn broken_pattern() {
    let refusal = Refusal {
        number: 15,
        place: 728,
    };
    assert_eq!(check(BROKEN_PATTERN), Err(refusal));
    assert_eq!(listing(BROKEN_PATTERN), "refused 15 at 728\n");
    // Only the packed length differs. In the valid module it is 71.
    let different: Vec<usize> = (0..1152)
        .filter(|&place| BROKEN_PATTERN[place] != CAROUSEL[place])
        .collect();
    assert_eq!(different, [733]);
    assert_eq!((CAROUSEL[733], BROKEN_PATTERN[733]), (71, 72));
}

/// A wave of 16 frames, two and a half times. The high byte of a frame is the 8-bit one, and the low byte is 0.
#[test]
fn short_organ_frames() {
    let wave = [
        48, 36, 24, 12, 0, -12, -24, -36, -48, -36, -24, -12, 0, 12, 24, 36,
    ]
    .map(|frame: i16| 256 * frame);
    let typed: Vec<i16> = wave.into_iter().cycle().take(40).collect();
    let bytes: Vec<u8> = typed.into_iter().flat_map(i16::to_be_bytes).collect();
    assert_eq!(SHORT_ORGAN_FRAMES, bytes);
    assert_eq!(SHORT_ORGAN_FRAMES.len(), 80);
    assert_eq!(SHORT_ORGAN_FRAMES[..8], [48, 0, 36, 0, 24, 0, 12, 0]);
    assert_eq!(
        SHORT_ORGAN_FRAMES[72..],
        [0x00, 0, 0xF4, 0, 0xE8, 0, 0xDC, 0]
    );
}

/// The short recording, put into the tune as 16 bits. The organ's loop of 16 + 48 does not fit 40 frames and is cleared.
#[test]
fn carousel_with_the_short_organ() {
    let mut out = [0xAA; 1_170];
    let replaced = replace_sample(CAROUSEL, 2, SHORT_ORGAN_FRAMES, &mut out);
    let expected = Replaced {
        length: 1_168,
        cleared: 1,
    };
    assert_eq!(replaced, Ok(expected));
    let (module, after) = out.split_at(1_168);
    assert_eq!(after, [0xAA; 2]);
    assert_eq!(check(module), Ok(()));
    let short = Sample {
        width: 16,
        frames: 40,
    };
    assert_eq!(sample(module, 2), Ok(short));
    let mut frames = [0; 80];
    assert_eq!(all_frames(module, 2, &mut frames), Ok(80));
    assert_eq!(frames, SHORT_ORGAN_FRAMES);
    let organ = instrument(module, 2).unwrap();
    assert_eq!(
        (organ.loop_start, organ.loop_length, organ.flags),
        (0, 0, 0)
    );
    assert_eq!((organ.sample, organ.panning), (2, -40));
    assert_eq!(
        listing(module),
        "version 3.05\ninstruments 3\nsamples 3\nsongs 2\npatterns 3\ntracks 4\naccepted 1168\n"
    );
}
