//! Modules made from a seed.

use std::collections::BTreeSet;

use reference::chunks::COVERED;
use reference::generate::{damage, module, Limits, Random};
use reference::module::{check, read};
use reference::pattern::repack;

#[test]
fn made_modules_are_accepted() {
    for (most, count) in [(Limits::SMALL, 3_000), (Limits::USUAL, 200)] {
        for seed in 0..count {
            let module = module(&mut Random::new(seed), &most).bytes();
            assert_eq!(check(&module), Ok(()), "seed {seed}");
        }
    }
}

#[test]
fn the_same_seed_makes_the_same_module() {
    let bytes = |seed| module(&mut Random::new(seed), &Limits::USUAL).bytes();
    assert_eq!(bytes(7), bytes(7));
    assert_ne!(bytes(7), bytes(8));
}

#[test]
fn no_more_than_the_most() {
    let most = Limits {
        songs: 0,
        instruments: 3,
        patterns: 1,
        rows: 2,
        tracks: 4,
        samples: 1,
        frames: 9,
        envelopes: 0,
        others: 0,
        ..Limits::SMALL
    };
    for seed in 0..300 {
        let bytes = module(&mut Random::new(seed), &most).bytes();
        let read = read(&bytes).expect("made modules are accepted");
        assert_eq!(read.info.tracks, 4);
        assert!(read.songs.is_empty() && read.volume_envelopes.is_empty());
        assert!(read.instruments.len() <= 3 && read.patterns.len() <= 1);
        assert!(read.patterns.iter().all(|pattern| pattern.rows <= 2));
        assert!(read.samples.iter().all(|sample| sample.frames <= 9));
        assert!(read
            .chunks
            .iter()
            .all(|chunk| COVERED.contains(&chunk.name)));
    }
}

/// Some hundred modules have every kind of item that a module can have.
#[test]
fn made_modules_have_everything() {
    let mut met = BTreeSet::new();
    for seed in 0..500 {
        let bytes = module(&mut Random::new(seed), &Limits::SMALL).bytes();
        let read = read(&bytes).expect("made modules are accepted");
        met.insert(format!("version {}", read.header.version));
        let names: Vec<[u8; 4]> = read.chunks.iter().map(|chunk| chunk.name).collect();
        if !names.starts_with(&[*b"NAME"]) && !names.starts_with(&[*b"INFO"]) {
            met.insert("a chunk before INFO".to_string());
        }
        if !names.iter().all(|name| COVERED.contains(name)) {
            met.insert("another chunk".to_string());
        }
        for instrument in &read.instruments {
            let kind = instrument.flags.value;
            met.insert(format!("looped {} {kind}", instrument.is_looped()));
        }
        for sample in &read.samples {
            met.insert(format!("{} bytes a frame", sample.frame_bytes));
        }
        for pattern in &read.patterns {
            let mut packed = vec![0; pattern.stream.len()];
            let tracks = read.info.tracks;
            let length = repack(pattern.stream, pattern.rows, tracks, &mut packed).unwrap();
            let own = &packed[..length as usize] == pattern.stream;
            met.insert(format!("the packer's own stream: {own}"));
        }
        for envelope in read.volume_envelopes.iter().chain(&read.panning_envelopes) {
            met.insert(format!("envelope flags {}", envelope.flags.value));
        }
        met.insert(format!("songs {}", read.songs.len()));
        met.insert(format!("named {}", read.name.is_some()));
    }
    let mut expected: BTreeSet<String> = [
        "version 2",
        "version 3",
        "a chunk before INFO",
        "another chunk",
        "looped true 1",
        "looped true 2",
        "looped true 3",
        "looped false 0",
        "looped false 1",
        "looped false 2",
        "looped false 3",
        "1 bytes a frame",
        "2 bytes a frame",
        "4 bytes a frame",
        "the packer's own stream: true",
        "the packer's own stream: false",
        "songs 0",
        "songs 1",
        "songs 2",
        "named false",
        "named true",
    ]
    .map(str::to_string)
    .into();
    expected.extend((0..16).map(|flags| format!("envelope flags {flags}")));
    assert_eq!(met, expected);
}

#[test]
fn damage_leads_to_every_refusal() {
    let mut numbers = BTreeSet::new();
    for seed in 0..4_000 {
        let random = &mut Random::new(seed);
        let mut draft = module(random, &Limits::SMALL);
        for _ in 0..1 + seed % 2 {
            damage(random, &mut draft);
        }
        numbers.insert(
            check(&draft.bytes())
                .err()
                .map_or(0, |refusal| refusal.number),
        );
    }
    // 1 is for modules of more than 16,777,216 bytes.
    assert_eq!(
        numbers.into_iter().collect::<Vec<u64>>(),
        [0, 2, 3, 4, 5, 6, 7, 8, 9, 10, 11, 12, 13, 14, 15]
    );
}
