//! The modules whose check, repacking, replacing of a sample and comparing are measured. They are the same on every run.

use reference::chunks::{Name, COVERED};
use reference::draft::{Chunk, Draft, Envelope, Instrument, Pattern, Sample, Song, Tune};

use crate::corpus::{Corpus, Random, ROWS, TRACKS};

/// A module, the draft from which it is written, and the records from which the draft is made.
pub struct Module {
    pub name: &'static str,
    pub holds: String,
    pub tune: Tune,
    pub draft: Draft,
    pub bytes: Vec<u8>,
    /// How often a pass checks it, so that the time of the clock itself is negligible.
    pub repeats: usize,
    /// Whether its patterns are those of a corpus. Then repacking it is measured too.
    pub of_corpus: bool,
    /// The sample that is replaced, if that is measured too. Then comparing the module with a copy of it is also measured.
    pub replacement: Option<Replacement>,
}

/// The number of a sample, and its new frames.
pub struct Replacement {
    pub sample: usize,
    pub frames: Vec<u8>,
}

impl Module {
    fn new(name: &'static str, holds: String, tune: Tune) -> Module {
        let draft = tune.draft();
        Module {
            name,
            holds,
            tune,
            bytes: draft.bytes(),
            draft,
            repeats: 1,
            of_corpus: false,
            replacement: None,
        }
    }
}

/// The sample in the middle gets frames with a quarter of its bytes, so that the loop over its second half is cleared.
fn replacement(samples: usize, sample_bytes: usize) -> Replacement {
    Replacement {
        sample: samples / 2,
        frames: vec![3; sample_bytes / 4],
    }
}

const SMALL_SAMPLES: usize = 32;
const SMALL_SAMPLE_BYTES: usize = 4_096;

const SONGS: usize = 8_000;
const PATTERNS: u16 = 1_024;
const MOST_ENTRIES: u64 = 480;

const ENVELOPES: usize = 15_400;
const POINTS: usize = 32;

const OTHER_CHUNKS: usize = 500_000;
const MOST_OTHER_BYTES: u64 = 8;

const MOST_SAMPLES: usize = 255;
const LARGE_SAMPLE_BYTES: usize = 32_768;
const LARGE_SAMPLES_REPEATS: usize = 100;

/// Bit 0 of an instrument's flags is a forward loop, bit 1 a ping-pong loop.
const LOOPS: [u16; 2] = [1, 2];

pub fn modules(corpora: &[Corpus]) -> Vec<Module> {
    let mut modules: Vec<Module> = corpora.iter().map(of_corpus).collect();
    modules.extend([playlists(), envelopes(), other_chunks(), samples()]);
    modules
}

/// The patterns of a corpus, with two songs over all of them, and instruments of which every second one has a loop.
pub fn of_corpus(corpus: &Corpus) -> Module {
    let samples = many_samples(SMALL_SAMPLES, SMALL_SAMPLE_BYTES);
    let mut instruments = looped(&samples);
    for instrument in instruments.iter_mut().step_by(2) {
        instrument.loop_length = 0;
    }
    let forward: Vec<u16> = (0..corpus.patterns.len() as u16).collect();
    let backward = forward.iter().rev().copied().collect();
    let tune = Tune {
        tracks: TRACKS as u16,
        songs: vec![song(b"forward", forward), song(b"backward", backward)],
        instruments,
        patterns: corpus
            .patterns
            .iter()
            .map(|pattern| Pattern::new(ROWS as u16, &pattern.stream))
            .collect(),
        samples,
        ..Tune::default()
    };
    let holds = format!(
        "the corpus's {} patterns, {SMALL_SAMPLES} instruments, half of them looped, {SMALL_SAMPLES} samples, 2 songs",
        corpus.patterns.len()
    );
    Module {
        of_corpus: true,
        replacement: Some(replacement(SMALL_SAMPLES, SMALL_SAMPLE_BYTES)),
        ..Module::new(corpus.name, holds, tune)
    }
}

fn playlists() -> Module {
    let mut random = Random(11);
    let songs: Vec<Song> = (0..SONGS)
        .map(|_| {
            let entries = random.below(MOST_ENTRIES + 1);
            let pattern = |_| random.below(PATTERNS.into()) as u16;
            song(b"a long evening", (0..entries).map(pattern).collect())
        })
        .collect();
    let entries: usize = songs.iter().map(|song| song.playlist.len()).sum();
    let tune = Tune {
        songs,
        patterns: vec![Pattern::new(1, &[0]); PATTERNS.into()],
        ..Tune::default()
    };
    let holds =
        format!("{SONGS} songs, {entries} entries of playlists, {PATTERNS} patterns of 1 row");
    Module::new("playlists", holds, tune)
}

fn envelopes() -> Module {
    let mut random = Random(12);
    let instruments = vec![Instrument::default(); 255];
    let mut draw = |least: i16, most: i16| -> Vec<Envelope> {
        (0..ENVELOPES)
            .map(|_| envelope(&mut random, instruments.len(), least, most))
            .collect()
    };
    let (volumes, pannings) = (draw(0, 64), draw(-128, 128));
    let tune = Tune {
        instruments,
        volume_envelopes: Some(volumes),
        panning_envelopes: Some(pannings),
        ..Tune::default()
    };
    let holds = format!(
        "{ENVELOPES} volume and {ENVELOPES} panning envelopes, all {POINTS} points of each in use"
    );
    Module::new("envelopes", holds, tune)
}

/// An envelope with any flags and with all points in use.
fn envelope(random: &mut Random, instruments: usize, least: i16, most: i16) -> Envelope {
    let values = (most - least) as u64 + 1;
    let loop_last = random.below(POINTS as u64) as u8;
    Envelope {
        instrument: 1 + random.below(instruments as u64) as u16,
        flags: random.below(16) as u8,
        sections: POINTS as u8 - 1,
        first_sustain: random.below(POINTS as u64) as u8,
        loop_first: random.below(u64::from(loop_last) + 1) as u8,
        loop_last,
        second_sustain: random.below(POINTS as u64) as u8,
        points: (0..POINTS as u16)
            .map(|point| (8 * point, least + random.below(values) as i16))
            .collect(),
    }
}

/// Half of them are before the covered chunks, half of them after.
fn other_chunks() -> Module {
    let mut random = Random(13);
    let mut others = |count: usize| -> Vec<Chunk> {
        (0..count)
            .map(|_| {
                let length = random.below(MOST_OTHER_BYTES + 1);
                let data = (0..length).map(|_| random.byte()).collect();
                Chunk::new(&other_name(&mut random), data)
            })
            .collect()
    };
    let tune = Tune::default();
    let mut draft = tune.draft();
    let mut chunks = others(OTHER_CHUNKS / 2);
    chunks.append(&mut draft.chunks);
    chunks.extend(others(OTHER_CHUNKS / 2));
    draft.chunks = chunks;
    let holds = format!("{OTHER_CHUNKS} chunks of 0 to {MOST_OTHER_BYTES} bytes that are stepped over, in any order of lengths and identifiers");
    Module {
        bytes: draft.bytes(),
        draft,
        ..Module::new("other chunks", holds, tune)
    }
}

/// Four letters that are not the identifier of a covered chunk.
fn other_name(random: &mut Random) -> Name {
    loop {
        let name: Name = std::array::from_fn(|_| b'A' + random.below(26) as u8);
        if !COVERED.contains(&name) {
            return name;
        }
    }
}

/// Each instrument has a loop and its own sample.
fn samples() -> Module {
    let samples = many_samples(MOST_SAMPLES, LARGE_SAMPLE_BYTES);
    let tune = Tune {
        instruments: looped(&samples),
        samples,
        ..Tune::default()
    };
    let holds =
        format!("{MOST_SAMPLES} samples of {LARGE_SAMPLE_BYTES} bytes, {MOST_SAMPLES} looped instruments; {LARGE_SAMPLES_REPEATS} times in a row");
    Module {
        repeats: LARGE_SAMPLES_REPEATS,
        replacement: Some(replacement(MOST_SAMPLES, LARGE_SAMPLE_BYTES)),
        ..Module::new("samples", holds, tune)
    }
}

fn song(name: &[u8], playlist: Vec<u16>) -> Song {
    Song {
        name: name.to_vec(),
        playlist,
    }
}

/// Frames of 1, 2 and 4 bytes in turn.
fn many_samples(count: usize, bytes: usize) -> Vec<Sample> {
    [1, 2, 4]
        .into_iter()
        .cycle()
        .take(count)
        .map(|frame_bytes| Sample::new(frame_bytes, &vec![frame_bytes as u8; bytes]))
        .collect()
}

/// An instrument for each sample, with a loop over its second half.
fn looped(samples: &[Sample]) -> Vec<Instrument> {
    let kinds = LOOPS.into_iter().cycle();
    (1..)
        .zip(samples)
        .zip(kinds)
        .map(|((number, sample), flags)| Instrument {
            name: b"an instrument".to_vec(),
            sample: number,
            volume: 64,
            rate: 22_050,
            loop_start: sample.frames / 2,
            loop_length: sample.frames - sample.frames / 2,
            panning: 0,
            flags,
        })
        .collect()
}
