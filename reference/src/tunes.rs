//! The files of the folder `samples`: modules, and the frames of a sample.

use crate::draft::{Chunk, Draft, Envelope, Instrument, Pattern, Sample, Song, Tune};
use crate::pattern::{pack, FIELDS};

/// The names and the contents of the modules.
pub fn files() -> [(&'static str, Vec<u8>); 5] {
    [
        ("smallest.dbm", Tune::default().bytes()),
        ("carousel.dbm", echoed(&carousel()).bytes()),
        ("old.dbm", old().bytes()),
        ("short-organ.dbm", echoed(&short_organ()).bytes()),
        ("broken-pattern.dbm", broken_pattern().bytes()),
    ]
}

/// The name and the contents of the file of frames: the 40 frames of the short recording of the organ, each times 256, at 16 bits.
pub fn frames_file() -> (&'static str, Vec<u8>) {
    let frames = organ(40).data;
    let wide = frames
        .into_iter()
        .flat_map(|frame| (256 * i16::from(frame as i8)).to_be_bytes());
    ("short-organ.frames", wide.collect())
}

/// A cell of a pattern: row, track, and the six fields.
type Placed = (usize, usize, [u8; FIELDS]);

/// A pattern of four tracks with the packer's stream.
fn pattern(rows: u16, placed: &[Placed]) -> Pattern {
    let mut cells = vec![0; usize::from(rows) * 4 * FIELDS];
    for (row, track, fields) in placed {
        let start = (4 * row + track - 1) * FIELDS;
        cells[start..start + FIELDS].copy_from_slice(fields);
    }
    let mut stream = vec![0; cells.len() + 9 * usize::from(rows)];
    let length = pack(&cells, u64::from(rows), 4, &mut stream).expect("there is enough room");
    Pattern::new(rows, &stream[..length as usize])
}

/// One note of an instrument.
fn note(row: usize, track: usize, note: u8, instrument: u8) -> Placed {
    (row, track, [note, instrument, 0, 0, 0, 0])
}

const DRUM: u8 = 1;
const ORGAN: u8 = 2;
const BELL: u8 = 3;
const KEY_OFF: u8 = 0x1F;

/// The drum on the first beat of three, an organ chord on the others.
fn waltz(bass: u8, chord: [u8; 2]) -> Vec<Placed> {
    let mut placed = Vec::new();
    for bar in [0, 6] {
        placed.push(note(bar, 1, bass, DRUM));
        for beat in [2, 4] {
            placed.push(note(bar + beat, 2, chord[0], ORGAN));
            placed.push(note(bar + beat, 3, chord[1], ORGAN));
            placed.push(note(bar + beat + 1, 2, KEY_OFF, 0));
        }
    }
    placed
}

/// The tune that the board plays: two songs, three instruments, three patterns.
fn carousel() -> Tune {
    let mut opening = waltz(0x30, [0x44, 0x47]);
    // Tempo 112 with the first note.
    opening[0].2 = [0x30, DRUM, 0, 0, 0x0F, 0x70];
    opening.extend([note(0, 4, 0x50, BELL), note(6, 4, 0x54, BELL)]);
    let mut answer = waltz(0x37, [0x45, 0x4B]);
    answer.extend([note(0, 4, 0x57, BELL), note(8, 4, KEY_OFF, 0)]);
    let ending = [
        note(0, 1, 0x30, DRUM),
        note(0, 2, 0x40, ORGAN),
        (0, 3, [0x47, ORGAN, 0x0C, 0x20, 0, 0]),
        note(0, 4, 0x60, BELL),
        note(5, 2, KEY_OFF, 0),
        note(5, 3, KEY_OFF, 0),
    ];
    Tune {
        revision: 0x05,
        name: Some(b"The Golden Gallopers".to_vec()),
        songs: vec![
            song(b"Morning ride", &[0, 1, 0, 2]),
            song(b"Last ride of the day", &[1, 2]),
        ],
        instruments: vec![
            Instrument {
                volume: 56,
                ..instrument(b"bass drum", 1)
            },
            Instrument {
                loop_start: 16,
                loop_length: 48,
                flags: 1,
                panning: -40,
                ..instrument(b"organ", 2)
            },
            Instrument {
                volume: 40,
                panning: 64,
                ..instrument(b"bell", 3)
            },
        ],
        patterns: vec![
            pattern(12, &opening),
            pattern(12, &answer),
            pattern(6, &ending),
        ],
        samples: vec![drum(), organ(64), bell()],
        volume_envelopes: Some(vec![organ_envelope()]),
        panning_envelopes: Some(vec![bell_envelope()]),
        ..Tune::default()
    }
}

fn song(name: &[u8], playlist: &[u16]) -> Song {
    Song {
        name: name.to_vec(),
        playlist: playlist.to_vec(),
    }
}

fn instrument(name: &[u8], sample: u16) -> Instrument {
    Instrument {
        name: name.to_vec(),
        sample,
        volume: 64,
        rate: 8_363,
        ..Instrument::default()
    }
}

/// The organ swells, is held while the key is down, and fades.
fn organ_envelope() -> Envelope {
    Envelope {
        instrument: u16::from(ORGAN),
        flags: 0b0011,
        sections: 3,
        first_sustain: 2,
        points: vec![(0, 0), (4, 64), (20, 48), (60, 0)],
        ..Envelope::default()
    }
}

/// The bell moves from side to side.
fn bell_envelope() -> Envelope {
    Envelope {
        instrument: u16::from(BELL),
        flags: 0b0101,
        sections: 2,
        loop_last: 2,
        points: vec![(0, -64), (24, 64), (48, -64)],
        ..Envelope::default()
    }
}

/// 16 bits: a wave of eight frames that fades.
fn drum() -> Sample {
    let frames = (0..48).map(|frame: i16| {
        let level = (48 - frame) * 600;
        if frame % 8 < 4 {
            level
        } else {
            -level
        }
    });
    Sample::new(2, &frames.flat_map(i16::to_be_bytes).collect::<Vec<u8>>())
}

/// 8 bits: a triangle of 16 frames, repeated.
fn organ(frames: i8) -> Sample {
    let frames = (0..frames).map(|frame| 12 * ((frame % 16 - 8).abs() - 4));
    Sample::new(1, &frames.flat_map(i8::to_be_bytes).collect::<Vec<u8>>())
}

/// 32 bits: two frames up and two down, fading.
fn bell() -> Sample {
    let frames = (0..24).map(|frame: i32| {
        let level = (24 - frame) * 80_000_000;
        [level, level / 2, -level, -level / 2][frame as usize % 4]
    });
    Sample::new(4, &frames.flat_map(i32::to_be_bytes).collect::<Vec<u8>>())
}

/// The module's chunks, and after them the echo: off for each of four tracks, then its four numbers.
fn echoed(tune: &Tune) -> Draft {
    let echo = [0, 4, 1, 1, 1, 1, 0, 64, 0, 128, 0, 128, 0, 255];
    let mut draft = tune.draft();
    draft.chunks.push(Chunk::new(b"DSPE", echo.to_vec()));
    draft
}

/// The organ's sample is replaced by a shorter recording. The instrument keeps its loop.
fn short_organ() -> Tune {
    let mut tune = carousel();
    tune.samples[1] = organ(40);
    tune
}

/// The packed length of the second pattern includes the filler, as in the files of some programs.
fn broken_pattern() -> Draft {
    let tune = carousel();
    let [first, second] = [&tune.patterns[0], &tune.patterns[1]];
    let length = second.stream.len() as u32;
    assert!(length % 2 == 1, "a filler follows");
    let mut draft = echoed(&tune);
    draft.put(
        b"PATT",
        first.bytes().len() + 2,
        &(length + 1).to_be_bytes(),
    );
    draft
}

/// A tune of the older program. Its panning envelopes are stored as 0 to 64, but the panning of its instruments is not.
fn old() -> Tune {
    let placed = [
        note(0, 1, 0x40, 1),
        note(2, 2, 0x44, 1),
        note(4, 3, 0x47, 1),
        note(6, 4, KEY_OFF, 0),
    ];
    Tune {
        version: 2,
        revision: 0x21,
        name: Some(b"Village fair".to_vec()),
        songs: vec![song(b"Village fair", &[0, 0])],
        instruments: vec![Instrument {
            panning: -128,
            ..instrument(b"fife", 1)
        }],
        patterns: vec![pattern(8, &placed)],
        samples: vec![organ(32)],
        panning_envelopes: Some(vec![Envelope {
            instrument: 1,
            flags: 0b0001,
            sections: 2,
            points: vec![(0, 0), (10, 32), (20, 64)],
            ..Envelope::default()
        }]),
        ..Tune::default()
    }
}
