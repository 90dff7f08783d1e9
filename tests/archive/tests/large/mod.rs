//! Modules of the maximum length, and longer ones. The expected answers are also typed by hand.

use archive::compare::{self, ARCHIVE};
use archive::large::{fill_playlists, filled_up, with_last, MOST};
use interface::ModuleAnswer;
use reference::draft::{Chunk, Envelope, Instrument, Pattern, Sample, Song, Tune};

/// The archive agrees with the reference, and this is the answer.
#[track_caller]
fn gives(module: &[u8], number: u64, place: usize) {
    if let Err(what) = compare::module(ARCHIVE, module) {
        panic!("{what}");
    }
    let place = place as u64;
    assert_eq!(
        interface::check_module(module),
        ModuleAnswer { number, place }
    );
}

#[track_caller]
fn accepted(module: &[u8]) {
    gives(module, 0, 0);
}

/// The module is refused if the byte at this place is changed. The byte is restored afterwards.
#[track_caller]
fn refused_with(module: &mut [u8], place: usize, byte: u8, (number, at): (u64, usize)) {
    let stored = std::mem::replace(&mut module[place], byte);
    gives(module, number, at);
    module[place] = stored;
}

#[test]
fn a_long_other_chunk() {
    for length in [MOST - 1, MOST] {
        accepted(&filled_up(Tune::default().draft(), length));
    }
    let mut module = filled_up(Tune::default().draft(), MOST);
    // The chunk is at 8. INFO follows it, 50 bytes before the end. The chunk's data ends one byte sooner or later.
    let stored = module[15];
    refused_with(&mut module, 15, stored - 1, (5, MOST - 51));
    refused_with(&mut module, 15, stored + 1, (5, MOST - 49));
    // The length is the largest possible, exactly what is left, or one more.
    module[12..16].copy_from_slice(&[0xFF; 4]);
    gives(&module, 4, 8);
    module[12..16].copy_from_slice(&u32::to_be_bytes(MOST as u32 - 16));
    gives(&module, 8, MOST);
    module[12..16].copy_from_slice(&u32::to_be_bytes(MOST as u32 - 15));
    gives(&module, 4, 8);
}

#[test]
fn one_byte_too_many() {
    gives(&filled_up(Tune::default().draft(), MOST + 1), 1, 0);
    let mut module = filled_up(Tune::default().draft(), MOST);
    module.push(0);
    gives(&module, 1, 0);
    gives(&vec![0; MOST], 2, 0);
    gives(&vec![0; MOST + 1], 1, 0);
    gives(&vec![0xFF; 4 * MOST], 1, 0);
}

/// A sample that takes nearly the whole module, with frames of each width and a loop to its end.
#[test]
fn a_long_sample() {
    for width in [1, 2, 4] {
        let frames = (MOST - 200) / width;
        let mut tune = Tune {
            samples: vec![Sample::new(width as u32, &vec![0x80; frames * width])],
            instruments: vec![Instrument {
                sample: 1,
                loop_start: frames as u32 - 1_000,
                loop_length: 1_000,
                flags: 2,
                ..Instrument::default()
            }],
            ..Tune::default()
        };
        accepted(&filled_up(tune.draft(), MOST));
        // SMPL is the last chunk, so its header is 16 bytes before the frames, and the block 8 bytes.
        let mut module = tune.bytes();
        let smpl = module.len() - frames * width - 16;
        accepted(&module);
        let low = module[smpl + 15];
        refused_with(&mut module, smpl + 15, low ^ 1, (11, smpl));
        refused_with(&mut module, smpl + 12, 0xFF, (11, smpl));
        for wrong in [0, 3, 5, 8, 255] {
            refused_with(&mut module, smpl + 11, wrong, (11, smpl));
        }
        tune.instruments[0].loop_length += 1;
        // INST follows INFO and an empty SONG at 8 + 18 + 8. Its first block is 8 bytes further.
        gives(&tune.bytes(), 14, 42);
    }
}

/// 32,767 songs, with playlists that fill the module. The longest have 65,535 entries.
#[test]
fn all_songs() {
    let mut tune = Tune {
        songs: vec![Song::default(); 32_767],
        patterns: vec![Pattern::default(); 1_024],
        ..Tune::default()
    };
    fill_playlists(&mut tune);
    let mut module = with_last(&tune, b"SONG").bytes();
    assert_eq!(module.len(), MOST);
    accepted(&module);
    // The last song has 65,535 entries and is at the end. Its last entry is 1,022.
    let song = module.len() - 2 * 65_535 - 46;
    let header = MOST
        - tune
            .songs
            .iter()
            .map(|song| song.bytes().len())
            .sum::<usize>()
        - 8;
    refused_with(&mut module, MOST - 2, 4, (12, MOST - 2));
    refused_with(&mut module, song + 45, 0xFE, (11, header));
    refused_with(&mut module, header + 3, b'H', (8, MOST));
    // One song less in INFO, which is at 8.
    refused_with(&mut module, 8 + 8 + 5, 0xFE, (11, header));
    refused_with(&mut module, 8 + 8 + 4, 0x80, (10, 8 + 8 + 4));
}

/// The maximum counts in INFO, and no blocks.
#[test]
fn counts_without_blocks() {
    let mut module = Tune::default().bytes();
    module[16..24].copy_from_slice(&[0, 255, 0, 255, 0x7F, 0xFF, 4, 0]);
    // SONG has too few blocks. If it needs none, INST is at fault, then PATT, then SMPL: 8 bytes each, starting at 26.
    gives(&module, 11, 26);
    module[20..22].fill(0);
    gives(&module, 11, 34);
    module[16..18].fill(0);
    gives(&module, 11, 42);
    module[22..24].fill(0);
    gives(&module, 11, 50);
    module[18..20].fill(0);
    accepted(&module);
}

/// 1,024 patterns of 254 full tracks.
#[test]
fn all_patterns() {
    let row: Vec<u8> = (1..=254)
        .flat_map(|track| [track, 0x3F, 1, 2, 3, 4, 5, 6])
        .chain([0])
        .collect();
    let pattern = Pattern::new(8, &row.repeat(8));
    let tune = Tune {
        tracks: 254,
        patterns: vec![pattern.clone(); 1_024],
        ..Tune::default()
    };
    let mut module = filled_up(with_last(&tune, b"PATT"), MOST);
    accepted(&module);
    let block = pattern.bytes().len();
    let (first, last) = (MOST - 1_024 * block, MOST - block);
    // Bits 6 and 7 of the last mask have no effect.
    let mask = MOST - 1 - 7;
    for upper in [0x7F, 0xBF, 0xFF] {
        module[mask] = upper;
        accepted(&module);
    }
    // The last row end, a track that is too high, a field more than is there; and a fault in the first pattern comes before one in the last.
    refused_with(&mut module, MOST - 1, 1, (15, last));
    refused_with(&mut module, last + 6, 255, (15, last));
    refused_with(&mut module, mask, 0xDF, (15, last));
    module[MOST - 1] = 1;
    refused_with(&mut module, first + 1, 7, (15, first));
    module[MOST - 1] = 0;
    refused_with(&mut module, first + 5, 0, (11, first - 8));
}

/// One pattern of 65,535 rows that fills the module.
#[test]
fn a_long_pattern() {
    const ROWS: usize = 65_535;
    let mut stream = [2, 0x3F, 1, 2, 3, 4, 5, 6].repeat(31);
    stream.push(0);
    let mut stream = stream.repeat(ROWS);
    // Entries without fields until the module is full. The length is odd, so a filler follows.
    let mut first = [254, 0].repeat((MOST - 58 - 6 - 1 - stream.len()) / 2);
    first.append(&mut stream);
    assert_eq!(first.len() % 2, 1);
    let tune = Tune {
        tracks: 254,
        patterns: vec![Pattern::new(ROWS as u16, &first)],
        ..Tune::default()
    };
    let mut module = with_last(&tune, b"PATT").bytes();
    assert_eq!(module.len(), MOST);
    accepted(&module);
    let block = MOST - 1 - first.len() - 6;
    // The filler can have any value. The last row end is before it.
    for filler in [1, 0xFF] {
        module[MOST - 1] = filler;
        accepted(&module);
    }
    refused_with(&mut module, MOST - 2, 2, (15, block));
    refused_with(&mut module, block + 1, 0xFE, (15, block));
    refused_with(&mut module, 8 + 8 + 9, 252, (15, block));
}

/// 255 instruments, each looped to the end of another of 255 samples.
#[test]
fn all_instruments_and_samples() {
    const COUNT: usize = 255;
    let frames = |sample: usize| 16_000 + sample;
    let tune = Tune {
        samples: (1..=COUNT)
            .map(|sample| {
                let width = [1, 2, 4][sample % 3];
                Sample::new(width as u32, &vec![0x7F; frames(sample) * width])
            })
            .collect(),
        instruments: (0..COUNT)
            .map(|index| Instrument {
                sample: (COUNT - index) as u16,
                volume: 64,
                loop_start: 1_000,
                loop_length: frames(COUNT - index) as u32 - 1_000,
                flags: 1 + (index % 3) as u16,
                ..Instrument::default()
            })
            .collect(),
        ..Tune::default()
    };
    let mut module = filled_up(with_last(&tune, b"INST"), MOST);
    accepted(&module);
    let first = MOST - COUNT * 50;
    for index in 0..COUNT {
        let block = first + 50 * index;
        // The loop begins one frame later. It is no loop if the flags are 0.
        let stored = module[block + 41];
        refused_with(&mut module, block + 41, stored + 1, (14, block));
        refused_with(&mut module, block + 38, 0xFF, (14, block));
        refused_with(&mut module, block + 31, 0, (14, block));
        refused_with(&mut module, block + 30, 1, (12, block + 30));
        refused_with(&mut module, block + 33, 65, (13, block + 32));
        refused_with(&mut module, block + 49, 4, (13, block + 48));
    }
    for index in 0..COUNT {
        module[first + 50 * index + 41] += 1;
        module[first + 50 * index + 49] = 0;
    }
    accepted(&module);
}

/// 65,535 volume envelopes of one section, and as many panning envelopes of 31 sections as fit.
#[test]
fn all_envelopes() {
    let volume = Envelope {
        instrument: 255,
        sections: 1,
        points: vec![(0xFFFF, 64); 2],
        ..Envelope::default()
    };
    let panning = Envelope {
        instrument: 1,
        flags: 0x0F,
        sections: 31,
        first_sustain: 31,
        loop_first: 31,
        loop_last: 31,
        second_sustain: 31,
        points: vec![(0, -128); 32],
    };
    let mut tune = Tune {
        instruments: vec![Instrument::default(); 255],
        volume_envelopes: Some(vec![volume; 65_535]),
        panning_envelopes: Some(vec![]),
        ..Tune::default()
    };
    let left = MOST - tune.bytes().len() - 8;
    tune.panning_envelopes = Some(vec![panning; left / 136]);
    let draft = with_last(&tune, b"PENV").ordered(&[*b"VENV"]);
    let mut module = filled_up(draft, MOST);
    accepted(&module);
    // PENV is at the end of the module: its last value, its last instrument, and its second sustain point.
    let last = MOST - 136;
    refused_with(&mut module, MOST - 2, 0x7F, (13, MOST - 2));
    refused_with(&mut module, MOST - 1, 0x7F, (13, MOST - 2));
    refused_with(&mut module, last, 1, (12, last));
    refused_with(&mut module, last + 7, 32, (13, last + 7));
    refused_with(&mut module, last + 3, 30, (13, last + 4));
    // VENV follows the filling chunk. The third value of its last envelope is not in use, the second is.
    let venv = module
        .windows(4)
        .position(|name| name == b"VENV")
        .expect("it is there");
    let block = venv + 10 + 65_534 * 136;
    module[block + 18] = 0xFF;
    accepted(&module);
    refused_with(&mut module, block + 14, 0xFF, (13, block + 14));
    refused_with(&mut module, block + 15, 65, (13, block + 14));
    refused_with(&mut module, venv + 9, 0xFE, (11, venv));
}

/// As many empty chunks as fit.
#[test]
fn as_many_chunks_as_fit() {
    let mut module = b"DBM0\x03\x00\x00\x00".to_vec();
    let rest = &Tune::default().bytes()[8..];
    // INFO has 10 bytes, so six more bytes of data make the rest a multiple of 8.
    let padded = Chunk::new(b"SIXB", vec![0; 6]).bytes();
    while module.len() < MOST - rest.len() - padded.len() {
        module.extend(b"ABCD\0\0\0\0");
    }
    module.extend(padded);
    module.extend(rest);
    assert_eq!(module.len(), MOST);
    accepted(&module);
    // The last of the chunks: another letter, data, and the name of INFO, which then occurs twice with other data.
    let chunk = MOST - rest.len() - 22;
    refused_with(&mut module, chunk + 3, b'd', (5, chunk));
    refused_with(&mut module, chunk + 7, 1, (5, chunk + 9));
    module[chunk..chunk + 4].copy_from_slice(b"INFO");
    gives(&module, 9, chunk);
    module[chunk..chunk + 4].copy_from_slice(b"SONG");
    gives(&module, 7, chunk);
    module[chunk..chunk + 4].copy_from_slice(b"VENV");
    gives(&module, 11, chunk);
    refused_with(&mut module, MOST - 8, b'T', (8, MOST));
    refused_with(&mut module, 8, 0, (5, 8));
}
