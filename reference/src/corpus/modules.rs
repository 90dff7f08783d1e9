//! The cases for whole modules.

mod blocks;
mod chunks;
mod envelopes;
mod order;

use super::Case;
use crate::chunks::Name;
use crate::draft::{Draft, Envelope, Instrument, Pattern, Sample, Song, Tune};
use crate::generate::{damage, module, Limits, Random};
use crate::listing::lines;

/// The number of random modules.
const DRAWN: usize = 235;

/// Long enough for every text. The longest has 96 bytes.
const USUAL_ROOM: u32 = 100;

/// An order of the chunks that differs from the order of the checks.
pub(super) const REVERSED: [Name; 8] = [
    *b"PENV", *b"VENV", *b"NAME", *b"INFO", *b"SMPL", *b"PATT", *b"INST", *b"SONG",
];

pub(super) fn cases() -> Vec<Case> {
    let mut builder = CaseBuilder {
        cases: Vec::new(),
        random: Random::new(2),
    };
    builder.rooms();
    builder.headers();
    builder.tails();
    builder.identifiers();
    builder.lengths();
    builder.repeats();
    builder.missing();
    builder.orders();
    builder.fixed_lengths();
    builder.info_numbers();
    builder.counts();
    builder.cuts();
    builder.chunk_ends();
    builder.wild_blocks();
    builder.songs();
    builder.instruments();
    builder.loops();
    builder.patterns();
    builder.samples();
    builder.envelopes();
    builder.values();
    builder.walk_pairs();
    builder.same_chunk_pairs();
    builder.late_pairs();
    builder.drawn();
    builder.upper_bits();
    builder.cases
}

/// Every list has one block: a song of one entry, a looped instrument, a pattern of one empty row, a sample of two frames.
pub(super) fn small() -> Tune {
    Tune {
        songs: vec![Song {
            name: vec![],
            playlist: vec![0],
        }],
        instruments: vec![Instrument {
            sample: 1,
            volume: 64,
            rate: 8_363,
            loop_length: 2,
            flags: 1,
            ..Instrument::default()
        }],
        patterns: vec![Pattern::new(1, &[0])],
        samples: vec![Sample::new(1, &[0x40, 0xC0])],
        ..Tune::default()
    }
}

/// One pattern and one sample. Bits 6 and 7 are set in the masks of the first, the second and the last entry of a row, and in the next row.
pub(super) fn with_upper_bits() -> Tune {
    let stream = [
        4, 0xC1, 0x47, 2, 0x42, 9, 1, 0x80, 0, 3, 0x7F, 0x11, 0x12, 0x13, 0x14, 0x15, 0x16, 0,
    ];
    Tune {
        patterns: vec![Pattern::new(2, &stream)],
        samples: vec![Sample::new(1, &[0x21, 0x22, 0x23])],
        ..Tune::default()
    }
}

/// The small module with a volume and a panning envelope.
fn rich() -> Tune {
    let envelope = Envelope {
        instrument: 1,
        flags: 0x0F,
        sections: 1,
        loop_last: 1,
        points: vec![(0, 64), (9, 0)],
        ..Envelope::default()
    };
    Tune {
        volume_envelopes: Some(vec![envelope.clone()]),
        panning_envelopes: Some(vec![envelope]),
        ..small()
    }
}

struct CaseBuilder {
    cases: Vec<Case>,
    random: Random,
}

impl CaseBuilder {
    fn with_room(&mut self, module: &[u8], room: u32) {
        let module = module.to_vec();
        self.cases.push(Case::Module { room, module });
    }

    /// A case with the usual output length. Some cases have an empty output, or one less, exactly or one more than the text needs.
    fn module(&mut self, module: &[u8]) {
        let needed = lines(module).len() as u32;
        let room = match self.cases.len() % 16 {
            3 => needed,
            7 => needed - 1,
            11 => 0,
            13 => needed + 1,
            _ => USUAL_ROOM,
        };
        self.with_room(module, room);
    }

    /// A case of records with a change.
    fn tune(&mut self, tune: &Tune, change: impl FnOnce(&mut Tune)) {
        let mut tune = tune.clone();
        change(&mut tune);
        self.module(&tune.bytes());
    }

    /// A case of the chunks of some records with a change.
    fn draft(&mut self, tune: &Tune, change: impl FnOnce(&mut Draft)) {
        let mut draft = tune.draft();
        change(&mut draft);
        self.module(&draft.bytes());
    }

    /// The smallest module, a refused one, and one with long numbers, with outputs around the needed length; and a place of four digits.
    fn rooms(&mut self) {
        let smallest = Tune::default().bytes();
        for room in [0, 1, 12, 13, 76, 77, 78, 160] {
            self.with_room(&smallest, room);
        }
        for room in [0, 1, 14, 15, 16, 160] {
            self.with_room(&smallest[..8], room);
        }
        let long = Tune {
            version: 2,
            revision: 0x99,
            tracks: 254,
            patterns: vec![Pattern::default(); 10],
            samples: vec![Sample::new(4, &[]); 128],
            ..Tune::default()
        };
        let long = long.bytes();
        let needed = lines(&long).len() as u32;
        self.with_room(&long, needed);
        self.with_room(&long, needed - 1);
        self.with_room(&[&long[..], &[0]].concat(), USUAL_ROOM);
        let songs = Tune {
            songs: vec![Song::default(); 10],
            ..Tune::default()
        };
        self.with_room(&songs.bytes(), USUAL_ROOM);
    }

    /// Random modules with no, one or two faults.
    fn drawn(&mut self) {
        for turn in 0..DRAWN {
            let most = if turn % 4 == 0 { 360 } else { 220 };
            let mut draft = loop {
                let draft = module(&mut self.random, &Limits::SMALL);
                if draft.bytes().len() <= most {
                    break draft;
                }
            };
            for _ in 0..turn % 3 {
                damage(&mut self.random, &mut draft);
            }
            self.module(&draft.bytes());
        }
    }
}
