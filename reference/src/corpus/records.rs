//! The cases for the records of a module.

use super::modules::{with_upper_bits, REVERSED};
use super::{Case, Query};
use crate::draft::{Chunk, Draft, Envelope, Instrument, Pattern, Sample, Song, Tune};
use crate::generate::{module, Limits, Random};

/// The number of random modules.
const DRAWN: usize = 5;

/// The first of each item.
const FIRST: Query = Query {
    song: 0,
    entry: 0,
    instrument: 1,
    envelope: 0,
    pattern: 0,
    row: 0,
    track: 1,
    sample: 1,
    frame: 0,
};

/// Numbers that are far too large.
const WILD: Query = Query {
    song: u64::MAX,
    entry: u64::MAX,
    instrument: u64::MAX,
    envelope: u64::MAX,
    pattern: u64::MAX,
    row: u64::MAX,
    track: u64::MAX,
    sample: u64::MAX,
    frame: u64::MAX,
};

/// The first of each item if the numbers were truncated to 8, 16 or 32 bits.
const WRAPPED: Query = Query {
    song: 1 << 16,
    entry: 1 << 32,
    instrument: (1 << 8) + 1,
    envelope: 1 << 16,
    pattern: 1 << 32,
    row: 1 << 16,
    track: (1 << 8) + 1,
    sample: (1 << 32) + 1,
    frame: 1 << 32,
};

pub(super) fn cases() -> Vec<Case> {
    let mut builder = CaseBuilder {
        cases: Vec::new(),
        random: Random::new(3),
    };
    builder.whole();
    builder.smallest();
    builder.songs();
    builder.instruments();
    builder.envelopes();
    builder.patterns();
    builder.samples();
    builder.refused();
    builder.drawn();
    builder.upper_bits();
    builder.cases
}

fn songs() -> Vec<Song> {
    vec![
        Song {
            name: b"\xFFFirst song".to_vec(),
            playlist: vec![2, 0, 1],
        },
        Song {
            name: b"Second song, of which nothing is to be heard".to_vec(),
            playlist: vec![],
        },
        Song {
            name: b"\x00Third song\x80".to_vec(),
            playlist: vec![1],
        },
    ]
}

fn instruments() -> Vec<Instrument> {
    vec![
        Instrument {
            name: b"\x80First".to_vec(),
            sample: 3,
            volume: 64,
            rate: 0x01020304,
            loop_start: 1,
            loop_length: 3,
            panning: -128,
            flags: 1,
        },
        Instrument {
            name: b"Second instrument: it is silent"
                .iter()
                .copied()
                .take(30)
                .collect(),
            sample: 0,
            volume: 33,
            rate: 0xFFFEFDFC,
            loop_start: 0x80000001,
            loop_length: 0xFEDCBA98,
            panning: 128,
            flags: 0,
        },
        Instrument {
            name: vec![0, 0xFF],
            sample: 1,
            volume: 0,
            rate: 8_363,
            loop_start: 0,
            loop_length: 5,
            panning: -1,
            flags: 3,
        },
    ]
}

/// For six tracks. Row 0 of the first pattern: a pitch in track 2, key off in track 6. Row 1: an unknown note in track 1.
fn patterns() -> Vec<Pattern> {
    vec![
        Pattern {
            rows: 2,
            stream: vec![
                0x06, 0x3F, 0x1F, 0x02, 0x0A, 0x0B, 0x0C, 0x0D, 0x02, 0x01, 0x47, 0x02, 0x02, 0x01,
                0x00, 0x01, 0x31, 0x9C, 0x66, 0x77, 0x00,
            ],
            filler: 0x55,
        },
        Pattern::new(0, &[]),
        Pattern::new(1, &[0x03, 0x0F, 0x8B, 0xFF, 0x10, 0x20, 0x00]),
    ]
}

fn samples() -> Vec<Sample> {
    let frames = [-1, i32::MIN, 0x0001_0000, -65_537, i32::MAX, 0x1234_5678];
    vec![
        Sample::new(1, &[0x80, 0xFF, 0x00, 0x01, 0x7F]),
        Sample::new(2, &[0x80, 0x00, 0xFF, 0xFE, 0x7F, 0xFD]),
        Sample::new(4, &frames.map(i32::to_be_bytes).concat()),
        Sample::new(2, &[]),
    ]
}

/// The positions of the points ascend, and their values cycle through a range. All 32 points are written, used or not.
fn envelope(sections: u8, start: u16, (least, most): (i16, i16)) -> Envelope {
    let range = i32::from(most) - i32::from(least) + 1;
    let points = (0..32).map(|point: u16| {
        let value = i32::from(least) + (37 * i32::from(point) + 5) % range;
        (start.wrapping_add(point * 0x0207), value as i16)
    });
    Envelope {
        instrument: 1,
        sections,
        points: points.collect(),
        ..Envelope::default()
    }
}

const VOLUME: (i16, i16) = (0, 64);
const PANNING: (i16, i16) = (-128, 128);

/// Every list has several blocks.
pub(super) fn whole() -> Tune {
    Tune {
        version: 3,
        revision: 0x21,
        reserved: [0xDE, 0xAD],
        tracks: 6,
        name: Some(b"\xFFEvery record\x00\x80of a module".to_vec()),
        songs: songs(),
        instruments: instruments(),
        patterns: patterns(),
        samples: samples(),
        volume_envelopes: Some(vec![
            Envelope {
                instrument: 2,
                flags: 0x0F,
                first_sustain: 1,
                loop_first: 2,
                loop_last: 4,
                second_sustain: 3,
                ..envelope(4, 0xFF00, VOLUME)
            },
            Envelope {
                instrument: 3,
                ..envelope(0, 7, VOLUME)
            },
        ]),
        panning_envelopes: Some(vec![Envelope {
            flags: 0x01,
            first_sustain: 0xFF,
            loop_first: 0xFE,
            loop_last: 0x20,
            second_sustain: 0x80,
            ..envelope(2, 0, PANNING)
        }]),
    }
}

struct CaseBuilder {
    cases: Vec<Case>,
    random: Random,
}

impl CaseBuilder {
    fn add_case(&mut self, module: &[u8], room: u32, query: Query) {
        self.cases.push(Case::Records {
            query,
            room,
            module: module.to_vec(),
        });
    }

    /// The first, the last, and the next one; and the chunks in another order, with an extra chunk.
    fn whole(&mut self) {
        let module = whole().bytes();
        let last = Query {
            song: 2,
            entry: 0,
            instrument: 3,
            envelope: 1,
            pattern: 2,
            row: 0,
            track: 6,
            sample: 3,
            frame: 5,
        };
        let past = Query {
            song: 3,
            entry: 3,
            instrument: 4,
            envelope: 2,
            pattern: 3,
            row: 2,
            track: 7,
            sample: 5,
            frame: 6,
        };
        self.add_case(&module, 72, FIRST);
        self.add_case(&module, 36, last);
        self.add_case(&module, 3, past);
        let mut draft = whole().draft().ordered(&REVERSED);
        draft.chunks.insert(4, Chunk::new(b"DSPE", vec![1, 2, 3]));
        let second = Query {
            song: 1,
            instrument: 2,
            pattern: 1,
            sample: 2,
            frame: 2,
            ..FIRST
        };
        self.add_case(&draft.bytes(), 6, second);
    }

    /// A module without records; and one with only a name and chunks of no envelopes.
    fn smallest(&mut self) {
        self.add_case(&Tune::default().bytes(), 0, FIRST);
        self.add_case(&Tune::default().bytes(), 2, WILD);
        let named = Tune {
            version: 2,
            revision: 0x99,
            tracks: 254,
            name: Some((1..=44).collect()),
            volume_envelopes: Some(vec![]),
            panning_envelopes: Some(vec![]),
            ..Tune::default()
        };
        self.add_case(&named.bytes(), 1, FIRST);
    }

    /// Songs and entries from the first to one past the last. Outputs are empty, and one less, exactly and one more than needed.
    fn songs(&mut self) {
        let tune = Tune {
            songs: songs(),
            patterns: vec![Pattern::default(); 3],
            ..Tune::default()
        };
        let module = tune.bytes();
        for (song, entry, room) in [
            (0, 0, 6),
            (0, 1, 5),
            (0, 2, 7),
            (0, 3, 0),
            (0, u64::MAX, 9),
            (1, 0, 0),
            (2, 0, 1),
            (2, 1, 2),
            (3, 0, 0),
        ] {
            let query = Query {
                song,
                entry,
                ..FIRST
            };
            self.add_case(&module, room, query);
        }
        self.add_case(&module, 6, WRAPPED);
        let long = Tune {
            songs: vec![Song {
                name: vec![],
                playlist: [vec![0; 257], vec![1]].concat(),
            }],
            patterns: vec![Pattern::default(); 2],
            ..Tune::default()
        };
        let query = Query {
            entry: 257,
            ..FIRST
        };
        self.add_case(&long.bytes(), 515, query);
    }

    /// Instruments from 0 to one past the last. The panning of instruments is not scaled in version 2.
    fn instruments(&mut self) {
        for instrument in 0..=4 {
            let tune = Tune {
                version: if instrument % 2 == 0 { 2 } else { 3 },
                revision: instrument as u8,
                instruments: instruments(),
                samples: samples(),
                ..Tune::default()
            };
            let query = Query {
                instrument,
                sample: instrument,
                frame: instrument,
                ..FIRST
            };
            self.add_case(&tune.bytes(), 10, query);
        }
    }

    /// Both kinds with no sections and with 31, in both versions; panning of version 2 over its whole range; and one past the last.
    fn envelopes(&mut self) {
        let with = |version, volume: &[Envelope], panning: &[Envelope]| Tune {
            version,
            revision: 0x07,
            instruments: instruments()[1..].to_vec(),
            samples: vec![samples()[0].clone()],
            volume_envelopes: (!volume.is_empty()).then(|| volume.to_vec()),
            panning_envelopes: (!panning.is_empty()).then(|| panning.to_vec()),
            ..Tune::default()
        };
        let old = Envelope {
            instrument: 2,
            flags: 0x0E,
            first_sustain: 2,
            loop_first: 1,
            loop_last: 2,
            points: vec![(0, 0), (10, 32), (300, 64), (9, 9)],
            ..envelope(2, 0, VOLUME)
        };
        let query = |envelope| Query { envelope, ..FIRST };
        let full = envelope(31, 0x8000, VOLUME);
        let most = with(3, &[full.clone()], &[envelope(31, 1, PANNING)]);
        self.add_case(&most.bytes(), 0, query(0));
        let most = with(2, &[old.clone()], &[full]);
        self.add_case(&most.bytes(), 0, query(0));
        let two = with(2, &[], &[old.clone(), envelope(0, 0xFFFF, (1, 1))]);
        for envelope in 0..3 {
            self.add_case(&two.bytes(), 0, query(envelope));
        }
        let one = with(3, &[old], &[]);
        self.add_case(&one.bytes(), 4, WRAPPED);
        self.add_case(&one.bytes(), 4, query(u64::MAX));
    }

    /// Cells of each kind of note; rows and tracks around the pattern's limits, also without rows; and outputs around the needed length.
    fn patterns(&mut self) {
        let tune = Tune {
            tracks: 6,
            patterns: patterns(),
            ..Tune::default()
        };
        let module = tune.bytes();
        for (pattern, row, track, room) in [
            (0, 0, 1, 72),
            (0, 0, 2, 71),
            (0, 0, 6, 73),
            (0, 1, 1, 0),
            (0, 2, 1, 80),
            (0, u64::MAX, 6, 0),
            (0, 0, 0, 1),
            (0, 1, 7, 36),
            (0, 1, u64::MAX, 71),
            (1, 0, 1, 0),
            (1, 1, 0, 2),
            (2, 0, 3, 36),
            (2, 0, 4, 35),
            (3, 0, 1, 0),
        ] {
            let query = Query {
                pattern,
                row,
                track,
                ..FIRST
            };
            self.add_case(&module, room, query);
        }
        self.add_case(&module, 72, WRAPPED);
        let wide = Tune {
            tracks: 254,
            patterns: vec![Pattern::new(1, &[0xFE, 0x03, 0x1C, 0x80, 0x00])],
            ..Tune::default()
        };
        let query = Query {
            track: 254,
            ..FIRST
        };
        self.add_case(&wide.bytes(), 1_524, query);
        let long = Tune {
            patterns: vec![Pattern::new(300, &[0; 300])],
            ..Tune::default()
        };
        let query = Query {
            row: 299,
            track: 4,
            ..FIRST
        };
        self.add_case(&long.bytes(), 24, query);
    }

    /// Samples of each width and without frames, from 0 to one past the last, with frames and output lengths around their limits.
    fn samples(&mut self) {
        let tune = Tune {
            samples: samples(),
            ..Tune::default()
        };
        let module = tune.bytes();
        for (sample, frame, room) in [
            (0, 0, 0),
            (1, 0, 10),
            (1, 1, 9),
            (1, 4, 11),
            (1, 5, 0),
            (2, 0, 5),
            (2, 1, 6),
            (2, 2, 8),
            (3, 0, 12),
            (3, 1, 11),
            (3, 3, 13),
            (3, 4, 0),
            (3, u64::MAX, 12),
            (4, 0, 0),
            (4, 1, 2),
            (5, 0, 0),
        ] {
            let query = Query {
                sample,
                frame,
                ..FIRST
            };
            self.add_case(&module, room, query);
        }
        self.add_case(&module, 12, WRAPPED);
        let long = Tune {
            samples: vec![Sample::new(1, &[0xC3; 300])],
            ..Tune::default()
        };
        let query = Query {
            frame: 299,
            ..FIRST
        };
        self.add_case(&long.bytes(), 600, query);
    }

    /// A module for each refusal except 1, with numbers of existing and missing items.
    fn refused(&mut self) {
        let smallest = Tune::default();
        let changed = |change: fn(&mut Draft)| {
            let mut draft = Tune::default().draft();
            change(&mut draft);
            draft.bytes()
        };
        let instrument = |instrument| Tune {
            instruments: vec![instrument],
            samples: vec![Sample::new(1, &[0])],
            ..Tune::default()
        };
        let modules = [
            b"DBM".to_vec(),
            Tune {
                version: 1,
                ..smallest.clone()
            }
            .bytes(),
            smallest.bytes()[..57].to_vec(),
            changed(|draft| draft.chunks[4].name = *b"SMPl"),
            changed(|draft| draft.chunks.push(draft.chunks[1].clone())),
            changed(|draft| draft.chunks.swap(0, 1)),
            changed(|draft| drop(draft.chunks.pop())),
            changed(|draft| draft.chunks.push(Chunk::new(b"NAME", vec![0; 3]))),
            Tune {
                tracks: 5,
                ..smallest
            }
            .bytes(),
            changed(|draft| draft.chunks[2].data.push(0)),
            Tune {
                songs: vec![Song {
                    name: vec![],
                    playlist: vec![0],
                }],
                ..Tune::default()
            }
            .bytes(),
            instrument(Instrument {
                volume: 65,
                ..Instrument::default()
            })
            .bytes(),
            instrument(Instrument {
                sample: 1,
                loop_length: 2,
                flags: 1,
                ..Instrument::default()
            })
            .bytes(),
            Tune {
                patterns: vec![Pattern::new(1, &[5, 0, 0])],
                ..Tune::default()
            }
            .bytes(),
        ];
        for (index, module) in modules.iter().enumerate() {
            let query = if index % 3 == 1 { WILD } else { FIRST };
            self.add_case(module, index as u32 % 4, query);
        }
    }

    /// Random modules with random numbers.
    fn drawn(&mut self) {
        for _ in 0..DRAWN {
            let module = loop {
                let module = module(&mut self.random, &Limits::SMALL).bytes();
                if (150..=400).contains(&module.len()) {
                    break module;
                }
            };
            let random = &mut self.random;
            let query = Query {
                song: random.below(2),
                entry: random.below(3),
                instrument: 1 + random.below(2),
                envelope: random.below(8) / 7,
                pattern: random.below(2),
                row: random.below(3),
                track: 1 + random.below(5),
                sample: 1 + random.below(2),
                frame: random.below(4),
            };
            let room = random.pick(&[6, 10, 24, 48, 72, 144]);
            self.add_case(&module, room, query);
        }
    }

    /// Cells whose entries have masks with bits 6 and 7, with outputs around the needed length.
    fn upper_bits(&mut self) {
        let module = with_upper_bits().bytes();
        for (row, track, room) in [(0, 1, 47), (0, 2, 48), (0, 4, 49), (1, 3, 48)] {
            let query = Query {
                row,
                track,
                ..FIRST
            };
            self.add_case(&module, room, query);
        }
    }
}
