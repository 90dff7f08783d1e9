//! The cases for replacing a sample.

use super::modules::{small, with_upper_bits, REVERSED};
use super::records::whole;
use super::Case;
use crate::chunks::{Name, AFTER_INFO};
use crate::draft::{Chunk, Draft, Instrument, Pattern, Sample, Tune};
use crate::generate::{bytes, damage, module, Limits, Random};
use crate::module::read;
use crate::replace::replace_sample;
use crate::tunes::files;

/// The number of random modules.
const DRAWN: usize = 40;

/// Random modules with few other records than instruments and samples.
const LIMITS: Limits = Limits {
    songs: 1,
    entries: 2,
    instruments: 4,
    patterns: 1,
    rows: 2,
    row_entries: 2,
    tracks: 4,
    samples: 3,
    frames: 6,
    envelopes: 0,
    others: 2,
    other_bytes: 4,
};

pub(super) fn cases() -> Vec<Case> {
    let mut builder = CaseBuilder {
        cases: Vec::new(),
        random: Random::new(4),
    };
    builder.carousel();
    builder.rooms();
    builder.numbers();
    builder.odd_frames();
    builder.widths();
    builder.own_frames();
    builder.loops();
    builder.no_loops();
    builder.several_instruments();
    builder.most_instruments();
    builder.orders();
    builder.other_bytes();
    builder.large_numbers();
    builder.refused();
    builder.drawn();
    builder.upper_bits();
    builder.cases
}

/// New frames of this many bytes. All bytes are odd, so that none is like the fill of an output.
fn frames(bytes: usize) -> Vec<u8> {
    (0..bytes).map(|place| (2 * place + 0x81) as u8).collect()
}

/// An instrument with a sample and a loop.
fn looped(sample: u16, loop_start: u32, loop_length: u32, flags: u16) -> Instrument {
    Instrument {
        name: b"\x80looped\xFF".to_vec(),
        sample,
        volume: 64,
        rate: 0x0102_0304,
        loop_start,
        loop_length,
        panning: -2,
        flags,
    }
}

/// One sample of 8 bits and this many frames, and some instruments.
fn on_one_sample(old: usize, instruments: &[Instrument]) -> Tune {
    Tune {
        instruments: instruments.to_vec(),
        samples: vec![Sample::new(1, &vec![0x33; old])],
        ..Tune::default()
    }
}

/// A sample of each width, with a looped instrument on each.
fn three() -> Tune {
    Tune {
        instruments: vec![looped(1, 1, 3, 1), looped(3, 2, 1, 3), looped(2, 0, 4, 2)],
        samples: vec![
            Sample::new(1, b"INST!"),
            Sample::new(2, b"SMPL\0\0\0\0"),
            Sample::new(4, b"PATTSMPLDBM0"),
        ],
        ..Tune::default()
    }
}

/// Changes of `small`: one for each refusal except 1, and two for 4 and for 11.
pub(super) const FAULTS: [fn(&mut Draft); 16] = [
    |draft| draft.header[3] = b'1',
    |draft| draft.header[4] = 1,
    |draft| draft.tail = vec![0; 3],
    |draft| draft.chunk(b"SMPL").stored_length = Some(11),
    |draft| draft.chunk(b"SMPL").name = *b"SMPl",
    |draft| draft.chunks.push(draft.chunks[4].clone()),
    |draft| draft.chunks.swap(0, 1),
    |draft| drop(draft.chunks.remove(3)),
    |draft| draft.chunks.push(Chunk::new(b"NAME", vec![0; 3])),
    |draft| draft.put(b"INFO", 8, &[0, 5]),
    |draft| draft.chunk(b"SMPL").data.push(0),
    |draft| draft.put(b"SMPL", 3, &[3]),
    |draft| draft.put(b"INST", 30, &[0, 2]),
    |draft| draft.put(b"INST", 32, &[0, 65]),
    |draft| draft.put(b"INST", 42, &[0, 0, 0, 3]),
    |draft| draft.put(b"PATT", 6, &[1]),
];

/// INST before SMPL, and after it.
const BOTH_ORDERS: [[Name; 2]; 2] = [[*b"INFO", *b"INST"], [*b"INFO", *b"SMPL"]];

/// All orders of the four chunks that follow INFO.
fn all_orders() -> Vec<[Name; 4]> {
    let mut orders = Vec::new();
    for first in 0..4 {
        for second in (0..4).filter(|&second| second != first) {
            for third in (0..4).filter(|&third| third != first && third != second) {
                let places = [first, second, third, 6 - first - second - third];
                orders.push(places.map(|place| AFTER_INFO[place]));
            }
        }
    }
    orders
}

struct CaseBuilder {
    cases: Vec<Case>,
    random: Random,
}

impl CaseBuilder {
    fn with_room(&mut self, module: &[u8], sample: u64, frames: &[u8], room: u32) {
        self.cases.push(Case::Replacement {
            sample,
            room,
            frames: frames.to_vec(),
            module: module.to_vec(),
        });
    }

    /// A case with an output of the needed length, or after a refusal a short one. Some cases have an empty output, or one less or one
    /// more than is needed.
    fn case(&mut self, module: &[u8], sample: u64, frames: &[u8]) {
        let mut out = vec![0; module.len() + frames.len()];
        let room = match replace_sample(module, sample, frames, &mut out) {
            Ok(replaced) => {
                let needed = replaced.length as u32;
                match self.cases.len() % 16 {
                    3 => needed - 1,
                    7 => 0,
                    11 => needed + 1,
                    _ => needed,
                }
            }
            Err(_) => self.cases.len() as u32 % 4,
        };
        self.with_room(module, sample, frames, room);
    }

    /// The organ's sample of the carousel: 64 frames, with a loop that ends with the last one. The module has three samples.
    fn carousel(&mut self) {
        let module = files()
            .into_iter()
            .find(|(name, _)| *name == "carousel.dbm")
            .map(|(_, module)| module)
            .expect("it is one of the files");
        for (sample, bytes, room) in [
            (2, 80, 1_168),
            (2, 80, 1_167),
            (2, 128, 1_216),
            (2, 126, 1_214),
            (2, 79, 1_168),
            (4, 3, 1_152),
            (0, 80, 1_168),
        ] {
            self.with_room(&module, sample, &frames(bytes), room);
        }
    }

    /// Outputs around the needed length, for a result that is longer and for one that is shorter than the module; and the longest output.
    fn rooms(&mut self) {
        let module = three().bytes();
        for (sample, bytes, old) in [(1, 8, 5), (2, 2, 8), (3, 0, 12), (3, 12, 12)] {
            let needed = (module.len() + bytes - old) as u32;
            for room in [0, needed - 1, needed, needed + 1] {
                self.with_room(&module, sample, &frames(bytes), room);
            }
        }
        self.with_room(&module, 1, &frames(4), 65_537);
    }

    /// Numbers around the first and the last sample, very large ones, and those that would be samples with fewer bits; with even and odd
    /// numbers of bytes.
    fn numbers(&mut self) {
        let none = Tune::default().bytes();
        let one = on_one_sample(2, &[looped(1, 0, 2, 1)]).bytes();
        let three = three().bytes();
        for (module, numbers) in [
            (&none, &[0, 1, 2, u64::MAX][..]),
            (&one, &[0, 1, 2, 255, 256, 257, 65_536, 65_537, 1 << 32]),
            (&one, &[(1 << 32) + 1, 1 << 63, (1 << 63) + 1, u64::MAX]),
            (&three, &[0, 1, 2, 3, 4, (1 << 32) + 3, u64::MAX]),
        ] {
            for &number in numbers {
                for bytes in [2, 3] {
                    self.case(module, number, &frames(bytes));
                }
            }
        }
        let mut most = Tune {
            instruments: vec![looped(255, 0, 1, 1), looped(1, 0, 1, 2)],
            samples: vec![Sample::new(4, &[]); 255],
            ..Tune::default()
        };
        most.samples[0] = Sample::new(1, &[1]);
        most.samples[254] = Sample::new(2, &[2, 3]);
        for number in [255, 256] {
            self.case(&most.bytes(), number, &[]);
        }
    }

    /// Odd numbers of bytes, with outputs that are long enough and too short.
    fn odd_frames(&mut self) {
        let module = three().bytes();
        for (sample, bytes) in [(1, 1), (2, 3), (3, 5), (1, 255), (2, 257)] {
            self.with_room(&module, sample, &frames(bytes), 4);
            self.with_room(&module, sample, &frames(bytes), 600);
        }
        self.with_room(&module, 4, &frames(1), 600);
        self.with_room(&module, 4, &frames(2), 0);
    }

    /// Samples of each width, with and without frames, and results of every kind of length.
    fn widths(&mut self) {
        for frame_bytes in [1, 2, 4] {
            for old in [0, 1, 3] {
                let tune = Tune {
                    samples: vec![Sample::new(frame_bytes, &vec![0x44; old * 4])],
                    ..Tune::default()
                };
                let module = tune.bytes();
                for new in [0, 2, 4, 10] {
                    self.case(&module, 1, &frames(new));
                }
            }
        }
        let module = three().bytes();
        for sample in 1..=3 {
            for new in [0, 4, 6, 8, 16] {
                self.case(&module, sample, &frames(new));
            }
        }
    }

    /// A sample of 16 bits with its own frames gives the module itself, wherever the sample is.
    fn own_frames(&mut self) {
        for order in BOTH_ORDERS {
            for sample in 1..=3 {
                let own = frames(10);
                let mut samples = vec![Sample::new(1, b"abc"), Sample::new(4, b"abcd")];
                samples.insert(sample - 1, Sample::new(2, &own));
                let tune = Tune {
                    instruments: vec![looped(sample as u16, 2, 3, 1)],
                    samples,
                    ..Tune::default()
                };
                let module = tune.draft().ordered(&order).bytes();
                self.case(&module, sample as u64, &own);
            }
        }
    }

    /// Loops of each kind that end one frame before the end, with the last frame, and one frame after it.
    fn loops(&mut self) {
        for (start, length) in [(0, 1), (0, 8), (7, 1), (3, 5), (1, 3)] {
            for flags in [1, 2, 3] {
                let module = on_one_sample(8, &[looped(1, start, length, flags)]).bytes();
                let end = (start + length) as usize;
                for count in [end - 1, end, end + 1] {
                    self.case(&module, 1, &frames(2 * count));
                }
            }
        }
        let module = on_one_sample(8, &[looped(1, 5, 3, 3)]).bytes();
        for count in [0, 1, 3, 5, 6] {
            self.case(&module, 1, &frames(2 * count));
        }
    }

    /// Instruments that are not looped keep their fields.
    fn no_loops(&mut self) {
        for (start, length, flags) in [
            (u32::MAX, u32::MAX, 0),
            (u32::MAX, 2, 0),
            (2, u32::MAX, 0),
            (u32::MAX, 0, 3),
            (0x8000_0001, 0, 2),
            (9, 0, 1),
        ] {
            let module = on_one_sample(2, &[looped(1, start, length, flags)]).bytes();
            for new in [0, 2, 4] {
                self.case(&module, 1, &frames(new));
            }
        }
    }

    /// Some instruments are cleared: those on the sample with loops that end at 2, 4 and 6. Others are on another sample, on none, or not
    /// looped.
    fn several_instruments(&mut self) {
        let tune = Tune {
            instruments: vec![
                looped(1, 1, 3, 1),
                looped(2, 0, 6, 3),
                looped(1, 5, 1, 3),
                looped(0, 0, 0, 3),
                looped(1, 0, 2, 2),
                looped(1, u32::MAX, u32::MAX, 0),
                looped(1, 2, 4, 2),
            ],
            samples: vec![
                Sample::new(4, &[0x55; 24]),
                Sample::new(1, b"abcdef"),
                Sample::new(2, &[]),
            ],
            ..Tune::default()
        };
        for order in BOTH_ORDERS {
            let module = tune.draft().ordered(&order).bytes();
            for (sample, count) in [
                (1, 0),
                (1, 1),
                (1, 2),
                (1, 4),
                (1, 5),
                (1, 6),
                (2, 5),
                (3, 1),
            ] {
                self.case(&module, sample, &frames(2 * count));
            }
        }
    }

    /// 255 instruments, all cleared.
    fn most_instruments(&mut self) {
        let module = on_one_sample(1, &vec![looped(1, 0, 1, 1); 255]).bytes();
        self.with_room(&module, 1, &[], 0);
    }

    /// The chunks in all orders, with an extra chunk at each place. The result is shorter or longer than the module, and the loop is
    /// cleared or fits.
    fn orders(&mut self) {
        for (index, order) in all_orders().into_iter().enumerate() {
            for kind in [index, index + 2] {
                let (end, new) = [(6, 4), (6, 8), (2, 4), (6, 12)][kind % 4];
                let mut tune = on_one_sample(6, &[looped(1, 1, end - 1, 3)]);
                tune.patterns = vec![Pattern::new(1, &[0])];
                let mut draft = tune.draft().ordered(&[&[*b"INFO"][..], &order].concat());
                let other = Chunk::new(b"DSPE", b"SMPL\0".to_vec());
                draft.chunks.insert(index % 6, other);
                self.case(&draft.bytes(), 1, &frames(new));
            }
        }
    }

    /// A module with all records, with streams and fillers that the packer does not write, and with other chunks, in both versions.
    fn other_bytes(&mut self) {
        let mut old = whole();
        old.version = 2;
        old.panning_envelopes = None;
        let mut draft = whole().draft().ordered(&REVERSED);
        for (place, name) in [(8, b"SMPM"), (6, b"INSS"), (4, b"DSPE"), (0, b"DSPE")] {
            let other = Chunk::new(name, vec![0xEE; 3]);
            draft.chunks.insert(place, other);
        }
        for (module, sample, bytes) in [
            (whole().bytes(), 1, 8),
            (old.bytes(), 3, 6),
            (draft.bytes(), 1, 10),
            (draft.bytes(), 3, 4),
            (draft.bytes(), 2, 0),
            (old.bytes(), 4, 2),
        ] {
            self.case(&module, sample, &frames(bytes));
        }
    }

    /// More than 255 frames, and a loop that ends after more than 255.
    fn large_numbers(&mut self) {
        let module = on_one_sample(300, &[looped(1, 250, 10, 1)]).bytes();
        for count in [4, 255, 256, 259, 260] {
            self.case(&module, 1, &frames(2 * count));
        }
    }

    /// A module for each refusal except 1, alone, and with a sample that does not exist, an odd number of bytes and a short output. A loop
    /// outside the old sample is refused, also if it fits the new frames.
    fn refused(&mut self) {
        for fault in FAULTS {
            let mut draft = small().draft();
            fault(&mut draft);
            let module = draft.bytes();
            self.with_room(&module, 1, &frames(6), 200);
            self.with_room(&module, 2, &frames(1), 2);
        }
    }

    /// Random modules with up to six new frames. Some have a fault, and some of the numbers of bytes are odd.
    fn drawn(&mut self) {
        for turn in 0..DRAWN {
            let mut draft = loop {
                let draft = module(&mut self.random, &LIMITS);
                if (150..=330).contains(&draft.bytes().len()) {
                    break draft;
                }
            };
            if turn % 6 == 5 {
                damage(&mut self.random, &mut draft);
            }
            let module = draft.bytes();
            let samples = read(&module).map_or(1, |read| read.info.samples);
            let sample = 1 + self.random.below(samples.max(1));
            let length = 2 * self.random.below(7) + u64::from(self.random.chance(8));
            let frames = bytes(&mut self.random, length);
            self.case(&module, sample, &frames);
        }
    }

    /// Masks with bits 6 and 7, in patterns before SMPL and after it. They stay.
    fn upper_bits(&mut self) {
        let draft = with_upper_bits().draft();
        for module in [draft.bytes(), draft.ordered(&REVERSED).bytes()] {
            for bytes in [0, 2, 4] {
                self.case(&module, 1, &frames(bytes));
            }
        }
    }
}
