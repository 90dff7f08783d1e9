//! The cases for comparing two modules.

use super::modules::{small, with_upper_bits};
use super::replacements::FAULTS;
use super::Case;
use crate::compare::compare;
use crate::draft::{Envelope, Instrument, Pattern, Song, Tune};
use crate::generate::{tune, Random};
use crate::module::check;
use crate::pairs::{in_the_other_version, pair, Pair, Relation, CHANGES, FEW, RELATIONS};
use crate::repack::repack;
use crate::replace::replace_sample;
use crate::tunes::{files, frames_file};

/// The number of random pairs of each relation.
const DRAWN: usize = 5;

/// The most bytes of a random pair.
const MOST_BYTES: usize = 700;

pub(super) fn cases() -> Vec<Case> {
    let mut builder = CaseBuilder {
        cases: Vec::new(),
        random: Random::new(5),
    };
    builder.files();
    builder.rooms();
    builder.versions();
    builder.cells();
    builder.changes();
    builder.refused();
    builder.large_numbers();
    builder.drawn();
    builder.upper_bits();
    builder.cases
}

/// A file of the folder `samples`.
fn file(wanted: &str) -> Vec<u8> {
    let found = files().into_iter().find(|(name, _)| *name == wanted);
    found.expect("it is one of the files").1
}

struct CaseBuilder {
    cases: Vec<Case>,
    random: Random,
}

impl CaseBuilder {
    fn with_room(&mut self, first: &[u8], second: &[u8], room: u32) {
        self.cases.push(Case::Comparison {
            room,
            first: first.to_vec(),
            second: second.to_vec(),
        });
    }

    /// A case with an output of the needed length, or after a refusal a short one. Some cases have an empty output, or one less or one more
    /// than is needed.
    fn case(&mut self, first: &[u8], second: &[u8]) {
        let mut out = vec![0; 10 * (first.len() + second.len())];
        let room = match compare(first, second, &mut out) {
            Ok(entries) => {
                let needed = 10 * entries as u32;
                match self.cases.len() % 16 {
                    3 => needed.saturating_sub(1),
                    7 => 0,
                    11 => needed + 1,
                    _ => needed,
                }
            }
            Err(_) => self.cases.len() as u32 % 12,
        };
        self.with_room(first, second, room);
    }

    fn files(&mut self) {
        let (carousel, old) = (file("carousel.dbm"), file("old.dbm"));
        self.with_room(&carousel, &carousel, 3);
        for room in [0, 180] {
            self.with_room(&carousel, &old, room);
        }
        let (_, frames) = frames_file();
        let mut shorter = vec![0; 1_168];
        replace_sample(&carousel, 2, &frames, &mut shorter).expect("it can be replaced");
        self.with_room(&carousel, &shorter, 20);
        let (short_organ, broken_pattern) = (file("short-organ.dbm"), file("broken-pattern.dbm"));
        self.with_room(&short_organ, &broken_pattern, 10);
        self.with_room(&old, &broken_pattern, 200);
        self.with_room(&file("smallest.dbm"), &old, 200);
    }

    /// Outputs around the needed length, and the longest output. The two modules differ in one field of a cell and in one song.
    fn rooms(&mut self) {
        let one = small();
        let mut other = small();
        other.songs[0].name = b"Another".to_vec();
        other.patterns[0] = Pattern::new(1, &[1, 0x20, 9, 0]);
        let [first, second] = [&one, &other].map(Tune::bytes);
        for room in [0, 1, 9, 10, 11, 19, 20, 21, 65_537] {
            self.with_room(&first, &second, room);
        }
        for room in [0, 1, 10] {
            self.with_room(&first, &first, room);
        }
    }

    /// A panning envelope in both versions, and with one of its three values other.
    fn versions(&mut self) {
        let envelope = Envelope {
            instrument: 1,
            sections: 2,
            points: vec![(0, 0), (10, 32), (20, 64)],
            ..Envelope::default()
        };
        let old = Tune {
            version: 2,
            instruments: vec![Instrument::default()],
            panning_envelopes: Some(vec![envelope]),
            ..Tune::default()
        };
        let new = in_the_other_version(&old).expect("version 2 has a twin");
        self.case(&old.bytes(), &new.bytes());
        for point in 0..3 {
            let mut other = new.clone();
            let envelope = &mut other.panning_envelopes.as_mut().expect("it has one")[0];
            envelope.points[point].1 += if point == 2 { -1 } else { 1 };
            self.case(&old.bytes(), &other.bytes());
        }
    }

    /// Each field of a cell, against 0 and against another value; all fields; and the same cells in streams that the packer does not write.
    fn cells(&mut self) {
        let of = |stream: &[u8]| {
            let tune = Tune {
                patterns: vec![Pattern::new(2, stream)],
                ..Tune::default()
            };
            tune.bytes()
        };
        for mask in [1, 2, 4, 8, 16, 32] {
            let one = of(&[0, 3, mask, 5, 0]);
            self.case(&one, &of(&[0, 0]));
            self.case(&one, &of(&[0, 3, mask, 6, 0]));
        }
        let all = of(&[4, 0x3F, 1, 2, 3, 4, 5, 6, 0, 1, 0x21, 7, 8, 0]);
        self.case(&all, &of(&[0, 0]));
        self.case(&all, &of(&[1, 0x3F, 1, 2, 3, 4, 5, 6, 0, 4, 0x21, 7, 8, 0]));
        let again = of(&[
            4, 0x07, 9, 9, 3, 4, 0x3B, 1, 2, 4, 5, 6, 2, 0, 0, 1, 0x3F, 7, 0, 0, 0, 0, 8, 0,
        ]);
        self.case(&all, &again);
    }

    /// Each change of the records.
    fn changes(&mut self) {
        for (_, change) in CHANGES {
            let (first, second) = self.short_pair(|random| {
                let given = tune(random, &FEW);
                let mut changed = given.clone();
                change(random, &mut changed);
                let is_new = changed != given && check(&changed.bytes()).is_ok();
                is_new.then(|| (given.bytes(), changed.bytes()))
            });
            self.case(&first, &second);
        }
    }

    /// A pair of few bytes.
    fn short_pair(&mut self, make: impl Fn(&mut Random) -> Option<Pair>) -> Pair {
        loop {
            if let Some((first, second)) = make(&mut self.random) {
                if first.len() + second.len() <= MOST_BYTES {
                    return (first, second);
                }
            }
        }
    }

    /// A module for each refusal except 1, with an accepted one, and with another that is refused. Each is the first and the second, since both
    /// orders are compared.
    fn refused(&mut self) {
        let good = small().bytes();
        let faulty = FAULTS.map(|fault| {
            let mut draft = small().draft();
            fault(&mut draft);
            draft.bytes()
        });
        for (index, module) in faulty.iter().enumerate() {
            self.case(module, &good);
            self.case(module, &faulty[(index + 5) % faulty.len()]);
        }
    }

    /// Numbers over 255: 257 songs, and 300 rows of 254 tracks.
    fn large_numbers(&mut self) {
        let many = Tune {
            songs: vec![Song::default(); 257],
            ..Tune::default()
        };
        self.case(&many.bytes(), &Tune::default().bytes());
        let of = |last: u8| {
            let mut stream = vec![0; 299];
            stream.extend([1, 0x01, last, 254, 0x20, last, 0]);
            let tune = Tune {
                tracks: 254,
                patterns: vec![Pattern::new(300, &stream)],
                ..Tune::default()
            };
            tune.bytes()
        };
        self.case(&of(1), &of(2));
    }

    /// Random pairs of all relations but the longest.
    fn drawn(&mut self) {
        for relation in RELATIONS.into_iter().filter(|&it| it != Relation::Many) {
            for _ in 0..DRAWN {
                let (first, second) = self.short_pair(|random| Some(pair(random, relation)));
                self.case(&first, &second);
            }
        }
    }

    /// Masks with bits 6 and 7, compared with the same stream without them, with the repacked module, and with streams of which one field, one
    /// track or one mask also differs.
    fn upper_bits(&mut self) {
        let given = with_upper_bits();
        let bytes = given.bytes();
        let mut low = given.clone();
        for place in [1, 4, 7, 10] {
            low.patterns[0].stream[place] &= 0x3F;
        }
        self.case(&bytes, &low.bytes());
        let mut packed = vec![0; bytes.len()];
        let length = repack(&bytes, &mut packed).expect("the module is valid");
        self.case(&bytes, &packed[..length as usize]);
        for (place, byte) in [(2, 0x48), (6, 3), (0, 3), (1, 0x02), (16, 0)] {
            let mut other = low.clone();
            other.patterns[0].stream[place] = byte;
            self.case(&bytes, &other.bytes());
        }
    }
}
