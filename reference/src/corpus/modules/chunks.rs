//! Cases for the header, the chunks and INFO.

use super::{rich, small, CaseBuilder, REVERSED};
use crate::chunks::{Name, COVERED};
use crate::draft::{Chunk, Draft, Tune};

/// The chunks of the smallest module, in its order.
const MANDATORY: [Name; 5] = [*b"INFO", *b"SONG", *b"INST", *b"PATT", *b"SMPL"];

/// All orders of some names.
fn permutations(of: &[Name]) -> Vec<Vec<Name>> {
    let Some((&first, rest)) = of.split_first() else {
        return vec![vec![]];
    };
    let mut all = Vec::new();
    for order in permutations(rest) {
        for place in 0..=order.len() {
            let mut longer = order.clone();
            longer.insert(place, first);
            all.push(longer);
        }
    }
    all
}

impl CaseBuilder {
    /// Short headers, other letters, versions and revisions, and any reserved word.
    pub(super) fn headers(&mut self) {
        let smallest = Tune::default();
        for length in 0..=8 {
            self.module(&b"DBM0\x03\x00\x00\x00"[..length]);
            self.module(&b"DBM1\x04\xFF\x00\x00"[..length]);
        }
        for place in 0..4 {
            for byte in [0, 0x20, b'd', b'0'] {
                self.draft(&smallest, |draft| draft.header[place] = byte);
            }
        }
        for version in [0, 1, 2, 3, 4, 0x12, 0x13, 0x20, 0x30, 0x32, 0x82, 0xFF] {
            self.tune(&smallest, |tune| tune.version = version);
        }
        for revision in [
            0x00, 0x05, 0x09, 0x0A, 0x0F, 0x10, 0x21, 0x90, 0x99, 0x9A, 0xA0, 0xA9, 0xF0, 0xFF,
        ] {
            self.tune(&smallest, |tune| tune.revision = revision);
            self.tune(&smallest, |tune| {
                (tune.version, tune.revision) = (2, revision)
            });
        }
        for reserved in [[0, 1], [1, 0], [0xFF, 0xFF]] {
            self.tune(&smallest, |tune| tune.reserved = reserved);
        }
        self.tune(&smallest, |tune| (tune.version, tune.revision) = (4, 0xAA));
    }

    /// One to nine bytes after the last chunk.
    pub(super) fn tails(&mut self) {
        let smallest = Tune::default();
        for length in 1..=9 {
            for tail in [
                b"XYZW\0\0\0\0\0",
                b"xyzw\0\0\0\0\0",
                b"\0\0\0\0\0\0\0\0\0",
                b"XYZW\0\0\0\x01\0",
            ] {
                self.draft(&smallest, |draft| draft.tail = tail[..length].to_vec());
            }
        }
    }

    /// Identifiers that are not four letters A to Z, with a fault at each position.
    pub(super) fn identifiers(&mut self) {
        let smallest = Tune::default();
        for place in 0..4 {
            for letter in *b"@[az0 \x00\xC1\xDA" {
                let mut name = *b"AZAZ";
                name[place] = letter;
                let chunk = Chunk::new(&name, vec![]);
                self.draft(&smallest, |draft| draft.chunks.push(chunk));
            }
        }
        for (index, name) in MANDATORY.iter().enumerate() {
            self.draft(&smallest, |draft| draft.chunk(name).name[index % 4] |= 0x20);
            self.draft(&smallest, |draft| draft.chunk(name).name[3] = b'Q');
            let lower = name.map(|letter| letter.to_ascii_lowercase());
            self.draft(&smallest, |draft| {
                draft.chunks.push(Chunk::new(&lower, vec![]))
            });
        }
    }

    /// Lengths that run past the end, or would not if a sum wrapped at 32 bits.
    pub(super) fn lengths(&mut self) {
        let smallest = Tune::default();
        let names = [*b"INFO", *b"SONG", *b"PATT", *b"SMPL", *b"XYZW"];
        for name in names {
            let draft = &mut smallest.draft();
            draft.chunks.push(Chunk::new(b"XYZW", vec![1, 2]));
            let index = draft.index(&name);
            let before = Draft {
                chunks: draft.chunks[..index].to_vec(),
                ..draft.clone()
            };
            let place = before.bytes().len() as u32;
            let end = draft.bytes().len() as u32;
            let expected = draft.chunks[index].data.len() as u32;
            let lengths = [
                expected.wrapping_sub(1),
                expected + 1,
                end - place - 8,
                end - place - 7,
                1 << 31,
                (1 << 31) - 1,
                0xFFFFFFF0,
                0xFFFFFFF8,
                0xFFFFFFFF,
                // With 32-bit sums the next chunk would start at 0, at 8 and at this chunk; with 24 bits it would start at the correct
                // place.
                0u32.wrapping_sub(place + 8),
                8u32.wrapping_sub(place + 8),
                0u32.wrapping_sub(8),
                expected.wrapping_add(1 << 24),
            ];
            for stored_length in lengths {
                let mut draft = draft.clone();
                draft.chunks[index].stored_length = Some(stored_length);
                self.module(&draft.bytes());
            }
        }
    }

    /// Each covered chunk a second time: immediately, at the end, and with other data. Other chunks many times.
    pub(super) fn repeats(&mut self) {
        let full = Tune {
            name: Some(vec![]),
            volume_envelopes: Some(vec![]),
            panning_envelopes: Some(vec![]),
            ..Tune::default()
        };
        for name in COVERED {
            let chunk = full.draft().chunk(&name).clone();
            self.draft(&full, |draft| {
                draft.chunks.insert(draft.index(&name), chunk.clone())
            });
            self.draft(&full, |draft| draft.chunks.push(chunk));
            self.draft(&full, |draft| draft.chunks.push(Chunk::new(&name, vec![7])));
            // A second chunk and a cut end: the first fault decides.
            self.draft(&full, |draft| {
                draft.chunks.push(Chunk::new(&name, vec![]));
                draft.tail = vec![0];
            });
        }
        let smallest = Tune::default();
        for name in [b"DSPE", b"PNAM", b"MPEG", b"XYZW"] {
            for places in [[0, 0], [0, 6], [3, 4], [5, 6]] {
                self.draft(&smallest, |draft| {
                    for place in places {
                        let chunk = Chunk::new(name, vec![place as u8; place]);
                        draft.chunks.insert(place, chunk);
                    }
                });
            }
        }
    }

    /// Every set of mandatory chunks, and no chunk at all.
    pub(super) fn missing(&mut self) {
        for kept in 0..32u32 {
            let mut draft = Tune::default().draft();
            draft.chunks.retain(|chunk| {
                let index = MANDATORY.iter().position(|name| *name == chunk.name);
                index.is_some_and(|index| kept >> index & 1 == 1)
            });
            self.module(&draft.bytes());
            draft.chunks.insert(0, Chunk::new(b"VENV", vec![0, 0]));
            self.module(&draft.bytes());
        }
    }

    /// All orders of the five mandatory chunks with a block in each, and the optional chunks at many positions.
    pub(super) fn orders(&mut self) {
        let small = small();
        for order in permutations(&MANDATORY) {
            let draft = small.draft().ordered(&order);
            self.module(&draft.bytes());
        }
        let optional = Tune {
            name: Some(b"in any place".to_vec()),
            volume_envelopes: Some(vec![]),
            panning_envelopes: Some(vec![]),
            ..Tune::default()
        };
        for optional_order in permutations(&[*b"NAME", *b"VENV", *b"PENV"]) {
            for place in 0..=5 {
                let mut order = MANDATORY.to_vec();
                order.splice(place..place, optional_order.iter().copied());
                let draft = optional.draft().ordered(&order);
                self.module(&draft.bytes());
            }
        }
        self.module(&rich().draft().ordered(&REVERSED).bytes());
        let mut backwards = rich().draft();
        backwards.chunks.reverse();
        self.module(&backwards.bytes());
    }

    /// NAME and INFO of other lengths.
    pub(super) fn fixed_lengths(&mut self) {
        let named = Tune {
            name: Some(b"any name".to_vec()),
            ..Tune::default()
        };
        self.tune(&named, |tune| tune.name = Some(vec![0xFF; 44]));
        for length in [0, 1, 10, 43, 44, 45, 88] {
            self.draft(&named, |draft| {
                draft.chunk(b"NAME").data.resize(length, b'n')
            });
        }
        for length in [0, 1, 8, 9, 10, 11, 12, 20, 44] {
            self.draft(&named, |draft| draft.chunk(b"INFO").data.resize(length, 0));
        }
        // Header lengths that include bytes of the next chunk or exclude bytes of their own.
        for stored_length in [0, 36, 43, 45, 52, 62] {
            self.draft(&named, |draft| {
                draft.chunk(b"NAME").stored_length = Some(stored_length)
            });
        }
        for stored_length in [0, 2, 9, 11, 18] {
            self.draft(&named, |draft| {
                draft.chunk(b"INFO").stored_length = Some(stored_length)
            });
        }
    }

    /// Each number of INFO around its limits, and several wrong at once.
    pub(super) fn info_numbers(&mut self) {
        let smallest = Tune::default();
        let limits: [u16; 4] = [255, 255, 32_767, 1_024];
        for (index, limit) in limits.into_iter().enumerate() {
            for number in [1, limit, limit + 1, 0x0100, 0x8000, 0xFFFF] {
                self.draft(&smallest, |draft| {
                    draft.put(b"INFO", 2 * index, &number.to_be_bytes())
                });
            }
        }
        for tracks in [
            0, 1, 2, 3, 4, 5, 6, 7, 8, 127, 128, 129, 252, 253, 254, 255, 256, 258, 260, 0x0400,
            0x7FFE, 0x8004, 0xFF04, 0xFFFE, 0xFFFF,
        ] {
            self.tune(&smallest, |tune| tune.tracks = tracks);
        }
        for first in 0..5 {
            for second in first + 1..5 {
                self.draft(&smallest, |draft| {
                    draft.put(b"INFO", 2 * second, &[0xFF, 0xFF]);
                    draft.put(b"INFO", 2 * first, &[0xFF, 0xFF]);
                });
            }
        }
    }

    /// Counts that do not match the blocks.
    pub(super) fn counts(&mut self) {
        let small = small();
        for index in 0..4 {
            for count in [0, 2, 3, 255] {
                self.draft(&small, |draft| {
                    draft.put(b"INFO", 2 * index, &[0, count]);
                });
            }
        }
        // Two counts are swapped, and all are increased by one.
        self.draft(&small, |draft| draft.put(b"INFO", 0, &[0, 2, 0, 0]));
        self.draft(&small, |draft| draft.put(b"INFO", 4, &[0, 0, 0, 2]));
        self.draft(&small, |draft| {
            draft.put(b"INFO", 0, &[0, 2, 0, 2, 0, 2, 0, 2]);
        });
    }

    /// A module that has every chunk, cut at every byte; and one with blocks in all of them, cut at every nineteenth byte.
    pub(super) fn cuts(&mut self) {
        let mut every = Tune {
            name: Some(b"cut".to_vec()),
            songs: vec![],
            instruments: vec![],
            volume_envelopes: Some(vec![]),
            panning_envelopes: Some(vec![]),
            ..small()
        }
        .draft();
        every.chunks.push(Chunk::new(b"DSPE", vec![1, 2, 3]));
        let every = every.bytes();
        for length in 0..=every.len() {
            self.module(&every[..length]);
        }
        let rich = rich().draft().ordered(&REVERSED).bytes();
        for length in (3..rich.len()).step_by(19) {
            self.module(&rich[..length]);
        }
    }
}
