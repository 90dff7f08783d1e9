//! The corpus: fixed test cases for the library, in one part for each conformance program.
//!
//! The cases of a part follow each other. All numbers are big-endian. Kinds 1 to 3 are for conformance_patterns, kinds 4 to 7 for
//! conformance_modules:
//!
//! - kind 1, a stream: rows (8), tracks (8), row (8), track (8), room (4), length (4), the stream;
//! - kind 2, cells: rows (8), tracks (8), room (4), length (4), the cells;
//! - kind 3, a cell to show: six bytes;
//! - kind 4, a module: room (4), length (4), the module;
//! - kind 5, the records of a module: song, entry, instrument, envelope, pattern, row, track, sample and frame (8 each), room (4),
//!   length (4), the module;
//! - kind 6, a sample to replace: its number (8), room (4), length of the new frames in bytes (4), length of the module (4), the new
//!   frames, the module;
//! - kind 7, two modules to compare: room (4), length of the first (4), length of the second (4), the first, the second.

mod comparisons;
mod modules;
mod records;
mod replacements;

use crate::generate::{
    bytes, cells, damaged, entry, fields_named, likely_bytes, valid_stream, Random,
};
use crate::pattern::{pack, repack, FIELDS};

/// The numbers that a records case queries.
#[derive(Clone, Copy, Debug, PartialEq, Eq)]
pub struct Query {
    pub song: u64,
    pub entry: u64,
    pub instrument: u64,
    pub envelope: u64,
    pub pattern: u64,
    pub row: u64,
    pub track: u64,
    pub sample: u64,
    pub frame: u64,
}

/// One case. `row` and `track` select a cell. `room` is the length of each output.
#[derive(Clone, Debug, PartialEq, Eq)]
pub enum Case {
    Stream {
        rows: u64,
        tracks: u64,
        row: u64,
        track: u64,
        room: u32,
        stream: Vec<u8>,
    },
    Cells {
        rows: u64,
        tracks: u64,
        room: u32,
        cells: Vec<u8>,
    },
    Shown([u8; FIELDS]),
    Module {
        room: u32,
        module: Vec<u8>,
    },
    Records {
        query: Query,
        room: u32,
        module: Vec<u8>,
    },
    Replacement {
        sample: u64,
        room: u32,
        frames: Vec<u8>,
        module: Vec<u8>,
    },
    Comparison {
        room: u32,
        first: Vec<u8>,
        second: Vec<u8>,
    },
}

impl Query {
    /// The numbers in the order of the encoding.
    fn numbers(self) -> [u64; 9] {
        [
            self.song,
            self.entry,
            self.instrument,
            self.envelope,
            self.pattern,
            self.row,
            self.track,
            self.sample,
            self.frame,
        ]
    }

    fn of(numbers: [u64; 9]) -> Query {
        let [song, entry, instrument, envelope, pattern, row, track, sample, frame] = numbers;
        Query {
            song,
            entry,
            instrument,
            envelope,
            pattern,
            row,
            track,
            sample,
            frame,
        }
    }
}

/// The encoded cases.
pub fn encoded(cases: &[Case]) -> Vec<u8> {
    let mut corpus = Vec::new();
    for case in cases {
        match case {
            Case::Stream {
                rows,
                tracks,
                row,
                track,
                room,
                stream,
            } => {
                corpus.push(1);
                for number in [rows, tracks, row, track] {
                    corpus.extend(number.to_be_bytes());
                }
                corpus.extend(room.to_be_bytes());
                corpus.extend((stream.len() as u32).to_be_bytes());
                corpus.extend(stream);
            }
            Case::Cells {
                rows,
                tracks,
                room,
                cells,
            } => {
                corpus.push(2);
                for number in [rows, tracks] {
                    corpus.extend(number.to_be_bytes());
                }
                corpus.extend(room.to_be_bytes());
                corpus.extend((cells.len() as u32).to_be_bytes());
                corpus.extend(cells);
            }
            Case::Shown(cell) => {
                corpus.push(3);
                corpus.extend(cell);
            }
            Case::Module { room, module } => {
                corpus.push(4);
                corpus.extend(room.to_be_bytes());
                corpus.extend((module.len() as u32).to_be_bytes());
                corpus.extend(module);
            }
            Case::Records {
                query,
                room,
                module,
            } => {
                corpus.push(5);
                for number in query.numbers() {
                    corpus.extend(number.to_be_bytes());
                }
                corpus.extend(room.to_be_bytes());
                corpus.extend((module.len() as u32).to_be_bytes());
                corpus.extend(module);
            }
            Case::Replacement {
                sample,
                room,
                frames,
                module,
            } => {
                corpus.push(6);
                corpus.extend(sample.to_be_bytes());
                corpus.extend(room.to_be_bytes());
                corpus.extend((frames.len() as u32).to_be_bytes());
                corpus.extend((module.len() as u32).to_be_bytes());
                corpus.extend(frames);
                corpus.extend(module);
            }
            Case::Comparison {
                room,
                first,
                second,
            } => {
                corpus.push(7);
                corpus.extend(room.to_be_bytes());
                corpus.extend((first.len() as u32).to_be_bytes());
                corpus.extend((second.len() as u32).to_be_bytes());
                corpus.extend(first);
                corpus.extend(second);
            }
        }
    }
    corpus
}

/// The first case of a corpus and the rest. None if the corpus is at its end, the kind is unknown, or the case is cut.
pub fn take(corpus: &[u8]) -> Option<(Case, &[u8])> {
    let mut left = corpus;
    let case = match take_bytes(&mut left, 1)?[0] {
        1 => {
            let [rows, tracks, row, track] = take_numbers(&mut left)?;
            let [room, length] = take_lengths(&mut left)?;
            let stream = take_bytes(&mut left, length)?.to_vec();
            Case::Stream {
                rows,
                tracks,
                row,
                track,
                room,
                stream,
            }
        }
        2 => {
            let [rows, tracks] = take_numbers(&mut left)?;
            let [room, length] = take_lengths(&mut left)?;
            let cells = take_bytes(&mut left, length)?.to_vec();
            Case::Cells {
                rows,
                tracks,
                room,
                cells,
            }
        }
        3 => Case::Shown(take_bytes(&mut left, FIELDS as u32)?.try_into().ok()?),
        4 => {
            let [room, length] = take_lengths(&mut left)?;
            let module = take_bytes(&mut left, length)?.to_vec();
            Case::Module { room, module }
        }
        5 => {
            let query = Query::of(take_numbers(&mut left)?);
            let [room, length] = take_lengths(&mut left)?;
            let module = take_bytes(&mut left, length)?.to_vec();
            Case::Records {
                query,
                room,
                module,
            }
        }
        6 => {
            let [sample] = take_numbers(&mut left)?;
            let [room, frame_bytes, length] = take_lengths(&mut left)?;
            let frames = take_bytes(&mut left, frame_bytes)?.to_vec();
            let module = take_bytes(&mut left, length)?.to_vec();
            Case::Replacement {
                sample,
                room,
                frames,
                module,
            }
        }
        7 => {
            let [room, first, second] = take_lengths(&mut left)?;
            let first = take_bytes(&mut left, first)?.to_vec();
            let second = take_bytes(&mut left, second)?.to_vec();
            Case::Comparison {
                room,
                first,
                second,
            }
        }
        _ => return None,
    };
    Some((case, left))
}

fn take_bytes<'a>(left: &mut &'a [u8], length: u32) -> Option<&'a [u8]> {
    let (taken, after) = left.split_at_checked(usize::try_from(length).ok()?)?;
    *left = after;
    Some(taken)
}

fn take_numbers<const N: usize>(left: &mut &[u8]) -> Option<[u64; N]> {
    let mut numbers = [0; N];
    for number in &mut numbers {
        *number = u64::from_be_bytes(take_bytes(left, 8)?.try_into().ok()?);
    }
    Some(numbers)
}

fn take_lengths<const N: usize>(left: &mut &[u8]) -> Option<[u32; N]> {
    let mut numbers = [0; N];
    for number in &mut numbers {
        *number = u32::from_be_bytes(take_bytes(left, 4)?.try_into().ok()?);
    }
    Some(numbers)
}

/// The name of each conformance program and its cases: packed rows and cells for the first; whole modules, then records, then samples to
/// replace for the second.
pub fn programs() -> [(&'static str, Vec<Case>); 2] {
    [
        ("conformance_patterns", pattern_cases()),
        (
            "conformance_modules",
            [
                module_cases(),
                record_cases(),
                replacement_cases(),
                comparison_cases(),
            ]
            .concat(),
        ),
    ]
}

/// The cases of kind 7.
pub fn comparison_cases() -> Vec<Case> {
    comparisons::cases()
}

/// The cases of kind 6.
pub fn replacement_cases() -> Vec<Case> {
    replacements::cases()
}

/// The cases of kind 5.
pub fn record_cases() -> Vec<Case> {
    records::cases()
}

/// The cases of kind 4.
pub fn module_cases() -> Vec<Case> {
    modules::cases()
}

/// The cases of kinds 1 to 3.
pub fn pattern_cases() -> Vec<Case> {
    let mut builder = CaseBuilder {
        cases: Vec::new(),
        random: Random::new(1),
    };
    builder.register();
    builder.indices();
    builder.rooms();
    builder.masks();
    builder.unusual();
    builder.faults();
    builder.cuts_and_changes();
    builder.ranges();
    builder.many_tracks();
    builder.valid();
    builder.broken();
    builder.packed_cells();
    builder.large();
    builder.notes();
    builder.upper_bits();
    builder.cases
}

/// The length of the pattern's cells in bytes.
fn cell_bytes(rows: u64, tracks: u64) -> u32 {
    (rows * tracks) as u32 * FIELDS as u32
}

/// An entry with a mask, and of these values as many as it names fields.
fn entry_of(track: u8, mask: u8, values: &[u8; FIELDS]) -> Vec<u8> {
    [&[track, mask], &values[..fields_named(mask)]].concat()
}

/// Three rows of four tracks, as a stream that no packer writes, split into entries and row ends.
fn pieces() -> Vec<Vec<u8>> {
    vec![
        vec![0x02, 0x03, 0x47, 0x01],
        vec![0x01, 0x3F, 0x11, 0x12, 0x13, 0x14, 0x15, 0x16],
        vec![0x00],
        vec![0x04, 0x20, 0x66],
        vec![0x04, 0x00],
        vec![0x00],
        vec![0x03, 0x15, 0x1F, 0x00, 0x7F],
        vec![0x00],
    ]
}

struct CaseBuilder {
    cases: Vec<Case>,
    random: Random,
}

impl CaseBuilder {
    /// A stream case with a selected cell and a given output length.
    fn stream(
        &mut self,
        rows: u64,
        tracks: u64,
        (row, track): (u64, u64),
        room: u32,
        stream: &[u8],
    ) {
        self.cases.push(Case::Stream {
            rows,
            tracks,
            row,
            track,
            room,
            stream: stream.to_vec(),
        });
    }

    /// A stream case with a random cell of the pattern. The output is long enough, slightly shorter or longer, or empty.
    fn any_stream(&mut self, rows: u64, tracks: u64, stream: &[u8]) {
        let row = if rows == 0 || self.random.chance(4) {
            rows
        } else {
            self.random.below(rows)
        };
        let track = if self.random.chance(4) {
            self.random.pick(&[0, tracks + 1])
        } else {
            1 + self.random.below(tracks)
        };
        let needed = cell_bytes(rows, tracks);
        let room = match self.random.below(20) {
            0 => needed.saturating_sub(1),
            1 => needed + 1,
            2 => 0,
            3 => stream.len() as u32,
            4 => (stream.len() as u32).saturating_sub(1),
            _ => needed,
        };
        self.stream(rows, tracks, (row, track), room, stream);
    }

    fn cells(&mut self, rows: u64, tracks: u64, room: u32, cells: &[u8]) {
        self.cases.push(Case::Cells {
            rows,
            tracks,
            room,
            cells: cells.to_vec(),
        });
    }

    /// The samples of the register, each with an output for its cells; and the cells of P1 to P5.
    fn register(&mut self) {
        let samples: [(u64, u64, &[u8]); 12] = [
            (2, 4, &[0x02, 0x03, 0x47, 0x01, 0x00, 0x00]),
            (2, 4, &[0x02, 0x01, 0x47, 0x02, 0x02, 0x01, 0x00, 0x00]),
            (2, 4, &[0x02, 0x07, 0x47, 0x01, 0x00, 0x00, 0x00]),
            (1, 4, &[0x01, 0x01, 0x47, 0x01, 0x01, 0x00, 0x00]),
            (1, 4, &[0x01, 0x00, 0x00]),
            (0, 4, &[]),
            (0, 4, &[0x00]),
            (1, 4, &[0x05, 0x01, 0x47, 0x00]),
            (1, 6, &[0x05, 0x01, 0x47, 0x00]),
            (1, 4, &[0x01, 0x41, 0x47, 0x00]),
            (2, 4, &[0x00]),
            (1, 4, &[0x01, 0x81, 0x47, 0x00]),
        ];
        for (rows, tracks, stream) in samples {
            self.stream(rows, tracks, (0, 2), cell_bytes(rows, tracks), stream);
            self.stream(rows, tracks, (0, 1), 6, stream);
        }
        let mut pattern = [0; 48];
        pattern[6] = 0x47;
        pattern[7] = 0x01;
        self.cells(2, 4, 48, &pattern);
        self.cells(2, 4, 6, &pattern);
        self.cells(2, 4, 5, &pattern);
        self.cells(1, 4, 24, &[0; 24]);
        self.cells(0, 4, 0, &[]);

        let full: Vec<u8> = (1..=24).collect();
        for room in [0, 32, 33, 34, 40] {
            self.cells(1, 4, room, &full);
        }
        let mut packed = vec![0; 33];
        pack(&full, 1, 4, &mut packed).expect("33 bytes are enough");
        for room in [0, 23, 24, 25, 32, 33, 34] {
            self.stream(1, 4, (0, 4), room, &packed);
        }
    }

    /// Every row and track of a pattern, the next ones, and very large ones; also for a broken stream.
    fn indices(&mut self) {
        let valid = pieces().concat();
        for row in 0..=3 {
            for track in 0..=5 {
                self.stream(3, 4, (row, track), 0, &valid);
            }
        }
        let broken = [&valid[..], &[0x00]].concat();
        let wild = [
            0,
            1,
            2,
            3,
            4,
            5,
            255,
            256,
            257,
            65_535,
            65_536,
            1 << 32,
            1 << 63,
            u64::MAX,
        ];
        for stream in [&valid, &broken] {
            for number in wild {
                self.stream(3, 4, (number, 1), 0, stream);
                self.stream(3, 4, (0, number), 0, stream);
                self.stream(3, 4, (number, number), 0, stream);
            }
        }
        // The fault is before, in and after the selected row.
        for place in 0..valid.len() {
            let mut broken = valid.clone();
            broken[place] = 0xC0;
            for row in 0..3 {
                self.stream(3, 4, (row, 1 + place as u64 % 4), 0, &broken);
            }
        }
        self.stream(0, 4, (0, 1), 0, &[]);
        self.stream(0, 4, (0, 1), 0, &[0]);
        self.stream(0, 4, (u64::MAX, u64::MAX), 0, &[0]);
    }

    /// Output lengths of 0, and of one less, exactly, and one more than the cells and the packed stream need.
    fn rooms(&mut self) {
        let valid = pieces().concat();
        let mut packed = vec![0; 100];
        let length = repack(&valid, 3, 4, &mut packed).expect("100 bytes are enough") as u32;
        let broken = [&valid[..], &[0x00]].concat();
        let lacking = &valid[..valid.len() - 1];
        for room in [0, 1, length - 1, length, length + 1, 71, 72, 73, 100] {
            self.stream(3, 4, (0, 1), room, &valid);
            self.stream(3, 4, (1, 4), room, &packed[..length as usize]);
            self.stream(3, 4, (2, 3), room, &broken);
            self.stream(3, 4, (2, 3), room, lacking);
        }
        for room in [0, 1, 5] {
            self.stream(0, 4, (0, 1), room, &[]);
            self.stream(0, 254, (0, 1), room, &[7]);
            self.cells(0, 4, room, &[]);
            self.cells(0, 254, room, &[]);
        }
        for room in 0..=10 {
            self.cells(3, 4, room, &[0; 72]);
            self.stream(3, 4, (1, 1), room, &[0, 0, 0]);
        }
    }

    /// Every mask byte: alone, over a full cell, with zeros over a full cell, and some of them cut after each number of fields. Masks with
    /// bit 6 or 7 are also followed by three zeros, of which the mask names none, some or all.
    fn masks(&mut self) {
        for mask in 0..=255 {
            let named = entry_of(3, mask, &[0x51, 0x52, 0x53, 0x54, 0x55, 0x56]);
            let zeros = entry_of(3, mask, &[0; FIELDS]);
            let full = [3, 0x3F, 0x61, 0x62, 0x63, 0x64, 0x65, 0x66];
            self.stream(1, 4, (0, 3), 24, &[&named[..], &[0]].concat());
            self.stream(1, 4, (0, 3), 24, &[&full[..], &named, &[0]].concat());
            self.stream(1, 4, (0, 3), 24, &[&full[..], &zeros, &[0]].concat());
            if mask < 64 {
                let fields = fields_named(mask) as u32;
                let mut cell = [0; 24];
                for field in 0..FIELDS {
                    if mask & (1 << field) != 0 {
                        cell[12 + field] = 0x71 + field as u8;
                    }
                }
                self.cells(1, 4, 3 + fields, &cell);
                self.cells(1, 4, 2 + fields, &cell);
            }
        }
        for mask in [
            0x01, 0x20, 0x3F, 0x2A, 0x15, 0x41, 0xA0, 0xFF, 0x6A, 0x95, 0x40, 0x80, 0xC0,
        ] {
            for length in 0..8 {
                let cut = [0, 2, mask, 1, 2, 3, 4, 5];
                self.stream(2, 4, (0, 1), 48, &cut[..length]);
            }
        }
        for mask in 64..=255 {
            self.stream(1, 4, (0, 1), 0, &[0x01, mask, 0, 0, 0]);
        }
    }

    /// Repeated tracks, descending tracks, masks of 0, values of 0.
    fn unusual(&mut self) {
        let streams: [(u64, u64, &[u8]); 10] = [
            (1, 4, &[4, 1, 0x41, 3, 1, 0x42, 2, 1, 0x43, 1, 1, 0x44, 0]),
            (1, 4, &[1, 1, 0x41, 1, 1, 0x42, 1, 1, 0x43, 0]),
            (1, 4, &[1, 1, 0x41, 2, 1, 0x42, 1, 2, 0x43, 2, 2, 0x44, 0]),
            (
                1,
                4,
                &[1, 0x3F, 1, 2, 3, 4, 5, 6, 1, 0x3F, 0, 0, 0, 0, 0, 0, 0],
            ),
            (
                1,
                4,
                &[1, 0x3F, 0, 0, 0, 0, 0, 0, 1, 0x3F, 1, 2, 3, 4, 5, 6, 0],
            ),
            (2, 4, &[1, 0x3F, 1, 2, 3, 4, 5, 6, 0, 1, 0x00, 0]),
            (2, 4, &[1, 0x3F, 1, 2, 3, 4, 5, 6, 0, 1, 0x01, 9, 0]),
            (1, 4, &[4, 0, 3, 0, 2, 0, 1, 0, 4, 0, 0]),
            (3, 4, &[1, 0, 0, 2, 0, 0, 3, 0, 0]),
            (1, 4, &[2, 0x20, 0, 2, 0x01, 0, 2, 0x08, 7, 2, 0x08, 0, 0]),
        ];
        for (rows, tracks, stream) in streams {
            for track in 1..=2 {
                self.stream(
                    rows,
                    tracks,
                    (rows - 1, track),
                    cell_bytes(rows, tracks),
                    stream,
                );
            }
        }
    }

    /// Each kind of fault, and entries with bits 6 and 7 of the mask, before each piece of a stream and at its end.
    fn faults(&mut self) {
        let pieces = pieces();
        let faulty: [&[u8]; 10] = [
            &[0x05, 0x01, 0x47],
            &[0x05],
            &[0xFF, 0x00],
            &[0x80, 0x01, 0x01],
            &[0x00],
            &[0x01],
            &[0x02, 0x3F, 1, 2, 3, 4, 5],
            &[0x02, 0xFF, 1, 2, 3, 4, 5],
            &[0x03, 0x41],
            &[0x05, 0xC0],
        ];
        let whole: [&[u8]; 4] = [
            &[0x01, 0x41, 0x47],
            &[0x01, 0x80],
            &[0x04, 0xFF, 1, 2, 3, 4, 5, 6],
            &[0x03, 0xC0],
        ];
        for place in 0..=pieces.len() {
            let before = pieces[..place].concat();
            let after = pieces[place..].concat();
            let row = self.random.below(3);
            for added in faulty.into_iter().chain(whole) {
                // With the rest of the stream, and at the end of the stream.
                self.stream(3, 4, (row, 2), 72, &[&before, added, &after].concat());
                self.stream(3, 4, (row, 2), 0, &[&before, added].concat());
            }
            self.stream(3, 4, (row, 2), 72, &before);
            for rows in 0..6 {
                self.stream(rows, 4, (0, 1), 0, &before);
            }
        }
    }

    /// The packer's streams, cut at every byte and with single bytes changed.
    fn cuts_and_changes(&mut self) {
        for (rows, tracks, filled, named) in [(3, 4, 60, 50), (2, 6, 40, 80), (4, 4, 30, 35)] {
            let cells = cells(&mut self.random, rows, tracks, filled, named);
            let mut packed = vec![0; 500];
            let length =
                pack(&cells, rows, tracks, &mut packed).expect("500 bytes are enough") as usize;
            packed.truncate(length);
            let needed = cell_bytes(rows, tracks);
            for cut in 0..=length {
                let row = self.random.below(rows);
                self.stream(rows, tracks, (row, 1), 0, &packed[..cut]);
            }
            for place in 0..length {
                for change in 0..4 {
                    let mut stream = packed.clone();
                    stream[place] = match change {
                        0 => 0,
                        1 => stream[place].wrapping_add(1),
                        2 => stream[place] ^ self.random.pick(&[0x02, 0x40, 0x80]),
                        _ => self.random.byte(),
                    };
                    let (row, track) = (self.random.below(rows), 1 + self.random.below(tracks));
                    let room = if change % 2 == 0 { needed } else { 0 };
                    self.stream(rows, tracks, (row, track), room, &stream);
                }
            }
        }
    }

    /// Rows and tracks in range and out of range, with products that wrap at 64 bits and numbers that wrap at 8, 16 and 32 bits.
    fn ranges(&mut self) {
        let rows = [
            0,
            1,
            2,
            65_535,
            65_536,
            65_537,
            65_538,
            (1 << 32) + 1,
            (1 << 61) + 1,
            1 << 63,
            u64::MAX,
        ];
        let tracks = [
            0,
            1,
            2,
            3,
            4,
            5,
            6,
            127,
            128,
            253,
            254,
            255,
            256,
            258,
            260,
            65_540,
            (1 << 32) + 4,
            (1 << 62) + 4,
            1 << 63,
            u64::MAX - 1,
            u64::MAX,
        ];
        for &rows in &rows {
            for &tracks in &tracks {
                let stream: &[u8] = match self.random.below(4) {
                    0 => &[],
                    1 => &[0],
                    2 => &[0, 0],
                    _ => &[1, 1, 1, 0],
                };
                let (row, track) = (
                    self.random.pick(&[0, rows.wrapping_sub(1), rows]),
                    self.random.pick(&[0, 1, tracks]),
                );
                let room = self.random.pick(&[0, 24, 48]);
                self.stream(rows, tracks, (row, track), room, stream);
                // The length that a 64-bit product gives, if it is small.
                let product = rows.wrapping_mul(tracks).wrapping_mul(FIELDS as u64);
                let length = if product <= 48 {
                    product as usize
                } else {
                    self.random.pick(&[0, 24])
                };
                self.cells(rows, tracks, 8, &vec![1; length]);
            }
        }
        for (rows, tracks) in [
            (1u64 << 61, 4),
            (1 << 62, 4),
            ((1 << 61) + 1, 4),
            (0, 1 << 63),
            (1 << 32, 1 << 32),
            (4, 1 << 62),
        ] {
            self.stream(rows, tracks, (0, 1), 64, &[0]);
            self.stream(rows, tracks, (0, 1), 0, &[]);
            self.cells(rows, tracks, 64, &[]);
            self.cells(rows, tracks, 64, &[1; 24]);
        }
        for length in 0..=30 {
            self.cells(1, 4, 3, &vec![if length % 2 == 0 { 0 } else { 9 }; length]);
        }
        for length in [0, 1, 23, 24, 47, 48, 49, 72] {
            self.cells(2, 4, 0, &vec![1; length]);
            self.cells(0, 4, 9, &vec![0; length]);
            self.cells(65_535, 254, 9, &vec![0; length]);
            self.cells(65_536, 4, 9, &vec![0; length]);
        }
    }

    /// 254 tracks, and the tracks around the limit of a signed byte.
    fn many_tracks(&mut self) {
        for track in [1, 2, 126, 127, 128, 129, 253, 254, 255] {
            self.stream(
                1,
                254,
                (0, u64::from(track)),
                0,
                &[track, 0x03, 0x35, track, 0],
            );
            self.stream(
                2,
                254,
                (1, u64::from(track)),
                0,
                &[0, track, 0x03, 0x8B, track, 0],
            );
            self.stream(1, 254, (0, 1), 8, &[track, 0x3F, 1, 2, 3, 4, 5, 6, 0]);
            self.stream(
                1,
                128,
                (0, u64::from(track)),
                5,
                &[track, 0x03, 0x35, track, 0],
            );
        }
        let stream = [254, 1, 1, 128, 2, 2, 127, 4, 3, 1, 8, 4, 254, 1, 5, 0];
        for room in [1523, 1524, 1525, 16, 15] {
            self.stream(1, 254, (0, 254), room, &stream);
        }
        for (filled, room) in [(0, 1), (3, 200), (100, 2000)] {
            let cells = cells(&mut self.random, 1, 254, filled, 60);
            self.cells(1, 254, room, &cells);
        }
        let full: Vec<u8> = (0..1524).map(|byte| 1 + (byte % 255) as u8).collect();
        for room in [2032, 2033, 2034] {
            self.cells(1, 254, room, &full);
        }
    }

    /// Random valid streams, some of them with one row or two tracks more or less.
    fn valid(&mut self) {
        for turn in 0..420 {
            let rows = self.random.below(4);
            let tracks = self.random.pick(&[4, 4, 4, 6, 8]);
            let most = self.random.below(7);
            let stream = valid_stream(&mut self.random, rows, tracks, most);
            match turn % 6 {
                0 if tracks > 4 => self.any_stream(rows, tracks - 2, &stream),
                1 => self.any_stream(rows + 1, tracks, &stream),
                2 if rows > 0 => self.any_stream(rows - 1, tracks, &stream),
                3 => self.any_stream(rows, tracks + 2, &stream),
                _ => self.any_stream(rows, tracks, &stream),
            }
        }
    }

    /// Random bytes, and valid streams that are damaged.
    fn broken(&mut self) {
        for _ in 0..160 {
            let length = self.random.below(24);
            let stream = bytes(&mut self.random, length);
            let rows = self.random.below(3);
            self.any_stream(rows, 4, &stream);
            let length = self.random.below(30);
            let stream = bytes(&mut self.random, length);
            self.stream(rows, 254, (0, 7), 0, &stream);
        }
        for _ in 0..240 {
            let length = self.random.below(16);
            let stream = likely_bytes(&mut self.random, length);
            let rows = self.random.below(5);
            self.any_stream(rows, 4, &stream);
        }
        for _ in 0..240 {
            let rows = self.random.below(4);
            let tracks = self.random.pick(&[4, 6]);
            let stream = valid_stream(&mut self.random, rows, tracks, 4);
            let stream = damaged(&mut self.random, &stream);
            self.any_stream(rows, tracks, &stream);
        }
        // A cut entry after a number of valid ones.
        for _ in 0..60 {
            let mut stream = valid_stream(&mut self.random, 1, 4, 3);
            let entry = entry(&mut self.random, 4);
            let kept = self.random.below(entry.len() as u64) as usize;
            stream.extend(&entry[..kept]);
            self.any_stream(2, 4, &stream);
        }
    }

    /// Cells of many densities, packed into outputs around the needed length.
    fn packed_cells(&mut self) {
        for (filled, named) in [
            (0, 0),
            (5, 60),
            (20, 20),
            (30, 100),
            (50, 50),
            (75, 30),
            (100, 50),
            (100, 100),
        ] {
            for (rows, tracks) in [(0, 6), (1, 4), (2, 4), (3, 6), (1, 16), (5, 4)] {
                let cells = cells(&mut self.random, rows, tracks, filled, named);
                let mut packed = vec![0; 1000];
                let needed =
                    pack(&cells, rows, tracks, &mut packed).expect("1000 bytes are enough") as u32;
                for room in [needed, needed.saturating_sub(1), needed + 1, 0] {
                    self.cells(rows, tracks, room, &cells);
                }
                self.stream(rows, tracks, (0, 1), needed, &packed[..needed as usize]);
            }
        }
        // One field in one cell, at each place.
        for place in 0..48 {
            let mut cells = [0; 48];
            cells[place] = self.random.pick(&[1, 0x47, 0x80, 0xFF]);
            self.cells(2, 4, 5, &cells);
        }
    }

    /// Some patterns of usual size, and outputs of the maximum length.
    fn large(&mut self) {
        for (rows, tracks, most) in [(64, 8, 5), (128, 4, 2)] {
            let stream = valid_stream(&mut self.random, rows, tracks, most);
            self.stream(
                rows,
                tracks,
                (rows - 1, tracks),
                cell_bytes(rows, tracks),
                &stream,
            );
        }
        let packed = cells(&mut self.random, 64, 8, 30, 50);
        self.cells(64, 8, 3000, &packed);
        let packed = cells(&mut self.random, 5, 254, 10, 40);
        self.cells(5, 254, 65_537, &packed);

        // 43 rows of 254 tracks are 65,532 bytes; 44 rows do not fit.
        let stream = valid_stream(&mut self.random, 43, 254, 6);
        self.stream(43, 254, (42, 254), u32::MAX, &stream);
        let stream = valid_stream(&mut self.random, 44, 254, 2);
        self.stream(44, 254, (43, 1), 300, &stream);

        // Many rows, short streams, and empty rows only.
        for rows in [255, 256, 257, 65_534, 65_535] {
            self.stream(rows, 4, (rows - 1, 4), 10, &[0; 256]);
            self.stream(rows, 254, (0, 1), 0, &[]);
            self.stream(rows, 4, (0, 1), 0, &[1, 1, 0x47, 0]);
            self.stream(rows, 4, (0, 1), 0, &[1, 1]);
        }
    }

    /// Every byte as a note, and every field alone.
    fn notes(&mut self) {
        for note in 0..=255 {
            let other = bytes(&mut self.random, 5);
            self.cases.push(Case::Shown([
                note, other[0], other[1], other[2], other[3], other[4],
            ]));
        }
        for field in 0..FIELDS {
            for value in [1, 0x1F, 0x7F, 0x80, 0xFF] {
                let mut cell = [0; FIELDS];
                cell[field] = value;
                self.cases.push(Case::Shown(cell));
            }
        }
        for note in [0x0F, 0x10, 0x1B, 0x1C, 0x1F, 0x20, 0x8B, 0x8C, 0x90, 0xFF] {
            self.stream(1, 4, (0, 1), 0, &[1, 1, note, 0]);
        }
    }

    /// Bits 6 and 7 of the masks of three rows: in one mask, in all, and in all of them with each cut and with outputs around the needed
    /// length. An entry with each byte changed to every value.
    fn upper_bits(&mut self) {
        let pieces = pieces();
        let with = |upper: u8, chosen: &dyn Fn(usize) -> bool| {
            let mut pieces = pieces.clone();
            for (index, piece) in pieces.iter_mut().enumerate() {
                if chosen(index) && piece.len() > 1 {
                    piece[1] |= upper;
                }
            }
            pieces.concat()
        };
        for upper in [0x40, 0x80, 0xC0] {
            for (index, _) in pieces
                .iter()
                .enumerate()
                .filter(|(_, piece)| piece.len() > 1)
            {
                self.stream(3, 4, (0, 1), 72, &with(upper, &|other| other == index));
            }
            let all = with(upper, &|_| true);
            let mut packed = vec![0; 100];
            let length = repack(&all, 3, 4, &mut packed).expect("100 bytes are enough") as u32;
            for room in [0, length - 1, length, length + 1, 71, 72, 73] {
                self.stream(3, 4, (2, 3), room, &all);
            }
            for cut in 0..all.len() {
                self.stream(3, 4, (1, 4), 72, &all[..cut]);
            }
        }
        let entry = [3, 0xC3, 0x47, 0x01, 0];
        for place in 0..entry.len() {
            for byte in 0..=255 {
                let mut stream = entry;
                stream[place] = byte;
                self.stream(1, 4, (0, 3), 24, &stream);
            }
        }
    }
}
