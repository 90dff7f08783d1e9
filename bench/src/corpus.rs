//! The three corpora: patterns as cells and as packed streams. They are the same on every run.

/// One pattern: its cells, and a stream of them. In the corpora it is the packer's stream.
pub struct Pattern {
    pub rows: u64,
    pub tracks: u64,
    pub cells: Vec<u8>,
    pub stream: Vec<u8>,
}

impl Pattern {
    fn new(rows: usize, tracks: usize, cells: Vec<u8>) -> Pattern {
        Pattern {
            rows: rows as u64,
            tracks: tracks as u64,
            stream: packed(&cells, tracks),
            cells,
        }
    }

    /// The same cells with random bits 6 and 7 in each mask of the stream.
    pub fn with_upper_bits(&self, random: &mut Random) -> Pattern {
        Pattern {
            cells: self.cells.clone(),
            stream: with_upper_bits(&self.stream, || random.byte()),
            ..*self
        }
    }

    /// The packer's stream.
    pub fn packed(&self) -> Vec<u8> {
        packed(&self.cells, self.tracks as usize)
    }
}

pub struct Corpus {
    pub name: &'static str,
    pub patterns: Vec<Pattern>,
}

pub const PATTERNS: usize = 200;
pub const ROWS: usize = 64;
pub const TRACKS: usize = 32;
const FIELDS: usize = 6;
/// The bits of a mask that name fields. Bits 6 and 7 name none.
const FIELD_BITS: u8 = 0x3F;

/// The commands that change neither the order of rows nor the tempo.
const COMMANDS: [u8; 6] = [0x01, 0x02, 0x03, 0x04, 0x0A, 0x0C];
const INSTRUMENTS: u64 = 64;

impl Corpus {
    pub fn cells(&self) -> usize {
        PATTERNS * ROWS * TRACKS
    }

    pub fn packed_bytes(&self) -> usize {
        self.patterns
            .iter()
            .map(|pattern| pattern.stream.len())
            .sum()
    }

    pub fn full_cells(&self) -> usize {
        self.patterns
            .iter()
            .flat_map(|pattern| pattern.cells.chunks(FIELDS))
            .filter(|cell| cell.iter().any(|&field| field != 0))
            .count()
    }

    /// The same cells with random bits 6 and 7 in each mask of the streams.
    pub fn with_upper_bits(&self) -> Corpus {
        let mut random = Random(6);
        let patterns = self.patterns.iter();
        Corpus {
            name: self.name,
            patterns: patterns.map(|it| it.with_upper_bits(&mut random)).collect(),
        }
    }

    /// The same patterns with another note in each n-th cell.
    pub fn with_other_notes(&self, n: usize) -> Corpus {
        let mut all: Vec<u8> = self
            .patterns
            .iter()
            .flat_map(|it| it.cells.clone())
            .collect();
        for cell in all.chunks_mut(FIELDS).step_by(n) {
            cell[0] ^= 1;
        }
        Corpus {
            name: self.name,
            patterns: all
                .chunks(ROWS * TRACKS * FIELDS)
                .map(|cells| Pattern::new(ROWS, TRACKS, cells.to_vec()))
                .collect(),
        }
    }
}

pub fn corpora() -> [Corpus; 3] {
    [
        corpus("half full, random", 1, 50, ROWS),
        corpus("half full, motifs of 4 rows", 2, 50, 4),
        corpus("8 % full, random", 3, 8, ROWS),
    ]
}

/// The first `motif` rows of each pattern are random and are repeated to its end.
fn corpus(name: &'static str, seed: u64, percent_full: u64, motif: usize) -> Corpus {
    let mut random = Random(seed);
    let patterns = (0..PATTERNS)
        .map(|_| {
            let drawn = random_cells(&mut random, motif * TRACKS, percent_full);
            let cells = drawn.iter().copied().cycle();
            Pattern::new(ROWS, TRACKS, cells.take(ROWS * TRACKS * FIELDS).collect())
        })
        .collect();
    Corpus { name, patterns }
}

/// Patterns of many sizes, from empty ones to 254 tracks. They are compared but not measured.
pub fn other_sizes(count: usize) -> Vec<Pattern> {
    let mut random = Random(4);
    (0..count)
        .map(|_| {
            let rows = random.below(20) as usize;
            let tracks = 4 + 2 * random.below(126) as usize;
            let percent_full = random.below(101);
            let cells = random_cells(&mut random, rows * tracks, percent_full);
            Pattern::new(rows, tracks, cells)
        })
        .collect()
}

/// Patterns of two entries in row 0, one in row 1 and none in row 2. One of the entries has each of the 256 masks in turn. They are compared
/// but not measured.
pub fn every_mask() -> Vec<Pattern> {
    const USUAL_MASK: u8 = 0xC5;
    let entries = [(0, 0), (0, 1), (1, 2)];
    let of_entries = |masks: [u8; 3]| {
        let (rows, tracks) = (3, 4);
        let mut cells = vec![0; rows * tracks * FIELDS];
        let mut streams = vec![Vec::new(); rows];
        for ((row, track), mask) in entries.into_iter().zip(masks) {
            let stream = &mut streams[row];
            stream.extend([track as u8 + 1, mask]);
            for field in (0..FIELDS).filter(|field| mask >> field & 1 == 1) {
                let value = 0x10 * (field as u8 + 1) + mask % 12;
                stream.push(value);
                cells[(row * tracks + track) * FIELDS + field] = value;
            }
        }
        for stream in &mut streams {
            stream.push(0);
        }
        Pattern {
            rows: rows as u64,
            tracks: tracks as u64,
            cells,
            stream: streams.concat(),
        }
    };
    (0..=255)
        .flat_map(|mask| {
            [0, 1, 2].map(|place| {
                let mut masks = [USUAL_MASK; 3];
                masks[place] = mask;
                of_entries(masks)
            })
        })
        .collect()
}

/// A valid stream with random bits 6 and 7 in each mask.
pub fn with_upper_bits(stream: &[u8], mut random_byte: impl FnMut() -> u8) -> Vec<u8> {
    let mut changed = stream.to_vec();
    let mut at = 0;
    while at < changed.len() {
        if changed[at] == 0 {
            at += 1;
            continue;
        }
        let named = changed[at + 1] & FIELD_BITS;
        changed[at + 1] = named | random_byte() & !FIELD_BITS;
        at += 2 + named.count_ones() as usize;
    }
    changed
}

fn random_cells(random: &mut Random, count: usize, percent_full: u64) -> Vec<u8> {
    (0..count)
        .flat_map(|_| random_cell(random, percent_full))
        .collect()
}

/// 10 % a note alone, 45 % note and instrument, 25 % these with a command and its parameter, 10 % command and parameter, 5 % a command
/// alone, 5 % all six fields.
fn random_cell(random: &mut Random, percent_full: u64) -> [u8; FIELDS] {
    let mut cell = [0; FIELDS];
    if random.below(100) >= percent_full {
        return cell;
    }
    let kind = random.below(100);
    if !(80..95).contains(&kind) {
        cell[0] = random.field(1, 7) << 4 | random.field(0, 11);
        if kind >= 10 {
            cell[1] = random.field(1, INSTRUMENTS);
        }
    }
    if kind >= 55 {
        cell[2] = COMMANDS[random.below(COMMANDS.len() as u64) as usize];
        if !(90..95).contains(&kind) {
            cell[3] = random.field(1, 15);
        }
    }
    if kind >= 95 {
        cell[4] = 0x0C;
        cell[5] = random.field(1, 64);
    }
    cell
}

/// The packer's stream, implemented again here so that no measured implementation makes the input of the others.
fn packed(cells: &[u8], tracks: usize) -> Vec<u8> {
    let mut stream = Vec::new();
    for row in cells.chunks(tracks * FIELDS) {
        for (cell, track) in row.chunks(FIELDS).zip(1..) {
            let mask: u8 = (0..FIELDS)
                .map(|field| u8::from(cell[field] != 0) << field)
                .sum();
            if mask != 0 {
                stream.extend([track, mask]);
                stream.extend(cell.iter().filter(|&&field| field != 0));
            }
        }
        stream.push(0);
    }
    stream
}

/// SplitMix64.
pub struct Random(pub u64);

impl Random {
    pub fn number(&mut self) -> u64 {
        self.0 = self.0.wrapping_add(0x9E37_79B9_7F4A_7C15);
        let mut mixed = self.0;
        mixed = (mixed ^ (mixed >> 30)).wrapping_mul(0xBF58_476D_1CE4_E5B9);
        mixed = (mixed ^ (mixed >> 27)).wrapping_mul(0x94D0_49BB_1331_11EB);
        mixed ^ (mixed >> 31)
    }

    pub fn byte(&mut self) -> u8 {
        self.number() as u8
    }

    pub fn below(&mut self, limit: u64) -> u64 {
        self.number() % limit
    }

    fn field(&mut self, least: u64, most: u64) -> u8 {
        (least + self.below(most - least + 1)) as u8
    }
}
