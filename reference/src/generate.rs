//! Makes streams, cells and modules from a seed. The same seed makes the same bytes.

use crate::chunks::{Name, AFTER_INFO, COVERED};
use crate::draft::{Chunk, Draft, Envelope, Instrument, Pattern, Sample, Song, Tune};
use crate::pattern::{repack, FIELDS};

/// A xorshift generator.
pub struct Random(u64);

impl Random {
    /// Neighbouring seeds are spread first, so that their sequences differ from the beginning.
    pub fn new(seed: u64) -> Random {
        let mut spread = seed.wrapping_add(0x9E37_79B9_7F4A_7C15);
        spread = (spread ^ (spread >> 30)).wrapping_mul(0xBF58_476D_1CE4_E5B9);
        spread = (spread ^ (spread >> 27)).wrapping_mul(0x94D0_49BB_1331_11EB);
        Random((spread ^ (spread >> 31)) | 1)
    }

    pub fn number(&mut self) -> u64 {
        self.0 ^= self.0 << 13;
        self.0 ^= self.0 >> 7;
        self.0 ^= self.0 << 17;
        self.0
    }

    /// A number less than `limit`, which is not 0.
    pub fn below(&mut self, limit: u64) -> u64 {
        (self.number() >> 11) % limit
    }

    pub fn byte(&mut self) -> u8 {
        (self.number() >> 32) as u8
    }

    pub fn chance(&mut self, percent: u64) -> bool {
        self.below(100) < percent
    }

    pub fn pick<T: Copy>(&mut self, from: &[T]) -> T {
        from[self.below(from.len() as u64) as usize]
    }
}

/// Random bytes.
pub fn bytes(random: &mut Random, length: u64) -> Vec<u8> {
    (0..length).map(|_| random.byte()).collect()
}

/// Mostly row ends, low tracks and masks, so that a stream of these bytes breaks late.
pub fn likely_bytes(random: &mut Random, length: u64) -> Vec<u8> {
    const LIKELY: [u8; 16] = [0, 0, 0, 0, 1, 1, 2, 2, 3, 3, 4, 4, 0x05, 0x20, 0x3F, 0x40];
    (0..length)
        .map(|_| {
            if random.chance(95) {
                random.pick(&LIKELY)
            } else {
                random.byte()
            }
        })
        .collect()
}

/// The number of fields that a mask names with its bits 0 to 5.
pub fn fields_named(mask: u8) -> usize {
    (mask & 0x3F).count_ones() as usize
}

/// A valid entry: any track, any mask byte, so that three masks in four have bit 6, bit 7 or both, and about one value in four is 0.
pub fn entry(random: &mut Random, tracks: u64) -> Vec<u8> {
    let track = (1 + random.below(tracks)) as u8;
    let mask = random.byte();
    let mut entry = vec![track, mask];
    for _ in 0..fields_named(mask) {
        entry.push(if random.chance(25) { 0 } else { random.byte() });
    }
    entry
}

/// A valid stream: in each row up to `most` entries, in any order and with repeated tracks.
pub fn valid_stream(random: &mut Random, rows: u64, tracks: u64, most: u64) -> Vec<u8> {
    let mut stream = Vec::new();
    for _ in 0..rows {
        for _ in 0..random.below(most + 1) {
            stream.extend(entry(random, tracks));
        }
        stream.push(0);
    }
    stream
}

/// A stream with one to three faults. Some of them leave it valid.
pub fn damaged(random: &mut Random, stream: &[u8]) -> Vec<u8> {
    let mut stream = stream.to_vec();
    for _ in 0..1 + random.below(3) {
        let place = random.below(stream.len() as u64 + 1) as usize;
        match random.below(6) {
            0 => stream.truncate(place),
            1 => stream.insert(place, random.byte()),
            2 => stream.insert(place, 0),
            3 => stream.push(random.pick(&[0, 1, 4, 0x3F, 0xFF])),
            _ if place == stream.len() => stream.push(random.byte()),
            4 => stream[place] ^= 1 << random.below(8),
            _ => drop(stream.remove(place)),
        }
    }
    stream
}

/// Cells: each is not empty at `filled` percent, and then each field is not 0 at `named` percent.
pub fn cells(random: &mut Random, rows: u64, tracks: u64, filled: u64, named: u64) -> Vec<u8> {
    let mut cells = Vec::new();
    for _ in 0..rows * tracks {
        let here = random.chance(filled);
        for _ in 0..FIELDS {
            cells.push(if here && random.chance(named) {
                1 + random.below(255) as u8
            } else {
                0
            });
        }
    }
    cells
}

/// The maximum number of each item in a generated module. A number above the limit of the format is reduced to it.
#[derive(Clone, Copy, Debug, PartialEq, Eq)]
pub struct Limits {
    pub songs: u64,
    /// The entries of one playlist.
    pub entries: u64,
    pub instruments: u64,
    pub patterns: u64,
    pub rows: u64,
    /// The packed entries of one row.
    pub row_entries: u64,
    pub tracks: u64,
    pub samples: u64,
    pub frames: u64,
    /// The envelopes of each kind.
    pub envelopes: u64,
    /// The chunks with other identifiers.
    pub others: u64,
    pub other_bytes: u64,
}

impl Limits {
    /// Modules of some hundred bytes.
    pub const SMALL: Limits = Limits {
        songs: 2,
        entries: 3,
        instruments: 2,
        patterns: 2,
        rows: 3,
        row_entries: 3,
        tracks: 8,
        samples: 2,
        frames: 5,
        envelopes: 1,
        others: 2,
        other_bytes: 4,
    };

    /// Modules of some thousand bytes.
    pub const USUAL: Limits = Limits {
        songs: 4,
        entries: 20,
        instruments: 12,
        patterns: 10,
        rows: 64,
        row_entries: 5,
        tracks: 32,
        samples: 10,
        frames: 300,
        envelopes: 6,
        others: 5,
        other_bytes: 60,
    };
}

/// An accepted module: records within the limits, other chunks, and any order of chunks that the rules allow.
pub fn module(random: &mut Random, most: &Limits) -> Draft {
    let tune = tune(random, most);
    arranged(random, &tune, most)
}

/// A module of these records, with other chunks, and with its chunks in any order that the rules allow.
pub fn arranged(random: &mut Random, tune: &Tune, most: &Limits) -> Draft {
    let mut draft = tune.draft();
    if random.chance(70) {
        shuffle(random, &mut draft);
    }
    for _ in 0..random.below(most.others + 1) {
        let place = random.below(draft.chunks.len() as u64 + 1) as usize;
        let length = random.below(most.other_bytes + 1);
        let chunk = Chunk::new(&other_name(random), bytes(random, length));
        draft.chunks.insert(place, chunk);
    }
    draft
}

/// The records of an accepted module.
pub fn tune(random: &mut Random, most: &Limits) -> Tune {
    let version = random.pick(&[2, 3, 3]);
    let revision = (16 * random.below(10) + random.below(10)) as u8;
    let reserved = random.pick(&[[0, 0], [0, 0], [0, 1], [0xFF, 0xFF]]);
    let tracks = 4 + 2 * random.below(most.tracks.clamp(4, 254) / 2 - 1);
    let name = random.chance(40).then(|| text(random, 44));
    let patterns = many(random, most.patterns.min(1_024), |random| {
        pattern(random, most, tracks)
    });
    let songs = many(random, most.songs.min(32_767), |random| {
        song(random, most, patterns.len())
    });
    let samples = many(random, most.samples.min(255), |random| {
        sample(random, most.frames)
    });
    let instruments = many(random, most.instruments.min(255), |random| {
        instrument(random, &samples)
    });
    let count = instruments.len();
    let panning = if version == 2 { (0, 64) } else { (-128, 128) };
    Tune {
        version,
        revision,
        reserved,
        tracks: tracks as u16,
        name,
        songs,
        patterns,
        samples,
        instruments,
        volume_envelopes: envelopes(random, most, count, (0, 64)),
        panning_envelopes: envelopes(random, most, count, panning),
    }
}

/// 0 to `most` items.
fn many<T>(random: &mut Random, most: u64, make: impl Fn(&mut Random) -> T) -> Vec<T> {
    (0..random.below(most + 1)).map(|_| make(random)).collect()
}

/// Letters and spaces, up to this many bytes.
fn text(random: &mut Random, most: u64) -> Vec<u8> {
    many(random, most, |random| {
        random.pick(b"abcdefghijklmnopqrstuvwxyz    ")
    })
}

/// A number in a range, often one of its ends.
fn edged(random: &mut Random, (low, high): (i64, i64)) -> i64 {
    match random.below(8) {
        0 => low,
        1 => high,
        _ => low + random.below((high - low) as u64 + 1) as i64,
    }
}

/// A number of 32 bits, mostly small, often near the ends.
fn wild(random: &mut Random) -> u32 {
    match random.below(4) {
        0 => random.below(10) as u32,
        1 => u32::MAX - random.below(10) as u32,
        2 => (1 << random.below(32)) - random.below(2) as u32,
        _ => random.number() as u32,
    }
}

fn song(random: &mut Random, most: &Limits, patterns: usize) -> Song {
    let entries = if patterns == 0 { 0 } else { most.entries };
    Song {
        name: text(random, 44),
        playlist: many(random, entries.min(65_535), |random| {
            edged(random, (0, patterns as i64 - 1)) as u16
        }),
    }
}

fn pattern(random: &mut Random, most: &Limits, tracks: u64) -> Pattern {
    let rows = random.below(most.rows.min(65_535) + 1);
    let mut stream = valid_stream(random, rows, tracks, most.row_entries);
    if random.chance(50) {
        let mut packed = stream.clone();
        let length = repack(&stream, rows, tracks, &mut packed).expect("no longer than it was");
        packed.truncate(length as usize);
        stream = packed;
    }
    let filler = random.pick(&[0, 0, 1, 0x3F, 0xFF]);
    Pattern {
        rows: rows as u16,
        stream,
        filler,
    }
}

fn sample(random: &mut Random, most: u64) -> Sample {
    let frame_bytes = random.pick(&[1, 2, 4]);
    let frames = random.below(most + 1);
    Sample::new(frame_bytes, &bytes(random, frames * u64::from(frame_bytes)))
}

fn instrument(random: &mut Random, samples: &[Sample]) -> Instrument {
    let number = random.below(samples.len() as u64 + 1) as usize;
    let frames = number
        .checked_sub(1)
        .map_or(0, |index| u64::from(samples[index].frames));
    let (loop_start, loop_length, flags) = if frames > 0 && random.chance(70) {
        loop_within(random, frames)
    } else {
        no_loop(random)
    };
    Instrument {
        name: text(random, 30),
        sample: number as u16,
        volume: edged(random, (0, 64)) as u16,
        rate: wild(random),
        loop_start,
        loop_length,
        panning: edged(random, (-128, 128)) as i16,
        flags,
    }
}

/// Start, length and flags of a loop inside this many frames. Every second loop ends with them.
fn loop_within(random: &mut Random, frames: u64) -> (u32, u32, u16) {
    let length = 1 + random.below(frames);
    let start = if random.chance(50) {
        frames - length
    } else {
        random.below(frames - length + 1)
    };
    (start as u32, length as u32, random.pick(&[1, 2, 3]))
}

/// Start, length and flags of an instrument without a loop: no length, or no kind of loop.
fn no_loop(random: &mut Random) -> (u32, u32, u16) {
    if random.chance(50) {
        (wild(random), 0, random.pick(&[0, 1, 2, 3]))
    } else {
        (wild(random), wild(random), 0)
    }
}

/// The envelopes of one kind, or no such chunk.
fn envelopes(
    random: &mut Random,
    most: &Limits,
    instruments: usize,
    values: (i64, i64),
) -> Option<Vec<Envelope>> {
    if random.chance(50) {
        return None;
    }
    let count = if instruments == 0 { 0 } else { most.envelopes };
    Some(many(random, count.min(65_535), |random| {
        envelope(random, instruments, values)
    }))
}

/// An envelope. Its unused points and numbers are random.
fn envelope(random: &mut Random, instruments: usize, values: (i64, i64)) -> Envelope {
    let flags = random.byte() & 0x0F;
    let sections = edged(random, (0, 31));
    let mut point = |bit: u8| {
        if flags & (1 << bit) == 0 {
            random.byte()
        } else {
            edged(random, (0, sections)) as u8
        }
    };
    let (first_sustain, second_sustain) = (point(1), point(3));
    let (mut loop_first, mut loop_last) = (point(2), point(2));
    if flags & 0b100 != 0 && loop_first > loop_last {
        (loop_first, loop_last) = (loop_last, loop_first);
    }
    let points = (0..32)
        .map(|index| {
            let position = random.number() as u16;
            if index <= sections {
                (position, edged(random, values) as i16)
            } else {
                (position, random.number() as i16)
            }
        })
        .collect();
    Envelope {
        instrument: edged(random, (1, instruments as i64)) as u16,
        flags,
        sections: sections as u8,
        first_sustain,
        loop_first,
        loop_last,
        second_sustain,
        points,
    }
}

/// An identifier that is not covered. Some are similar to a covered one.
fn other_name(random: &mut Random) -> Name {
    const LIKELY: [&Name; 10] = [
        b"DSPE", b"PNAM", b"MPEG", b"XYZW", b"AAAA", b"ZZZZ", b"NAMF", b"INFN", b"TONG", b"SMPM",
    ];
    *random.pick(&LIKELY)
}

/// Changes the order of the chunks, with INFO before the four that need it.
fn shuffle(random: &mut Random, draft: &mut Draft) {
    for last in (1..draft.chunks.len()).rev() {
        let other = random.below(last as u64 + 1) as usize;
        draft.chunks.swap(last, other);
    }
    let info = draft.index(b"INFO");
    let info = draft.chunks.remove(info);
    let first = draft
        .chunks
        .iter()
        .position(|chunk| AFTER_INFO.contains(&chunk.name))
        .expect("the four are there");
    let place = random.below(first as u64 + 1) as usize;
    draft.chunks.insert(place, info);
}

/// Puts one fault into a module. Some changes leave the module accepted. A module without chunks is unchanged.
pub fn damage(random: &mut Random, draft: &mut Draft) {
    if draft.chunks.is_empty() {
        return;
    }
    match random.below(16) {
        0..=4 => damage_byte(random, draft),
        5 => damage_pair(random, draft),
        6 | 7 => damage_info(random, draft),
        8 | 9 => damage_length(random, draft),
        10 => damage_end(random, draft),
        11 => damage_order(random, draft),
        12 => damage_identifier(random, draft),
        13 => drop(draft.chunks.remove(any(random, draft))),
        14 => {
            let again = draft.chunks[any(random, draft)].clone();
            let place = random.below(draft.chunks.len() as u64 + 1) as usize;
            draft.chunks.insert(place, again);
        }
        _ => damage_frame(random, draft),
    }
}

/// The index of a chunk.
fn any(random: &mut Random, draft: &Draft) -> usize {
    random.below(draft.chunks.len() as u64) as usize
}

/// Changes one byte of a chunk's data.
fn damage_byte(random: &mut Random, draft: &mut Draft) {
    let chunk = any(random, draft);
    let data = &mut draft.chunks[chunk].data;
    if data.is_empty() {
        data.push(random.byte());
        return;
    }
    let place = random.below(data.len() as u64) as usize;
    data[place] = match random.below(5) {
        0 => 0,
        1 => data[place].wrapping_add(1),
        2 => data[place].wrapping_sub(1),
        3 => data[place] ^ (1 << random.below(8)),
        _ => random.byte(),
    };
}

/// Changes two bytes of a chunk's data, which may be one number.
fn damage_pair(random: &mut Random, draft: &mut Draft) {
    let chunk = any(random, draft);
    let data = &mut draft.chunks[chunk].data;
    if data.len() < 2 {
        return;
    }
    let place = 2 * random.below(data.len() as u64 / 2) as usize;
    let number = random.pick(&[0, 1, 2, 64, 65, 128, 129, 0x8000, 0xFF80, 0xFF7F, 0xFFFF]);
    data[place..place + 2].copy_from_slice(&u16::to_be_bytes(number));
}

/// Changes one of the numbers of INFO, if it exists.
fn damage_info(random: &mut Random, draft: &mut Draft) {
    let info = draft.chunks.iter_mut().find(|chunk| chunk.name == *b"INFO");
    if let Some(info) = info.filter(|info| info.data.len() >= 10) {
        let place = 2 * random.below(5) as usize;
        let number = u16::from_be_bytes([info.data[place], info.data[place + 1]]);
        let number = match random.below(4) {
            0 => number.wrapping_add(1),
            1 => number.wrapping_sub(1),
            2 => number.wrapping_add(2),
            _ => random.pick(&[0, 255, 256, 1_024, 1_025, 32_767, 32_768, 65_535]),
        };
        info.data[place..place + 2].copy_from_slice(&number.to_be_bytes());
    }
}

/// Changes the length in a chunk's header.
fn damage_length(random: &mut Random, draft: &mut Draft) {
    let chunk = any(random, draft);
    let length = draft.chunks[chunk].data.len() as u32;
    let stored_length = match random.below(6) {
        0 => length.wrapping_add(1),
        1 => length.wrapping_sub(1),
        2 => length.wrapping_add(8),
        3 => length.wrapping_sub(8),
        4 => u32::MAX - random.below(64) as u32,
        _ => wild(random),
    };
    draft.chunks[chunk].stored_length = Some(stored_length);
}

/// Changes the end of a chunk's data. The length in its header is adjusted.
fn damage_end(random: &mut Random, draft: &mut Draft) {
    let chunk = any(random, draft);
    let data = &mut draft.chunks[chunk].data;
    if random.chance(50) {
        data.truncate(random.below(data.len() as u64 + 1) as usize);
    } else {
        let length = 1 + random.below(4);
        data.extend(bytes(random, length));
    }
}

/// Swaps two chunks.
fn damage_order(random: &mut Random, draft: &mut Draft) {
    let (one, other) = (any(random, draft), any(random, draft));
    draft.chunks.swap(one, other);
}

/// Changes a letter of an identifier, or the whole identifier.
fn damage_identifier(random: &mut Random, draft: &mut Draft) {
    let chunk = any(random, draft);
    let name = &mut draft.chunks[chunk].name;
    if random.chance(40) {
        *name = random.pick(&COVERED);
    } else {
        name[random.below(4) as usize] = random.pick(b"@[az0 \x00\xC1\xFFQ");
    }
}

/// Changes the header of the module, or the bytes after its last chunk.
fn damage_frame(random: &mut Random, draft: &mut Draft) {
    match random.below(3) {
        0 => {
            let place = random.below(draft.header.len() as u64) as usize;
            draft.header[place] = random.byte();
        }
        1 => {
            let length = 1 + random.below(9);
            draft.tail = bytes(random, length);
        }
        _ => {
            let last = draft.chunks.len() - 1;
            let last = &mut draft.chunks[last];
            last.stored_length = Some(last.data.len() as u32);
            let kept = random.below(last.data.len() as u64 + 1) as usize;
            last.data.truncate(kept);
        }
    }
}
