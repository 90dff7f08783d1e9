//! Makes pairs of modules to compare. The same seed makes the same pair.

use crate::draft::{Envelope, Pattern, Sample, Song, Tune};
use crate::generate::{
    arranged, bytes, damage, damaged, fields_named, module, tune, Limits, Random,
};
use crate::module::check;
use crate::pattern::{unpack, FIELDS};
use crate::repack::repack;
use crate::replace::replace_sample;

/// Two modules.
pub type Pair = (Vec<u8>, Vec<u8>);

/// How the second module of a pair is made from the first one.
#[derive(Clone, Copy, Debug, PartialEq, Eq)]
pub enum Relation {
    /// The same records, written in another way, and often in the other version.
    SameRecords,
    /// One change of the records.
    OneChange,
    /// Two to eight changes, and also written in another way.
    SomeChanges,
    /// Version 2 and version 3 with panning envelopes. In half of the pairs one value differs.
    Versions,
    Repacked,
    /// One sample is replaced.
    Replaced,
    /// The two modules are made independently.
    Unrelated,
    /// More than 256 songs, envelopes, patterns and rows, with differences in the last ones.
    Many,
    /// One module is damaged, or both are.
    Damaged,
    /// Random bytes for one module, or for both.
    AnyBytes,
}

pub const RELATIONS: [Relation; 10] = [
    Relation::SameRecords,
    Relation::OneChange,
    Relation::SomeChanges,
    Relation::Versions,
    Relation::Repacked,
    Relation::Replaced,
    Relation::Unrelated,
    Relation::Many,
    Relation::Damaged,
    Relation::AnyBytes,
];

/// Modules with few records of each kind.
pub const FEW: Limits = Limits {
    songs: 3,
    entries: 4,
    instruments: 4,
    patterns: 3,
    rows: 4,
    row_entries: 4,
    tracks: 8,
    samples: 3,
    frames: 6,
    envelopes: 2,
    others: 2,
    other_bytes: 4,
};

/// A pair with this relation, in either order.
pub fn pair(random: &mut Random, relation: Relation) -> Pair {
    let (one, other) = match relation {
        Relation::SameRecords => of_tunes(random, |random, tune| {
            *tune = written_otherwise(random, tune);
        }),
        Relation::OneChange => of_tunes(random, |random, tune| {
            *tune = valid_change(random, tune);
        }),
        Relation::SomeChanges => of_tunes(random, |random, tune| {
            for _ in 0..2 + random.below(7) {
                *tune = valid_change(random, tune);
            }
            *tune = written_otherwise(random, tune);
        }),
        Relation::Versions => versions(random),
        Relation::Repacked => {
            let given = module(random, &FEW).bytes();
            let repacked = repacked(&given);
            (given, repacked)
        }
        Relation::Replaced => replaced(random),
        Relation::Unrelated => {
            let of = |random: &mut Random| module(random, &FEW).bytes();
            (of(random), of(random))
        }
        Relation::Many => many(random),
        Relation::Damaged => one_damaged(random),
        Relation::AnyBytes => {
            let other = match random.chance(50) {
                true => module(random, &FEW).bytes(),
                false => any_bytes(random),
            };
            (any_bytes(random), other)
        }
    };
    match random.chance(50) {
        true => (one, other),
        false => (other, one),
    }
}

/// A module of random records, and one of the same records after a change.
fn of_tunes(random: &mut Random, change: impl Fn(&mut Random, &mut Tune)) -> Pair {
    let given = tune(random, &FEW);
    let mut changed = given.clone();
    change(random, &mut changed);
    (arrange(random, &given), arrange(random, &changed))
}

fn arrange(random: &mut Random, tune: &Tune) -> Vec<u8> {
    arranged(random, tune, &FEW).bytes()
}

/// Records with one random change, which leaves the module valid. They may be equal to the given ones if no change can be made.
pub fn valid_change(random: &mut Random, given: &Tune) -> Tune {
    for _ in 0..40 {
        let (_, change) = random.pick(&CHANGES);
        let mut tune = given.clone();
        change(random, &mut tune);
        if tune != *given && check(&tune.bytes()).is_ok() {
            return tune;
        }
    }
    given.clone()
}

/// A change of one of the records, of its packing, or of a number in the header. It changes nothing if there is no such record. Some changes
/// make the module invalid.
pub type Change = fn(&mut Random, &mut Tune);

/// All changes, with their names.
pub const CHANGES: [(&str, Change); 43] = [
    ("name", change_name),
    ("song name", change_song_name),
    ("playlist entry", change_entry),
    ("playlist order", |random, tune| {
        change_one(random, &mut tune.songs, |_, song| song.playlist.reverse());
    }),
    ("playlist length", change_playlist_length),
    ("songs", |random, tune| {
        change_count(random, &mut tune.songs, &Song::default());
    }),
    ("instrument name", change_instrument_name),
    ("instrument sample", |random, tune| {
        let sample = random.below(tune.samples.len() as u64 + 1) as u16;
        change_one(random, &mut tune.instruments, |_, it| it.sample = sample);
    }),
    ("instrument volume", |random, tune| {
        change_one(random, &mut tune.instruments, |random, it| {
            it.volume = random.below(65) as u16;
        });
    }),
    ("instrument rate", |random, tune| {
        change_one(random, &mut tune.instruments, |random, it| {
            it.rate ^= 1 << random.below(32);
        });
    }),
    ("instrument panning", |random, tune| {
        change_one(random, &mut tune.instruments, |random, it| {
            it.panning = random.below(257) as i16 - 128;
        });
    }),
    ("instrument loop", change_loop),
    ("instruments", |random, tune| {
        change_count(random, &mut tune.instruments, &Default::default());
    }),
    ("volume envelope instrument", |random, tune| {
        change_envelope(
            random,
            &mut tune.volume_envelopes,
            change_envelope_instrument,
        );
    }),
    ("volume envelope flags", |random, tune| {
        change_envelope(random, &mut tune.volume_envelopes, change_envelope_flags);
    }),
    ("volume envelope sections", |random, tune| {
        change_envelope(random, &mut tune.volume_envelopes, change_envelope_sections);
    }),
    ("volume envelope first sustain", |random, tune| {
        change_envelope(random, &mut tune.volume_envelopes, change_first_sustain);
    }),
    ("volume envelope loop first", |random, tune| {
        change_envelope(random, &mut tune.volume_envelopes, change_loop_first);
    }),
    ("volume envelope loop last", |random, tune| {
        change_envelope(random, &mut tune.volume_envelopes, change_loop_last);
    }),
    ("volume envelope second sustain", |random, tune| {
        change_envelope(random, &mut tune.volume_envelopes, change_second_sustain);
    }),
    ("volume envelope point", |random, tune| {
        change_point(random, &mut tune.volume_envelopes, (0, 64));
    }),
    ("volume envelopes", |random, tune| {
        change_envelopes(random, &mut tune.volume_envelopes);
    }),
    ("panning envelope instrument", |random, tune| {
        change_envelope(
            random,
            &mut tune.panning_envelopes,
            change_envelope_instrument,
        );
    }),
    ("panning envelope flags", |random, tune| {
        change_envelope(random, &mut tune.panning_envelopes, change_envelope_flags);
    }),
    ("panning envelope sections", |random, tune| {
        change_envelope(
            random,
            &mut tune.panning_envelopes,
            change_envelope_sections,
        );
    }),
    ("panning envelope first sustain", |random, tune| {
        change_envelope(random, &mut tune.panning_envelopes, change_first_sustain);
    }),
    ("panning envelope loop first", |random, tune| {
        change_envelope(random, &mut tune.panning_envelopes, change_loop_first);
    }),
    ("panning envelope loop last", |random, tune| {
        change_envelope(random, &mut tune.panning_envelopes, change_loop_last);
    }),
    ("panning envelope second sustain", |random, tune| {
        change_envelope(random, &mut tune.panning_envelopes, change_second_sustain);
    }),
    ("panning envelope point", |random, tune| {
        let values = panning_values(tune);
        change_point(random, &mut tune.panning_envelopes, values);
    }),
    ("panning envelopes", |random, tune| {
        change_envelopes(random, &mut tune.panning_envelopes);
    }),
    ("unused point", change_unused_point),
    ("sample frame", |random, tune| {
        change_one(random, &mut tune.samples, |random, it| {
            change_byte(random, &mut it.data);
        });
    }),
    ("sample frames", change_sample_length),
    ("sample width", change_sample_width),
    ("samples", |random, tune| {
        let empty = Sample::new(random.pick(&[1, 2, 4]), &[]);
        change_count(random, &mut tune.samples, &empty);
    }),
    ("pattern fields", change_fields),
    ("pattern rows", change_rows),
    ("several patterns", |random, tune| {
        for _ in 0..4 {
            random.pick(&[change_fields, change_rows, change_packing])(random, tune);
        }
    }),
    ("patterns", |random, tune| {
        change_count(random, &mut tune.patterns, &Pattern::new(0, &[]));
    }),
    ("tracks", |random, tune| {
        tune.tracks = random.pick(&[tune.tracks + 2, tune.tracks - 2, 254]);
    }),
    ("packing", change_packing),
    ("header", change_header),
];

/// Changes one item of a list, if there is any.
fn change_one<T>(random: &mut Random, list: &mut [T], change: impl Fn(&mut Random, &mut T)) {
    if !list.is_empty() {
        let index = random.below(list.len() as u64) as usize;
        change(random, &mut list[index]);
    }
}

/// Removes an item, or adds one or some: empty ones, or copies of one.
fn change_count<T: Clone>(random: &mut Random, list: &mut Vec<T>, empty: &T) {
    let place = random.below(list.len() as u64 + 1) as usize;
    match random.below(4) {
        0 if place < list.len() => drop(list.remove(place)),
        1 => drop(list.pop()),
        2 => list.push(empty.clone()),
        _ => {
            let copy = list.get(place).unwrap_or(empty).clone();
            let more = list.len() + 1 + random.below(3) as usize;
            list.resize(more, copy);
        }
    }
}

/// Changes a byte to another value, if there is any.
fn change_byte(random: &mut Random, bytes: &mut [u8]) {
    change_one(random, bytes, |random, byte| {
        *byte ^= 1 + random.below(255) as u8;
    });
}

/// Changes one of the bytes of a name, which may be one of the zeros after it.
fn change_letter(random: &mut Random, name: &mut Vec<u8>, length: usize) {
    name.resize(length, 0);
    change_byte(random, name);
}

fn change_name(random: &mut Random, tune: &mut Tune) {
    let mut name = tune.name.take().unwrap_or_default();
    change_letter(random, &mut name, 44);
    tune.name = Some(name);
}

fn change_song_name(random: &mut Random, tune: &mut Tune) {
    change_one(random, &mut tune.songs, |random, song| {
        change_letter(random, &mut song.name, 44);
    });
}

fn change_instrument_name(random: &mut Random, tune: &mut Tune) {
    change_one(random, &mut tune.instruments, |random, it| {
        change_letter(random, &mut it.name, 30);
    });
}

fn change_entry(random: &mut Random, tune: &mut Tune) {
    let patterns = tune.patterns.len() as u64;
    change_one(random, &mut tune.songs, |random, song| {
        change_one(random, &mut song.playlist, |random, entry| {
            *entry = random.below(patterns) as u16;
        });
    });
}

fn change_playlist_length(random: &mut Random, tune: &mut Tune) {
    let patterns = tune.patterns.len() as u64;
    change_one(random, &mut tune.songs, |random, song| {
        if song.playlist.pop().is_none() || random.chance(50) {
            song.playlist.push(0);
            song.playlist.push(random.below(patterns.max(1)) as u16);
        }
    });
}

/// Changes loop start, loop length or flags. In most cases the loop has no effect.
fn change_loop(random: &mut Random, tune: &mut Tune) {
    change_one(random, &mut tune.instruments, |random, it| {
        match random.below(3) {
            0 => it.loop_start ^= 1 << random.below(32),
            1 => it.loop_length ^= 1 << random.below(32),
            _ => it.flags = random.below(4) as u16,
        }
    });
}

/// Changes one of the envelopes, if there is any.
fn change_envelope(
    random: &mut Random,
    envelopes: &mut Option<Vec<Envelope>>,
    change: fn(&mut Random, &mut Envelope),
) {
    change_one(random, envelopes.as_deref_mut().unwrap_or_default(), change);
}

fn change_envelope_instrument(random: &mut Random, envelope: &mut Envelope) {
    envelope.instrument = 1 + random.below(4) as u16;
}

fn change_envelope_flags(random: &mut Random, envelope: &mut Envelope) {
    envelope.flags ^= 1 << random.below(4);
}

fn change_envelope_sections(random: &mut Random, envelope: &mut Envelope) {
    envelope.sections = random.below(32) as u8;
}

fn change_first_sustain(random: &mut Random, envelope: &mut Envelope) {
    envelope.first_sustain ^= 1 << random.below(8);
}

fn change_loop_first(random: &mut Random, envelope: &mut Envelope) {
    envelope.loop_first ^= 1 << random.below(8);
}

fn change_loop_last(random: &mut Random, envelope: &mut Envelope) {
    envelope.loop_last ^= 1 << random.below(8);
}

fn change_second_sustain(random: &mut Random, envelope: &mut Envelope) {
    envelope.second_sustain ^= 1 << random.below(8);
}

/// Changes the position or the value of a point in use.
fn change_point(
    random: &mut Random,
    envelopes: &mut Option<Vec<Envelope>>,
    (low, high): (i16, i16),
) {
    let list = envelopes.as_deref_mut().unwrap_or_default();
    change_one(random, list, |random, it| {
        let in_use = it.points.len().min(usize::from(it.sections) + 1);
        change_one(
            random,
            &mut it.points[..in_use],
            |random, (position, value)| match random.below(3) {
                0 => *position ^= 1 << random.below(16),
                1 => *value = (*value + 1).min(high),
                _ => *value = low + random.below((high - low) as u64 + 1) as i16,
            },
        );
    });
}

/// The least and the largest value of a panning envelope, as stored.
fn panning_values(tune: &Tune) -> (i16, i16) {
    match tune.version {
        2 => (0, 64),
        _ => (-128, 128),
    }
}

/// Adds or removes an envelope, or the empty chunk.
fn change_envelopes(random: &mut Random, envelopes: &mut Option<Vec<Envelope>>) {
    match envelopes {
        None => *envelopes = Some(Vec::new()),
        Some(list) if list.is_empty() && random.chance(50) => *envelopes = None,
        Some(list) => {
            let empty = Envelope {
                instrument: 1,
                ..Envelope::default()
            };
            change_count(random, list, &empty);
        }
    }
}

/// Changes a point that is not in use, in an envelope of either kind.
fn change_unused_point(random: &mut Random, tune: &mut Tune) {
    let envelopes = match random.chance(50) {
        true => &mut tune.volume_envelopes,
        false => &mut tune.panning_envelopes,
    };
    let list = envelopes.as_deref_mut().unwrap_or_default();
    change_one(random, list, |random, it| {
        let in_use = it.points.len().min(usize::from(it.sections) + 1);
        change_one(random, &mut it.points[in_use..], |random, point| {
            *point = (random.number() as u16, random.number() as i16);
        });
    });
}

/// Adds or removes frames at the end of a sample.
fn change_sample_length(random: &mut Random, tune: &mut Tune) {
    change_one(random, &mut tune.samples, |random, it| {
        let frames = random.below(u64::from(it.frames) + 3) as usize;
        let mut data = it.data.clone();
        data.resize(frames * it.flags as usize, 0);
        *it = Sample::new(it.flags, &data);
    });
}

/// Another width: for the same bytes, for 8-bit frames that are the same at 16 bits, or for the same values.
fn change_sample_width(random: &mut Random, tune: &mut Tune) {
    change_one(random, &mut tune.samples, |random, it| {
        let width = random.pick(&[1, 2, 4]);
        if it.data.len().is_multiple_of(width as usize) && random.chance(50) {
            *it = Sample::new(width, &it.data);
        } else if it.flags == 1 {
            let shown = random.chance(50);
            let wide = it.data.iter().flat_map(|&byte| match shown {
                true => [byte, 0],
                false => i16::from(byte as i8).to_be_bytes(),
            });
            *it = Sample::new(2, &wide.collect::<Vec<u8>>());
        }
    });
}

/// Changes one to six fields of a pattern, at any places.
fn change_fields(random: &mut Random, tune: &mut Tune) {
    let tracks = usize::from(tune.tracks);
    change_one(random, &mut tune.patterns, |random, it| {
        let mut cells = cells(it, tracks);
        for _ in 0..1 + random.below(6) {
            change_one(random, &mut cells, |random, field| {
                *field = match random.chance(30) {
                    true => 0,
                    false => random.byte(),
                };
            });
        }
        it.stream = packed_otherwise(random, &cells, tracks);
    });
}

/// Adds or removes rows at the end of a pattern.
fn change_rows(random: &mut Random, tune: &mut Tune) {
    let tracks = usize::from(tune.tracks);
    change_one(random, &mut tune.patterns, |random, it| {
        let mut cells = cells(it, tracks);
        it.rows = random.below(u64::from(it.rows) + 3) as u16;
        cells.resize(usize::from(it.rows) * tracks * FIELDS, 0);
        it.stream = packed_otherwise(random, &cells, tracks);
    });
}

/// Packs a pattern in another way, with another filler.
fn change_packing(random: &mut Random, tune: &mut Tune) {
    let tracks = usize::from(tune.tracks);
    change_one(random, &mut tune.patterns, |random, it| {
        it.stream = packed_otherwise(random, &cells(it, tracks), tracks);
        it.filler = random.byte();
    });
}

fn change_header(random: &mut Random, tune: &mut Tune) {
    tune.revision = (16 * random.below(10) + random.below(10)) as u8;
    tune.reserved = [random.byte(), random.byte()];
}

/// The cells of a valid pattern, one byte for each field.
fn cells(pattern: &Pattern, tracks: usize) -> Vec<u8> {
    let mut cells = vec![0; usize::from(pattern.rows) * tracks * FIELDS];
    unpack(
        &pattern.stream,
        pattern.rows.into(),
        tracks as u64,
        &mut cells,
    )
    .expect("the pattern is valid");
    cells
}

/// A stream for these cells. The tracks of a row come in any order, some entries are overwritten by a later one, some fields are stored
/// although they are 0, and each of the bits 6 and 7 is set in about one mask in four.
fn packed_otherwise(random: &mut Random, cells: &[u8], tracks: usize) -> Vec<u8> {
    let mut stream = Vec::new();
    for row in cells.chunks(tracks * FIELDS) {
        let start = random.below(tracks as u64) as usize;
        let step = random.pick(&[1, tracks - 1]);
        for index in 0..tracks {
            let track = (start + index * step) % tracks;
            let cell = &row[track * FIELDS..(track + 1) * FIELDS];
            pack_cell(random, track as u8 + 1, cell, &mut stream);
        }
        stream.push(0);
    }
    stream
}

/// Appends the entries of one cell. An empty cell may have none.
fn pack_cell(random: &mut Random, track: u8, cell: &[u8], stream: &mut Vec<u8>) {
    let filled = cell.iter().any(|&field| field != 0);
    let mut stored = 0;
    if random.chance(15) {
        stored = random.byte();
        stream.extend([track, stored]);
        stream.extend(bytes(random, fields_named(stored) as u64));
    }
    if !filled && fields_named(stored) == 0 && random.chance(90) {
        return;
    }
    let extra = random.byte() & random.byte();
    let named = |&field: &usize| cell[field] != 0 || (stored | extra) & (1 << field) != 0;
    let named: Vec<usize> = (0..FIELDS).filter(named).collect();
    let mask: u8 = named.iter().map(|field| 1 << field).sum();
    stream.extend([track, mask | extra & 0xC0]);
    stream.extend(named.iter().map(|&field| cell[field]));
}

/// The same records with another header, other packing and other unused points. A name of zeros may be missing, and so may the chunk of no
/// envelopes. The version is another one if that is possible.
fn written_otherwise(random: &mut Random, tune: &Tune) -> Tune {
    let mut tune = tune.clone();
    change_header(random, &mut tune);
    for _ in 0..8 {
        change_packing(random, &mut tune);
        change_unused_point(random, &mut tune);
    }
    tune.name = match tune.name {
        None => random.chance(50).then(Vec::new),
        Some(name) if name.iter().all(|&byte| byte == 0) && random.chance(50) => None,
        name => name,
    };
    for envelopes in [&mut tune.volume_envelopes, &mut tune.panning_envelopes] {
        if envelopes.as_ref().is_none_or(Vec::is_empty) {
            *envelopes = random.chance(50).then(Vec::new);
        }
    }
    match random.chance(70) {
        true => in_the_other_version(&tune).unwrap_or(tune),
        false => tune,
    }
}

/// The same records in version 3 if these are of version 2, and the other way round. Values of panning envelopes that are not in version 2
/// have no twin.
pub fn in_the_other_version(tune: &Tune) -> Option<Tune> {
    let mut twin = tune.clone();
    twin.version = 5 - tune.version;
    for envelope in twin.panning_envelopes.iter_mut().flatten() {
        for (_, value) in envelope
            .points
            .iter_mut()
            .take(usize::from(envelope.sections) + 1)
        {
            *value = match twin.version {
                3 => 4 * *value - 128,
                _ if (*value + 128) % 4 != 0 => return None,
                _ => (*value + 128) / 4,
            };
        }
    }
    Some(twin)
}

/// A module of version 2 with panning envelopes, and the same in version 3. In half of the pairs one value or position differs.
fn versions(random: &mut Random) -> Pair {
    let old = loop {
        let tune = tune(random, &FEW);
        if tune.version == 2
            && tune
                .panning_envelopes
                .as_ref()
                .is_some_and(|it| !it.is_empty())
        {
            break tune;
        }
    };
    let mut new = in_the_other_version(&old).expect("version 2 has a twin");
    if random.chance(50) {
        change_point(random, &mut new.panning_envelopes, (-128, 128));
    }
    (arrange(random, &old), arrange(random, &new))
}

fn repacked(module: &[u8]) -> Vec<u8> {
    let mut out = vec![0; module.len()];
    let length = repack(module, &mut out).expect("the module is valid");
    out.truncate(length as usize);
    out
}

/// A module, and the same with one sample replaced by up to eight frames.
fn replaced(random: &mut Random) -> Pair {
    let given = loop {
        let tune = tune(random, &FEW);
        if !tune.samples.is_empty() {
            break tune;
        }
    };
    let sample = 1 + random.below(given.samples.len() as u64);
    let length = 2 * random.below(9);
    let frames = bytes(random, length);
    let module = arrange(random, &given);
    let mut out = vec![0; module.len() + frames.len()];
    let replaced =
        replace_sample(&module, sample, &frames, &mut out).expect("there is such a sample");
    out.truncate(replaced.length as usize);
    (module, out)
}

/// Two modules with more than 256 songs, volume envelopes, patterns and rows. They differ in one of the last of each, and in few other things.
fn many(random: &mut Random) -> Pair {
    let mut given = tune(random, &FEW);
    let mut count = || 270 + random.below(90) as usize;
    let (songs, envelopes, patterns, rows) = (count(), count(), count(), count());
    given.songs.resize(songs, Song::default());
    given.instruments.resize(4, Default::default());
    let envelope = Envelope {
        instrument: 1,
        points: vec![(0, 0); 32],
        ..Envelope::default()
    };
    given.volume_envelopes = Some(vec![envelope; envelopes]);
    given.patterns.resize(patterns, Pattern::new(0, &[]));
    given.patterns[0] = Pattern::new(rows as u16, &vec![0; rows]);
    let mut changed = given.clone();
    for _ in 0..2 + random.below(4) {
        changed = valid_change(random, &changed);
    }
    change_one(random, &mut changed.songs[256..], |random, song| {
        change_letter(random, &mut song.name, 44);
    });
    let last = changed.volume_envelopes.as_deref_mut().unwrap_or_default();
    change_one(random, &mut last[256..], |random, envelope| {
        envelope.points.resize(32, (0, 0));
        envelope.points[0].0 ^= 1 << random.below(16);
    });
    let tracks = usize::from(changed.tracks);
    change_one(random, &mut changed.patterns[256..], |_, pattern| {
        *pattern = Pattern::new(2, &[0, 0]);
    });
    let long = &mut changed.patterns[0];
    let mut cells = cells(long, tracks);
    let late = cells.len().saturating_sub(6);
    change_byte(random, &mut cells[late..]);
    long.stream = packed_otherwise(random, &cells, tracks);
    (arrange(random, &given), arrange(random, &changed))
}

/// Two modules, of which one is damaged, or both. In some pairs the damage leaves a module valid.
fn one_damaged(random: &mut Random) -> Pair {
    let (one, other) = of_tunes(random, |random, tune| {
        *tune = valid_change(random, tune);
    });
    let damage = |random: &mut Random, module: &[u8]| match random.chance(50) {
        true => damaged(random, module),
        false => damaged_module(random),
    };
    match random.below(3) {
        0 => (damage(random, &one), damage(random, &other)),
        _ => (damage(random, &one), other),
    }
}

/// A module with one to three faults.
fn damaged_module(random: &mut Random) -> Vec<u8> {
    let mut draft = module(random, &FEW);
    for _ in 0..1 + random.below(3) {
        damage(random, &mut draft);
    }
    draft.bytes()
}

/// Random bytes. Most have the beginning of a module, but few are one.
fn any_bytes(random: &mut Random) -> Vec<u8> {
    let length = random.below(100);
    let mut module = bytes(random, length);
    for (byte, expected) in module.iter_mut().zip(*b"DBM0\x03\x00\x00\x00") {
        if random.chance(98) {
            *byte = expected;
        }
    }
    module
}
