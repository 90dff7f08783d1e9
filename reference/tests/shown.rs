//! The queries about generated modules return the records from which the modules were made.
//!
//! The expected answers come from the records that a module is written from, never from the module. Only the patterns are made here, so
//! that their cells are known when their streams are written.

use reference::chunks::Info;
use reference::draft::{Draft, Envelope, Instrument, Pattern, Sample, Song, Tune};
use reference::generate::{module, tune, Limits, Random};
use reference::pattern::{Cell, Note};
use reference::records::{self, Kind, Point};
use reference::refusal::Refusal;

const NOT_THERE: Refusal = Refusal {
    number: 18,
    place: 0,
};

/// Rows of cells, and a stream that unpacks to them.
struct KnownPattern {
    rows: Vec<Vec<[u8; 6]>>,
    pattern: Pattern,
}

/// Up to four entries in a row, in any order. The fields of an entry are stored in its cell as it is written.
fn known_pattern(random: &mut Random, count: u64, tracks: u64) -> KnownPattern {
    let mut rows = Vec::new();
    let mut stream = Vec::new();
    for _ in 0..count {
        let mut row = vec![[0; 6]; tracks as usize];
        for _ in 0..random.below(5) {
            let track = random.below(tracks) as usize;
            let named: Vec<usize> = (0..6).filter(|_| random.chance(40)).collect();
            stream.push(track as u8 + 1);
            stream.push(named.iter().map(|field| 1 << field).sum());
            for field in named {
                let any = random.byte();
                let value = random.pick(&[0, 0x1F, 0x47, any]);
                stream.push(value);
                row[track][field] = value;
            }
        }
        stream.push(0);
        rows.push(row);
    }
    let filler = random.byte();
    KnownPattern {
        rows,
        pattern: Pattern {
            rows: count as u16,
            stream,
            filler,
        },
    }
}

/// The bytes, padded with zeros.
fn padded<const LENGTH: usize>(bytes: &[u8]) -> [u8; LENGTH] {
    let mut padded = [0; LENGTH];
    padded[..bytes.len()].copy_from_slice(bytes);
    padded
}

/// Numbers less than `count`: all of them if they are few, else the ends and some others.
fn some(random: &mut Random, count: usize) -> Vec<usize> {
    if count <= 6 {
        (0..count).collect()
    } else {
        let other = random.below(count as u64) as usize;
        vec![0, 1, other, count - 2, count - 1]
    }
}

/// The call writes these bytes and no more. If the output is one byte too short it returns 17, and nothing is written.
fn writes(expected: &[u8], call: impl Fn(&mut [u8]) -> Result<u64, Refusal>) {
    let needed = expected.len();
    let mut out = vec![0xAA; needed + 3];
    assert_eq!(call(&mut out), Ok(needed as u64));
    assert_eq!(out[..needed], *expected);
    assert_eq!(out[needed..], [0xAA; 3]);
    if needed > 0 {
        let mut out = vec![0xAA; needed - 1];
        let short = Refusal {
            number: 17,
            place: needed as u64,
        };
        assert_eq!(call(&mut out), Err(short));
        assert!(out.iter().all(|&byte| byte == 0xAA));
    }
}

fn shows_header(module: &[u8], tune: &Tune) {
    assert_eq!(records::version(module), Ok((tune.version, tune.revision)));
    let name = tune.name.as_deref().unwrap_or_default();
    assert_eq!(records::name(module), Ok(padded(name)));
    let info = Info {
        instruments: tune.instruments.len() as u64,
        samples: tune.samples.len() as u64,
        songs: tune.songs.len() as u64,
        patterns: tune.patterns.len() as u64,
        tracks: u64::from(tune.tracks),
    };
    assert_eq!(records::info(module), Ok(info));
}

fn shows_song(random: &mut Random, module: &[u8], number: u64, song: &Song) {
    let expected = records::Song {
        name: padded(&song.name),
        length: song.playlist.len() as u16,
    };
    assert_eq!(records::song(module, number), Ok(expected));
    for entry in some(random, song.playlist.len()) {
        assert_eq!(
            records::entry(module, number, entry as u64),
            Ok(song.playlist[entry])
        );
    }
    let past = song.playlist.len() as u64;
    assert_eq!(records::entry(module, number, past), Err(NOT_THERE));
    let playlist = song.playlist.iter().flat_map(|entry| entry.to_be_bytes());
    writes(&playlist.collect::<Vec<u8>>(), |out| {
        records::playlist(module, number, out)
    });
}

fn shows_instrument(module: &[u8], number: u64, instrument: &Instrument) {
    let expected = records::Instrument {
        name: padded(&instrument.name),
        sample: instrument.sample,
        volume: instrument.volume,
        rate: instrument.rate,
        loop_start: instrument.loop_start,
        loop_length: instrument.loop_length,
        panning: instrument.panning,
        flags: instrument.flags,
    };
    assert_eq!(records::instrument(module, number), Ok(expected));
}

fn shows_envelope(module: &[u8], kind: Kind, number: u64, envelope: &Envelope, scaled: bool) {
    let mut points = [Point {
        position: 0,
        value: 0,
    }; 32];
    let in_use = &envelope.points[..=usize::from(envelope.sections)];
    for (point, &(position, value)) in points.iter_mut().zip(in_use) {
        let value = if scaled { (value - 32) * 4 } else { value };
        *point = Point { position, value };
    }
    let expected = records::Envelope {
        instrument: envelope.instrument,
        flags: envelope.flags,
        sections: envelope.sections,
        first_sustain: envelope.first_sustain,
        loop_first: envelope.loop_first,
        loop_last: envelope.loop_last,
        second_sustain: envelope.second_sustain,
        points,
    };
    assert_eq!(records::envelope(module, kind, number), Ok(expected));
}

fn shows_envelopes(module: &[u8], tune: &Tune) {
    let volumes = tune.volume_envelopes.as_deref().unwrap_or_default();
    let pannings = tune.panning_envelopes.as_deref().unwrap_or_default();
    assert_eq!(records::volume_envelopes(module), Ok(volumes.len() as u64));
    assert_eq!(
        records::panning_envelopes(module),
        Ok(pannings.len() as u64)
    );
    let scaled = tune.version == 2;
    for (kind, envelopes, scaled) in [
        (Kind::Volume, volumes, false),
        (Kind::Panning, pannings, scaled),
    ] {
        for (number, envelope) in (0..).zip(envelopes) {
            shows_envelope(module, kind, number, envelope, scaled);
        }
        let past = envelopes.len() as u64;
        assert_eq!(records::envelope(module, kind, past), Err(NOT_THERE));
    }
}

fn expected_cell(cell: [u8; 6]) -> Cell {
    let [note, instrument, command1, parameter1, command2, parameter2] = cell;
    let (octave, semitone) = (note >> 4, note & 0x0F);
    let note = if note == 0 {
        Note::None
    } else if note == 0x1F {
        Note::KeyOff
    } else if octave > 0 && octave < 9 && semitone < 12 {
        Note::Pitch { octave, semitone }
    } else {
        Note::Unknown(note)
    };
    Cell {
        note,
        instrument,
        command1,
        parameter1,
        command2,
        parameter2,
    }
}

fn shows_pattern(
    random: &mut Random,
    module: &[u8],
    number: u64,
    known_pattern: &KnownPattern,
    tracks: u64,
) {
    let rows = known_pattern.rows.len();
    assert_eq!(records::pattern(module, number), Ok(rows as u16));
    for row in some(random, rows) {
        for (track, cell) in (1..).zip(&known_pattern.rows[row]) {
            assert_eq!(
                records::cell(module, number, row as u64, track),
                Ok(expected_cell(*cell))
            );
        }
        for track in [0, tracks + 1] {
            assert_eq!(
                records::cell(module, number, row as u64, track),
                Err(NOT_THERE)
            );
        }
    }
    assert_eq!(
        records::cell(module, number, rows as u64, 1),
        Err(NOT_THERE)
    );
    let cells = known_pattern.rows.concat().concat();
    writes(&cells, |out| records::unpack(module, number, out));
}

/// At 16 bits a frame is its first two bytes. A frame of 8 bits has one byte, followed by 0.
fn shows_sample(random: &mut Random, module: &[u8], number: u64, sample: &Sample, place: u64) {
    let expected = records::Sample {
        width: 8 * sample.flags as u8,
        frames: sample.frames,
    };
    assert_eq!(records::sample(module, number), Ok(expected));
    assert_eq!(records::frames_refusal(module, number), None);
    let (start, length) = records::frames(module, number);
    assert_eq!((start, length), (place, sample.data.len() as u64));
    assert_eq!(module[start as usize..][..length as usize], sample.data);
    let frames: Vec<[u8; 2]> = sample
        .data
        .chunks(sample.flags as usize)
        .map(|frame| [frame[0], frame.get(1).copied().unwrap_or(0)])
        .collect();
    for frame in some(random, frames.len()) {
        assert_eq!(
            records::frame(module, number, frame as u64),
            Ok(i16::from_be_bytes(frames[frame]))
        );
    }
    let past = frames.len() as u64;
    assert_eq!(records::frame(module, number, past), Err(NOT_THERE));
    writes(&frames.concat(), |out| {
        records::all_frames(module, number, out)
    });
}

/// The place of the data of SMPL.
fn place_of_samples(draft: &Draft) -> usize {
    let before = &draft.chunks[..draft.index(b"SMPL")];
    8 + before
        .iter()
        .map(|chunk| 8 + chunk.data.len())
        .sum::<usize>()
        + 8
}

/// The queries about the module of this seed return its records, and nothing past the last one.
fn shows(seed: u64, most: &Limits) {
    // The same seed, so the module is written from these records.
    let tune = tune(&mut Random::new(seed), most);
    let mut draft = module(&mut Random::new(seed), most);
    let random = &mut Random::new(seed + 1_000_000);
    let tracks = u64::from(tune.tracks);
    let patterns: Vec<KnownPattern> = tune
        .patterns
        .iter()
        .map(|_| {
            let rows = random.below(most.rows + 1);
            known_pattern(random, rows, tracks)
        })
        .collect();
    draft.chunk(b"PATT").data = patterns
        .iter()
        .flat_map(|known_pattern| known_pattern.pattern.bytes())
        .collect();
    let module = draft.bytes();

    shows_header(&module, &tune);
    for (number, song) in (0..).zip(&tune.songs) {
        shows_song(random, &module, number, song);
    }
    for (number, instrument) in (1..).zip(&tune.instruments) {
        shows_instrument(&module, number, instrument);
    }
    shows_envelopes(&module, &tune);
    for (number, known_pattern) in (0..).zip(&patterns) {
        shows_pattern(random, &module, number, known_pattern, tracks);
    }
    let mut place = place_of_samples(&draft);
    for (number, sample) in (1..).zip(&tune.samples) {
        shows_sample(random, &module, number, sample, place as u64 + 8);
        place += 8 + sample.data.len();
    }
    shows_no_more(&module, &tune);
}

/// One past the last, and 0 if counting begins at 1.
fn shows_no_more(module: &[u8], tune: &Tune) {
    let [songs, patterns] = [tune.songs.len(), tune.patterns.len()].map(|count| count as u64);
    assert_eq!(records::song(module, songs), Err(NOT_THERE));
    assert_eq!(records::pattern(module, patterns), Err(NOT_THERE));
    for number in [0, tune.instruments.len() as u64 + 1] {
        assert_eq!(records::instrument(module, number), Err(NOT_THERE));
    }
    for number in [0, tune.samples.len() as u64 + 1] {
        assert_eq!(records::sample(module, number), Err(NOT_THERE));
        assert_eq!(records::frames(module, number), (0, 0));
        assert_eq!(records::frames_refusal(module, number), Some(NOT_THERE));
    }
}

#[test]
fn small_modules() {
    for seed in 0..1_000 {
        shows(seed, &Limits::SMALL);
    }
}

#[test]
fn usual_modules() {
    for seed in 0..40 {
        shows(seed, &Limits::USUAL);
    }
}
