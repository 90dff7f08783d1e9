//! The queries about a module, in two implementations: libdbm0.a and the reference.

use crate::compare::{answer, GuardedOutput};
use interface::{
    Answer, Cell, Envelope, Frames, Info, Instrument, ModuleAnswer, Name, RecordAnswer, Sample,
    Song, Version,
};
use reference::chunks;
use reference::pattern::{self, Note};
use reference::records::{self, Kind};
use reference::refusal::Refusal;

/// The queries of a library under comparison.
#[derive(Clone, Copy)]
pub struct Queries {
    pub version: fn(&[u8]) -> RecordAnswer<Version>,
    pub name: fn(&[u8]) -> RecordAnswer<Name>,
    pub info: fn(&[u8]) -> RecordAnswer<Info>,
    pub song: fn(&[u8], usize) -> RecordAnswer<Song>,
    pub entry: fn(&[u8], usize, usize) -> RecordAnswer<u16>,
    pub playlist: fn(&[u8], usize, &mut GuardedOutput) -> Answer,
    pub instrument: fn(&[u8], usize) -> RecordAnswer<Instrument>,
    pub volume_envelopes: fn(&[u8]) -> RecordAnswer<u16>,
    pub panning_envelopes: fn(&[u8]) -> RecordAnswer<u16>,
    pub volume_envelope: fn(&[u8], usize) -> RecordAnswer<Envelope>,
    pub panning_envelope: fn(&[u8], usize) -> RecordAnswer<Envelope>,
    pub rows: fn(&[u8], usize) -> RecordAnswer<u16>,
    pub cell: fn(&[u8], usize, usize, usize) -> RecordAnswer<Cell>,
    pub cells: fn(&[u8], usize, &mut GuardedOutput) -> Answer,
    pub sample: fn(&[u8], usize) -> RecordAnswer<Sample>,
    pub frames: fn(&[u8], usize) -> RecordAnswer<Frames>,
    pub frame: fn(&[u8], usize, usize) -> RecordAnswer<i16>,
    pub all_frames: fn(&[u8], usize, &mut GuardedOutput) -> Answer,
}

/// libdbm0.a.
pub const ARCHIVE: Queries = Queries {
    version: interface::version,
    name: interface::name,
    info: interface::info,
    song: interface::song,
    entry: interface::entry,
    playlist: |module, song, output| interface::playlist(module, song, output.slice()),
    instrument: interface::instrument,
    volume_envelopes: interface::volume_envelopes,
    panning_envelopes: interface::panning_envelopes,
    volume_envelope: interface::volume_envelope,
    panning_envelope: interface::panning_envelope,
    rows: interface::rows,
    cell: interface::cell,
    cells: |module, pattern, output| interface::cells(module, pattern, output.slice()),
    sample: interface::sample,
    frames: interface::frames,
    frame: interface::frame,
    all_frames: |module, sample, output| interface::all_frames(module, sample, output.slice()),
};

/// The reference itself.
pub const REFERENCE: Queries = Queries {
    version: |module| record_answer(records::version(module).map(version)),
    name: |module| record_answer(records::name(module).map(Name)),
    info: |module| record_answer(records::info(module).map(info)),
    song: |module, number| record_answer(records::song(module, number as u64).map(song)),
    entry: |module, song, entry| record_answer(records::entry(module, song as u64, entry as u64)),
    playlist: |module, song, output| answer(records::playlist(module, song as u64, output.slice())),
    instrument: |module, number| {
        record_answer(records::instrument(module, number as u64).map(instrument))
    },
    volume_envelopes: |module| {
        record_answer(records::volume_envelopes(module).map(|count| count as u16))
    },
    panning_envelopes: |module| {
        record_answer(records::panning_envelopes(module).map(|count| count as u16))
    },
    volume_envelope: |module, number| {
        record_answer(records::envelope(module, Kind::Volume, number as u64).map(envelope))
    },
    panning_envelope: |module, number| {
        record_answer(records::envelope(module, Kind::Panning, number as u64).map(envelope))
    },
    rows: |module, pattern| record_answer(records::pattern(module, pattern as u64)),
    cell: |module, pattern, row, track| {
        record_answer(records::cell(module, pattern as u64, row as u64, track as u64).map(cell))
    },
    cells: |module, pattern, output| {
        answer(records::unpack(module, pattern as u64, output.slice()))
    },
    sample: |module, number| record_answer(records::sample(module, number as u64).map(sample)),
    frames: |module, sample| record_answer(frames(module, sample as u64)),
    frame: |module, sample, frame| {
        record_answer(records::frame(module, sample as u64, frame as u64))
    },
    all_frames: |module, sample, output| {
        answer(records::all_frames(module, sample as u64, output.slice()))
    },
};

/// The answer of the C interface for a result of the reference. On a refusal the record is all zeros.
fn record_answer<Record: Default>(result: Result<Record, Refusal>) -> RecordAnswer<Record> {
    match result {
        Ok(record) => success(record),
        Err(refusal) => refused(refusal.number, refusal.place),
    }
}

/// The refusal of a module, as every query returns it.
pub fn refusal(library: &Queries, module: &[u8]) -> ModuleAnswer {
    let RecordAnswer { number, place, .. } = (library.version)(module);
    ModuleAnswer { number, place }
}

/// An answer with a record and no refusal.
pub fn success<Record>(record: Record) -> RecordAnswer<Record> {
    RecordAnswer {
        number: 0,
        place: 0,
        record,
    }
}

/// An answer with a refusal. The record is all zeros.
pub fn refused<Record: Default>(number: u64, place: u64) -> RecordAnswer<Record> {
    RecordAnswer {
        number,
        place,
        record: Record::default(),
    }
}

fn version((version, revision): (u8, u8)) -> Version {
    Version { version, revision }
}

fn info(info: chunks::Info) -> Info {
    Info {
        instruments: info.instruments as u16,
        samples: info.samples as u16,
        songs: info.songs as u16,
        patterns: info.patterns as u16,
        tracks: info.tracks as u16,
    }
}

fn song(song: records::Song) -> Song {
    Song {
        name: Name(song.name),
        length: song.length,
    }
}

fn instrument(instrument: records::Instrument) -> Instrument {
    Instrument {
        name: instrument.name,
        sample: instrument.sample,
        volume: instrument.volume,
        panning: instrument.panning,
        flags: instrument.flags,
        rate: instrument.rate,
        loop_start: instrument.loop_start,
        loop_length: instrument.loop_length,
    }
}

fn envelope(envelope: records::Envelope) -> Envelope {
    Envelope {
        instrument: envelope.instrument,
        flags: envelope.flags,
        sections: envelope.sections,
        first_sustain: envelope.first_sustain,
        loop_first: envelope.loop_first,
        loop_last: envelope.loop_last,
        second_sustain: envelope.second_sustain,
        positions: envelope.points.map(|point| point.position),
        values: envelope.points.map(|point| i32::from(point.value)),
    }
}

fn cell(cell: pattern::Cell) -> Cell {
    let (kind, octave, semitone, unknown) = match cell.note {
        Note::None => (0, 0, 0, 0),
        Note::KeyOff => (1, 0, 0, 0),
        Note::Pitch { octave, semitone } => (2, octave, semitone, 0),
        Note::Unknown(byte) => (3, 0, 0, byte),
    };
    Cell {
        kind,
        octave,
        semitone,
        unknown,
        instrument: cell.instrument,
        command1: cell.command1,
        parameter1: cell.parameter1,
        command2: cell.command2,
        parameter2: cell.parameter2,
    }
}

fn sample(sample: records::Sample) -> Sample {
    Sample {
        width: sample.width,
        frames: sample.frames,
    }
}

fn frames(module: &[u8], sample: u64) -> Result<Frames, Refusal> {
    match records::frames_refusal(module, sample) {
        Some(refusal) => Err(refusal),
        None => {
            let (offset, length) = records::frames(module, sample);
            Ok(Frames { offset, length })
        }
    }
}
