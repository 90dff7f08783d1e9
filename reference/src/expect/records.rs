//! The lines for a module's records: one for each query.
//!
//! A line has a word, the refusal's number and place, and the fields of the record, which are all 0 on a refusal. Numbers are decimal, with
//! a minus sign if negative. Names, parts and outputs are hexadecimal and come last.

use super::{hex, line, numbers, selected_cell, written, MOST_ROOM};
use crate::chunks::Info;
use crate::corpus::Query;
use crate::records::{self, Envelope, Instrument, Kind, Sample, Song, UNUSED};
use crate::refusal::Refusal;

pub(super) fn lines(text: &mut String, module: &[u8], query: &Query, room: u32) {
    summary(text, module);
    song(text, module, query, room);
    instrument(text, module, query);
    for (name, count) in [
        ("volume_envelopes", records::volume_envelopes(module)),
        ("panning_envelopes", records::panning_envelopes(module)),
    ] {
        record(text, name, count, 0, |count| count.to_string());
    }
    for (name, kind) in [
        ("volume_envelope", Kind::Volume),
        ("panning_envelope", Kind::Panning),
    ] {
        envelope(text, name, records::envelope(module, kind, query.envelope));
    }
    pattern(text, module, query, room);
    sample(text, module, query, room);
}

/// The line of a query. On a refusal the record is the empty one.
fn record<Record>(
    text: &mut String,
    name: &str,
    answer: Result<Record, Refusal>,
    empty: Record,
    fields: impl FnOnce(Record) -> String,
) {
    let (number, place) = numbers(answer.as_ref().err().copied());
    let fields = fields(answer.unwrap_or(empty));
    line(text, format_args!("{name} {number} {place} {fields}"));
}

fn summary(text: &mut String, module: &[u8]) {
    let version = records::version(module);
    record(text, "version", version, (0, 0), |(version, revision)| {
        format!("{version} {revision}")
    });
    record(text, "name", records::name(module), [0; 44], |name| {
        hex(&name)
    });
    let empty = Info {
        instruments: 0,
        samples: 0,
        songs: 0,
        patterns: 0,
        tracks: 0,
    };
    record(text, "info", records::info(module), empty, |info| {
        format!(
            "{} {} {} {} {}",
            info.instruments, info.samples, info.songs, info.patterns, info.tracks
        )
    });
}

fn song(text: &mut String, module: &[u8], query: &Query, room: u32) {
    let empty = Song {
        name: [0; 44],
        length: 0,
    };
    let song = records::song(module, query.song);
    record(text, "song", song, empty, |song| {
        format!("{} {}", song.length, hex(&song.name))
    });
    let entry = records::entry(module, query.song, query.entry);
    record(text, "entry", entry, 0, |pattern| pattern.to_string());
    written(text, "playlist", room, |out| {
        records::playlist(module, query.song, out)
    });
}

fn instrument(text: &mut String, module: &[u8], query: &Query) {
    let empty = Instrument {
        name: [0; 30],
        sample: 0,
        volume: 0,
        rate: 0,
        loop_start: 0,
        loop_length: 0,
        panning: 0,
        flags: 0,
    };
    let instrument = records::instrument(module, query.instrument);
    record(text, "instrument", instrument, empty, |shown| {
        format!(
            "{} {} {} {} {} {} {} {}",
            shown.sample,
            shown.volume,
            shown.rate,
            shown.loop_start,
            shown.loop_length,
            shown.flags,
            shown.panning,
            hex(&shown.name)
        )
    });
}

/// The positions of all points come before their values.
fn envelope(text: &mut String, name: &str, answer: Result<Envelope, Refusal>) {
    let empty = Envelope {
        instrument: 0,
        flags: 0,
        sections: 0,
        first_sustain: 0,
        loop_first: 0,
        loop_last: 0,
        second_sustain: 0,
        points: [UNUSED; 32],
    };
    record(text, name, answer, empty, |shown| {
        format!(
            "{} {} {} {} {} {} {} {} {}",
            shown.instrument,
            shown.flags,
            shown.sections,
            shown.first_sustain,
            shown.loop_first,
            shown.loop_last,
            shown.second_sustain,
            shown
                .points
                .map(|point| point.position.to_string())
                .join(" "),
            shown.points.map(|point| point.value.to_string()).join(" ")
        )
    });
}

fn pattern(text: &mut String, module: &[u8], query: &Query, room: u32) {
    let rows = records::pattern(module, query.pattern);
    record(text, "rows", rows, 0, |rows| rows.to_string());
    let cell = records::cell(module, query.pattern, query.row, query.track);
    selected_cell(text, cell);
    written(text, "unpack", room, |out| {
        records::unpack(module, query.pattern, out)
    });
}

/// At most as many bytes of the frames are printed as an output can have.
fn sample(text: &mut String, module: &[u8], query: &Query, room: u32) {
    let empty = Sample {
        width: 0,
        frames: 0,
    };
    let sample = records::sample(module, query.sample);
    record(text, "sample", sample, empty, |sample| {
        format!("{} {}", sample.width, sample.frames)
    });
    let (number, place) = numbers(records::frames_refusal(module, query.sample));
    let (offset, length) = records::frames(module, query.sample);
    let printed = length.min(u64::from(MOST_ROOM));
    let part = hex(&module[offset as usize..(offset + printed) as usize]);
    line(
        text,
        format_args!("frames {number} {place} {offset} {length} {part}"),
    );
    let frame = records::frame(module, query.sample, query.frame);
    record(text, "frame", frame, 0, |frame| frame.to_string());
    written(text, "all_frames", room, |out| {
        records::all_frames(module, query.sample, out)
    });
}
