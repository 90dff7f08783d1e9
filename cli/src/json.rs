//! Prints a report as JSON. docs/CLI.md has the schema.

use std::ffi::OsStr;

use crate::fault::Fault;
use crate::names::{self, JsonName};
use crate::output::Output;
use crate::records::{self, Envelope, Instrument, Loop, Report, Sample, Song};
use crate::report;
use crate::text::{put, Hex, Piece};

/// The version of the schema. It changes if a field is removed or changes its meaning. New fields may be added without a change.
const SCHEMA: u32 = 1;

/// Prints one object, with each record on its own line.
pub fn write(file: &OsStr, bytes: usize, report: &Report, out: &mut Output) -> Result<(), Fault> {
    out.put(|text| summary(text, file, bytes, report))?;
    list("songs", &report.songs, song, out)?;
    out.text(",\n")?;
    list("instruments", &report.instruments, instrument, out)?;
    out.text(",\n")?;
    list("patterns", &report.patterns, pattern, out)?;
    out.text(",\n")?;
    list("samples", &report.samples, sample, out)?;
    out.text(",\n")?;
    list("volume_envelopes", &report.volume_envelopes, envelope, out)?;
    out.text(",\n")?;
    list(
        "panning_envelopes",
        &report.panning_envelopes,
        envelope,
        out,
    )?;
    out.text("\n}\n")
}

/// Prints a list of records. `record` gets the index of each.
fn list<Record>(
    name: &str,
    records: &[Record],
    record: fn(&mut String, usize, &Record),
    out: &mut Output,
) -> Result<(), Fault> {
    out.put(|text| put!(text; "  \"", name, "\": ["))?;
    let mut between = "\n    ";
    for (index, one) in records.iter().enumerate() {
        out.put(|text| {
            put!(text; between);
            record(text, index, one);
        })?;
        between = ",\n    ";
    }
    out.text(match records {
        [] => "]",
        _ => "\n  ]",
    })
}

fn summary(text: &mut String, file: &OsStr, bytes: usize, report: &Report) {
    let info = report.info;
    put!(text; "{\n  \"schema\": ", SCHEMA, ",\n  \"file\": ");
    string(text, &names::file(file));
    put!(text; ",\n  \"bytes\": ", bytes, ",\n  \"version\": {\"text\": \"");
    report::version(text, report);
    put!(text; "\", \"version\": ", report.version, ", \"revision\": ", report.revision, "},\n  \"name\": ");
    name(text, report.name);
    put!(text; ",\n  \"counts\": {\"instruments\": ", info.instruments);
    put!(text; ", \"samples\": ", info.samples, ", \"songs\": ", info.songs);
    put!(text; ", \"patterns\": ", info.patterns, ", \"tracks\": ", info.tracks);
    put!(text; ", \"volume_envelopes\": ", report.volume_envelopes.len());
    put!(text; ", \"panning_envelopes\": ", report.panning_envelopes.len(), "},\n");
}

fn song(text: &mut String, number: usize, song: &Song) {
    put!(text; "{\"number\": ", number, ", \"name\": ");
    name(text, song.name);
    put!(text; ", \"length\": ", song.length(), ", \"playlist\": ");
    array(text, song.playlist());
    put!(text; "}");
}

fn instrument(text: &mut String, index: usize, instrument: &Instrument) {
    let kind = match instrument.loop_kind() {
        Loop::None => "none",
        Loop::Forward => "forward",
        Loop::PingPong => "ping-pong",
    };
    put!(text; "{\"number\": ", index + 1, ", \"name\": ");
    name(text, &instrument.name);
    put!(text; ", \"sample\": ", instrument.sample, ", \"volume\": ", instrument.volume);
    put!(text; ", \"panning\": ", instrument.panning, ", \"rate\": ", instrument.rate);
    put!(text; ", \"flags\": ", instrument.flags, ", \"loop\": {\"kind\": \"", kind);
    put!(text; "\", \"start\": ", instrument.loop_start, ", \"length\": ", instrument.loop_length, "}}");
}

fn pattern(text: &mut String, number: usize, rows: &u16) {
    put!(text; "{\"number\": ", number, ", \"rows\": ", *rows, "}");
}

fn sample(text: &mut String, index: usize, sample: &Sample) {
    put!(text; "{\"number\": ", index + 1, ", \"width\": ", sample.width);
    put!(text; ", \"frames\": ", sample.frames, ", \"length\": ", sample.length(), "}");
}

fn envelope(text: &mut String, number: usize, envelope: &Envelope) {
    put!(text; "{\"number\": ", number, ", \"instrument\": ", envelope.instrument);
    put!(text; ", \"flags\": ", envelope.flags, ", \"on\": ", envelope.has(records::ON));
    put!(text; ", \"sections\": ", envelope.sections);
    put!(text; ", \"first_sustain\": ", envelope.first_sustain);
    put!(text; ", \"loop_first\": ", envelope.loop_first, ", \"loop_last\": ", envelope.loop_last);
    put!(text; ", \"second_sustain\": ", envelope.second_sustain, ", \"points\": ");
    array(
        text,
        envelope
            .points()
            .map(|(position, value)| Point { position, value }),
    );
    put!(text; "}");
}

/// A name: the text as in the text report but without the quotes, and all bytes in hexadecimal.
fn name(text: &mut String, bytes: &[u8]) {
    put!(text; "{\"text\": \"", JsonName(bytes), "\", \"hex\": \"");
    for &byte in bytes {
        put!(text; Hex(byte));
    }
    put!(text; "\"}");
}

struct Point {
    position: u16,
    value: i16,
}

impl Piece for Point {
    fn put(&self, text: &mut String) {
        put!(text; "[", self.position, ", ", self.value, "]");
    }
}

fn array(text: &mut String, items: impl Iterator<Item = impl Piece>) {
    let mut between = "[";
    for item in items {
        put!(text; between, item);
        between = ", ";
    }
    put!(text; if between == "[" { "[]" } else { "]" });
}

/// A string. The texts passed here have no control characters; one would be escaped.
fn string(text: &mut String, unquoted: &str) {
    text.push('"');
    for character in unquoted.chars() {
        match character {
            '"' => text.push_str("\\\""),
            '\\' => text.push_str("\\\\"),
            '\0'..='\x1F' => put!(text; "\\u00", Hex(character as u8)),
            _ => text.push(character),
        }
    }
    text.push('"');
}
