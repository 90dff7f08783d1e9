//! `dbm0 report`: prints the page of a module for the register.

use std::ffi::OsStr;

use crate::fault::{Fault, EXIT_OK};
use crate::input;
use crate::json;
use crate::library;
use crate::names::Quoted;
use crate::output::Output;
use crate::records::{self, Envelope, Instrument, Report, Sample, Song};
use crate::text::{put, Hex, Many};
use crate::words::{counts, LoopWords, PointWords, SampleWords};

pub fn run(file: &OsStr, as_json: bool, out: &mut Output) -> Result<u8, Fault> {
    let module = input::read(file)?;
    let shown =
        library::records(&module).map_err(|refusal| Fault::refused(file, &module, refusal))?;
    let report = Report::of(&shown).ok_or_else(|| Fault::not_understood(file))?;
    if as_json {
        json::write(file, module.len(), &report, out)?;
    } else {
        page(module.len(), &report, out)?;
    }
    out.flush()?;
    Ok(EXIT_OK)
}

/// One line for each item. Songs, patterns and envelopes are counted from 0, instruments and samples from 1.
fn page(bytes: usize, report: &Report, out: &mut Output) -> Result<(), Fault> {
    out.put(|text| summary(text, bytes, report))?;
    for (number, song) in report.songs.iter().enumerate() {
        out.put(|text| song_line(text, number, song))?;
    }
    for (index, instrument) in report.instruments.iter().enumerate() {
        out.put(|text| instrument_line(text, index + 1, instrument))?;
    }
    for (number, &rows) in report.patterns.iter().enumerate() {
        out.put(|text| put!(text; "pattern ", number, ": ", Many(rows, "row"), "\n"))?;
    }
    for (index, sample) in report.samples.iter().enumerate() {
        out.put(|text| sample_line(text, index + 1, sample))?;
    }
    for (kind, envelopes) in envelopes(report) {
        for (number, envelope) in envelopes.iter().enumerate() {
            out.put(|text| envelope_line(text, kind, number, envelope))?;
        }
    }
    Ok(())
}

fn envelopes<'r>(report: &'r Report) -> [(&'static str, &'r [Envelope<'r>]); 2] {
    [
        ("volume", &report.volume_envelopes),
        ("panning", &report.panning_envelopes),
    ]
}

fn summary(text: &mut String, bytes: usize, report: &Report) {
    put!(text; "version ");
    version(text, report);
    put!(text; "\nname ", Quoted(report.name), "\nbytes ", bytes, "\n");
    for (what, count) in counts(&report.info) {
        put!(text; what, " ", count, "\n");
    }
    for (kind, envelopes) in envelopes(report) {
        put!(text; kind, " envelopes ", envelopes.len(), "\n");
    }
}

/// The revision is two decimal digits of four bits each. Both digits are always printed.
pub fn version(text: &mut String, report: &Report) {
    put!(text; report.version, ".", Hex(report.revision));
}

fn song_line(text: &mut String, number: usize, song: &Song) {
    put!(text; "song ", number, " ", Quoted(song.name), ": patterns");
    if song.length() == 0 {
        put!(text; " none");
    }
    for pattern in song.playlist() {
        put!(text; " ", pattern);
    }
    put!(text; "\n");
}

fn instrument_line(text: &mut String, number: usize, instrument: &Instrument) {
    put!(text; "instrument ", number, " ", Quoted(&instrument.name), ": ", SampleWords(instrument.sample));
    put!(text; ", volume ", instrument.volume, ", panning ", instrument.panning);
    put!(text; ", rate ", instrument.rate, ", ", LoopWords::of(instrument), "\n");
}

fn sample_line(text: &mut String, number: usize, sample: &Sample) {
    put!(text; "sample ", number, ": ", sample.width, " bits, ");
    put!(text; Many(sample.frames, "frame"), ", ", Many(sample.length(), "byte"), "\n");
}

/// Sustain points and the loop are printed if they are in use.
fn envelope_line(text: &mut String, kind: &str, number: usize, envelope: &Envelope) {
    put!(text; kind, " envelope ", number, ": instrument ", envelope.instrument);
    put!(text; if envelope.has(records::ON) { ", on" } else { ", off" });
    if envelope.has(records::FIRST_SUSTAIN) {
        put!(text; ", first sustain at point ", envelope.first_sustain);
    }
    if envelope.has(records::LOOP) {
        put!(text; ", loop from point ", envelope.loop_first, " to ", envelope.loop_last);
    }
    if envelope.has(records::SECOND_SUSTAIN) {
        put!(text; ", second sustain at point ", envelope.second_sustain);
    }
    put!(text; ", points");
    for (position, value) in envelope.points() {
        put!(text; " ", PointWords(position, value));
    }
    put!(text; "\n");
}
