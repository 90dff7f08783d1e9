//! The expected text for each case of a corpus.

mod records;

use std::fmt::Write;

use crate::compare::compare;
use crate::corpus::{take, Case};
use crate::pattern::{cell, check, pack, repack, shown, unpack, Cell, Note, Refusal};
use crate::replace::{replace_sample, Replaced};
use crate::{all_records, listing, module};

/// An output is filled with this byte before the call.
pub const FILL: u8 = 0xAA;

/// A longer output length is reduced to this one.
pub const MOST_ROOM: u32 = 65_536;

/// The expected lines, up to the end, an unknown kind or a case that is cut. The last line has the number of cases.
pub fn expected(corpus: &[u8]) -> String {
    let mut text = String::new();
    let mut left = corpus;
    let mut count = 0u64;
    while let Some((case, after)) = take(left) {
        lines(&case, &mut text);
        left = after;
        count += 1;
    }
    line(&mut text, format_args!("cases {count}"));
    text
}

fn lines(case: &Case, text: &mut String) {
    match case {
        Case::Stream {
            rows,
            tracks,
            row,
            track,
            room,
            stream,
        } => {
            let (number, place) = numbers(check(stream, *rows, *tracks).err());
            line(text, format_args!("check {number} {place}"));
            written(text, "unpack", *room, |out| {
                unpack(stream, *rows, *tracks, out)
            });
            written(text, "repack", *room, |out| {
                repack(stream, *rows, *tracks, out)
            });
            selected_cell(text, cell(stream, *rows, *tracks, *row, *track));
        }
        Case::Cells {
            rows,
            tracks,
            room,
            cells,
        } => {
            written(text, "pack", *room, |out| pack(cells, *rows, *tracks, out));
        }
        Case::Shown(bytes) => {
            line(
                text,
                format_args!("shown {}", spaced(values(shown(*bytes)))),
            );
        }
        Case::Module { room, module } => {
            let (number, place) = numbers(module::check(module).err());
            line(text, format_args!("module {number} {place}"));
            written(text, "lines", *room, |out| listing::write(module, out));
            for room in [*room, module.len() as u32] {
                written(text, "repacked", room, |out| {
                    crate::repack::repack(module, out)
                });
            }
            // An output of this length is enough for every accepted module: after the summary no record is longer than its block.
            for room in [*room, module.len() as u32 + all_records::SUMMARY] {
                written(text, "records", room, |out| all_records::write(module, out));
            }
        }
        Case::Records {
            query,
            room,
            module,
        } => records::lines(text, module, query, *room),
        Case::Replacement {
            sample,
            room,
            frames,
            module,
        } => {
            // An output of the second length is always enough: no more than the new frames is added to the module.
            for room in [*room, (module.len() + frames.len()) as u32] {
                replaced(text, room, |out| {
                    replace_sample(module, *sample, frames, out)
                });
            }
        }
        Case::Comparison {
            room,
            first,
            second,
        } => {
            // The number of entries is where other calls have a length.
            for (first, second) in [(first, second), (second, first)] {
                written(text, "compared", *room, |out| compare(first, second, out));
            }
        }
    }
}

/// An output before the call.
fn output(room: u32) -> Vec<u8> {
    vec![FILL; room.min(MOST_ROOM) as usize]
}

/// The line of a call that fills an output.
fn written(
    text: &mut String,
    name: &str,
    room: u32,
    call: impl FnOnce(&mut [u8]) -> Result<u64, Refusal>,
) {
    let mut out = output(room);
    let answer = call(&mut out);
    let (number, place) = numbers(answer.err());
    let length = answer.unwrap_or(0);
    let out = hex(&out);
    line(text, format_args!("{name} {number} {place} {length} {out}"));
}

/// The line of a module with a sample replaced. It also has the number of instruments whose loop was cleared.
fn replaced(
    text: &mut String,
    room: u32,
    call: impl FnOnce(&mut [u8]) -> Result<Replaced, Refusal>,
) {
    let mut out = output(room);
    let answer = call(&mut out);
    let (number, place) = numbers(answer.err());
    let Replaced { length, cleared } = answer.unwrap_or_default();
    let out = hex(&out);
    line(
        text,
        format_args!("replaced {number} {place} {length} {cleared} {out}"),
    );
}

/// The line of a selected cell.
fn selected_cell(text: &mut String, answer: Result<Cell, Refusal>) {
    let (number, place) = numbers(answer.err());
    let values = answer.map_or([0; 9], values);
    line(
        text,
        format_args!("cell {number} {place} {}", spaced(values)),
    );
}

fn hex(bytes: &[u8]) -> String {
    let mut hex = String::new();
    for byte in bytes {
        write!(hex, "{byte:02x}").expect("a string takes every write");
    }
    hex
}

fn numbers(refusal: Option<Refusal>) -> (u64, u64) {
    refusal.map_or((0, 0), |refusal| (refusal.number, refusal.place))
}

/// The note as numbers (kind, octave, semitone, the byte of an unknown note), then the five other fields.
fn values(cell: Cell) -> [u8; 9] {
    let (kind, octave, semitone, unknown) = match cell.note {
        Note::None => (0, 0, 0, 0),
        Note::KeyOff => (1, 0, 0, 0),
        Note::Pitch { octave, semitone } => (2, octave, semitone, 0),
        Note::Unknown(byte) => (3, 0, 0, byte),
    };
    [
        kind,
        octave,
        semitone,
        unknown,
        cell.instrument,
        cell.command1,
        cell.parameter1,
        cell.command2,
        cell.parameter2,
    ]
}

fn spaced(values: [u8; 9]) -> String {
    values.map(|value| value.to_string()).join(" ")
}

fn line(text: &mut String, line: std::fmt::Arguments) {
    writeln!(text, "{line}").expect("a string takes every write");
}
