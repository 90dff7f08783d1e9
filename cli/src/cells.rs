//! `dbm0 cells`: prints a pattern as trackers show it.

use std::ffi::OsStr;
use std::fmt::Write;

use crate::args::Range;
use crate::cell_text::{push_command, push_hex, CellText, FIELDS};
use crate::fault::{Fault, EXIT_OK};
use crate::input;
use crate::library::{self, Info, NOT_THERE};
use crate::output::Output;

/// The part of the module to print: one pattern, and all or some of its rows and tracks.
pub struct Selection {
    pub pattern: usize,
    pub rows: Option<Range>,
    pub tracks: Option<Range>,
}

pub fn run(file: &OsStr, selection: &Selection, out: &mut Output) -> Result<u8, Fault> {
    let module = input::read(file)?;
    let refused = |refusal| Fault::refused(file, &module, refusal);
    let info = library::info(&module).map_err(refused)?;
    let rows =
        library::rows(&module, selection.pattern).map_err(|refusal| match refusal.number {
            NOT_THERE => Fault::argument(file, refusal, &no_pattern(selection.pattern, info)),
            _ => refused(refusal),
        })?;
    let bounds = Bounds::new(selection, usize::from(rows), usize::from(info.tracks));
    check_cells_exist(file, &module, selection.pattern, &bounds, rows, info)?;
    let expected = usize::from(rows) * usize::from(info.tracks);
    let cells = library::cells(&module, selection.pattern, expected).map_err(refused)?;
    let fields = CellText::new().map_err(refused)?;
    out.line(&format!(
        "pattern {}: {rows} rows, {} tracks",
        selection.pattern, info.tracks
    ))?;
    print(&cells, &bounds, usize::from(info.tracks), &fields, out)?;
    out.flush()?;
    Ok(EXIT_OK)
}

/// The rows and tracks to print: the first and the last of each.
struct Bounds {
    rows: (usize, usize),
    tracks: (usize, usize),
    /// The whole pattern is selected and it has no rows. Then there are no cells to check.
    is_empty: bool,
}

impl Bounds {
    fn new(selection: &Selection, rows: usize, tracks: usize) -> Bounds {
        Bounds {
            rows: ends(selection.rows, 0, rows.saturating_sub(1)),
            tracks: ends(selection.tracks, 1, tracks),
            is_empty: rows == 0 && selection.rows.is_none() && selection.tracks.is_none(),
        }
    }
}

/// The ends of a range. Without a range they are `first` and `last`. A range that begins after the last number is passed on, and the
/// library refuses it.
fn ends(selected: Option<Range>, first: usize, last: usize) -> (usize, usize) {
    match selected {
        None => (first, last),
        Some(range) => (range.first, range.last.unwrap_or(last.max(range.first))),
    }
}

/// Asks the library whether the cells at the corners exist. If they do, so do all cells between them.
fn check_cells_exist(
    file: &OsStr,
    module: &[u8],
    pattern: usize,
    bounds: &Bounds,
    rows: u16,
    info: Info,
) -> Result<(), Fault> {
    if bounds.is_empty {
        return Ok(());
    }
    let (first_row, last_row) = bounds.rows;
    let (first_track, last_track) = bounds.tracks;
    let corners = [
        (first_row, first_track),
        (last_row, first_track),
        (first_row, last_track),
    ];
    for (row, track) in corners {
        if let Err(refusal) = library::cell(module, pattern, row, track) {
            if refusal.number != NOT_THERE {
                return Err(Fault::refused(file, module, refusal));
            }
            let words = no_cell(pattern, row, track, rows, info);
            return Err(Fault::argument(file, refusal, &words));
        }
    }
    Ok(())
}

fn no_pattern(pattern: usize, info: Info) -> String {
    let there = match info.patterns {
        0 => "the module has none".to_string(),
        count => format!("choose one from 0 to {}", count - 1),
    };
    format!("there is no pattern {pattern}: {there}")
}

fn no_cell(pattern: usize, row: usize, track: usize, rows: u16, info: Info) -> String {
    if row < usize::from(rows) {
        let tracks = info.tracks;
        return format!("there is no track {track}: choose from 1 to {tracks}");
    }
    let there = match rows {
        0 => format!("pattern {pattern} has none"),
        rows => format!("pattern {pattern} has rows 0 to {}", rows - 1),
    };
    format!("there is no row {row}: {there}")
}

fn print(
    cells: &[u8],
    bounds: &Bounds,
    tracks: usize,
    fields: &CellText,
    out: &mut Output,
) -> Result<(), Fault> {
    let (first_row, last_row) = bounds.rows;
    let (first_track, last_track) = bounds.tracks;
    let mut line = String::from("row   ");
    for track in first_track..=last_track {
        let _ = write!(line, "  {:<14}", format!("track {track}"));
    }
    out.line(line.trim_end())?;
    let rows = cells.chunks_exact(FIELDS * tracks).enumerate();
    for (number, row) in rows.take(last_row + 1).skip(first_row) {
        if out.is_closed() {
            break;
        }
        line.clear();
        let _ = write!(line, "{number:<6}");
        let row = row.chunks_exact(FIELDS);
        for cell in row.take(last_track).skip(first_track - 1) {
            line.push_str("  ");
            push_cell(&mut line, cell, fields);
        }
        line.push('\n');
        out.text(&line)?;
    }
    Ok(())
}

/// `G-4 01 000 F70`: note, instrument, and the two commands with their parameters.
fn push_cell(line: &mut String, cell: &[u8], fields: &CellText) {
    let [note, instrument, command1, parameter1, command2, parameter2] = *cell else {
        return;
    };
    line.push_str(fields.note(note));
    line.push(' ');
    push_hex(line, instrument);
    for (command, parameter) in [(command1, parameter1), (command2, parameter2)] {
        line.push(' ');
        push_command(line, command);
        push_hex(line, parameter);
    }
}
