//! The inspector's command line: checks, reports, shows, compares and repacks DBM0 modules, and replaces their samples.
//!
//! Every decision is made by the proved library (library.rs). The rest reads files, calls the library, and prints.

#![deny(unsafe_code)]

mod args;
mod cell_text;
mod cells;
mod check;
mod compare;
mod differences;
mod explain;
mod fault;
mod fields;
mod help;
mod input;
mod json;
mod library;
mod names;
mod output;
mod output_file;
mod reader;
mod records;
mod repack;
mod replace;
mod report;
mod rows;
mod signal;
mod text;
mod words;

use std::process::ExitCode;

use args::Command;
use fault::{Fault, EXIT_OK};
use library::{LIBRARY_VERSION, PATTERN_VERSION};
use output::Output;

fn main() -> ExitCode {
    signal::ignore_file_size_signal();
    let status = run().unwrap_or_else(|fault| {
        fault.print();
        fault.status
    });
    ExitCode::from(status)
}

/// The version of the program, and those of the library's two interfaces.
fn version() -> String {
    format!(
        "dbm0 {} (library {LIBRARY_VERSION}, packed rows {PATTERN_VERSION})",
        env!("CARGO_PKG_VERSION")
    )
}

fn run() -> Result<u8, Fault> {
    let out = &mut Output::new()?;
    let status = match args::parse(std::env::args_os().skip(1).collect())? {
        Command::Help(topic) => {
            out.text(topic.text())?;
            EXIT_OK
        }
        Command::Version => {
            out.line(&version())?;
            EXIT_OK
        }
        Command::Check { files } => check::run(&files, out)?,
        Command::Report { file, json } => report::run(&file, json, out)?,
        Command::Cells { file, selection } => cells::run(&file, &selection, out)?,
        Command::Compare { files, numbers } => compare::run(&files, numbers, out)?,
        Command::Repack { from, to } => repack::run(&from, &to, out)?,
        Command::Replace { replacement, to } => replace::run(&replacement, &to, out)?,
    };
    out.flush()?;
    Ok(status)
}
