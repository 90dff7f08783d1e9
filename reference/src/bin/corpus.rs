//! Writes the cases of a conformance program to standard output. The only argument is the name of the program.

#![forbid(unsafe_code)]

use std::io::Write;
use std::process::ExitCode;

use reference::corpus::{encoded, programs};

fn main() -> ExitCode {
    let mut arguments = std::env::args().skip(1);
    let (Some(name), None) = (arguments.next(), arguments.next()) else {
        eprintln!("usage: corpus PROGRAM");
        return ExitCode::from(2);
    };
    let Some((_, cases)) = programs().into_iter().find(|(program, _)| *program == name) else {
        eprintln!("{name}: no conformance program");
        return ExitCode::from(2);
    };
    match std::io::stdout().write_all(&encoded(&cases)) {
        Ok(()) => ExitCode::SUCCESS,
        Err(error) => {
            eprintln!("standard output: {error}");
            ExitCode::FAILURE
        }
    }
}
