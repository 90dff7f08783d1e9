//! `dbm0 check`: prints one line for each file.

use std::ffi::OsString;

use crate::fault::{refused_line, Fault, EXIT_OK, EXIT_REFUSED};
use crate::input;
use crate::library;
use crate::names;
use crate::output::Output;

/// Returns the highest status of all files: 2 if a file cannot be read, 1 if a module is refused, else 0.
pub fn run(files: &[OsString], out: &mut Output) -> Result<u8, Fault> {
    let mut status = EXIT_OK;
    for file in files {
        let of_file = match input::read(file) {
            Ok(module) => one(file, &module, out)?,
            Err(fault) => {
                // The lines of earlier files are printed before this error.
                out.flush()?;
                fault.print();
                fault.status
            }
        };
        status = status.max(of_file);
    }
    Ok(status)
}

fn one(file: &OsString, module: &[u8], out: &mut Output) -> Result<u8, Fault> {
    match library::check(module) {
        Ok(()) => {
            out.line(&format!("{}: accepted", names::file(file)))?;
            Ok(EXIT_OK)
        }
        Err(refusal) => {
            out.line(&refused_line(file, module, refusal))?;
            Ok(EXIT_REFUSED)
        }
    }
}
