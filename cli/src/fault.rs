//! The reason that a command ends early: one line for standard error, and the exit status.

use std::ffi::OsStr;
use std::io::{self, ErrorKind, Write};

use crate::explain;
use crate::library::Refusal;
use crate::names;

/// The exit statuses.
pub const EXIT_OK: u8 = 0;
pub const EXIT_REFUSED: u8 = 1;
pub const EXIT_FAILED: u8 = 2;
pub const EXIT_DIFFERENT: u8 = 3;

pub struct Fault {
    pub status: u8,
    line: String,
}

impl Fault {
    /// The arguments are invalid.
    pub fn usage(what: impl AsRef<str>, help: &str) -> Fault {
        Fault {
            status: EXIT_FAILED,
            line: format!("dbm0: {}: see '{help}'", what.as_ref()),
        }
    }

    /// An operation failed. The line ends with advice.
    pub fn failed(what: String) -> Fault {
        Fault {
            status: EXIT_FAILED,
            line: format!("dbm0: {what}"),
        }
    }

    /// The library refuses the module. The line is the one that `check` prints.
    pub fn refused(file: &OsStr, module: &[u8], refusal: Refusal) -> Fault {
        Fault {
            status: EXIT_REFUSED,
            line: refused_line(file, module, refusal),
        }
    }

    /// The library accepts the module but refuses an argument, such as the number of an item that does not exist.
    pub fn argument(file: &OsStr, refusal: Refusal, words: &str) -> Fault {
        let Refusal { number, place } = refusal;
        let file = names::file(file);
        Fault::failed(format!("{file}: refused {number} at {place}: {words}"))
    }

    /// The records or the differences that the library writes are not as expected. What it writes is proved, so this does not occur with the
    /// program's own archives. If it does, no file is written, and nothing is printed, except for lines that `compare` has printed before.
    pub fn not_understood(file: &OsStr) -> Fault {
        Fault::failed(format!(
            "{}: the records of the library are not as expected: build the program again with its own archives",
            names::file(file)
        ))
    }

    /// Prints the line. An error while printing is ignored, since there is no other place to report it.
    pub fn print(&self) {
        let _ = writeln!(io::stderr(), "{}", self.line);
    }
}

/// `FILE: refused 14 at 540: ..`.
pub fn refused_line(file: &OsStr, module: &[u8], refusal: Refusal) -> String {
    let words = explain::line(module, refusal);
    format!("{}: {words}", names::file(file))
}

/// The message of a system error, without its number.
pub fn reason(error: &io::Error) -> String {
    let text = error.to_string();
    match text.split_once(" (os error") {
        Some((words, _)) => words.to_string(),
        None => text,
    }
}

/// Advice for a file that cannot be read.
pub fn advice(error: &io::Error) -> &'static str {
    match error.kind() {
        ErrorKind::NotFound => "check its name",
        ErrorKind::PermissionDenied => "ask for the right to read it",
        ErrorKind::IsADirectory => "name the files in it",
        _ => "check the name and the disk, and try again",
    }
}
