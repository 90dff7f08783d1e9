//! `dbm0 compare`: prints what differs between two modules.

use std::ffi::{OsStr, OsString};

use crate::differences::{Difference, LineWriter, Shown};
use crate::fault::{Fault, EXIT_DIFFERENT, EXIT_OK};
use crate::input;
use crate::library::{self, Refusal, DIFFERENCE_BYTES};
use crate::output::Output;
use crate::text::{put, Many};

pub fn run([a, b]: &[OsString; 2], numbers: bool, out: &mut Output) -> Result<u8, Fault> {
    let (a, b) = (Module::read(a)?, Module::read(b)?);
    let list = library::compare(&a.bytes, &b.bytes).map_err(|refusal| refused(&a, &b, refusal))?;
    match numbers {
        true => print_numbers(&list, out)?,
        false => print_words(&a, &b, &list, out)?,
    }
    out.flush()?;
    Ok(match list.is_empty() {
        true => EXIT_OK,
        false => EXIT_DIFFERENT,
    })
}

/// The bytes of a module, and the name of its file.
struct Module<'f> {
    file: &'f OsStr,
    bytes: Vec<u8>,
}

impl<'f> Module<'f> {
    fn read(file: &'f OsStr) -> Result<Module<'f>, Fault> {
        let bytes = input::read(file)?;
        Ok(Module { file, bytes })
    }

    fn refused(&self, refusal: Refusal) -> Fault {
        Fault::refused(self.file, &self.bytes, refusal)
    }

    fn records(&self) -> Result<Vec<u8>, Fault> {
        library::records(&self.bytes).map_err(|refusal| self.refused(refusal))
    }

    fn shown<'m>(&'m self, records: &'m [u8]) -> Result<Shown<'m>, Fault> {
        Shown::of(&self.bytes, records).ok_or_else(|| Fault::not_understood(self.file))
    }
}

/// The library does not say which module it refuses. It is B if A is accepted on its own.
fn refused(a: &Module, b: &Module, refusal: Refusal) -> Fault {
    match library::check(&a.bytes) {
        Ok(()) => b.refused(refusal),
        Err(_) => a.refused(refusal),
    }
}

/// The entries of the list.
fn differences(list: &[u8]) -> impl ExactSizeIterator<Item = Difference> + '_ {
    let entries: &[[u8; DIFFERENCE_BYTES]] = list.as_chunks().0;
    entries.iter().map(|&[a, b, c, d, e, f, g, h, i, j]| {
        [[a, b], [c, d], [e, f], [g, h], [i, j]].map(u16::from_be_bytes)
    })
}

/// Prints a line of five numbers for each difference.
fn print_numbers(list: &[u8], out: &mut Output) -> Result<(), Fault> {
    for [kind, number, row, track, field] in differences(list) {
        if out.is_closed() {
            break;
        }
        out.put(|text| put!(text; kind, " ", number, " ", row, " ", track, " ", field, "\n"))?;
    }
    Ok(())
}

/// Prints a line for each difference, and a line with their number.
fn print_words(a: &Module, b: &Module, list: &[u8], out: &mut Output) -> Result<(), Fault> {
    // The records are not needed if nothing differs.
    if !list.is_empty() {
        print_differences(a, b, list, out)?;
    }
    let count = differences(list).len() as u64;
    out.put(|text| put!(text; Many(count, "difference"), "\n"))
}

fn print_differences(a: &Module, b: &Module, list: &[u8], out: &mut Output) -> Result<(), Fault> {
    let (of_a, of_b) = (a.records()?, b.records()?);
    let modules = [a.shown(&of_a)?, b.shown(&of_b)?];
    let mut lines = LineWriter::new(modules).map_err(|refusal| a.refused(refusal))?;
    for difference in differences(list) {
        if out.is_closed() {
            break;
        }
        let mut found = Some(());
        out.put(|text| found = lines.put_line(text, difference))?;
        found.ok_or_else(|| Fault::not_understood(a.file))?;
    }
    Ok(())
}
