//! The texts that `--help` prints.

use crate::fault::Fault;

/// The subject of a help text.
#[derive(Clone, Copy)]
pub enum Topic {
    Program,
    Check,
    Report,
    Cells,
    Compare,
    Repack,
    Replace,
}

/// The topic of a command.
pub fn topic(command: &str) -> Option<Topic> {
    match command {
        "check" => Some(Topic::Check),
        "report" => Some(Topic::Report),
        "cells" => Some(Topic::Cells),
        "compare" => Some(Topic::Compare),
        "repack" => Some(Topic::Repack),
        "replace" => Some(Topic::Replace),
        _ => None,
    }
}

impl Topic {
    /// An error in the arguments, with a reference to the help text.
    pub fn fault(self, what: impl AsRef<str>) -> Fault {
        let help = match self {
            Topic::Program => "dbm0 --help",
            Topic::Check => "dbm0 check --help",
            Topic::Report => "dbm0 report --help",
            Topic::Cells => "dbm0 cells --help",
            Topic::Compare => "dbm0 compare --help",
            Topic::Repack => "dbm0 repack --help",
            Topic::Replace => "dbm0 replace --help",
        };
        Fault::usage(what, help)
    }

    pub fn text(self) -> &'static str {
        match self {
            Topic::Program => PROGRAM,
            Topic::Check => CHECK,
            Topic::Report => REPORT,
            Topic::Cells => CELLS,
            Topic::Compare => COMPARE,
            Topic::Repack => REPACK,
            Topic::Replace => REPLACE,
        }
    }
}

const PROGRAM: &str = "\
dbm0: checks, reports, shows, compares and repacks DBM0 modules of up to 16777216 bytes, and replaces their samples

usage:
  dbm0 check FILE..                  say of each file whether it is accepted, or why it is refused
  dbm0 report [--json] FILE          print what goes into the register
  dbm0 cells FILE PATTERN            print a pattern as trackers show it
  dbm0 compare [--numbers] A B       print what differs between two modules
  dbm0 repack IN OUT                 write the module with its patterns packed as short as they can be
  dbm0 replace IN SAMPLE FRAMES OUT  write the module with a sample replaced by 16-bit frames
  dbm0 COMMAND --help                say more about a command
  dbm0 --version                     print the version

An input of - is standard input, an OUT of - is standard output; a file that is named so is ./-.
Behind -- all arguments are files, also those that begin with -.

exit status:
  0  all is well
  1  a module is refused
  2  a file cannot be read or written, or the arguments are wrong
  3  two modules differ (compare)
";

const CHECK: &str = "\
usage: dbm0 check FILE..

Prints one line for each file:
  FILE: accepted
  FILE: refused 14 at 540: instrument 2 \"organ\": loop 16 + 48 is outside its sample 2 (40 frames)
Number and place are those of docs/FORMAT.md; the words say what is wrong there. - is standard input.

exit status:
  0  all files are accepted
  1  one is refused
  2  one cannot be read (the others are checked), or the arguments are wrong
";

const REPORT: &str = "\
usage: dbm0 report [--json] FILE

Prints what goes into the register: version, name, counts; then the songs with their playlists, the instruments with
sample, volume, panning, rate and loop (start + length), the patterns with their rows, the samples with their width,
frames and bytes, and the envelopes with their points (position:value). - is standard input.

Songs, patterns and envelopes are counted from 0, instruments and samples from 1. A name is printed without the zeros
at its end; what is not printable ASCII, and \" and \\, is printed as \\xHH.

  --json  the same as JSON, with every field; docs/CLI.md has the schema

exit status:
  0  the report is printed
  1  the module is refused; the line that check prints is on standard error
  2  the file cannot be read, or the arguments are wrong
";

const CELLS: &str = "\
usage: dbm0 cells FILE PATTERN [--rows RANGE] [--tracks RANGE]

Prints a pattern, counted from 0: a line for each row, and in it a cell for each track, such as 'G-4 01 000 F70'. That
is the note, the instrument and two commands, each with its parameter; all numbers of a cell are hexadecimal.
  ---    no note
  ===    key off
  ?5F    an unknown note, with its byte
A command is one digit, 0 to 9 and then A to Z; one above Z is printed as its byte in brackets. - is standard input.

  --rows RANGE    only these rows, counted from 0
  --tracks RANGE  only these tracks, counted from 1
A RANGE is 4, or 4-7, or 4- for all from 4 on.

exit status:
  0  the cells are printed
  1  the module is refused; the line that check prints is on standard error
  2  there is no such pattern, row or track, the file cannot be read, or the arguments are wrong
";

const COMPARE: &str = "\
usage: dbm0 compare [--numbers] A B

Compares two modules and prints a line for each difference, first the value in A, then the value in B, and then the
number of differences:
  song 1: only in A
  instrument 2 \"organ\": forward loop 16 + 48, no loop
  sample 2: 64 frames of 8 bits, 40 frames of 16 bits
  pattern 1 row 5 track 2 note: C-3, D-3
  4 differences
Not compared are version, other chunks, the order of chunks, and how patterns are packed. - is standard input, for A or
for B.

  --numbers  print only the five numbers of each difference: kind, number, row, track and field; docs/CLI.md lists them

exit status:
  0  nothing differs
  1  one of the modules is refused; the line that check prints is on standard error
  2  a file cannot be read, or the arguments are wrong
  3  the modules differ
";

const REPACK: &str = "\
usage: dbm0 repack IN OUT

Writes the module of IN to OUT with its patterns packed as short as they can be; all else stays byte for byte. Says how
many bytes were saved. IN and OUT may be the same file. OUT is written as a whole or not at all: what stood there
stays until the new file is complete. - is standard input for IN and standard output for OUT.

exit status:
  0  OUT is written
  1  the module is refused and nothing is written; the line that check prints is on standard error
  2  IN cannot be read, OUT cannot be written (it is as it was), or the arguments are wrong
";

const REPLACE: &str = "\
usage: dbm0 replace IN SAMPLE FRAMES OUT

Writes the module of IN to OUT with one sample, counted from 1, replaced by the frames in the file FRAMES: signed 16-bit
numbers, big-endian, and nothing else. The loop of an instrument that ends after the last new frame is cleared: loop
start, loop length and flags become 0. All else stays byte for byte. Prints what changed:
  OUT: sample 2: 64 frames of 8 bits became 40 of 16 bits; 1 loop cleared
  OUT: instrument 2 \"organ\": forward loop 16 + 48 cleared
The files may be the same. OUT is written as a whole or not at all: the old file is unchanged until the new one is
complete. - is standard input for IN or FRAMES, and standard output for OUT.

exit status:
  0  OUT is written
  1  the module is refused and nothing is written; the line that check prints is on standard error
  2  there is no such sample, FRAMES has an odd number of bytes, the result would be too long, IN or FRAMES cannot be
     read, OUT cannot be written (it is as it was), or the arguments are wrong
";
