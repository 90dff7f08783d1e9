//! The proved library, libdbm0.a and libpattern.a, in the form that the program uses: a call returns a record or a refusal, and outputs are
//! allocated as long as needed. The calls themselves are in the package `interface`.

use interface::{Answer, RecordAnswer, Replaced, OUTPUT_TOO_SHORT};

pub use interface::{
    Cell, Info, DIFFERENCE_BYTES, DIFFERENCE_INFO, DIFFERENCE_INSTRUMENT, DIFFERENCE_NAME,
    DIFFERENCE_PANNING_ENVELOPE, DIFFERENCE_PATTERN, DIFFERENCE_SAMPLE, DIFFERENCE_SONG,
    DIFFERENCE_VOLUME_ENVELOPE, LIBRARY_VERSION, MOST_BYTES, NOTE_KEY_OFF, NOTE_NONE, NOTE_PITCH,
    PATTERN_VERSION,
};

/// The refusal numbers that an accepted module can have: a result that is longer than a module can be, an item that does not exist, and new
/// frames with an odd number of bytes.
pub const TOO_LONG: u64 = 1;
pub const NOT_THERE: u64 = 18;
pub const ODD_FRAMES: u64 = 19;

/// The number of a refusal, and its place.
#[derive(Clone, Copy, Debug, PartialEq, Eq)]
pub struct Refusal {
    pub number: u64,
    pub place: u64,
}

/// The record if the number is 0, else the refusal.
fn to_result<Record>(number: u64, place: u64, record: Record) -> Result<Record, Refusal> {
    match number {
        0 => Ok(record),
        number => Err(Refusal { number, place }),
    }
}

fn to_record<Record>(answer: RecordAnswer<Record>) -> Result<Record, Refusal> {
    to_result(answer.number, answer.place, answer.record)
}

pub fn check(module: &[u8]) -> Result<(), Refusal> {
    let answer = interface::check_module(module);
    to_result(answer.number, answer.place, ())
}

pub fn info(module: &[u8]) -> Result<Info, Refusal> {
    to_record(interface::info(module))
}

/// The number of rows of a pattern. Patterns are counted from 0.
pub fn rows(module: &[u8], pattern: usize) -> Result<u16, Refusal> {
    to_record(interface::rows(module, pattern))
}

/// A cell. Patterns and rows are counted from 0, tracks from 1.
pub fn cell(module: &[u8], pattern: usize, row: usize, track: usize) -> Result<Cell, Refusal> {
    to_record(interface::cell(module, pattern, row, track))
}

/// All cells of a pattern, six bytes each. `expected` is the number of cells.
pub fn cells(module: &[u8], pattern: usize, expected: usize) -> Result<Vec<u8>, Refusal> {
    filled(6 * expected, |out| interface::cells(module, pattern, out))
}

/// All records of the module. The summary has 60 bytes and no record is longer than its block, so the first output is long enough.
pub fn records(module: &[u8]) -> Result<Vec<u8>, Refusal> {
    filled(module.len() + 60, |out| interface::records(module, out))
}

/// The same in memory that can be used for another module afterwards.
pub fn records_in<'m>(memory: &'m mut Vec<u8>, module: &[u8]) -> Result<&'m [u8], Refusal> {
    let room = module.len() + 60;
    let length = fill_output(memory, room, |out| interface::records(module, out))?;
    Ok(&memory[..length])
}

/// The repacked module. It is never longer than the module, so the first output is long enough.
pub fn repack(module: &[u8]) -> Result<Vec<u8>, Refusal> {
    filled(module.len(), |out| interface::repack(module, out))
}

/// The module with a sample, counted from 1, replaced by 16-bit frames, and the number of loops that are cleared. At most the frames are
/// added to the module, and the result is not longer than a module can be, so the output is long enough.
pub fn replace(module: &[u8], sample: usize, frames: &[u8]) -> Result<(Vec<u8>, u64), Refusal> {
    let mut out = vec![0; MOST_BYTES.min(module.len() + frames.len())];
    let answer = interface::replace_sample(module, sample, frames, &mut out);
    let Replaced { length, cleared } = to_record(answer)?;
    out.truncate(length as usize);
    Ok((out, cleared))
}

/// The list of differences between two modules, `DIFFERENCE_BYTES` for each. Each difference is in some byte of one of the modules, and no
/// two are in the same byte, so the first output is long enough. Only the part of it that is written takes up memory.
pub fn compare(first: &[u8], second: &[u8]) -> Result<Vec<u8>, Refusal> {
    filled(DIFFERENCE_BYTES * (first.len() + second.len()), |out| {
        let answer = interface::compare(first, second, out);
        Answer {
            number: answer.number,
            place: answer.place,
            length: DIFFERENCE_BYTES as u64 * answer.record.entries,
        }
    })
}

/// Unpacks one row. The stream is that row alone, with its row end.
pub fn unpack_row(stream: &[u8], tracks: u64, cells: &mut [u8]) -> Result<(), Refusal> {
    let answer = interface::unpack_pattern(stream, 1, tracks, cells);
    to_result(answer.number, answer.place, ())
}

/// Checks a packed stream.
pub fn check_pattern(stream: &[u8], rows: u64, tracks: u64) -> Result<(), Refusal> {
    let answer = interface::check_pattern(stream, rows, tracks);
    to_result(answer.number, answer.place, ())
}

/// The bytes that a call writes.
fn filled(room: usize, call: impl Fn(&mut [u8]) -> Answer) -> Result<Vec<u8>, Refusal> {
    let mut out = Vec::new();
    let length = fill_output(&mut out, room, call)?;
    out.truncate(length);
    Ok(out)
}

/// Makes the output at least as long as `room`, and returns how many bytes the call writes to it. If it is too short, the call is repeated
/// with the length that it reports.
fn fill_output(
    out: &mut Vec<u8>,
    room: usize,
    call: impl Fn(&mut [u8]) -> Answer,
) -> Result<usize, Refusal> {
    if out.len() < room {
        *out = vec![0; room];
    }
    let mut answer = call(out);
    if answer.number == OUTPUT_TOO_SHORT {
        *out = vec![0; answer.place as usize];
        answer = call(out);
    }
    to_result(answer.number, answer.place, answer.length as usize)
}
