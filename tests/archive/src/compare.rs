//! Compares a library, given as its calls, with the reference.

use std::fmt::Debug;

use interface::{Answer, ModuleAnswer};
use reference::corpus::Case;
use reference::expect::MOST_ROOM;
use reference::generate::Random;
use reference::refusal::Refusal;
use reference::{module, pattern};

/// The number of guard bytes before and after an output.
const GUARD: usize = 64;

/// An output in the middle of a larger buffer. Every byte is preset to a value that depends on its place, so a byte that is moved, cleared
/// or copied is detected.
pub struct GuardedOutput {
    pub bytes: Vec<u8>,
    start: usize,
    room: usize,
}

impl GuardedOutput {
    pub fn new(room: usize) -> GuardedOutput {
        GuardedOutput::shifted(0, room)
    }

    /// The same, moved by `shift` bytes for another alignment.
    pub fn shifted(shift: usize, room: usize) -> GuardedOutput {
        let start = GUARD + shift;
        let bytes = (0..start + room + GUARD).map(filler).collect();
        GuardedOutput { bytes, start, room }
    }

    /// The part that is passed to the call.
    pub fn slice(&mut self) -> &mut [u8] {
        &mut self.bytes[self.start..self.start + self.room]
    }
}

fn filler(place: usize) -> u8 {
    (place % 251) as u8 ^ 0xA5
}

/// A library under comparison.
#[derive(Clone, Copy)]
pub struct Library {
    pub check: fn(&[u8], u64, u64) -> Answer,
    pub unpack: fn(&[u8], u64, u64, &mut GuardedOutput) -> Answer,
    pub pack: fn(&[u8], u64, u64, &mut GuardedOutput) -> Answer,
    pub check_module: fn(&[u8]) -> ModuleAnswer,
}

/// libpattern.a and libdbm0.a.
pub const ARCHIVE: Library = Library {
    check: interface::check_pattern,
    unpack: |stream, rows, tracks, output| {
        interface::unpack_pattern(stream, rows, tracks, output.slice())
    },
    pack: |cells, rows, tracks, output| {
        interface::pack_pattern(cells, rows, tracks, output.slice())
    },
    check_module: interface::check_module,
};

/// The reference itself.
pub const REFERENCE: Library = Library {
    check: |stream, rows, tracks| answer(pattern::check(stream, rows, tracks).map(|()| 0)),
    unpack: |stream, rows, tracks, output| {
        answer(pattern::unpack(stream, rows, tracks, output.slice()))
    },
    pack: |cells, rows, tracks, output| answer(pattern::pack(cells, rows, tracks, output.slice())),
    check_module: |module| module_answer(module::check(module)),
};

/// The answer of the C interface for a result of the reference.
pub fn answer(result: Result<u64, Refusal>) -> Answer {
    match result {
        Ok(length) => Answer::written(length as usize),
        Err(Refusal { number, place }) => Answer::refused(number, place as usize),
    }
}

/// The answer of the C interface for the reference's check of a module.
pub fn module_answer(result: Result<(), Refusal>) -> ModuleAnswer {
    match result {
        Ok(()) => ModuleAnswer {
            number: 0,
            place: 0,
        },
        Err(Refusal { number, place }) => ModuleAnswer { number, place },
    }
}

/// Compares a case of the corpus. The archives have no call for a case that shows a cell. For records, for samples to replace and for modules
/// to compare only the modules are checked; `records::all` compares the queries, and replacing.rs and comparing.rs compare the other calls.
pub fn case(library: Library, case: &Case) -> Result<(), String> {
    let output_length = |room: u32| room.min(MOST_ROOM) as usize;
    match case {
        Case::Stream {
            rows,
            tracks,
            room,
            stream,
            ..
        } => self::stream(library, stream, *rows, *tracks, output_length(*room)),
        Case::Cells {
            rows,
            tracks,
            room,
            cells,
        } => self::cells(library, cells, *rows, *tracks, output_length(*room)),
        Case::Shown(_) => Ok(()),
        Case::Module { module, .. }
        | Case::Records { module, .. }
        | Case::Replacement { module, .. } => self::module(library, module),
        Case::Comparison { first, second, .. } => {
            self::module(library, first)?;
            self::module(library, second)
        }
    }
}

/// Checks and unpacks a stream into an output of this length. The error message has the difference and the whole case.
pub fn stream(
    library: Library,
    stream: &[u8],
    rows: u64,
    tracks: u64,
    room: usize,
) -> Result<(), String> {
    let report = |what: String| {
        format!("{what}\nstream {stream:02x?}, {rows} rows, {tracks} tracks, room {room}")
    };
    let is = (library.check)(stream, rows, tracks);
    let expected = (REFERENCE.check)(stream, rows, tracks);
    same_answer("check", is, expected).map_err(report)?;
    let unpack =
        |of: Library| move |output: &mut GuardedOutput| (of.unpack)(stream, rows, tracks, output);
    same_output("unpack", room, unpack(library), unpack(REFERENCE)).map_err(report)
}

/// Packs cells into an output of this length. The error message has the difference and the whole case.
pub fn cells(
    library: Library,
    cells: &[u8],
    rows: u64,
    tracks: u64,
    room: usize,
) -> Result<(), String> {
    let report = |what: String| {
        format!("{what}\ncells {cells:02x?}, {rows} rows, {tracks} tracks, room {room}")
    };
    let pack =
        |of: Library| move |output: &mut GuardedOutput| (of.pack)(cells, rows, tracks, output);
    same_output("pack", room, pack(library), pack(REFERENCE)).map_err(report)
}

/// Packing and unpacking returns the same cells, and the packed length equals the needed length that an empty output reports.
pub fn round_trip(library: Library, cells: &[u8], rows: u64, tracks: u64) -> Result<(), String> {
    let report = |what: &str| format!("{what}\ncells {cells:02x?}, {rows} rows, {tracks} tracks");
    let empty = (library.pack)(cells, rows, tracks, &mut GuardedOutput::new(0));
    let mut output = GuardedOutput::new((rows * (1 + 8 * tracks)) as usize);
    let packed = (library.pack)(cells, rows, tracks, &mut output);
    if packed.number != 0 {
        return Err(report("pack refuses in the most room that it can need"));
    }
    if packed.length != empty.place {
        return Err(report("pack writes another length than it reports"));
    }
    let stream = output.slice()[..packed.length as usize].to_vec();
    if (library.check)(&stream, rows, tracks) != Answer::written(0) {
        return Err(report("the packed stream does not pass the check"));
    }
    let mut output = GuardedOutput::new(cells.len());
    let unpacked = (library.unpack)(&stream, rows, tracks, &mut output);
    if unpacked != Answer::written(cells.len()) || output.slice() != cells {
        return Err(report("unpacking gives other cells"));
    }
    Ok(())
}

/// Checks a module. The error message has the difference, and the whole module if it is short.
pub fn module(library: Library, module: &[u8]) -> Result<(), String> {
    let report = |what: String| with_module(what, module);
    let is = (library.check_module)(module);
    if is.place > module.len() as u64 {
        return Err(report(format!("check_module gives {is:?}, past the end")));
    }
    let expected = (REFERENCE.check_module)(module);
    same_answer("check_module", is, expected).map_err(report)
}

/// Two calls with outputs of the same length return the same answer, and leave the same bytes in the output and on both sides of it.
pub fn same_output<A: PartialEq + Debug>(
    call: &str,
    room: usize,
    is: impl FnOnce(&mut GuardedOutput) -> A,
    expected: impl FnOnce(&mut GuardedOutput) -> A,
) -> Result<(), String> {
    let (mut is_output, mut expected_output) = (GuardedOutput::new(room), GuardedOutput::new(room));
    same_answer(call, is(&mut is_output), expected(&mut expected_output))?;
    same_bytes(call, &is_output, &expected_output)
}

/// Lengths to test for an output: 0, 1, shorter, longer, and all around the needed length and one other length.
pub fn rooms(needed: usize, other: usize, random: &mut Random) -> Vec<usize> {
    let short = random.below(needed as u64 + 1) as usize;
    let more = 3 + random.below(100) as usize;
    let mut rooms = vec![0, 1, short, needed + more];
    for length in [needed, other] {
        rooms.extend(length.saturating_sub(2)..=length + 2);
    }
    rooms.sort_unstable();
    rooms.dedup();
    rooms
}

/// The difference, and the whole module if it is short.
pub fn with_module(what: String, module: &[u8]) -> String {
    match module.len() {
        0..=4096 => format!("{what}\nmodule {module:02x?}"),
        length => format!("{what}\nmodule of {length} bytes"),
    }
}

pub fn same_answer<A: PartialEq + Debug>(call: &str, is: A, expected: A) -> Result<(), String> {
    if is == expected {
        return Ok(());
    }
    Err(format!("{call} gives {is:?}, expected {expected:?}"))
}

/// The outputs and the guards on both sides are equal.
pub fn same_bytes(call: &str, is: &GuardedOutput, expected: &GuardedOutput) -> Result<(), String> {
    let differs = is
        .bytes
        .iter()
        .zip(&expected.bytes)
        .position(|(is, expected)| is != expected);
    let Some(place) = differs else {
        return Ok(());
    };
    let (is_byte, expected_byte) = (is.bytes[place], expected.bytes[place]);
    let offset = place as i64 - is.start as i64;
    Err(format!(
        "{call} leaves {is_byte:02x} at {offset} of its output, expected {expected_byte:02x}"
    ))
}
