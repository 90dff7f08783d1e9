//! A safe interface to libpattern.a (include/dbm0_pattern.h) and libdbm0.a (include/dbm0.h). Each C function has a Rust function of the
//! same name without `dbm0_`, which takes slices. The command line, the tests of the archives and the benchmark use it.

mod answers;

pub use answers::{
    Answer, Cell, Compared, Envelope, Frames, Info, Instrument, ModuleAnswer, Name, RecordAnswer,
    Replaced, Sample, Song, Version,
};

/// The version of the library's interface: `DBM0_VERSION` of include/dbm0.h.
pub const LIBRARY_VERSION: &str = env!("DBM0_VERSION");

/// The version of the interface for packed rows: `DBM0_PATTERN_VERSION` of include/dbm0_pattern.h.
pub const PATTERN_VERSION: &str = env!("DBM0_PATTERN_VERSION");

/// The maximum length of a module in bytes. A longer module is refused.
pub const MOST_BYTES: usize = 16_777_216;

/// The refusal number for an output that is shorter than needed. Its place is the needed length.
pub const OUTPUT_TOO_SHORT: u64 = 17;

/// The bytes of an entry in the list of differences, and the kinds of differences.
pub const DIFFERENCE_BYTES: usize = 10;
pub const DIFFERENCE_NAME: u16 = 1;
pub const DIFFERENCE_INFO: u16 = 2;
pub const DIFFERENCE_SONG: u16 = 3;
pub const DIFFERENCE_INSTRUMENT: u16 = 4;
pub const DIFFERENCE_VOLUME_ENVELOPE: u16 = 5;
pub const DIFFERENCE_PANNING_ENVELOPE: u16 = 6;
pub const DIFFERENCE_SAMPLE: u16 = 7;
pub const DIFFERENCE_PATTERN: u16 = 8;

/// The kinds of note in a cell.
pub const NOTE_NONE: u8 = 0;
pub const NOTE_KEY_OFF: u8 = 1;
pub const NOTE_PITCH: u8 = 2;
pub const NOTE_UNKNOWN: u8 = 3;

extern "C" {
    fn dbm0_check_pattern(stream: *const u8, length: usize, rows: u64, tracks: u64) -> Answer;
    fn dbm0_unpack_pattern(
        stream: *const u8,
        length: usize,
        rows: u64,
        tracks: u64,
        out: *mut u8,
        out_length: usize,
    ) -> Answer;
    fn dbm0_pack_pattern(
        cells: *const u8,
        length: usize,
        rows: u64,
        tracks: u64,
        out: *mut u8,
        out_length: usize,
    ) -> Answer;
}

extern "C" {
    fn dbm0_check_module(module: *const u8, length: usize) -> ModuleAnswer;
    fn dbm0_version(module: *const u8, length: usize) -> RecordAnswer<Version>;
    fn dbm0_name(module: *const u8, length: usize) -> RecordAnswer<Name>;
    fn dbm0_info(module: *const u8, length: usize) -> RecordAnswer<Info>;
    fn dbm0_song(module: *const u8, length: usize, song: usize) -> RecordAnswer<Song>;
    fn dbm0_entry(module: *const u8, length: usize, song: usize, entry: usize)
        -> RecordAnswer<u16>;
    fn dbm0_playlist(
        module: *const u8,
        length: usize,
        song: usize,
        out: *mut u8,
        out_length: usize,
    ) -> Answer;
    fn dbm0_instrument(
        module: *const u8,
        length: usize,
        instrument: usize,
    ) -> RecordAnswer<Instrument>;
    fn dbm0_volume_envelopes(module: *const u8, length: usize) -> RecordAnswer<u16>;
    fn dbm0_panning_envelopes(module: *const u8, length: usize) -> RecordAnswer<u16>;
    fn dbm0_volume_envelope(
        module: *const u8,
        length: usize,
        envelope: usize,
    ) -> RecordAnswer<Envelope>;
    fn dbm0_panning_envelope(
        module: *const u8,
        length: usize,
        envelope: usize,
    ) -> RecordAnswer<Envelope>;
    fn dbm0_rows(module: *const u8, length: usize, pattern: usize) -> RecordAnswer<u16>;
    fn dbm0_cell(
        module: *const u8,
        length: usize,
        pattern: usize,
        row: usize,
        track: usize,
    ) -> RecordAnswer<Cell>;
    fn dbm0_cells(
        module: *const u8,
        length: usize,
        pattern: usize,
        out: *mut u8,
        out_length: usize,
    ) -> Answer;
    fn dbm0_sample(module: *const u8, length: usize, sample: usize) -> RecordAnswer<Sample>;
    fn dbm0_frames(module: *const u8, length: usize, sample: usize) -> RecordAnswer<Frames>;
    fn dbm0_frame(
        module: *const u8,
        length: usize,
        sample: usize,
        frame: usize,
    ) -> RecordAnswer<i16>;
    fn dbm0_all_frames(
        module: *const u8,
        length: usize,
        sample: usize,
        out: *mut u8,
        out_length: usize,
    ) -> Answer;
    fn dbm0_records(module: *const u8, length: usize, out: *mut u8, out_length: usize) -> Answer;
    fn dbm0_repack(module: *const u8, length: usize, out: *mut u8, out_length: usize) -> Answer;
    fn dbm0_replace_sample(
        module: *const u8,
        length: usize,
        sample: usize,
        frames: *const u8,
        frames_length: usize,
        out: *mut u8,
        out_length: usize,
    ) -> RecordAnswer<Replaced>;
    fn dbm0_compare(
        first: *const u8,
        first_length: usize,
        second: *const u8,
        second_length: usize,
        out: *mut u8,
        out_length: usize,
    ) -> RecordAnswer<Compared>;
}

// All calls below are sound for the same reasons. Each pointer and length come from a slice that lives through the call, and an output is a
// `&mut` slice, which overlaps no other. The answers are laid out as in the headers.

pub fn check_pattern(stream: &[u8], rows: u64, tracks: u64) -> Answer {
    unsafe { dbm0_check_pattern(stream.as_ptr(), stream.len(), rows, tracks) }
}

pub fn unpack_pattern(stream: &[u8], rows: u64, tracks: u64, out: &mut [u8]) -> Answer {
    let (start, length) = (out.as_mut_ptr(), out.len());
    unsafe { dbm0_unpack_pattern(stream.as_ptr(), stream.len(), rows, tracks, start, length) }
}

pub fn pack_pattern(cells: &[u8], rows: u64, tracks: u64, out: &mut [u8]) -> Answer {
    let (start, length) = (out.as_mut_ptr(), out.len());
    unsafe { dbm0_pack_pattern(cells.as_ptr(), cells.len(), rows, tracks, start, length) }
}

pub fn check_module(module: &[u8]) -> ModuleAnswer {
    unsafe { dbm0_check_module(module.as_ptr(), module.len()) }
}

/// Checks a module of no bytes at NULL.
pub fn check_module_at_null() -> ModuleAnswer {
    // The header allows NULL if the length is 0.
    unsafe { dbm0_check_module(std::ptr::null(), 0) }
}

pub fn version(module: &[u8]) -> RecordAnswer<Version> {
    unsafe { dbm0_version(module.as_ptr(), module.len()) }
}

pub fn name(module: &[u8]) -> RecordAnswer<Name> {
    unsafe { dbm0_name(module.as_ptr(), module.len()) }
}

pub fn info(module: &[u8]) -> RecordAnswer<Info> {
    unsafe { dbm0_info(module.as_ptr(), module.len()) }
}

pub fn song(module: &[u8], song: usize) -> RecordAnswer<Song> {
    unsafe { dbm0_song(module.as_ptr(), module.len(), song) }
}

pub fn entry(module: &[u8], song: usize, entry: usize) -> RecordAnswer<u16> {
    unsafe { dbm0_entry(module.as_ptr(), module.len(), song, entry) }
}

pub fn playlist(module: &[u8], song: usize, out: &mut [u8]) -> Answer {
    let (start, length) = (out.as_mut_ptr(), out.len());
    unsafe { dbm0_playlist(module.as_ptr(), module.len(), song, start, length) }
}

pub fn instrument(module: &[u8], instrument: usize) -> RecordAnswer<Instrument> {
    unsafe { dbm0_instrument(module.as_ptr(), module.len(), instrument) }
}

pub fn volume_envelopes(module: &[u8]) -> RecordAnswer<u16> {
    unsafe { dbm0_volume_envelopes(module.as_ptr(), module.len()) }
}

pub fn panning_envelopes(module: &[u8]) -> RecordAnswer<u16> {
    unsafe { dbm0_panning_envelopes(module.as_ptr(), module.len()) }
}

pub fn volume_envelope(module: &[u8], envelope: usize) -> RecordAnswer<Envelope> {
    unsafe { dbm0_volume_envelope(module.as_ptr(), module.len(), envelope) }
}

pub fn panning_envelope(module: &[u8], envelope: usize) -> RecordAnswer<Envelope> {
    unsafe { dbm0_panning_envelope(module.as_ptr(), module.len(), envelope) }
}

pub fn rows(module: &[u8], pattern: usize) -> RecordAnswer<u16> {
    unsafe { dbm0_rows(module.as_ptr(), module.len(), pattern) }
}

pub fn cell(module: &[u8], pattern: usize, row: usize, track: usize) -> RecordAnswer<Cell> {
    unsafe { dbm0_cell(module.as_ptr(), module.len(), pattern, row, track) }
}

pub fn cells(module: &[u8], pattern: usize, out: &mut [u8]) -> Answer {
    let (start, length) = (out.as_mut_ptr(), out.len());
    unsafe { dbm0_cells(module.as_ptr(), module.len(), pattern, start, length) }
}

pub fn sample(module: &[u8], sample: usize) -> RecordAnswer<Sample> {
    unsafe { dbm0_sample(module.as_ptr(), module.len(), sample) }
}

pub fn frames(module: &[u8], sample: usize) -> RecordAnswer<Frames> {
    unsafe { dbm0_frames(module.as_ptr(), module.len(), sample) }
}

pub fn frame(module: &[u8], sample: usize, frame: usize) -> RecordAnswer<i16> {
    unsafe { dbm0_frame(module.as_ptr(), module.len(), sample, frame) }
}

pub fn all_frames(module: &[u8], sample: usize, out: &mut [u8]) -> Answer {
    let (start, length) = (out.as_mut_ptr(), out.len());
    unsafe { dbm0_all_frames(module.as_ptr(), module.len(), sample, start, length) }
}

pub fn records(module: &[u8], out: &mut [u8]) -> Answer {
    let (start, length) = (out.as_mut_ptr(), out.len());
    unsafe { dbm0_records(module.as_ptr(), module.len(), start, length) }
}

/// Writes the records of a module into an output of no bytes at NULL.
pub fn records_into_null(module: &[u8]) -> Answer {
    // The header allows NULL if the length is 0.
    unsafe { dbm0_records(module.as_ptr(), module.len(), std::ptr::null_mut(), 0) }
}

/// Writes the records of a module of no bytes at NULL.
pub fn records_of_null(out: &mut [u8]) -> Answer {
    let (start, length) = (out.as_mut_ptr(), out.len());
    // The header allows NULL if the length is 0.
    unsafe { dbm0_records(std::ptr::null(), 0, start, length) }
}

pub fn repack(module: &[u8], out: &mut [u8]) -> Answer {
    let (start, length) = (out.as_mut_ptr(), out.len());
    unsafe { dbm0_repack(module.as_ptr(), module.len(), start, length) }
}

/// Repacks a module into an output of no bytes at NULL.
pub fn repack_into_null(module: &[u8]) -> Answer {
    // The header allows NULL if the length is 0.
    unsafe { dbm0_repack(module.as_ptr(), module.len(), std::ptr::null_mut(), 0) }
}

/// Repacks a module of no bytes at NULL.
pub fn repack_null(out: &mut [u8]) -> Answer {
    let (start, length) = (out.as_mut_ptr(), out.len());
    // The header allows NULL if the length is 0.
    unsafe { dbm0_repack(std::ptr::null(), 0, start, length) }
}

pub fn replace_sample(
    module: &[u8],
    sample: usize,
    frames: &[u8],
    out: &mut [u8],
) -> RecordAnswer<Replaced> {
    let (start, length) = (out.as_mut_ptr(), out.len());
    unsafe {
        dbm0_replace_sample(
            module.as_ptr(),
            module.len(),
            sample,
            frames.as_ptr(),
            frames.len(),
            start,
            length,
        )
    }
}

/// Replaces a sample in an output of no bytes at NULL.
pub fn replace_sample_into_null(
    module: &[u8],
    sample: usize,
    frames: &[u8],
) -> RecordAnswer<Replaced> {
    let (first_frame, frames_length) = (frames.as_ptr(), frames.len());
    let null = std::ptr::null_mut();
    // The header allows NULL if the length is 0.
    unsafe {
        dbm0_replace_sample(
            module.as_ptr(),
            module.len(),
            sample,
            first_frame,
            frames_length,
            null,
            0,
        )
    }
}

/// Replaces a sample by frames of no bytes at NULL.
pub fn replace_sample_by_null(
    module: &[u8],
    sample: usize,
    out: &mut [u8],
) -> RecordAnswer<Replaced> {
    let (start, length) = (out.as_mut_ptr(), out.len());
    let null = std::ptr::null();
    // The header allows NULL if the length is 0.
    unsafe {
        dbm0_replace_sample(
            module.as_ptr(),
            module.len(),
            sample,
            null,
            0,
            start,
            length,
        )
    }
}

/// Replaces a sample of a module of no bytes at NULL.
pub fn replace_sample_of_null(
    sample: usize,
    frames: &[u8],
    out: &mut [u8],
) -> RecordAnswer<Replaced> {
    let (start, length) = (out.as_mut_ptr(), out.len());
    let (first_frame, frames_length) = (frames.as_ptr(), frames.len());
    // The header allows NULL if the length is 0.
    unsafe {
        dbm0_replace_sample(
            std::ptr::null(),
            0,
            sample,
            first_frame,
            frames_length,
            start,
            length,
        )
    }
}

pub fn compare(first: &[u8], second: &[u8], out: &mut [u8]) -> RecordAnswer<Compared> {
    let (start, length) = (out.as_mut_ptr(), out.len());
    unsafe {
        dbm0_compare(
            first.as_ptr(),
            first.len(),
            second.as_ptr(),
            second.len(),
            start,
            length,
        )
    }
}

/// Compares two modules with an output of no bytes at NULL.
pub fn compare_into_null(first: &[u8], second: &[u8]) -> RecordAnswer<Compared> {
    let null = std::ptr::null_mut();
    // The header allows NULL if the length is 0.
    unsafe {
        dbm0_compare(
            first.as_ptr(),
            first.len(),
            second.as_ptr(),
            second.len(),
            null,
            0,
        )
    }
}

/// Compares a module of no bytes at NULL with another module.
pub fn compare_null_with(second: &[u8], out: &mut [u8]) -> RecordAnswer<Compared> {
    let (start, length) = (out.as_mut_ptr(), out.len());
    let null = std::ptr::null();
    // The header allows NULL if the length is 0.
    unsafe { dbm0_compare(null, 0, second.as_ptr(), second.len(), start, length) }
}

/// Compares a module with a module of no bytes at NULL.
pub fn compare_with_null(first: &[u8], out: &mut [u8]) -> RecordAnswer<Compared> {
    let (start, length) = (out.as_mut_ptr(), out.len());
    let null = std::ptr::null();
    // The header allows NULL if the length is 0.
    unsafe { dbm0_compare(first.as_ptr(), first.len(), null, 0, start, length) }
}
