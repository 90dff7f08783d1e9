//! Reads a whole file or standard input: a module, or the frames of a sample.

use std::ffi::OsStr;
use std::fs::File;
use std::io::{self, Read};
use std::os::fd::AsFd;

use crate::fault::{advice, reason, Fault};
use crate::library::MOST_BYTES;
use crate::names;

/// The name that denotes standard input or standard output.
pub const STANDARD_STREAM: &str = "-";

/// The bytes of a module. Of a file longer than a module can be, only as many bytes as the library needs to refuse it.
pub fn read(file: &OsStr) -> Result<Vec<u8>, Fault> {
    read_up_to(file, |_| MOST_BYTES as u64 + 1)
}

/// The bytes of new frames. No module has room for more bytes than a module can have. Of a longer file only as many bytes are read as the
/// library needs to refuse it: an odd number if the length of the file is odd.
pub fn read_frames(file: &OsStr) -> Result<Vec<u8>, Fault> {
    read_up_to(file, |length| MOST_BYTES as u64 + 2 - length % 2)
}

/// The bytes of a file up to a limit. The limit is computed from the length of the file, which is 0 if it is not known.
fn read_up_to(file: &OsStr, limit: impl Fn(u64) -> u64) -> Result<Vec<u8>, Fault> {
    let read = if file == STANDARD_STREAM {
        // Read as a file: the standard library's stdin treats a closed standard input as an empty one.
        let opened = io::stdin().as_fd().try_clone_to_owned();
        opened.and_then(|opened| take(File::from(opened), 0, limit(0)))
    } else {
        File::open(file).and_then(|opened| {
            let length = opened.metadata().map_or(0, |about| about.len());
            take(opened, length, limit(length))
        })
    };
    read.map_err(|error| {
        let name = match file == STANDARD_STREAM {
            true => "standard input".to_string(),
            false => names::file(file),
        };
        Fault::failed(format!(
            "{name}: cannot be read: {}: {}",
            reason(&error),
            advice(&error)
        ))
    })
}

fn take(from: impl Read, expected: u64, limit: u64) -> io::Result<Vec<u8>> {
    let mut bytes = Vec::with_capacity(expected.min(limit) as usize);
    from.take(limit).read_to_end(&mut bytes)?;
    Ok(bytes)
}
