//! The output of the listing program.

use crate::module::read;
use crate::pattern::put;
use crate::refusal::Refusal;

/// The listing program reads at most this many bytes.
pub const MOST_INPUT: usize = 65_536;

/// The lines for a module: its refusal, or seven lines of numbers.
pub fn lines(module: &[u8]) -> String {
    let read = match read(module) {
        Ok(read) => read,
        Err(Refusal { number, place }) => return format!("refused {number} at {place}\n"),
    };
    // Each half of both bytes is a decimal digit.
    let (version, revision) = (read.header.version, read.header.revision);
    let info = read.info;
    [
        format!("version {version:x}.{revision:02x}\n"),
        format!("instruments {}\n", info.instruments),
        format!("samples {}\n", info.samples),
        format!("songs {}\n", info.songs),
        format!("patterns {}\n", info.patterns),
        format!("tracks {}\n", info.tracks),
        format!("accepted {}\n", module.len()),
    ]
    .concat()
}

/// Writes the lines for a module into an output and returns their length. Refusal: 17.
pub fn write(module: &[u8], out: &mut [u8]) -> Result<u64, Refusal> {
    put(lines(module).as_bytes(), out)
}

/// The output of the program for an input.
pub fn listing(input: &[u8]) -> String {
    if input.len() > MOST_INPUT {
        "input too big\n".to_string()
    } else {
        lines(input)
    }
}
