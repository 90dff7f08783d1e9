//! Reads the cases of a conformance program from standard input and prints the expected output of the program.

#![forbid(unsafe_code)]

use std::io::{Read, Write};

fn main() -> std::io::Result<()> {
    let mut corpus = Vec::new();
    std::io::stdin().read_to_end(&mut corpus)?;
    std::io::stdout().write_all(reference::expect::expected(&corpus).as_bytes())
}
