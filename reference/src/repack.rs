//! Repacks a whole module.
//!
//! The module is parsed and rewritten, chunk by chunk in the same order. Only the data of PATT is made from what was parsed: the rows of
//! each pattern and the packer's stream for its cells.

use crate::blocks::Pattern;
use crate::module::read;
use crate::pattern::{self, put};
use crate::refusal::Refusal;

/// Writes the repacked module and returns its length. Refusals: the module's own, 17.
pub fn repack(module: &[u8], out: &mut [u8]) -> Result<u64, Refusal> {
    put(&repacked(module)?, out)
}

/// The bytes of the repacked module. Refusals: the module's own.
fn repacked(module: &[u8]) -> Result<Vec<u8>, Refusal> {
    let read = read(module)?;
    let mut bytes = module[..8].to_vec();
    for chunk in &read.chunks {
        let data = match &chunk.name {
            b"PATT" => patterns(&read.patterns, read.info.tracks),
            _ => chunk.data.bytes.to_vec(),
        };
        bytes.extend(chunk.name);
        bytes.extend((data.len() as u32).to_be_bytes());
        bytes.extend(data);
    }
    Ok(bytes)
}

/// The data of PATT: each pattern with the packer's stream.
fn patterns(patterns: &[Pattern], tracks: u64) -> Vec<u8> {
    let mut data = Vec::new();
    for pattern in patterns {
        let stream = packed(pattern, tracks);
        data.extend((pattern.rows as u16).to_be_bytes());
        data.extend((stream.len() as u32).to_be_bytes());
        data.extend(&stream);
        if stream.len() % 2 == 1 {
            data.push(0);
        }
    }
    data
}

/// The packer's stream for a pattern's cells. It is not longer than the stream that was read.
fn packed(pattern: &Pattern, tracks: u64) -> Vec<u8> {
    let mut stream = vec![0; pattern.stream.len()];
    let length = pattern::repack(pattern.stream, pattern.rows, tracks, &mut stream)
        .expect("the stream was checked, and the packer's is no longer");
    stream.truncate(length as usize);
    stream
}
