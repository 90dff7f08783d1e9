//! Whole modules.
//!
//! First everything is collected: the chunks, then the blocks of each. Then the rules are checked. The data of samples is never read.

use crate::blocks::{all, envelopes, Envelope, Instrument, Pattern, Sample, Song};
use crate::chunks::{Chunk, Chunks, Header, Info, Name};
use crate::part::Part;
use crate::refusal::{wrong_blocks, Refusal};
use crate::rules;

/// A module with all its blocks. Without their chunk the list of envelopes is empty.
#[derive(Clone, Debug, PartialEq, Eq)]
pub struct Module<'a> {
    pub header: Header,
    pub info: Info,
    pub chunks: Vec<Chunk<'a>>,
    pub name: Option<&'a [u8]>,
    pub songs: Vec<Song<'a>>,
    pub instruments: Vec<Instrument<'a>>,
    pub patterns: Vec<Pattern<'a>>,
    pub samples: Vec<Sample<'a>>,
    pub volume_envelopes: Vec<Envelope<'a>>,
    pub panning_envelopes: Vec<Envelope<'a>>,
}

impl<'a> Module<'a> {
    /// A sample by its number. Samples are counted from 1.
    pub fn sample(&self, number: u64) -> Option<&Sample<'a>> {
        let index = usize::try_from(number).ok()?.checked_sub(1)?;
        self.samples.get(index)
    }

    /// The blocks of each chunk. Refusals: 11 for SONG, INST, PATT, SMPL, VENV, PENV, in this order, wherever they are.
    fn collect(read: Chunks<'a>) -> Result<Module<'a>, Refusal> {
        let info = read.info;
        Ok(Module {
            header: read.header,
            info,
            name: read.find(b"NAME").map(|chunk| chunk.data.bytes),
            songs: blocks(&read, b"SONG", |data| all(data, info.songs, Song::take))?,
            instruments: blocks(&read, b"INST", |data| {
                all(data, info.instruments, Instrument::take)
            })?,
            patterns: blocks(&read, b"PATT", |data| {
                all(data, info.patterns, Pattern::take)
            })?,
            samples: blocks(&read, b"SMPL", |data| all(data, info.samples, Sample::take))?,
            volume_envelopes: blocks(&read, b"VENV", envelopes)?,
            panning_envelopes: blocks(&read, b"PENV", envelopes)?,
            chunks: read.chunks,
        })
    }
}

/// The blocks of the chunk with this name. The list is empty if the chunk is missing.
fn blocks<'a, Block>(
    read: &Chunks<'a>,
    name: &Name,
    of: impl Fn(Part<'a>) -> Option<Vec<Block>>,
) -> Result<Vec<Block>, Refusal> {
    match read.find(name) {
        Some(chunk) => of(chunk.data).ok_or(wrong_blocks(chunk.place)),
        None => Ok(Vec::new()),
    }
}

/// An accepted module, parsed. Refusals: 1, 2, 3; from the beginning 4, 5, 6, 7, 9, 10; then 8, 11, 12 and 13, 14, 15.
pub fn read(module: &[u8]) -> Result<Module<'_>, Refusal> {
    let module = Module::collect(Chunks::read(module)?)?;
    let refusal = rules::broken(&module).next();
    match refusal {
        Some(refusal) => Err(refusal),
        None => Ok(module),
    }
}

/// Refusals: those of `read`.
pub fn check(module: &[u8]) -> Result<(), Refusal> {
    read(module).map(drop)
}
