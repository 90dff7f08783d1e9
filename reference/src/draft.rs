//! Writes modules, valid or invalid.
//!
//! A `Tune` describes a module by its records. It is converted to a `Draft`, which describes a module by its chunks and can contain any
//! fault. Nothing here reads a module, and the reader does not use this code.

use crate::chunks::Name;

/// A song: its name and its playlist.
#[derive(Clone, Debug, Default, PartialEq, Eq)]
pub struct Song {
    pub name: Vec<u8>,
    pub playlist: Vec<u16>,
}

#[derive(Clone, Debug, Default, PartialEq, Eq)]
pub struct Instrument {
    pub name: Vec<u8>,
    pub sample: u16,
    pub volume: u16,
    pub rate: u32,
    pub loop_start: u32,
    pub loop_length: u32,
    pub panning: i16,
    pub flags: u16,
}

/// A pattern: its rows, its packed stream, and the filler that follows an odd stream.
#[derive(Clone, Debug, Default, PartialEq, Eq)]
pub struct Pattern {
    pub rows: u16,
    pub stream: Vec<u8>,
    pub filler: u8,
}

/// A sample: its flags, the number of its frames, and their bytes.
#[derive(Clone, Debug, Default, PartialEq, Eq)]
pub struct Sample {
    pub flags: u32,
    pub frames: u32,
    pub data: Vec<u8>,
}

/// An envelope. A point is a position and a value. Points that are not given are zeros.
#[derive(Clone, Debug, Default, PartialEq, Eq)]
pub struct Envelope {
    pub instrument: u16,
    pub flags: u8,
    pub sections: u8,
    pub first_sustain: u8,
    pub loop_first: u8,
    pub loop_last: u8,
    pub second_sustain: u8,
    pub points: Vec<(u16, i16)>,
}

/// A module by its records. The counts in INFO and of the envelopes are the lengths of the lists.
#[derive(Clone, Debug, PartialEq, Eq)]
pub struct Tune {
    pub version: u8,
    pub revision: u8,
    pub reserved: [u8; 2],
    pub tracks: u16,
    pub name: Option<Vec<u8>>,
    pub songs: Vec<Song>,
    pub instruments: Vec<Instrument>,
    pub patterns: Vec<Pattern>,
    pub samples: Vec<Sample>,
    pub volume_envelopes: Option<Vec<Envelope>>,
    pub panning_envelopes: Option<Vec<Envelope>>,
}

impl Default for Tune {
    /// The smallest module: version 3.00, 4 tracks and nothing else.
    fn default() -> Tune {
        Tune {
            version: 3,
            revision: 0,
            reserved: [0; 2],
            tracks: 4,
            name: None,
            songs: Vec::new(),
            instruments: Vec::new(),
            patterns: Vec::new(),
            samples: Vec::new(),
            volume_envelopes: None,
            panning_envelopes: None,
        }
    }
}

impl Song {
    pub fn bytes(&self) -> Vec<u8> {
        let mut bytes = padded(&self.name, 44);
        bytes.extend((self.playlist.len() as u16).to_be_bytes());
        bytes.extend(self.playlist.iter().flat_map(|entry| entry.to_be_bytes()));
        bytes
    }
}

impl Instrument {
    pub fn bytes(&self) -> Vec<u8> {
        let mut bytes = padded(&self.name, 30);
        bytes.extend(self.sample.to_be_bytes());
        bytes.extend(self.volume.to_be_bytes());
        bytes.extend(self.rate.to_be_bytes());
        bytes.extend(self.loop_start.to_be_bytes());
        bytes.extend(self.loop_length.to_be_bytes());
        bytes.extend(self.panning.to_be_bytes());
        bytes.extend(self.flags.to_be_bytes());
        bytes
    }
}

impl Pattern {
    /// A pattern with filler 0.
    pub fn new(rows: u16, stream: &[u8]) -> Pattern {
        Pattern {
            rows,
            stream: stream.to_vec(),
            filler: 0,
        }
    }

    pub fn bytes(&self) -> Vec<u8> {
        let mut bytes = self.rows.to_be_bytes().to_vec();
        bytes.extend((self.stream.len() as u32).to_be_bytes());
        bytes.extend(&self.stream);
        if self.stream.len() % 2 == 1 {
            bytes.push(self.filler);
        }
        bytes
    }
}

impl Sample {
    /// A sample with frames of `frame_bytes` bytes, which is also the value of the flags.
    pub fn new(frame_bytes: u32, data: &[u8]) -> Sample {
        Sample {
            flags: frame_bytes,
            frames: data.len() as u32 / frame_bytes,
            data: data.to_vec(),
        }
    }

    pub fn bytes(&self) -> Vec<u8> {
        let mut bytes = self.flags.to_be_bytes().to_vec();
        bytes.extend(self.frames.to_be_bytes());
        bytes.extend(&self.data);
        bytes
    }
}

impl Envelope {
    pub fn bytes(&self) -> Vec<u8> {
        let mut bytes = self.instrument.to_be_bytes().to_vec();
        bytes.extend([
            self.flags,
            self.sections,
            self.first_sustain,
            self.loop_first,
            self.loop_last,
            self.second_sustain,
        ]);
        for (position, value) in &self.points {
            bytes.extend(position.to_be_bytes());
            bytes.extend(value.to_be_bytes());
        }
        padded(&bytes, 136)
    }
}

/// The bytes, padded with zeros to a length.
fn padded(bytes: &[u8], length: usize) -> Vec<u8> {
    assert!(bytes.len() <= length, "{} bytes of {length}", bytes.len());
    let mut bytes = bytes.to_vec();
    bytes.resize(length, 0);
    bytes
}

/// A chunk to write. Its header has the length of the data, or another length.
#[derive(Clone, Debug, PartialEq, Eq)]
pub struct Chunk {
    pub name: Name,
    pub data: Vec<u8>,
    pub stored_length: Option<u32>,
}

impl Chunk {
    pub fn new(name: &Name, data: Vec<u8>) -> Chunk {
        Chunk {
            name: *name,
            data,
            stored_length: None,
        }
    }

    pub fn bytes(&self) -> Vec<u8> {
        let mut bytes = self.name.to_vec();
        bytes.extend(
            self.stored_length
                .unwrap_or(self.data.len() as u32)
                .to_be_bytes(),
        );
        bytes.extend(&self.data);
        bytes
    }
}

/// A module by its chunks. `tail` follows the last one.
#[derive(Clone, Debug, PartialEq, Eq)]
pub struct Draft {
    pub header: Vec<u8>,
    pub chunks: Vec<Chunk>,
    pub tail: Vec<u8>,
}

impl Tune {
    /// The chunks in the traditional order: NAME, INFO, VENV, PENV, SONG, INST, PATT, SMPL.
    pub fn draft(&self) -> Draft {
        let mut header = b"DBM0".to_vec();
        header.extend([self.version, self.revision]);
        header.extend(self.reserved);
        let mut chunks = Vec::new();
        if let Some(name) = &self.name {
            chunks.push(Chunk::new(b"NAME", padded(name, 44)));
        }
        chunks.push(Chunk::new(b"INFO", self.info()));
        let envelopes = [
            (b"VENV", &self.volume_envelopes),
            (b"PENV", &self.panning_envelopes),
        ];
        for (name, envelopes) in envelopes {
            if let Some(envelopes) = envelopes {
                let mut data = (envelopes.len() as u16).to_be_bytes().to_vec();
                data.extend(joined(envelopes, Envelope::bytes));
                chunks.push(Chunk::new(name, data));
            }
        }
        chunks.push(Chunk::new(b"SONG", joined(&self.songs, Song::bytes)));
        chunks.push(Chunk::new(
            b"INST",
            joined(&self.instruments, Instrument::bytes),
        ));
        chunks.push(Chunk::new(b"PATT", joined(&self.patterns, Pattern::bytes)));
        chunks.push(Chunk::new(b"SMPL", joined(&self.samples, Sample::bytes)));
        Draft {
            header,
            chunks,
            tail: Vec::new(),
        }
    }

    pub fn bytes(&self) -> Vec<u8> {
        self.draft().bytes()
    }

    fn info(&self) -> Vec<u8> {
        let counts = [
            self.instruments.len() as u16,
            self.samples.len() as u16,
            self.songs.len() as u16,
            self.patterns.len() as u16,
            self.tracks,
        ];
        counts.into_iter().flat_map(u16::to_be_bytes).collect()
    }
}

fn joined<Block>(blocks: &[Block], bytes: fn(&Block) -> Vec<u8>) -> Vec<u8> {
    blocks.iter().flat_map(bytes).collect()
}

impl Draft {
    pub fn bytes(&self) -> Vec<u8> {
        let mut bytes = self.header.clone();
        for chunk in &self.chunks {
            bytes.extend(chunk.bytes());
        }
        bytes.extend(&self.tail);
        bytes
    }

    /// The index of the first chunk with this name. There must be one.
    pub fn index(&self, name: &Name) -> usize {
        self.chunks
            .iter()
            .position(|chunk| chunk.name == *name)
            .expect("a chunk of this name")
    }

    /// The first chunk with this name. There must be one.
    pub fn chunk(&mut self, name: &Name) -> &mut Chunk {
        let index = self.index(name);
        &mut self.chunks[index]
    }

    /// Overwrites bytes at an offset of a chunk's data.
    pub fn put(&mut self, name: &Name, offset: usize, bytes: &[u8]) {
        self.chunk(name).data[offset..offset + bytes.len()].copy_from_slice(bytes);
    }

    /// The same chunks, with those of these names first and in this order, and all others after them.
    pub fn ordered(&self, names: &[Name]) -> Draft {
        let mut draft = self.clone();
        let rank = |chunk: &Chunk| names.iter().position(|name| *name == chunk.name);
        draft
            .chunks
            .sort_by_key(|chunk| rank(chunk).unwrap_or(names.len()));
        draft
    }
}
