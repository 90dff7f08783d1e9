//! The answers of the calls, laid out as in the headers.

/// The answer of each call on packed rows, and of each query that fills an output.
#[repr(C)]
#[derive(Clone, Copy, Debug, PartialEq, Eq)]
pub struct Answer {
    pub number: u64,
    pub place: u64,
    pub length: u64,
}

impl Answer {
    /// The answer of a call that writes `length` bytes.
    pub const fn written(length: usize) -> Answer {
        Answer {
            number: 0,
            place: 0,
            length: length as u64,
        }
    }

    pub const fn refused(number: u64, place: usize) -> Answer {
        Answer {
            number,
            place: place as u64,
            length: 0,
        }
    }
}

/// The answer of the check of a module.
#[repr(C)]
#[derive(Clone, Copy, Debug, PartialEq, Eq)]
pub struct ModuleAnswer {
    pub number: u64,
    pub place: u64,
}

/// The answer of a query that returns a record, and of `replace_sample`. The record is all zeros on a refusal. In C each record has its own
/// struct, with number and place before its fields. No field needs a larger alignment than these two, so the layout is the same.
#[repr(C)]
#[derive(Clone, Copy, Debug, PartialEq, Eq)]
pub struct RecordAnswer<Record> {
    pub number: u64,
    pub place: u64,
    pub record: Record,
}

#[repr(C)]
#[derive(Clone, Copy, Debug, Default, PartialEq, Eq)]
pub struct Version {
    pub version: u8,
    pub revision: u8,
}

/// The name of a module or of a song.
#[repr(C)]
#[derive(Clone, Copy, Debug, PartialEq, Eq)]
pub struct Name(pub [u8; 44]);

impl Default for Name {
    fn default() -> Name {
        Name([0; 44])
    }
}

#[repr(C)]
#[derive(Clone, Copy, Debug, Default, PartialEq, Eq)]
pub struct Info {
    pub instruments: u16,
    pub samples: u16,
    pub songs: u16,
    pub patterns: u16,
    pub tracks: u16,
}

#[repr(C)]
#[derive(Clone, Copy, Debug, Default, PartialEq, Eq)]
pub struct Song {
    pub name: Name,
    pub length: u16,
}

#[repr(C)]
#[derive(Clone, Copy, Debug, Default, PartialEq, Eq)]
pub struct Instrument {
    pub name: [u8; 30],
    pub sample: u16,
    pub volume: u16,
    pub panning: i16,
    pub flags: u16,
    pub rate: u32,
    pub loop_start: u32,
    pub loop_length: u32,
}

#[repr(C)]
#[derive(Clone, Copy, Debug, Default, PartialEq, Eq)]
pub struct Envelope {
    pub instrument: u16,
    pub flags: u8,
    pub sections: u8,
    pub first_sustain: u8,
    pub loop_first: u8,
    pub loop_last: u8,
    pub second_sustain: u8,
    pub positions: [u16; 32],
    pub values: [i32; 32],
}

/// The kind of the note is one of `NOTE_NONE`, `NOTE_KEY_OFF`, `NOTE_PITCH` and `NOTE_UNKNOWN`.
#[repr(C)]
#[derive(Clone, Copy, Debug, Default, PartialEq, Eq)]
pub struct Cell {
    pub kind: u8,
    pub octave: u8,
    pub semitone: u8,
    pub unknown: u8,
    pub instrument: u8,
    pub command1: u8,
    pub parameter1: u8,
    pub command2: u8,
    pub parameter2: u8,
}

#[repr(C)]
#[derive(Clone, Copy, Debug, Default, PartialEq, Eq)]
pub struct Sample {
    pub width: u8,
    pub frames: u32,
}

/// The place of a sample's frames in the module, and their length in bytes.
#[repr(C)]
#[derive(Clone, Copy, Debug, Default, PartialEq, Eq)]
pub struct Frames {
    pub offset: u64,
    pub length: u64,
}

/// The length of the module that was written, and the number of instruments whose loop was cleared.
#[repr(C)]
#[derive(Clone, Copy, Debug, Default, PartialEq, Eq)]
pub struct Replaced {
    pub length: u64,
    pub cleared: u64,
}

/// The number of entries in the list of differences.
#[repr(C)]
#[derive(Clone, Copy, Debug, Default, PartialEq, Eq)]
pub struct Compared {
    pub entries: u64,
}
