//! A refusal: its number and its place.

/// The number is the reason. The place is the location of the fault, or for 17 the needed length.
#[derive(Clone, Copy, Debug, PartialEq, Eq)]
pub struct Refusal {
    pub number: u64,
    pub place: u64,
}

/// 1: the module, or the module to be written, has more than 16,777,216 bytes.
pub fn too_long() -> Refusal {
    Refusal {
        number: 1,
        place: 0,
    }
}

/// 2: the module has fewer than 8 bytes, or does not begin with DBM0.
pub fn not_a_module() -> Refusal {
    Refusal {
        number: 2,
        place: 0,
    }
}

/// 3: the version or the revision is unknown.
pub fn unknown_version() -> Refusal {
    Refusal {
        number: 3,
        place: 4,
    }
}

/// 4: the header or the data of the chunk at this place is cut.
pub fn cut_chunk(place: u64) -> Refusal {
    Refusal { number: 4, place }
}

/// 5: the identifier of the chunk at this place is not four letters A to Z.
pub fn wrong_identifier(place: u64) -> Refusal {
    Refusal { number: 5, place }
}

/// 6: the covered chunk at this place is not the first of its kind.
pub fn repeated(place: u64) -> Refusal {
    Refusal { number: 6, place }
}

/// 7: the chunk at this place needs INFO before it.
pub fn before_info(place: u64) -> Refusal {
    Refusal { number: 7, place }
}

/// 8: a mandatory chunk is missing in a module of this length.
pub fn missing_chunk(length: u64) -> Refusal {
    Refusal {
        number: 8,
        place: length,
    }
}

/// 9: the NAME or INFO at this place has a wrong length.
pub fn wrong_length(place: u64) -> Refusal {
    Refusal { number: 9, place }
}

/// 10: the number of INFO at this place is out of range.
pub fn wrong_info(place: u64) -> Refusal {
    Refusal { number: 10, place }
}

/// 11: the blocks do not fill the chunk at this place, or one of its samples has flags other than 1, 2 or 4.
pub fn wrong_blocks(place: u64) -> Refusal {
    Refusal { number: 11, place }
}

/// 12: the field at this place refers to something that does not exist.
pub fn wrong_reference(place: u64) -> Refusal {
    Refusal { number: 12, place }
}

/// 13: the field at this place is out of range.
pub fn wrong_field(place: u64) -> Refusal {
    Refusal { number: 13, place }
}

/// 14: the loop of the instrument whose block is at this place is outside its sample.
pub fn loop_outside(place: u64) -> Refusal {
    Refusal { number: 14, place }
}

/// 15: a packed stream is broken, at this offset.
pub fn broken(place: usize) -> Refusal {
    Refusal {
        number: 15,
        place: place as u64,
    }
}

/// 15: the packed stream of the pattern whose block is at this place of the module is broken.
pub fn broken_pattern(place: u64) -> Refusal {
    Refusal { number: 15, place }
}

/// 16: the rows, the tracks, or the length of the packer's input is out of range.
pub fn out_of_range() -> Refusal {
    Refusal {
        number: 16,
        place: 0,
    }
}

/// 17: the output is shorter than this many bytes.
pub fn too_short(needed: u64) -> Refusal {
    Refusal {
        number: 17,
        place: needed,
    }
}

/// 18: there is no such song, entry, instrument, envelope, pattern, sample, frame, row or track.
pub fn not_there() -> Refusal {
    Refusal {
        number: 18,
        place: 0,
    }
}

/// 19: the new frames of a sample have an odd number of bytes.
pub fn odd_frames() -> Refusal {
    Refusal {
        number: 19,
        place: 0,
    }
}
