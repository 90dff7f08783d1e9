//! Bits 6 and 7 of masks: typed modules that have them, and readers that do not ignore them.

use crate::compare::{answer, GuardedOutput};
use crate::writing::writing;
use interface::{Answer, ModuleAnswer};
use reference::generate::fields_named;
use reference::module::read;
use reference::pattern::unpack;

/// Two patterns of 4 tracks, and a sample of 8 bits. The masks at 57, 60, 63, 66 and 81 are `C1`, `42`, `80`, `7F` and `C0`. PATT is at 42,
/// its blocks are at 50 and 74. SMPL is at 84.
pub const UPPER_BITS: &[u8; 103] = b"DBM0\x03\x00\x00\x00\
    INFO\x00\x00\x00\x0A\x00\x00\x00\x01\x00\x00\x00\x02\x00\x04\
    SONG\x00\x00\x00\x00INST\x00\x00\x00\x00\
    PATT\x00\x00\x00\x22\
    \x00\x02\x00\x00\x00\x12\
    \x04\xC1\x47\x02\x42\x09\x01\x80\x00\x03\x7F\x11\x12\x13\x14\x15\x16\x00\
    \x00\x01\x00\x00\x00\x03\x01\xC0\x00\x99\
    SMPL\x00\x00\x00\x0B\x00\x00\x00\x01\x00\x00\x00\x03\x21\x22\x23";

/// The same without the two bits.
pub const NO_UPPER_BITS: &[u8; 103] = b"DBM0\x03\x00\x00\x00\
    INFO\x00\x00\x00\x0A\x00\x00\x00\x01\x00\x00\x00\x02\x00\x04\
    SONG\x00\x00\x00\x00INST\x00\x00\x00\x00\
    PATT\x00\x00\x00\x22\
    \x00\x02\x00\x00\x00\x12\
    \x04\x01\x47\x02\x02\x09\x01\x00\x00\x03\x3F\x11\x12\x13\x14\x15\x16\x00\
    \x00\x01\x00\x00\x00\x03\x01\x00\x00\x99\
    SMPL\x00\x00\x00\x0B\x00\x00\x00\x01\x00\x00\x00\x03\x21\x22\x23";

/// The cells of the first pattern of both.
pub const UPPER_BITS_CELLS: [u8; 48] = [
    0, 0, 0, 0, 0, 0, 0, 9, 0, 0, 0, 0, 0, 0, 0, 0, 0, 0, 0x47, 0, 0, 0, 0, 0, //
    0, 0, 0, 0, 0, 0, 0, 0, 0, 0, 0, 0, 0x11, 0x12, 0x13, 0x14, 0x15, 0x16, 0, 0, 0, 0, 0, 0,
];

/// An entry with a mask, and as many fields as it names.
pub fn entry(track: u8, mask: u8) -> Vec<u8> {
    [&[track, mask], &[1, 2, 3, 4, 5, 6][..fields_named(mask)]].concat()
}

/// The places of the masks in an accepted stream.
pub fn places(stream: &[u8]) -> Vec<usize> {
    let (mut places, mut place) = (Vec::new(), 0);
    while place < stream.len() {
        place += match stream[place] {
            0 => 1,
            _ => {
                places.push(place + 1);
                2 + fields_named(stream[place + 1])
            }
        };
    }
    places
}

/// The places of the masks in an accepted module. The stream is 6 bytes after the beginning of the pattern's block.
pub fn places_in_module(module: &[u8]) -> Vec<usize> {
    let patterns = read(module).expect("it is accepted").patterns;
    let of = |pattern: &reference::blocks::Pattern| {
        let stream = pattern.place as usize + 6;
        places(pattern.stream)
            .into_iter()
            .map(move |place| stream + place)
    };
    patterns.iter().flat_map(of).collect()
}

/// A wrong check of a stream. The mask bits `REFUSED` are a fault of the entry, and the mask bits `COUNTED` are counted as fields. The fields
/// of bits 6 and 7 are read and not stored. With 0 and 63 it is right.
pub fn check<const REFUSED: u8, const COUNTED: u8>(
    stream: &[u8],
    rows: u64,
    tracks: u64,
) -> Answer {
    match stream_seen::<REFUSED, COUNTED>(stream, rows, tracks) {
        Ok(_) => Answer::written(0),
        Err(answer) => answer,
    }
}

/// The unpacker of the same reader.
pub fn unpacked<const REFUSED: u8, const COUNTED: u8>(
    stream: &[u8],
    rows: u64,
    tracks: u64,
    output: &mut GuardedOutput,
) -> Answer {
    let right = answer(unpack(stream, rows, tracks, output.slice()));
    if matches!(right.number, 16 | 17) {
        return right;
    }
    let mut cells = vec![0; (rows * tracks * 6) as usize];
    match stream_seen::<REFUSED, COUNTED>(stream, rows, tracks) {
        Ok(stream) => {
            unpack(&stream, rows, tracks, &mut cells).expect("it is valid");
            writing(&cells, output)
        }
        Err(answer) => answer,
    }
}

/// The stream that the reader sees, without bits 6 and 7 and their fields. The refusal if it is not accepted.
fn stream_seen<const REFUSED: u8, const COUNTED: u8>(
    stream: &[u8],
    rows: u64,
    tracks: u64,
) -> Result<Vec<u8>, Answer> {
    reference::pattern::check(&[], 0, tracks).map_err(|refusal| answer(Err(refusal)))?;
    if rows > 65_535 {
        return Err(Answer::refused(16, 0));
    }
    let mut seen = Vec::new();
    let (mut place, mut ends) = (0, 0);
    while ends < rows {
        match stream[place..] {
            [] => return Err(Answer::refused(15, place)),
            [0, ..] => {
                ends += 1;
                seen.push(0);
                place += 1;
            }
            [track, mask, ..] if u64::from(track) <= tracks && mask & REFUSED == 0 => {
                let length = 2 + (mask & COUNTED).count_ones() as usize;
                let Some(entry) = stream.get(place..place + length) else {
                    return Err(Answer::refused(15, place));
                };
                seen.extend([track, mask & 63]);
                seen.extend(&entry[2..2 + fields_named(mask)]);
                place += length;
            }
            _ => return Err(Answer::refused(15, place)),
        }
    }
    match place == stream.len() {
        true => Ok(seen),
        false => Err(Answer::refused(15, place)),
    }
}

/// The wrong check in place of that of a module's patterns. Everything else is right.
pub fn check_module<const REFUSED: u8, const COUNTED: u8>(module: &[u8]) -> ModuleAnswer {
    let right = crate::compare::module_answer(reference::module::check(module));
    let Ok(read) = read(module) else {
        return right;
    };
    let wrong = |pattern: &&reference::blocks::Pattern| {
        check::<REFUSED, COUNTED>(pattern.stream, pattern.rows, read.info.tracks).number != 0
    };
    match read.patterns.iter().find(wrong) {
        Some(pattern) => ModuleAnswer {
            number: 15,
            place: pattern.place,
        },
        None => right,
    }
}
