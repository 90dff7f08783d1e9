//! Describes a refusal in words: which song, instrument, envelope, pattern or sample is at fault, and what is wrong with it.
//!
//! The number and the place come from the library and are proved. The words are not proved. They are derived from the bytes around the
//! place, because a refused module cannot be queried. This code makes no decision and changes neither number nor place. If it does not
//! recognize the bytes, it describes the number alone.

use crate::library::{self, Refusal};
use crate::names::quoted;
use crate::reader::{self, Block, Blocks, Chunk, Name};

/// A line: `refused 14 at 540: ` and the words.
pub fn line(module: &[u8], refusal: Refusal) -> String {
    let Refusal { number, place } = refusal;
    format!("refused {number} at {place}: {}", words(module, refusal))
}

/// A specific description, or else the meaning of the number.
fn words(module: &[u8], refusal: Refusal) -> String {
    specific(module, refusal).unwrap_or_else(|| meaning(refusal.number).to_string())
}

/// The meaning of each number.
fn meaning(number: u64) -> &'static str {
    match number {
        1 => "the module has more than 16777216 bytes",
        2 => "this is no DBM0 module",
        3 => "the version or the revision is not a known one",
        4 => "a chunk is cut",
        5 => "a chunk's identifier is not four letters A to Z",
        6 => "a chunk stands a second time",
        7 => "a chunk stands before INFO",
        8 => "a chunk that must be there is missing",
        9 => "NAME or INFO has the wrong length",
        10 => "a number of INFO is out of range",
        11 => "the blocks do not fill their chunk, or a sample's flags are wrong",
        12 => "a pattern, sample or instrument that is named does not exist",
        13 => "a field is out of range",
        14 => "a loop is outside its sample",
        15 => "the packed rows of a pattern are broken",
        16 => "rows or tracks are out of range",
        17 => "the output is too short",
        18 => "there is no such thing in the module",
        19 => "the new frames have an odd number of bytes",
        _ => "the library refuses it",
    }
}

fn specific(module: &[u8], refusal: Refusal) -> Option<String> {
    let place = usize::try_from(refusal.place).ok()?;
    match refusal.number {
        2 => beginning(module),
        3 => version(module),
        4 => cut(module, place),
        5 => letters(module, place),
        6 => repeated(module, place),
        7 => before_info(module, place),
        8 => missing(module),
        9 => wrong_length(module, place),
        10 => info(module, place),
        11 => unfilled(module, place),
        12 | 13 => field(module, place),
        14 => outside(module, place),
        15 => broken(module, place),
        _ => None,
    }
}

/// Refusal 2.
fn beginning(module: &[u8]) -> Option<String> {
    Some(match module.get(..8) {
        None => format!(
            "this is no DBM0 module: it has {}, and the header alone has 8",
            many(module.len() as u64, "byte")
        ),
        Some(header) => format!(
            "this is no DBM0 module: it begins with {}, not with \"DBM0\"",
            quoted_bytes(header.get(..4)?)
        ),
    })
}

/// Refusal 3.
fn version(module: &[u8]) -> Option<String> {
    let (version, revision) = (*module.get(4)?, *module.get(5)?);
    Some(if version != 2 && version != 3 {
        format!("version {version:x} is not a known one: it must be 2 or 3")
    } else {
        format!("revision {revision:02x} is not two decimal digits")
    })
}

/// Refusal 4.
fn cut(module: &[u8], place: usize) -> Option<String> {
    let left = module.get(place..)?.len();
    if left < reader::HEADER {
        return Some(format!(
            "the header of a chunk is cut: {} left, it has 8",
            many_are(left as u64, "byte")
        ));
    }
    let name = reader::identifier(module, place)?;
    let length = reader::number(module, place + 4, 4)?;
    Some(format!(
        "chunk {} is cut: it should have {}, and {} left",
        identifier_text(&name),
        many(length, "byte"),
        many_are((left - reader::HEADER) as u64, "byte")
    ))
}

/// Refusal 5.
fn letters(module: &[u8], place: usize) -> Option<String> {
    let name = module.get(place..place.checked_add(4)?)?;
    Some(format!(
        "the chunk's identifier {} is not four letters A to Z",
        quoted_bytes(name)
    ))
}

/// Refusal 6.
fn repeated(module: &[u8], place: usize) -> Option<String> {
    let name = reader::identifier(module, place)?;
    let first = reader::find(module, &name)?.place;
    Some(format!(
        "chunk {} stands a second time, the first is at {first}",
        identifier_text(&name)
    ))
}

/// Refusal 7.
fn before_info(module: &[u8], place: usize) -> Option<String> {
    let name = reader::identifier(module, place)?;
    Some(format!(
        "chunk {} stands before INFO",
        identifier_text(&name)
    ))
}

/// Refusal 8.
fn missing(module: &[u8]) -> Option<String> {
    let missing: Vec<String> = [b"INFO", b"SONG", b"INST", b"PATT", b"SMPL"]
        .into_iter()
        .filter(|name| reader::find(module, name).is_none())
        .map(identifier_text)
        .collect();
    match missing.as_slice() {
        [] => None,
        [one] => Some(format!("chunk {one} is missing")),
        [some @ .., last] => Some(format!(
            "the chunks {} and {last} are missing",
            some.join(", ")
        )),
    }
}

/// Refusal 9.
fn wrong_length(module: &[u8], place: usize) -> Option<String> {
    let name = reader::identifier(module, place)?;
    let length = reader::number(module, place.checked_add(4)?, 4)?;
    let expected = match &name {
        b"NAME" => 44,
        b"INFO" => 10,
        _ => return None,
    };
    Some(format!(
        "chunk {} has {}, it must have {expected}",
        identifier_text(&name),
        many(length, "byte")
    ))
}

/// Refusal 10.
fn info(module: &[u8], place: usize) -> Option<String> {
    let chunk = reader::find(module, b"INFO")?;
    let value = reader::number(module, place, 2)?;
    let (what, range) = match place.checked_sub(chunk.data_place())? {
        0 => ("instruments", "0 to 255"),
        2 => ("samples", "0 to 255"),
        4 => ("songs", "0 to 32767"),
        6 => ("patterns", "0 to 1024"),
        8 => ("tracks", "an even number from 4 to 254"),
        _ => return None,
    };
    Some(format!("INFO says {value} {what}, it must be {range}"))
}

/// Refusal 11: the first block that does not fit, the first sample with invalid flags, or the number of bytes left over.
fn unfilled(module: &[u8], place: usize) -> Option<String> {
    let chunk = reader::chunks(module).find(|chunk| chunk.place == place)?;
    let kind = Blocks::of(&chunk.name)?;
    let counts = reader::counts(module)?;
    let name = identifier_text(&chunk.name);
    let Some(count) = kind.count(&counts, chunk.data) else {
        let length = many(chunk.data.len() as u64, "byte");
        return Some(format!(
            "chunk {name} has {length}, too few for the number of its envelopes"
        ));
    };
    let mut whole = 0;
    let mut end = kind.first();
    for block in reader::blocks(kind, chunk.data, count) {
        if let Some(flags) = other_flags(kind, block.bytes) {
            let sample = block_name(module, kind, &block);
            return Some(format!(
                "{sample}: flags {flags} are not 1, 2 or 4 (8, 16 or 32 bits)"
            ));
        }
        whole = block.index + 1;
        end = block.place + block.bytes.len();
    }
    let left = chunk.data.get(end..)?;
    if whole == count {
        return Some(format!(
            "chunk {name} has {} left over behind its {}",
            many(left.len() as u64, "byte"),
            many(count, noun(kind))
        ));
    }
    let begun = Block {
        index: whole,
        place: end,
        bytes: left,
    };
    if let Some(flags) = other_flags(kind, left) {
        let sample = block_name(module, kind, &begun);
        return Some(format!(
            "{sample}: flags {flags} are not 1, 2 or 4 (8, 16 or 32 bits)"
        ));
    }
    let of_count = format!("chunk {name} should hold {}", many(count, noun(kind)));
    let bytes = many_are(left.len() as u64, "byte");
    Some(match kind.length(left) {
        Some(length) => format!(
            "{of_count}: {} needs {length} bytes, and {bytes} left",
            block_name(module, kind, &begun)
        ),
        None => format!(
            "{of_count}: of {} only {bytes} left",
            numbered_noun(kind, whole)
        ),
    })
}

/// The flags of a sample, if they are invalid.
fn other_flags(kind: Blocks, bytes: &[u8]) -> Option<u64> {
    let flags = reader::number(bytes, 0, 4)?;
    (kind == Blocks::Samples && ![1, 2, 4].contains(&flags)).then_some(flags)
}

/// Refusals 12 and 13: the field at this place.
fn field(module: &[u8], place: usize) -> Option<String> {
    let (kind, block) = block_at(module, place)?;
    let counts = reader::counts(module)?;
    let what = match kind {
        Blocks::Songs => entry(&counts, &block, place),
        Blocks::Instruments => instrument_field(&counts, &block, place),
        Blocks::VolumeEnvelopes | Blocks::PanningEnvelopes => {
            envelope_field(module, kind, &counts, &block, place)
        }
        Blocks::Patterns | Blocks::Samples => None,
    }?;
    Some(format!("{}: {what}", block_name(module, kind, &block)))
}

/// The block that contains this place. The `place` of the returned block is relative to the module, not to the chunk.
fn block_at(module: &[u8], place: usize) -> Option<(Blocks, Block<'_>)> {
    let chunk = reader::chunks(module).find(|chunk| within(chunk, place))?;
    let kind = Blocks::of(&chunk.name)?;
    let count = kind.count(&reader::counts(module)?, chunk.data)?;
    let offset = place - chunk.data_place();
    let block = reader::blocks(kind, chunk.data, count)
        .find(|block| (block.place..block.place + block.bytes.len()).contains(&offset))?;
    let place = chunk.data_place() + block.place;
    Some((kind, Block { place, ..block }))
}

fn within(chunk: &Chunk, place: usize) -> bool {
    let start = chunk.data_place();
    (start..start + chunk.data.len()).contains(&place)
}

/// Refusal 12 in a song.
fn entry(counts: &reader::Counts, song: &Block, place: usize) -> Option<String> {
    let offset = (place - song.place).checked_sub(46)?;
    let pattern = reader::number(song.bytes, 46 + offset, 2)?;
    Some(format!(
        "entry {} of its playlist is pattern {pattern}, {}",
        offset / 2,
        there_are(counts.patterns, "pattern", 0)
    ))
}

/// Refusals 12 and 13 in an instrument.
fn instrument_field(counts: &reader::Counts, block: &Block, place: usize) -> Option<String> {
    let offset = place - block.place;
    let value = reader::number(block.bytes, offset, 2)?;
    Some(match offset {
        30 => format!(
            "its sample is {value}, {}",
            there_are(counts.samples, "sample", 1)
        ),
        32 => format!("its volume is {value}, it must be 0 to 64"),
        46 => format!(
            "its panning is {}, it must be -128 to 128",
            reader::signed(block.bytes, offset)?
        ),
        48 => format!("its flags are {value}, only bits 0 and 1 may be set"),
        _ => return None,
    })
}

/// Refusals 12 and 13 in an envelope.
fn envelope_field(
    module: &[u8],
    kind: Blocks,
    counts: &reader::Counts,
    block: &Block,
    place: usize,
) -> Option<String> {
    let offset = place - block.place;
    let byte = u64::from(*block.bytes.get(offset)?);
    let sections = u64::from(*block.bytes.get(3)?);
    Some(match offset {
        0 => format!(
            "its instrument is {}, {}",
            reader::number(block.bytes, 0, 2)?,
            there_are(counts.instruments, "instrument", 1)
        ),
        2 => format!("its flags are {byte}, only bits 0 to 3 may be set"),
        3 => format!("it has {byte} sections, 31 at most may be"),
        4 => point("first sustain", byte, sections),
        5 => point("loop's first", byte, sections),
        6 if byte <= sections => format!(
            "its loop goes from point {} back to point {byte}",
            block.bytes.get(5)?
        ),
        6 => point("loop's last", byte, sections),
        7 => point("second sustain", byte, sections),
        8.. => value(module, kind, block, offset)?,
        _ => return None,
    })
}

fn point(which: &str, point: u64, sections: u64) -> String {
    format!("its {which} point is {point}, it has points 0 to {sections}")
}

/// Refusal 13 at a value of an envelope. A point has four bytes, and the last two are the value.
fn value(module: &[u8], kind: Blocks, block: &Block, offset: usize) -> Option<String> {
    let index = (offset - 8) / 4;
    let stored = reader::number(block.bytes, offset, 2)?;
    let signed = reader::signed(block.bytes, offset)?;
    let version = *module.get(4)?;
    Some(if kind == Blocks::PanningEnvelopes && version != 2 {
        format!("the value of its point {index} is {signed}, it must be -128 to 128")
    } else {
        format!("the value of its point {index} is {stored}, it must be 0 to 64")
    })
}

/// Refusal 14: the instrument's loop, and the length of its sample.
fn outside(module: &[u8], place: usize) -> Option<String> {
    let (kind, block) = block_at(module, place)?;
    if kind != Blocks::Instruments || block.place != place {
        return None;
    }
    let sample = reader::number(block.bytes, 30, 2)?;
    let start = reader::number(block.bytes, 38, 4)?;
    let length = reader::number(block.bytes, 42, 4)?;
    let name = block_name(module, kind, &block);
    let Some(index) = sample.checked_sub(1) else {
        return Some(format!("{name}: loop {start} + {length}, but no sample"));
    };
    let of_sample = reader::blocks_of(module, b"SMPL")?
        .find(|block| block.index == index)
        .and_then(|block| reader::number(block.bytes, 4, 4))?;
    Some(format!(
        "{name}: loop {start} + {length} is outside its sample {sample} ({})",
        many(of_sample, "frame")
    ))
}

/// Refusal 15: the pattern, and the result of checking its stream alone: the row, the place in the stream and the fault.
fn broken(module: &[u8], place: usize) -> Option<String> {
    let (kind, block) = block_at(module, place)?;
    if kind != Blocks::Patterns || block.place != place {
        return None;
    }
    let rows = reader::number(block.bytes, 0, 2)?;
    let stream = block.packed_rows()?;
    let packed = stream.len();
    let tracks = reader::counts(module)?.tracks;
    let name = format!("pattern {} ({})", block.index, many(rows, "row"));
    let Err(refusal) = library::check_pattern(stream, rows, tracks) else {
        return Some(format!("{name}: its packed rows are broken"));
    };
    let at = usize::try_from(refusal.place).ok()?;
    let Some(fault) = stream_fault(stream, rows, tracks, at) else {
        return Some(format!("{name}: its packed rows are broken at {at}"));
    };
    Some(format!(
        "{name}: {fault} (at {at} of its {packed} packed bytes)"
    ))
}

/// Describes the fault at this place of a stream, which the library reports as the first. Everything before the place is valid.
fn stream_fault(stream: &[u8], rows: u64, tracks: u64, at: usize) -> Option<String> {
    let row = row_ends_before(stream, at)?;
    let left = (stream.len() as u64).checked_sub(at as u64)?;
    if left == 0 {
        return Some(format!("its packed rows end before row {row} does"));
    }
    if row == rows {
        return Some(format!(
            "{} left over after its last row",
            many_are(left, "byte")
        ));
    }
    let track = u64::from(*stream.get(at)?);
    let fault = if track > tracks {
        format!("is about track {track}, there are {tracks}")
    } else {
        format!("for track {track} is cut by the end")
    };
    Some(format!("an entry of row {row} {fault}"))
}

/// The number of rows that end before this place. None if no entry and no row end begins exactly there.
fn row_ends_before(stream: &[u8], at: usize) -> Option<u64> {
    let mut place = 0;
    let mut rows = 0;
    while place < at {
        if *stream.get(place)? == 0 {
            rows += 1;
        }
        place += reader::entry_length(stream, place)?;
    }
    (place == at).then_some(rows)
}

/// A block by number and name. Instruments and samples are counted from 1, everything else from 0. An envelope has no name, so the name of
/// its instrument is used.
fn block_name(module: &[u8], kind: Blocks, block: &Block) -> String {
    let title = numbered_noun(kind, block.index);
    match kind {
        Blocks::Songs => with_name(title, block.bytes.get(..44)),
        Blocks::Instruments => with_name(title, block.bytes.get(..30)),
        Blocks::VolumeEnvelopes | Blocks::PanningEnvelopes => {
            match instrument_of(module, block.bytes) {
                Some(instrument) => format!("{title} (of {instrument})"),
                None => title,
            }
        }
        Blocks::Patterns | Blocks::Samples => title,
    }
}

fn with_name(title: String, name: Option<&[u8]>) -> String {
    match name {
        Some(name) => format!("{title} {}", quoted(name)),
        None => title,
    }
}

/// The instrument of an envelope, by number and name.
fn instrument_of(module: &[u8], envelope: &[u8]) -> Option<String> {
    let index = reader::number(envelope, 0, 2)?.checked_sub(1)?;
    let block = reader::blocks_of(module, b"INST")?.find(|block| block.index == index)?;
    Some(block_name(module, Blocks::Instruments, &block))
}

/// `song 0`, `instrument 1`.
fn numbered_noun(kind: Blocks, index: u64) -> String {
    let first = match kind {
        Blocks::Instruments | Blocks::Samples => 1,
        _ => 0,
    };
    format!("{} {}", noun(kind), index + first)
}

fn noun(kind: Blocks) -> &'static str {
    match kind {
        Blocks::Songs => "song",
        Blocks::Instruments => "instrument",
        Blocks::Patterns => "pattern",
        Blocks::Samples => "sample",
        Blocks::VolumeEnvelopes => "volume envelope",
        Blocks::PanningEnvelopes => "panning envelope",
    }
}

/// `1 byte`, `2 bytes`.
fn many(count: u64, noun: &str) -> String {
    match count {
        1 => format!("1 {noun}"),
        _ => format!("{count} {noun}s"),
    }
}

/// `1 byte is`, `2 bytes are`.
fn many_are(count: u64, noun: &str) -> String {
    match count {
        1 => format!("1 {noun} is"),
        _ => format!("{} are", many(count, noun)),
    }
}

/// The valid numbers, counted from 0 or 1.
fn there_are(count: u64, noun: &str, first: u64) -> String {
    match count {
        0 => format!("there are no {noun}s"),
        1 => format!("there is only {noun} {first}"),
        _ => format!("there are {noun}s {first} to {}", count - 1 + first),
    }
}

/// An identifier: as it is if it consists of letters, else as quoted bytes.
fn identifier_text(name: &Name) -> String {
    match name.iter().all(u8::is_ascii_uppercase) {
        true => String::from_utf8_lossy(name).into_owned(),
        false => quoted_bytes(name),
    }
}

/// Bytes between quotes, including the zeros at the end.
fn quoted_bytes(bytes: &[u8]) -> String {
    let zeros = bytes.iter().rev().take_while(|&&byte| byte == 0).count();
    let text = crate::names::escaped(bytes);
    format!("\"{text}{}\"", "\\x00".repeat(zeros))
}

#[cfg(test)]
mod tests {
    use super::line;
    use crate::library::Refusal;
    use reference::generate::{damage, module, Limits, Random};

    /// There are words for every number and place, and they fit on one line.
    fn has_words(module: &[u8], number: u64, place: u64) {
        let line = line(module, Refusal { number, place });
        let begins = format!("refused {number} at {place}: ");
        assert!(line.starts_with(&begins) && line.len() > begins.len());
        assert!(line.bytes().all(|byte| (b' '..=b'~').contains(&byte)));
    }

    /// Includes numbers and places that the library never returns for the module.
    #[test]
    fn any_number_and_any_place() {
        for seed in 1..=300 {
            let mut random = Random::new(seed);
            let mut draft = module(&mut random, &Limits::SMALL);
            damage(&mut random, &mut draft);
            let mut module = draft.bytes();
            if seed % 3 == 0 {
                module.truncate(random.below(module.len() as u64 + 1) as usize);
            }
            let length = module.len() as u64;
            for number in 0..=20 {
                for place in (0..length.min(64)).chain([length - length.min(1), length, length + 1])
                {
                    has_words(&module, number, place);
                }
                for _ in 0..40 {
                    has_words(&module, number, random.below(length + 2));
                }
                for place in [u64::MAX, u64::MAX - 8, 1 << 32, 1 << 63] {
                    has_words(&module, number, place);
                }
            }
        }
    }
}
