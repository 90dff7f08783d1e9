//! Whole modules, with expectations typed by hand.
//!
//! Numbers and places are literals, computed from the layout beside each module below.

use reference::listing::{lines, listing, write};
use reference::module::check;
use reference::refusal::Refusal;

const HEADER: [u8; 8] = *b"DBM0\x03\x00\x00\x00";

fn chunk(name: &[u8; 4], data: &[u8]) -> Vec<u8> {
    [&name[..], &(data.len() as u32).to_be_bytes(), data].concat()
}

/// A chunk whose header has another length.
fn chunk_with_length(name: &[u8; 4], length: u32, data: &[u8]) -> Vec<u8> {
    [&name[..], &length.to_be_bytes(), data].concat()
}

fn info(numbers: [u16; 5]) -> Vec<u8> {
    chunk(b"INFO", &numbers.map(u16::to_be_bytes).concat())
}

/// The header of version 3.00 and these chunks.
fn module(chunks: &[Vec<u8>]) -> Vec<u8> {
    [&HEADER[..], &chunks.concat()].concat()
}

fn accepted(module: &[u8]) {
    assert_eq!(check(module), Ok(()));
    assert!(lines(module).ends_with(&format!("\naccepted {}\n", module.len())));
}

fn refused(module: &[u8], number: u64, place: u64) {
    assert_eq!(check(module), Err(Refusal { number, place }));
    assert_eq!(lines(module), format!("refused {number} at {place}\n"));
}

/// The module with other bytes at a place.
fn with(module: &[u8], place: usize, bytes: &[u8]) -> Vec<u8> {
    let mut module = module.to_vec();
    module[place..place + bytes.len()].copy_from_slice(bytes);
    module
}

fn with_both(
    module: &[u8],
    (place, bytes): (usize, &[u8]),
    (other, others): (usize, &[u8]),
) -> Vec<u8> {
    with(&with(module, place, bytes), other, others)
}

/// 58 bytes: INFO at 8, SONG at 26, INST at 34, PATT at 42, SMPL at 50.
fn smallest() -> Vec<u8> {
    let mut bytes = Vec::new();
    bytes.extend(b"DBM0\x03\x00\x00\x00");
    bytes.extend(b"INFO\x00\x00\x00\x0A\x00\x00\x00\x00\x00\x00\x00\x00\x00\x04");
    bytes.extend(b"SONG\x00\x00\x00\x00INST\x00\x00\x00\x00");
    bytes.extend(b"PATT\x00\x00\x00\x00SMPL\x00\x00\x00\x00");
    bytes
}

/// The four empty chunks that follow INFO, 32 bytes.
fn four() -> Vec<u8> {
    smallest()[26..].to_vec()
}

/// A song without a name: 46 bytes, and two for each entry.
fn song(playlist: &[u16]) -> Vec<u8> {
    let mut song = vec![0; 44];
    song.extend((playlist.len() as u16).to_be_bytes());
    for entry in playlist {
        song.extend(entry.to_be_bytes());
    }
    song
}

/// An instrument without a name, 50 bytes: sample at 30, volume at 32, rate at 34, loop at 38 and 42, panning at 46, flags at 48.
fn instrument(
    sample: u16,
    volume: u16,
    [start, length]: [u32; 2],
    panning: i16,
    flags: u16,
) -> Vec<u8> {
    let mut instrument = vec![0; 30];
    instrument.extend(sample.to_be_bytes());
    instrument.extend(volume.to_be_bytes());
    instrument.extend(8_363_u32.to_be_bytes());
    instrument.extend(start.to_be_bytes());
    instrument.extend(length.to_be_bytes());
    instrument.extend(panning.to_be_bytes());
    instrument.extend(flags.to_be_bytes());
    instrument
}

/// A pattern, with a filler if its stream is odd.
fn pattern(rows: u16, stream: &[u8], filler: u8) -> Vec<u8> {
    let mut pattern = rows.to_be_bytes().to_vec();
    pattern.extend((stream.len() as u32).to_be_bytes());
    pattern.extend(stream);
    if stream.len() % 2 == 1 {
        pattern.push(filler);
    }
    pattern
}

fn sample(flags: u32, frames: u32, data: &[u8]) -> Vec<u8> {
    [&flags.to_be_bytes(), &frames.to_be_bytes(), data].concat()
}

/// An envelope of 136 bytes: the first eight, then points with position 0.
fn envelope(first: [u8; 8], values: &[i16]) -> Vec<u8> {
    let mut envelope = first.to_vec();
    for value in values {
        envelope.extend([0, 0]);
        envelope.extend(value.to_be_bytes());
    }
    envelope.resize(136, 0);
    envelope
}

/// Envelope chunks begin with the count.
fn envelopes(name: &[u8; 4], list: &[Vec<u8>]) -> Vec<u8> {
    let count = (list.len() as u16).to_be_bytes();
    chunk(name, &[&count[..], &list.concat()].concat())
}

/// The chunks of a module with a block in each of six:
/// INFO 18 bytes, SONG 56, INST 58, PATT 16, SMPL 18, VENV 146, PENV 146.
fn pieces() -> [Vec<u8>; 7] {
    let points = envelope([0, 1, 0x0F, 1, 0, 0, 1, 1], &[64, 0]);
    [
        info([1, 1, 1, 1, 4]),
        chunk(b"SONG", &song(&[0])),
        chunk(b"INST", &instrument(1, 64, [0, 2], 0, 1)),
        chunk(b"PATT", &pattern(1, &[0], 0)),
        chunk(b"SMPL", &sample(1, 2, &[0x40, 0xC0])),
        envelopes(b"VENV", std::slice::from_ref(&points)),
        envelopes(b"PENV", &[points]),
    ]
}

/// 466 bytes.
///
/// - INFO at 8: numbers at 16, 18, 20, 22 and 24.
/// - SONG at 26, its block at 34: length at 78, entry at 80.
/// - INST at 82, its block at 90: sample at 120, volume at 122, loop at 128 and 132, panning at 136, flags at 138.
/// - PATT at 140, its block at 148: rows at 148, length at 150, stream at 154, filler at 155.
/// - SMPL at 156, its block at 164: flags at 164, frames at 168, data at 172.
/// - VENV at 174, count at 182, its block at 184: instrument at 184, flags at 186, sections at 187, then S1, L1, L2 and S2; the
///   points begin at 192, and the value of point k is at 194 + 4k.
/// - PENV at 320, count at 328, its block at 330: the value of point k is at 340 + 4k.
fn rich() -> Vec<u8> {
    let module = module(&pieces());
    assert_eq!(module.len(), 466);
    module
}

/// The same chunks, 466 bytes in another order.
///
/// - PENV at 8, count at 16, its block at 18: the value of point k is at 28 + 4k.
/// - VENV at 154, count at 162, its block at 164: the value of point k is at 174 + 4k.
/// - INFO at 300: numbers at 308, 310, 312, 314 and 316.
/// - SMPL at 318, its block at 326.
/// - PATT at 336, its block at 344: length at 346, stream at 350.
/// - INST at 352, its block at 360: sample at 390, volume at 392, loop at 398 and 402, panning at 406, flags at 408.
/// - SONG at 410, its block at 418: length at 462, entry at 464.
fn reversed() -> Vec<u8> {
    let [info, song, inst, patt, smpl, venv, penv] = pieces();
    let module = module(&[penv, venv, info, smpl, patt, inst, song]);
    assert_eq!(module.len(), 466);
    module
}

#[test]
fn whole_modules_are_accepted() {
    assert_eq!(smallest().len(), 58);
    accepted(&smallest());
    accepted(&rich());
    accepted(&reversed());
}

// Refusal 1.

#[test]
fn most_bytes() {
    // Another chunk at 58, which fills the module.
    let long = [
        &smallest()[..],
        &chunk_with_length(b"XYZW", 16_777_216 - 66, &vec![0x5A; 16_777_216 - 66]),
    ]
    .concat();
    assert_eq!(long.len(), 16_777_216);
    accepted(&long);
    assert_eq!(listing(&long), "input too big\n");
    // SMPL at 50 with one sample of 32 bits.
    let mut long = with(&smallest(), 16, &[0, 0, 0, 1]);
    long[54..58].copy_from_slice(&(16_777_216_u32 - 58).to_be_bytes());
    long.extend([0, 0, 0, 4]);
    long.extend(((16_777_216_u32 - 66) / 4).to_be_bytes());
    long.resize(16_777_216 - 2, 0x80);
    refused(&long, 4, 50);
    // 16,777,150 is not a multiple of the frame length.
    long.resize(16_777_216, 0x80);
    refused(&long, 11, 50);
    long[58..62].copy_from_slice(&[0, 0, 0, 2]);
    long[62..66].copy_from_slice(&((16_777_216_u32 - 66) / 2).to_be_bytes());
    accepted(&long);
}

#[test]
fn one_byte_more() {
    let long = [
        &smallest()[..],
        &chunk_with_length(b"XYZW", 16_777_217 - 66, &vec![0x5A; 16_777_217 - 66]),
    ]
    .concat();
    assert_eq!(long.len(), 16_777_217);
    refused(&long, 1, 0);
    assert_eq!(listing(&long), "input too big\n");
    // 1 has priority over all others.
    refused(&vec![0; 16_777_217], 1, 0);
    refused(&vec![0; 16_777_216], 2, 0);
}

// Refusals 2 and 3.

#[test]
fn no_header() {
    for length in 0..8 {
        refused(&HEADER[..length], 2, 0);
        refused(&smallest()[..length], 2, 0);
    }
    refused(&with(&smallest(), 0, b"d"), 2, 0);
    refused(&with(&smallest(), 1, b"b"), 2, 0);
    refused(&with(&smallest(), 2, b"N"), 2, 0);
    refused(&with(&smallest(), 3, b"1"), 2, 0);
    refused(&with(&smallest(), 3, &[0]), 2, 0);
    refused(b"", 2, 0);
    refused(b"DBM0DBM", 2, 0);
}

#[test]
fn version() {
    accepted(&with(&smallest(), 4, &[2]));
    accepted(&with(&smallest(), 4, &[3]));
    for version in [0, 1, 4, 0x12, 0x13, 0x20, 0x30, 0xFF] {
        refused(&with(&smallest(), 4, &[version]), 3, 4);
    }
}

#[test]
fn revision() {
    for revision in [0x00, 0x05, 0x09, 0x21, 0x50, 0x90, 0x99] {
        accepted(&with(&smallest(), 5, &[revision]));
        accepted(&with(&smallest(), 4, &[2, revision]));
    }
    for revision in [0x0A, 0x0F, 0x1A, 0x9A, 0xA0, 0xA9, 0xF0, 0xFF] {
        refused(&with(&smallest(), 5, &[revision]), 3, 4);
        refused(&with(&smallest(), 4, &[2, revision]), 3, 4);
    }
}

#[test]
fn the_reserved_word_is_not_examined() {
    for word in [[0, 1], [1, 0], [0xFF, 0xFF]] {
        accepted(&with(&smallest(), 6, &word));
    }
}

// Refusals 4 to 7.

#[test]
fn a_cut_chunk_header() {
    for length in 1..8 {
        let tail = &b"XYZW\x00\x00\x00\x00"[..length];
        refused(&[&smallest()[..], tail].concat(), 4, 58);
        refused(&[&HEADER[..], tail].concat(), 4, 8);
        // Whatever the letters are.
        refused(&[&smallest()[..], &[0; 7][..length]].concat(), 4, 58);
    }
    accepted(&[&smallest()[..], b"XYZW\x00\x00\x00\x00"].concat());
}

#[test]
fn cut_chunk_data() {
    let data = [1, 2, 3];
    accepted(&[smallest(), chunk_with_length(b"XYZW", 3, &data)].concat());
    refused(
        &[smallest(), chunk_with_length(b"XYZW", 4, &data)].concat(),
        4,
        58,
    );
    refused(
        &[smallest(), chunk_with_length(b"XYZW", 1 << 24, &data)].concat(),
        4,
        58,
    );
    for cut in 1..18 {
        refused(&smallest()[..8 + cut], 4, 8);
    }
    for cut in 1..8 {
        refused(&smallest()[..26 + cut], 4, 26);
        refused(&smallest()[..50 + cut], 4, 50);
    }
    // INFO is at 8. With length 11 it includes the S of SONG, and is followed by an invalid identifier.
    refused(&with(&smallest(), 12, &[0, 0, 0, 11]), 9, 8);
    // SMPL is the last chunk, so there is no byte after it.
    refused(&with(&smallest(), 54, &[0, 0, 0, 1]), 4, 50);
}

#[test]
fn no_length_wraps() {
    for length in [0x8000_0000, 0xFFFF_FFF0, 0xFFFF_FFF8, 0xFFFF_FFFF_u32] {
        let wild = chunk_with_length(b"XYZW", length, &[0; 8]);
        refused(&[&HEADER[..], &wild, &smallest()[8..]].concat(), 4, 8);
        refused(&[smallest(), wild].concat(), 4, 58);
        refused(&with(&smallest(), 54, &length.to_be_bytes()), 4, 50);
    }
    // 58 + 8 + this is 2^32, and with 8 more it is the place of the first chunk.
    refused(
        &[smallest(), chunk_with_length(b"XYZW", 0xFFFF_FFBE, &[])].concat(),
        4,
        58,
    );
    refused(
        &[smallest(), chunk_with_length(b"XYZW", 0xFFFF_FFC6, &[])].concat(),
        4,
        58,
    );
}

#[test]
fn identifiers() {
    for name in [*b"AAAA", *b"ZZZZ", *b"DSPE", *b"INFP", *b"SONF"] {
        accepted(&[smallest(), chunk(&name, &[1, 2])].concat());
    }
    for place in 0..4 {
        for letter in [b'@', b'[', b'a', b'z', b'0', b' ', 0, 0xC1, 0xDA] {
            let mut name = *b"AZAZ";
            name[place] = letter;
            refused(&[smallest(), chunk(&name, &[])].concat(), 5, 58);
            refused(
                &module(&[chunk(&name, &[]), smallest()[8..].to_vec()]),
                5,
                8,
            );
        }
    }
    refused(&with(&smallest(), 26, b"s"), 5, 26);
    refused(&with(&smallest(), 8, b"info"), 5, 8);
}

#[test]
fn covered_chunks_occur_once() {
    // NAME at 8, INFO at 60, VENV and PENV at 78 and 88 with no envelope each, the four from 98 on.
    let name = || chunk(b"NAME", &[b'n'; 44]);
    let venv = || chunk(b"VENV", &[0, 0]);
    let penv = || chunk(b"PENV", &[0, 0]);
    let all = module(&[name(), info([0, 0, 0, 0, 4]), venv(), penv(), four()]);
    assert_eq!(all.len(), 130);
    accepted(&all);
    refused(&[all.clone(), name()].concat(), 6, 130);
    refused(&[all.clone(), info([0, 0, 0, 0, 4])].concat(), 6, 130);
    refused(&[all.clone(), venv()].concat(), 6, 130);
    refused(&[all.clone(), penv()].concat(), 6, 130);
    for four in [b"SONG", b"INST", b"PATT", b"SMPL"] {
        refused(&[all.clone(), chunk(four, &[])].concat(), 6, 130);
    }
    refused(&module(&[name(), name(), smallest()[8..].to_vec()]), 6, 60);
    refused(&module(&[penv(), venv(), penv()]), 6, 28);
}

#[test]
fn other_chunks_may_repeat() {
    for name in [b"DSPE", b"PNAM", b"MPEG", b"XYZW"] {
        let chunks = [
            chunk(name, &[1]),
            chunk(name, &[]),
            smallest()[8..].to_vec(),
            chunk(name, &[2, 3]),
        ];
        accepted(&module(&chunks));
    }
}

#[test]
fn four_chunks_follow_info() {
    let info = || info([0, 0, 0, 0, 4]);
    for name in [b"SONG", b"INST", b"PATT", b"SMPL"] {
        refused(&module(&[chunk(name, &[]), info(), four()]), 7, 8);
        refused(
            &module(&[chunk(b"XYZW", &[1]), chunk(name, &[]), info()]),
            7,
            17,
        );
        // Also if there is no INFO at all.
        refused(&module(&[chunk(name, &[])]), 7, 8);
    }
    let optional = [
        chunk(b"PENV", &[0, 0]),
        chunk(b"NAME", &[0; 44]),
        chunk(b"VENV", &[0, 0]),
        chunk(b"XYZW", &[1]),
        info(),
        four(),
    ];
    accepted(&module(&optional));
}

#[test]
fn any_order_after_info() {
    let [info, song, inst, patt, smpl, venv, penv] = pieces();
    accepted(&module(&[
        info.clone(),
        smpl.clone(),
        patt.clone(),
        inst.clone(),
        song.clone(),
    ]));
    accepted(&module(&[
        venv.clone(),
        info.clone(),
        inst.clone(),
        penv.clone(),
        song.clone(),
        smpl.clone(),
        patt.clone(),
    ]));
    // With INFO second, SONG is before it. With INFO last, SMPL is.
    refused(
        &module(&[
            song.clone(),
            info.clone(),
            inst.clone(),
            patt.clone(),
            smpl.clone(),
        ]),
        7,
        8,
    );
    refused(&module(&[venv, penv, smpl, patt, inst, song, info]), 7, 300);
}

// Refusal 8.

#[test]
fn mandatory_chunks() {
    refused(&HEADER, 8, 8);
    refused(&module(&[chunk(b"NAME", &[0; 44])]), 8, 60);
    refused(&smallest()[..26], 8, 26);
    refused(&smallest()[..34], 8, 34);
    refused(&smallest()[..42], 8, 42);
    refused(&smallest()[..50], 8, 50);
    // Each of the four missing alone: renamed to XONG, XNST, XATT, XMPL.
    for place in [26, 34, 42, 50] {
        refused(&with(&smallest(), place, b"X"), 8, 58);
    }
    refused(
        &module(&[info([0, 0, 0, 0, 4]), chunk(b"XYZW", &[9])]),
        8,
        35,
    );
}

// Refusals 9 and 10.

#[test]
fn the_length_of_name() {
    for length in [0, 1, 43, 45, 88] {
        let name = chunk(b"NAME", &vec![b'n'; length]);
        refused(&module(&[name.clone(), smallest()[8..].to_vec()]), 9, 8);
        refused(&[smallest(), name].concat(), 9, 58);
    }
    accepted(&[smallest(), chunk(b"NAME", &[0xFF; 44])].concat());
}

#[test]
fn the_length_of_info() {
    for length in [0, 1, 8, 9, 11, 12, 20] {
        let numbers = [0, 0, 0, 0, 0, 0, 0, 0, 0, 4, 0, 0, 0, 0, 0, 0, 0, 0, 0, 0];
        let info = chunk(b"INFO", &numbers[..length]);
        refused(&module(&[info.clone(), four()]), 9, 8);
        refused(&module(&[chunk(b"XYZW", &[]), info]), 9, 16);
    }
}

#[test]
fn numbers_of_info() {
    // INFO at 8: numbers at 16, 18, 20, 22 and 24. For numbers in range the blocks are missing, which is 11 at the chunk.
    let number = |place, number: u16| with(&smallest(), place, &number.to_be_bytes());
    refused(&number(16, 255), 11, 34);
    refused(&number(16, 256), 10, 16);
    refused(&number(16, 65_535), 10, 16);
    refused(&number(18, 255), 11, 50);
    refused(&number(18, 256), 10, 18);
    refused(&number(20, 32_767), 11, 26);
    refused(&number(20, 32_768), 10, 20);
    refused(&number(22, 1_024), 11, 42);
    refused(&number(22, 1_025), 10, 22);
    // After NAME, 52 bytes further.
    let named = module(&[chunk(b"NAME", &[0; 44]), info([0, 256, 0, 0, 4]), four()]);
    refused(&named, 10, 70);
}

#[test]
fn as_many_of_each_as_there_may_be() {
    let many = module(&[
        info([255, 255, 0, 1_024, 4]),
        chunk(b"SONG", &[]),
        chunk(b"INST", &instrument(255, 0, [0, 0], 0, 0).repeat(255)),
        chunk(b"PATT", &pattern(0, &[], 0).repeat(1_024)),
        chunk(b"SMPL", &sample(2, 0, &[]).repeat(255)),
    ]);
    accepted(&many);
    let songs = module(&[
        info([0, 0, 32_767, 0, 254]),
        chunk(b"SONG", &song(&[]).repeat(32_767)),
        chunk(b"INST", &[]),
        chunk(b"PATT", &[]),
        chunk(b"SMPL", &[]),
    ]);
    accepted(&songs);
    // With one song less, the songs end before the chunk does. SONG at 26.
    refused(&with(&songs, 20, &32_766_u16.to_be_bytes()), 11, 26);
}

#[test]
fn tracks() {
    for tracks in [4, 6, 128, 252, 254] {
        accepted(&with(&smallest(), 24, &u16::to_be_bytes(tracks)));
    }
    for tracks in [
        0, 1, 2, 3, 5, 127, 253, 255, 256, 258, 260, 0x8004, 0xFFFE, 0xFFFF,
    ] {
        refused(&with(&smallest(), 24, &u16::to_be_bytes(tracks)), 10, 24);
    }
}

// Refusal 11.

/// The smallest module with other numbers of INFO and one of its chunks with data.
fn one_chunk(numbers: [u16; 5], name: &[u8; 4], data: &[u8]) -> Vec<u8> {
    let mut chunks = vec![info(numbers)];
    for empty in [b"SONG", b"INST", b"PATT", b"SMPL"] {
        chunks.push(chunk(empty, if empty == name { data } else { &[] }));
    }
    module(&chunks)
}

#[test]
fn songs_fill_their_chunk() {
    let songs = |count, data: &[u8]| one_chunk([0, 0, count, 1, 4], b"SONG", data);
    let patt = |module: Vec<u8>| {
        // PATT is empty there. One pattern of no rows is inserted, and its chunk is the last but one.
        let end = module.len() - 8;
        let head = &module[..end - 8];
        [head, &chunk(b"PATT", &pattern(0, &[], 0)), &module[end..]].concat()
    };
    accepted(&patt(songs(1, &song(&[]))));
    accepted(&patt(songs(1, &song(&[0, 0, 0]))));
    accepted(&patt(songs(
        3,
        &[song(&[]), song(&[0]), song(&[])].concat(),
    )));
    refused(&patt(songs(0, &song(&[]))), 11, 26);
    refused(&patt(songs(1, &[])), 11, 26);
    refused(&patt(songs(2, &song(&[0]))), 11, 26);
    refused(&patt(songs(1, &[song(&[]), song(&[])].concat())), 11, 26);
    refused(&patt(songs(1, &[song(&[0]), vec![0]].concat())), 11, 26);
    for cut in 0..48 {
        refused(&patt(songs(1, &song(&[0])[..cut])), 11, 26);
    }
    // A playlist that runs past the end, including lengths for which 46 + 2 × length would wrap.
    for length in [2, 3, 0x7FFF, 0x8000, 0x8001, 0xFFE9, 0xFFFF_u16] {
        let song = with(&song(&[0]), 44, &length.to_be_bytes());
        refused(&patt(songs(1, &song)), 11, 26);
    }
}

#[test]
fn instruments_fill_their_chunk() {
    let one = instrument(0, 64, [0, 0], 0, 0);
    let instruments = |count, data: &[u8]| one_chunk([count, 0, 0, 0, 4], b"INST", data);
    accepted(&instruments(1, &one));
    accepted(&instruments(2, &one.repeat(2)));
    refused(&instruments(1, &[]), 11, 34);
    refused(&instruments(0, &one), 11, 34);
    refused(&instruments(2, &one), 11, 34);
    refused(&instruments(1, &one.repeat(2)), 11, 34);
    refused(&instruments(1, &one[..49]), 11, 34);
    refused(&instruments(1, &[one, vec![0]].concat()), 11, 34);
}

#[test]
fn patterns_fill_their_chunk() {
    let patterns = |count, data: &[u8]| one_chunk([0, 0, 0, count, 4], b"PATT", data);
    let odd = pattern(1, &[1, 0, 0], 0);
    let even = pattern(2, &[0, 0], 0);
    accepted(&patterns(2, &[odd.clone(), even.clone()].concat()));
    accepted(&patterns(2, &[even.clone(), odd.clone()].concat()));
    refused(&patterns(1, &[odd.clone(), even.clone()].concat()), 11, 42);
    refused(&patterns(3, &[odd.clone(), even.clone()].concat()), 11, 42);
    for cut in 0..8 {
        refused(&patterns(1, &even[..cut]), 11, 42);
    }
    // The filler is missing at the end, and a filler follows an even stream.
    refused(&patterns(1, &odd[..9]), 11, 42);
    refused(&patterns(1, &[even.clone(), vec![0]].concat()), 11, 42);
    // A very large packed length: 6 + length is then 2^32 or slightly more.
    for length in [
        0x8000_0000,
        0xFFFF_FFFA,
        0xFFFF_FFFC,
        0xFFFF_FFFE,
        0xFFFF_FFFF_u32,
    ] {
        refused(&patterns(1, &with(&even, 2, &length.to_be_bytes())), 11, 42);
    }
}

#[test]
fn samples_fill_their_chunk() {
    let samples = |count, data: &[u8]| one_chunk([0, count, 0, 0, 4], b"SMPL", data);
    accepted(&samples(1, &sample(1, 3, &[1, 2, 3])));
    accepted(&samples(1, &sample(2, 3, &[1, 2, 3, 4, 5, 6])));
    accepted(&samples(1, &sample(4, 2, &[1, 2, 3, 4, 5, 6, 7, 8])));
    accepted(&samples(1, &sample(4, 0, &[])));
    let three = [
        sample(4, 1, &[0; 4]),
        sample(1, 1, &[0]),
        sample(2, 1, &[0; 2]),
    ]
    .concat();
    accepted(&samples(3, &three));
    refused(&samples(2, &three), 11, 50);
    refused(&samples(4, &three), 11, 50);
    refused(&samples(3, &three[..30]), 11, 50);
    refused(&samples(1, &sample(1, 3, &[1, 2])), 11, 50);
    refused(&samples(1, &sample(1, 3, &[1, 2, 3, 4])), 11, 50);
    refused(&samples(1, &sample(2, 3, &[1, 2, 3])), 11, 50);
    refused(&samples(1, &sample(4, 2, &[1, 2])), 11, 50);
    refused(&samples(1, &[0, 0, 0, 1, 0, 0, 0]), 11, 50);
    refused(&samples(1, &[0, 0, 0]), 11, 50);
}

#[test]
fn the_flags_of_samples() {
    let samples = |flags, data| one_chunk([0, 1, 0, 0, 4], b"SMPL", &sample(flags, 0, data));
    for flags in [1, 2, 4] {
        accepted(&samples(flags, &[]));
    }
    for flags in [
        0,
        3,
        5,
        6,
        7,
        8,
        16,
        0x0100,
        0x0100_0000,
        0x0100_0001,
        0x8000_0002,
        u32::MAX,
    ] {
        refused(&samples(flags, &[]), 11, 50);
    }
    let two = [sample(1, 1, &[0]), sample(3, 1, &[0; 3])].concat();
    refused(&one_chunk([0, 2, 0, 0, 4], b"SMPL", &two), 11, 50);
}

#[test]
fn frames_do_not_wrap() {
    let samples = |flags, frames, data| {
        let block = sample(flags, frames, data);
        one_chunk([0, 1, 0, 0, 4], b"SMPL", &block)
    };
    refused(&samples(4, 0x4000_0001, &[0; 4]), 11, 50);
    refused(&samples(4, 0x4000_0000, &[]), 11, 50);
    refused(&samples(4, 0xC000_0002, &[0; 8]), 11, 50);
    refused(&samples(2, 0x8000_0001, &[0; 2]), 11, 50);
    refused(&samples(2, 0x8000_0000, &[]), 11, 50);
    // 8 + frames is 2^32.
    refused(&samples(1, 0xFFFF_FFF8, &[]), 11, 50);
    refused(&samples(1, 0xFFFF_FFFF, &[0; 2]), 11, 50);
    accepted(&samples(4, 1, &[0; 4]));
}

#[test]
fn envelopes_fill_their_chunk() {
    // INFO with one instrument, the four at 26, 34, 92 and 100; the envelopes at 108.
    let head = one_chunk([1, 0, 0, 0, 4], b"INST", &instrument(0, 0, [0, 0], 0, 0));
    assert_eq!(head.len(), 108);
    let one = envelope([0, 1, 0, 0, 0, 0, 0, 0], &[]);
    for name in [b"VENV", b"PENV"] {
        let counted = |count: u16, data: &[u8]| {
            let data = [&count.to_be_bytes(), data].concat();
            [head.clone(), chunk(name, &data)].concat()
        };
        accepted(&counted(0, &[]));
        accepted(&counted(1, &one));
        accepted(&counted(2, &one.repeat(2)));
        refused(&counted(0, &one), 11, 108);
        refused(&counted(1, &[]), 11, 108);
        refused(&counted(2, &one), 11, 108);
        refused(&counted(1, &one.repeat(2)), 11, 108);
        refused(&counted(1, &one[..135]), 11, 108);
        refused(&counted(0, &[0]), 11, 108);
        // 136 × 8,193 is 17 × 65,536 + 136.
        refused(&counted(8_193, &one), 11, 108);
        refused(&counted(8_192, &[]), 11, 108);
        refused(&counted(65_535, &one), 11, 108);
        refused(&[head.clone(), chunk(name, &[])].concat(), 11, 108);
        refused(&[head.clone(), chunk(name, &[0])].concat(), 11, 108);
    }
}

// Refusals 12 and 13.

#[test]
fn playlist_entries() {
    // SONG at 26 with two songs, at 34 and 84: entries at 80 and 82, and at 130. Three patterns of no rows.
    let songs = module(&[
        info([0, 0, 2, 3, 4]),
        chunk(b"SONG", &[song(&[0, 2]), song(&[1])].concat()),
        chunk(b"INST", &[]),
        chunk(b"PATT", &pattern(0, &[], 0).repeat(3)),
        chunk(b"SMPL", &[]),
    ]);
    accepted(&songs);
    for entry in [0, 1, 2] {
        accepted(&with(&songs, 82, &[0, entry]));
        accepted(&with(&songs, 130, &[0, entry]));
    }
    for entry in [[0, 3], [0, 4], [1, 0], [0x80, 0], [0xFF, 0xFF]] {
        refused(&with(&songs, 80, &entry), 12, 80);
        refused(&with(&songs, 82, &entry), 12, 82);
        refused(&with(&songs, 130, &entry), 12, 130);
    }
    refused(&with_both(&songs, (130, &[0, 9]), (82, &[0, 3])), 12, 82);
    refused(&one_chunk([0, 0, 1, 0, 4], b"SONG", &song(&[0])), 12, 80);
}

#[test]
fn samples_of_instruments() {
    // INST at 34, its block at 42: sample at 72. Two samples.
    let module = |sample_number| {
        module(&[
            info([1, 2, 0, 0, 4]),
            chunk(b"SONG", &[]),
            chunk(b"INST", &instrument(sample_number, 0, [0, 0], 0, 0)),
            chunk(b"PATT", &[]),
            chunk(b"SMPL", &sample(1, 0, &[]).repeat(2)),
        ])
    };
    accepted(&module(0));
    accepted(&module(1));
    accepted(&module(2));
    refused(&module(3), 12, 72);
    refused(&module(256), 12, 72);
    refused(&module(65_535), 12, 72);
}

#[test]
fn fields_of_instruments() {
    // INST at 34, blocks at 42 and 92: volume at 74 and 124, panning at 88 and 138, flags at 90 and 140.
    let one = instrument(0, 0, [0, 0], 0, 0);
    let two = one_chunk([2, 0, 0, 0, 4], b"INST", &one.repeat(2));
    for (place, allowed, others) in [
        (74, vec![0, 1, 64], vec![65, 128, 256, 0x8000, 0xFFFF]),
        (
            88,
            vec![0, 1, 128, 0xFFFF, 0xFF80],
            vec![129, 256, 0x7FFF, 0x8000, 0xFF7F, 0xFF00],
        ),
        (
            90,
            vec![0, 1, 2, 3],
            vec![4, 5, 8, 0x0100, 0x0102, 0x8001, 0xFFFF],
        ),
    ] {
        for value in allowed {
            accepted(&with(&two, place, &u16::to_be_bytes(value)));
            accepted(&with(&two, place + 50, &u16::to_be_bytes(value)));
        }
        for value in others {
            refused(
                &with(&two, place, &u16::to_be_bytes(value)),
                13,
                place as u64,
            );
            refused(
                &with(&two, place + 50, &u16::to_be_bytes(value)),
                13,
                place as u64 + 50,
            );
        }
    }
    // The name, the rate, and a loop that is off are not examined.
    accepted(&with(&two, 42, &[0xFF; 30]));
    accepted(&with(&two, 76, &[0xFF; 12]));
}

/// One instrument, and an envelope chunk at 108: count at 116, its block at 118, points at 126, the value of point k at 128 + 4k.
fn enveloped(version: u8, name: &[u8; 4], first: [u8; 8], values: &[i16]) -> Vec<u8> {
    let head = one_chunk([1, 0, 0, 0, 4], b"INST", &instrument(0, 0, [0, 0], 0, 0));
    let chunk = envelopes(name, &[envelope(first, values)]);
    with(&[head, chunk].concat(), 4, &[version])
}

#[test]
fn fields_of_envelopes() {
    for name in [b"VENV", b"PENV"] {
        let of = |first| enveloped(3, name, first, &[1, 2, 3, 4]);
        accepted(&of([0, 1, 0x0F, 3, 3, 0, 3, 3]));
        // Instrument, counted from 1.
        refused(&of([0, 0, 0x0F, 3, 3, 0, 3, 3]), 12, 118);
        refused(&of([0, 2, 0x0F, 3, 3, 0, 3, 3]), 12, 118);
        refused(&of([1, 1, 0x0F, 3, 3, 0, 3, 3]), 12, 118);
        // Flags.
        refused(&of([0, 1, 0x10, 3, 3, 0, 3, 3]), 13, 120);
        refused(&of([0, 1, 0x8F, 3, 3, 0, 3, 3]), 13, 120);
        // Sections.
        accepted(&of([0, 1, 0x00, 31, 0, 0, 0, 0]));
        refused(&of([0, 1, 0x00, 32, 0, 0, 0, 0]), 13, 121);
        refused(&of([0, 1, 0x00, 255, 0, 0, 0, 0]), 13, 121);
        // S1 with bit 1, S2 with bit 3.
        refused(&of([0, 1, 0x02, 3, 4, 9, 9, 9]), 13, 122);
        accepted(&of([0, 1, 0x02, 3, 3, 9, 9, 9]));
        accepted(&of([0, 1, 0x0D, 3, 9, 0, 3, 3]));
        refused(&of([0, 1, 0x08, 3, 9, 9, 9, 4]), 13, 125);
        accepted(&of([0, 1, 0x08, 3, 9, 9, 9, 3]));
        accepted(&of([0, 1, 0x07, 3, 3, 0, 3, 9]));
        // L1 and L2 with bit 2, and L1 at most L2.
        refused(&of([0, 1, 0x04, 3, 9, 4, 3, 9]), 13, 123);
        refused(&of([0, 1, 0x04, 3, 9, 4, 4, 9]), 13, 123);
        refused(&of([0, 1, 0x04, 3, 9, 3, 4, 9]), 13, 124);
        refused(&of([0, 1, 0x04, 3, 9, 3, 2, 9]), 13, 124);
        refused(&of([0, 1, 0x05, 3, 9, 1, 0, 9]), 13, 124);
        accepted(&of([0, 1, 0x04, 3, 9, 3, 3, 9]));
        accepted(&of([0, 1, 0x04, 3, 9, 2, 3, 9]));
        accepted(&of([0, 1, 0x0B, 3, 3, 2, 1, 3]));
        accepted(&of([0, 1, 0x0B, 3, 3, 9, 8, 3]));
    }
}

#[test]
fn the_order_of_envelope_fields() {
    for name in [b"VENV", b"PENV"] {
        let of = |first| enveloped(3, name, first, &[500]);
        refused(&of([0, 7, 0xFF, 40, 50, 50, 49, 50]), 12, 118);
        refused(&of([0, 1, 0xFF, 40, 50, 50, 49, 50]), 13, 120);
        refused(&of([0, 1, 0x0F, 40, 50, 50, 49, 50]), 13, 121);
        refused(&of([0, 1, 0x0F, 31, 50, 50, 49, 50]), 13, 122);
        refused(&of([0, 1, 0x0F, 31, 31, 50, 49, 50]), 13, 123);
        refused(&of([0, 1, 0x0F, 31, 31, 31, 49, 50]), 13, 124);
        refused(&of([0, 1, 0x0F, 31, 31, 31, 30, 50]), 13, 124);
        refused(&of([0, 1, 0x0F, 31, 31, 31, 31, 50]), 13, 125);
        refused(&of([0, 1, 0x0F, 31, 31, 31, 31, 31]), 13, 128);
        accepted(&with(&of([0, 1, 0x0F, 31, 31, 31, 31, 31]), 128, &[0, 0]));
    }
}

#[test]
fn volume_values() {
    for version in [2, 3] {
        for value in [0, 1, 63, 64] {
            accepted(&enveloped(
                version,
                b"VENV",
                [0, 1, 1, 1, 0, 0, 0, 0],
                &[0, value],
            ));
        }
        for value in [65, 128, 256, 0x4000, i16::MAX, -1, -64, -128, i16::MIN] {
            let module = enveloped(version, b"VENV", [0, 1, 1, 1, 0, 0, 0, 0], &[0, value]);
            refused(&module, 13, 132);
        }
    }
}

#[test]
fn panning_values() {
    let of = |version, value| enveloped(version, b"PENV", [0, 1, 1, 2, 0, 0, 0, 0], &[0, 0, value]);
    for value in [0, 1, 64, 65, 127, 128, -1, -64, -127, -128] {
        accepted(&of(3, value));
    }
    for value in [129, 255, 256, i16::MAX, -129, -256, i16::MIN] {
        refused(&of(3, value), 13, 136);
    }
    for value in [0, 1, 32, 63, 64] {
        accepted(&of(2, value));
    }
    for value in [65, 128, 129, 256, i16::MAX, -1, -64, -128, -129, i16::MIN] {
        refused(&of(2, value), 13, 136);
    }
}

#[test]
fn several_envelopes() {
    // VENV at 108 with blocks at 118 and 254: the value of point 0 of the second is at 264.
    let head = one_chunk([1, 0, 0, 0, 4], b"INST", &instrument(0, 0, [0, 0], 0, 0));
    let valid = envelope([0, 1, 1, 0, 0, 0, 0, 0], &[64]);
    let both = [head, envelopes(b"VENV", &[valid.clone(), valid])].concat();
    // Two envelopes of one instrument are allowed.
    accepted(&both);
    refused(&with(&both, 254, &[0, 2]), 12, 254);
    refused(&with(&both, 256, &[0x20]), 13, 256);
    refused(&with(&both, 264, &[0, 65]), 13, 264);
    // Ascending offset: a fault in the first envelope comes first.
    refused(&with_both(&both, (254, &[0, 0]), (128, &[0, 65])), 13, 128);
}

// Refusal 14.

/// An instrument on a sample of 8 bits; INST at 34, its block at 42.
fn looped(frames: u32, sample_number: u16, start: u32, length: u32, flags: u16) -> Vec<u8> {
    module(&[
        info([1, 1, 0, 0, 4]),
        chunk(b"SONG", &[]),
        chunk(
            b"INST",
            &instrument(sample_number, 0, [start, length], 0, flags),
        ),
        chunk(b"PATT", &[]),
        chunk(b"SMPL", &sample(1, frames, &vec![0; frames as usize])),
    ])
}

#[test]
fn loops_lie_in_their_sample() {
    accepted(&looped(10, 1, 0, 10, 1));
    refused(&looped(10, 1, 0, 11, 1), 14, 42);
    accepted(&looped(10, 1, 9, 1, 2));
    refused(&looped(10, 1, 9, 2, 2), 14, 42);
    refused(&looped(10, 1, 10, 1, 3), 14, 42);
    refused(&looped(0, 1, 0, 1, 1), 14, 42);
    // A loop without a sample.
    refused(&looped(10, 0, 0, 1, 1), 14, 42);
    accepted(&looped(10, 0, 0, 1, 0));
    accepted(&looped(10, 0, 5, 0, 3));
}

#[test]
fn kinds_of_loops() {
    // If neither bit is set there is no loop, and its numbers are not examined.
    accepted(&looped(10, 1, 4_294_967_295, 4_294_967_295, 0));
    for flags in [1, 2, 3] {
        refused(&looped(10, 1, 5, 6, flags), 14, 42);
        accepted(&looped(10, 1, 5, 5, flags));
        // Without a length there is no loop.
        accepted(&looped(10, 1, 4_294_967_295, 0, flags));
        accepted(&looped(10, 1, 11, 0, flags));
    }
}

#[test]
fn loops_count_frames_and_not_bytes() {
    // SMPL of 16 and 32 bits with 3 frames.
    for (flags, bytes) in [(2, 6), (4, 12)] {
        for (length, fits) in [(3, true), (4, false), (6, false), (12, false)] {
            let module = module(&[
                info([1, 1, 0, 0, 4]),
                chunk(b"SONG", &[]),
                chunk(b"INST", &instrument(1, 0, [0, length], 0, 1)),
                chunk(b"PATT", &[]),
                chunk(b"SMPL", &sample(flags, 3, &vec![0; bytes])),
            ]);
            if fits {
                accepted(&module);
            } else {
                refused(&module, 14, 42);
            }
        }
    }
}

#[test]
fn loops_by_instrument() {
    // Samples of 1 and 3 frames; blocks at 42, 92 and 142.
    let of = |loops: [(u16, u32); 3]| {
        let instruments = loops.map(|(number, length)| instrument(number, 0, [0, length], 0, 2));
        module(&[
            info([3, 2, 0, 0, 4]),
            chunk(b"SONG", &[]),
            chunk(b"INST", &instruments.concat()),
            chunk(b"PATT", &[]),
            chunk(
                b"SMPL",
                &[sample(1, 1, &[0]), sample(1, 3, &[0; 3])].concat(),
            ),
        ])
    };
    accepted(&of([(1, 1), (2, 3), (2, 2)]));
    refused(&of([(1, 2), (2, 4), (2, 2)]), 14, 42);
    refused(&of([(1, 1), (2, 4), (1, 2)]), 14, 92);
    refused(&of([(1, 1), (2, 3), (1, 2)]), 14, 142);
}

// Refusal 15.

#[test]
fn streams_are_valid() {
    // PATT at 42, the first block at 50, its stream at 56.
    let of = |tracks, rows, stream: &[u8]| {
        one_chunk([0, 0, 0, 1, tracks], b"PATT", &pattern(rows, stream, 0))
    };
    accepted(&of(4, 2, &[0x02, 0x03, 0x47, 0x01, 0x00, 0x00]));
    accepted(&of(4, 2, &[0x02, 0x01, 0x47, 0x02, 0x02, 0x01, 0x00, 0x00]));
    accepted(&of(4, 1, &[0x01, 0x00, 0x00]));
    accepted(&of(4, 0, &[]));
    refused(&of(4, 0, &[0x00]), 15, 50);
    refused(&of(4, 1, &[0x05, 0x01, 0x47, 0x00]), 15, 50);
    accepted(&of(6, 1, &[0x05, 0x01, 0x47, 0x00]));
    accepted(&of(254, 1, &[0xFE, 0x01, 0x47, 0x00]));
    refused(&of(254, 1, &[0xFF, 0x01, 0x47, 0x00]), 15, 50);
    accepted(&of(4, 1, &[0x01, 0x41, 0x47, 0x00]));
    refused(&of(4, 2, &[0x00]), 15, 50);
    refused(&of(4, 1, &[0x00, 0x00]), 15, 50);
    refused(&of(4, 1, &[0x01, 0x3F, 1, 2, 3, 4, 5]), 15, 50);
    refused(&of(4, 65_535, &[]), 15, 50);
}

#[test]
fn streams_by_pattern() {
    // Blocks at 50, 58 and 68: 6 + 2, 6 + 3 + 1 and 6 + 2 bytes.
    let three = one_chunk(
        [0, 0, 0, 3, 4],
        b"PATT",
        &[
            pattern(2, &[0, 0], 0),
            pattern(1, &[4, 0, 0], 0),
            pattern(2, &[0, 0], 0),
        ]
        .concat(),
    );
    accepted(&three);
    refused(&with(&three, 56, &[1]), 15, 50);
    refused(&with(&three, 64, &[5]), 15, 58);
    refused(&with(&three, 75, &[1]), 15, 68);
    refused(&with_both(&three, (75, &[1]), (64, &[5])), 15, 58);
}

// The register.

#[test]
fn p10() {
    accepted(&looped(100, 1, 90, 10, 1));
    refused(&looped(100, 1, 90, 11, 1), 14, 42);
    refused(&looped(100, 1, 4_294_967_295, 2, 1), 14, 42);
}

#[test]
fn p11() {
    for value in [0, 32, 64] {
        accepted(&enveloped(2, b"PENV", [0, 1, 1, 0, 0, 0, 0, 0], &[value]));
    }
    refused(
        &enveloped(2, b"PENV", [0, 1, 1, 0, 0, 0, 0, 0], &[65]),
        13,
        128,
    );
}

#[test]
fn register_tracks() {
    accepted(&with(&smallest(), 24, &[0, 4]));
    accepted(&with(&smallest(), 24, &[0, 254]));
    refused(&with(&smallest(), 24, &[0, 2]), 10, 24);
    refused(&with(&smallest(), 24, &[0, 5]), 10, 24);
    refused(&with(&smallest(), 24, &[0, 255]), 10, 24);
    refused(&with(&smallest(), 24, &[1, 0]), 10, 24);
}

#[test]
fn register_volume_and_sections() {
    accepted(&with(&rich(), 122, &[0, 64]));
    refused(&with(&rich(), 122, &[0, 65]), 13, 122);
    accepted(&with(&rich(), 187, &[31]));
    refused(&with(&rich(), 187, &[32]), 13, 187);
    accepted(&with(&rich(), 333, &[31]));
    refused(&with(&rich(), 333, &[32]), 13, 333);
}

// The slips.

#[test]
fn a_wild_loop_does_not_come_out_small() {
    for (start, length) in [
        (4_294_967_295, 2),
        (4_294_967_295, 11),
        (2_147_483_648, 2_147_483_648),
        (1, 4_294_967_295),
        (4_294_967_295, 4_294_967_295),
    ] {
        for flags in [1, 2, 3] {
            refused(&looped(10, 1, start, length, flags), 14, 42);
        }
    }
}

#[test]
fn points_in_use_are_one_more_than_sections() {
    // The value of point k is at 128 + 4k.
    for (name, wrong) in [(b"VENV", 65), (b"PENV", 129)] {
        let first = |sections| [0, 1, 0, sections, 0, 0, 0, 0];
        refused(&enveloped(3, name, first(0), &[wrong]), 13, 128);
        accepted(&enveloped(3, name, first(0), &[0, wrong]));
        refused(&enveloped(3, name, first(3), &[0, 0, 0, wrong]), 13, 140);
        accepted(&enveloped(3, name, first(3), &[0, 0, 0, 0, wrong]));
        let mut values = [0; 32];
        values[31] = wrong;
        refused(&enveloped(3, name, first(31), &values), 13, 252);
        accepted(&enveloped(3, name, first(30), &values));
    }
}

#[test]
fn unused_points_and_positions_are_not_examined() {
    for name in [b"VENV", b"PENV"] {
        for version in [2, 3] {
            let module = enveloped(version, name, [0, 1, 1, 1, 0, 0, 0, 0], &[64, 0]);
            // Positions at 126 and 130; the points from 134 on are not in use.
            accepted(&with_both(&module, (126, &[0xFF, 0xFF]), (130, &[0x80, 0])));
            accepted(&with(&module, 134, &[0xFF; 120]));
        }
    }
}

#[test]
fn values_count_where_the_envelope_is_off() {
    refused(
        &enveloped(3, b"VENV", [0, 1, 0, 1, 0, 0, 0, 0], &[0, 65]),
        13,
        132,
    );
    refused(
        &enveloped(3, b"PENV", [0, 1, 0, 1, 0, 0, 0, 0], &[-129, 0]),
        13,
        128,
    );
    refused(
        &enveloped(2, b"PENV", [0, 1, 0, 1, 0, 0, 0, 0], &[0, -1]),
        13,
        132,
    );
    refused(
        &enveloped(3, b"VENV", [0, 1, 0x02, 1, 2, 0, 0, 0], &[0, 0]),
        13,
        122,
    );
}

#[test]
fn the_panning_of_instruments_is_not_scaled() {
    // INST at 34, its block at 42: panning at 88.
    for version in [2, 3] {
        let of = |panning| {
            let module = one_chunk(
                [1, 0, 0, 0, 4],
                b"INST",
                &instrument(0, 0, [0, 0], panning, 0),
            );
            with(&module, 4, &[version])
        };
        for panning in [-128, -1, 0, 64, 65, 128] {
            accepted(&of(panning));
        }
        for panning in [-129, 129] {
            refused(&of(panning), 13, 88);
        }
    }
}

#[test]
fn the_filler_is_no_row_end() {
    let of = |rows, stream: &[u8], filler| {
        one_chunk([0, 0, 0, 1, 4], b"PATT", &pattern(rows, stream, filler))
    };
    accepted(&of(1, &[0], 0));
    refused(&of(2, &[0], 0), 15, 50);
    refused(&of(1, &[1, 1, 0x47], 0), 15, 50);
    // The filler is not examined.
    for filler in [1, 5, 0x40, 0xFF] {
        accepted(&of(1, &[0], filler));
    }
    // If the length includes the filler, it is a byte left over: 2 at 52.
    refused(&with(&of(1, &[0], 0), 52, &[0, 0, 0, 2]), 15, 50);
}

/// Faults that are checked after all chunks are known, in the order of the checks: the place in `rich`, the bytes to write there, and the
/// expected refusal.
const FAULTS: [(usize, &[u8], u64, u64); 33] = [
    (156, b"X", 8, 466),
    (78, &[0, 0], 11, 26),
    (16, &[0, 2], 11, 82),
    (150, &[0, 0, 0, 3], 11, 140),
    (164, &[0, 0, 0, 3], 11, 156),
    (182, &[0, 2], 11, 174),
    (328, &[0, 0], 11, 320),
    (80, &[0, 1], 12, 80),
    (120, &[0, 2], 12, 120),
    (122, &[0, 65], 13, 122),
    (136, &[0, 129], 13, 136),
    (138, &[0, 5], 13, 138),
    (184, &[0, 0], 12, 184),
    (186, &[0x1F], 13, 186),
    (187, &[32], 13, 187),
    (188, &[33], 13, 188),
    (189, &[33], 13, 189),
    (190, &[33], 13, 190),
    (191, &[33], 13, 191),
    (194, &[0, 65], 13, 194),
    (198, &[0xFF, 0xFF], 13, 198),
    (330, &[0, 2], 12, 330),
    (332, &[0x8F], 13, 332),
    (333, &[255], 13, 333),
    (334, &[255], 13, 334),
    (335, &[255], 13, 335),
    (336, &[255], 13, 336),
    (337, &[255], 13, 337),
    (340, &[0xFF, 0x7F], 13, 340),
    (344, &[0, 129], 13, 344),
    (132, &[0, 0, 0, 3], 14, 90),
    (154, &[5], 15, 148),
    // Not a fault: the filler.
    (155, &[7], 0, 0),
];

/// The same faults for `reversed`.
const REVERSED_FAULTS: [(usize, &[u8], u64, u64); 33] = [
    (318, b"X", 8, 466),
    (462, &[0, 0], 11, 410),
    (308, &[0, 2], 11, 352),
    (346, &[0, 0, 0, 3], 11, 336),
    (326, &[0, 0, 0, 3], 11, 318),
    (162, &[0, 2], 11, 154),
    (16, &[0, 0], 11, 8),
    (464, &[0, 1], 12, 464),
    (390, &[0, 2], 12, 390),
    (392, &[0, 65], 13, 392),
    (406, &[0, 129], 13, 406),
    (408, &[0, 5], 13, 408),
    (164, &[0, 0], 12, 164),
    (166, &[0x1F], 13, 166),
    (167, &[32], 13, 167),
    (168, &[33], 13, 168),
    (169, &[33], 13, 169),
    (170, &[33], 13, 170),
    (171, &[33], 13, 171),
    (174, &[0, 65], 13, 174),
    (178, &[0xFF, 0xFF], 13, 178),
    (18, &[0, 2], 12, 18),
    (20, &[0x8F], 13, 20),
    (21, &[255], 13, 21),
    (22, &[255], 13, 22),
    (23, &[255], 13, 23),
    (24, &[255], 13, 24),
    (25, &[255], 13, 25),
    (28, &[0xFF, 0x7F], 13, 28),
    (32, &[0, 129], 13, 32),
    (402, &[0, 0, 0, 3], 14, 360),
    (350, &[5], 15, 344),
    (351, &[7], 0, 0),
];

fn is(module: &[u8], number: u64, place: u64) {
    if number == 0 {
        accepted(module);
    } else {
        refused(module, number, place);
    }
}

#[test]
fn each_fault_and_each_pair_of_faults() {
    for (module, faults) in [(rich(), FAULTS), (reversed(), REVERSED_FAULTS)] {
        for (index, (at, bytes, number, place)) in faults.into_iter().enumerate() {
            let once = with(&module, at, bytes);
            is(&once, number, place);
            for (other, others, _, _) in &faults[index + 1..] {
                is(&with(&once, *other, others), number, place);
            }
        }
    }
}

#[test]
fn all_later_faults_at_once() {
    for (module, faults) in [(rich(), FAULTS), (reversed(), REVERSED_FAULTS)] {
        let mut module = module;
        for (at, bytes, number, place) in faults.into_iter().rev() {
            module = with(&module, at, bytes);
            is(&module, number, place);
        }
    }
}

#[test]
fn from_the_front_the_first_faulty_chunk_decides() {
    let letters = || chunk(b"XyZW", &[]);
    let past = || chunk_with_length(b"XYZW", 9_999, &[]);
    let twice = || [chunk(b"VENV", &[0, 0]), chunk(b"VENV", &[0, 0])].concat();
    let early = || chunk(b"SONG", &[]);
    let name = || chunk(b"NAME", &[1, 2]);
    let short = || chunk(b"INFO", &[0; 8]);
    let odd = || info([0, 0, 0, 0, 5]);
    let many = || info([0, 256, 0, 0, 4]);
    let rest = || smallest()[8..].to_vec();
    let of = |first: Vec<u8>, second: Vec<u8>| module(&[first, second, rest()]);
    // Invalid letters, 8 bytes.
    for second in [past(), twice(), early(), name(), short(), odd()] {
        refused(&of(letters(), second), 5, 8);
    }
    // Data past the end.
    for second in [letters(), twice(), early(), name(), short(), odd()] {
        refused(&of(past(), second), 4, 8);
    }
    // The second VENV, 10 bytes after the first.
    for second in [letters(), past(), early(), name(), short(), odd()] {
        refused(&of(twice(), second), 6, 18);
    }
    // SONG before INFO.
    for second in [letters(), past(), twice(), name(), short(), odd()] {
        refused(&of(early(), second), 7, 8);
    }
    // NAME of 2 bytes.
    for second in [letters(), past(), twice(), early(), short(), odd()] {
        refused(&of(name(), second), 9, 8);
    }
    // INFO of 8 bytes.
    for second in [letters(), past(), twice(), early(), name(), odd()] {
        refused(&of(short(), second), 9, 8);
    }
    // INFO with a wrong number of tracks, and with a wrong number of samples.
    for second in [letters(), past(), twice(), early(), name(), short(), odd()] {
        refused(&of(odd(), second.clone()), 10, 24);
        refused(&of(many(), second), 10, 18);
    }
}

#[test]
fn in_one_chunk_the_order_of_the_checks_decides() {
    // 2 before 3: other letters and version 4.
    refused(&with(&smallest(), 3, b"1\x04"), 2, 0);
    refused(b"DBM1\x04", 2, 0);
    refused(b"DBM0\x04\x00\x00", 2, 0);
    // 3 before 4, 5 and 8.
    refused(b"DBM0\x04\x00\x00\x00", 3, 4);
    refused(b"DBM0\x03\x0A\x00\x00X", 3, 4);
    refused(b"DBM0\x03\xA0\x00\x00xxxx\x00\x00\x00\x00", 3, 4);
    // 4 (a cut header) before 5.
    refused(&[&smallest()[..], b"xyzw\x00\x00\x00"].concat(), 4, 58);
    // 5 before 4 (data past the end).
    refused(
        &[smallest(), chunk_with_length(b"xyzw", 1, &[])].concat(),
        5,
        58,
    );
    // 4 before 6: a second INFO, SONG, NAME, cut.
    refused(
        &[smallest(), chunk_with_length(b"INFO", 10, &[0; 9])].concat(),
        4,
        58,
    );
    refused(
        &[smallest(), chunk_with_length(b"SONG", 1, &[])].concat(),
        4,
        58,
    );
    // 4 before 7: SONG before INFO, cut.
    refused(&module(&[chunk_with_length(b"SONG", 1, &[])]), 4, 8);
    // 4 before 9: NAME of length 45 with 44 bytes; INFO of length 11 with 10.
    refused(&module(&[chunk_with_length(b"NAME", 45, &[0; 44])]), 4, 8);
    refused(&module(&[chunk_with_length(b"INFO", 11, &[0; 10])]), 4, 8);
    // 6 before 9: a second NAME of 3 bytes, a second INFO of 9.
    let named = [smallest(), chunk(b"NAME", &[0; 44])].concat();
    refused(&[named, chunk(b"NAME", &[0; 3])].concat(), 6, 110);
    refused(&[smallest(), chunk(b"INFO", &[0; 9])].concat(), 6, 58);
    // 6 before 10: a second INFO with 5 tracks.
    refused(&[smallest(), info([0, 0, 0, 0, 5])].concat(), 6, 58);
    // 9 before 10: INFO of 12 bytes that begins with wrong numbers.
    refused(&module(&[chunk(b"INFO", &[0xFF; 12]), four()]), 9, 8);
    refused(&module(&[chunk(b"INFO", &[0xFF; 8]), four()]), 9, 8);
}

#[test]
fn wrong_numbers_of_info_by_offset() {
    let wrong = |first: usize| {
        let mut numbers = [0, 0, 0, 0, 4];
        numbers[first..].fill(0xFFFF);
        module(&[info(numbers), four()])
    };
    refused(&wrong(0), 10, 16);
    refused(&wrong(1), 10, 18);
    refused(&wrong(2), 10, 20);
    refused(&wrong(3), 10, 22);
    refused(&wrong(4), 10, 24);
}

#[test]
fn the_walk_comes_before_what_is_missing_and_that_before_blocks() {
    // SMPL is XMPL: 8 would be at the end.
    let missing = with(&smallest(), 50, b"X");
    refused(&missing, 8, 58);
    refused(&[&missing[..], &[0; 3]].concat(), 4, 58);
    refused(&[missing.clone(), chunk(b"XYZw", &[])].concat(), 5, 58);
    refused(&[missing.clone(), chunk(b"PATT", &[])].concat(), 6, 58);
    refused(&[missing.clone(), chunk(b"NAME", &[])].concat(), 9, 58);
    refused(&with(&missing, 24, &[0, 5]), 10, 24);
    refused(&module(&[four(), chunk(b"XYZW", &[])]), 7, 8);
    // No INFO: a missing chunk is reported only if none of the four occurs.
    refused(
        &module(&[chunk(b"VENV", &[0, 0]), chunk(b"XYZW", &[])]),
        8,
        26,
    );
    // 8 before 11: a song is missing too.
    refused(&with(&missing, 20, &[0, 1]), 8, 58);
    // 10 before 11.
    refused(
        &with_both(&smallest(), (20, &[0, 1]), (24, &[0, 3])),
        10,
        24,
    );
    // The last bytes before 11.
    refused(&[&with(&smallest(), 20, &[0, 1])[..], &[1]].concat(), 4, 58);
}

// The listing.

#[test]
fn the_listing_of_the_smallest() {
    assert_eq!(
        listing(&smallest()),
        "version 3.00\n\
         instruments 0\n\
         samples 0\n\
         songs 0\n\
         patterns 0\n\
         tracks 4\n\
         accepted 58\n"
    );
}

#[test]
fn the_listing_of_others() {
    assert_eq!(
        listing(&with(&rich(), 4, &[2, 0x21])),
        "version 2.21\ninstruments 1\nsamples 1\nsongs 1\npatterns 1\ntracks 4\naccepted 466\n"
    );
    let various = module(&[
        info([2, 1, 3, 5, 254]),
        chunk(b"SONG", &song(&[]).repeat(3)),
        chunk(b"INST", &instrument(0, 0, [0, 0], 0, 0).repeat(2)),
        chunk(b"PATT", &pattern(0, &[], 0).repeat(5)),
        chunk(b"SMPL", &sample(1, 0, &[])),
    ]);
    assert_eq!(
        listing(&with(&various, 5, &[0x05])),
        "version 3.05\ninstruments 2\nsamples 1\nsongs 3\npatterns 5\ntracks 254\naccepted 334\n"
    );
    assert_eq!(listing(&smallest()[..42]), "refused 8 at 42\n");
    assert_eq!(listing(b""), "refused 2 at 0\n");
}

#[test]
fn the_listing_of_much_input() {
    // Another chunk at 58.
    let of = |length: u32| {
        let data = vec![0; length as usize - 66];
        [smallest(), chunk_with_length(b"XYZW", length - 66, &data)].concat()
    };
    assert!(listing(&of(65_536)).ends_with("\naccepted 65536\n"));
    assert_eq!(listing(&of(65_537)), "input too big\n");
    assert!(lines(&of(65_537)).ends_with("\naccepted 65537\n"));
    assert_eq!(listing(&vec![0; 65_536]), "refused 2 at 0\n");
    assert_eq!(listing(&vec![0; 65_537]), "input too big\n");
}

#[test]
fn lines_into_an_output() {
    let text =
        b"version 3.00\ninstruments 0\nsamples 0\nsongs 0\npatterns 0\ntracks 4\naccepted 58\n";
    assert_eq!(text.len(), 77);
    let mut out = [0xAA; 80];
    assert_eq!(write(&smallest(), &mut out), Ok(77));
    assert_eq!(&out[..77], text);
    assert_eq!(out[77..], [0xAA; 3]);
    let short = Refusal {
        number: 17,
        place: 77,
    };
    let mut out = [0xAA; 76];
    assert_eq!(write(&smallest(), &mut out), Err(short));
    assert_eq!(write(&smallest(), &mut []), Err(short));
    assert_eq!(out, [0xAA; 76]);
    let mut out = [0xAA; 16];
    assert_eq!(write(&HEADER, &mut out), Ok(15));
    assert_eq!(&out, b"refused 8 at 8\n\xAA");
}
