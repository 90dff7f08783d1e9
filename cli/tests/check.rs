//! `dbm0 check`: the lines, typed by hand, and the exit statuses.

mod common;

use common::{run, run_on, sample, sample_bytes, text, Folder};
use reference::draft::{Chunk, Draft, Envelope, Instrument, Pattern, Sample, Song, Tune};

/// Checks a module from standard input. The program prints the file's name and this text.
#[track_caller]
fn says(module: &[u8], line: &str) {
    let status = if line == "accepted" { 0 } else { 1 };
    run_on(&["check", "-"], module).is(status, &format!("-: {line}\n"), "");
}

fn song(name: &[u8], playlist: &[u16]) -> Song {
    Song {
        name: name.to_vec(),
        playlist: playlist.to_vec(),
    }
}

/// Two songs, two instruments, two patterns of 2 rows, two samples, and an envelope of each kind. The chunks are at these places: NAME 8,
/// INFO 60, VENV 78, PENV 224, SONG 370, INST 476, PATT 584, SMPL 616.
fn tune() -> Tune {
    let stream = [2, 3, 0x47, 1, 0, 0];
    Tune {
        name: Some(b"a tune".to_vec()),
        songs: vec![song(b"first", &[0, 1]), song(b"second", &[1])],
        instruments: vec![
            Instrument {
                name: b"drum".to_vec(),
                sample: 1,
                ..Instrument::default()
            },
            Instrument {
                name: b"organ".to_vec(),
                sample: 2,
                loop_start: 90,
                loop_length: 10,
                flags: 1,
                ..Instrument::default()
            },
        ],
        patterns: vec![Pattern::new(2, &stream), Pattern::new(2, &stream)],
        samples: vec![Sample::new(2, &[0; 20]), Sample::new(1, &[0; 100])],
        volume_envelopes: Some(vec![Envelope {
            instrument: 2,
            flags: 1,
            sections: 3,
            ..Envelope::default()
        }]),
        panning_envelopes: Some(vec![Envelope {
            instrument: 1,
            flags: 1,
            sections: 1,
            ..Envelope::default()
        }]),
        ..Tune::default()
    }
}

#[test]
fn the_samples() {
    let expected = [
        ("carousel.dbm", "accepted"),
        ("old.dbm", "accepted"),
        ("smallest.dbm", "accepted"),
        (
            "short-organ.dbm",
            "refused 14 at 540: instrument 2 \"organ\": loop 16 + 48 is outside its sample 2 (40 frames)",
        ),
        (
            "broken-pattern.dbm",
            "refused 15 at 728: pattern 1 (12 rows): 1 byte is left over after its last row (at 71 of its 72 packed bytes)",
        ),
    ];
    let there = common::names(&sample(""));
    let modules = there.iter().filter(|name| name.ends_with(".dbm")).count();
    assert_eq!(modules, expected.len());
    let mut all = vec!["check".to_string()];
    let mut lines = String::new();
    for (name, line) in expected {
        let path = sample(name);
        let file = text(&path).to_string();
        let status = if line == "accepted" { 0 } else { 1 };
        run(&["check", &file]).is(status, &format!("{file}: {line}\n"), "");
        says(&sample_bytes(name), line);
        lines += &format!("{file}: {line}\n");
        all.push(file);
    }
    run(&all).is(1, &lines, "");
    run(&all[..4]).is(
        0,
        &lines
            .lines()
            .take(3)
            .fold(String::new(), |text, line| text + line + "\n"),
        "",
    );
}

#[test]
fn the_base_is_accepted() {
    says(&tune().bytes(), "accepted");
}

#[test]
fn refusal_1() {
    let words = "refused 1 at 0: the module has more than 16777216 bytes";
    let mut module = tune().draft();
    let room = 16_777_216 - module.bytes().len() - 8;
    module.chunks.push(Chunk::new(b"FILL", vec![7; room]));
    says(&module.bytes(), "accepted");
    module.chunks.pop();
    module.chunks.push(Chunk::new(b"FILL", vec![7; room + 1]));
    says(&module.bytes(), words);
    // Longer than what the program reads.
    says(&vec![b'D'; 40_000_000], words);
    // An endless input.
    run(&["check", "/dev/zero"]).is(1, &format!("/dev/zero: {words}\n"), "");
}

#[test]
fn refusal_2() {
    says(
        b"",
        "refused 2 at 0: this is no DBM0 module: it has 0 bytes, and the header alone has 8",
    );
    says(
        b"D",
        "refused 2 at 0: this is no DBM0 module: it has 1 byte, and the header alone has 8",
    );
    says(
        b"DBM0\x03\0\0",
        "refused 2 at 0: this is no DBM0 module: it has 7 bytes, and the header alone has 8",
    );
    says(
        b"FORM\0\0\0\x08",
        "refused 2 at 0: this is no DBM0 module: it begins with \"FORM\", not with \"DBM0\"",
    );
    says(
        b"\x1b[\"\0\0\0\0\x08",
        "refused 2 at 0: this is no DBM0 module: it begins with \"\\x1b[\\x22\\x00\", not with \"DBM0\"",
    );
}

#[test]
fn refusal_3() {
    let mut module = tune().bytes();
    module[4] = 4;
    says(
        &module,
        "refused 3 at 4: version 4 is not a known one: it must be 2 or 3",
    );
    module[4] = 0x30;
    says(
        &module,
        "refused 3 at 4: version 30 is not a known one: it must be 2 or 3",
    );
    module[4] = 3;
    module[5] = 0x1A;
    says(
        &module,
        "refused 3 at 4: revision 1a is not two decimal digits",
    );
}

#[test]
fn refusal_4() {
    let whole = Tune::default().bytes();
    let with = |tail: &[u8]| [&whole[..], tail].concat();
    says(
        &with(b"S"),
        "refused 4 at 58: the header of a chunk is cut: 1 byte is left, it has 8",
    );
    says(
        &with(b"SMPLabc"),
        "refused 4 at 58: the header of a chunk is cut: 7 bytes are left, it has 8",
    );
    says(
        &with(b"ABCD\0\0\0\x01"),
        "refused 4 at 58: chunk ABCD is cut: it should have 1 byte, and 0 bytes are left",
    );
    says(
        &with(b"ABCD\xFF\xFF\xFF\xFFx"),
        "refused 4 at 58: chunk ABCD is cut: it should have 4294967295 bytes, and 1 byte is left",
    );
}

#[test]
fn refusal_5() {
    let whole = Tune::default().bytes();
    let with = |tail: &[u8]| [&whole[..], tail].concat();
    says(
        &with(b"Abcd\0\0\0\0"),
        "refused 5 at 58: the chunk's identifier \"Abcd\" is not four letters A to Z",
    );
    says(
        &with(b"\xFFB\0\0\0\0\0\0"),
        "refused 5 at 58: the chunk's identifier \"\\xffB\\x00\\x00\" is not four letters A to Z",
    );
}

#[test]
fn refusal_6() {
    let mut draft = tune().draft();
    draft.chunks.push(Chunk::new(b"NAME", vec![0; 44]));
    let place = tune().bytes().len();
    says(
        &draft.bytes(),
        &format!("refused 6 at {place}: chunk NAME stands a second time, the first is at 8"),
    );
}

#[test]
fn refusal_7() {
    let draft = Tune::default().draft().ordered(&[*b"SMPL", *b"INFO"]);
    says(
        &draft.bytes(),
        "refused 7 at 8: chunk SMPL stands before INFO",
    );
}

#[test]
fn refusal_8() {
    let without = |names: &[&[u8; 4]]| {
        let mut draft = Tune::default().draft();
        draft.chunks.retain(|chunk| !names.contains(&&chunk.name));
        draft.bytes()
    };
    says(
        &without(&[b"PATT"]),
        "refused 8 at 50: chunk PATT is missing",
    );
    says(
        &without(&[b"SONG", b"SMPL"]),
        "refused 8 at 42: the chunks SONG and SMPL are missing",
    );
    says(
        b"DBM0\x03\0\0\0",
        "refused 8 at 8: the chunks INFO, SONG, INST, PATT and SMPL are missing",
    );
}

#[test]
fn refusal_9() {
    let mut draft = tune().draft();
    draft.chunk(b"NAME").data.pop();
    says(
        &draft.bytes(),
        "refused 9 at 8: chunk NAME has 43 bytes, it must have 44",
    );
    let mut draft = Tune::default().draft();
    draft.chunk(b"INFO").data = vec![0];
    says(
        &draft.bytes(),
        "refused 9 at 8: chunk INFO has 1 byte, it must have 10",
    );
}

#[test]
fn refusal_10() {
    let with = |field: usize, number: u16| {
        let mut draft = Tune::default().draft();
        draft.put(b"INFO", 2 * field, &number.to_be_bytes());
        draft.bytes()
    };
    let expected = [
        (
            0,
            256,
            "refused 10 at 16: INFO says 256 instruments, it must be 0 to 255",
        ),
        (
            1,
            300,
            "refused 10 at 18: INFO says 300 samples, it must be 0 to 255",
        ),
        (
            2,
            32_768,
            "refused 10 at 20: INFO says 32768 songs, it must be 0 to 32767",
        ),
        (
            3,
            1_025,
            "refused 10 at 22: INFO says 1025 patterns, it must be 0 to 1024",
        ),
        (
            4,
            5,
            "refused 10 at 24: INFO says 5 tracks, it must be an even number from 4 to 254",
        ),
        (
            4,
            256,
            "refused 10 at 24: INFO says 256 tracks, it must be an even number from 4 to 254",
        ),
    ];
    for (field, number, line) in expected {
        says(&with(field, number), line);
    }
}

/// The module with one change in a chunk's data.
fn changed(name: &[u8; 4], change: impl Fn(&mut Vec<u8>)) -> Vec<u8> {
    let mut draft = tune().draft();
    change(&mut draft.chunk(name).data);
    draft.bytes()
}

#[test]
fn refusal_11() {
    says(
        &changed(b"SONG", |data| data.extend([0, 1])),
        "refused 11 at 370: chunk SONG has 2 bytes left over behind its 2 songs",
    );
    says(
        &changed(b"SONG", |data| data[45] = 200),
        "refused 11 at 370: chunk SONG should hold 2 songs: song 0 \"first\" needs 446 bytes, and 98 bytes are left",
    );
    says(
        &changed(b"SONG", |data| data.truncate(80)),
        "refused 11 at 370: chunk SONG should hold 2 songs: of song 1 only 30 bytes are left",
    );
    says(
        &changed(b"INST", |data| data.truncate(99)),
        "refused 11 at 476: chunk INST should hold 2 instruments: instrument 2 \"organ\" needs 50 bytes, and 49 bytes are left",
    );
    says(
        &changed(b"PATT", |data| data[17] = 7),
        "refused 11 at 584: chunk PATT should hold 2 patterns: pattern 1 needs 14 bytes, and 12 bytes are left",
    );
    says(
        &changed(b"PATT", |data| data.truncate(16)),
        "refused 11 at 584: chunk PATT should hold 2 patterns: of pattern 1 only 4 bytes are left",
    );
    says(
        &changed(b"SMPL", |data| data[35] += 1),
        "refused 11 at 616: chunk SMPL should hold 2 samples: sample 2 needs 109 bytes, and 108 bytes are left",
    );
    says(
        &changed(b"SMPL", |data| data[31] = 3),
        "refused 11 at 616: sample 2: flags 3 are not 1, 2 or 4 (8, 16 or 32 bits)",
    );
    says(
        &changed(b"SMPL", |data| data[3] = 0),
        "refused 11 at 616: sample 1: flags 0 are not 1, 2 or 4 (8, 16 or 32 bits)",
    );
    says(
        &changed(b"VENV", |data| data.truncate(1)),
        "refused 11 at 78: chunk VENV has 1 byte, too few for the number of its envelopes",
    );
    says(
        &changed(b"PENV", |data| data[1] = 2),
        "refused 11 at 224: chunk PENV should hold 2 panning envelopes: panning envelope 1 needs 136 bytes, and 0 bytes are left",
    );
    says(
        &changed(b"VENV", |data| data.push(0)),
        "refused 11 at 78: chunk VENV has 1 byte left over behind its 1 volume envelope",
    );
}

/// The module with other bytes at an offset in a chunk's data.
fn put(name: &[u8; 4], offset: usize, bytes: &[u8]) -> Vec<u8> {
    let mut draft = tune().draft();
    draft.put(name, offset, bytes);
    draft.bytes()
}

#[test]
fn refusal_12() {
    says(
        &put(b"SONG", 48, &[0, 2]),
        "refused 12 at 426: song 0 \"first\": entry 1 of its playlist is pattern 2, there are patterns 0 to 1",
    );
    says(
        &put(b"SONG", 96, &[255, 255]),
        "refused 12 at 474: song 1 \"second\": entry 0 of its playlist is pattern 65535, there are patterns 0 to 1",
    );
    says(
        &put(b"INST", 80, &[0, 3]),
        "refused 12 at 564: instrument 2 \"organ\": its sample is 3, there are samples 1 to 2",
    );
    says(
        &put(b"VENV", 2, &[0, 0]),
        "refused 12 at 88: volume envelope 0: its instrument is 0, there are instruments 1 to 2",
    );
    says(
        &put(b"PENV", 2, &[1, 0]),
        "refused 12 at 234: panning envelope 0: its instrument is 256, there are instruments 1 to 2",
    );
    let alone = Tune {
        songs: vec![song(b"\xFCber", &[0])],
        ..Tune::default()
    };
    says(
        &alone.bytes(),
        "refused 12 at 80: song 0 \"\\xfcber\": entry 0 of its playlist is pattern 0, there are no patterns",
    );
    let one = Tune {
        patterns: vec![Pattern::default()],
        songs: vec![song(b"", &[1])],
        ..Tune::default()
    };
    says(
        &one.bytes(),
        "refused 12 at 80: song 0 \"\": entry 0 of its playlist is pattern 1, there is only pattern 0",
    );
}

#[test]
fn refusal_13() {
    let instrument = [
        (82, &[0, 65], "refused 13 at 566: instrument 2 \"organ\": its volume is 65, it must be 0 to 64"),
        (46, &[0, 129], "refused 13 at 530: instrument 1 \"drum\": its panning is 129, it must be -128 to 128"),
        (46, &[255, 127], "refused 13 at 530: instrument 1 \"drum\": its panning is -129, it must be -128 to 128"),
        (98, &[0, 4], "refused 13 at 582: instrument 2 \"organ\": its flags are 4, only bits 0 and 1 may be set"),
    ];
    for (offset, bytes, line) in instrument {
        says(&put(b"INST", offset, bytes), line);
    }
    let of = "volume envelope 0 (of instrument 2 \"organ\")";
    let envelope: [(usize, &[u8], &str); 9] = [
        (
            4,
            &[16],
            "90: {}: its flags are 16, only bits 0 to 3 may be set",
        ),
        (5, &[32], "91: {}: it has 32 sections, 31 at most may be"),
        (
            4,
            &[2, 3, 4],
            "92: {}: its first sustain point is 4, it has points 0 to 3",
        ),
        (
            4,
            &[4, 3, 0, 5],
            "93: {}: its loop's first point is 5, it has points 0 to 3",
        ),
        (
            4,
            &[4, 3, 0, 1, 4],
            "94: {}: its loop's last point is 4, it has points 0 to 3",
        ),
        (
            4,
            &[4, 3, 0, 2, 1],
            "94: {}: its loop goes from point 2 back to point 1",
        ),
        (
            4,
            &[8, 3, 0, 0, 0, 4],
            "95: {}: its second sustain point is 4, it has points 0 to 3",
        ),
        (
            12,
            &[0, 65],
            "98: {}: the value of its point 0 is 65, it must be 0 to 64",
        ),
        (
            24,
            &[255, 255],
            "110: {}: the value of its point 3 is 65535, it must be 0 to 64",
        ),
    ];
    for (offset, bytes, words) in envelope {
        let line = format!("refused 13 at {}", words.replace("{}", of));
        says(&put(b"VENV", offset, bytes), &line);
    }
    let of = "panning envelope 0 (of instrument 1 \"drum\")";
    says(
        &put(b"PENV", 16, &[255, 127]),
        &format!(
            "refused 13 at 248: {of}: the value of its point 1 is -129, it must be -128 to 128"
        ),
    );
    let mut old = put(b"PENV", 16, &[0, 65]);
    old[4] = 2;
    says(
        &old,
        &format!("refused 13 at 248: {of}: the value of its point 1 is 65, it must be 0 to 64"),
    );
}

#[test]
fn refusal_14() {
    says(
        &put(b"INST", 92, &[0, 0, 0, 11]),
        "refused 14 at 534: instrument 2 \"organ\": loop 90 + 11 is outside its sample 2 (100 frames)",
    );
    says(
        &put(b"INST", 88, &[255, 255, 255, 255, 0, 0, 0, 2]),
        "refused 14 at 534: instrument 2 \"organ\": loop 4294967295 + 2 is outside its sample 2 (100 frames)",
    );
    says(
        &put(b"INST", 80, &[0, 0]),
        "refused 14 at 534: instrument 2 \"organ\": loop 90 + 10, but no sample",
    );
}

/// The second pattern has these rows and these packed bytes.
#[track_caller]
fn says_of_pattern(rows: u16, stream: &[u8], line: &str) {
    let mut tune = tune();
    tune.patterns[1] = Pattern::new(rows, stream);
    says(&tune.bytes(), line);
}

/// The second pattern is refused with these words.
#[track_caller]
fn refuses_pattern(rows: u16, stream: &[u8], words: &str) {
    let line = format!("refused 15 at 604: pattern 1 {words}");
    says_of_pattern(rows, stream, &line);
}

#[test]
fn refusal_15() {
    let expected: [(u16, &[u8], &str); 7] = [
        (2, &[0, 5, 0, 0], "(2 rows): an entry of row 1 is about track 5, there are 4 (at 1 of its 4 packed bytes)"),
        (1, &[1, 3, 7], "(1 row): an entry of row 0 for track 1 is cut by the end (at 0 of its 3 packed bytes)"),
        (3, &[0, 0, 4], "(3 rows): an entry of row 2 for track 4 is cut by the end (at 2 of its 3 packed bytes)"),
        (2, &[0], "(2 rows): its packed rows end before row 1 does (at 1 of its 1 packed bytes)"),
        (2, &[], "(2 rows): its packed rows end before row 0 does (at 0 of its 0 packed bytes)"),
        (0, &[0], "(0 rows): 1 byte is left over after its last row (at 0 of its 1 packed bytes)"),
        (1, &[2, 1, 9, 0, 1, 2], "(1 row): 2 bytes are left over after its last row (at 4 of its 6 packed bytes)"),
    ];
    for (rows, stream, words) in expected {
        refuses_pattern(rows, stream, words);
    }
}

/// Bits 6 and 7 of a mask are ignored. A fault at such a mask or after it is described as without these bits.
#[test]
fn upper_bits_of_masks() {
    for bits in [0, 0x40, 0x80, 0xC0] {
        let accepted: [(u16, &[u8]); 3] = [
            (1, &[1, bits | 1, 0x47, 0]),
            (1, &[1, bits, 0]),
            (2, &[4, bits | 0x3F, 1, 2, 3, 4, 5, 6, 0, 1, bits, 0]),
        ];
        for (rows, stream) in accepted {
            says_of_pattern(rows, stream, "accepted");
        }
        // In the last three, row ends would be at other places if one of the bits named a field.
        let refused: [(u16, &[u8], &str); 8] = [
            (1, &[1, bits], "(1 row): its packed rows end before row 0 does (at 2 of its 2 packed bytes)"),
            (1, &[1, bits | 1], "(1 row): an entry of row 0 for track 1 is cut by the end (at 0 of its 2 packed bytes)"),
            (1, &[1, bits | 0x3F, 1, 2, 3, 4, 5], "(1 row): an entry of row 0 for track 1 is cut by the end (at 0 of its 7 packed bytes)"),
            (1, &[5, bits, 0], "(1 row): an entry of row 0 is about track 5, there are 4 (at 0 of its 3 packed bytes)"),
            (1, &[2, bits | 1, 9, 0, 1, 2], "(1 row): 2 bytes are left over after its last row (at 4 of its 6 packed bytes)"),
            (
                2,
                &[2, bits | 1, 9, 1, bits, 0, 3, bits | 6, 1, 2],
                "(2 rows): its packed rows end before row 1 does (at 10 of its 10 packed bytes)",
            ),
            (
                4,
                &[1, bits | 1, 7, 0, 2, bits, 0, 4, bits | 0x21, 7, 8, 0, 9, bits, 0],
                "(4 rows): an entry of row 3 is about track 9, there are 4 (at 12 of its 15 packed bytes)",
            ),
            (
                3,
                &[1, bits, 0, 4, bits | 8, 2, 3, bits, 0, 3, bits | 3, 7],
                "(3 rows): an entry of row 2 for track 3 is cut by the end (at 9 of its 12 packed bytes)",
            ),
        ];
        for (rows, stream, words) in refused {
            refuses_pattern(rows, stream, words);
        }
    }
}

/// A file that cannot be read is reported on standard error. The others are checked, and the status is 2.
#[test]
fn unreadable_files() {
    let good = sample("carousel.dbm");
    let bad = sample("short-organ.dbm");
    let folder = Folder::new();
    let missing = folder.0.join("missing.dbm");
    let run = run(&[
        "check",
        text(&missing),
        text(&good),
        text(&folder.0),
        text(&bad),
    ]);
    assert_eq!(run.status, Some(2));
    assert_eq!(
        run.text(),
        format!(
            "{}: accepted\n{}: refused 14 at 540: instrument 2 \"organ\": loop 16 + 48 is outside its sample 2 (40 frames)\n",
            text(&good),
            text(&bad)
        )
    );
    assert_eq!(
        run.err,
        format!(
            "dbm0: {}: cannot be read: No such file or directory: check its name\n\
             dbm0: {}: cannot be read: Is a directory: name the files in it\n",
            text(&missing),
            text(&folder.0)
        )
    );
}

/// The numbers and places of the examples in the format's documents, from a module made for them.
#[test]
fn the_line_of_the_register() {
    // Instrument 7 of a module. Its sample 3 has 100 frames.
    let tune = Tune {
        samples: vec![
            Sample::new(1, &[0; 8]),
            Sample::new(1, &[0; 8]),
            Sample::new(1, &[0; 100]),
        ],
        instruments: (1..=7)
            .map(|number| Instrument {
                name: if number == 7 {
                    b"organ".to_vec()
                } else {
                    Vec::new()
                },
                sample: 3,
                loop_start: 90,
                loop_length: if number == 7 { 11 } else { 10 },
                flags: 2,
                ..Instrument::default()
            })
            .collect(),
        ..Tune::default()
    };
    let mut draft: Draft = tune.draft();
    let block = 42 + 6 * 50;
    draft
        .chunks
        .insert(0, Chunk::new(b"FILL", vec![0; 9_120 - block - 8]));
    says(
        &draft.bytes(),
        "refused 14 at 9120: instrument 7 \"organ\": loop 90 + 11 is outside its sample 3 (100 frames)",
    );
}
