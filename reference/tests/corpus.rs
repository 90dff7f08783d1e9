//! The corpus, and the expected text, typed by hand.

use std::collections::BTreeSet;

use reference::compare::differences;
use reference::corpus::{
    comparison_cases, encoded, module_cases, pattern_cases, programs, record_cases,
    replacement_cases, take, Case, Query,
};
use reference::draft::{Pattern, Tune};
use reference::expect::expected;
use reference::module::{check, read};
use reference::pattern;
use reference::refusal::Refusal;
use reference::repack::repack;
use reference::replace::{replace_sample, Replaced};

fn stream(rows: u64, tracks: u64, row: u64, track: u64, room: u32, stream: &[u8]) -> Case {
    Case::Stream {
        rows,
        tracks,
        row,
        track,
        room,
        stream: stream.to_vec(),
    }
}

#[test]
fn the_lines_of_p1() {
    let corpus = encoded(&[stream(
        2,
        4,
        0,
        2,
        50,
        &[0x02, 0x03, 0x47, 0x01, 0x00, 0x00],
    )]);
    assert_eq!(corpus.len(), 41 + 6);
    let cells = format!("{}4701{}aaaa", "00".repeat(6), "00".repeat(40));
    let stream = format!("020347010000{}", "aa".repeat(44));
    assert_eq!(
        expected(&corpus),
        format!("check 0 0\nunpack 0 0 48 {cells}\nrepack 0 0 6 {stream}\ncell 0 0 2 4 7 0 1 0 0 0 0\ncases 1\n")
    );
}

#[test]
fn the_lines_of_refusals() {
    let corpus = encoded(&[
        stream(2, 4, 0, 1, 0, &[0x00]),
        stream(1, 5, 0, 1, 1, &[]),
        Case::Cells {
            rows: 1,
            tracks: 4,
            room: 2,
            cells: vec![1; 24],
        },
        Case::Cells {
            rows: 1,
            tracks: 4,
            room: 2,
            cells: vec![0; 24],
        },
        stream(1, 4, 0, 5, 0, &[0]),
    ]);
    assert_eq!(
        expected(&corpus),
        "check 15 1\nunpack 17 48 0 \nrepack 15 1 0 \ncell 15 1 0 0 0 0 0 0 0 0 0\n\
         check 16 0\nunpack 16 0 0 aa\nrepack 16 0 0 aa\ncell 16 0 0 0 0 0 0 0 0 0 0\n\
         pack 17 33 0 aaaa\n\
         pack 0 0 1 00aa\n\
         check 0 0\nunpack 17 24 0 \nrepack 17 1 0 \ncell 18 0 0 0 0 0 0 0 0 0 0\n\
         cases 5\n"
    );
}

#[test]
fn the_lines_of_shown_cells() {
    let corpus = encoded(&[
        Case::Shown([0x00, 1, 2, 3, 4, 5]),
        Case::Shown([0x1F, 0, 0, 0, 0, 255]),
        Case::Shown([0x8B, 0, 0, 0, 9, 0]),
        Case::Shown([0xFF, 7, 0, 0, 0, 0]),
    ]);
    assert_eq!(corpus.len(), 28);
    assert_eq!(
        expected(&corpus),
        "shown 0 0 0 0 1 2 3 4 5\nshown 1 0 0 0 0 0 0 0 255\nshown 2 8 11 0 0 0 0 9 0\nshown 3 0 0 255 7 0 0 0 0\ncases 4\n"
    );
}

#[test]
fn the_lines_of_modules() {
    let mut smallest = b"DBM0\x03\x00\x00\x00INFO\x00\x00\x00\x0A".to_vec();
    smallest.extend([0, 0, 0, 0, 0, 0, 0, 0, 0, 4]);
    for name in [b"SONG", b"INST", b"PATT", b"SMPL"] {
        smallest.extend(name);
        smallest.extend([0; 4]);
    }
    let module = |room, module: &[u8]| Case::Module {
        room,
        module: module.to_vec(),
    };
    let corpus = encoded(&[
        module(78, &smallest),
        module(77, &smallest),
        module(76, &smallest),
        module(0, &smallest),
        module(16, &smallest[..42]),
        module(15, &smallest[..8]),
        module(3, &[]),
    ]);
    assert_eq!(corpus.len(), 7 * 9 + 4 * 58 + 42 + 8);
    assert_eq!(&corpus[..13], b"\x04\x00\x00\x00\x4E\x00\x00\x00\x3ADBM0");
    let text: String =
        b"version 3.00\ninstruments 0\nsamples 0\nsongs 0\npatterns 0\ntracks 4\naccepted 58\n"
            .iter()
            .map(|byte| format!("{byte:02x}"))
            .collect();
    let smallest: String = smallest.iter().map(|byte| format!("{byte:02x}")).collect();
    // Version and revision, no name, the numbers of INFO and the counts of envelopes.
    let records = format!("0300{}{}", "00".repeat(44), "0000000000000000000400000000");
    let filled = |count| "aa".repeat(count);
    assert_eq!(
        expected(&corpus),
        format!(
            "module 0 0\nlines 0 0 77 {text}aa\nrepacked 0 0 58 {smallest}{}\nrepacked 0 0 58 {smallest}\n\
             records 0 0 60 {records}{}\nrecords 0 0 60 {records}{}\n\
             module 0 0\nlines 0 0 77 {text}\nrepacked 0 0 58 {smallest}{}\nrepacked 0 0 58 {smallest}\n\
             records 0 0 60 {records}{}\nrecords 0 0 60 {records}{}\n\
             module 0 0\nlines 17 77 0 {}\nrepacked 0 0 58 {smallest}{}\nrepacked 0 0 58 {smallest}\n\
             records 0 0 60 {records}{}\nrecords 0 0 60 {records}{}\n\
             module 0 0\nlines 17 77 0 \nrepacked 17 58 0 \nrepacked 0 0 58 {smallest}\n\
             records 17 60 0 \nrecords 0 0 60 {records}{}\n\
             module 8 42\nlines 0 0 16 7265667573656420382061742034320a\nrepacked 8 42 0 {}\nrepacked 8 42 0 {}\n\
             records 8 42 0 {}\nrecords 8 42 0 {}\n\
             module 8 8\nlines 0 0 15 72656675736564203820617420380a\nrepacked 8 8 0 {}\nrepacked 8 8 0 {}\n\
             records 8 8 0 {}\nrecords 8 8 0 {}\n\
             module 2 0\nlines 17 15 0 aaaaaa\nrepacked 2 0 0 aaaaaa\nrepacked 2 0 0 \n\
             records 2 0 0 aaaaaa\nrecords 2 0 0 {}\n\
             cases 7\n",
            filled(20),
            filled(18),
            filled(58),
            filled(19),
            filled(17),
            filled(58),
            filled(76),
            filled(18),
            filled(16),
            filled(58),
            filled(58),
            filled(16),
            filled(42),
            filled(16),
            filled(102),
            filled(15),
            filled(8),
            filled(15),
            filled(68),
            filled(60),
        )
    );
}

/// A module with P3 and the filler $FF has 72 bytes. With P1 it has 70.
#[test]
fn the_lines_of_a_repacked_module() {
    let mut module = b"DBM0\x03\x00\x00\x00INFO\x00\x00\x00\x0A".to_vec();
    module.extend([0, 0, 0, 0, 0, 0, 0, 1, 0, 4]);
    module.extend(b"SONG\0\0\0\0INST\0\0\0\0PATT\0\0\0\x0E");
    module.extend([0, 2, 0, 0, 0, 7, 2, 7, 0x47, 1, 0, 0, 0, 0xFF]);
    module.extend(b"SMPL\0\0\0\0");
    let hex = "44424d3003000000494e464f0000000a00000000000000010004\
        534f4e4700000000494e535400000000\
        504154540000000c000200000006020347010000\
        534d504c00000000";
    for (room, own) in [
        (69, format!("17 70 0 {}", "aa".repeat(69))),
        (70, format!("0 0 70 {hex}")),
        (71, format!("0 0 70 {hex}aa")),
    ] {
        let module = module.clone();
        let text = expected(&encoded(&[Case::Module { room, module }]));
        let lines: Vec<&str> = text.lines().collect();
        assert_eq!(lines.len(), 7);
        assert_eq!(lines[0], "module 0 0");
        assert_eq!(lines[2], format!("repacked {own}"));
        assert_eq!(lines[3], format!("repacked 0 0 70 {hex}aaaa"));
        // One pattern of two rows, and an output of 132 bytes.
        let records = format!(
            "0300{}{}",
            "00".repeat(44),
            "00000000000000010004000000000002"
        );
        let filled = "aa".repeat(room as usize - 62);
        assert_eq!(lines[4], format!("records 0 0 62 {records}{filled}"));
        let filled = "aa".repeat(132 - 62);
        assert_eq!(lines[5], format!("records 0 0 62 {records}{filled}"));
    }
}

/// A module of more than 65,536 bytes is repacked into an output of that length, which may be enough. The same holds for its records.
#[test]
fn a_module_of_more_than_65536_bytes() {
    let of_rows = |rows: u16, entry: &[u8]| {
        let stream = [entry, &[0]].concat().repeat(usize::from(rows));
        let tune = Tune {
            patterns: vec![Pattern::new(rows, &stream)],
            ..Tune::default()
        };
        tune.bytes()
    };
    for (module, answer) in [
        (of_rows(30_000, &[1, 0]), "0 0 30064"),
        (of_rows(30_000, &[1, 1, 5]), "17 120064 0"),
    ] {
        let text = expected(&encoded(&[Case::Module { room: 0, module }]));
        for (line, answer) in [(3, answer), (5, "0 0 62")] {
            let line = text.lines().nth(line).expect("there are seven lines");
            let words: Vec<&str> = line.split(' ').collect();
            assert_eq!(words[1..4].join(" "), answer);
            assert_eq!(words[4].len(), 2 * 65_536);
        }
    }
}

/// The first of each item, except the track.
const QUERY: Query = Query {
    song: 0,
    entry: 0,
    instrument: 1,
    envelope: 0,
    pattern: 0,
    row: 0,
    track: 2,
    sample: 1,
    frame: 0,
};

fn records(query: Query, room: u32, module: &[u8]) -> Case {
    Case::Records {
        query,
        room,
        module: module.to_vec(),
    }
}

/// A module of version 2 with one of each item except a name and a volume envelope. INFO is at 8, the sample's frames at 320.
#[rustfmt::skip]
fn one_of_each() -> Vec<u8> {
    [
        &b"DBM0\x02\x15\x00\x00"[..],
        b"INFO\x00\x00\x00\x0A", &[0, 1, 0, 1, 0, 1, 0, 1, 0, 4],
        b"PENV\x00\x00\x00\x8A", &[0, 1], &[0, 1, 5, 1, 7, 0, 1, 9], &[0, 3, 0, 0, 1, 44, 0, 64], &[0xFF; 120],
        b"SONG\x00\x00\x00\x30", b"S", &[0; 43], &[0, 1], &[0, 0],
        b"INST\x00\x00\x00\x32", b"I", &[0; 29], &[0, 1, 0, 64], &[0, 0, 0x20, 0xAB], &[0, 0, 0, 1], &[0, 0, 0, 1],
        &[0xFF, 0xD8], &[0, 2],
        b"PATT\x00\x00\x00\x0A", &[0, 1, 0, 0, 0, 4], &[2, 1, 0x1F, 0],
        b"SMPL\x00\x00\x00\x0C", &[0, 0, 0, 2, 0, 0, 0, 2], &[0x80, 0x00, 0x7F, 0xFF],
    ]
    .concat()
}

/// " 0" repeated.
fn zeros(count: usize) -> String {
    " 0".repeat(count)
}

#[test]
fn the_lines_of_records() {
    let corpus = encoded(&[records(QUERY, 5, &one_of_each())]);
    assert_eq!(corpus.len(), 81 + 324);
    assert_eq!(
        corpus[..17],
        [5, 0, 0, 0, 0, 0, 0, 0, 0, 0, 0, 0, 0, 0, 0, 0, 0]
    );
    assert_eq!(corpus[17..25], [0, 0, 0, 0, 0, 0, 0, 1]);
    assert_eq!(corpus[49..57], [0, 0, 0, 0, 0, 0, 0, 2]);
    assert_eq!(corpus[73..85], *b"\x00\x00\x00\x05\x00\x00\x01\x44DBM0");
    assert_eq!(
        expected(&corpus),
        format!(
            "version 0 0 2 21\n\
             name 0 0 {}\n\
             info 0 0 1 1 1 1 4\n\
             song 0 0 1 53{}\n\
             entry 0 0 0\n\
             playlist 0 0 2 0000aaaaaa\n\
             instrument 0 0 1 64 8363 1 1 2 -40 49{}\n\
             volume_envelopes 0 0 0\n\
             panning_envelopes 0 0 1\n\
             volume_envelope 18 0{}\n\
             panning_envelope 0 0 1 5 1 7 0 1 9 3 300{} -128 128{}\n\
             rows 0 0 1\n\
             cell 0 0 1 0 0 0 0 0 0 0 0\n\
             unpack 17 24 0 aaaaaaaaaa\n\
             sample 0 0 16 2\n\
             frames 0 0 320 4 80007fff\n\
             frame 0 0 -32768\n\
             all_frames 0 0 4 80007fffaa\n\
             cases 1\n",
            "00".repeat(44),
            "00".repeat(43),
            "00".repeat(29),
            zeros(71),
            zeros(30),
            zeros(30),
        )
    );
}

/// The lines of a module that refuses every query with an index with one refusal, and all others with another or not at all.
fn refused_records(summary: &str, counts: &str, refusal: &str, out: &str) -> String {
    format!(
        "{summary}\
         song {refusal} 0 {}\n\
         entry {refusal} 0\n\
         playlist {refusal} 0 {out}\n\
         instrument {refusal}{} {}\n\
         {counts}\
         volume_envelope {refusal}{}\n\
         panning_envelope {refusal}{}\n\
         rows {refusal} 0\n\
         cell {refusal}{}\n\
         unpack {refusal} 0 {out}\n\
         sample {refusal} 0 0\n\
         frames {refusal} 0 0 \n\
         frame {refusal} 0\n\
         all_frames {refusal} 0 {out}\n\
         cases 1\n",
        "00".repeat(44),
        zeros(7),
        "00".repeat(30),
        zeros(71),
        zeros(71),
        zeros(9),
    )
}

#[test]
fn the_lines_of_refused_records() {
    let module = one_of_each();
    let name = "00".repeat(44);
    let summary = format!("version 0 0 2 21\nname 0 0 {name}\ninfo 0 0 1 1 1 1 4\n");
    let counts = "volume_envelopes 0 0 0\npanning_envelopes 0 0 1\n";
    // 18 has priority over 17.
    let past = Query {
        song: 1,
        entry: 1,
        instrument: 2,
        envelope: 1,
        pattern: 1,
        row: 1,
        track: 5,
        sample: 2,
        frame: 2,
    };
    assert_eq!(
        expected(&encoded(&[records(past, 1, &module)])),
        refused_records(&summary, counts, "18 0", "aa")
    );
    // The data of INFO is cut. This has priority over 18.
    let summary = format!("version 4 8 0 0\nname 4 8 {name}\ninfo 4 8 0 0 0 0 0\n");
    let counts = "volume_envelopes 4 8 0\npanning_envelopes 4 8 0\n";
    for query in [QUERY, past] {
        assert_eq!(
            expected(&encoded(&[records(query, 2, &module[..20])])),
            refused_records(&summary, counts, "4 8", "aaaa")
        );
    }
}

#[test]
fn at_most_65536_bytes_of_a_part_are_printed() {
    let mut module = b"DBM0\x03\x00\x00\x00INFO\x00\x00\x00\x0A".to_vec();
    module.extend([0, 0, 0, 1, 0, 0, 0, 0, 0, 4]);
    for name in [b"SONG", b"INST", b"PATT"] {
        module.extend(name);
        module.extend([0; 4]);
    }
    module.extend(b"SMPL\x00\x01\x00\x09\x00\x00\x00\x01\x00\x01\x00\x01");
    module.extend([0x11; 65_536]);
    module.push(0x22);
    let text = expected(&encoded(&[records(QUERY, 0, &module)]));
    let line = format!("\nframes 0 0 66 65537 {}\nframe", "11".repeat(65_536));
    assert!(text.contains(&line));
}

fn replacement(sample: u64, room: u32, frames: &[u8], module: &[u8]) -> Case {
    Case::Replacement {
        sample,
        room,
        frames: frames.to_vec(),
        module: module.to_vec(),
    }
}

/// One instrument with the ping-pong loop 1 + 1 of sample 1, which has two frames of 8 bits. INST is at 34, SMPL at 100.
#[rustfmt::skip]
fn one_loop() -> Vec<u8> {
    [
        &b"DBM0\x03\x00\x00\x00"[..],
        b"INFO\x00\x00\x00\x0A", &[0, 1, 0, 1, 0, 0, 0, 0, 0, 4],
        b"SONG\x00\x00\x00\x00",
        b"INST\x00\x00\x00\x32", &[0x77; 30], &[0, 1, 0, 64], &[0, 0, 0x20, 0xAB], &[0, 0, 0, 1], &[0, 0, 0, 1],
        &[0xFF, 0xD8], &[0, 2],
        b"PATT\x00\x00\x00\x00",
        b"SMPL\x00\x00\x00\x0A", &[0, 0, 0, 1, 0, 0, 0, 2], &[0x11, 0x22],
    ]
    .concat()
}

/// The result for one frame, $1234: 118 bytes as before, without the loop.
const ONE_FRAME: &str = "44424d3003000000494e464f0000000a00010001000000000004\
    534f4e4700000000\
    494e535400000032\
    777777777777777777777777777777777777777777777777777777777777\
    00010040000020ab0000000000000000ffd80000\
    5041545400000000\
    534d504c0000000a00000002000000011234";

/// The result for the three frames $1234, $5678 and $9ABC: 122 bytes, with the loop.
const THREE_FRAMES: &str = "44424d3003000000494e464f0000000a00010001000000000004\
    534f4e4700000000\
    494e535400000032\
    777777777777777777777777777777777777777777777777777777777777\
    00010040000020ab0000000100000001ffd80002\
    5041545400000000\
    534d504c0000000e0000000200000003123456789abc";

#[test]
fn the_lines_of_replacements() {
    let module = one_loop();
    assert_eq!(module.len(), 118);
    let corpus = encoded(&[
        replacement(1, 118, &[0x12, 0x34], &module),
        replacement(1, 117, &[0x12, 0x34], &module),
        replacement(1, 123, &[0x12, 0x34, 0x56, 0x78, 0x9A, 0xBC], &module),
    ]);
    assert_eq!(corpus.len(), 3 * (21 + 118) + 2 + 2 + 6);
    assert_eq!(
        corpus[..27],
        *b"\x06\x00\x00\x00\x00\x00\x00\x00\x01\x00\x00\x00\x76\x00\x00\x00\x02\x00\x00\x00\x76\x12\x34DBM0"
    );
    assert_eq!(
        expected(&corpus),
        format!(
            "replaced 0 0 118 1 {ONE_FRAME}\n\
             replaced 0 0 118 1 {ONE_FRAME}aaaa\n\
             replaced 17 118 0 0 {}\n\
             replaced 0 0 118 1 {ONE_FRAME}aaaa\n\
             replaced 0 0 122 0 {THREE_FRAMES}aa\n\
             replaced 0 0 122 0 {THREE_FRAMES}aaaa\n\
             cases 3\n",
            "aa".repeat(117)
        )
    );
}

#[test]
fn the_lines_of_refused_replacements() {
    let module = one_loop();
    let corpus = encoded(&[
        replacement(1, 0, &[0x12], &module),
        replacement(2, 1, &[0x12], &module),
        replacement(0, 0, &[0x12, 0x34], &module),
        replacement(u64::MAX, 0, &[], &module),
        replacement(2, 3, &[0x12], &module[..20]),
        replacement(1, 0, &[], &[]),
    ]);
    let filled = |count| "aa".repeat(count);
    assert_eq!(
        expected(&corpus),
        format!(
            "replaced 19 0 0 0 \nreplaced 19 0 0 0 {}\n\
             replaced 18 0 0 0 aa\nreplaced 18 0 0 0 {}\n\
             replaced 18 0 0 0 \nreplaced 18 0 0 0 {}\n\
             replaced 18 0 0 0 \nreplaced 18 0 0 0 {}\n\
             replaced 4 8 0 0 aaaaaa\nreplaced 4 8 0 0 {}\n\
             replaced 2 0 0 0 \nreplaced 2 0 0 0 \n\
             cases 6\n",
            filled(119),
            filled(119),
            filled(120),
            filled(118),
            filled(21),
        )
    );
}

/// The second output of a long module has 65,536 bytes, which may be enough.
#[test]
fn replacements_of_more_than_65536_bytes() {
    // SMPL at 50, the block at 58, its frames from 66 on.
    let mut module = b"DBM0\x03\x00\x00\x00INFO\x00\x00\x00\x0A".to_vec();
    module.extend([0, 0, 0, 1, 0, 0, 0, 0, 0, 4]);
    for name in [b"SONG", b"INST", b"PATT"] {
        module.extend(name);
        module.extend([0; 4]);
    }
    module.extend(b"SMPL\x00\x01\x00\x09\x00\x00\x00\x01\x00\x01\x00\x01");
    module.extend([0x11; 65_537]);
    for (bytes, answer) in [
        (4, "0 0 70 0"),
        (65_470, "0 0 65536 0"),
        (65_472, "17 65538 0 0"),
    ] {
        let text = expected(&encoded(&[replacement(1, 0, &vec![0x55; bytes], &module)]));
        let line = text.lines().nth(1).expect("there are three lines");
        let words: Vec<&str> = line.split(' ').collect();
        assert_eq!(words[1..5].join(" "), answer);
        assert_eq!(words[5].len(), 2 * 65_536);
    }
}

fn comparison(room: u32, first: &[u8], second: &[u8]) -> Case {
    Case::Comparison {
        room,
        first: first.to_vec(),
        second: second.to_vec(),
    }
}

/// The module `one_loop`, and the same with another byte in the name of its instrument and another last byte of its sample.
#[test]
fn the_lines_of_comparisons() {
    let first = one_loop();
    let mut second = one_loop();
    second[42] = 0x78;
    second[117] = 0x23;
    let corpus = encoded(&[
        comparison(20, &first, &second),
        comparison(19, &first, &second),
        comparison(22, &first, &second),
        comparison(0, &first, &first),
        comparison(2, &first, &first),
    ]);
    assert_eq!(corpus.len(), 5 * (13 + 118 + 118));
    assert_eq!(
        corpus[..17],
        *b"\x07\x00\x00\x00\x14\x00\x00\x00\x76\x00\x00\x00\x76DBM0"
    );
    let list = "0004000100000000000000070001000000000000";
    let short = "aa".repeat(19);
    assert_eq!(
        expected(&corpus),
        format!(
            "compared 0 0 2 {list}\ncompared 0 0 2 {list}\n\
             compared 17 20 0 {short}\ncompared 17 20 0 {short}\n\
             compared 0 0 2 {list}aaaa\ncompared 0 0 2 {list}aaaa\n\
             compared 0 0 0 \ncompared 0 0 0 \n\
             compared 0 0 0 aaaa\ncompared 0 0 0 aaaa\n\
             cases 5\n"
        )
    );
}

/// The refusal is that of the first module, then that of the second.
#[test]
fn the_lines_of_refused_comparisons() {
    let module = one_loop();
    let corpus = encoded(&[
        comparison(1, &module[..117], &module),
        comparison(0, &module[..20], &module[..117]),
        comparison(0, &module, &[]),
    ]);
    assert_eq!(
        expected(&corpus),
        "compared 4 100 0 aa\ncompared 4 100 0 aa\n\
         compared 4 8 0 \ncompared 4 100 0 \n\
         compared 2 0 0 \ncompared 2 0 0 \n\
         cases 3\n"
    );
}

#[test]
fn a_cut_case_or_an_unknown_kind_ends_the_run() {
    assert_eq!(expected(&[]), "cases 0\n");
    assert_eq!(expected(&[0]), "cases 0\n");
    assert_eq!(expected(&[4, 0, 0]), "cases 0\n");
    assert_eq!(expected(&[8, 0, 0, 0, 0, 0, 0, 0, 0]), "cases 0\n");
    let shown = encoded(&[Case::Shown([0; 6])]);
    let line = "shown 0 0 0 0 0 0 0 0 0\n";
    assert_eq!(
        expected(&[&shown[..], &[9], &shown].concat()),
        format!("{line}cases 1\n")
    );
    let whole = [
        stream(1, 4, 0, 1, 0, &[1, 1, 0x47, 0]),
        Case::Cells {
            rows: 1,
            tracks: 4,
            room: 1,
            cells: vec![0; 24],
        },
        Case::Shown([1; 6]),
        Case::Module {
            room: 20,
            module: vec![b'D'; 9],
        },
        records(QUERY, 3, &[b'D'; 9]),
        replacement(1, 3, &[1, 2], &[b'D'; 9]),
        comparison(3, &[b'D'; 9], &[b'D'; 4]),
    ];
    for case in whole {
        let case = encoded(&[case]);
        for cut in 0..case.len() {
            assert_eq!(
                expected(&[&shown[..], &case[..cut]].concat()),
                format!("{line}cases 1\n")
            );
        }
        assert!(expected(&[&shown[..], &case].concat()).ends_with("\ncases 2\n"));
    }
}

#[test]
fn more_room_than_65536_is_taken_as_that() {
    for room in [65_536, 65_537, u32::MAX] {
        let corpus = encoded(&[Case::Cells {
            rows: 0,
            tracks: 4,
            room,
            cells: vec![],
        }]);
        assert_eq!(
            expected(&corpus),
            format!("pack 0 0 0 {}\ncases 1\n", "aa".repeat(65_536))
        );
        let corpus = encoded(&[Case::Module {
            room,
            module: vec![],
        }]);
        assert_eq!(
            expected(&corpus),
            format!(
                "module 2 0\nlines 0 0 15 72656675736564203220617420300a{}\nrepacked 2 0 0 {}\nrepacked 2 0 0 \n\
                 records 2 0 0 {}\nrecords 2 0 0 {}\ncases 1\n",
                "aa".repeat(65_536 - 15),
                "aa".repeat(65_536),
                "aa".repeat(65_536),
                "aa".repeat(60)
            )
        );
        assert_eq!(
            expected(&encoded(&[replacement(1, room, &[], &[])])),
            format!(
                "replaced 2 0 0 0 {}\nreplaced 2 0 0 0 \ncases 1\n",
                "aa".repeat(65_536)
            )
        );
        let line = format!("compared 2 0 0 {}\n", "aa".repeat(65_536));
        assert_eq!(
            expected(&encoded(&[comparison(room, &[], &[])])),
            format!("{line}{line}cases 1\n")
        );
    }
}

#[test]
fn each_program_has_its_cases_and_reads_them_back() {
    for (program, made) in programs() {
        let corpus = encoded(&made);
        assert!(corpus.len() <= 524_288, "{program}: {} bytes", corpus.len());
        let mut left = &corpus[..];
        for case in &made {
            let (read, after) = take(left).expect("a whole case");
            assert_eq!(&read, case);
            left = after;
        }
        assert!(left.is_empty());
        let text = expected(&corpus);
        assert!(text.len() <= 3_500_000, "{program}: {} bytes", text.len());
        assert!(text.ends_with(&format!("\ncases {}\n", made.len())));
    }
}

/// FNV-1a of 64 bits.
fn hash(bytes: &[u8]) -> u64 {
    bytes.iter().fold(0xCBF2_9CE4_8422_2325, |hash, &byte| {
        (hash ^ u64::from(byte)).wrapping_mul(0x0100_0000_01B3)
    })
}

/// The kinds of a program's cases, in their order.
fn kinds(cases: &[Case]) -> Vec<u8> {
    cases
        .iter()
        .map(|case| encoded(std::slice::from_ref(case))[0])
        .collect()
}

#[test]
fn the_first_program_has_packed_rows_and_the_second_modules() {
    let [(first, patterns), (second, modules)] = programs();
    assert_eq!(
        (first, second),
        ("conformance_patterns", "conformance_modules")
    );
    assert!(kinds(&patterns).iter().all(|kind| (1..=3).contains(kind)));
    assert!(kinds(&modules).iter().all(|kind| (4..=7).contains(kind)));
    assert!(kinds(&modules).is_sorted());
}

#[test]
fn the_cases_of_packed_rows_stay_as_they_are() {
    let patterns = encoded(&pattern_cases());
    assert_eq!(patterns.len(), 339_227);
    assert_eq!(hash(&patterns), 0x4D2E_C92D_8E77_F01C);
}

#[test]
fn the_cases_of_modules_and_records_stay_as_they_are() {
    let before = encoded(&[module_cases(), record_cases()].concat());
    assert_eq!(before.len(), 298_471);
    assert_eq!(hash(&before), 0xDF24_1B86_C54D_4618);
    let [_, (_, modules)] = programs();
    let all = encoded(&modules);
    assert!(all.starts_with(&before));
}

/// The masks of the entries of an accepted stream.
fn masks(stream: &[u8]) -> Vec<u8> {
    let mut masks = Vec::new();
    let mut left = stream;
    while let [first, rest @ ..] = left {
        left = match first {
            0 => rest,
            _ => {
                masks.push(rest[0]);
                &rest[1 + (rest[0] & 63).count_ones() as usize..]
            }
        };
    }
    masks
}

/// The masks of all patterns of a module, or none if it is refused.
fn masks_of_module(module: &[u8]) -> Vec<u8> {
    let patterns = read(module).map_or(vec![], |read| read.patterns);
    let masks = patterns.iter().flat_map(|pattern| masks(pattern.stream));
    masks.collect()
}

/// Every mask byte is in accepted streams and in accepted modules. Masks with bit 6 or 7 are in cut entries, in modules whose sample is
/// replaced, and in pairs of modules with and without differences.
#[test]
fn every_mask_byte_occurs() {
    let (mut accepted, mut cut) = (BTreeSet::new(), BTreeSet::new());
    for case in pattern_cases() {
        if let Case::Stream {
            rows,
            tracks,
            stream,
            ..
        } = case
        {
            match pattern::check(&stream, rows, tracks) {
                Ok(()) => accepted.extend(masks(&stream)),
                Err(refusal) => {
                    let place = refusal.place as usize;
                    let entry = stream.get(place..).unwrap_or_default();
                    if let &[1..=4, mask, ref fields @ ..] = entry {
                        if fields.len() < (mask & 63).count_ones() as usize {
                            cut.insert(mask);
                        }
                    }
                }
            }
        }
    }
    assert_eq!(accepted, (0..=255).collect());
    let upper = cut.iter().filter(|&&mask| mask > 63).count();
    assert!(upper >= 90, "{upper}");
    let in_modules: BTreeSet<u8> = module_cases()
        .iter()
        .flat_map(|case| match case {
            Case::Module { module, .. } => masks_of_module(module),
            other => panic!("{other:?}"),
        })
        .collect();
    assert_eq!(in_modules, (0..=255).collect());
    let has_upper = |module: &[u8]| masks_of_module(module).iter().any(|&mask| mask > 63);
    at_least(6, &replacements(), |asked| {
        asked.answer.is_ok() && has_upper(&asked.module)
    });
    let lists: Vec<usize> = comparisons()
        .iter()
        .filter(|(_, first, second)| has_upper(first) != has_upper(second))
        .filter_map(|(_, first, second)| Some(differences(first, second).ok()?.len()))
        .collect();
    let same = lists.iter().filter(|&&length| length == 0).count();
    assert!(same >= 4 && lists.len() >= same + 8, "{lists:?}");
}

#[test]
fn the_modules_are_small_and_many() {
    let modules: Vec<Vec<u8>> = module_cases()
        .into_iter()
        .map(|case| match case {
            Case::Module { module, .. } => module,
            other => panic!("{other:?}"),
        })
        .collect();
    assert!(modules.iter().all(|module| module.len() <= 1_200));
    let different: BTreeSet<_> = modules.iter().collect();
    assert!(different.len() >= 1_700, "{} modules", different.len());
}

/// The words of the lines of a records case, and whether the query can return 18 and 17.
const QUERIES: [(&str, bool, bool); 18] = [
    ("version", false, false),
    ("name", false, false),
    ("info", false, false),
    ("song", true, false),
    ("entry", true, false),
    ("playlist", true, true),
    ("instrument", true, false),
    ("volume_envelopes", false, false),
    ("panning_envelopes", false, false),
    ("volume_envelope", true, false),
    ("panning_envelope", true, false),
    ("rows", true, false),
    ("cell", true, false),
    ("unpack", true, true),
    ("sample", true, false),
    ("frames", true, false),
    ("frame", true, false),
    ("all_frames", true, true),
];

#[test]
fn the_records_have_every_kind_of_answer() {
    let cases = record_cases();
    let text = expected(&encoded(&cases));
    let lines: Vec<Vec<&str>> = text.lines().map(|line| line.split(' ').collect()).collect();
    assert_eq!(lines.len(), 18 * cases.len() + 1);
    for (place, (word, index, room)) in QUERIES.into_iter().enumerate() {
        let lines: Vec<_> = lines[..18 * cases.len()]
            .iter()
            .skip(place)
            .step_by(18)
            .collect();
        assert!(lines.iter().all(|line| line[0] == word), "{word}");
        let numbers: BTreeSet<u64> = lines.iter().map(|line| line[1].parse().unwrap()).collect();
        let expected = [0]
            .into_iter()
            .chain(2..=15)
            .chain(room.then_some(17))
            .chain(index.then_some(18));
        assert_eq!(numbers, expected.collect(), "{word}");
        // Every field has several values.
        for field in 0..lines[0].len() {
            let values: BTreeSet<_> = lines.iter().map(|line| line[field]).collect();
            assert!(field == 0 || values.len() > 1, "{word}, field {field}");
        }
    }
}

#[test]
fn the_corpus_has_every_kind_of_answer() {
    let text = programs()
        .map(|(_, cases)| expected(&encoded(&cases)))
        .concat();
    let all = [
        ("check", vec![0, 15, 16]),
        ("unpack", vec![0, 15, 16, 17]),
        ("repack", vec![0, 15, 16, 17]),
        ("pack", vec![0, 16, 17]),
        ("cell", vec![0, 15, 16, 18]),
    ];
    for (name, numbers) in all {
        for number in numbers {
            let start = format!("{name} {number} ");
            let count = text.lines().filter(|line| line.starts_with(&start)).count();
            assert!(count >= 100, "{start}: {count}");
        }
    }
    // No module of the corpus has more than 16,777,216 bytes.
    for number in [0, 2, 3, 4, 5, 6, 7, 8, 9, 10, 11, 12, 13, 14, 15] {
        let start = format!("module {number} ");
        let count = text.lines().filter(|line| line.starts_with(&start)).count();
        assert!(count >= 30, "{start}: {count}");
    }
    for number in [0, 17] {
        let start = format!("lines {number} ");
        let count = text.lines().filter(|line| line.starts_with(&start)).count();
        assert!(count >= 200, "{start}: {count}");
    }
    for number in [0, 2, 3, 4, 5, 6, 7, 8, 9, 10, 11, 12, 13, 14, 15, 17] {
        for word in ["repacked", "records"] {
            let start = format!("{word} {number} ");
            let count = text.lines().filter(|line| line.starts_with(&start)).count();
            assert!(count >= 60, "{start}: {count}");
        }
    }
    for (numbers, least) in [
        (vec![0], 300),
        ((2..=15).collect(), 4),
        (vec![17, 18, 19], 30),
    ] {
        for number in numbers {
            let start = format!("replaced {number} ");
            let count = text.lines().filter(|line| line.starts_with(&start)).count();
            assert!(count >= least, "{start}: {count}");
        }
    }
    for kind in 0..4 {
        let start = format!("cell 0 0 {kind} ");
        assert!(text.lines().any(|line| line.starts_with(&start)), "{start}");
    }
    assert!(
        text.lines()
            .filter(|line| line.starts_with("shown "))
            .count()
            >= 256
    );
}

/// Enough of the accepted modules differ from the packer's result, and enough of these have chunks after PATT.
#[test]
fn the_modules_have_something_to_repack() {
    let (mut shorter, mut as_long, mut after) = (0, 0, 0);
    for case in module_cases() {
        let Case::Module { module, .. } = case else {
            panic!("{case:?}");
        };
        let mut out = vec![0; module.len()];
        let Ok(length) = repack(&module, &mut out) else {
            continue;
        };
        let length = length as usize;
        if out == module {
            continue;
        }
        if length < module.len() {
            shorter += 1;
            let last = read(&module).expect("it is accepted").chunks.pop();
            after += usize::from(last.is_some_and(|chunk| chunk.name != *b"PATT"));
        } else {
            as_long += 1;
        }
    }
    assert!(shorter >= 25, "{shorter}");
    assert!(as_long >= 15, "{as_long}");
    assert!(after >= 20, "{after}");
}

/// A case for replacing a sample, its result, and its result with an output that is long enough.
struct Asked {
    sample: u64,
    room: usize,
    frames: Vec<u8>,
    module: Vec<u8>,
    answer: Result<Replaced, Refusal>,
    enough: Result<Replaced, Refusal>,
    written: Vec<u8>,
}

fn replacements() -> Vec<Asked> {
    let asked = replacement_cases().into_iter().map(|case| match case {
        Case::Replacement {
            sample,
            room,
            frames,
            module,
        } => {
            let room = room.min(65_536) as usize;
            let answer = replace_sample(&module, sample, &frames, &mut vec![0; room]);
            let mut written = vec![0; module.len() + frames.len()];
            let enough = replace_sample(&module, sample, &frames, &mut written);
            written.truncate(enough.map_or(0, |replaced| replaced.length as usize));
            Asked {
                sample,
                room,
                frames,
                module,
                answer,
                enough,
                written,
            }
        }
        other => panic!("{other:?}"),
    });
    asked.collect()
}

/// There are at least this many of the cases for which something holds.
#[track_caller]
fn at_least(least: usize, asked: &[Asked], holds: impl Fn(&Asked) -> bool) {
    let count = asked.iter().filter(|asked| holds(asked)).count();
    assert!(count >= least, "{count}");
}

#[test]
fn the_replacements_have_every_kind_of_refusal() {
    let asked = replacements();
    let number = |asked: &Asked| asked.answer.err().map_or(0, |refusal| refusal.number);
    let own = |asked: &Asked| check(&asked.module).is_err();
    let odd = |asked: &Asked| asked.frames.len() % 2 == 1;
    let missing = |asked: &Asked| {
        let there = read(&asked.module).map_or(1, |read| read.info.samples);
        !(1..=there).contains(&asked.sample)
    };
    // The module's own refusal comes before 18, 19 and 17; 18 before 19 and 17; 19 before 17.
    for refusal in 2..=15 {
        at_least(1, &asked, |asked| {
            number(asked) == refusal && !missing(asked) && !odd(asked) && asked.room > 100
        });
        at_least(1, &asked, |asked| {
            number(asked) == refusal && missing(asked) && odd(asked) && asked.room < 10
        });
    }
    at_least(10, &asked, |asked| number(asked) == 18 && odd(asked));
    at_least(10, &asked, |asked| number(asked) == 18 && !odd(asked));
    at_least(10, &asked, |asked| number(asked) == 18 && asked.room == 0);
    at_least(1, &asked, |asked| number(asked) == 18 && asked.room > 500);
    at_least(5, &asked, |asked| number(asked) == 19 && asked.room < 10);
    at_least(5, &asked, |asked| number(asked) == 19 && asked.room > 500);
    at_least(20, &asked, |asked| number(asked) == 17);
    // The numbers of the samples.
    for sample in [0, 255, 256, 257, 65_537, (1 << 32) + 1, u64::MAX] {
        at_least(2, &asked, |asked| asked.sample == sample && !own(asked));
    }
    for (past, refusal) in [(0, 0), (1, 18)] {
        for samples in [1, 3, 255] {
            at_least(1, &asked, |asked| {
                let there = read(&asked.module).map_or(0, |read| read.info.samples);
                let answer = asked.enough.err().map_or(0, |refusal| refusal.number);
                there == samples && asked.sample == samples + past && answer == refusal
            });
        }
    }
    at_least(1, &asked, |asked| {
        let samples = read(&asked.module).map(|read| read.info.samples);
        samples == Ok(0) && asked.sample == 1 && number(asked) == 18
    });
}

#[test]
fn the_replacements_have_every_kind_of_result() {
    let mut asked = replacements();
    asked.retain(|asked| asked.enough.is_ok());
    let needed = |asked: &Asked| asked.written.len();
    let cleared = |asked: &Asked| asked.enough.map_or(0, |replaced| replaced.cleared);
    assert!(asked.iter().all(|asked| check(&asked.written) == Ok(())));
    // Outputs around the needed length.
    at_least(15, &asked, |asked| asked.room == 0);
    at_least(15, &asked, |asked| asked.room + 1 == needed(asked));
    at_least(100, &asked, |asked| asked.room == needed(asked));
    at_least(15, &asked, |asked| asked.room == needed(asked) + 1);
    at_least(1, &asked, |asked| asked.room == 65_536);
    // The result is shorter or longer than the module, as long, or the module itself; INST is before SMPL or after it.
    let place = |asked: &Asked, name: &[u8; 4]| {
        let chunks = read(&asked.module).expect("it is accepted").chunks;
        chunks.iter().position(|chunk| chunk.name == *name)
    };
    for before in [true, false] {
        let order = |asked: &Asked| (place(asked, b"INST") < place(asked, b"SMPL")) == before;
        for some in [true, false] {
            let of = |asked: &Asked| order(asked) && (cleared(asked) > 0) == some;
            at_least(5, &asked, |asked| {
                of(asked) && needed(asked) < asked.module.len()
            });
            at_least(5, &asked, |asked| {
                of(asked) && needed(asked) > asked.module.len()
            });
        }
        at_least(3, &asked, |asked| {
            order(asked) && asked.written == asked.module
        });
        at_least(3, &asked, |asked| order(asked) && cleared(asked) > 1);
    }
    for count in [0, 1, 2, 3, 4, 255] {
        at_least(1, &asked, |asked| cleared(asked) == count);
    }
    // The old width, and no or many new frames.
    for frame_bytes in [1, 2, 4] {
        let old = |asked: &Asked| {
            let read = read(&asked.module).expect("it is accepted");
            let old = *read.sample(asked.sample).expect("it exists");
            (old.frame_bytes, old.frames)
        };
        at_least(20, &asked, |asked| old(asked).0 == frame_bytes);
        at_least(4, &asked, |asked| old(asked) == (frame_bytes, 0));
        at_least(4, &asked, |asked| {
            old(asked).0 == frame_bytes && asked.frames.is_empty()
        });
    }
    at_least(3, &asked, |asked| asked.frames.len() >= 512);
}

#[test]
fn the_replacements_have_every_kind_of_loop() {
    let mut asked = replacements();
    asked.retain(|asked| asked.enough.is_ok());
    // The loops of the instruments on the sample: the flags, the loop's length, its end, and the new frames.
    let any = |asked: &Asked, holds: &dyn Fn(u64, u64, u64, u64) -> bool| {
        let read = read(&asked.module).expect("it is accepted");
        let count = asked.frames.len() as u64 / 2;
        let mut on = read
            .instruments
            .iter()
            .filter(|instrument| instrument.sample.value == asked.sample);
        on.any(|on| {
            let end = on.loop_start.value + on.loop_length.value;
            holds(on.flags.value, on.loop_length.value, end, count)
        })
    };
    for kind in [1, 2, 3] {
        let looped = |flags, length| flags == kind && length > 0;
        at_least(10, &asked, |asked| {
            any(asked, &|flags, length, end, count| {
                looped(flags, length) && end == count
            })
        });
        at_least(10, &asked, |asked| {
            any(asked, &|flags, length, end, count| {
                looped(flags, length) && end == count + 1
            })
        });
        at_least(3, &asked, |asked| {
            any(asked, &|flags, length, end, count| {
                flags == kind && length == 0 && end > count
            })
        });
    }
    at_least(5, &asked, |asked| {
        any(asked, &|flags, _, end, _| {
            flags == 0 && end > 0xFFFF_FFFF + 1
        })
    });
    at_least(3, &asked, |asked| {
        any(asked, &|flags, _, end, count| {
            flags != 0 && end > 255 && end > count && end % 256 < count
        })
    });
}

/// The room, the two modules and the answer of each comparison, in both orders.
fn comparisons() -> Vec<(usize, Vec<u8>, Vec<u8>)> {
    let both = comparison_cases().into_iter().flat_map(|case| match case {
        Case::Comparison {
            room,
            first,
            second,
        } => {
            let room = room.min(65_536) as usize;
            [(room, first.clone(), second.clone()), (room, second, first)]
        }
        other => panic!("{other:?}"),
    });
    both.collect()
}

#[test]
fn the_comparisons_have_every_kind_of_refusal() {
    let refusal = |module: &[u8]| check(module).err().map_or(0, |refusal| refusal.number);
    let found: BTreeSet<(u64, u64)> = comparisons()
        .iter()
        .map(|(_, first, second)| (refusal(first), refusal(second)))
        .collect();
    for number in 2..=15 {
        // As the first, as the second, and as the first with another that is refused.
        assert!(found.contains(&(number, 0)), "{number}");
        assert!(found.contains(&(0, number)), "{number}");
        let with_another = |&(one, other): &(u64, u64)| one == number && ![0, one].contains(&other);
        assert!(found.iter().any(with_another), "{number}");
    }
}

#[test]
fn the_comparisons_have_every_kind_of_difference() {
    let comparisons = comparisons();
    let lists: Vec<(usize, Vec<[u16; 5]>)> = comparisons
        .iter()
        .filter_map(|(room, first, second)| {
            let found = differences(first, second).ok()?;
            Some((*room, found.into_iter().collect()))
        })
        .collect();
    let count = |holds: &dyn Fn(usize, &[[u16; 5]]) -> bool| {
        let all = lists.iter();
        all.filter(|(room, list)| holds(*room, list)).count()
    };
    for kind in 1..=8 {
        let several = count(&|_, list| list.iter().any(|entry| entry[0] == kind));
        assert!(several >= 8, "kind {kind}: {several}");
        let alone = count(&|_, list| list.iter().all(|entry| entry[0] == kind) && !list.is_empty());
        assert!(alone >= 2 || kind == 2, "kind {kind} alone: {alone}");
    }
    for number in 0..5 {
        let info = count(&|_, list| list.contains(&[2, number, 0, 0, 0]));
        assert!(info >= 4, "INFO {number}: {info}");
    }
    for field in 1..=6 {
        let cells = count(&|_, list| list.iter().any(|entry| entry[4] == field));
        assert!(cells >= 4, "field {field}: {cells}");
    }
    assert!(count(&|_, list| list.is_empty()) >= 20);
    assert!(count(&|_, list| list.iter().any(|entry| entry[1] > 255)) >= 2);
    assert!(count(&|_, list| list.iter().any(|entry| entry[2] > 255)) >= 2);
    // Outputs around the needed length.
    assert!(count(&|room, list| room == 10 * list.len()) >= 100);
    assert!(count(&|room, list| room + 1 == 10 * list.len()) >= 8);
    assert!(count(&|room, list| room == 10 * list.len() + 1) >= 8);
    assert!(count(&|room, list| room == 0 && !list.is_empty()) >= 8);
    assert!(count(&|room, _| room == 65_536) >= 2);
    let length = encoded(&comparison_cases()).len();
    assert!(length <= 100_000, "{length} bytes");
}
