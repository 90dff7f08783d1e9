//! `dbm0 cells`: the output, compared with text typed by hand and with the second program.

mod common;

use common::{run, run_on, sample, sample_bytes, text};
use reference::draft::{Pattern, Tune};
use reference::generate::{module, Limits, Random};
use reference::pattern::Note;
use reference::records;

const ENDING: &str = "\
pattern 2: 6 rows, 4 tracks
row     track 1         track 2         track 3         track 4
0       C-3 01 000 000  C-4 02 000 000  G-4 02 C20 000  C-6 03 000 000
1       --- 00 000 000  --- 00 000 000  --- 00 000 000  --- 00 000 000
2       --- 00 000 000  --- 00 000 000  --- 00 000 000  --- 00 000 000
3       --- 00 000 000  --- 00 000 000  --- 00 000 000  --- 00 000 000
4       --- 00 000 000  --- 00 000 000  --- 00 000 000  --- 00 000 000
5       --- 00 000 000  === 00 000 000  === 00 000 000  --- 00 000 000
";

#[test]
fn a_pattern_of_the_carousel() {
    let carousel = sample("carousel.dbm");
    run(&["cells", text(&carousel), "2"]).is(0, ENDING, "");
    run_on(&["cells", "-", "2"], &sample_bytes("carousel.dbm")).is(0, ENDING, "");
    // Tempo 112 with the first note.
    let opening = run(&[
        "cells",
        text(&carousel),
        "0",
        "--rows",
        "0",
        "--tracks",
        "1",
    ]);
    opening.is(
        0,
        "pattern 0: 12 rows, 4 tracks\nrow     track 1\n0       C-3 01 000 F70\n",
        "",
    );
}

#[test]
fn ranges() {
    let carousel = sample("carousel.dbm");
    let file = text(&carousel);
    let lines: Vec<&str> = ENDING.lines().collect();
    let rows = |from: usize, to: usize| {
        let mut shown = lines[..2].to_vec();
        shown.extend(&lines[2 + from..=2 + to]);
        shown.join("\n") + "\n"
    };
    run(&["cells", file, "2", "--rows", "5"]).is(0, &rows(5, 5), "");
    run(&["cells", file, "2", "--rows", "0-5"]).is(0, ENDING, "");
    run(&["cells", file, "2", "--rows", "4-5"]).is(0, &rows(4, 5), "");
    run(&["cells", "--rows=3-", file, "2"]).is(0, &rows(3, 5), "");
    run(&["cells", file, "--tracks", "1-4", "2", "--rows", "0-"]).is(0, ENDING, "");
    let some = "\
pattern 2: 6 rows, 4 tracks
row     track 2         track 3
5       === 00 000 000  === 00 000 000
";
    run(&["cells", file, "2", "--rows", "5-", "--tracks", "2-3"]).is(0, some, "");
    let last = "pattern 2: 6 rows, 4 tracks\nrow     track 4\n0       C-6 03 000 000\n";
    run(&["cells", file, "2", "--rows=0", "--tracks=4-"]).is(0, last, "");
}

/// The library refuses an item that does not exist with 18. The argument is invalid, so the status is 2.
#[test]
fn not_there() {
    let carousel = sample("carousel.dbm");
    let file = text(&carousel);
    let fails = |arguments: &[&str], words: &str| {
        let all = [&["cells", file], arguments].concat();
        let line = format!("dbm0: {file}: refused 18 at 0: {words}\n");
        run(&all).is(2, "", &line);
    };
    fails(&["3"], "there is no pattern 3: choose one from 0 to 2");
    fails(
        &["18446744073709551615"],
        "there is no pattern 18446744073709551615: choose one from 0 to 2",
    );
    fails(
        &["2", "--rows", "6"],
        "there is no row 6: pattern 2 has rows 0 to 5",
    );
    fails(
        &["2", "--rows", "6-"],
        "there is no row 6: pattern 2 has rows 0 to 5",
    );
    fails(
        &["2", "--rows", "0-6"],
        "there is no row 6: pattern 2 has rows 0 to 5",
    );
    fails(
        &["2", "--tracks", "0"],
        "there is no track 0: choose from 1 to 4",
    );
    fails(
        &["2", "--tracks", "4-5"],
        "there is no track 5: choose from 1 to 4",
    );
    fails(
        &["2", "--tracks", "5-"],
        "there is no track 5: choose from 1 to 4",
    );
    fails(
        &["2", "--tracks", "1-18446744073709551615"],
        "there is no track 18446744073709551615: choose from 1 to 4",
    );
    let none = run_on(&["cells", "-", "0"], &sample_bytes("smallest.dbm"));
    none.is(
        2,
        "",
        "dbm0: -: refused 18 at 0: there is no pattern 0: the module has none\n",
    );
}

#[test]
fn wrong_numbers() {
    let carousel = sample("carousel.dbm");
    let file = text(&carousel);
    for wrong in [
        "",
        "x",
        "-1",
        "+1",
        " 1",
        "1.0",
        "0x1",
        "18446744073709551616",
        "1 ",
    ] {
        let run = run(&["cells", file, "--", wrong]);
        run.fails(&format!(
            "'{wrong}' is not the number of a pattern: see 'dbm0 cells --help'"
        ));
    }
    for wrong in [
        "",
        "-",
        "x",
        "3-2",
        "-2",
        "1-2-3",
        "1,2",
        "1-x",
        "99999999999999999999",
        "1-99999999999999999999",
    ] {
        for option in ["--rows", "--tracks"] {
            let run = run(&["cells", file, "2", &format!("{option}={wrong}")]);
            run.fails(&format!(
                "'{wrong}' is no range for {option}: write 4, 4-7 or 4-"
            ));
        }
    }
}

#[test]
fn refused_and_unreadable() {
    let file = sample("broken-pattern.dbm");
    let line = format!(
        "{}: refused 15 at 728: pattern 1 (12 rows): 1 byte is left over after its last row (at 71 of its 72 packed bytes)\n",
        text(&file)
    );
    // Also if there is no such pattern.
    for pattern in ["0", "99"] {
        run(&["cells", text(&file), pattern]).is(1, "", &line);
    }
    run(&["cells", "/no/such/file", "0"]).fails("cannot be read: No such file or directory");
}

#[test]
fn a_pattern_without_rows() {
    let tune = Tune {
        patterns: vec![Pattern::default()],
        ..Tune::default()
    };
    let module = tune.bytes();
    let shown = "pattern 0: 0 rows, 4 tracks\nrow     track 1         track 2         track 3         track 4\n";
    run_on(&["cells", "-", "0"], &module).is(0, shown, "");
    let line = "dbm0: -: refused 18 at 0: there is no row 0: pattern 0 has none\n";
    for range in ["0", "0-"] {
        run_on(&["cells", "-", "0", "--rows", range], &module).is(2, "", line);
    }
    // Without rows no track can be selected either.
    for range in ["0", "1", "1-4", "0-", "1-18446744073709551615"] {
        run_on(&["cells", "-", "0", "--tracks", range], &module).is(2, "", line);
    }
}

/// Every note, every instrument, every command and parameter.
#[test]
fn every_byte_of_every_field() {
    let row: Vec<Vec<u8>> = (0..=255)
        .map(|byte| vec![1, 0x3F, byte, byte, byte, 255 - byte, 255 - byte, byte, 0])
        .collect();
    let stream = row.concat();
    let tune = Tune {
        patterns: vec![Pattern::new(256, &stream)],
        ..Tune::default()
    };
    let shown = run_on(&["cells", "-", "0", "--tracks", "1"], &tune.bytes());
    assert_eq!(shown.status, Some(0));
    let names = [
        "C-", "C#", "D-", "D#", "E-", "F-", "F#", "G-", "G#", "A-", "A#", "B-",
    ];
    let digit = |command: u8| match command {
        0..=9 => char::from(b'0' + command).to_string(),
        10..=35 => char::from(b'A' + command - 10).to_string(),
        _ => format!("[{command:02X}]"),
    };
    for (line, byte) in shown.text().lines().skip(2).zip(0u8..=255) {
        let note = match byte {
            0 => "---".to_string(),
            0x1F => "===".to_string(),
            _ if (1..=8).contains(&(byte >> 4)) && byte & 15 < 12 => {
                format!("{}{}", names[usize::from(byte & 15)], byte >> 4)
            }
            _ => format!("?{byte:02X}"),
        };
        let other = 255 - byte;
        let expected = format!(
            "{byte:<6}  {note} {byte:02X} {}{other:02X} {}{byte:02X}",
            digit(byte),
            digit(other)
        );
        assert_eq!(line, expected);
    }
    assert_eq!(shown.text().lines().count(), 258);
    // Two cells, typed by hand.
    let text = shown.text();
    assert!(text.contains("\n95      ?5F 5F [5F]A0 [A0]5F\n"), "{text}");
    assert!(text.contains("\n71      G-4 47 [47]B8 [B8]47\n"), "{text}");
}

/// A row for each of the 256 masks. Bits 6 and 7 name no fields.
#[test]
fn every_mask() {
    /// The value of each field, and its text if it is named and if it is not.
    const FIELDS: [(u8, &str, &str); 6] = [
        (0x11, "C#1 ", "--- "),
        (0x12, "12 ", "00 "),
        (3, "3", "0"),
        (0x14, "14 ", "00 "),
        (5, "5", "0"),
        (0x16, "16", "00"),
    ];
    let mut stream = Vec::new();
    let mut expected = String::from("pattern 0: 256 rows, 4 tracks\nrow     track 2\n");
    for mask in 0u8..=255 {
        stream.extend([2, mask]);
        expected += &format!("{mask:<6}  ");
        for (field, (value, named, not_named)) in FIELDS.into_iter().enumerate() {
            if mask >> field & 1 == 1 {
                stream.push(value);
                expected += named;
            } else {
                expected += not_named;
            }
        }
        stream.push(0);
        expected += "\n";
    }
    // Three rows, typed by hand.
    for line in [
        "65      C#1 00 000 000",
        "192     --- 00 000 000",
        "255     C#1 12 314 516",
    ] {
        assert!(expected.contains(&format!("\n{line}\n")), "{line}");
    }
    let tune = Tune {
        patterns: vec![Pattern::new(256, &stream)],
        ..Tune::default()
    };
    run_on(&["cells", "-", "0", "--tracks", "2"], &tune.bytes()).is(0, &expected, "");
}

/// Every cell of generated modules is printed as the second program shows it.
#[test]
fn modules_of_the_generator() {
    let names = [
        "C-", "C#", "D-", "D#", "E-", "F-", "F#", "G-", "G#", "A-", "A#", "B-",
    ];
    let mut patterns = 0;
    for seed in 1..=60 {
        let module = module(&mut Random::new(seed), &Limits::SMALL).bytes();
        let info = records::info(&module).expect("accepted");
        for pattern in 0..info.patterns {
            let rows = records::pattern(&module, pattern).expect("accepted");
            let mut expected = format!(
                "pattern {pattern}: {rows} rows, {} tracks\nrow   ",
                info.tracks
            );
            for track in 1..=info.tracks {
                expected += &format!("  {:14}", format!("track {track}"));
            }
            expected = expected.trim_end().to_string() + "\n";
            for row in 0..u64::from(rows) {
                expected += &format!("{row:<6}");
                for track in 1..=info.tracks {
                    let cell = records::cell(&module, pattern, row, track).expect("accepted");
                    let note = match cell.note {
                        Note::None => "---".to_string(),
                        Note::KeyOff => "===".to_string(),
                        Note::Pitch { octave, semitone } => {
                            format!("{}{octave}", names[usize::from(semitone)])
                        }
                        Note::Unknown(byte) => format!("?{byte:02X}"),
                    };
                    expected += &format!("  {note} {:02X}", cell.instrument);
                    for (command, parameter) in [
                        (cell.command1, cell.parameter1),
                        (cell.command2, cell.parameter2),
                    ] {
                        let digit = std::char::from_digit(u32::from(command), 36);
                        let digit = digit.map(|digit| digit.to_ascii_uppercase().to_string());
                        let digit = digit.unwrap_or(format!("[{command:02X}]"));
                        expected += &format!(" {digit}{parameter:02X}");
                    }
                }
                expected += "\n";
            }
            run_on(&["cells", "-", &pattern.to_string()], &module).is(0, &expected, "");
            patterns += 1;
        }
    }
    assert!(patterns > 30, "{patterns} patterns");
}
