//! `dbm0 compare`: the lines, typed by hand and compared with the second program, the numbers, and the exit statuses.

mod common;

use std::fmt::Display;
use std::io::Read;
use std::path::Path;
use std::process::{Command, Stdio};

use common::{
    as_nobody, escaped, finish_child, full, run, run_on, sample, sample_bytes, set_mode, text,
    through_shell, Folder, Run, PROGRAM,
};
use reference::compare::{
    differences, Difference, INFO, INSTRUMENT, NAME, PANNING_ENVELOPE, PATTERN, SAMPLE, SONG,
    VOLUME_ENVELOPE,
};
use reference::draft::{Chunk, Envelope, Instrument, Pattern, Sample, Song, Tune};
use reference::generate::Random;
use reference::pairs::{in_the_other_version, pair, RELATIONS};
use reference::pattern::{Cell, Note};
use reference::records::{self, Kind};

/// The lines, and the line with their number.
fn with_number(lines: &[&str]) -> String {
    let mut text: String = lines.iter().map(|line| format!("{line}\n")).collect();
    match lines.len() {
        1 => text += "1 difference\n",
        count => text += &format!("{count} differences\n"),
    }
    text
}

/// Compares two modules, and prints words or numbers.
fn compared(folder: &Folder, first: &[u8], second: &[u8], options: &[&str]) -> Run {
    let a = folder.file("a.dbm", first);
    let b = folder.file("b.dbm", second);
    run(&[&["compare", text(&a), text(&b)], options].concat())
}

/// Exactly these lines are printed for two modules.
#[track_caller]
fn differ(first: &[u8], second: &[u8], lines: &[&str]) {
    let status = if lines.is_empty() { 0 } else { 3 };
    let run = compared(&Folder::new(), first, second, &[]);
    run.is(status, &with_number(lines), "");
}

const CAROUSEL_AND_OLD: [&str; 18] = [
    "name: \"The Golden Gallopers\", \"Village fair\"",
    "INFO instruments: 3, 1",
    "INFO samples: 3, 1",
    "INFO songs: 2, 1",
    "INFO patterns: 3, 1",
    "song 0: name \"Morning ride\", \"Village fair\"; length 4, 2; entry 1 is pattern 1, 0",
    "song 1: only in A",
    "instrument 1: name \"bass drum\", \"fife\"; volume 56, 64; panning 0, -128",
    "instrument 2: only in A",
    "instrument 3: only in A",
    "volume envelope 0: only in A",
    "panning envelope 0: instrument 3, 1; flags 5, 1; loop last 2, 0; point 0 is 0:-64, 0:-128; 2 more points differ",
    "sample 1: 48 frames of 16 bits, 32 frames of 8 bits",
    "sample 2: only in A",
    "sample 3: only in A",
    "pattern 0: 12 rows of 4 tracks, 8 rows of 4 tracks",
    "pattern 1: only in A",
    "pattern 2: only in A",
];

const OLD_AND_CAROUSEL: [&str; 18] = [
    "name: \"Village fair\", \"The Golden Gallopers\"",
    "INFO instruments: 1, 3",
    "INFO samples: 1, 3",
    "INFO songs: 1, 2",
    "INFO patterns: 1, 3",
    "song 0: name \"Village fair\", \"Morning ride\"; length 2, 4; entry 1 is pattern 0, 1",
    "song 1: only in B",
    "instrument 1: name \"fife\", \"bass drum\"; volume 64, 56; panning -128, 0",
    "instrument 2: only in B",
    "instrument 3: only in B",
    "volume envelope 0: only in B",
    "panning envelope 0: instrument 1, 3; flags 1, 5; loop last 0, 2; point 0 is 0:-128, 0:-64; 2 more points differ",
    "sample 1: 32 frames of 8 bits, 48 frames of 16 bits",
    "sample 2: only in B",
    "sample 3: only in B",
    "pattern 0: 8 rows of 4 tracks, 12 rows of 4 tracks",
    "pattern 1: only in B",
    "pattern 2: only in B",
];

const NUMBERS_OF_BOTH: &str = "\
1 0 0 0 0
2 0 0 0 0
2 1 0 0 0
2 2 0 0 0
2 3 0 0 0
3 0 0 0 0
3 1 0 0 0
4 1 0 0 0
4 2 0 0 0
4 3 0 0 0
5 0 0 0 0
6 0 0 0 0
7 1 0 0 0
7 2 0 0 0
7 3 0 0 0
8 0 0 0 0
8 1 0 0 0
8 2 0 0 0
";

#[test]
fn the_carousel_and_the_old_tune() {
    let (carousel, old) = (sample("carousel.dbm"), sample("old.dbm"));
    let (carousel, old) = (text(&carousel), text(&old));
    run(&["compare", carousel, old]).is(3, &with_number(&CAROUSEL_AND_OLD), "");
    run(&["compare", old, carousel]).is(3, &with_number(&OLD_AND_CAROUSEL), "");
    for files in [[carousel, old], [old, carousel]] {
        run(&["compare", "--numbers", files[0], files[1]]).is(3, NUMBERS_OF_BOTH, "");
        run(&["compare", files[0], files[1], "--numbers"]).is(3, NUMBERS_OF_BOTH, "");
    }
}

/// A module with itself, and with itself repacked.
#[test]
fn nothing_differs() {
    let folder = Folder::new();
    for name in ["smallest.dbm", "carousel.dbm", "old.dbm"] {
        let module = sample(name);
        let repacked = folder.0.join(name);
        assert_eq!(
            run(&["repack", text(&module), text(&repacked)]).status,
            Some(0)
        );
        for (a, b) in [
            (&module, &module),
            (&module, &repacked),
            (&repacked, &module),
        ] {
            run(&["compare", text(a), text(b)]).is(0, "0 differences\n", "");
            run(&["compare", "--numbers", text(a), text(b)]).is(0, "", "");
        }
    }
}

/// A sample is replaced, and the loop that does not fit it is cleared.
#[test]
fn the_organ_replaced() {
    let folder = Folder::new();
    let (carousel, frames) = (sample("carousel.dbm"), sample("short-organ.frames"));
    let short = folder.0.join("short.dbm");
    let replace = ["replace", text(&carousel), "2", text(&frames), text(&short)];
    assert_eq!(run(&replace).status, Some(0));
    let (carousel, short) = (text(&carousel), text(&short));
    let lines = [
        "instrument 2 \"organ\": forward loop 16 + 48, no loop",
        "sample 2: 64 frames of 8 bits, 40 frames of 16 bits",
    ];
    run(&["compare", carousel, short]).is(3, &with_number(&lines), "");
    let lines = [
        "instrument 2 \"organ\": no loop, forward loop 16 + 48",
        "sample 2: 40 frames of 16 bits, 64 frames of 8 bits",
    ];
    run(&["compare", short, carousel]).is(3, &with_number(&lines), "");
    let numbers = "4 2 0 0 0\n7 2 0 0 0\n";
    run(&["compare", "--numbers", carousel, short]).is(3, numbers, "");
}

/// The line of a refused module names its file: the first that is refused.
#[test]
fn refused() {
    let [carousel, short, broken] =
        ["carousel.dbm", "short-organ.dbm", "broken-pattern.dbm"].map(sample);
    let [carousel, short, broken] = [text(&carousel), text(&short), text(&broken)];
    let of_short = format!("{short}: refused 14 at 540: instrument 2 \"organ\": loop 16 + 48 is outside its sample 2 (40 frames)\n");
    let of_broken = format!("{broken}: refused 15 at 728: pattern 1 (12 rows): 1 byte is left over after its last row (at 71 of its 72 packed bytes)\n");
    for (a, b, line) in [
        (short, broken, &of_short),
        (broken, short, &of_broken),
        (carousel, broken, &of_broken),
        (broken, carousel, &of_broken),
        (carousel, short, &of_short),
        (short, carousel, &of_short),
        (short, short, &of_short),
    ] {
        run(&["compare", a, b]).is(1, "", line);
        run(&["compare", "--numbers", a, b]).is(1, "", line);
    }
}

/// A module with records of each kind.
fn fair() -> Tune {
    Tune {
        name: Some(b"Fair".to_vec()),
        songs: vec![
            Song {
                name: b"Ride".to_vec(),
                playlist: vec![0, 1, 0, 1],
            },
            Song::default(),
        ],
        instruments: vec![
            Instrument {
                name: b"organ".to_vec(),
                sample: 1,
                volume: 64,
                rate: 8_363,
                loop_start: 2,
                loop_length: 4,
                panning: -40,
                flags: 1,
            },
            Instrument {
                sample: 2,
                ..Instrument::default()
            },
        ],
        patterns: vec![
            Pattern::new(3, &[0, 0, 0]),
            // Row 5, track 2: all six fields.
            Pattern::new(6, &[0, 0, 0, 0, 0, 2, 0x3F, 0x30, 1, 12, 0x40, 15, 0x70, 0]),
        ],
        samples: vec![
            Sample::new(1, &[0, 1, 0x7F, 0x80, 0xFF, 5, 6, 7]),
            Sample::new(2, &[0, 1, 0xFF, 0xFE, 0x7F, 0xFF]),
            Sample::new(4, &[0, 0, 0, 1, 0x80, 0, 0, 0]),
        ],
        volume_envelopes: Some(vec![Envelope {
            instrument: 1,
            flags: 15,
            sections: 3,
            first_sustain: 1,
            loop_first: 0,
            loop_last: 2,
            second_sustain: 3,
            points: vec![(0, 0), (4, 64), (20, 48), (60, 0)],
        }]),
        panning_envelopes: Some(vec![Envelope {
            instrument: 2,
            sections: 1,
            points: vec![(0, -128), (65_535, 128)],
            ..Envelope::default()
        }]),
        ..Tune::default()
    }
}

/// These are the lines after a change of the module above.
#[track_caller]
fn changed(change: impl Fn(&mut Tune), lines: &[&str]) {
    let mut other = fair();
    change(&mut other);
    differ(&fair().bytes(), &other.bytes(), lines);
}

#[test]
fn module_names() {
    changed(
        |tune| tune.name = Some(b"Fa\"r".to_vec()),
        &["name: \"Fair\", \"Fa\\x22r\""],
    );
    changed(|tune| tune.name = None, &["name: \"Fair\", \"\""]);
    changed(
        |tune| tune.name = Some(b"\0\nF\\\xFC".to_vec()),
        &["name: \"Fair\", \"\\x00\\x0aF\\x5c\\xfc\""],
    );
    let long = b"forty-four bytes are the longest name that i";
    changed(
        |tune| tune.name = Some(long.to_vec()),
        &["name: \"Fair\", \"forty-four bytes are the longest name that i\""],
    );
}

#[test]
fn songs() {
    let song = |change: fn(&mut Song), line: &str| changed(|it| change(&mut it.songs[0]), &[line]);
    song(
        |it| it.name = b"R\tde".to_vec(),
        "song 0: name \"Ride\", \"R\\x09de\"",
    );
    song(
        |it| it.playlist = vec![0, 1, 0, 0],
        "song 0 \"Ride\": entry 3 is pattern 1, 0",
    );
    song(
        |it| it.playlist = vec![0, 0, 0, 0],
        "song 0 \"Ride\": entry 1 is pattern 1, 0; 1 more entry differs",
    );
    song(
        |it| it.playlist = vec![1, 0, 0, 0],
        "song 0 \"Ride\": entry 0 is pattern 0, 1; 2 more entries differ",
    );
    song(|it| it.playlist.clear(), "song 0 \"Ride\": length 4, 0");
    song(|it| it.playlist.push(1), "song 0 \"Ride\": length 4, 5");
    song(
        |it| {
            it.name = b"Dusk".to_vec();
            it.playlist = vec![1, 0];
        },
        "song 0: name \"Ride\", \"Dusk\"; length 4, 2; entry 0 is pattern 0, 1; 1 more entry differs",
    );
    changed(
        |tune| tune.songs[1].playlist = vec![0],
        &["song 1 \"\": length 0, 1"],
    );
    changed(
        |tune| tune.songs.truncate(1),
        &["INFO songs: 2, 1", "song 1: only in A"],
    );
    changed(
        |tune| tune.songs.push(Song::default()),
        &["INFO songs: 2, 3", "song 2: only in B"],
    );
}

#[test]
fn instruments() {
    let organ = |change: fn(&mut Instrument), words: &str| {
        let line = format!("instrument 1{words}");
        changed(|it| change(&mut it.instruments[0]), &[&line]);
    };
    organ(
        |it| it.name = b"pipe".to_vec(),
        ": name \"organ\", \"pipe\"",
    );
    organ(|it| it.volume = 0, " \"organ\": volume 64, 0");
    organ(|it| it.panning = 128, " \"organ\": panning -40, 128");
    organ(
        |it| it.rate = 4_294_967_295,
        " \"organ\": rate 8363, 4294967295",
    );
    organ(
        |it| it.loop_start = 3,
        " \"organ\": forward loop 2 + 4, forward loop 3 + 4",
    );
    organ(
        |it| it.loop_length = 1,
        " \"organ\": forward loop 2 + 4, forward loop 2 + 1",
    );
    organ(
        |it| it.flags = 2,
        " \"organ\": forward loop 2 + 4, ping-pong loop 2 + 4",
    );
    organ(
        |it| it.flags = 0,
        " \"organ\": forward loop 2 + 4, no loop (stored: 2 + 4)",
    );
    // Both bits of the flags are a forward loop.
    organ(|it| it.flags = 3, " \"organ\": flags 1, 3");
    organ(
        |it| (it.flags, it.loop_start) = (3, 0),
        " \"organ\": forward loop 2 + 4, forward loop 0 + 4; flags 1, 3",
    );
    organ(
        |it| *it = Instrument::default(),
        ": name \"organ\", \"\"; sample 1, no sample; volume 64, 0; panning -40, 0; rate 8363, 0; forward loop 2 + 4, no loop",
    );
}

/// An instrument without a loop: the flags and the numbers of the loop differ, although they have no effect.
#[test]
fn instruments_without_a_loop() {
    let none = |change: fn(&mut Instrument), words: &str| {
        let line = format!("instrument 2 \"\": {words}");
        changed(|it| change(&mut it.instruments[1]), &[&line]);
    };
    none(|it| it.sample = 3, "sample 2, sample 3");
    none(|it| it.sample = 0, "sample 2, no sample");
    none(|it| it.flags = 2, "flags 0, 2");
    none(|it| it.loop_start = 9, "no loop, no loop (stored: 9 + 0)");
    none(
        |it| it.loop_length = 4_294_967_295,
        "no loop, no loop (stored: 0 + 4294967295)",
    );
    none(
        |it| (it.loop_start, it.flags) = (7, 1),
        "no loop, no loop (stored: 7 + 0); flags 0, 1",
    );
    changed(
        |tune| tune.instruments.push(Instrument::default()),
        &["INFO instruments: 2, 3", "instrument 3: only in B"],
    );
}

#[test]
fn envelopes() {
    let volume = |change: fn(&mut Envelope), words: &str| {
        let line = format!("volume envelope 0: {words}");
        let of = |tune: &mut Tune| change(&mut tune.volume_envelopes.as_mut().unwrap()[0]);
        changed(of, &[&line]);
    };
    volume(|it| it.instrument = 2, "instrument 1, 2");
    volume(|it| it.flags = 14, "flags 15, 14");
    volume(|it| it.sections = 4, "sections 3, 4");
    volume(|it| it.first_sustain = 0, "first sustain 1, 0");
    volume(|it| it.loop_first = 1, "loop first 0, 1");
    volume(|it| it.loop_last = 3, "loop last 2, 3");
    volume(|it| it.second_sustain = 0, "second sustain 3, 0");
    volume(|it| it.points[1] = (4, 63), "point 1 is 4:64, 4:63");
    volume(|it| it.points[3] = (65_535, 0), "point 3 is 60:0, 65535:0");
    volume(
        |it| it.points = vec![(0, 1), (4, 64), (20, 48), (61, 2)],
        "point 0 is 0:0, 0:1; 1 more point differs",
    );
    volume(
        |it| {
            *it = Envelope {
                instrument: 2,
                sections: 2,
                points: vec![(1, 1), (2, 2), (3, 3)],
                ..Envelope::default()
            };
        },
        "instrument 1, 2; flags 15, 0; sections 3, 2; first sustain 1, 0; loop last 2, 0; second sustain 3, 0; point 0 is 0:0, 1:1; 2 more points differ",
    );
    let panning = |change: fn(&mut Vec<Envelope>), line: &str| {
        let of = |tune: &mut Tune| change(tune.panning_envelopes.as_mut().unwrap());
        changed(of, &[line]);
    };
    panning(
        |them| them[0].points[1].1 = -1,
        "panning envelope 0: point 1 is 65535:128, 65535:-1",
    );
    // A point that is checked only if its bit of the flags is set.
    panning(
        |them| them[0].second_sustain = 255,
        "panning envelope 0: second sustain 0, 255",
    );
    panning(|them| them.clear(), "panning envelope 0: only in A");
    panning(
        |them| them.push(them[0].clone()),
        "panning envelope 1: only in B",
    );
    changed(
        |tune| tune.panning_envelopes = None,
        &["panning envelope 0: only in A"],
    );
}

/// Panning envelopes of version 2 and version 3 are compared as they are shown.
#[test]
fn versions() {
    let envelope = |points: [i16; 3]| Envelope {
        instrument: 1,
        sections: 2,
        points: points.map(|value| (0, value)).to_vec(),
        ..Envelope::default()
    };
    let of_version = |version: u8, points: [i16; 3]| Tune {
        version,
        instruments: vec![Instrument::default()],
        panning_envelopes: Some(vec![envelope(points)]),
        ..Tune::default()
    };
    let old = of_version(2, [0, 32, 64]);
    let new = of_version(3, [-128, 0, 128]);
    assert_eq!(in_the_other_version(&old), Some(new.clone()));
    differ(&old.bytes(), &new.bytes(), &[]);
    differ(&new.bytes(), &old.bytes(), &[]);
    // The same bytes.
    let same = of_version(3, [0, 32, 64]);
    let line = "panning envelope 0: point 0 is 0:-128, 0:0; 2 more points differ";
    differ(&old.bytes(), &same.bytes(), &[line]);
    let other = of_version(2, [0, 33, 64]);
    let line = "panning envelope 0: point 1 is 0:4, 0:0";
    differ(&other.bytes(), &new.bytes(), &[line]);
}

#[test]
fn samples() {
    let frames = |number: usize, width: u32, data: &[u8], words: &str| {
        let line = format!("sample {number}: {words}");
        let change = |tune: &mut Tune| tune.samples[number - 1] = Sample::new(width, data);
        changed(change, &[&line]);
    };
    frames(1, 1, &[0, 2, 0x7F, 0x80, 0xFF, 5, 6, 7], "frame 1 is 1, 2");
    frames(
        1,
        1,
        &[0, 1, 0x80, 0x7F, 0xFF, 5, 6, 7],
        "frame 2 is 127, -128; 1 more frame differs",
    );
    frames(1, 1, &[0xFF; 8], "frame 0 is 0, -1; 6 more frames differ");
    frames(
        2,
        2,
        &[0, 1, 0xFF, 0xFE, 0x80, 0],
        "frame 2 is 32767, -32768",
    );
    frames(2, 2, &[0, 1, 0xFE, 0xFE, 0x7F, 0xFF], "frame 1 is -2, -258");
    // The lowest byte of 32 bits differs.
    frames(3, 4, &[0, 0, 0, 2, 0x80, 0, 0, 0], "frame 0 is 1, 2");
    frames(
        3,
        4,
        &[0, 0, 0, 1, 0x7F, 0xFF, 0xFF, 0xFF],
        "frame 1 is -2147483648, 2147483647",
    );
    frames(2, 2, &[], "3 frames of 16 bits, 0 frames of 16 bits");
    frames(3, 4, &[1; 4], "2 frames of 32 bits, 1 frame of 32 bits");
    frames(
        2,
        1,
        &[0, 1, 0xFF],
        "3 frames of 16 bits, 3 frames of 8 bits",
    );
    // The same values at another width.
    let silent = |width: u32| Tune {
        samples: vec![Sample::new(width, &[])],
        ..Tune::default()
    };
    differ(
        &silent(1).bytes(),
        &silent(4).bytes(),
        &["sample 1: 0 frames of 8 bits, 0 frames of 32 bits"],
    );
    changed(
        |tune| tune.samples.truncate(2),
        &["INFO samples: 3, 2", "sample 3: only in A"],
    );
    changed(
        |tune| tune.samples.extend(vec![Sample::new(1, &[]); 2]),
        &[
            "INFO samples: 3, 5",
            "sample 4: only in B",
            "sample 5: only in B",
        ],
    );
}

#[test]
fn patterns() {
    changed(
        |tune| tune.patterns[0] = Pattern::new(1, &[0]),
        &["pattern 0: 3 rows of 4 tracks, 1 row of 4 tracks"],
    );
    changed(
        |tune| tune.patterns[1] = Pattern::default(),
        &["pattern 1: 6 rows of 4 tracks, 0 rows of 4 tracks"],
    );
    // Each pattern has other tracks, whatever its cells are.
    changed(
        |tune| tune.tracks = 254,
        &[
            "INFO tracks: 4, 254",
            "pattern 0: 3 rows of 4 tracks, 3 rows of 254 tracks",
            "pattern 1: 6 rows of 4 tracks, 6 rows of 254 tracks",
        ],
    );
    changed(
        |tune| {
            tune.tracks = 6;
            tune.patterns.push(Pattern::default());
        },
        &[
            "INFO patterns: 2, 3",
            "INFO tracks: 4, 6",
            "pattern 0: 3 rows of 4 tracks, 3 rows of 6 tracks",
            "pattern 1: 6 rows of 4 tracks, 6 rows of 6 tracks",
            "pattern 2: only in B",
        ],
    );
}

/// Each field of a cell, with its value in words or in hexadecimal digits.
#[test]
fn cells() {
    let row_5 = |row: &[u8], lines: &[&str]| {
        let stream = [&[0; 5], row].concat();
        changed(|tune| tune.patterns[1] = Pattern::new(6, &stream), lines);
    };
    row_5(
        &[2, 0x3F, 0x32, 1, 12, 0x40, 15, 0x70, 0],
        &["pattern 1 row 5 track 2 note: C-3, D-3"],
    );
    row_5(
        &[0],
        &[
            "pattern 1 row 5 track 2 note: C-3, ---",
            "pattern 1 row 5 track 2 instrument: 01, 00",
            "pattern 1 row 5 track 2 command 1: C, 0",
            "pattern 1 row 5 track 2 parameter 1: 40, 00",
            "pattern 1 row 5 track 2 command 2: F, 0",
            "pattern 1 row 5 track 2 parameter 2: 70, 00",
        ],
    );
    row_5(
        &[2, 0x3F, 0x1F, 0xFF, 35, 0xAB, 36, 0xFF, 0],
        &[
            "pattern 1 row 5 track 2 note: C-3, ===",
            "pattern 1 row 5 track 2 instrument: 01, FF",
            "pattern 1 row 5 track 2 command 1: C, Z",
            "pattern 1 row 5 track 2 parameter 1: 40, AB",
            "pattern 1 row 5 track 2 command 2: F, [24]",
            "pattern 1 row 5 track 2 parameter 2: 70, FF",
        ],
    );
    row_5(
        &[1, 1, 0x5F, 2, 0x3F, 0x30, 1, 12, 0x40, 15, 0x70, 4, 2, 9, 0],
        &[
            "pattern 1 row 5 track 1 note: ---, ?5F",
            "pattern 1 row 5 track 4 instrument: 00, 09",
        ],
    );
    // The last entry of a track is the one that counts, and the entries may have any order.
    row_5(
        &[
            4, 1, 0x8B, 4, 1, 0, 2, 0x3F, 1, 2, 3, 4, 5, 6, 2, 0x3F, 0x30, 1, 12, 0x41, 15, 0x70, 0,
        ],
        &["pattern 1 row 5 track 2 parameter 1: 40, 41"],
    );
}

/// Rows between which others are the same, in several patterns. The next row is in the same pattern, or before or after it in another.
#[test]
fn cells_of_several_rows() {
    let tune = |notes: [u8; 3]| {
        let [a, b, c] = notes;
        Tune {
            tracks: 254,
            patterns: vec![
                Pattern::new(4, &[254, 1, a, 0, 0, 1, 1, 0x40, 0, 1, 1, b, 254, 1, a, 0]),
                Pattern::new(6, &[3, 2, 7, 0, 0, 0, 0, 0, 1, 1, b, 0]),
                Pattern::new(2, &[3, 1, c, 0, 3, 1, c, 0]),
            ],
            ..Tune::default()
        }
    };
    differ(
        &tune([0x10, 0x40, 0x41]).bytes(),
        &tune([0x8B, 0x45, 0x4A]).bytes(),
        &[
            "pattern 0 row 0 track 254 note: C-1, B-8",
            "pattern 0 row 3 track 1 note: C-4, F-4",
            "pattern 0 row 3 track 254 note: C-1, B-8",
            "pattern 1 row 5 track 1 note: C-4, F-4",
            "pattern 2 row 0 track 3 note: C#4, A#4",
            "pattern 2 row 1 track 3 note: C#4, A#4",
        ],
    );
}

/// Differences that are not compared: version, other chunks, the order of chunks, packing, fillers, and a missing name of zeros.
#[test]
fn not_compared() {
    let named = Tune {
        name: Some(Vec::new()),
        panning_envelopes: None,
        ..fair()
    };
    let mut other = Tune {
        version: 2,
        revision: 0x21,
        reserved: [1, 2],
        name: None,
        panning_envelopes: Some(Vec::new()),
        ..fair()
    };
    other.patterns[0] = Pattern {
        rows: 3,
        stream: vec![4, 1, 0, 0, 0, 0, 9][..6].to_vec(),
        filler: 9,
    };
    other.volume_envelopes.as_mut().unwrap()[0]
        .points
        .push((9, 9));
    let mut draft = other.draft().ordered(&[*b"VENV", *b"INFO", *b"SMPL"]);
    draft.chunks.push(Chunk::new(b"DSPE", vec![1, 2, 3]));
    differ(&named.bytes(), &draft.bytes(), &[]);
}

/// Bits 6 and 7 of masks are not compared. A difference beside them has its row, its track and its values, as without them.
#[test]
fn upper_bits_of_masks() {
    let module = |bits: u8, notes: [u8; 2]| {
        let [a, b] = notes;
        let rows: [&[u8]; 5] = [
            &[2, bits | 0x23, 0x47, 1, 5, 0],
            &[1, bits, 4, bits, 0],
            &[4, bits | 0x3F, 0x8B, 2, 3, 4, 5, 6, 1, bits | 1, a, 0],
            &[3, bits | 1, 0x30, 3, bits | 2, 7, 0],
            &[2, bits | 1, b, 0],
        ];
        let tune = Tune {
            patterns: vec![Pattern::new(5, &rows.concat())],
            ..Tune::default()
        };
        tune.bytes()
    };
    let all_bits = [0, 0x40, 0x80, 0xC0];
    for (one, other) in all_bits
        .map(|one| all_bits.map(|other| (one, other)))
        .concat()
    {
        let first = module(one, [0x40, 0x50]);
        differ(&first, &module(other, [0x40, 0x50]), &[]);
        differ(
            &first,
            &module(other, [0x41, 0]),
            &[
                "pattern 0 row 2 track 1 note: C-4, C#4",
                "pattern 0 row 4 track 2 note: C-5, ---",
            ],
        );
    }
}

/// Each of 396,240 fields differs. Every line and every number is as expected.
#[test]
fn many_differences() {
    const ROWS: usize = 260;
    const TRACKS: usize = 254;
    let filled: Vec<u8> = (0..ROWS)
        .flat_map(|_| {
            let mut row: Vec<u8> = (1..=TRACKS as u8)
                .flat_map(|track| [track, 0x3F, 0x40, track, 1, track, 2, track])
                .collect();
            row.push(0);
            row
        })
        .collect();
    let tune = |stream: &[u8]| Tune {
        tracks: TRACKS as u16,
        patterns: vec![Pattern::default(), Pattern::new(ROWS as u16, stream)],
        ..Tune::default()
    };
    let (first, second) = (tune(&filled).bytes(), tune(&[0; ROWS]).bytes());
    let (mut words, mut numbers) = (String::new(), String::new());
    for row in 0..ROWS {
        for track in 1..=TRACKS {
            let cell = format!("pattern 1 row {row} track {track}");
            words += &format!("{cell} note: C-4, ---\n{cell} instrument: {track:02X}, 00\n");
            words += &format!("{cell} command 1: 1, 0\n{cell} parameter 1: {track:02X}, 00\n");
            words += &format!("{cell} command 2: 2, 0\n{cell} parameter 2: {track:02X}, 00\n");
            for field in 1..=6 {
                numbers += &format!("8 1 {row} {track} {field}\n");
            }
        }
    }
    words += "396240 differences\n";
    let folder = Folder::new();
    let run = compared(&folder, &first, &second, &[]);
    assert_eq!((run.status, run.err.as_str()), (Some(3), ""));
    assert!(run.text() == words);
    let run = compared(&folder, &second, &first, &["--numbers"]);
    assert_eq!((run.status, run.err.as_str()), (Some(3), ""));
    assert!(run.text() == numbers);
}

/// Pairs of modules, valid or damaged: numbers and words are those of the second program.
#[test]
fn pairs_of_the_generator() {
    let folder = Folder::new();
    let mut kinds = [0; 9];
    for relation in RELATIONS {
        for seed in 1..=40 {
            let (first, second) = pair(&mut Random::new(seed), relation);
            let title = format!("{relation:?}, seed {seed}");
            let words = compared(&folder, &first, &second, &[]);
            let numbers = compared(&folder, &first, &second, &["--numbers"]);
            let Ok(entries) = differences(&first, &second) else {
                let file = if records::version(&first).is_err() {
                    "a.dbm"
                } else {
                    "b.dbm"
                };
                let file = folder.0.join(file);
                let checked = run(&["check", text(&file)]);
                words.is(1, "", &checked.text());
                numbers.is(1, "", &checked.text());
                continue;
            };
            let status = if entries.is_empty() { 0 } else { 3 };
            let mut expected = (String::new(), Vec::new());
            for entry in &entries {
                let [kind, number, row, track, field] = entry;
                expected.0 += &format!("{kind} {number} {row} {track} {field}\n");
                expected.1.push(line(&first, &second, *entry));
                kinds[usize::from(*kind)] += 1;
            }
            let lines: Vec<&str> = expected.1.iter().map(String::as_str).collect();
            let found = (numbers.status, numbers.text(), numbers.err.as_str());
            assert_eq!(found, (Some(status), expected.0, ""), "{title}");
            let found = (words.status, words.text(), words.err.as_str());
            assert_eq!(found, (Some(status), with_number(&lines), ""), "{title}");
        }
    }
    assert!(kinds[1..].iter().all(|&count| count > 30), "{kinds:?}");
}

/// The line for an entry, from the records of the second program.
fn line(first: &[u8], second: &[u8], entry: Difference) -> String {
    let [_, number, row, track, field] = entry.map(u64::from);
    let modules = [first, second];
    let (title, parts) = match entry[0] {
        NAME => {
            let [one, other] = modules.map(|module| records::name(module).unwrap());
            (
                "name".to_string(),
                Parts::of("", quoted(&one), quoted(&other)),
            )
        }
        INFO => {
            let [one, other] = modules.map(|module| info(module)[number as usize]);
            (format!("INFO {}", one.0), Parts::of("", one.1, other.1))
        }
        PATTERN if field != 0 => {
            let cells = modules.map(|module| records::cell(module, number, row, track).unwrap());
            let [one, other] = cells.map(|cell| cell_fields(&cell)[field as usize - 1].clone());
            let cell = format!("pattern {number} row {row} track {track}");
            (format!("{cell} {}", one.0), Parts::of("", one.1, other.1))
        }
        SONG => return record("song", number, modules.map(|module| song(module, number))),
        INSTRUMENT => {
            let instruments = modules.map(|module| records::instrument(module, number).ok());
            return record("instrument", number, instruments);
        }
        VOLUME_ENVELOPE => {
            let of = |module| records::envelope(module, Kind::Volume, number).ok();
            return record("volume envelope", number, modules.map(of));
        }
        PANNING_ENVELOPE => {
            let of = |module| records::envelope(module, Kind::Panning, number).ok();
            return record("panning envelope", number, modules.map(of));
        }
        SAMPLE => {
            return record(
                "sample",
                number,
                modules.map(|module| frames(module, number)),
            )
        }
        _ => {
            return record(
                "pattern",
                number,
                modules.map(|module| size(module, number)),
            )
        }
    };
    format!("{title}: {}", parts.0.join("; "))
}

fn info(module: &[u8]) -> [(&'static str, u64); 5] {
    let info = records::info(module).unwrap();
    [
        ("instruments", info.instruments),
        ("samples", info.samples),
        ("songs", info.songs),
        ("patterns", info.patterns),
        ("tracks", info.tracks),
    ]
}

fn cell_fields(cell: &Cell) -> [(&'static str, String); 6] {
    let names = [
        "C-", "C#", "D-", "D#", "E-", "F-", "F#", "G-", "G#", "A-", "A#", "B-",
    ];
    let note = match cell.note {
        Note::None => "---".to_string(),
        Note::KeyOff => "===".to_string(),
        Note::Pitch { octave, semitone } => format!("{}{octave}", names[usize::from(semitone)]),
        Note::Unknown(byte) => format!("?{byte:02X}"),
    };
    let digit = |command: u8| match std::char::from_digit(u32::from(command), 36) {
        Some(digit) => digit.to_ascii_uppercase().to_string(),
        None => format!("[{command:02X}]"),
    };
    [
        ("note", note),
        ("instrument", format!("{:02X}", cell.instrument)),
        ("command 1", digit(cell.command1)),
        ("parameter 1", format!("{:02X}", cell.parameter1)),
        ("command 2", digit(cell.command2)),
        ("parameter 2", format!("{:02X}", cell.parameter2)),
    ]
}

fn quoted(name: &[u8]) -> String {
    format!("\"{}\"", escaped(name))
}

/// The parts of a line: what differs, with both values.
#[derive(Default)]
struct Parts(Vec<String>);

impl Parts {
    fn of<Value: Display + PartialEq>(label: &str, one: Value, other: Value) -> Parts {
        let mut parts = Parts::default();
        parts.add(label, one, other);
        parts
    }

    fn add<Value: Display + PartialEq>(&mut self, label: &str, one: Value, other: Value) {
        if one != other {
            self.0.push(format!("{label}{one}, {other}"));
        }
    }

    fn add_items(&mut self, nouns: [&str; 2], is: &str, one: &[String], other: &[String]) {
        let numbered = one.iter().zip(other).enumerate();
        let differing: Vec<_> = numbered.filter(|(_, (one, other))| one != other).collect();
        let Some((index, (one, other))) = differing.first() else {
            return;
        };
        self.add(&format!("{} {index} is {is}", nouns[0]), one, other);
        match differing.len() {
            1 => {}
            2 => self.0.push(format!("1 more {} differs", nouns[0])),
            all => self.0.push(format!("{} more {} differ", all - 1, nouns[1])),
        }
    }
}

/// A record of the second program.
trait Record {
    fn name(&self) -> Option<String> {
        None
    }

    fn differing(&self, other: &Self) -> Parts;
}

fn record<Kind: Record>(noun: &str, number: u64, records: [Option<Kind>; 2]) -> String {
    let (one, other) = match records {
        [Some(one), Some(other)] => (one, other),
        [Some(_), None] => return format!("{noun} {number}: only in A"),
        [None, _] => return format!("{noun} {number}: only in B"),
    };
    let parts = one.differing(&other).0.join("; ");
    match (one.name(), other.name()) {
        (Some(name), Some(same)) if name == same => format!("{noun} {number} {name}: {parts}"),
        (Some(name), Some(new)) if parts.is_empty() => {
            format!("{noun} {number}: name {name}, {new}")
        }
        (Some(name), Some(new)) => format!("{noun} {number}: name {name}, {new}; {parts}"),
        _ => format!("{noun} {number}: {parts}"),
    }
}

/// A song, and the pattern of each entry.
type SongEntries = (records::Song, Vec<String>);

fn song(module: &[u8], number: u64) -> Option<SongEntries> {
    let song = records::song(module, number).ok()?;
    let entry = |entry| records::entry(module, number, entry).unwrap().to_string();
    let entries = (0..u64::from(song.length)).map(entry).collect();
    Some((song, entries))
}

impl Record for SongEntries {
    fn name(&self) -> Option<String> {
        Some(quoted(&self.0.name))
    }

    fn differing(&self, other: &Self) -> Parts {
        let mut parts = Parts::of("length ", self.0.length, other.0.length);
        parts.add_items(["entry", "entries"], "pattern ", &self.1, &other.1);
        parts
    }
}

/// The kind of the loop, and its words.
fn loop_words(it: &records::Instrument) -> (&'static str, String) {
    let numbers = format!("{} + {}", it.loop_start, it.loop_length);
    let kind = match (it.loop_length, it.flags) {
        (0, _) | (_, 0) if numbers == "0 + 0" => return ("no", "no loop".to_string()),
        (0, _) | (_, 0) => return ("no", format!("no loop (stored: {numbers})")),
        (_, 2) => "ping-pong",
        _ => "forward",
    };
    (kind, format!("{kind} loop {numbers}"))
}

impl Record for records::Instrument {
    fn name(&self) -> Option<String> {
        Some(quoted(&self.name))
    }

    fn differing(&self, other: &Self) -> Parts {
        let [one_sample, other_sample] = [self, other].map(|it| match it.sample {
            0 => "no sample".to_string(),
            sample => format!("sample {sample}"),
        });
        let [one_loop, other_loop] = [self, other].map(loop_words);
        let mut parts = Parts::of("", one_sample, other_sample);
        parts.add("volume ", self.volume, other.volume);
        parts.add("panning ", self.panning, other.panning);
        parts.add("rate ", self.rate, other.rate);
        parts.add("", one_loop.1, other_loop.1);
        if one_loop.0 == other_loop.0 {
            parts.add("flags ", self.flags, other.flags);
        }
        parts
    }
}

impl Record for records::Envelope {
    fn differing(&self, other: &Self) -> Parts {
        let points = |it: &records::Envelope| -> Vec<String> {
            let in_use = it.points[..=usize::from(it.sections)].iter();
            in_use
                .map(|point| format!("{}:{}", point.position, point.value))
                .collect()
        };
        let mut parts = Parts::of("instrument ", self.instrument, other.instrument);
        parts.add("flags ", self.flags, other.flags);
        parts.add("sections ", self.sections, other.sections);
        parts.add("first sustain ", self.first_sustain, other.first_sustain);
        parts.add("loop first ", self.loop_first, other.loop_first);
        parts.add("loop last ", self.loop_last, other.loop_last);
        parts.add("second sustain ", self.second_sustain, other.second_sustain);
        parts.add_items(["point", "points"], "", &points(self), &points(other));
        parts
    }
}

fn plural(count: u64, noun: &str) -> String {
    match count {
        1 => format!("1 {noun}"),
        _ => format!("{count} {noun}s"),
    }
}

/// The size of a sample in words, and the value of each frame.
struct Frames(String, Vec<String>);

fn frames(module: &[u8], number: u64) -> Option<Frames> {
    let it = records::sample(module, number).ok()?;
    let (place, length) = records::frames(module, number);
    let bytes = &module[place as usize..(place + length) as usize];
    let value = |frame: &[u8]| match *frame {
        [a] => i32::from(a as i8),
        [a, b] => i32::from(i16::from_be_bytes([a, b])),
        [a, b, c, d] => i32::from_be_bytes([a, b, c, d]),
        _ => panic!("a frame of {} bytes", frame.len()),
    };
    let values = bytes.chunks(usize::from(it.width / 8)).map(value);
    let count = plural(u64::from(it.frames), "frame");
    Some(Frames(
        format!("{count} of {} bits", it.width),
        values.map(|value| value.to_string()).collect(),
    ))
}

impl Record for Frames {
    fn differing(&self, other: &Self) -> Parts {
        let mut parts = Parts::of("", &self.0, &other.0);
        if parts.0.is_empty() {
            parts.add_items(["frame", "frames"], "", &self.1, &other.1);
        }
        parts
    }
}

/// The size of a pattern in words.
struct Size(String);

fn size(module: &[u8], number: u64) -> Option<Size> {
    let rows = records::pattern(module, number).ok()?;
    let tracks = records::info(module).unwrap().tracks;
    let rows = plural(u64::from(rows), "row");
    Some(Size(format!("{rows} of {}", plural(tracks, "track"))))
}

impl Record for Size {
    fn differing(&self, other: &Self) -> Parts {
        Parts::of("", &self.0, &other.0)
    }
}

/// Standard input is A or B.
#[test]
fn standard_input() {
    let (carousel, old) = (sample("carousel.dbm"), sample("old.dbm"));
    let lines = with_number(&CAROUSEL_AND_OLD);
    run_on(&["compare", "-", text(&old)], &sample_bytes("carousel.dbm")).is(3, &lines, "");
    run_on(&["compare", text(&carousel), "-"], &sample_bytes("old.dbm")).is(3, &lines, "");
    run_on(&["compare", "-", "-"], &sample_bytes("old.dbm"))
        .fails("standard input can be read only once: see 'dbm0 compare --help'");
    // Standard input is empty, which is not a module.
    let nothing =
        "-: refused 2 at 0: this is no DBM0 module: it has 0 bytes, and the header alone has 8\n";
    run(&["compare", text(&old), "-"]).is(1, "", nothing);
    run(&["compare", "-", text(&old)]).is(1, "", nothing);
}

/// A file that cannot be read, even if the other module is refused.
#[test]
fn files_that_cannot_be_read() {
    let folder = Folder::new();
    let missing = folder.0.join("missing");
    let missing = text(&missing);
    for name in ["carousel.dbm", "short-organ.dbm"] {
        let module = sample(name);
        let module = text(&module);
        for files in [[missing, module], [module, missing], [missing, missing]] {
            let words = "missing: cannot be read: No such file or directory: check its name";
            run(&["compare", files[0], files[1]]).fails(words);
        }
        run(&["compare", text(&folder.0), module])
            .fails(": cannot be read: Is a directory: name the files in it");
        run(&["compare", module, text(&folder.0)])
            .fails(": cannot be read: Is a directory: name the files in it");
    }
}

#[test]
fn without_rights() {
    let folder = Folder::new();
    set_mode(&folder.0, 0o755);
    let module = sample_bytes("carousel.dbm");
    let (a, b) = (folder.file("a.dbm", &module), folder.file("b.dbm", &module));
    set_mode(&a, 0o644);
    set_mode(&b, 0o000);
    let files = ["compare", text(&a), text(&b)];
    as_nobody(&folder, &files)
        .fails("b.dbm: cannot be read: Permission denied: ask for the right to read it");
    set_mode(&b, 0o644);
    as_nobody(&folder, &files).is(0, "0 differences\n", "");
}

/// Modules of the maximum length, and of one byte more.
#[test]
fn the_longest_modules() {
    const MOST: usize = 16_777_216;
    let folder = Folder::new();
    let of_frames = |bytes: usize| {
        let tune = Tune {
            samples: vec![Sample::new(1, &vec![7; bytes])],
            ..Tune::default()
        };
        tune.bytes()
    };
    let room = MOST - of_frames(0).len();
    let first = of_frames(room);
    assert_eq!(first.len(), MOST);
    let mut second = first.clone();
    compared(&folder, &first, &second, &[]).is(0, "0 differences\n", "");
    second[MOST - 1] = 9;
    let line = format!("sample 1: frame {} is 7, 9", room - 1);
    compared(&folder, &first, &second, &[]).is(3, &with_number(&[&line]), "");
    second.push(0);
    let long = folder.0.join("b.dbm");
    let words = "refused 1 at 0: the module has more than 16777216 bytes";
    let run = compared(&folder, &first, &second, &[]);
    run.is(1, "", &format!("{}: {words}\n", text(&long)));
    let run = common::run(&["compare", "/dev/zero", text(&long)]);
    run.is(1, "", &format!("/dev/zero: {words}\n"));
}

/// Two modules with 60,000 differences: their lines are longer than the buffer of a pipe.
fn long_list(folder: &Folder) -> [String; 2] {
    let tune = |note: u8| Tune {
        patterns: vec![Pattern::new(60_000, &[1, 1, note, 0].repeat(60_000))],
        ..Tune::default()
    };
    [("a.dbm", 0x40), ("b.dbm", 0x41)]
        .map(|(name, note)| text(&folder.file(name, &tune(note).bytes())).to_string())
}

/// A reader that closes standard output: no message, and the same status as otherwise.
#[test]
fn a_closed_pipe() {
    let folder = Folder::new();
    let [a, b] = long_list(&folder);
    for options in [&[][..], &["--numbers"]] {
        for bytes in [0, 1_000] {
            let mut child = Command::new(PROGRAM)
                .args(["compare", &a, &b])
                .args(options)
                .stdin(Stdio::null())
                .stdout(Stdio::piped())
                .stderr(Stdio::piped())
                .spawn()
                .expect("the program runs");
            let mut stdout = child.stdout.take().expect("a pipe");
            stdout
                .read_exact(&mut vec![0; bytes])
                .expect("so many come");
            drop(stdout);
            finish_child(child).is(3, "", "");
        }
    }
    let closed = "\"$0\" compare \"$1\" \"$2\" >&-";
    through_shell(closed, &[Path::new(&a), Path::new(&b)]).is(3, "", "");
    through_shell(closed, &[Path::new(&a), Path::new(&a)]).is(0, "", "");
}

/// Standard output on a full disk.
#[test]
fn standard_output_is_full() {
    let folder = Folder::new();
    let [a, b] = long_list(&folder);
    for arguments in [
        &["compare", &a, &b][..],
        &["compare", "--numbers", &a, &b],
        &["compare", &a, &a],
    ] {
        let output = Command::new(PROGRAM)
            .args(arguments)
            .stdout(full())
            .output()
            .expect("the program runs");
        Run::of(output).fails("standard output: cannot be written: No space left on device: make room or send it elsewhere");
    }
}
