//! `dbm0 replace`: the bytes that it writes, the lines that it prints, and that it writes a whole file or nothing.

mod common;

use std::fs::{self, File, Permissions};
use std::os::unix::fs::{symlink, PermissionsExt};
use std::path::Path;
use std::process::Command;

use common::{
    as_nobody, escaped, full, holds, run, run_on, sample, sample_bytes, set_mode, text,
    through_shell, Folder, Run, PROGRAM,
};
use reference::draft::{Chunk, Instrument, Pattern, Sample, Tune};
use reference::generate::{bytes, module, Limits, Random};
use reference::records;
use reference::replace::{replace_sample, Replaced};

/// The maximum length of a module in bytes.
const MOST: usize = 16_777_216;

/// The module with the sample replaced by the second program, and the number of loops that are cleared.
fn replaced(module: &[u8], sample: u64, frames: &[u8]) -> (Vec<u8>, u64) {
    let mut out = vec![0; module.len() + frames.len()];
    let Replaced { length, cleared } =
        replace_sample(module, sample, frames, &mut out).expect("it can be replaced");
    out.truncate(length as usize);
    (out, cleared)
}

/// The arguments of the command.
fn arguments<'a>(from: &'a Path, sample: &'a str, frames: &'a Path, to: &'a Path) -> [&'a str; 5] {
    ["replace", text(from), sample, text(frames), text(to)]
}

/// The lines of the summary, each after the name of OUT.
fn after_name(to: &str, lines: &[&str]) -> String {
    lines.iter().map(|line| format!("{to}: {line}\n")).collect()
}

/// The organ of the carousel gets the short recording: its loop is cleared, and everything else is the same.
#[test]
fn the_organ() {
    let folder = Folder::new();
    let (carousel, frames) = (sample("carousel.dbm"), sample("short-organ.frames"));
    let to = folder.0.join("out.dbm");
    let lines = after_name(
        text(&to),
        &[
            "sample 2: 64 frames of 8 bits became 40 of 16 bits; 1 loop cleared",
            "instrument 2 \"organ\": forward loop 16 + 48 cleared",
        ],
    );
    run(&arguments(&carousel, "2", &frames, &to)).is(0, &lines, "");
    let written = fs::read(&to).expect("the file is there");
    let frames = sample_bytes("short-organ.frames");
    let module = sample_bytes("carousel.dbm");
    assert_eq!((frames.len(), written.len()), (80, 1_168));
    // SMPL is at 842 and has 16 bytes more. The block of sample 2 is at 954, that of instrument 2 at 540.
    let mut expected = module[..954].to_vec();
    expected[846..850].copy_from_slice(&(280u32 + 16).to_be_bytes());
    expected[540 + 38..540 + 46].fill(0);
    expected[540 + 48..540 + 50].fill(0);
    expected.extend([0, 0, 0, 2, 0, 0, 0, 40]);
    expected.extend(&frames);
    expected.extend(&module[954 + 8 + 64..]);
    assert!(written == expected);
    holds(&carousel, &module);
    run(&["check", text(&to)]).is(0, &format!("{}: accepted\n", text(&to)), "");
    let report = run(&["report", text(&to)]).text();
    assert!(report.contains(
        "instrument 2 \"organ\": sample 2, volume 64, panning -40, rate 8363, no loop\n"
    ));
    assert!(report.contains("sample 2: 16 bits, 40 frames, 80 bytes\n"));
    assert_eq!(folder.names(), ["out.dbm"]);
}

/// 64 frames keep the loop, 63 do not, and no frames at all are a sample too. The number may have zeros before it.
#[test]
fn lengths() {
    let folder = Folder::new();
    let carousel = sample("carousel.dbm");
    let module = sample_bytes("carousel.dbm");
    let to = folder.0.join("out.dbm");
    let organ = "instrument 2 \"organ\": forward loop 16 + 48 cleared";
    let expected: [(&str, usize, &[&str]); 5] = [
        (
            "2",
            128,
            &["sample 2: 64 frames of 8 bits became 64 of 16 bits; 0 loops cleared"],
        ),
        (
            "002",
            126,
            &[
                "sample 2: 64 frames of 8 bits became 63 of 16 bits; 1 loop cleared",
                organ,
            ],
        ),
        (
            "2",
            0,
            &[
                "sample 2: 64 frames of 8 bits became 0 of 16 bits; 1 loop cleared",
                organ,
            ],
        ),
        (
            "1",
            2,
            &["sample 1: 48 frames of 16 bits became 1 of 16 bits; 0 loops cleared"],
        ),
        (
            "3",
            1_000,
            &["sample 3: 24 frames of 32 bits became 500 of 16 bits; 0 loops cleared"],
        ),
    ];
    for (number, length, lines) in expected {
        let bytes: Vec<u8> = (0..length).map(|at| at as u8).collect();
        let frames = folder.file("frames", &bytes);
        let run = run(&arguments(&carousel, number, &frames, &to));
        run.is(0, &after_name(text(&to), lines), "");
        let (module, cleared) = replaced(&module, number.parse().expect("a number"), &bytes);
        assert_eq!(lines.len() as u64, 1 + cleared);
        holds(&to, &module);
    }
}

/// A sample of one frame, and one instrument.
#[test]
fn one_frame() {
    let folder = Folder::new();
    let tune = Tune {
        samples: vec![Sample::new(1, &[5])],
        ..Tune::default()
    };
    let from = folder.file("in.dbm", &tune.bytes());
    let frames = folder.file("frames", &[1, 2]);
    let to = folder.0.join("out.dbm");
    let line = "sample 1: 1 frame of 8 bits became 1 of 16 bits; 0 loops cleared";
    run(&arguments(&from, "1", &frames, &to)).is(0, &after_name(text(&to), &[line]), "");
    // The frames that it has now: the module stays.
    let line = "sample 1: 1 frame of 16 bits became 1 of 16 bits; 0 loops cleared";
    let written = fs::read(&to).expect("the file is there");
    run(&arguments(&to, "1", &frames, &to)).is(0, &after_name(text(&to), &[line]), "");
    holds(&to, &written);
}

fn looped(name: &[u8], sample: u16, start: u32, length: u32, flags: u16) -> Instrument {
    Instrument {
        name: name.to_vec(),
        sample,
        loop_start: start,
        loop_length: length,
        flags,
        ..Instrument::default()
    }
}

/// A module with many loops, and names with unusual bytes.
fn many_loops() -> Tune {
    Tune {
        instruments: vec![
            looped(b"\"fife\"\\", 1, 0, 9, 1),
            looped(b"", 1, 1, 9, 2),
            looped(b"\xFC\x00\x1b[2J", 1, 4_294_967_295, 4_294_967_295, 0),
            looped(b"other sample", 2, 0, 10, 1),
            looped(b"thirty bytes of a long name...", 1, 9, 1, 3),
            looped(b"fits", 1, 0, 4, 1),
            looped(b"no length", 1, 10, 0, 3),
            looped(b"new\nline", 1, 4, 1, 2),
        ],
        samples: vec![Sample::new(4, &[7; 40]), Sample::new(2, &[8; 20])],
        ..Tune::default()
    }
}

const MANY_LINES: [&str; 5] = [
    "sample 1: 10 frames of 32 bits became 4 of 16 bits; 4 loops cleared",
    "instrument 1 \"\\x22fife\\x22\\x5c\": forward loop 0 + 9 cleared",
    "instrument 2 \"\": ping-pong loop 1 + 9 cleared",
    "instrument 5 \"thirty bytes of a long name...\": forward loop 9 + 1 cleared",
    "instrument 8 \"new\\x0aline\": ping-pong loop 4 + 1 cleared",
];

/// The packed rows stay byte for byte, also bits 6 and 7 of their masks.
#[test]
fn upper_bits_of_masks() {
    let folder = Folder::new();
    let to = folder.0.join("out.dbm");
    let frames = folder.file("frames", &[1, 2, 3, 4]);
    for bits in [0, 0x40, 0x80, 0xC0] {
        let module = |sample: Sample| {
            let stream = [1, bits | 1, 0x47, 2, bits, 0, 4, bits | 0x30, 5, 6, 0];
            let tune = Tune {
                patterns: vec![Pattern::new(2, &stream)],
                samples: vec![sample],
                ..Tune::default()
            };
            tune.bytes()
        };
        let from = folder.file("in.dbm", &module(Sample::new(1, &[5; 9])));
        let line = "sample 1: 9 frames of 8 bits became 2 of 16 bits; 0 loops cleared";
        run(&arguments(&from, "1", &frames, &to)).is(0, &after_name(text(&to), &[line]), "");
        holds(&to, &module(Sample::new(2, &[1, 2, 3, 4])));
    }
}

/// Several loops are cleared, with INST before and after SMPL.
#[test]
fn several_loops() {
    let folder = Folder::new();
    let frames = folder.file("frames", b"ABCDEFGH");
    let to = folder.0.join("out.dbm");
    let draft = many_loops().draft();
    for order in [
        [*b"INFO", *b"INST", *b"SMPL"],
        [*b"INFO", *b"SMPL", *b"INST"],
    ] {
        let mut draft = draft.ordered(&order);
        draft.chunks.push(Chunk::new(b"LAST", vec![1, 2, 3]));
        let module = draft.bytes();
        let from = folder.file("in.dbm", &module);
        run(&arguments(&from, "1", &frames, &to)).is(0, &after_name(text(&to), &MANY_LINES), "");
        let (expected, cleared) = replaced(&module, 1, b"ABCDEFGH");
        assert_eq!(cleared, 4);
        holds(&to, &expected);
        run(&["check", text(&to)]).is(0, &format!("{}: accepted\n", text(&to)), "");
    }
}

/// Standard input for the module or for the frames, and standard output for the result. The lines are then on standard error.
#[test]
fn standard_input_and_output() {
    let folder = Folder::new();
    let module = many_loops().bytes();
    let from = folder.file("in.dbm", &module);
    let frames = folder.file("frames", b"ABCDEFGH");
    let (expected, _) = replaced(&module, 1, b"ABCDEFGH");
    let lines = after_name("standard output", &MANY_LINES);
    for (arguments, input) in [
        (["replace", "-", "1", text(&frames), "-"], &module[..]),
        (["replace", text(&from), "1", "-", "-"], b"ABCDEFGH"),
    ] {
        let run = run_on(&arguments, input);
        assert_eq!((run.status, &run.err), (Some(0), &lines));
        assert!(run.out == expected);
    }
    let to = folder.0.join("out.dbm");
    let lines = after_name(text(&to), &MANY_LINES);
    run_on(&["replace", "-", "1", text(&frames), text(&to)], &module).is(0, &lines, "");
    holds(&to, &expected);
}

/// IN and OUT are the same file, and FRAMES and OUT.
#[test]
fn the_same_file() {
    let folder = Folder::new();
    let module = many_loops().bytes();
    let (expected, _) = replaced(&module, 1, b"ABCDEFGH");
    let file = folder.file("tune.dbm", &module);
    let frames = folder.file("frames", b"ABCDEFGH");
    let lines = after_name(text(&file), &MANY_LINES);
    run(&arguments(&file, "1", &frames, &file)).is(0, &lines, "");
    holds(&file, &expected);
    holds(&frames, b"ABCDEFGH");
    let from = folder.file("tune.dbm", &module);
    let lines = after_name(text(&frames), &MANY_LINES);
    run(&arguments(&from, "1", &frames, &frames)).is(0, &lines, "");
    holds(&frames, &expected);
    holds(&from, &module);
    assert_eq!(folder.names(), ["frames", "tune.dbm"]);
}

/// The bytes and the lines for modules of the generator, as the second program has them.
#[test]
fn modules_of_the_generator() {
    let folder = Folder::new();
    let mut loops = 0;
    for seed in 1..=300 {
        let random = &mut Random::new(seed);
        let module = module(random, &Limits::USUAL).bytes();
        let samples = records::info(&module).expect("it is accepted").samples;
        if samples == 0 {
            continue;
        }
        let sample = 1 + random.below(samples);
        let length = 2 * random.below(20);
        let new = bytes(random, length);
        let frames = folder.file("frames", &new);
        let number = sample.to_string();
        let run = run_on(&["replace", "-", &number, text(&frames), "-"], &module);
        let (expected, cleared) = replaced(&module, sample, &new);
        assert_eq!(run.status, Some(0), "seed {seed}");
        assert!(run.out == expected, "seed {seed}");
        assert_eq!(run.err, lines(&module, &expected, sample), "seed {seed}");
        assert_eq!(run.err.lines().count() as u64, 1 + cleared, "seed {seed}");
        loops += cleared;
    }
    assert!(loops > 50, "{loops} loops were cleared");
}

/// The lines on standard error, from the records of the second program before and after.
fn lines(before: &[u8], after: &[u8], sample: u64) -> String {
    let [old, new] = [before, after].map(|of| records::sample(of, sample).expect("it is there"));
    let instruments = records::info(before).expect("it is accepted").instruments;
    let mut cleared = Vec::new();
    for number in 1..=instruments {
        let [old, new] =
            [before, after].map(|of| records::instrument(of, number).expect("it is there"));
        if old == new {
            continue;
        }
        let kind = match old.flags {
            2 => "ping-pong",
            _ => "forward",
        };
        cleared.push(format!(
            "standard output: instrument {number} \"{}\": {kind} loop {} + {} cleared\n",
            escaped(&old.name),
            old.loop_start,
            old.loop_length
        ));
    }
    let plural = |count: u64| if count == 1 { "" } else { "s" };
    format!(
        "standard output: sample {sample}: {} frame{} of {} bits became {} of {} bits; {} loop{} cleared\n{}",
        old.frames,
        plural(u64::from(old.frames)),
        old.width,
        new.frames,
        new.width,
        cleared.len(),
        plural(cleared.len() as u64),
        cleared.concat()
    )
}

/// There is no such sample. An odd number of bytes is reported only if there is one.
#[test]
fn no_such_sample() {
    let folder = Folder::new();
    let carousel = sample("carousel.dbm");
    let to = folder.0.join("out.dbm");
    let large = "9".repeat(1_000);
    for number in [
        "0",
        "4",
        "00",
        "258",
        "18446744073709551615",
        "18446744073709551618",
        &large,
    ] {
        for length in [2, 3] {
            let frames = folder.file("frames", &vec![0; length]);
            let line = format!(
                "dbm0: {}: refused 18 at 0: there is no sample {number}: the module has 3 samples: choose one from 1 to 3\n",
                text(&carousel)
            );
            run(&arguments(&carousel, number, &frames, &to)).is(2, "", &line);
        }
    }
    let frames = folder.file("frames", b"ab");
    let smallest = sample("smallest.dbm");
    run(&arguments(&smallest, "1", &frames, &to))
        .fails("refused 18 at 0: there is no sample 1: the module has none\n");
    let old = sample("old.dbm");
    run(&arguments(&old, "2", &frames, &to))
        .fails("refused 18 at 0: there is no sample 2: the module has 1 sample: choose 1\n");
    assert_eq!(folder.names(), ["frames"]);
}

/// SAMPLE is not a number.
#[test]
fn no_number() {
    let folder = Folder::new();
    let carousel = sample("carousel.dbm");
    let to = folder.0.join("out.dbm");
    let frames = sample("short-organ.frames");
    for wrong in ["", "two", "+2", "2 ", "2.0", "0x2", "2\n", "\u{0662}"] {
        let run = run(&arguments(&carousel, wrong, &frames, &to));
        run.fails("' is not the number of a sample: see 'dbm0 replace --help'\n");
    }
    let run = run(&[
        "replace",
        "--",
        text(&carousel),
        "-2",
        text(&frames),
        text(&to),
    ]);
    run.fails("dbm0: '-2' is not the number of a sample: see 'dbm0 replace --help'\n");
    assert!(folder.names().is_empty());
}

#[test]
fn an_odd_number_of_bytes() {
    let folder = Folder::new();
    let carousel = sample("carousel.dbm");
    let there = folder.file("there.dbm", b"stays");
    for length in [1, 79, 65_537] {
        let frames = folder.file("frames", &vec![0; length]);
        let line = format!(
            "dbm0: {}: refused 19 at 0: it has an odd number of bytes: give frames of 16 bits, 2 bytes each\n",
            text(&frames)
        );
        run(&arguments(&carousel, "2", &frames, &there)).is(2, "", &line);
        run(&["replace", text(&carousel), "2", text(&frames), "-"]).is(2, "", &line);
    }
    holds(&there, b"stays");
    assert_eq!(folder.names(), ["frames", "there.dbm"]);
}

/// For a refused module nothing is written, and its line is printed, whatever the other arguments are.
#[test]
fn refused() {
    let folder = Folder::new();
    let from = sample("short-organ.dbm");
    let there = folder.file("there.dbm", b"stays");
    let line = format!(
        "{}: refused 14 at 540: instrument 2 \"organ\": loop 16 + 48 is outside its sample 2 (40 frames)\n",
        text(&from)
    );
    let frames = folder.file("frames", b"abc");
    for frames in [&sample("short-organ.frames"), &frames] {
        for number in ["2", "0", "99999999999999999999"] {
            run(&arguments(&from, number, frames, &there)).is(1, "", &line);
            run(&arguments(&from, number, frames, &folder.0.join("new.dbm"))).is(1, "", &line);
            run(&["replace", text(&from), number, text(frames), "-"]).is(1, "", &line);
        }
    }
    holds(&there, b"stays");
    assert_eq!(folder.names(), ["frames", "there.dbm"]);
}

/// A file of this many zeros, which takes no room on the disk.
fn zeros(folder: &Folder, name: &str, length: u64) -> std::path::PathBuf {
    let path = folder.0.join(name);
    let file = File::create(&path).expect("a new file");
    file.set_len(length).expect("set");
    path
}

/// The result would be longer than a module can be. A longer FRAMES is not read to its end.
#[test]
fn too_long_a_result() {
    let folder = Folder::new();
    let carousel = sample("carousel.dbm");
    let to = folder.0.join("out.dbm");
    let most = MOST as u64;
    // Without the frames of sample 2 the carousel has 1,088 bytes.
    let fits = most - 1_088;
    let too_long = |frames: &Path| {
        let line = format!(
            "dbm0: {}: refused 1 at 0: the module would have more than 16777216 bytes: give fewer frames\n",
            text(frames)
        );
        run(&arguments(&carousel, "2", frames, &to)).is(2, "", &line);
    };
    for length in [fits + 2, most, most + 2, most + 4, 1 << 33] {
        too_long(&zeros(&folder, "frames", length));
    }
    too_long(Path::new("/dev/zero"));
    for length in [fits + 1, most + 1, most + 3, (1 << 33) + 1] {
        let frames = zeros(&folder, "frames", length);
        run(&arguments(&carousel, "2", &frames, &to)).fails("refused 19 at 0: ");
    }
    assert_eq!(folder.names(), ["frames"]);
    let frames = zeros(&folder, "frames", fits);
    let line = format!(
        "sample 2: 64 frames of 8 bits became {} of 16 bits; 0 loops cleared",
        fits / 2
    );
    let run = run(&arguments(&carousel, "2", &frames, &to));
    run.is(0, &after_name(text(&to), &[&line]), "");
    assert_eq!(fs::metadata(&to).expect("there").len(), most);
}

/// A module of the maximum length: fewer frames, as many bytes, and more.
#[test]
fn a_large_module() {
    let folder = Folder::new();
    let mut tune = many_loops();
    tune.samples[1] = Sample::new(2, &[8; 2_000]);
    tune.instruments[3].loop_length = 1_000;
    let mut draft = tune.draft();
    let left = MOST - draft.bytes().len() - 8;
    let data: Vec<u8> = (0..left).map(|at| (at ^ at >> 8) as u8).collect();
    draft.chunks.push(Chunk::new(b"REST", data));
    let module = draft.bytes();
    assert_eq!(module.len(), MOST);
    let from = folder.file("in.dbm", &module);
    let to = folder.0.join("out.dbm");
    for length in [0, 1_998, 2_000] {
        let bytes = vec![9; length];
        let frames = folder.file("frames", &bytes);
        let run = run(&arguments(&from, "2", &frames, &to));
        assert_eq!((run.status, run.err.as_str()), (Some(0), ""));
        holds(&to, &replaced(&module, 2, &bytes).0);
    }
    let frames = folder.file("frames", &[9; 2_002]);
    run(&arguments(&from, "2", &frames, &to))
        .fails("frames: refused 1 at 0: the module would have more than 16777216 bytes");
    // One byte more in the module: the module itself is refused.
    let longer = folder.file("in.dbm", &[&module[..], &[0]].concat());
    let line = format!(
        "{}: refused 1 at 0: the module has more than 16777216 bytes\n",
        text(&longer)
    );
    run(&arguments(&longer, "2", &frames, &to)).is(1, "", &line);
}

/// If IN or FRAMES cannot be read, OUT is unchanged.
#[test]
fn inputs_that_cannot_be_read() {
    let folder = Folder::new();
    let there = folder.file("there.dbm", b"stays");
    let missing = folder.0.join("missing");
    let (carousel, frames) = (sample("carousel.dbm"), sample("short-organ.frames"));
    for (from, frames) in [(&missing, &frames), (&carousel, &missing)] {
        let run = run(&arguments(from, "2", frames, &there));
        run.fails("missing: cannot be read: No such file or directory: check its name");
    }
    for (from, frames) in [(&folder.0, &frames), (&carousel, &folder.0)] {
        let run = run(&arguments(from, "2", frames, &there));
        run.fails(": cannot be read: Is a directory: name the files in it");
    }
    holds(&there, b"stays");
    assert_eq!(folder.names(), ["there.dbm"]);
}

/// If OUT cannot be written, it is unchanged and no other file remains.
#[test]
fn out_cannot_be_written() {
    let folder = Folder::new();
    let (carousel, frames) = (sample("carousel.dbm"), sample("short-organ.frames"));
    let fails = |to: &Path, words: &str| {
        let run = run(&arguments(&carousel, "2", &frames, to));
        run.fails(&format!(
            "{}: cannot be written, nothing was changed: {words}",
            text(to)
        ));
    };
    fails(
        &folder.0.join("missing/out.dbm"),
        "No such file or directory: make the folder first",
    );
    fails(&folder.0, "it is a folder: name a file in it");
    fails(Path::new(""), "it has no name: name a file");
    fails(
        Path::new("/dev/null"),
        "it is no regular file: use - and redirect standard output",
    );
    let link = folder.0.join("link");
    symlink("nowhere", &link).expect("a link");
    fails(&link, "it is a link to nothing: name the file itself");
    assert_eq!(folder.names(), ["link"]);
}

/// A file that would exceed the process's file size limit: as on a full disk, nothing is lost and no other file remains.
#[test]
fn a_file_too_large() {
    let folder = Folder::new();
    let module = many_loops().bytes();
    let from = folder.file("in.dbm", &module);
    let frames = folder.file("frames", &[1; 2_000]);
    let to = folder.file("out.dbm", b"stays");
    let limited = "ulimit -f 1; exec \"$0\" replace \"$1\" 1 \"$2\" \"$3\"";
    let run = through_shell(limited, &[&from, &frames, &to]);
    run.fails("out.dbm: cannot be written, nothing was changed: File too large: make room or choose another folder");
    holds(&to, b"stays");
    // IN and OUT are the same file.
    through_shell(limited, &[&from, &frames, &from])
        .fails("in.dbm: cannot be written, nothing was changed");
    holds(&from, &module);
    assert_eq!(folder.names(), ["frames", "in.dbm", "out.dbm"]);
}

/// Standard output is a full disk.
#[test]
fn standard_output_is_full() {
    let folder = Folder::new();
    let module = many_loops().bytes();
    let from = folder.file("in.dbm", &module);
    let frames = folder.file("frames", b"ABCDEFGH");
    let to = folder.0.join("out.dbm");
    for to in [Path::new("-"), &to] {
        let output = Command::new(PROGRAM)
            .args(arguments(&from, "1", &frames, to))
            .stdout(full())
            .output()
            .expect("the program runs");
        Run::of(output).fails("standard output: cannot be written: No space left on device: make room or send it elsewhere");
    }
    // The file is written, but its lines cannot be printed.
    holds(&to, &replaced(&module, 1, b"ABCDEFGH").0);
}

/// A file that is replaced keeps its permissions.
#[test]
fn permissions() {
    let folder = Folder::new();
    let module = many_loops().bytes();
    let from = folder.file("in.dbm", &module);
    let frames = folder.file("frames", b"ABCDEFGH");
    for mode in [0o600, 0o644, 0o755] {
        let to = folder.file("out.dbm", b"old");
        fs::set_permissions(&to, Permissions::from_mode(mode)).expect("set");
        assert_eq!(run(&arguments(&from, "1", &frames, &to)).status, Some(0));
        holds(&to, &replaced(&module, 1, b"ABCDEFGH").0);
        let now = fs::metadata(&to).expect("there").permissions().mode();
        assert_eq!(now & 0o7777, mode);
    }
}

/// A file of frames without read permission, and a folder without write permission.
#[test]
fn without_rights() {
    let outer = Folder::new();
    set_mode(&outer.0, 0o755);
    let module = many_loops().bytes();
    let from = outer.file("in.dbm", &module);
    let frames = outer.file("frames", b"ABCDEFGH");
    let folder = outer.0.join("read-only");
    fs::create_dir(&folder).expect("a folder");
    set_mode(&from, 0o644);
    set_mode(&frames, 0o644);
    set_mode(&folder, 0o555);
    let to = folder.join("out.dbm");
    let run = as_nobody(&outer, &arguments(&from, "1", &frames, &to));
    run.fails("cannot be written, nothing was changed: Permission denied: choose a folder that you may write to");
    set_mode(&folder, 0o777);
    set_mode(&frames, 0o000);
    let run = as_nobody(&outer, &arguments(&from, "1", &frames, &to));
    run.fails("frames: cannot be read: Permission denied: ask for the right to read it");
    assert!(common::names(&folder).is_empty());
    // With both permissions it works, so the failures above are caused by the permissions.
    set_mode(&frames, 0o644);
    let run = as_nobody(&outer, &arguments(&from, "1", &frames, &to));
    assert_eq!(run.status, Some(0), "{run:?}");
    holds(&to, &replaced(&module, 1, b"ABCDEFGH").0);
}
