//! Arguments, help, the version, and unusual standard input and output.

mod common;

use std::ffi::OsStr;
use std::fs;
use std::io::Read;
use std::os::unix::ffi::OsStrExt;
use std::process::{Command, Stdio};

use common::{finish_child, full, run, run_on, sample, sample_bytes, text, Folder, Run, PROGRAM};
use reference::draft::{Pattern, Tune};

#[test]
fn help() {
    let program = run(&["--help"]);
    assert_eq!((program.status, program.err.as_str()), (Some(0), ""));
    assert!(program
        .text()
        .starts_with("dbm0: checks, reports, shows, compares and repacks DBM0 modules"));
    for word in [
        "check FILE..",
        "report [--json] FILE",
        "cells FILE PATTERN",
        "compare [--numbers] A B",
        "repack IN OUT",
        "replace IN SAMPLE FRAMES OUT",
        "--version",
    ] {
        assert!(program.text().contains(word), "{word}");
    }
    for arguments in [&["-h"][..], &["help"]] {
        run(arguments).is(0, &program.text(), "");
    }
    for command in ["check", "report", "cells", "compare", "repack", "replace"] {
        let shown = run(&[command, "--help"]);
        assert_eq!((shown.status, shown.err.as_str()), (Some(0), ""));
        assert!(
            shown.text().starts_with(&format!("usage: dbm0 {command} ")),
            "{command}"
        );
        assert!(shown.text().contains("exit status:\n  0  "), "{command}");
        run(&[command, "-h"]).is(0, &shown.text(), "");
        run(&["help", command]).is(0, &shown.text(), "");
        // At any position.
        run(&[command, "a", "b", "c", "--help"]).is(0, &shown.text(), "");
        for line in shown.text().lines().chain(program.text().lines()) {
            assert!(line.len() <= 120 && line.is_ascii(), "{line}");
        }
    }
}

/// The version in a header: five digits, of which the first is major, two are minor and two are patch.
fn header_version(header: &str, name: &str) -> String {
    let path = format!("{}/../include/{header}", env!("CARGO_MANIFEST_DIR"));
    let text = fs::read_to_string(path).expect("a header");
    let words: Vec<&str> = text.split_whitespace().collect();
    let define = words
        .windows(3)
        .find(|three| three[..2] == ["#define", name]);
    let digits: Vec<u32> = define.expect("a version")[2]
        .chars()
        .map(|digit| digit.to_digit(10).expect("a digit"))
        .collect();
    let [major, a, b, c, d] = digits[..] else {
        panic!("{header}: five digits are expected");
    };
    format!("{major}.{}.{}", 10 * a + b, 10 * c + d)
}

#[test]
fn version() {
    let library = header_version("dbm0.h", "DBM0_VERSION");
    let rows = header_version("dbm0_pattern.h", "DBM0_PATTERN_VERSION");
    let line = format!(
        "dbm0 {} (library {library}, packed rows {rows})\n",
        env!("CARGO_PKG_VERSION")
    );
    run(&["--version"]).is(0, &line, "");
    run(&["-V"]).is(0, &line, "");
}

#[test]
fn wrong_arguments() {
    let expected: [(&[&str], &str); 35] = [
        (&[], "no command is named: see 'dbm0 --help'"),
        (&[""], "there is no command '': see 'dbm0 --help'"),
        (&["chek"], "there is no command 'chek': see 'dbm0 --help'"),
        (
            &["check\n"],
            "there is no command 'check\\x0a': see 'dbm0 --help'",
        ),
        (&["--json"], "there is no command '--json'"),
        (&["help", "chek"], "there is no command 'chek'"),
        (&["help", "check", "report"], "help takes one command"),
        (&["check"], "no file is named: see 'dbm0 check --help'"),
        (&["check", "--"], "no file is named"),
        (
            &["check", "--json", "a"],
            "there is no option '--json' (a file of that name is './--json')",
        ),
        (&["check", "-x"], "there is no option '-x'"),
        (&["check", "-", "-"], "standard input can be read only once"),
        (
            &["report"],
            "report takes one file: see 'dbm0 report --help'",
        ),
        (&["report", "a", "b"], "report takes one file"),
        (&["report", "--json", "--json", "a"], "--json stands twice"),
        (&["report", "--json=1", "a"], "--json takes no value"),
        (
            &["cells", "a"],
            "cells takes one file and the number of a pattern: see 'dbm0 cells --help'",
        ),
        (
            &["cells", "a", "1", "2"],
            "cells takes one file and the number of a pattern",
        ),
        (&["cells", "a", "1", "--rows"], "--rows needs a value"),
        (
            &["cells", "a", "1", "--row", "1"],
            "there is no option '--row'",
        ),
        (
            &["compare"],
            "compare takes two files, A and B: see 'dbm0 compare --help'",
        ),
        (&["compare", "a"], "compare takes two files, A and B"),
        (
            &["compare", "--numbers", "a"],
            "compare takes two files, A and B",
        ),
        (
            &["compare", "a", "b", "c"],
            "compare takes two files, A and B",
        ),
        (
            &["compare", "-", "-"],
            "standard input can be read only once: see 'dbm0 compare --help'",
        ),
        (
            &["compare", "a", "b", "--number"],
            "there is no option '--number' (a file of that name is './--number')",
        ),
        (
            &["compare", "--numbers", "a", "b", "--numbers"],
            "--numbers stands twice",
        ),
        (
            &["compare", "--numbers=5", "a", "b"],
            "--numbers takes no value",
        ),
        (
            &["repack", "a"],
            "repack takes two files, IN and OUT: see 'dbm0 repack --help'",
        ),
        (
            &["repack", "a", "b", "c"],
            "repack takes two files, IN and OUT",
        ),
        (
            &["replace", "a", "1", "b"],
            "replace takes IN, the number of a sample, FRAMES and OUT: see 'dbm0 replace --help'",
        ),
        (
            &["replace", "a", "1", "b", "c", "d"],
            "replace takes IN, the number of a sample, FRAMES and OUT",
        ),
        (
            &["replace", "a", "b", "1", "c"],
            "'b' is not the number of a sample: see 'dbm0 replace --help'",
        ),
        (
            &["replace", "-", "1", "-", "a"],
            "standard input can be read only once: see 'dbm0 replace --help'",
        ),
        (
            &["replace", "a", "1", "b", "--json"],
            "there is no option '--json'",
        ),
    ];
    for (arguments, words) in expected {
        run(arguments).fails(words);
    }
}

/// Random bytes as arguments: a message, and status 2.
#[test]
fn arguments_of_any_bytes() {
    let wild: [&[u8]; 6] = [
        b"\xFF",
        b"-\xFF",
        b"--\xFF=\xFE",
        b"--rows=\xFF",
        b"\x1b[2J",
        b"-",
    ];
    for command in [
        &["check"][..],
        &["report"],
        &["cells"],
        &["compare"],
        &["repack"],
        &["replace", "-", "1"],
        &["replace", "--", "-"],
        &["help"],
        &["\u{fc}"],
    ] {
        for one in wild {
            for other in wild {
                let mut arguments: Vec<&OsStr> = command.iter().map(OsStr::new).collect();
                arguments.extend([one, other].map(OsStr::from_bytes));
                let run = run(&arguments);
                // Standard input is empty, which is not a module.
                assert!(matches!(run.status, Some(1 | 2)), "{run:?}");
                assert!(!run.err.contains('\x1b'), "{run:?}");
            }
        }
    }
}

/// After -- every argument is a file.
#[test]
fn files_that_look_like_options() {
    let folder = Folder::new();
    for name in ["--json", "-", "--help"] {
        folder.file(name, &sample_bytes("smallest.dbm"));
    }
    let in_folder = |arguments: &[&str]| {
        let output = Command::new(PROGRAM)
            .current_dir(&folder.0)
            .args(arguments)
            .stdin(Stdio::null())
            .output()
            .expect("the program runs");
        Run::of(output)
    };
    in_folder(&["check", "--", "--json", "--help"]).is(
        0,
        "--json: accepted\n--help: accepted\n",
        "",
    );
    in_folder(&["check", "./-", "./--json"]).is(0, "./-: accepted\n./--json: accepted\n", "");
    let nothing =
        "-: refused 2 at 0: this is no DBM0 module: it has 0 bytes, and the header alone has 8\n";
    in_folder(&["check", "-"]).is(1, nothing, "");
    in_folder(&["check", "--", "-"]).is(1, nothing, "");
}

/// A pattern whose text is longer than the buffer of a pipe.
fn long() -> Vec<u8> {
    let tune = Tune {
        patterns: vec![Pattern::new(20_000, &vec![0; 20_000])],
        ..Tune::default()
    };
    tune.bytes()
}

/// Runs the program with a reader that closes standard output after this many bytes.
fn with_short_reader(arguments: &[&str], bytes: usize) -> Run {
    let mut child = Command::new(PROGRAM)
        .args(arguments)
        .stdin(Stdio::null())
        .stdout(Stdio::piped())
        .stderr(Stdio::piped())
        .spawn()
        .expect("the program runs");
    let mut stdout = child.stdout.take().expect("a pipe");
    stdout
        .read_exact(&mut vec![0; bytes])
        .expect("so many come");
    drop(stdout);
    finish_child(child)
}

/// A closed pipe ends the program without a message, with the same status as otherwise.
#[test]
fn a_closed_pipe() {
    let folder = Folder::new();
    let module = folder.file("long.dbm", &long());
    with_short_reader(&["cells", text(&module), "0"], 0).is(0, "", "");
    with_short_reader(&["cells", text(&module), "0"], 1_000).is(0, "", "");
    let carousel = sample("carousel.dbm");
    for arguments in [
        &["report", text(&carousel)][..],
        &["report", "--json", text(&carousel)],
        &["check", text(&carousel)],
        &["--help"],
    ] {
        with_short_reader(arguments, 0).is(0, "", "");
    }
    let refused = sample("short-organ.dbm");
    // Many lines. The last module is the only one that is refused.
    let mut arguments = vec!["check"];
    arguments.extend(vec![text(&carousel); 3_000]);
    arguments.push(text(&refused));
    with_short_reader(&arguments, 10).is(1, "", "");
}

/// Standard output on a full disk: a line on standard error, and status 2.
#[test]
fn standard_output_is_full() {
    let folder = Folder::new();
    let module = folder.file("long.dbm", &long());
    let carousel = sample("carousel.dbm");
    for arguments in [
        &["check", text(&carousel)][..],
        &["report", text(&carousel)],
        &["report", "--json", text(&carousel)],
        &["cells", text(&carousel), "0"],
        &["cells", text(&module), "0"],
        &["--help"],
        &["--version"],
    ] {
        let output = Command::new(PROGRAM)
            .args(arguments)
            .stdout(full())
            .output()
            .expect("the program runs");
        Run::of(output).fails("standard output: cannot be written: No space left on device: make room or send it elsewhere");
    }
}

/// Standard input, output or error that is closed or cannot be read: no panic, and an exit status.
#[test]
fn closed_streams() {
    let carousel = sample("carousel.dbm");
    let shell = |command: &str| {
        let output = Command::new("sh")
            .args(["-c", command, PROGRAM, text(&carousel)])
            .output()
            .expect("sh runs");
        Run::of(output)
    };
    assert_eq!(shell("\"$0\" check \"$1\" >&-").status, Some(0));
    assert_eq!(shell("\"$0\" check \"$1\" 2>&-").status, Some(0));
    assert_eq!(shell("\"$0\" check nothing 2>&-").status, Some(2));
    assert_eq!(shell("\"$0\" check nothing 2>/dev/full").status, Some(2));
    assert_eq!(shell("\"$0\" check - <&-").status, Some(1));
    shell("\"$0\" check \"$1\" 1</dev/null")
        .fails("standard output: cannot be written: Bad file descriptor");
    shell("\"$0\" check - </")
        .fails("standard input: cannot be read: Is a directory: name the files in it");
    shell("\"$0\" check - 0>/dev/null")
        .fails("standard input: cannot be read: Bad file descriptor");
}

/// A pipe that delivers its bytes in pieces is read to its end.
#[test]
fn a_slow_pipe() {
    let carousel = sample("carousel.dbm");
    let command = "(head -c 100 \"$1\"; sleep 0.1; tail -c +101 \"$1\") | \"$0\" check -";
    let output = Command::new("sh")
        .args(["-c", command, PROGRAM, text(&carousel)])
        .output()
        .expect("sh runs");
    Run::of(output).is(0, "-: accepted\n", "");
}

/// An endless input is read only up to the maximum length of a module.
#[test]
fn an_input_without_end() {
    let words = "refused 1 at 0: the module has more than 16777216 bytes\n";
    for command in [
        &["report", "/dev/zero"][..],
        &["cells", "/dev/zero", "0"],
        &["compare", "/dev/zero", "/dev/zero"],
        &["repack", "/dev/zero", "-"],
        &["replace", "/dev/zero", "1", "/dev/zero", "-"],
    ] {
        run(command).is(1, "", &format!("/dev/zero: {words}"));
    }
    run_on(&["report", "-"], &vec![0; 17_000_000]).is(1, "", &format!("-: {words}"));
}
