//! `dbm0 repack`: the bytes that it writes, and that it writes a whole file or nothing.

mod common;

use std::fs::{self, Permissions};
use std::os::unix::fs::{symlink, MetadataExt, PermissionsExt};
use std::os::unix::net::UnixListener;
use std::path::Path;
use std::process::Command;

use common::{
    as_nobody, full, holds, run, run_on, sample, sample_bytes, set_mode, text, through_shell,
    Folder, Run, PROGRAM,
};
use reference::draft::{Pattern, Tune};
use reference::generate::{module, Limits, Random};
use reference::repack::repack;

/// A module of about 4,000 bytes that repacks to half of that.
fn wasteful() -> Vec<u8> {
    let stream = [[1, 1, 0x40, 1, 1, 0x47].repeat(300), vec![0]].concat();
    let fresh = [[1, 0x3F, 1, 2, 3, 4, 5, 6, 0].repeat(200)].concat();
    let tune = Tune {
        patterns: vec![Pattern::new(1, &stream), Pattern::new(200, &fresh)],
        ..Tune::default()
    };
    tune.bytes()
}

/// The module repacked by the second program.
fn repacked(module: &[u8]) -> Vec<u8> {
    let mut out = vec![0; module.len()];
    let length = repack(module, &mut out).expect("an accepted module");
    out.truncate(length as usize);
    out
}

#[test]
fn files() {
    let folder = Folder::new();
    let module = wasteful();
    let from = folder.file("in.dbm", &module);
    let to = folder.0.join("out.dbm");
    let short = repacked(&module);
    let line = format!(
        "{}: {} bytes became {}, {} saved\n",
        text(&to),
        module.len(),
        short.len(),
        module.len() - short.len()
    );
    run(&["repack", text(&from), text(&to)]).is(0, &line, "");
    holds(&to, &short);
    holds(&from, &module);
    // Again, over the existing file. Nothing is saved this time.
    let again = folder.0.join("again.dbm");
    let length = short.len();
    let line = format!(
        "{}: {length} bytes became {length}, 0 saved\n",
        text(&again)
    );
    run(&["repack", text(&to), text(&again)]).is(0, &line, "");
    run(&["repack", text(&to), text(&again)]).is(0, &line, "");
    holds(&again, &short);
    assert_eq!(folder.names(), ["again.dbm", "in.dbm", "out.dbm"]);
}

#[test]
fn the_same_file() {
    let folder = Folder::new();
    let module = wasteful();
    let file = folder.file("tune.dbm", &module);
    let run = run(&["repack", text(&file), text(&file)]);
    assert_eq!((run.status, run.err.as_str()), (Some(0), ""));
    holds(&file, &repacked(&module));
    assert_eq!(folder.names(), ["tune.dbm"]);
}

/// A name without a folder is in the working folder.
#[test]
fn in_the_working_folder() {
    let folder = Folder::new();
    let module = wasteful();
    folder.file("in.dbm", &module);
    let output = Command::new(PROGRAM)
        .current_dir(&folder.0)
        .args(["repack", "in.dbm", "out.dbm"])
        .output()
        .expect("the program runs");
    assert_eq!(Run::of(output).status, Some(0));
    holds(&folder.0.join("out.dbm"), &repacked(&module));
    assert_eq!(folder.names(), ["in.dbm", "out.dbm"]);
}

#[test]
fn standard_input_and_output() {
    let module = wasteful();
    let short = repacked(&module);
    let run = run_on(&["repack", "-", "-"], &module);
    assert_eq!(run.status, Some(0));
    assert!(run.out == short);
    let saved = module.len() - short.len();
    let line = format!(
        "standard output: {} bytes became {}, {saved} saved\n",
        module.len(),
        short.len()
    );
    assert_eq!(run.err, line);
    let folder = Folder::new();
    let to = folder.0.join("out.dbm");
    assert_eq!(run_on(&["repack", "-", text(&to)], &module).status, Some(0));
    holds(&to, &short);
}

#[test]
fn modules_of_the_generator() {
    let mut shorter = 0;
    for seed in 1..=300 {
        let module = module(&mut Random::new(seed), &Limits::USUAL).bytes();
        let run = run_on(&["repack", "-", "-"], &module);
        let expected = repacked(&module);
        assert_eq!(run.status, Some(0), "seed {seed}");
        assert!(run.out == expected, "seed {seed}");
        shorter += usize::from(expected.len() < module.len());
    }
    assert!(shorter > 50, "{shorter} were shorter");
}

/// Bits 6 and 7 of masks are written as 0, also where no byte is saved. Repacked again, the module stays.
#[test]
fn upper_bits_of_masks() {
    let folder = Folder::new();
    let [first, second] = ["first.dbm", "second.dbm"].map(|name| folder.0.join(name));
    let module = |stream: &[u8]| {
        let tune = Tune {
            patterns: vec![Pattern::new(2, stream)],
            ..Tune::default()
        };
        tune.bytes()
    };
    for bits in [0, 0x40, 0x80, 0xC0] {
        let expected: [(&[u8], &[u8]); 3] = [
            (&[1, bits | 1, 0x47, 0, 0], &[1, 1, 0x47, 0, 0]),
            (&[1, bits, 0, 4, bits, 0], &[0, 0]),
            (
                &[0, 3, bits | 0x3F, 1, 2, 3, 4, 5, 6, 2, bits | 0x21, 0, 9, 0],
                &[0, 2, 0x20, 9, 3, 0x3F, 1, 2, 3, 4, 5, 6, 0],
            ),
        ];
        for (stream, packed) in expected {
            let (given, packed) = (module(stream), module(packed));
            let (before, after) = (given.len(), packed.len());
            let from = folder.file("in.dbm", &given);
            for (from, to, before) in [(&from, &first, before), (&first, &second, after)] {
                let saved = before - after;
                let line = format!(
                    "{}: {before} bytes became {after}, {saved} saved\n",
                    text(to)
                );
                run(&["repack", text(from), text(to)]).is(0, &line, "");
                holds(to, &packed);
            }
            run(&["compare", text(&from), text(&first)]).is(0, "0 differences\n", "");
        }
    }
}

/// For a refused module nothing is written: no new file, and an existing file is unchanged.
#[test]
fn refused() {
    let folder = Folder::new();
    let from = sample("short-organ.dbm");
    let there = folder.file("there.dbm", b"stays");
    let line = format!(
        "{}: refused 14 at 540: instrument 2 \"organ\": loop 16 + 48 is outside its sample 2 (40 frames)\n",
        text(&from)
    );
    run(&["repack", text(&from), text(&there)]).is(1, "", &line);
    run(&["repack", text(&from), text(&folder.0.join("new.dbm"))]).is(1, "", &line);
    run(&["repack", text(&from), "-"]).is(1, "", &line);
    holds(&there, b"stays");
    assert_eq!(folder.names(), ["there.dbm"]);
}

/// If OUT cannot be written, it is unchanged and no other file remains.
#[test]
fn out_cannot_be_written() {
    let folder = Folder::new();
    let carousel = sample("carousel.dbm");
    let from = text(&carousel);
    let fails = |to: &Path, words: &str| {
        let run = run(&["repack", from, text(to)]);
        run.fails(&format!(
            "{}: cannot be written, nothing was changed: {words}",
            text(to)
        ));
    };
    fails(
        &folder.0.join("missing/out.dbm"),
        "No such file or directory: make the folder first",
    );
    fails(&folder.0, "it is a folder: name a file in it");
    let file = folder.file("file", b"stays");
    fails(
        &file.join("out.dbm"),
        "Not a directory: choose another name or folder",
    );
    let link = folder.0.join("link");
    symlink("nowhere", &link).expect("a link");
    fails(&link, "it is a link to nothing: name the file itself");
    fails(&folder.0.join("n".repeat(256)), "File name too long");
    fails(Path::new(""), "it has no name: name a file");
    holds(&file, b"stays");
    assert_eq!(folder.names(), ["file", "link"]);
}

/// Only a regular file is replaced. Pipes, sockets and devices are not.
#[test]
fn special_files_stay() {
    let carousel = sample("carousel.dbm");
    let folder = Folder::new();
    let pipe = folder.0.join("pipe");
    let made = Command::new("mkfifo")
        .arg(&pipe)
        .status()
        .expect("mkfifo runs");
    assert!(made.success());
    let socket = folder.0.join("socket");
    let _listener = UnixListener::bind(&socket).expect("a socket");
    for special in [&pipe, &socket] {
        let before = fs::metadata(special).expect("it is there");
        let run = run(&["repack", text(&carousel), text(special)]);
        run.fails("it is no regular file: use - and redirect standard output");
        let after = fs::metadata(special).expect("it is there");
        assert_eq!((before.ino(), before.mode()), (after.ino(), after.mode()));
    }
    assert_eq!(folder.names(), ["pipe", "socket"]);
}

/// If IN cannot be read, OUT is unchanged.
#[test]
fn in_cannot_be_read() {
    let folder = Folder::new();
    let there = folder.file("there.dbm", b"stays");
    let missing = folder.0.join("missing.dbm");
    run(&["repack", text(&missing), text(&there)])
        .fails("cannot be read: No such file or directory");
    run(&["repack", text(&folder.0), text(&there)]).fails("cannot be read: Is a directory");
    holds(&there, b"stays");
    assert_eq!(folder.names(), ["there.dbm"]);
}

/// A file that is replaced keeps its permissions. A new file has the default ones.
#[test]
fn permissions() {
    let folder = Folder::new();
    let module = wasteful();
    let from = folder.file("in.dbm", &module);
    for mode in [0o600, 0o640, 0o666, 0o755] {
        let to = folder.file("out.dbm", b"old");
        fs::set_permissions(&to, Permissions::from_mode(mode)).expect("set");
        assert_eq!(run(&["repack", text(&from), text(&to)]).status, Some(0));
        holds(&to, &repacked(&module));
        let now = fs::metadata(&to).expect("there").permissions().mode();
        assert_eq!(now & 0o7777, mode);
    }
    let new = folder.0.join("new.dbm");
    assert_eq!(run(&["repack", text(&from), text(&new)]).status, Some(0));
    let usual = fs::metadata(folder.file("usual", b""))
        .expect("there")
        .permissions();
    assert_eq!(fs::metadata(&new).expect("there").permissions(), usual);
}

/// A link remains a link. The file that it refers to is replaced.
#[test]
fn links() {
    let folder = Folder::new();
    let module = wasteful();
    let other = folder.0.join("other");
    fs::create_dir(&other).expect("a folder");
    fs::write(other.join("real.dbm"), b"old").expect("written");
    let link = folder.0.join("link.dbm");
    symlink("other/real.dbm", &link).expect("a link");
    let from = folder.file("in.dbm", &module);
    assert_eq!(run(&["repack", text(&from), text(&link)]).status, Some(0));
    assert!(fs::symlink_metadata(&link).expect("there").is_symlink());
    holds(&other.join("real.dbm"), &repacked(&module));
    assert_eq!(common::names(&other), ["real.dbm"]);
    assert_eq!(folder.names(), ["in.dbm", "link.dbm", "other"]);
}

/// Existing files with the names of temporary files are not touched.
#[test]
fn temporary_names_that_are_taken() {
    let folder = Folder::new();
    let module = wasteful();
    let from = folder.file("in.dbm", &module);
    // The shell executes the program in its own process, so both have the same process number.
    let script =
        "for n in 0 1 2; do echo taken >.dbm0-$$-$n.tmp; done; exec \"$0\" repack \"$1\" out.dbm";
    let output = Command::new("sh")
        .current_dir(&folder.0)
        .args(["-c", script, PROGRAM, text(&from)])
        .output()
        .expect("sh runs");
    assert_eq!(Run::of(output).status, Some(0));
    holds(&folder.0.join("out.dbm"), &repacked(&module));
    let names = folder.names();
    assert_eq!(names.len(), 5);
    for taken in names.iter().filter(|name| name.ends_with(".tmp")) {
        holds(&folder.0.join(taken), b"taken\n");
    }
}

/// A file that would exceed the process's file size limit: as on a full disk, nothing is lost and no other file remains.
#[test]
fn a_file_too_large() {
    let folder = Folder::new();
    // Repacked it is still longer than one block of 512 or 1,024 bytes.
    let from = folder.file("in.dbm", &wasteful());
    let to = folder.file("out.dbm", b"stays");
    let limited = "ulimit -f 1; exec \"$0\" repack \"$1\" \"$2\"";
    let run = through_shell(limited, &[&from, &to]);
    run.fails("out.dbm: cannot be written, nothing was changed: File too large: make room or choose another folder");
    holds(&to, b"stays");
    through_shell(limited, &[&from, &folder.0.join("new.dbm")])
        .fails("new.dbm: cannot be written, nothing was changed");
    // IN and OUT are the same file.
    through_shell(limited, &[&from, &from]).fails("in.dbm: cannot be written, nothing was changed");
    holds(&from, &wasteful());
    assert_eq!(folder.names(), ["in.dbm", "out.dbm"]);
}

/// Standard output is a full disk.
#[test]
fn standard_output_is_full() {
    let carousel = sample("carousel.dbm");
    let output = Command::new(PROGRAM)
        .args(["repack", text(&carousel), "-"])
        .stdout(full())
        .output()
        .expect("the program runs");
    Run::of(output).fails("standard output: cannot be written: No space left on device: make room or send it elsewhere");
    // The file is written, but the summary cannot be printed.
    let folder = Folder::new();
    let to = folder.0.join("out.dbm");
    let output = Command::new(PROGRAM)
        .args(["repack", text(&carousel), text(&to)])
        .stdout(full())
        .output()
        .expect("the program runs");
    Run::of(output).fails("standard output: cannot be written");
    holds(&to, &sample_bytes("carousel.dbm"));
    assert_eq!(folder.names(), ["out.dbm"]);
}

/// A folder without write permission, a file without write permission, and a file without read permission.
#[test]
fn without_rights() {
    let outer = Folder::new();
    set_mode(&outer.0, 0o755);
    let module = wasteful();
    let from = outer.file("in.dbm", &module);
    set_mode(&from, 0o644);
    let folder = outer.0.join("read-only");
    fs::create_dir(&folder).expect("a folder");
    let there = folder.join("there.dbm");
    fs::write(&there, b"stays").expect("written");
    set_mode(&there, 0o666);
    set_mode(&folder, 0o555);
    for to in [&there, &folder.join("new.dbm")] {
        let run = as_nobody(&outer, &["repack", text(&from), text(to)]);
        run.fails("cannot be written, nothing was changed: Permission denied: choose a folder that you may write to");
    }
    holds(&there, b"stays");
    assert_eq!(common::names(&folder), ["there.dbm"]);
    // The folder has write permission, the file in it does not.
    set_mode(&folder, 0o777);
    set_mode(&there, 0o444);
    let run = as_nobody(&outer, &["repack", text(&from), text(&there)]);
    run.fails("cannot be written, nothing was changed: Permission denied: choose another file");
    holds(&there, b"stays");
    assert_eq!(common::names(&folder), ["there.dbm"]);
    // With both permissions it works, so the failures above are caused by the permissions.
    set_mode(&there, 0o666);
    let run = as_nobody(&outer, &["repack", text(&from), text(&there)]);
    assert_eq!(run.status, Some(0), "{run:?}");
    holds(&there, &repacked(&module));
    // A file without read permission.
    set_mode(&from, 0o000);
    for command in [
        &["check", text(&from)][..],
        &["report", text(&from)],
        &["repack", text(&from), text(&there)],
    ] {
        let run = as_nobody(&outer, command);
        run.fails("in.dbm: cannot be read: Permission denied: ask for the right to read it");
    }
    holds(&there, &repacked(&module));
}

/// The largest possible module, from file to file.
#[test]
fn a_large_module() {
    let row = [[1u8, 0x3F, 1, 2, 3, 4, 5, 6].repeat(31), vec![0]].concat();
    let tune = Tune {
        tracks: 254,
        patterns: vec![Pattern::new(65_535, &row.repeat(65_535))],
        ..Tune::default()
    };
    let module = tune.bytes();
    assert!(module.len() > 16_000_000);
    let folder = Folder::new();
    let from = folder.file("in.dbm", &module);
    let to = folder.0.join("out.dbm");
    assert_eq!(run(&["repack", text(&from), text(&to)]).status, Some(0));
    // 65,535 rows of one entry each.
    assert_eq!(
        fs::metadata(&to).expect("there").len(),
        58 + 6 + 9 * 65_535 + 1
    );
    run(&["check", text(&to)]).is(0, &format!("{}: accepted\n", text(&to)), "");
}
