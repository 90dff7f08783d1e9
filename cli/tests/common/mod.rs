//! Shared by the tests: running the built program, temporary folders, and the sample modules.

#![allow(dead_code)]

use std::ffi::OsStr;
use std::fs::{self, File, Permissions};
use std::io::{Read, Write};
use std::os::unix::fs::PermissionsExt;
use std::path::{Path, PathBuf};
use std::process::{Child, Command, ExitStatus, Output, Stdio};
use std::sync::atomic::{AtomicU32, Ordering};
use std::thread;
use std::time::{Duration, Instant};

pub const PROGRAM: &str = env!("CARGO_BIN_EXE_dbm0");

/// The result of a run: the exit status (none if a signal ended it), and the output.
#[derive(Debug)]
pub struct Run {
    pub status: Option<i32>,
    pub out: Vec<u8>,
    pub err: String,
}

impl Run {
    pub fn of(output: Output) -> Run {
        let err = String::from_utf8(output.stderr).expect("standard error is text");
        assert!(!err.contains("panicked"), "{err}");
        Run {
            status: output.status.code(),
            out: output.stdout,
            err,
        }
    }

    pub fn text(&self) -> String {
        String::from_utf8(self.out.clone()).expect("standard output is text")
    }

    /// The run ended with this status and printed exactly this.
    #[track_caller]
    pub fn is(&self, status: i32, out: &str, err: &str) {
        let found = (self.status, self.text(), self.err.clone());
        assert_eq!(found, (Some(status), out.to_string(), err.to_string()));
    }

    /// The run failed: status 2, nothing on standard output, and one line on standard error that contains these words.
    #[track_caller]
    pub fn fails(&self, words: &str) {
        assert_eq!(self.status, Some(2), "{self:?}");
        assert!(self.out.is_empty(), "{self:?}");
        self.one_line(words);
    }

    #[track_caller]
    pub fn one_line(&self, words: &str) {
        assert_eq!(self.err.matches('\n').count(), 1, "{self:?}");
        assert!(self.err.ends_with('\n'), "{self:?}");
        assert!(self.err.starts_with("dbm0: "), "{self:?}");
        assert!(self.err.contains(words), "{self:?}");
    }
}

/// The time after which a run counts as hung.
const MOST_TIME: Duration = Duration::from_secs(60);

/// Starts a command and waits for its end.
pub fn finish(command: &mut Command) -> Run {
    command.stdout(Stdio::piped()).stderr(Stdio::piped());
    finish_child(command.spawn().expect("the command runs"))
}

/// The same for a child that is already running. Its output is read if it is a pipe that was not taken.
pub fn finish_child(mut child: Child) -> Run {
    let (out, err) = (child.stdout.take(), child.stderr.take());
    thread::scope(|scope| {
        let out = scope.spawn(|| all_of(out));
        let err = scope.spawn(|| all_of(err));
        let status = wait(&mut child);
        Run::of(Output {
            status,
            stdout: out.join().expect("read"),
            stderr: err.join().expect("read"),
        })
    })
}

fn all_of(pipe: Option<impl Read>) -> Vec<u8> {
    let mut bytes = Vec::new();
    if let Some(mut pipe) = pipe {
        pipe.read_to_end(&mut bytes).expect("a pipe can be read");
    }
    bytes
}

/// Waits for the end, with increasing pauses.
fn wait(child: &mut Child) -> ExitStatus {
    let began = Instant::now();
    let mut pause = Duration::from_micros(200);
    loop {
        if let Some(status) = child.try_wait().expect("it can be waited for") {
            return status;
        }
        if began.elapsed() > MOST_TIME {
            child.kill().expect("it can be ended");
            child.wait().expect("it ends");
            panic!("it did not end by itself");
        }
        thread::sleep(pause);
        pause = (pause * 2).min(Duration::from_millis(20));
    }
}

/// Runs the program with nothing on standard input.
pub fn run<Argument: AsRef<OsStr>>(arguments: &[Argument]) -> Run {
    finish(Command::new(PROGRAM).args(arguments).stdin(Stdio::null()))
}

/// Runs the program with these bytes on standard input.
pub fn run_on<Argument: AsRef<OsStr>>(arguments: &[Argument], input: &[u8]) -> Run {
    let mut child = Command::new(PROGRAM)
        .args(arguments)
        .stdin(Stdio::piped())
        .stdout(Stdio::piped())
        .stderr(Stdio::piped())
        .spawn()
        .expect("the program runs");
    let mut stdin = child.stdin.take().expect("a pipe");
    thread::scope(|scope| {
        scope.spawn(move || {
            // The program may end before it has read everything.
            let _ = stdin.write_all(input);
        });
        finish_child(child)
    })
}

/// A folder that is removed at the end of the test.
pub struct Folder(pub PathBuf);

impl Folder {
    pub fn new() -> Folder {
        static COUNT: AtomicU32 = AtomicU32::new(0);
        let count = COUNT.fetch_add(1, Ordering::Relaxed);
        let name = format!("dbm0-test-{}-{count}", std::process::id());
        let path = std::env::temp_dir().join(name);
        fs::create_dir(&path).expect("a new folder");
        Folder(path)
    }

    pub fn file(&self, name: &str, bytes: &[u8]) -> PathBuf {
        let path = self.0.join(name);
        fs::write(&path, bytes).expect("written");
        path
    }

    /// The names of all files in the folder.
    pub fn names(&self) -> Vec<String> {
        names(&self.0)
    }
}

pub fn names(folder: &Path) -> Vec<String> {
    let mut names: Vec<String> = fs::read_dir(folder)
        .expect("a folder")
        .map(|entry| {
            let name = entry.expect("an entry").file_name();
            name.to_string_lossy().into_owned()
        })
        .collect();
    names.sort();
    names
}

impl Drop for Folder {
    fn drop(&mut self) {
        let _ = fs::remove_dir_all(&self.0);
    }
}

/// The path of a sample module.
pub fn sample(name: &str) -> PathBuf {
    Path::new(env!("CARGO_MANIFEST_DIR"))
        .join("../samples")
        .join(name)
}

pub fn sample_bytes(name: &str) -> Vec<u8> {
    fs::read(sample(name)).expect("a sample module")
}

/// A path as text.
pub fn text(path: &Path) -> &str {
    path.to_str().expect("UTF-8")
}

/// A name in the form that the program prints, without quotes.
pub fn escaped(name: &[u8]) -> String {
    let mut bytes = name.to_vec();
    while bytes.last() == Some(&0) {
        bytes.pop();
    }
    let printable = |byte: u8| (b' '..=b'~').contains(&byte) && byte != b'"' && byte != b'\\';
    bytes
        .into_iter()
        .map(|byte| match printable(byte) {
            true => char::from(byte).to_string(),
            false => format!("\\x{byte:02x}"),
        })
        .collect()
}

/// The file has exactly these bytes.
#[track_caller]
pub fn holds(file: &Path, bytes: &[u8]) {
    assert!(
        fs::read(file).expect("the file is there") == bytes,
        "{} holds something else",
        text(file)
    );
}

/// Runs the program through a shell command in which `"$0"` is the program and `"$1"`, `"$2"` and so on are these files.
pub fn through_shell(command: &str, files: &[&Path]) -> Run {
    let output = Command::new("sh")
        .args(["-c", command, PROGRAM])
        .args(files)
        .stdin(Stdio::null())
        .output()
        .expect("sh runs");
    Run::of(output)
}

/// Runs the program as a user without permissions if the tests run as root, since permissions do not restrict root.
pub fn as_nobody(folder: &Folder, arguments: &[&str]) -> Run {
    // The program may be in a folder that other users cannot read.
    let program = folder.0.join("program");
    if !program.exists() {
        fs::copy(PROGRAM, &program).expect("copied");
        fs::set_permissions(&program, Permissions::from_mode(0o755)).expect("set");
    }
    let become_nobody = "\
import os, sys
if os.getuid() == 0:
    os.setgroups([])
    os.setgid(65534)
    os.setuid(65534)
os.execv(sys.argv[1], sys.argv[1:])
";
    let output = Command::new("python3")
        .args(["-c", become_nobody, text(&program)])
        .args(arguments)
        .stdin(Stdio::null())
        .output()
        .expect("python3 runs");
    Run::of(output)
}

pub fn set_mode(path: &Path, mode: u32) {
    fs::set_permissions(path, Permissions::from_mode(mode)).expect("set");
}

/// A disk without room.
pub fn full() -> File {
    File::options()
        .write(true)
        .open("/dev/full")
        .expect("it is there")
}
