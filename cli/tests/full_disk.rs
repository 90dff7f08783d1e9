//! `dbm0 repack` and `dbm0 replace` on a full disk and on a read-only disk: nothing is lost, and no temporary file remains.
//!
//! The disk is a small file system in memory, mounted in a name space of its own. If that is not allowed, the tests do not run and are
//! counted as ignored. (The tests in repack.rs and replace.rs use a file size limit, which needs no privileges, and folders without
//! permissions.)

mod common;

use std::process::{Command, ExitCode};

use common::{Folder, PROGRAM};
use reference::draft::{Sample, Tune};

/// A shell script runs with `$program`, `$command`, `$module` (40,000 bytes), `$frames` (those of its sample) and `$disk` (64 KiB in
/// memory, in its own name space). Both commands write the module unchanged.
const PREPARED: &str = r#"
program=$0 command=$1 module=$2 frames=$3 disk=$4
mount -t tmpfs -o size=64k tmpfs "$disk" || exit 77
complain() { echo "$*" >&2; exit 1; }
# write IN OUT: runs the command.
write() {
    case $command in
    repack) "$program" repack "$1" "$2" ;;
    replace) "$program" replace "$1" 1 "$frames" "$2" ;;
    esac
}
# refused OUT IN WORDS: the program ends with 2, says this in one line, and nothing on standard output.
refused() {
    said=$(write "$2" "$1" 2>&1 >"$disk/../printed"); status=$?
    [ "$status" -eq 2 ] || complain "ended with $status: $said"
    [ ! -s "$disk/../printed" ] || complain "printed something"
    [ "$said" = "dbm0: $1: cannot be written, nothing was changed: $3" ] || complain "said: $said"
}
"#;

const FULL: &str = r#"
cp "$module" "$disk/tune.dbm" || complain "no room for one"
words='No space left on device: make room or choose another folder'
refused "$disk/new.dbm" "$module" "$words"
refused "$disk/tune.dbm" "$module" "$words"
refused "$disk/tune.dbm" "$disk/tune.dbm" "$words"
cmp "$module" "$disk/tune.dbm" || complain "the file was changed"
[ "$(ls -A "$disk")" = tune.dbm ] || complain "there are other files: $(ls -A "$disk")"
rm "$disk/tune.dbm"
write "$module" "$disk/new.dbm" >"$disk/../printed" || complain "not written though there is room"
cmp "$module" "$disk/new.dbm" || complain "another module was written"
"#;

const READ_ONLY: &str = r#"
cp "$module" "$disk/tune.dbm" || complain "no room for one"
mount -o remount,ro "$disk" || exit 77
refused "$disk/new.dbm" "$module" 'Read-only file system: choose a folder that you may write to'
refused "$disk/tune.dbm" "$module" 'Read-only file system: choose another file'
cmp "$module" "$disk/tune.dbm" || complain "the file was changed"
[ "$(ls -A "$disk")" = tune.dbm ] || complain "there are other files: $(ls -A "$disk")"
"#;

/// The result of a test.
enum Outcome {
    Passed,
    Failed(String),
    /// Such a disk is not available here.
    NotRun(String),
}

/// Root can mount a disk. Other users can if they may create a name space in which they are root.
fn on_a_disk(command: &str, script: &str) -> Outcome {
    match unshared(&["--mount"], command, script) {
        Outcome::NotRun(_) => unshared(&["--mount", "--map-root-user"], command, script),
        outcome => outcome,
    }
}

fn unshared(options: &[&str], command: &str, script: &str) -> Outcome {
    let folder = Folder::new();
    let sample = [0x55; 40_000 - 66];
    let tune = Tune {
        samples: vec![Sample::new(2, &sample)],
        ..Tune::default()
    };
    let module = folder.file("module.dbm", &tune.bytes());
    let frames = folder.file("frames", &sample);
    let disk = folder.0.join("disk");
    std::fs::create_dir(&disk).expect("a new folder");
    let whole = format!("{PREPARED}{script}exit 0\n");
    let run = Command::new("unshare")
        .args(options)
        .args(["sh", "-c", &whole, PROGRAM, command])
        .args([&module, &frames, &disk])
        .output();
    let output = match run {
        Ok(output) => output,
        Err(error) => return Outcome::NotRun(format!("unshare: {error}")),
    };
    let said = String::from_utf8_lossy(&output.stderr).into_owned();
    match output.status.code() {
        Some(0) => Outcome::Passed,
        Some(77) => Outcome::NotRun(said),
        Some(1) if said.starts_with("unshare:") => Outcome::NotRun(said),
        _ => Outcome::Failed(said),
    }
}

fn main() -> ExitCode {
    let tests = [
        ("repack_on_a_full_disk", "repack", FULL),
        ("repack_on_a_read_only_disk", "repack", READ_ONLY),
        ("replace_on_a_full_disk", "replace", FULL),
        ("replace_on_a_read_only_disk", "replace", READ_ONLY),
    ];
    println!("\nrunning {} tests", tests.len());
    let (mut passed, mut failed, mut ignored) = (0, 0, 0);
    for (name, command, script) in tests {
        match on_a_disk(command, script) {
            Outcome::Passed => {
                passed += 1;
                println!("test {name} ... ok");
            }
            Outcome::Failed(why) => {
                failed += 1;
                println!("test {name} ... FAILED\n{why}");
            }
            Outcome::NotRun(why) => {
                ignored += 1;
                println!(
                    "test {name} ... ignored: no disk can be mounted here: {}",
                    why.trim()
                );
            }
        }
    }
    let result = if failed == 0 { "ok" } else { "FAILED" };
    println!("\ntest result: {result}. {passed} passed; {failed} failed; {ignored} ignored\n");
    ExitCode::from(u8::from(failed > 0))
}
