//! The example runs in README.md and docs/CLI.md print what the documents show.

mod common;

use std::fs;
use std::path::{Path, PathBuf};
use std::process::Command;

use common::PROGRAM;

fn root() -> PathBuf {
    Path::new(env!("CARGO_MANIFEST_DIR")).join("..")
}

/// The example runs of a document: lines `    $ dbm0 ..`, each followed by its output as indented text.
fn examples(document: &str) -> Vec<(String, String)> {
    let mut examples: Vec<(String, String)> = Vec::new();
    let mut inside = false;
    for line in document.lines() {
        match line.strip_prefix("    ") {
            Some(code) if code.starts_with("$ dbm0 ") => {
                examples.push((code["$ ".len()..].to_string(), String::new()));
                inside = true;
            }
            Some(code) if inside => {
                let (_, printed) = examples.last_mut().expect("one was begun");
                printed.push_str(code);
                printed.push('\n');
            }
            _ => inside = false,
        }
    }
    examples
}

/// The output of a command on standard output and standard error. It runs in the root of the repository, with the program in the path.
fn printed(command: &str) -> String {
    let folder = Path::new(PROGRAM).parent().expect("a folder");
    let path = std::env::var_os("PATH").unwrap_or_default();
    let mut folders = vec![folder.to_path_buf()];
    folders.extend(std::env::split_paths(&path));
    let output = Command::new("sh")
        .args(["-c", &format!("{{ {command}; }} 2>&1")])
        .current_dir(root())
        .env("PATH", std::env::join_paths(folders).expect("a path"))
        .output()
        .expect("sh runs");
    String::from_utf8(output.stdout).expect("text")
}

/// The document has this many examples, and each prints what the document shows.
fn holds_for(document: &str, expected_examples: usize) {
    let text = fs::read_to_string(root().join(document)).expect("the document is there");
    let examples = examples(&text);
    assert_eq!(examples.len(), expected_examples, "examples in {document}");
    for (command, expected) in examples {
        assert_eq!(printed(&command), expected, "{document}: {command}");
    }
}

#[test]
fn readme() {
    holds_for("README.md", 4);
}

#[test]
fn cli() {
    holds_for("docs/CLI.md", 11);
}

/// The document of the schema has the name of every JSON field.
#[test]
fn schema() {
    let text = fs::read_to_string(root().join("docs/CLI.md")).expect("the document is there");
    let report = printed("dbm0 report --json samples/carousel.dbm");
    let names: Vec<&str> = report.split('"').filter(|part| !part.is_empty()).collect();
    let mut known = 0;
    for name in names
        .windows(2)
        .filter(|pair| pair[1].starts_with(": "))
        .map(|pair| pair[0])
    {
        assert!(
            text.contains(&format!("`{name}`")),
            "{name} is not documented"
        );
        known += 1;
    }
    assert!(known > 40, "{known} names");
}
