//! Links libdbm0.a and libpattern.a from target/staticlib of the repository, or from the folder that DBM0_STATICLIB_DIR names. Passes the
//! versions in the headers to the package.

use std::fs;
use std::path::{Path, PathBuf};

fn main() {
    println!("cargo:rerun-if-changed=build.rs");
    println!("cargo:rerun-if-env-changed=DBM0_STATICLIB_DIR");
    let here = PathBuf::from(std::env::var_os("CARGO_MANIFEST_DIR").expect("cargo sets it"));
    let include = here.join("../include");
    version(&include.join("dbm0.h"), "DBM0_VERSION");
    version(&include.join("dbm0_pattern.h"), "DBM0_PATTERN_VERSION");
    let directory = match std::env::var_os("DBM0_STATICLIB_DIR") {
        Some(directory) => PathBuf::from(directory),
        None => here.join("../target/staticlib"),
    };
    println!("cargo:rustc-link-search=native={}", directory.display());
    for name in ["dbm0", "pattern"] {
        let archive = directory.join(format!("lib{name}.a"));
        println!("cargo:rerun-if-changed={}", archive.display());
        if !archive.is_file() {
            eprintln!(
                "{} is missing: run 'tools/build-archives {name}' in the repository first; cli/build does so for the command line",
                archive.display()
            );
            std::process::exit(1);
        }
        println!("cargo:rustc-link-lib=static={name}");
    }
}

/// Sets an environment variable to the version in a header, such as `1.3.1` for `#define DBM0_VERSION 10301`.
fn version(header: &Path, name: &str) {
    println!("cargo:rerun-if-changed={}", header.display());
    let text = fs::read_to_string(header).expect("the header can be read");
    let define = format!("#define {name} ");
    let number: u32 = text
        .lines()
        .find_map(|line| line.strip_prefix(&define))
        .and_then(|value| value.trim().parse().ok())
        .expect("the header has a version");
    let (major, minor, patch) = (number / 10_000, number / 100 % 100, number % 100);
    println!("cargo:rustc-env={name}={major}.{minor}.{patch}");
}
