//! Compiles the two C implementations for baseline x86-64 and links them. The package `interface` links libpattern.a and libdbm0.a.

use std::env;
use std::path::{Path, PathBuf};
use std::process::Command;

const C_FLAGS: [&str; 7] = [
    "-std=c11", "-O3", "-fPIC", "-Wall", "-Wextra", "-Werror", "-c",
];

fn main() {
    let package = PathBuf::from(variable("CARGO_MANIFEST_DIR"));
    let made = PathBuf::from(variable("OUT_DIR"));

    let sources = package.join("c");
    println!("cargo:rerun-if-changed={}", sources.display());
    let mut archive = vec![String::from("crs"), text(&made.join("libbaselines.a"))];
    for name in ["plain", "expert", "module", "repack", "replace", "compare"] {
        let object = text(&made.join(format!("{name}.o")));
        let source = text(&sources.join(format!("{name}.c")));
        let mut arguments: Vec<String> = C_FLAGS.iter().map(|flag| flag.to_string()).collect();
        arguments.extend([source, String::from("-o"), object.clone()]);
        run("gcc", &arguments);
        archive.push(object);
    }
    run("ar", &archive);
    println!("cargo:rustc-link-search=native={}", made.display());
    println!("cargo:rustc-link-lib=static=baselines");

    println!("cargo:rustc-env=BENCH_GCC={}", first_line("gcc"));
    println!(
        "cargo:rustc-env=BENCH_RUSTC={}",
        first_line(&variable("RUSTC"))
    );
}

fn variable(name: &str) -> String {
    env::var(name).unwrap_or_else(|_| panic!("cargo sets {name}"))
}

fn text(path: &Path) -> String {
    path.display().to_string()
}

fn run(program: &str, arguments: &[String]) {
    let status = Command::new(program)
        .args(arguments)
        .status()
        .unwrap_or_else(|error| panic!("{program}: {error}"));
    assert!(status.success(), "{program} {} failed", arguments.join(" "));
}

fn first_line(program: &str) -> String {
    let output = Command::new(program)
        .arg("--version")
        .output()
        .unwrap_or_else(|error| panic!("{program}: {error}"));
    let text = String::from_utf8_lossy(&output.stdout);
    String::from(text.lines().next().unwrap_or(program))
}
