//! Writes the sample modules and the file of frames into the folder that is the only argument.

#![forbid(unsafe_code)]

use std::path::PathBuf;
use std::process::ExitCode;

use reference::tunes::{files, frames_file};

fn main() -> ExitCode {
    let mut arguments = std::env::args_os().skip(1);
    let (Some(folder), None) = (arguments.next(), arguments.next()) else {
        eprintln!("usage: samples FOLDER");
        return ExitCode::from(2);
    };
    let folder = PathBuf::from(folder);
    for (name, contents) in files().into_iter().chain([frames_file()]) {
        let path = folder.join(name);
        if let Err(error) = std::fs::write(&path, contents) {
            eprintln!("{}: {error}", path.display());
            return ExitCode::FAILURE;
        }
    }
    ExitCode::SUCCESS
}
