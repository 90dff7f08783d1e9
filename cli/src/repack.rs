//! `dbm0 repack`: writes the repacked module.

use std::ffi::OsStr;

use crate::fault::{Fault, EXIT_OK};
use crate::input;
use crate::library;
use crate::output::Output;
use crate::output_file;

pub fn run(from: &OsStr, to: &OsStr, out: &mut Output) -> Result<u8, Fault> {
    let module = input::read(from)?;
    let repacked =
        library::repack(&module).map_err(|refusal| Fault::refused(from, &module, refusal))?;
    let saved = module.len().saturating_sub(repacked.len());
    let words = format!(
        "{} bytes became {}, {saved} saved",
        module.len(),
        repacked.len()
    );
    output_file::write(to, &repacked, &[words], out)?;
    Ok(EXIT_OK)
}
