//! Writes a module to OUT: to a file, as a whole or not at all, or to standard output.

use std::ffi::OsStr;
use std::fs::{self, File, Metadata, OpenOptions};
use std::io::{self, ErrorKind, Write};
use std::os::unix::fs::{fchown, MetadataExt, OpenOptionsExt};
use std::path::{Path, PathBuf};

use crate::fault::{reason, Fault};
use crate::input::STANDARD_STREAM;
use crate::names;
use crate::output::Output;

/// Writes the module and then the lines of its summary, each after the name of OUT.
pub fn write(to: &OsStr, module: &[u8], summary: &[String], out: &mut Output) -> Result<(), Fault> {
    if to == STANDARD_STREAM {
        out.bytes(module)?;
        out.flush()?;
        // Standard output has the module, so the summary goes to standard error.
        for words in summary {
            let _ = writeln!(io::stderr(), "standard output: {words}");
        }
        return Ok(());
    }
    write_file(to, module)?;
    for words in summary {
        out.line(&format!("{}: {words}", names::file(to)))?;
    }
    out.flush()
}

fn write_file(to: &OsStr, bytes: &[u8]) -> Result<(), Fault> {
    let target = Target::find(Path::new(to)).map_err(|why| cannot(to, &why))?;
    target
        .write(bytes)
        .map_err(|error| cannot(to, &format!("{}: {}", reason(&error), advice(&error))))
}

fn cannot(to: &OsStr, why: &str) -> Fault {
    let file = names::file(to);
    Fault::failed(format!(
        "{file}: cannot be written, nothing was changed: {why}"
    ))
}

fn advice(error: &io::Error) -> &'static str {
    match error.kind() {
        ErrorKind::NotFound => "make the folder first",
        ErrorKind::PermissionDenied | ErrorKind::ReadOnlyFilesystem => {
            "choose a folder that you may write to"
        }
        ErrorKind::StorageFull | ErrorKind::FileTooLarge | ErrorKind::QuotaExceeded => {
            "make room or choose another folder"
        }
        _ => "choose another name or folder",
    }
}

/// The file to write, and the metadata of the file that exists there now.
struct Target {
    path: PathBuf,
    folder: PathBuf,
    existing: Option<Metadata>,
}

impl Target {
    /// Follows a link, so that it remains a link. Only a regular file is ever replaced.
    fn find(to: &Path) -> Result<Target, String> {
        if to.as_os_str().is_empty() {
            return Err("it has no name: name a file".to_string());
        }
        let existing = match fs::metadata(to) {
            Ok(existing) => Some(existing),
            Err(error) if error.kind() == ErrorKind::NotFound => None,
            Err(error) => return Err(format!("{}: {}", reason(&error), advice(&error))),
        };
        let Some(existing) = existing else {
            if fs::symlink_metadata(to).is_ok() {
                return Err("it is a link to nothing: name the file itself".to_string());
            }
            return Ok(Target {
                path: to.to_path_buf(),
                folder: folder_of(to),
                existing: None,
            });
        };
        if existing.is_dir() {
            return Err("it is a folder: name a file in it".to_string());
        }
        if !existing.is_file() {
            return Err("it is no regular file: use - and redirect standard output".to_string());
        }
        // A file without write permission is not replaced.
        let path = fs::canonicalize(to)
            .and_then(|path| OpenOptions::new().write(true).open(&path).map(|_| path))
            .map_err(|error| format!("{}: choose another file", reason(&error)))?;
        Ok(Target {
            folder: folder_of(&path),
            path,
            existing: Some(existing),
        })
    }

    /// Writes a temporary file beside the target and renames it. If anything fails, the temporary file is removed.
    fn write(&self, bytes: &[u8]) -> io::Result<()> {
        let (file, temporary) = self.temporary()?;
        let written = self
            .fill(file, bytes)
            .and_then(|()| fs::rename(&temporary, &self.path));
        if written.is_err() {
            let _ = fs::remove_file(&temporary);
            return written;
        }
        // The file is complete in any case. Flushing the folder is tried, but a failure is ignored.
        let _ = File::open(&self.folder).and_then(|folder| folder.sync_all());
        Ok(())
    }

    /// Creates a temporary file in the same folder, with a name that no file has. If it replaces a file, only its owner can read it until
    /// it has that file's permissions.
    fn temporary(&self) -> io::Result<(File, PathBuf)> {
        let mut options = OpenOptions::new();
        options.write(true).create_new(true);
        if self.existing.is_some() {
            options.mode(0o600);
        }
        let process = std::process::id();
        let mut attempt = 0;
        loop {
            let path = self.folder.join(format!(".dbm0-{process}-{attempt}.tmp"));
            match options.open(&path) {
                Ok(file) => return Ok((file, path)),
                Err(error) if error.kind() == ErrorKind::AlreadyExists && attempt < 1_000 => {
                    attempt += 1;
                }
                Err(error) => return Err(error),
            }
        }
    }

    fn fill(&self, mut file: File, bytes: &[u8]) -> io::Result<()> {
        file.write_all(bytes)?;
        if let Some(existing) = &self.existing {
            // Only root can change the owner. For everyone else the file keeps the current user.
            let _ = fchown(&file, Some(existing.uid()), Some(existing.gid()));
            file.set_permissions(existing.permissions())?;
        }
        file.sync_all()
    }
}

fn folder_of(path: &Path) -> PathBuf {
    match path.parent() {
        Some(folder) if !folder.as_os_str().is_empty() => folder.to_path_buf(),
        _ => PathBuf::from("."),
    }
}
