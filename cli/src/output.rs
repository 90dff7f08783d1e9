//! Standard output.
//!
//! If the reader has closed the pipe, nothing more is printed and no error is reported. Any other error, such as a full disk, is a fault.

use std::fs::File;
use std::io::{self, ErrorKind, Write};
use std::os::fd::AsFd;

use crate::fault::{reason, Fault};
use crate::text::put;

/// Text is buffered up to this many bytes.
const BUFFER_BYTES: usize = 1 << 16;

pub struct Output {
    to: File,
    buffer: String,
    closed: bool,
}

impl Output {
    /// Standard output as a file: the standard library's stdout does not report a closed standard output.
    pub fn new() -> Result<Output, Fault> {
        let opened = io::stdout().as_fd().try_clone_to_owned();
        Ok(Output {
            to: File::from(opened.map_err(|error| not_written(&error))?),
            buffer: String::new(),
            closed: false,
        })
    }

    /// Whether the reader has closed the pipe.
    pub fn is_closed(&self) -> bool {
        self.closed
    }

    /// Appends to the buffered text.
    pub fn put(&mut self, put: impl FnOnce(&mut String)) -> Result<(), Fault> {
        if self.closed {
            return Ok(());
        }
        put(&mut self.buffer);
        match self.buffer.len() < BUFFER_BYTES {
            true => Ok(()),
            false => self.flush(),
        }
    }

    pub fn text(&mut self, text: &str) -> Result<(), Fault> {
        self.put(|buffer| buffer.push_str(text))
    }

    pub fn line(&mut self, text: &str) -> Result<(), Fault> {
        self.put(|buffer| put!(buffer; text, "\n"))
    }

    pub fn bytes(&mut self, bytes: &[u8]) -> Result<(), Fault> {
        self.flush()?;
        if self.closed {
            return Ok(());
        }
        let written = self.to.write_all(bytes);
        self.handle_write_result(written)
    }

    /// Writes all buffered text.
    pub fn flush(&mut self) -> Result<(), Fault> {
        if self.closed {
            return Ok(());
        }
        let written = self.to.write_all(self.buffer.as_bytes());
        self.buffer.clear();
        self.handle_write_result(written)
    }

    fn handle_write_result(&mut self, result: io::Result<()>) -> Result<(), Fault> {
        match result {
            Ok(()) => Ok(()),
            Err(error) if error.kind() == ErrorKind::BrokenPipe => {
                self.closed = true;
                Ok(())
            }
            Err(error) => {
                // No further write is tried.
                self.closed = true;
                Err(not_written(&error))
            }
        }
    }
}

fn not_written(error: &io::Error) -> Fault {
    Fault::failed(format!(
        "standard output: cannot be written: {}: make room or send it elsewhere",
        reason(error)
    ))
}
