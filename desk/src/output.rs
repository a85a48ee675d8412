//! What the desk writes: results to standard output or a file, messages and progress
//! to standard error. A closed output is no reason to panic.

use std::fs::File;
use std::io::{self, ErrorKind, IsTerminal, Write};

use crate::failure::Failure;

/// Writes a result into the file, or to standard output.
pub fn put(bytes: &[u8], file: Option<&str>) -> Result<(), Failure> {
    let written = match file {
        Some(file) => File::create(file).and_then(|mut to| to.write_all(bytes)),
        None => {
            let mut to = io::stdout().lock();
            to.write_all(bytes).and_then(|()| to.flush())
        }
    };
    written.map_err(|error| match (error.kind(), file) {
        (ErrorKind::BrokenPipe, _) => Failure::Closed,
        (_, file) => {
            let place = file.unwrap_or("standard output");
            Failure::Machine(format!("{place} can't be written: {error}\n"))
        }
    })
}

pub fn say(message: &str) {
    let _ = io::stderr().write_all(message.as_bytes());
}

/// One line that is written over, on a terminal; nothing anywhere else.
pub struct Progress {
    shown: bool,
    on: bool,
}

impl Progress {
    pub fn new() -> Self {
        Progress { shown: false, on: io::stderr().is_terminal() }
    }

    /// Shows nothing, wherever it is.
    pub fn none() -> Self {
        Progress { shown: false, on: false }
    }

    pub fn show(&mut self, text: &str) {
        if self.on {
            say(&format!("\r\x1b[K{text}"));
            self.shown = true;
        }
    }
}

impl Default for Progress {
    fn default() -> Self {
        Self::new()
    }
}

impl Drop for Progress {
    fn drop(&mut self) {
        if self.shown {
            say("\r\x1b[K");
        }
    }
}
