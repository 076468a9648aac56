//! Standard output and standard error, with every write checked, and the exit status.

use crate::standard;
use std::fs::File;
use std::io::{self, BufWriter, Write};

/// Exit status: a refusal; a usage error, a file that cannot be read, output that cannot be written.
pub const REFUSED: u8 = 1;
pub const FAILED: u8 = 2;

const BLOCK: usize = 65_536;

pub struct Output {
    /// `None` once a write has failed: no further answers are printed.
    out: Option<BufWriter<File>>,
    status: u8,
}

impl Output {
    pub fn new() -> Output {
        let mut output = Output { out: None, status: 0 };
        match standard::output() {
            Ok(file) => output.out = Some(BufWriter::with_capacity(BLOCK, file)),
            Err(error) => output.lose(&error),
        }
        output
    }

    pub fn status(&self) -> u8 {
        self.status
    }

    /// Whether answers are still printed.
    pub fn is_open(&self) -> bool {
        self.out.is_some()
    }

    /// Keeps the larger status.
    pub fn raise(&mut self, status: u8) {
        self.status = self.status.max(status);
    }

    /// Writes an answer, or a part of one, to its last byte.
    pub fn print(&mut self, write: impl FnOnce(&mut dyn Write) -> io::Result<()>) {
        let Some(out) = &mut self.out else { return };
        if let Err(error) = write(out).and_then(|()| out.flush()) {
            self.lose(&error);
        }
    }

    /// Says that output is lost, and drops what was not written.
    fn lose(&mut self, error: &io::Error) {
        if let Some(out) = self.out.take() {
            drop(out.into_parts());
        }
        self.fail(b"standard output", &format!("{error}; no further answers are printed"));
    }

    /// Says something about a file, or whatever it is about, in one line on standard error.
    pub fn say(&mut self, about: &[u8], message: &str) {
        self.write_error(&[b"mrkvandel: ", about, b": ", message.as_bytes(), b"\n"].concat());
    }

    /// Says what went wrong; the status becomes 2.
    pub fn fail(&mut self, about: &[u8], message: &str) {
        self.raise(FAILED);
        self.say(about, message);
    }

    /// Writes to standard error; where even that fails, only the status is left to tell.
    pub fn write_error(&mut self, bytes: &[u8]) {
        if io::stderr().write_all(bytes).is_err() {
            self.raise(FAILED);
        }
    }
}
