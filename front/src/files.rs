//! Files and their names.

use crate::standard;
use std::ffi::{OsStr, OsString};
use std::fs::File;
use std::io::{self, Read};
use std::os::unix::ffi::OsStrExt;

/// Where a stream, a width list or a query comes from.
#[derive(Clone, Debug, PartialEq, Eq)]
pub enum Source {
    Standard,
    File(OsString),
}

impl Source {
    /// `-` is standard input, anything else the name of a file.
    pub fn of(argument: OsString) -> Source {
        match argument.as_bytes() {
            b"-" => Source::Standard,
            _ => Source::File(argument),
        }
    }

    /// The name as it was given.
    pub fn name(&self) -> &OsStr {
        match self {
            Source::Standard => OsStr::new("-"),
            Source::File(name) => name,
        }
    }

    /// The name for a line on standard error.
    pub fn shown(&self) -> Vec<u8> {
        match self {
            Source::Standard => b"standard input".to_vec(),
            Source::File(name) => printable(name),
        }
    }
}

/// A name for one line: a control byte becomes `?`.
pub fn printable(name: &OsStr) -> Vec<u8> {
    name.as_bytes().iter().map(|&byte| if byte.is_ascii_control() { b'?' } else { byte }).collect()
}

/// Reads a file whole, but at most one byte past the limit, which is enough for its refusal as 1.
pub fn read(source: &Source, limit: usize, bytes: &mut Vec<u8>) -> io::Result<()> {
    bytes.clear();
    let file = match source {
        Source::Standard => standard::input()?,
        Source::File(name) => File::open(name)?,
    };
    file.take(limit as u64 + 1).read_to_end(bytes)?;
    Ok(())
}
