//! `check`: a table with a row for each file, the totals, and the progress on a terminal.

use crate::answers::Answer;
use crate::files::{printable, Source};
use crate::output::Output;
use crate::reasons::Explained;
use library::JudgeResult;
use std::ffi::OsStr;
use std::io::{self, IsTerminal, Write};

/// The columns before the file's name, each of a fixed width for people and parted by blanks for
/// programs. A reason stands behind the name, parted from it by a tab.
macro_rules! columns {
    () => {
        "{:<10} {:>8} {:>8} {:>8}  {:>2} {:>8} {:>8}  "
    };
}

/// Stands in a column that has nothing to say.
const NONE: &str = "-";

pub fn header(out: &mut dyn Write) -> io::Result<()> {
    let numbers = ["pages", "records", "entries", "no", "offset", "line"];
    let [pages, records, entries, number, offset, line] = numbers;
    write!(out, columns!(), "verdict", pages, records, entries, number, offset, line)?;
    out.write_all(b"file\treason\n")
}

/// The row of a stream that could be read.
pub fn row(out: &mut dyn Write, name: &OsStr, answer: &Answer) -> io::Result<()> {
    match answer {
        Answer::Judged(JudgeResult { pages, records, entries, .. }) => {
            write!(out, columns!(), "accepted", pages, records, entries, NONE, NONE, NONE)?;
            end(out, name, "")
        }
        Answer::Refused(Explained { number, offset, line, reason, .. }) => {
            write!(out, columns!(), "refused", NONE, NONE, NONE, number, offset, line)?;
            end(out, name, reason)
        }
        // other answers are no judgements
        _ => Ok(()),
    }
}

pub fn unreadable(out: &mut dyn Write, name: &OsStr, message: &str) -> io::Result<()> {
    write!(out, columns!(), "unreadable", NONE, NONE, NONE, NONE, NONE, NONE)?;
    end(out, name, message)
}

fn end(out: &mut dyn Write, name: &OsStr, reason: &str) -> io::Result<()> {
    out.write_all(&printable(name))?;
    match reason {
        "" => out.write_all(b"\n"),
        _ => writeln!(out, "\t{reason}"),
    }
}

/// How many files were accepted, refused and unreadable.
#[derive(Default)]
pub struct Totals {
    accepted: usize,
    refused: usize,
    unreadable: usize,
}

impl Totals {
    pub fn add(&mut self, answer: Option<&Answer>) {
        match answer {
            Some(Answer::Refused(_)) => self.refused += 1,
            Some(_) => self.accepted += 1,
            None => self.unreadable += 1,
        }
    }

    pub fn say(&self, output: &mut Output) {
        let Totals { accepted, refused, unreadable } = self;
        let files = accepted + refused + unreadable;
        let counted = format!("{accepted} accepted, {refused} refused, {unreadable} unreadable");
        output.say(format!("{files} checked").as_bytes(), &counted);
    }
}

/// The line `K of N, NAME` on standard error, rewritten in place; only on a terminal.
pub struct Progress {
    is_shown: bool,
    /// columns of the line that stands there now
    width: usize,
}

/// A line that is longer might be broken, and then no longer be erased.
const MOST_COLUMNS: usize = 79;

/// A character beyond ASCII may take two.
fn most_columns(character: char) -> usize {
    if character.is_ascii() {
        1
    } else {
        2
    }
}

impl Progress {
    /// Shown where it is wanted and standard error is a terminal.
    pub fn new(is_wanted: bool) -> Progress {
        Progress { is_shown: is_wanted && io::stderr().is_terminal(), width: 0 }
    }

    pub fn show(&mut self, output: &mut Output, number: usize, of: usize, source: &Source) {
        if !self.is_shown {
            return;
        }
        self.erase(output);
        let name = source.shown();
        let line = format!("{number} of {of}, {}", String::from_utf8_lossy(&name));
        let mut width = 0;
        let fits = |character: &char| {
            width += most_columns(*character);
            width <= MOST_COLUMNS
        };
        let cut: String = line.chars().take_while(fits).collect();
        self.width = width.min(MOST_COLUMNS);
        output.write_error(cut.as_bytes());
    }

    pub fn erase(&mut self, output: &mut Output) {
        if self.width > 0 {
            output.write_error(format!("\r{}\r", " ".repeat(self.width)).as_bytes());
            self.width = 0;
        }
    }
}
