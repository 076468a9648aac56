//! What the tests share: a folder of files, in which the program is run.
// each test file is a program of its own and uses a part of this
#![allow(dead_code)]

pub mod json;

use std::fs::File;
use std::io::Write;
use std::path::{Path, PathBuf};
use std::process::{Command, Output, Stdio};

/// The sample of 01: its width list, its stream and a query that occurs once.
pub const WIDTHS: &[u8] = second::vectors::SAMPLE_LIST;
pub const STREAM: &[u8] =
    b"x T ps\nx res 72000 1 1\nx init\np1\nx font 1 TR\nf1\ns10000\nV12000\nH72000\ntab\nwh2500\nC'e\nx stop\n";
pub const QUERY: &[u8] = b"glyph=a\nglyph=b\ngap=any\nglyph='e\n";

/// A stream that stands behind the usual head: a page, a font and a size are set.
pub fn body(fragment: &str) -> Vec<u8> {
    bytes_body(fragment.as_bytes())
}

/// The same, of a fragment that is no text.
pub fn bytes_body(fragment: &[u8]) -> Vec<u8> {
    [second::vectors::BODY_HEAD, fragment, second::vectors::BODY_TAIL].concat()
}

/// What a run of the program left.
#[derive(Debug, PartialEq, Eq)]
pub struct Ran {
    pub status: i32,
    pub out: Vec<u8>,
    pub err: String,
}

impl Ran {
    fn of(output: Output) -> Ran {
        Ran {
            status: output.status.code().expect("the program ends by itself"),
            out: output.stdout,
            err: String::from_utf8_lossy(&output.stderr).into_owned(),
        }
    }

    /// Standard output as text.
    pub fn text(&self) -> &str {
        std::str::from_utf8(&self.out).expect("this output is text")
    }

    #[track_caller]
    pub fn assert(&self, status: i32, out: &str, err: &str) {
        assert_eq!((self.status, self.text(), self.err.as_str()), (status, out, err));
    }
}

/// A folder for a test's files.
pub struct Folder {
    path: PathBuf,
}

impl Folder {
    /// A new folder of that name, with the sample: `widths`, `stream` and `query`.
    pub fn new(label: &str) -> Folder {
        let path = Path::new(env!("CARGO_TARGET_TMPDIR")).join(label);
        if path.exists() {
            std::fs::remove_dir_all(&path).expect("the folder of an earlier run goes");
        }
        std::fs::create_dir_all(&path).expect("a folder can be made");
        let folder = Folder { path };
        folder.put("widths", WIDTHS);
        folder.put("stream", STREAM);
        folder.put("query", QUERY);
        folder
    }

    pub fn path(&self, name: &str) -> PathBuf {
        self.path.join(name)
    }

    pub fn put(&self, name: &str, bytes: &[u8]) {
        std::fs::write(self.path(name), bytes).expect("a file can be written");
    }

    /// The program with its arguments, in the folder, with nothing on standard input.
    pub fn command(&self, arguments: &[&str]) -> Command {
        let mut command = Command::new(env!("CARGO_BIN_EXE_mrkvandel"));
        command.args(arguments).current_dir(&self.path).stdin(Stdio::null());
        command
    }

    pub fn run(&self, arguments: &[&str]) -> Ran {
        Ran::of(self.command(arguments).output().expect("the program runs"))
    }

    /// Runs the program with a file of the folder as standard input.
    pub fn run_with_input(&self, arguments: &[&str], input: &str) -> Ran {
        let input = File::open(self.path(input)).expect("the file can be read");
        Ran::of(self.command(arguments).stdin(input).output().expect("the program runs"))
    }

    /// Runs the program with such a file as standard output, which is not caught then.
    pub fn run_with_output(&self, arguments: &[&str], output: impl Into<Stdio>) -> Ran {
        Ran::of(self.command(arguments).stdout(output).output().expect("the program runs"))
    }

    /// Runs a line of the shell in which `"$@"` is the program with its arguments.
    pub fn run_by_shell(&self, line: &str, arguments: &[&str]) -> Ran {
        let mut command = Command::new("sh");
        command.args(["-c", line, "sh", env!("CARGO_BIN_EXE_mrkvandel")]).args(arguments);
        Ran::of(command.current_dir(&self.path).output().expect("the shell runs"))
    }
}

/// Writes a line where the test's output shows it.
pub fn note(line: &str) {
    let _ = writeln!(std::io::stderr(), "{line}");
}
