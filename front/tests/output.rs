//! Output that cannot be written, in whatever way: it is said, the status is 2, and the other files
//! are still judged.

mod common;

use common::{body, Folder};
use std::fs::File;

const REFUSED: &str = "mrkvandel: wrong: line 8, column 1: refused 9: no width for a byte of `t` or `u`\n";

fn folder(label: &str) -> Folder {
    let folder = Folder::new(label);
    folder.put("wrong", &body("tz"));
    folder
}

fn lost(error: &str) -> String {
    format!("mrkvandel: standard output: {error}; no further answers are printed\n")
}

/// What each command has to say where nothing can be printed: the loss once, and the refusal.
#[track_caller]
fn assert_lost(error: &str, run: impl Fn(&[&str]) -> common::Ran) {
    let streams = ["-w", "widths", "stream", "wrong", "stream"];
    for command in [&["glyphs"][..], &["respell"], &["find", "-e", "a"]] {
        for form in [&[][..], &["--json"]] {
            let ran = run(&[command, form, &streams].concat());
            ran.assert(2, "", &format!("{}{REFUSED}", lost(error)));
        }
    }
    let totals = "mrkvandel: 3 checked: 2 accepted, 1 refused, 0 unreadable\n";
    let ran = run(&[&["check"][..], &streams].concat());
    ran.assert(2, "", &format!("{}{REFUSED}{totals}", lost(error)));
    for option in ["--help", "--version", "letters"] {
        run(&[option]).assert(2, "", &lost(error));
    }
}

#[test]
fn a_full_disk() {
    let folder = folder("full");
    assert_lost("No space left on device (os error 28)", |arguments| {
        let full = File::options().write(true).open("/dev/full").expect("there is a full device");
        folder.run_with_output(arguments, full)
    });
}

#[test]
fn a_broken_pipe() {
    let folder = folder("pipe");
    assert_lost("Broken pipe (os error 32)", |arguments| {
        let (reader, writer) = std::io::pipe().expect("a pipe can be made");
        drop(reader);
        folder.run_with_output(arguments, writer)
    });
}

#[test]
fn a_closed_standard_output() {
    let folder = folder("closed");
    assert_lost("Bad file descriptor (os error 9)", |arguments| {
        folder.run_by_shell("exec \"$@\" >&-", arguments)
    });
}

#[test]
fn a_standard_output_for_reading() {
    let folder = folder("reading");
    assert_lost("Bad file descriptor (os error 9)", |arguments| {
        folder.run_by_shell("exec \"$@\" 1< widths", arguments)
    });
}

/// Null devices are no closed files.
#[test]
fn a_null_device_is_written_to() {
    let folder = folder("null");
    for null in [
        File::options().write(true).open("/dev/null"),
        File::options().read(true).write(true).open("/dev/null"),
    ] {
        let null = null.expect("there is a null device");
        folder.run_with_output(&["glyphs", "-w", "widths", "stream"], null).assert(0, "", "");
    }
}

/// The disk fills within a long answer.
#[test]
fn a_write_that_fails_late() {
    let folder = folder("late");
    folder.put("stream", &body(&"ca\n".repeat(100_000)));
    let line = "ulimit -f 8; trap '' XFSZ; exec \"$@\" > out";
    let ran = folder.run_by_shell(line, &["glyphs", "-w", "widths", "stream"]);
    ran.assert(2, "", &lost("File too large (os error 27)"));
    let written = std::fs::metadata(folder.path("out")).expect("a part was written").len();
    assert!(written > 0 && written <= 8 * 1024, "{written} bytes");
}

#[test]
fn a_closed_standard_input() {
    let folder = folder("closed-input");
    let ran = folder.run_by_shell("exec \"$@\" <&-", &["glyphs", "-w", "widths", "-"]);
    ran.assert(2, "", "mrkvandel: standard input: Bad file descriptor (os error 9)\n");
}

/// The line for people is lost, so the status is 2; the answer is not.
#[test]
fn a_full_standard_error() {
    let folder = folder("full-error");
    let ran = folder.run_by_shell("exec \"$@\" 2> /dev/full", &["glyphs", "-w", "widths", "wrong"]);
    ran.assert(2, "refused 9 55\n", "");
    let ran = folder.run_by_shell("exec \"$@\" 2> /dev/full", &["glyphs"]);
    ran.assert(2, "", "");
}

/// Three million records do not fit into the memory that is left, those of the sample do.
#[test]
fn not_enough_memory() {
    let folder = folder("memory");
    folder.put("long", &body(&"ca\n".repeat(3_000_000)));
    let arguments = ["find", "-w", "widths", "-q", "query", "long", "stream"];
    let ran = folder.run_by_shell("ulimit -v 65536; exec \"$@\"", &arguments);
    let out = "==> long <==\n==> stream <==\nhit 0\nfound 3 1\n";
    ran.assert(2, out, "mrkvandel: long: there is not enough memory for its answer\n");
}
