//! `check`: the table, the totals, and the progress on a terminal.

mod common;

use common::json::{objects, Json};
use common::{body, note, Folder};
use std::io::{BufRead, BufReader, Write};
use std::process::{Command, Stdio};

fn folder(label: &str) -> Folder {
    let folder = Folder::new(label);
    folder.put("wrong stream", &body("tz"));
    folder
}

#[test]
fn the_table() {
    let folder = folder("table");
    let ran = folder.run(&["check", "-w", "widths", "stream", "wrong stream", "none"]);
    let out = "\
verdict       pages  records  entries  no   offset     line  file\treason
accepted          1        3        5   -        -        -  stream
refused           -        -        -   9       55        8  wrong stream\tno width for a byte of `t` or `u`
unreadable        -        -        -   -        -        -  none\tNo such file or directory (os error 2)
";
    let err = "\
mrkvandel: none: No such file or directory (os error 2)
mrkvandel: 3 checked: 1 accepted, 1 refused, 1 unreadable
";
    ran.assert(2, out, err);
}

#[test]
fn the_status_is_that_of_the_worst_file() {
    let folder = folder("status");
    let status = |names: &[&str]| folder.run(&[&["check", "-w", "widths"], names].concat()).status;
    assert_eq!(status(&["stream", "stream"]), 0);
    assert_eq!(status(&["stream", "wrong stream", "stream"]), 1);
    assert_eq!(status(&["none", "wrong stream"]), 2);
}

#[test]
fn a_wrong_list_is_told_in_each_row() {
    let folder = folder("table-list");
    folder.put("widths", b"unitwidth=1000\nfont=\n");
    let ran = folder.run(&["check", "-w", "widths", "stream", "stream"]);
    let columns = "refused           -        -        -   2       15        2  stream";
    let row = &format!("{columns}\twidth list: a line is wrong or missing");
    assert_eq!(ran.text().lines().skip(1).collect::<Vec<_>>(), [row, row]);
    assert_eq!(ran.status, 1);
}

#[test]
fn the_table_as_json() {
    let folder = folder("table-json");
    let ran = folder.run(&["check", "--json", "-w", "widths", "stream", "wrong stream", "none"]);
    let objects = objects(&ran.out);
    let types: Vec<&str> = objects.iter().map(|object| object.text("type")).collect();
    assert_eq!(types, ["check", "refused", "error"]);
    assert_eq!(objects[0].keys(), ["type", "file", "pages", "records", "entries", "spelling"]);
    let counts = ["pages", "records", "entries"].map(|key| objects[0].number(key));
    assert_eq!(counts, [1, 3, 5]);
    let spelling = folder.run(&["respell", "-w", "widths", "stream"]).out;
    assert_eq!(*objects[0].at("spelling"), Json::Number(spelling.len() as i64));
    assert_eq!(ran.status, 2);
}

/// A row is there before the next file is read, which is a pipe that the test holds open.
#[test]
fn a_row_is_printed_as_soon_as_it_is_known() {
    let folder = folder("soon");
    let mut command = folder.command(&["check", "-w", "widths", "stream", "-"]);
    command.stdin(Stdio::piped()).stdout(Stdio::piped()).stderr(Stdio::null());
    let mut child = command.spawn().expect("the program runs");
    let mut input = child.stdin.take().expect("a pipe was asked for");
    let mut lines = BufReader::new(child.stdout.take().expect("a pipe was asked for")).lines();
    let mut next = || lines.next().expect("there is a line").expect("it can be read");
    assert!(next().starts_with("verdict "));
    assert!(next().starts_with("accepted "));
    input.write_all(&body("tz")).expect("the program waits for it");
    drop(input);
    assert!(next().starts_with("refused "));
    assert_eq!(child.wait().expect("the program ends").code(), Some(1));
}

/// What a terminal gets on standard error, by `script`, which gives the program one.
fn on_a_terminal(folder: &Folder, line: &str) -> Option<String> {
    let mut command = Command::new("script");
    command.args(["-qec", line, "/dev/null"]).current_dir(folder.path("")).stdin(Stdio::null());
    let output = command.output().ok()?;
    Some(String::from_utf8_lossy(&output.stdout).into_owned())
}

#[test]
fn progress_on_a_terminal_alone() {
    let folder = folder("progress");
    let program = env!("CARGO_BIN_EXE_mrkvandel");
    let line = format!("'{program}' check -w widths stream 'wrong stream' > table");
    let Some(shown) = on_a_terminal(&folder, &line) else {
        return note("left out: there is no `script` to give the program a terminal");
    };
    let erased = |text: &str| format!("{text}\r{}\r", " ".repeat(text.len()));
    let totals = "mrkvandel: 2 checked: 1 accepted, 1 refused, 0 unreadable\r\n";
    let expected = [&erased("1 of 2, stream"), &erased("2 of 2, wrong stream"), totals].concat();
    assert_eq!(shown, expected);
    // the same on no terminal
    let plain = folder.run(&["check", "-w", "widths", "stream", "wrong stream"]);
    assert_eq!(plain.err, totals.replace('\r', ""));
    let table = std::fs::read(folder.path("table")).expect("the table was written");
    assert_eq!(plain.out, table);
}
