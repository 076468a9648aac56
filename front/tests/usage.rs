//! The command line: options, help, version, usage errors.

mod common;

use common::Folder;

const HINT: &str = "mrkvandel --help says how it is used\n";

#[test]
fn version() {
    let folder = Folder::new("version");
    let expected = format!("mrkvandel {}\n", env!("CARGO_PKG_VERSION"));
    for arguments in [&["--version"][..], &["-V"], &["glyphs", "--version"]] {
        folder.run(arguments).assert(0, &expected, "");
    }
}

#[test]
fn help_names_every_option_command_status_and_refusal() {
    let ran = Folder::new("help").run(&["--help"]);
    assert_eq!((ran.status, ran.err.as_str()), (0, ""));
    let words =
        ["glyphs", "respell", "find", "check", "letters", "--widths", "--families", "--query", "--text"];
    let shapes = ["glyph", "entry", "end", "hit", "found", "spelling", "check", "refused", "error"];
    for word in words.into_iter().chain(["--json", "--version"]) {
        assert!(ran.text().contains(word), "{word} is missing");
    }
    for shape in shapes {
        assert!(ran.text().contains(&format!("{{\"type\":\"{shape}\"")), "{shape} is missing");
    }
    for number in (1..=14).chain([16]) {
        let starts = |line: &str| line.starts_with(&format!("{number:>4}  "));
        assert!(ran.text().lines().any(starts), "refusal {number} is missing");
    }
    for status in ["  0  ", "  1  ", "  2  "] {
        let (_, statuses) = ran.text().split_once("exit status:").expect("the statuses are told");
        assert!(statuses.contains(status), "status {status} is missing");
    }
    assert!(ran.text().lines().all(|line| line.len() <= 160), "a line is too long");
}

#[test]
fn help_of_a_command() {
    let folder = Folder::new("help-command");
    for command in ["glyphs", "respell", "find", "check", "letters"] {
        let ran = folder.run(&[command, "--help"]);
        assert_eq!((ran.status, ran.err.as_str()), (0, ""));
        assert!(ran.text().starts_with(&format!("mrkvandel {command}")), "{}", ran.text());
        assert_eq!(folder.run(&[command, "-h"]), ran);
    }
    assert_eq!(folder.run(&["-h"]), folder.run(&["--help"]));
}

#[test]
fn every_form_of_the_options_gives_the_same() {
    let folder = Folder::new("forms");
    let expected = "hit 0\nfound 3 1\n";
    let lines = [
        &["find", "-w", "widths", "-q", "query", "stream"][..],
        &["find", "-wwidths", "-qquery", "stream"],
        &["find", "--widths", "widths", "--query", "query", "stream"],
        &["find", "--widths=widths", "--query=query", "--", "stream"],
        &["find", "stream", "-w", "widths", "-q", "query"],
        &["find", "-w", "widths", "-e", "ab \\['e]", "stream"],
        &["find", "-w", "widths", "--text", "ab \\['e]", "stream"],
        &["find", "-w", "widths", "--text=ab\t\n \\['e]", "stream"],
    ];
    for arguments in lines {
        folder.run(arguments).assert(0, expected, "");
    }
}

#[test]
fn a_stream_behind_the_end_of_the_options() {
    let folder = Folder::new("end-of-options");
    folder.put("--json", common::STREAM);
    folder.run(&["find", "-w", "widths", "-q", "query", "--", "--json"]).assert(0, "hit 0\nfound 3 1\n", "");
}

#[track_caller]
fn assert_usage(folder: &Folder, arguments: &[&str], message: &str) {
    folder.run(arguments).assert(2, "", &format!("mrkvandel: {message}\n{HINT}"));
}

#[test]
fn usage_errors_print_nothing() {
    let folder = Folder::new("usage");
    assert_usage(&folder, &[], "a command is missing: glyphs, respell, find, check or letters");
    let unknown = "is no command; there are glyphs, respell, find, check and letters";
    assert_usage(&folder, &["gl?phs\n"], &format!("gl?phs? {unknown}"));
    assert_usage(&folder, &["glyphs", "stream"], "the width list is missing: -w FILE");
    let no_stream = "a stream is missing: name a file, or - for standard input";
    assert_usage(&folder, &["glyphs", "-w", "widths"], no_stream);
    assert_usage(&folder, &["glyphs", "-x"], "-x is no option of this program");
    assert_usage(&folder, &["find", "-w", "widths", "stream"], "the query is missing: -q FILE or -e TEXT");
    let both = ["find", "-w", "widths", "-q", "query", "-e", "a", "stream"];
    assert_usage(&folder, &both, "give -q or -e, not both");
    let other = ["respell", "-w", "widths", "-e", "a", "stream"];
    assert_usage(&folder, &other, "-q and -e are options of find alone");
    let families = ["check", "-w", "widths", "-f", "query", "stream"];
    assert_usage(&folder, &families, "-f is an option of find and glyphs alone");
}

#[test]
fn standard_input_is_one_of_the_files() {
    let folder = Folder::new("once");
    let message = "standard input (-) can be only one of the files";
    assert_usage(&folder, &["glyphs", "-w", "widths", "-", "-"], message);
    assert_usage(&folder, &["glyphs", "-w", "-", "-"], message);
    assert_usage(&folder, &["find", "-w", "widths", "-q", "-", "-"], message);
    assert_usage(&folder, &["find", "-w", "-", "-q", "-", "stream"], message);
    assert_usage(&folder, &["glyphs", "-w", "widths", "-f", "-", "-"], message);
}

#[test]
fn standard_input_serves_for_each() {
    let folder = Folder::new("standard-input");
    let expected = "hit 0\nfound 3 1\n";
    let run = |arguments: &[&str], input| folder.run_with_input(arguments, input);
    run(&["find", "-w", "widths", "-q", "query", "-"], "stream").assert(0, expected, "");
    run(&["find", "-w", "-", "-q", "query", "stream"], "widths").assert(0, expected, "");
    run(&["find", "-w", "widths", "-q", "-", "stream"], "query").assert(0, expected, "");
    // each is told by its role where it is refused
    let refused = |arguments: &[&str], input, number, reason| {
        let place = "mrkvandel: standard input: line 1, column 1";
        let err = format!("{place}: refused {number}: {reason}\n");
        run(arguments, input).assert(1, &format!("refused {number} 0\n"), &err);
    };
    let unknown = "unknown command, `D`, `DF`, `m` or `x` letter, or none";
    refused(&["find", "-w", "widths", "-q", "query", "-"], "query", 3, unknown);
    let list = "width list: a line is wrong or missing";
    refused(&["find", "-w", "-", "-q", "query", "stream"], "query", 2, list);
    let query = "query: a line is wrong, or there is none";
    refused(&["find", "-w", "widths", "-q", "-", "stream"], "widths", 12, query);
}
