//! Several files, and files that cannot be read.

mod common;

use common::json::objects;
use common::{body, Folder};

const NO_FILE: &str = "No such file or directory (os error 2)";
const NO_WIDTH: &str = "no width for a byte of `t` or `u`";

/// A folder with the streams `stream`, `wrong`, `empty` and the folder `folder`.
fn folder(label: &str) -> Folder {
    let folder = Folder::new(label);
    folder.put("wrong", &body("tz"));
    folder.put("empty", b"");
    std::fs::create_dir(folder.path("folder")).expect("a folder can be made");
    folder
}

#[test]
fn several_streams_have_their_names() {
    let folder = folder("several");
    let ran = folder.run(&["find", "-w", "widths", "-q", "query", "stream", "wrong", "stream"]);
    let out =
        "==> stream <==\nhit 0\nfound 3 1\n==> wrong <==\nrefused 9 55\n==> stream <==\nhit 0\nfound 3 1\n";
    let err = format!("mrkvandel: wrong: line 8, column 1: refused 9: {NO_WIDTH}\n");
    ran.assert(1, out, &err);
}

/// Each answer of the several-file form is the answer of the one-file form.
#[test]
fn several_streams_answer_as_one_does() {
    let folder = folder("several-as-one");
    for command in ["glyphs", "respell"] {
        let one = |name| folder.run(&[command, "-w", "widths", name]).out;
        let both = folder.run(&[command, "-w", "widths", "stream", "empty"]).out;
        let expected = [b"==> stream <==\n", &one("stream")[..], b"==> empty <==\n", &one("empty")].concat();
        assert_eq!(both, expected);
    }
}

#[test]
fn standard_input_among_several() {
    let folder = folder("several-standard");
    let arguments = ["find", "-w", "widths", "-q", "query", "stream", "-"];
    let ran = folder.run_with_input(&arguments, "stream");
    ran.assert(0, "==> stream <==\nhit 0\nfound 3 1\n==> - <==\nhit 0\nfound 3 1\n", "");
}

#[test]
fn an_unreadable_stream_in_the_middle() {
    let folder = folder("unreadable");
    let arguments = ["find", "-w", "widths", "-q", "query", "wrong", "none", "folder", "stream"];
    let out = "==> wrong <==\nrefused 9 55\n==> none <==\n==> folder <==\n==> stream <==\nhit 0\nfound 3 1\n";
    let err = format!(
        "mrkvandel: wrong: line 8, column 1: refused 9: {NO_WIDTH}\nmrkvandel: none: {NO_FILE}\n\
         mrkvandel: folder: Is a directory (os error 21)\n"
    );
    folder.run(&arguments).assert(2, out, &err);
    // one stream has no name line, so there is nothing on standard output
    let alone = ["find", "-w", "widths", "-q", "query", "none"];
    folder.run(&alone).assert(2, "", &format!("mrkvandel: none: {NO_FILE}\n"));
}

#[test]
fn an_unreadable_stream_as_json() {
    let folder = folder("unreadable-json");
    let ran = folder.run(&["find", "--json", "-w", "widths", "-q", "query", "none", "stream"]);
    let objects = objects(&ran.out);
    assert_eq!(ran.status, 2);
    assert_eq!(objects[0].keys(), ["type", "file", "about", "message"]);
    assert_eq!(objects[0].text("type"), "error");
    assert_eq!((objects[0].text("file"), objects[0].text("about")), ("none", "stream"));
    assert_eq!(objects[0].text("message"), NO_FILE);
    assert_eq!((objects[1].text("type"), objects[1].text("file")), ("hit", "stream"));
}

/// Nothing can be answered then.
#[test]
fn an_unreadable_list_ends_at_once() {
    let folder = folder("unreadable-list");
    let err = format!("mrkvandel: none: {NO_FILE}\n");
    folder.run(&["glyphs", "-w", "none", "stream", "wrong"]).assert(2, "", &err);
    folder.run(&["check", "-w", "none", "stream", "wrong"]).assert(2, "", &err);
    folder.run(&["find", "-w", "widths", "-q", "none", "stream", "wrong"]).assert(2, "", &err);
    let ran = folder.run(&["find", "--json", "-w", "widths", "-q", "none", "stream"]);
    let objects = objects(&ran.out);
    assert_eq!((ran.status, objects.len()), (2, 1));
    assert_eq!((objects[0].text("type"), objects[0].text("about")), ("error", "query"));
}

/// A wrong list is refused for each stream.
#[test]
fn a_wrong_list_with_several_streams() {
    let folder = folder("wrong-list");
    folder.put("widths", b"unitwidth=0\n");
    let line = "mrkvandel: widths: line 1, column 1: refused 2: width list: a line is wrong or missing\n";
    let out = "==> stream <==\nrefused 2 0\n==> wrong <==\nrefused 2 0\n";
    folder.run(&["glyphs", "-w", "widths", "stream", "wrong"]).assert(1, out, &line.repeat(2));
}

/// The name is printed as it is; on standard error it stays in its line.
#[test]
fn names_with_odd_bytes() {
    let folder = folder("odd-names");
    let name = "a \u{e9}\nb\"\\";
    folder.put(name, b"");
    let ran = folder.run(&["glyphs", "-w", "widths", name, "empty"]);
    assert!(ran.text().starts_with(&format!("==> {name} <==\nrefused 11 0\n")), "{}", ran.text());
    assert!(ran.err.starts_with("mrkvandel: a \u{e9}?b\"\\: line 1, column 1: refused 11: "), "{}", ran.err);
    let json = folder.run(&["glyphs", "--json", "-w", "widths", name]);
    assert_eq!(objects(&json.out)[0].text("file"), name);
}

#[test]
fn a_name_that_is_no_text() {
    use std::ffi::OsStr;
    use std::os::unix::ffi::OsStrExt;
    let folder = folder("bytes-name");
    let name = OsStr::from_bytes(b"a\xE9");
    let path = folder.path("").join(name);
    std::fs::write(path, common::STREAM).expect("the file can be written");
    let run = |arguments: &[&str]| {
        folder.command(arguments).arg(name).arg("empty").output().expect("the program runs").stdout
    };
    assert!(run(&["respell", "-w", "widths"]).starts_with(b"==> a\xE9 <==\nx T ps\n"));
    let objects = objects(&run(&["respell", "--json", "-w", "widths"]));
    assert_eq!(objects[0].text("file"), "a\u{FFFD}");
}
