//! `-f`: names of one letter match each other in `find`, and `glyphs` shows the first of them.

mod common;

use common::json::objects;
use common::{bytes_body, Folder, WIDTHS};
use second::refusal::{LIST_LIMIT, QUERY_LIMIT, STREAM_LIMIT};

/// The readings' stream and list: e acute under three names.
const ACUTE: &[u8] = b"name='e\nsame=u0065_0301\nsame=\xE9\n";
const WORDS: &[u8] = b"C'e cb w Cu0065_0301 c\xE9";

const REASON: &str = "family list: a line is wrong or missing";

/// A folder with a stream of that body, and a family list.
fn folder(label: &str, fragment: &[u8], families: &[u8]) -> Folder {
    let folder = Folder::new(label);
    folder.put("stream", &bytes_body(fragment));
    folder.put("families", families);
    folder
}

#[track_caller]
fn assert_finds(folder: &Folder, families: &[u8], query: &[u8], hits: &str) {
    folder.put("families", families);
    folder.put("query", query);
    let ran = folder.run(&["find", "-w", "widths", "-f", "families", "-q", "query", "stream"]);
    ran.assert(0, hits, "");
}

#[test]
fn names_of_one_family_match() {
    let folder = folder("family", WORDS, ACUTE);
    for name in [&b"'e"[..], b"u0065_0301", b"\xE9"] {
        let query = [b"glyph=", name, b"\n"].concat();
        assert_finds(&folder, ACUTE, &query, "hit 0\nhit 2\nhit 3\nfound 4 3\n");
    }
    assert_finds(&folder, b"", b"glyph=\xE9\n", "hit 3\nfound 4 1\n");
    assert_finds(&folder, ACUTE, b"glyph='e\nglyph=u0065_0301\n", "hit 2\nfound 4 1\n");
    // names of different families do not match
    let parted = b"name='e\nsame=x\nname=u0065_0301\nsame=\xE9\n";
    assert_finds(&folder, parted, b"glyph='e\n", "hit 0\nfound 4 1\n");
}

#[test]
fn one_byte_names_and_numbered_glyphs() {
    let words = folder("family-bytes", b"tab", b"");
    assert_finds(&words, b"name=a\nsame=b\n", b"glyph=b\nglyph=a\n", "hit 0\nfound 2 1\n");
    let numbered = folder("family-numbers", b"ca N97 cb", b"");
    let families = b"name=a\nsame=97\nname=b\nsame=y\n";
    assert_finds(&numbered, families, b"glyph=97\n", "hit 0\nfound 3 1\n");
}

#[test]
fn every_form_of_the_option() {
    let folder = folder("family-forms", WORDS, ACUTE);
    folder.put("query", b"glyph='e\n");
    let expected = "hit 0\nhit 2\nhit 3\nfound 4 3\n";
    for form in
        [&["-f", "families"][..], &["-ffamilies"], &["--families", "families"], &["--families=families"]]
    {
        folder
            .run(&[&["find", "-w", "widths", "-q", "query", "stream"], form].concat())
            .assert(0, expected, "");
    }
    let standard = ["find", "-w", "widths", "-q", "query", "-f", "-", "stream"];
    folder.run_with_input(&standard, "families").assert(0, expected, "");
}

/// Wrong lists, each with its offset, line and the rest sound.
#[test]
fn a_wrong_list_is_14() {
    let folder = folder("family-wrong", WORDS, b"");
    folder.put("query", b"glyph='e\n");
    let nine = ["name=0\n", "same=1\nsame=2\nsame=3\nsame=4\nsame=5\nsame=6\nsame=7\nsame=8\n"].concat();
    let cases = [
        ("same=a\n", 0, 1),
        ("name=a\nsame=b\n\n", 14, 3),
        ("name=a\n", 7, 2),
        ("name=a\nname=b\nsame=c\n", 7, 2),
        ("name=a\nsame=b", 7, 2),
        ("name=a\nsame=b\nname=c\nsame=a\n", 21, 4),
        (&nine, 56, 9),
        ("name=a\nsame=b\u{7f}\n", 7, 2),
    ];
    for (families, offset, line) in cases {
        folder.put("families", families.as_bytes());
        let ran = folder.run(&["find", "-w", "widths", "-f", "families", "-q", "query", "stream"]);
        let err = format!("mrkvandel: families: line {line}, column 1: refused 14: {REASON}\n");
        ran.assert(1, &format!("refused 14 {offset}\n"), &err);
    }
}

#[test]
fn a_wrong_list_as_json_and_for_each_stream() {
    let folder = folder("family-json", WORDS, b"name=a\n");
    let arguments = ["find", "--json", "-w", "widths", "-f", "families", "-e", "a", "stream", "stream"];
    let ran = folder.run(&arguments);
    let refused = objects(&ran.out);
    assert_eq!((ran.status, refused.len()), (1, 2));
    for object in refused {
        assert_eq!((object.text("type"), object.text("file")), ("refused", "stream"));
        assert_eq!((object.number("number"), object.number("offset")), (14, 7));
        assert_eq!((object.text("about"), object.text("reason")), ("families", REASON));
    }
}

/// 1, 2, 14, 12, then the stream.
#[test]
fn refusals_come_in_their_order() {
    let folder = folder("family-order", b"?", b"?");
    folder.put("widths", b"?");
    folder.put("query", &[b'?'; QUERY_LIMIT + 1]);
    let first = || {
        let ran = folder.run(&["find", "-w", "widths", "-f", "families", "-q", "query", "stream"]);
        ran.text().to_string()
    };
    assert_eq!(first(), "refused 1 0\n");
    folder.put("query", b"?");
    assert_eq!(first(), "refused 2 0\n");
    folder.put("widths", WIDTHS);
    assert_eq!(first(), "refused 14 0\n");
    folder.put("families", b"");
    assert_eq!(first(), "refused 12 0\n");
    folder.put("query", b"glyph=a\n");
    assert_eq!(first(), "refused 3 55\n");
}

#[test]
fn the_limit_of_the_list() {
    let folder = folder("family-limit", WORDS, &[b'?'; LIST_LIMIT]);
    let run = || folder.run(&["find", "-w", "widths", "-f", "families", "-e", "b", "stream"]);
    assert_eq!(run().text(), "refused 14 0\n");
    folder.put("families", &[b'?'; LIST_LIMIT + 1]);
    let err = "mrkvandel: families: line 1, column 1: refused 1: family list over 65,536 bytes\n";
    run().assert(1, "refused 1 0\n", err);
    // the stream is named first where both are too long
    folder.put("stream", &vec![b'\n'; STREAM_LIMIT + 1]);
    assert!(run().err.starts_with("mrkvandel: stream: line 1, column 1: refused 1: stream over "));
    let endless = folder.run(&["find", "-w", "widths", "-f", "/dev/zero", "-e", "b", "stream"]);
    assert_eq!(endless.text(), "refused 1 0\n");
}

#[test]
fn an_unreadable_list_ends_at_once() {
    let folder = folder("family-unreadable", WORDS, b"");
    let err = "mrkvandel: none: No such file or directory (os error 2)\n";
    folder.run(&["glyphs", "-w", "widths", "-f", "none", "stream"]).assert(2, "", err);
    folder.run(&["find", "-w", "widths", "-f", "none", "-e", "é", "stream"]).assert(2, "", err);
    let ran = folder.run(&["glyphs", "--json", "-w", "widths", "-f", "none", "stream"]);
    let errors = objects(&ran.out);
    assert_eq!((errors[0].text("type"), errors[0].text("about")), ("error", "families"));
}

/// The last fields of the `glyph` lines: place, length and name.
fn names(text: &[u8]) -> Vec<(String, Vec<u8>)> {
    let lines = text.split(|&byte| byte == b'\n').filter(|line| line.starts_with(b"glyph "));
    let fields = lines.map(|line| line.split(|&byte| byte == b' ').collect::<Vec<_>>());
    let place = |field: &[u8]| String::from_utf8_lossy(field).into_owned();
    fields.map(|fields| (place(fields[9]) + " " + &place(fields[10]), fields[11].to_vec())).collect()
}

#[test]
fn glyphs_shows_the_first_name() {
    let folder = folder("family-glyphs", b"C'e cb N5 w Cu0065_0301 c\xE9", b"");
    let run = |families: &[u8]| {
        folder.put("families", families);
        let ran = folder.run(&["glyphs", "-w", "widths", "-f", "families", "stream"]);
        assert_eq!((ran.status, ran.err.as_str()), (0, ""));
        ran.out
    };
    let plain = folder.run(&["glyphs", "-w", "widths", "stream"]).out;
    assert_eq!(run(b""), plain);
    let own = names(&plain);
    let first = names(&run(b"name=u0065_0301\nsame='e\nsame=\xE9\nname=B\nsame=b\n"));
    let expected = [&b"u0065_0301"[..], b"B", b"", b"u0065_0301", b"u0065_0301"];
    assert_eq!(first.iter().map(|(_, name)| &name[..]).collect::<Vec<_>>(), expected);
    let places = |names: &[(String, Vec<u8>)]| names.iter().map(|(at, _)| at.clone()).collect::<Vec<_>>();
    assert_eq!(places(&first), places(&own));
    // everything else is as without the list
    let without_names = |text: &[u8]| {
        let line = |line: &[u8]| line.split(|&byte| byte == b' ').take(11).collect::<Vec<_>>().join(&b' ');
        text.split(|&byte| byte == b'\n').map(line).collect::<Vec<_>>()
    };
    assert_eq!(without_names(&run(b"name=\xE9\nsame='e\n")), without_names(&plain));
}

#[test]
fn glyphs_shows_the_first_name_as_json() {
    let folder = folder("family-glyphs-json", WORDS, ACUTE);
    let ran = folder.run(&["glyphs", "--json", "-w", "widths", "-f", "families", "stream"]);
    let glyphs: Vec<_> =
        objects(&ran.out).into_iter().filter(|object| object.text("type") == "glyph").collect();
    let names: Vec<&str> = glyphs.iter().map(|glyph| glyph.text("name")).collect();
    assert_eq!(names, ["'e", "b", "'e", "'e"]);
    let lengths: Vec<i64> = glyphs.iter().map(|glyph| glyph.number("length")).collect();
    assert_eq!(lengths, [2, 1, 10, 1]);
}

/// It is told once, and changes neither the answer nor the status.
#[test]
fn a_wrong_list_counts_as_an_empty_one_in_glyphs() {
    let folder = folder("family-glyphs-wrong", WORDS, b"");
    let plain = folder.run(&["glyphs", "-w", "widths", "stream", "stream"]);
    let long = [ACUTE, &[b'?'; LIST_LIMIT]].concat();
    let wrong = [ACUTE, b"name=b\n"].concat();
    let place = wrong.iter().filter(|&&byte| byte == b'\n').count() + 1;
    let cases = [(long, 1, "family list over 65,536 bytes"), (wrong, place, REASON)];
    for (families, line, reason) in cases {
        folder.put("families", &families);
        let ran = folder.run(&["glyphs", "-w", "widths", "-f", "families", "stream", "stream"]);
        assert_eq!((ran.status, &ran.out), (0, &plain.out));
        let err =
            format!("mrkvandel: families: line {line}, column 1: {reason}; it counts as an empty one\n");
        assert_eq!(ran.err, err);
    }
}
