//! Every refusal that a user can meet: the line on standard output, and the line for people. (13 can
//! be met by a long spelling alone: rows are as long as is needed.)

mod common;

use common::json::{objects, Json};
use common::{body, Folder, STREAM, WIDTHS};
use second::refusal::{LIST_LIMIT, QUERY_LIMIT, STREAM_LIMIT};

const FIND: [&str; 6] = ["find", "-w", "widths", "-q", "query", "stream"];

/// A refusal of each command but `check`, about the file of that name.
#[track_caller]
fn assert_refused(folder: &Folder, number: u32, offset: usize, at: (usize, usize), file: &str, reason: &str) {
    let out = format!("refused {number} {offset}\n");
    let (line, column) = at;
    let err = format!("mrkvandel: {file}: line {line}, column {column}: refused {number}: {reason}\n");
    if file != "query" {
        folder.run(&["glyphs", "-w", "widths", "stream"]).assert(1, &out, &err);
        folder.run(&["respell", "-w", "widths", "stream"]).assert(1, &out, &err);
    }
    folder.run(&FIND).assert(1, &out, &err);
    assert_json(folder, number, offset, at, file, reason);
}

#[track_caller]
fn assert_json(folder: &Folder, number: u32, offset: usize, at: (usize, usize), about: &str, reason: &str) {
    let ran = folder.run(&[&FIND[..], &["--json"]].concat());
    let text = |text: &str| Json::Text(text.to_string());
    let place = |place: usize| Json::Number(place as i64);
    let fields = [
        ("type", text("refused")),
        ("file", text("stream")),
        ("number", Json::Number(number.into())),
        ("offset", place(offset)),
        ("line", place(at.0)),
        ("column", place(at.1)),
        ("about", text(about)),
        ("reason", text(reason)),
    ];
    let object = Json::Object(fields.map(|(key, value)| (key.to_string(), value)).to_vec());
    assert_eq!(objects(&ran.out), [object]);
    assert_eq!(ran.status, 1);
}

#[test]
fn refusals_of_the_stream() {
    let folder = Folder::new("refusals-stream");
    let outside = "number, count, name or text outside its limit";
    let barred = "byte 0 to 8, 11 to 31 or 127 in a name, a glyph or a word";
    let text = format!("x X\n+{}", "q".repeat(4096));
    // a fragment of a body, which begins in line 8, and its refusal: number, offset in it, reason
    let cases = [
        ("h512a", 3, 4, "unknown command, `D`, `DF`, `m` or `x` letter, or none"),
        ("h", 4, 0, "argument missing or malformed; none or an odd number for `Dp`, `DP`, `D~`"),
        ("h1 Dl 1 2 3", 5, 3, "other bytes before the line break of `D` or `x`"),
        ("mg 65537", 6, 3, outside),
        ("h1 Dc 5 100000000", 6, 8, outside),
        (&text, 6, 3, outside),
        ("h1 ta\u{7f}", 16, 3, barred),
        ("x F name\r", 16, 0, barred),
        ("f2", 8, 0, "`f` to an unmounted position; glyph or `N` without current font and size"),
        ("ta tz", 9, 3, "no width for a byte of `t` or `u`"),
        ("H99999999h1", 10, 9, "h or v beyond 99,999,999 either way"),
    ];
    for (fragment, number, offset, reason) in cases {
        folder.put("stream", &body(fragment));
        let head = second::vectors::BODY_HEAD.len();
        assert_refused(&folder, number, head + offset, (8, offset + 1), "stream", reason);
    }
}

#[test]
fn refusals_of_the_order_and_the_end() {
    let folder = Folder::new("refusals-order");
    let order = "prologue out of order, or a prologue command later; motion, glyph, `N` or any `D` before \
                 the first `p`; a byte of anything after `x s`";
    folder.put("stream", &[STREAM, b"\n w"].concat());
    assert_refused(&folder, 7, STREAM.len() + 2, (15, 2), "stream", order);
    let unstopped = STREAM.strip_suffix(b"x stop\n").expect("the sample ends so");
    folder.put("stream", unstopped);
    assert_refused(&folder, 11, unstopped.len(), (13, 1), "stream", "no `x s`");
    folder.put("stream", b"");
    assert_refused(&folder, 11, 0, (1, 1), "stream", "no `x s`");
}

#[test]
fn refusals_of_the_width_list() {
    let folder = Folder::new("refusals-list");
    let reason = "width list: a line is wrong or missing";
    folder.put("widths", b"unitwidth=1000\nfnt=TR\n");
    assert_refused(&folder, 2, 15, (2, 1), "widths", reason);
    folder.put("widths", b"unitwidth=1000\nfont=TR\r\n");
    assert_refused(&folder, 2, 15, (2, 1), "widths", reason);
    let short = WIDTHS.strip_suffix(b"width=50\n").expect("the sample ends so");
    folder.put("widths", short);
    assert_refused(&folder, 2, short.len(), (6, 1), "widths", reason);
    folder.put("widths", b"");
    assert_refused(&folder, 2, 0, (1, 1), "widths", reason);
}

#[test]
fn refusals_of_the_query() {
    let folder = Folder::new("refusals-query");
    let reason = "query: a line is wrong, or there is none";
    folder.put("query", b"glyph=a\nglyph=\n");
    assert_refused(&folder, 12, 8, (2, 1), "query", reason);
    folder.put("query", b"glyph=a\ngap=any\n");
    assert_refused(&folder, 12, 8, (2, 1), "query", reason);
    folder.put("query", b"glyph=a\nglyph=\x7f\n");
    assert_refused(&folder, 12, 8, (2, 1), "query", reason);
    folder.put("query", b"");
    assert_refused(&folder, 12, 0, (1, 1), "query", reason);
}

/// 1, 2, 12, then the stream.
#[test]
fn refusals_come_in_their_order() {
    let folder = Folder::new("refusals-in-order");
    folder.put("stream", b"?");
    folder.put("widths", b"?");
    folder.put("query", &[b'?'; QUERY_LIMIT + 1]);
    let first = || folder.run(&FIND).text().to_string();
    assert_eq!(first(), "refused 1 0\n");
    folder.put("query", b"glyph=a\n?");
    assert_eq!(first(), "refused 2 0\n");
    folder.put("widths", WIDTHS);
    assert_eq!(first(), "refused 12 8\n");
    folder.put("query", b"glyph=a\n");
    assert_eq!(first(), "refused 3 0\n");
}

#[test]
fn the_limit_of_the_stream() {
    let folder = Folder::new("limit-stream");
    let mut stream = STREAM.to_vec();
    stream.resize(STREAM_LIMIT, b'\n');
    folder.put("stream", &stream);
    folder.run(&FIND).assert(0, "hit 0\nfound 3 1\n", "");
    stream.push(b'\n');
    folder.put("stream", &stream);
    assert_refused(&folder, 1, 0, (1, 1), "stream", "stream over 16,777,216 bytes");
}

#[test]
fn the_limits_of_the_lists() {
    let folder = Folder::new("limit-lists");
    folder.put("widths", &[b'?'; LIST_LIMIT]);
    assert_eq!(folder.run(&FIND).text(), "refused 2 0\n");
    folder.put("widths", &[b'?'; LIST_LIMIT + 1]);
    assert_refused(&folder, 1, 0, (1, 1), "widths", "width list over 65,536 bytes");
    folder.put("widths", WIDTHS);
    folder.put("query", &[b'?'; QUERY_LIMIT]);
    assert_eq!(folder.run(&FIND).text(), "refused 12 0\n");
    folder.put("query", &[b'?'; QUERY_LIMIT + 1]);
    assert_refused(&folder, 1, 0, (1, 1), "query", "query over 8,192 bytes");
}

/// A file without an end is read to one byte past the limit.
#[test]
fn endless_files() {
    let folder = Folder::new("endless");
    let zeros = "/dev/zero";
    for arguments in [
        ["find", "-w", "widths", "-q", "query", zeros],
        ["find", "-w", zeros, "-q", "query", "stream"],
        ["find", "-w", "widths", "-q", zeros, "stream"],
    ] {
        let ran = folder.run(&arguments);
        assert_eq!((ran.status, ran.text()), (1, "refused 1 0\n"));
        assert!(ran.err.starts_with("mrkvandel: /dev/zero: line 1, column 1: refused 1: "), "{}", ran.err);
    }
}

/// Four bytes of spelling for each glyph of no width.
#[test]
fn a_spelling_over_the_limit() {
    let folder = Folder::new("limit-spelling");
    let glyphs = STREAM_LIMIT / 4;
    folder.put("widths", b"unitwidth=1\nfont=TR\nbyte=97\nwidth=0\n");
    folder.put("stream", &body(&format!("t{}", "a".repeat(glyphs))));
    let reason = "the spelling is over 16,777,216 bytes";
    let err = format!("mrkvandel: stream: line 1, column 1: refused 13: {reason}\n");
    folder.run(&["respell", "-w", "widths", "stream"]).assert(1, "refused 13 0\n", &err);
    let found = folder.run(&["find", "-w", "widths", "-e", "\\[aa]", "stream"]);
    found.assert(0, &format!("found {glyphs} 0\n"), "");
    let checked = folder.run(&["check", "--json", "-w", "widths", "stream"]);
    let object = &objects(&checked.out)[0];
    assert_eq!((object.number("records"), object.at("spelling")), (glyphs as i64, &Json::Null));
    // a spelling that just fits: 4 bytes for each glyph, and what stands around them
    let around = "x T ps\nx r 72000 1 1\nx i\np 1\nx f 1 TR\nf 1\ns 10000\nx s\n".len();
    let fitting = (STREAM_LIMIT - around) / 4;
    folder.put("stream", &body(&format!("t{}", "a".repeat(fitting))));
    let ran = folder.run(&["respell", "-w", "widths", "stream"]);
    assert_eq!((ran.status, ran.out.len()), (0, 4 * fitting + around));
}
