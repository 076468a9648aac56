//! `find -e TEXT`, on streams and on the sample ruling.

mod common;

use common::json::objects;
use common::{body, Folder};
use second::vectors::{Program, Second};
use second::Rooms;

const SAMPLES: &str = concat!(env!("CARGO_MANIFEST_DIR"), "/../samples");

fn sample(name: &str) -> Vec<u8> {
    std::fs::read(format!("{SAMPLES}/{name}")).expect("the sample can be read")
}

/// A folder with the sample ruling.
fn folder(label: &str) -> Folder {
    let folder = Folder::new(label);
    folder.put("ruling.out", &sample("ruling.out"));
    folder.put("ruling.widths", &sample("ruling.widths"));
    folder
}

fn find(folder: &Folder, text: &str) -> String {
    let ran = folder.run(&["find", "-w", "ruling.widths", "-e", text, "ruling.out"]);
    assert_eq!((ran.status, ran.err.as_str()), (0, ""));
    ran.text().to_string()
}

/// A text of ASCII finds what the second program finds by the query written out, without a family list.
#[track_caller]
fn assert_finds(folder: &Folder, text: &str, query: &str, hits: usize) {
    let query = query.replace(' ', "\n") + "\n";
    let (stream, list) = (sample("ruling.out"), sample("ruling.widths"));
    let expected = Second.find(&stream, &list, b"", query.as_bytes(), Rooms::default());
    let expected = String::from_utf8(expected.expect("the ruling is accepted")).expect("a text");
    assert_eq!(find(folder, text), expected);
    assert_eq!(expected.lines().count(), hits + 1, "{text}");
}

#[test]
fn an_accented_word() {
    let folder = folder("accented");
    let query = "glyph=V glyph=a glyph=l glyph='e glyph=n glyph=o glyph=u";
    assert_finds(&folder, "Val\\['e]nou", query, 4);
    assert_finds(&folder, "Z\\[\\x27\\x6f]rvan", "glyph=Z glyph='o glyph=r glyph=v glyph=a glyph=n", 3);
    // the letter without its accent is another glyph
    assert_eq!(find(&folder, "Valenou"), find(&folder, "\\[none]"));
}

#[test]
fn a_phrase_over_word_spaces() {
    let folder = folder("phrase");
    let query = "glyph=L glyph=o glyph=n glyph=g gap=any glyph=A glyph=c glyph=r glyph=e";
    assert_finds(&folder, "Long  Acre", query, 2);
    assert_finds(&folder, "LongAcre", &query.replace("gap=any ", ""), 0);
}

#[test]
fn a_ligature_is_a_glyph_of_its_own() {
    let folder = folder("ligature");
    assert_finds(&folder, "\\[fi]eld", "glyph=fi glyph=e glyph=l glyph=d", 4);
    assert_finds(&folder, "field", "glyph=f glyph=i glyph=e glyph=l glyph=d", 0);
}

/// A hit has the page of its record.
#[test]
fn the_page_of_a_hit() {
    let folder = folder("page");
    let ran = folder.run(&["find", "--json", "-w", "ruling.widths", "-e", "Ruling", "ruling.out"]);
    let glyphs = folder.run(&["glyphs", "--json", "-w", "ruling.widths", "ruling.out"]);
    let (found, glyphs) = (objects(&ran.out), objects(&glyphs.out));
    let (last, hits) = found.split_last().expect("there is a last line");
    assert_eq!(last.keys(), ["type", "file", "records", "hits"]);
    assert_eq!(hits.iter().map(|hit| hit.number("page")).collect::<Vec<_>>(), [1, 2]);
    for hit in hits {
        assert_eq!(hit.keys(), ["type", "file", "record", "ordinal", "page", "h", "v"]);
        let glyph = &glyphs[usize::try_from(hit.number("record")).expect("a record's number")];
        assert_eq!(glyph.text("name"), "R");
        for key in ["record", "ordinal", "page", "h", "v"] {
            assert_eq!(hit.number(key), glyph.number(key), "{key}");
        }
    }
}

/// Every byte of a name can be asked for; a barred one is in no name, and makes the query 12.
#[test]
fn a_glyph_of_any_byte() {
    let folder = Folder::new("any-byte");
    for byte in (0..=255_u8).filter(|byte| !b"\t\n ".contains(byte)) {
        folder.put("stream", &[&body("")[..55], b"c", &[byte], b"\nx stop\n"].concat());
        let ran = folder.run(&["find", "-w", "widths", "-e", &format!("\\x{byte:02x}"), "stream"]);
        if matches!(byte, 0..=8 | 11..=31 | 127) {
            assert_eq!((ran.status, ran.text()), (1, "refused 12 0\n"), "{byte}");
        } else {
            ran.assert(0, "hit 0\nfound 1 1\n", "");
        }
    }
}

/// The letter finds what its name in this ruling finds.
#[test]
fn a_letter_over_127() {
    let folder = folder("raw");
    for text in ["Val\u{e9}nou", "Vale\u{301}nou"] {
        let ran = folder.run(&["find", "-w", "ruling.widths", "-e", text, "ruling.out"]);
        assert_eq!((ran.status, ran.text()), (0, &find(&folder, "Val\\['e]nou")[..]));
        assert_eq!(ran.err.lines().count(), 1, "{}", ran.err);
    }
}

#[test]
fn bad_escapes_are_usage_errors() {
    let folder = folder("escapes");
    for (text, place) in [("ab\\", 3), ("\\q", 1), ("a\\[b", 2), ("a\\x2", 2), ("\\x20", 1), ("\\[a b]", 4)] {
        let ran = folder.run(&["find", "-w", "ruling.widths", "-e", text, "ruling.out"]);
        assert_eq!((ran.status, ran.text()), (2, ""), "{text}");
        assert!(ran.err.starts_with(&format!("mrkvandel: the text of -e: byte {place}: ")), "{}", ran.err);
    }
}

/// What is no query is the finder's to refuse.
#[test]
fn the_finder_judges_the_query() {
    let folder = folder("judged");
    let glyphs = |number| "a".repeat(number);
    let cases = [(String::new(), 0, 1), (" a".into(), 0, 1), ("a ".into(), 8, 2), (glyphs(65), 512, 65)];
    for (text, offset, line) in cases {
        let ran = folder.run(&["find", "-w", "ruling.widths", "-e", &text, "ruling.out"]);
        let place = format!("mrkvandel: the text of -e: line {line}, column 1 of its query");
        let err = format!("{place}: refused 12: query: a line is wrong, or there is none\n");
        ran.assert(1, &format!("refused 12 {offset}\n"), &err);
    }
    assert_eq!(find(&folder, &glyphs(64)), find(&folder, "\\[none]"));
    // 1025 lines of 8 bytes are over the query's limit
    let ran = folder.run(&["find", "-w", "ruling.widths", "-e", &glyphs(1025), "ruling.out"]);
    let err = "mrkvandel: the text of -e: line 1, column 1 of its query: refused 1: query over 8,192 bytes\n";
    ran.assert(1, "refused 1 0\n", err);
}
