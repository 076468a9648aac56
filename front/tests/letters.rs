//! Letters over 127 in the text of `-e`, and the program's own family list.

mod common;

use common::{bytes_body, Folder};
use std::collections::BTreeSet;

const OWN: &str =
    "mrkvandel: the text of -e: letters are looked for under all their names, by the list of `mrkvandel letters`\n";
const HINT: &str = "mrkvandel --help says how it is used\n";

/// The families of a list: what 02 asks of it is looked at line by line.
fn judged(list: &[u8]) -> Vec<Vec<Vec<u8>>> {
    assert!(list.len() <= 65_536 && list.ends_with(b"\n"));
    let mut families: Vec<Vec<Vec<u8>>> = Vec::new();
    for line in list[..list.len() - 1].split(|&byte| byte == b'\n') {
        let (key, name) = line.split_at_checked(5).expect("a line has a key");
        let is_barred = |&byte: &u8| matches!(byte, 0..=32 | 127);
        assert!((1..=64).contains(&name.len()) && !name.iter().any(is_barred), "{line:?}");
        match key {
            b"name=" => families.push(vec![name.to_vec()]),
            b"same=" => families.last_mut().expect("a family has a first name").push(name.to_vec()),
            _ => panic!("{line:?}"),
        }
    }
    assert!(families.len() <= 256 && families.iter().all(|family| (2..=8).contains(&family.len())));
    let names: BTreeSet<&Vec<u8>> = families.iter().flatten().collect();
    assert_eq!(names.len(), families.iter().flatten().count(), "a name stands twice");
    families
}

/// The program's own list.
fn own_list(folder: &Folder) -> Vec<u8> {
    let ran = folder.run(&["letters"]);
    assert_eq!((ran.status, ran.err.as_str()), (0, ""));
    ran.out
}

/// The characters of a name `uXXXX` or `uXXXX_XXXX`.
fn characters(name: &[u8]) -> Option<String> {
    let codes = std::str::from_utf8(name).ok()?.strip_prefix('u')?.split('_');
    let code = |code: &str| (code.len() == 4).then(|| u32::from_str_radix(code, 16).ok()).flatten();
    codes.map(|text| code(text).and_then(char::from_u32)).collect()
}

/// A stream with glyphs of these names.
fn stream(names: &[Vec<u8>]) -> Vec<u8> {
    bytes_body(&names.iter().flat_map(|name| [b"C ", &name[..], b"\n"].concat()).collect::<Vec<u8>>())
}

fn hits(count: usize) -> String {
    (0..count).map(|hit| format!("hit {hit}\n")).collect::<String>() + &format!("found {count} {count}\n")
}

#[test]
fn the_own_list_is_sound() {
    let folder = Folder::new("own-list");
    let list = own_list(&folder);
    let families = judged(&list);
    assert!(families.len() >= 180, "{} families", families.len());
    let acute = [&b"'e"[..], b"u0065_0301", b"u00E9", b"\xE9"].map(<[u8]>::to_vec).to_vec();
    assert!(families.contains(&acute));
    // the library takes it
    folder.put("families", &list);
    folder.run(&["find", "-w", "widths", "-f", "families", "-q", "query", "stream"]).assert(
        0,
        "hit 0\nfound 3 1\n",
        "",
    );
}

/// Each name of a letter is found by the letter, typed as one character or as two.
#[test]
fn every_letter_is_found_under_each_of_its_names() {
    let folder = Folder::new("round-trip");
    let list = own_list(&folder);
    folder.put("families", &list);
    for family in judged(&list) {
        folder.put("stream", &stream(&family));
        let texts: Vec<String> = family.iter().filter_map(|name| characters(name)).collect();
        assert!(texts.iter().any(|text| text.chars().count() == 1), "{family:?}");
        for text in texts {
            let expected = hits(family.len());
            folder.run(&["find", "-w", "widths", "-e", &text, "stream"]).assert(0, &expected, OWN);
            let given = ["find", "-w", "widths", "-f", "families", "-e", &text, "stream"];
            folder.run(&given).assert(0, &expected, "");
        }
    }
}

/// A letter of one name is in no family.
#[test]
fn letters_of_one_name() {
    let folder = Folder::new("one-name");
    folder.put("families", b"name=a\nsame=b\n");
    for letter in ['Đ', 'đ', 'Ħ', 'ĸ', 'ŉ', 'Ŋ', 'ŧ', 'ſ', 'ẞ'] {
        let name = format!("u{:04X}", u32::from(letter)).into_bytes();
        folder.put("stream", &stream(&[name]));
        let text = letter.to_string();
        folder.run(&["find", "-w", "widths", "-e", &text, "stream"]).assert(0, &hits(1), OWN);
        let given = ["find", "-w", "widths", "-f", "families", "-e", &text, "stream"];
        folder.run(&given).assert(0, &hits(1), "");
    }
}

/// Without a letter over 127 the empty list is taken, and nothing is said.
#[test]
fn a_plain_text_is_as_before() {
    let folder = Folder::new("plain-text");
    folder.put("stream", &bytes_body(b"C'e Cu0065_0301 c\xE9"));
    let found = |text: &str| folder.run(&["find", "-w", "widths", "-e", text, "stream"]);
    found("\\['e]").assert(0, "hit 0\nfound 3 1\n", "");
    found("\\[u0065_0301]\\xE9").assert(0, "hit 1\nfound 3 1\n", "");
    // with one, all names of the text match under the own list
    found("\\[u00E9]é\\['e]").assert(0, "hit 0\nfound 3 1\n", OWN);
}

/// The department's list says which names are one letter; no other is asked for.
#[test]
fn the_first_name_of_the_given_family() {
    let folder = Folder::new("given-family");
    folder.put("stream", &bytes_body(b"C'e Cu0065_0301 c\xE9 Ceacute"));
    let given = ["find", "-w", "widths", "-f", "families", "-e", "é", "stream"];
    folder.put("families", b"name=eacute\nsame='e\nsame=u0065_0301\nsame=\xE9\n");
    folder.run(&given).assert(0, &hits(4), "");
    folder.put("families", b"name=eacute\nsame='e\n");
    folder.run(&given).assert(0, "hit 0\nhit 3\nfound 4 2\n", "");
}

/// A search under one of several names could miss the others, so there is none.
#[test]
fn a_list_that_does_not_tell_is_a_usage_error() {
    let folder = Folder::new("not-told");
    let names = "\\['e], \\[u0065_0301], \\[u00E9], \\xE9";
    let cases = [
        (&b""[..], "and the family list has none of them"),
        (b"name=a\nsame=b\n", "and the family list has none of them"),
        (b"name='e\nsame=a\nname=\xE9\nsame=b\n", "and they stand in different families of the family list"),
    ];
    for (families, why) in cases {
        folder.put("families", families);
        let wrong = format!("mrkvandel: the text of -e: byte 4: é has the names {names}, {why}\n{HINT}");
        for text in ["Valénou", "Vale\u{301}nou"] {
            let given = ["find", "-w", "widths", "-f", "families", "-e", text, "stream"];
            folder.run(&given).assert(2, "", &wrong);
        }
    }
}

#[test]
fn a_wrong_list_is_refused_before_the_query() {
    let folder = Folder::new("wrong-with-text");
    folder.put("families", b"name='e\nsame=a\nname=\xE9\n");
    let reason = "family list: a line is wrong or missing";
    let err = format!("mrkvandel: families: line 4, column 1: refused 14: {reason}\n");
    let given = ["find", "-w", "widths", "-f", "families", "-e", "é ", "stream"];
    folder.run(&given).assert(1, "refused 14 22\n", &err);
}

#[test]
fn what_is_no_known_letter_is_a_usage_error() {
    let folder = Folder::new("unknown-letters");
    let cases = [
        ("a§", 2, "U+00A7 is no letter that this program knows; "),
        ("éж", 3, "U+0436 is no letter that this program knows; "),
        ("q\u{301}", 1, "U+0071 U+0301 is no letter that this program knows; "),
        ("a \u{301}", 3, "a combining mark with no letter right before it\n"),
        ("\\[é]", 3, "a byte over 127 within \\[...] is written \\xHH; "),
    ];
    for (text, place, message) in cases {
        let ran = folder.run(&["find", "-w", "widths", "-e", text, "stream"]);
        assert_eq!((ran.status, ran.text()), (2, ""), "{text}");
        let start = format!("mrkvandel: the text of -e: byte {place}: {message}");
        assert!(ran.err.starts_with(&start) && ran.err.ends_with(HINT), "{}", ran.err);
    }
}

#[test]
fn bytes_that_are_no_utf_8() {
    use std::ffi::OsStr;
    use std::os::unix::ffi::OsStrExt;
    let folder = Folder::new("no-utf-8");
    let mut command = folder.command(&["find", "-w", "widths", "stream", "-e"]);
    let output = command.arg(OsStr::from_bytes(b"caf\xE9")).output().expect("the program runs");
    assert_eq!((output.status.code(), &output.stdout[..]), (Some(2), &b""[..]));
    let wrong = "mrkvandel: the text of -e: byte 4: a byte over 127 that is no UTF-8; ";
    assert!(output.stderr.starts_with(wrong.as_bytes()));
}

#[test]
fn letters_takes_no_arguments() {
    let folder = Folder::new("letters-usage");
    let wrong = format!("mrkvandel: -w is too much: letters takes no further arguments\n{HINT}");
    folder.run(&["letters", "-w", "widths"]).assert(2, "", &wrong);
    let help = folder.run(&["letters", "--help"]);
    assert_eq!(help.status, 0);
    assert!(help.text().starts_with("mrkvandel letters\n"), "{}", help.text());
}
