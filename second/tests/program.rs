//! The program: its output, its line for people and its exit status.

use std::path::PathBuf;
use std::process::{Command, Output};

const SAMPLE: &str = "x T ps\nx res 72000 1 1\nx init\np1\nx font 1 TR\nf1\ns10000\nV12000\nH72000\ntab\nwh2500\nC'e\nx stop\n";
const LIST: &str = "unitwidth=1000\nfont=TR\nbyte=97\nwidth=44\nbyte=98\nwidth=50\n";

fn file(name: &str, content: &str) -> PathBuf {
    let path = PathBuf::from(env!("CARGO_TARGET_TMPDIR")).join(name);
    std::fs::write(&path, content).unwrap();
    path
}

fn second(arguments: &[&str], files: &[&PathBuf]) -> Output {
    Command::new(env!("CARGO_BIN_EXE_second")).args(arguments).args(files).output().unwrap()
}

fn stdout(output: &Output) -> String {
    String::from_utf8(output.stdout.clone()).unwrap()
}

fn stderr(output: &Output) -> String {
    String::from_utf8(output.stderr.clone()).unwrap()
}

#[test]
fn accepted_inputs_are_printed() {
    let (stream, list) = (file("a-stream", SAMPLE), file("a-list", LIST));
    let query = file("a-query", "glyph=a\nglyph=b\ngap=any\nglyph='e\n");
    let found = second(&["find"], &[&stream, &list, &query]);
    assert_eq!((stdout(&found), found.status.code()), ("hit 0\nfound 3 1\n".to_string(), Some(0)));
    let glyphs = second(&["glyphs"], &[&stream, &list]);
    assert!(stdout(&glyphs).starts_with("glyph 1 1 72000 12000 1 10000 1 0 70 1 a\n"));
    assert!(stdout(&glyphs).ends_with("\nend 3 5 1 75440 12000 d 0 0 0 0 d 0 0 0 0\n"));
    let spelling = second(&["respell"], &[&stream, &list]);
    assert!(stdout(&spelling).ends_with("c a\nH 72440\nc b\nw\nH 75440\nC 'e\nx s\n"));
    assert_eq!((glyphs.status.code(), spelling.status.code()), (Some(0), Some(0)));
    assert_eq!(stderr(&glyphs), "");
}

#[test]
fn refusals_are_printed_and_explained() {
    let (stream, list) = (file("r-stream", "x T ps\n  q\n"), file("r-list", LIST));
    let (wrong_list, query) = (file("r-wrong", "unitwidth=5\nfont=\n"), file("r-query", "gap=any\n"));
    let refused = second(&["glyphs"], &[&stream, &list]);
    assert_eq!((stdout(&refused), refused.status.code()), ("refused 3 9\n".to_string(), Some(1)));
    assert!(stderr(&refused).contains("r-stream: line 2, column 3: unknown command"), "{}", stderr(&refused));
    let barred = file("r-barred", "x T ps\nx F a\u{1}\n");
    let refused = second(&["glyphs"], &[&barred, &list]);
    assert_eq!((stdout(&refused), refused.status.code()), ("refused 16 7\n".to_string(), Some(1)));
    assert!(
        stderr(&refused).contains("r-barred: line 2, column 1: byte 0 to 8, 11 to 31 or 127 in a name"),
        "{}",
        stderr(&refused)
    );
    let refused = second(&["respell"], &[&stream, &wrong_list]);
    assert_eq!(stdout(&refused), "refused 2 12\n");
    assert!(stderr(&refused).contains("r-wrong: line 2, column 1: "), "{}", stderr(&refused));
    let refused = second(&["find"], &[&stream, &list, &query]);
    assert_eq!(stdout(&refused), "refused 12 0\n");
    assert!(stderr(&refused).contains("r-query: line 1, column 1: "), "{}", stderr(&refused));
    assert_eq!(stderr(&refused).lines().count(), 1);
}

#[test]
fn find_takes_a_family_list() {
    let (stream, list) = (file("f-stream", SAMPLE), file("f-list", LIST));
    let query = file("f-query", "glyph=b\nglyph=B\ngap=any\nglyph=u0065_0301\n");
    let families = file("f-families", "name=a\nsame=b\nsame=B\nname=u0065_0301\nsame='e\n");
    let (empty, wrong) = (file("f-empty", ""), file("f-wrong", "name=a\nsame=b\nname=c\n"));
    let with = |families: &PathBuf| second(&["find", "-f"], &[families, &stream, &list, &query]);
    assert_eq!(stdout(&with(&families)), "hit 0\nfound 3 1\n");
    assert_eq!(stdout(&with(&empty)), "found 3 0\n");
    assert_eq!(stdout(&second(&["find"], &[&stream, &list, &query])), "found 3 0\n");
    let behind = second(&["find"], &[&stream, &list, &query, &PathBuf::from("-f"), &families]);
    assert_eq!(stdout(&behind), "hit 0\nfound 3 1\n");
    let refused = with(&wrong);
    assert_eq!((stdout(&refused), refused.status.code()), ("refused 14 21\n".to_string(), Some(1)));
    let reason = "f-wrong: line 4, column 1: wrong or missing line in the family list";
    assert!(stderr(&refused).contains(reason), "{}", stderr(&refused));
    let refused = with(&file("f-long", &"x".repeat(65_537)));
    assert_eq!(stdout(&refused), "refused 1 0\n");
    assert!(stderr(&refused).contains("f-long: line 1, column 1: "), "{}", stderr(&refused));
}

/// A wrong or too long family list counts as an empty one here.
#[test]
fn glyphs_takes_a_family_list() {
    let (stream, list) = (file("g-stream", SAMPLE), file("g-list", LIST));
    let plain = stdout(&second(&["glyphs"], &[&stream, &list]));
    let with = |content: &str| {
        let families = file("g-families", content);
        let output = second(&["glyphs", "-f"], &[&families, &stream, &list]);
        assert_eq!((stderr(&output), output.status.code()), (String::new(), Some(0)));
        stdout(&output)
    };
    let named = with("name=u0065_0301\nsame='e\nname=B\nsame=b\n");
    let expected = plain.replace(" 1 b\n", " 1 B\n").replace(" 2 'e\n", " 2 u0065_0301\n");
    assert_eq!(named, expected);
    assert_ne!(named, plain);
    for wrong in ["", "name=B\nsame=b", "name=B\nsame=b\nname=c\n", &"x".repeat(65_537)] {
        assert_eq!(with(wrong), plain);
    }
}

#[test]
fn the_too_long_input_is_named() {
    let (stream, list) = (file("l-stream", SAMPLE), file("l-list", &"x".repeat(65_537)));
    let refused = second(&["glyphs"], &[&stream, &list]);
    assert_eq!(stdout(&refused), "refused 1 0\n");
    assert!(stderr(&refused).contains("l-list: line 1, column 1: "), "{}", stderr(&refused));
}

#[test]
fn room_is_an_option() {
    let (stream, list) = (file("o-stream", SAMPLE), file("o-list", LIST));
    let query = file("o-query", "glyph=a\n");
    let enough = second(&["--records", "3", "--entries", "5", "glyphs"], &[&stream, &list]);
    assert_eq!(enough.status.code(), Some(0));
    for (arguments, files) in [
        (["--records", "2", "glyphs"], vec![&stream, &list]),
        (["--entries", "4", "glyphs"], vec![&stream, &list]),
        (["--spelling", "50", "respell"], vec![&stream, &list]),
        (["--hits", "0", "find"], vec![&stream, &list, &query]),
    ] {
        let refused = second(&arguments, &files);
        assert_eq!((stdout(&refused), refused.status.code()), ("refused 13 0\n".to_string(), Some(1)));
    }
}

#[test]
fn bad_usage_is_2() {
    let (stream, list) = (file("u-stream", SAMPLE), file("u-list", LIST));
    let missing = PathBuf::from("/nowhere/at/all");
    let bad = [
        second(&[], &[]),
        second(&["glyphs"], &[&stream]),
        second(&["find"], &[&stream, &list]),
        second(&["print"], &[&stream, &list]),
        second(&["respell", "-f"], &[&list, &stream, &list]),
        second(&["glyphs"], &[&stream, &list, &PathBuf::from("-f")]),
        second(&["glyphs", "-f"], &[&missing, &stream, &list]),
        second(&["glyphs", "-f"], &[&list, &PathBuf::from("-f"), &list, &stream, &list]),
        second(&["--records", "many", "glyphs"], &[&stream, &list]),
        second(&["glyphs"], &[&stream, &missing]),
    ];
    for output in bad {
        assert_eq!((stdout(&output), output.status.code()), (String::new(), Some(2)));
        assert!(!stderr(&output).is_empty());
    }
}
