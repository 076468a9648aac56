//! Every vector file, run against the second program.

use second::vectors::{all_cases, run_all, unescape, Second, LEAST_CASES};
use std::collections::BTreeSet;

fn vector_file(name: &str) -> String {
    let path = format!("{}/../vectors/{name}", env!("CARGO_MANIFEST_DIR"));
    std::fs::read_to_string(&path).unwrap_or_else(|error| panic!("{path}: {error}"))
}

/// Runs a file, which must hold at least `least` cases.
fn run_file(name: &str, least: usize) {
    match run_all(&vector_file(name), &Second) {
        Ok(count) => {
            println!("{name}: {count} vectors");
            assert!(count >= least, "{name}: {count} vectors, fewer than {least}");
        }
        Err(failures) => panic!("{name}: {failures}"),
    }
}

#[test]
fn readings_hold() {
    run_file("readings.vec", 463);
}

#[test]
fn scope_holds() {
    run_file("scope.vec", 490);
}

#[test]
fn sources_hold() {
    run_file("sources.vec", 24);
}

#[test]
fn request_2026_01_holds() {
    run_file("2026-01.vec", 496);
}

#[test]
fn request_2026_02_holds() {
    run_file("2026-02.vec", 33);
}

#[test]
fn request_2026_06_holds() {
    run_file("2026-06.vec", 739);
}

#[test]
fn request_2026_12_holds() {
    run_file("2026-12.vec", 231);
}

/// The name of a failure leads to one case.
#[test]
fn names_differ() {
    let cases = all_cases().unwrap();
    assert!(cases.len() >= LEAST_CASES, "{} vectors", cases.len());
    let names: BTreeSet<&String> = cases.iter().map(|case| &case.name).collect();
    assert_eq!(names.len(), cases.len());
}

/// The runner itself reports wrong expectations, each with the case's name.
#[test]
fn wrong_expectations_are_reported() {
    let wrong = [
        "body h5\nexpect refused 3 0",
        "body q\nexpect ok",
        "body q\nexpect refused 3 1",
        "body q\nexpect refused 4 0",
        "body ca\nquery glyph=b\\n\nfind hit 0\\nfound 1 1\\n",
        "body ca\nspelt c b\\nx s\\n",
        "body ca\nrespell x s\\n",
        "body ca\nglyphs end\\n",
        "body ca\nhas glyph 1 1 0 0 1 10000 0 0 56 1 a",
        "body ca\nrecords 0\nreader ok",
        "body ca\nrecords 0\nrewriter refused 13 0",
        "body ca\nquery glyph=a\\n\nhits 0\nfinder ok",
        "body ca\nfamilies name=a\\nsame=b\\n\nquery glyph=b\\n\nfind found 1 0\\n",
        "families name=a\\n\njudged ok",
        "families name=a\\nsame=b\\n\njudged refused 14 0",
        "body ca\nfamilies name=x\\nsame=a\\n\nfirst 1 1 stream a",
        "body ca\nfamilies name=a\\n\nfirst 1 1 families 5 a",
        "body ca\nfirst 1 1 empty",
        "body ca\nfirst 1 0 stream ",
    ];
    for lines in wrong {
        let message = run_all(&format!("case wrong-one\n{lines}\n"), &Second).unwrap_err();
        assert!(message.contains("wrong-one"), "{message}");
    }
}

#[test]
fn one_wrong_case_among_right_ones_is_counted() {
    let text = "case a\nbody ca\nexpect ok\n\n# c\ncase b\nbody q\nexpect ok\n\ncase c\nbody q\nexpect refused 3 0\n";
    let message = run_all(text, &Second).unwrap_err();
    assert!(message.starts_with("1 of 3 cases fail\ncase b: "), "{message}");
}

#[test]
fn wrong_files_are_reported() {
    let wrong = [
        "case a\nbody ca",
        "case a\nexpect ok",
        "body ca\nexpect ok",
        "case a\nbody ca\nexpect maybe",
        "case a\nbody ca\nexpect refused 3",
        "case a\nbody \\q\nexpect ok",
        "case a\nbody \\{a*}\nexpect ok",
        "case a\nbody ca\nstream ca\nexpect ok",
        "case a\nbody ca\nwish ok",
        "case a\nbody \\#\nexpect ok",
        "case a\njudged ok",
        "case a\nbody ca\nfamilies\njudged ok",
        "case a\nquery glyph=a\\n\nfamilies\njudged ok",
        "case a\nbody ca\nfirst 1 1",
        "case a\nbody ca\nfirst 1 1 stream",
        "case a\nbody ca\nfirst 1 1 stream b",
        "case a\nbody ca\nfirst 9999 1 stream b",
        "case a\nbody ca\nfirst 1 1 families 0 a",
        "case a\nbody ca\nfirst 18446744073709551615 1 empty",
    ];
    for text in wrong {
        assert!(run_all(text, &Second).is_err(), "{text}");
    }
}

#[test]
fn escapes_are_undone() {
    let bytes = unescape("a\\n\\t\\\\\\s\\x00\\xfF\\{ab\\n*3}z").unwrap();
    assert_eq!(bytes, b"a\n\t\\ \x00\xffab\nab\nab\nz");
    assert_eq!(unescape("\\{a\\#\\n*3}").unwrap(), b"a0000\na0001\na0002\n");
    assert_eq!(unescape("\\{\\\\#*2}").unwrap(), b"\\#\\#");
}
