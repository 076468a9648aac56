//! `respell` and the second program write the same bytes on the vectors and on generated cases, and
//! `respell` writes a spelling again as it is.

use programs::{compare_generated, compare_vectors, rooms, Runner, Seen};
use second::refusal::{NO_ROOM, TOO_LONG, WIDTH_LIST};
use second::vectors::{Program, Second};

/// The case, and the spelling of an accepted one.
fn compare(runner: &Runner, label: &str, stream: &[u8], list: &[u8], seen: &mut Seen) {
    let spelling = Second.respell(stream, list, rooms());
    runner.compare(label, &[("stream", stream), ("widths", list)], spelling.clone(), seen);
    if let Ok(spelling) = spelling {
        let files = [("stream", &spelling[..]), ("widths", list)];
        runner.compare(&format!("{label}, spelled"), &files, Ok(spelling.clone()), &mut Seen::default());
    }
}

#[test]
fn vectors_agree() {
    let seen = compare_vectors("respell", compare);
    assert!(seen.accepted >= 400 && seen.refusals() >= 400, "{seen:?}");
}

#[test]
fn generated_cases_agree() {
    let seen = compare_generated("respell", compare);
    assert!(seen.accepted >= 500 && seen.refusals() >= 500, "{seen:?}");
    assert!([TOO_LONG, WIDTH_LIST].iter().all(|number| seen.refusals_of(*number) > 0), "{seen:?}");
}

/// Words at the far end of a line, of ever more glyphs each: spellings around the room.
#[test]
fn large_spellings_agree() {
    let (runner, mut seen) = (Runner::new("respell", "large"), Seen::default());
    let list = b"unitwidth=1000\nfont=TR\nbyte=97\nwidth=44\n";
    for glyphs in 1..=16 {
        let word = format!("H99990000t{}\n", "a".repeat(glyphs));
        let stream = format!(
            "x T ps\nx res 72000 1 1\nx init\np1\nx font 1 TR\nf1\ns10000\n{}x stop\n",
            word.repeat(36_000)
        );
        compare(&runner, &format!("words of {glyphs}"), stream.as_bytes(), list, &mut seen);
    }
    println!("large spellings: {seen:?}");
    assert!(seen.accepted >= 7 && seen.refusals_of(NO_ROOM) >= 7, "{seen:?}");
}
