//! `glyphs` and the second program write the same bytes on the vectors and on generated cases.

use programs::{compare_generated, compare_vectors, rooms, Runner, Seen};
use second::vectors::{Program, Second};

fn compare(runner: &Runner, label: &str, stream: &[u8], list: &[u8], seen: &mut Seen) {
    let files = [("stream", stream), ("widths", list)];
    runner.compare(label, &files, Second.glyphs(stream, list, rooms()), seen);
}

#[test]
fn vectors_agree() {
    let seen = compare_vectors("glyphs", compare);
    assert!(seen.accepted >= 400 && seen.refusals() >= 400, "{seen:?}");
}

#[test]
fn generated_cases_agree() {
    let seen = compare_generated("glyphs", compare);
    assert!(seen.accepted >= 500 && seen.refusals() >= 500, "{seen:?}");
}
