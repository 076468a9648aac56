//! Checks: what a definition must give on a case, as an antt declaration.

use second::generate::first::FirstCall;
use second::print::refusal_text;
use second::vectors::{self, Case, Program, Routine, Second};
use second::{first_part, read, Part, Rooms};
use std::collections::HashSet;

/// The room that stands for unlimited; no case within the bounds needs more.
const UNLIMITED: usize = 1_000_000_000;

/// The text of what a row held before, one place of it: behind what is written it is still there.
const OLD_RECORD: &[u8] = b"glyph 9 9 9 9 9 9 9 9 9 9 \n";
const OLD_ENTRY: &[u8] = b"entry \t\t\t 9 9 9 9 9\n";
const OLD_BYTES: &[u8] = b"\t\t";
const OLD_HIT: &[u8] = b"hit 9\n";

/// One check. The declaration's name is a plain word, used by no other check of a run.
#[derive(Clone, Debug)]
pub struct Check {
    pub name: String,
    /// the case it is about, for people
    pub case: String,
    /// an antt expression for a list of bytes
    pub computed: String,
    pub expected: Vec<u8>,
}

/// The bound in records of a stream; far more exceed the prover's steps, however few its bytes.
const RECORD_LIMIT: usize = 3_000;

/// Whether stream, lists and query have at most `limit` bytes each, and the stream has few records.
pub fn is_within(case: &Case, limit: usize) -> bool {
    let query = case.query.as_deref().unwrap_or_default();
    [&case.stream, &case.list, &case.families, query].iter().all(|input| input.len() <= limit)
        && record_count(case) <= RECORD_LIMIT
}

/// How many records the reader gives; none in a refusal.
fn record_count(case: &Case) -> usize {
    read(&case.stream, &case.list, Rooms::default()).map_or(0, |reading| reading.records.len())
}

/// The checks of every case: reader and rewriter and, with a query, the finder; and each first name. What
/// an earlier case asks too is not asked again: many family lists are judged with one stream.
pub fn checks(cases: &[Case]) -> Vec<Check> {
    let mut checks = Vec::new();
    for (number, case) in cases.iter().enumerate() {
        checks.push(check(number, case, Routine::Reader));
        checks.push(check(number, case, Routine::Rewriter));
        checks.extend(family_checks(number, case));
    }
    let mut asked = HashSet::new();
    checks.retain(|check| asked.insert(check.computed.clone()));
    checks
}

/// The checks of a case that its family list bears on: the finder's, with a query, and each first name.
pub fn family_checks(number: usize, case: &Case) -> Vec<Check> {
    let finder = case.query.as_ref().map(|_| check(number, case, Routine::Finder));
    finder.into_iter().chain(first_checks(number, case)).collect()
}

/// The checks of the first names that a case asks for, as it has them.
fn first_checks(number: usize, case: &Case) -> Vec<Check> {
    let mut checks = Vec::new();
    for check in &case.checks {
        if let vectors::Check::First { place, length, part } = *check {
            let name = format!("first{number}x{}", checks.len());
            checks.push(first_check(name, &case.name, &case.stream, &case.families, (place, length), part));
        }
    }
    checks
}

/// The check of a generated call for a first name, with the second program's answer.
pub fn call_check(seed: u64, call: &FirstCall) -> Check {
    let FirstCall { stream, families, place, length } = call;
    let part = first_part(stream, families, *place, *length);
    first_check(format!("call{seed}"), &format!("seed {seed}"), stream, families, (*place, *length), part)
}

/// Where the definition has a first name, and its bytes.
fn first_check(
    name: String,
    case: &str,
    stream: &[u8],
    families: &[u8],
    (place, length): (usize, usize),
    part: Part,
) -> Check {
    let (s, f) = (bytes(stream), bytes(families));
    Check {
        name,
        case: case.to_string(),
        computed: format!("part_text {s} {f} (first_name {s} {f} {place} {length})"),
        expected: part_text(part, part.of(stream, families)),
    }
}

/// `nowhere`, `stream PLACE LENGTH NAME` or `families PLACE LENGTH NAME`, with a newline.
fn part_text(part: Part, name: &[u8]) -> Vec<u8> {
    let head = match part {
        Part::Empty => "nowhere".to_string(),
        Part::Stream(name) => format!("stream {} {} ", name.place, name.length),
        Part::Families(name) => format!("families {} {} ", name.place, name.length),
    };
    [head.as_bytes(), name, b"\n"].concat()
}

/// The check of one routine: the definition's text is the second program's.
fn check(number: usize, case: &Case, routine: Routine) -> Check {
    let query = case.query.as_deref().unwrap_or_default();
    let (stream, list, families, rooms) = (&case.stream, &case.list, &case.families, case.rooms);
    let [records, entries, hits, spelling] =
        [rooms.records, rooms.entries, rooms.hits, rooms.spelling].map(|room| room.min(UNLIMITED));
    let (s, l, f, q) = (bytes(stream), bytes(list), bytes(families), bytes(query));
    let (word, computed, answer, behind) = match routine {
        Routine::Reader => (
            "reader",
            format!("read_text {s} (read_into {records} {entries} {s} {l})"),
            Second.glyphs(stream, list, rooms),
            [OLD_RECORD, OLD_ENTRY].concat(),
        ),
        Routine::Rewriter => (
            "rewriter",
            format!("spell_text (respell_into {spelling} {s} {l})"),
            Second.respell(stream, list, rooms),
            OLD_BYTES.to_vec(),
        ),
        Routine::Finder => (
            "finder",
            format!("find_text (find_into {records} {hits} {s} {l} {f} {q})"),
            Second.find(stream, list, families, query, rooms),
            [OLD_RECORD, OLD_HIT].concat(),
        ),
    };
    let mut expected = answer.unwrap_or_else(refusal_text);
    expected.extend(behind);
    Check { name: format!("{word}{number}"), case: case.name.clone(), computed, expected }
}

/// The declaration of a check; the case's name stands before it as a comment.
pub fn declaration(check: &Check) -> String {
    let Check { name, case, computed, expected } = check;
    let expected = bytes(expected);
    format!("-- {case}\n{name} : T (same ({computed}) {expected})\nunfolding rules texts\n{name} = tt\n\n")
}

/// Bytes as an antt expression.
fn bytes(bytes: &[u8]) -> String {
    format!("(bytes {})", literal(bytes))
}

/// Bytes as an antt string, one character for each byte.
pub fn literal(bytes: &[u8]) -> String {
    let mut text = String::from("\"");
    for &byte in bytes {
        match byte {
            b'"' => text.push_str("\\\""),
            b'\\' => text.push_str("\\\\"),
            b'\n' => text.push_str("\\n"),
            b'\t' => text.push_str("\\t"),
            b' '..=b'~' => text.push(char::from(byte)),
            _ => text.push_str(&format!("\\u{{{byte:x}}}")),
        }
    }
    text.push('"');
    text
}
