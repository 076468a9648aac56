//! The comparison of both programs on one input, and the counts of what was seen.

use crate::{expected, proved, Code};
use second::refusal::STREAM_LIMIT;

/// How often each case of a command was seen, and how often each refusal number.
#[derive(Clone, Debug, Default, PartialEq, Eq)]
pub struct Seen {
    pub tags: [u64; 25],
    pub refusals: [u64; 17],
}

impl Seen {
    pub fn count(&mut self, code: Code) {
        self.tags[code.tag as usize] += 1;
        if code.tag == 24 {
            self.refusals[code.a as usize] += 1;
        }
    }

    pub fn all(&self) -> u64 {
        self.tags.iter().sum()
    }
}

/// `Ok` where the answers are equal, else both with the input.
pub fn same(what: &str, input: &[u8], proved: Code, expected: Code) -> Result<(), String> {
    if proved == expected {
        return Ok(());
    }
    let shown = input[..input.len().min(6_000)].escape_ascii();
    Err(format!("{what}\nproved   {proved:?}\nexpected {expected:?}\n{} bytes \"{shown}\"", input.len()))
}

/// The answer of both programs for the command at a place.
pub fn command(stream: &[u8], at: usize) -> Code {
    let answer = proved::command(stream, at);
    let agreed = same("command", stream, answer, expected::command(stream, at));
    agreed.unwrap_or_else(|message| panic!("at {at}: {message}"));
    answer
}

/// Every byte place of a stream, and places at and behind its end. A stream over 01's limit is
/// refused as 1 before any command is looked at: of it only the first and last places, as one of
/// nothing but `x` would take hours.
pub fn places(stream: &[u8], seen: &mut Seen) {
    let length = stream.len();
    let ends = if length > STREAM_LIMIT { [0..64, length - 64..length] } else { [0..length, 0..0] };
    let behind = [length, length + 1, usize::MAX];
    for at in ends.into_iter().flatten().chain(behind) {
        seen.count(command(stream, at));
    }
}

/// The answer of both programs for a width list.
pub fn list(list: &[u8]) -> Code {
    let answer = proved::list(list);
    same("list", list, answer, expected::list(list)).unwrap_or_else(|message| panic!("{message}"));
    answer
}

/// The answer of both programs for a query.
pub fn query(query: &[u8]) -> Code {
    let answer = proved::query(query);
    same("query", query, answer, expected::query(query)).unwrap_or_else(|message| panic!("{message}"));
    answer
}
