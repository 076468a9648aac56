//! What the second program answers, as the numbers of a `Code`.
//!
//! A number that may be negative by 01 ("Its magnitude is at most 99,999,999") is shown moved up by
//! 100,000,000, so that it is never below 0: `N`, the number of `u`, the two-digit number, `H` `h`
//! `V` `v`, `p` and `Df`. One with limits from 0 up is shown as it is: "font position 0..255",
//! "size 1..99,999,999", "components 0..65536", "`r` n h v (each at least 1)", "mount at 0..255".
//!
//! | case | command | values |
//! |---|---|---|
//! | 1 | `c`, `C` | the name's place and length |
//! | 2 | `N` | the number, moved up |
//! | 3 | `t`, `u` | the number added to each width (`t`: 0), moved up; where the word begins and ends |
//! | 4 | two digits | the number, moved up; the glyph's place |
//! | 5, 6 | `H` `V`; `h` `v` | 0 for h, 1 for v; the number, moved up |
//! | 7 | `p` | the number, moved up |
//! | 8, 9 | `f`; `s` | the position; the size |
//! | 10, 15 | `m`; `DF` | the scheme's letter and four components, "unused ones 0" |
//! | 11, 12 | `n`; `w` | none |
//! | 13 | `D` but `Df`, `DF` | its letter; the sums of the moved-up numbers it adds to h and to v; how many each sum has |
//! | 14 | `Df` | the number, moved up |
//! | 16, 19 | `x T`; `x F` | the name's place and length |
//! | 17 | `x r` | its second number |
//! | 18, 22, 23 | `x i`; `x X`; `x s` | none |
//! | 20 | `x f` | the position; the name's place and length |
//! | 21 | `x p` `x t` `x H` `x S` `x u` | its letter |
//! | 24 | refused | 3, 4, 5, 6 or 16 (2026-06); the place: the command's, for 6 that of the argument outside its limit (2026-12) |
//!
//! Case 0: no byte stands at the place; the list or query is too long (refusal 1).

use crate::Code;
use second::bytes::{is_whitespace, Name};
use second::command::{scan, Colour, Command};
use second::find::read_query;
use second::read::drawing_motion;
use second::refusal::{LIST_LIMIT, QUERY_LIMIT, UNKNOWN};
use second::widths::read_list;

const MOVED_UP: i64 = 100_000_000;

fn moved_up(number: i64) -> u64 {
    (number + MOVED_UP) as u64
}

/// The command at a place.
pub fn command(stream: &[u8], at: usize) -> Code {
    let Some(&byte) = stream.get(at) else {
        return Code::default();
    };
    // the second program's `scan` is for a command's first byte, and would step over a spacer: whitespace is none
    if is_whitespace(byte) {
        return refused(UNKNOWN, at);
    }
    match scan(stream, at) {
        Ok(scanned) => accepted(&scanned.command, scanned.end as u64),
        Err(refusal) => refused(refusal.number, refusal.offset),
    }
}

fn refused(number: u8, place: usize) -> Code {
    Code::new(24, &[number.into(), place as u64], 0)
}

fn place_and_length(name: Name) -> [u64; 2] {
    [name.place as u64, name.length as u64]
}

fn accepted(command: &Command, next: u64) -> Code {
    match command {
        Command::Glyph(name) => Code::new(1, &place_and_length(*name), next),
        Command::Index(number) => Code::new(2, &[moved_up(*number)], next),
        Command::Word { track, word } => {
            Code::new(3, &[moved_up(*track), word.place as u64, word.end() as u64], next)
        }
        Command::Pair { motion, glyph } => Code::new(4, &[moved_up(*motion), glyph.place as u64], next),
        Command::Motion { letter, number } => motion(*letter, *number, next),
        Command::Page(number) => Code::new(7, &[moved_up(*number)], next),
        Command::Font(position) => Code::new(8, &[*position as u64], next),
        Command::Size(size) => Code::new(9, &[*size as u64], next),
        Command::GlyphColour(colour) => Code::new(10, &shades(colour), next),
        Command::LineBreak => Code::new(11, &[], next),
        Command::WordSpace => Code::new(12, &[], next),
        Command::Drawing { letter: b'f', arguments } => Code::new(14, &[moved_up(arguments[0])], next),
        Command::Drawing { letter, arguments } => Code::new(13, &drawing(*letter, arguments), next),
        Command::FillColour(colour) => Code::new(15, &shades(colour), next),
        Command::Control { letter, numbers, name } => control(*letter, numbers, *name, next),
        Command::Text { .. } => Code::new(22, &[], next),
    }
}

/// "`H` `h` `V` `v` n: h = n, h + n, v = n, v + n".
fn motion(letter: u8, number: i64, next: u64) -> Code {
    let (tag, axis) = match letter {
        b'H' => (5, 0),
        b'V' => (5, 1),
        b'h' => (6, 0),
        _ => (6, 1),
    };
    Code::new(tag, &[axis, moved_up(number)], next)
}

fn shades(colour: &Colour) -> [u64; 5] {
    let [a, b, c, d] = colour.components.map(u64::from);
    [colour.scheme.into(), a, b, c, d]
}

/// The letter, the motion by 01's table and 2026-02, and the number of pairs that it is the sum of:
/// each number of a sum is moved up.
fn drawing(letter: u8, arguments: &[i64]) -> [u64; 4] {
    // one number, as of `Dc` and `Dt`, is a pair with 0
    let pairs = arguments.len().div_ceil(2) as i64;
    let (h, v) = drawing_motion(letter, arguments);
    let lifted = |sum: i64| (sum + pairs * MOVED_UP) as u64;
    [letter.into(), lifted(h), lifted(v), pairs as u64]
}

fn control(letter: u8, numbers: &[i64], name: Option<Name>, next: u64) -> Code {
    let [place, length] = name.map_or([0, 0], place_and_length);
    match letter {
        b'T' => Code::new(16, &[place, length], next),
        b'r' => Code::new(17, &[numbers[1] as u64], next),
        b'i' => Code::new(18, &[], next),
        b'F' => Code::new(19, &[place, length], next),
        b'f' => Code::new(20, &[numbers[0] as u64, place, length], next),
        b's' => Code::new(23, &[], next),
        _ => Code::new(21, &[letter.into()], next),
    }
}

/// The width list: 1 and the offset of refusal 2; or 2, the unitwidth and the number of fonts.
pub fn list(list: &[u8]) -> Code {
    if list.len() > LIST_LIMIT {
        return Code::default();
    }
    match read_list(list) {
        Err(refusal) => Code::new(1, &[refusal.offset as u64], 0),
        Ok(widths) => Code::new(2, &[widths.unitwidth, widths.fonts.len() as u64], 0),
    }
}

/// The query: 1 and the offset of refusal 12; or 2 and the number of glyph lines.
pub fn query(query: &[u8]) -> Code {
    if query.len() > QUERY_LIMIT {
        return Code::default();
    }
    match read_query(query) {
        Err(refusal) => Code::new(1, &[refusal.offset as u64], 0),
        Ok(glyphs) => Code::new(2, &[glyphs.len() as u64], 0),
    }
}
