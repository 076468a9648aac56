//! FORMATS: the text that a program prints, from what the library gives.

use crate::{Colour, Entry, FindResult, ReadResult, Record};
use std::io::Write;

/// `glyphs STREAM WIDTHS`, for an accepted stream.
pub fn glyphs_text(stream: &[u8], answer: &ReadResult, records: &[Record], entries: &[Entry]) -> Vec<u8> {
    let mut text = Vec::new();
    for record in &records[..answer.records] {
        let Record { ordinal, page, h, v, font, size, place, len, index, gap } = *record;
        let numbers = format!("glyph {ordinal} {page} {h} {v} {font} {size} {gap} {index} {place} {len} ");
        text.extend([numbers.as_bytes(), record.name(stream), b"\n"].concat());
    }
    for entry in &entries[..answer.entries] {
        let letters = [entry.command, entry.letter, entry.scheme].map(letter).concat();
        let Entry { ordinal, place, len, h, v, .. } = *entry;
        text.extend(format!("entry {letters} {ordinal} {place} {len} {h} {v}\n").bytes());
    }
    let ReadResult { records, entries, pages, h, v, glyph, fill, .. } = *answer;
    let (glyph, fill) = (colour(glyph), colour(fill));
    writeln!(text, "end {records} {entries} {pages} {h} {v} {glyph} {fill}").expect("a text in memory");
    text
}

/// `find STREAM WIDTHS QUERY`, for an accepted stream and query.
pub fn found_text(answer: &FindResult, hits: &[u32]) -> Vec<u8> {
    let mut text: String = hits[..answer.hits].iter().map(|hit| format!("hit {hit}\n")).collect();
    text += &format!("found {} {}\n", answer.records, answer.hits);
    text.into_bytes()
}

/// The letter of a number; nothing for 0, and the number in brackets where it is no byte.
fn letter(number: u32) -> String {
    match u8::try_from(number) {
        Ok(0) => String::new(),
        Ok(byte) => char::from(byte).to_string(),
        Err(_) => format!("[{number}]"),
    }
}

fn colour(colour: Colour) -> String {
    let [a, b, c, d] = colour.parts;
    format!("{} {a} {b} {c} {d}", letter(colour.scheme))
}
