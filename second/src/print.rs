//! FORMATS: the text the programs print on standard output.

use crate::command::Colour;
use crate::families::families_or_none;
use crate::find::Found;
use crate::read::{Entry, Reading, Record};
use crate::refusal::Refusal;
use std::fmt::Arguments;
use std::io::Write;

/// `glyphs STREAM WIDTHS`
pub fn glyphs_text(stream: &[u8], reading: &Reading) -> Vec<u8> {
    named_glyphs_text(stream, &[], reading)
}

/// `glyphs -f FAMILIES STREAM WIDTHS`: "NAME in a `glyph` line is the family's first name (PLACE and LENGTH
/// stay the record's)".
pub fn named_glyphs_text(stream: &[u8], families: &[u8], reading: &Reading) -> Vec<u8> {
    let names = families_or_none(families);
    let mut text = Vec::new();
    for record in &reading.records {
        let part = names.first_part(stream, record.place as usize, record.length as usize);
        write_glyph(&mut text, part.of(stream, families), record);
    }
    for entry in &reading.entries {
        write_entry(&mut text, entry);
    }
    write_end(&mut text, reading);
    text
}

/// Adds a line to a text in memory, which cannot fail.
fn write_line(text: &mut Vec<u8>, line: Arguments) {
    text.write_fmt(line).expect("a text in memory takes every line");
    text.push(b'\n');
}

/// `glyph ORDINAL PAGE H V FONT SIZE GAP INDEX PLACE LENGTH NAME`
fn write_glyph(text: &mut Vec<u8>, name: &[u8], record: &Record) {
    let Record { ordinal, page, h, v, font, size, gap, index, place, length } = record;
    let gap = u8::from(*gap);
    let fields = format_args!("glyph {ordinal} {page} {h} {v} {font} {size} {gap} {index} {place} {length} ");
    text.write_fmt(fields).expect("a text in memory takes every line");
    text.extend(name);
    text.push(b'\n');
}

/// `entry LETTERS ORDINAL PLACE LENGTH H V`
fn write_entry(text: &mut Vec<u8>, entry: &Entry) {
    let letters: String =
        entry.letters.iter().filter(|&&byte| byte != 0).map(|&byte| char::from(byte)).collect();
    let Entry { ordinal, place, length, h, v, .. } = entry;
    write_line(text, format_args!("entry {letters} {ordinal} {place} {length} {h} {v}"));
}

/// `end RECORDS ENTRIES PAGES H V GSCHEME G1 G2 G3 G4 FSCHEME F1 F2 F3 F4`
fn write_end(text: &mut Vec<u8>, reading: &Reading) {
    let (records, entries) = (reading.records.len(), reading.entries.len());
    let Reading { pages, h, v, .. } = reading;
    let glyph_colour = colour_fields(&reading.glyph_colour);
    let fill_colour = colour_fields(&reading.fill_colour);
    write_line(text, format_args!("end {records} {entries} {pages} {h} {v} {glyph_colour} {fill_colour}"));
}

fn colour_fields(colour: &Colour) -> String {
    let [c1, c2, c3, c4] = colour.components;
    format!("{} {c1} {c2} {c3} {c4}", char::from(colour.scheme))
}

/// `find [-f FAMILIES] STREAM WIDTHS QUERY`
pub fn found_text(found: &Found) -> Vec<u8> {
    let mut text = Vec::new();
    for hit in &found.hits {
        write_line(&mut text, format_args!("hit {hit}"));
    }
    write_line(&mut text, format_args!("found {} {}", found.records.len(), found.hits.len()));
    text
}

/// `refused NUMBER OFFSET`
pub fn refusal_text(refusal: Refusal) -> Vec<u8> {
    format!("refused {} {}\n", refusal.number, refusal.offset).into_bytes()
}

/// Line and column, counted from 1, of an offset.
pub fn line_and_column(bytes: &[u8], offset: usize) -> (usize, usize) {
    let before = &bytes[..offset.min(bytes.len())];
    let line = 1 + before.iter().filter(|&&byte| byte == b'\n').count();
    let line_start = before.iter().rposition(|&byte| byte == b'\n').map_or(0, |newline| newline + 1);
    (line, 1 + before.len() - line_start)
}
