//! 01, "What a record holds", last sentence: when glyphs, drawings and controls of two streams
//! are the same.

use crate::bytes::Name;
use crate::command::{scan, Command};
use crate::read::{Entry, Reading, Record};

/// "Glyphs of two streams are the same when their records agree and the names have equal bytes,
/// wherever these stand".
pub fn same_glyphs(stream: &[u8], record: &Record, other_stream: &[u8], other: &Record) -> bool {
    let moved = Record { place: record.place, ..*other };
    *record == moved && record.name(stream) == other.name(other_stream)
}

/// "drawings and controls when letters, arguments (dummies aside), page, h and v agree".
pub fn same_entries(stream: &[u8], entry: &Entry, other_stream: &[u8], other: &Entry) -> bool {
    let moved = Entry { place: entry.place, length: entry.length, ..*other };
    *entry == moved && arguments(stream, entry) == arguments(other_stream, other)
}

/// An entry's integers and, of a name or text, its bytes (a text with its `+` signs).
fn arguments(stream: &[u8], entry: &Entry) -> Option<(Vec<i64>, Vec<u8>)> {
    let scanned = scan(stream, entry.place as usize).ok()?;
    let bytes_of = |name: Name| name.of(stream).to_vec();
    match scanned.command {
        Command::Drawing { arguments, .. } => Some((arguments, Vec::new())),
        Command::FillColour(colour) => {
            Some((colour.used().iter().map(|&component| i64::from(component)).collect(), Vec::new()))
        }
        Command::Control { numbers, name, .. } => Some((numbers, name.map(bytes_of).unwrap_or_default())),
        Command::Text { first_line } => Some((Vec::new(), stream[first_line.place..scanned.end].to_vec())),
        _ => None,
    }
}

/// Whether two readings have the same glyphs, drawings, controls, pages, end position and colours.
pub fn same_readings(stream: &[u8], reading: &Reading, other_stream: &[u8], other: &Reading) -> bool {
    let glyphs_agree = reading.records.len() == other.records.len()
        && reading.records.iter().zip(&other.records).all(|(a, b)| same_glyphs(stream, a, other_stream, b));
    let entries_agree = reading.entries.len() == other.entries.len()
        && reading.entries.iter().zip(&other.entries).all(|(a, b)| same_entries(stream, a, other_stream, b));
    let ends_agree = (reading.pages, reading.h, reading.v) == (other.pages, other.h, other.v)
        && reading.glyph_colour == other.glyph_colour
        && reading.fill_colour == other.fill_colour;
    glyphs_agree && entries_agree && ends_agree
}
