//! `--json`: one object a line. A byte of a name or a spelling is the character of its number, 0 to
//! 255, so that nothing is lost; the name of a file is text.

use crate::answers::Answer;
use crate::reasons::{About, Explained};
use crate::text::push_number;
use library::{Colour, Entry, JudgeResult, ReadResult, Record, SPELLING_LIMIT};
use std::ffi::OsStr;
use std::io::{self, Write};

/// How many bytes of a spelling are turned into characters at a time.
const PART: usize = 4_096;

pub fn answer(out: &mut dyn Write, file: &OsStr, answer: &Answer) -> io::Result<()> {
    let mut object = Object::new(file);
    match answer {
        Answer::Glyphs { stream, names, end, records, entries } => {
            for (number, record) in records.iter().enumerate() {
                glyph(&mut object, number, record, names.first(record.name(stream)));
                object.end(out)?;
            }
            for found in *entries {
                entry(&mut object, found);
                object.end(out)?;
            }
            last(&mut object, end);
        }
        Answer::Spelling(spelling) => return write_spelling(out, &mut object, spelling),
        Answer::Found { records, hits } => {
            for &hit in *hits {
                hit_at(&mut object, hit, &records[hit as usize]);
                object.end(out)?;
            }
            object.begin("found");
            object.numbers([("records", records.len() as i64), ("hits", hits.len() as i64)]);
        }
        Answer::Judged(judged) => judged_as(&mut object, judged),
        Answer::Refused(explained) => refused(&mut object, explained),
    }
    object.end(out)
}

/// An input that cannot be read, or has no memory.
pub fn error(out: &mut dyn Write, file: &OsStr, about: About, message: &str) -> io::Result<()> {
    let mut object = Object::new(file);
    object.begin("error");
    object.text("about", about.word());
    object.text("message", message);
    object.end(out)
}

fn glyph(object: &mut Object, number: usize, record: &Record, name: &[u8]) {
    object.begin("glyph");
    object.number("record", number as i64);
    place(object, record);
    object.numbers([("font", record.font.into()), ("size", record.size.into())]);
    object.raw("gap", if record.gap == 0 { b"false" } else { b"true" });
    object.number("index", record.index.into());
    object.numbers([("place", record.place.into()), ("length", record.len.into())]);
    object.bytes("name", name);
}

/// Where a record stands.
fn place(object: &mut Object, record: &Record) {
    object.numbers([("ordinal", record.ordinal.into()), ("page", record.page.into())]);
    object.numbers([("h", record.h.into()), ("v", record.v.into())]);
}

fn entry(object: &mut Object, entry: &Entry) {
    let letters: Vec<u8> = entry.letters().collect();
    object.begin("entry");
    object.bytes("letters", &letters);
    object.number("ordinal", entry.ordinal.into());
    object.numbers([("place", entry.place.into()), ("length", entry.len.into())]);
    object.numbers([("h", entry.h.into()), ("v", entry.v.into())]);
}

fn last(object: &mut Object, end: &ReadResult) {
    object.begin("end");
    object.numbers([("records", end.records as i64), ("entries", end.entries as i64)]);
    object.numbers([("pages", end.pages.into()), ("h", end.h.into()), ("v", end.v.into())]);
    object.raw("glyph_colour", colour(end.glyph).as_bytes());
    object.raw("fill_colour", colour(end.fill).as_bytes());
}

fn colour(colour: Colour) -> String {
    let [a, b, c, d] = colour.parts;
    format!("{{\"scheme\":\"{}\",\"parts\":[{a},{b},{c},{d}]}}", colour.letter())
}

fn hit_at(object: &mut Object, hit: u32, record: &Record) {
    object.begin("hit");
    object.number("record", hit.into());
    place(object, record);
}

/// The spelling goes out in parts: as a whole it may be six times as long as its bytes.
fn write_spelling(out: &mut dyn Write, object: &mut Object, spelling: &[u8]) -> io::Result<()> {
    object.begin("spelling");
    object.number("length", spelling.len() as i64);
    object.raw("text", b"\"");
    for part in spelling.chunks(PART) {
        part.iter().for_each(|&byte| push_byte(&mut object.line, byte));
        out.write_all(&object.line)?;
        object.line.clear();
    }
    object.line.push(b'"');
    object.end(out)
}

fn judged_as(object: &mut Object, judged: &JudgeResult) {
    object.begin("check");
    object.numbers([("pages", judged.pages.into()), ("records", judged.records as i64)]);
    object.number("entries", judged.entries as i64);
    match judged.spelling {
        0..=SPELLING_LIMIT => object.number("spelling", judged.spelling as i64),
        _ => object.raw("spelling", b"null"),
    }
}

fn refused(object: &mut Object, explained: &Explained) {
    let Explained { number, offset, about, line, column, reason } = *explained;
    object.begin("refused");
    object.numbers([("number", number.into()), ("offset", offset as i64)]);
    object.numbers([("line", line as i64), ("column", column as i64)]);
    object.text("about", about.word());
    object.text("reason", reason);
}

/// An object in the making; one is used for all lines about a file.
struct Object {
    file: Vec<u8>,
    line: Vec<u8>,
}

impl Object {
    fn new(file: &OsStr) -> Object {
        let mut quoted = Vec::new();
        push_text(&mut quoted, &file.to_string_lossy());
        Object { file: quoted, line: Vec::new() }
    }

    fn begin(&mut self, kind: &str) {
        self.line.clear();
        self.line.extend([b"{\"type\":\"", kind.as_bytes(), b"\",\"file\":", &self.file].concat());
    }

    fn end(&mut self, out: &mut dyn Write) -> io::Result<()> {
        self.line.extend(b"}\n");
        out.write_all(&self.line)
    }

    fn key(&mut self, key: &str) {
        self.line.extend(b",\"");
        self.line.extend(key.as_bytes());
        self.line.extend(b"\":");
    }

    /// A value that is JSON already.
    fn raw(&mut self, key: &str, value: &[u8]) {
        self.key(key);
        self.line.extend(value);
    }

    fn number(&mut self, key: &str, number: i64) {
        self.key(key);
        push_number(&mut self.line, number);
    }

    fn numbers<const N: usize>(&mut self, fields: [(&str, i64); N]) {
        fields.into_iter().for_each(|(key, number)| self.number(key, number));
    }

    fn text(&mut self, key: &str, text: &str) {
        self.key(key);
        push_text(&mut self.line, text);
    }

    fn bytes(&mut self, key: &str, bytes: &[u8]) {
        self.key(key);
        self.line.push(b'"');
        bytes.iter().for_each(|&byte| push_byte(&mut self.line, byte));
        self.line.push(b'"');
    }
}

/// A text as a JSON string.
fn push_text(line: &mut Vec<u8>, text: &str) {
    line.push(b'"');
    for &byte in text.as_bytes() {
        match byte {
            // a byte of a longer character, which stays as it is
            128.. => line.push(byte),
            _ => push_byte(line, byte),
        }
    }
    line.push(b'"');
}

/// A byte as the character of its number.
fn push_byte(line: &mut Vec<u8>, byte: u8) {
    match byte {
        b'"' | b'\\' => line.extend([b'\\', byte]),
        b'\n' => line.extend(b"\\n"),
        b' '..=b'~' => line.push(byte),
        _ => line.extend(format!("\\u{byte:04x}").bytes()),
    }
}
