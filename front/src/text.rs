//! The text of FORMATS: what the commands print, byte for byte.

use crate::answers::Answer;
use crate::families::FirstNames;
use crate::reasons::Explained;
use library::{Colour, Entry, ReadResult, Record};
use std::ffi::OsStr;
use std::io::{self, Write};
use std::os::unix::ffi::OsStrExt;

/// The line before each answer where there are several streams.
pub fn heading(out: &mut dyn Write, name: &OsStr) -> io::Result<()> {
    out.write_all(&[b"==> ", name.as_bytes(), b" <==\n"].concat())
}

pub fn answer(out: &mut dyn Write, answer: &Answer) -> io::Result<()> {
    match answer {
        Answer::Glyphs { stream, names, end, records, entries } => {
            glyphs(out, stream, names, records)?;
            let mut line = Vec::new();
            entries.iter().try_for_each(|found| entry(out, &mut line, found))?;
            last(out, end)
        }
        Answer::Spelling(spelling) => out.write_all(spelling),
        Answer::Found { records, hits } => {
            hits.iter().try_for_each(|hit| writeln!(out, "hit {hit}"))?;
            writeln!(out, "found {} {}", records.len(), hits.len())
        }
        Answer::Refused(Explained { number, offset, .. }) => writeln!(out, "refused {number} {offset}"),
        // a judgement is a row of the table of `check`
        Answer::Judged(_) => Ok(()),
    }
}

/// `glyph ORDINAL PAGE H V FONT SIZE GAP INDEX PLACE LENGTH NAME`, the first name where there are families
fn glyphs<'a>(
    out: &mut dyn Write,
    stream: &'a [u8],
    names: &FirstNames<'a>,
    records: &[Record],
) -> io::Result<()> {
    let mut line = Vec::new();
    for record in records {
        let Record { ordinal, page, h, v, font, size, place, len, index, gap } = *record;
        line.clear();
        line.extend(b"glyph");
        field(&mut line, ordinal.into());
        [page, h, v].into_iter().for_each(|number| field(&mut line, number.into()));
        [font, size, gap, index, place, len].into_iter().for_each(|number| field(&mut line, number.into()));
        line.push(b' ');
        line.extend(names.first(record.name(stream)));
        line.push(b'\n');
        out.write_all(&line)?;
    }
    Ok(())
}

/// `entry LETTERS ORDINAL PLACE LENGTH H V`
fn entry(out: &mut dyn Write, line: &mut Vec<u8>, entry: &Entry) -> io::Result<()> {
    let Entry { ordinal, place, len, h, v, .. } = *entry;
    line.clear();
    line.extend(b"entry ");
    line.extend(entry.letters());
    [ordinal, place, len].into_iter().for_each(|number| field(line, number.into()));
    [h, v].into_iter().for_each(|number| field(line, number.into()));
    line.push(b'\n');
    out.write_all(line)
}

/// `end RECORDS ENTRIES PAGES H V GSCHEME G1 G2 G3 G4 FSCHEME F1 F2 F3 F4`
fn last(out: &mut dyn Write, end: &ReadResult) -> io::Result<()> {
    let ReadResult { records, entries, pages, h, v, glyph, fill, .. } = *end;
    let (glyph, fill) = (colour(glyph), colour(fill));
    writeln!(out, "end {records} {entries} {pages} {h} {v} {glyph} {fill}")
}

fn colour(colour: Colour) -> String {
    let [a, b, c, d] = colour.parts;
    format!("{} {a} {b} {c} {d}", colour.letter())
}

/// Adds a space and a number.
fn field(line: &mut Vec<u8>, number: i64) {
    line.push(b' ');
    push_number(line, number);
}

/// Adds a number in decimal; streams have millions of them, so it is done by hand.
pub fn push_number(line: &mut Vec<u8>, number: i64) {
    let mut digits = [0; 20];
    let mut start = digits.len();
    let mut rest = number.unsigned_abs();
    loop {
        start -= 1;
        digits[start] = b'0' + (rest % 10) as u8;
        rest /= 10;
        if rest == 0 {
            break;
        }
    }
    if number < 0 {
        line.push(b'-');
    }
    line.extend(&digits[start..]);
}

#[cfg(test)]
mod tests {
    use super::push_number;

    #[test]
    fn numbers_are_decimal() {
        for number in [0, 9, 10, -1, 99_999_999, -99_999_999, i64::MAX, i64::MIN] {
            let mut line = Vec::new();
            push_number(&mut line, number);
            assert_eq!(line, number.to_string().into_bytes());
        }
    }
}
