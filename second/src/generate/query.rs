//! Queries: sound ones, most of which occur in a stream, and wrong ones.

use super::barred::bar_line;
use super::damage::damage;
use super::list::GLYPH_BYTES;
use super::random::Random;
use crate::bytes::{is_barred, is_whitespace};
use crate::find::{QueryGlyph, GLYPH_LIMIT};
use crate::refusal::QUERY_LIMIT;
use crate::{read, Record, Rooms};

/// A query taken from the records of the stream where it is accepted, else a random one.
pub fn query(random: &mut Random, stream: &[u8], list: &[u8]) -> Vec<u8> {
    let records = read(stream, list, Rooms::default()).map(|reading| reading.records).unwrap_or_default();
    if records.is_empty() || random.once_in(6) {
        return random_query(random);
    }
    let start = random.below(records.len());
    let most = if random.once_in(20) { 80 } else { 4 };
    let count = 1 + random.below(most);
    let end = records.len().min(start + count);
    query_of(random, stream, &records[start..end])
}

fn query_of(random: &mut Random, stream: &[u8], run: &[Record]) -> Vec<u8> {
    let glyph = |record: &Record| {
        let name: &[u8] = if record.length == 0 { b"a" } else { record.name(stream) };
        QueryGlyph { gap: record.gap != random.once_in(30), name: name.to_vec() }
    };
    write_query(&run.iter().map(glyph).collect::<Vec<_>>())
}

fn random_query(random: &mut Random) -> Vec<u8> {
    let count = 1 + random.below(3);
    let glyph = |place| {
        let gap = place > 0 && random.once_in(3);
        QueryGlyph { gap, name: vec![*random.pick(&GLYPH_BYTES)] }
    };
    write_query(&(0..count).map(glyph).collect::<Vec<_>>())
}

/// The lines of a query.
pub fn write_query(glyphs: &[QueryGlyph]) -> Vec<u8> {
    let mut query = Vec::new();
    for (place, glyph) in glyphs.iter().enumerate() {
        if place > 0 && glyph.gap {
            query.extend(b"gap=any\n");
        }
        query.extend([b"glyph=", &glyph.name[..], b"\n"].concat());
    }
    query
}

/// A query cut from the records, which are not none: so it occurs, unless an `N` record or a page's
/// end is in the cut, or something in it is changed.
pub fn cut_query(random: &mut Random, stream: &[u8], records: &[Record]) -> Vec<u8> {
    let count = match random.below(6) {
        0 | 1 if records.len() > GLYPH_LIMIT => GLYPH_LIMIT - 1 + random.below(3),
        0 => 5 + random.below(25),
        _ => 1 + random.below(4),
    };
    let count = count.min(records.len());
    let start = start_of_cut(random, records, count);
    let run = &records[start..start + count];
    let mut glyphs: Vec<QueryGlyph> = run.iter().map(|record| query_glyph(stream, record)).collect();
    if random.once_in(4) {
        change(random, &mut glyphs);
    }
    write_query(&glyphs)
}

/// Where a cut of so many records begins: so that it ends at the last record, so that a page ends in
/// it, or anywhere.
fn start_of_cut(random: &mut Random, records: &[Record], count: usize) -> usize {
    let last = records.len() - count;
    match random.below(8) {
        0 | 1 => last,
        2 => {
            let page_starts: Vec<usize> =
                (1..records.len()).filter(|&i| records[i].ordinal != records[i - 1].ordinal).collect();
            let place = page_starts.get(random.below(page_starts.len() + 1)).copied();
            place.unwrap_or(0).saturating_sub(1 + random.below(count)).min(last)
        }
        _ => random.below(last + 1),
    }
}

/// The query's glyph for a record; for an `N` record a name that it might be taken for.
fn query_glyph(stream: &[u8], record: &Record) -> QueryGlyph {
    let name = if record.length > 0 { record.name(stream).to_vec() } else { index_name(record.index) };
    QueryGlyph { gap: record.gap, name }
}

fn index_name(index: u32) -> Vec<u8> {
    let byte = u8::try_from(index).ok().filter(|&byte| !is_whitespace(byte) && !is_barred(byte));
    byte.map_or_else(|| index.to_string().into_bytes(), |byte| vec![byte])
}

/// Changes one thing: a gap line dropped or added, a byte of a name, a name's length, a glyph.
fn change(random: &mut Random, glyphs: &mut Vec<QueryGlyph>) {
    let place = random.below(glyphs.len());
    let byte = *random.pick(&GLYPH_BYTES);
    let name = &mut glyphs[place].name;
    match random.below(6) {
        0 | 1 => glyphs[place].gap ^= true,
        2 => {
            let at = random.below(name.len());
            name[at] = byte;
        }
        3 if name.len() > 1 => drop(name.pop()),
        3 | 4 => name.push(byte),
        _ => glyphs.push(QueryGlyph { gap: random.once_in(3), name: b"a".to_vec() }),
    }
}

/// Lines that are wrong wherever they stand.
const WRONG_LINES: [&[u8]; 20] = [
    b"\n",
    b"gap=line\n",
    b"gap=\n",
    b"gap\n",
    b"gap=any \n",
    b"gap=any\r\n",
    b" gap=any\n",
    b"gap=anyglyph=a\n",
    b"glyph=\n",
    b"glyph\n",
    b"glyph a\n",
    b"glyph=a b\n",
    b"glyph=a\t\n",
    b"glyph= a\n",
    b" glyph=a\n",
    b"Glyph=a\n",
    b"#c\n",
    b"\x00\n",
    b"glyph=\xff",
    b"gap=any",
];

/// A sound query made wrong.
pub fn wrong_query(random: &mut Random, sound: &[u8]) -> Vec<u8> {
    let mut query = sound.to_vec();
    match random.below(13) {
        0 => query.clear(),
        1 => drop(query.pop()),
        2 => query = [b"gap=any\n", sound].concat(),
        3 => query.extend(b"gap=any\n"),
        4 | 5 => insert_line(random, &mut query, b"gap=any\ngap=any\n"),
        6 | 7 => {
            let line = random.part(&WRONG_LINES);
            insert_line(random, &mut query, line);
        }
        8 => {
            let line = [b"glyph=", &vec![b'n'; GLYPH_LIMIT + random.below(2)][..], b"\n"].concat();
            insert_line(random, &mut query, &line);
        }
        9 => query = many_glyphs(random),
        10 => lengthen_query(random, &mut query),
        11 => bar_line(random, &mut query, b"glyph="),
        _ => damage(random, &mut query),
    }
    query
}

/// Puts a line before one of the lines of a query or a list, or behind the last.
pub fn insert_line(random: &mut Random, bytes: &mut Vec<u8>, line: &[u8]) {
    let ends = bytes.iter().enumerate().filter(|(_, &byte)| byte == b'\n').map(|(place, _)| place + 1);
    let places: Vec<usize> = [0].into_iter().chain(ends).collect();
    let place = *random.pick(&places);
    bytes.splice(place..place, line.iter().copied());
}

/// 63 to 66 glyph lines, and at times something behind them.
fn many_glyphs(random: &mut Random) -> Vec<u8> {
    let mut query = b"glyph=a\n".repeat(GLYPH_LIMIT - 1 + random.below(4));
    query.extend(random.part(&[b"", b"", b"gap=any\n", b"gap=any\ngap=any\n", b"gap=any\nglyph=a\n", b"\n"]));
    query
}

/// As long as a query may be, or a byte more or less.
fn lengthen_query(random: &mut Random, query: &mut Vec<u8>) {
    let length = QUERY_LIMIT - 1 + random.below(3);
    let line = [b"glyph=", &[b'n'; 64][..], b"\n"].concat();
    while query.len() < length {
        query.extend(if random.once_in(2) { &line[..] } else { b"gap=any\n" });
    }
    query.truncate(length);
}
