//! 01, "Finding", with the names of 2026-01: the query and where it occurs.

use crate::families::{read_families, Families};
use crate::read::{read_rows, Record};
use crate::refusal::{check_room, check_sizes, Refusal, Rooms, QUERY};
use crate::widths::{is_list_name, read_list};

/// "1 to 64 glyph lines".
pub const GLYPH_LIMIT: usize = 64;

/// One glyph line, and whether a gap line precedes it.
#[derive(Clone, Debug, PartialEq, Eq)]
pub struct QueryGlyph {
    pub gap: bool,
    pub name: Vec<u8>,
}

/// What the finder answers, with the rows it fills.
#[derive(Clone, Debug, PartialEq, Eq)]
pub struct Found {
    pub records: Vec<Record>,
    pub hits: Vec<usize>,
}

/// Finds all occurrences of a query in a stream. The family list is judged "after 2 and before 12"; "an empty
/// list gives the old answers".
pub fn find(
    stream: &[u8],
    list: &[u8],
    families: &[u8],
    query: &[u8],
    rooms: Rooms,
) -> Result<Found, Refusal> {
    check_sizes(stream, list, families, query)?;
    let widths = read_list(list)?;
    let families = read_families(families)?;
    let glyphs = read_query(query)?;
    let records = read_rows(stream, &widths)?.records;
    let hits = occurrences(stream, &records, &families, &glyphs);
    check_room(records.len() <= rooms.records && hits.len() <= rooms.hits)?;
    Ok(Found { records, hits })
}

/// "Occurrences may overlap", so every record number is tried.
pub fn occurrences(
    stream: &[u8],
    records: &[Record],
    families: &Families,
    glyphs: &[QueryGlyph],
) -> Vec<usize> {
    let occurs = |run: &[Record]| occurs(stream, run, families, glyphs);
    let runs = records.windows(glyphs.len()).enumerate();
    runs.filter(|(_, run)| occurs(run)).map(|(number, _)| number).collect()
}

/// The records "share one page ordinal, have the same name bytes [by 2026-01: names that match] in order, and
/// each after the first has its gap mark set exactly where a gap line precedes".
fn occurs(stream: &[u8], run: &[Record], families: &Families, glyphs: &[QueryGlyph]) -> bool {
    run.iter().zip(glyphs).enumerate().all(|(i, (record, glyph))| {
        record.ordinal == run[0].ordinal
            && families.names_match(record.name(stream), &glyph.name)
            && (i == 0 || record.gap == glyph.gap)
    })
}

/// 12: "start of its first wrong line (a last gap line is that line), 0 if empty".
pub fn read_query(query: &[u8]) -> Result<Vec<QueryGlyph>, Refusal> {
    let mut glyphs = Vec::new();
    let mut gap = false;
    let mut offset = 0;
    let mut last_offset = 0;
    for line in query.split_inclusive(|&byte| byte == b'\n') {
        let taken = line.strip_suffix(b"\n").and_then(|line| take_line(line, &mut glyphs, &mut gap));
        taken.ok_or(Refusal { number: QUERY, offset })?;
        last_offset = offset;
        offset += line.len();
    }
    if gap || glyphs.is_empty() {
        return Err(Refusal { number: QUERY, offset: last_offset });
    }
    Ok(glyphs)
}

/// Takes one line, its newline aside; `None` where it is wrong: the first line is a glyph,
/// "never two gaps together", 64 glyph lines at most.
fn take_line(line: &[u8], glyphs: &mut Vec<QueryGlyph>, gap: &mut bool) -> Option<()> {
    if line == b"gap=any" {
        let is_first = glyphs.is_empty();
        return (!is_first && !std::mem::replace(gap, true)).then_some(());
    }
    let name = line.strip_prefix(b"glyph=")?;
    if !is_list_name(name) || glyphs.len() == GLYPH_LIMIT {
        return None;
    }
    glyphs.push(QueryGlyph { gap: std::mem::replace(gap, false), name: name.to_vec() });
    Some(())
}
