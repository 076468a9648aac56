//! What the second program answers, and what it puts into the rows, in the library's structs.

use crate::{
    Colour, Entry, FindResult, FirstNameResult, JudgeResult, Naming, ReadResult, Record, RespellResult,
    Search,
};
use library::{IN_FAMILIES, IN_STREAM, NO_NAME};
use second::bytes::Name;
use second::refusal::{Refusal, Rooms, NO_ROOM, SPELLING_LIMIT};
use second::{Found, Part, Reading};

/// An answer and what the rows must hold from their start; behind it they are as before. The other
/// row holds entries (the reader's), hits (the finder's) or the bytes of the spelling (the
/// rewriter's, which has no records). Judging has neither row, nor has a first name.
#[derive(Clone, Debug, PartialEq, Eq)]
pub struct Expected<A, T> {
    pub answer: A,
    pub records: Vec<Record>,
    pub others: Vec<T>,
}

pub type ExpectedReading = Expected<ReadResult, Entry>;
pub type ExpectedFinding = Expected<FindResult, u32>;
pub type ExpectedSpelling = Expected<RespellResult, u8>;
pub type ExpectedJudging = Expected<JudgeResult, u8>;
pub type ExpectedNaming = Expected<FirstNameResult, u8>;

/// The reader, for rows of the lengths that `rooms` says.
pub fn read(stream: &[u8], list: &[u8], rooms: Rooms) -> ExpectedReading {
    match second::read(stream, list, rooms) {
        Ok(reading) => accepted(&reading),
        Err(refusal) => refused(refusal),
    }
}

fn accepted(reading: &Reading) -> ExpectedReading {
    let answer = ReadResult {
        offset: 0,
        records: reading.records.len(),
        entries: reading.entries.len(),
        refusal: 0,
        pages: reading.pages,
        h: reading.h,
        v: reading.v,
        glyph: colour(reading.glyph_colour),
        fill: colour(reading.fill_colour),
    };
    let records = reading.records.iter().map(record).collect();
    Expected { answer, records, others: reading.entries.iter().map(entry).collect() }
}

/// All but number and offset is as before the first command.
fn refused(refusal: Refusal) -> ExpectedReading {
    let start = colour(second::Colour::DEFAULT);
    let answer = ReadResult {
        offset: refusal.offset,
        refusal: refusal.number.into(),
        glyph: start,
        fill: start,
        ..ReadResult::default()
    };
    Expected { answer, records: Vec::new(), others: Vec::new() }
}

/// The finder, for rows of the lengths that `rooms` says.
pub fn find(search: Search, rooms: Rooms) -> ExpectedFinding {
    match second::find(search.stream, search.list, search.families, search.query, rooms) {
        Ok(found) => found_all(&found),
        Err(Refusal { number, offset }) => {
            let answer = FindResult { offset, refusal: number.into(), ..FindResult::default() };
            Expected { answer, records: Vec::new(), others: Vec::new() }
        }
    }
}

fn found_all(found: &Found) -> ExpectedFinding {
    let (records, hits) = (found.records.len(), found.hits.len());
    let answer = FindResult { offset: 0, records, hits, refusal: 0 };
    let number = |&hit: &usize| u32::try_from(hit).expect("a stream has fewer records");
    let records = found.records.iter().map(record).collect();
    Expected { answer, records, others: found.hits.iter().map(number).collect() }
}

/// The rewriter, for a buffer of the length that `rooms` says.
pub fn respell(stream: &[u8], list: &[u8], rooms: Rooms) -> ExpectedSpelling {
    let (answer, others) = match second::respell(stream, list, rooms) {
        Ok(spelling) => (RespellResult { offset: 0, len: spelling.len(), refusal: 0 }, spelling),
        Err(Refusal { number, offset }) => {
            (RespellResult { offset, len: 0, refusal: number.into() }, Vec::new())
        }
    };
    Expected { answer, records: Vec::new(), others }
}

/// Judging: what the second program counts where the room is without limit.
pub fn judge(stream: &[u8], list: &[u8]) -> ExpectedJudging {
    let answer = match second::read(stream, list, Rooms::default()) {
        Ok(reading) => JudgeResult {
            offset: 0,
            records: reading.records.len(),
            entries: reading.entries.len(),
            spelling: spelling_length(stream, list),
            refusal: 0,
            pages: reading.pages,
        },
        Err(Refusal { number, offset }) => {
            JudgeResult { offset, refusal: number.into(), ..JudgeResult::default() }
        }
    };
    Expected { answer, records: Vec::new(), others: Vec::new() }
}

/// Of a stream that is accepted; one more than the limit where the spelling is over it.
fn spelling_length(stream: &[u8], list: &[u8]) -> usize {
    match second::respell(stream, list, Rooms::default()) {
        Ok(spelling) => spelling.len(),
        Err(Refusal { number: NO_ROOM, .. }) => SPELLING_LIMIT + 1,
        Err(refusal) => panic!("an accepted stream is not spelt: {refusal:?}"),
    }
}

/// The first name for a record: nothing is lent and nothing refused.
pub fn first_name(naming: Naming) -> ExpectedNaming {
    let Naming { stream, families, place, len } = naming;
    let (Name { place, length }, source) = match second::first_part(stream, families, place, len) {
        Part::Empty => (Name { place: 0, length: 0 }, NO_NAME),
        Part::Stream(name) => (name, IN_STREAM),
        Part::Families(name) => (name, IN_FAMILIES),
    };
    let answer = FirstNameResult { place, len: length, source };
    Expected { answer, records: Vec::new(), others: Vec::new() }
}

fn colour(colour: second::Colour) -> Colour {
    Colour { scheme: colour.scheme.into(), parts: colour.components }
}

/// The second program's record; its gap mark is 1 where it is set.
pub fn record(record: &second::Record) -> Record {
    let second::Record { ordinal, page, h, v, font, size, gap, index, place, length } = *record;
    Record { ordinal, page, h, v, font: font.into(), size, place, len: length, index, gap: gap.into() }
}

/// The second program's entry; a letter that is missing is 0 in both.
pub fn entry(entry: &second::Entry) -> Entry {
    let second::Entry { letters, ordinal, place, length, h, v } = *entry;
    let [command, letter, scheme] = letters.map(u32::from);
    Entry { command, letter, scheme, ordinal, place, len: length, h, v }
}
