//! The comparison of both programs on one input.

use crate::expected::{self, Expected, ExpectedFinding, ExpectedSpelling};
use crate::measure::{lengths, Answer, Seen};
use crate::rows::{Item, Lent};
use crate::{
    proved, Entry, FindResult, FirstNameResult, JudgeResult, Naming, ReadResult, Record, RespellResult,
    Search,
};
use second::generate::random::Random;
use second::refusal::Rooms;

/// A call of a proved routine: its answer, and the rows that it was lent. The other row is that of
/// the entries, of the hits or of the spelling's bytes; a rewriter is lent no records, and has none here.
/// Judging is lent neither, nor is a first name.
pub struct Call<A, T> {
    pub answer: A,
    pub records: Lent<Record>,
    pub others: Lent<T>,
}

impl<A: Answer, T: Item> Call<A, T> {
    /// Calls a routine with rows of fresh content.
    fn new(
        [records, others]: [usize; 2],
        random: &mut Random,
        routine: impl FnOnce(&mut [Record], &mut [T]) -> A,
    ) -> Call<A, T> {
        let mut records = Lent::new(records, random);
        let mut others = Lent::new(others, random);
        let answer = routine(records.row(), others.row());
        Call { answer, records, others }
    }

    /// `Ok` where answer, rows and guards are as expected, else the first difference.
    pub fn compare(&self, expected: &Expected<A, T>) -> Result<(), String> {
        if self.answer != expected.answer {
            return Err(format!("answer\nproved   {:?}\nexpected {:?}", self.answer, expected.answer));
        }
        self.records.holds(&expected.records)?;
        self.others.holds(&expected.others)
    }
}

/// Calls the reader, with rows for so many records and entries.
pub fn call_read(
    stream: &[u8],
    list: &[u8],
    room: [usize; 2],
    random: &mut Random,
) -> Call<ReadResult, Entry> {
    Call::new(room, random, |records, entries| proved::read(stream, list, records, entries))
}

/// Calls the finder, with rows for so many records and hits.
pub fn call_find(search: Search, room: [usize; 2], random: &mut Random) -> Call<FindResult, u32> {
    Call::new(room, random, |records, hits| proved::find(search, records, hits))
}

/// Calls the rewriter, with a buffer for so many bytes.
pub fn call_respell(stream: &[u8], list: &[u8], room: usize, random: &mut Random) -> Call<RespellResult, u8> {
    Call::new([0, room], random, |_, out| proved::respell(stream, list, out))
}

/// Calls judging.
pub fn call_judge(stream: &[u8], list: &[u8]) -> Call<JudgeResult, u8> {
    Call::new([0, 0], &mut Random::new(0), |_, _| proved::judge(stream, list))
}

/// Calls for a first name.
pub fn call_first_name(naming: Naming) -> Call<FirstNameResult, u8> {
    Call::new([0, 0], &mut Random::new(0), |_, _| proved::first_name(naming))
}

/// Reads once and compares; the answer of both.
pub fn reading(
    stream: &[u8],
    list: &[u8],
    room: [usize; 2],
    random: &mut Random,
) -> Result<ReadResult, String> {
    let call = call_read(stream, list, room, random);
    let [records, entries] = room;
    let expected = expected::read(stream, list, Rooms { records, entries, ..Rooms::default() });
    let inputs = || format!("{}\n{}", shown("stream", stream), shown("list", list));
    let message = |message| format!("{message}\nroom for {records} records, {entries} entries\n{}", inputs());
    call.compare(&expected).map(|()| call.answer).map_err(message)
}

/// Searches once and compares; the answer of both.
pub fn finding(search: Search, room: [usize; 2], random: &mut Random) -> Result<FindResult, String> {
    let call = call_find(search, room, random);
    let [records, hits] = room;
    let expected = expected::find(search, Rooms { records, hits, ..Rooms::default() });
    let Search { stream, list, families, query } = search;
    let inputs = || {
        [("stream", stream), ("list", list), ("families", families), ("query", query)]
            .map(|(name, bytes)| shown(name, bytes))
            .join("\n")
    };
    let message = |message| format!("{message}\nroom for {records} records, {hits} hits\n{}", inputs());
    call.compare(&expected).map(|()| call.answer).map_err(message)
}

/// Rewrites once and compares; the answer of both.
pub fn respelling(
    stream: &[u8],
    list: &[u8],
    room: usize,
    random: &mut Random,
) -> Result<RespellResult, String> {
    let call = call_respell(stream, list, room, random);
    let expected = expected::respell(stream, list, Rooms { spelling: room, ..Rooms::default() });
    let inputs = || format!("{}\n{}", shown("stream", stream), shown("list", list));
    let message = |message| format!("{message}\nroom for {room} bytes\n{}", inputs());
    call.compare(&expected).map(|()| call.answer).map_err(message)
}

/// Judges once and compares; the answer of both.
pub fn judging(stream: &[u8], list: &[u8]) -> Result<JudgeResult, String> {
    let call = call_judge(stream, list);
    let inputs = || format!("{}\n{}", shown("stream", stream), shown("list", list));
    let message = |message| format!("{message}\n{}", inputs());
    call.compare(&expected::judge(stream, list)).map(|()| call.answer).map_err(message)
}

/// Asks for a first name once and compares; the answer of both.
pub fn naming(naming: Naming) -> Result<FirstNameResult, String> {
    let call = call_first_name(naming);
    let Naming { stream, families, place, len } = naming;
    let inputs = || format!("{}\n{}", shown("stream", stream), shown("families", families));
    let message = |message| format!("{message}\nplace {place}, length {len}\n{}", inputs());
    call.compare(&expected::first_name(naming)).map(|()| call.answer).map_err(message)
}

pub(crate) fn shown(name: &str, bytes: &[u8]) -> String {
    let start = bytes[..bytes.len().min(6_000)].escape_ascii();
    format!("{name}, {} bytes \"{start}\"", bytes.len())
}

/// Reads an input with rows of every measure that there is for it.
pub fn input(stream: &[u8], list: &[u8], random: &mut Random, seen: &mut Seen) -> Result<(), String> {
    let with_any_room = expected::read(stream, list, Rooms::default()).answer;
    seen.input(&with_any_room);
    for (measure, room) in lengths(&with_any_room, stream.len(), random) {
        seen.count(measure, &reading(stream, list, room, random)?);
    }
    Ok(())
}

/// Searches with rows of every measure that there is for it; what comes where they are large enough.
pub fn search(search: Search, random: &mut Random, seen: &mut Seen) -> Result<ExpectedFinding, String> {
    let with_any_room = expected::find(search, Rooms::default());
    seen.input(&with_any_room.answer);
    for (measure, room) in lengths(&with_any_room.answer, search.stream.len(), random) {
        seen.count(measure, &finding(search, room, random)?);
    }
    Ok(with_any_room)
}

/// Rewrites with buffers of every measure that there is for it; what comes where they are large enough.
pub fn rewriting(
    stream: &[u8],
    list: &[u8],
    random: &mut Random,
    seen: &mut Seen,
) -> Result<ExpectedSpelling, String> {
    let with_any_room = expected::respell(stream, list, Rooms::default());
    seen.input(&with_any_room.answer);
    for (measure, [_, room]) in lengths(&with_any_room.answer, stream.len(), random) {
        seen.count(measure, &respelling(stream, list, room, random)?);
    }
    Ok(with_any_room)
}
