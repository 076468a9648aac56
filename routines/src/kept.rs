//! What a spelling keeps, by the library's own reader and rewriter: read, it gives what its stream
//! gives; respelt, it gives itself.

use crate::agree::shown;
use crate::{expected, proved, Entry, ReadResult, Record};
use second::refusal::Rooms;
use second::same::same_entries;

/// What a stream gives that is accepted.
struct Reading<'a> {
    stream: &'a [u8],
    answer: ReadResult,
    records: Vec<Record>,
    entries: Vec<Entry>,
}

/// `Ok` where the spelling keeps all of an accepted stream, else what it does not keep. Stream and
/// spelling are read into rows of exactly what the stream needs, and the spelling is respelt into a
/// buffer of its own length.
pub fn keeps_all(stream: &[u8], list: &[u8], spelling: &[u8]) -> Result<(), String> {
    let ReadResult { records, entries, .. } = expected::read(stream, list, Rooms::default()).answer;
    let room = [records, entries];
    compare(&read(stream, list, room)?, &read(spelling, list, room)?)?;
    let mut again = vec![0; spelling.len()];
    let answer = proved::respell(spelling, list, &mut again);
    let is_same = answer.refusal == 0 && answer.len == spelling.len() && again == spelling;
    is_same.then_some(()).ok_or_else(|| {
        let place = again.iter().zip(spelling).position(|(now, first)| now != first);
        let texts = [("at first", spelling), ("again", &again)].map(|(name, text)| shown(name, text));
        format!("respelt again: {answer:?}, first other byte {place:?}\n{}", texts.join("\n"))
    })
}

fn read<'a>(stream: &'a [u8], list: &[u8], room: [usize; 2]) -> Result<Reading<'a>, String> {
    let mut records = vec![Record::default(); room[0]];
    let mut entries = vec![Entry::default(); room[1]];
    let answer = proved::read(stream, list, &mut records, &mut entries);
    if answer.refusal != 0 {
        return Err(format!("read: {answer:?}\n{}", shown("stream or spelling", stream)));
    }
    records.truncate(answer.records);
    entries.truncate(answer.entries);
    Ok(Reading { stream, answer, records, entries })
}

/// The numbers of the answer, the records and the entries are the same.
fn compare(reading: &Reading, again: &Reading) -> Result<(), String> {
    if reading.answer != again.answer {
        return Err(format!("read again: {:?}\nat first {:?}", again.answer, reading.answer));
    }
    for (number, (first, record)) in reading.records.iter().zip(&again.records).enumerate() {
        let is_same = Record { place: first.place, ..*record } == *first
            && name(again.stream, record) == name(reading.stream, first);
        if !is_same {
            return Err(format!("read again, record {number}: {record:?}\nat first {first:?}"));
        }
    }
    for (number, (first, entry)) in reading.entries.iter().zip(&again.entries).enumerate() {
        if !same_entries(reading.stream, &plain(first), again.stream, &plain(entry)) {
            return Err(format!("read again, entry {number}: {entry:?}\nat first {first:?}"));
        }
    }
    Ok(())
}

fn name<'a>(stream: &'a [u8], record: &Record) -> &'a [u8] {
    &stream[record.place as usize..][..record.len as usize]
}

/// The second program's form of an entry, which looks at its arguments too.
fn plain(entry: &Entry) -> second::Entry {
    let Entry { command, letter, scheme, ordinal, place, len, h, v } = *entry;
    let letters = [command, letter, scheme].map(|number| u8::try_from(number).expect("letters are bytes"));
    second::Entry { letters, ordinal, place, length: len, h, v }
}
