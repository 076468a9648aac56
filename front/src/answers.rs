//! What the library answers for a stream: rows are sized by a first judgement, so that no routine
//! lacks room, and they are kept from stream to stream.

use crate::args::Command;
use crate::families::FirstNames;
use crate::reasons::{Explained, Inputs, Refusal};
use library::{Entry, JudgeResult, ReadResult, Record, SPELLING_LIMIT};
use std::collections::TryReserveError;

/// An answer, in the rows it was written to.
pub enum Answer<'a> {
    Glyphs {
        stream: &'a [u8],
        names: FirstNames<'a>,
        end: ReadResult,
        records: &'a [Record],
        entries: &'a [Entry],
    },
    Spelling(&'a [u8]),
    Found {
        records: &'a [Record],
        hits: &'a [u32],
    },
    Judged(JudgeResult),
    Refused(Explained),
}

#[derive(Default)]
pub struct Rows {
    records: Vec<Record>,
    entries: Vec<Entry>,
    hits: Vec<u32>,
    spelling: Vec<u8>,
}

impl Rows {
    /// Runs a command's routine, unless the stream is refused already; `Err` where there is no memory for a
    /// row. Family list and query come before the stream in the order of refusals, so the finder is asked even
    /// then.
    pub fn answer<'a>(
        &'a mut self,
        command: Command,
        inputs: Inputs<'a>,
    ) -> Result<Answer<'a>, TryReserveError> {
        let judged = library::judge(inputs.stream, inputs.widths);
        match command {
            Command::Find => self.find(inputs, judged),
            _ if judged.refusal != 0 => Ok(refused(judged.refusal, judged.offset, inputs)),
            Command::Glyphs => self.glyphs(inputs, judged),
            Command::Respell => self.respell(inputs, judged),
            Command::Check => Ok(Answer::Judged(judged)),
        }
    }

    fn glyphs<'a>(
        &'a mut self,
        inputs: Inputs<'a>,
        judged: JudgeResult,
    ) -> Result<Answer<'a>, TryReserveError> {
        let records = fit(&mut self.records, judged.records)?;
        let entries = fit(&mut self.entries, judged.entries)?;
        let end = library::read(inputs.stream, inputs.widths, records, entries);
        let (records, entries) = (&records[..end.records], &entries[..end.entries]);
        let names = FirstNames::of(inputs.stream, inputs.families, records)?;
        let answer = Answer::Glyphs { stream: inputs.stream, names, end, records, entries };
        Ok(or_refused(end.refusal, end.offset, inputs, answer))
    }

    /// A spelling over the limit is refused with any buffer, so it is lent an empty one.
    fn respell<'a>(
        &'a mut self,
        inputs: Inputs<'a>,
        judged: JudgeResult,
    ) -> Result<Answer<'a>, TryReserveError> {
        let room = if judged.spelling > SPELLING_LIMIT { 0 } else { judged.spelling };
        let spelling = fit(&mut self.spelling, room)?;
        let end = library::respell(inputs.stream, inputs.widths, spelling);
        Ok(or_refused(end.refusal, end.offset, inputs, Answer::Spelling(&spelling[..end.len])))
    }

    fn find<'a>(
        &'a mut self,
        inputs: Inputs<'a>,
        judged: JudgeResult,
    ) -> Result<Answer<'a>, TryReserveError> {
        let records = fit(&mut self.records, judged.records)?;
        let hits = fit(&mut self.hits, judged.records)?;
        let Inputs { stream, widths, families, query } = inputs;
        let end = library::find(stream, widths, families, query, records, hits);
        let answer = Answer::Found { records: &records[..end.records], hits: &hits[..end.hits] };
        Ok(or_refused(end.refusal, end.offset, inputs, answer))
    }
}

/// The answer where nothing is refused, else the refusal.
fn or_refused<'a>(number: u32, offset: usize, inputs: Inputs, answer: Answer<'a>) -> Answer<'a> {
    match number {
        0 => answer,
        _ => refused(number, offset, inputs),
    }
}

fn refused<'a>(number: u32, offset: usize, inputs: Inputs) -> Answer<'a> {
    Answer::Refused(Explained::of(Refusal { number, offset }, inputs))
}

/// The first `len` places of a row, which grows where it has fewer; the content is of no account.
fn fit<T: Clone + Default>(row: &mut Vec<T>, len: usize) -> Result<&mut [T], TryReserveError> {
    if row.len() < len {
        row.try_reserve_exact(len - row.len())?;
        row.resize(len, T::default());
    }
    Ok(&mut row[..len])
}
