//! The proved code, through the library `target/lib/libmrkvandel.a`.

use crate::text::{found_text, glyphs_text};
use crate::{Entry, FindResult, FirstNameResult, Naming, Record, Search};
use library::{IN_FAMILIES, IN_STREAM, NO_NAME};
use second::bytes::Name;
use second::refusal::{Refusal, Rooms, SPELLING_LIMIT};
use second::vectors::Program;
use second::Part;

pub use library::{judge, read, respell};

/// Finds a query in a stream with its lists; the records and the hits go into the rows.
pub fn find(search: Search, records: &mut [Record], hits: &mut [u32]) -> FindResult {
    library::find(search.stream, search.list, search.families, search.query, records, hits)
}

/// Where the first name for a record stands.
pub fn first_name(naming: Naming) -> FirstNameResult {
    library::first_name(naming.stream, naming.families, naming.place, naming.len)
}

/// The library as a program that answers texts, for the vectors.
pub struct Proved;

/// Rows of at most so many stand for unlimited room in a vector: a stream of n bytes needs at most n
/// records, n / 2 entries and n hits, and no vector needs a million.
const MOST: usize = 1_000_000;

impl Program for Proved {
    fn glyphs(&self, stream: &[u8], list: &[u8], rooms: Rooms) -> Result<Vec<u8>, Refusal> {
        let mut records = vec![Record::default(); rooms.records.min(stream.len()).min(MOST)];
        let mut entries = vec![Entry::default(); rooms.entries.min(stream.len() / 2).min(MOST)];
        let answer = read(stream, list, &mut records, &mut entries);
        match answer.refusal {
            0 => Ok(glyphs_text(stream, &answer, &records, &entries)),
            number => Err(refusal(number, answer.offset)),
        }
    }

    fn respell(&self, stream: &[u8], list: &[u8], rooms: Rooms) -> Result<Vec<u8>, Refusal> {
        // no longer spelling is ever written
        let mut out = vec![0; rooms.spelling.min(SPELLING_LIMIT)];
        let answer = respell(stream, list, &mut out);
        match answer.refusal {
            0 => Ok(out[..answer.len].to_vec()),
            number => Err(refusal(number, answer.offset)),
        }
    }

    fn find(
        &self,
        stream: &[u8],
        list: &[u8],
        families: &[u8],
        query: &[u8],
        rooms: Rooms,
    ) -> Result<Vec<u8>, Refusal> {
        let mut records = vec![Record::default(); rooms.records.min(stream.len()).min(MOST)];
        let mut hits = vec![0; rooms.hits.min(stream.len()).min(MOST)];
        let answer = find(Search { stream, list, families, query }, &mut records, &mut hits);
        match answer.refusal {
            0 => Ok(found_text(&answer, &hits)),
            number => Err(refusal(number, answer.offset)),
        }
    }

    /// The part by the answer's numbers; `None` where they name none.
    fn first_name(&self, stream: &[u8], families: &[u8], place: usize, length: usize) -> Option<Part> {
        let FirstNameResult { place, len, source } =
            first_name(Naming { stream, families, place, len: length });
        let name = Name { place, length: len };
        match source {
            NO_NAME => (place == 0 && len == 0).then_some(Part::Empty),
            IN_STREAM => Some(Part::Stream(name)),
            IN_FAMILIES => Some(Part::Families(name)),
            _ => None,
        }
    }
}

fn refusal(number: u32, offset: usize) -> Refusal {
    Refusal { number: u8::try_from(number).expect("refusal numbers are small"), offset }
}
