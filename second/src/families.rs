//! 2026-01, "Letters under all their names": the family list, which names match, and the first name for
//! a record.

use crate::bytes::Name;
use crate::refusal::{Refusal, FAMILY_LIST, LIST_LIMIT};
use crate::widths::is_list_name;
use std::collections::HashMap;

/// "at most 256 families of at most 8 names".
pub const FAMILY_LIMIT: usize = 256;
pub const MEMBER_LIMIT: usize = 8;

/// A sound family list: for each name in it, where the first name of its family stands in the list.
/// "no name in two families or twice in one", so each name has one place here.
#[derive(Clone, Debug, Default, PartialEq, Eq)]
pub struct Families {
    firsts: HashMap<Vec<u8>, Name>,
}

impl Families {
    /// Where in the list the first name of this name's family stands.
    pub fn first(&self, name: &[u8]) -> Option<Name> {
        self.firsts.get(name).copied()
    }

    /// "Two names match if they are equal or in one family."
    pub fn names_match(&self, name: &[u8], other: &[u8]) -> bool {
        name == other || self.first(name).is_some_and(|first| self.first(other) == Some(first))
    }

    /// The first name for a record of this place and length: of a family, else its own; "an `N` record,
    /// or a place that doesn't lie in the stream, gives the empty part".
    pub fn first_part(&self, stream: &[u8], place: usize, length: usize) -> Part {
        let end = place.checked_add(length).filter(|&end| end <= stream.len());
        match end.map(|end| &stream[place..end]) {
            None | Some([]) => Part::Empty,
            Some(name) => self.first(name).map_or(Part::Stream(Name { place, length }), Part::Families),
        }
    }
}

/// Of which of the two inputs a first name is a part, and which part.
#[derive(Clone, Copy, Debug, PartialEq, Eq)]
pub enum Part {
    /// no bytes; it has no place
    Empty,
    Stream(Name),
    Families(Name),
}

impl Part {
    /// The bytes of the part.
    pub fn of<'a>(self, stream: &'a [u8], families: &'a [u8]) -> &'a [u8] {
        match self {
            Part::Empty => &[],
            Part::Stream(name) => name.of(stream),
            Part::Families(name) => name.of(families),
        }
    }

    /// The part that a slice is by its address, "and nothing is copied"; `None` where it is a part of
    /// neither input. The inputs must not overlap.
    pub fn by_address(handed: &[u8], stream: &[u8], families: &[u8]) -> Option<Part> {
        let place_in = |whole: &[u8]| {
            let place = (handed.as_ptr() as usize).checked_sub(whole.as_ptr() as usize)?;
            let is_inside = place.checked_add(handed.len())? <= whole.len();
            is_inside.then_some(Name { place, length: handed.len() })
        };
        if handed.is_empty() {
            return Some(Part::Empty);
        }
        place_in(stream).map(Part::Stream).or(place_in(families).map(Part::Families))
    }
}

/// The first name for a record, as a part of the stream or of the family list.
pub fn first_name<'a>(stream: &'a [u8], families: &'a [u8], place: usize, length: usize) -> &'a [u8] {
    first_part(stream, families, place, length).of(stream, families)
}

/// Which part that is.
pub fn first_part(stream: &[u8], families: &[u8], place: usize, length: usize) -> Part {
    families_or_none(families).first_part(stream, place, length)
}

/// "a wrong or too long family list counts here as an empty one".
pub fn families_or_none(list: &[u8]) -> Families {
    let families = if list.len() > LIST_LIMIT { None } else { read_families(list).ok() };
    families.unwrap_or_default()
}

/// A list in the making.
#[derive(Default)]
struct FamilyReader {
    families: Families,
    /// how many families were begun
    count: usize,
    /// where the first name of the last one stands, and how many names it has so far
    first: Option<Name>,
    members: usize,
}

/// 14: "offset of its first wrong line or its length where a line is missing at the end". The length
/// is judged before.
pub fn read_families(list: &[u8]) -> Result<Families, Refusal> {
    let mut reader = FamilyReader::default();
    let mut offset = 0;
    for line in list.split_inclusive(|&byte| byte == b'\n') {
        let taken = line.strip_suffix(b"\n").and_then(|line| reader.take(line, offset));
        taken.ok_or(Refusal { number: FAMILY_LIST, offset })?;
        offset += line.len();
    }
    if reader.is_same_due() {
        return Err(Refusal { number: FAMILY_LIST, offset });
    }
    Ok(reader.families)
}

impl FamilyReader {
    /// Each `name=` is "followed by one or more `same=N`".
    fn is_same_due(&self) -> bool {
        self.members == 1
    }

    /// Takes one line, its newline aside, that begins at this place; `None` where it is wrong.
    fn take(&mut self, line: &[u8], place: usize) -> Option<()> {
        let (key, name) = line.split_at_checked(b"name=".len())?;
        let place = place + key.len();
        match key {
            b"name=" => self.begin_family(Name { place, length: name.len() })?,
            b"same=" => self.add_member()?,
            _ => return None,
        }
        let is_new = !self.families.firsts.contains_key(name);
        if !is_list_name(name) || !is_new {
            return None;
        }
        // none where a `same=` stands before every `name=`
        let first = self.first?;
        self.families.firsts.insert(name.to_vec(), first);
        Some(())
    }

    fn begin_family(&mut self, first: Name) -> Option<()> {
        if self.is_same_due() || self.count == FAMILY_LIMIT {
            return None;
        }
        self.count += 1;
        self.first = Some(first);
        self.members = 1;
        Some(())
    }

    fn add_member(&mut self) -> Option<()> {
        self.members += 1;
        (self.members <= MEMBER_LIMIT).then_some(())
    }
}
