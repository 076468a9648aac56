//! Family lists: what is against one, under which name a letter is asked for, and the first names of a
//! stream's glyphs. The library reads the list; here it is only asked.

use crate::letters::Letter;
use crate::reasons::{Refusal, FAMILY_LIST, TOO_LONG};
use library::{Record, IN_FAMILIES};
use std::collections::{HashMap, TryReserveError};

/// A sound width list and query, for a question in which only the family list can be at fault.
const WIDTHS: &[u8] = b"unitwidth=1\n";
const QUERY: &[u8] = b"glyph=a\n";

/// What is against a family list: the finder judges it before the query and the stream, here an empty one.
pub fn refusal(families: &[u8]) -> Option<Refusal> {
    let judged = library::find(b"", WIDTHS, families, QUERY, &mut [], &mut []);
    let is_of_list = matches!(judged.refusal, TOO_LONG | FAMILY_LIST);
    is_of_list.then_some(Refusal { number: judged.refusal, offset: judged.offset })
}

/// The name under which a letter is asked for with a family list: the first name of the one family that
/// has a name of the letter. `Err` where the list does not tell, since a search under one of several names
/// could miss the others. With a list that will be refused any name will do.
pub fn name_of(letter: Letter, families: &[u8]) -> Result<Vec<u8>, String> {
    let names = letter.names();
    if refusal(families).is_some() {
        return Ok(names[0].clone());
    }
    let first = |name: &Vec<u8>| library::first_name(name, families, 0, name.len());
    let mut found: Vec<_> = names.iter().map(first).filter(|first| first.source == IN_FAMILIES).collect();
    found.dedup();
    match found[..] {
        [one] => Ok(one.name(&[], families).to_vec()),
        [] if names.len() == 1 => Ok(names[0].clone()),
        [] => Err(format!("{}, and the family list has none of them", told(letter))),
        _ => Err(format!("{}, and they stand in different families of the family list", told(letter))),
    }
}

/// A letter and its names.
fn told(letter: Letter) -> String {
    let names: Vec<String> = letter.names().iter().map(|name| shown(name)).collect();
    format!("{} has the names {}", letter.letter(), names.join(", "))
}

/// A name as `-e` takes it: a byte over 127 as `\xHH`, any other name in brackets.
fn shown(name: &[u8]) -> String {
    match name {
        [byte @ 128..=255] => format!("\\x{byte:02X}"),
        _ => format!("\\[{}]", String::from_utf8_lossy(name)),
    }
}

/// The first name of each different name in a stream; empty where there is no family list.
#[derive(Default)]
pub struct FirstNames<'a> {
    names: HashMap<&'a [u8], &'a [u8]>,
}

impl<'a> FirstNames<'a> {
    /// Asks once for each different name, since each question looks through the whole list.
    pub fn of(
        stream: &'a [u8],
        families: &'a [u8],
        records: &[Record],
    ) -> Result<FirstNames<'a>, TryReserveError> {
        let mut names = HashMap::new();
        if families.is_empty() {
            return Ok(FirstNames { names });
        }
        for record in records {
            let name = record.name(stream);
            if !names.contains_key(name) {
                names.try_reserve(1)?;
                let first = library::first_name(stream, families, record.place as usize, name.len());
                names.insert(name, first.name(stream, families));
            }
        }
        Ok(FirstNames { names })
    }

    /// The name to be shown for a glyph of that name.
    pub fn first(&self, name: &'a [u8]) -> &'a [u8] {
        self.names.get(name).copied().unwrap_or(name)
    }
}

#[cfg(test)]
mod tests {
    use super::*;

    fn name(letter: char, families: &str) -> Result<Vec<u8>, String> {
        name_of(Letter::known(letter).expect("the letter is known"), families.as_bytes())
    }

    #[track_caller]
    fn assert_wrong(letter: char, families: &str, part: &str) {
        let wrong = name(letter, families).expect_err("the list does not tell");
        assert!(wrong.contains(part), "{wrong}");
    }

    #[test]
    fn a_list_is_judged_by_the_finder() {
        assert_eq!(refusal(b""), None);
        assert_eq!(refusal(b"name=a\nsame=b\n"), None);
        assert_eq!(refusal(b"name=a\nsame=a\n"), Some(Refusal { number: 14, offset: 7 }));
        assert_eq!(refusal(b"name=a\n"), Some(Refusal { number: 14, offset: 7 }));
        assert_eq!(refusal(&[b'a'; 65_537]), Some(Refusal { number: 1, offset: 0 }));
    }

    #[test]
    fn a_letter_is_asked_for_by_the_first_name_of_its_family() {
        assert_eq!(name('é', "name=acute\nsame='e\nsame=u00E9\n").as_deref(), Ok(&b"acute"[..]));
        assert_eq!(name('é', "name=a\nsame=b\nname=u00E9\nsame=x\n").as_deref(), Ok(&b"u00E9"[..]));
        assert_eq!(name('đ', "name=dyet\nsame=u0111\n").as_deref(), Ok(&b"dyet"[..]));
    }

    #[test]
    fn a_letter_in_no_family_has_one_name_or_is_at_fault() {
        assert_eq!(name('đ', "name=a\nsame=b\n").as_deref(), Ok(&b"u0111"[..]));
        let names = "é has the names \\['e], \\[u0065_0301], \\[u00E9], \\xE9, and the family list has none";
        assert_wrong('é', "name=a\nsame=b\n", names);
        assert_wrong('é', "", names);
    }

    #[test]
    fn a_letter_in_two_families_is_at_fault() {
        assert_wrong('é', "name='e\nsame=a\nname=u00E9\nsame=b\n", "in different families");
        assert_wrong('é', "name='e\nsame=u00E9\nname=u0065_0301\nsame=b\n", "in different families");
    }

    /// The finder refuses the list before the query.
    #[test]
    fn with_a_wrong_list_any_name_will_do() {
        assert_eq!(name('é', "name=a\n").as_deref(), Ok(&b"'e"[..]));
        assert_eq!(name('é', "name='e\nsame=a\nname=u00E9\n").as_deref(), Ok(&b"'e"[..]));
    }

    #[test]
    fn first_names_of_a_stream() {
        let record = |place, len| Record { place, len, ..Record::default() };
        let (stream, families) = (&b"C'e cb N5"[..], &b"name=u0065_0301\nsame='e\n"[..]);
        let records = [record(1, 2), record(5, 1), record(0, 0)];
        let shown = |families| {
            let names = FirstNames::of(stream, families, &records).expect("there is memory");
            records.map(|record| names.first(record.name(stream)).to_vec())
        };
        assert_eq!(shown(families), [&b"u0065_0301"[..], b"b", b""]);
        assert_eq!(shown(b""), [&b"'e"[..], b"b", b""]);
        assert_eq!(shown(b"name=x\nsame='e"), [&b"'e"[..], b"b", b""]);
    }
}
