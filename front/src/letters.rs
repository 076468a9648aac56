//! Letters over 127 under all their names: what the program knows of them, and a family list of it.

use crate::alphabet::{Row, ALPHABET};

/// A letter that the program knows.
#[derive(Clone, Copy, Debug, PartialEq, Eq)]
pub struct Letter {
    row: &'static Row,
}

impl Letter {
    /// A letter by itself.
    pub fn known(letter: char) -> Option<Letter> {
        let place = ALPHABET.binary_search_by_key(&letter, |row| row.0).ok()?;
        Some(Letter { row: &ALPHABET[place] })
    }

    /// A letter by its base letter and the combining mark behind it.
    pub fn composed(base: char, mark: char) -> Option<Letter> {
        let row = ALPHABET.iter().find(|row| row.2.chars().eq([base, mark]))?;
        Some(Letter { row })
    }

    pub fn letter(self) -> char {
        self.row.0
    }

    /// Its names: first the one that groff writes, then the others; `uXXXX` is always among them, and the
    /// byte of Latin-1 where it has one.
    pub fn names(self) -> Vec<Vec<u8>> {
        let (letter, groff, parts) = *self.row;
        let code = u32::from(letter);
        let marked: Vec<String> = parts.chars().map(|part| format!("{:04X}", u32::from(part))).collect();
        let mut names = Vec::new();
        if !groff.is_empty() {
            names.push(groff.as_bytes().to_vec());
        }
        if !marked.is_empty() {
            names.push(format!("u{}", marked.join("_")).into_bytes());
        }
        names.push(format!("u{code:04X}").into_bytes());
        names.extend(u8::try_from(code).map(|byte| vec![byte]));
        names
    }
}

/// Whether a character goes on top of the letter before it.
pub fn is_mark(character: char) -> bool {
    matches!(character, '\u{300}'..='\u{36f}')
}

/// The family list of all letters that have several names.
pub fn family_list() -> Vec<u8> {
    let mut list = Vec::new();
    for row in &ALPHABET {
        let names = Letter { row }.names();
        if names.len() > 1 {
            let keys = [b"name="].into_iter().chain(std::iter::repeat(b"same="));
            let lines = keys.zip(&names).map(|(key, name)| [&key[..], name, b"\n"].concat());
            list.extend(lines.flatten());
        }
    }
    list
}

#[cfg(test)]
mod tests {
    use super::*;
    use std::collections::BTreeSet;

    fn names(letter: char) -> Vec<Vec<u8>> {
        Letter::known(letter).expect("the letter is known").names()
    }

    #[test]
    fn the_alphabet_is_in_order() {
        assert!(ALPHABET.windows(2).all(|rows| rows[0].0 < rows[1].0));
    }

    /// All letters of two blocks, the signs of the first aside.
    #[test]
    fn latin_1_and_latin_extended_a_are_whole() {
        let letters = ('\u{c0}'..='\u{17f}').filter(|letter| letter.is_alphabetic());
        assert_eq!(letters.clone().count(), 190);
        assert!(letters.chain(['ª', 'º']).all(|letter| Letter::known(letter).is_some()));
        assert!(['×', '÷', 'µ', '§', 'e', '\u{301}', 'ж'].iter().all(|&sign| Letter::known(sign).is_none()));
    }

    #[test]
    fn the_names_of_a_letter() {
        assert_eq!(names('é'), [&b"'e"[..], b"u0065_0301", b"u00E9", b"\xE9"]);
        assert_eq!(names('ß'), [&b"ss"[..], b"u00DF", b"\xDF"]);
        assert_eq!(names('ł'), [&b"/l"[..], b"u0142"]);
        assert_eq!(names('š'), [&b"vs"[..], b"u0073_030C", b"u0161"]);
        assert_eq!(names('ą'), [&b"u0061_0328"[..], b"u0105"]);
        assert_eq!(names('đ'), [b"u0111"]);
    }

    #[test]
    fn a_base_letter_and_its_mark_are_the_letter() {
        for row in ALPHABET.iter().filter(|row| !row.2.is_empty()) {
            let parts: Vec<char> = row.2.chars().collect();
            assert!(parts.len() == 2 && parts[0].is_ascii_alphabetic() && is_mark(parts[1]), "{row:?}");
            assert_eq!(Letter::composed(parts[0], parts[1]), Letter::known(row.0));
        }
        assert_eq!(Letter::composed('q', '\u{301}'), None);
        assert_eq!(Letter::composed('é', '\u{301}'), None);
    }

    #[test]
    fn no_name_stands_twice() {
        let all: Vec<Vec<u8>> = ALPHABET.iter().flat_map(|row| Letter { row }.names()).collect();
        assert_eq!(all.iter().collect::<BTreeSet<_>>().len(), all.len());
    }
}
