//! `find -e TEXT`: a text turned into the lines of a query.
//!
//! Each ASCII byte is a glyph of that one-byte name, a letter over 127 in UTF-8 a glyph under all its
//! names, a run of blanks one gap, `\[NAME]` a glyph by its name, `\\` a backslash, and `\xHH` the glyph
//! whose name is the byte HH. In `\[...]` stand `\]`, `\\` and `\xHH`. What the query then says is judged
//! by the finder.

use crate::letters::{is_mark, Letter};

/// A part of a text.
#[derive(Debug, PartialEq, Eq)]
pub enum Piece {
    Gap,
    /// a glyph by its name
    Glyph(Vec<u8>),
    /// a letter over 127; under which name it is asked for depends on the family list
    Letter {
        place: usize,
        letter: Letter,
    },
}

/// Why a text is no shorthand, and the byte, counted from 0, at which that shows.
#[derive(Debug, PartialEq, Eq)]
pub struct Fault {
    pub place: usize,
    pub message: String,
}

const NO_UTF_8: &str = "a byte over 127 that is no UTF-8; the glyph of that name is written \\xHH";
const NO_BASE: &str = "a combining mark with no letter right before it";
const WITHIN: &str = "a byte over 127 within \\[...] is written \\xHH; a letter such as é stands by itself";
const LONE: &str = "a backslash with nothing behind it; \\\\ is a backslash";
const UNKNOWN: &str = "unknown escape; there are \\[NAME], \\\\ and \\xHH";
const UNKNOWN_WITHIN: &str = "unknown escape; within \\[...] there are \\], \\\\ and \\xHH";
const DIGITS: &str = "\\x needs two hexadecimal digits";
const BLANK: &str = "a space, tab or newline can stand in no name";
const OPEN: &str = "\\[ without its ]";

/// The parts of a text.
pub fn pieces(text: &[u8]) -> Result<Vec<Piece>, Fault> {
    let mut pieces = Vec::new();
    let mut place = 0;
    while let Some(&byte) = text.get(place) {
        let (piece, next) = match text[place..] {
            _ if is_blank(byte) => (Piece::Gap, place + blanks(&text[place..])),
            [b'\\', b'[', ..] => bracketed(text, place)?,
            [b'\\', ..] => {
                let (byte, next) = escaped(text, place, UNKNOWN)?;
                (Piece::Glyph(vec![byte]), next)
            }
            _ => plain(text, place)?,
        };
        pieces.push(piece);
        place = next;
    }
    Ok(pieces)
}

/// Whether a text has a letter over 127.
pub fn has_letter(pieces: &[Piece]) -> bool {
    pieces.iter().any(|piece| matches!(piece, Piece::Letter { .. }))
}

/// The query of a text; `name_of` says under which name a letter is asked for, or why that is not known.
pub fn query(
    pieces: &[Piece],
    name_of: impl Fn(Letter) -> Result<Vec<u8>, String>,
) -> Result<Vec<u8>, Fault> {
    let mut query = Vec::new();
    for piece in pieces {
        let name = match *piece {
            Piece::Gap => {
                query.extend(b"gap=any\n");
                continue;
            }
            Piece::Glyph(ref name) => name.clone(),
            Piece::Letter { place, letter } => name_of(letter).map_err(|message| Fault { place, message })?,
        };
        query.extend([b"glyph=", &name[..], b"\n"].concat());
    }
    Ok(query)
}

fn is_blank(byte: u8) -> bool {
    matches!(byte, b' ' | b'\t' | b'\n')
}

/// How many blanks a text begins with.
fn blanks(text: &[u8]) -> usize {
    text.iter().take_while(|&&byte| is_blank(byte)).count()
}

/// `\[NAME]`
fn bracketed(text: &[u8], start: usize) -> Result<(Piece, usize), Fault> {
    let mut name = Vec::new();
    let mut place = start + 2;
    loop {
        let (byte, next) = match text[place..] {
            [] => return fault(start, OPEN),
            [b']', ..] => return Ok((Piece::Glyph(name), place + 1)),
            [b'\\', b']', ..] => (b']', place + 2),
            [b'\\', ..] => escaped(text, place, UNKNOWN_WITHIN)?,
            [128..=255, ..] => return fault(place, WITHIN),
            [byte, ..] if is_blank(byte) => return fault(place, BLANK),
            [byte, ..] => (byte, place + 1),
        };
        name.push(byte);
        place = next;
    }
}

/// `\\` or `\xHH`
fn escaped(text: &[u8], place: usize, unknown: &'static str) -> Result<(u8, usize), Fault> {
    match text[place + 1..] {
        [] => fault(place, LONE),
        [b'\\', ..] => Ok((b'\\', place + 2)),
        [b'x', high, low, ..] => {
            let (Some(high), Some(low)) = (digit(high), digit(low)) else {
                return fault(place, DIGITS);
            };
            let byte = 16 * high + low;
            if is_blank(byte) {
                return fault(place, BLANK);
            }
            Ok((byte, place + 4))
        }
        [b'x', ..] => fault(place, DIGITS),
        _ => fault(place, unknown),
    }
}

/// A character with the combining marks behind it: an ASCII byte or a letter.
fn plain(text: &[u8], place: usize) -> Result<(Piece, usize), Fault> {
    let Some(base) = character(text, place) else { return fault(place, NO_UTF_8) };
    if is_mark(base) {
        return fault(place, NO_BASE);
    }
    let mut next = place + base.len_utf8();
    let mut marks = Vec::new();
    while let Some(mark) = character(text, next).filter(|&mark| is_mark(mark)) {
        marks.push(mark);
        next += mark.len_utf8();
    }
    let letter = match marks[..] {
        [] if base.is_ascii() => return Ok((Piece::Glyph(vec![text[place]]), next)),
        [] => Letter::known(base),
        [mark] => Letter::composed(base, mark),
        _ => None,
    };
    match letter {
        Some(letter) => Ok((Piece::Letter { place, letter }, next)),
        None => fault(place, &unknown_letter(base, &marks)),
    }
}

/// The character in UTF-8 at a place, of at most four bytes.
fn character(text: &[u8], place: usize) -> Option<char> {
    let bytes = &text[place..text.len().min(place + 4)];
    bytes.utf8_chunks().next()?.valid().chars().next()
}

fn unknown_letter(base: char, marks: &[char]) -> String {
    let code = |part: &char| format!("U+{:04X}", u32::from(*part));
    let codes: Vec<String> = [base].iter().chain(marks).map(code).collect();
    format!(
        "{} is no letter that this program knows; write the name that the stream has, such as \\[sc] or \
         \\xA7",
        codes.join(" ")
    )
}

fn digit(byte: u8) -> Option<u8> {
    match byte {
        b'0'..=b'9' => Some(byte - b'0'),
        b'A'..=b'F' => Some(byte - b'A' + 10),
        b'a'..=b'f' => Some(byte - b'a' + 10),
        _ => None,
    }
}

fn fault<T>(place: usize, message: &str) -> Result<T, Fault> {
    Err(Fault { place, message: message.to_string() })
}

#[cfg(test)]
mod tests {
    use super::*;
    use crate::alphabet::ALPHABET;

    /// The query of a text in which each letter is asked for by its first name.
    fn query_by_first(text: &[u8]) -> Result<Vec<u8>, Fault> {
        query(&pieces(text)?, |letter| Ok(letter.names().remove(0)))
    }

    fn query_of(text: &str) -> Vec<u8> {
        query_by_first(text.as_bytes()).expect("the text is a shorthand")
    }

    #[track_caller]
    fn assert_fault(text: &[u8], place: usize, message: &str) {
        assert_eq!(pieces(text), fault(place, message));
    }

    #[test]
    fn a_plain_byte_is_a_glyph_and_a_run_of_blanks_a_gap() {
        assert_eq!(query_of("ab \t\n ]"), b"glyph=a\nglyph=b\ngap=any\nglyph=]\n");
    }

    #[test]
    fn a_name_stands_in_brackets() {
        assert_eq!(query_of("f\\['e]x"), b"glyph=f\nglyph='e\nglyph=x\n");
        assert_eq!(query_of("\\[a\\]\\\\\\x5b\\xfF]"), b"glyph=a]\\[\xFF\n");
    }

    #[test]
    fn a_backslash_is_written_twice() {
        assert_eq!(query_of("\\\\n"), b"glyph=\\\nglyph=n\n");
    }

    #[test]
    fn every_byte_of_a_name_has_a_text() {
        for byte in (0..=255).filter(|&byte| !is_blank(byte)) {
            let expected = [b"glyph=", &[byte][..], b"\n"].concat();
            assert_eq!(query_of(&format!("\\x{byte:02X}")), expected, "byte {byte}");
            assert_eq!(query_of(&format!("\\[\\x{byte:02x}]")), expected, "byte {byte} in brackets");
            if byte < 128 && byte != b'\\' {
                assert_eq!(query_by_first(&[byte]), Ok(expected), "byte {byte} as it is");
            }
        }
    }

    #[test]
    fn what_the_finder_judges_is_left_to_it() {
        assert_eq!(query_of(""), b"");
        assert_eq!(query_of(" a "), b"gap=any\nglyph=a\ngap=any\n");
        assert_eq!(query_of("\\[]"), b"glyph=\n");
        assert_eq!(query_of(&"a".repeat(65)), b"glyph=a\n".repeat(65));
    }

    #[test]
    fn a_letter_over_127_is_one_glyph() {
        assert_eq!(query_of("aé ß"), b"glyph=a\nglyph='e\ngap=any\nglyph=ss\n");
        let letter = Letter::known('é').expect("the letter is known");
        let expected = [Piece::Glyph(b"a".to_vec()), Piece::Letter { place: 1, letter }];
        assert_eq!(pieces("aé".as_bytes()).as_deref(), Ok(&expected[..]));
        assert!(has_letter(&expected) && !has_letter(&expected[..1]));
    }

    /// Each letter by itself, and by its base letter and mark.
    #[test]
    fn every_letter_of_the_alphabet_is_taken() {
        for (letter, _, parts) in ALPHABET {
            let names = Letter::known(letter).expect("the letter is known").names();
            let expected = [b"glyph=q\nglyph=", &names[0][..], b"\nglyph=e\n"].concat();
            assert_eq!(query_of(&format!("q{letter}e")), expected);
            if !parts.is_empty() {
                assert_eq!(query_of(&format!("q{parts}e")), expected);
            }
        }
    }

    #[test]
    fn a_letter_without_a_name_is_a_fault_with_its_place() {
        let letters = pieces("caféé".as_bytes()).expect("the text is a shorthand");
        let wrong = query(&letters, |_| Err("unknown".to_string()));
        assert_eq!(wrong, fault(3, "unknown"));
    }

    #[test]
    fn a_letter_that_is_not_known_is_a_fault() {
        assert_fault("aé§".as_bytes(), 3, &unknown_letter('§', &[]));
        assert_fault("ж".as_bytes(), 0, &unknown_letter('ж', &[]));
        assert_fault("aq\u{301}".as_bytes(), 1, &unknown_letter('q', &['\u{301}']));
        assert_fault("ê\u{301}".as_bytes(), 0, &unknown_letter('ê', &['\u{301}']));
        assert_fault("e\u{302}\u{301}".as_bytes(), 0, &unknown_letter('e', &['\u{302}', '\u{301}']));
        let message = unknown_letter('q', &['\u{301}']);
        assert!(message.starts_with("U+0071 U+0301 is no letter"), "{message}");
    }

    #[test]
    fn a_mark_stands_right_behind_its_letter() {
        assert_fault("\u{301}".as_bytes(), 0, NO_BASE);
        assert_fault("e \u{301}".as_bytes(), 2, NO_BASE);
        assert_fault("\\[e]\u{301}".as_bytes(), 4, NO_BASE);
        assert_fault("\\x65\u{301}".as_bytes(), 4, NO_BASE);
    }

    #[test]
    fn bytes_that_are_no_utf_8_are_faults() {
        assert_fault(b"a\x80", 1, NO_UTF_8);
        assert_fault(b"caf\xE9", 3, NO_UTF_8);
        assert_fault(b"caf\xC3", 3, NO_UTF_8);
        assert_fault(b"e\xCC", 1, NO_UTF_8);
        assert_fault(b"\xC3\xA9\xA9", 2, NO_UTF_8);
        assert_fault(b"\\[a\xE9]", 3, WITHIN);
        assert_fault("\\[é]".as_bytes(), 2, WITHIN);
        assert_eq!(query_by_first(b"a\x7F"), Ok(b"glyph=a\nglyph=\x7F\n".to_vec()));
    }

    #[test]
    fn bad_escapes_are_faults_with_their_place() {
        assert_fault(b"ab\\", 2, LONE);
        assert_fault(b"a\\q", 1, UNKNOWN);
        assert_fault(b"a\\]", 1, UNKNOWN);
        assert_fault(b"\\[a\\q]", 3, UNKNOWN_WITHIN);
        assert_fault(b"\\x", 0, DIGITS);
        assert_fault(b"\\x4", 0, DIGITS);
        assert_fault(b"\\x4g", 0, DIGITS);
        assert_fault(b"a\\[bc", 1, OPEN);
        assert_fault(b"\\[b\\", 3, LONE);
    }

    #[test]
    fn no_blank_stands_in_a_name() {
        for text in [&b"\\x20"[..], b"\\x09", b"\\x0a"] {
            assert_fault(text, 0, BLANK);
        }
        for text in [&b"\\[a b]"[..], b"\\[a\tb]", b"\\[a\nb]", b"\\[a\\x20b]"] {
            assert_fault(text, 3, BLANK);
        }
    }
}
