//! Commands with an argument outside its limit, at times with several, and all else in order: what
//! 2026-12 is about.

use super::{End, Piece, Writer};
use Argument::{Dummy, Integer, Name, Pairs, Text, Word};

/// What stands at an argument place, and its limit.
#[derive(Clone, Copy, Debug, PartialEq, Eq)]
pub enum Argument {
    /// an integer from the first number to the second
    Integer(i64, i64),
    /// a dummy integer, which may be missing
    Dummy,
    /// a name, "at most 64 bytes"
    Name,
    /// a `t` or `u` word, which "has no such limit"
    Word,
    /// "2 to 64 integers, an even number"
    Pairs,
    /// "at most 4,096 bytes, added newlines counted"
    Text,
}

const LIMIT: i64 = 99_999_999;
const ANY: Argument = Integer(-LIMIT, LIMIT);
const POSITION: Argument = Integer(0, 255);
const AT_LEAST_1: Argument = Integer(1, LIMIT);
const COMPONENT: Argument = Integer(0, 65_536);

/// The letters of every command that has an argument with a limit, and its arguments.
pub const FORMS: [(&str, &[Argument]); 39] = [
    ("C", &[Name]),
    ("N", &[ANY]),
    ("t", &[Word, Dummy]),
    ("u", &[ANY, Word, Dummy]),
    ("H", &[ANY]),
    ("h", &[ANY]),
    ("V", &[ANY]),
    ("v", &[ANY]),
    ("p", &[ANY]),
    ("f", &[POSITION]),
    ("s", &[AT_LEAST_1]),
    ("mc", &[COMPONENT; 3]),
    ("mg", &[COMPONENT]),
    ("mk", &[COMPONENT; 4]),
    ("mr", &[COMPONENT; 3]),
    ("n", &[ANY; 2]),
    ("Dl", &[ANY; 2]),
    ("Da", &[ANY; 4]),
    ("Dc", &[ANY, Dummy]),
    ("DC", &[ANY, Dummy]),
    ("De", &[ANY; 2]),
    ("DE", &[ANY; 2]),
    ("Dp", &[Pairs]),
    ("DP", &[Pairs]),
    ("D~", &[Pairs]),
    ("Dt", &[ANY]),
    ("Df", &[Integer(-32_767, 32_767)]),
    ("DFc", &[COMPONENT; 3]),
    ("DFg", &[COMPONENT]),
    ("DFk", &[COMPONENT; 4]),
    ("DFr", &[COMPONENT; 3]),
    ("xT", &[Name]),
    ("xr", &[AT_LEAST_1; 3]),
    ("xF", &[Name]),
    ("xf", &[POSITION, Name]),
    ("xH", &[ANY]),
    ("xS", &[ANY]),
    ("xu", &[Integer(0, 1)]),
    ("xX", &[Text]),
];

/// The arguments of the command with these letters; none where it has none with a limit.
pub fn arguments_of(letters: &str) -> &'static [Argument] {
    FORMS.iter().find(|(known, _)| *known == letters).map_or(&[], |(_, arguments)| arguments)
}

/// Every argument place that has a limit: the command's letters and the argument's number, from 0.
/// Of `Dp`, `DP` and `D~` the first, 1 for all in the middle, the 64th, and the 65th, which is one
/// too many.
pub fn places() -> Vec<(&'static str, usize)> {
    let limited = |(letters, arguments): &(&'static str, &[Argument])| -> Vec<(&'static str, usize)> {
        let numbers: Vec<usize> = match arguments {
            [Pairs] => vec![0, 1, 63, 64],
            _ => (0..arguments.len()).filter(|&number| arguments[number] != Word).collect(),
        };
        numbers.into_iter().map(|number| (*letters, number)).collect()
    };
    FORMS.iter().flat_map(limited).collect()
}

/// Magnitudes far outside every limit; some would be 1 in a machine's number.
const FAR: [&str; 6] = [
    "999999999",
    "2147483649",
    "4294967297",
    "9223372036854775808",
    "18446744073709551617",
    "100000000000000000000000000000000000000001",
];

impl Writer<'_> {
    /// A command with a fault at any argument place.
    pub(super) fn fault(&mut self) -> Piece {
        let (letters, number) = *self.random.pick(&places());
        self.fault_at(letters, number)
    }

    /// A command with a fault at this argument place, one of `places()`, and at times at others too.
    pub(super) fn fault_at(&mut self, letters: &str, number: usize) -> Piece {
        let others = self.random.once_in(3);
        let arguments = arguments_of(letters);
        let parts = match arguments {
            [Pairs] => self.faulty_pairs(number, others),
            _ => self.faulty_parts(arguments, number, others),
        };
        self.joined(letters, &parts)
    }

    /// The command of these letters and arguments, dummies aside where there are fewer.
    pub(super) fn joined(&mut self, letters: &str, parts: &[Vec<u8>]) -> Piece {
        let arguments = arguments_of(letters);
        let mut bytes = self.letters(letters);
        for (place, part) in parts.iter().enumerate() {
            let behind_string = match place {
                0 => letters.starts_with('x') && part[0] != b'\n',
                _ => arguments.get(place - 1) == Some(&Word),
            };
            let runs_together = bytes.last().is_some_and(u8::is_ascii_digit) && part[0].is_ascii_digit();
            bytes.extend(if behind_string || runs_together { self.blank() } else { self.spacer() });
            bytes.extend(part);
        }
        Piece::new(bytes, end_of(letters, arguments[parts.len().min(arguments.len()) - 1]))
    }

    /// The letters with spacers between them; those of `x` as a word.
    fn letters(&mut self, letters: &str) -> Vec<u8> {
        let (first, rest) = letters.as_bytes().split_at(1);
        if first == b"x" {
            return self.control_piece(rest[0], &[], None).bytes;
        }
        let mut bytes = first.to_vec();
        for letter in rest {
            bytes.extend(self.spacer());
            bytes.push(*letter);
        }
        bytes
    }

    /// One part for each argument; a dummy may be missing where it has no fault. A number past the last
    /// argument is none.
    pub(super) fn faulty_parts(
        &mut self,
        arguments: &[Argument],
        number: usize,
        others: bool,
    ) -> Vec<Vec<u8>> {
        let mut parts = Vec::new();
        for (place, argument) in arguments.iter().enumerate() {
            let is_faulty = place == number || (others && self.random.once_in(2));
            if *argument == Dummy && !is_faulty && self.random.once_in(2) {
                break;
            }
            parts.push(if is_faulty { self.outside(*argument) } else { self.inside(*argument) });
        }
        parts
    }

    /// As many integers as the fault needs: up to 64, or over that.
    fn faulty_pairs(&mut self, number: usize, others: bool) -> Vec<Vec<u8>> {
        let many = *self.random.pick(&[66, 66, 66, 68, 130, 1000]);
        let count = match number {
            64 => many,
            63 if others => many,
            63 => 64,
            _ if others && self.random.once_in(2) => many,
            _ => 2 * (2 + self.random.below(31)),
        };
        let faulty = if number == 1 { 1 + self.random.below(count.min(64) - 2) } else { number };
        let is_outside = |writer: &mut Self, place: usize| match faulty {
            64 => others && writer.random.once_in(40),
            _ => place == faulty || (others && writer.random.once_in(count)),
        };
        let part = |place: usize| if is_outside(self, place) { self.outside(ANY) } else { self.inside(ANY) };
        (0..count).map(part).collect()
    }

    fn outside(&mut self, argument: Argument) -> Vec<u8> {
        match argument {
            Integer(low, high) => match self.random.below(6) {
                0 | 1 => self.integer(low - 1),
                2 | 3 => self.integer(high + 1),
                _ => {
                    let (has_minus, digits) = (self.random.once_in(2), *self.random.pick(&FAR));
                    self.signed(has_minus, digits)
                }
            },
            Name => {
                let length = *self.random.pick(&[65, 65, 65, 66, 130, 400]);
                (0..length).map(|_| self.glyph_byte()).collect()
            }
            Text => self.long_text(),
            // a word of digits is a word all the same
            Dummy | Word | Pairs => self.outside(ANY),
        }
    }

    fn inside(&mut self, argument: Argument) -> Vec<u8> {
        match argument {
            Integer(low, high) => {
                let number = *self.random.pick(&[low, high, low.max(0), 1, 1]);
                self.integer(number)
            }
            Name => self.name(),
            Word => (0..1 + self.random.below(6)).map(|_| self.glyph_byte()).collect(),
            Text => b"a b".to_vec(),
            Dummy | Pairs => self.inside(ANY),
        }
    }

    /// A text of 4,097 bytes or more in one or several lines, the first at times empty.
    fn long_text(&mut self) -> Vec<u8> {
        let length = 4097 + if self.random.once_in(2) { self.random.below(3000) } else { 0 };
        let first = *self.random.pick(&[0, 0, 0, 0, 1, 17, 4096, length]);
        let mut text = vec![b'q'; first];
        let mut left = length - first;
        while left > 0 {
            let line = if self.random.once_in(2) { left - 1 } else { self.random.below(left) };
            text.extend([&b"\n+"[..], &vec![b'z'; line]].concat());
            left -= 1 + line;
        }
        text
    }
}

/// What must stand behind a command with this last argument.
fn end_of(letters: &str, last: Argument) -> End {
    match (letters.as_bytes()[0], last) {
        (_, Text) => End::Text,
        (b'x', Name) => End::StringLine,
        (b'D' | b'x', _) => End::Line,
        (_, Name | Dummy) => End::String,
        (_, Word) => End::Word,
        _ => End::Integer,
    }
}
