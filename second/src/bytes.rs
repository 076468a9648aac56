//! 01, "Bytes, spaces, numbers": whitespace, comments, integers and strings.

use crate::refusal::MALFORMED;

/// "Its magnitude is at most 99,999,999."
pub const NUMBER_LIMIT: i64 = 99_999_999;

/// "Names have at most 64 bytes".
pub const NAME_LIMIT: usize = 64;

/// A part of the stream: where a name, word or text line stands and its number of bytes.
#[derive(Clone, Copy, Debug, PartialEq, Eq)]
pub struct Name {
    pub place: usize,
    pub length: usize,
}

impl Name {
    pub fn end(self) -> usize {
        self.place + self.length
    }

    pub fn of(self, bytes: &[u8]) -> &[u8] {
        &bytes[self.place..self.end()]
    }
}

/// "Space, tab and newline are whitespace."
pub fn is_whitespace(byte: u8) -> bool {
    matches!(byte, b' ' | b'\t' | b'\n')
}

/// 2026-06: "any byte 0 to 8, 11 to 31 or 127 in a name or a glyph" is refused.
pub fn is_barred(byte: u8) -> bool {
    matches!(byte, 0..=8 | 11..=31 | 127)
}

/// The first place from `at` whose byte satisfies `stop`, or the end of input.
pub fn find_byte(bytes: &[u8], at: usize, stop: impl Fn(u8) -> bool) -> usize {
    bytes[at..].iter().position(|&byte| stop(byte)).map_or(bytes.len(), |distance| at + distance)
}

/// The newline that ends the line of `at`, or the end of input: "End of input counts as a line break."
pub fn line_end(bytes: &[u8], at: usize) -> usize {
    find_byte(bytes, at, |byte| byte == b'\n')
}

/// "`#`, where a command or a line break could stand, starts a comment up to the newline."
/// The first byte from `at` that is neither whitespace nor in a comment, or the end of input.
pub fn skip_whitespace_and_comments(bytes: &[u8], mut at: usize) -> usize {
    loop {
        at = find_byte(bytes, at, |byte| !is_whitespace(byte));
        if bytes.get(at) != Some(&b'#') {
            return at;
        }
        at = line_end(bytes, at);
    }
}

/// A place in a stream, moved forward over the parts of one command.
pub struct Cursor<'a> {
    pub bytes: &'a [u8],
    pub at: usize,
}

impl<'a> Cursor<'a> {
    pub fn new(bytes: &'a [u8], at: usize) -> Self {
        Cursor { bytes, at }
    }

    pub fn peek(&self) -> Option<u8> {
        self.bytes.get(self.at).copied()
    }

    /// "A spacer is any run, perhaps empty, of spaces and tabs."
    pub fn skip_spacer(&mut self) {
        self.at = find_byte(self.bytes, self.at, |byte| byte != b' ' && byte != b'\t');
    }

    /// "a spacer may precede each [argument], and may stand between command letters":
    /// one byte behind a spacer that is not whitespace, or `None`.
    pub fn byte(&mut self) -> Option<u8> {
        self.skip_spacer();
        let byte = self.peek().filter(|&byte| !is_whitespace(byte))?;
        self.at += 1;
        Some(byte)
    }

    /// "A string is one or more non-whitespace bytes up to whitespace or end."
    pub fn string(&mut self) -> Result<Name, u8> {
        self.skip_spacer();
        let place = self.at;
        self.at = find_byte(self.bytes, place, is_whitespace);
        match self.at - place {
            0 => Err(MALFORMED),
            length => Ok(Name { place, length }),
        }
    }

    /// "An integer argument is present where a digit or `-` stands". The cursor stays.
    pub fn integer_stands(&self) -> bool {
        let mut ahead = Cursor::new(self.bytes, self.at);
        ahead.skip_spacer();
        matches!(ahead.peek(), Some(b'-' | b'0'..=b'9'))
    }

    /// "An integer is an optional `-` and at least one digit, leading zeros allowed; it ends at
    /// the next non-digit." A magnitude over the limit comes out as just over it.
    pub fn integer(&mut self) -> Result<i64, u8> {
        self.skip_spacer();
        let negative = self.peek() == Some(b'-');
        let first_digit = self.at + usize::from(negative);
        self.at = find_byte(self.bytes, first_digit, |byte| !byte.is_ascii_digit());
        if self.at == first_digit {
            return Err(MALFORMED);
        }
        let magnitude = self.bytes[first_digit..self.at]
            .iter()
            .fold(0, |value, digit| (value * 10 + i64::from(digit - b'0')).min(NUMBER_LIMIT + 1));
        Ok(if negative { -magnitude } else { magnitude })
    }

    /// Whether a line break, "perhaps after a comment", stands behind a spacer. The cursor stays.
    pub fn line_break_stands(&self) -> bool {
        let mut ahead = Cursor::new(self.bytes, self.at);
        ahead.skip_spacer();
        matches!(ahead.peek(), None | Some(b'\n' | b'#'))
    }

    /// Whether whitespace or the end of input stands here.
    pub fn string_ends(&self) -> bool {
        self.peek().is_none_or(is_whitespace)
    }
}
