//! 01, "Widths": the width list and the advance.

use crate::bytes::{is_barred, is_whitespace, NAME_LIMIT};
use crate::refusal::{Refusal, WIDTH_LIST};

/// "up to 32 blocks".
pub const FONT_LIMIT: usize = 32;
/// "`unitwidth=N` (1..100000)", "widths 0..100000".
pub const WIDTH_LIMIT: u64 = 100_000;

/// One block: the font's name and, for each byte, its width or none.
#[derive(Clone, Debug, PartialEq, Eq)]
pub struct Font {
    pub name: Vec<u8>,
    pub widths: Box<[Option<u64>; 256]>,
}

#[derive(Clone, Debug, PartialEq, Eq)]
pub struct Widths {
    pub unitwidth: u64,
    pub fonts: Vec<Font>,
}

impl Widths {
    /// The number of the block of that name. Font names "differ", so there is one at most.
    pub fn font_number(&self, name: &[u8]) -> Option<usize> {
        self.fonts.iter().position(|font| font.name == name)
    }
}

/// "m times the whole part of (2*w*s + k*m) / (2*k*m)".
pub fn advance(width: u64, size: u64, unitwidth: u64, m: u64) -> u64 {
    m * ((2 * width * size + unitwidth * m) / (2 * unitwidth * m))
}

/// What the line before asks of the next one.
enum Due {
    Unitwidth,
    FontOrNothing,
    ByteOrFontOrNothing,
    Width(u8),
}

struct ListReader {
    widths: Widths,
    due: Due,
    last_byte: Option<u8>,
}

/// 2: "start of its first wrong line (one without a newline is wrong), or its length where a
/// line is missing at the end".
pub fn read_list(list: &[u8]) -> Result<Widths, Refusal> {
    let mut reader = ListReader {
        widths: Widths { unitwidth: 0, fonts: Vec::new() },
        due: Due::Unitwidth,
        last_byte: None,
    };
    let mut offset = 0;
    for line in list.split_inclusive(|&byte| byte == b'\n') {
        let taken = line.strip_suffix(b"\n").and_then(|line| reader.take(line));
        taken.ok_or(Refusal { number: WIDTH_LIST, offset })?;
        offset += line.len();
    }
    match reader.due {
        Due::Unitwidth | Due::Width(_) => Err(Refusal { number: WIDTH_LIST, offset }),
        Due::FontOrNothing | Due::ByteOrFontOrNothing => Ok(reader.widths),
    }
}

impl ListReader {
    /// Takes one line, its newline aside; `None` where it is wrong.
    fn take(&mut self, line: &[u8]) -> Option<()> {
        match self.due {
            Due::Unitwidth => self.take_unitwidth(line),
            Due::FontOrNothing => self.take_font(line),
            Due::ByteOrFontOrNothing if line.starts_with(b"byte=") => self.take_byte(line),
            Due::ByteOrFontOrNothing => self.take_font(line),
            Due::Width(byte) => self.take_width(byte, line),
        }
    }

    fn take_unitwidth(&mut self, line: &[u8]) -> Option<()> {
        self.widths.unitwidth = number(line.strip_prefix(b"unitwidth=")?, 1, WIDTH_LIMIT)?;
        self.due = Due::FontOrNothing;
        Some(())
    }

    /// "Font names are strings of 1 to 64 bytes and differ."
    fn take_font(&mut self, line: &[u8]) -> Option<()> {
        let name = line.strip_prefix(b"font=")?;
        let is_name = is_list_name(name) && self.widths.font_number(name).is_none();
        if !is_name || self.widths.fonts.len() == FONT_LIMIT {
            return None;
        }
        let widths = Box::new([None; 256]);
        self.widths.fonts.push(Font { name: name.to_vec(), widths });
        self.last_byte = None;
        self.due = Due::ByteOrFontOrNothing;
        Some(())
    }

    /// "bytes strictly rising in 0..255 without 9, 10 and 32".
    fn take_byte(&mut self, line: &[u8]) -> Option<()> {
        let byte = number(line.strip_prefix(b"byte=")?, 0, 255)? as u8;
        if is_whitespace(byte) || self.last_byte.is_some_and(|last| byte <= last) {
            return None;
        }
        self.last_byte = Some(byte);
        self.due = Due::Width(byte);
        Some(())
    }

    fn take_width(&mut self, byte: u8, line: &[u8]) -> Option<()> {
        let width = number(line.strip_prefix(b"width=")?, 0, WIDTH_LIMIT)?;
        self.widths.fonts.last_mut()?.widths[usize::from(byte)] = Some(width);
        self.due = Due::ByteOrFontOrNothing;
        Some(())
    }
}

/// A name of a list or query: "a string of 1 to 64 bytes". 2026-06: "the old numbers 2, 12 and 14 are
/// given for such a byte in a name".
pub fn is_list_name(name: &[u8]) -> bool {
    let is_wrong = |&byte: &u8| is_whitespace(byte) || is_barred(byte);
    (1..=NAME_LIMIT).contains(&name.len()) && !name.iter().any(is_wrong)
}

/// "Numbers have no sign and no leading zeros."
fn number(digits: &[u8], low: u64, high: u64) -> Option<u64> {
    let is_plain = !digits.is_empty() && digits.iter().all(u8::is_ascii_digit);
    if !is_plain || (digits.len() > 1 && digits[0] == b'0') {
        return None;
    }
    let value = digits.iter().fold(0, |value, digit| (value * 10 + u64::from(digit - b'0')).min(high + 1));
    (low..=high).contains(&value).then_some(value)
}
