//! Commands with a barred byte in their name, at times with another fault, and barred bytes where no name
//! is due: what 2026-06 is about.

use super::fault::{arguments_of, Argument};
use super::{End, Piece, Writer};
use crate::generate::barred::{bar, barred_byte};

/// The letters of every command that has a name, a glyph or a word; `00` for two digits.
pub const KINDS: [&str; 8] = ["c", "C", "00", "t", "u", "xT", "xF", "xf"];

/// Barred bytes where a letter, an integer or a line break is due.
const STRAYS: [&[u8]; 18] = [
    b"\x01",
    b"\x0d",
    b"D\x00",
    b"DF\x7f",
    b"m\x1f",
    b"x \x08",
    b"x\x01p\n",
    b"h\x0b",
    b"h-\x01",
    b"5\x01",
    b"N5\x01",
    b"ta 7\x01",
    b"u\x01",
    b"Dl 1 2\x0d\n",
    b"Dp 1 2 \x01\n",
    b"x u 1\x0d\n",
    b"x f \x01\n",
    b"x F\x01\n",
];

impl Writer<'_> {
    /// A barred byte in a name, in a text or astray.
    pub(super) fn barred(&mut self) -> Piece {
        match self.random.below(12) {
            0 => Piece::new(self.random.part(&STRAYS).to_vec(), End::String),
            1 | 2 => self.barred_text(),
            _ => {
                let kind = *self.random.pick(&KINDS);
                self.barred_at(kind)
            }
        }
    }

    /// A command of this kind with a barred byte; one that moves at times from a place where it would be 10.
    pub(super) fn barred_at(&mut self, kind: &str) -> Piece {
        let piece = match kind {
            "c" => self.barred_glyph(),
            "00" => self.barred_two_digits(),
            _ => self.barred_name(kind),
        };
        let moves = ["00", "t", "u"].contains(&kind) && self.has_page;
        if !moves || self.random.once_in(2) {
            return piece;
        }
        let limit = self.random.part(&[b"H99999999 ", b"H99999990\n", b"H-99999999 "]);
        Piece::new([limit, &piece.bytes].concat(), piece.end)
    }

    fn barred_glyph(&mut self) -> Piece {
        let byte = barred_byte(self.random);
        Piece::new(self.with_spacer(b'c', &[byte]), End::Free)
    }

    fn barred_two_digits(&mut self) -> Piece {
        let mut piece = self.two_digits();
        piece.bytes.pop();
        piece.bytes.push(barred_byte(self.random));
        piece
    }

    /// At times an argument is outside its limit too, the name or another one; at times what follows makes
    /// it malformed or surplus.
    fn barred_name(&mut self, letters: &str) -> Piece {
        let arguments = arguments_of(letters);
        let is_outside = self.random.once_in(4);
        let outside = if is_outside { self.random.below(arguments.len()) } else { arguments.len() };
        let mut parts = self.faulty_parts(arguments, outside, false);
        let place = usize::from(!matches!(arguments[0], Argument::Name | Argument::Word));
        if arguments[place] == Argument::Word && !self.random.once_in(4) {
            parts[place] = self.word_bytes().unwrap_or_else(|| parts[place].clone());
        }
        match self.random.below(5) {
            0 if !is_outside => parts[place].truncate(1),
            1 | 2 if parts[place].len() <= 32 => parts[place].extend_from_within(..),
            _ => {}
        }
        bar(self.random, &mut parts[place]);
        let mut piece = self.joined(letters, &parts);
        if self.random.once_in(8) {
            piece.bytes.extend(b" 7x");
        }
        piece
    }

    /// A text of barred bytes, at times as long as it may be, or a byte more.
    fn barred_text(&mut self) -> Piece {
        let length = *self.random.pick(&[0, 1, 2, 5, 4095, 4096]);
        let line = vec![barred_byte(self.random); length];
        let before = self.random.part(&[b" ", b"\t", b"\n+", b" \x7f", b" \x00\n+"]);
        let word = self.control_piece(b'X', &[], None).bytes;
        Piece::new([&word, before, &line].concat(), End::Text)
    }
}
