//! 01, "House spelling".

use crate::bytes::Name;
use crate::command::{Colour, Command};
use crate::read::{drawing_motion, Record, Step, Walk};
use crate::refusal::{check_room, check_sizes, Refusal, Rooms, SPELLING_LIMIT};
use crate::widths::read_list;

/// Rewrites a stream in the house spelling.
pub fn respell(stream: &[u8], list: &[u8], rooms: Rooms) -> Result<Vec<u8>, Refusal> {
    check_sizes(stream, list, &[], &[])?;
    let widths = read_list(list)?;
    let mut walk = Walk::new(stream, &widths);
    let mut speller = Speller::new(stream, rooms.spelling.min(SPELLING_LIMIT));
    let mut records = Vec::new();
    while let Some(step) = walk.step(&mut records)? {
        speller.spell_step(&step, &records);
        records.clear();
    }
    check_room(speller.fits)?;
    Ok(speller.spelling)
}

/// The spelling so far, and the place "a reader of the spelling so far has".
struct Speller<'a> {
    stream: &'a [u8],
    spelling: Vec<u8>,
    room: usize,
    fits: bool,
    h: i64,
    v: i64,
}

impl<'a> Speller<'a> {
    fn new(stream: &'a [u8], room: usize) -> Self {
        Speller { stream, spelling: Vec::new(), room, fits: true, h: 0, v: 0 }
    }

    /// "Every command but motions is kept in order, repeats too."
    fn spell_step(&mut self, step: &Step, records: &[Record]) {
        match &step.command {
            Command::Motion { .. } => {}
            Command::Glyph(_) | Command::Word { .. } | Command::Pair { .. } => {
                records.iter().for_each(|record| self.spell_glyph(record));
            }
            Command::Index(index) => {
                self.spell_place(step.h, step.v);
                self.spell_numbers("N", &[*index]);
            }
            Command::Page(number) => {
                self.spell_numbers("p", &[*number]);
                self.v = 0;
            }
            Command::Font(position) => self.spell_numbers("f", &[*position]),
            Command::Size(size) => self.spell_numbers("s", &[*size]),
            Command::GlyphColour(colour) => self.spell_colour("m", colour),
            Command::LineBreak => self.line(b"n 0 0"),
            Command::WordSpace => self.line(b"w"),
            _ => self.spell_drawing_or_control(step),
        }
    }

    fn spell_drawing_or_control(&mut self, step: &Step) {
        match &step.command {
            Command::Drawing { letter, arguments } => {
                self.spell_place(step.h, step.v);
                self.spell_numbers(&format!("D{}", char::from(*letter)), arguments);
                let (h, v) = drawing_motion(*letter, arguments);
                (self.h, self.v) = (self.h + h, self.v + v);
            }
            Command::FillColour(colour) => {
                self.spell_place(step.h, step.v);
                self.spell_colour("DF", colour);
            }
            Command::Text { first_line } => {
                self.spell_place(step.h, step.v);
                self.spell_text(*first_line, step.end);
            }
            Command::Control { letter, numbers, name } => {
                if *letter == b's' {
                    self.spell_place(step.h, step.v);
                }
                self.spell_control(*letter, numbers, *name);
            }
            _ => unreachable!("spell_step spells every other command"),
        }
    }

    /// "`c` for a one-byte name, else `C`", at its place.
    fn spell_glyph(&mut self, record: &Record) {
        self.spell_place(i64::from(record.h), i64::from(record.v));
        let name = record.name(self.stream);
        let command: &[u8] = if name.len() == 1 { b"c " } else { b"C " };
        self.line(&[command, name].concat());
    }

    /// "`H` and then `V` are written, each only where the place differs from that a reader of
    /// the spelling so far has."
    fn spell_place(&mut self, h: i64, v: i64) {
        if h != self.h {
            self.spell_numbers("H", &[h]);
        }
        if v != self.v {
            self.spell_numbers("V", &[v]);
        }
        (self.h, self.v) = (h, v);
    }

    /// "one space before each argument, integers shortest".
    fn spell_numbers(&mut self, letters: &str, numbers: &[i64]) {
        let mut line = letters.to_string();
        for number in numbers {
            line.push_str(&format!(" {number}"));
        }
        self.line(line.as_bytes());
    }

    /// "`m`, `D`, `DF` letters together".
    fn spell_colour(&mut self, letters: &str, colour: &Colour) {
        let numbers: Vec<i64> = colour.used().iter().map(|&component| i64::from(component)).collect();
        self.spell_numbers(&format!("{letters}{}", char::from(colour.scheme)), &numbers);
    }

    /// "`x` words one letter and parted from `x` by one space".
    fn spell_control(&mut self, letter: u8, numbers: &[i64], name: Option<Name>) {
        let mut line = vec![b'x', b' ', letter];
        for number in numbers {
            line.extend(format!(" {number}").bytes());
        }
        if let Some(name) = name {
            line.push(b' ');
            line.extend(name.of(self.stream));
        }
        self.line(&line);
    }

    /// "`x X` has a space and the first line, or neither where that is empty; then `+` lines."
    fn spell_text(&mut self, first_line: Name, end: usize) {
        let mut line = b"x X".to_vec();
        if first_line.length > 0 {
            line.push(b' ');
            line.extend(first_line.of(self.stream));
        }
        line.extend(&self.stream[first_line.end()..end]);
        self.line(&line);
    }

    /// "One command a line". Nothing is kept once the room is exceeded.
    fn line(&mut self, line: &[u8]) {
        self.fits = self.fits && self.spelling.len() + line.len() < self.room;
        if self.fits {
            self.spelling.extend(line);
            self.spelling.push(b'\n');
        }
    }
}
