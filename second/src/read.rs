//! 01, "What a record holds": the reader, with its refusals 7 to 11 and 13.

use crate::bytes::{skip_whitespace_and_comments, Name, NUMBER_LIMIT};
use crate::command::{scan, Colour, Command};
use crate::refusal::{
    at, check_room, check_sizes, require, Refusal, Rooms, NO_FONT, NO_STOP, NO_WIDTH, OUT_OF_ORDER,
    OUT_OF_REACH,
};
use crate::widths::{advance, read_list, Widths};

/// One glyph record.
#[derive(Clone, Copy, Debug, PartialEq, Eq)]
pub struct Record {
    /// page ordinal, "1 for the first `p`"
    pub ordinal: u32,
    /// page number
    pub page: i32,
    /// "h and v before any advance"
    pub h: i32,
    pub v: i32,
    /// font position
    pub font: u8,
    pub size: u32,
    /// gap mark
    pub gap: bool,
    /// "index for `N` (else 0)"
    pub index: u32,
    /// the name's place and length in the stream, "an `N` name has place 0"
    pub place: u32,
    pub length: u32,
}

impl Record {
    pub fn name<'a>(&self, stream: &'a [u8]) -> &'a [u8] {
        &stream[self.place as usize..][..self.length as usize]
    }
}

/// One entry of the second row, "one entry for each `D` or `x` command".
#[derive(Clone, Copy, Debug, PartialEq, Eq)]
pub struct Entry {
    /// "its letters (of an `x` word only the first)"; 0 where there is no third
    pub letters: [u8; 3],
    /// page ordinal, "0 before the first `p`"
    pub ordinal: u32,
    pub place: u32,
    pub length: u32,
    /// "for `D` and `x X` only, h and v before it (else 0)"
    pub h: i32,
    pub v: i32,
}

/// What the reader answers, with the rows it fills.
#[derive(Clone, Debug, PartialEq, Eq)]
pub struct Reading {
    pub records: Vec<Record>,
    pub entries: Vec<Entry>,
    pub pages: u32,
    pub h: i32,
    pub v: i32,
    pub glyph_colour: Colour,
    pub fill_colour: Colour,
}

/// Reads a stream with its width list.
pub fn read(stream: &[u8], list: &[u8], rooms: Rooms) -> Result<Reading, Refusal> {
    check_sizes(stream, list, &[], &[])?;
    let widths = read_list(list)?;
    let reading = read_rows(stream, &widths)?;
    let fits = reading.records.len() <= rooms.records && reading.entries.len() <= rooms.entries;
    check_room(fits)?;
    Ok(reading)
}

/// Reads a stream into rows that are always large enough.
pub fn read_rows(stream: &[u8], widths: &Widths) -> Result<Reading, Refusal> {
    let mut walk = Walk::new(stream, widths);
    let mut records = Vec::new();
    let mut entries = Vec::new();
    while let Some(step) = walk.step(&mut records)? {
        entries.extend(entry_of(&step));
    }
    Ok(Reading {
        records,
        entries,
        pages: walk.ordinal,
        h: walk.h as i32,
        v: walk.v as i32,
        glyph_colour: walk.glyph_colour,
        fill_colour: walk.fill_colour,
    })
}

fn entry_of(step: &Step) -> Option<Entry> {
    let (letters, has_position) = match &step.command {
        Command::Drawing { letter, .. } => ([b'D', *letter, 0], true),
        Command::FillColour(colour) => ([b'D', b'F', colour.scheme], true),
        Command::Text { .. } => ([b'x', b'X', 0], true),
        Command::Control { letter, .. } => ([b'x', *letter, 0], false),
        _ => return None,
    };
    Some(Entry {
        letters,
        ordinal: step.ordinal,
        place: step.place as u32,
        length: (step.end - step.place) as u32,
        h: if has_position { step.h as i32 } else { 0 },
        v: if has_position { step.v as i32 } else { 0 },
    })
}

/// One accepted command: where it stands, and the page ordinal and position before it.
pub struct Step {
    pub command: Command,
    pub place: usize,
    pub end: usize,
    pub ordinal: u32,
    pub h: i64,
    pub v: i64,
}

/// A font mounted at a position: the number of its block in the list, if it has one.
type Mounted = Option<usize>;

/// A walk over the commands of a stream, and what they have set so far.
pub struct Walk<'a> {
    stream: &'a [u8],
    widths: &'a Widths,
    place: usize,
    /// how many of `x T`, `x r`, `x i` were read
    prologue: usize,
    stopped: bool,
    /// second number of `x r`
    quantum: u64,
    pub ordinal: u32,
    page: i64,
    pub h: i64,
    pub v: i64,
    mounts: [Option<Mounted>; 256],
    font: Option<u8>,
    size: Option<i64>,
    pub glyph_colour: Colour,
    pub fill_colour: Colour,
    /// the gap mark of the next record
    gap: bool,
}

/// "Prologue: `x T`, `x r`, `x i`, in that order".
const PROLOGUE: [u8; 3] = [b'T', b'r', b'i'];

impl<'a> Walk<'a> {
    /// "h and v start at 0"; "Both [colours] start as the default scheme."
    pub fn new(stream: &'a [u8], widths: &'a Widths) -> Self {
        Walk {
            stream,
            widths,
            place: 0,
            prologue: 0,
            stopped: false,
            quantum: 1,
            ordinal: 0,
            page: 0,
            h: 0,
            v: 0,
            mounts: [None; 256],
            font: None,
            size: None,
            glyph_colour: Colour::DEFAULT,
            fill_colour: Colour::DEFAULT,
            gap: false,
        }
    }

    /// Reads the next command and adds its records; `None` behind the last one of an accepted
    /// stream. "`x s` ends the stream; behind it only whitespace and comments."
    pub fn step(&mut self, records: &mut Vec<Record>) -> Result<Option<Step>, Refusal> {
        let place = skip_whitespace_and_comments(self.stream, self.place);
        match (place == self.stream.len(), self.stopped) {
            (true, true) => return Ok(None),
            (true, false) => return Err(Refusal { number: NO_STOP, offset: place }),
            (false, true) => return Err(Refusal { number: OUT_OF_ORDER, offset: place }),
            (false, false) => {}
        }
        let scanned = scan(self.stream, place)?;
        let (ordinal, h, v) = (self.ordinal, self.h, self.v);
        self.check_order(&scanned.command).map_err(at(place))?;
        self.check_font(&scanned.command).map_err(at(place))?;
        self.perform(&scanned.command, records).map_err(at(place))?;
        self.place = scanned.end;
        Ok(Some(Step { command: scanned.command, place, end: scanned.end, ordinal, h, v }))
    }

    /// 7: "prologue out of order, or a prologue command later; motion, glyph, `N` or any `D`
    /// before the first `p`".
    fn check_order(&self, command: &Command) -> Result<(), u8> {
        let due = PROLOGUE.get(self.prologue);
        let in_order = match (command, due) {
            (Command::Control { letter, .. }, Some(due)) => letter == due,
            (_, Some(_)) => false,
            (Command::Control { letter, .. }, None) => !PROLOGUE.contains(letter),
            (_, None) => self.ordinal > 0 || !needs_page(command),
        };
        require(in_order, OUT_OF_ORDER)
    }

    /// 8: "`f` to an unmounted position; glyph or `N` without current font and size".
    fn check_font(&self, command: &Command) -> Result<(), u8> {
        let has_font = match command {
            Command::Font(position) => self.mounts[*position as usize].is_some(),
            _ if sets_glyph(command) => self.font.is_some() && self.size.is_some(),
            _ => true,
        };
        require(has_font, NO_FONT)
    }

    fn perform(&mut self, command: &Command, records: &mut Vec<Record>) -> Result<(), u8> {
        match command {
            Command::Glyph(name) => records.push(self.record(0, *name)),
            Command::Index(index) => self.perform_index(*index, records),
            Command::Word { track, word } => self.perform_word(*track, *word, records)?,
            Command::Pair { motion, glyph } => {
                self.move_to(self.h + motion, self.v)?;
                records.push(self.record(0, *glyph));
            }
            Command::Motion { letter, number } => self.perform_motion(*letter, *number)?,
            Command::Page(number) => self.perform_page(*number),
            Command::Font(position) => self.font = Some(*position as u8),
            Command::Size(size) => self.size = Some(*size),
            Command::GlyphColour(colour) => self.glyph_colour = *colour,
            Command::LineBreak | Command::WordSpace => self.gap = true,
            Command::Drawing { letter, arguments } => self.perform_drawing(*letter, arguments)?,
            Command::FillColour(colour) => self.fill_colour = *colour,
            Command::Control { letter, numbers, name } => self.perform_control(*letter, numbers, *name),
            Command::Text { .. } => {}
        }
        Ok(())
    }

    /// The record of a glyph set here and now; it takes the gap mark.
    fn record(&mut self, index: u32, name: Name) -> Record {
        let gap = std::mem::replace(&mut self.gap, false);
        Record {
            ordinal: self.ordinal,
            page: self.page as i32,
            h: self.h as i32,
            v: self.v as i32,
            font: self.font.unwrap_or(0),
            size: self.size.unwrap_or(0) as u32,
            gap,
            index,
            place: name.place as u32,
            length: name.length as u32,
        }
    }

    /// "n >= 0: glyph by index, its record has an empty name; n < 0: no record, a gap".
    fn perform_index(&mut self, index: i64, records: &mut Vec<Record>) {
        if index < 0 {
            self.gap = true;
        } else {
            records.push(self.record(index as u32, Name { place: 0, length: 0 }));
        }
    }

    /// "each byte a glyph; h grows by its width [`u`: + n] after each". 9 is judged over the
    /// whole word before 10: "at one command the smallest number".
    fn perform_word(&mut self, track: i64, word: Name, records: &mut Vec<Record>) -> Result<(), u8> {
        let has_widths = word.of(self.stream).iter().all(|&byte| self.width(byte).is_some());
        require(has_widths, NO_WIDTH)?;
        for place in word.place..word.end() {
            records.push(self.record(0, Name { place, length: 1 }));
            let advance = self.advance(self.stream[place]).ok_or(NO_WIDTH)?;
            self.move_to(self.h + advance + track, self.v)?;
        }
        Ok(())
    }

    /// "The table used is that of the name now mounted at the current position."
    fn width(&self, byte: u8) -> Option<u64> {
        let block = self.mounts[usize::from(self.font?)]??;
        self.widths.fonts[block].widths[usize::from(byte)]
    }

    fn advance(&self, byte: u8) -> Option<i64> {
        let size = self.size? as u64;
        Some(advance(self.width(byte)?, size, self.widths.unitwidth, self.quantum) as i64)
    }

    /// 10: "h or v beyond 99,999,999 either way after a command, or after any glyph of a word".
    fn move_to(&mut self, h: i64, v: i64) -> Result<(), u8> {
        require(h.abs() <= NUMBER_LIMIT && v.abs() <= NUMBER_LIMIT, OUT_OF_REACH)?;
        (self.h, self.v) = (h, v);
        Ok(())
    }

    /// "h = n, h + n, v = n, v + n".
    fn perform_motion(&mut self, letter: u8, number: i64) -> Result<(), u8> {
        match letter {
            b'H' => self.move_to(number, self.v),
            b'h' => self.move_to(self.h + number, self.v),
            b'V' => self.move_to(self.h, number),
            _ => self.move_to(self.h, self.v + number),
        }
    }

    /// "new page numbered n; v = 0; h, font, size and colours stay"; the gap mark "is set on the
    /// first record of a page".
    fn perform_page(&mut self, number: i64) {
        self.ordinal += 1;
        self.page = number;
        self.v = 0;
        self.gap = true;
    }

    fn perform_drawing(&mut self, letter: u8, arguments: &[i64]) -> Result<(), u8> {
        if letter == b'f' {
            self.fill_colour = fill_of(arguments[0], self.glyph_colour);
        }
        let (h, v) = drawing_motion(letter, arguments);
        self.move_to(self.h + h, self.v + v)
    }

    fn perform_control(&mut self, letter: u8, numbers: &[i64], name: Option<Name>) {
        match letter {
            b'T' | b'i' => self.prologue += 1,
            b'r' => {
                self.prologue += 1;
                self.quantum = numbers[1] as u64;
            }
            b's' => self.stopped = true,
            b'f' => {
                let block = name.and_then(|name| self.widths.font_number(name.of(self.stream)));
                self.mounts[numbers[0] as usize] = Some(block);
            }
            _ => {}
        }
    }
}

/// Whether a command is a "motion, glyph, `N` or any `D`".
fn needs_page(command: &Command) -> bool {
    let draws = matches!(command, Command::Drawing { .. } | Command::FillColour(_));
    draws || sets_glyph(command) || matches!(command, Command::Motion { .. })
}

/// Whether a command is a "glyph or `N`".
fn sets_glyph(command: &Command) -> bool {
    matches!(command, Command::Glyph(_) | Command::Index(_) | Command::Word { .. } | Command::Pair { .. })
}

/// "`Df` n sets it to gray, the whole part of (1000-n)*65536/1000, for n 0..1000, else to the
/// glyph colour."
fn fill_of(n: i64, glyph_colour: Colour) -> Colour {
    if (0..=1000).contains(&n) {
        Colour::gray(((1000 - n) * 65_536 / 1000) as u32)
    } else {
        glyph_colour
    }
}

/// The table of 01, "Drawing": the motion of a `D` command. `Dt` by 2026-02: "its argument is added to
/// the horizontal position and the vertical one stays".
pub fn drawing_motion(letter: u8, arguments: &[i64]) -> (i64, i64) {
    match letter {
        b'c' | b'C' | b'e' | b'E' | b't' => (arguments[0], 0),
        b'f' => (0, 0),
        // `Dl`, `Da`, `Dp`, `DP`, `D~`: "+ sum of the odd-placed, + sum of the even-placed"
        _ => (arguments.iter().step_by(2).sum(), arguments.iter().skip(1).step_by(2).sum()),
    }
}
