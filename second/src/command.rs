//! 01, "Commands of one letter", "Drawing" and "Controls": the form of one command, and the
//! refusals that its form alone decides (3, 4, 5, 6 and 16, in that order).

use crate::bytes::{is_barred, line_end, Cursor, Name, NAME_LIMIT, NUMBER_LIMIT};
use crate::refusal::{at, require, Refusal, BARRED_BYTE, MALFORMED, OUTSIDE_LIMIT, SURPLUS, UNKNOWN};
use std::ops::RangeInclusive;

/// "The text has at most 4,096 bytes, added newlines counted."
pub const TEXT_LIMIT: usize = 4096;
/// "2 to 64 integers, an even number".
pub const POLYGON_LIMIT: usize = 64;

/// The numbers that an integer argument may have.
type Limit = RangeInclusive<i64>;

/// "Its magnitude is at most 99,999,999."
const GENERAL: Limit = -NUMBER_LIMIT..=NUMBER_LIMIT;
/// "font position 0..255"; "mount at 0..255".
const POSITION: Limit = 0..=255;
/// "size 1..99,999,999"; `x r`: "each at least 1".
const AT_LEAST_1: Limit = 1..=NUMBER_LIMIT;
/// "components 0..65536".
const COMPONENT: Limit = 0..=65_536;
/// "`Df` n, -32767..32767".
const FILL: Limit = -32_767..=32_767;
/// "`u` n (0 or 1)".
const SWITCH: Limit = 0..=1;

/// "a scheme with four components, unused ones 0".
#[derive(Clone, Copy, Debug, PartialEq, Eq)]
pub struct Colour {
    pub scheme: u8,
    pub components: [u32; 4],
}

impl Colour {
    /// "Both start as the default scheme."
    pub const DEFAULT: Colour = Colour { scheme: b'd', components: [0; 4] };

    pub fn gray(component: u32) -> Colour {
        Colour { scheme: b'g', components: [component, 0, 0, 0] }
    }

    pub fn used(&self) -> &[u32] {
        &self.components[..component_count(self.scheme).unwrap_or(0)]
    }
}

/// One command with its arguments, dummies left out.
#[derive(Clone, Debug, PartialEq, Eq)]
pub enum Command {
    /// `c`, `C`
    Glyph(Name),
    /// `N`
    Index(i64),
    /// `t` (track 0), `u`
    Word { track: i64, word: Name },
    /// two digits and a glyph byte
    Pair { motion: i64, glyph: Name },
    /// `H`, `h`, `V`, `v`
    Motion { letter: u8, number: i64 },
    /// `p`
    Page(i64),
    /// `f`
    Font(i64),
    /// `s`
    Size(i64),
    /// `m`
    GlyphColour(Colour),
    /// `n`
    LineBreak,
    /// `w`
    WordSpace,
    /// `D` but `DF`
    Drawing { letter: u8, arguments: Vec<i64> },
    /// `DF`
    FillColour(Colour),
    /// `x` but `x X`
    Control { letter: u8, numbers: Vec<i64>, name: Option<Name> },
    /// `x X`: the first line; the `+` lines stand between its end and the command's end
    Text { first_line: Name },
}

impl Command {
    /// What 2026-06 bars bytes in: "a name or a glyph, also in a `t` or `u` word"; "`x X` text is exempt".
    pub fn name(&self) -> Option<Name> {
        match self {
            Command::Glyph(name) | Command::Word { word: name, .. } | Command::Pair { glyph: name, .. } => {
                Some(*name)
            }
            Command::Control { name, .. } => *name,
            _ => None,
        }
    }
}

/// A command and the place behind its last argument byte (`t`, `u`, `Dc`, `DC`: a dummy included).
#[derive(Clone, Debug, PartialEq, Eq)]
pub struct Scanned {
    pub command: Command,
    pub end: usize,
}

/// Scans the command whose first byte stands at `place`. 3, 4 and 5 have that offset. 6, by 2026-12,
/// has "the first byte of the argument outside its limit"; it is judged when the whole form is, as
/// "at one command the smallest number" is given. 16, by 2026-06, has the command's offset again and
/// "is tested after 6 and before 7".
pub fn scan(stream: &[u8], place: usize) -> Result<Scanned, Refusal> {
    let mut scanner = Scanner { cursor: Cursor::new(stream, place), outside: None };
    let command = scanner.command().map_err(at(place))?;
    if let Some(offset) = scanner.outside {
        return Err(Refusal { number: OUTSIDE_LIMIT, offset });
    }
    require(!has_barred_byte(stream, &command), BARRED_BYTE).map_err(at(place))?;
    Ok(Scanned { command, end: scanner.cursor.at })
}

/// 16: a barred byte "in a name or a glyph, also in a `t` or `u` word".
fn has_barred_byte(stream: &[u8], command: &Command) -> bool {
    command.name().is_some_and(|name| name.of(stream).iter().any(|&byte| is_barred(byte)))
}

/// The scan of one command. Its functions answer 3, 4 or 5, or what they read, even where that is
/// outside its limit: then `outside` says where, and the command is not handed out.
struct Scanner<'a> {
    cursor: Cursor<'a>,
    /// the first byte of the first argument outside its limit
    outside: Option<usize>,
}

impl Scanner<'_> {
    fn command(&mut self) -> Result<Command, u8> {
        let letter = self.cursor.byte().ok_or(UNKNOWN)?;
        match letter {
            b'c' => Ok(Command::Glyph(self.glyph_byte()?)),
            b'C' => Ok(Command::Glyph(self.name()?)),
            b'N' => Ok(Command::Index(self.integer(GENERAL)?)),
            b't' => self.word(0),
            b'u' => self.tracked_word(),
            b'0'..=b'9' => self.pair(letter),
            b'H' | b'h' | b'V' | b'v' => Ok(Command::Motion { letter, number: self.integer(GENERAL)? }),
            b'p' => Ok(Command::Page(self.integer(GENERAL)?)),
            b'f' => Ok(Command::Font(self.integer(POSITION)?)),
            b's' => Ok(Command::Size(self.integer(AT_LEAST_1)?)),
            b'm' => Ok(Command::GlyphColour(self.colour()?)),
            b'n' => self.line_break(),
            b'w' => Ok(Command::WordSpace),
            b'D' => self.drawing(),
            b'x' => self.control(),
            _ => Err(UNKNOWN),
        }
    }

    /// Judges the argument whose first byte stands at `place`. 2026-12: "where several are
    /// [outside], the first of them"; arguments are judged in the order of the stream.
    fn judge(&mut self, place: usize, is_within: bool) {
        if !is_within {
            self.outside.get_or_insert(place);
        }
    }

    /// Where the next argument begins: "a spacer may precede each".
    fn argument_place(&mut self) -> usize {
        self.cursor.skip_spacer();
        self.cursor.at
    }

    /// An integer argument; it begins with its sign or first digit.
    fn integer(&mut self, limit: Limit) -> Result<i64, u8> {
        let place = self.argument_place();
        let number = self.cursor.integer()?;
        self.judge(place, limit.contains(&number));
        Ok(number)
    }

    fn integers(&mut self, count: usize, limit: Limit) -> Result<Vec<i64>, u8> {
        (0..count).map(|_| self.integer(limit.clone())).collect()
    }

    /// "Names have at most 64 bytes".
    fn name(&mut self) -> Result<Name, u8> {
        let name = self.cursor.string()?;
        self.judge(name.place, name.length <= NAME_LIMIT);
        Ok(name)
    }

    /// `c` g: "glyph of one byte".
    fn glyph_byte(&mut self) -> Result<Name, u8> {
        self.cursor.byte().ok_or(MALFORMED)?;
        Ok(Name { place: self.cursor.at - 1, length: 1 })
    }

    /// `u` n word.
    fn tracked_word(&mut self) -> Result<Command, u8> {
        let track = self.integer(GENERAL)?;
        self.word(track)
    }

    /// "a t or u word has no such limit". "After a `t` or `u` word, a spacer and then a digit or `-`
    /// is a dummy integer. It is ignored, and must be followed by whitespace or end, else 4."
    /// 2026-12: "the argument outside its limit, a dummy too".
    fn word(&mut self, track: i64) -> Result<Command, u8> {
        let word = self.cursor.string()?;
        if self.cursor.integer_stands() {
            self.integer(GENERAL)?;
            require(self.cursor.string_ends(), MALFORMED)?;
        }
        Ok(Command::Word { track, word })
    }

    /// "One digit without a second, or two without a glyph, is 4"; "spacers may stand within".
    fn pair(&mut self, first: u8) -> Result<Command, u8> {
        let second = self.cursor.byte().filter(u8::is_ascii_digit).ok_or(MALFORMED)?;
        let motion = i64::from(first - b'0') * 10 + i64::from(second - b'0');
        Ok(Command::Pair { motion, glyph: self.glyph_byte()? })
    }

    /// `n` b a: "line break, no motion, numbers ignored".
    fn line_break(&mut self) -> Result<Command, u8> {
        self.integers(2, GENERAL)?;
        Ok(Command::LineBreak)
    }

    /// A scheme letter and "that many components 0..65536", the unused ones 0.
    fn colour(&mut self) -> Result<Colour, u8> {
        let scheme = self.cursor.byte().ok_or(UNKNOWN)?;
        let count = component_count(scheme).ok_or(UNKNOWN)?;
        let mut components = [0; 4];
        for component in &mut components[..count] {
            *component = self.integer(COMPONENT)? as u32;
        }
        Ok(Colour { scheme, components })
    }

    /// "`D` and its letter need a line break, perhaps after a comment, behind the last argument",
    /// else 5.
    fn require_line_break(&self) -> Result<(), u8> {
        require(self.cursor.line_break_stands(), SURPLUS)
    }

    fn drawing(&mut self) -> Result<Command, u8> {
        let letter = self.cursor.byte().ok_or(UNKNOWN)?;
        if letter == b'F' {
            return self.fill_colour();
        }
        let arguments = match letter {
            b'l' | b'e' | b'E' => self.integers(2, GENERAL)?,
            b'a' => self.integers(4, GENERAL)?,
            b't' => self.integers(1, GENERAL)?,
            b'f' => self.integers(1, FILL)?,
            b'c' | b'C' => self.circle()?,
            b'p' | b'P' | b'~' => self.polygon()?,
            _ => return Err(UNKNOWN),
        };
        self.require_line_break()?;
        Ok(Command::Drawing { letter, arguments })
    }

    fn fill_colour(&mut self) -> Result<Command, u8> {
        let colour = self.colour()?;
        self.require_line_break()?;
        Ok(Command::FillColour(colour))
    }

    /// `Dc`, `DC`: "d, optional dummy".
    fn circle(&mut self) -> Result<Vec<i64>, u8> {
        let arguments = self.integers(1, GENERAL)?;
        if self.cursor.integer_stands() {
            self.integer(GENERAL)?;
        }
        Ok(arguments)
    }

    /// `Dp`, `DP`, `D~`: "any other byte ends the arguments"; "none or an odd number" is 4.
    /// 2026-12: "arguments over the allowed count are outside it".
    fn polygon(&mut self) -> Result<Vec<i64>, u8> {
        let mut arguments = Vec::new();
        while self.cursor.integer_stands() {
            let place = self.argument_place();
            arguments.push(self.integer(GENERAL)?);
            self.judge(place, arguments.len() <= POLYGON_LIMIT);
        }
        require(!arguments.is_empty() && arguments.len() % 2 == 0, MALFORMED)?;
        Ok(arguments)
    }

    /// "`x`, a spacer, then a word of any length; its first byte decides and the rest is ignored."
    fn control(&mut self) -> Result<Command, u8> {
        let word = self.cursor.string().map_err(|_| UNKNOWN)?;
        let letter = self.cursor.bytes[word.place];
        if letter == b'X' {
            return Ok(self.text());
        }
        let form = control_form(letter).ok_or(UNKNOWN)?;
        let numbers = self.integers(form.count, form.limit)?;
        let name = if form.named { Some(self.name()?) } else { None };
        self.require_line_break()?;
        Ok(Command::Control { letter, numbers, name })
    }

    /// "`X`: after a spacer, the rest of the line raw, without comments; each next line that starts
    /// with `+` adds a newline and its rest." 2026-12: "A text begins right after its spacer, even
    /// with an empty line."
    fn text(&mut self) -> Command {
        let place = self.argument_place();
        let cursor = &mut self.cursor;
        cursor.at = line_end(cursor.bytes, place);
        let first_line = Name { place, length: cursor.at - place };
        let mut length = first_line.length;
        while cursor.bytes[cursor.at..].starts_with(b"\n+") {
            let rest = cursor.at + 2;
            cursor.at = line_end(cursor.bytes, rest);
            length += 1 + (cursor.at - rest);
        }
        self.judge(place, length <= TEXT_LIMIT);
        Command::Text { first_line }
    }
}

/// "`mc` 3, `md` 0, `mg` 1, `mk` 4, `mr` 3".
pub fn component_count(scheme: u8) -> Option<usize> {
    match scheme {
        b'c' | b'r' => Some(3),
        b'd' => Some(0),
        b'g' => Some(1),
        b'k' => Some(4),
        _ => None,
    }
}

/// What stands behind an `x` word: integers within a limit, then perhaps a name.
struct ControlForm {
    count: usize,
    limit: Limit,
    named: bool,
}

fn control_form(letter: u8) -> Option<ControlForm> {
    let (count, limit, named) = match letter {
        b'T' | b'F' => (0, GENERAL, true),
        b'r' => (3, AT_LEAST_1, false),
        b'f' => (1, POSITION, true),
        b'H' | b'S' => (1, GENERAL, false),
        b'u' => (1, SWITCH, false),
        b'i' | b'p' | b't' | b's' => (0, GENERAL, false),
        _ => return None,
    };
    Some(ControlForm { count, limit, named })
}
