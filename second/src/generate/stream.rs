//! Sound streams that use every command and every freedom of spelling.

pub mod barred;
pub mod fault;

use super::list::{ListFont, GLYPH_BYTES};
use super::random::Random;

/// How a stream is to be made.
#[derive(Clone, Copy, Default)]
pub struct Manner {
    /// numbers and positions near their limits, so that a 10 may come
    pub edges: bool,
    /// now and then a command that is wrong by its form, limits or place
    pub slips: bool,
    /// now and then a command with an argument outside its limit, in the prologue and behind `x s` too
    pub faults: bool,
    /// now and then a barred byte in a name or where it may stand, in the prologue and behind `x s` too
    pub barred: bool,
}

/// What must stand behind a command before the next one.
#[derive(Clone, Copy, PartialEq)]
enum End {
    /// nothing
    Free,
    /// nothing, but no digit may follow at once
    Integer,
    /// whitespace
    String,
    /// whitespace, and a newline before a digit, which else is a dummy
    Word,
    /// a line break, perhaps after a spacer and a comment
    Line,
    /// the same behind a string, which a comment may not touch
    StringLine,
    /// a line break at once
    Text,
}

/// The bytes of one command and what must stand behind them.
struct Piece {
    bytes: Vec<u8>,
    end: End,
}

impl Piece {
    fn new(bytes: Vec<u8>, end: End) -> Self {
        Piece { bytes, end }
    }
}

/// A stream in the making, and what it has set so far.
struct Writer<'a> {
    random: &'a mut Random,
    fonts: &'a [ListFont],
    manner: Manner,
    stream: Vec<u8>,
    end: End,
    /// mounted positions, each with the number of its font in the list
    mounts: Vec<(i64, Option<usize>)>,
    font: Option<i64>,
    has_size: bool,
    has_page: bool,
}

/// Wrong commands.
const SLIPS: [&[u8]; 40] = [
    b"f256",
    b"f-1",
    b"s0",
    b"s-5",
    b"mg 65537",
    b"mr 0 0 -1",
    b"x u 2\n",
    b"x f 256 a\n",
    b"N100000000",
    b"h-100000000",
    b"n0 100000000",
    b"Df 32768\n",
    b"DFg 65537\n",
    b"Dc 5 100000000\n",
    b"f200",
    b"f7",
    b"x T again\n",
    b"x r 1 1 1\n",
    b"x init\n",
    b"q",
    b"D",
    b"Dq 5\n",
    b"DFx\n",
    b"m",
    b"mx",
    b"x Q\n",
    b"x\n",
    b"h",
    b"h-",
    b"5",
    b"57\n",
    b"c\n",
    b"C\n",
    b"ta 7x",
    b"t z",
    b"u5 z",
    b"Dp 1 2 3\n",
    b"Dl 1 2 3\n",
    b"x p x\n",
    b"Dp 1 2 x\n",
];

/// Makes one command.
type Maker<'a> = fn(&mut Writer<'a>) -> Piece;

/// A stream for a list with these fonts.
pub fn stream(random: &mut Random, fonts: &[ListFont], manner: Manner) -> Vec<u8> {
    let mut writer = Writer {
        random,
        fonts,
        manner,
        stream: Vec::new(),
        end: End::Free,
        mounts: Vec::new(),
        font: None,
        has_size: false,
        has_page: false,
    };
    writer.write_prologue();
    writer.write_body();
    writer.write_stop();
    writer.stream
}

impl<'a> Writer<'a> {
    /// Commands allowed before the first `p`, as often as their weight.
    const EARLY: [Maker<'a>; 12] = [
        Self::page,
        Self::page,
        Self::page,
        Self::mount,
        Self::mount,
        Self::select_font,
        Self::size,
        Self::colour,
        Self::word_space,
        Self::line_break,
        Self::control,
        Self::text,
    ];

    /// Commands allowed behind it.
    const LATE: [Maker<'a>; 37] = [
        Self::one_byte_glyph,
        Self::one_byte_glyph,
        Self::one_byte_glyph,
        Self::one_byte_name,
        Self::named_glyph,
        Self::named_glyph,
        Self::index,
        Self::negative_index,
        Self::word,
        Self::word,
        Self::word,
        Self::tracked_word,
        Self::tracked_word,
        Self::two_digits,
        Self::two_digits,
        Self::motion,
        Self::motion,
        Self::motion,
        Self::page,
        Self::select_font,
        Self::select_font,
        Self::size,
        Self::colour,
        Self::word_space,
        Self::word_space,
        Self::line_break,
        Self::drawing,
        Self::drawing,
        Self::thickness,
        Self::polygon,
        Self::circle,
        Self::fill,
        Self::fill_colour,
        Self::mount,
        Self::control,
        Self::control,
        Self::text,
    ];

    /// Whether a fault is due, once in so many times where faults are wanted.
    fn is_faulty(&mut self, turns: usize) -> bool {
        self.manner.faults && self.random.once_in(turns)
    }

    /// The same for barred bytes.
    fn is_barred(&mut self, turns: usize) -> bool {
        self.manner.barred && self.random.once_in(turns)
    }

    fn write_prologue(&mut self) {
        if self.is_faulty(24) {
            let typesetter = self.fault_at("xT", 0);
            self.write(typesetter);
        }
        if self.is_barred(24) {
            let typesetter = self.barred_at("xT");
            self.write(typesetter);
        }
        let name = self.name();
        let typesetter = self.control_piece(b'T', &[], Some(&name));
        self.write(typesetter);
        if self.is_faulty(24) {
            let number = self.random.below(3);
            let resolution = self.fault_at("xr", number);
            self.write(resolution);
        }
        let quantum = *self.random.pick(&[1, 1, 1, 1, 2, 4, 24, 99_999_999]);
        let resolution = self.control_piece(b'r', &[72_000, quantum, 1], None);
        self.write(resolution);
        if self.is_barred(24) {
            let barred = self.barred();
            self.write(barred);
        }
        let init = self.control_piece(b'i', &[], None);
        self.write(init);
    }

    fn write_body(&mut self) {
        for _ in 0..self.random.below(20) {
            let piece = self.next_piece();
            self.write(piece);
        }
    }

    fn next_piece(&mut self) -> Piece {
        if self.manner.slips && self.random.once_in(6) {
            return self.slip();
        }
        if self.is_faulty(6) {
            return self.fault();
        }
        if self.is_barred(if self.has_page { 5 } else { 20 }) {
            return self.barred();
        }
        if !self.has_page {
            return self.random.pick(&Self::EARLY)(self);
        }
        if self.font.is_none() {
            return self.select_font();
        }
        if !self.has_size {
            return self.size();
        }
        self.random.pick(&Self::LATE)(self)
    }

    fn write_stop(&mut self) {
        let stop = self.control_piece(b's', &[], None);
        self.write(stop);
        if self.is_faulty(6) {
            let fault = self.fault();
            self.write(fault);
        }
        if self.is_barred(3) {
            let barred = self.barred();
            self.write(barred);
        }
        if self.random.once_in(4) {
            return;
        }
        self.separate(None);
        if self.random.once_in(4) {
            let comment = self.comment();
            self.stream.extend(comment);
        }
    }

    fn write(&mut self, piece: Piece) {
        self.separate(piece.bytes.first().copied());
        self.stream.extend(piece.bytes);
        self.end = piece.end;
    }

    /// Writes what must or may stand between the last command and one that begins with `next`.
    fn separate(&mut self, next: Option<u8>) {
        let is_digit = next.is_some_and(|byte| byte.is_ascii_digit());
        let needed: &[u8] = match self.end {
            End::Free => b"",
            End::Integer if !is_digit => b"",
            End::Integer | End::String => self.random.part(&[b" ", b"\t", b"\n"]),
            End::Word if !is_digit => self.random.part(&[b" ", b"\t", b"\n"]),
            End::Word | End::Text => b"\n",
            End::Line | End::StringLine => {
                self.write_line_end();
                b"\n"
            }
        };
        self.stream.extend(needed);
        let filler = self.filler();
        self.stream.extend(filler);
        self.end = End::Free;
    }

    /// Writes a spacer and at times a comment.
    fn write_line_end(&mut self) {
        let has_comment = self.random.once_in(6);
        let is_apart = has_comment && self.end == End::StringLine;
        let spacer = if is_apart { self.blank() } else { self.spacer() };
        let comment = if has_comment { self.comment() } else { Vec::new() };
        self.stream.extend([spacer, comment].concat());
    }

    /// Whitespace and comments that may stand before any command.
    fn filler(&mut self) -> Vec<u8> {
        match self.random.below(16) {
            0 => self.spacer(),
            1 => b"\n".to_vec(),
            2 => b"\n\n \t\n".to_vec(),
            3 => [self.comment(), b"\n".to_vec()].concat(),
            4 | 5 => b"\n".to_vec(),
            _ => Vec::new(),
        }
    }

    fn comment(&mut self) -> Vec<u8> {
        let comments: [&[u8]; 6] = [b"#", b"#c", b"# x s # h5", b"#\x00\r\x7f\xff\t", b"##", b"#+"];
        self.random.part(&comments).to_vec()
    }

    /// "any run, perhaps empty, of spaces and tabs"
    fn spacer(&mut self) -> Vec<u8> {
        let spacers: [&[u8]; 6] = [b"", b"", b" ", b" ", b"\t", b" \t "];
        self.random.part(&spacers).to_vec()
    }

    fn blank(&mut self) -> Vec<u8> {
        let blanks: [&[u8]; 4] = [b" ", b" ", b"\t", b"\t  "];
        self.random.part(&blanks).to_vec()
    }

    /// An integer: leading zeros, and 0 as `-0`, at times.
    fn integer(&mut self, number: i64) -> Vec<u8> {
        let has_minus = number < 0 || (number == 0 && self.random.once_in(4));
        self.signed(has_minus, &number.abs().to_string())
    }

    /// The same of any magnitude, by its digits.
    fn signed(&mut self, has_minus: bool, digits: &str) -> Vec<u8> {
        let minus = if has_minus { "-" } else { "" };
        let zeros = "0".repeat(if self.random.once_in(6) { self.random.below(12) } else { 0 });
        format!("{minus}{zeros}{digits}").into_bytes()
    }

    /// Integers, each with a spacer before it that is not empty where two would run together.
    /// `apart`: the first needs one too.
    fn integers(&mut self, numbers: &[i64], apart: bool) -> Vec<u8> {
        let mut bytes = Vec::new();
        for (place, number) in numbers.iter().enumerate() {
            let integer = self.integer(*number);
            let runs_together = place > 0 && integer[0] != b'-';
            let is_apart = runs_together || (place == 0 && apart);
            bytes.extend(if is_apart { self.blank() } else { self.spacer() });
            bytes.extend(integer);
        }
        bytes
    }

    fn distance(&mut self) -> i64 {
        if self.manner.edges && self.random.once_in(3) {
            let edge = *self.random.pick(&[99_999_999, 99_999_998, 99_999_000, 50_000_000]);
            return if self.random.once_in(2) { edge } else { -edge };
        }
        match self.random.below(6) {
            0 => 0,
            1 => self.random.between(-9_000, 90_000),
            _ => self.random.between(-60, 60),
        }
    }

    fn glyph_byte(&mut self) -> u8 {
        *self.random.pick(&GLYPH_BYTES)
    }

    fn name(&mut self) -> Vec<u8> {
        let names: [&[u8]; 8] = [b"'e", b"ab", b"u0065_0301", b"#x", b"-1", b"07", b"\x80\xff", b"ps"];
        match self.random.below(12) {
            0 => vec![b'n'; 64],
            1 => vec![b'\x80'; 1 + self.random.below(63)],
            _ => self.random.part(&names).to_vec(),
        }
    }

    fn with_spacer(&mut self, letter: u8, argument: &[u8]) -> Vec<u8> {
        [&[letter], &self.spacer()[..], argument].concat()
    }

    fn integer_piece(&mut self, letter: u8, numbers: &[i64]) -> Piece {
        let integers = self.integers(numbers, false);
        Piece::new([&[letter], &integers[..]].concat(), End::Integer)
    }

    fn one_byte_glyph(&mut self) -> Piece {
        let byte = self.glyph_byte();
        Piece::new(self.with_spacer(b'c', &[byte]), End::Free)
    }

    fn one_byte_name(&mut self) -> Piece {
        let byte = self.glyph_byte();
        Piece::new(self.with_spacer(b'C', &[byte]), End::String)
    }

    fn named_glyph(&mut self) -> Piece {
        let name = self.name();
        Piece::new(self.with_spacer(b'C', &name), End::String)
    }

    fn index(&mut self) -> Piece {
        let index = *self.random.pick(&[0, 1, 97, 255, 99_999_999]);
        self.integer_piece(b'N', &[index])
    }

    fn negative_index(&mut self) -> Piece {
        let index = *self.random.pick(&[-1, -24, -99_999_999]);
        self.integer_piece(b'N', &[index])
    }

    /// A word of bytes that have a width in the current font; a glyph where there are none.
    fn word_bytes(&mut self) -> Option<Vec<u8>> {
        let (_, font) = *self.mounts.iter().find(|(position, _)| Some(*position) == self.font)?;
        let bytes = &self.fonts[font?].bytes;
        let length = 1 + self.random.below(6);
        (!bytes.is_empty()).then(|| (0..length).map(|_| *self.random.pick(bytes)).collect())
    }

    fn dummy(&mut self) -> (Vec<u8>, End) {
        if !self.random.once_in(4) {
            return (Vec::new(), End::Word);
        }
        let dummy = *self.random.pick(&[0, 7, -7, 10, 99_999_999, -99_999_999]);
        (self.integers(&[dummy], true), End::String)
    }

    fn word(&mut self) -> Piece {
        let Some(word) = self.word_bytes() else {
            return self.one_byte_glyph();
        };
        let (dummy, end) = self.dummy();
        Piece::new([self.with_spacer(b't', &word), dummy].concat(), end)
    }

    fn tracked_word(&mut self) -> Piece {
        let Some(word) = self.word_bytes() else {
            return self.two_digits();
        };
        let track = self.distance();
        let track = self.integers(&[track], false);
        let spacer = if word[0].is_ascii_digit() { self.blank() } else { self.spacer() };
        let (dummy, end) = self.dummy();
        Piece::new([b"u", &track[..], &spacer, &word, &dummy].concat(), end)
    }

    fn two_digits(&mut self) -> Piece {
        let digits = format!("{:02}", self.random.below(100)).into_bytes();
        let (first, second) = (self.spacer(), self.spacer());
        let byte = self.glyph_byte();
        Piece::new([&digits[..1], &first, &digits[1..], &second, &[byte]].concat(), End::Free)
    }

    fn motion(&mut self) -> Piece {
        let letter = *self.random.pick(b"HhVv");
        let distance = self.distance();
        self.integer_piece(letter, &[distance])
    }

    fn page(&mut self) -> Piece {
        self.has_page = true;
        let number = *self.random.pick(&[1, 1, 1, 2, 3, 0, -1, 99_999_999]);
        self.integer_piece(b'p', &[number])
    }

    fn mount(&mut self) -> Piece {
        let position = *self.random.pick(&[0, 1, 1, 2, 5, 255]);
        let (font, name) = match self.random.below(4) {
            0 => (None, b"unlisted".to_vec()),
            _ => {
                let font = self.random.below(self.fonts.len());
                (Some(font), self.fonts[font].name.clone())
            }
        };
        self.mounts.retain(|(mounted, _)| *mounted != position);
        self.mounts.push((position, font));
        self.control_piece(b'f', &[position], Some(&name))
    }

    fn select_font(&mut self) -> Piece {
        if self.mounts.is_empty() {
            return self.mount();
        }
        let (position, _) = *self.random.pick(&self.mounts);
        self.font = Some(position);
        self.integer_piece(b'f', &[position])
    }

    fn size(&mut self) -> Piece {
        self.has_size = true;
        let large = if self.manner.edges { 99_999_999 } else { 20_000 };
        let size = *self.random.pick(&[1, 10, 10, 9, 10_000, 10_000, large]);
        self.integer_piece(b's', &[size])
    }

    /// A scheme letter and its components, each with its spacer.
    fn scheme(&mut self) -> (Vec<u8>, usize) {
        let (letter, count) = *self.random.pick(&[(b'c', 3), (b'd', 0), (b'g', 1), (b'k', 4), (b'r', 3)]);
        let components: Vec<i64> =
            (0..count).map(|_| *self.random.pick(&[0, 1, 32_768, 65_535, 65_536])).collect();
        let spacer = self.spacer();
        let integers = self.integers(&components, false);
        ([&spacer[..], &[letter], &integers].concat(), count)
    }

    fn colour(&mut self) -> Piece {
        let (scheme, count) = self.scheme();
        let end = if count == 0 { End::Free } else { End::Integer };
        Piece::new([b"m", &scheme[..]].concat(), end)
    }

    fn fill_colour(&mut self) -> Piece {
        let spacer = self.spacer();
        let (scheme, _) = self.scheme();
        Piece::new([b"D", &spacer[..], b"F", &scheme].concat(), End::Line)
    }

    fn word_space(&mut self) -> Piece {
        Piece::new(b"w".to_vec(), End::Free)
    }

    fn line_break(&mut self) -> Piece {
        let numbers = [self.distance(), self.distance()];
        self.integer_piece(b'n', &numbers)
    }

    fn drawing_piece(&mut self, letter: u8, numbers: &[i64]) -> Piece {
        let spacer = self.spacer();
        let integers = self.integers(numbers, false);
        Piece::new([b"D", &spacer[..], &[letter], &integers].concat(), End::Line)
    }

    fn drawing(&mut self) -> Piece {
        let (letter, count) = *self.random.pick(&[(b'l', 2), (b'a', 4), (b'e', 2), (b'E', 2), (b't', 1)]);
        let numbers: Vec<i64> = (0..count).map(|_| self.distance()).collect();
        self.drawing_piece(letter, &numbers)
    }

    /// `Dt`; near the limits, from a place at most two short of one, up to it, past it or away from it.
    fn thickness(&mut self) -> Piece {
        if !self.manner.edges {
            let distance = self.distance();
            return self.drawing_piece(b't', &[distance]);
        }
        let side = *self.random.pick(&[1, -1]);
        let place = side * self.random.between(99_999_997, 99_999_999);
        let step = side * self.random.between(-3, 3);
        let motion = self.integer_piece(b'H', &[place]).bytes;
        let thickness = self.drawing_piece(b't', &[step]);
        Piece::new([motion, thickness.bytes].concat(), thickness.end)
    }

    fn polygon(&mut self) -> Piece {
        let letter = *self.random.pick(b"pP~");
        let pairs = if self.random.once_in(12) { 32 } else { 1 + self.random.below(4) };
        let numbers: Vec<i64> = (0..2 * pairs).map(|_| self.distance()).collect();
        self.drawing_piece(letter, &numbers)
    }

    fn circle(&mut self) -> Piece {
        let letter = *self.random.pick(b"cC");
        let numbers = [self.distance(), self.distance()];
        let count = 1 + self.random.below(2);
        self.drawing_piece(letter, &numbers[..count])
    }

    fn fill(&mut self) -> Piece {
        let n = *self.random.pick(&[0, 1, 500, 999, 1000, 1001, -1, 32_767, -32_767]);
        self.drawing_piece(b'f', &[n])
    }

    /// An `x` command: a word that begins with the letter, integers, perhaps a name.
    fn control_piece(&mut self, letter: u8, numbers: &[i64], name: Option<&[u8]>) -> Piece {
        let tails: [&[u8]; 6] = [b"", b"", b"", b"#5", b"-w\x01rd\x7f", b"long_word"];
        let spacer = self.spacer();
        let tail = self.random.part(&tails);
        let mut bytes = [b"x", &spacer[..], &[letter], tail].concat();
        bytes.extend(self.integers(numbers, true));
        if let Some(name) = name {
            let is_apart = numbers.is_empty() || name[0].is_ascii_digit();
            bytes.extend(if is_apart { self.blank() } else { self.spacer() });
            bytes.extend(name);
        }
        let ends_with_integer = name.is_none() && !numbers.is_empty();
        Piece::new(bytes, if ends_with_integer { End::Line } else { End::StringLine })
    }

    fn control(&mut self) -> Piece {
        match self.random.below(6) {
            0 => {
                let name = self.name();
                self.control_piece(b'F', &[], Some(&name))
            }
            1 => {
                let number = *self.random.pick(&[0, 1]);
                self.control_piece(b'u', &[number], None)
            }
            2 | 3 => {
                let letter = *self.random.pick(b"HS");
                let number = self.distance();
                self.control_piece(letter, &[number], None)
            }
            _ => {
                let letter = *self.random.pick(b"pt");
                self.control_piece(letter, &[], None)
            }
        }
    }

    fn text(&mut self) -> Piece {
        let lines: [&[u8]; 8] = [b"", b"a b", b"#c", b"+", b" lead", b"trail ", b"\x00\r\x7f\xff", b"x s"];
        let mut bytes = self.control_piece(b'X', &[], None).bytes;
        let first = self.random.part(&lines);
        if !first.is_empty() {
            bytes.extend(self.blank());
            bytes.extend(first);
        }
        for _ in 0..self.random.below(3) {
            bytes.extend([b"\n+", self.random.part(&lines)].concat());
        }
        if self.random.once_in(20) {
            bytes.extend([&b"\n+"[..], &vec![b'z'; 4000]].concat());
        }
        Piece::new(bytes, End::Text)
    }

    /// A command that is wrong: by its form, a limit, its place, its font or its width.
    fn slip(&mut self) -> Piece {
        let long_name = [&b"C"[..], &[b'n'; 65]].concat();
        let long_text = [&b"x X "[..], &[b't'; 4097], b"\n"].concat();
        let many_pairs = [&b"D~"[..], &b" 1 2".repeat(33), b"\n"].concat();
        match self.random.below(24) {
            0 => Piece::new(long_name, End::String),
            1 => Piece::new(long_text, End::Free),
            2 => Piece::new(many_pairs, End::Free),
            3..=6 => Piece::new(b"t@".to_vec(), End::String),
            _ => Piece::new(self.random.part(&SLIPS).to_vec(), End::String),
        }
    }
}
