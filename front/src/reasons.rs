//! Refusals in words: the reason of 01's table, or of 02 for 14 and 16, what it is about, and where.

use library::{FAMILIES_LIMIT, LIST_LIMIT, QUERY_LIMIT, STREAM_LIMIT};

pub const TOO_LONG: u32 = 1;
const WIDTH_LIST: u32 = 2;
const QUERY: u32 = 12;
pub const FAMILY_LIST: u32 = 14;

/// Every refusal number with its reason, for the help.
pub const REASONS: [(u32, &str); 15] = [
    (TOO_LONG, "stream over 16,777,216 bytes, width list or family list over 65,536, or query over 8,192"),
    (WIDTH_LIST, "width list: a line is wrong or missing"),
    (3, "unknown command, `D`, `DF`, `m` or `x` letter, or none"),
    (4, "argument missing or malformed; none or an odd number for `Dp`, `DP`, `D~`"),
    (5, "other bytes before the line break of `D` or `x`"),
    (6, "number, count, name or text outside its limit"),
    (
        7,
        "prologue out of order, or a prologue command later; motion, glyph, `N` or any `D` before the \
         first `p`; a byte of anything after `x s`",
    ),
    (8, "`f` to an unmounted position; glyph or `N` without current font and size"),
    (9, "no width for a byte of `t` or `u`"),
    (10, "h or v beyond 99,999,999 either way"),
    (11, "no `x s`"),
    (QUERY, "query: a line is wrong, or there is none"),
    (13, "the spelling is over 16,777,216 bytes"),
    (FAMILY_LIST, "family list: a line is wrong or missing"),
    (16, "byte 0 to 8, 11 to 31 or 127 in a name, a glyph or a word"),
];

/// A refusal: its number in 01's table, or 14 or 16 of 02, and its offset.
#[derive(Clone, Copy, Debug, PartialEq, Eq)]
pub struct Refusal {
    pub number: u32,
    pub offset: usize,
}

/// What is handed to a routine, its rows aside; a family list or query that is not given is empty.
#[derive(Clone, Copy)]
pub struct Inputs<'a> {
    pub stream: &'a [u8],
    pub widths: &'a [u8],
    pub families: &'a [u8],
    pub query: &'a [u8],
}

/// The input that a refusal or an error is about.
#[derive(Clone, Copy, Debug, PartialEq, Eq)]
pub enum About {
    Stream,
    Widths,
    Families,
    Query,
}

impl About {
    pub fn word(self) -> &'static str {
        match self {
            About::Stream => "stream",
            About::Widths => "widths",
            About::Families => "families",
            About::Query => "query",
        }
    }
}

/// A refusal with all that is said of it; line and column count from 1, the column in bytes.
#[derive(Clone, Copy, Debug, PartialEq, Eq)]
pub struct Explained {
    pub number: u32,
    pub offset: usize,
    pub about: About,
    pub line: usize,
    pub column: usize,
    pub reason: &'static str,
}

impl Explained {
    pub fn of(refusal: Refusal, inputs: Inputs) -> Explained {
        let Refusal { number, offset } = refusal;
        let about = match number {
            TOO_LONG => too_long(inputs),
            WIDTH_LIST => About::Widths,
            FAMILY_LIST => About::Families,
            QUERY => About::Query,
            _ => About::Stream,
        };
        let bytes = match about {
            About::Stream => inputs.stream,
            About::Widths => inputs.widths,
            About::Families => inputs.families,
            About::Query => inputs.query,
        };
        let (line, column) = line_and_column(bytes, offset);
        Explained { number, offset, about, line, column, reason: reason(number, about) }
    }
}

/// The first input over its limit.
fn too_long(inputs: Inputs) -> About {
    if inputs.stream.len() > STREAM_LIMIT {
        About::Stream
    } else if inputs.widths.len() > LIST_LIMIT {
        About::Widths
    } else if inputs.families.len() > FAMILIES_LIMIT {
        About::Families
    } else {
        debug_assert!(inputs.query.len() > QUERY_LIMIT);
        About::Query
    }
}

fn reason(number: u32, about: About) -> &'static str {
    match (number, about) {
        (TOO_LONG, About::Stream) => "stream over 16,777,216 bytes",
        (TOO_LONG, About::Widths) => "width list over 65,536 bytes",
        (TOO_LONG, About::Families) => "family list over 65,536 bytes",
        (TOO_LONG, About::Query) => "query over 8,192 bytes",
        _ => REASONS.iter().find(|(known, _)| *known == number).map_or("unknown refusal", |row| row.1),
    }
}

fn line_and_column(bytes: &[u8], offset: usize) -> (usize, usize) {
    let before = &bytes[..offset.min(bytes.len())];
    let newlines = before.iter().filter(|&&byte| byte == b'\n').count();
    let in_line = before.iter().rev().take_while(|&&byte| byte != b'\n').count();
    (newlines + 1, in_line + 1)
}

#[cfg(test)]
mod tests {
    use super::*;

    #[test]
    fn lines_and_columns_count_from_one() {
        assert_eq!(line_and_column(b"", 0), (1, 1));
        assert_eq!(line_and_column(b"ab\ncd", 1), (1, 2));
        assert_eq!(line_and_column(b"ab\ncd", 2), (1, 3));
        assert_eq!(line_and_column(b"ab\ncd", 3), (2, 1));
        assert_eq!(line_and_column(b"ab\ncd\n", 6), (3, 1));
    }

    #[test]
    fn every_number_has_its_reason() {
        let numbers: Vec<u32> = REASONS.iter().map(|(number, _)| *number).collect();
        assert_eq!(numbers, (1..=14).chain([16]).collect::<Vec<u32>>());
    }

    #[test]
    fn a_refusal_for_length_is_about_what_is_too_long() {
        let (short, stream) = (&b"a"[..], vec![b'a'; STREAM_LIMIT + 1]);
        let widths = &stream[..=LIST_LIMIT];
        let query = &stream[..=QUERY_LIMIT];
        let families = &stream[..=FAMILIES_LIMIT];
        let about = |stream, widths, families, query| {
            let inputs = Inputs { stream, widths, families, query };
            Explained::of(Refusal { number: 1, offset: 0 }, inputs).about
        };
        assert_eq!(about(&stream, short, short, short), About::Stream);
        assert_eq!(about(short, widths, families, query), About::Widths);
        assert_eq!(about(short, &widths[..LIST_LIMIT], families, query), About::Families);
        let (stream, families) = (&stream[..STREAM_LIMIT], &families[..FAMILIES_LIMIT]);
        assert_eq!(about(stream, short, families, query), About::Query);
    }
}
