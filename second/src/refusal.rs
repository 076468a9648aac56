//! 01, "Refusal numbers and their order", and the numbers of 2026-01 and 2026-06.

/// A refusal: its number, of 01's table, 14 of 2026-01 or 16 of 2026-06, and the offset that goes with it,
/// which for 6 is the argument's by 2026-12.
#[derive(Clone, Copy, Debug, PartialEq, Eq)]
pub struct Refusal {
    pub number: u8,
    pub offset: usize,
}

pub const TOO_LONG: u8 = 1;
pub const WIDTH_LIST: u8 = 2;
pub const UNKNOWN: u8 = 3;
pub const MALFORMED: u8 = 4;
pub const SURPLUS: u8 = 5;
pub const OUTSIDE_LIMIT: u8 = 6;
pub const OUT_OF_ORDER: u8 = 7;
pub const NO_FONT: u8 = 8;
pub const NO_WIDTH: u8 = 9;
pub const OUT_OF_REACH: u8 = 10;
pub const NO_STOP: u8 = 11;
pub const QUERY: u8 = 12;
pub const NO_ROOM: u8 = 13;
/// 2026-01: "checked after 2 and before 12".
pub const FAMILY_LIST: u8 = 14;
/// 2026-06: "tested after 6 and before 7 for the same command".
pub const BARRED_BYTE: u8 = 16;

pub const STREAM_LIMIT: usize = 16_777_216;
/// Of a width list and, by 2026-01, of a family list.
pub const LIST_LIMIT: usize = 65_536;
pub const QUERY_LIMIT: usize = 8_192;
pub const SPELLING_LIMIT: usize = 16_777_216;

/// The room a caller lends. Only the rooms a routine is lent bind it.
#[derive(Clone, Copy, Debug, PartialEq, Eq)]
pub struct Rooms {
    pub records: usize,
    pub entries: usize,
    pub hits: usize,
    pub spelling: usize,
}

impl Default for Rooms {
    fn default() -> Self {
        Rooms { records: usize::MAX, entries: usize::MAX, hits: usize::MAX, spelling: usize::MAX }
    }
}

/// `Ok` where `holds`, else the refusal number.
pub fn require(holds: bool, number: u8) -> Result<(), u8> {
    if holds {
        Ok(())
    } else {
        Err(number)
    }
}

/// 1: "stream over 16,777,216 bytes, list over 65,536 [, query over 8,192]; offset 0"; of the family list
/// too "over 65,536 bytes it is 1". An input that a routine does not take is empty here.
pub fn check_sizes(stream: &[u8], list: &[u8], families: &[u8], query: &[u8]) -> Result<(), Refusal> {
    let lists_fit = list.len() <= LIST_LIMIT && families.len() <= LIST_LIMIT;
    let fits = stream.len() <= STREAM_LIMIT && lists_fit && query.len() <= QUERY_LIMIT;
    require(fits, TOO_LONG).map_err(at(0))
}

/// 13: "need more room than lent [...]; offset 0".
pub fn check_room(fits: bool) -> Result<(), Refusal> {
    require(fits, NO_ROOM).map_err(at(0))
}

/// Makes a refusal of a number, for `map_err`.
pub fn at(offset: usize) -> impl Fn(u8) -> Refusal {
    move |number| Refusal { number, offset }
}

/// The reason in words, after 01's table, 2026-01 and 2026-06.
pub fn reason(number: u8) -> &'static str {
    match number {
        TOO_LONG => "the stream is over 16,777,216 bytes, a list over 65,536 or the query over 8,192",
        WIDTH_LIST => "wrong or missing line in the width list",
        UNKNOWN => "unknown command, `D`, `DF`, `m` or `x` letter, or none",
        MALFORMED => "argument missing or malformed, or none or an odd number for `Dp`, `DP`, `D~`",
        SURPLUS => "other bytes before the line break of `D` or `x`",
        OUTSIDE_LIMIT => "number, count, name or text outside its limit",
        OUT_OF_ORDER => "out of order: prologue, first `p` or `x s`",
        NO_FONT => "`f` to an unmounted position, or a glyph or `N` without current font and size",
        NO_WIDTH => "no width for a byte of `t` or `u`",
        OUT_OF_REACH => "h or v beyond 99,999,999",
        NO_STOP => "no `x s`",
        QUERY => "wrong line in the query, or an empty query",
        NO_ROOM => "records, entries, hits or spelling need more room than lent, or the spelling is over 16,777,216 bytes",
        FAMILY_LIST => "wrong or missing line in the family list",
        BARRED_BYTE => "byte 0 to 8, 11 to 31 or 127 in a name, a glyph or a word",
        _ => "unknown refusal",
    }
}
