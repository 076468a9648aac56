//! Outlines: what a stream sets, apart from the commands that set it.

use super::random::Random;

/// One thing an outline holds.
#[derive(Clone, Copy, Debug, PartialEq, Eq)]
pub enum Item {
    /// a glyph of one byte
    Glyph(u8),
    /// a glyph of a longer name
    Named(&'static [u8]),
    /// a glyph by index
    Index,
    /// a word space, line break or negative `N`
    Gap,
    Page,
    /// a motion, or another command that makes no record and no gap
    Kern,
}

/// Longer names: beginnings of one another, names of one letter, what looks like a line of a list.
const NAMES: [&[u8]; 8] = [b"ab", b"ab", b"ab", b"aa", b"abc", b"u0065_0301", b"name=a", b"same=b"];

/// Every byte of an outline has a width here.
pub const OUTLINE_LIST: &[u8] =
    b"unitwidth=1000\nfont=F\nbyte=97\nwidth=44\nbyte=98\nwidth=0\nbyte=99\nwidth=1000\n";

/// An outline over few different glyphs, so that queries hit often.
pub fn outline(random: &mut Random) -> Vec<Item> {
    let count = 5 + random.below(40);
    (0..count).map(|_| item(random)).collect()
}

fn item(random: &mut Random) -> Item {
    match random.below(20) {
        0 => Item::Page,
        1 | 2 => Item::Gap,
        3 => Item::Index,
        4 => Item::Named(b"'e"),
        5 if random.once_in(3) => Item::Named(&[b'n'; 64]),
        5 => Item::Named(random.part(&NAMES)),
        6 => Item::Kern,
        _ => Item::Glyph(*random.pick(b"aab")),
    }
}

/// An outline that repeats a few items, at times with another one between them, so that hits overlap.
pub fn repeated_outline(random: &mut Random) -> Vec<Item> {
    let pattern: Vec<Item> = (0..1 + random.below(3)).map(|_| item(random)).collect();
    let (count, seldom) =
        if random.once_in(4) { (40 + random.below(60), 60) } else { (3 + random.below(20), 12) };
    let mut outline = Vec::new();
    for _ in 0..count {
        outline.extend(&pattern);
        if random.once_in(seldom) {
            outline.push(item(random));
        }
    }
    outline
}

/// A command that sets glyphs of one byte.
#[derive(Clone, Copy, Debug, PartialEq, Eq)]
pub enum Setting {
    Word,
    WordAndDummy,
    TrackedWord,
    OneByte,
    Name,
    TwoDigits,
}

pub const SETTINGS: [Setting; 6] = [
    Setting::OneByte,
    Setting::Name,
    Setting::TwoDigits,
    Setting::WordAndDummy,
    Setting::TrackedWord,
    Setting::Word,
];

/// One way of writing an outline: `t`, `u`, `c`, `C` or two digits for glyphs of one byte, and
/// different commands for gaps and motions.
pub fn write_outline(random: &mut Random, outline: &[Item]) -> Vec<u8> {
    write_outline_by(&SETTINGS, random, outline)
}

/// The same with these commands alone for glyphs of one byte.
pub fn write_outline_by(settings: &[Setting], random: &mut Random, outline: &[Item]) -> Vec<u8> {
    let mut stream = b"x T a\nx r 72000 1 1\nx i\nx f 1 F\nf1\ns1000\np1\n".to_vec();
    let mut rest = outline;
    while let Some((item, behind)) = rest.split_first() {
        let run = rest.iter().take_while(|item| matches!(item, Item::Glyph(_))).count();
        if run > 0 {
            let taken = 1 + random.below(run);
            stream.extend(write_run(*random.pick(settings), &rest[..taken]));
            rest = &rest[taken..];
        } else {
            stream.extend(write_item(random, *item));
            rest = behind;
        }
    }
    stream.extend(b"x s\n");
    stream
}

/// Glyphs of one byte, next to one another.
fn write_run(setting: Setting, run: &[Item]) -> Vec<u8> {
    let glyphs: Vec<u8> =
        run.iter().filter_map(|item| if let Item::Glyph(byte) = item { Some(*byte) } else { None }).collect();
    let each = |before: &str, behind: &str| -> Vec<u8> {
        glyphs.iter().flat_map(|&byte| [before.as_bytes(), &[byte], behind.as_bytes()].concat()).collect()
    };
    match setting {
        Setting::OneByte => each("c", ""),
        Setting::Name => each("C ", "\n"),
        Setting::TwoDigits => each("07", " "),
        Setting::WordAndDummy => [b"t", &glyphs[..], b" 7\n"].concat(),
        Setting::TrackedWord => [b"u-3 ", &glyphs[..], b"\n"].concat(),
        Setting::Word => [b"t", &glyphs[..], b"\n"].concat(),
    }
}

fn write_item(random: &mut Random, item: Item) -> Vec<u8> {
    let written: &[u8] = match item {
        Item::Glyph(_) => unreachable!("glyphs of one byte are written as runs"),
        Item::Named(name) => return [b"C", name, b"\n"].concat(),
        Item::Index => random.part(&[b"N97 ", b"N98 ", b"N0\n"]),
        Item::Gap => random.part(&[b"w", b"n1 2\n", b"N-5 ", b"ww#c\n"]),
        Item::Page => random.part(&[b"p1\n", b"p1\n", b"p1wn0 0\n", b"p2\n"]),
        Item::Kern => random.part(&[b"h-7 ", b"v3\n", b"H50V60 ", b"Dl 3 4\n", b"x p\n", b"s9 ", b"mg 5 "]),
    };
    written.to_vec()
}
