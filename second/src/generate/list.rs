//! Sound width lists.

use super::random::Random;
use crate::bytes::{is_barred, is_whitespace};

/// A font of a generated list: its name and the bytes that have a width and may stand in a word.
pub struct ListFont {
    pub name: Vec<u8>,
    pub bytes: Vec<u8>,
}

/// Bytes that glyphs are made of, those next to the ones barred by 2026-06 too.
pub const GLYPH_BYTES: [u8; 14] = *b"abcde#5-0+!\x80\xff~";

const FONT_NAMES: [&[u8]; 7] = [b"TR", b"TI", b"R", b"F#1", b"\x80\xfe", b"a=b", &[b'n'; 64]];

/// Bytes that mostly have a width: glyph bytes, and barred ones, whose "width can no longer be used".
const WIDTH_BYTES: [u8; 17] = *b"abcde#5-0+!\x80\xff~\x00\x1f\x7f";

/// A sound list, and what it holds. Its first font has a width for every glyph byte.
pub fn sound_list(random: &mut Random) -> (Vec<u8>, Vec<ListFont>) {
    let unitwidth = *random.pick(&[1, 2, 3, 7, 10, 1000, 1000, 1000, 100_000]);
    let mut list = format!("unitwidth={unitwidth}\n").into_bytes();
    let mut fonts = Vec::new();
    let count = 1 + random.below(4);
    let first = random.below(FONT_NAMES.len());
    for number in 0..count {
        let name = FONT_NAMES[(first + number) % FONT_NAMES.len()].to_vec();
        let mut bytes = if number == 0 { WIDTH_BYTES.to_vec() } else { some_bytes(random) };
        if random.once_in(4) {
            let count = 1 + random.below(5);
            bytes.extend((0..count).map(|_| random.byte()).filter(|&byte| !is_whitespace(byte)));
        }
        let bytes = rising(bytes);
        list.extend([b"font=", &name[..], b"\n"].concat());
        bytes.iter().for_each(|byte| list.extend(pair(random, *byte).bytes()));
        let bytes = bytes.into_iter().filter(|&byte| !is_barred(byte)).collect();
        fonts.push(ListFont { name, bytes });
    }
    (list, fonts)
}

fn pair(random: &mut Random, byte: u8) -> String {
    let width = match random.below(8) {
        0 => 0,
        1 => 100_000,
        2 => random.between(0, 100_000),
        _ => random.between(1, 60),
    };
    format!("byte={byte}\nwidth={width}\n")
}

fn rising(mut bytes: Vec<u8>) -> Vec<u8> {
    bytes.sort_unstable();
    bytes.dedup();
    bytes
}

fn some_bytes(random: &mut Random) -> Vec<u8> {
    let count = random.below(6);
    (0..count).map(|_| *random.pick(&WIDTH_BYTES)).collect()
}

/// A sound list of so many bytes, 300 to 100,000: pairs, then three fonts whose names take up the rest.
pub fn of_length(length: usize) -> Vec<u8> {
    let mut list = b"unitwidth=1000\n".to_vec();
    let places = (b'A'..=b'Z').flat_map(|font| (33..=255).map(move |byte| (font, byte)));
    for (font, byte) in places {
        if length - list.len() < 200 {
            break;
        }
        if byte == 33 {
            list.extend([b"font=", &[font][..], b"\n"].concat());
        }
        list.extend(format!("byte={byte}\nwidth=1\n").bytes());
    }
    let rest = length - list.len() - 2 * 70 - 6;
    for name in [vec![b'y'; 64], vec![b'z'; 64], vec![b'#'; rest]] {
        list.extend([b"font=", &name[..], b"\n"].concat());
    }
    list
}
