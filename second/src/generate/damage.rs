//! Damage to streams, lists and queries.

use super::random::Random;

/// Parts that mean something in one of the inputs.
const PARTS: [&[u8]; 26] = [
    b"#",
    b"-",
    b"+",
    b" ",
    b"\t",
    b"\n",
    b"\n\n",
    b"0",
    b"7",
    b"x ",
    b"D",
    b"p1",
    b"x s\n",
    b"=",
    b"99999999",
    b"100000000",
    b"65537",
    b"256",
    b"glyph=a\n",
    b"gap=any\n",
    b"byte=9\n",
    b"width=1\n",
    b"font=TR\n",
    b"name=a\n",
    b"same=b\n",
    b"\x00",
];

/// One to three edits.
pub fn damage(random: &mut Random, bytes: &mut Vec<u8>) {
    for _ in 0..1 + random.below(3) {
        edit(random, bytes);
    }
}

fn edit(random: &mut Random, bytes: &mut Vec<u8>) {
    let place = random.below(bytes.len() + 1);
    match random.below(9) {
        0 => flip(random, bytes),
        1 => drop(bytes.drain(span(random, place, bytes.len()))),
        2 => {
            let part = *random.pick(&PARTS);
            insert(bytes, place, part);
        }
        3 => insert(bytes, place, &[random.byte()]),
        4 => bytes.truncate(place),
        5 => {
            let part = bytes[span(random, place, bytes.len())].to_vec();
            insert(bytes, place, &part);
        }
        6 => swap_lines(random, bytes),
        7 => replace_number(random, bytes),
        _ => remove_line(random, bytes),
    }
}

/// A short part from `place` on.
fn span(random: &mut Random, place: usize, length: usize) -> std::ops::Range<usize> {
    let most = if random.once_in(4) { 30 } else { 2 };
    place..length.min(place + 1 + random.below(most))
}

fn insert(bytes: &mut Vec<u8>, place: usize, part: &[u8]) {
    bytes.splice(place..place, part.iter().copied());
}

fn flip(random: &mut Random, bytes: &mut [u8]) {
    if !bytes.is_empty() {
        let place = random.below(bytes.len());
        bytes[place] ^= 1 << random.below(8);
    }
}

/// The lines, each with its newline.
pub fn lines(bytes: &[u8]) -> Vec<Vec<u8>> {
    bytes.split_inclusive(|&byte| byte == b'\n').map(<[u8]>::to_vec).collect()
}

fn swap_lines(random: &mut Random, bytes: &mut Vec<u8>) {
    let mut lines = lines(bytes);
    if !lines.is_empty() {
        let (first, second) = (random.below(lines.len()), random.below(lines.len()));
        lines.swap(first, second);
        *bytes = lines.concat();
    }
}

fn remove_line(random: &mut Random, bytes: &mut Vec<u8>) {
    let mut lines = lines(bytes);
    if !lines.is_empty() {
        lines.remove(random.below(lines.len()));
        *bytes = lines.concat();
    }
}

/// Puts another number in the place of a run of digits.
fn replace_number(random: &mut Random, bytes: &mut Vec<u8>) {
    let numbers: [&[u8]; 12] = [
        b"0",
        b"-1",
        b"1",
        b"9",
        b"256",
        b"65537",
        b"99999999",
        b"-99999999",
        b"100000000",
        b"00",
        b"",
        b"4096",
    ];
    let from = random.below(bytes.len() + 1);
    let Some(distance) = bytes[from..].iter().position(u8::is_ascii_digit) else {
        return;
    };
    let start = from + distance;
    let length = bytes[start..].iter().take_while(|byte| byte.is_ascii_digit()).count();
    let number = *random.pick(&numbers);
    bytes.splice(start..start + length, number.iter().copied());
}
