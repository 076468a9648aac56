//! Streams of the shape that troff writes, of any length, for the benchmark: pages of lines of
//! words, kerning within words, font changes, glyphs of longer names, controls and rules.

use second::generate::random::Random;

const HEAD: &[u8] = b"x T ps\nx res 72000 1 1\nx init\nx font 1 TR\nx font 2 TI\nx font 3 TB\n";
const TAIL: &[u8] = b"x trailer\nV792000\nx stop\n";
/// Letters, about as often as they stand in a text.
const LETTERS: &[u8] =
    b"eeeeeeeeeeeetttttttttaaaaaaaaooooooooiiiiiiinnnnnnnsssssshhhhhhrrrrrrddddllllcccuuummmwwffggyypbvk,.ETS";
const NAMES: [&[u8]; 8] = [b"fi", b"fl", b"hy", b"em", b"oq", b"cq", b"'e", b"sc"];
const LINES_OF_PAGE: i64 = 50;

/// A width list for every byte from 33 to 126, in the three fonts.
pub fn list() -> Vec<u8> {
    let mut list = b"unitwidth=1000\n".to_vec();
    for font in ["TR", "TI", "TB"] {
        list.extend(format!("font={font}\n").bytes());
        for byte in 33..127 {
            list.extend(format!("byte={byte}\nwidth={}\n", 25 + byte * 7 % 50).bytes());
        }
    }
    list
}

/// The name that is the last one of every family list, the empty one aside: a letter that the streams have
/// often.
pub const LAST_NAME: &[u8] = b"t";

/// A family list of so many families of so many names. The names of the streams' longer glyphs are among
/// them, and the last one is `LAST_NAME`; no other stands in a stream.
pub fn families(count: usize, size: usize) -> Vec<u8> {
    let mut list = Vec::new();
    for family in 0..count {
        for member in 0..size {
            let key: &[u8] = if member == 0 { b"name=" } else { b"same=" };
            let name = match NAMES.get(family) {
                _ if (family + 1, member + 1) == (count, size) => LAST_NAME.to_vec(),
                Some(name) if member == 1 => name.to_vec(),
                _ => format!("u{family:04X}_030{member}").into_bytes(),
            };
            list.extend([key, &name, b"\n"].concat());
        }
    }
    list
}

/// A stream of at most `most` bytes, and hardly less.
pub fn stream(most: usize, random: &mut Random) -> Vec<u8> {
    let mut stream = HEAD.to_vec();
    let (mut page, mut line) = (0, LINES_OF_PAGE);
    loop {
        let mut next = Vec::new();
        if line == LINES_OF_PAGE {
            (page, line) = (page + 1, 0);
            next.extend(format!("p{page}\nx X devtag: page {page}\nf1\ns10000\n").bytes());
        }
        line += 1;
        next.extend(written_line(random, line));
        if stream.len() + next.len() + TAIL.len() > most {
            break;
        }
        stream.extend(next);
    }
    stream.extend(TAIL);
    stream
}

/// A line: its place, its words with spaces between them, its break; at times a rule below it.
fn written_line(random: &mut Random, line: i64) -> Vec<u8> {
    let mut text = format!("V{}\nH72000\n", 72_000 + 12_000 * line).into_bytes();
    for number in 0..8 + random.below(6) {
        if number > 0 {
            text.extend(format!("wh{}\n", random.between(2_300, 3_100)).bytes());
        }
        text.extend(word(random));
    }
    text.extend(b"n12000 0\n");
    if random.once_in(25) {
        text.extend(b"H72000\nDl 468000 0\n");
    }
    text
}

/// A word of mixed length, whole or in two parts with a kerning motion; at times in another font, or
/// with a glyph of a longer name.
fn word(random: &mut Random) -> Vec<u8> {
    let length = 1 + random.below(4) + random.below(4) + random.below(5);
    let letters: Vec<u8> = (0..length).map(|_| *random.pick(LETTERS)).collect();
    let mut word = match random.below(8) {
        0 | 1 if length > 2 => {
            let (first, last) = letters.split_at(1 + random.below(length - 1));
            let kern = format!("\nh{}\nt", random.between(-300, -20));
            [b"t", first, kern.as_bytes(), last, b"\n"].concat()
        }
        2 => [b"t", &letters[..], b"\nC", random.part(&NAMES), b"\nh5560\n"].concat(),
        3 if length == 1 => [b"c", &letters[..], b"\nh4440\n"].concat(),
        _ => [b"t", &letters[..], b"\n"].concat(),
    };
    if random.once_in(20) {
        let font = random.part(&[b"f2\n", b"f3\n"]);
        word = [font, &word[..], b"f1\n"].concat();
    }
    word
}
