//! Generated commands, width lists and queries: the same for the same seed, always.

use second::generate::barred::{bar, bar_line};
use second::generate::damage::damage;
use second::generate::list::{of_length, sound_list};
use second::generate::random::Random;
use second::refusal::{LIST_LIMIT, QUERY_LIMIT};

/// The letters of every command and what stands behind them: `i` an integer, `g` a glyph byte, `n` a
/// name, `w` a word, `d` perhaps a dummy, `p` pairs of integers, `t` a text, `e` a line's end.
const FORMS: [(&[u8], &[u8]); 49] = [
    (b"c", b"g"),
    (b"C", b"n"),
    (b"N", b"i"),
    (b"t", b"wd"),
    (b"u", b"iwd"),
    (b"H", b"i"),
    (b"h", b"i"),
    (b"V", b"i"),
    (b"v", b"i"),
    (b"p", b"i"),
    (b"f", b"i"),
    (b"s", b"i"),
    (b"mc", b"iii"),
    (b"md", b""),
    (b"mg", b"i"),
    (b"mk", b"iiii"),
    (b"mr", b"iii"),
    (b"n", b"ii"),
    (b"w", b""),
    (b"07", b"g"),
    (b"99", b"g"),
    (b"Dl", b"iie"),
    (b"Da", b"iiiie"),
    (b"Dc", b"ide"),
    (b"DC", b"ide"),
    (b"De", b"iie"),
    (b"DE", b"iie"),
    (b"Dp", b"pe"),
    (b"DP", b"pe"),
    (b"D~", b"pe"),
    (b"Dt", b"ie"),
    (b"Df", b"ie"),
    (b"DFc", b"iiie"),
    (b"DFd", b"e"),
    (b"DFg", b"ie"),
    (b"DFk", b"iiiie"),
    (b"DFr", b"iiie"),
    (b"xT", b"ne"),
    (b"xr", b"iiie"),
    (b"xi", b"e"),
    (b"xF", b"ne"),
    (b"xf", b"ine"),
    (b"xH", b"ie"),
    (b"xS", b"ie"),
    (b"xp", b"e"),
    (b"xt", b"e"),
    (b"xu", b"ie"),
    (b"xX", b"t"),
    (b"xs", b"e"),
];

/// Magnitudes near a limit of 01, or of a machine's number.
const NUMBERS: [&[u8]; 24] = [
    b"2",
    b"255",
    b"256",
    b"1000",
    b"32767",
    b"32768",
    b"65535",
    b"65536",
    b"65537",
    b"99999998",
    b"99999999",
    b"099999999",
    b"100000000",
    b"100000001",
    b"0100000000",
    b"999999999",
    b"2147483648",
    b"4294967295",
    b"4294967296",
    b"4394967296",
    b"18446744073709551615",
    b"18446744073709551616",
    b"18446744073809551616",
    b"00000000000000000000000000000000000000000000000001",
];

/// Bytes that mean something somewhere in a stream.
const BYTES: [u8; 48] = *b"cCNtuHhVvpfsmnwDxlaeEpP~FcdgkrTiXS0123456789-+# ";

/// A command of the grammar, its numbers and lengths at times outside their limits; then perhaps
/// damaged; or bytes that follow no grammar.
pub fn command(random: &mut Random) -> Vec<u8> {
    match random.below(10) {
        0 => (0..random.below(12)).map(|_| random.byte()).collect(),
        1 => (0..random.below(24)).map(|_| some_byte(random)).collect(),
        2..=4 => {
            let mut bytes = formed(random);
            damage(random, &mut bytes);
            bytes
        }
        _ => formed(random),
    }
}

fn some_byte(random: &mut Random) -> u8 {
    match random.below(12) {
        0 => b'\n',
        1 => b'\t',
        2 => random.byte(),
        _ => *random.pick(&BYTES),
    }
}

fn formed(random: &mut Random) -> Vec<u8> {
    let (letters, arguments) = *random.pick(&FORMS);
    let mut bytes = Vec::new();
    for letter in letters {
        bytes.push(*letter);
        bytes.extend(spacer(random));
    }
    if letters[0] == b'x' {
        bytes.extend(random.part(&[b"", b"", b" ", b"word ", b"1 "]));
    }
    for (number, argument) in arguments.iter().enumerate() {
        // a blank, but at times only what must stand there, or less
        bytes.extend(if number > 0 && !random.once_in(8) { b" ".to_vec() } else { spacer(random) });
        bytes.extend(argument_of(random, *argument));
    }
    bytes.extend(random.part(&[b"", b"\n", b" ", b"w", b"7", b"#", b"\nca"]));
    bytes
}

fn spacer(random: &mut Random) -> Vec<u8> {
    random.part(&[b"", b"", b"", b"", b" ", b"\t", b" \t "]).to_vec()
}

fn argument_of(random: &mut Random, kind: u8) -> Vec<u8> {
    match kind {
        b'i' => integer(random),
        b'g' => {
            let glyph = name_of(random, 1);
            perhaps_barred(random, glyph)
        }
        b'n' => {
            let name = name(random);
            perhaps_barred(random, name)
        }
        b'w' => {
            let length = if random.once_in(30) { 300 } else { 5 };
            let word = name_of(random, 1 + length);
            perhaps_barred(random, word)
        }
        b'd' if random.once_in(2) => integer(random),
        b'd' => Vec::new(),
        b'p' => pairs(random),
        b't' => text(random),
        _ => random.part(&[b"\n", b"\n", b"", b" \t\n", b"#c\n", b" #", b" x\n", b"0\n"]).to_vec(),
    }
}

/// Mostly 0 or 1, which fit every limit but one.
fn integer(random: &mut Random) -> Vec<u8> {
    let minus: &[u8] = if random.once_in(8) { b"-" } else { b"" };
    let digits: &[u8] = match random.below(8) {
        0 | 1 => random.part(&NUMBERS),
        2 => b"0",
        3 => return format!("{}", random.between(-100_000_010, 100_000_010)).into_bytes(),
        _ => b"1",
    };
    [minus, digits].concat()
}

fn name_of(random: &mut Random, length: usize) -> Vec<u8> {
    (0..length).map(|_| *random.pick(b"abcxDt#-+5~0!@_\x80\xa0\xff")).collect()
}

/// At times of 62 to 66 bytes.
fn name(random: &mut Random) -> Vec<u8> {
    let length = if random.once_in(8) { 62 + random.below(5) } else { 1 + random.below(6) };
    name_of(random, length)
}

/// Once in six times with a barred byte, the last one mostly.
fn perhaps_barred(random: &mut Random, mut name: Vec<u8>) -> Vec<u8> {
    if random.once_in(6) {
        bar(random, &mut name);
    }
    name
}

/// At times 62 to 66 or more integers, and at times an odd number.
fn pairs(random: &mut Random) -> Vec<u8> {
    let count = match random.below(12) {
        0 => 62 + random.below(6),
        1 => 120 + random.below(20),
        2 => random.below(4),
        _ => 2 * (1 + random.below(5)),
    };
    // in a long list hardly any number is outside its limit
    let is_plain = random.once_in(2);
    let one = |random: &mut Random| if is_plain { b"-1".to_vec() } else { integer(random) };
    (0..count).flat_map(|_| [one(random), b" ".to_vec()].concat()).collect()
}

/// Lines, at times 4,094 to 4,098 bytes in all.
fn text(random: &mut Random) -> Vec<u8> {
    let lines: [&[u8]; 7] = [b"", b"a b", b"#c", b"+", b" lead", b"\x00\xff", b"x s"];
    let mut text = random.part(&lines).to_vec();
    for _ in 0..random.below(4) {
        text.extend([random.part(&[b"\n+", b"\n+", b"\n+", b"\n", b"\n "]), random.part(&lines)].concat());
    }
    if random.once_in(12) {
        let added = text.iter().filter(|&&byte| byte == b'\n').count();
        let length = 4_094 + random.below(5) + added;
        text.resize(length.max(text.len()), b'z');
    }
    text
}

/// A width list: sound, near its limits, damaged, or of a length near the limit.
pub fn list(random: &mut Random) -> Vec<u8> {
    match random.below(400) {
        0 => return of_length(LIST_LIMIT - 2 + random.below(5)),
        1 => return vec![b'\n'; LIST_LIMIT + random.below(2)],
        2 => return Vec::new(),
        _ => {}
    }
    let mut list = if random.once_in(2) { sound_list(random).0 } else { edge_list(random) };
    if random.once_in(8) {
        bar_line(random, &mut list, b"font=");
    }
    if random.once_in(3) {
        damage(random, &mut list);
    }
    list
}

/// Numbers, bytes, names and counts near their limits.
fn edge_list(random: &mut Random) -> Vec<u8> {
    let units: [&[u8]; 12] =
        [b"1", b"1", b"1000", b"1000", b"99999", b"100000", b"100000", b"100001", b"0", b"01", b"-1", b""];
    let mut list = [b"unitwidth=", random.part(&units), b"\n"].concat();
    let fonts = if random.once_in(4) { 30 + random.below(4) } else { random.below(4) };
    for number in 0..fonts {
        list.extend(font_line(random, number));
        let mut byte = random.below(12);
        for _ in 0..if fonts > 9 { 0 } else { random.below(5) } {
            list.extend(edge_pair(random, byte));
            byte += if random.once_in(40) { 0 } else { 1 + random.below(60) };
        }
    }
    list
}

/// Mostly a name of its own.
fn font_line(random: &mut Random, number: usize) -> Vec<u8> {
    let length = if random.once_in(8) { 61 + random.below(3) } else { random.below(4) };
    let named = match random.below(60) {
        0 => Vec::new(),
        1 => b"a b".to_vec(),
        2 => b"A".to_vec(),
        _ => [&[b'A' + number as u8], &b"#".repeat(length)[..]].concat(),
    };
    [b"font=", &named[..], b"\n"].concat()
}

fn edge_pair(random: &mut Random, byte: usize) -> Vec<u8> {
    // 9, 10 and 32 have no width
    let byte = if matches!(byte, 9 | 10 | 32) && !random.once_in(8) { byte + 2 } else { byte };
    let widths: [&[u8]; 8] = [b"0", b"1", b"44", b"99999", b"100000", b"100000", b"7", b"1000"];
    let wrong: [&[u8]; 6] = [b"100001", b"00", b"01", b"", b"18446744073709551617", b"4294967296"];
    let width = if random.once_in(30) { random.part(&wrong) } else { random.part(&widths) };
    [format!("byte={byte}\nwidth=").as_bytes(), width, b"\n"].concat()
}

/// A query: of sound lines, some of them wrong, damaged, or of a length near the limit.
pub fn query(random: &mut Random) -> Vec<u8> {
    match random.below(200) {
        0 => return vec![b'\n'; QUERY_LIMIT + random.below(2)],
        1 => return Vec::new(),
        2 => return b"glyph=a\n".repeat(QUERY_LIMIT / 8 + random.below(2)),
        _ => {}
    }
    let lines = if random.once_in(8) { 62 + random.below(5) } else { 1 + random.below(6) };
    let mut query = Vec::new();
    for line in 0..lines {
        if (line > 0 && random.once_in(3)) || random.once_in(40) {
            query.extend(b"gap=any\n");
        }
        query.extend([b"glyph=", &name(random)[..], b"\n"].concat());
    }
    if random.once_in(20) {
        query.extend(b"gap=any\n");
    }
    if random.once_in(8) {
        bar_line(random, &mut query, b"glyph=");
    }
    if random.once_in(3) {
        damage(random, &mut query);
    }
    query
}
