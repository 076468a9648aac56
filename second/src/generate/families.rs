//! Family lists: sound ones, in which names of a stream and of its query are members, and wrong ones.

use super::barred::bar_line;
use super::damage::{damage, lines};
use super::query::{insert_line, write_query};
use super::random::Random;
use super::Case;
use crate::bytes::NAME_LIMIT;
use crate::families::{read_families, FAMILY_LIMIT, MEMBER_LIMIT};
use crate::find::{read_query, QueryGlyph};
use crate::refusal::LIST_LIMIT;
use crate::{read, Rooms};
use std::collections::BTreeSet;

/// The names of one family, the first name first.
pub type Family = Vec<Vec<u8>>;

/// Names that any family may have: of one byte, beginnings of others, what an `N` glyph may be taken for, what
/// looks like a key or a line, and the longest.
const OTHERS: [&[u8]; 27] = [
    b"'e",
    b"u0065_0301",
    b"\xe9",
    b"A",
    b"B",
    b"a",
    b"b",
    b"aa",
    b"ab",
    b"abc",
    b"97",
    b"98",
    b"0",
    b"name=",
    b"name=a",
    b"same=",
    b"same=b",
    b"glyph=a",
    b"gap=any",
    b"=",
    b"#",
    b"-1",
    b"~",
    b"\xff",
    &[b'n'; 63],
    &[b'n'; 64],
    &[b'm'; 64],
];

/// The lines of a list.
pub fn write_families(families: &[Family]) -> Vec<u8> {
    let mut list = Vec::new();
    for family in families {
        for (place, name) in family.iter().enumerate() {
            let key: &[u8] = if place == 0 { b"name=" } else { b"same=" };
            list.extend(key);
            list.extend(name);
            list.push(b'\n');
        }
    }
    list
}

/// The families of a sound list around some names: none, a few, many or as many as there may be.
pub fn sound_families(random: &mut Random, names: &[Vec<u8>]) -> Vec<Family> {
    match random.below(100) {
        0..=24 => Vec::new(),
        25..=91 => few_families(random, names),
        92..=98 => {
            let count = 5 + random.below(50);
            many_families(random, names, count, 2)
        }
        _ => many_families(random, names, FAMILY_LIMIT, MEMBER_LIMIT),
    }
}

/// One to six families out of these names, names that are nearly the same, and others.
fn few_families(random: &mut Random, names: &[Vec<u8>]) -> Vec<Family> {
    let mut taken = BTreeSet::new();
    let near = near_names(names);
    let mut wanted = random.shuffled(&names.iter().map(Vec::as_slice).collect::<Vec<_>>());
    let mut others = random.shuffled(&near.iter().map(Vec::as_slice).chain(OTHERS).collect::<Vec<_>>());
    let mut families = Vec::new();
    for _ in 0..1 + random.below(6) {
        let size = if random.once_in(6) { MEMBER_LIMIT } else { 2 + random.below(3) };
        let mut family = Family::new();
        while family.len() < size {
            let is_wanted = !wanted.is_empty() && random.once_in(2);
            let next = if is_wanted { wanted.pop() } else { others.pop() };
            let Some(name) = next else { break };
            if taken.insert(name) {
                family.push(name.to_vec());
            }
        }
        families.push(family);
    }
    families.retain(|family| family.len() > 1);
    families
}

/// Each name with a byte more, and with a byte less.
fn near_names(names: &[Vec<u8>]) -> Vec<Vec<u8>> {
    let longer = names.iter().map(|name| [&name[..], b"'"].concat());
    let shorter = names.iter().map(|name| name[..name.len() - 1].to_vec());
    longer.chain(shorter).filter(|name| (1..=NAME_LIMIT).contains(&name.len())).collect()
}

/// So many families of `least` to eight numbered names, into which the names are put, often in the first or
/// the last of them.
fn many_families(random: &mut Random, names: &[Vec<u8>], count: usize, least: usize) -> Vec<Family> {
    let mut families: Vec<Family> = Vec::new();
    for number in 0..count {
        let size = least + random.below(MEMBER_LIMIT - least + 1);
        families.push((0..size).map(|member| format!("{number}.{member}").into_bytes()).collect());
    }
    let others = OTHERS.iter().map(|name| name.to_vec());
    let distinct: BTreeSet<Vec<u8>> = names.iter().cloned().chain(others).collect();
    let mut filled = BTreeSet::new();
    for name in distinct {
        let any = random.below(count);
        let number = *random.pick(&[0, any, any, count - 1]);
        let family = &mut families[number];
        let any = random.below(family.len());
        let member = *random.pick(&[0, any, any, family.len() - 1]);
        if filled.insert((number, member)) {
            family[member] = name;
        }
    }
    families
}

/// A list in order of so many bytes, 256 to 65,791: families of eight names, of which the last has what is
/// left.
pub fn of_length(length: usize) -> Vec<u8> {
    let (count, rest) = (length / 256, length % 256);
    let mut list = Vec::new();
    for number in 0..count {
        let more = if number + 1 == count { rest } else { 0 };
        for member in 0..MEMBER_LIMIT {
            let key = if member == 0 { "name" } else { "same" };
            let line = 31 + more / MEMBER_LIMIT + usize::from(member < more % MEMBER_LIMIT);
            let name = format!("{key}={number}.{member}");
            list.extend(format!("{name:.<line$}\n").bytes());
        }
    }
    list
}

/// The names of a stream's records, where it is accepted, and of a query.
pub fn names_of(stream: &[u8], list: &[u8], query: &[u8]) -> Vec<Vec<u8>> {
    let records = read(stream, list, Rooms::default()).map(|reading| reading.records).unwrap_or_default();
    let glyphs = read_query(query).unwrap_or_default();
    let names = records.iter().map(|record| record.name(stream).to_vec());
    let distinct: BTreeSet<Vec<u8>> = names.chain(glyphs.into_iter().map(|glyph| glyph.name)).collect();
    distinct.into_iter().filter(|name| (1..=NAME_LIMIT).contains(&name.len())).collect()
}

/// Gives a case a sound family list around its names, and its query other names of their families.
pub fn add_families(random: &mut Random, case: &mut Case) {
    let names = names_of(&case.stream, &case.list, &case.query);
    let families = sound_families(random, &names);
    case.families = write_families(&families);
    if families.is_empty() {
        return;
    }
    if let Ok(mut glyphs) = read_query(&case.query) {
        rename(random, &mut glyphs, &families);
        case.query = write_query(&glyphs);
    }
}

/// Puts other members in the place of names, and now and then one of another family.
fn rename(random: &mut Random, glyphs: &mut [QueryGlyph], families: &[Family]) {
    for glyph in glyphs.iter_mut() {
        let family = families.iter().find(|family| family.contains(&glyph.name));
        if let Some(family) = family.filter(|_| !random.once_in(3)) {
            glyph.name = random.pick(family).clone();
        }
    }
    if random.once_in(12) {
        let place = random.below(glyphs.len());
        let family = random.below(families.len());
        glyphs[place].name = random.pick(&families[family]).clone();
    }
}

/// Lines that are wrong wherever they stand.
const WRONG_LINES: [&[u8]; 20] = [
    b"\n",
    b"\n\n",
    b" \n",
    b"#c\n",
    b"name=\n",
    b"same=\n",
    b"name\n",
    b"same\n",
    b"name a\n",
    b" name=x1\n",
    b"\tsame=x1\n",
    b"same=x1 \n",
    b"name=x1 x2\n",
    b"same=x1\tx2\n",
    b"Name=x1\n",
    b"sames=x1\n",
    b"glyph=a\n",
    b"gap=any\n",
    b"font=TR\n",
    b"same=x1\r\n",
];

/// A sound list made wrong, mostly in one way.
pub fn wrong_families(random: &mut Random, sound: &[u8]) -> Vec<u8> {
    let mut list = if sound.is_empty() { b"name=a\nsame=b\nsame=c\n".to_vec() } else { sound.to_vec() };
    match random.below(18) {
        _ if read_families(&list).is_err() => damage(random, &mut list),
        0 => drop(list.pop()),
        1 => list.truncate(random.below(list.len())),
        2 | 3 => repeat_name(random, &mut list),
        4 | 5 => drop_same(random, &mut list),
        6 => add_names(random, &mut list),
        7 => list = too_many(random),
        8..=10 => {
            let line = random.part(&WRONG_LINES);
            insert_line(random, &mut list, line);
        }
        11 => {
            let line =
                [random.part(&[b"name=", b"same="]), &vec![b'z'; 64 + random.below(2)], b"\n"].concat();
            insert_line(random, &mut list, &line);
        }
        12 | 13 => {
            let key = random.part(&[b"name=", b"same="]);
            bar_line(random, &mut list, key);
        }
        14 => change_key(random, &mut list),
        15 => put_blank(random, &mut list),
        16 if random.once_in(3) => list = as_long(random),
        _ => damage(random, &mut list),
    }
    list
}

/// Puts the name of one line in another, or a line behind itself.
fn repeat_name(random: &mut Random, list: &mut Vec<u8>) {
    let mut lines = lines(list);
    let (from, to) = (random.below(lines.len()), random.below(lines.len()));
    let line = lines[from].clone();
    match random.below(4) {
        0 => lines.insert(from + 1, line),
        1 => lines.push(line),
        _ => drop(lines[to].splice(5.., line[5..].iter().copied())),
    }
    *list = lines.concat();
}

/// Takes the `same=` lines of a family away, or puts a `name=` line before or behind one.
fn drop_same(random: &mut Random, list: &mut Vec<u8>) {
    let mut lines = lines(list);
    let starts: Vec<usize> = (0..lines.len()).filter(|&place| lines[place].starts_with(b"name=")).collect();
    let Some(&start) = starts.get(random.below(starts.len() + 1)) else {
        list.extend(b"name=x1\n");
        return;
    };
    let count = lines[start + 1..].iter().take_while(|line| line.starts_with(b"same=")).count();
    match random.below(3) {
        0 => lines.insert(start, b"name=x1\n".to_vec()),
        1 => lines.insert(start + 1, b"name=x1\n".to_vec()),
        _ => drop(lines.drain(start + 1..start + 1 + count)),
    }
    *list = lines.concat();
}

/// Gives a family eight, nine or ten names, of which the last may be a repeat or lack its newline.
fn add_names(random: &mut Random, list: &mut Vec<u8>) {
    let mut lines = lines(list);
    let starts: Vec<usize> = (0..lines.len()).filter(|&place| lines[place].starts_with(b"name=")).collect();
    let start = *random.pick(&starts);
    let count = 1 + lines[start + 1..].iter().take_while(|line| line.starts_with(b"same=")).count();
    let wanted = MEMBER_LIMIT + random.below(3);
    for member in count..wanted {
        lines.insert(start + member, format!("same=x{member}\n").into_bytes());
    }
    if random.once_in(4) {
        let place = start + wanted - 1;
        lines[place] = random.part(&[b"same=x7\n", b"same=\n", b"same=x9", b"name=x9\n"]).to_vec();
    }
    *list = lines.concat();
}

/// 256 families and something behind them.
fn too_many(random: &mut Random) -> Vec<u8> {
    let least = if random.once_in(4) { MEMBER_LIMIT } else { 2 };
    let mut list = write_families(&many_families(random, &[], FAMILY_LIMIT, least));
    list.extend(random.part(&[
        b"name=x1\nsame=x2\n",
        b"name=x1\nsame=x2\n",
        b"name=x1\n",
        b"name=x1",
        b"name=a\nsame=x1\n",
        b"same=x1\n",
        b"\n",
    ]));
    list
}

fn change_key(random: &mut Random, list: &mut Vec<u8>) {
    let mut lines = lines(list);
    let place = random.below(lines.len());
    let key = random
        .part(&[b"nam=", b"names=", b"Same=", b"SAME=", b"font=", b"glyph=", b"=", b"", b"name=", b"same="]);
    lines[place].splice(..5, key.iter().copied());
    *list = lines.concat();
}

fn put_blank(random: &mut Random, list: &mut Vec<u8>) {
    let place = random.below(list.len());
    list.insert(place, *random.pick(b" \t"));
}

/// As long as a list may be, or a byte more or less; at times in order but for that.
fn as_long(random: &mut Random) -> Vec<u8> {
    let length = LIST_LIMIT - 1 + random.below(3);
    if random.once_in(2) {
        return of_length(length);
    }
    let mut list = b"name=a\nsame=b\n".to_vec();
    list.resize(length, *random.pick(b"\nx"));
    list
}
