//! What must hold of every input, tried on generated ones.

mod naive;

use naive::{families_of, names_match, Family};
use second::bytes::skip_whitespace_and_comments;
use second::command::{scan, Command};
use second::find::{read_query, QueryGlyph};
use second::generate::barred::barred_byte;
use second::generate::outline::{outline, write_outline, OUTLINE_LIST};
use second::generate::random::Random;
use second::generate::stream::barred::KINDS;
use second::generate::stream::fault::{arguments_of, places, Argument, FORMS};
use second::generate::stream::Manner;
use second::generate::{case, sound_case, Case};
use second::read::Walk;
use second::same::same_readings;
use second::widths::read_list;
use second::{find, read, respell, Reading, Record, Refusal, Rooms};
use std::collections::BTreeMap;
use std::ops::Range;

/// Seeds for the counts of refusals, and for the other properties.
const MANY_SEEDS: u64 = 100_000;
const SEEDS: u64 = 40_000;
const NO_LIMIT: Rooms =
    Rooms { records: usize::MAX, entries: usize::MAX, hits: usize::MAX, spelling: usize::MAX };

/// The accepted cases among the first `count` seeds, with their readings.
fn accepted(count: u64) -> impl Iterator<Item = (u64, Case, Reading)> {
    (0..count).filter_map(|seed| {
        let case = case(seed);
        let reading = read(&case.stream, &case.list, NO_LIMIT).ok()?;
        Some((seed, case, reading))
    })
}

#[test]
fn a_case_depends_on_its_seed_alone() {
    for seed in 0..200 {
        assert_eq!(case(seed), case(seed), "seed {seed}");
    }
    assert_ne!(case(1).stream, case(2).stream);
}

#[test]
fn sound_cases_are_accepted_but_for_reach() {
    for seed in 0..20_000 {
        let case = sound_case(&mut Random::new(seed), Manner::default());
        let refusal = find(&case.stream, &case.list, &case.families, &case.query, NO_LIMIT).err();
        let is_expected = refusal.is_none_or(|refusal| refusal.number == 10 || refusal.number == 12);
        assert!(is_expected, "seed {seed}: {refusal:?}\n{}", case.stream.escape_ascii());
    }
}

/// The letters of the lines of a spelling, `x` and `D` with theirs; `+` lines aside.
fn letters_of(spelling: &[u8]) -> impl Iterator<Item = Vec<u8>> + '_ {
    let lines = spelling.split(|&byte| byte == b'\n').filter(|line| !line.is_empty() && line[0] != b'+');
    lines.map(|line| match line[0] {
        b'x' => line[..3].to_vec(),
        _ => line.split(|&byte| byte == b' ').next().unwrap_or_default().to_vec(),
    })
}

#[test]
fn every_command_is_generated() {
    let mut counts = BTreeMap::new();
    let mut lengths = Vec::new();
    for (_, case, _) in accepted(20_000) {
        lengths.push(case.stream.len());
        let spelling = respell(&case.stream, &case.list, NO_LIMIT).unwrap();
        letters_of(&spelling).for_each(|letters| *counts.entry(letters).or_insert(0) += 1);
    }
    lengths.sort_unstable();
    println!("length of the middle stream: {}", lengths[lengths.len() / 2]);
    let all = "c C N H V p f s mc md mg mk mr n w Dl Da Dc DC De DE Dp DP D~ Dt Df DFc DFd DFg DFk DFr";
    let controls = ["x T", "x r", "x i", "x F", "x f", "x H", "x S", "x p", "x t", "x u", "x s", "x X"];
    for letters in all.split(' ').chain(controls) {
        let count = counts.get(letters.as_bytes()).copied().unwrap_or(0);
        assert!(count > 100, "{letters}: {count}");
    }
    assert_eq!(counts.len(), 31 + controls.len());
}

#[test]
fn every_refusal_comes_and_a_third_is_accepted() {
    let mut counts = [[0u32; 17]; 3];
    for seed in 0..MANY_SEEDS {
        let Case { stream, list, families, query, rooms } = case(seed);
        let numbers = [
            read(&stream, &list, rooms).err(),
            respell(&stream, &list, rooms).err(),
            find(&stream, &list, &families, &query, rooms).err(),
        ];
        for (routine, refusal) in numbers.iter().enumerate() {
            counts[routine][refusal.map_or(0, |refusal| usize::from(refusal.number))] += 1;
        }
    }
    for (routine, counts) in ["reader", "rewriter", "finder"].iter().zip(&counts) {
        println!("{routine}: accepted {}, refused 1 to 16: {:?}", counts[0], &counts[1..]);
        assert!(u64::from(counts[0]) * 3 >= MANY_SEEDS, "{routine} accepts {}", counts[0]);
    }
    for (routine, counts) in counts.iter().enumerate() {
        let numbers: Vec<usize> = (1..=16).filter(|&number| counts[number] > 0).collect();
        let reader = [1, 2, 3, 4, 5, 6, 7, 8, 9, 10, 11, 13, 16];
        let finder = [1, 2, 3, 4, 5, 6, 7, 8, 9, 10, 11, 12, 13, 14, 16];
        assert_eq!(numbers, if routine < 2 { &reader[..] } else { &finder });
    }
}

#[test]
fn a_refusal_has_its_offset() {
    for seed in 0..SEEDS {
        let Case { stream, list, families, query, rooms } = case(seed);
        let Err(Refusal { number, offset }) = find(&stream, &list, &families, &query, rooms) else {
            continue;
        };
        let is_command = stream.get(offset).is_some_and(|byte| !b" \t\n".contains(byte));
        let is_line = |bytes: &[u8]| offset == 0 || bytes.get(offset - 1) == Some(&b'\n');
        let fits = match number {
            1 | 13 => offset == 0,
            2 => is_line(&list),
            3..=5 | 7..=10 | 16 => is_command,
            // an argument, or the empty first line of a text
            6 => is_command || stream[offset..].starts_with(b"\n+"),
            11 => offset == stream.len(),
            12 => is_line(&query) && (offset < query.len() || query.is_empty()),
            14 => is_line(&families),
            _ => false,
        };
        assert!(fits, "seed {seed}: {number} at {offset}");
    }
}

/// Where the command at fault begins: behind all that was accepted.
fn command_at_fault(stream: &[u8], list: &[u8]) -> usize {
    let widths = read_list(list).unwrap();
    let (mut walk, mut end) = (Walk::new(stream, &widths), 0);
    while let Ok(Some(step)) = walk.step(&mut Vec::new()) {
        end = step.end;
    }
    skip_whitespace_and_comments(stream, end)
}

/// What stands before a command at fault is sound: alone it lacks only `x s`. The offset is the
/// command's, of 6 one behind its letters.
#[test]
fn all_before_a_faulty_command_is_sound() {
    for seed in 0..SEEDS {
        let Case { stream, list, .. } = case(seed);
        let Err(Refusal { number: number @ (3..=10 | 16), offset }) = read(&stream, &list, NO_LIMIT) else {
            continue;
        };
        let place = command_at_fault(&stream, &list);
        assert!(
            if number == 6 { place < offset } else { place == offset },
            "seed {seed}: {number} at {offset}"
        );
        let before = read(&stream[..place], &list, NO_LIMIT).err();
        let expected = Some(Refusal { number: 11, offset: place });
        assert!(before == expected || before.is_none(), "seed {seed}: {before:?} for {place}");
    }
}

#[test]
fn the_routines_refuse_alike() {
    for seed in 0..SEEDS {
        let Case { stream, list, families, query, .. } = case(seed);
        let reader = read(&stream, &list, NO_LIMIT).err();
        assert_eq!(respell(&stream, &list, NO_LIMIT).err(), reader, "seed {seed}");
        let finder = find(&stream, &list, &families, &query, NO_LIMIT).err();
        let is_finders = finder.is_some_and(|refusal| [1, 12, 14].contains(&refusal.number));
        assert!(is_finders || finder == reader, "seed {seed}: {finder:?} {reader:?}");
    }
}

#[test]
fn the_spelling_reads_the_same() {
    let mut count = 0;
    for (seed, case, reading) in accepted(SEEDS) {
        let spelling = respell(&case.stream, &case.list, NO_LIMIT).unwrap();
        let other = read(&spelling, &case.list, NO_LIMIT)
            .unwrap_or_else(|refusal| panic!("seed {seed}: {refusal:?}"));
        assert!(same_readings(&case.stream, &reading, &spelling, &other), "seed {seed}");
        count += 1;
    }
    println!("{count} streams");
    assert!(count > SEEDS / 3);
}

#[test]
fn the_spelling_is_a_fixed_point() {
    for (seed, case, _) in accepted(SEEDS) {
        let spelling = respell(&case.stream, &case.list, NO_LIMIT).unwrap();
        assert_eq!(respell(&spelling, &case.list, NO_LIMIT).as_ref(), Ok(&spelling), "seed {seed}");
    }
}

/// A spelling with `Dc` for every `Dt`.
fn with_circles(spelling: &[u8]) -> Vec<u8> {
    let lines = spelling.split_inclusive(|&byte| byte == b'\n');
    let changed = lines.map(|line| match line.strip_prefix(b"Dt ") {
        Some(number) => [b"Dc ", number].concat(),
        None => line.to_vec(),
    });
    changed.collect::<Vec<_>>().concat()
}

/// 2026-02: `Dt` moves as `Dc` does: with the one for the other all stands where it stood.
#[test]
fn a_thickness_moves_as_a_circle() {
    let mut count = 0;
    for (seed, case, reading) in accepted(SEEDS) {
        let spelling = respell(&case.stream, &case.list, NO_LIMIT).unwrap();
        let circles = with_circles(&spelling);
        if circles == spelling {
            continue;
        }
        let other = read(&circles, &case.list, NO_LIMIT).unwrap();
        let places = |reading: &Reading| -> Vec<(i32, i32)> {
            let glyphs = reading.records.iter().map(|record| (record.h, record.v));
            glyphs.chain(reading.entries.iter().map(|entry| (entry.h, entry.v))).collect()
        };
        assert_eq!(places(&other), places(&reading), "seed {seed}");
        assert_eq!((other.h, other.v), (reading.h, reading.v), "seed {seed}");
        count += 1;
    }
    println!("{count} streams");
    assert!(count > 1_000);
}

/// The number of the `Dt` at a place.
fn thickness_at(stream: &[u8], place: usize) -> Option<i64> {
    match scan(stream, place).ok()?.command {
        Command::Drawing { letter: b't', arguments } => Some(arguments[0]),
        _ => None,
    }
}

/// Thicknesses come up to the limit of h, on both sides, and past it.
#[test]
fn thicknesses_come_to_the_limit() {
    let (mut reach, mut pass) = ([0, 0], [0, 0]);
    for seed in 0..MANY_SEEDS {
        let Case { stream, list, .. } = case(seed);
        match read(&stream, &list, NO_LIMIT) {
            Ok(reading) => {
                for entry in &reading.entries {
                    let thickness = thickness_at(&stream, entry.place as usize).filter(|&n| n != 0);
                    let h = thickness.map_or(0, |n| i64::from(entry.h) + n);
                    reach[0] += u32::from(h == 99_999_999);
                    reach[1] += u32::from(h == -99_999_999);
                }
            }
            Err(Refusal { number: 10, offset }) => {
                if let Some(n) = thickness_at(&stream, offset) {
                    pass[usize::from(n < 0)] += 1;
                }
            }
            Err(_) => {}
        }
    }
    println!("reached {reach:?}, passed {pass:?}");
    assert!(reach.iter().all(|&count| count > 20) && pass.iter().all(|&count| count > 100));
}

/// The end of the run of such bytes from a place on.
fn run_end(stream: &[u8], from: usize, belongs: impl Fn(u8) -> bool) -> usize {
    stream[from..].iter().position(|&byte| !belongs(byte)).map_or(stream.len(), |length| from + length)
}

/// The letters of a command that has an argument with a limit, and the place behind them or its word.
fn letters_at(stream: &[u8], place: usize) -> (&'static str, usize) {
    let spelt = |letters: &'static str| {
        let places = (place..stream.len()).filter(|&at| !b" \t".contains(&stream[at])).take(letters.len());
        let places: Vec<usize> = places.collect();
        let agree = places.iter().map(|&at| stream[at]).eq(letters.bytes());
        agree.then(|| (letters, places[places.len() - 1] + 1))
    };
    let (letters, end) =
        FORMS.iter().find_map(|(letters, _)| spelt(letters)).expect("a command with a limit");
    match letters.starts_with('x') {
        true => (letters, run_end(stream, end, |byte| !b" \t\n".contains(&byte))),
        false => (letters, end),
    }
}

/// The end of the argument that begins at a place; the place itself where none stands there.
fn argument_end(stream: &[u8], start: usize, argument: Argument) -> usize {
    match argument {
        Argument::Name | Argument::Word => run_end(stream, start, |byte| !b" \t\n".contains(&byte)),
        Argument::Text => {
            let mut end = run_end(stream, start, |byte| byte != b'\n');
            while stream[end..].starts_with(b"\n+") {
                end = run_end(stream, end + 1, |byte| byte != b'\n');
            }
            end
        }
        _ => run_end(stream, start + usize::from(stream[start..].starts_with(b"-")), |byte| {
            byte.is_ascii_digit()
        }),
    }
}

/// The letters of a command whose form is in order, and where its arguments stand, dummies too.
fn arguments_at(stream: &[u8], place: usize) -> (&'static str, Vec<Range<usize>>) {
    let (letters, mut at) = letters_at(stream, place);
    let arguments = arguments_of(letters);
    let count = if arguments == [Argument::Pairs] { usize::MAX } else { arguments.len() };
    let mut ranges = Vec::new();
    for number in 0..count {
        let start = run_end(stream, at, |byte| b" \t".contains(&byte));
        at = argument_end(stream, start, arguments[number.min(arguments.len() - 1)]);
        if at == start {
            break;
        }
        ranges.push(start..at);
    }
    (letters, ranges)
}

/// A stream that ends with the command of these arguments, 64 at most, all of them harmless but one.
fn with_one_kept(stream: &[u8], arguments: &[Range<usize>], kept: usize) -> Vec<u8> {
    let mut bytes = stream[..arguments[0].start].to_vec();
    for (number, range) in arguments.iter().take(64).enumerate() {
        let argument = if number == kept { &stream[range.clone()] } else { b"1" };
        bytes.extend([b" ", argument].concat());
    }
    bytes
}

/// 2026-12: a 6 points at the first argument that makes a 6 by itself, where all others are harmless; where
/// none of the first 64 does, at the 65th.
#[test]
fn a_6_points_at_the_first_argument_outside() {
    let (mut single, mut several) = (0, 0);
    for seed in 0..SEEDS {
        let Case { stream, list, .. } = case(seed);
        let Err(Refusal { number: 6, offset }) = read(&stream, &list, NO_LIMIT) else { continue };
        let (letters, arguments) = arguments_at(&stream, command_at_fault(&stream, &list));
        let is_outside = |number: &usize| {
            let answer = read(&with_one_kept(&stream, &arguments, *number), &list, NO_LIMIT);
            answer.is_err_and(|refusal| refusal.number == 6)
        };
        let outside: Vec<usize> = (0..arguments.len().min(64)).filter(is_outside).collect();
        let first = outside.first().copied().unwrap_or(64);
        assert_eq!(arguments[first].start, offset, "seed {seed}: {letters}, argument {first}");
        match outside.len() + arguments.len().saturating_sub(64) {
            1 => single += 1,
            _ => several += 1,
        }
    }
    println!("one argument outside: {single}, several: {several}");
    assert!(single > 1_000 && several > 200);
}

/// Whether the command at a place stands behind `x s` and has an argument outside its limit.
fn is_fault_behind_stop(stream: &[u8], list: &[u8], place: usize) -> bool {
    let is_stopped = read(&stream[..place], list, NO_LIMIT).is_ok();
    is_stopped && scan(stream, place).is_err_and(|refusal| refusal.number == 6)
}

/// Each argument place that has a limit is the one at fault in many streams; so is a text whose first line is
/// empty; and behind `x s` such a command is 7 at its first byte.
#[test]
fn faults_come_at_every_argument_place() {
    let (mut counts, mut empty_lines, mut behind_stop) = (BTreeMap::new(), 0, 0);
    for seed in 0..MANY_SEEDS {
        let Case { stream, list, .. } = case(seed);
        match read(&stream, &list, NO_LIMIT) {
            Err(Refusal { number: 6, offset }) => {
                let (letters, arguments) = arguments_at(&stream, command_at_fault(&stream, &list));
                let number = arguments.iter().position(|range| range.start == offset).unwrap();
                let is_middle = arguments_of(letters) == [Argument::Pairs] && (1..63).contains(&number);
                *counts.entry((letters, if is_middle { 1 } else { number })).or_insert(0) += 1;
                empty_lines += u32::from(stream[offset] == b'\n');
            }
            Err(Refusal { number: 7, offset }) => {
                behind_stop += u32::from(is_fault_behind_stop(&stream, &list, offset));
            }
            _ => {}
        }
    }
    println!("faults {counts:?}, empty first lines {empty_lines}, behind `x s` {behind_stop}");
    for place in places() {
        assert!(counts.get(&place).is_some_and(|&count| count >= 30), "too few of {place:?}");
    }
    assert_eq!(counts.len(), places().len());
    assert!(empty_lines > 20 && behind_stop > 100);
}

/// 2026-06, once more: "any byte 0 to 8, 11 to 31 or 127".
fn is_barred(byte: u8) -> bool {
    byte == 127 || (byte < 32 && byte != 9 && byte != 10)
}

/// The same bytes one by one.
const BARRED: [u8; 31] = [
    0, 1, 2, 3, 4, 5, 6, 7, 8, 11, 12, 13, 14, 15, 16, 17, 18, 19, 20, 21, 22, 23, 24, 25, 26, 27, 28, 29,
    30, 31, 127,
];

/// The generator and the second program bar the bytes of 2026-06, and no others.
#[test]
fn the_barred_bytes_are_those_of_the_request() {
    for byte in 0..=255 {
        let expected = BARRED.contains(&byte);
        assert_eq!(second::bytes::is_barred(byte), expected, "byte {byte}");
        assert_eq!(is_barred(byte), expected, "byte {byte}");
    }
}

/// A line, or a part of one, with a letter for every barred byte.
fn with_letters(bytes: &[u8]) -> Vec<u8> {
    bytes.iter().map(|&byte| if is_barred(byte) { b'a' } else { byte }).collect()
}

/// A stream with a letter for every barred byte on the line from a place on: "All arguments of a command
/// stand on its line".
fn with_letters_from(stream: &[u8], place: usize) -> Vec<u8> {
    let end = run_end(stream, place, |byte| byte != b'\n');
    [&stream[..place], &with_letters(&stream[place..end]), &stream[end..]].concat()
}

/// The kind of a command that has a name, a glyph or a word, and where that stands.
fn name_at(stream: &[u8], place: usize) -> Option<(&'static str, Range<usize>)> {
    let scanned = scan(&with_letters_from(stream, place), place).ok()?;
    let name = scanned.command.name()?;
    let letters = match scanned.command {
        Command::Pair { .. } => "00",
        Command::Control { letter, .. } => {
            KINDS.into_iter().find(|kind| kind.as_bytes() == [b'x', letter])?
        }
        _ => KINDS.into_iter().find(|kind| kind.as_bytes() == [stream[place]])?,
    };
    Some((letters, name.place..name.end()))
}

/// Where in a name its barred bytes stand, if there are any: 0 for all bytes of it, 1 for the first alone,
/// 2 for the last alone, 3 for others.
fn barred_places(name: &[u8]) -> Option<usize> {
    let places: Vec<usize> = (0..name.len()).filter(|&place| is_barred(name[place])).collect();
    match places[..] {
        [] => None,
        _ if places.len() == name.len() => Some(0),
        [0] => Some(1),
        [place] if place + 1 == name.len() => Some(2),
        _ => Some(3),
    }
}

/// 2026-06: an accepted stream has no barred byte in a name; one in the place of any byte of a name is 16 at
/// that command, and nothing else.
#[test]
fn a_barred_byte_in_a_name_is_16() {
    let mut counts = BTreeMap::new();
    for (seed, case, _) in accepted(SEEDS) {
        let widths = read_list(&case.list).unwrap();
        let mut walk = Walk::new(&case.stream, &widths);
        let mut random = Random::new(seed);
        while let Some(step) = walk.step(&mut Vec::new()).unwrap() {
            let Some(name) = step.command.name() else { continue };
            assert!(!name.of(&case.stream).iter().any(|&byte| is_barred(byte)), "seed {seed}");
            let any = random.below(name.length);
            let place = name.place + *random.pick(&[0, any, name.length - 1]);
            let mut stream = case.stream.clone();
            stream[place] = barred_byte(&mut random);
            let refusal = read(&stream, &case.list, NO_LIMIT).err();
            let expected = Some(Refusal { number: 16, offset: step.place });
            assert_eq!(refusal, expected, "seed {seed}: byte {} at {place}", stream[place]);
            let (kind, range) = name_at(&stream, step.place).unwrap();
            assert_eq!(range, name.place..name.end(), "seed {seed}");
            *counts.entry(kind).or_insert(0) += 1;
        }
    }
    println!("names {counts:?}");
    assert!(KINDS.iter().all(|kind| counts.get(kind).is_some_and(|&count| count > 1_000)));
}

/// Each kind of name is the one at fault in many streams, with the barred byte first, last, in the middle and
/// alone; with a letter in its place there is no 16 at that command, and at times another refusal.
#[test]
fn barred_bytes_come_in_every_kind_of_name() {
    let (mut counts, mut behind, mut covered) = (BTreeMap::new(), BTreeMap::new(), BTreeMap::new());
    for seed in 0..MANY_SEEDS {
        let Case { stream, list, .. } = case(seed);
        match read(&stream, &list, NO_LIMIT) {
            Err(Refusal { number: 16, offset }) => {
                let changed = with_letters_from(&stream, offset);
                let next = read(&changed, &list, NO_LIMIT).err();
                let next = next.filter(|_| command_at_fault(&changed, &list) == offset);
                let next = next.map(|refusal| refusal.number);
                assert!(matches!(next, None | Some(7..=10)), "seed {seed}: {next:?}");
                *behind.entry(next).or_insert(0) += 1;
                let (kind, range) = name_at(&stream, offset).unwrap();
                let places = barred_places(&stream[range]).unwrap_or_else(|| panic!("seed {seed}"));
                *counts.entry((kind, places)).or_insert(0) += 1;
            }
            Err(refusal @ Refusal { number: 4..=7, .. }) => {
                let place = command_at_fault(&stream, &list);
                let is_named = has_barred_name(&stream, place);
                let next = read(&with_letters_from(&stream, place), &list, NO_LIMIT).err();
                if is_named && next == Some(refusal) {
                    *covered.entry(refusal.number).or_insert(0) += 1;
                }
            }
            _ => {}
        }
    }
    println!("at fault {counts:?}, else {behind:?}; another number first {covered:?}");
    for kind in KINDS {
        let places = if ["c", "00"].contains(&kind) { 0..=0 } else { 0..=3 };
        for place in places {
            let count = counts.get(&(kind, place)).copied().unwrap_or(0);
            assert!(count >= 20, "{kind}, {place}: {count}");
        }
    }
    let least = [(None, 300), (Some(7), 100), (Some(8), 50), (Some(9), 50), (Some(10), 30)];
    assert!(least.iter().all(|(number, least)| behind.get(number).is_some_and(|count| count >= least)));
    assert!((4..=7).all(|number| covered.get(&number).is_some_and(|&count| count >= 50)));
}

/// Whether the bytes behind the letters of a command of these kinds hold a barred one before any comment or
/// line end.
fn has_barred_name(stream: &[u8], place: usize) -> bool {
    let end = run_end(stream, place, |byte| byte != b'\n');
    let line = &stream[place..end];
    let word = match line {
        [b'x', ..] => {
            let start = run_end(line, 1, |byte| b" \t".contains(&byte));
            let is_named = line.get(start).is_some_and(|byte| b"TFf".contains(byte));
            is_named.then(|| run_end(line, start, |byte| !b" \t".contains(&byte)))
        }
        [letter, ..] => b"cCtu0123456789".contains(letter).then_some(1),
        [] => None,
    };
    word.is_some_and(|word| line[word..].iter().any(|&byte| is_barred(byte)))
}

/// The keys of lines with a name.
const NAME_KEYS: [&str; 4] = ["font=", "name=", "same=", "glyph="];

/// In lists and queries too: the wrong line is one with a barred byte in its name, and with a letter in its
/// place another line is wrong, or none.
#[test]
fn barred_bytes_come_in_lists_and_queries() {
    let mut counts = BTreeMap::new();
    for seed in 0..MANY_SEEDS {
        let Case { stream, list, families, query, .. } = case(seed);
        let mut inputs = [list, families, query];
        let refusal =
            |[list, families, query]: &[Vec<u8>; 3]| find(&stream, list, families, query, NO_LIMIT).err();
        let Some(Refusal { number: number @ (2 | 12 | 14), offset }) = refusal(&inputs) else { continue };
        let place = [2, 14, 12].iter().position(|&known| known == number).unwrap();
        let bytes = &inputs[place];
        let end = run_end(bytes, offset, |byte| byte != b'\n');
        let line = bytes[offset..end].to_vec();
        let Some(key) = NAME_KEYS.into_iter().find(|key| line.starts_with(key.as_bytes())) else { continue };
        let name = &line[key.len()..];
        inputs[place] = with_letters_from(bytes, offset);
        let next = refusal(&inputs);
        if next != Some(Refusal { number, offset }) {
            let places = barred_places(name).unwrap_or_else(|| panic!("seed {seed}"));
            *counts.entry((key, places)).or_insert(0) += 1;
        }
    }
    println!("names {counts:?}");
    assert_eq!(counts.len(), 4 * NAME_KEYS.len());
    assert!(counts.values().all(|&count| count >= 20));
}

/// Behind `x s` such a command is 7 at its first byte.
#[test]
fn barred_bytes_come_behind_the_stop() {
    let mut count = 0;
    for seed in 0..MANY_SEEDS {
        let Case { stream, list, .. } = case(seed);
        if let Err(Refusal { number: 7, offset }) = read(&stream, &list, NO_LIMIT) {
            let is_stopped = read(&stream[..offset], &list, NO_LIMIT).is_ok();
            let is_barred = scan(&stream, offset).is_err_and(|refusal| refusal.number == 16);
            count += u32::from(is_stopped && is_barred);
        }
    }
    println!("{count} streams");
    assert!(count > 100);
}

/// In accepted streams barred bytes stand in comments, in texts and in the rest of `x` words.
#[test]
fn barred_bytes_come_where_they_may_stand() {
    let [mut comments, mut texts, mut words] = [0; 3];
    for (seed, case, _) in accepted(SEEDS) {
        let widths = read_list(&case.list).unwrap();
        let (mut walk, mut end) = (Walk::new(&case.stream, &widths), 0);
        let has_barred = |range: Range<usize>| case.stream[range].iter().any(|&byte| is_barred(byte));
        while let Some(step) = walk.step(&mut Vec::new()).unwrap() {
            comments += u32::from(has_barred(end..step.place));
            end = step.end;
            match step.command {
                Command::Text { first_line } => texts += u32::from(has_barred(first_line.place..end)),
                Command::Control { .. } => words += u32::from(has_barred(step.place..end)),
                _ => assert!(!has_barred(step.place..end), "seed {seed}"),
            }
        }
    }
    println!("comments {comments}, texts {texts}, words {words}");
    assert!([comments, texts, words].iter().all(|&count| count > 1_500));
}

/// A spelling has no freedom left: only its own commands, one a line, and no motion in vain.
#[test]
fn the_spelling_has_the_house_form() {
    for (seed, case, _) in accepted(20_000) {
        let spelling = respell(&case.stream, &case.list, NO_LIMIT).unwrap();
        assert!(spelling.ends_with(b"\nx s\n"), "seed {seed}");
        for line in spelling.split(|&byte| byte == b'\n') {
            let is_free =
                matches!(line.first(), Some(b'#' | b'h' | b'v' | b't' | b'u' | b' ' | b'\t' | b'0'..=b'9'));
            assert!(!is_free, "seed {seed}: {}", line.escape_ascii());
        }
    }
}

/// 01's rule for finding, once more, with the names of 2026-01: glyph k of the query against record i + k.
fn occurs_at(stream: &[u8], records: &[Record], families: &[Family], query: &[QueryGlyph], i: usize) -> bool {
    for k in 0..query.len() {
        if i + k >= records.len() {
            return false;
        }
        let record = records[i + k];
        let name = &stream[record.place as usize..(record.place + record.length) as usize];
        let has_gap_as_asked = k == 0 || record.gap == query[k].gap;
        let has_name = names_match(families, name, &query[k].name);
        if record.ordinal != records[i].ordinal || !has_name || !has_gap_as_asked {
            return false;
        }
    }
    true
}

#[test]
fn the_hits_are_those_of_the_rule() {
    let mut hit_count = 0;
    for (seed, case, reading) in accepted(SEEDS) {
        let Ok(query) = read_query(&case.query) else {
            continue;
        };
        let Ok(found) = find(&case.stream, &case.list, &case.families, &case.query, NO_LIMIT) else {
            continue;
        };
        let families = families_of(&case.families);
        let occurs = |&i: &usize| occurs_at(&case.stream, &reading.records, &families, &query, i);
        let hits: Vec<usize> = (0..reading.records.len()).filter(occurs).collect();
        assert_eq!(found.records, reading.records, "seed {seed}");
        assert_eq!(found.hits, hits, "seed {seed}");
        hit_count += hits.len();
    }
    println!("{hit_count} hits");
    assert!(hit_count > 10_000);
}

#[test]
fn the_spelling_has_the_same_hits() {
    for (seed, case, _) in accepted(SEEDS) {
        let Ok(found) = find(&case.stream, &case.list, &case.families, &case.query, NO_LIMIT) else {
            continue;
        };
        let spelling = respell(&case.stream, &case.list, NO_LIMIT).unwrap();
        let other = find(&spelling, &case.list, &case.families, &case.query, NO_LIMIT).unwrap();
        assert_eq!(found.hits, other.hits, "seed {seed}");
    }
}

#[test]
fn hits_do_not_depend_on_the_commands_used() {
    let queries: [&[u8]; 5] = [
        b"glyph=a\n",
        b"glyph=a\nglyph=a\n",
        b"glyph=a\nglyph=b\nglyph=a\n",
        b"glyph=a\ngap=any\nglyph=a\n",
        b"glyph=a\nglyph='e\n",
    ];
    let mut hit_count = 0;
    for seed in 0..5_000 {
        let outline = outline(&mut Random::new(seed));
        let mut random = Random::new(seed + 1_000_000);
        let ways: Vec<Vec<u8>> = (0..4).map(|_| write_outline(&mut random, &outline)).collect();
        for query in queries {
            let hits_of =
                |stream: &Vec<u8>| find(stream, OUTLINE_LIST, b"", query, NO_LIMIT).map(|found| found.hits);
            let hits = hits_of(&ways[0]).unwrap();
            hit_count += hits.len();
            for way in &ways[1..] {
                assert_eq!(hits_of(way).as_ref(), Ok(&hits), "seed {seed}: {}", way.escape_ascii());
            }
        }
    }
    println!("{hit_count} hits");
    assert!(hit_count > 10_000);
}

const NO_ROOM: Option<Refusal> = Some(Refusal { number: 13, offset: 0 });
const NOTHING: Rooms = Rooms { records: 0, entries: 0, hits: 0, spelling: 0 };

/// Exactly enough room is accepted, one place less is 13 at 0.
#[test]
fn the_reader_judges_room_to_the_place() {
    for (seed, case, reading) in accepted(20_000) {
        let refusal = |records, entries| {
            let rooms = Rooms { records, entries, ..NOTHING };
            read(&case.stream, &case.list, rooms).err()
        };
        let (records, entries) = (reading.records.len(), reading.entries.len());
        assert_eq!(refusal(records, entries), None, "seed {seed}");
        assert_eq!(refusal(records, entries - 1), NO_ROOM, "seed {seed}");
        assert!(records == 0 || refusal(records - 1, entries) == NO_ROOM, "seed {seed}");
    }
}

#[test]
fn the_rewriter_judges_room_to_the_place() {
    for (seed, case, _) in accepted(20_000) {
        let refusal = |spelling| respell(&case.stream, &case.list, Rooms { spelling, ..NOTHING }).err();
        let length = respell(&case.stream, &case.list, NO_LIMIT).unwrap().len();
        assert_eq!((refusal(length), refusal(length - 1)), (None, NO_ROOM), "seed {seed}");
    }
}

#[test]
fn the_finder_judges_room_to_the_place() {
    for (seed, case, reading) in accepted(20_000) {
        let Ok(found) = find(&case.stream, &case.list, &case.families, &case.query, NO_LIMIT) else {
            continue;
        };
        let refusal = |records, hits| {
            let rooms = Rooms { records, hits, ..NOTHING };
            find(&case.stream, &case.list, &case.families, &case.query, rooms).err()
        };
        let (records, hits) = (reading.records.len(), found.hits.len());
        assert_eq!(refusal(records, hits), None, "seed {seed}");
        assert!(hits == 0 || refusal(records, hits - 1) == NO_ROOM, "seed {seed}");
        assert!(records == 0 || refusal(records - 1, hits) == NO_ROOM, "seed {seed}");
    }
}
