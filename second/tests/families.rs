//! 2026-01 on generated inputs: family lists, searches with them, and first names.

mod naive;

use naive::{families_of, has, names_match, Family};
use second::bytes::Name;
use second::families::{first_name, first_part, read_families, Part};
use second::find::{read_query, QueryGlyph};
use second::generate::families::{of_length, sound_families, write_families, wrong_families};
use second::generate::first::{first_call, FirstCall};
use second::generate::random::Random;
use second::generate::search::search;
use second::generate::Case;
use second::read::read_rows;
use second::widths::read_list;
use second::{find, read, respell, Record, Refusal, Rooms};
use std::collections::BTreeMap;

const SEEDS: u64 = 20_000;

fn refused(number: u8, offset: usize) -> Option<Refusal> {
    Some(Refusal { number, offset })
}

/// The searches with a sound list of one family or more, and what is found by them.
fn sound_searches() -> impl Iterator<Item = (u64, Case, Vec<usize>)> {
    (0..SEEDS).map(|seed| (seed, search(seed))).filter_map(|(seed, case)| {
        let hits = hits(&case, &case.families)?;
        (!case.families.is_empty()).then_some((seed, case, hits))
    })
}

/// The hits of a search with this family list, where it is not refused.
fn hits(case: &Case, families: &[u8]) -> Option<Vec<usize>> {
    find(&case.stream, &case.list, families, &case.query, Rooms::default()).ok().map(|found| found.hits)
}

/// 14, once more: every line is looked at by itself and with all lines before it. The reason is for counting.
fn judge(list: &[u8]) -> Result<(), (&'static str, usize)> {
    let lines: Vec<&[u8]> = list.split_inclusive(|&byte| byte == b'\n').collect();
    let is_name = |line: &&&[u8]| line.starts_with(b"name=");
    let mut end = 0;
    for (number, line) in lines.iter().enumerate() {
        let offset = end;
        end += line.len();
        let before = &lines[..number];
        let others = before.iter().rev().take_while(|line| !is_name(line)).count();
        let is_same_due = number > 0 && others == 0;
        let name = line.strip_suffix(b"\n").and_then(|line| line.get(5..)).unwrap_or_default();
        let is_barred = |byte: &u8| *byte == 127 || *byte < 32 && *byte != b'\t';
        let earlier = before.iter().position(|other| other[5..] == line[line.len().min(5)..]);
        let reason = match line.get(..5) {
            _ if !line.ends_with(b"\n") => "no newline",
            Some(b"name=") if is_same_due => "no `same=`",
            Some(b"name=") if before.iter().filter(is_name).count() == 256 => "257th family",
            Some(b"same=") if number == 0 => "no `name=`",
            Some(b"same=") if others == 7 => "ninth name",
            Some(b"name=" | b"same=") if name.is_empty() => "empty name",
            Some(b"name=" | b"same=") if name.len() > 64 => "long name",
            Some(b"name=" | b"same=") if name.iter().any(|byte| b" \t".contains(byte)) => "blank",
            Some(b"name=" | b"same=") if name.iter().any(is_barred) => "barred byte",
            Some(b"same=") if earlier.is_some_and(|place| place + 1 + others >= number) => {
                "again in its family"
            }
            Some(b"name=" | b"same=") if earlier.is_some() => "again in another family",
            Some(b"name=" | b"same=") => continue,
            _ if *line == b"\n" => "empty line",
            _ => "other key",
        };
        return Err((reason, offset));
    }
    match lines.last() {
        Some(line) if is_name(&line) => Err(("missing at the end", list.len())),
        _ => Ok(()),
    }
}

/// Sound lists are sound; each size comes, and names of each kind.
#[test]
fn sound_lists_come_in_every_size() {
    let [mut empty, mut few, mut many, mut full] = [0; 4];
    for seed in 0..SEEDS {
        let mut random = Random::new(seed);
        let families = sound_families(&mut random, &[b"a".to_vec(), b"ab".to_vec(), vec![b'n'; 64]]);
        let list = write_families(&families);
        assert!(read_families(&list).is_ok() && list.len() <= 65_536, "seed {seed}");
        assert_eq!(families_of(&list), families, "seed {seed}");
        match families.len() {
            0 => empty += 1,
            1..=6 => few += 1,
            256 if families.iter().all(|family| family.len() == 8) => full += 1,
            _ => many += 1,
        }
    }
    println!("empty {empty}, few {few}, many {many}, full {full}");
    assert!(empty > 2_000 && few > 10_000 && many > 1_000 && full > 150);
}

/// Damaged lists are refused as 14 where the rule says, for each reason.
#[test]
fn wrong_lists_are_wrong_for_every_reason() {
    let mut counts = BTreeMap::new();
    for seed in 0..SEEDS {
        let mut random = Random::new(seed);
        let sound = write_families(&sound_families(&mut random, &[b"a".to_vec(), b"'e".to_vec()]));
        let list = wrong_families(&mut random, &sound);
        if list.len() > 30_000 {
            continue;
        }
        let judged = judge(&list);
        let expected = judged.err().and_then(|(_, offset)| refused(14, offset));
        assert_eq!(read_families(&list).err(), expected, "seed {seed}: {}", list.escape_ascii());
        *counts.entry(judged.err().map_or("sound", |(reason, _)| reason)).or_insert(0) += 1;
    }
    println!("{counts:?}");
    assert_eq!(counts.len(), 15);
    assert!(counts.values().all(|&count| count >= 100));
}

/// A sound list cut anywhere: sound where a family ends, else wrong at the line cut or where one is missing.
#[test]
fn a_cut_list_is_judged_by_its_last_line() {
    for seed in 0..200 {
        let list = write_families(&sound_families(&mut Random::new(seed), &[b"a".to_vec()]));
        for end in 0..list.len().min(2_000) {
            let cut = &list[..end];
            let start = cut.iter().rposition(|&byte| byte == b'\n').map_or(0, |newline| newline + 1);
            let last = cut[..start.saturating_sub(1)].rsplit(|&byte| byte == b'\n').next().unwrap();
            let is_missing = start < end || last.starts_with(b"name=");
            let expected = if is_missing { refused(14, start) } else { None };
            assert_eq!(read_families(cut).err(), expected, "seed {seed}, {end} bytes");
        }
    }
}

/// Lists of each length near the limit are in order; one byte more is 1.
#[test]
fn lists_reach_the_limit() {
    let stream = b"x T a\nx r 1 1 1\nx i\nx s\n";
    let answer =
        |families: &[u8]| find(stream, b"unitwidth=1\n", families, b"glyph=a\n", Rooms::default()).err();
    for length in (256..600).chain(65_500..65_792) {
        let list = of_length(length);
        assert_eq!(list.len(), length);
        assert!(read_families(&list).is_ok(), "{length} bytes");
        assert_eq!(answer(&list), if length > 65_536 { refused(1, 0) } else { None }, "{length} bytes");
    }
}

/// Thousands of searches have hits that they owe to a family alone, and some of them with a full list; others
/// have as many with the list as without.
#[test]
fn searches_have_hits_through_families() {
    let (mut counts, mut through, mut hit_count) = ([0; 2], [0; 2], 0);
    for (seed, case, hits_with) in sound_searches() {
        let hits_without = hits(&case, b"").unwrap();
        assert!(hits_without.iter().all(|hit| hits_with.contains(hit)), "seed {seed}");
        let is_full = usize::from(families_of(&case.families).len() == 256);
        counts[is_full] += 1;
        through[is_full] += u64::from(hits_with.len() > hits_without.len());
        hit_count += hits_with.len() - hits_without.len();
    }
    println!("of {counts:?} searches (full lists second) {through:?} have {hit_count} hits through a family");
    assert!(through[0] > 3_000 && through[1] > 25);
    assert!(through[0] * 3 > counts[0] && through[1] * 4 > counts[1]);
}

/// What names, records and queries of such searches are like.
#[test]
fn names_of_every_kind_are_members() {
    let mut counts = BTreeMap::new();
    let mut count = |kind: &'static str, holds: bool| *counts.entry(kind).or_insert(0) += u32::from(holds);
    for (_, case, _) in sound_searches() {
        let names = families_of(&case.families).concat();
        let records = read(&case.stream, &case.list, Rooms::default()).unwrap().records;
        let members: Vec<&[u8]> = records.iter().map(|record| record.name(&case.stream)).collect();
        let members: Vec<&[u8]> = members.into_iter().filter(|name| has(&names, name)).collect();
        let looks_like_key = |name: &&[u8]| name.starts_with(b"name=") || name.starts_with(b"same=");
        let begins_other =
            |name: &&[u8]| names.iter().any(|other| other.len() > name.len() && other.starts_with(name));
        count("a record's name of one byte", members.iter().any(|name| name.len() == 1));
        count("of several", members.iter().any(|name| name.len() > 1));
        count("of 64", members.iter().any(|name| name.len() == 64));
        count("like a key", members.iter().any(looks_like_key));
        count("the beginning of another", members.iter().any(begins_other));
        count("`N` and members", records.iter().any(|record| record.length == 0) && !members.is_empty());
        let asked = read_query(&case.query).unwrap();
        count("a name asked for", asked.iter().any(|glyph| has(&names, &glyph.name)));
        count("one in no family", asked.iter().any(|glyph| !has(&names, &glyph.name)));
    }
    println!("{counts:?}");
    assert!(counts.values().all(|&count| count > 200));
}

/// The finder of 01, once more, without families: 1, 2, 12, the stream, 13.
fn old_find(case: &Case) -> Result<Vec<usize>, Refusal> {
    let too_long = case.stream.len() > 16_777_216 || case.list.len() > 65_536 || case.query.len() > 8_192;
    if too_long {
        return Err(Refusal { number: 1, offset: 0 });
    }
    let widths = read_list(&case.list)?;
    let glyphs = read_query(&case.query)?;
    let records = read_rows(&case.stream, &widths)?.records;
    let is_hit = |&start: &usize| occurs_by_bytes(&case.stream, &records[start..], &glyphs);
    let hits: Vec<usize> = (0..records.len()).filter(is_hit).collect();
    if records.len() > case.rooms.records || hits.len() > case.rooms.hits {
        return Err(Refusal { number: 13, offset: 0 });
    }
    Ok(hits)
}

fn occurs_by_bytes(stream: &[u8], records: &[Record], glyphs: &[QueryGlyph]) -> bool {
    let agrees = |(k, (record, glyph)): (usize, (&Record, &QueryGlyph))| {
        record.ordinal == records[0].ordinal
            && record.name(stream) == glyph.name
            && (k == 0 || record.gap == glyph.gap)
    };
    records.len() >= glyphs.len() && records.iter().zip(glyphs).enumerate().all(agrees)
}

/// "an empty list gives the old answers", refusals too.
#[test]
fn an_empty_list_gives_the_old_answers() {
    let (mut accepted, mut refused) = (0, 0);
    for seed in 0..SEEDS {
        for mut case in [search(seed), second::generate::case(seed)] {
            if seed % 8 == 0 {
                case.rooms.hits = 1;
            }
            let found = find(&case.stream, &case.list, b"", &case.query, case.rooms);
            match &found {
                Ok(_) => accepted += 1,
                Err(_) => refused += 1,
            }
            assert_eq!(found.map(|found| found.hits), old_find(&case), "seed {seed}");
        }
    }
    println!("accepted {accepted}, refused {refused}");
    assert!(accepted > 10_000 && refused > 5_000);
}

/// A house spelling with another member, or the same one, for each name that is in a family.
fn renamed(random: &mut Random, spelling: &[u8], families: &[Family]) -> Vec<u8> {
    let mut stream = Vec::new();
    for line in spelling.split_inclusive(|&byte| byte == b'\n') {
        let name = line.strip_prefix(b"c ").or(line.strip_prefix(b"C "));
        let name = name.map(|name| &name[..name.len() - 1]);
        let family = name.and_then(|name| families.iter().find(|family| has(family, name)));
        match family {
            Some(family) => stream.extend([b"C ", &random.pick(family)[..], b"\n"].concat()),
            None => stream.extend(line),
        }
    }
    stream
}

/// A stream with other names of the same families has the same list; so has a query with them.
#[test]
fn members_stand_for_one_another() {
    let (mut changed, mut hit_count) = (0, 0);
    for (seed, case, hits_with) in sound_searches() {
        let mut random = Random::new(seed);
        let families = families_of(&case.families);
        let spelling = respell(&case.stream, &case.list, Rooms::default()).unwrap();
        let stream = renamed(&mut random, &spelling, &families);
        changed += u32::from(stream != spelling);
        let other = Case { stream, ..case.clone() };
        assert_eq!(hits(&other, &case.families).as_ref(), Some(&hits_with), "seed {seed}");
        let query = case.query.split_inclusive(|&byte| byte == b'\n').map(|line| {
            let family = families.iter().find(|family| {
                line.strip_prefix(b"glyph=").is_some_and(|name| has(family, &name[..name.len() - 1]))
            });
            family.map_or(line.to_vec(), |family| [b"glyph=", &random.pick(family)[..], b"\n"].concat())
        });
        let other = Case { query: query.collect::<Vec<_>>().concat(), ..other };
        assert_eq!(hits(&other, &case.families).as_ref(), Some(&hits_with), "seed {seed}");
        hit_count += hits_with.len();
    }
    println!("{changed} streams changed, {hit_count} hits");
    assert!(changed > 5_000 && hit_count > 10_000);
}

/// The order of the families, and of the names in them, does not matter to the finder.
#[test]
fn the_order_of_names_does_not_matter() {
    for (seed, case, hits_with) in sound_searches() {
        let mut random = Random::new(seed);
        let families = random.shuffled(&families_of(&case.families));
        let families: Vec<Family> = families.iter().map(|family| random.shuffled(family)).collect();
        assert_eq!(hits(&case, &write_families(&families)), Some(hits_with), "seed {seed}");
    }
}

/// Names match exactly where they are equal or in one family, and then have one first name; names of two
/// families do not match.
#[test]
fn a_family_has_one_first_name() {
    let [mut same, mut different] = [0; 2];
    for seed in 0..4_000 {
        let list = write_families(&sound_families(&mut Random::new(seed), &[b"a".to_vec(), b"ab".to_vec()]));
        let (families, read) = (families_of(&list), read_families(&list).unwrap());
        let mut random = Random::new(seed);
        for (number, family) in families.iter().enumerate().take(40) {
            for name in family {
                let part = read.first_part(name, 0, name.len());
                assert_eq!(part.of(name, &list), family[0], "seed {seed}");
                assert_eq!(Some(part), read.first(&family[0]).map(Part::Families), "seed {seed}");
                assert!(family.iter().all(|other| read.names_match(name, other)), "seed {seed}");
                same += family.len();
                let other_number = random.below(families.len());
                let other = random.pick(&families[other_number]);
                assert_eq!(read.names_match(name, other), number == other_number, "seed {seed}");
                different += usize::from(number != other_number);
                assert!(!read.names_match(name, b"") && !read.names_match(b"", name), "seed {seed}");
                assert!(!read.names_match(name, b"in none"), "seed {seed}");
            }
        }
    }
    println!("{same} pairs in one family, {different} in two");
    assert!(same > 50_000 && different > 10_000);
}

/// Every fault of a search by itself, in the order in which one is given: "1 for any input, 2, 14, 12, the
/// stream, 13".
fn faults(case: &Case) -> Vec<Refusal> {
    let sizes =
        [(&case.stream, 16_777_216), (&case.list, 65_536), (&case.families, 65_536), (&case.query, 8_192)];
    let is_long = sizes.iter().any(|(bytes, limit)| bytes.len() > *limit);
    let sound_widths = read_list(b"unitwidth=1\n").unwrap();
    let widths = read_list(&case.list);
    let stream = read_rows(&case.stream, widths.as_ref().unwrap_or(&sound_widths)).err();
    let needs_room = case.rooms.records == 0;
    let all = [
        is_long.then_some(Refusal { number: 1, offset: 0 }),
        widths.err(),
        read_families(&case.families).err(),
        read_query(&case.query).err(),
        stream,
        needs_room.then_some(Refusal { number: 13, offset: 0 }),
    ];
    all.into_iter().flatten().collect()
}

/// Inputs out of different searches, so that faults come together: the first in the order is given.
#[test]
fn refusals_come_in_their_order() {
    let mut pairs = BTreeMap::new();
    for seed in 0..SEEDS {
        let mut random = Random::new(seed);
        let mut other = || search(random.number() % SEEDS);
        let (mut case, families, query) = (search(seed), other().families, other().query);
        let list = if seed % 3 == 0 { other().list } else { case.list };
        case = Case { list, families, query, ..case };
        if seed % 5 == 0 {
            case.families = wrong_families(&mut random, &case.families);
        }
        let has_records =
            read(&case.stream, &case.list, Rooms::default()).is_ok_and(|reading| !reading.records.is_empty());
        if has_records && seed % 2 == 0 {
            case.rooms.records = 0;
        }
        let faults = faults(&case);
        let refusal = find(&case.stream, &case.list, &case.families, &case.query, case.rooms).err();
        assert_eq!(refusal, faults.first().copied(), "seed {seed}");
        if let [first, next, ..] = faults[..] {
            let kind = |number| if matches!(number, 3..=11 | 16) { 3 } else { number };
            *pairs.entry((kind(first.number), kind(next.number))).or_insert(0) += 1;
        }
    }
    println!("{pairs:?}");
    for pair in [(1, 2), (1, 14), (2, 14), (2, 12), (14, 12), (14, 3), (14, 13), (12, 3), (12, 13)] {
        assert!(pairs.get(&pair).is_some_and(|&count| count >= 10), "too few of {pair:?}");
    }
}

/// The first name, once more: by wide numbers, and by looking through the list.
fn expected_part(call: &FirstCall) -> Part {
    let FirstCall { stream, families, place, length } = call;
    let is_inside = *place as u128 + *length as u128 <= stream.len() as u128;
    if *length == 0 || !is_inside {
        return Part::Empty;
    }
    let own = &stream[*place..place + length];
    let is_sound = families.len() <= 65_536 && read_families(families).is_ok();
    let known = if is_sound { families_of(families) } else { Vec::new() };
    match known.iter().find(|family| has(family, own)) {
        None => Part::Stream(Name { place: *place, length: *length }),
        Some(family) => {
            let line = [b"name=", &family[0][..], b"\n"].concat();
            let starts = (0..families.len()).filter(|&at| at == 0 || families[at - 1] == b'\n');
            let start = starts.into_iter().find(|&at| families[at..].starts_with(&line)).unwrap();
            Part::Families(Name { place: start + 5, length: family[0].len() })
        }
    }
}

/// What a call is made for.
fn kind_of(call: &FirstCall, part: Part) -> &'static str {
    let is_wrong = call.families.len() > 65_536 || read_families(&call.families).is_err();
    match part {
        Part::Empty if call.length == 0 => "no length",
        Part::Empty if call.place.checked_add(call.length).is_none() => "over every number",
        Part::Empty if call.place < call.stream.len() => "begins in the stream",
        Part::Empty => "behind the stream",
        Part::Families(_) if call.length == 1 => "family, one byte",
        Part::Families(_) => "family",
        Part::Stream(_) if call.length > 64 => "long",
        Part::Stream(name) if name.of(&call.stream).iter().any(|byte| b" \t\n".contains(byte)) => {
            "whitespace"
        }
        Part::Stream(name) if is_wrong => {
            let line = [b"=", name.of(&call.stream), b"\n"].concat();
            let stands = call.families.windows(line.len()).any(|part| part == line);
            if stands {
                "wrong list with the name"
            } else {
                "wrong list"
            }
        }
        Part::Stream(_) if call.families.is_empty() => "no list",
        Part::Stream(_) => "own",
    }
}

/// First names are those of the rule, and parts of the inputs, for calls of every kind.
#[test]
fn first_names_are_those_of_the_rule() {
    let mut counts = BTreeMap::new();
    for seed in 0..SEEDS {
        let call = first_call(seed);
        let FirstCall { stream, families, place, length } = &call;
        let part = first_part(stream, families, *place, *length);
        assert_eq!(part, expected_part(&call), "seed {seed}");
        let handed = first_name(stream, families, *place, *length);
        assert_eq!(Part::by_address(handed, stream, families), Some(part), "seed {seed}");
        assert_eq!(handed, part.of(stream, families), "seed {seed}");
        *counts.entry(kind_of(&call, part)).or_insert(0) += 1;
        if seed < 200 {
            assert_eq!(call, first_call(seed), "seed {seed}");
        }
    }
    println!("{counts:?}");
    assert_eq!(counts.len(), 12);
    assert!(counts.values().all(|&count| count >= 150));
}

/// A record's first name matches its own name, and two records match exactly where their first names are equal.
#[test]
fn records_match_by_their_first_names() {
    for (seed, case, _) in sound_searches().take(3_000) {
        let families = families_of(&case.families);
        let records = read(&case.stream, &case.list, Rooms::default()).unwrap().records;
        let first = |record: &Record| {
            first_name(&case.stream, &case.families, record.place as usize, record.length as usize)
        };
        for pair in records.windows(2).take(8) {
            let names = (pair[0].name(&case.stream), pair[1].name(&case.stream));
            assert!(names_match(&families, names.0, first(&pair[0])), "seed {seed}");
            let is_match = names_match(&families, names.0, names.1);
            assert_eq!(first(&pair[0]) == first(&pair[1]), is_match, "seed {seed}");
        }
    }
}
