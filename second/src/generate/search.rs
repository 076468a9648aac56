//! Searches: a stream and its lists with a query that occurs in it, or nearly.

use super::barred::bar_line;
use super::damage::damage;
use super::families::{add_families, wrong_families};
use super::outline::{outline, repeated_outline, write_outline, OUTLINE_LIST};
use super::query::{cut_query, query, wrong_query};
use super::random::Random;
use super::stream::Manner;
use super::{plain_case, Case};
use crate::refusal::LIST_LIMIT;
use crate::{read, Rooms};

/// The search of a seed: mostly sound, else with a wrong query, a wrong width or family list, a wrong stream
/// or several of them.
pub fn search(seed: u64) -> Case {
    let mut random = Random::new(seed);
    let mut search = sound_search(&mut random);
    let kind = random.below(100);
    if kind >= 84 {
        search.query = wrong_query(&mut random, &search.query);
    }
    if (78..84).contains(&kind) || kind >= 96 {
        damage(&mut random, &mut search.stream);
    }
    if (75..78).contains(&kind) || kind >= 97 {
        wrong_list(&mut random, &mut search.list);
    }
    if (67..74).contains(&kind) || (94..98).contains(&kind) {
        search.families = wrong_families(&mut random, &search.families);
    }
    if kind == 74 && random.once_in(4) {
        let more = random.below(2);
        search.list.resize(LIST_LIMIT + more, b'\n');
    }
    search
}

fn wrong_list(random: &mut Random, list: &mut Vec<u8>) {
    if random.once_in(4) {
        bar_line(random, list, b"font=");
    } else {
        damage(random, list);
    }
}

/// A search whose stream, lists and query were made by the rules, or with slips or barred bytes in the
/// stream.
pub fn sound_search(random: &mut Random) -> Case {
    let mut case = match random.below(20) {
        0..=8 => outlined(random, outline),
        9..=13 => outlined(random, repeated_outline),
        14..=17 => plain_case(random, Manner::default()),
        18 => plain_case(random, Manner { edges: true, ..Manner::default() }),
        _ if random.once_in(2) => plain_case(random, Manner { barred: true, ..Manner::default() }),
        _ => plain_case(random, Manner { slips: true, ..Manner::default() }),
    };
    let reading = read(&case.stream, &case.list, Rooms::default());
    case.query = match reading {
        Ok(reading) if !reading.records.is_empty() => cut_query(random, &case.stream, &reading.records),
        _ => query(random, &case.stream, &case.list),
    };
    add_families(random, &mut case);
    case
}

fn outlined(random: &mut Random, outline: fn(&mut Random) -> Vec<super::outline::Item>) -> Case {
    let outline = outline(random);
    let stream = write_outline(random, &outline);
    let (families, query, rooms) = (Vec::new(), Vec::new(), Rooms::default());
    Case { stream, list: OUTLINE_LIST.to_vec(), families, query, rooms }
}
