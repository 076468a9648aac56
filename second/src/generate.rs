//! Generated inputs: the same case for the same seed, always.

pub mod barred;
pub mod damage;
pub mod families;
pub mod first;
pub mod list;
pub mod outline;
pub mod query;
pub mod random;
pub mod search;
pub mod stream;

use crate::refusal::{Rooms, LIST_LIMIT, QUERY_LIMIT, STREAM_LIMIT};
use random::Random;
use stream::Manner;

/// The inputs of all three routines.
#[derive(Clone, Debug, PartialEq, Eq)]
pub struct Case {
    pub stream: Vec<u8>,
    pub list: Vec<u8>,
    pub families: Vec<u8>,
    pub query: Vec<u8>,
    pub rooms: Rooms,
}

/// The case of a seed: mostly sound, else with numbers near their limits, with slips, with arguments
/// outside their limits, with barred bytes, damaged, with little room or, seldom, too long.
pub fn case(seed: u64) -> Case {
    let mut random = Random::new(seed);
    let kind = random.below(100);
    let manner = Manner {
        edges: (40..55).contains(&kind),
        slips: (55..67).contains(&kind),
        faults: (67..75).contains(&kind),
        barred: (92..97).contains(&kind),
    };
    let mut case = sound_case(&mut random, manner);
    match kind {
        75..=91 => damage_case(&mut random, &mut case),
        92..=96 => bar_case(&mut random, &mut case),
        97..=99 if random.once_in(6) => lengthen(&mut random, &mut case),
        _ => {}
    }
    if random.once_in(8) {
        case.rooms = little_room(&mut random);
    }
    case
}

/// A case whose stream, lists and query were made by the rules.
pub fn sound_case(random: &mut Random, manner: Manner) -> Case {
    let mut case = plain_case(random, manner);
    families::add_families(random, &mut case);
    case
}

/// The same with an empty family list.
fn plain_case(random: &mut Random, manner: Manner) -> Case {
    let (list, fonts) = list::sound_list(random);
    let stream = stream::stream(random, &fonts, manner);
    let query = query::query(random, &stream, &list);
    Case { stream, list, families: Vec::new(), query, rooms: Rooms::default() }
}

fn damage_case(random: &mut Random, case: &mut Case) {
    match random.below(9) {
        0 => damage::damage(random, &mut case.list),
        1 => damage::damage(random, &mut case.query),
        2 => case.families = families::wrong_families(random, &case.families),
        3 => {
            damage::damage(random, &mut case.stream);
            damage::damage(random, &mut case.list);
            damage::damage(random, &mut case.query);
            case.families = families::wrong_families(random, &case.families);
        }
        _ => damage::damage(random, &mut case.stream),
    }
}

/// Puts barred bytes in the names of the lists or the query too, at times next to other damage.
fn bar_case(random: &mut Random, case: &mut Case) {
    let kind = random.below(12);
    if kind < 2 {
        barred::bar_line(random, &mut case.list, b"font=");
    }
    if (1..4).contains(&kind) {
        barred::bar_line(random, &mut case.query, b"glyph=");
    }
    if kind == 4 || random.once_in(20) {
        let key = random.part(&[b"name=", b"same="]);
        barred::bar_line(random, &mut case.families, key);
    }
    if kind < 5 && random.once_in(4) {
        damage_case(random, case);
    }
}

/// Makes one of the inputs just too long, or as long as allowed.
fn lengthen(random: &mut Random, case: &mut Case) {
    let more = random.below(2);
    match random.below(40) {
        0 => case.stream.resize(STREAM_LIMIT + more, b'\n'),
        1..=13 => case.list.resize(LIST_LIMIT + more, b'\n'),
        14..=20 => case.families.resize(LIST_LIMIT + more, b'\n'),
        21..=26 => case.families = families::of_length(LIST_LIMIT + more),
        _ => case.query.resize(QUERY_LIMIT + more, b'\n'),
    }
}

fn little_room(random: &mut Random) -> Rooms {
    Rooms {
        records: random.below(30),
        entries: random.below(16),
        hits: random.below(6),
        spelling: random.below(500),
    }
}
