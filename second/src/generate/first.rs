//! Calls for the first name: of records of a stream, of made-up ones, and of places that do not lie in it.

use super::damage::damage;
use super::families::{names_of, sound_families, write_families, wrong_families};
use super::random::Random;
use super::search::sound_search;
use crate::widths::is_list_name;
use crate::{read, Rooms};

/// A call: the stream, the family list, and a record's place and length.
#[derive(Clone, Debug, PartialEq, Eq)]
pub struct FirstCall {
    pub stream: Vec<u8>,
    pub families: Vec<u8>,
    pub place: usize,
    pub length: usize,
}

/// The call of a seed. Its list is mostly sound, and its record's name often in a family.
pub fn first_call(seed: u64) -> FirstCall {
    let mut random = Random::new(seed);
    let case = sound_search(&mut random);
    let mut stream = case.stream;
    let reading = read(&stream, &case.list, Rooms::default());
    let records: Vec<(usize, usize)> = reading.map_or(Vec::new(), |reading| {
        reading.records.iter().map(|record| (record.place as usize, record.length as usize)).collect()
    });
    let mut names = names_of(&stream, &case.list, &[]);
    if random.once_in(6) {
        damage(&mut random, &mut stream);
    }
    let (place, length) = match random.below(2) {
        0 if !records.is_empty() => *random.pick(&records),
        _ => made_up(&mut random, stream.len()),
    };
    // a made-up name too may be in a family
    let own = place.checked_add(length).and_then(|end| stream.get(place..end));
    if let Some(name) = own.filter(|name| is_list_name(name) && !names.iter().any(|known| known == name)) {
        names.push(name.to_vec());
    }
    let mut families = write_families(&sound_families(&mut random, &names));
    if random.once_in(5) {
        families = wrong_families(&mut random, &families);
    }
    FirstCall { stream, families, place, length }
}

/// A place and a length for a stream of so many bytes: within it, up to its end, past it, far past it.
fn made_up(random: &mut Random, count: usize) -> (usize, usize) {
    let place = random.below(count + 1);
    let most = if random.once_in(4) { 80 } else { 4 };
    let huge = [usize::MAX, usize::MAX - 1, u32::MAX as usize, 1 << 31, 1 << 32, i64::MAX as usize];
    let huge = *random.pick(&huge);
    match random.below(10) {
        0..=3 => (place, 1 + random.below(most)),
        4 => (count - random.below(most).min(count), random.below(most)),
        5 => (place, count - place),
        6 => (place, count - place + 1 + random.below(3)),
        7 => (count + random.below(3), random.below(3)),
        8 => (place, 0),
        // the sum wraps to a place in the stream
        _ if random.once_in(3) => (place, (place + 1).wrapping_neg().wrapping_add(random.below(count + 1))),
        _ if random.once_in(2) => (huge, random.below(4)),
        _ => (random.below(4), huge),
    }
}
