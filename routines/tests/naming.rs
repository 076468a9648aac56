//! The proved library and the second program agree on the first name for a record, on the vectors and on
//! generated calls: on where it stands.

use library::{IN_FAMILIES, IN_STREAM, NO_NAME};
use routines::measure::say;
use routines::sample::{body, sample_of, SAMPLE};
use routines::{agree, proved, FirstNameResult, Naming, Record};
use second::families::{read_families, FAMILY_LIMIT, MEMBER_LIMIT};
use second::generate::families::of_length;
use second::generate::first::{first_call, FirstCall};
use second::generate::search::search;
use second::refusal::{LIST_LIMIT, STREAM_LIMIT};
use second::vectors::{self, Check, BODY_HEAD};

const CALLS: u64 = 100_000;
const SEARCHES: u64 = 5_000;

/// Asks for a first name; both programs agree.
fn named(stream: &[u8], families: &[u8], place: usize, len: usize) -> FirstNameResult {
    agree::naming(Naming { stream, families, place, len }).unwrap_or_else(|message| panic!("{message}"))
}

/// How often a first name stands nowhere, in the stream and in the family list, and of what sort lists and
/// calls were.
#[derive(Debug, Default)]
struct Seen {
    sources: [u64; 3],
    by_a_wrong_list: u64,
    by_a_full_list: u64,
    /// a place or a length that no 32 bits hold
    huge: u64,
    /// past the end of the stream, or up to it
    past_the_end: u64,
    up_to_the_end: u64,
}

impl Seen {
    fn count(&mut self, naming: Naming, answer: &FirstNameResult) {
        let Naming { stream, families, place, len } = naming;
        let is_sound = families.len() <= LIST_LIMIT && read_families(families).is_ok();
        let lines = families.split_inclusive(|&byte| byte == b'\n').count();
        let end = place.checked_add(len);
        self.sources[answer.source as usize] += 1;
        self.by_a_wrong_list += u64::from(!is_sound);
        self.by_a_full_list += u64::from(is_sound && lines == FAMILY_LIMIT * MEMBER_LIMIT);
        self.huge += u64::from(place.max(len) > u32::MAX as usize);
        self.past_the_end += u64::from(end.is_none_or(|end| end > stream.len()));
        self.up_to_the_end += u64::from(len > 0 && end == Some(stream.len()));
    }
}

/// Every call of a vector; and the first and the last bytes of every vector's stream, by its list.
#[test]
fn vectors_agree() {
    let (mut calls, mut seen) = (0, Seen::default());
    for case in vectors::all_cases().expect("the vectors can be read") {
        let (stream, families) = (&case.stream, &case.families);
        let asked = case.checks.iter().filter_map(|check| match check {
            Check::First { place, length, .. } => Some((*place, *length)),
            _ => None,
        });
        let asked: Vec<(usize, usize)> = asked.collect();
        calls += asked.len();
        let end = stream.len();
        for (place, len) in asked.into_iter().chain([(0, 1), (0, end), (end, 0), (end, 1), (end / 2, 2)]) {
            let naming = Naming { stream, families, place, len };
            let answer = agree::naming(naming);
            let answer = answer.unwrap_or_else(|message| panic!("case {}: {message}", case.name));
            seen.count(naming, &answer);
        }
    }
    say(&format!("vectors, first names: {calls} calls of their own; {seen:?}"));
    assert!(calls >= 100 && seen.sources.iter().all(|&count| count >= 20), "{calls} calls, {seen:?}");
}

/// Generated calls: of records, of made-up ones, of places that do not lie in the stream; with family lists
/// of every size, sound and wrong.
#[test]
fn generated_calls_agree() {
    let mut seen = Seen::default();
    for seed in 0..CALLS {
        let FirstCall { stream, families, place, length } = &first_call(seed);
        let naming = Naming { stream, families, place: *place, len: *length };
        let answer = agree::naming(naming).unwrap_or_else(|message| panic!("seed {seed}: {message}"));
        seen.count(naming, &answer);
    }
    say(&format!("generated, first names: {CALLS} calls; {seen:?}"));
    assert!(seen.sources.iter().all(|&count| count >= 15_000), "{seen:?}");
    assert!(seen.by_a_wrong_list >= 10_000 && seen.by_a_full_list >= 500, "{seen:?}");
    assert!(seen.huge >= 1_000 && seen.past_the_end >= 10_000 && seen.up_to_the_end >= 2_000, "{seen:?}");
}

/// Of the records that the library's own finder gives; their names by the answer are those that the second
/// program gives.
#[test]
fn names_of_found_records_agree() {
    let (mut records, mut in_families) = (0, 0);
    for seed in 0..SEARCHES {
        let case = search(seed);
        let (stream, families) = (&case.stream, &case.families);
        let mut rows = (vec![Record::default(); stream.len()], vec![0; stream.len()]);
        let search = routines::Search { stream, list: &case.list, families, query: &case.query };
        let answer = proved::find(search, &mut rows.0, &mut rows.1);
        for record in &rows.0[..answer.records.min(40)] {
            let answer = named(stream, families, record.place as usize, record.len as usize);
            let due = second::first_name(stream, families, record.place as usize, record.len as usize);
            assert_eq!(answer.name(stream, families), due, "seed {seed}");
            records += 1;
            in_families += u32::from(answer.source == IN_FAMILIES);
        }
    }
    say(&format!("first names of found records: {records}, {in_families} of them in families"));
    assert!(records >= 20_000 && in_families >= 5_000);
}

/// Slices of nothing at all, and the sample's last glyph, by numbers written down by hand.
#[test]
fn answers_by_hand() {
    let part = |place, len, source| FirstNameResult { place, len, source };
    let nowhere = part(0, 0, NO_NAME);
    assert_eq!(named(&[], &[], 0, 0), nowhere);
    assert_eq!(named(&[], &[], 0, 1), nowhere);

    let families = b"name=u0065_0301\nsame='e\nsame=\xe9\nname=b\nsame=x\n";
    assert_eq!(named(SAMPLE, families, 81, 2), part(5, 10, IN_FAMILIES));
    assert_eq!(named(SAMPLE, families, 71, 1), part(36, 1, IN_FAMILIES));
    assert_eq!(named(SAMPLE, families, 70, 1), part(70, 1, IN_STREAM));
    assert_eq!(named(SAMPLE, families, 81, 1), part(81, 1, IN_STREAM));
    assert_eq!(named(SAMPLE, families, 81, 0), nowhere);
    assert_eq!(named(SAMPLE, b"", 81, 2), part(81, 2, IN_STREAM));
    // a list that is wrong behind the family counts as an empty one
    assert_eq!(named(SAMPLE, &families[..families.len() - 1], 81, 2), part(81, 2, IN_STREAM));

    let end = SAMPLE.len();
    assert_eq!(named(SAMPLE, families, 0, end), part(0, end, IN_STREAM));
    assert_eq!(named(SAMPLE, families, end - 1, 1), part(end - 1, 1, IN_STREAM));
    let outside = [(end, 0), (end, 1), (end - 1, 2), (usize::MAX, 0), (usize::MAX, 1), (1, usize::MAX)];
    for (place, len) in [&outside[..], &[(0, usize::MAX), (usize::MAX, usize::MAX), (end + 1, 0)]].concat() {
        assert_eq!(named(SAMPLE, families, place, len), nowhere, "{place} {len}");
    }
}

/// The longest family list is used, one of a byte more counts as an empty one; a name of 64 bytes may be in
/// a family. The stream may have any length: only the record's bytes are looked at.
#[test]
fn lengths_at_the_limit() {
    let (longest, too_long) = (of_length(LIST_LIMIT), of_length(LIST_LIMIT + 1));
    // the last name of the last family, and where the family begins
    let name = &longest[longest.len() - 27..longest.len() - 1];
    let stream = body(&[b"C", name, b"\n"].concat());
    let place = BODY_HEAD.len() + 1;
    let first = LIST_LIMIT - 8 * 32 + 5;
    assert_eq!(named(&stream, &longest, place, 26).source, IN_FAMILIES);
    assert_eq!(named(&stream, &longest, place, 26).place, first);
    assert_eq!(named(&stream, &too_long, place, 26).source, IN_STREAM);

    for len in [64, 65] {
        let families = [b"name=a\nsame=", &vec![b'n'; len][..], b"\n"].concat();
        let stream = vec![b'n'; 80];
        let source = named(&stream, &families, 3, len).source;
        assert_eq!(source, if len == 64 { IN_FAMILIES } else { IN_STREAM });
    }

    let stream = sample_of(STREAM_LIMIT + 1);
    let families = b"name=u0065_0301\nsame='e\n";
    assert_eq!(named(&stream, families, 81, 2).source, IN_FAMILIES);
    assert_eq!(named(&stream, families, STREAM_LIMIT, 1).source, IN_STREAM);
    assert_eq!(named(&stream, families, STREAM_LIMIT, 2).source, NO_NAME);
}
