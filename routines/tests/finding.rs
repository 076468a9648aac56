//! The proved finder and the second program agree on the vectors and on generated searches: in the
//! answer, in the records and hits, and in all that is to stay as it was. And demand 3: hits go by
//! names, gaps and page ordinals alone.

use routines::expected::ExpectedFinding;
use routines::measure::{say, Seen};
use routines::sample::{body, sample_of, SAMPLE};
use routines::{agree, proved, shape, FindResult, Record, Search};
use second::families::{read_families, FAMILY_LIMIT, MEMBER_LIMIT};
use second::find::{read_query, QueryGlyph, GLYPH_LIMIT};
use second::generate::outline::{
    outline, repeated_outline, write_outline, write_outline_by, OUTLINE_LIST, SETTINGS,
};
use second::generate::random::Random;
use second::generate::search::search;
use second::generate::{case, families, list, query, Case};
use second::refusal::{Rooms, LIST_LIMIT, QUERY_LIMIT, STREAM_LIMIT};
use second::vectors::{self, BODY_HEAD, SAMPLE_LIST};

const SEARCHES: u64 = 100_000;
const CASES: u64 = 50_000;

/// The refusal numbers that the finder can give: all of them.
const REFUSALS: [usize; 15] = [1, 2, 3, 4, 5, 6, 7, 8, 9, 10, 11, 12, 13, 14, 16];

/// A search with an empty family list.
fn plain<'a>(stream: &'a [u8], list: &'a [u8], query: &'a [u8]) -> Search<'a> {
    Search { stream, list, families: b"", query }
}

/// Searches with room for so many records and hits; both programs agree.
fn found(search: Search, room: [usize; 2]) -> FindResult {
    let answer = agree::finding(search, room, &mut Random::new(0));
    answer.unwrap_or_else(|message| panic!("{message}"))
}

/// The proved finder's list of hits; both programs agree.
fn hits(search: Search) -> Vec<u32> {
    let agreed = agree::search(search, &mut Random::new(0), &mut Seen::default());
    agreed.unwrap_or_else(|message| panic!("{message}"));
    let most = search.stream.len();
    let mut rows = (vec![Record::default(); most], vec![0; most]);
    let answer = proved::find(search, &mut rows.0, &mut rows.1);
    assert_eq!(answer.refusal, 0, "{}", search.stream.escape_ascii());
    rows.1[..answer.hits].to_vec()
}

/// Every vector's stream and lists, with its query or else one that is cut from it, and rows of every
/// measure.
#[test]
fn vectors_agree() {
    let mut seen = Seen::default();
    for case in vectors::all_cases().expect("the vectors can be read") {
        let mut random = Random::new(seen.inputs);
        let (stream, list, families) = (&case.stream, &case.list, &case.families);
        let query = case.query.unwrap_or_else(|| query::query(&mut random, stream, list));
        let search = Search { stream, list, families, query: &query };
        let agreed = agree::search(search, &mut random, &mut seen);
        agreed.unwrap_or_else(|message| panic!("case {}: {message}", case.name));
    }
    seen.assert_all("vectors, found", &REFUSALS, 1);
}

/// In how many searches something holds of the hits.
#[derive(Debug, Default)]
struct Hits {
    some: u32,
    overlapping: u32,
    on_a_later_page: u32,
    at_the_last_record: u32,
    over_a_gap: u32,
    of_most_glyphs: u32,
    of_a_longest_name: u32,
}

impl Hits {
    fn count(&mut self, found: &ExpectedFinding, glyphs: &[QueryGlyph]) {
        let ExpectedFinding { records, others: hits, .. } = found;
        let ends = |hit: &u32| *hit as usize + glyphs.len() == records.len();
        let overlap = |pair: &[u32]| ((pair[1] - pair[0]) as usize) < glyphs.len();
        let has_hit = !hits.is_empty();
        self.some += u32::from(has_hit);
        self.overlapping += u32::from(hits.windows(2).any(overlap));
        self.on_a_later_page += u32::from(hits.iter().any(|&hit| records[hit as usize].ordinal > 1));
        self.at_the_last_record += u32::from(hits.iter().any(ends));
        self.over_a_gap += u32::from(has_hit && glyphs[1..].iter().any(|glyph| glyph.gap));
        self.of_most_glyphs += u32::from(has_hit && glyphs.len() == GLYPH_LIMIT);
        self.of_a_longest_name += u32::from(has_hit && glyphs.iter().any(|glyph| glyph.name.len() == 64));
    }
}

/// In how many searches something holds of the family list.
#[derive(Debug, Default)]
struct Lists {
    /// it is not empty
    used: u32,
    /// a line is wrong or missing, or it is too long
    wrong: u32,
    /// it has as many families as there may be, of as many names
    full: u32,
    /// the hits are others than with an empty list
    bearing: u32,
}

impl Lists {
    fn count(&mut self, case: &Case, found: &ExpectedFinding) {
        let list = &case.families;
        let is_sound = list.len() <= LIST_LIMIT && read_families(list).is_ok();
        let is_full = is_sound && list.split_inclusive(|&byte| byte == b'\n').count() == NAMES_LIMIT;
        self.used += u32::from(!list.is_empty());
        self.wrong += u32::from(!is_sound);
        self.full += u32::from(is_full);
        if found.answer.refusal == 0 && !list.is_empty() {
            let plain = second::find(&case.stream, &case.list, b"", &case.query, Rooms::default());
            let plain = plain.expect("what is sound with a family list is so without one").hits;
            self.bearing += u32::from(!plain.into_iter().eq(found.others.iter().map(|&hit| hit as usize)));
        }
    }
}

/// How many names a family list may have.
const NAMES_LIMIT: usize = FAMILY_LIMIT * MEMBER_LIMIT;

/// Searches for the cases of so many seeds, with rows of every measure; what came.
fn compare_generated(label: &str, cases: fn(u64) -> Case, count: u64) -> (Hits, Lists) {
    let (mut seen, mut with_hits, mut lists) = (Seen::default(), Hits::default(), Lists::default());
    for seed in 0..count {
        let case = cases(seed);
        let Case { stream, list, families, query, .. } = &case;
        // another sequence than the case's own
        let search = Search { stream, list, families, query };
        let agreed = agree::search(search, &mut Random::new(!seed), &mut seen);
        let found = agreed.unwrap_or_else(|message| panic!("{label}, seed {seed}: {message}"));
        with_hits.count(&found, &read_query(query).unwrap_or_default());
        lists.count(&case, &found);
    }
    seen.assert_all(label, &REFUSALS, 100);
    say(&format!("  searches with hits: {with_hits:?}\n  by family lists: {lists:?}"));
    (with_hits, lists)
}

/// Generated streams, lists and queries that occur or nearly, sound and wrong, with rows of every measure.
/// With those of `generated_cases_agree` over 100,000 have a family list.
#[test]
fn generated_searches_agree() {
    let (hits, lists) = compare_generated("generated, found", search, SEARCHES);
    assert!(hits.some >= 35_000 && hits.overlapping >= 8_000 && hits.on_a_later_page >= 10_000);
    assert!(hits.at_the_last_record >= 20_000 && hits.over_a_gap >= 5_000);
    assert!(hits.of_most_glyphs >= 200 && hits.of_a_longest_name >= 1_500);
    assert!(lists.used >= 70_000 && lists.wrong >= 8_000 && lists.full >= 500 && lists.bearing >= 15_000);
}

/// The same for the cases that the other routines are compared on.
#[test]
fn generated_cases_agree() {
    let (hits, lists) = compare_generated("generated cases, found", case, CASES);
    assert!(hits.some >= 5_000);
    assert!(lists.used >= 35_000 && lists.wrong >= 1_000 && lists.full >= 250 && lists.bearing >= 2_000);
}

/// Slices of nothing at all, and 01's own samples, by numbers written down by hand.
#[test]
fn answers_by_hand() {
    let search = plain(&[], &[], &[]);
    let refused = FindResult { refusal: 2, ..FindResult::default() };
    assert_eq!(proved::find(search, &mut [], &mut []), refused);

    // P2 and P3
    let (mut records, mut hits) = ([Record::default(); 3], [7; 2]);
    let search = plain(SAMPLE, SAMPLE_LIST, b"glyph=a\nglyph=b\ngap=any\nglyph='e\n");
    let answer = proved::find(search, &mut records, &mut hits);
    assert_eq!(answer, FindResult { offset: 0, records: 3, hits: 1, refusal: 0 });
    assert_eq!((hits, records.map(|record| record.gap)), ([0, 7], [1, 0, 1]));
    let search = Search { query: b"glyph=a\nglyph=b\nglyph='e\n", ..search };
    assert_eq!(proved::find(search, &mut records, &mut hits).hits, 0);

    // P10
    let stream = body(b"taaa");
    let answer = proved::find(plain(&stream, SAMPLE_LIST, b"glyph=a\nglyph=a\n"), &mut records, &mut hits);
    assert_eq!((answer.records, answer.hits, hits), (3, 2, [0, 1]));

    // 2026-01: P2 by another name of its last glyph
    let search = Search {
        families: b"name=e\nsame=u0065_0301\nsame='e\n",
        ..plain(SAMPLE, SAMPLE_LIST, b"glyph=b\ngap=any\nglyph=u0065_0301\n")
    };
    let answer = proved::find(search, &mut records, &mut hits);
    assert_eq!((answer.records, answer.hits, hits), (3, 1, [1, 1]));
    let answer = proved::find(Search { families: b"", ..search }, &mut records, &mut hits);
    assert_eq!((answer.records, answer.hits), (3, 0));
    let answer = proved::find(Search { families: b"name=e\n", ..search }, &mut records, &mut hits);
    assert_eq!(answer, FindResult { offset: 7, refusal: 14, ..FindResult::default() });
}

/// The longest stream, lists and query that are looked at; one of a byte more is refused before all
/// else. (No well-formed query is over 5,048 bytes.)
#[test]
fn lengths_at_the_limit() {
    let answer_by = |search: Search| {
        let answer = found(search, [10, 10]);
        (answer.refusal, answer.offset)
    };
    let answer = |stream: &[u8], list: &[u8], query: &[u8]| answer_by(plain(stream, list, query));
    let query_of = |length: usize| [b"glyph=a\n", &vec![b'\n'; length - 8][..]].concat();
    assert_eq!(answer(SAMPLE, SAMPLE_LIST, &query_of(QUERY_LIMIT)), (12, 8));
    assert_eq!(answer(SAMPLE, SAMPLE_LIST, &query_of(QUERY_LIMIT + 1)), (1, 0));
    assert_eq!(answer(b"", b"", &query_of(QUERY_LIMIT + 1)), (1, 0));

    let (longest, too_long) = (list::of_length(LIST_LIMIT), list::of_length(LIST_LIMIT + 1));
    assert_eq!(answer(b"", &longest, b"glyph=a\n"), (11, 0));
    assert_eq!(answer(b"", &too_long, b""), (1, 0));

    let (longest, too_long) = (families::of_length(LIST_LIMIT), families::of_length(LIST_LIMIT + 1));
    let search = plain(SAMPLE, SAMPLE_LIST, b"glyph=a\n");
    assert_eq!(answer_by(Search { families: &longest, ..search }), (0, 0));
    assert_eq!(answer_by(Search { families: &too_long, ..search }), (1, 0));
    assert_eq!(answer_by(Search { families: &too_long, ..plain(b"", b"", b"") }), (1, 0));

    let stream = sample_of(STREAM_LIMIT + 1);
    assert_eq!(answer(&stream[..STREAM_LIMIT], SAMPLE_LIST, b"glyph=a\n"), (0, 0));
    assert_eq!(answer(&stream[..STREAM_LIMIT], SAMPLE_LIST, b""), (12, 0));
    assert_eq!(answer(&stream, SAMPLE_LIST, b"glyph=a\n"), (1, 0));
    assert_eq!(answer(&stream, b"", b""), (1, 0));
}

/// 64 glyph lines with a gap line between each two, and a name of 64 bytes, occur; 65 are wrong.
#[test]
fn limits_of_a_query() {
    let stream = body(&b"caw".repeat(70));
    let line = b"gap=any\nglyph=a\n";
    let answer = |query: &[u8]| {
        let answer = found(plain(&stream, SAMPLE_LIST, query), [70, 70]);
        (answer.refusal, answer.offset, answer.hits)
    };
    assert_eq!(answer(&line.repeat(64)[8..]), (0, 0, 7));
    assert_eq!(answer(&line.repeat(65)[8..]), (12, 1_024, 0));
    assert_eq!(answer(&[&line.repeat(64)[8..], b"gap=any\n"].concat()), (12, 1_016, 0));

    let stream = body(&[b"C", &[b'n'; 64][..], b" ta\nC", &[b'n'; 63], b"\ncb"].concat());
    let answer = |length: usize| {
        let query = [b"glyph=", &vec![b'n'; length][..], b"\n"].concat();
        let answer = found(plain(&stream, SAMPLE_LIST, &query), [4, 1]);
        (answer.refusal, answer.hits)
    };
    assert_eq!([62, 63, 64, 65].map(answer), [(0, 0), (0, 1), (0, 1), (12, 0)]);
}

/// Refusal and offset where the glyph `a` is looked for, and stands there, by this family list.
fn judged(families: &[u8]) -> (u32, usize) {
    let answer = found(Search { families, ..plain(&body(b"ca"), SAMPLE_LIST, b"glyph=a\n") }, [1, 1]);
    (answer.refusal, answer.offset)
}

/// 256 families are in order, and so are 8 names of one; 257 and 9 are not, nor is one name alone.
#[test]
fn limits_of_a_family_list() {
    let pair = |number: usize| format!("name={number:04}a\nsame={number:04}b\n");
    let pairs = |count: usize| (0..count).map(pair).collect::<String>();
    assert_eq!(judged(pairs(256).as_bytes()), (0, 0));
    assert_eq!(judged(pairs(257).as_bytes()), (14, 256 * 22));
    let others = |count: usize| (2..=count).map(|name| format!("same={name}\n")).collect::<String>();
    let family = |count: usize| judged(format!("name=1\n{}", others(count)).as_bytes());
    assert_eq!([1, 2, 8, 9].map(family), [(14, 7), (0, 0), (0, 0), (14, 56)]);
}

/// In a full list of names that are hard to tell apart each is found by its family alone, and none may stand
/// there twice.
#[test]
fn a_full_list_of_alike_names() {
    let (list, names) = list_of_alike_names();
    assert_eq!((names.len(), judged(&list)), (NAMES_LIMIT, (0, 0)));
    let stream = body(&names.iter().flat_map(|name| [b"C", &name[..], b"\n"].concat()).collect::<Vec<u8>>());
    let last_line = list.len() - b"same=".len() - 23;
    for number in [0, 1, 7, 8, 1_000, 2_040, 2_046] {
        let query = [b"glyph=", &names[number][..], b"\n"].concat();
        let first = number as u32 / 8 * 8;
        let due: Vec<u32> = (first..first + 8).collect();
        assert_eq!(hits(Search { families: &list, ..plain(&stream, SAMPLE_LIST, &query) }), due);
        // the name once more, in the place of the last one
        let wrong = [&list[..last_line + 5], &names[number], b"\n"].concat();
        assert_eq!(judged(&wrong), (14, last_line));
    }
}

/// A full list, and its names, which have 22 bytes each: of `Aa` and `BB`, which give the same number
/// where a letter counts 31 times as much as the next.
fn list_of_alike_names() -> (Vec<u8>, Vec<Vec<u8>>) {
    let pair = |number: usize, bit: usize| if number >> bit & 1 == 0 { "Aa" } else { "BB" };
    let name = |number: usize| (0..11).map(|bit| pair(number, bit)).collect::<String>().into_bytes();
    let names: Vec<Vec<u8>> = (0..NAMES_LIMIT).map(name).collect();
    let families: Vec<families::Family> = names.chunks(MEMBER_LIMIT).map(<[_]>::to_vec).collect();
    (families::write_families(&families), names)
}

/// 1, 2, 14, 12, then the stream, then 13 for records or hits: with all against it, one put right after
/// the other; and each with no room.
#[test]
fn refusals_come_in_their_order() {
    let (long_query, query) = ([b'\n'; QUERY_LIMIT + 1], b"glyph=a\n");
    let (wrong, right) = (body(b"caq"), body(b"caca"));
    let answer_by = |search: Search, room| {
        let answer = found(search, room);
        (answer.refusal, answer.offset)
    };
    let answer = |stream: &[u8], list: &[u8], query: &[u8], room| {
        let search = plain(stream, list, query);
        let due = answer_by(search, room);
        // the family list comes behind 1 and 2, and before all else
        let with_wrong_list = answer_by(Search { families: b"name=a\n#\n", ..search }, room);
        assert_eq!(with_wrong_list, if matches!(due.0, 1 | 2) { due } else { (14, 7) });
        let too_long = [b'\n'; LIST_LIMIT + 1];
        assert_eq!(answer_by(Search { families: &too_long, ..search }, room), (1, 0));
        due
    };
    assert_eq!(answer(&wrong, b"unitwidth=1\n\n", &long_query, [0, 0]), (1, 0));
    assert_eq!(answer(&wrong, b"unitwidth=1\n\n", b"glyph=a\n\n", [0, 0]), (2, 12));
    assert_eq!(answer(&wrong, SAMPLE_LIST, b"glyph=a\n\n", [0, 0]), (12, 8));
    assert_eq!(answer(&wrong, SAMPLE_LIST, query, [0, 0]), (3, BODY_HEAD.len() + 2));
    assert_eq!(answer(&right, b"unitwidth=1\n\n", query, [0, 0]), (2, 12));
    assert_eq!(answer(&right, SAMPLE_LIST, b"glyph=a\n\n", [0, 0]), (12, 8));
    assert_eq!(answer(&right, SAMPLE_LIST, query, [0, 0]), (13, 0));
    assert_eq!(answer(&right, SAMPLE_LIST, query, [1, 2]), (13, 0));
    assert_eq!(answer(&right, SAMPLE_LIST, query, [2, 1]), (13, 0));
    assert_eq!(answer(&right, SAMPLE_LIST, query, [2, 2]), (0, 0));
    assert_eq!(answer(&right, SAMPLE_LIST, b"glyph=b\n", [2, 0]), (0, 0));
}

/// Records and hits by the hundred thousand, hits that overlap, and pages beyond what two bytes count.
#[test]
fn long_streams_agree() {
    let (text, list) = (shape::stream(2_000_000, &mut Random::new(0)), shape::list());
    let run = body(&[b"t", &[b'a'; 150_000][..], b"b"].concat());
    let pages = body(&b"p7\ntab w".repeat(70_000));
    let many = b"glyph=a\n".repeat(64);
    let many_and_last = [&many[8..], b"glyph=b\n"].concat();
    let by_families = |search| Search { families: b"name=x\nsame=e\nname=b\nsame=a\n", ..search };
    assert_exact_room(plain(&text, &list, b"glyph=e\n"), 50_000);
    assert_exact_room(by_families(plain(&text, &list, b"glyph=x\n")), 50_000);
    assert_exact_room(plain(&run, SAMPLE_LIST, &many), 149_937);
    assert_exact_room(by_families(plain(&run, SAMPLE_LIST, &many)), 149_938);
    assert_exact_room(plain(&run, SAMPLE_LIST, &many_and_last), 1);
    assert_exact_room(by_families(plain(&run, SAMPLE_LIST, &many_and_last)), 149_938);
    assert_exact_room(plain(&pages, SAMPLE_LIST, b"glyph=a\nglyph=b\n"), 70_000);
    assert_exact_room(by_families(plain(&pages, SAMPLE_LIST, b"glyph=b\nglyph=a\n")), 70_000);
}

/// Rows of exactly the items are accepted, and rows of one less are not; there are many records and
/// at least so many hits.
fn assert_exact_room(search: Search, least: usize) {
    let refusal = |records, hits| found(search, [records, hits]).refusal;
    let most = search.stream.len();
    let FindResult { records, hits, .. } = found(search, [most, most]);
    assert!(records >= 140_000 && hits >= least, "{records} records, {hits} hits");
    assert_eq!(refusal(records, hits), 0);
    assert_eq!(refusal(records - 1, hits), 13);
    assert_eq!(refusal(records, hits - 1), 13);
}

/// Demand 3: a word set by `t`, `u`, `c`, `C` or two digits has the same hits.
#[test]
fn a_word_is_found_however_it_is_set() {
    let ways: [&[u8]; 7] = [
        b"tabab\nw ta\n",
        b"tabab 7\nwta -3\n",
        b"u-20 abab\nw u5a\n",
        b"cacbcacbwca",
        b"Ca\nCb\nCa\nCb\nwC a\n",
        b"07a00b93a 1 2 bw00a",
        b"ta\nh-9Cb\nf1u0 a\n#c\n08bv4 n1 2\nca",
    ];
    for way in ways {
        let stream = body(way);
        let hits = |query| hits(plain(&stream, SAMPLE_LIST, query));
        assert_eq!(hits(b"glyph=a\nglyph=b\n"), [0, 2], "{}", way.escape_ascii());
        assert_eq!(hits(b"glyph=b\ngap=any\nglyph=a\n"), [3]);
        assert_eq!(hits(b"glyph=b\nglyph=a\n"), [1]);
        assert_eq!(hits(b"glyph=ab\n"), [0; 0]);
    }
}

/// 2026-01: a letter under any of its names is found by any of them, with a family list that has them in
/// any order; without one by its own alone.
#[test]
fn a_letter_is_found_under_all_its_names() {
    let names: [&[u8]; 4] = [b"'e", b"u0065_0301", b"\xe9", &[b'n'; 64]];
    let set: Vec<u8> = names.iter().flat_map(|name| [b"caC", *name, b"\nwcb"].concat()).collect();
    let stream = body(&set);
    for turn in 0..names.len() {
        let lines = (0..names.len()).map(|place| {
            let key: &[u8] = if place == 0 { b"name=" } else { b"same=" };
            [key, names[(turn + place) % names.len()], b"\n"].concat()
        });
        let families = [b"name=x\nsame=b\n".to_vec(), lines.collect::<Vec<_>>().concat()].concat();
        for (number, name) in names.iter().enumerate() {
            let query = [b"glyph=a\nglyph=", *name, b"\ngap=any\nglyph=x\n"].concat();
            let search = Search { families: &families, ..plain(&stream, SAMPLE_LIST, &query) };
            assert_eq!(hits(search), [0, 3, 6, 9]);
            assert_eq!(hits(Search { families: b"", ..search }), [0; 0]);
            let own = [b"glyph=", *name, b"\ngap=any\nglyph=b\n"].concat();
            assert_eq!(hits(plain(&stream, SAMPLE_LIST, &own)), [3 * number as u32 + 1]);
        }
    }
}

/// Demand 3: streams that are alike in names, gaps and page ordinals have the same hits, whatever
/// their positions, sizes, page numbers and indexes.
#[test]
fn alike_streams_have_the_same_hits() {
    let mut hit_count = 0;
    for seed in 0..2_000 {
        let mut random = Random::new(seed);
        let outline = if seed % 2 == 0 { outline(&mut random) } else { repeated_outline(&mut random) };
        let first = write_outline(&mut random, &outline);
        let records = second::read(&first, OUTLINE_LIST, Default::default()).expect("a sound stream").records;
        if records.is_empty() {
            continue;
        }
        let query = query::cut_query(&mut random, &first, &records);
        if read_query(&query).is_err() {
            continue;
        }
        let due = hits(plain(&first, OUTLINE_LIST, &query));
        hit_count += due.len();
        for setting in SETTINGS {
            let other = write_outline_by(&[setting], &mut random, &outline);
            assert_eq!(hits(plain(&other, OUTLINE_LIST, &query)), due, "seed {seed}, {setting:?}");
        }
    }
    say(&format!("alike streams: {hit_count} hits"));
    assert!(hit_count >= 2_000);
}
