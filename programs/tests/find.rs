//! `find` and the second program write the same bytes on the vectors and on generated cases.

use programs::{rooms, Runner, Seen, GENERATED};
use second::find::{read_query, QueryGlyph};
use second::generate::damage::damage;
use second::generate::outline::{outline, write_outline, OUTLINE_LIST};
use second::generate::random::Random;
use second::generate::{self, query::query};
use second::refusal::{QUERY, TOO_LONG, WIDTH_LIST};
use second::vectors::{self, Program, Second};
use second::{find, Found, Record};

const OUTLINES: u64 = 3_000;

/// What the queries of the accepted cases met: a hit, hits that share a record, a run that only a
/// page parts.
#[derive(Debug, Default)]
struct Met {
    hits: usize,
    overlaps: usize,
    straddles: usize,
}

impl Met {
    fn add(&mut self, stream: &[u8], query: &[u8], found: &Found) {
        let glyphs = read_query(query).expect("the query of an accepted case is sound");
        let overlaps = found.hits.windows(2).any(|pair| pair[1] - pair[0] < glyphs.len());
        let straddles = found.records.windows(glyphs.len()).any(|run| straddles(stream, run, &glyphs));
        self.hits += usize::from(!found.hits.is_empty());
        self.overlaps += usize::from(overlaps);
        self.straddles += usize::from(straddles);
    }
}

/// Whether a run has the names and gaps of a query, on more than one page.
fn straddles(stream: &[u8], run: &[Record], glyphs: &[QueryGlyph]) -> bool {
    let named = run.iter().zip(glyphs).all(|(record, glyph)| record.name(stream) == glyph.name);
    let parted = run.iter().zip(glyphs).skip(1).all(|(record, glyph)| record.gap == glyph.gap);
    named && parted && run.iter().any(|record| record.ordinal != run[0].ordinal)
}

struct Finder {
    runner: Runner,
    seen: Seen,
    met: Met,
}

impl Finder {
    fn new(label: &str) -> Finder {
        Finder { runner: Runner::new("find", label), seen: Seen::default(), met: Met::default() }
    }

    /// With an empty family list, for the program takes none.
    fn compare(&mut self, label: &str, stream: &[u8], list: &[u8], query: &[u8]) {
        let files = [("stream", stream), ("widths", list), ("query", query)];
        self.runner.compare(label, &files, Second.find(stream, list, b"", query, rooms()), &mut self.seen);
        if let Ok(found) = find(stream, list, b"", query, rooms()) {
            self.met.add(stream, query, &found);
        }
    }
}

/// The vectors whose family list is empty. One with no query of its own is asked for the glyph `a`.
#[test]
fn vectors_agree() {
    let mut finder = Finder::new("vectors");
    let mut cases = vectors::all_cases().expect("the vectors can be read");
    assert!(cases.len() >= vectors::LEAST_CASES, "{} vectors", cases.len());
    cases.retain(|case| case.families.is_empty());
    for case in &cases {
        let query = case.query.as_deref().unwrap_or(b"glyph=a\n");
        finder.compare(&case.name, &case.stream, &case.list, query);
    }
    let Finder { seen, met, .. } = finder;
    println!("{} vectors: {seen:?}, {met:?}", cases.len());
    assert!(seen.accepted >= 350 && seen.refusals() >= 400 && seen.refusals_of(QUERY) >= 20, "{seen:?}");
}

/// Generated cases whose family list is empty: the others have queries by other names than the stream's.
#[test]
fn generated_cases_agree() {
    let mut finder = Finder::new("generated");
    let seeds = (0..).map(|seed| (seed, generate::case(seed)));
    let cases = seeds.filter(|(_, case)| case.families.is_empty()).take(GENERATED as usize);
    for (seed, case) in cases {
        finder.compare(&format!("seed {seed}"), &case.stream, &case.list, &case.query);
    }
    let Finder { seen, met, .. } = finder;
    println!("{GENERATED} generated cases: {seen:?}, {met:?}");
    assert!(seen.accepted >= 500 && seen.refusals() >= 500 && met.hits >= 500, "{seen:?}, {met:?}");
    assert!([TOO_LONG, WIDTH_LIST, QUERY].iter().all(|number| seen.refusals_of(*number) > 0), "{seen:?}");
}

/// Streams over few glyphs, in which a query occurs often; one query of ten is damaged.
#[test]
fn outlines_agree() {
    let mut finder = Finder::new("outlines");
    for seed in 0..OUTLINES {
        let mut random = Random::new(seed);
        let items = outline(&mut random);
        let stream = write_outline(&mut random, &items);
        let mut query = query(&mut random, &stream, OUTLINE_LIST);
        if random.once_in(10) {
            damage(&mut random, &mut query);
        }
        finder.compare(&format!("outline {seed}"), &stream, OUTLINE_LIST, &query);
    }
    let Finder { seen, met, .. } = finder;
    println!("{OUTLINES} outlines: {seen:?}, {met:?}");
    assert!(met.hits >= 1_000 && met.overlaps >= 100 && met.straddles >= 100, "{met:?}");
    assert!(seen.refusals_of(QUERY) >= 100, "{seen:?}");
}
