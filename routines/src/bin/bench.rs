//! The speed of the proved reader, finder and rewriter beside that of the second program, in one run, on
//! streams of the shape that troff writes; and of first names. README.md says what each line measures.

use routines::{expected, proved, shape, Entry, Naming, Record, Search};
use second::families::{read_families, FAMILY_LIMIT, MEMBER_LIMIT};
use second::find::{occurrences, read_query};
use second::generate::random::Random;
use second::read::Walk;
use second::refusal::{Rooms, SPELLING_LIMIT};
use second::widths::read_list;
use std::hint::black_box;
use std::mem::size_of;
use std::time::{Duration, Instant};

/// 1, 4, 8 and just under 16 MB: 16,777,216 bytes are 01's limit.
const SIZES: [usize; 4] = [1_000_000, 4_000_000, 8_000_000, 16_000_000];
const ROUNDS: usize = 7;
/// Beyond 4 MB the spelling of such a stream is over 01's limit of 16,777,216 bytes.
const MOST_TO_RESPELL: usize = 4_000_000;
/// One that occurs, which begins with the letter that is in a family; one that begins with a letter that is
/// in none; and one whose last glyph no stream of this shape has.
const IN_A_FAMILY: (&str, &[u8]) = ("the", b"glyph=t\nglyph=h\nglyph=e\n");
const IN_NO_FAMILY: (&str, &[u8]) = ("and", b"glyph=a\nglyph=n\nglyph=d\n");
const NOWHERE: (&str, &[u8]) = ("thQ", b"glyph=t\nglyph=h\nglyph=Q\n");
/// How many families the family lists have, and how many names each: none, a few, as many as there may be.
const LISTS: [(usize, usize); 3] = [(0, 0), (12, 3), (FAMILY_LIMIT, MEMBER_LIMIT)];
/// How often a first name is asked for in one run.
const CALLS: usize = 100;

/// A name, and how long one run takes. Those of the second program, whose names say so, come last.
type Runner = (&'static str, fn(&mut Rows, Search) -> Duration);

const READERS: [Runner; 3] = [
    ("proved reader", Rows::time_read),
    ("second program", time_second_read),
    ("second, kept rows", Rows::time_kept_read),
];

const FINDERS: [Runner; 4] = [
    ("proved finder", Rows::time_find),
    ("proved, least rows", Rows::time_find_in_least_rows),
    ("second program", time_second_find),
    ("second, kept rows", Rows::time_kept_find),
];

const REWRITERS: [Runner; 2] =
    [("proved rewriter", Rows::time_respell), ("second program", time_second_respell)];

fn main() {
    println!("a record has {} bytes, an entry {}", size_of::<Record>(), size_of::<Entry>());
    println!("each time is the best of {ROUNDS}, the programs taking turns");
    println!("ratios: a line's time for one of each of the second program's lines");
    let list = shape::list();
    for (seed, size) in SIZES.into_iter().enumerate() {
        measure(&shape::stream(size, &mut Random::new(seed as u64)), &list);
    }
    measure_first_names();
}

/// Measures reader and finder on one stream and prints what came.
fn measure(stream: &[u8], list: &[u8]) {
    let mut rows = Rows::for_stream(stream, list);
    let (records, entries) = (rows.records.len(), rows.entries.len());
    let memory = megabytes(records * size_of::<Record>() + entries * size_of::<Entry>());
    let size = megabytes(stream.len());
    println!("\n{size:.2} MB: {records} records, {entries} entries, rows of {memory:.1} MB");
    println!(" read");
    race(&READERS, &mut rows, Search { stream, list, families: b"", query: b"" });
    for (count, size) in LISTS {
        let families = &shape::families(count, size);
        let queries: &[_] =
            if count == 0 { &[IN_A_FAMILY, IN_NO_FAMILY, NOWHERE] } else { &[IN_A_FAMILY, IN_NO_FAMILY] };
        for (word, query) in queries {
            let search = Search { stream, list, families, query };
            rows.search_once(search);
            println!(" find {word} by {count} families, {} hits", rows.due);
            race(&FINDERS, &mut rows, search);
        }
    }
    if stream.len() > MOST_TO_RESPELL {
        let answer = proved::respell(stream, list, &mut vec![0; SPELLING_LIMIT]);
        assert_eq!(answer.refusal, 13);
        println!(" respell: refused as 13, the spelling is over {SPELLING_LIMIT} bytes");
        return;
    }
    let spelling = measure_respelling(stream, list, &mut rows);
    measure_respelling(&spelling, list, &mut rows);
}

/// Measures the rewriter on one stream and prints what came; the spelling.
fn measure_respelling(stream: &[u8], list: &[u8], rows: &mut Rows) -> Vec<u8> {
    rows.respell_once(stream, list);
    let is_spelt = if rows.out == stream { "a stream that is spelt so already" } else { "the stream" };
    let (size, length) = (megabytes(stream.len()), megabytes(rows.out.len()));
    println!(" respell {is_spelt}, {size:.2} MB, to {length:.2} MB");
    race(&REWRITERS, rows, Search { stream, list, families: b"", query: b"" });
    rows.out.clone()
}

/// Measures first names by a full list, which is read anew for each, and prints what came.
fn measure_first_names() {
    let families = shape::families(FAMILY_LIMIT, MEMBER_LIMIT);
    let size = families.len();
    println!(
        "\nfirst names, {CALLS} of them, by {FAMILY_LIMIT} families in {size} bytes; MB/s of the family list"
    );
    for (word, stream) in [("its last name", shape::LAST_NAME), ("a name in no family", b"a")] {
        let naming = Naming { stream, families: &families, place: 0, len: stream.len() };
        let due = expected::first_name(naming).answer;
        assert_eq!(proved::first_name(naming), due);
        println!(" for {word}");
        let names = ["proved first name", "second program"];
        race_all(&names, CALLS * size, |place| match place {
            0 => timed(|| (0..CALLS).for_each(|_| assert_eq!(proved::first_name(black_box(naming)), due))).0,
            _ => {
                let run = || expected::first_name(black_box(naming)).answer;
                timed(|| (0..CALLS).for_each(|_| assert_eq!(run(), due))).0
            }
        });
    }
}

/// The best time of each, in turns.
fn race(runners: &[Runner], rows: &mut Rows, search: Search) {
    let names: Vec<&str> = runners.iter().map(|(name, _)| *name).collect();
    race_all(&names, search.stream.len(), |place| runners[place].1(rows, search));
}

/// The same for what `run` times, by its place among the names; its speed is in so many bytes.
fn race_all(names: &[&str], bytes: usize, mut run: impl FnMut(usize) -> Duration) {
    let mut best = vec![Duration::MAX; names.len()];
    for _ in 0..ROUNDS {
        for (place, time) in best.iter_mut().enumerate() {
            *time = run(place).min(*time);
        }
    }
    let seconds: Vec<f64> = best.iter().map(Duration::as_secs_f64).collect();
    let is_second = |place: &usize| names[*place].starts_with("second");
    for (name, time) in names.iter().zip(&seconds) {
        let ratio = |place: usize| format!("{:.2}", time / seconds[place]);
        let ratios: Vec<String> = (0..seconds.len()).filter(is_second).map(ratio).collect();
        let (milliseconds, speed) = (time * 1_000.0, megabytes(bytes) / time);
        let ratios = ratios.join(", ");
        println!("  {name:18} {milliseconds:8.2} ms {speed:7.1} MB/s, ratios {ratios}");
    }
}

fn megabytes(bytes: usize) -> f64 {
    bytes as f64 / 1e6
}

fn timed<T>(run: impl FnOnce() -> T) -> (Duration, T) {
    let start = Instant::now();
    let came = run();
    (start.elapsed(), came)
}

/// Rows that are used over and over: every page of their memory has been written before.
struct Rows {
    records: Vec<Record>,
    entries: Vec<Entry>,
    /// as many places as records, so that the hits surely have room
    hits: Vec<u32>,
    /// how many hits the query has
    due: usize,
    kept: Vec<second::Record>,
    /// of exactly the bytes of the spelling
    out: Vec<u8>,
}

impl Rows {
    /// Rows that are exactly large enough. Both programs must have read the same.
    fn for_stream(stream: &[u8], list: &[u8]) -> Rows {
        let due = expected::read(stream, list, Rooms::default());
        let mut records = vec![Record::default(); due.records.len()];
        let mut entries = vec![Entry::default(); due.others.len()];
        let answer = proved::read(stream, list, &mut records, &mut entries);
        assert!(answer.refusal == 0 && answer == due.answer, "{answer:?}");
        assert!(records == due.records && entries == due.others, "the rows differ");
        let hits = vec![0; records.len()];
        Rows { records, entries, hits, due: 0, kept: Vec::new(), out: Vec::new() }
    }

    /// Both programs must find the same.
    fn search_once(&mut self, search: Search) {
        let due = expected::find(search, Rooms::default());
        let answer = proved::find(search, &mut self.records, &mut self.hits);
        assert!(answer.refusal == 0 && answer == due.answer, "{answer:?}");
        assert!(self.records == due.records && self.hits[..answer.hits] == due.others, "the rows differ");
        self.due = answer.hits;
    }

    /// Both programs must spell the same.
    fn respell_once(&mut self, stream: &[u8], list: &[u8]) {
        let due = expected::respell(stream, list, Rooms::default());
        self.out = vec![0; due.others.len()];
        let answer = proved::respell(stream, list, &mut self.out);
        assert!(answer.refusal == 0 && answer == due.answer, "{answer:?}");
        assert!(self.out == due.others, "the spellings differ");
    }

    fn time_read(&mut self, Search { stream, list, .. }: Search) -> Duration {
        let (time, answer) = timed(|| proved::read(stream, list, &mut self.records, &mut self.entries));
        assert_eq!(answer.records, self.records.len());
        time
    }

    fn time_find(&mut self, search: Search) -> Duration {
        let (time, answer) = timed(|| proved::find(search, &mut self.records, &mut self.hits));
        assert_eq!((answer.refusal, answer.hits), (0, self.due));
        time
    }

    /// A row of hits that is exactly large enough.
    fn time_find_in_least_rows(&mut self, search: Search) -> Duration {
        let hits = &mut self.hits[..self.due];
        let (time, answer) = timed(|| proved::find(search, &mut self.records, hits));
        assert_eq!((answer.refusal, answer.hits), (0, self.due));
        time
    }

    fn time_respell(&mut self, Search { stream, list, .. }: Search) -> Duration {
        let (time, answer) = timed(|| proved::respell(stream, list, &mut self.out));
        assert_eq!((answer.refusal, answer.len), (0, self.out.len()));
        time
    }

    /// The second program's walk, once, with the records in memory of the round before.
    fn walk(&mut self, stream: &[u8], list: &[u8]) {
        self.kept.clear();
        let widths = read_list(list).expect("the list is sound");
        let mut walk = Walk::new(stream, &widths);
        while walk.step(&mut self.kept).expect("the stream is sound").is_some() {}
    }

    fn time_kept_read(&mut self, Search { stream, list, .. }: Search) -> Duration {
        let (time, ()) = timed(|| self.walk(stream, list));
        assert_eq!(self.kept.len(), self.records.len());
        time
    }

    /// The same walk, then its search.
    fn time_kept_find(&mut self, Search { stream, list, families, query }: Search) -> Duration {
        let (time, hits) = timed(|| {
            let families = read_families(families).expect("the family list is sound");
            let glyphs = read_query(query).expect("the query is sound");
            self.walk(stream, list);
            occurrences(stream, &self.kept, &families, &glyphs)
        });
        assert_eq!(hits.len(), self.due);
        time
    }
}

/// The second program as it is; giving its memory back is not measured.
fn time_second_read(_: &mut Rows, Search { stream, list, .. }: Search) -> Duration {
    let (time, reading) = timed(|| second::read(stream, list, Rooms::default()));
    assert!(reading.is_ok());
    time
}

fn time_second_find(_: &mut Rows, Search { stream, list, families, query }: Search) -> Duration {
    let (time, found) = timed(|| second::find(stream, list, families, query, Rooms::default()));
    assert!(found.is_ok());
    time
}

fn time_second_respell(_: &mut Rows, Search { stream, list, .. }: Search) -> Duration {
    let (time, spelling) = timed(|| second::respell(stream, list, Rooms::default()));
    assert!(spelling.is_ok());
    time
}
