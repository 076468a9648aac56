//! The proved reader and the second program agree on the vectors and on generated streams: in the
//! answer, in both rows, and in all that is to stay as it was. The vectors hold for every routine.

use routines::agree;
use routines::measure::{say, Seen};
use routines::proved::{self, Proved};
use routines::sample::{sample_of, SAMPLE};
use routines::{expected, shape, Colour, Entry, ReadResult, Record};
use second::generate;
use second::generate::random::Random;
use second::refusal::{Rooms, LIST_LIMIT, STREAM_LIMIT};
use second::vectors::{self, Case, BODY_HEAD, BODY_TAIL, SAMPLE_LIST};

const INPUTS: u64 = 100_000;

/// The refusal numbers that the reader can give.
const REFUSALS: [usize; 13] = [1, 2, 3, 4, 5, 6, 7, 8, 9, 10, 11, 13, 16];

fn vector_cases() -> Vec<Case> {
    vectors::all_cases().expect("the vectors can be read")
}

#[test]
fn vectors_hold() {
    let cases = vector_cases();
    let failures: Vec<String> = cases.iter().filter_map(|case| vectors::run(case, &Proved).err()).collect();
    assert!(failures.is_empty(), "{} cases fail\n{}", failures.len(), failures.join("\n"));
    let checks: usize = cases.iter().map(|case| case.checks.len()).sum();
    say(&format!("vectors: {} cases, {checks} checks", cases.len()));
    assert!(cases.len() >= vectors::LEAST_CASES && checks >= 1_700, "vectors are missing");
}

/// Every vector's stream, with rows of every measure.
#[test]
fn vectors_agree() {
    let mut seen = Seen::default();
    for case in vector_cases() {
        let agreed = agree::input(&case.stream, &case.list, &mut Random::new(seen.inputs), &mut seen);
        agreed.unwrap_or_else(|message| panic!("case {}: {message}", case.name));
    }
    seen.assert_all("vectors, read", &REFUSALS, 1);
}

/// Generated streams, sound and damaged, with rows of every measure.
#[test]
fn generated_streams_agree() {
    let mut seen = Seen::default();
    for seed in 0..INPUTS {
        let case = generate::case(seed);
        // another sequence than the case's own
        let mut random = Random::new(!seed);
        let agreed = agree::input(&case.stream, &case.list, &mut random, &mut seen);
        agreed.unwrap_or_else(|message| panic!("seed {seed}: {message}"));
    }
    seen.assert_all("generated, read", &REFUSALS, 100);
}

/// The longest stream and the longest list are read, one of a byte more is refused before all else.
#[test]
fn lengths_at_the_limit() {
    let read = |stream: &[u8], list: &[u8]| {
        let answer = agree::reading(stream, list, [10, 10], &mut Random::new(0));
        let answer = answer.unwrap_or_else(|message| panic!("{message}"));
        (answer.refusal, answer.offset)
    };
    let short_of_list = |length| read(b"x T a\nx r 1 1 1\nx i\nx s\n", &generate::list::of_length(length));
    assert_eq!([LIST_LIMIT - 1, LIST_LIMIT, LIST_LIMIT + 1].map(short_of_list), [(0, 0), (0, 0), (1, 0)]);
    let stream = sample_of(STREAM_LIMIT + 1);
    assert_eq!(read(&stream[..STREAM_LIMIT], SAMPLE_LIST), (0, 0));
    assert_eq!(read(&stream, SAMPLE_LIST), (1, 0));
    assert_eq!(read(&stream, b""), (1, 0));
    assert_eq!(read(b"", &generate::list::of_length(LIST_LIMIT + 1)), (1, 0));
    assert_eq!(read(&stream[..STREAM_LIMIT], b""), (2, 0));
    assert_eq!(read(b"", SAMPLE_LIST), (11, 0));
}

/// Records and entries by the hundred thousand, and pages beyond what two bytes count.
#[test]
fn long_streams_agree() {
    let text = shape::stream(2_000_000, &mut Random::new(0));
    let many = b"p7\nDl 3 4\nDFg 5\nx X text\nH0V0ca\n".repeat(70_000);
    let drawings = [BODY_HEAD, &many, BODY_TAIL].concat();
    for (stream, list, least) in
        [(text, shape::list(), [500_000, 100]), (drawings, SAMPLE_LIST.to_vec(), [70_000, 210_000])]
    {
        let mut random = Random::new(0);
        let mut refusal = |records, entries| {
            let answer = agree::reading(&stream, &list, [records, entries], &mut random);
            answer.unwrap_or_else(|message| panic!("{message}")).refusal
        };
        let answer = expected::read(&stream, &list, Rooms::default()).answer;
        let (records, entries) = (answer.records, answer.entries);
        assert!(records >= least[0] && entries >= least[1], "{answer:?}");
        assert_eq!(refusal(records, entries), 0);
        assert_eq!(refusal(records - 1, entries), 13);
        assert_eq!(refusal(records, entries - 1), 13);
    }
}

/// Slices of nothing at all, and 01's own sample, by numbers written down by hand.
#[test]
fn answers_by_hand() {
    let start = Colour { scheme: 100, parts: [0; 4] };
    let refused = ReadResult { refusal: 2, glyph: start, fill: start, ..ReadResult::default() };
    assert_eq!(proved::read(&[], &[], &mut [], &mut []), refused);

    let mut records = [Record::default(); 3];
    let mut entries = [Entry::default(); 5];
    let answer = proved::read(SAMPLE, SAMPLE_LIST, &mut records, &mut entries);
    let accepted =
        ReadResult { records: 3, entries: 5, pages: 1, h: 75_440, v: 12_000, refusal: 0, ..refused };
    assert_eq!(answer, accepted);
    let first = Record {
        ordinal: 1,
        page: 1,
        h: 72_000,
        v: 12_000,
        font: 1,
        size: 10_000,
        place: 70,
        len: 1,
        index: 0,
        gap: 1,
    };
    let second = Record { h: 72_440, place: 71, gap: 0, ..first };
    assert_eq!(records, [first, second, Record { h: 75_440, place: 81, len: 2, ..first }]);
    let stop = Entry { command: 120, letter: 115, scheme: 0, ordinal: 1, place: 84, len: 6, h: 0, v: 0 };
    assert_eq!(entries[4], stop);
}
