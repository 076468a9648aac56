//! Judging and the second program agree on the vectors and on generated streams; and rows and a
//! buffer of just the size that it answers are large enough for the other routines, smaller ones not.

use routines::agree;
use routines::measure::say;
use routines::sample::{assert_lengths_at_the_limit, body, SAMPLE};
use routines::{proved, shape, JudgeResult, RespellResult, Search};
use second::generate;
use second::generate::random::Random;
use second::refusal::SPELLING_LIMIT;
use second::vectors::{self, BODY_HEAD, SAMPLE_LIST};

const INPUTS: u64 = 100_000;

/// A query that is found wherever the glyph `a` stands or, by its family, the glyph `b`.
const FAMILIES: &[u8] = b"name=b\nsame=a\n";
const QUERY: &[u8] = b"glyph=a\n";

/// Judges; both programs agree.
fn judged(stream: &[u8], list: &[u8]) -> JudgeResult {
    agree::judging(stream, list).unwrap_or_else(|message| panic!("{message}"))
}

/// Judges and compares; then the other routines, compared as well, with rows and a buffer of the
/// answer's size, and with one place less. They accept where it does, and refuse as it does.
fn run(stream: &[u8], list: &[u8], random: &mut Random) -> Result<JudgeResult, String> {
    let answer = agree::judging(stream, list)?;
    let JudgeResult { offset, records, entries, spelling, refusal, pages } = answer;
    let search = Search { stream, list, families: FAMILIES, query: QUERY };
    let read = agree::reading(stream, list, [records, entries], random)?;
    let found = agree::finding(search, [records, records], random)?;
    let respelt = agree::respelling(stream, list, spelling, random)?;
    let is_over = spelling > SPELLING_LIMIT;
    let mut seen = vec![
        ("reader", (read.refusal, read.offset), (refusal, offset)),
        ("finder", (found.refusal, found.offset), (refusal, offset)),
        ("rewriter", (respelt.refusal, respelt.offset), if is_over { (13, 0) } else { (refusal, offset) }),
        ("pages", (read.pages, 0), (pages, 0)),
    ];
    if refusal == 0 {
        let fewer = agree::reading(stream, list, [records, entries - 1], random)?;
        seen.push(("reader, one entry less", (fewer.refusal, fewer.offset), (13, 0)));
        let shorter = agree::respelling(stream, list, spelling - 1, random)?;
        seen.push(("rewriter, one byte less", (shorter.refusal, shorter.offset), (13, 0)));
    }
    if records > 0 {
        let fewer = agree::reading(stream, list, [records - 1, entries], random)?;
        seen.push(("reader, one record less", (fewer.refusal, fewer.offset), (13, 0)));
        let fewer = agree::finding(search, [records - 1, records], random)?;
        seen.push(("finder, one record less", (fewer.refusal, fewer.offset), (13, 0)));
    }
    match seen.into_iter().find(|(_, came, due)| came != due) {
        Some((what, came, due)) => {
            Err(format!("{what}: {came:?}, {due:?} is due\n{answer:?}\n{}", stream.escape_ascii()))
        }
        None => Ok(answer),
    }
}

/// How often each refusal came, 0 for accepted.
#[derive(Default)]
struct Seen([u64; 17]);

impl Seen {
    fn count(&mut self, answer: JudgeResult) {
        self.0[answer.refusal as usize] += 1;
    }

    /// Accepted, and each refusal but 12, 13 and 14, at least so often; those never. Half as often will do
    /// for 1: of the few generated inputs that are too long most are family lists and queries, which
    /// judging does not take.
    fn assert_all(&self, label: &str, least: u64) {
        say(&format!("{label}: {:?} accepted and refused 1 to 16", self.0));
        for (number, &times) in self.0.iter().enumerate() {
            let is_due = number < 12 || number == 16;
            let least = if number == 1 { least.div_ceil(2) } else { least };
            assert!(if is_due { times >= least } else { times == 0 }, "{label}: {number} came {times} times");
        }
    }
}

#[test]
fn vectors_agree() {
    let mut seen = Seen::default();
    for (number, case) in vectors::all_cases().expect("the vectors can be read").iter().enumerate() {
        let came = run(&case.stream, &case.list, &mut Random::new(number as u64));
        seen.count(came.unwrap_or_else(|message| panic!("case {}: {message}", case.name)));
    }
    seen.assert_all("vectors, judged", 1);
}

#[test]
fn generated_streams_agree() {
    let mut seen = Seen::default();
    for seed in 0..INPUTS {
        let case = generate::case(seed);
        // another sequence than the case's own
        let came = run(&case.stream, &case.list, &mut Random::new(!seed));
        seen.count(came.unwrap_or_else(|message| panic!("seed {seed}: {message}")));
    }
    seen.assert_all("generated, judged", 100);
}

/// Glyphs, drawings, texts and pages by the hundred thousand.
#[test]
fn long_streams_agree() {
    let text = shape::stream(2_000_000, &mut Random::new(0));
    let drawings = body(&b"p7\nDl 3 4\nDFg 5\nx X text\n+\n+more\nH0V0ca\n".repeat(70_000));
    for (stream, list, least) in [(text, shape::list(), 500_000), (drawings, SAMPLE_LIST.to_vec(), 70_000)] {
        let answer = run(&stream, &list, &mut Random::new(0)).unwrap_or_else(|message| panic!("{message}"));
        assert!(answer.records >= least && answer.pages > 1, "{answer:?}");
    }
}

/// Slices of nothing at all, P1, and refusals, by numbers written down by hand.
#[test]
fn answers_by_hand() {
    let refused = |refusal, offset| JudgeResult { offset, refusal, ..JudgeResult::default() };
    assert_eq!(proved::judge(&[], &[]), refused(2, 0));
    assert_eq!(proved::judge(&[], SAMPLE_LIST), refused(11, 0));
    let accepted = JudgeResult { offset: 0, records: 3, entries: 5, spelling: 101, refusal: 0, pages: 1 };
    assert_eq!(proved::judge(SAMPLE, SAMPLE_LIST), accepted);
    // without `x stop`, and with a letter that is none
    assert_eq!(proved::judge(&SAMPLE[..84], SAMPLE_LIST), refused(11, 84));
    assert_eq!(proved::judge(&body(b"caq"), SAMPLE_LIST), refused(3, BODY_HEAD.len() + 2));
    // the prologue alone: no page, no record
    let least = JudgeResult { offset: 0, records: 0, entries: 4, spelling: 24, refusal: 0, pages: 0 };
    assert_eq!(proved::judge(b"xT a\nxr 1 1 1\nxi\nxs", b"unitwidth=1\n"), least);
    // two pages of one number
    let pages = judged(&body(b"cap1caDl 1 2\n"), SAMPLE_LIST);
    assert_eq!((pages.records, pages.entries, pages.pages), (2, 6, 2));
}

/// The longest stream and the longest list are judged, one of a byte more is refused before all else.
#[test]
fn lengths_at_the_limit() {
    let answer = |stream: &[u8], list: &[u8]| {
        let answer = judged(stream, list);
        (answer.refusal, answer.offset, answer.spelling)
    };
    assert_lengths_at_the_limit(answer, 101);
}

/// A spelling of just the limit has its length; a longer one, of one byte or of many, one more than
/// the limit, and the rewriter refuses it whatever the buffer.
#[test]
fn spellings_at_the_limit() {
    let rest = SPELLING_LIMIT - judged(&body(b""), SAMPLE_LIST).spelling;
    // `w` gives two bytes, `md` three
    let spelt_by = |length: usize| match length % 2 {
        0 => b"w".repeat(length / 2),
        _ => [&b"w".repeat((length - 3) / 2)[..], b"md"].concat(),
    };
    let [fits, exceeds, far] = [rest, rest + 1, rest + 2_000_000].map(|length| body(&spelt_by(length)));
    assert_eq!(judged(&fits, SAMPLE_LIST).spelling, SPELLING_LIMIT);
    let mut out = vec![0; SPELLING_LIMIT + 1];
    let answer = proved::respell(&fits, SAMPLE_LIST, &mut out[..SPELLING_LIMIT]);
    assert_eq!(answer, RespellResult { offset: 0, len: SPELLING_LIMIT, refusal: 0 });
    for stream in [exceeds, far] {
        let answer = judged(&stream, SAMPLE_LIST);
        assert_eq!((answer.refusal, answer.spelling), (0, SPELLING_LIMIT + 1));
        assert_eq!(proved::respell(&stream, SAMPLE_LIST, &mut out).refusal, 13);
    }
}
