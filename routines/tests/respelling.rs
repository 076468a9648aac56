//! The proved rewriter and the second program agree on the vectors and on generated streams: in the
//! answer, in every byte of the spelling, and in all that is to stay as it was. And what a spelling
//! keeps: read, it gives what its stream gives; respelt, it gives itself.

use routines::kept::keeps_all;
use routines::measure::{say, Seen};
use routines::sample::{assert_lengths_at_the_limit, body, SAMPLE};
use routines::{agree, expected, proved, shape, RespellResult};
use second::generate;
use second::generate::random::Random;
use second::refusal::{Rooms, LIST_LIMIT, SPELLING_LIMIT, STREAM_LIMIT};
use second::vectors::{self, BODY_HEAD, SAMPLE_LIST, SPELT_HEAD};
use std::collections::BTreeMap;

const INPUTS: u64 = 100_000;

/// The refusal numbers that the rewriter can give.
const REFUSALS: [usize; 13] = [1, 2, 3, 4, 5, 6, 7, 8, 9, 10, 11, 13, 16];

/// The header: a spelling has at most so many bytes for each of its stream.
const MOST_OF_A_BYTE: usize = 16;

/// The spelling of P1.
const SAMPLE_SPELT: &[u8] = b"x T ps\nx r 72000 1 1\nx i\np 1\nx f 1 TR\nf 1\ns 10000\nH 72000\nV 12000\nc a\nH 72440\nc b\nw\nH 75440\nC 'e\nx s\n";

/// A list for words that move by their `u` alone.
const LIST_OF_NOTHING: &[u8] = b"unitwidth=1000\nfont=TR\nbyte=97\nwidth=0\n";

/// Rewrites with room for so many bytes; both programs agree.
fn respelt(stream: &[u8], list: &[u8], room: usize) -> RespellResult {
    let answer = agree::respelling(stream, list, room, &mut Random::new(0));
    answer.unwrap_or_else(|message| panic!("{message}"))
}

/// The proved rewriter's spelling of a stream that is accepted, from a buffer as long as the header
/// says. It keeps all, and both programs agree in buffers of every measure.
fn spelling(stream: &[u8], list: &[u8]) -> Vec<u8> {
    let agreed = agree::rewriting(stream, list, &mut Random::new(0), &mut Seen::default());
    agreed.unwrap_or_else(|message| panic!("{message}"));
    let mut out = vec![0; MOST_OF_A_BYTE * stream.len()];
    let answer = proved::respell(stream, list, &mut out);
    assert_eq!(answer.refusal, 0, "{}", stream.escape_ascii());
    out.truncate(answer.len);
    keeps_all(stream, list, &out).unwrap_or_else(|message| panic!("{message}"));
    out
}

/// The spelling of a body, what stands before it aside.
fn spelt_body(fragment: &[u8]) -> String {
    let spelling = spelling(&body(fragment), SAMPLE_LIST);
    let behind = spelling.strip_prefix(SPELT_HEAD).expect("the head of a body");
    behind.escape_ascii().to_string().replace("\\n", "/")
}

/// Compares with buffers of every measure; where the stream is accepted, looks at what its spelling
/// keeps and how long it is. The spelling, if there is one.
fn run(stream: &[u8], list: &[u8], random: &mut Random, seen: &mut Seen) -> Result<Option<Vec<u8>>, String> {
    let came = agree::rewriting(stream, list, random, seen)?;
    if came.answer.refusal != 0 {
        return Ok(None);
    }
    let spelling = came.others;
    keeps_all(stream, list, &spelling)?;
    match spelling.len() <= MOST_OF_A_BYTE * stream.len() {
        true => Ok(Some(spelling)),
        false => Err(format!("{} bytes of spelling of {} bytes", spelling.len(), stream.len())),
    }
}

/// Every vector's stream, with buffers of every measure.
#[test]
fn vectors_agree() {
    let mut seen = Seen::default();
    for case in vectors::all_cases().expect("the vectors can be read") {
        let came = run(&case.stream, &case.list, &mut Random::new(seen.inputs), &mut seen);
        came.unwrap_or_else(|message| panic!("case {}: {message}", case.name));
    }
    seen.assert_all("vectors, respelt", &REFUSALS, 1);
}

/// Every form that a line of a spelling has, by what it begins with.
const FORMS: [&str; 53] = [
    "c ", "C ", "N ", "N -", "H ", "H -", "H 0\n", "V ", "V -", "V 0\n", "p ", "p -", "f ", "f 0\n", "s ",
    "mc ", "md\n", "mg ", "mk ", "mr ", "n 0 0\n", "w\n", "Dl ", "Dl -", "Da ", "Dc ", "DC ", "De ", "DE ",
    "Dp ", "DP ", "D~ ", "Dt ", "Df ", "Df -", "DFc ", "DFd\n", "DFg ", "DFk ", "DFr ", "x T ", "x r ",
    "x i\n", "x F ", "x f ", "x H ", "x S ", "x p\n", "x t\n", "x u ", "x s\n", "x X\n", "x X ",
];

/// In how many spellings a line of each form stands, or a line that adds to an `x X`.
#[derive(Default)]
struct Forms {
    spellings: BTreeMap<&'static str, u32>,
}

impl Forms {
    fn count(&mut self, spelling: &[u8]) {
        let lines: Vec<&[u8]> = spelling.split_inclusive(|&byte| byte == b'\n').collect();
        for form in FORMS.into_iter().chain(["+"]) {
            let stands = lines.iter().any(|line| line.starts_with(form.as_bytes()));
            *self.spellings.entry(form).or_default() += u32::from(stands);
        }
    }

    fn assert_each(&self, least: u32) {
        say(&format!("  spellings with a line of each form: {:?}", self.spellings));
        for (form, &times) in &self.spellings {
            assert!(times >= least, "{form:?} stands in {times} spellings");
        }
    }
}

/// Generated streams, sound and damaged, with buffers of every measure.
#[test]
fn generated_streams_agree() {
    let (mut seen, mut forms) = (Seen::default(), Forms::default());
    for seed in 0..INPUTS {
        let case = generate::case(seed);
        // another sequence than the case's own
        let came = run(&case.stream, &case.list, &mut Random::new(!seed), &mut seen);
        let spelling = came.unwrap_or_else(|message| panic!("seed {seed}: {message}"));
        spelling.iter().for_each(|spelling| forms.count(spelling));
    }
    seen.assert_all("generated, respelt", &REFUSALS, 100);
    forms.assert_each(100);
}

/// Slices of nothing at all, and P1, by bytes and numbers written down by hand.
#[test]
fn answers_by_hand() {
    let refused = RespellResult { offset: 0, len: 0, refusal: 2 };
    assert_eq!(proved::respell(&[], &[], &mut []), refused);

    let length = SAMPLE_SPELT.len();
    let mut out = [b'#'; 200];
    let answer = proved::respell(SAMPLE, SAMPLE_LIST, &mut out);
    assert_eq!(answer, RespellResult { offset: 0, len: length, refusal: 0 });
    assert_eq!(&out[..length], SAMPLE_SPELT);
    assert!(out[length..].iter().all(|&byte| byte == b'#'));
    let answer = proved::respell(SAMPLE, SAMPLE_LIST, &mut out[..length]);
    assert_eq!((answer.refusal, answer.len), (0, length));

    let mut short = vec![b'#'; length - 1];
    let answer = proved::respell(SAMPLE, SAMPLE_LIST, &mut short);
    assert_eq!(answer, RespellResult { offset: 0, len: 0, refusal: 13 });
    assert!(short.iter().all(|&byte| byte == b'#'));
    assert_eq!(spelling(SAMPLE, SAMPLE_LIST), SAMPLE_SPELT);
}

/// The house spelling's rules, one after the other; lines shown with `/`.
#[test]
fn spellings_by_hand() {
    let spelt: [(&[u8], &str); 19] = [
        (b"", "x s/"),
        // words and two digits
        (b"tab 7\nu-40 ab -3\n07a 0 0 b", "c a/H 440/c b/H 940/c a/H 1340/c b/H 1807/c a/c b/x s/"),
        (b"ta", "c a/H 440/x s/"),
        // names
        (b"Ca\nC ab\nc  #", "c a/C ab/c #/x s/"),
        (b"N007 N-0 N-5w", "N 7/N 0/N -5/w/x s/"),
        // motions, and only where the place differs
        (b"H5V6h-5v-6ca", "c a/x s/"),
        (b"V6H5cacaH7v0ca", "H 5/V 6/c a/c a/H 7/c a/x s/"),
        (b"H-99999999V99999999", "H -99999999/V 99999999/x s/"),
        (b"H5w n1-2 f1s8mg 5 x p\n", "w/n 0 0/f 1/s 8/mg 5/x p/H 5/x s/"),
        // a page sets v to 0 and keeps h
        (b"H5V6cap-02 caV6", "H 5/V 6/c a/p -2/c a/V 6/x s/"),
        (b"V6p2V0ca", "p 2/c a/x s/"),
        // drawings move, after a place of their own
        (b"h3Dl-5-3\nH-2V-3ca", "H 3/Dl -5 -3/c a/x s/"),
        (b"D l 1 2#\nDc 4 5\nDe 6 7\nDt 8\ncaH19V2", "Dl 1 2/Dc 4/De 6 7/Dt 8/c a/x s/"),
        (b"v1DFd\nm d DF k 1 02 3 0\nDf-1", "V 1/DFd/md/DFk 1 2 3 0/Df -1/x s/"),
        (b"D~1 2 3 4 5 6\nh1ca", "D~ 1 2 3 4 5 6/H 10/c a/x s/"),
        // controls
        (b"x  font 002 TR # c\nxFile a#b\nxuuu 01\nx H -0\nxp", "x f 2 TR/x F a#b/x u 1/x H 0/x p/x s/"),
        // texts
        (b"h1x X \t a  b #c \nx X\n+d\n+ e\nxXtra\n", "H 1/x X a  b #c /x X/+d/+ e/x X/x s/"),
        (b"x X\t \n++", "x X/++/x s/"),
        // comments and repeats
        (b"#c\nf1 f1#d\ns1s1ww", "f 1/f 1/s 1/s 1/w/w/x s/"),
    ];
    for (fragment, due) in spelt {
        assert_eq!(spelt_body(fragment), due, "{}", fragment.escape_ascii());
    }
}

/// The longest stream and the longest list are rewritten, one of a byte more is refused before all
/// else.
#[test]
fn lengths_at_the_limit() {
    let answer = |stream: &[u8], list: &[u8]| {
        let answer = respelt(stream, list, 200);
        (answer.refusal, answer.offset, answer.len)
    };
    assert_lengths_at_the_limit(answer, SAMPLE_SPELT.len());
}

/// 1, 2, then the stream, then 13: with all against it, one put right after the other, and no room.
#[test]
fn refusals_come_in_their_order() {
    let (wrong, right) = (body(b"caq"), body(b"caca"));
    let answer = |stream: &[u8], list: &[u8], room| {
        let answer = respelt(stream, list, room);
        (answer.refusal, answer.offset)
    };
    assert_eq!(answer(&wrong, &[b'\n'; LIST_LIMIT + 1], 0), (1, 0));
    assert_eq!(answer(&wrong, b"unitwidth=1\n\n", 0), (2, 12));
    assert_eq!(answer(&wrong, SAMPLE_LIST, 0), (3, BODY_HEAD.len() + 2));
    assert_eq!(answer(&wrong, SAMPLE_LIST, 10), (3, BODY_HEAD.len() + 2));
    assert_eq!(answer(&right, SAMPLE_LIST, 0), (13, 0));
    let length = SPELT_HEAD.len() + b"c a\nc a\nx s\n".len();
    assert_eq!(answer(&right, SAMPLE_LIST, length - 1), (13, 0));
    assert_eq!(answer(&right, SAMPLE_LIST, length), (0, 0));
    // the same where the stream goes wrong behind what there is room for
    assert_eq!(answer(&[&right[..], b"a"].concat(), SAMPLE_LIST, 20), (7, right.len()));
    assert_eq!(answer(&right[..right.len() - 8], SAMPLE_LIST, 20), (11, right.len() - 8));
}

/// A word of so many glyphs, each of which takes 16 bytes of spelling, the first 28.
fn widest(glyphs: usize, behind: &[u8]) -> Vec<u8> {
    let word = vec![b'a'; glyphs];
    body(&[b"H-99999999 V-99999999 u1 ", &word[..], b"\n", behind].concat())
}

/// How long its spelling is, without what stands behind the word: `V` once, `H` once more at the end.
fn widest_length(glyphs: usize) -> usize {
    SPELT_HEAD.len() + 12 + 16 * glyphs + 12 + b"x s\n".len()
}

/// A spelling of 16,777,216 bytes is written; one of a byte more is refused, whatever the room.
#[test]
fn spellings_at_the_limit() {
    let glyphs = (SPELLING_LIMIT - widest_length(0)) / 16 - 1;
    let rest = SPELLING_LIMIT - widest_length(glyphs);
    // `w` gives two bytes, `md` three
    let filler = |length: usize| match length % 2 {
        0 => b"w".repeat(length / 2),
        _ => [&b"w".repeat((length - 3) / 2)[..], b"md"].concat(),
    };
    let [fits, exceeds] = [rest, rest + 1].map(|rest| widest(glyphs, &filler(rest)));
    let answer = |stream: &[u8], room| {
        let answer = respelt(stream, LIST_OF_NOTHING, room);
        (answer.refusal, answer.offset, answer.len)
    };
    assert_eq!(answer(&fits, SPELLING_LIMIT), (0, 0, SPELLING_LIMIT));
    assert_eq!(answer(&fits, SPELLING_LIMIT + 100), (0, 0, SPELLING_LIMIT));
    assert_eq!(answer(&fits, SPELLING_LIMIT - 1), (13, 0, 0));
    assert_eq!(answer(&exceeds, SPELLING_LIMIT), (13, 0, 0));
    assert_eq!(answer(&exceeds, SPELLING_LIMIT + 1), (13, 0, 0));
    assert_eq!(answer(&exceeds, SPELLING_LIMIT + 100), (13, 0, 0));

    let mut out = vec![0; SPELLING_LIMIT];
    proved::respell(&fits, LIST_OF_NOTHING, &mut out);
    keeps_all(&fits, LIST_OF_NOTHING, &out).unwrap_or_else(|message| panic!("{message}"));

    // of glyphs, three times the limit; and from the longest stream
    assert_eq!(answer(&widest(3 * SPELLING_LIMIT / 16, b""), SPELLING_LIMIT + 1), (13, 0, 0));
    let spaces = body(&b"w".repeat(STREAM_LIMIT - body(b"").len()));
    assert_eq!((spaces.len(), answer(&spaces, SPELLING_LIMIT + 1)), (STREAM_LIMIT, (13, 0, 0)));
}

/// 16 bytes of spelling for a byte are reached but for the head; no other command comes near.
#[test]
fn the_room_that_is_enough() {
    let length = |stream: &[u8]| spelling(stream, LIST_OF_NOTHING).len();
    for glyphs in [1, 2, 100, 60_000] {
        assert_eq!(length(&widest(glyphs, b"")), widest_length(glyphs));
    }
    let stream = widest(60_000, b"");
    assert!(length(&stream) <= 16 * stream.len() && length(&stream) >= 15 * stream.len());

    // each with the most bytes of spelling for one of the stream that it can have, over 1,000 times;
    // the positions are as long as they can be, the commands as short
    let commands: [(&[u8], usize); 9] = [
        (b"w", 2),
        (b"N1", 2),
        (b"md", 2),
        (b"p1", 2),
        (b"ca", 2),
        (b"Dt1\n", 2),
        (b"xX\n", 2),
        (b"01a", 6),
        (b"h1ca", 4),
    ];
    let start = b"H-99999999 V-99999999 ";
    for (command, most) in commands {
        let stream = body(&[start, &command.repeat(1_000)[..]].concat());
        let part = length(&stream) - length(&body(start));
        assert!(part <= most * 1_000 * command.len(), "{}: {part}", command.escape_ascii());
    }
    let shortest = b"xT a\nxr 1 1 1\nxi\nxs";
    assert_eq!(spelling(shortest, b"unitwidth=1\n"), b"x T a\nx r 1 1 1\nx i\nx s\n");
}

/// Glyphs, drawings, texts and pages by the hundred thousand; buffers exactly large enough, and of one
/// byte less; and the spelling itself, respelt.
#[test]
fn long_streams_agree() {
    let text = shape::stream(2_000_000, &mut Random::new(0));
    let word = body(&[b"t", &b"ab".repeat(100_000)[..]].concat());
    let pages = body(&b"p7\ntab w".repeat(70_000));
    let drawings = body(&b"p7\nDl 3 4\nDFg 5\nx X text\n+\n+more\nH0V0ca\n".repeat(70_000));
    assert_exact_room(&text, &shape::list(), 500_000);
    assert_exact_room(&word, SAMPLE_LIST, 200_000);
    assert_exact_room(&pages, SAMPLE_LIST, 140_000);
    assert_exact_room(&drawings, SAMPLE_LIST, 70_000);
}

/// A buffer of exactly the bytes is accepted, and one of a byte less is not; there are at least so
/// many glyphs, and the spelling keeps all.
fn assert_exact_room(stream: &[u8], list: &[u8], least: usize) {
    let spelling = expected::respell(stream, list, Rooms::default()).others;
    let is_glyph = |line: &&[u8]| line.starts_with(b"c ") || line.starts_with(b"C ");
    let glyphs = spelling.split(|&byte| byte == b'\n').filter(is_glyph).count();
    assert!(glyphs >= least, "{glyphs} glyphs");
    assert!(spelling.len() <= MOST_OF_A_BYTE * stream.len());
    let length = spelling.len();
    assert_eq!(respelt(stream, list, length), RespellResult { offset: 0, len: length, refusal: 0 });
    assert_eq!(respelt(stream, list, length - 1).refusal, 13);
    assert_eq!(respelt(&spelling, list, length).refusal, 0);
    keeps_all(stream, list, &spelling).unwrap_or_else(|message| panic!("{message}"));
}
