//! The comparison itself: whatever is wrong, anywhere, is reported.

use routines::agree::{call_find, call_first_name, call_judge, call_read, call_respell, Call};
use routines::expected::{self, Expected};
use routines::kept::keeps_all;
use routines::measure::Answer;
use routines::proved::Proved;
use routines::rows::{Item, Lent};
use routines::{
    Entry, FindResult, FirstNameResult, JudgeResult, Naming, ReadResult, Record, RespellResult, Search,
};
use second::generate::random::Random;
use second::refusal::Rooms;
use second::vectors::{run_all, BODY_HEAD, BODY_TAIL, SAMPLE_LIST};

/// Rows that are not full: two records of five, and six entries or one hit of nine; 84 bytes of 100.
const ROOM: [usize; 2] = [5, 9];
const BUFFER: usize = 100;
const ROOMS: Rooms = Rooms { records: ROOM[0], entries: ROOM[1], hits: ROOM[1], spelling: BUFFER };

/// A call that is right, and what is expected of it.
type Case<A, T> = (Call<A, T>, Expected<A, T>);

fn read(body: &[u8]) -> Case<ReadResult, Entry> {
    let stream = [BODY_HEAD, body, BODY_TAIL].concat();
    let call = call_read(&stream, SAMPLE_LIST, ROOM, &mut Random::new(0));
    (call, expected::read(&stream, SAMPLE_LIST, ROOMS))
}

fn find(body: &[u8]) -> Case<FindResult, u32> {
    let stream = [BODY_HEAD, body, BODY_TAIL].concat();
    let search = Search { stream: &stream, list: SAMPLE_LIST, families: FAMILIES, query: b"glyph=c\n" };
    (call_find(search, ROOM, &mut Random::new(0)), expected::find(search, ROOMS))
}

/// The first name for the bytes at this place of the body, so many of them.
fn first_name(place: usize, len: usize) -> Case<FirstNameResult, u8> {
    let stream = [BODY_HEAD, BODY, BODY_TAIL].concat();
    let place = BODY_HEAD.len() + place;
    let naming = Naming { stream: &stream, families: FAMILIES, place, len };
    (call_first_name(naming), expected::first_name(naming))
}

fn respell(body: &[u8]) -> Case<RespellResult, u8> {
    respell_in(&[BODY_HEAD, body, BODY_TAIL].concat(), BUFFER)
}

fn respell_in(stream: &[u8], room: usize) -> Case<RespellResult, u8> {
    let call = call_respell(stream, SAMPLE_LIST, room, &mut Random::new(0));
    (call, expected::respell(stream, SAMPLE_LIST, Rooms { spelling: room, ..ROOMS }))
}

fn judge(body: &[u8]) -> Case<JudgeResult, u8> {
    let stream = [BODY_HEAD, body, BODY_TAIL].concat();
    (call_judge(&stream, SAMPLE_LIST), expected::judge(&stream, SAMPLE_LIST))
}

/// What is reported where `edit` makes something wrong in a case that is right.
fn report<A: Answer, T: Item>(
    case: Case<A, T>,
    edit: impl FnOnce(&mut Call<A, T>, &mut Expected<A, T>),
) -> String {
    let (mut call, mut expected) = case;
    assert_eq!(call.compare(&expected), Ok(()));
    edit(&mut call, &mut expected);
    call.compare(&expected).expect_err("a wrong call is reported")
}

const BODY: &[u8] = b"tab\nDFr 1 2 3\n";
/// The query's glyph is `b` by its family.
const FAMILIES: &[u8] = b"name=c\nsame=b\n";
/// How many bytes its spelling has.
const SPELT: usize = 84;

/// An edit of the answer, and the same edit of what is expected.
fn assert_answer_is_reported<A: Answer, T: Item>(case: impl Fn() -> Case<A, T>, edit: fn(&mut A)) {
    let message = report(case(), |call, _| edit(&mut call.answer));
    assert!(message.starts_with("answer\n"), "{message}");
    let message = report(case(), |_, expected| edit(&mut expected.answer));
    assert!(message.starts_with("answer\n"), "{message}");
}

/// Each number of the answer.
#[test]
fn a_wrong_answer_is_reported() {
    let wrong: [fn(&mut ReadResult); 11] = [
        |answer| answer.offset += 1,
        |answer| answer.records += 1,
        |answer| answer.entries -= 1,
        |answer| answer.refusal += 1,
        |answer| answer.pages += 1,
        |answer| answer.h += 1,
        |answer| answer.v -= 1,
        |answer| answer.glyph.scheme += 1,
        |answer| answer.glyph.parts[0] += 1,
        |answer| answer.fill.scheme += 1,
        |answer| answer.fill.parts[3] += 1,
    ];
    wrong.into_iter().for_each(|edit| assert_answer_is_reported(|| read(BODY), edit));
    let wrong: [fn(&mut FindResult); 4] = [
        |answer| answer.offset += 1,
        |answer| answer.records += 1,
        |answer| answer.hits += 1,
        |answer| answer.refusal += 1,
    ];
    wrong.into_iter().for_each(|edit| assert_answer_is_reported(|| find(BODY), edit));
    let wrong: [fn(&mut RespellResult); 4] = [
        |answer| answer.offset += 1,
        |answer| answer.len += 1,
        |answer| answer.len -= 1,
        |answer| answer.refusal += 1,
    ];
    wrong.into_iter().for_each(|edit| assert_answer_is_reported(|| respell(BODY), edit));
    let wrong: [fn(&mut RespellResult); 4] = [
        |answer| answer.offset += 1,
        |answer| answer.offset = 0,
        |answer| answer.len = BUFFER,
        |answer| answer.refusal = 13,
    ];
    wrong.into_iter().for_each(|edit| assert_answer_is_reported(|| respell(b"q"), edit));
    let wrong: [fn(&mut JudgeResult); 6] = [
        |answer| answer.offset += 1,
        |answer| answer.records += 1,
        |answer| answer.entries -= 1,
        |answer| answer.spelling += 1,
        |answer| answer.refusal += 1,
        |answer| answer.pages += 1,
    ];
    wrong.into_iter().for_each(|edit| assert_answer_is_reported(|| judge(BODY), edit));
    // in no family, in one, and of no bytes
    for (place, len, source) in [(1, 1, 1), (2, 1, 2), (1, 0, 0)] {
        assert_eq!(first_name(place, len).0.answer.source, source);
        let wrong: [fn(&mut FirstNameResult); 4] = [
            |answer| answer.place += 1,
            |answer| answer.len += 1,
            |answer| answer.source = (answer.source + 1) % 3,
            |answer| answer.source = (answer.source + 2) % 3,
        ];
        wrong.into_iter().for_each(|edit| assert_answer_is_reported(|| first_name(place, len), edit));
    }
}

/// Each number of a record.
#[test]
fn a_wrong_record_is_reported() {
    let wrong: [fn(&mut Record); 10] = [
        |record| record.ordinal += 1,
        |record| record.page += 1,
        |record| record.h += 1,
        |record| record.v += 1,
        |record| record.font += 1,
        |record| record.size += 1,
        |record| record.place += 1,
        |record| record.len += 1,
        |record| record.index += 1,
        |record| record.gap += 1,
    ];
    for edit in wrong {
        for number in [0, 1] {
            let start = format!("records, item {number}, in the row:");
            let message = report(read(BODY), |call, _| edit(&mut call.records.row()[number]));
            assert!(message.starts_with(&start), "{message}");
            let message = report(find(BODY), |call, _| edit(&mut call.records.row()[number]));
            assert!(message.starts_with(&start), "{message}");
        }
    }
}

/// Each number of an entry, and a hit.
#[test]
fn a_wrong_entry_or_hit_is_reported() {
    let wrong: [fn(&mut Entry); 8] = [
        |entry| entry.command += 1,
        |entry| entry.letter += 1,
        |entry| entry.scheme += 1,
        |entry| entry.ordinal += 1,
        |entry| entry.place += 1,
        |entry| entry.len += 1,
        |entry| entry.h += 1,
        |entry| entry.v += 1,
    ];
    for edit in wrong {
        for number in [0, 5] {
            let message = report(read(BODY), |call, _| edit(&mut call.others.row()[number]));
            assert!(message.starts_with(&format!("entries, item {number}, in the row:")), "{message}");
        }
    }
    for wrong in [0, 2, 256 + 1, 65_536 + 1] {
        let message = report(find(BODY), |call, _| call.others.row()[0] = wrong);
        assert!(message.starts_with("hits, item 0, in the row:"), "{message}");
    }
}

/// Each byte of a spelling, in each of its bits.
#[test]
fn a_wrong_byte_is_reported() {
    assert_eq!(respell(BODY).0.answer.len, SPELT);
    for number in 0..SPELT {
        for bit in 0..8 {
            let message = report(respell(BODY), |call, _| call.others.row()[number] ^= 1 << bit);
            assert!(message.starts_with(&format!("bytes, item {number}, in the row:")), "{message}");
        }
    }
}

/// The places of a row and its guards that are to stay as they were, where `filled` are not.
fn kept<T: Item>(filled: usize, row: &Lent<T>) -> impl Iterator<Item = usize> {
    (0..row.whole.len()).filter(move |place| !(T::GUARD..T::GUARD + filled).contains(place))
}

/// What a message about a place, counted with the guard before the row, begins with.
fn named<T: Item>(place: usize) -> String {
    format!("{}, item {},", T::ROW, place as i64 - T::GUARD as i64)
}

/// A touched place of either row is reported, where so many of each are filled.
fn assert_touches_are_reported<A: Answer, T: Item>(
    case: impl Fn() -> Case<A, T>,
    filled: [usize; 2],
    touch: fn(&mut T),
) {
    let (call, _) = case();
    for place in kept(filled[0], &call.records) {
        let message = report(case(), |call, _| call.records.whole[place].gap ^= 1);
        assert!(message.starts_with(&named::<Record>(place)), "{message}");
    }
    for place in kept(filled[1], &call.others) {
        let message = report(case(), |call, _| touch(&mut call.others.whole[place]));
        assert!(message.starts_with(&named::<T>(place)), "{message}");
    }
}

/// Every place behind the last item, and every place of both guards, in an accepted stream; and
/// every place at all in a refused one.
#[test]
fn a_touched_place_is_reported() {
    assert_touches_are_reported(|| read(BODY), [2, 6], |entry| entry.h ^= 1);
    assert_touches_are_reported(|| read(b"q"), [0, 0], |entry| entry.h ^= 1);
    assert_touches_are_reported(|| find(BODY), [2, 1], |hit| *hit ^= 1);
    assert_touches_are_reported(|| find(b"q"), [0, 0], |hit| *hit ^= 1);
    assert_touches_are_reported(|| respell(BODY), [0, SPELT], |byte| *byte ^= 1);
    assert_touches_are_reported(|| respell(b"q"), [0, 0], |byte| *byte ^= 1);
}

/// A record, entry, hit or byte too few or too many.
#[test]
fn a_wrong_number_of_items_is_reported() {
    report(read(BODY), |_, expected| expected.records.truncate(1));
    report(read(BODY), |_, expected| expected.records.push(Record::default()));
    report(read(BODY), |_, expected| expected.others.truncate(5));
    report(read(BODY), |_, expected| expected.others.push(Entry::default()));
    report(find(BODY), |_, expected| expected.records.truncate(1));
    report(find(BODY), |_, expected| expected.records.push(Record::default()));
    report(find(BODY), |_, expected| expected.others.clear());
    report(find(BODY), |_, expected| expected.others.push(1));
    let message = report(read(BODY), |_, expected| expected.records.resize(6, Record::default()));
    assert_eq!(message, "records, 6 items are due in a row of 5");
    let message = report(find(BODY), |_, expected| expected.others.resize(10, 1));
    assert_eq!(message, "hits, 10 items are due in a row of 9");
    report(respell(BODY), |_, expected| expected.others.truncate(SPELT - 1));
    report(respell(BODY), |_, expected| expected.others.push(b'\n'));
    let message = report(respell(BODY), |_, expected| expected.others.resize(101, b'\n'));
    assert_eq!(message, "bytes, 101 items are due in a row of 100");
}

/// A spelling with something else in it than its stream has, and one that is not in the house spelling.
#[test]
fn a_spelling_that_does_not_keep_all_is_reported() {
    let body = b"tab\nw C'e\nN5 mg 7 Dl 1 2\nDFr 1 2 3\nDc 5 6\nx X te xt\n+ more\nx F na\nh9";
    let stream = [BODY_HEAD, body, BODY_TAIL].concat();
    let (_, expected) = respell_in(&stream, 1_000);
    let spelling = String::from_utf8(expected.others).expect("a spelling in ASCII");
    assert_eq!(keeps_all(&stream, SAMPLE_LIST, spelling.as_bytes()), Ok(()));
    let edits = [
        ("p 1", "p 2", "record 0"),
        ("s 10000", "s 10001", "record 0"),
        ("c a", "c c", "record 0"),
        ("H 440", "H 441", "record 1"),
        ("C 'e", "C 'f", "record 2"),
        ("w\n", "", "record 2"),
        ("N 5", "N 6", "record 3"),
        ("mg 7", "mg 8", "read again: "),
        ("N 5\n", "", "read again: "),
        ("Dl 1 2", "Dl 2 2", "entry"),
        ("DFr 1 2 3", "DFr 1 2 4", "read again: "),
        ("DFr 1 2 3\n", "DFr 1 2 4\nDFr 1 2 3\n", "read: "),
        ("Dc 5", "De 5 0", "entry"),
        ("x F na", "x F nb", "entry"),
        ("x r 72000 1 1", "x r 72000 1 2", "entry 1"),
        ("te xt", "te  xt", "entry"),
        ("+ more", "+more", "entry"),
        ("x s\n", "", "read: "),
        ("x s\n", "p 3\nx s\n", "read again: "),
        ("c a", "c  a", "respelt again: "),
        ("w\n", "w\nw\n", ""),
        ("x s\n", "x s", "respelt again: "),
        ("x s\n", "x s\n\n", "respelt again: "),
        ("f 1\n", "f 1\n#c\n", "respelt again: "),
        ("Dc 5", "Dc 5 6", "respelt again: "),
    ];
    for (from, to, part) in edits {
        let wrong = spelling.replacen(from, to, 1);
        assert_ne!(wrong, spelling, "{from}");
        let came = keeps_all(&stream, SAMPLE_LIST, wrong.as_bytes());
        match part {
            // what is spelt otherwise, and is a spelling all the same
            "" => assert_eq!(came, Ok(()), "{from}"),
            _ => assert!(came.as_ref().is_err_and(|message| message.contains(part)), "{from}: {came:?}"),
        }
    }
}

/// A vector with a wrong expectation.
#[test]
fn a_wrong_vector_is_reported() {
    let wrong = [
        "body h5\nreader refused 3 0",
        "body q\nreader ok",
        "body q\nreader refused 3 1",
        "body q\nreader refused 4 0",
        "body ca\nglyphs end\\n",
        "body ca\nhas glyph 1 1 0 0 1 10000 0 0 56 1 a",
        "body ca\nrecords 0\nreader ok",
        "body ca\nentries 5\nreader refused 13 0",
        "body ca\nquery glyph=a\\n\nfind found 1 0\\n",
        "body ca\nquery glyph=a\\n\nfind hit 1\\nfound 1 1\\n",
        "body ca\nquery glyph=a\\n\nfind hit 0\\nfound 2 1\\n",
        "body ca\nquery glyph=a\\n\nfinder refused 12 0",
        "body ca\nquery glyph=a\nfinder ok",
        "body ca\nquery glyph=a\\n\nhits 0\nfinder ok",
        "body ca\nquery glyph=a\\n\nhits 1\nrecords 1\nfinder refused 13 0",
        "body ca\nfamilies name=a\\nsame=b\\n\nquery glyph=b\\n\nfind found 1 0\\n",
        "body ca\nfamilies name=c\\nsame=b\\n\nquery glyph=b\\n\nfind hit 0\\nfound 1 1\\n",
        "families name=a\\nsame=b\\n\njudged refused 14 0",
        "families name=a\\n\njudged ok",
        "families name=a\\n\njudged refused 14 0",
        "families name=a\\n\njudged refused 12 7",
        "body ca\nfamilies name=b\\nsame=a\\n\nfirst 1 1 stream a",
        "body ca\nfamilies name=b\\nsame=a\\n\nfirst 1 1 families 12 a",
        "body ca\nfamilies name=b\\nsame=a\\n\nfirst 1 1 empty",
        "body cb\nfamilies name=a\\nsame=c\\n\nfirst 1 1 families 5 a",
        "body cb\nfamilies name=a\\nsame=c\\n\nfirst 1 1 empty",
        "body ca\nspelt c b\\nx s\\n",
        "body ca\nspelt c a\\nx s",
        "body ca\nspelling 10\nrewriter ok",
        "body ca\nspelling 1000\nrewriter refused 13 0",
        "body q\nrewriter ok",
        "body q\nrewriter refused 3 1",
        "body q\nrewriter refused 13 0",
    ];
    for lines in wrong {
        let message = run_all(&format!("case wrong-one\n{lines}\n"), &Proved).unwrap_err();
        assert!(message.contains("wrong-one"), "{message}");
    }
}
