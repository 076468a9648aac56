//! P1 to P10 of 01, through the library.

use second::{find, read, respell, Reading, Refusal, Rooms};

const LIST: &[u8] = b"unitwidth=1000\nfont=TR\nbyte=97\nwidth=44\nbyte=98\nwidth=50\n";
const SAMPLE: &[u8] = b"x T ps\nx res 72000 1 1\nx init\np1\nx font 1 TR\nf1\ns10000\nV12000\nH72000\ntab\nwh2500\nC'e\nx stop\n";
const BODY_START: usize = 55;

fn body(fragment: &str) -> Vec<u8> {
    let head = "x T ps\nx res 72000 1 1\nx init\np1\nx font 1 TR\nf1\ns10000\n";
    format!("{head}{fragment}\nx stop\n").into_bytes()
}

fn read_body(fragment: &str) -> Result<Reading, Refusal> {
    read(&body(fragment), LIST, Rooms::default())
}

fn refused(number: u8, offset: usize) -> Option<Refusal> {
    Some(Refusal { number, offset })
}

fn hits(stream: &[u8], query: &[u8]) -> Vec<usize> {
    find(stream, LIST, b"", query, Rooms::default()).unwrap().hits
}

#[test]
fn p1_the_spelling_of_the_sample() {
    let spelling =
        "x T ps\nx r 72000 1 1\nx i\np 1\nx f 1 TR\nf 1\ns 10000\nH 72000\nV 12000\nc a\nH 72440\nc b\n\
        w\nH 75440\nC 'e\nx s\n";
    assert_eq!(respell(SAMPLE, LIST, Rooms::default()).unwrap(), spelling.as_bytes());
    let records = read(SAMPLE, LIST, Rooms::default()).unwrap().records;
    let gaps: Vec<bool> = records.iter().map(|record| record.gap).collect();
    assert_eq!(gaps, [true, false, true]);
}

#[test]
fn p2_p3_the_sample_is_searched() {
    assert_eq!(hits(SAMPLE, b"glyph=a\nglyph=b\ngap=any\nglyph='e\n"), [0]);
    assert_eq!(hits(SAMPLE, b"glyph=a\nglyph=b\nglyph='e\n"), []);
}

#[test]
fn p4_the_empty_stream() {
    assert_eq!(read(b"", LIST, Rooms::default()).err(), refused(11, 0));
}

#[test]
fn p5_an_unknown_command() {
    assert_eq!(read_body("h512a").err(), refused(3, BODY_START + 4));
}

#[test]
fn p6_a_line_without_spacers() {
    let reading = read_body("Dl-5-3").unwrap();
    assert_eq!((reading.h, reading.v), (-5, -3));
}

#[test]
fn p7_the_largest_component() {
    assert_eq!(read_body("mg 65536").unwrap().glyph_colour.components, [65_536, 0, 0, 0]);
    assert_eq!(read_body("mg 65537").err(), refused(6, BODY_START + 3));
}

#[test]
fn p8_the_nearest_multiple() {
    let stream = b"x T ps\nx r 72000 4 1\nx i\np1 x f 1 TR\nf1 s10000 ta\nx s\n";
    let list = b"unitwidth=1000\nfont=TR\nbyte=97\nwidth=45\n";
    assert_eq!(read(stream, list, Rooms::default()).unwrap().h, 452);
}

#[test]
fn p9_a_dummy() {
    assert_eq!(read_body("t ab 7").unwrap().records.len(), 2);
}

#[test]
fn p10_hits_overlap() {
    assert_eq!(hits(&body("taaa"), b"glyph=a\nglyph=a\n"), [0, 1]);
}
