//! P1 of 01, bodies around it, and what every routine that takes a stream and a list answers at their
//! limits.

use second::generate;
use second::refusal::{LIST_LIMIT, STREAM_LIMIT};
use second::vectors::{BODY_HEAD, BODY_TAIL, SAMPLE_LIST};

/// The stream of P1; its list is `SAMPLE_LIST`.
pub const SAMPLE: &[u8] =
    b"x T ps\nx res 72000 1 1\nx init\np1\nx font 1 TR\nf1\ns10000\nV12000\nH72000\ntab\nwh2500\nC'e\nx stop\n";

/// A stream with this fragment in its body.
pub fn body(fragment: &[u8]) -> Vec<u8> {
    [BODY_HEAD, fragment, BODY_TAIL].concat()
}

/// The sample with newlines behind it.
pub fn sample_of(length: usize) -> Vec<u8> {
    [SAMPLE, &vec![b'\n'; length - SAMPLE.len()]].concat()
}

/// `answer` gives refusal, offset and length of the spelling; `length` is that of the sample's.
pub fn assert_lengths_at_the_limit(answer: impl Fn(&[u8], &[u8]) -> (u32, usize, usize), length: usize) {
    let stream = sample_of(STREAM_LIMIT + 1);
    assert_eq!(answer(&stream[..STREAM_LIMIT], SAMPLE_LIST), (0, 0, length));
    assert_eq!(answer(&stream, SAMPLE_LIST), (1, 0, 0));
    assert_eq!(answer(&stream, b""), (1, 0, 0));
    assert_eq!(answer(&stream[..STREAM_LIMIT], b""), (2, 0, 0));
    assert_eq!(answer(b"", &generate::list::of_length(LIST_LIMIT)), (11, 0, 0));
    assert_eq!(answer(b"", &generate::list::of_length(LIST_LIMIT + 1)), (1, 0, 0));
}
