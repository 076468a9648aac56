//! The library's structs, and what is handed to the finder and for a first name. (A hit is a `u32`, a place
//! of the rewriter's buffer a `u8`.)

pub use library::{
    Colour, Entry, FindResult, FirstNameResult, JudgeResult, ReadResult, Record, RespellResult,
};

/// What is handed to the finder, its rows aside.
#[derive(Clone, Copy)]
pub struct Search<'a> {
    pub stream: &'a [u8],
    pub list: &'a [u8],
    pub families: &'a [u8],
    pub query: &'a [u8],
}

/// What a first name is asked with: a record's place and length, in a stream.
#[derive(Clone, Copy)]
pub struct Naming<'a> {
    pub stream: &'a [u8],
    pub families: &'a [u8],
    pub place: usize,
    pub len: usize,
}
