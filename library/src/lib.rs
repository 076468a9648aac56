//! The proved library from Rust, for the program and for the tests: its structs, field for field as in
//! `../include/mrkvandel.h`, which says what each holds, and its functions over slices. Structs of which
//! rows are made have no padding, so that fields that are equal are bytes that are.

/// The most bytes of a stream, of a width list, of a family list and of a query; more is refused as 1.
pub const STREAM_LIMIT: usize = 16_777_216;
pub const LIST_LIMIT: usize = 65_536;
pub const FAMILIES_LIMIT: usize = 65_536;
pub const QUERY_LIMIT: usize = 8_192;
/// The most bytes of a spelling; more is refused as 13.
pub const SPELLING_LIMIT: usize = 16_777_216;

/// Where a first name stands: nowhere, in the stream, in the family list.
pub const NO_NAME: u32 = 0;
pub const IN_STREAM: u32 = 1;
pub const IN_FAMILIES: u32 = 2;

/// A glyph record.
#[repr(C)]
#[derive(Clone, Copy, Debug, Default, PartialEq, Eq)]
pub struct Record {
    pub ordinal: u32,
    pub page: i32,
    pub h: i32,
    pub v: i32,
    pub font: u32,
    pub size: u32,
    pub place: u32,
    pub len: u32,
    pub index: u32,
    pub gap: u32,
}

/// An entry for a `D` or `x` command.
#[repr(C)]
#[derive(Clone, Copy, Debug, Default, PartialEq, Eq)]
pub struct Entry {
    pub command: u32,
    pub letter: u32,
    pub scheme: u32,
    pub ordinal: u32,
    pub place: u32,
    pub len: u32,
    pub h: i32,
    pub v: i32,
}

/// A colour.
#[repr(C)]
#[derive(Clone, Copy, Debug, Default, PartialEq, Eq)]
pub struct Colour {
    pub scheme: u32,
    pub parts: [u32; 4],
}

/// The reader's answer; `refusal` is 0 where the stream is accepted, here and below.
#[repr(C)]
#[derive(Clone, Copy, Debug, Default, PartialEq, Eq)]
pub struct ReadResult {
    pub offset: usize,
    pub records: usize,
    pub entries: usize,
    pub refusal: u32,
    pub pages: u32,
    pub h: i32,
    pub v: i32,
    pub glyph: Colour,
    pub fill: Colour,
}

/// The finder's answer.
#[repr(C)]
#[derive(Clone, Copy, Debug, Default, PartialEq, Eq)]
pub struct FindResult {
    pub offset: usize,
    pub records: usize,
    pub hits: usize,
    pub refusal: u32,
}

/// The rewriter's answer.
#[repr(C)]
#[derive(Clone, Copy, Debug, Default, PartialEq, Eq)]
pub struct RespellResult {
    pub offset: usize,
    pub len: usize,
    pub refusal: u32,
}

/// The judge's answer: how many records, entries and bytes of spelling a stream has.
#[repr(C)]
#[derive(Clone, Copy, Debug, Default, PartialEq, Eq)]
pub struct JudgeResult {
    pub offset: usize,
    pub records: usize,
    pub entries: usize,
    pub spelling: usize,
    pub refusal: u32,
    pub pages: u32,
}

/// The first name of a glyph: where it stands.
#[repr(C)]
#[derive(Clone, Copy, Debug, Default, PartialEq, Eq)]
pub struct FirstNameResult {
    pub place: usize,
    pub len: usize,
    pub source: u32,
}

impl Record {
    /// The glyph's name, a part of the stream.
    pub fn name<'a>(&self, stream: &'a [u8]) -> &'a [u8] {
        &stream[self.place as usize..][..self.len as usize]
    }
}

impl FirstNameResult {
    /// The name itself, a part of the stream or of the family list that were asked with.
    pub fn name<'a>(&self, stream: &'a [u8], families: &'a [u8]) -> &'a [u8] {
        match self.source {
            IN_STREAM => &stream[self.place..][..self.len],
            IN_FAMILIES => &families[self.place..][..self.len],
            _ => &[],
        }
    }
}

impl Entry {
    /// The letters of the command, such as `Dl`, `DFr` or `xX`.
    pub fn letters(&self) -> impl Iterator<Item = u8> {
        let letters = [self.command, self.letter, self.scheme];
        letters.into_iter().filter(|&letter| letter != 0).map(|letter| letter as u8)
    }
}

impl Colour {
    /// The letter of its scheme.
    pub fn letter(&self) -> char {
        char::from(self.scheme as u8)
    }
}

extern "C" {
    fn mrkvandel_judge(
        stream: *const u8,
        stream_len: usize,
        widths: *const u8,
        widths_len: usize,
    ) -> JudgeResult;

    fn mrkvandel_read(
        stream: *const u8,
        stream_len: usize,
        widths: *const u8,
        widths_len: usize,
        records: *mut Record,
        records_len: usize,
        entries: *mut Entry,
        entries_len: usize,
    ) -> ReadResult;

    fn mrkvandel_find(
        stream: *const u8,
        stream_len: usize,
        widths: *const u8,
        widths_len: usize,
        families: *const u8,
        families_len: usize,
        query: *const u8,
        query_len: usize,
        records: *mut Record,
        records_len: usize,
        hits: *mut u32,
        hits_len: usize,
    ) -> FindResult;

    fn mrkvandel_respell(
        stream: *const u8,
        stream_len: usize,
        widths: *const u8,
        widths_len: usize,
        out: *mut u8,
        out_len: usize,
    ) -> RespellResult;

    fn mrkvandel_first_name(
        stream: *const u8,
        stream_len: usize,
        families: *const u8,
        families_len: usize,
        place: usize,
        len: usize,
    ) -> FirstNameResult;
}

/// Judges a stream with its width list, room aside.
pub fn judge(stream: &[u8], widths: &[u8]) -> JudgeResult {
    // SAFETY: as for `read`
    unsafe { mrkvandel_judge(stream.as_ptr(), stream.len(), widths.as_ptr(), widths.len()) }
}

/// Reads a stream with its width list into the rows.
pub fn read(stream: &[u8], widths: &[u8], records: &mut [Record], entries: &mut [Entry]) -> ReadResult {
    // SAFETY: pointers and lengths are those of slices, and Rust lets no `&mut` slice overlap another
    // one; the inputs are only read; every content of a row is a record or an entry, as all their
    // fields are plain numbers
    unsafe {
        mrkvandel_read(
            stream.as_ptr(),
            stream.len(),
            widths.as_ptr(),
            widths.len(),
            records.as_mut_ptr(),
            records.len(),
            entries.as_mut_ptr(),
            entries.len(),
        )
    }
}

/// Finds a query in a stream with its width list, by a family list, empty where none is used; the
/// records and the hits go into the rows.
pub fn find(
    stream: &[u8],
    widths: &[u8],
    families: &[u8],
    query: &[u8],
    records: &mut [Record],
    hits: &mut [u32],
) -> FindResult {
    // SAFETY: as for `read`
    unsafe {
        mrkvandel_find(
            stream.as_ptr(),
            stream.len(),
            widths.as_ptr(),
            widths.len(),
            families.as_ptr(),
            families.len(),
            query.as_ptr(),
            query.len(),
            records.as_mut_ptr(),
            records.len(),
            hits.as_mut_ptr(),
            hits.len(),
        )
    }
}

/// Rewrites a stream with its width list in the house spelling, which goes into the buffer.
pub fn respell(stream: &[u8], widths: &[u8], out: &mut [u8]) -> RespellResult {
    // SAFETY: as for `read`
    unsafe {
        mrkvandel_respell(
            stream.as_ptr(),
            stream.len(),
            widths.as_ptr(),
            widths.len(),
            out.as_mut_ptr(),
            out.len(),
        )
    }
}

/// The first name, by a family list, of a glyph whose name has this place and length in the stream.
pub fn first_name(stream: &[u8], families: &[u8], place: usize, len: usize) -> FirstNameResult {
    // SAFETY: pointers and lengths are those of slices, which are only read
    unsafe {
        mrkvandel_first_name(stream.as_ptr(), stream.len(), families.as_ptr(), families.len(), place, len)
    }
}
