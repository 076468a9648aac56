//! The proved code, through the static library of `crates/test_leaves`.

use crate::Code;

// A slice crosses as its pointer and its length. The functions have no `requires`: every slice and
// every place will do.
extern "C" {
    fn mrkvandel_command(stream: *const u8, length: usize, at: usize) -> Code;
    fn mrkvandel_list(list: *const u8, length: usize) -> Code;
    fn mrkvandel_query(query: *const u8, length: usize) -> Code;
}

/// The command at a place.
pub fn command(stream: &[u8], at: usize) -> Code {
    // SAFETY: pointer and length are those of a slice, which is only read
    unsafe { mrkvandel_command(stream.as_ptr(), stream.len(), at) }
}

/// The width list, judged.
pub fn list(list: &[u8]) -> Code {
    // SAFETY: as above
    unsafe { mrkvandel_list(list.as_ptr(), list.len()) }
}

/// The query, judged.
pub fn query(query: &[u8]) -> Code {
    // SAFETY: as above
    unsafe { mrkvandel_query(query.as_ptr(), query.len()) }
}
