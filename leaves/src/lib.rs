//! The proved leaves against the second program: one command at a place of a stream, the width
//! list and the query. `proved` calls the static library, `expected` asks the second program, and
//! both answer the same numbers, a `Code`.

pub mod agree;
pub mod expected;
pub mod inputs;
pub mod proved;

/// An answer as numbers: which case it is, counted from 1, and its values in their order, the rest 0.
/// `f` of a command is the place behind its last argument byte, a dummy included.
#[repr(C)]
#[derive(Clone, Copy, Debug, Default, PartialEq, Eq)]
pub struct Code {
    pub tag: u64,
    pub a: u64,
    pub b: u64,
    pub c: u64,
    pub d: u64,
    pub e: u64,
    pub f: u64,
}

impl Code {
    /// A case with the values `a` to `e`, as many as there are, and the place behind it.
    pub fn new(tag: u64, values: &[u64], next: u64) -> Code {
        let value = |place: usize| values.get(place).copied().unwrap_or(0);
        Code { tag, a: value(0), b: value(1), c: value(2), d: value(3), e: value(4), f: next }
    }
}
