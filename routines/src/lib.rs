//! The proved routines, as the C functions of `include/mrkvandel.h`, against the second program.
//! `proved` calls the library, `expected` asks the second program, and `agree` compares the answers
//! and all memory that was lent.

pub mod agree;
pub mod expected;
pub mod kept;
pub mod measure;
pub mod proved;
pub mod rows;
pub mod sample;
pub mod shape;
pub mod text;
pub mod types;

pub use types::{
    Colour, Entry, FindResult, FirstNameResult, JudgeResult, Naming, ReadResult, Record, RespellResult,
    Search,
};
