//! Holds the definitions of `crates/rules` to the second program. A check is an antt declaration
//! that computes a definition on a case and demands the text the second program gives; the
//! declarations are written to a temporary repository and proved there by `rt check`.

pub mod check;
pub mod repository;
pub mod text;

pub use check::{call_check, checks, family_checks, is_within, Check};
pub use repository::{prove, Verdict};
