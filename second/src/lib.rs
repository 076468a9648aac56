//! The independent second program: intermediate output read, respelt and searched by the
//! rules of 01, plainly and in one pass, to be compared with the proved library.

pub mod bytes;
pub mod command;
pub mod families;
pub mod find;
pub mod generate;
pub mod print;
pub mod read;
pub mod refusal;
pub mod same;
pub mod spell;
pub mod vectors;
pub mod widths;

pub use command::Colour;
pub use families::{first_name, first_part, Part};
pub use find::{find, Found};
pub use read::{read, Entry, Reading, Record};
pub use refusal::{Refusal, Rooms};
pub use spell::respell;
