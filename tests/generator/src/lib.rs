//! Seeded programs and cases for comparing interpreters of IMG drawings.
//! The same seed gives the same program or case everywhere.

#![forbid(unsafe_code)]

pub mod backwards;
pub mod case;
pub mod damage;
pub mod groups;
pub mod heavy;
pub mod limit;
pub mod procedures;
pub mod program;
pub mod quiz;
pub mod random;
pub mod readers;
pub mod soup;
pub mod spacing;
pub mod spelling;
pub mod systematic;
pub mod tally;
pub mod text;
pub mod words;

pub use case::{case, case_out_of_range};
pub use reference::case::Case;
