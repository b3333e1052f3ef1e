//! A reference interpreter for IMG drawings, written from the documents
//! alone. It is simple rather than fast, and judges other interpreters.

#![forbid(unsafe_code)]

pub mod case;
pub mod decisions;
pub mod grammar;
pub mod operation;
pub mod picture;
pub mod run;
pub mod shape;
pub mod sheet;
pub mod store;
pub mod takings;
pub mod token;
pub mod tree;
pub mod value;
pub mod writer;

pub use operation::{check, draw, text, Answer, Grants, Operation};
pub use takings::{book, run_specified, End, Event, Specified, Taking};
