//! Prints generated cases, one a line, in the form that `judge` reads.
//!
//! ```text
//! cases [NUMBER [FIRST]]
//! cases limits
//! cases systematic
//! cases heavy
//! cases out-of-range [NUMBER [FIRST]]
//! ```
//!
//! NUMBER seeds from FIRST on, 1000 from 0 if they are left out.

#![forbid(unsafe_code)]

use generator::{case, case_out_of_range, heavy, limit, systematic, Case};
use reference::sheet::{GRANTS, OUT_LENGTH};
use reference::Operation;
use std::io::{self, BufWriter, Write};

fn main() -> io::Result<()> {
    let mut given = std::env::args().skip(1).peekable();
    let set = given.next_if(|text| text.parse::<u64>().is_err());
    let mut next = |instead| match given.next().map(|text| text.parse()) {
        Some(Ok(number)) => number,
        _ => instead,
    };
    let number: u64 = next(1_000);
    let first: u64 = next(0);
    let cases: Box<dyn Iterator<Item = Case>> = match set.as_deref() {
        None => Box::new((first..first + number).map(case)),
        Some("out-of-range") => Box::new((first..first + number).map(case_out_of_range)),
        Some("limits") => Box::new(limit::programs().into_iter().flat_map(calls)),
        Some("systematic") => Box::new(systematic::programs().into_iter().flat_map(calls)),
        Some("heavy") => Box::new(heavy::cases().into_iter()),
        Some(other) => {
            eprintln!("no such set: {other}");
            std::process::exit(2);
        }
    };
    let mut out = BufWriter::new(io::stdout().lock());
    for case in cases {
        writeln!(out, "{}", case.to_line())?;
    }
    out.flush()
}

/// A program checked, drawn into nothing, and drawn into as much as `imgdraw`
/// lends.
fn calls(program: Vec<u8>) -> Vec<Case> {
    [
        (Operation::Check, 0),
        (Operation::Draw, 0),
        (Operation::Draw, OUT_LENGTH),
    ]
    .map(|(operation, out_length)| Case {
        operation,
        width: 20,
        height: 20,
        grants: GRANTS,
        out_length,
        program: program.clone(),
    })
    .to_vec()
}
