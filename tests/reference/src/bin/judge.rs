//! Judges many cases in one run: reads one case a line from standard input
//! and prints one answer a line.
//!
//! A case is
//!
//! ```text
//! OPERATION WIDTH HEIGHT STEPS SHAPES ENTRIES TEXT CALLS OUT PROGRAM
//! ```
//!
//! with OPERATION `check` or `draw`, decimal numbers, and the program in
//! hexadecimal (`-` if it is empty). An answer is
//!
//! ```text
//! picture LENGTH STEPS HASH
//! wellformed
//! number NUMBER PLACE STEPS LENGTH
//! malformed
//! ```
//!
//! with the FNV-1a hash of the picture's bytes and the length that 80 needs
//! (`-` for other numbers). The module `case` of the library tells the
//! details.

#![forbid(unsafe_code)]

use reference::case::judge_line;
use std::io::{self, BufRead, BufWriter, Write};

fn main() -> io::Result<()> {
    let mut out = BufWriter::new(io::stdout().lock());
    for line in io::stdin().lock().split(b'\n') {
        let line = String::from_utf8_lossy(&line?).into_owned();
        writeln!(out, "{}", judge_line(&line))?;
    }
    out.flush()
}
