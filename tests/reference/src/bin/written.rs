//! Reads a program from standard input and prints what `imgtext` should
//! print: its one text, or a number.

#![forbid(unsafe_code)]

use std::io::{self, Read, Write};

fn main() -> io::Result<()> {
    let mut input = Vec::new();
    io::stdin().lock().read_to_end(&mut input)?;
    io::stdout()
        .lock()
        .write_all(&reference::sheet::print_text(&input))
}
