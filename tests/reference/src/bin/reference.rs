//! Reads standard input in the form of `imgdraw` and prints what `imgdraw`
//! should print.

#![forbid(unsafe_code)]

use std::io::{self, Read, Write};

fn main() -> io::Result<()> {
    let mut input = Vec::new();
    io::stdin().lock().read_to_end(&mut input)?;
    io::stdout()
        .lock()
        .write_all(&reference::sheet::print(&input))
}
