//! Files for the harness in tests/fuzz.
//!
//! ```text
//! inputs write FOLDER      one file for each case on standard input, in the form that `cases` prints
//! inputs compare FILE...   compares the library with the reference on the call that each file stands for
//! ```

use agreement::compare::Lender;
use agreement::inputs::Input;
use reference::case::Case;
use std::path::Path;

fn main() {
    let mut words = std::env::args().skip(1);
    match words.next().as_deref() {
        Some("write") => write(&words.next().expect("a folder")),
        Some("compare") => compare(words),
        _ => panic!("write or compare"),
    }
}

fn write(folder: &str) {
    let mut number: u64 = 0;
    for line in std::io::stdin().lines() {
        let line = line.expect("a line");
        let case = Case::from_line(&line).expect("a case");
        // Some have a slice that is too short, or longer.
        let lengths = match number % 32 {
            slice @ 0..=3 => 1 << (2 * slice),
            slice @ 4..=5 => 2 << (2 * (slice - 4)),
            _ => 0,
        };
        let bytes = Input::write(&case, lengths, (number * 37 % 256) as u8);
        let path = Path::new(folder).join(format!("{number:05}"));
        std::fs::write(path, bytes).expect("a file that can be written");
        number += 1;
    }
    println!("{number} written");
}

fn compare(paths: impl Iterator<Item = String>) {
    let mut lender = Lender::default();
    let (mut count, mut different) = (0, 0);
    for path in paths {
        let bytes = std::fs::read(&path).expect("a file that can be read");
        if let Some(what) = Input::read(&bytes).misfit(&mut lender) {
            different += 1;
            println!("{path}: {what}");
        }
        count += 1;
    }
    println!("{count} compared, {different} different");
}
