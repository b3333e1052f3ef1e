//! Prints how often each outcome occurs among generated cases.
//!
//! ```text
//! survey [NUMBER [FIRST]]
//! ```
//!
//! NUMBER seeds from FIRST on, 5000 from 0 if they are left out.

#![forbid(unsafe_code)]

use generator::tally::Tally;

fn main() {
    let mut given = std::env::args().skip(1).map(|text| text.parse());
    let mut next = |instead| match given.next() {
        Some(Ok(number)) => number,
        _ => instead,
    };
    let number: u64 = next(5_000);
    let first: u64 = next(0);
    let mut tally = Tally::default();
    let mut pictures_with_shapes = 0;
    for seed in first..first + number {
        let answer = generator::case(seed).answer();
        if let reference::Answer::Picture { length, .. } = answer {
            pictures_with_shapes += u64::from(length > 180);
        }
        tally.add(&answer);
    }
    println!("{number} cases from seed {first}");
    for (name, count) in tally.all() {
        println!("{name:>12} {count:>7}");
    }
    println!("{pictures_with_shapes} pictures have shapes in them");
}
