//! What `imgdraw` and `imgtext` read and print.

use crate::operation::{draw, text, Answer, Grants, TEXT_BYTES};

/// What `imgdraw` grants.
pub const GRANTS: Grants = Grants {
    steps: 1_000_000,
    shapes: 1_024,
    entries: 1_024,
    text_bytes: 16_384,
    calls: 64,
};

/// The length of the out slice that `imgdraw` lends.
pub const OUT_LENGTH: u64 = 65_536;

/// The width, the height and the program in the input, or nothing if the
/// first line has another form or too large a value.
pub fn parts(input: &[u8]) -> Option<(i32, i32, &[u8])> {
    let (width, rest) = side(input, b' ')?;
    let (height, program) = side(rest, b'\n')?;
    Some((width, height, program))
}

/// One to ten digits, then the given byte.
fn side(input: &[u8], behind: u8) -> Option<(i32, &[u8])> {
    let digits = input.iter().take_while(|b| b.is_ascii_digit()).count();
    if !(1..=10).contains(&digits) || input.get(digits) != Some(&behind) {
        return None;
    }
    let value = input[..digits]
        .iter()
        .fold(0, |sum: i64, digit| sum * 10 + i64::from(digit - b'0'));
    Some((i32::try_from(value).ok()?, &input[digits + 1..]))
}

/// What `imgdraw` finds for its input.
pub fn answer(input: &[u8]) -> Answer {
    match parts(input) {
        Some((width, height, program)) => draw(program, width, height, GRANTS, OUT_LENGTH),
        None => Answer::number(72, 0, 0),
    }
}

/// What `imgdraw` prints for its input.
pub fn print(input: &[u8]) -> Vec<u8> {
    printed(answer(input))
}

fn printed(answer: Answer) -> Vec<u8> {
    match answer {
        Answer::Picture { bytes, .. } => bytes,
        Answer::Number { number, place, .. } => format!("error {number} at {place}\n").into_bytes(),
        // Neither program only checks.
        Answer::WellFormed => Vec::new(),
    }
}

/// What `imgtext` prints for its input, all of which is the program.
pub fn print_text(input: &[u8]) -> Vec<u8> {
    text(input, GRANTS, TEXT_BYTES).unwrap_or_else(printed)
}
