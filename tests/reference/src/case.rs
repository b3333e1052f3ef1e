//! A case to judge, as a line of text, and its answer as another.
//!
//! A case is one line of ten fields with single spaces between them:
//!
//! ```text
//! OPERATION WIDTH HEIGHT STEPS SHAPES ENTRIES TEXT CALLS OUT PROGRAM
//! ```
//!
//! OPERATION is `check` or `draw`. WIDTH and HEIGHT are signed 32-bit
//! numbers. STEPS, SHAPES, ENTRIES, TEXT and CALLS are the granted counts and
//! OUT is the length of the out slice, all unsigned 64-bit numbers. PROGRAM is the
//! program in hexadecimal, two digits a byte, or `-` if it is empty.
//! Checking looks only at the counts' ranges and the program; the other fields
//! stand in the line all the same.
//!
//! The answer is one of these lines:
//!
//! ```text
//! picture LENGTH STEPS HASH
//! wellformed
//! number NUMBER PLACE STEPS LENGTH
//! malformed
//! ```
//!
//! HASH is the 64-bit FNV-1a hash of the picture's bytes in 16 hexadecimal
//! digits. The LENGTH of a number is what 80 needs, and `-` for every other
//! number. `malformed` means that the line was no case.

use crate::operation::{check_granted, draw, Answer, Grants, Operation};
use std::fmt::Write;

/// One call of one operation.
#[derive(Clone, Debug, PartialEq, Eq)]
pub struct Case {
    pub operation: Operation,
    pub width: i32,
    pub height: i32,
    pub grants: Grants,
    pub out_length: u64,
    pub program: Vec<u8>,
}

impl Case {
    /// What the reference finds.
    pub fn answer(&self) -> Answer {
        let Case {
            operation,
            width,
            height,
            grants,
            out_length,
            program,
        } = self;
        match operation {
            Operation::Check => check_granted(program, *grants),
            Operation::Draw => draw(program, *width, *height, *grants, *out_length),
        }
    }

    /// The case as a line, without its linefeed.
    pub fn to_line(&self) -> String {
        let operation = match self.operation {
            Operation::Check => "check",
            Operation::Draw => "draw",
        };
        let Grants {
            steps,
            shapes,
            entries,
            text_bytes,
            calls,
        } = self.grants;
        let mut line = format!(
            "{operation} {} {} {steps} {shapes} {entries} {text_bytes} {calls} {} ",
            self.width, self.height, self.out_length
        );
        if self.program.is_empty() {
            line.push('-');
        }
        for byte in &self.program {
            // Writing to a string cannot fail.
            let _ = write!(line, "{byte:02x}");
        }
        line
    }

    /// The case that a line without its linefeed stands for.
    pub fn from_line(line: &str) -> Option<Case> {
        let mut fields = line.split(' ');
        let case = Case {
            operation: match fields.next()? {
                "check" => Operation::Check,
                "draw" => Operation::Draw,
                _ => return None,
            },
            width: fields.next()?.parse().ok()?,
            height: fields.next()?.parse().ok()?,
            grants: Grants {
                steps: fields.next()?.parse().ok()?,
                shapes: fields.next()?.parse().ok()?,
                entries: fields.next()?.parse().ok()?,
                text_bytes: fields.next()?.parse().ok()?,
                calls: fields.next()?.parse().ok()?,
            },
            out_length: fields.next()?.parse().ok()?,
            program: from_hexadecimal(fields.next()?)?,
        };
        match fields.next() {
            None => Some(case),
            Some(_) => None,
        }
    }
}

fn from_hexadecimal(field: &str) -> Option<Vec<u8>> {
    if field == "-" {
        return Some(Vec::new());
    }
    if field.is_empty() || !field.len().is_multiple_of(2) {
        return None;
    }
    let half = |byte: u8| char::from(byte).to_digit(16);
    field
        .as_bytes()
        .chunks_exact(2)
        .map(|pair| u8::try_from(half(pair[0])? * 16 + half(pair[1])?).ok())
        .collect()
}

/// An answer as a line, without its linefeed.
pub fn answer_line(answer: &Answer) -> String {
    match answer {
        Answer::WellFormed => "wellformed".to_string(),
        Answer::Picture {
            length,
            steps,
            bytes,
        } => format!("picture {length} {steps} {:016x}", hash(bytes)),
        Answer::Number {
            number,
            place,
            steps,
            length_needed,
        } => {
            let length = match length_needed {
                Some(length) => length.to_string(),
                None => "-".to_string(),
            };
            format!("number {number} {place} {steps} {length}")
        }
    }
}

/// The answer's line for a case's line.
pub fn judge_line(line: &str) -> String {
    match Case::from_line(line) {
        Some(case) => answer_line(&case.answer()),
        None => "malformed".to_string(),
    }
}

/// The 64-bit FNV-1a hash.
pub fn hash(bytes: &[u8]) -> u64 {
    bytes.iter().fold(0xcbf2_9ce4_8422_2325, |hash, byte| {
        (hash ^ u64::from(*byte)).wrapping_mul(0x0000_0100_0000_01b3)
    })
}
