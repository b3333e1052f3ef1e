//! Inputs of the harness in tests/fuzz, which tells their form: the call that one stands for, and one for a call.

use crate::compare::{Lender, Lengths};
use reference::case::Case;
use reference::{Grants, Operation};

const HEAD: usize = 27;
const LONGER: usize = 5;
const MOST_STEPS: u64 = 250_000;
const MOST_OUT: u64 = 262_144;
const MOST_PROGRAM: usize = 65_536;

/// A call and the lengths of its work slices.
pub struct Input {
    pub case: Case,
    pub lengths: Lengths,
    /// The byte that filled the slices.
    pub fill: u8,
}

impl Input {
    pub fn read(bytes: &[u8]) -> Input {
        let number = |at: usize, size: usize| {
            (at..at + size).rev().fold(0, |sum, i| {
                sum << 8 | u64::from(*bytes.get(i).unwrap_or(&0))
            })
        };
        let beyond = |kind: u64| number(3, 1) >> kind & 1;
        let grants = Grants {
            steps: number(12, 4).min(MOST_STEPS) + (beyond(0) << 32),
            shapes: number(16, 2) + (beyond(1) << 16),
            entries: number(18, 2) + (beyond(2) << 16),
            text_bytes: number(20, 2) + (beyond(3) << 16),
            calls: number(26, 1) % 66,
        };
        let program = bytes.get(HEAD..).unwrap_or(&[]);
        let case = Case {
            operation: match number(0, 1) % 2 {
                0 => Operation::Check,
                _ => Operation::Draw,
            },
            width: number(4, 4) as u32 as i32,
            height: number(8, 4) as u32 as i32,
            grants,
            out_length: number(22, 4).min(MOST_OUT),
            program: program[..program.len().min(MOST_PROGRAM)].to_vec(),
        };
        let length = |slice: u64, needed: usize| match number(1, 1) >> (2 * slice) & 3 {
            1 => needed.saturating_sub(1),
            2 => needed + LONGER,
            _ => needed,
        };
        let needed = Lengths::needed(grants);
        Input {
            case,
            lengths: Lengths {
                tokens: length(0, needed.tokens),
                code: length(1, needed.code),
                words: length(2, needed.words),
                texts: length(3, needed.texts),
            },
            fill: number(2, 1) as u8,
        }
    }

    /// An input for a case, whose counts must not lie beyond their ranges; more steps or a longer out slice than the harness takes are cut down.
    pub fn write(case: &Case, lengths: u8, fill: u8) -> Vec<u8> {
        let operation = match case.operation {
            Operation::Check => 0,
            Operation::Draw => 1,
        };
        let mut bytes = vec![operation, lengths, fill, 0];
        bytes.extend(case.width.to_le_bytes());
        bytes.extend(case.height.to_le_bytes());
        let grants = case.grants;
        bytes.extend((grants.steps.min(MOST_STEPS) as u32).to_le_bytes());
        for count in [grants.shapes, grants.entries, grants.text_bytes] {
            bytes.extend((count.min(65_535) as u16).to_le_bytes());
        }
        bytes.extend((case.out_length.min(MOST_OUT) as u32).to_le_bytes());
        bytes.push(grants.calls.min(64) as u8);
        bytes.extend(&case.program);
        bytes
    }

    /// What is wrong with the library's answer, if anything is.
    pub fn misfit(&self, lender: &mut Lender) -> Option<String> {
        let Input {
            case,
            lengths,
            fill,
        } = self;
        lender.misfit(case, *lengths, u64::from(*fill))
    }
}
