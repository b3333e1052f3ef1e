//! What checking and drawing are both asked. The reference's answer is always one call away, so these only choose calls.

#![allow(dead_code)]

use agreement::compare::{one_less, Lender, Lengths};
use generator::{case_out_of_range, Case};
use reference::sheet::{GRANTS, OUT_LENGTH};
use reference::{Answer, Grants, Operation};

/// `def main(w,h){...}` around a body.
pub fn main_of(body: &str) -> Vec<u8> {
    format!("def main(w,h){{{body}}}").into_bytes()
}

/// A call with `imgdraw`'s grants on a sheet of 20 by 20.
pub fn plain(operation: Operation, program: &[u8]) -> Case {
    Case {
        operation,
        width: 20,
        height: 20,
        grants: GRANTS,
        out_length: OUT_LENGTH,
        program: program.to_vec(),
    }
}

/// A program that takes of every kind, uses both parameters, calls a procedure of its own that calls itself, and ends in a picture.
pub fn all_kinds() -> Vec<u8> {
    let main = main_of(
        "var t;t=[3];var s;s=\"a\"++\"bc\";t.s=drawText(w,h,s++s);t.1=2;var a;a=down(2,t.s>>w);\
         h=drawLine(w,h,t.1,0-w);w=drawEllipse(1,2,3,4)/-1;",
    );
    let down = b"def down(n,shape){var d;d=shape+n;if(n>0)return down(n-1,d);return d;}";
    [main, down.to_vec()].concat()
}

/// What the run of a call needs, if it ends in a picture.
pub fn need(case: &Case) -> u64 {
    let mut roomy = case.clone();
    roomy.out_length = u64::MAX;
    match roomy.answer() {
        Answer::Picture { length, .. } => length,
        other => panic!("no picture: {other:?}"),
    }
}

/// Every slice too short by one element, or empty, alone and with the others, whatever else is wrong with the call.
pub fn short_slices(operation: Operation) {
    let mut lender = Lender::default();
    let mut calls = vec![
        plain(operation, &all_kinds()),
        plain(operation, b""),
        plain(operation, &[b'('; 40_000]),
    ];
    for grants in [
        Grants::LEAST,
        Grants::LARGEST,
        Grants {
            shapes: 1,
            entries: 1,
            text_bytes: 1,
            ..GRANTS
        },
    ] {
        calls.push(Case {
            grants,
            ..plain(operation, &all_kinds())
        });
    }
    calls.push(Case {
        width: 0,
        out_length: 0,
        ..plain(operation, &all_kinds())
    });
    let mut refused = 0;
    for case in calls {
        let needed = Lengths::needed(case.grants);
        let empty = Lengths {
            tokens: 0,
            code: 0,
            words: 0,
            texts: 0,
        };
        let mut lengths = vec![
            empty,
            Lengths {
                tokens: 0,
                ..needed
            },
            Lengths { code: 0, ..needed },
            Lengths { words: 0, ..needed },
            Lengths { texts: 0, ..needed },
            Lengths {
                tokens: needed.tokens - 1,
                code: needed.code - 1,
                words: needed.words - 1,
                texts: needed.texts,
            },
        ];
        // Longer ones do not make up for a short one.
        for which in 0..4 {
            if let Some(short) = needed.shorter(which) {
                lengths.push(short);
                let mut longer = needed.longer(100_000);
                match which {
                    0 => longer.tokens = short.tokens,
                    1 => longer.code = short.code,
                    2 => longer.words = short.words,
                    _ => longer.texts = short.texts,
                }
                lengths.push(longer);
            }
        }
        for lengths in lengths {
            for seed in 0..4 {
                let misfit = lender.misfit(&case, lengths, seed);
                assert_eq!(misfit, None, "{lengths:?} {:?}", case.grants);
                refused += 1;
            }
        }
    }
    assert!(refused > 300, "only {refused} calls");
}

/// Counts out of their ranges, with slices that would be long enough for the first of them, and with such as make sums and products wrap.
pub fn counts_out_of_range(operation: Operation) {
    let mut lender = Lender::default();
    for seed in 0..500 {
        let case = Case {
            operation,
            ..case_out_of_range(seed)
        };
        assert_eq!(lender.misfit_of(&case, seed), None, "seed {seed}");
    }
    let mut extreme = Vec::new();
    for count in [
        65_536,
        1 << 32,
        1 << 62,
        1 << 63,
        u64::MAX / 4,
        u64::MAX / 3,
        u64::MAX / 3 + 1,
        u64::MAX / 2,
        u64::MAX,
    ] {
        for kind in 0..3 {
            let mut grants = GRANTS;
            match kind {
                0 => grants.shapes = count,
                1 => grants.entries = count,
                _ => grants.text_bytes = count,
            }
            extreme.push(grants);
        }
    }
    for calls in [0, 65, 66, 128, 1 << 32, (1 << 32) + 1, 1 << 63, u64::MAX] {
        extreme.push(Grants { calls, ..GRANTS });
    }
    for steps in [1 << 32, (1 << 32) + 1_000_000, 1 << 63, u64::MAX] {
        extreme.push(Grants { steps, ..GRANTS });
    }
    // The last counts within their ranges are no reason for 71.
    extreme.push(Grants::LARGEST);
    extreme.push(Grants::LEAST);
    extreme.extend(one_less(Grants::LARGEST));
    for grants in extreme {
        for seed in 0..4 {
            let case = Case {
                grants,
                ..plain(operation, &all_kinds())
            };
            assert_eq!(lender.misfit_of(&case, seed), None, "{grants:?}");
        }
    }
}
