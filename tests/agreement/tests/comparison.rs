//! The comparison itself: a library that is wrong in one place only is found out, whatever the place. Without this, a comparison that looks at nothing would
//! pass all the other tests.

mod common;

use agreement::compare::{library, library_text, Lender, Lengths};
use agreement::{Numbers, Work};
use common::{all_kinds, main_of, need, plain};
use generator::text::Call;
use generator::Case;
use reference::sheet::GRANTS;
use reference::Operation;

/// A wrong library: what it does to what the right one left and answered.
type Fault = fn(&mut Work, &mut [u8], &mut Numbers);

/// Each fault is found in a call of the case, and the call without it is not blamed.
fn found_out(case: &Case, lengths: Lengths, faults: &[(&str, Fault)]) {
    let mut lender = Lender::default();
    for seed in 0..4 {
        assert_eq!(lender.misfit(case, lengths, seed), None);
        for (name, fault) in faults {
            let misfit = lender.misfit_with(case, lengths, seed, |case, work, out| {
                let mut numbers = library(case, work, out);
                fault(work, out, &mut numbers);
                numbers
            });
            assert!(misfit.is_some(), "{name} passes, seed {seed}");
        }
    }
}

fn last<T>(slice: &mut [T]) -> &mut T {
    slice.last_mut().expect("an element")
}

const ANSWERS: [(&str, Fault); 8] = [
    ("number one more", |_, _, n| n.number += 1),
    ("a number for a picture or none", |_, _, n| {
        n.number = if n.number == 0 { 20 } else { 0 };
    }),
    ("place one more", |_, _, n| n.place += 1),
    ("steps one more", |_, _, n| n.steps += 1),
    ("steps one less", |_, _, n| {
        n.steps = n.steps.wrapping_sub(1);
    }),
    ("length one more", |_, _, n| n.length += 1),
    ("length one less", |_, _, n| {
        n.length = n.length.wrapping_sub(1);
    }),
    ("steps for length", |_, _, n| {
        (n.steps, n.length) = (n.length + 1, n.steps);
    }),
];

/// One element other than it was, whatever it was.
const SLICES: [(&str, Fault); 8] = [
    ("first token", |w, _, _| w.tokens[0] ^= 1),
    ("last token", |w, _, _| *last(&mut w.tokens) ^= 1 << 63),
    ("first code", |w, _, _| w.code[0] ^= 1),
    ("last code", |w, _, _| *last(&mut w.code) ^= 1 << 63),
    ("first word", |w, _, _| w.words[0] ^= 1),
    ("last word", |w, _, _| *last(&mut w.words) ^= 1 << 63),
    ("first text", |w, _, _| w.texts[0] ^= 1),
    ("last text", |w, _, _| *last(&mut w.texts) ^= 1 << 7),
];

const OUT: [(&str, Fault); 3] = [
    ("first byte", |_, out, _| out[0] ^= 1),
    ("a byte amid", |_, out, _| out[out.len() / 2] ^= 1),
    ("last byte", |_, out, _| *last(out) ^= 1),
];

#[test]
fn a_wrong_drawing_is_found_out() {
    let mut case = plain(Operation::Draw, &all_kinds());
    let needed = Lengths::needed(case.grants);
    let length = need(&case);
    // The picture fills the slice, leaves some of it, and does not fit.
    for out_length in [length, length + 1, 2 * length, length - 1, 1] {
        case.out_length = out_length;
        found_out(&case, needed, &ANSWERS);
        found_out(&case, needed, &SLICES);
        found_out(&case, needed, &OUT);
    }
    // After 71, and after another number.
    for which in 0..4 {
        let short = needed.shorter(which).expect("an element");
        found_out(&case, short, &ANSWERS);
        found_out(&case, short, &SLICES);
        found_out(&case, short, &OUT);
    }
    let mut wrong = plain(Operation::Draw, &main_of("w=drawLine(1,2,3,4);w=w/0;"));
    wrong.out_length = 300;
    found_out(&wrong, needed, &ANSWERS);
    found_out(&wrong, needed, &SLICES);
    found_out(&wrong, needed, &OUT);
}

// Of an empty out slice only the answer and the work slices tell.
#[test]
fn a_wrong_length_told_to_an_empty_slice_is_found_out() {
    for program in [all_kinds(), main_of("w=none+1;")] {
        let mut case = plain(Operation::Draw, &program);
        case.out_length = 0;
        let needed = Lengths::needed(case.grants);
        let short = needed.shorter(2).expect("words");
        for lengths in [needed, needed.longer(7), short] {
            found_out(&case, lengths, &ANSWERS);
            found_out(&case, lengths, &SLICES);
        }
    }
}

#[test]
fn idle_libraries_are_found_out() {
    let mut lender = Lender::default();
    let case = plain(Operation::Draw, &all_kinds());
    let lengths = Lengths::needed(case.grants);
    let nothing = Numbers {
        number: 0,
        place: 0,
        steps: 0,
        length: 0,
    };
    let refuses = Numbers {
        number: 71,
        ..nothing
    };
    for seed in 0..4 {
        for answer in [nothing, refuses] {
            let idle = lender.misfit_with(&case, lengths, seed, |_, _, _| answer);
            assert!(idle.is_some(), "{answer:?}");
        }
        // The right answer, and nothing drawn or cleared.
        let idle = lender.misfit_with(&case, lengths, seed, |case, work, out| {
            library(case, &mut work.clone(), &mut out.to_vec())
        });
        assert!(idle.is_some());
    }
}

/// Each fault is found in a call of `text`, and the call without it is not blamed.
fn found_out_in_text(call: &Call, lengths: Lengths, faults: &[(&str, Fault)]) {
    let mut lender = Lender::default();
    for seed in 0..4 {
        assert_eq!(lender.text_misfit(call, lengths, seed), None);
        for (name, fault) in faults {
            let misfit = lender.text_misfit_with(call, lengths, seed, |call, work, out| {
                let mut numbers = library_text(call, work, out);
                fault(work, out, &mut numbers);
                numbers
            });
            assert!(misfit.is_some(), "{name} passes, seed {seed}");
        }
    }
}

/// Bytes of an out slice of which the text fills the front.
const TEXT: [(&str, Fault); 3] = [
    ("last byte of the text", |_, out, n| {
        out[(n.length as usize).min(out.len()) - 1] ^= 1;
    }),
    ("a linefeed for a space", |_, out, _| {
        let at = out.iter().position(|byte| *byte == b' ');
        out[at.unwrap_or(0)] ^= b' ' ^ b'\n';
    }),
    ("a text one byte further", |_, out, _| {
        out.rotate_right(1);
        out[0] ^= 1;
    }),
];

#[test]
fn a_wrong_text_is_found_out() {
    let needed = Lengths::needed(GRANTS);
    // The lengths of the slices that only drawing is lent make no difference.
    let slices = &SLICES[..4];
    let program = all_kinds();
    let mut call = Call {
        program,
        grants: GRANTS,
        out_length: 32_768,
    };
    let length = call.answer().expect("a text").len() as u64;
    // The text fills the slice, leaves some of it, and does not fit.
    for out_length in [length, length + 1, 2 * length, length - 1, 1] {
        call.out_length = out_length;
        for lengths in [needed, needed.longer(7)] {
            found_out_in_text(&call, lengths, &ANSWERS);
            found_out_in_text(&call, lengths, slices);
            found_out_in_text(&call, lengths, &OUT);
            found_out_in_text(&call, lengths, &TEXT);
        }
    }
    // After 71, and after another number.
    for which in 0..2 {
        let short = needed.shorter(which).expect("an element");
        found_out_in_text(&call, short, &ANSWERS);
        found_out_in_text(&call, short, slices);
        found_out_in_text(&call, short, &OUT);
    }
    for program in [main_of("w=1+2+3;"), vec![b' '; 32_769], Vec::new()] {
        let call = Call {
            program,
            out_length: 300,
            ..call.clone()
        };
        found_out_in_text(&call, needed, &ANSWERS);
        found_out_in_text(&call, needed, slices);
        found_out_in_text(&call, needed, &OUT);
    }
    // Of an empty out slice only the answer and the work slices tell.
    call.out_length = 0;
    found_out_in_text(&call, needed, &ANSWERS);
    found_out_in_text(&call, needed, slices);
}

#[test]
fn idle_writers_are_found_out() {
    let mut lender = Lender::default();
    let call = Call {
        program: all_kinds(),
        grants: GRANTS,
        out_length: 32_768,
    };
    let lengths = Lengths::needed(GRANTS);
    let length = call.answer().expect("a text").len() as u64;
    for seed in 0..4 {
        for (number, length) in [(0, 0), (0, length), (71, 0), (82, length)] {
            let answer = Numbers {
                number,
                place: 0,
                steps: 0,
                length,
            };
            let idle = lender.text_misfit_with(&call, lengths, seed, |_, _, _| answer);
            assert!(idle.is_some(), "{answer:?}");
        }
        // The right answer, and nothing written or cleared.
        let idle = lender.text_misfit_with(&call, lengths, seed, |call, work, out| {
            library_text(call, &mut work.clone(), &mut out.to_vec())
        });
        assert!(idle.is_some());
        // The program for its text.
        let echo = lender.text_misfit_with(&call, lengths, seed, |call, work, out| {
            let numbers = library_text(call, work, &mut out.to_vec());
            out[..call.program.len()].copy_from_slice(&call.program);
            numbers
        });
        assert!(echo.is_some());
    }
}
