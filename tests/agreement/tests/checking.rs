//! Checking, called through the static library, agrees with the separately written interpreter.

mod common;

use agreement::compare::{misfit, Lender};
use agreement::{check, check_to, Lent, Numbers, CODE_WORDS, TOKEN_WORDS};
use generator::case::any_program;
use generator::random::Random;
use reference::sheet::GRANTS;
use reference::Operation;

const CHECK: Operation = Operation::Check;

#[test]
fn generated_and_damaged_programs() {
    for seed in 0..30_000 {
        let program = any_program(&mut Random::new(seed));
        assert_eq!(misfit(&program, seed), None, "seed {seed}");
    }
}

#[test]
fn programs_of_cases() {
    for seed in 0..5_000 {
        let program = generator::case(seed).program;
        assert_eq!(misfit(&program, seed), None, "seed {seed}");
    }
}

#[test]
fn programs_at_every_limit() {
    for (i, program) in generator::limit::programs().iter().enumerate() {
        assert_eq!(misfit(program, i as u64), None, "limit {i}");
    }
}

#[test]
fn systematic_programs() {
    for (i, program) in generator::systematic::programs().iter().enumerate() {
        assert_eq!(misfit(program, i as u64), None, "systematic {i}");
    }
}

// Would catch a count that is not asked, asked off by one, or asked after the program. The slices hold garbage, which 71 keeps.
#[test]
fn counts_out_of_range_are_71() {
    common::counts_out_of_range(CHECK);
}

// Would catch an answer that depends on what is granted within the ranges.
#[test]
fn cases_with_their_own_grants() {
    let mut lender = Lender::default();
    for seed in 0..10_000 {
        let case = generator::Case {
            operation: CHECK,
            ..generator::case(seed)
        };
        assert_eq!(lender.misfit_of(&case, seed), None, "seed {seed}");
    }
}

// Would catch a slice whose length is not asked, asked off by one, or asked after something else, and one written before it is asked.
#[test]
fn short_slices_are_71_whatever_else_is_wrong() {
    common::short_slices(CHECK);
}

// Would catch a number that is returned only where the answer has room, or not at all. Needs no reference.
#[test]
fn the_number_is_returned_however_short_the_answer_is() {
    for (program, whole) in [
        (&b"def main(w,h){var a;}"[..], [0, 0, 0, 0]),
        (b"def main(w,h){}", [10, 14, 0, 0]),
        (&[b' '; 32_769], [73, 0, 0, 0]),
    ] {
        for length in 0..8 {
            let mut answer = [u64::MAX; 10];
            let mut lent = Lent::filled(1);
            let (tokens, code) = (&mut lent.tokens, &mut lent.code);
            let returned = check_to(program, GRANTS, tokens, code, &mut answer[..length]);
            assert_eq!(returned, whole[0], "{length}");
            let written = length.min(4);
            assert_eq!(answer[..written], whole[..written], "{length}");
            assert!(answer[written..].iter().all(|word| *word == u64::MAX));
        }
    }
}

#[test]
fn slices_one_word_short_are_71_and_kept() {
    let refused = Numbers {
        number: 71,
        place: 0,
        steps: 0,
        length: 0,
    };
    let program = b"def main(w,h){var a;}";
    for (tokens, code) in [
        (TOKEN_WORDS - 1, CODE_WORDS),
        (TOKEN_WORDS, CODE_WORDS - 1),
        (0, CODE_WORDS),
        (TOKEN_WORDS, 0),
        (0, 0),
    ] {
        let mut lent = Lent {
            tokens: vec![7; tokens],
            code: vec![9; code],
        };
        let found = check(program, GRANTS, &mut lent.tokens, &mut lent.code);
        assert_eq!(found, refused);
        assert!(lent.tokens.iter().all(|w| *w == 7));
        assert!(lent.code.iter().all(|w| *w == 9));
    }
}

#[test]
fn a_program_of_a_megabyte_is_73() {
    let mut lent = Lent::filled(3);
    let program = vec![b'('; 1 << 20];
    let found = check(&program, GRANTS, &mut lent.tokens, &mut lent.code);
    assert_eq!((found.number, found.place), (73, 0));
    assert!(lent.is_zero());
}
