//! What must hold of every program that is read.

use generator::case::any_program;
use generator::random::Random;
use generator::{program, Case};
use reference::token::{tokens, Kind};
use reference::{check, Answer};

fn text(program: &[u8]) -> String {
    String::from_utf8_lossy(program).into_owned()
}

#[test]
fn the_maker_keeps_the_grammar() {
    for seed in 0..3_000 {
        let made = program::program(&mut Random::new(seed));
        match check(&made) {
            Answer::WellFormed => {}
            Answer::Number {
                number: 60 | 73..=75,
                ..
            } => {}
            other => panic!("seed {seed}: {other:?} {}", text(&made)),
        }
    }
}

#[test]
fn everything_before_a_misfit_fits() {
    // The program up to the token that decides must only lack its end, or
    // lack nothing. A constant's digits are left out: without them their
    // minus is at fault.
    let mut misfits = 0;
    for seed in 0..6_000 {
        let program = any_program(&mut Random::new(seed));
        let Answer::Number {
            number: 10 | 75,
            place,
            ..
        } = check(&program)
        else {
            continue;
        };
        let place = place as usize;
        if tokens(&program).is_err() || program.get(place).is_some_and(u8::is_ascii_digit) {
            continue;
        }
        misfits += 1;
        let found = check(&program[..place]);
        let twice = matches!(found, Answer::Number { number: 60, .. });
        let fits = twice || found == Answer::WellFormed || found == Answer::number(10, place, 0);
        assert!(fits, "seed {seed}: {found:?} {}", text(&program));
    }
    assert!(misfits > 500, "only {misfits} misfits");
}

#[test]
fn a_well_formed_program_has_no_well_formed_beginning() {
    // Unless it ends before a procedure, main being there already.
    for seed in 0..80 {
        let whole = program::program(&mut Random::new(seed));
        if check(&whole) != Answer::WellFormed {
            continue;
        }
        let end = whole.iter().rposition(|byte| *byte == b'}').unwrap();
        let found = tokens(&whole).unwrap();
        let mut names = Vec::new();
        for (at, token) in found.iter().enumerate() {
            if token.start > end {
                continue;
            }
            if token.kind == Kind::Def {
                names.push(found[at + 1].spelling(&whole));
            }
            let before =
                token.kind == Kind::Def && names[..names.len() - 1].contains(&&b"main"[..]);
            let found = check(&whole[..token.start]);
            let refused = matches!(found, Answer::Number { number: 10, .. });
            assert_eq!(refused, !before, "seed {seed}: {found:?}");
        }
    }
}

#[test]
fn one_seed_gives_one_case() {
    for seed in 0..200 {
        assert_eq!(generator::case(seed), generator::case(seed));
    }
}

#[test]
fn a_case_survives_its_line() {
    for seed in 0..1_000 {
        let case = generator::case(seed);
        assert_eq!(Case::from_line(&case.to_line()), Some(case));
        let case = generator::case_out_of_range(seed);
        assert_eq!(Case::from_line(&case.to_line()), Some(case));
    }
}

#[test]
fn any_input_is_printed_for() {
    // Whole inputs of the drawing program, with damaged first lines too.
    for seed in 0..3_000 {
        let mut random = Random::new(seed);
        let program = any_program(&mut random);
        let mut input = b"20 20\n".to_vec();
        if random.chance(300) {
            input = generator::damage::damaged(input, &mut random);
        }
        if random.chance(50) {
            input = generator::soup::bytes(&mut random);
        }
        input.extend_from_slice(&program);
        let printed = reference::sheet::print(&input);
        let picture = printed.starts_with(b"<?xml version=\"1.0\"?>\n<svg viewBox=\"0 0 ");
        assert!(picture || printed.starts_with(b"error "), "seed {seed}");
        assert!(printed.ends_with(b"\n"), "seed {seed}");
    }
}
