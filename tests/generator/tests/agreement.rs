//! What must hold of every case: the interpreter that counts against its
//! grants answers as the book over the events does, a larger grant changes
//! nothing but a shortage, and an empty out slice tells a drawing's length.

use generator::random::Random;
use generator::{case, case_out_of_range, heavy, limit, systematic, Case};
use reference::operation::with_room;
use reference::sheet::{GRANTS, OUT_LENGTH};
use reference::{book, draw, run_specified, Answer, Grants, Operation};

const CASES: u64 = 6_000;

/// What the book answers, if the list of events is long enough.
fn booked(case: &Case, limit: usize) -> Option<Answer> {
    let specified = run_specified(
        case.operation,
        &case.program,
        case.width,
        case.height,
        limit,
    );
    book(&specified, case.grants, case.out_length)
}

fn text(case: &Case) -> String {
    String::from_utf8_lossy(&case.program).into_owned()
}

#[test]
fn counting_agrees_with_the_book() {
    with_room(|| {
        for seed in 0..CASES {
            let case = case(seed);
            let booked = booked(&case, 20_000);
            assert_eq!(Some(case.answer()), booked, "seed {seed}: {}", text(&case));
        }
    });
}

#[test]
fn counting_agrees_with_the_book_on_fixed_programs() {
    for program in [limit::programs(), systematic::programs()].concat() {
        for (operation, out_length) in [
            (Operation::Check, 0),
            (Operation::Draw, 0),
            (Operation::Draw, OUT_LENGTH),
        ] {
            let case = Case {
                operation,
                width: 20,
                height: 20,
                grants: GRANTS,
                out_length,
                program: program.clone(),
            };
            assert_eq!(
                Some(case.answer()),
                booked(&case, 400_000),
                "{}",
                text(&case)
            );
        }
    }
}

#[test]
fn counting_agrees_with_the_book_on_heavy_cases() {
    for case in heavy::cases() {
        let booked = booked(&case, 3_000_000);
        assert_eq!(Some(case.answer()), booked, "{}", text(&case));
    }
}

#[test]
fn counts_out_of_range() {
    for seed in 0..500 {
        let case = case_out_of_range(seed);
        assert_eq!(case.answer(), Answer::number(71, 0, 0), "seed {seed}");
        assert_eq!(booked(&case, 0), Some(case.answer()), "seed {seed}");
    }
}

/// Grants of which none is smaller.
fn larger(grants: Grants, random: &mut Random) -> Grants {
    let mut more = |count: u64, last: u64| match random.below(4) {
        0 => count,
        1 => (count + 1).min(last),
        2 => (count + random.below(1_000) as u64).min(last),
        _ => last,
    };
    Grants {
        steps: more(grants.steps, Grants::LARGEST.steps),
        shapes: more(grants.shapes, Grants::LARGEST.shapes),
        entries: more(grants.entries, Grants::LARGEST.entries),
        text_bytes: more(grants.text_bytes, Grants::LARGEST.text_bytes),
        calls: more(grants.calls, Grants::LARGEST.calls),
    }
}

/// Whether an answer is settled whatever more is granted.
fn settled(answer: &Answer) -> bool {
    match answer {
        Answer::Picture { .. } | Answer::WellFormed => true,
        Answer::Number { number, .. } => (10..=75).contains(number),
    }
}

#[test]
fn more_changes_only_a_shortage() {
    let mut pairs = 0;
    with_room(|| {
        for seed in 0..CASES {
            let first = case(seed);
            let answer = first.answer();
            if !settled(&answer) {
                continue;
            }
            let mut random = Random::new(seed);
            for _ in 0..3 {
                let mut second = first.clone();
                second.grants = larger(first.grants, &mut random);
                second.out_length += random.below(100) as u64;
                assert!(first.grants.within(&second.grants));
                assert_eq!(second.answer(), answer, "seed {seed}: {}", text(&first));
                pairs += 1;
            }
        }
    });
    assert!(pairs > 3_000, "only {pairs} pairs");
}

#[test]
fn a_shortage_goes_away_with_enough() {
    // Granting what the whole list takes ends as the specified run ends.
    let mut shortages = 0;
    with_room(|| {
        for seed in 0..CASES {
            let mut case = case(seed);
            let Answer::Number {
                number: 76..=81, ..
            } = case.answer()
            else {
                continue;
            };
            shortages += 1;
            let specified = run_specified(
                case.operation,
                &case.program,
                case.width,
                case.height,
                20_000,
            );
            let reference::End::Answer(end) = specified.end else {
                continue;
            };
            case.grants = Grants {
                steps: 20_000,
                ..Grants::LARGEST
            };
            case.out_length = 1 << 20;
            assert_eq!(case.answer(), end, "seed {seed}: {}", text(&case));
        }
    });
    assert!(shortages > 500, "only {shortages} shortages");
}

#[test]
fn an_empty_out_slice_tells_the_length() {
    let mut pictures = 0;
    with_room(|| {
        for seed in 0..CASES {
            let Case {
                width,
                height,
                grants,
                program,
                ..
            } = case(seed);
            let told = draw(&program, width, height, grants, 0);
            let Answer::Number {
                number: 80,
                place: 0,
                steps,
                length_needed: Some(length),
            } = told
            else {
                // Any other answer does not depend on the out slice.
                let drawn = draw(&program, width, height, grants, 1 << 30);
                assert_eq!(told, drawn, "seed {seed}");
                continue;
            };
            pictures += 1;
            let Answer::Picture {
                length: drawn_length,
                steps: drawn_steps,
                bytes,
            } = draw(&program, width, height, grants, length)
            else {
                panic!("seed {seed}: no picture");
            };
            assert_eq!((drawn_length, drawn_steps), (length, steps), "seed {seed}");
            assert_eq!(bytes.len() as u64, length, "seed {seed}");
            // One byte short tells the same as an empty one.
            let short = draw(&program, width, height, grants, length - 1);
            assert_eq!(short, told, "seed {seed}");
        }
    });
    assert!(pictures > 900, "only {pictures} pictures");
}

#[test]
fn a_shorter_list_is_a_beginning() {
    for seed in 0..1_000 {
        let Case {
            operation,
            width,
            height,
            program,
            ..
        } = case(seed);
        let whole = run_specified(operation, &program, width, height, 2_000);
        let some = whole.events.len() / 2;
        let part = run_specified(operation, &program, width, height, some);
        assert_eq!(part.events[..], whole.events[..part.events.len()]);
        assert!(part.events.len() <= some + 1);
    }
}
