//! The baseline answers as the separately written interpreter does.

use baseline::{draw, Grants, Stores};
use generator::Case;
use reference::Answer;

/// Does something with stack enough for 64 calls of 64 levels each.
fn on_a_large_stack<T: Send>(work: impl FnOnce() -> T + Send) -> T {
    std::thread::scope(|scope| {
        let thread = std::thread::Builder::new().stack_size(64 << 20);
        let thread = thread.spawn_scoped(scope, work).expect("a thread");
        thread.join().expect("an answer")
    })
}

/// What is wrong with the baseline's drawing of a case, if anything is.
fn misfit(case: &Case) -> Option<String> {
    let reference::Grants {
        steps,
        shapes,
        entries,
        text_bytes,
        calls,
    } = case.grants;
    let mut stores = Stores::new(Grants {
        steps,
        shapes,
        entries,
        text_bytes,
        calls,
    });
    let out_length = case.out_length.min(1 << 22);
    let mut out = vec![7; out_length as usize];
    let (program, width, height) = (&case.program, case.width, case.height);
    let found = on_a_large_stack(|| draw(&mut stores, program, width, height, &mut out));
    let found = [found.number, found.place, found.steps, found.length];
    let (wanted, bytes) = match reference::draw(program, width, height, case.grants, out_length) {
        Answer::Picture {
            length,
            steps,
            bytes,
        } => ([0, 0, steps, length], bytes),
        Answer::Number {
            number,
            place,
            steps,
            length_needed,
        } => {
            let length = length_needed.unwrap_or(0);
            ([number.into(), place, steps, length], Vec::new())
        }
        Answer::WellFormed => return Some("drawing only checked".to_string()),
    };
    if found != wanted {
        return Some(format!("{found:?} where {wanted:?} is due"));
    }
    let (front, rest) = out.split_at(bytes.len());
    if front != bytes || rest.iter().any(|b| *b != 7) {
        return Some("another picture".to_string());
    }
    None
}

/// What is wrong with drawing a program into what `imgdraw` lends, or into nothing.
fn misfit_on_a_sheet(program: &[u8]) -> Option<String> {
    [reference::sheet::OUT_LENGTH, 0]
        .into_iter()
        .find_map(|out_length| {
            misfit(&Case {
                operation: reference::Operation::Draw,
                width: 20,
                height: 30,
                grants: reference::sheet::GRANTS,
                out_length,
                program: program.to_vec(),
            })
        })
}

#[test]
fn generated_cases() {
    for seed in 0..20_000 {
        assert_eq!(misfit(&generator::case(seed)), None, "seed {seed}");
    }
}

#[test]
fn programs_with_groups() {
    for seed in 0..6_000 {
        let program = generator::groups::program(&mut generator::random::Random::new(seed));
        assert_eq!(misfit_on_a_sheet(&program), None, "seed {seed}");
    }
}

#[test]
fn systematic_programs_and_limits() {
    let systematic = generator::systematic::programs();
    for (i, program) in systematic.iter().enumerate() {
        assert_eq!(misfit_on_a_sheet(program), None, "systematic {i}");
    }
    for (i, program) in generator::limit::programs().iter().enumerate() {
        assert_eq!(misfit_on_a_sheet(program), None, "limit {i}");
    }
}

#[test]
fn heavy_cases() {
    for (i, case) in generator::heavy::cases().iter().enumerate() {
        assert_eq!(misfit(case), None, "heavy {i}");
    }
}
