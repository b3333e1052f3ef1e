//! Compares one operation on many generated cases: `soak [checking|drawing|text] FIRST COUNT [seldom]`, checking if none is named. Prints how many cases were compared,
//! in how many calls, and how many differ. With `seldom` the work slices of drawing and of texts are filled and looked at in one of eight calls, which takes half the time.

use agreement::compare::{misfit, Lender};
use generator::case::any_program;
use generator::random::Random;
use generator::Case;
use reference::Operation;

fn main() {
    let mut words = std::env::args().skip(1).peekable();
    let operation = words.next_if(|word| word.parse::<u64>().is_err());
    let mut number = |instead| {
        words
            .next()
            .map_or(instead, |word| word.parse::<u64>().expect("a number"))
    };
    let first = number(0);
    let count = number(1_000_000);
    let mut lender = match words.next().as_deref() {
        None => Lender::default(),
        Some("seldom") => Lender::seldom(),
        Some(other) => panic!("{other}: seldom, or nothing"),
    };
    let mut compare: Box<dyn FnMut(u64) -> Option<String>> = match operation.as_deref() {
        None | Some("checking") => {
            Box::new(|seed| misfit(&any_program(&mut Random::new(seed)), seed))
        }
        Some("drawing") => Box::new(|seed| {
            let case = Case {
                operation: Operation::Draw,
                ..generator::case(seed)
            };
            lender.misfit_around(&case, seed)
        }),
        Some("text") => {
            Box::new(|seed| lender.text_misfit_around(&generator::text::call(seed), seed))
        }
        Some(other) => panic!("no operation {other}"),
    };
    let mut different = 0;
    for seed in first..first + count {
        if let Some(what) = compare(seed) {
            different += 1;
            println!("seed {seed}: {what}");
        }
    }
    drop(compare);
    match lender.calls() {
        0 => println!("{count} compared, {different} different"),
        calls => println!("{count} compared in {calls} calls, {different} different"),
    }
}
