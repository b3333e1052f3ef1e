//! How long checking and writing the text take against a program's length, for some shapes of program, beside the reference's reader. Times are the best of
//! several rounds, in microseconds; clearing the work slices is part of ours.

use agreement::{check, text, Lent};
use reference::Grants;
use std::time::Instant;

/// Statements of one name.
fn one_name(length: usize) -> Vec<u8> {
    repeated(length, |_| "aaaaaaa;".to_string())
}

/// Statements of different names.
fn different_names(length: usize) -> Vec<u8> {
    repeated(length, |k| format!("{};", word(k)))
}

/// Statements of parentheses nested to 64 levels.
fn nested(length: usize) -> Vec<u8> {
    repeated(length, |_| {
        format!("{}1{};", "(".repeat(64), ")".repeat(64))
    })
}

/// Returns of operators nested to 64 levels: a return's expression is looked at twice for its text.
fn returns(length: usize) -> Vec<u8> {
    repeated(length, |_| {
        format!("return {}1{};", "(".repeat(64), "+1)".repeat(64))
    })
}

/// One name as long as the program allows.
fn long_name(length: usize) -> Vec<u8> {
    format!(
        "def main(w,h){{{};}}",
        "n".repeat(length.saturating_sub(16))
    )
    .into_bytes()
}

/// The k-th word of letters.
fn word(mut k: usize) -> String {
    let mut text = String::from("qxx");
    for _ in 0..4 {
        text.push((b'a' + (k % 26) as u8) as char);
        k /= 26;
    }
    text
}

fn repeated(length: usize, part: impl Fn(usize) -> String) -> Vec<u8> {
    let mut text = String::from("def main(w,h){");
    let mut tokens = 9;
    let mut k = 0;
    loop {
        let next = part(k);
        let more = match next.as_bytes()[0] {
            b'(' => 130,
            b'r' => 259,
            _ => 2,
        };
        if text.len() + next.len() + 1 > length || tokens + more > 8_192 {
            break;
        }
        text.push_str(&next);
        tokens += more;
        k += 1;
    }
    text.push('}');
    text.into_bytes()
}

fn best(rounds: usize, mut run: impl FnMut()) -> f64 {
    let mut least = f64::MAX;
    for _ in 0..rounds {
        let start = Instant::now();
        run();
        least = least.min(start.elapsed().as_secs_f64() * 1e6);
    }
    least
}

/// A shape of program, by its length.
type Shape = fn(usize) -> Vec<u8>;

fn main() {
    println!("| program | bytes | checking, µs | its text, µs | reference, µs |");
    println!("|---|---|---|---|---|");
    let mut out = vec![0; 32_768];
    let shapes: [(&str, Shape); 5] = [
        ("one name", one_name),
        ("different names", different_names),
        ("64 levels", nested),
        ("returns, 64 levels", returns),
        ("one long name", long_name),
    ];
    for (name, make) in shapes {
        for length in [1_024, 4_096, 16_384, 32_768] {
            let program = make(length);
            let mut lent = Lent::filled(0);
            let answer = check(&program, Grants::LEAST, &mut lent.tokens, &mut lent.code);
            assert_eq!(answer.number, 0, "{name} at {length}: {answer:?}");
            let ours = best(200, || {
                check(&program, Grants::LEAST, &mut lent.tokens, &mut lent.code);
            });
            // Where it is too long, its length is worked out and nothing is written.
            let written = best(200, || {
                let (tokens, code) = (&mut lent.tokens, &mut lent.code);
                let answer = text(&program, Grants::LEAST, tokens, code, &mut out);
                assert!(matches!(answer.number, 0 | 82), "{name}: {answer:?}");
            });
            let theirs = best(50, || {
                std::hint::black_box(reference::check(&program));
            });
            println!(
                "| {name} | {} | {ours:.1} | {written:.1} | {theirs:.1} |",
                program.len()
            );
        }
    }
}
