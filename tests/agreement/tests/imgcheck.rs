//! The program `imgcheck` prints what docs/PROGRAMS.md says, worked out here from the reference's answer.

use generator::case::any_program;
use generator::random::Random;
use reference::operation::{check, Answer};

/// What the program prints on an input.
fn printed(input: &[u8]) -> Vec<u8> {
    agreement::programs::printed("imgcheck", input)
}

/// What it should print.
fn expected(program: &[u8]) -> Vec<u8> {
    let (number, place) = match check(program) {
        Answer::Number { number, place, .. } => (number, place as usize),
        _ => return b"well formed\n".to_vec(),
    };
    let before = &program[..place];
    let line = before.split(|b| *b == b'\n').count();
    let start = before
        .iter()
        .rposition(|b| *b == b'\n')
        .map_or(0, |i| i + 1);
    let column = place - start + 1;
    let mut text =
        format!("error {number} at byte {place}, line {line}, column {column}\n").into_bytes();
    if number != 73 {
        let whole = program[start..].split(|b| *b == b'\n').next().unwrap();
        let (left, right) = whole.split_at(place - start);
        let (dots, left) = if left.len() > 60 {
            ("...", &left[left.len() - 60..])
        } else {
            ("", left)
        };
        text.extend_from_slice(dots.as_bytes());
        text.extend(left.iter().chain(right.iter().take(20)).map(|b| match b {
            b'\t' | 32..=126 => *b,
            _ => b'?',
        }));
        text.extend_from_slice(if right.len() > 20 { b"...\n" } else { b"\n" });
        text.extend(dots.bytes().map(|_| b' '));
        text.extend(left.iter().map(|b| if *b == b'\t' { b'\t' } else { b' ' }));
        text.extend_from_slice(b"^\n");
    }
    text.extend_from_slice(match number {
        10 if place == program.len() => {
            b"The program ends here, and the grammar asks for more.\n".as_slice()
        }
        10 => b"The program is not written as the grammar asks from here on.\n",
        73 => b"The program has more than 32,768 bytes.\n",
        74 => b"The program has more than 8,192 tokens. This is the first one too many.\n",
        75 => b"This opens a 65th level, and a program has at most 64.\n",
        60 => b"This procedure has the name of an earlier one or of the library.\n",
        _ => panic!("checking answered {number}"),
    });
    text
}

fn compare(program: &[u8]) {
    let (is, should) = (printed(program), expected(program));
    assert!(
        is == should,
        "{:?}\nprinted:\n{}\nexpected:\n{}",
        String::from_utf8_lossy(program),
        String::from_utf8_lossy(&is),
        String::from_utf8_lossy(&should)
    );
}

#[test]
fn generated_and_damaged_programs() {
    for seed in 0..2_000 {
        compare(&any_program(&mut Random::new(seed)));
    }
}

#[test]
fn programs_at_every_limit() {
    for program in generator::limit::programs() {
        compare(&program);
    }
}

#[test]
fn good_bad_and_empty() {
    assert_eq!(printed(b"def main(w,h){var a;}"), b"well formed\n");
    assert_eq!(
        printed(b"def main(w,h){\n\tw = 1 + 2 + 3;\n}\n"),
        b"error 10 at byte 26, line 2, column 12\n\
          \tw = 1 + 2 + 3;\n\
          \t          ^\n\
          The program is not written as the grammar asks from here on.\n"
    );
    for program in [
        b"".as_slice(),
        b"\n",
        b"\n\n ",
        b"def main(w,h){",
        b"def main(w,h){\n",
        b"def main(w,h){\r\nvar a;\r\n}",
        b"\tdef main(w,h){\t\tw\t=\t;}",
    ] {
        compare(program);
    }
}

#[test]
fn any_bytes() {
    for b in 0..=255 {
        compare(&[b]);
        compare(&[b'd', b'e', b'f', b'\n', b'\t', b' ', b, b'x', b]);
    }
    for seed in 0..300 {
        let mut random = Random::new(seed);
        let program: Vec<u8> = (0..seed * 7).map(|_| random.bits() as u8).collect();
        compare(&program);
    }
}

#[test]
fn long_lines() {
    for before in [0, 1, 44, 45, 46, 47, 48, 60, 1_000] {
        for after in [0, 1, 17, 18, 19, 20, 21, 1_000] {
            let program = format!(
                "def main(w,h){{{};={}\n}}",
                " ".repeat(before),
                "w".repeat(after)
            );
            compare(program.as_bytes());
            compare(program.replace(' ', "\t").as_bytes());
        }
    }
}

#[test]
fn long_input() {
    for length in [32_767, 32_768, 32_769, 32_770, 40_000, 10_000_000] {
        compare(&vec![b' '; length]);
        compare(&vec![b'x'; length]);
        compare(&vec![0xff; length]);
    }
}
