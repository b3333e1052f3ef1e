//! The program `imgtext` prints the one text of its input, or the number as `imgdraw` prints it, worked out here from the reference's answer.

use generator::random::Random;
use generator::text::{any, brims, lengths};
use reference::sheet::print_text;

/// What the program prints on an input.
fn printed(input: &[u8]) -> Vec<u8> {
    agreement::programs::printed("imgtext", input)
}

fn compare(input: &[u8]) {
    let (is, should) = (printed(input), print_text(input));
    assert!(
        is == should,
        "{:?}\nprinted:\n{}\nexpected:\n{}",
        String::from_utf8_lossy(input),
        String::from_utf8_lossy(&is),
        String::from_utf8_lossy(&should)
    );
}

// Would catch a text or number printed otherwise, for programs of every sort and spelling, damaged ones among them.
#[test]
fn generated_and_damaged_programs() {
    for seed in 0..2_000 {
        compare(&any(&mut Random::new(seed)));
    }
}

// Would catch an array for input or text that is a byte too short, and 82 off by one.
#[test]
fn programs_at_every_limit() {
    for program in [generator::limit::programs(), brims(), lengths()].concat() {
        compare(&program);
    }
}

// Would catch a linefeed too many or too few, a first line that is asked for, and another form of a number. Needs no reference.
#[test]
fn by_hand() {
    for (input, wanted) in [
        ("def main(w,h){var a;}", "def main(w,h){\nvar a;\n}\n"),
        (
            "def f ( ) { return -00 ; }\n\n\tdef main(w,h){if((w))(f());}\n",
            "def f(){\nreturn 0;\n}\ndef main(w,h){\nif(w)\nf();\n}\n",
        ),
        ("", "error 10 at 0\n"),
        ("\n", "error 10 at 1\n"),
        ("20 20\ndef main(w,h){var a;}", "error 10 at 0\n"),
        ("def main(w,h){}", "error 10 at 14\n"),
        ("def main(w,h){\r\n1;}", "error 10 at 14\n"),
        ("def main(w,h){1;}def main(w,h){1;}", "error 60 at 17\n"),
        ("def f(){1;}", "error 10 at 11\n"),
    ] {
        let is = printed(input.as_bytes());
        assert_eq!(String::from_utf8_lossy(&is), wanted, "{input:?}");
    }
    let named = |length: usize| format!("def main(w,h){{{};}}", "n".repeat(length));
    assert_eq!(printed(named(32_749).as_bytes()).len(), 32_768);
    assert_eq!(printed(named(32_750).as_bytes()), b"error 82 at 0\n");
    assert_eq!(printed(named(32_752).as_bytes()), b"error 82 at 0\n");
    assert_eq!(printed(named(32_753).as_bytes()), b"error 73 at 0\n");
}

// Would catch a byte that ends the input early or is printed for another.
#[test]
fn any_bytes() {
    for b in 0..=255 {
        compare(&[b]);
        compare(&[b'd', b'e', b'f', b'\n', b'\t', b' ', b, b'x', b]);
        compare(&[b"def main(w,h){1;}", &[b][..]].concat());
    }
    for seed in 0..200 {
        let mut random = Random::new(seed);
        let program: Vec<u8> = (0..seed * 7).map(|_| random.bits() as u8).collect();
        compare(&program);
    }
}

// Would catch 73 off by one, an input that is cut off and then read, and one that is not read to its end.
#[test]
fn long_input() {
    for length in [32_767, 32_768, 32_769, 32_770, 40_000, 10_000_000] {
        for byte in [b' ', b'x', 0xff] {
            compare(&vec![byte; length]);
            let mut program = b"def main(w,h){1;}".to_vec();
            program.resize(length, byte);
            compare(&program);
        }
    }
}

// Would catch a program that reads only once.
#[test]
fn input_in_pieces() {
    let input = b"def main(w,h){ var a ; a = ( 1 ) ; }";
    for size in [1, 7, 20] {
        let is = agreement::programs::printed_piecewise("imgtext", input.chunks(size));
        assert_eq!(is, print_text(input));
    }
}
