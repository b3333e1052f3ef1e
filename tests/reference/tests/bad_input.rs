//! Input that is refused, and input that could upset an interpreter.

mod common;

use common::{main_of, short};
use reference::sheet::{self, GRANTS, OUT_LENGTH};
use reference::{check, draw};

fn all_operations(program: &[u8], expected: &str) {
    assert_eq!(short(&check(program)), expected);
    for out_length in [0, OUT_LENGTH] {
        assert_eq!(short(&draw(program, 20, 20, GRANTS, out_length)), expected);
    }
}

#[test]
fn empty_file() {
    all_operations(b"", "10@0 s0");
    assert_eq!(sheet::print(b""), b"error 72 at 0\n");
}

#[test]
fn too_long() {
    all_operations(&vec![b' '; 32_769], "73@0 s0");
    all_operations(&vec![b' '; 1_000_000], "73@0 s0");
    all_operations(&vec![b' '; 32_768], "10@32768 s0");
}

#[test]
fn a_byte_above_127() {
    all_operations("def main(w,h){var ä;}".as_bytes(), "10@18 s0");
    all_operations(b"\xff", "10@0 s0");
    all_operations(b"def main(w,h){1;}\x80", "10@17 s0");
    all_operations(b"def main(w,h){\"a\xe9\";}", "10@14 s0");
}

#[test]
fn every_byte_by_itself() {
    for byte in 0..=255_u8 {
        let place = match byte {
            b' ' | b'\t' | b'\n' => 1,
            _ => 0,
        };
        all_operations(&[byte], &format!("10@{place} s0"));
    }
}

#[test]
fn names_defined_twice() {
    let library = [
        "drawLine",
        "drawEllipse",
        "drawBox",
        "drawText",
        "destroyShape",
        "drawLineConnectingShapes",
        "drawTextOnShape",
        "getShapeXCoordinate",
        "getShapeYCoordinate",
        "clearScene",
    ];
    for name in library.into_iter().chain(["main", "f"]) {
        let front = "def f(){1;}def main(w,h){1;}def g(){1;}";
        let program = format!("{front} def {name}(x){{1;}}");
        let place = front.len() + 1;
        all_operations(program.as_bytes(), &format!("60@{place} s0"));
    }
    // The first in the text decides, whichever name it has.
    for (program, place) in [
        (
            "def f(){1;}def g(){1;}def g(){1;}def f(){1;}def main(w,h){1;}",
            22,
        ),
        (
            "def f(){1;}def drawBox(){1;}def f(){1;}def main(w,h){1;}",
            11,
        ),
        ("def drawBox(){1;}def drawBox(){1;}def main(w,h){1;}", 0),
        ("def main(w,h){1;}def main(){1;}def main(){1;}", 17),
        // Asked before main's own parameters.
        ("def main(a,a){1;}def main(w,h){1;}", 17),
        ("def main(w){1;}\n\ndef f(){1;}def f(){1;}", 28),
    ] {
        all_operations(program.as_bytes(), &format!("60@{place} s0"));
    }
    // Asked after all of reading.
    for (program, expected) in [
        ("def f(){1;}def f(){1;}", "10@22 s0"),
        ("def f(){1;}def f(){1;}def main(w,h){1;}!", "10@39 s0"),
        ("def f(){1;}def f(){1;}def main(w,h){1;};", "10@39 s0"),
    ] {
        all_operations(program.as_bytes(), expected);
    }
    let deep = format!("def f(){{1;}}def f(){{{}1;", "{".repeat(65));
    all_operations(deep.as_bytes(), "75@83 s0");
    let long = format!("def f(){{1;}}def f(){{1;}}{}", "1;".repeat(5_000));
    all_operations(long.as_bytes(), "74@8198 s0");
}

#[test]
fn every_byte_behind_a_program() {
    for byte in 0..=255_u8 {
        let mut program = main_of("1;");
        program.push(byte);
        let expected = match byte {
            b' ' | b'\t' | b'\n' => "well formed",
            _ => "10@17 s0",
        };
        assert_eq!(short(&check(&program)), expected, "{byte}");
    }
}

#[test]
fn carriage_return() {
    all_operations(b"def main(w,h){\r\n1;}", "10@14 s0");
    all_operations(b"def main(w,h){1;}\r", "10@17 s0");
}

#[test]
fn other_white_space() {
    all_operations(b"def main(w,h){\x0b1;}", "10@14 s0");
    all_operations(b"def main(w,h){\x0c1;}", "10@14 s0");
    all_operations(b"def main(w,h){\x001;}", "10@14 s0");
}

#[test]
fn unclosed_string() {
    all_operations(b"def main(w,h){\"a;}", "10@14 s0");
    all_operations(b"def main(w,h){\"", "10@14 s0");
    all_operations(b"def main(w,h){\"a\n\";}", "10@14 s0");
    all_operations(b"def main(w,h){w=\"a\"b\";}", "10@20 s0");
}

#[test]
fn width_and_height() {
    let program = main_of("1;");
    for bad in [0, -1, i32::MIN] {
        for (width, height) in [(bad, 20), (20, bad), (bad, bad)] {
            let answer = draw(&program, width, height, GRANTS, OUT_LENGTH);
            assert_eq!(short(&answer), "72@0 s0");
            // Asked before the program's length and the program.
            let too_long = vec![b'!'; 40_000];
            let answer = draw(&too_long, width, height, GRANTS, 0);
            assert_eq!(short(&answer), "72@0 s0");
        }
    }
    let answer = draw(&program, 1, i32::MAX, GRANTS, OUT_LENGTH);
    assert_eq!(short(&answer), "picture s2");
}

#[test]
fn misfits() {
    for (program, place) in [
        ("main(w,h){1;}", 0),
        ("def def main(w,h){1;}", 4),
        ("def main w,h){1;}", 9),
        ("def main(,h){1;}", 9),
        ("def main(w,){1;}", 11),
        ("def main(w h){1;}", 11),
        ("def main(if,h){1;}", 9),
        ("def main(1,h){1;}", 9),
        ("def main(w,h)1;", 13),
        ("def main(w,h){1;};", 17),
        ("def main(w,h){1;}}", 17),
        ("def main(w,h){1;}1;", 17),
        ("def main(w,h){1;}f(){1;}", 17),
        ("def main(w,h){1;}def", 20),
        ("def main(w,h){1;}def f", 22),
        ("def main(w,h){1;}def 1(){1;}", 21),
        ("def main(w,h){1;}def if(){1;}", 21),
        ("def main(w,h){1;}def \"f\"(){1;}", 21),
        ("def main(w,h){1;}def f{1;}", 22),
        ("def main(w,h){1;}def f(){}", 25),
        ("def main(w,h){1;}def f(1){1;}", 23),
        ("def main(w,h){1;}def f(a,){1;}", 25),
        ("def main(w,h){1;}def f(){1;", 27),
        ("def main(w,h){1;}def f(){1;}}", 28),
        ("def main(w,h){1;}def f(){1;};", 28),
        ("def f(){def g(){1;}}def main(w,h){1;}", 8),
        // Without main: its length.
        ("def f(w,h){1;}", 14),
        ("def f(){1;}def Main(w,h){1;} \n", 30),
        ("def main(w,h){;}", 14),
        ("def main(w,h){{}}", 15),
        ("def main(w,h){1}", 15),
        ("def main(w,h){var;}", 17),
        ("def main(w,h){var if;}", 18),
        ("def main(w,h){var a,b;}", 19),
        ("def main(w,h){var a=1;}", 19),
        ("def main(w,h){if 1 2;}", 17),
        ("def main(w,h){if()1;}", 17),
        ("def main(w,h){if(1);}", 19),
        ("def main(w,h){if(1)}", 19),
        ("def main(w,h){if(1)1;else 2;}", 26),
        ("def main(w,h){while(1)", 22),
        ("def main(w,h){return;}", 20),
        ("def main(w,h){return 1}", 22),
        ("def main(w,h){w=;}", 16),
        ("def main(w,h){w=1,2;}", 17),
        ("def main(w,h){w==;}", 17),
        ("def main(w,h){w===1;}", 17),
        ("def main(w,h){f(;}", 16),
        ("def main(w,h){f(1,);}", 18),
        ("def main(w,h){f(,1);}", 16),
        ("def main(w,h){(f)(1);}", 17),
        ("def main(w,h){f(1)(2);}", 18),
        ("def main(w,h){\"f\"(1);}", 17),
        ("def main(w,h){[];}", 15),
        ("def main(w,h){[1,2];}", 16),
        ("def main(w,h){[1);}", 16),
        ("def main(w,h){();}", 15),
        ("def main(w,h){(1;}", 16),
        ("def main(w,h){w.;}", 16),
        ("def main(w,h){w.if;}", 16),
        ("def main(w,h){.w;}", 14),
        ("def main(w,h){w+;}", 16),
        ("def main(w,h){+w;}", 14),
        ("def main(w,h){w+++h;}", 17),
        ("def main(w,h){w++ +h;}", 18),
        ("def main(w,h){w>>>h;}", 17),
        ("def main(w,h){w<=h;}", 16),
        ("def main(w,h){w-;}", 16),
        ("def main(w,h){w=1-", 18),
        ("def main(w,h){w=-", 16),
        ("def main(w,h){w=-a;}", 16),
        ("def main(w,h){w=-1a;}", 18),
        ("def main(w,h){w instanceOf h;}", 16),
        // A foreach lacks its name, its in, its group, its do, its body.
        ("def main(w,h){foreach in w do 1;}", 22),
        ("def main(w,h){foreach 1 in w do 1;}", 22),
        ("def main(w,h){foreach(x)in w do 1;}", 21),
        ("def main(w,h){foreach x.1 in w do 1;}", 23),
        ("def main(w,h){foreach x w do 1;}", 24),
        ("def main(w,h){foreach x;}", 23),
        ("def main(w,h){foreach x in do 1;}", 27),
        ("def main(w,h){foreach x in;}", 26),
        ("def main(w,h){foreach x in w 1;}", 29),
        ("def main(w,h){foreach x in w{1;}}", 28),
        ("def main(w,h){foreach x in w;do 1;}", 28),
        ("def main(w,h){foreach x in 1+2+3 do 1;}", 30),
        ("def main(w,h){foreach x in w do}", 31),
        ("def main(w,h){foreach x in w do;}", 31),
        ("def main(w,h){foreach x in w do{}}", 32),
        ("def main(w,h){foreach x in w do do 1;}", 32),
        ("def main(w,h){foreach x in w do in;}", 32),
        ("def main(w,h){foreach x in w do - 1;}", 32),
        ("def main(w,h){foreach x in w do 99999999999;}", 32),
        ("def main(w,h){foreach x in w do -99999999999;}", 33),
        ("def main(w,h){foreach x in w do ", 32),
        ("def main(w,h){foreach", 21),
        // Its words are reserved.
        ("def main(w,h){foreach;}", 21),
        ("def main(w,h){in;}", 14),
        ("def main(w,h){do=1;}", 14),
        ("def main(w,h){var do;}", 18),
        ("def main(w,h){foreach(1);}", 21),
        ("def main(in,h){1;}", 9),
        ("def foreach(){1;}def main(w,h){1;}", 4),
        ("def main(w,h){foreach in in in do 1;}", 22),
        ("def main(w,h){def f(){1;}}", 14),
        ("def main(w,h){else 1;}", 19),
        ("def main(w,h){w 1;}", 16),
        ("def main(w,h){1 2;}", 16),
    ] {
        all_operations(program.as_bytes(), &format!("10@{place} s0"));
    }
}

#[test]
fn lone_bytes_that_only_begin_signs() {
    all_operations(b"def main(w,h){w!h;}", "10@15 s0");
    all_operations(b"def main(w,h){w!", "10@15 s0");
    all_operations(b"def main(w,h){w&h;}", "10@15 s0");
    all_operations(b"def main(w,h){a_b;}", "10@15 s0");
    all_operations(b"def main(w,h){'a';}", "10@14 s0");
    all_operations(b"def main(w,h){1;}//", "10@17 s0");
}
