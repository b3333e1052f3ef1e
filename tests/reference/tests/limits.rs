//! Programs at each fixed limit and one beyond.

mod common;

use common::{main_of, short};
use reference::sheet::{GRANTS, OUT_LENGTH};
use reference::{check, draw, Answer, Grants};

fn checked(program: &[u8]) -> String {
    short(&check(program))
}

fn drawn(program: &[u8], grants: Grants) -> Answer {
    draw(program, 20, 20, grants, OUT_LENGTH)
}

#[test]
fn bytes() {
    let mut program = main_of("1;");
    program.resize(32_768, b'\n');
    assert_eq!(checked(&program), "well formed");
    program.push(b'\n');
    assert_eq!(checked(&program), "73@0 s0");
    // The length is asked before any token.
    assert_eq!(checked(&[0xff; 32_768]), "10@0 s0");
    assert_eq!(checked(&[0xff; 32_769]), "73@0 s0");
    // One long name, one long constant, one long string.
    let name = "n".repeat(32_768 - 21);
    assert_eq!(checked(&main_of(&format!("var {name};;"))), "10@32766 s0");
    assert_eq!(checked(&main_of(&format!("var {name};"))), "well formed");
    let zeros = "0".repeat(32_768 - 16);
    assert_eq!(checked(&main_of(&format!("{zeros};"))), "well formed");
    let nines = "9".repeat(32_768 - 16);
    assert_eq!(checked(&main_of(&format!("{nines};"))), "10@14 s0");
    let string = "s".repeat(32_768 - 18);
    assert_eq!(checked(&main_of(&format!("\"{string}\";"))), "well formed");
}

#[test]
fn tokens() {
    // 8 tokens before the body, one behind it; `1;` has 2, `-1;` has 3.
    let body = |twos: usize, threes: usize| {
        let body = format!("{}{}", "-1;".repeat(threes), "1;".repeat(twos));
        checked(&main_of(&body))
    };
    assert_eq!(body(4_090, 1), "well formed");
    // The closing brace is the 8,193rd token.
    assert_eq!(body(4_092, 0), format!("74@{} s0", 14 + 4_092 * 2));
    assert_eq!(body(4_091, 0), "well formed");
    assert_eq!(body(4_091, 1), format!("74@{} s0", 14 + 3 + 4_091 * 2 - 1));
    // A string is one token: 4,091 strings and semicolons.
    let strings = main_of(&"\"a\";".repeat(4_091));
    assert_eq!(checked(&strings), "well formed");
    // 74 goes before any question of the grammar.
    assert_eq!(checked(&b"(".repeat(8_192)), "10@0 s0");
    assert_eq!(checked(&b"(".repeat(8_193)), "74@8192 s0");
}

/// A way to open levels: what opens one, what stands inside, what closes it,
/// and where in the opening text the level is opened.
const OPENINGS: [(&str, &str, &str, usize); 6] = [
    ("(", "1", ")", 0),
    ("[", "1", "]", 0),
    ("f(", "1", ")", 1),
    ("f(1,", "1", ")", 1),
    ("w.(", "1", ")", 2),
    ("1+(", "1", ")", 2),
];

#[test]
fn levels_in_expressions() {
    for (open, inside, close, at) in OPENINGS {
        let nested = |depth| {
            let body = format!("{}{inside}{};", open.repeat(depth), close.repeat(depth));
            checked(&main_of(&body))
        };
        assert_eq!(nested(64), "well formed", "{open}");
        let place = 14 + 64 * open.len() + at;
        assert_eq!(nested(65), format!("75@{place} s0"), "{open}");
        assert_eq!(nested(200), format!("75@{place} s0"), "{open}");
    }
}

#[test]
fn levels_in_statements() {
    for (open, close, levels, at) in [
        ("{", "}", 1, 0),
        // The parenthesis is the token that opens level 65 first.
        ("if(1)", "", 1, 2),
        ("while(1)", "", 1, 5),
        // Both levels of the brace stay open; the parenthesis goes first.
        ("if(1){", "}", 2, 2),
        ("while(1){", "}", 2, 5),
        ("{if(1)", "}", 2, 0),
    ] {
        let nested = |times| {
            let body = format!("{}1;{}", open.repeat(times), close.repeat(times));
            checked(&main_of(&body))
        };
        let times = 64 / levels;
        assert_eq!(nested(times), "well formed", "{open}");
        let place = 14 + times * open.len() + at;
        assert_eq!(nested(times + 1), format!("75@{place} s0"), "{open}");
    }
    // At 63 open levels a brace that begins a body opens level 65.
    let blocks = "{".repeat(63);
    let body = format!("{blocks}if(1){{");
    assert_eq!(checked(&main_of(&body)), format!("75@{} s0", 14 + 63 + 5));
    let body = format!("{blocks}if(1)1;{}", "}".repeat(63));
    assert_eq!(checked(&main_of(&body)), "well formed");
}

#[test]
fn a_deep_program_runs() {
    let body = format!("{}1;{}", "if(true){".repeat(32), "}".repeat(32));
    let answer = drawn(&main_of(&body), GRANTS);
    assert_eq!(short(&answer), "picture s98");
}

#[test]
fn each_procedure_has_its_own_levels() {
    let deep = |depth: usize| format!("{}1;{}", "{".repeat(depth), "}".repeat(depth));
    let program = |depth| format!("def f(){{{}}}def main(w,h){{{}}}", deep(64), deep(depth));
    assert_eq!(checked(program(64).as_bytes()), "well formed");
    let place = 8 + deep(64).len() + 1 + 14 + 64;
    assert_eq!(checked(program(65).as_bytes()), format!("75@{place} s0"));
}

#[test]
fn as_many_procedures_as_fit() {
    // 8 tokens for each, 13 for main.
    let procedures = |number: usize| {
        let each: String = (0..number).map(|k| format!("def f{k}(){{1;}}")).collect();
        format!("{each}def main(w,h){{f{}();}}", number - 1)
    };
    let program = procedures(1_022);
    assert_eq!(short(&drawn(program.as_bytes(), GRANTS)), "picture s4");
    assert!(checked(procedures(1_023).as_bytes()).starts_with("74@"));
    // The last one is doubled.
    let doubled = program.replace("def f1021(", "def f0(");
    let place = program.find("def f1021(").unwrap();
    assert_eq!(checked(doubled.as_bytes()), format!("60@{place} s0"));
}

#[test]
fn the_most_calls_in_the_most_levels() {
    // 64 calls under way, each inside 64 levels of its procedure; main is one
    // of them. The 65th call is one too many.
    for (front, back) in [
        ("(", ")"),
        ("[", "]"),
        ("g(", ")"),
        ("1+(", ")"),
        ("w.(", ")"),
        ("t.(", ")"),
        ("{", "}"),
        ("if(true)", ""),
        ("while(true)", ""),
        ("if(true){", "}"),
    ] {
        let statement = front.ends_with(['{']) || front.contains("true");
        let depth = match front {
            "if(true){" => 31,
            _ => 63,
        };
        let call = |n: &str| {
            let nested =
                |inside: &str| format!("{}{inside}{}", front.repeat(depth), back.repeat(depth));
            match statement {
                true => nested(&format!("f({n},t,w);")),
                false => format!("{};", nested(&format!("f({n},t,w)"))),
            }
        };
        let program = format!(
            "def g(x){{return x;}}\
             def f(n,t,w){{if(n==0)return 1;{}return 1;}}\
             def main(n,h){{var t;t=[0];t.1=1;var w;w=t;{}}}",
            call("n-1"),
            call("62")
        );
        let answer = drawn(program.as_bytes(), GRANTS);
        let found = short(&answer);
        let ends = ["picture", "20@", "79@"];
        assert!(
            ends.iter().any(|end| found.starts_with(end)),
            "{front}: {found}"
        );
        let deeper = program.replace("f(62,", "f(63,");
        let found = short(&drawn(deeper.as_bytes(), GRANTS));
        assert!(found.starts_with("81@"), "{front}: {found}");
    }
}

#[test]
fn counts_out_of_range() {
    let program = main_of("1;");
    let largest = Grants::LARGEST;
    let out_of_range = [
        Grants {
            steps: 4_294_967_296,
            ..largest
        },
        Grants {
            shapes: 65_536,
            ..largest
        },
        Grants {
            entries: 65_536,
            ..largest
        },
        Grants {
            text_bytes: 65_536,
            ..largest
        },
        Grants {
            calls: 0,
            ..largest
        },
        Grants {
            calls: 65,
            ..largest
        },
        Grants {
            steps: u64::MAX,
            shapes: u64::MAX,
            entries: u64::MAX,
            text_bytes: u64::MAX,
            calls: u64::MAX,
        },
        Grants::NOTHING,
    ];
    for grants in out_of_range {
        assert_eq!(short(&drawn(&program, grants)), "71@0 s0");
        // Asked before everything else.
        assert_eq!(short(&draw(b"", 0, 0, grants, 0)), "71@0 s0");
        let answer = reference::operation::check_granted(b"", grants);
        assert_eq!(short(&answer), "71@0 s0");
    }
    assert_eq!(short(&drawn(&program, largest)), "picture s2");
    assert_eq!(short(&drawn(&program, Grants::LEAST)), "79@14 s0");
}

#[test]
fn all_of_each_store() {
    // Each loop takes one more of its kind for ever, up to 65,535.
    for (body, number) in [
        ("while(true)drawLine(1,2,3,4);", 76),
        ("var i;i=0;w=[0];while(true){w.i=i;i=i+1;}", 77),
        // 3 bytes at once; 65,535 is a multiple of 3.
        ("while(true)\"a\"++\"bc\";", 78),
    ] {
        let answer = drawn(&main_of(body), Grants::LARGEST);
        let Answer::Number {
            number: found,
            steps,
            ..
        } = answer
        else {
            panic!("{body}");
        };
        assert_eq!(found, number, "{body}");
        let expected = match number {
            // A test and its constant, the statement, the call and its
            // arguments.
            76 => 65_536 * 8,
            // 6 before; a test, the block and the two statements.
            77 => 6 + 65_535 * (2 + 1 + 4 + 4) + (2 + 1 + 4),
            _ => 21_846 * 6,
        };
        assert_eq!(steps, expected, "{body}");
    }
}
