//! The readings taken where the documents can be read in two ways. Each row
//! tells the other reading, which must not come out.
//!
//! In a body, `A` stands for `var a;a=drawBox(1,2,3,4);` (25 bytes, 7 steps,
//! 2 shapes); a body begins at byte 14.

mod common;

use common::{draw_granted, drawn, main_of, short};
use reference::sheet::{self, GRANTS};
use reference::{check, draw, Grants};

const A: &str = "var a;a=drawBox(1,2,3,4);";

/// What the row asks, the body, the answer and the other reading.
type Row = (&'static str, &'static str, &'static str, &'static str);

fn spelled(body: &str) -> String {
    match body.strip_prefix("A ") {
        Some(rest) => format!("{A}{rest}"),
        None => body.to_string(),
    }
}

fn run_rows(rows: &[Row], grants: Grants) {
    for (what, body, expected, other) in rows {
        let found = short(&draw_granted(&spelled(body), grants));
        assert_eq!(&found, expected, "{what}: {body}, not {other}");
        assert_ne!(&found, other, "{what}: {body}");
    }
}

#[test]
fn order_of_questions() {
    let rows: &[Row] = &[
        (
            "wrong number of arguments and a destroyed one",
            "A destroyShape(a,destroyShape(a));",
            "30@39 s12",
            "20@39 s12",
        ),
        (
            "a destroyed argument where no shape is taken",
            "A drawLine(a,destroyShape(a),1,2);",
            "30@39 s14",
            "20@39 s14",
        ),
        (
            "a destroyed argument and another of a wrong kind",
            "A drawTextOnShape(a,destroyShape(a));",
            "30@39 s12",
            "20@39 s12",
        ),
        (
            "an unknown procedure uses nothing",
            "A foo(a,destroyShape(a));",
            "20@39 s12",
            "30@39 s12",
        ),
        (
            "a procedure left out uses nothing",
            "A sin(a,destroyShape(a));",
            "20@39 s12",
            "30@39 s12",
        ),
        (
            "main is no library procedure and uses nothing",
            "A main(a,destroyShape(a));",
            "20@39 s12",
            "30@39 s12",
        ),
        (
            "left side destroyed while the right is evaluated",
            "A a+destroyShape(a);",
            "30@39 s12",
            "20@39 s12",
        ),
        (
            "the same for an operator that takes no shape",
            "A a++destroyShape(a);",
            "30@39 s12",
            "20@39 s12",
        ),
        (
            "the same for == against none",
            "A a==destroyShape(a);",
            "30@39 s12",
            "picture s12",
        ),
        (
            "kinds before a divisor of 0",
            "none/0;",
            "20@14 s4",
            "70@14 s4",
        ),
        (
            "an operator asks about kinds after both sides",
            "true+(1/0);",
            "70@14 s6",
            "20@14 s3",
        ),
        (
            "a table read asks for a table before the key",
            "1.(1/0);",
            "20@14 s3",
            "70@14 s6",
        ),
        (
            "an update asks for a table before the key",
            "1.(1/0)=2;",
            "20@14 s2",
            "70@14 s5",
        ),
        (
            "an update does not ask about its key again",
            "A [0].a=destroyShape(a);",
            "picture s13",
            "30@39 s13",
        ),
        (
            "arguments before anything about the call",
            "foo(x);",
            "50@14 s3",
            "20@14 s3",
        ),
    ];
    run_rows(rows, GRANTS);
}

#[test]
fn order_of_questions_and_shortages() {
    let without_text = Grants {
        text_bytes: 0,
        ..GRANTS
    };
    let kinds_before_text: &[Row] = &[("kinds before text", "\"a\"++1;", "20@14 s4", "78@14 s4")];
    run_rows(kinds_before_text, without_text);

    let one_shape = Grants {
        shapes: 1,
        ..GRANTS
    };
    let declared_before_copy: &[Row] = &[(
        "50 of an assignment before the copy's shape",
        "a=drawLine(1,2,3,4);",
        "50@14 s6",
        "76@14 s6",
    )];
    run_rows(declared_before_copy, one_shape);

    let without_entries = Grants {
        entries: 0,
        ..GRANTS
    };
    let value_before_entry: &[Row] = &[(
        "an update's entry falls due after the value",
        "[0].1=1/0;",
        "70@14 s7",
        "77@14 s4",
    )];
    run_rows(value_before_entry, without_entries);
}

#[test]
fn questions_about_main() {
    let without_steps = Grants { steps: 0, ..GRANTS };
    for grants in [GRANTS, without_steps] {
        // 20 goes before 60, and both before the first step; the other
        // reading of the first is 60, that of all without steps is 79.
        for (program, expected) in [
            ("def main(a,a,a){1;}", "20@0 s0"),
            ("def main(a){1;}", "20@0 s0"),
            ("def main(){1;}", "20@0 s0"),
            ("def main(a,a){1;}", "60@0 s0"),
        ] {
            let answer = draw(program.as_bytes(), 20, 20, grants, 65_536);
            assert_eq!(short(&answer), expected, "{program}");
        }
    }
}

#[test]
fn checking_does_not_ask_about_main() {
    // The other reading is 60, and 20 for the second.
    assert_eq!(short(&check(b"def main(a,a){1;}")), "well formed");
    assert_eq!(short(&check(b"def main(a){1;}")), "well formed");
}

#[test]
fn checking_asks_about_the_counts() {
    // The other reading is well formed.
    let grants = Grants {
        shapes: 65_536,
        ..GRANTS
    };
    let answer = reference::operation::check_granted(b"def main(w,h){1;}", grants);
    assert_eq!(short(&answer), "71@0 s0");
}

/// Body and what checking it gives, with the other reading.
fn check_rows(rows: &[(&str, &str, &str)]) {
    for (body, expected, other) in rows {
        let found = short(&check(&main_of(body)));
        assert_eq!(&found, expected, "{body}, not {other}");
        assert_ne!(&found, other, "{body}");
    }
}

#[test]
fn tokens_before_grammar() {
    check_rows(&[
        // The whole text is asked for tokens first.
        (") 1;!", "10@18 s0", "10@14 s0"),
        // A bad string is 10 at its first quote.
        ("\"a b\";", "10@14 s0", "10@16 s0"),
        ("\"\";", "10@14 s0", "10@15 s0"),
        ("\"1a\";", "10@14 s0", "10@15 s0"),
        ("1;\"abc", "10@16 s0", "10@20 s0"),
        // Digits and a letter are two tokens, so the grammar refuses the
        // second.
        ("12a;", "10@16 s0", "10@14 s0"),
        ("12\"a\";", "10@16 s0", "10@14 s0"),
        // The range is asked with the grammar, at its token's turn.
        (") 99999999999;", "10@14 s0", "10@16 s0"),
    ]);
    // A bad string at the very end of the text.
    assert_eq!(short(&check(b"def main(w,h){1;}\"a")), "10@17 s0");
    assert_eq!(short(&check(b"def main(w,h){1;}\"")), "10@17 s0");
}

#[test]
fn tokens_before_their_number() {
    // `def main(w,h){` is 8 tokens; a statement `1;` is two more.
    let mut program = main_of(&"1;".repeat(5_000));
    // The 8,193rd token.
    assert_eq!(short(&check(&program)), "74@8198 s0");
    // A byte behind it that begins no token wins; the other reading is 74.
    program.extend_from_slice(b" !");
    assert_eq!(short(&check(&program)), "10@10016 s0");
    // A misfit before it does not; the other reading is 10 at 14.
    let misfit = main_of(&format!("){}", "1;".repeat(5_000)));
    assert_eq!(short(&check(&misfit)), "74@8198 s0");
}

#[test]
fn minus() {
    check_rows(&[
        ("- 1;", "10@14 s0", "well formed"),
        ("-w;", "10@14 s0", "well formed"),
        ("w=- 1;", "10@16 s0", "well formed"),
        ("w=--1;", "10@16 s0", "well formed"),
        ("w=-\n1;", "10@16 s0", "well formed"),
        ("1--1;", "well formed", "10@16 s0"),
        ("w.-1;", "well formed", "10@16 s0"),
        ("return-1;", "well formed", "10@20 s0"),
        ("-1;", "well formed", "10@14 s0"),
        ("w -1;", "well formed", "10@16 s0"),
        ("-2147483648;", "well formed", "10@15 s0"),
        ("-2147483649;", "10@15 s0", "10@14 s0"),
        ("0-2147483648;", "10@16 s0", "well formed"),
        ("0-2147483647;", "well formed", "10@15 s0"),
        ("2147483648;", "10@14 s0", "well formed"),
        ("00000000000000002147483647;", "well formed", "10@14 s0"),
    ]);
    // `w -1` subtracts; 5 steps for an operator, 4 if the minus belonged to
    // the constant and could stand there.
    assert_eq!(common::integer("w -1"), 19);
    assert_eq!(common::integer("1--1"), 2);
    assert_eq!(common::integer("-0"), 0);
}

#[test]
fn main_is_named_main() {
    // The other reading is the place of the name.
    assert_eq!(short(&check(b"def foo(w,h){var a;}")), "10@20 s0");
    assert_eq!(short(&check(b"def Main(w,h){var a;}")), "10@21 s0");
    assert_eq!(short(&check(b"def if(w,h){var a;}")), "10@4 s0");
}

#[test]
fn operands_and_left_sides() {
    check_rows(&[
        ("w.1+w.1;", "well formed", "10@17 s0"),
        ("w.1.1;", "10@17 s0", "well formed"),
        ("w.f(h);", "well formed", "10@17 s0"),
        ("1.2=3;", "well formed", "10@17 s0"),
        ("(w).h=1;", "well formed", "10@19 s0"),
        ("(w)=1;", "10@17 s0", "well formed"),
        ("(w.h)=1;", "10@19 s0", "well formed"),
        ("1=1;", "10@15 s0", "well formed"),
        ("f(w)=1;", "10@18 s0", "well formed"),
        ("[1]=1;", "10@17 s0", "well formed"),
        ("w+h=1;", "10@17 s0", "well formed"),
        ("w.h+1=1;", "10@19 s0", "well formed"),
        ("w=h=1;", "10@17 s0", "well formed"),
    ]);
    // The call is the key: f is unknown, so 20 after the table and b.
    let rows: &[Row] = &[(
        "a call behind a dot is the key",
        "[0].f(w);",
        "20@14 s6",
        "20@14 s4",
    )];
    run_rows(rows, GRANTS);
}

/// A body of if statements inside each other: `if(1)if(1)...`.
fn ifs(number: usize, innermost: &str) -> String {
    format!("{}{innermost}", "if(1)".repeat(number))
}

#[test]
fn levels_of_bodies() {
    let found = |body: String| short(&check(&main_of(&body)));
    // The 64th if is the body of the 63rd, so its parenthesis opens level 64,
    // and its body again, since the parenthesis is closed by then.
    assert_eq!(found(ifs(64, "1;")), "well formed");
    // The other reading, with the parenthesis still open, is 75 at its body.
    assert_eq!(found(ifs(65, "1;")), format!("75@{} s0", 14 + 64 * 5 + 2));
    // A `{`, `(` or `[` that begins a body opens two levels and keeps both
    // open to its end.
    for begin in ["{1;}", "(1);", "[1];"] {
        assert_eq!(found(ifs(63, begin)), "well formed", "{begin}");
        let place = 14 + 64 * 5;
        assert_eq!(found(ifs(64, begin)), format!("75@{place} s0"), "{begin}");
    }
    let inside = |opening: &str| ifs(63, &format!("{{1;{opening}}}"));
    let place = 14 + 63 * 5 + 3;
    assert_eq!(found(inside("(1);")), format!("75@{place} s0"));
    // A body's level ends with the body: any number in a row is fine.
    assert_eq!(found("if(1)1;".repeat(100)), "well formed");
    assert_eq!(found("if(1){(1);}".repeat(100)), "well formed");
}

#[test]
fn misfit_before_level() {
    // At one token 10 goes before 75.
    let found = |body: String| short(&check(&main_of(&body)));
    let deep = "(".repeat(64);
    assert_eq!(found(format!("{deep}(")), "75@78 s0");
    assert_eq!(found(format!("{deep}{{")), "10@78 s0");
    assert_eq!(found(format!("{deep}1(")), "10@79 s0");
    // The same for a token that begins a body, which would open two levels.
    let body = |begin: &str| found(format!("{}if(1){begin}", "{".repeat(63)));
    assert_eq!(body("(1);"), format!("75@{} s0", 14 + 63 + 5));
    assert_eq!(body(")"), format!("10@{} s0", 14 + 63 + 5));
    assert_eq!(body("]"), format!("10@{} s0", 14 + 63 + 5));
    assert_eq!(body("99999999999;"), format!("10@{} s0", 14 + 63 + 5));
}

#[test]
fn ending_too_early() {
    // White space at the end counts; the other reading is the last token's
    // end.
    assert_eq!(short(&check(b"def main(w,h){1; \n\t")), "10@19 s0");
    assert_eq!(short(&check(b" \n ")), "10@3 s0");
    assert_eq!(short(&check(b"def")), "10@3 s0");
    assert_eq!(short(&check(b"def main(w,h){if(1) ")), "10@20 s0");
}

#[test]
fn steps() {
    let rows: &[Row] = &[
        ("a block counts a step", "{1;}", "picture s3", "picture s2"),
        (
            "a block's step has its brace's place",
            "  {a;}",
            "50@17 s3",
            "50@16 s3",
        ),
        ("a sequence counts none", "1;1;", "picture s4", "picture s5"),
        (
            "the minus of a constant counts none",
            "-1;",
            "picture s2",
            "picture s3",
        ),
        (
            "parentheses count none",
            "((1));",
            "picture s2",
            "picture s4",
        ),
        (
            "a while's start and first test are one step",
            "while(false)1;",
            "picture s2",
            "picture s3",
        ),
        (
            "each later test is a step",
            "var b;b=true;while(b)b=false;",
            "picture s9",
            "picture s8",
        ),
        (
            "an if's test has no step of its own",
            "if(false)1;",
            "picture s2",
            "picture s3",
        ),
        (
            "an error in a test has the if's place",
            "if(1)1;",
            "20@14 s2",
            "20@17 s2",
        ),
        (
            "an error in a later test has the while's place",
            "var b;b=true;while(b)b=1;",
            "20@27 s9",
            "20@35 s9",
        ),
    ];
    run_rows(rows, GRANTS);
}

#[test]
fn a_blocks_step_is_due_at_its_brace() {
    let rows: &[Row] = &[("", "  {1;}", "79@16 s0", "79@17 s0")];
    run_rows(rows, Grants::LEAST);
}

#[test]
fn takings() {
    let taken = |body: &str, grants: Grants, expected: &str| {
        assert_eq!(short(&draw_granted(body, grants)), expected, "{body}");
    };
    let only = |shapes, entries, text_bytes| Grants {
        shapes,
        entries,
        text_bytes,
        ..GRANTS
    };
    // A constant, a text shape and a copy take no text bytes.
    let text = "var a;a=drawText(1,2,\"abc\");var s;s=\"abc\";s=s;";
    taken(text, only(2, 0, 0), "picture s11");
    // ++ takes the length of its result, each time.
    taken("\"ab\"++\"c\";", only(0, 0, 3), "picture s4");
    taken("\"ab\"++\"c\";", only(0, 0, 2), "78@14 s4");
    taken("(\"a\"++\"b\")++\"c\";", only(0, 0, 4), "78@14 s6");
    taken("(\"a\"++\"b\")++\"c\";", only(0, 0, 5), "picture s6");
    // Creating a table takes nothing, only a new key takes an entry.
    taken("[5];", only(0, 0, 0), "picture s3");
    let same_key = "var t;t=[0];t.1=1;t.1=2;";
    taken(same_key, only(0, 1, 0), "picture s12");
    taken(same_key, only(0, 0, 0), "77@26 s8");
    // Assigning any shape takes one, also to itself and a fresh one.
    let itself = "w=drawLine(1,2,3,4);w=w;";
    taken(itself, only(3, 0, 0), "picture s8");
    taken(itself, only(2, 0, 0), "76@34 s8");
    taken(itself, only(1, 0, 0), "76@14 s6");
    taken(itself, only(0, 0, 0), "76@14 s6");
    // 79 tells as many steps as were granted.
    let steps = |steps| Grants { steps, ..GRANTS };
    taken("1+(2+3);", steps(5), "79@14 s5");
    taken("1+(2+3);", steps(6), "picture s6");
}

#[test]
fn destroyed_shapes() {
    let rows: &[Row] = &[
        (
            "reading a variable that holds a destroyed shape",
            "A destroyShape(a);a;",
            "30@55 s12",
            "picture s12",
        ),
        (
            "reading an entry that holds a destroyed shape",
            "A var t;t=[0];t.1=a;destroyShape(a);t.1;",
            "30@73 s22",
            "picture s22",
        ),
        (
            "assigning over a destroyed shape is not asked",
            "A destroyShape(a);a=1;a;",
            "picture s14",
            "30@55 s12",
        ),
        (
            "nor is updating an entry that holds one",
            "A var t;t=[0];t.1=a;destroyShape(a);t.1=2;t.1;",
            "picture s26",
            "30@73 s22",
        ),
    ];
    run_rows(rows, GRANTS);
}

#[test]
fn centres() {
    // The other reading, half of the doubled sum, is -3.
    assert_eq!(
        common::integer("getShapeXCoordinate(drawBox(-5,0,3,0))"),
        -4
    );
}

#[test]
fn operators_on_shapes() {
    // The whole amount, not modulo 32.
    let line = |x1, x2| format!("<line x1=\"{x1}\" y1=\"2\" x2=\"{x2}\" y2=\"4\"/>\n");
    assert_eq!(drawn("w=drawLine(1,2,3,4)>>100;"), line(101, 103));
    assert_eq!(drawn("w=drawLine(1,2,3,4)<<100;"), line(-99, -97));
    let rows: &[Row] = &[
        (
            "an integer and a shape",
            "1+drawLine(1,2,3,4);",
            "20@14 s8",
            "picture s8",
        ),
        (
            "a table against itself",
            "var t;t=[0];t==t;",
            "20@26 s8",
            "picture s8",
        ),
        ("two kinds", "1!=true;", "20@14 s4", "picture s4"),
    ];
    run_rows(rows, GRANTS);
    // Shapes of two kinds are unequal; the other reading is 20.
    assert!(!common::boolean("drawBox(1,2,3,4)==drawEllipse(1,2,3,4)"));
    assert!(common::boolean("drawBox(1,2,3,4)!=drawEllipse(1,2,3,4)"));
    // So is a line drawn from the other end.
    assert!(!common::boolean("drawLine(1,2,3,4)==drawLine(3,4,1,2)"));
    assert!(common::boolean("drawLine(1,2,3,4)==drawLine(1,2,3,4)"));
}

#[test]
fn keys() {
    // All these keys differ. The text and the boolean look alike, and so do
    // the shapes; 9 entries are taken, not fewer.
    let fill = "var t;t=[0];t.1=1;t.\"true\"=2;t.true=3;t.none=4;t.[0]=5;t.t=6;\
                t.drawLine(1,2,3,4)=7;t.drawBox(1,2,3,4)=8;t.drawEllipse(1,2,3,4)=9;";
    let grants = |entries| Grants { entries, ..GRANTS };
    let nine = short(&draw_granted(fill, grants(9)));
    assert!(nine.starts_with("picture"), "{nine}");
    let eight = short(&draw_granted(fill, grants(8)));
    assert!(eight.starts_with("77@"), "{eight}");
    for (key, value) in [
        ("1", 1),
        ("(3-2)", 1),
        ("\"true\"", 2),
        // Equal text, wherever it came from.
        ("(\"tr\"++\"ue\")", 2),
        ("true", 3),
        ("(1==1)", 3),
        ("none", 4),
        ("clearScene()", 4),
        // A table is itself only.
        ("t", 6),
        // Equal shapes, wherever they came from.
        ("drawLine(1,2,3,4)", 7),
        ("(drawLine(0,2,2,4)>>1)", 7),
        ("drawBox(1,2,3,4)", 8),
    ] {
        let read = format!("t.{key}");
        assert_eq!(common::integer_after(fill, &read), value, "{key}");
    }
    // Other keys are not there.
    for key in ["2", "\"True\"", "false", "[0]", "drawLine(3,4,1,2)"] {
        let answer = draw_granted(&format!("{fill}t.{key};"), GRANTS);
        assert!(short(&answer).starts_with("20@"), "{key}");
    }
    // A shape as key is kept as it was, destroyed or not.
    let kept = "var t;t=[0];var b;b=drawBox(1,2,3,4);t.b=5;destroyShape(b);";
    assert_eq!(common::integer_after(kept, "t.drawBox(1,2,3,4)"), 5);
}

#[test]
fn clearing_the_scene() {
    let rows: &[Row] = &[
        (
            "a shape that a variable and a table hold is destroyed",
            "A var t;t=[0];t.1=a;clearScene();t.1;",
            "30@70 s21",
            "picture s21",
        ),
        (
            "one that only a table holds lives",
            "var t;t=[0];t.1=drawLine(1,2,3,4);clearScene();t.1;",
            "picture s18",
            "30@61 s18",
        ),
        (
            "one on its way that a variable holds is destroyed",
            "A a+clearScene();",
            "30@39 s11",
            "20@39 s11",
        ),
        (
            "one on its way that no variable holds lives",
            "A (a+1)+clearScene();",
            "20@39 s13",
            "30@39 s13",
        ),
    ];
    run_rows(rows, GRANTS);
    // What a table kept can be drawn afterwards.
    assert_eq!(
        drawn("var t;t=[0];t.1=drawLine(1,2,3,4);clearScene();w=t.1;"),
        "<line x1=\"1\" y1=\"2\" x2=\"3\" y2=\"4\"/>\n"
    );
}

#[test]
fn names_of_variables_and_procedures() {
    let rows: &[Row] = &[(
        "a variable named like a procedure",
        "var clearScene;clearScene();",
        "picture s3",
        "20@29 s3",
    )];
    run_rows(rows, GRANTS);
}

#[test]
fn order_of_the_picture() {
    // The declarations run in the order b, a, though a stands first. The
    // other reading is the order in the text.
    let body = "var i;i=0;while(i<2){if(i==1)var a;if(i==0)var b;i=i+1;}\
                a=drawLine(1,0,0,0);b=drawLine(2,0,0,0);h=drawLine(3,0,0,0);w=drawLine(4,0,0,0);";
    let line = |x1| format!("<line x1=\"{x1}\" y1=\"0\" x2=\"0\" y2=\"0\"/>\n");
    assert_eq!(drawn(body), [line(4), line(3), line(2), line(1)].concat());
}

#[test]
fn view_box_shows_the_call() {
    // `drawn` compares the frame: 20 by 20, though w and h hold others.
    assert_eq!(drawn("w=5;h=none;"), "");
}

#[test]
fn return_ends_the_run() {
    // From any depth, and the picture follows.
    let body = "var a;a=drawLine(1,2,3,4);while(true){if(true){{return none;}}}a=1;";
    assert_eq!(drawn(body), "<line x1=\"1\" y1=\"2\" x2=\"3\" y2=\"4\"/>\n");
    assert_eq!(short(&draw_granted(body, GRANTS)), "picture s16");
}

#[test]
fn imgdraw() {
    let printed = |input: &str| String::from_utf8(sheet::print(input.as_bytes())).unwrap();
    // Places count from the program's first byte, not the input's.
    assert_eq!(printed("20 20\ndef main(w,h){a=1;}"), "error 50 at 14\n");
    // Leading zeros are fine up to ten digits.
    assert_eq!(
        printed("0000000020 0000000020\ndef main(w,h){1;}"),
        printed("20 20\ndef main(w,h){1;}")
    );
    // A carriage return is another form.
    assert_eq!(printed("20 20\r\ndef main(w,h){1;}"), "error 72 at 0\n");
}
