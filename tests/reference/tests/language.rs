//! Statements, tables, copies and the picture, as document 002 tells them.

mod common;

use common::{draw_body, drawn, integer_after, short};
use reference::sheet::{GRANTS, OUT_LENGTH};
use reference::{draw, Answer};

fn line(x1: i32) -> String {
    format!("<line x1=\"{x1}\" y1=\"0\" x2=\"0\" y2=\"0\"/>\n")
}

#[test]
fn the_stick_figure_of_document_002() {
    let program = "def main ( w , h ) {\n\
        var head; var neck;\n var torso; var arms;\n var legl; var legr;\n\
        head = drawEllipse(10,5,4,3);\n neck = drawLine (10,8,10,10);\n\
        torso = drawLine (10,10,10,12);\n arms = drawLine (5,10,15,10);\n\
        legl = drawLine (6, 14,10,12);\n legr = drawLine (14,14,10,12);\n}\n";
    let answer = draw(program.as_bytes(), 20, 20, GRANTS, OUT_LENGTH);
    assert_eq!(short(&answer), "picture s42");
    assert_eq!(
        common::shape_lines(&answer),
        "<ellipse cx=\"10\" cy=\"5\" rx=\"4\" ry=\"3\"/>\n\
         <line x1=\"10\" y1=\"8\" x2=\"10\" y2=\"10\"/>\n\
         <line x1=\"10\" y1=\"10\" x2=\"10\" y2=\"12\"/>\n\
         <line x1=\"5\" y1=\"10\" x2=\"15\" y2=\"10\"/>\n\
         <line x1=\"6\" y1=\"14\" x2=\"10\" y2=\"12\"/>\n\
         <line x1=\"14\" y1=\"14\" x2=\"10\" y2=\"12\"/>\n"
    );
}

#[test]
fn destroying_as_document_002_shows_it() {
    let first = "var a; var b;\na = drawLine(10, 20, 30, 40);\ndestroyShape(a);\nb = a;\n";
    let second = "var a; var b; var c;\na = drawLine(10, 20, 30, 40);\nb = [1];\nb.0 = a;\n\
                  destroyShape(a);\nc = b.0;\n";
    let third = "var a; var b; var c;\na = drawLine(10, 20, 30, 40);\nb = a;\n\
                 destroyShape(a);\nc = b;\n";
    let place = |body: &str, statement: &str| 14 + body.find(statement).unwrap();
    let expected = format!("30@{} s13", place(first, "b = a;"));
    assert_eq!(short(&draw_body(first)), expected);
    let expected = format!("30@{} s23", place(second, "c = b.0;"));
    assert_eq!(short(&draw_body(second)), expected);
    let copy = "<line x1=\"10\" y1=\"20\" x2=\"30\" y2=\"40\"/>\n";
    assert_eq!(drawn(third), copy.repeat(2));
}

#[test]
fn variables() {
    for (body, expected) in [
        // A declared variable holds none.
        ("var a;if(a==none)return 1;x;", "picture s7"),
        // Declared again, also by the same statement or a parameter's name.
        ("var a;var a;", "60@20 s2"),
        ("var h;", "60@14 s1"),
        ("while(true)var a;", "60@25 s6"),
        ("a;", "50@14 s2"),
        ("a=1;", "50@14 s2"),
        ("a=a;", "50@14 s2"),
        // The right side comes first.
        ("a=1/0;", "70@14 s4"),
        // Not yet declared, though further down.
        ("a=1;var a;", "50@14 s2"),
        // Blocks and branches do not end a variable.
        ("{var a;}a=1;", "picture s4"),
        ("if(true)var a;a=1;", "picture s5"),
        ("if(false)var a;a=1;", "50@29 s4"),
        // Names differ by every letter.
        ("var ab;aB=1;", "50@21 s3"),
        ("var a;var a1;var A;var aa;", "picture s4"),
        ("var iff;var None;var def1;", "picture s3"),
    ] {
        assert_eq!(short(&draw_body(body)), expected, "{body}");
    }
    assert_eq!(integer_after("", "w"), 20);
    assert_eq!(integer_after("var a;a=3;a=a+a;", "a"), 6);
}

#[test]
fn tests_and_loops() {
    for (body, expected) in [
        ("if(1)1;", "20@14 s2"),
        ("if(none)1;", "20@14 s2"),
        ("while(\"a\")1;", "20@14 s2"),
        ("while([0])1;", "20@14 s3"),
        ("if(drawLine(1,2,3,4))1;", "20@14 s6"),
        ("if(true)1;", "picture s4"),
        ("if(x)1;", "50@14 s2"),
        ("while(1/0)1;", "70@14 s4"),
        // Only the first statement belongs to an if.
        ("if(false)1;a;", "50@25 s4"),
        ("if(false)if(true)1;a;", "50@33 s4"),
        ("if(true)return 1;a;", "picture s4"),
        ("return a;", "50@14 s2"),
        ("return 1/0;", "70@14 s4"),
        ("return drawLine(1,2,3,4);", "picture s6"),
    ] {
        assert_eq!(short(&draw_body(body)), expected, "{body}");
    }
    let sum = "var i;var s;i=0;s=0;while(i<10){i=i+1;s=s+i;}";
    assert_eq!(integer_after(sum, "s"), 55);
}

#[test]
fn tables() {
    for (body, expected) in [
        ("[true];", "20@14 s3"),
        ("[\"a\"];", "20@14 s3"),
        ("[none];", "20@14 s3"),
        ("[[0]];", "20@14 s4"),
        ("[-1];", "40@14 s3"),
        ("[-2147483648];", "40@14 s3"),
        ("[0-1];", "40@14 s5"),
        ("[2147483647];", "picture s3"),
        ("[0].1;", "20@14 s5"),
        ("1.2;", "20@14 s3"),
        ("1.x=3;", "20@14 s2"),
        ("none.1;", "20@14 s3"),
        ("x.1;", "50@14 s3"),
        ("x.1=2;", "50@14 s2"),
        ("[0].x=1;", "50@14 s4"),
        ("[0].1=x;", "50@14 s5"),
        ("[0].1=2;", "picture s5"),
        ("w.1=2;", "20@14 s2"),
    ] {
        assert_eq!(short(&draw_body(body)), expected, "{body}");
    }
    // A size reserves nothing and limits nothing.
    let small = "var t;t=[1];t.0=4;t.99=5;t.-1=6;";
    assert_eq!(integer_after(small, "t.99"), 5);
    assert_eq!(integer_after(small, "t.-1"), 6);
    // A table is shared, not copied.
    let shared = "var t;t=[0];var u;u=t;u.1=7;";
    assert_eq!(integer_after(shared, "t.1"), 7);
    let nested = "var t;t=[0];t.\"in\"=[0];(t.\"in\").2=8;";
    assert_eq!(integer_after(nested, "(t.\"in\").2"), 8);
    // Two tables are two, also of one creation.
    let two = "var t;var u;var i;i=0;while(i<2){u=t;t=[0];t.1=i;i=i+1;}";
    assert_eq!(integer_after(two, "u.1"), 0);
    assert_eq!(integer_after(two, "t.1"), 1);
    // A later value replaces the earlier.
    assert_eq!(integer_after("var t;t=[0];t.1=2;t.1=3;", "t.1"), 3);
}

#[test]
fn shapes_in_tables() {
    // Tables add nothing to the picture.
    assert_eq!(drawn("w=[0];w.1=drawLine(1,0,0,0);"), "");
    // A variable takes a copy from a table.
    let body = "var t;t=[0];t.1=drawLine(1,0,0,0);var a;a=t.1;destroyShape(t.1);";
    assert_eq!(drawn(body), line(1));
    // The variable's shape is in the table, until the variable gets another.
    let body = "var t;t=[0];var a;a=drawLine(1,0,0,0);t.1=a;a=a>>1;clearScene();w=t.1;";
    assert_eq!(drawn(body), line(1));
    // A destroyed shape is destroyed in every entry that shares it.
    let body = "var t;t=[0];t.1=drawLine(1,0,0,0);t.2=t.1;destroyShape(t.1);";
    assert_eq!(short(&draw_body(&format!("{body}t.2;"))), "30@74 s27");
    // A fresh look after an overwrite is fine.
    let body = format!("{body}t.2=drawLine(2,0,0,0);w=t.2;");
    assert_eq!(drawn(&body), line(2));
}

#[test]
fn destroying() {
    let a = "var a;a=drawLine(1,0,0,0);";
    for (body, expected) in [
        ("destroyShape(a);destroyShape(a);", "30@56 s13"),
        ("destroyShape(a);clearScene();", "picture s12"),
        ("clearScene();clearScene();", "picture s11"),
        ("clearScene();a;", "30@53 s11"),
        ("destroyShape(a+0);a;", "picture s14"),
        ("a=destroyShape(a);a;", "picture s12"),
        // The left side is destroyed by the right, and nothing else uses it.
        ("(a==a)==(destroyShape(a)==none);", "picture s16"),
        ("[0].a=destroyShape(a);", "picture s13"),
        ("drawLineConnectingShapes(a,destroyShape(a));", "30@40 s12"),
        ("drawLineConnectingShapes(destroyShape(a),a);", "30@40 s12"),
        // A table entry destroyed by its own key.
        ("w=[0];w.none=a;w.destroyShape(a);", "30@55 s19"),
    ] {
        let body = format!("{a}{body}");
        assert_eq!(short(&draw_body(&body)), expected, "{body}");
    }
    assert_eq!(drawn(&format!("{a}destroyShape(a);")), "");
    assert_eq!(
        drawn(&format!("{a}clearScene();a=drawLine(2,0,0,0);")),
        line(2)
    );
}

#[test]
fn numbers_in_the_picture() {
    for (number, written) in [
        ("0", "0"),
        ("-0", "0"),
        ("007", "7"),
        ("-1", "-1"),
        ("9", "9"),
        ("10", "10"),
        ("99", "99"),
        ("100", "100"),
        ("1000000000", "1000000000"),
        ("-1000000000", "-1000000000"),
        ("999999999", "999999999"),
        ("2147483647", "2147483647"),
        ("-2147483648", "-2147483648"),
        ("-2147483647", "-2147483647"),
    ] {
        assert_eq!(
            drawn(&format!("w=drawText({number},0,\"a\");")),
            format!("<text x=\"{written}\" y=\"0\">a</text>\n")
        );
    }
}

#[test]
fn the_view_box() {
    for (width, height) in [(1, 1), (1, i32::MAX), (960, 9_999)] {
        let program = common::main_of("1;");
        let expected = format!(
            "<?xml version=\"1.0\"?>\n\
             <svg viewBox=\"0 0 {width} {height}\" \
             xmlns=\"http://www.w3.org/2000/svg\" version=\"1.1\">\n\
             <g stroke=\"black\" fill=\"black\">\n</g>\n</svg>\n"
        );
        assert_eq!(
            draw(&program, width, height, GRANTS, OUT_LENGTH),
            Answer::Picture {
                length: expected.len() as u64,
                steps: 2,
                bytes: expected.clone().into_bytes(),
            }
        );
        assert_eq!(
            draw(&program, width, height, GRANTS, 0),
            Answer::Number {
                number: 80,
                place: 0,
                steps: 2,
                length_needed: Some(expected.len() as u64),
            }
        );
    }
}

#[test]
fn white_space() {
    let program = "\n\tdef\nmain\t( w ,h\n){ \t\nvar\ta\n;a\n=\n-1\n;\n}\n \t";
    let answer = draw(program.as_bytes(), 20, 20, GRANTS, OUT_LENGTH);
    assert_eq!(short(&answer), "picture s3");
}

#[test]
fn long_texts_and_many_copies() {
    // Doubling to 4,096 letters takes 8,190 text bytes in all.
    let body = "var s;var i;s=\"a\";i=0;while(i<12){s=s++s;i=i+1;}w=drawText(0,0,s);h=w+1;";
    let text = "a".repeat(4_096);
    assert_eq!(
        drawn(body),
        format!("<text x=\"0\" y=\"0\">{text}</text>\n<text x=\"0\" y=\"1\">{text}</text>\n")
    );
    // 13 doublings take 16,382 text bytes, and 14 more than are granted.
    let more = short(&draw_body(&body.replace("12", "13")));
    assert!(more.starts_with("picture"), "{more}");
    let more = short(&draw_body(&body.replace("12", "14")));
    assert!(more.starts_with("78@"), "{more}");
}
