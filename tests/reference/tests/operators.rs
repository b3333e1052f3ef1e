//! Every operator on every pair of kinds, against figure 3, and the values
//! that come out.

mod common;

use common::{boolean, boolean_after, draw_body, drawn, integer, short};

/// The kinds of figure 3; a shape stands for four.
#[derive(Clone, Copy, Debug, PartialEq, Eq)]
enum Kind {
    Integer,
    Text,
    Boolean,
    Void,
    Table,
    Shape,
}

/// An expression of each kind, and the steps it counts.
const SAMPLES: [(Kind, &str, u64); 9] = [
    (Kind::Integer, "7", 1),
    (Kind::Text, "\"ab\"", 1),
    (Kind::Boolean, "true", 1),
    (Kind::Void, "none", 1),
    (Kind::Table, "[0]", 2),
    (Kind::Shape, "drawLine(1,2,3,4)", 5),
    (Kind::Shape, "drawEllipse(1,2,3,4)", 5),
    (Kind::Shape, "drawBox(1,2,3,4)", 5),
    (Kind::Shape, "drawText(1,2,\"x\")", 4),
];

const OPERATORS: [&str; 12] = [
    "++", "+", "-", "*", "/", "%", ">>", "<<", "==", "!=", ">", "<",
];

/// Figure 3, row by row, but for the rows with void and non-void.
const FIGURE_3: [(&str, Kind, Kind, Kind); 23] = [
    ("++", Kind::Text, Kind::Text, Kind::Text),
    ("+", Kind::Integer, Kind::Integer, Kind::Integer),
    ("+", Kind::Shape, Kind::Integer, Kind::Shape),
    ("-", Kind::Integer, Kind::Integer, Kind::Integer),
    ("-", Kind::Shape, Kind::Integer, Kind::Shape),
    ("*", Kind::Integer, Kind::Integer, Kind::Integer),
    ("*", Kind::Shape, Kind::Integer, Kind::Shape),
    ("%", Kind::Integer, Kind::Integer, Kind::Integer),
    ("/", Kind::Integer, Kind::Integer, Kind::Integer),
    ("/", Kind::Shape, Kind::Integer, Kind::Shape),
    ("<<", Kind::Integer, Kind::Integer, Kind::Integer),
    ("<<", Kind::Shape, Kind::Integer, Kind::Shape),
    (">>", Kind::Integer, Kind::Integer, Kind::Integer),
    (">>", Kind::Shape, Kind::Integer, Kind::Shape),
    ("==", Kind::Integer, Kind::Integer, Kind::Boolean),
    ("==", Kind::Text, Kind::Text, Kind::Boolean),
    ("==", Kind::Boolean, Kind::Boolean, Kind::Boolean),
    ("==", Kind::Shape, Kind::Shape, Kind::Boolean),
    ("!=", Kind::Integer, Kind::Integer, Kind::Boolean),
    ("!=", Kind::Text, Kind::Text, Kind::Boolean),
    ("!=", Kind::Boolean, Kind::Boolean, Kind::Boolean),
    ("!=", Kind::Shape, Kind::Shape, Kind::Boolean),
    ("<", Kind::Integer, Kind::Integer, Kind::Boolean),
];

/// The kind that figure 3 gives an operator's result.
fn result_kind(operator: &str, left: Kind, right: Kind) -> Option<Kind> {
    if operator == ">" {
        return result_kind("<", left, right);
    }
    if matches!(operator, "==" | "!=") && (left == Kind::Void || right == Kind::Void) {
        return Some(Kind::Boolean);
    }
    let mut rows = FIGURE_3.iter();
    let row = rows.find(|row| (row.0, row.1, row.2) == (operator, left, right))?;
    Some(row.3)
}

/// A body that ends in a picture only if the expression has the kind.
fn use_as(kind: Kind, expression: &str) -> String {
    match kind {
        Kind::Integer => format!("drawLine({expression},0,0,0);"),
        Kind::Text => format!("drawText(0,0,{expression});"),
        Kind::Boolean => format!("if({expression})1;"),
        Kind::Void | Kind::Table => format!("{expression};"),
        Kind::Shape => format!("getShapeXCoordinate({expression});"),
    }
}

#[test]
fn every_operator_on_every_pair_of_kinds() {
    let mut accepted = 0;
    for operator in OPERATORS {
        for (left_kind, left, left_steps) in SAMPLES {
            for (right_kind, right, right_steps) in SAMPLES {
                let expression = format!("{left}{operator}{right}");
                match result_kind(operator, left_kind, right_kind) {
                    Some(kind) => {
                        let found = short(&draw_body(&use_as(kind, &expression)));
                        assert!(found.starts_with("picture"), "{expression}: {found}");
                        accepted += 1;
                    }
                    None => {
                        let found = short(&draw_body(&format!("{expression};")));
                        let steps = 2 + left_steps + right_steps;
                        assert_eq!(found, format!("20@14 s{steps}"), "{expression}");
                    }
                }
            }
        }
    }
    // 1 for strings, 7 for integers, 6 for four shapes and an integer, 2 for
    // < and >; 2 times (17 with none, 3 pairs of one kind, 16 of shapes).
    assert_eq!(accepted, 1 + 7 + 6 * 4 + 2 + 2 * (17 + 3 + 16));
}

#[test]
fn integers() {
    for (expression, value) in [
        ("3+4", 7),
        ("3-4", -1),
        ("3*-4", -12),
        ("7/2", 3),
        ("-7/2", -3),
        ("7/-2", -3),
        ("-7/-2", 3),
        ("7%2", 1),
        ("-7%2", -1),
        ("7%-2", 1),
        ("-7%-2", -1),
        ("6%3", 0),
        ("-2147483648/-1", i32::MIN),
        ("-2147483648%-1", 0),
        ("2147483647+1", i32::MIN),
        ("-2147483648-1", i32::MAX),
        ("65536*65536", 0),
        ("65536*32768", i32::MIN),
        ("46341*46341", -2_147_479_015),
        ("-2147483648*-1", i32::MIN),
        ("1<<31", i32::MIN),
        ("1<<32", 1),
        ("1<<-1", i32::MIN),
        ("7<<33", 14),
        ("3<<31", i32::MIN),
        ("1<<-2147483648", 1),
        ("-7>>1", -4),
        ("7>>1", 3),
        ("-1>>31", -1),
        ("-1>>-1", -1),
        ("-2147483648>>31", -1),
        ("2147483647>>31", 0),
        ("5>>32", 5),
        ("5>>2147483647", 0),
    ] {
        assert_eq!(integer(expression), value, "{expression}");
    }
}

#[test]
fn comparisons() {
    for (expression, truth) in [
        ("1<2", true),
        ("2<1", false),
        ("1<1", false),
        ("2>1", true),
        ("1>2", false),
        ("1>1", false),
        ("-1<0", true),
        ("-2147483648<2147483647", true),
        ("-2147483648>2147483647", false),
        ("5==5", true),
        ("5==6", false),
        ("5!=5", false),
        ("5!=6", true),
        ("\"ab\"==\"ab\"", true),
        ("(\"a\"++\"b\")==\"ab\"", true),
        ("\"ab\"==\"aB\"", false),
        ("\"ab\"==\"abc\"", false),
        ("\"ab\"!=\"abc\"", true),
        ("true==true", true),
        ("true==false", false),
        ("false==false", true),
        ("true!=false", true),
        ("none==none", true),
        ("none!=none", false),
        ("none==0", false),
        ("none!=0", true),
        ("false==none", false),
        ("\"none\"==none", false),
        ("[0]==none", false),
        ("none!=[0]", true),
        ("drawLine(1,2,3,4)==none", false),
        ("drawLine(1,2,3,4)==drawLine(1,2,3,4)", true),
        ("drawLine(1,2,3,4)!=drawLine(1,2,3,5)", true),
        ("drawBox(1,2,3,4)==drawBox(1,2,3,4)", true),
        ("drawBox(1,2,3,4)==drawBox(1,2,4,4)", false),
        ("drawEllipse(1,2,3,4)==drawEllipse(1,2,3,4)", true),
        ("drawEllipse(1,2,3,4)==drawBox(1,2,3,4)", false),
        ("drawText(1,2,\"a\")==drawText(1,2,\"a\")", true),
        ("drawText(1,2,\"a\")==drawText(1,2,\"b\")", false),
        ("drawText(1,2,\"a\")==drawText(2,2,\"a\")", false),
        ("drawText(1,2,\"ab\")==drawText(1,2,\"a\"++\"b\")", true),
    ] {
        assert_eq!(boolean(expression), truth, "{expression}");
    }
    // Multiplied and divided by 1, a shape keeps all its numbers.
    for shape in [
        "drawLine(-1,2147483647,3,-2147483648)",
        "drawEllipse(-1,2147483647,3,-2147483648)",
        "drawBox(-1,2147483647,3,-2147483648)",
        "drawText(-1,2147483647,\"a\")",
    ] {
        assert!(boolean(&format!("({shape}*1)=={shape}")), "{shape}*1");
        assert!(boolean(&format!("({shape}/1)=={shape}")), "{shape}/1");
    }
    // A copy is equal to what it was copied from.
    assert!(boolean_after("var a;a=drawBox(1,2,3,4);var b;b=a;", "a==b"));
}

#[test]
fn shapes() {
    for (expression, line) in [
        (
            "drawLine(1,2,3,4)+5",
            "<line x1=\"1\" y1=\"7\" x2=\"3\" y2=\"9\"/>",
        ),
        (
            "drawLine(1,2,3,4)-5",
            "<line x1=\"1\" y1=\"-3\" x2=\"3\" y2=\"-1\"/>",
        ),
        (
            "drawLine(1,2,3,4)>>5",
            "<line x1=\"6\" y1=\"2\" x2=\"8\" y2=\"4\"/>",
        ),
        (
            "drawLine(1,2,3,4)<<5",
            "<line x1=\"-4\" y1=\"2\" x2=\"-2\" y2=\"4\"/>",
        ),
        (
            "drawLine(1,2,3,4)*-2",
            "<line x1=\"-2\" y1=\"-4\" x2=\"-6\" y2=\"-8\"/>",
        ),
        (
            "drawLine(-7,7,-8,9)/2",
            "<line x1=\"-3\" y1=\"3\" x2=\"-4\" y2=\"4\"/>",
        ),
        (
            "drawLine(-2147483648,2147483647,1,0)/-1",
            "<line x1=\"-2147483648\" y1=\"-2147483647\" x2=\"-1\" y2=\"0\"/>",
        ),
        (
            "drawLine(2147483647,1,-2147483648,1)>>1",
            "<line x1=\"-2147483648\" y1=\"1\" x2=\"-2147483647\" y2=\"1\"/>",
        ),
        (
            "drawLine(1,-2147483648,1,0)-1",
            "<line x1=\"1\" y1=\"2147483647\" x2=\"1\" y2=\"-1\"/>",
        ),
        (
            "drawLine(0,0,0,0)<<-2147483648",
            "<line x1=\"-2147483648\" y1=\"0\" x2=\"-2147483648\" y2=\"0\"/>",
        ),
        // Widths, heights and radii are scaled, and not moved. A line shows a negative one turned.
        (
            "drawEllipse(1,2,3,4)*10",
            "<ellipse cx=\"10\" cy=\"20\" rx=\"30\" ry=\"40\"/>",
        ),
        (
            "drawEllipse(9,-9,7,8)/2",
            "<ellipse cx=\"4\" cy=\"-4\" rx=\"3\" ry=\"4\"/>",
        ),
        (
            "drawEllipse(1,2,65537,65538)*65536",
            "<ellipse cx=\"65536\" cy=\"131072\" rx=\"65536\" ry=\"131072\"/>",
        ),
        (
            "drawEllipse(1,2,3,4)+1",
            "<ellipse cx=\"1\" cy=\"3\" rx=\"3\" ry=\"4\"/>",
        ),
        (
            "drawBox(10,21,30,40)/10",
            "<rect x=\"1\" y=\"2\" width=\"3\" height=\"4\"/>",
        ),
        (
            "drawBox(1,2,3,4)*2",
            "<rect x=\"2\" y=\"4\" width=\"6\" height=\"8\"/>",
        ),
        (
            "drawBox(1,2,-3,7)/2",
            "<rect x=\"-1\" y=\"1\" width=\"1\" height=\"3\"/>",
        ),
        (
            "drawBox(10,20,3,4)*-1",
            "<rect x=\"-13\" y=\"-24\" width=\"3\" height=\"4\"/>",
        ),
        (
            "drawBox(0,0,-2147483648,1)/-1",
            "<rect x=\"-2147483648\" y=\"-1\" width=\"2147483648\" height=\"1\"/>",
        ),
        (
            "drawBox(1,2,3,4)<<1",
            "<rect x=\"0\" y=\"2\" width=\"3\" height=\"4\"/>",
        ),
        (
            "drawBox(1,2,3,4)-1",
            "<rect x=\"1\" y=\"1\" width=\"3\" height=\"4\"/>",
        ),
        ("drawText(1,2,\"a\")*3", "<text x=\"3\" y=\"6\">a</text>"),
        (
            "drawText(1,2,\"a\"++\"b\")>>3",
            "<text x=\"4\" y=\"2\">ab</text>",
        ),
    ] {
        assert_eq!(drawn(&format!("w={expression};")), format!("{line}\n"));
    }
}

#[test]
fn an_operator_makes_a_new_shape() {
    // The old shape stays as it was and lives on its own.
    assert_eq!(
        drawn("var a;var b;a=drawBox(1,2,3,4);b=a+1;"),
        "<rect x=\"1\" y=\"2\" width=\"3\" height=\"4\"/>\n\
         <rect x=\"1\" y=\"3\" width=\"3\" height=\"4\"/>\n"
    );
    assert_eq!(
        drawn("var a;var b;a=drawBox(1,2,3,4);b=a+0;destroyShape(a);"),
        "<rect x=\"1\" y=\"2\" width=\"3\" height=\"4\"/>\n"
    );
}

#[test]
fn a_divisor_of_0() {
    for (body, expected) in [
        ("1/0;", "70@14 s4"),
        ("1%0;", "70@14 s4"),
        ("0/0;", "70@14 s4"),
        ("drawLine(1,2,3,4)/0;", "70@14 s8"),
        ("drawText(1,2,\"a\")/0;", "70@14 s7"),
        ("drawBox(1,2,0,4)/0;", "70@14 s8"),
        ("drawEllipse(0,0,0,0)/0;", "70@14 s8"),
        // No remainder of shapes, so the kinds are asked first.
        ("drawLine(1,2,3,4)%0;", "20@14 s8"),
        ("\"a\"/0;", "20@14 s4"),
        ("0/none;", "20@14 s4"),
    ] {
        assert_eq!(short(&draw_body(body)), expected, "{body}");
    }
}
