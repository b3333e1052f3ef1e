//! The ten library procedures: what they give, and their error cases.

mod common;

use common::{draw_body, draw_granted, drawn, integer, short};
use reference::sheet::GRANTS;
use reference::Grants;

/// An expression of each kind, and the steps it counts.
const INTEGER: (&str, u64) = ("7", 1);
const TEXT: (&str, u64) = ("\"ab\"", 1);
const SHAPE: (&str, u64) = ("drawBox(1,2,3,4)", 5);
const OTHERS: [(&str, u64); 3] = [("true", 1), ("none", 1), ("[0]", 2)];

/// Each procedure with the kinds of its arguments: i, t or s.
const PROCEDURES: [(&str, &str); 10] = [
    ("drawLine", "iiii"),
    ("drawEllipse", "iiii"),
    ("drawBox", "iiii"),
    ("drawText", "iit"),
    ("destroyShape", "s"),
    ("drawLineConnectingShapes", "ss"),
    ("drawTextOnShape", "st"),
    ("getShapeXCoordinate", "s"),
    ("getShapeYCoordinate", "s"),
    ("clearScene", ""),
];

fn sample(kind: char) -> (&'static str, u64) {
    match kind {
        'i' => INTEGER,
        't' => TEXT,
        _ => SHAPE,
    }
}

fn samples(kinds: &str) -> Vec<(&'static str, u64)> {
    kinds.chars().map(sample).collect()
}

/// A body that is one call.
fn call(name: &str, arguments: &[(&str, u64)]) -> String {
    let texts: Vec<&str> = arguments.iter().map(|argument| argument.0).collect();
    format!("{name}({});", texts.join(","))
}

/// The steps of that body.
fn steps(arguments: &[(&str, u64)]) -> u64 {
    2 + arguments.iter().map(|argument| argument.1).sum::<u64>()
}

#[test]
fn right_arguments() {
    for (name, kinds) in PROCEDURES {
        let arguments = samples(kinds);
        let found = short(&draw_body(&call(name, &arguments)));
        assert_eq!(found, format!("picture s{}", steps(&arguments)), "{name}");
    }
}

#[test]
fn too_few_arguments() {
    for (name, kinds) in PROCEDURES {
        for number in 0..kinds.len() {
            let arguments = samples(&kinds[..number]);
            let found = short(&draw_body(&call(name, &arguments)));
            assert_eq!(found, format!("20@14 s{}", steps(&arguments)), "{name}");
        }
    }
}

#[test]
fn too_many_arguments() {
    for (name, kinds) in PROCEDURES {
        for more in ["i", "t", "s"] {
            let arguments = samples(&format!("{kinds}{more}"));
            let found = short(&draw_body(&call(name, &arguments)));
            assert_eq!(found, format!("20@14 s{}", steps(&arguments)), "{name}");
        }
    }
}

#[test]
fn wrong_kinds() {
    let every = [&[INTEGER, TEXT, SHAPE][..], &OTHERS].concat();
    for (name, kinds) in PROCEDURES {
        let right = samples(kinds);
        for place in 0..right.len() {
            for wrong in &every {
                if *wrong == right[place] {
                    continue;
                }
                let mut arguments = right.clone();
                arguments[place] = *wrong;
                let found = short(&draw_body(&call(name, &arguments)));
                let expected = format!("20@14 s{}", steps(&arguments));
                assert_eq!(found, expected, "{name} {place} {}", wrong.0);
            }
        }
    }
}

#[test]
fn shapes_taken() {
    // The procedures that make a shape take one; the others take none.
    for (name, kinds) in PROCEDURES {
        let arguments = samples(kinds);
        let used = kinds.chars().filter(|kind| *kind == 's').count() as u64;
        let makes = name.starts_with("draw") as u64;
        let granted = |shapes| {
            let grants = Grants { shapes, ..GRANTS };
            short(&draw_granted(&call(name, &arguments), grants))
        };
        let enough = granted(used + makes);
        assert!(enough.starts_with("picture"), "{name}: {enough}");
        if makes == 1 {
            let expected = format!("76@14 s{}", steps(&arguments));
            assert_eq!(granted(used), expected, "{name}");
        }
    }
}

#[test]
fn a_destroyed_argument() {
    // Any destroyed argument of a library call is 30, before the number of
    // arguments and their kinds are asked.
    for (name, kinds) in PROCEDURES {
        let mut arguments = vec![("a", 1), ("destroyShape(a)", 2)];
        arguments.extend(samples(kinds));
        let body = format!("var a;a=drawBox(1,2,3,4);{}", call(name, &arguments));
        let expected = format!("30@39 s{}", 7 + steps(&arguments));
        assert_eq!(short(&draw_body(&body)), expected, "{name}");
    }
}

#[test]
fn unknown_procedures() {
    for name in [
        "sin",
        "cos",
        "tan",
        "arcsin",
        "arccos",
        "arctan",
        "eval",
        "instanceOf",
        "drawgroup",
        "drawGroups",
        "forEach",
        "main",
        "w",
        "drawline",
        "DrawLine",
        "drawLines",
        "drawLin",
    ] {
        for (body, expected) in [
            (format!("{name}();"), "20@14 s2"),
            (format!("{name}(1);"), "20@14 s3"),
            (format!("{name}(1,2,3,4);"), "20@14 s6"),
            (format!("{name}(\"a\",1/0);"), "70@14 s6"),
        ] {
            assert_eq!(short(&draw_body(&body)), expected, "{body}");
        }
    }
}

#[test]
fn what_is_drawn() {
    for (expression, line) in [
        (
            "drawLine(1,-2,3,-4)",
            "<line x1=\"1\" y1=\"-2\" x2=\"3\" y2=\"-4\"/>",
        ),
        (
            "drawEllipse(1,-2,3,4)",
            "<ellipse cx=\"1\" cy=\"-2\" rx=\"3\" ry=\"4\"/>",
        ),
        (
            "drawBox(1,-2,3,4)",
            "<rect x=\"1\" y=\"-2\" width=\"3\" height=\"4\"/>",
        ),
        (
            "drawText(1,-2,\"def\")",
            "<text x=\"1\" y=\"-2\">def</text>",
        ),
        (
            "drawLineConnectingShapes(drawBox(1,2,3,4),drawLine(5,6,8,9))",
            "<line x1=\"2\" y1=\"4\" x2=\"6\" y2=\"7\"/>",
        ),
        (
            "drawLineConnectingShapes(drawText(1,2,\"a\"),drawEllipse(3,4,9,9))",
            "<line x1=\"1\" y1=\"2\" x2=\"3\" y2=\"4\"/>",
        ),
        (
            "drawTextOnShape(drawBox(0,0,10,21),\"a\"++\"b1\")",
            "<text x=\"5\" y=\"10\">ab1</text>",
        ),
    ] {
        assert_eq!(drawn(&format!("w={expression};")), format!("{line}\n"));
    }
}

#[test]
fn no_size_is_shown_negative() {
    for (expression, line) in [
        (
            "drawEllipse(1,-2,-3,-4)",
            "<ellipse cx=\"1\" cy=\"-2\" rx=\"3\" ry=\"4\"/>",
        ),
        (
            "drawEllipse(1,2,3,-2147483648)",
            "<ellipse cx=\"1\" cy=\"2\" rx=\"3\" ry=\"2147483648\"/>",
        ),
        (
            "drawBox(1,2,-3,4)",
            "<rect x=\"-2\" y=\"2\" width=\"3\" height=\"4\"/>",
        ),
        (
            "drawBox(1,2,3,-4)",
            "<rect x=\"1\" y=\"-2\" width=\"3\" height=\"4\"/>",
        ),
        (
            "drawBox(10,2,-3,-2)",
            "<rect x=\"7\" y=\"0\" width=\"3\" height=\"2\"/>",
        ),
        // Whole numbers without wrapping.
        (
            "drawBox(-2147483648,0,-2147483648,0)",
            "<rect x=\"-4294967296\" y=\"0\" width=\"2147483648\" height=\"0\"/>",
        ),
        (
            "drawBox(0,-2147483648,0,-1)",
            "<rect x=\"0\" y=\"-2147483649\" width=\"0\" height=\"1\"/>",
        ),
        // The shape moved or scaled has a negative width still.
        (
            "drawBox(1,2,-3,4)>>10",
            "<rect x=\"8\" y=\"2\" width=\"3\" height=\"4\"/>",
        ),
        (
            "drawBox(1,2,-3,4)*2",
            "<rect x=\"-4\" y=\"4\" width=\"6\" height=\"8\"/>",
        ),
        (
            "drawTextOnShape(drawBox(0,0,-3,-5),\"a\")",
            "<text x=\"-1\" y=\"-2\">a</text>",
        ),
    ] {
        assert_eq!(drawn(&format!("w={expression};")), format!("{line}\n"));
    }
}

#[test]
fn centres() {
    for (shape, x, y) in [
        ("drawLine(0,0,3,5)", 1, 2),
        ("drawLine(-3,-5,0,0)", -1, -2),
        ("drawLine(-1,1,0,0)", 0, 0),
        // The exact sum, which has more than 32 bits.
        (
            "drawLine(2147483647,-2147483648,2147483647,-2147483648)",
            i32::MAX,
            i32::MIN,
        ),
        (
            "drawLine(2147483647,-2147483648,2147483646,-2147483647)",
            i32::MAX - 1,
            i32::MIN + 1,
        ),
        ("drawLine(2147483647,0,-2147483648,1)", 0, 0),
        ("drawBox(1,1,3,5)", 2, 3),
        ("drawBox(1,1,-3,3)", 0, 2),
        ("drawBox(-5,-5,3,-3)", -4, -6),
        // The sum wraps.
        ("drawBox(2147483647,-2147483648,3,-3)", i32::MIN, i32::MAX),
        (
            "drawBox(0,0,-2147483648,2147483647)",
            -1_073_741_824,
            1_073_741_823,
        ),
        ("drawEllipse(3,4,100,200)", 3, 4),
        ("drawText(3,4,\"abcdef\")", 3, 4),
    ] {
        assert_eq!(
            integer(&format!("getShapeXCoordinate({shape})")),
            x,
            "{shape}"
        );
        assert_eq!(
            integer(&format!("getShapeYCoordinate({shape})")),
            y,
            "{shape}"
        );
    }
}

#[test]
fn destroying_gives_none() {
    assert!(common::boolean("destroyShape(drawLine(1,2,3,4))==none"));
    assert!(common::boolean("clearScene()==none"));
}

#[test]
fn arguments_are_evaluated_left_to_right() {
    // The first error decides, also before one of the call.
    for (body, expected) in [
        ("drawLine(1/0,x);", "70@14 s5"),
        ("drawLine(x,1/0);", "50@14 s3"),
        ("clearScene(1/0);", "70@14 s5"),
        ("drawText(true,1,[-1]);", "40@14 s6"),
    ] {
        assert_eq!(short(&draw_body(body)), expected, "{body}");
    }
}
