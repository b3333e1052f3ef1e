//! Names, texts and constants that programs are made of.

use crate::random::Random;

/// Names for variables. Some differ by little, some look like reserved words
/// or are the names of procedures.
pub const NAMES: [&str; 34] = [
    "a",
    "b",
    "c",
    "d",
    "e",
    "x",
    "y",
    "z",
    "A",
    "B",
    "aa",
    "ab",
    "aB",
    "a1",
    "a11",
    "a01",
    "bar",
    "bars",
    "Bar",
    "scale",
    "vars",
    "iff",
    "If",
    "none0",
    "None",
    "trues",
    "define",
    "else",
    "main",
    "sin",
    "clearScene",
    "drawLine",
    "averylongnamethatgoesonforquitesometime0123456789",
    "Z9",
];

/// Names that only count loops.
pub const COUNTERS: [&str; 4] = ["i", "j", "k", "l"];

/// Texts of string constants, reserved words among them.
pub const TEXTS: [&str; 14] = [
    "a", "b", "A", "ab", "abc", "day", "none", "true", "def", "x1", "z", "hello", "a1b2c3", "kWh",
];

/// The library procedures with the kinds of their arguments: i for an
/// integer, t for a text, s for a shape. A group takes any number of these.
pub const LIBRARY: [(&str, &str); 11] = [
    ("drawLine", "iiii"),
    ("drawEllipse", "iiii"),
    ("drawBox", "iiii"),
    ("drawText", "iit"),
    ("destroyShape", "s"),
    ("drawLineConnectingShapes", "ss"),
    ("drawTextOnShape", "st"),
    ("getShapeXCoordinate", "s"),
    ("getShapeYCoordinate", "s"),
    ("clearScene", ""),
    ("drawGroup", "ss"),
];

/// Names that can be called but are no library procedures.
pub const UNKNOWN: [&str; 16] = [
    "sin",
    "cos",
    "tan",
    "arcsin",
    "arccos",
    "arctan",
    "eval",
    "instanceOf",
    "drawgroup",
    "forEach",
    "main",
    "foo",
    "drawline",
    "drawLines",
    "w",
    "getShapeZCoordinate",
];

/// Every operator.
pub const OPERATORS: [&str; 12] = [
    "++", "+", "-", "*", "/", "%", ">>", "<<", "==", "!=", ">", "<",
];

/// Every token but names, constants and strings.
pub const SIGNS_AND_WORDS: [&str; 33] = [
    "++", "+", "-", "*", "/", "%", ">>", "<<", "==", "!=", ">", "<", "=", ".", ",", ";", "(", ")",
    "[", "]", "{", "}", "def", "var", "if", "while", "foreach", "in", "do", "return", "none",
    "true", "false",
];

/// Integers at which something may change.
pub const EDGES: [i64; 26] = [
    0,
    1,
    -1,
    2,
    -2,
    7,
    -7,
    9,
    10,
    30,
    31,
    32,
    33,
    -31,
    -32,
    -33,
    64,
    255,
    32_767,
    46_341,
    65_536,
    -65_536,
    1_073_741_824,
    2_147_483_646,
    2_147_483_647,
    -2_147_483_648,
];

/// Keys of every kind that look alike. Few, so that they meet again.
pub const KEYS: [&str; 18] = [
    "0",
    "1",
    "-1",
    "01",
    "true",
    "false",
    "none",
    "\"none\"",
    "\"true\"",
    "\"a\"",
    "\"A\"",
    "w",
    "h",
    "a",
    "i",
    "[0]",
    "clearScene()",
    "\"abc\"",
];

/// Shapes that look alike.
pub const SHAPES: [&str; 10] = [
    "drawLine(1,2,3,4)",
    "drawLine(3,4,1,2)",
    "drawLine(1,2,1,2)",
    "drawEllipse(1,2,3,4)",
    "drawBox(1,2,3,4)",
    "drawBox(1,2,4,3)",
    "drawText(1,2,\"a\")",
    "drawText(1,2,\"ab\")",
    "drawText(1,2,\"a\"++\"b\")",
    "drawText(2,1,\"a\")",
];

/// Shapes with negative sizes, and those that their lines look like.
pub const BACKWARDS: [&str; 5] = [
    "drawBox(1,2,-3,4)",
    "drawBox(-2,2,3,4)",
    "drawBox(1,2,3,-4)",
    "drawEllipse(1,2,-3,4)",
    "drawEllipse(1,2,3,-4)",
];

/// Groups of no shape, of equal and of other shapes, in each other, and of
/// what the variables a and b hold.
pub const GROUPS: [&str; 16] = [
    "drawGroup()",
    "drawGroup(drawLine(1,2,3,4))",
    "drawGroup(drawLine(1,2,3,4),drawText(1,2,\"a\"))",
    "drawGroup(drawText(1,2,\"a\"),drawLine(1,2,3,4))",
    "drawGroup(drawGroup())",
    "drawGroup(drawGroup(),drawGroup())",
    "drawGroup(drawGroup(drawLine(1,2,3,4)))",
    "drawGroup(drawLine(1,2,3,4),drawGroup(drawText(1,2,\"a\")))",
    "drawGroup(drawGroup(drawLine(1,2,3,4)),drawText(1,2,\"a\"))",
    "drawGroup(a)",
    "drawGroup(a,a)",
    "drawGroup(a,b)",
    "drawGroup(b,drawGroup(a,b),a)",
    "drawGroup(drawGroup(drawGroup(),a),b)",
    "drawGroup(drawGroup(a,b),drawGroup(a,b))",
    "drawGroup(drawLine(1,2,3,4),a,drawGroup(drawGroup(b)),drawGroup())",
];

/// One expression of each kind, for pairs that may not go together.
pub const LITERALS: [&str; 14] = [
    "0",
    "1",
    "-1",
    "-2147483648",
    "true",
    "\"a\"",
    "none",
    "[0]",
    "drawLine(1,2,3,4)",
    "drawEllipse(1,2,3,4)",
    "drawBox(-2147483648,2147483647,3,4)",
    "drawText(1,2,\"a\")",
    "drawGroup()",
    "drawGroup(drawLine(1,2,3,4),drawGroup())",
];

/// Operations on integers in which something special happens.
pub const SPECIAL: [&str; 16] = [
    "-2147483648/-1",
    "-2147483648%-1",
    "-2147483648*-1",
    "-2147483648-1",
    "2147483647+1",
    "-7/2",
    "-7%2",
    "7/-2",
    "7%-2",
    "-7>>1",
    "-1>>31",
    "1<<31",
    "1<<-1",
    "7<<33",
    "-8>>-31",
    "-2147483648>>32",
];

/// An integer at which something may change.
pub fn edge(random: &mut Random) -> String {
    random.pick(&EDGES).to_string()
}

/// A constant within its range, small ones more often. A minus stays with
/// its digits.
pub fn constant(random: &mut Random) -> String {
    let value = match random.weighted(&[60, 12, 18, 4, 6]) {
        0 => random.below(21) as i64,
        1 => -(random.between(1, 20) as i64),
        2 => *random.pick(&EDGES),
        3 => i64::from(random.bits() as i32),
        _ => random.below(1_000) as i64,
    };
    if !random.chance(30) {
        return value.to_string();
    }
    let zeros = "0".repeat(random.between(1, 12));
    let minus = if value < 0 || random.chance(200) {
        "-"
    } else {
        ""
    };
    format!("{minus}{zeros}{}", value.abs())
}

/// A string constant with its quotes.
pub fn string(random: &mut Random) -> String {
    if random.chance(30) {
        let length = random.between(20, 60);
        return format!("\"{}\"", "q".repeat(length));
    }
    format!("\"{}\"", random.pick(&TEXTS))
}

/// A constant outside its range.
pub fn too_large(random: &mut Random) -> String {
    let text: &&str = random.pick(&[
        "2147483648",
        "-2147483649",
        "4294967296",
        "4294967295",
        "9999999999",
        "99999999999999999999999999",
        "-18446744073709551616",
        "0000000000002147483648",
        "18446744073709551617",
    ]);
    text.to_string()
}

/// Any one token.
pub fn token(random: &mut Random) -> String {
    match random.weighted(&[55, 20, 12, 8, 1, 4]) {
        0 => random.pick(&SIGNS_AND_WORDS).to_string(),
        1 => random.pick(&NAMES).to_string(),
        2 => constant(random),
        3 => string(random),
        4 => too_large(random),
        _ => random.pick(&LIBRARY).0.to_string(),
    }
}
