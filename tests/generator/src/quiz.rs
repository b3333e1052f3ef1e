//! Short programs that put one rule or two to the question: operators on any
//! pair of kinds, keys that look alike, shapes destroyed while something
//! waits for them, calls with any arguments.

use crate::random::Random;
use crate::words::{edge, GROUPS, KEYS, LIBRARY, LITERALS, OPERATORS, SHAPES, SPECIAL, UNKNOWN};

/// Statements with holes, which are letters in angle brackets. The variables
/// a and b hold shapes, t a table.
const STATEMENTS: [&str; 50] = [
    "<L>/0;",
    "<L>%0;",
    "<S>%<E>;",
    "true<O>true;",
    "<L><O><L>;",
    "<L><O><L>;",
    "w=<L><O><L>;",
    "<E><O><E>;",
    "w=drawLine(<I>,<E>,<I>,0);",
    "w=drawLine(<E><A><E>,<E><A><E>,<E><A><E>,0);",
    "w=<S><A><E>;",
    "w=<P><A><E>;",
    "w=<P><M><E>;h=w<M><E>;",
    "w=<P>;if((w<M><E>)==w)h=drawTextOnShape(w<M><E>,\"same\");",
    "if(<S>==<S>)w=drawLine(1,2,3,4);",
    "if(<S>!=<S>)w=drawLine(1,2,3,4);",
    "if(<L>==<L>)h=drawText(5,6,\"yes\");",
    "if(<L>!=<L>)h=drawText(5,6,\"yes\");",
    "if(a==b)h=drawText(5,6,\"yes\");",
    "t.<K>=1;t.<K>=2;h=drawBox(t.<K>,t.<K>,0,0);",
    "t.<S>=1;t.<S>=2;h=drawBox(t.<S>,0,0,0);",
    "t.<K>=<L>;w=t.<K>;",
    "t.<K>;",
    "t.<S>;",
    "t.t=<L>;w=t.t;",
    "b=[0];b.t=1;b.b=2;w=drawLine(b.t,b.b,0,0);",
    "a<O><D>;",
    "a<O><D>;",
    "(a<O><E>)<O><D>;",
    "<D><O>a;",
    "<F>(a,<D>);",
    "<F>(a,<D>,<L>);",
    "<F>(<L>,a,<D>,<L>);",
    "<F>(<D>,a);",
    "<F>(a+0,<D>);",
    "t.a=<D>;",
    "t.a=1;<D>;h=drawLine(t.<S>,0,0,0);",
    "t.<K>=a;<D>;t.<K>;",
    "t.<K>=a;<D>;t.<K>=1;",
    "t.<K>=a;a=<S>;<D>;w=t.<K>;",
    "t.<D>=a;w=t.none;",
    "t.none=a;t.<D>;",
    "[<L>];",
    "[<E>];",
    "if(<L>)1;",
    "while(<L>)return 1;",
    "<L>.<K>;",
    "<L>.<K>=<L>;",
    "<F>(<L>,<L>,<L>,<L>);",
    "<F>();<F>(<L>);<F>(<L>,<L>);",
];

/// Statements that end in a shape made from others.
const DRAWINGS: [&str; 8] = [
    "w=drawLineConnectingShapes(<S>,<P>);",
    "w=drawLineConnectingShapes(<P>,<P>);",
    "w=drawTextOnShape(<P>,\"x\"++\"y\");",
    "w=drawLine(getShapeXCoordinate(<P>),getShapeYCoordinate(<P>),0,0);",
    "w=<P>;h=w<A><E>;",
    "w=a;h=w;destroyShape(w);",
    "w=drawText(<E>,<E>,\"a\");clearScene();h=drawBox(<E>,1,2,<E>);",
    "a=<P>;t.1=a;a=t.1;b=a;",
];

/// A short program.
pub fn program(random: &mut Random) -> Vec<u8> {
    let mut text = "def main(w,h){".to_string();
    let front = "var a;var b;var t;a=<S>;b=<S>;t=[0];";
    text.push_str(&filled(front, random));
    for _ in 0..random.between(1, 3) {
        let statement = if random.chance(200) {
            *random.pick(&DRAWINGS)
        } else {
            *random.pick(&STATEMENTS)
        };
        text.push_str(&filled(statement, random));
    }
    text.push('}');
    text.into_bytes()
}

/// A statement with its holes filled.
pub fn filled(statement: &str, random: &mut Random) -> String {
    let mut text = String::new();
    let mut rest = statement;
    while let Some(start) = rest.find('<') {
        text.push_str(&rest[..start]);
        text.push_str(&hole(&rest[start + 1..start + 2], random));
        rest = &rest[start + 3..];
    }
    text.push_str(rest);
    text
}

fn hole(letter: &str, random: &mut Random) -> String {
    match letter {
        // A literal of any kind.
        "L" => random.pick(&LITERALS).to_string(),
        "O" => random.pick(&OPERATORS).to_string(),
        // An operator of integers.
        "A" => random
            .pick(&["+", "-", "*", "/", "%", ">>", "<<"])
            .to_string(),
        // An operator of a shape and an integer.
        "T" => random.pick(&["+", "-", "*", "/", ">>", "<<"]).to_string(),
        // An operator that scales.
        "M" => random.pick(&["*", "/"]).to_string(),
        "I" => random.pick(&SPECIAL).to_string(),
        "E" => edge(random),
        "K" => random.pick(&KEYS).to_string(),
        "S" => random.pick(&SHAPES).to_string(),
        // A group; those of what a and b hold come last.
        "G" => random.pick(&GROUPS).to_string(),
        "H" => random.pick(&GROUPS[..9]).to_string(),
        // A shape at the edges.
        "P" => {
            let name = *random.pick(&["drawLine", "drawEllipse", "drawBox"]);
            let numbers: Vec<String> = (0..4).map(|_| edge(random)).collect();
            format!("{name}({})", numbers.join(","))
        }
        // Something that destroys a.
        "D" => random
            .pick(&[
                "destroyShape(a)",
                "clearScene()",
                "(destroyShape(a)==none)",
                "[getShapeXCoordinate(a)]",
                "destroyShape(b)",
            ])
            .to_string(),
        // A procedure.
        _ if random.chance(150) => random.pick(&UNKNOWN).to_string(),
        _ => random.pick(&LIBRARY).0.to_string(),
    }
}
