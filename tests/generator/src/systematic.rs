//! Small programs that go through all combinations: operators and kinds,
//! integers at the edges, keys, library procedures and their arguments,
//! procedures of the program's own, groups.

use crate::words::{BACKWARDS, EDGES, GROUPS, LIBRARY, LITERALS, OPERATORS, SHAPES, UNKNOWN};

/// All of them, always in the same order.
pub fn programs() -> Vec<Vec<u8>> {
    let mut bodies = Vec::new();
    bodies.extend(operators());
    bodies.extend(equal_shapes());
    bodies.extend(integers());
    bodies.extend(moved_shapes());
    bodies.extend(scaled_sizes());
    bodies.extend(centres());
    bodies.extend(sizes());
    bodies.extend(keys());
    bodies.extend(calls());
    bodies.extend(equal_groups());
    bodies.extend(moved_groups());
    bodies.extend(loops());
    bodies.extend(used_groups());
    let whole = |body: &String| format!("def main(w,h){{{body}}}").into_bytes();
    let mut programs: Vec<Vec<u8>> = bodies.iter().map(whole).collect();
    programs.extend(own_calls());
    programs.extend(names_twice());
    programs
}

/// Every operator on every pair of literals, so that the result shows.
fn operators() -> Vec<String> {
    let mut bodies = Vec::new();
    for operator in OPERATORS {
        for left in LITERALS {
            for right in LITERALS {
                let pair = format!("{left}{operator}{right}");
                bodies.push(match operator {
                    "==" | "!=" | "<" | ">" => format!("if({pair})h=drawLine(1,2,3,4);"),
                    "++" => format!("h=drawText(1,2,{pair});"),
                    _ => format!("var v;v={pair};if(v!=none)h=drawLine(v,1,2,3);"),
                });
            }
        }
    }
    bodies
}

fn equal_shapes() -> Vec<String> {
    let mut bodies = Vec::new();
    for left in SHAPES.iter().chain(&BACKWARDS) {
        for right in SHAPES.iter().chain(&BACKWARDS) {
            bodies.push(format!(
                "var a;var b;a={left};b={right};if(a==b)h=drawLine(1,2,3,4);if(a!=b)w=a;"
            ));
        }
    }
    bodies
}

/// As many drawings as there are groups of four values.
fn drawn(values: &[String]) -> String {
    let mut body = String::new();
    for (place, group) in values.chunks(4).enumerate() {
        let mut four = group.to_vec();
        four.resize(4, "0".to_string());
        body.push_str(&format!(
            "var v{place};v{place}=drawLine({});",
            four.join(",")
        ));
    }
    body
}

/// Every operator of integers on every pair of edges.
fn integers() -> Vec<String> {
    let mut bodies = Vec::new();
    for operator in ["+", "-", "*", "/", "%", ">>", "<<"] {
        for left in EDGES {
            let values: Vec<String> = EDGES
                .iter()
                .filter(|right| **right != 0 || !matches!(operator, "/" | "%"))
                .map(|right| format!("{left}{operator}{right}"))
                .collect();
            bodies.push(drawn(&values));
        }
    }
    bodies
}

/// Every operator on a shape of each kind, by every edge.
fn moved_shapes() -> Vec<String> {
    let mut bodies = Vec::new();
    for operator in ["+", "-", "*", "/", ">>", "<<"] {
        for by in EDGES {
            bodies.push(format!(
                "var a;a=drawLine(-7,2147483647,-2147483648,9){operator}{by};\
                 var b;b=drawEllipse(-2147483648,7,-3,4){operator}{by};\
                 var c;c=drawBox(2147483647,-9,5,-6){operator}{by};\
                 var d;d=drawText(65536,-1,\"x\"){operator}{by};"
            ));
        }
    }
    bodies
}

/// Every edge as a width, a height or a radius, multiplied and divided by
/// every edge. Each body has all sizes for one number, so that 0 divides only
/// in bodies of its own.
fn scaled_sizes() -> Vec<String> {
    let mut bodies = Vec::new();
    for operator in ["*", "/"] {
        for by in EDGES {
            let mut body = String::new();
            for (place, size) in EDGES.iter().enumerate() {
                let other = EDGES[(place + 1) % EDGES.len()];
                body.push_str(&format!(
                    "var b{place};b{place}=drawBox(1,-2,{size},{other}){operator}{by};\
                     var e{place};e{place}=drawEllipse(-1,2,{size},{other}){operator}{by};"
                ));
            }
            bodies.push(body);
        }
    }
    bodies
}

/// The centres of lines and boxes between all pairs of edges.
fn centres() -> Vec<String> {
    let mut bodies = Vec::new();
    for first in EDGES {
        let mut values = Vec::new();
        for second in EDGES {
            values.push(format!(
                "getShapeXCoordinate(drawLine({first},0,{second},0))"
            ));
            values.push(format!(
                "getShapeYCoordinate(drawLine(0,{first},0,{second}))"
            ));
            values.push(format!(
                "getShapeXCoordinate(drawBox({first},0,{second},0))"
            ));
            values.push(format!(
                "getShapeYCoordinate(drawBox(0,{first},0,{second}))"
            ));
        }
        bodies.push(drawn(&values));
        bodies.push(format!(
            "h=drawLineConnectingShapes(drawEllipse({first},1,2,3),drawText(4,{first},\"a\"));\
             w=drawTextOnShape(drawBox({first},{first},{first},{first}),\"b\");"
        ));
    }
    bodies
}

/// Boxes and ellipses with every edge as place and every edge as size.
fn sizes() -> Vec<String> {
    let mut bodies = Vec::new();
    for first in EDGES {
        let mut body = String::new();
        for (place, second) in EDGES.iter().enumerate() {
            body.push_str(&format!(
                "var a{place};a{place}=drawBox({first},{second},{second},{first});\
                 var b{place};b{place}=drawEllipse({first},{second},{second},{first});"
            ));
        }
        bodies.push(body);
    }
    bodies
}

/// Every pair of keys in one table.
fn keys() -> Vec<String> {
    let mut all: Vec<&str> = vec![
        "0", "1", "-1", "true", "false", "none", "\"none\"", "\"true\"", "\"a\"", "t", "u", "[0]",
        "a",
    ];
    all.extend(SHAPES);
    all.extend(BACKWARDS);
    let mut bodies = Vec::new();
    for first in &all {
        for second in &all {
            bodies.push(format!(
                "var t;t=[0];var u;u=[0];var a;a=drawBox(1,2,3,4);\
                 t.{first}=1;t.{second}=2;h=drawLine(t.{second},t.{first},0,0);"
            ));
        }
    }
    bodies
}

/// Every procedure with the right arguments, one of another kind, one too
/// few, one too many, and one destroyed before the call.
fn calls() -> Vec<String> {
    let mut bodies = Vec::new();
    for (name, kinds) in LIBRARY {
        let right: Vec<&str> = kinds
            .chars()
            .map(|kind| match kind {
                'i' => "7",
                't' => "\"ab\"",
                _ => "b",
            })
            .collect();
        let mut lists = vec![right.clone()];
        for place in 0..=right.len() {
            for other in LITERALS {
                let mut more = right.clone();
                more.insert(place, other);
                lists.push(more);
                let mut changed = right.clone();
                if let Some(argument) = changed.get_mut(place) {
                    *argument = other;
                    lists.push(changed);
                }
            }
            let mut fewer = right.clone();
            if place < right.len() {
                fewer.remove(place);
                lists.push(fewer);
            }
            for destroying in ["destroyShape(a)", "clearScene()"] {
                let mut destroyed = right.clone();
                destroyed.insert(place, destroying);
                destroyed.insert(0, "a");
                lists.push(destroyed);
                let mut destroyed = right.clone();
                if let Some(argument) = destroyed.get_mut(place) {
                    *argument = destroying;
                    lists.push(destroyed);
                }
            }
        }
        for list in lists {
            bodies.push(format!(
                "var a;a=drawBox(1,2,3,4);var b;b=drawLine(5,6,7,8);w={name}({});",
                list.join(",")
            ));
        }
    }
    for name in UNKNOWN {
        for list in ["", "1", "a", "a,destroyShape(a)", "x", "1,2,3,4"] {
            bodies.push(format!("var a;a=drawBox(1,2,3,4);{name}({list});"));
        }
    }
    bodies
}

/// A procedure with 0 to 3 parameters, of different names or two alike, that
/// uses one of them or none, called with 0 to 3 arguments, of which one may be
/// destroyed on the way: from main, and where 63 or 64 calls are under way.
fn own_calls() -> Vec<Vec<u8>> {
    let parameters = ["", "x", "x,y", "x,x", "x,y,z", "x,y,x"];
    let bodies = [
        "1;",
        "return x;",
        "x=<S>;return x;",
        "destroyShape(x);return y;",
    ];
    let arguments = [
        "",
        "a",
        "1",
        "u",
        "a,b",
        "a,destroyShape(a)",
        "a,clearScene()",
        "destroyShape(a),a",
        "drawBox(1,2,3,4),a,destroyShape(a)",
        "1,a,f(1,2,3)",
        "a,b,t",
    ];
    let mut programs = Vec::new();
    for parameters in parameters {
        for body in bodies {
            let body = body.replace("<S>", "drawBox(5,6,7,8)");
            for arguments in arguments {
                let own = format!("def f({parameters}){{{body}}}");
                let statements = format!(
                    "var a;var b;var t;a=drawBox(1,2,3,4);b=drawLine(1,2,3,4);t=[0];a=f({arguments});"
                );
                programs.push(format!("{own}def main(w,h){{{statements}}}"));
                for calls in [61, 62, 63] {
                    programs.push(format!(
                        "def main(w,h){{r({calls});}}{own}def r(n){{if(n>0)return r(n-1);{statements}}}"
                    ));
                }
            }
        }
    }
    programs.into_iter().map(String::into_bytes).collect()
}

/// Every pair of names defined in one program, before main and behind it, and
/// each called.
fn names_twice() -> Vec<Vec<u8>> {
    let mut names = vec!["f", "g", "main", "w", "x", "drawbox"];
    names.extend(LIBRARY.map(|(name, _)| name));
    names.extend(UNKNOWN);
    let mut programs = Vec::new();
    for first in &names {
        for second in &names {
            programs.push(format!(
                "def {first}(x){{return x;}}def {second}(x){{1;}}def main(w,h){{w={second}(w);}}"
            ));
        }
        programs.push(format!(
            "def main(w,h){{w={first}(1);}} def {first}(x){{return x;}}"
        ));
        programs.push(format!("def {first}(w,h){{1;}} def {first}(w,h){{2;}}\n"));
        programs.push(format!("def {first}(w,h){{1;}}\t"));
    }
    programs.into_iter().map(String::into_bytes).collect()
}

/// What the variables a and b hold where groups are made of them.
const AB: &str = "var a;a=drawBox(1,2,3,4);var b;b=drawText(1,2,\"a\");";

/// What happens to some of a group before it is used.
const BEFORE: [&str; 6] = [
    "",
    "destroyShape(a);",
    "destroyShape(b);",
    "destroyShape(g);",
    "clearScene();",
    "foreach x in g do destroyShape(x);",
];

/// Every group with every group, whole and with something destroyed.
fn equal_groups() -> Vec<String> {
    let mut bodies = Vec::new();
    for left in GROUPS {
        for right in GROUPS {
            for before in ["", "destroyShape(a);", "destroyShape(a);destroyShape(b);"] {
                bodies.push(format!(
                    "{AB}var g;g={left};h={right};{before}if(g==h)w=drawLine(1,2,3,4);if(h!=g)w=g;"
                ));
            }
        }
    }
    bodies
}

/// Every operator on every group, by some edges, whole and with something
/// destroyed.
fn moved_groups() -> Vec<String> {
    let mut bodies = Vec::new();
    for group in GROUPS {
        for operator in OPERATORS {
            for by in ["0", "1", "-3", "2147483647", "none", "true", "a"] {
                let before = BEFORE[(bodies.len() / 3) % 3];
                bodies.push(format!("{AB}var g;g={group};{before}w=g{operator}{by};"));
            }
        }
        for before in BEFORE {
            bodies.push(format!("{AB}var g;g={group};{before}w=(g*2)>>1;h=w-1;"));
        }
    }
    bodies
}

/// A loop over every group, with a variable that is declared and one that is
/// not, and bodies that change what it goes through.
fn loops() -> Vec<String> {
    let bodies = [
        "1;",
        "{x;h=x;}",
        "destroyShape(x);",
        "destroyShape(g);",
        "destroyShape(b);",
        "clearScene();",
        "g=drawGroup(g,x);",
        "return x;",
        "x=1;",
        "foreach y in g do 1;",
        "foreach x in g do destroyShape(x);",
        "foreach y in g do if(x==y)destroyShape(x);",
        "a=x;",
    ];
    let mut all = Vec::new();
    for group in GROUPS {
        for body in bodies {
            for declared in ["", "var x;"] {
                all.push(format!(
                    "{AB}{declared}var g;g={group};foreach x in g do {body}"
                ));
                all.push(format!(
                    "{AB}{declared}var g;g={group};foreach x in drawGroup(g,b,g) do {body}"
                ));
            }
        }
        for before in BEFORE {
            all.push(format!(
                "{AB}var g;g={group};h=g;{before}foreach x in h do w=x;x;"
            ));
        }
    }
    for literal in LITERALS {
        all.push(format!("foreach x in {literal} do 1;x;"));
        all.push(format!("var x;foreach x in {literal} do x;"));
    }
    all
}

/// Every group where a key, a centre, a parameter or an entry is due, and
/// destroyed there.
fn used_groups() -> Vec<String> {
    let mut bodies = Vec::new();
    for group in GROUPS {
        for (at, used) in [
            "t.g;",
            "t.g=1;",
            "t.g=1/0;",
            "t.g=destroyShape(g);",
            "getShapeXCoordinate(g);",
            "drawTextOnShape(g,\"a\");",
            "drawLineConnectingShapes(a,g);",
            "drawLineConnectingShapes(g,destroyShape(g));",
            "drawGroup(g,destroyShape(g));",
            "g+destroyShape(g);",
            "g==destroyShape(g);",
            "t.1=g;destroyShape(t.1);g;",
            "t.1=g;clearScene();t.1;",
            "h=g;destroyShape(h);w=g;",
            "w=drawGroup(g,g);destroyShape(w);a;",
            "w=drawGroup(a,g);h=w;",
        ]
        .into_iter()
        .enumerate()
        {
            let before = BEFORE[at % 3];
            bodies.push(format!("{AB}var t;t=[0];var g;g={group};{used}"));
            bodies.push(format!("{AB}var t;t=[0];var g;g={group};{before}{used}"));
        }
    }
    bodies
}
