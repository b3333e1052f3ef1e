//! Short programs with procedures of their own: recursion up to the last call
//! and beyond, shapes handed over, handed back and destroyed on the way,
//! wrong numbers of arguments, names that are defined twice.

use crate::quiz::filled;
use crate::random::Random;
use crate::words::LIBRARY;

/// Statements of main. Its variables a and b hold shapes, t a table.
const STATEMENTS: [&str; 48] = [
    "f(a,<D>);",
    "f(<D>,a);",
    "f(<L>,<L>);",
    "f(a,b);",
    "w=f(a,b);",
    "w=f(<S>,<S>);",
    "f(a);",
    "f();",
    "f(a,b,t);",
    "f(a,<D>,1);",
    "f(g(a),<D>);",
    "f(g(a),g(b));",
    "f(f(a,b),f(b,a));",
    "w=g(<L>);",
    "w=g(a);destroyShape(w);a;",
    "w=g(a)<O><L>;",
    "w=g(a)<O><E>;",
    "g(a)<O><D>;",
    "g(a)==g(b);",
    "if(g(a)==a)h=drawText(5,6,\"yes\");",
    "g(g(g(a)));",
    "g(x);",
    "g(a,<D>);",
    "drawLineConnectingShapes(g(a),g(b));",
    "drawTextOnShape(g(a),<D>);",
    "t.<K>=g(a);<D>;w=t.<K>;",
    "t.g(a)=<D>;",
    "t.<K>=a;k(t);<D>;",
    "t.<K>=a;w=k(t);w;",
    "t.<K>=a;k(t)<O><D>;",
    "t.<K>=<S>;destroyShape(k(t));t.<K>;",
    "w=t;k(w);t.<K>;",
    "d(<N>);",
    "w=d(<N>);",
    "d(<N>);d(<N>);",
    "g(d(<N>));",
    "d(d(<N>));",
    "d(<N>)==d(<N>);",
    "f(d(<N>),d(<N>));",
    "c(<N>);",
    "e(1,2);",
    "e(a,<D>);",
    "e(1);",
    "if(false)e(1,2);",
    "main(w,h);",
    "f(main(1),2);",
    "if(g(<L>))1;",
    "while(g(<L>))return 1;",
];

/// Bodies of f, with parameters x and y.
const TWO: [&str; 18] = [
    "1;",
    "return x;",
    "return y;",
    "x=y;return x;",
    "y=x;destroyShape(x);return y;",
    "destroyShape(x);return x;",
    "clearScene();",
    "clearScene();return x;",
    "var a;a=x;return a;",
    "var x;",
    "a;",
    "return x<O>y;",
    "if(x==y)return x;",
    "return g(x);",
    "return f(y,x);",
    "g(x);return g(y);",
    "x=drawBox(1,2,3,4);return x>>y;",
    "{{if(true){return x;}}}",
];

/// Bodies of g, with a parameter x.
const ONE: [&str; 18] = [
    "return x;",
    "1;",
    "return x+1;",
    "return x>>1;",
    "var s;s=x;return s;",
    "var s;s=x;destroyShape(x);return s;",
    "destroyShape(x);return x;",
    "destroyShape(x);",
    "clearScene();",
    "clearScene();return x;",
    "return clearScene();",
    "return g(x);",
    "g(x);",
    "while(true){return x;}",
    "var x;",
    "t;",
    "return x.<K>;",
    "if(x==none)return 1;return f(x,x);",
];

/// Bodies of k, with a parameter t.
const TABLE: [&str; 9] = [
    "return t.<K>;",
    "t.<K>=<S>;return t.<K>;",
    "t=[0];return t;",
    "destroyShape(t.<K>);",
    "t.<K>=t;return t;",
    "var s;s=t.<K>;return s;",
    "var s;s=t.<K>;destroyShape(s);return t.<K>;",
    "clearScene();return t.<K>;",
    "t.t=<L>;",
];

/// Bodies of d, which counts its parameter n down; c is another such.
const DOWN: [&str; 18] = [
    "if(n>0)return d(n-1);return 1;",
    "if(n>0)d(n-1);",
    "if(n==0)return 0;return c(n-1);",
    "if(n==0)return <L>;return c(n-1);",
    "while(n>0){d(n-1);n=0;}",
    "if(n>0){var s;s=<S>;d(n-1);s;}",
    "if(n==0)clearScene();if(n>0){var s;s=<S>;d(n-1);s;}",
    "if(n>0){var s;s=<S>;d(n-1);return s;}return <S>;",
    "if(n>0){n=d(n-1);return n;}return <S>;",
    "if(n>0)return [d(n-1)];return 0;",
    "if(n>0)return 1+d(n-1);return 0;",
    "if(n>0)return d(d(n-1));return 0;",
    "if(n>0)return f(n,d(n-1));return 0;",
    "if(n>0)return f(<S>,c(n-1));return <S>;",
    "if(n>0){f(n,1);g(n);d(n-1);}",
    "if(n>0)\"a\"++d(n-1);return \"b\";",
    "d(n);",
    "c(n);d(n-1);",
];

/// A short program with several procedures.
pub fn program(random: &mut Random) -> Vec<u8> {
    let front = "var a;var b;var t;a=<S>;b=<S>;t=[0];";
    let mut main = filled(front, random);
    for _ in 0..random.between(1, 3) {
        let statement = *random.pick(&STATEMENTS);
        main.push_str(&with_numbers(statement, random));
    }
    let mut all = vec![format!("def main(w,h){{{main}}}")];
    for (head, bodies) in [
        ("f(x,y)", &TWO[..]),
        ("g(x)", &ONE),
        ("k(t)", &TABLE),
        ("d(n)", &DOWN),
        ("c(n)", &DOWN),
        ("e(x,x)", &ONE),
    ] {
        let body = *random.pick(bodies);
        let body = filled(body, random);
        all.push(format!("def {head}{{{body}}}"));
    }
    match random.weighted(&[900, 50, 10]) {
        0 => {}
        1 => all.push(doubled(random)),
        _ => {
            all.remove(0);
        }
    }
    if random.chance(40) {
        all.remove(random.below(all.len()));
    }
    shuffled(all, random).concat().into_bytes()
}

/// A procedure whose name another one or the library has.
fn doubled(random: &mut Random) -> String {
    match random.below(3) {
        0 => "def main(w,h){1;}".to_string(),
        1 => format!("def {}(x){{1;}}", random.pick(&LIBRARY).0),
        _ => format!("def {}(){{1;}}", random.pick(&["f", "g", "k", "d", "c"])),
    }
}

/// The same in another order.
pub fn shuffled<T>(mut items: Vec<T>, random: &mut Random) -> Vec<T> {
    let mut left = Vec::new();
    while !items.is_empty() {
        left.push(items.swap_remove(random.below(items.len())));
    }
    left
}

/// A statement whose holes `<N>` are numbers of calls, most of them small or
/// around the most that can be under way.
fn with_numbers(statement: &str, random: &mut Random) -> String {
    let mut text = String::new();
    for (place, part) in statement.split("<N>").enumerate() {
        if place > 0 {
            text.push_str(&how_many(random).to_string());
        }
        text.push_str(part);
    }
    filled(&text, random)
}

/// How often something calls itself.
pub fn how_many(random: &mut Random) -> usize {
    match random.weighted(&[60, 25, 15]) {
        0 => random.below(8),
        1 => random.between(59, 66),
        _ => random.between(8, 70),
    }
}
