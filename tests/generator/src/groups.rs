//! Short programs with groups: nested, shared, doubled, emptied by destroying,
//! destroyed while a foreach goes through them, kept in tables, handed to
//! procedures and back, compared, moved, used as keys and for centres.

use crate::procedures::{how_many, shuffled};
use crate::quiz::filled;
use crate::random::Random;
use crate::spacing::{write, Spacing};
use reference::token::{tokens, Kind};

/// Statements of main. Its variables a and b hold atoms, g and k groups, t a
/// table and i counts. The holes are those of `quiz`, and besides `<B>` a
/// body of a foreach, `<N>` a small number, `<V>` a variable of a foreach,
/// `<Q>` a group, most often one that is held, and `<Z>` what destroys.
const STATEMENTS: [&str; 74] = [
    // More and more in it.
    "g=drawGroup(g,a);",
    "g=drawGroup(g,<S>);",
    "g=drawGroup(a,g,b);",
    "g=drawGroup(g,k);",
    "g=drawGroup(g,g);",
    "g=drawGroup(<Q>,<Q>);",
    "k=g;",
    "i=0;while(i<<N>){g=drawGroup(g,<S>);i=i+1;}",
    "i=0;while(i<<N>){g=drawGroup(a,g);i=i+1;}",
    "i=0;while(i<<N>){g=drawGroup(g,g);i=i+1;}",
    "i=0;while(i<<N>){g=drawGroup(g,k);k=g;i=i+1;}",
    "i=0;while(i<<N>){t.i=drawGroup(<S>,<Q>);g=drawGroup(g,t.i);i=i+1;}",
    // 2 to the 40th places.
    "g=drawGroup();i=0;while(i<40){g=drawGroup(g,g);i=i+1;}foreach x in g do 1;g=none;",
    "g=drawGroup(a);i=0;while(i<40){g=drawGroup(g,g);i=i+1;}destroyShape(a);foreach x in g do 1;g=none;",
    "g=drawGroup(a,b);i=0;while(i<40){g=drawGroup(g,g);i=i+1;}foreach x in g do destroyShape(x);g=none;",
    "i=0;while(i<40){g=drawGroup(g,g);i=i+1;}",
    "i=0;while(i<40){g=drawGroup(g,g);i=i+1;}destroyShape(g);",
    // Listing 4 of document 002.
    "k=drawGroup();foreach x in g do k=drawGroup(k,x);k=(k+10)>>10;",
    // foreach.
    "foreach <V> in <Q> do <B>",
    "foreach <V> in <Q> do <B>",
    "foreach <V> in g do <B>",
    "foreach <V> in g do <B>",
    "foreach <V> in <Q> do{<B><B>}",
    "foreach <V> in g do foreach <V> in <Q> do <B>",
    "foreach <V> in <G> do foreach y in <Q> do foreach <V> in g do <B>",
    "foreach <V> in <L> do <B>",
    "foreach x in x do 1;",
    "foreach <V> in <Q> do 1;var x;",
    "t.1=<Q>;foreach <V> in t.1 do <B>",
    "foreach <V> in p(<Q>) do <B>",
    "foreach <V> in <Q><T><E> do <B>",
    "if(true)foreach <V> in <Q> do if(<V>==a)<B>",
    "while(true){foreach <V> in <Q> do <B>return 1;}",
    // Destroying.
    "destroyShape(<Q>);",
    "destroyShape(<Q>);<Q>;",
    "<Z>;",
    "<Z>;w=k;",
    "<Z>;h=drawGroup(g,k);",
    "k=g;destroyShape(k);w=g;",
    "drawGroup(<Q>,<Z>);",
    "drawGroup(a,<L>,<Z>);",
    "g<O><Z>;",
    "(g<T>1)<O><Z>;",
    "g=g;<Z>;g=g;",
    // Operators and equality.
    "w=<Q><T><E>;",
    "w=<Q><T><E>;h=w<T><E>;",
    "<Q><O><L>;",
    "<L><O><Q>;",
    "<Q>/0;",
    "<Z>;w=k<T><E>;",
    "<Z>;if(g==k)w=<S>;",
    "if(<Q>==<Q>)w=<S>;",
    "if(<Q>==<Q>)w=<S>;",
    "if(<Q>!=<Q>)w=<S>;",
    "if(g==(<Q>+0))w=<S>;",
    "if(g==g)w=<S>;",
    "if(<Q>==<S>)w=<S>;",
    // Keys, centres, tables.
    "t.<Q>;",
    "t.<Q>=<L>;",
    "t.<Q>=<Z>;",
    "t.g=1/0;",
    "t.<K>=<Q>;<Z>;w=t.<K>;",
    "t.<K>=g;t.1=t.<K>;destroyShape(t.1);g;",
    "t.1=<Q>;h=t.1<T><E>;",
    "drawLineConnectingShapes(<Q>,<S>);",
    "drawLineConnectingShapes(a,<Q>);",
    "drawTextOnShape(<Q>,\"a\");",
    "w=drawLine(getShapeXCoordinate(<Q>),getShapeYCoordinate(<Q>),0,0);",
    // Procedures.
    "w=p(<Q>);",
    "p(<Q>);",
    "w=drawGroup(p(g),p(k));",
    "q(<Q>,<Z>);",
    "w=q(<Q>,<Q>);",
    "w=r(<Q>,<N>);",
];

/// Bodies of a foreach.
const BODIES: [&str; 40] = [
    "1;",
    "1;",
    "x;",
    "y;",
    "{1;x;}",
    "destroyShape(x);",
    "destroyShape(x);",
    "{destroyShape(x);x;}",
    "destroyShape(g);",
    "destroyShape(k);",
    "destroyShape(a);",
    "<Z>;",
    "clearScene();",
    "if(x==a)destroyShape(b);",
    "if(x==a)return 1;",
    "if(x!=a)g=drawGroup(g,x);",
    "k=drawGroup(k,x);",
    "g=drawGroup(x,g);",
    "g=g+1;",
    "g=none;",
    "g=drawGroup();",
    "w=x;",
    "x=x>>1;",
    "x=1;",
    "return x;",
    "while(true)return x;",
    "var v;",
    "t.x=x;",
    "t.x=1;",
    "{t.x=g;destroyShape(x);}",
    "w=drawTextOnShape(x,\"a\");",
    "h=drawLine(getShapeXCoordinate(x),1,2,3);",
    "foreach y in g do 1;",
    "foreach x in g do x;",
    "foreach y in k do destroyShape(y);",
    "foreach y in g do if(x==y)destroyShape(x);",
    "foreach y in drawGroup(x,g) do y;",
    "p(x);",
    "k=drawGroup(k,p(x));",
    "{{if(x==y){return g;}}}",
];

/// Bodies of p, with a parameter x.
const ONE: [&str; 20] = [
    "return x;",
    "return drawGroup(x,x);",
    "return drawGroup(x);",
    "return drawGroup();",
    "foreach y in x do return y;",
    "foreach y in x do return drawGroup(y,x);",
    "destroyShape(x);",
    "destroyShape(x);return x;",
    "foreach y in x do destroyShape(y);return x;",
    "foreach y in x do 1;return y;",
    "foreach x in x do 1;return x;",
    "foreach y in x do clearScene();",
    "clearScene();return x;",
    "var s;s=x;return s;",
    "var s;s=x;destroyShape(s);return x;",
    "return x+1;",
    "return x*-2;",
    "var n;n=0;foreach y in x do n=n+1;return drawText(n,n,\"n\");",
    "foreach g in x do g;",
    "1;",
];

/// Bodies of q, with parameters x and y.
const TWO: [&str; 9] = [
    "return drawGroup(x,y);",
    "if(x==y)return x;return y;",
    "destroyShape(x);return y;",
    "foreach z in x do y=drawGroup(y,z);return y;",
    "foreach z in x do foreach u in y do if(z==u)return z;",
    "x=y;destroyShape(y);return x;",
    "foreach z in x do destroyShape(y);return x;",
    "foreach x in y do destroyShape(x);return drawGroup(y,y);",
    "return q(y,x);",
];

/// Bodies of r, with parameters x and n, which counts down.
const DOWN: [&str; 10] = [
    "if(n>0)return r(drawGroup(x,x),n-1);return x;",
    "if(n>0)return drawGroup(r(x,n-1),x);return x;",
    "if(n>0)foreach y in x do return r(drawGroup(y,x),n-1);return x;",
    "foreach y in x do if(n>0)r(x,n-1);",
    "if(n>0){foreach y in x do{return r(drawGroup(y),n-1);}}return x;",
    "if(n>0)foreach y in x do r(drawGroup(y,y),n-1);return x;",
    "if(n==0)clearScene();if(n>0)foreach y in x do r(x,n-1);return x;",
    "if(n==0)destroyShape(x);if(n>0)r(x,n-1);return x;",
    "foreach y in x do{if(n>0)r(x,n-1);y;}",
    "foreach y in x do{if(n>0)return r(x+1,n-1);destroyShape(y);}return x;",
];

/// A short program with groups.
pub fn program(random: &mut Random) -> Vec<u8> {
    let declared = match random.weighted(&[30, 20, 48, 2]) {
        0 => "",
        1 => "var y;",
        2 => "var x;var y;",
        _ => "x;",
    };
    let front = "var a;var b;var g;var k;var t;var i;a=<S>;b=<S>;g=<G>;k=<G>;t=[0];";
    let mut main = filled(&format!("{declared}{front}"), random);
    for _ in 0..random.between(1, 4) {
        let statement = *random.pick(&STATEMENTS);
        main.push_str(&whole(statement, random));
    }
    let mut all = vec![format!("def main(w,h){{{main}}}")];
    for (head, bodies) in [("p(x)", &ONE[..]), ("q(x,y)", &TWO), ("r(x,n)", &DOWN)] {
        let body = *random.pick(bodies);
        let body = whole(body, random);
        all.push(format!("def {head}{{{body}}}"));
    }
    if random.chance(15) {
        all.push("def drawGroup(x){return x;}".to_string());
    }
    let program = shuffled(all, random).concat().into_bytes();
    match random.chance(700) {
        true => program,
        false => spaced(&program, random),
    }
}

/// The same tokens with other white space.
fn spaced(program: &[u8], random: &mut Random) -> Vec<u8> {
    let Ok(found) = tokens(program) else {
        return program.to_vec();
    };
    // A minus stays with its digits.
    let mut texts: Vec<String> = Vec::new();
    let mut end = 0;
    for token in found {
        let text = String::from_utf8_lossy(token.spelling(program)).into_owned();
        match texts.last_mut() {
            Some(last) if last == "-" && end == token.start && token.kind == Kind::Digits => {
                last.push_str(&text);
            }
            _ => texts.push(text),
        }
        end = token.end;
    }
    write(&texts, Spacing::any(random), random)
}

/// A statement with all its holes filled, those of a foreach first.
fn whole(statement: &str, random: &mut Random) -> String {
    let mut text = statement.to_string();
    // A body may have a hole of its own.
    for _ in 0..4 {
        for (hole, choose) in HOLES {
            while let Some(at) = text.find(hole) {
                let by = choose(random);
                text.replace_range(at..at + hole.len(), &by);
            }
        }
    }
    // `quiz` takes what stands behind any `<` for a hole.
    let parts: Vec<String> = text.split("i<").map(|part| filled(part, random)).collect();
    parts.join("i<")
}

type Choose = fn(&mut Random) -> String;

const HOLES: [(&str, Choose); 5] = [
    ("<B>", |random| random.pick(&BODIES).to_string()),
    ("<N>", |random| match random.weighted(&[70, 20, 10]) {
        0 => random.below(6).to_string(),
        1 => random.between(6, 30).to_string(),
        _ => how_many(random).to_string(),
    }),
    ("<V>", |random| {
        let names = ["x", "y", "z", "a", "g", "w", "t"];
        names[random.weighted(&[75, 12, 3, 3, 3, 2, 2])].to_string()
    }),
    ("<Q>", |random| {
        let groups = ["g", "k", "<G>", "<H>", "drawGroup(g,k)", "a"];
        groups[random.weighted(&[40, 25, 15, 10, 8, 2])].to_string()
    }),
    ("<Z>", |random| {
        let destroying = [
            "destroyShape(g)",
            "destroyShape(g)",
            "destroyShape(k)",
            "destroyShape(a)",
            "destroyShape(a)",
            "destroyShape(b)",
            "clearScene()",
            "(destroyShape(g)==none)",
        ];
        random.pick(&destroying).to_string()
    }),
];
