//! Cases that use much of what can be granted. They are few, and slow.

use crate::Case;
use reference::{Grants, Operation};

/// All of them, always in the same order.
pub fn cases() -> Vec<Case> {
    let mut all = Vec::new();
    let largest = Grants {
        steps: 1_500_000,
        ..Grants::LARGEST
    };
    let whole = |body: String| format!("def main(w,h){{{body}}}");
    let programs = bodies().into_iter().chain(groups()).map(whole);
    let programs = programs.chain(recursions());
    for program in programs {
        for (grants, out_length) in [
            (largest, 0),
            (largest, 65_536),
            (reference::sheet::GRANTS, 65_536),
        ] {
            all.push(Case {
                operation: Operation::Draw,
                width: 960,
                height: 9_999,
                grants,
                out_length,
                program: program.clone().into_bytes(),
            });
        }
    }
    all
}

fn bodies() -> Vec<String> {
    let mut all: Vec<String> = [
        // Steps: about 900,000, and without an end.
        "var i;var s;i=0;s=1;while(i<64000){s=(s*31)+(i%7);i=i+1;}w=drawLine(s,i,0,0);",
        "while(true)1;",
        "while(true)clearScene();",
        // Shapes: 4,000, as many as can be, and one more.
        "var i;i=0;while(i<2000){h=drawBox(i*10,0,8,i);i=i+1;}",
        "var i;i=0;w=drawEllipse(1,2,3,4);while(i<65533){w>>1;i=i+1;}",
        "var i;i=0;w=drawEllipse(1,2,3,4);while(i<65534){w>>1;i=i+1;}",
        "w=drawLine(1,2,3,4);while(true)w=(w+1)>>2;",
        // Entries: as many as can be, and one more, with keys of all kinds.
        "var i;i=0;w=[0];while(i<65535){w.i=i;i=i+1;}h=drawLine(w.0,w.65534,0,0);",
        "var i;i=0;w=[0];while(i<65536){w.i=i;i=i+1;}",
        "var i;i=0;w=[0];while(true){w.drawBox(i,1,2,i)=i;i=i+1;}",
        "var i;i=0;w=[0];while(true){w.[i]=i;i=i+1;}",
        "var t;t=[0];while(true){t.0=t;w=[0];w.0=t;t=w;}",
        // Keys of all kinds in one table, written twice and read back into a sum that shows.
        "w=[0];var i;i=0;while(i<3000){w.i=i;w.(i*65536)=i+1;w.(0-i)=i+2;w.drawLine(i,0,0,i)=i+3;w.drawText(i,0,\"a\")=i+4;w.i=i*3;i=i+1;}\
         var s;s=0;i=0;while(i<3000){s=(s*31)+(w.i+w.(i*65536));s=(s*31)+w.(0-i);s=(s*31)+w.drawLine(i,0,0,i);s=(s*31)+w.drawText(i,0,\"a\");i=i+1;}\
         h=drawBox(s,i,w.0,w.2999);",
        // Tables in tables, as values and as keys, read back.
        "w=[0];var i;var j;var t;var s;s=0;i=0;while(i<120){t=[i];w.i=t;w.t=i;j=0;while(j<120){t.j=i*j;j=j+1;}i=i+1;}\
         i=0;while(i<120){j=0;t=w.i;s=s+w.t;while(j<120){s=(s*17)+((w.i).j);j=j+1;}i=i+1;}h=drawLine(s,i,j,0);",
        // Strings as keys, read back by equal ones that are made in another way.
        "w=[0];var s;var r;var i;s=\"a\";i=0;while(i<150){w.s=i;s=s++\"a\";i=i+1;}r=\"a\";i=0;s=0;\
         while(i<150){s=(s*31)+w.r;r=\"a\"++r;i=i+1;}h=drawText(s,i,r);",
        // Text: as much as can be, and more, at once and little by little.
        "var i;var s;i=0;s=\"a\";while(i<15){s=s++s;i=i+1;}w=drawText(1,2,s);",
        "var i;var s;i=0;s=\"a\";while(i<16){s=s++s;i=i+1;}w=drawText(1,2,s);",
        "var s;s=\"a\";while(true)s=s++\"b\";",
        "while(true)\"a\"++\"bc\";",
        "w=[0];var s;s=\"a\";while(true){w.s=1;s=s++\"b\";}",
    ]
    .iter()
    .map(|body| body.to_string())
    .collect();
    // A picture of many long texts: far more bytes than any store holds.
    let mut texts =
        "var s;var a;s=\"a\";a=0;while(a<15){s=s++s;a=a+1;}a=drawText(1,2,s);".to_string();
    for name in 0..1_100 {
        texts.push_str(&format!("var v{name};v{name}=a;"));
    }
    all.push(texts);
    // A picture of many shapes.
    let mut shapes =
        "var a;a=drawLine(-2147483648,-2147483648,-2147483648,-2147483648);".to_string();
    for name in 0..1_100 {
        shapes.push_str(&format!("var v{name};v{name}=a;"));
    }
    all.push(shapes);
    all
}

/// Groups that are deep, wide or there many times.
fn groups() -> Vec<String> {
    let chain = |turns: usize, rest: &str| {
        format!("h=drawGroup();var i;i=0;while(i<{turns}){{h=drawGroup(h,drawLine(i,2,3,4));i=i+1;}}{rest}")
    };
    let doubled = |first: &str, turns: usize, rest: &str| {
        format!("h=drawGroup({first});var i;i=0;while(i<{turns}){{h=drawGroup(h,h);i=i+1;}}{rest}")
    };
    vec![
        // One in the other, as deep as entries last, and one deeper.
        chain(16_383, ""),
        chain(16_384, ""),
        chain(4_000, "h=(h+1)>>2;"),
        chain(16_383, "var n;n=0;foreach x in h do n=n+getShapeXCoordinate(x);w=drawText(n,n,\"n\");h=x;"),
        chain(16_383, "destroyShape(h);"),
        chain(16_383, "if(h==h)w=drawLine(1,2,3,4);h=none;"),
        chain(8_000, "w=h;foreach x in h do destroyShape(x);if(w==drawGroup())h=x;"),
        chain(16_383, "foreach x in h do clearScene();"),
        chain(250, "h=(h*2)-1;"),
        chain(300, ""),
        // There many times: lines, pairs, places without an atom.
        doubled("drawLine(1,2,3,4)", 15, ""),
        doubled("drawLine(1,2,3,4)", 16, ""),
        doubled("drawLine(1,2,3,4)", 40, ""),
        doubled("drawLine(1,2,3,4)", 12, "h=h+1;"),
        doubled("drawLine(1,2,3,4)", 40, "h=h/3;"),
        doubled("drawText(1,2,\"a\")", 15, "if(h==h)w=drawLine(1,2,3,4);"),
        doubled("drawLine(1,2,3,4)", 17, "var n;n=0;foreach x in h do n=n+1;h=n;"),
        doubled("drawLine(1,2,3,4)", 40, "foreach x in h do 1;"),
        doubled("", 1_000, "foreach x in h do 1;destroyShape(h);"),
        doubled("", 16_000, "foreach x in h do 1;foreach x in h do 1;clearScene();"),
        doubled("drawLine(1,2,3,4)", 16_000, "foreach x in h do destroyShape(x);foreach x in h do 1;destroyShape(h);"),
        doubled("", 40, "h==h;"),
        // Loops through groups whose atoms go while they are gone through.
        "h=drawGroup();var i;i=0;while(i<9000){h=drawGroup(drawGroup(h,drawBox(i,2,3,4)),drawBox(i,1,1,1));i=i+1;}\
         i=0;foreach x in h do{i=i+1;if((i%3)==0)destroyShape(x);}var n;n=0;foreach x in h do n=(n*31)+getShapeXCoordinate(x);\
         destroyShape(h);w=drawLine(n,i,0,0);"
            .to_string(),
        // Copies of one group take many entries.
        format!("w=drawLine(1,2,3,4);h=drawGroup({});while(true)h=h;", vec!["w"; 1_000].join(",")),
        format!("w=drawLine(1,2,3,4);h=drawGroup({});while(true)h=h+1;", vec!["w"; 1_000].join(",")),
        // Entries of tables and groups by turns.
        "w=[0];h=drawGroup();var i;i=0;while(i<9000){w.i=h;h=drawGroup(drawBox(i,i,1,1),w.i);w.(0-i)=i;i=i+1;}\
         var n;n=0;i=0;while(i<9000){n=(n*7)+w.(0-i);i=i+1;}foreach x in w.8999 do n=n+getShapeYCoordinate(x);h=drawLine(n,i,0,0);"
            .to_string(),
    ]
}

/// Programs that call much.
fn recursions() -> Vec<String> {
    [
        // Calls: about 60,000, two of each under way at once.
        "def fib(n){if(n<2)return n;return fib(n-1)+fib(n-2);}def main(w,h){w=drawLine(fib(20),fib(19),0,0);}",
        "def f(x,y){return x+y;}def main(w,h){var i;i=0;while(i<60000){h=f(h,i);i=i+1;}w=drawLine(h,i,0,0);}",
        // Up to the last call again and again.
        "def f(n){if(n>0)return f(n-1)+1;return 0;}def main(w,h){var i;i=0;h=0;while(i<1500){h=h+f(62);i=i+1;}w=drawLine(h,i,0,0);}",
        "def f(n){if(n>0)return g(n-1)+1;return 0;}def g(n){if(n>0)return f(n-1)+2;return 0;}\
         def main(w,h){var i;i=0;h=0;while(i<1500){h=h+f(62);i=i+1;}f(63);}",
        // A copy for each call, up to as many as can be, and one more.
        "def f(x){return x;}def main(w,h){var i;i=0;w=drawBox(1,2,3,4);while(i<65533){f(w);i=i+1;}}",
        "def f(x){return x;}def main(w,h){var i;i=0;w=drawBox(1,2,3,4);while(i<65534){f(w);i=i+1;}}",
        // Shapes of all calls destroyed from the last.
        "def f(n,s){if(n>0)return f(n-1,s>>n);clearScene();return none;}\
         def main(w,h){var i;i=0;while(i<300){f(60,drawLine(i,2,3,4));i=i+1;}w=drawLine(i,0,0,0);}",
        // A tree, kept in tables that are handed down.
        "def tree(n){var t;t=[0];t.0=n;if(n>0){t.1=tree(n-1);t.2=tree(n-1);}return t;}\
         def sum(t){if(t.0==0)return 1;return (sum(t.1)*3)+sum(t.2);}\
         def main(w,h){var t;t=tree(13);w=drawLine(sum(t),0,0,0);}",
        // Groups handed down and back, gone through in every call.
        "def f(n,g){if(n==0)return g;foreach x in g do g=drawGroup(g,x>>n);return f(n-1,drawGroup(g));}\
         def main(w,h){w=f(6,drawGroup(drawLine(1,2,3,4)));}",
        "def f(n,g){if(n>0)foreach x in g do f(n-1,g);}\
         def main(w,h){f(12,drawGroup(drawLine(1,2,3,4),drawGroup(drawBox(1,2,3,4))));}",
        "def f(n,g){if(n>0)foreach x in g do return f(n-1,drawGroup(g,x));return g;}\
         def main(w,h){w=f(62,drawGroup(drawLine(1,2,3,4)));h=f(63,w);}",
        // Text made in calls.
        "def f(n){if(n==0)return \"a\";return f(n-1)++f(n-1);}def main(w,h){w=drawText(1,2,f(12));}",
        // Without an end: calls, and calls of calls.
        "def f(){return 1;}def main(w,h){while(true)f();}",
        "def f(){g();f();}def g(){1;}def main(w,h){f();}",
    ]
    .iter()
    .map(|program| program.to_string())
    .collect()
}
