//! Programs at each fixed limit, one below and one beyond.

/// `def main(w,h){...}` around a body; that is 9 tokens and 15 bytes.
fn main_of(body: &str) -> Vec<u8> {
    format!("def main(w,h){{{body}}}").into_bytes()
}

/// All of them, always in the same order.
pub fn programs() -> Vec<Vec<u8>> {
    groups().concat()
}

/// All of them, by what they are about.
pub fn groups() -> Vec<Vec<Vec<u8>>> {
    vec![
        lengths(),
        token_numbers(),
        levels(),
        constants(),
        calls(),
        loops(),
    ]
}

/// 32,767, 32,768 and 32,769 bytes.
fn lengths() -> Vec<Vec<u8>> {
    let mut all = Vec::new();
    for length in [32_767, 32_768, 32_769, 40_000] {
        let fill = |front: &str, fill: &str, back: &str| {
            let short = main_of(&format!("{front}{back}")).len();
            main_of(&format!("{front}{}{back}", fill.repeat(length - short)))
        };
        all.push(fill("1;", " ", ""));
        all.push(fill("1;", "\n", "var w;"));
        all.push(fill("var a", "a", ";"));
        all.push(fill("drawLine(1,2,3,0", "0", "4);"));
        all.push(fill("9", "9", ";"));
        all.push(fill("w=drawText(1,2,\"a", "a", "\");"));
        all.push(fill("x", "x", "=1;"));
        let mut white = main_of("1;");
        white.resize(length, b'\t');
        all.push(white);
        all.push(vec![b' '; length]);
        all.push(vec![b'\r'; length]);
        let mut last = main_of("1;");
        last.resize(length - 1, b' ');
        last.push(b'!');
        all.push(last);
    }
    all
}

/// 8,191, 8,192 and 8,193 tokens.
fn token_numbers() -> Vec<Vec<u8>> {
    let mut all = Vec::new();
    for number in [8_191, 8_192, 8_193, 8_194] {
        // Statements of 2 tokens, and one of 3 if the number asks for it.
        let inside = number - 9;
        let rest = |statement: &str| {
            let threes = inside % 2;
            let twos = (inside - 3 * threes) / 2;
            format!("{}{}", "-1;".repeat(threes), statement.repeat(twos))
        };
        all.push(main_of(&rest("1;")));
        all.push(main_of(&rest("w;")));
        all.push(main_of(&rest("\"a\";")));
        all.push([main_of(&rest("1;")), b" !".to_vec()].concat());
        all.push([main_of(&rest("1;")), b"\"".to_vec()].concat());
        all.push(main_of(&format!("){}", rest("1;"))));
        all.push(b"(".repeat(number));
        all.push(b"- ".repeat(number));
        let mut open = main_of(&rest("1;"));
        open.pop();
        all.push(open);
    }
    // As many declarations and as many parameters as fit.
    let names = |number: usize| (0..number).map(|name| format!("a{name}"));
    all.push(main_of(
        &names(2_700)
            .map(|name| format!("var {name};"))
            .collect::<String>(),
    ));
    let parameters: Vec<String> = names(4_000).collect();
    all.push(format!("def main({}){{1;}}", parameters.join(",")).into_bytes());
    let arguments = "1,".repeat(4_000);
    all.push(main_of(&format!("drawLine({arguments}1);")));
    all
}

/// 63, 64, 65 and 66 levels of everything that opens one.
fn levels() -> Vec<Vec<u8>> {
    let openings = [
        ("(", "1", ")"),
        ("[", "0", "]"),
        ("f(", "1", ")"),
        ("drawText(1,2,", "\"a\"", ")"),
        ("1+(", "1", ")"),
        ("w.(", "1", ")"),
        ("[0].[", "1", "]"),
    ];
    let bodies = [
        ("{", "1;", "}"),
        ("if(true)", "1;", ""),
        ("while(true)", "return 1;", ""),
        ("if(true)", "{1;}", ""),
        ("if(true)", "(1);", ""),
        ("if(true)", "[1];", ""),
        ("if(true)", "f(1);", ""),
        ("if(true)", "-1;", ""),
        ("if(true)", "99999999999;", ""),
        ("if(true)", ")", ""),
        ("if(true){", "1;", "}"),
        ("{if(true)", "1;", "}"),
        ("while(true){", "return 1;", "}"),
        ("if((true))", "1;", ""),
        ("{1;", "2;", "}"),
        ("foreach x in w do ", "1;", ""),
        ("foreach x in w do ", "{1;}", ""),
        ("foreach x in w do ", "(1);", ""),
        ("foreach x in w do ", "f(1);", ""),
        ("foreach x in w do ", "99999999999;", ""),
        ("foreach x in w do ", "-99999999999;", ""),
        ("foreach x in w do ", ")", ""),
        ("foreach x in w do{", "x;", "}"),
        ("{foreach x in w do ", "1;", "}"),
        ("foreach x in(w)do ", "1;", ""),
        ("if(true)foreach x in w do ", "1;", ""),
        ("foreach x in w do while(true)", "return 1;", ""),
    ];
    let mut all = Vec::new();
    for depth in [30, 31, 32, 33, 62, 63, 64, 65, 66, 300] {
        for (open, inside, close) in openings {
            let body = format!("{}{inside}{};", open.repeat(depth), close.repeat(depth));
            all.push(main_of(&body));
        }
        for (open, inside, close) in bodies {
            let body = format!("{}{inside}{}", open.repeat(depth), close.repeat(depth));
            all.push(main_of(&body));
        }
        // Each of the two kinds inside the other.
        let blocks = "{".repeat(depth / 2);
        let ends = "}".repeat(depth / 2);
        let parens = "(".repeat(depth - depth / 2);
        let closes = ")".repeat(depth - depth / 2);
        all.push(main_of(&format!("{blocks}{parens}1{closes};{ends}")));
        // A token that does not fit, where the next would be too deep.
        let open = "(".repeat(depth);
        for misfit in [")", "{", "1(", "]", "- 1", "99999999999", "f(", "f[", ""] {
            all.push(main_of(&format!("{open}{misfit}")));
        }
    }
    // Many levels one behind the other.
    all.push(main_of(&"if(true){(1);}".repeat(300)));
    all.push(main_of(&"{{{1;}}}".repeat(300)));
    all
}

/// Constants at the ends of their range and beyond.
fn constants() -> Vec<Vec<u8>> {
    let mut all = Vec::new();
    for constant in [
        "2147483646",
        "2147483647",
        "2147483648",
        "2147483649",
        "-2147483647",
        "-2147483648",
        "-2147483649",
        "-2147483650",
        "0-2147483647",
        "0-2147483648",
        "1--2147483648",
        "1--2147483649",
        "4294967295",
        "4294967296",
        "4294967297",
        "-4294967296",
        "9223372036854775808",
        "-9223372036854775809",
        "18446744073709551615",
        "18446744073709551616",
        "00000000000000000000002147483647",
        "-00000000000000000000002147483648",
        "-0",
        "-00",
        "00",
        "- 1",
        "--1",
        "-\n1",
        "1-1",
        "1- 1",
        "1 -1",
        "1 - -1",
        "1---1",
        "-1-1",
        "-1--1",
        "-",
        "-w",
        "-(1)",
        "-\"a\"",
    ] {
        all.push(main_of(&format!("w=drawLine({constant},0,0,0);")));
        all.push(main_of(&format!("{constant};")));
        all.push(main_of(&format!("w=[0];w.{constant}=1;")));
        all.push(main_of(&format!("return {constant};")));
    }
    all
}

/// What stands around an expression: each opens one level.
const AROUND: [(&str, &str); 11] = [
    ("(", ")"),
    ("[", "]"),
    ("g(", ")"),
    ("drawText(1,2,", ")"),
    ("1+(", ")"),
    ("(", "+1)"),
    ("t.(", ")"),
    ("1+t.(", ")"),
    ("1+t.[", "]"),
    ("1+t.g(", ")"),
    ("1+t.drawText(1,2,", ")"),
];

/// What stands around a statement, and how many levels it opens.
const HEADS: [(&str, &str, usize); 7] = [
    ("{", "}", 1),
    ("if(true)", "", 1),
    ("while(true)", "", 1),
    ("foreach x in o do ", "", 1),
    ("if(true){", "}", 2),
    ("while(true){", "}", 2),
    ("foreach x in o do{", "}", 2),
];

fn times(part: (&str, &str), times: usize, inside: &str) -> String {
    format!("{}{inside}{}", part.0.repeat(times), part.1.repeat(times))
}

/// A procedure that calls itself until so many calls are under way, each call inside what is put around it.
fn under_way(calls: usize, around: impl Fn(&str) -> String) -> Vec<u8> {
    let call = |number: &str| around(&format!("f({number},t)"));
    // A group of one line, for what goes through one.
    let one = "var o;o=drawGroup(drawLine(1,2,3,4));";
    format!(
        "def f(n,t){{if(n==0)return 0;{one}{}}}def g(x){{return x;}}\
         def main(w,h){{var t;t=[0];t.0=0;{one}{}}}",
        call("n-1"),
        call(&(calls - 2).to_string())
    )
    .into_bytes()
}

/// So many calls under way, each in 64 levels of one kind, or of two half and half. The call's own parenthesis is the last.
pub fn deepest(calls: usize) -> Vec<Vec<u8>> {
    let mut all = Vec::new();
    for kind in AROUND {
        all.push(under_way(calls, |call| {
            format!("return {};", times(kind, 63, call))
        }));
    }
    for (open, close, levels) in HEADS {
        all.push(under_way(calls, |call| {
            let inside = format!("return {call};");
            times((open, close), 63 / levels, &inside)
        }));
        for kind in AROUND {
            all.push(under_way(calls, |call| {
                let inside = format!("return ({});", times(kind, 31, call));
                times((open, close), 31 / levels, &inside)
            }));
        }
    }
    all
}

/// 62 to 65 calls under way, in no level and in as many as fit, with as many
/// variables, parameters and waiting arguments as fit; as many procedures as
/// fit.
fn calls() -> Vec<Vec<u8>> {
    let mut all = Vec::new();
    let mut deep = Vec::new();
    for calls in [63, 64, 65] {
        deep.push(under_way(calls, |call| format!("return {call};")));
        deep.extend(
            deepest(calls)
                .into_iter()
                .step_by(if calls == 64 { 1 } else { 7 }),
        );
    }
    let names = |name: &str, number: usize| -> Vec<String> {
        (0..number).map(|at| format!("{name}{at}")).collect()
    };
    for calls in [62, 63] {
        // As many parameters as fit, as many declared variables, as many
        // waiting arguments, and some of each.
        let parameters = names("p", 1_350).join(",");
        let ones = ",1".repeat(1_349);
        all.push(format!(
            "def f({parameters}){{if(p0>0)f(p0-1{});}}def main(w,h){{f({calls}{ones});}}",
            names(",p", 1_349).concat().replace(",p0", ",p1")
        ));
        let declared: String = names("var v", 2_700).join(";");
        all.push(format!(
            "def f(n){{{declared};if(n>0)f(n-1);}}def main(w,h){{f({calls});}}"
        ));
        let waiting = "1,".repeat(4_000);
        all.push(format!(
            "def f(n){{if(n>0)drawLine({waiting}f(n-1));}}def main(w,h){{f({calls});}}"
        ));
        let declared: String = names("var v", 1_300).join(";");
        let waiting = "n,".repeat(1_950);
        all.push(format!(
            "def f(n){{{declared};if(n>0)clearScene({waiting}f(n-1));}}def main(w,h){{f({calls});}}"
        ));
        // Variables that hold shapes, reached by clearScene from the last.
        let shapes: String = (0..12)
            .map(|at| format!("var s{at};s{at}=drawBox({at},n,1,1);"))
            .collect();
        all.push(format!(
            "def f(n){{{shapes}if(n==0)clearScene();if(n>0)f(n-1);s0;}}\
             def main(w,h){{w=drawLine(1,2,3,4);f({calls});}}"
        ));
    }
    // 8 tokens for a procedure, 12 for main.
    for number in [1_021, 1_022, 1_023, 1_024] {
        let each: String = (0..number).map(|k| format!("def f{k}(){{1;}}")).collect();
        all.push(format!("{each}def main(w,h){{f{}();}}", number - 1));
        all.push(format!("def main(w,h){{f{}();}}{each}", number - 1));
        all.push(format!("{each}def f0(w,h){{1;}}"));
        all.push(each);
    }
    deep.extend(all.into_iter().map(String::into_bytes));
    deep
}

/// What may stand where the body of a foreach begins, and what may not.
const BEGINNINGS: [&str; 30] = [
    "1;",
    "w;",
    "-1;",
    "\"a\";",
    "none;",
    "var a;",
    "return 1;",
    "if(true)1;",
    "while(false)1;",
    "foreach y in w do 1;",
    "foreach y in(w)do 1;",
    "{1;}",
    "(1);",
    "[1];",
    "f(1);",
    "w=(1);",
    "w.(1)=1;",
    "-99999999999;",
    "99999999999;",
    "2147483647;",
    "2147483648;",
    "- 1;",
    "-w;",
    ")",
    "}",
    ";",
    "do 1;",
    "in",
    "def",
    "",
];

/// A foreach in every number of levels, with a body that fits and that does
/// not; as many loops inside each other as fit, with groups as deep as can be
/// and in as many calls.
fn loops() -> Vec<Vec<u8>> {
    let mut all = Vec::new();
    let foreach = "foreach x in w do ";
    for depth in 0..=66 {
        let near = depth >= 62;
        for (at, body) in BEGINNINGS.iter().enumerate() {
            // All of them near the last level, by turns elsewhere.
            if !near && at % 10 != depth % 10 {
                continue;
            }
            let (open, close) = ("{".repeat(depth), "}".repeat(depth));
            all.push(main_of(&format!("{open}{foreach}{body}{close}")));
            let ifs = "if(true)".repeat(depth);
            all.push(main_of(&format!("{ifs}{foreach}{body}")));
            all.push(main_of(&format!("{}{body}", foreach.repeat(depth))));
            if near {
                let open = format!("def main(w,h){{{open}{foreach}{body}");
                all.push(open.into_bytes());
                let one_by_one = "foreach x in w do{".repeat(depth / 2);
                all.push(main_of(&format!("{one_by_one}{foreach}{body}")));
            }
        }
        let (open, close) = ("(".repeat(depth), ")".repeat(depth));
        all.push(main_of(&format!("foreach x in{open}w{close}do 1;")));
        all.push(main_of(&format!("foreach x in w do{open}1{close};")));
    }
    // Loops inside each other that run, each through a deep group.
    let chain =
        "var g;g=drawGroup();var i;i=0;while(i<60){g=drawGroup(g,drawLine(i,2,3,4));i=i+1;}";
    for (depth, body) in [
        (1, "x;"),
        (63, "return x;"),
        (64, "return x;"),
        (64, "destroyShape(g);"),
        (64, "destroyShape(x);"),
        (64, "clearScene();"),
        (65, "1;"),
    ] {
        let names: String = (0..depth)
            .map(|at| format!("foreach v{at} in g do "))
            .collect();
        all.push(main_of(&format!("{chain}var x;{names}{body}")));
        all.push(main_of(&format!(
            "{chain}{}{body}",
            "foreach x in g do ".repeat(depth)
        )));
        // The same in each call under way.
        for calls in [3, 61, 62, 63] {
            let names = names.replace("in g", "in s");
            all.push(
                format!(
                    "def f(n,s){{if(n==0)return s;var x;x=none;{names}return f(n-1,s);}}\
                     def main(w,h){{{chain}w=f({calls},g);}}"
                )
                .into_bytes(),
            );
        }
    }
    // As many arguments as fit.
    for number in [1_022, 1_023, 1_024, 1_025, 4_000] {
        let arguments = vec!["w"; number].join(",");
        all.push(main_of(&format!(
            "w=drawLine(1,2,3,4);h=drawGroup({arguments});"
        )));
        all.push(main_of(&format!(
            "w=drawLine(1,2,3,4);drawGroup({arguments});"
        )));
    }
    all
}
