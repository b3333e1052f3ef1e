//! The one text of a program: every sentence of request 3, and the readings
//! of it. `⏎` stands for a linefeed.

mod common;

use common::{main_of, short_text, written};
use reference::grammar::read;
use reference::sheet::GRANTS;
use reference::{check, text, Answer, Grants};

/// The text of a body, without what main has around it.
fn written_body(body: &str) -> String {
    let whole = written(&main_of(body));
    whole
        .strip_prefix("def main(w,h){⏎")
        .and_then(|rest| rest.strip_suffix("⏎}⏎"))
        .unwrap_or_else(|| panic!("{body}: {whole}"))
        .to_string()
}

/// Each body has the text beside it, which is its own text.
fn bodies(rows: &[(&str, &str)]) {
    for (body, expected) in rows {
        assert_eq!(&written_body(body), expected, "{body}");
        let again = expected.replace('⏎', "\n");
        assert_eq!(&written_body(&again), expected, "again: {body}");
    }
}

// Would catch a linefeed that is missing, doubled or elsewhere.
#[test]
fn one_statement_a_line() {
    bodies(&[
        ("1;", "1;"),
        ("1;2;3;", "1;⏎2;⏎3;"),
        ("\n\n1;\n\n\n2;\n", "1;⏎2;"),
        ("var a;a=1;a.1=2;return a;", "var a;⏎a=1;⏎a.1=2;⏎return a;"),
        ("drawLine(1,\n2,\n3,\n4);", "drawLine(1,2,3,4);"),
    ]);
    assert_eq!(
        written(b"def main(w,h){1;}"),
        "def main(w,h){⏎1;⏎}⏎",
        "one linefeed at the end, and one before the closing brace"
    );
    assert_eq!(written(b"\n def main(w,h){1;}\n\n"), "def main(w,h){⏎1;⏎}⏎");
}

// Would catch a body on its test's line, and a block whose brace shares a line with a statement.
#[test]
fn blocks_and_bodies() {
    bodies(&[
        ("{1;}", "{⏎1;⏎}"),
        ("{1;2;}3;", "{⏎1;⏎2;⏎}⏎3;"),
        // Blocks stay, also those that change nothing.
        ("{{1;}}", "{⏎{⏎1;⏎}⏎}"),
        ("if(w)1;", "if(w)⏎1;"),
        ("while(w)1;", "while(w)⏎1;"),
        ("if(w){w;}", "if(w)⏎{⏎w;⏎}"),
        ("while(w){w;h;}", "while(w)⏎{⏎w;⏎h;⏎}"),
        ("if(w)if(h)1;2;", "if(w)⏎if(h)⏎1;⏎2;"),
        ("if(w)while(h){{1;}}", "if(w)⏎while(h)⏎{⏎{⏎1;⏎}⏎}"),
        ("if(w)return 1;", "if(w)⏎return 1;"),
        ("if(w)var a;", "if(w)⏎var a;"),
        ("if(w)-1;", "if(w)⏎-1;"),
        ("if(w)[1];", "if(w)⏎[1];"),
        ("if(w)(1);", "if(w)⏎1;"),
    ]);
    assert_ne!(written_body("{1;}"), written_body("1;"));
    assert_ne!(written_body("if(w){1;}"), written_body("if(w)1;"));
}

// Would catch a linefeed before the first `def`, none before a later one, or an empty line between procedures.
#[test]
fn procedures() {
    assert_eq!(
        written(b"def f(){1;}def main(w,h){f();}def g(x,y,z){return x;}"),
        "def f(){⏎1;⏎}⏎def main(w,h){⏎f();⏎}⏎def g(x,y,z){⏎return x;⏎}⏎"
    );
    // Their order is kept.
    assert_eq!(
        written(b"def main(w,h){f();} def f(){1;}"),
        "def main(w,h){⏎f();⏎}⏎def f(){⏎1;⏎}⏎"
    );
    // Main's parameters are not asked.
    assert_eq!(written(b"def main ( ) {1;}"), "def main(){⏎1;⏎}⏎");
    assert_eq!(written(b"def main(a , a,a){1;}"), "def main(a,a,a){⏎1;⏎}⏎");
    // A name of any sort keeps its spelling.
    assert_eq!(
        written(b"def sin(main,drawBox){return main;}def main(w,h){sin(clearScene(),Foo1(w));}"),
        "def sin(main,drawBox){⏎return main;⏎}⏎def main(w,h){⏎sin(clearScene(),Foo1(w));⏎}⏎"
    );
}

// Would catch a space too many, one too few, or a tab kept. A string and a minus are no tokens of letters or digits.
#[test]
fn spaces() {
    bodies(&[
        ("var\ta ;", "var a;"),
        ("w = h + 1 ;", "w=h+1;"),
        ("w . 1 = h . 2 ;", "w.1=h.2;"),
        ("if ( w ) { w ; }", "if(w)⏎{⏎w;⏎}"),
        ("f ( 1 , 2 ) ;", "f(1,2);"),
        ("f ( ) ;", "f();"),
        ("[ 1 ] ;", "[1];"),
        ("return w;", "return w;"),
        ("return\n1;", "return 1;"),
        ("return none;", "return none;"),
        ("return true;", "return true;"),
        ("return f(1);", "return f(1);"),
        ("return w+h;", "return w+h;"),
        ("return(w+h)*2;", "return(w+h)*2;"),
        ("return (w+h)*2;", "return(w+h)*2;"),
        ("return [1];", "return[1];"),
        ("return \"a\";", "return\"a\";"),
        ("return \"a\"++\"b\";", "return\"a\"++\"b\";"),
        ("return -1;", "return-1;"),
        ("return -1 - 1;", "return-1-1;"),
        // A constant that loses its minus, or a value its parentheses, meets
        // the word before it.
        ("return -0;", "return 0;"),
        ("return-0;", "return 0;"),
        ("return(1);", "return 1;"),
        ("return(w);", "return w;"),
        ("return(none);", "return none;"),
        ("return((w.h));", "return w.h;"),
        ("return(\"a\");", "return\"a\";"),
        ("return(-1);", "return-1;"),
        ("w - -1;", "w--1;"),
        ("w--1;", "w--1;"),
        ("w -1;", "w-1;"),
    ]);
    // Every operator.
    for operator in [
        "++", "+", "-", "*", "/", "%", ">>", "<<", "==", "!=", ">", "<",
    ] {
        let expected = format!("w{operator}-1;");
        assert_eq!(written_body(&format!("w\t{operator}\n-1 ;")), expected);
    }
}

// Would catch parentheses kept around a primary, a read that is an operand, or a whole expression.
#[test]
fn needless_parentheses() {
    let primaries = [
        "1", "-1", "w", "none", "true", "false", "\"a\"", "[1]", "f()", "f(1,2)",
    ];
    for one in primaries {
        for (body, expected) in [
            ("(P);", "P;"),
            ("((P));", "P;"),
            ("w=(P);", "w=P;"),
            ("w=(((P)));", "w=P;"),
            ("(P)+(P);", "P+P;"),
            ("P-((P));", "P-P;"),
            ("(P).(P);", "P.P;"),
            ("((P)).P=((P));", "P.P=P;"),
            ("w.(P)=1;", "w.P=1;"),
            ("[(P)];", "[P];"),
            ("f((P),((P)));", "f(P,P);"),
            ("if((P))(P);", "if(P)⏎P;"),
            ("while(((P)))1;", "while(P)⏎1;"),
            ("((P).(P))==((P).(P));", "P.P==P.P;"),
        ] {
            let (body, expected) = (body.replace('P', one), expected.replace('P', one));
            assert_eq!(written_body(&body), expected, "{body}");
        }
        let body = format!("return({one});");
        let space = match one.as_bytes()[0].is_ascii_alphanumeric() {
            true => " ",
            false => "",
        };
        assert_eq!(written_body(&body), format!("return{space}{one};"));
    }
    // A whole expression wherever one is due.
    for whole in ["1+2", "w.h", "w.1-h.2", "(1+2)*3", "(w.1).2", "1-(2-3)"] {
        for (body, expected) in [
            ("(E);", "E;"),
            ("((E));", "E;"),
            ("w=(E);", "w=E;"),
            ("w.1=((E));", "w.1=E;"),
            ("[(E)];", "[E];"),
            ("[[((E))]];", "[[E]];"),
            ("f((E),1,((E)));", "f(E,1,E);"),
            ("if((E))(E);", "if(E)⏎E;"),
            ("while(((E)))1;", "while(E)⏎1;"),
        ] {
            let (body, expected) = (body.replace('E', whole), expected.replace('E', whole));
            assert_eq!(written_body(&body), expected, "{body}");
        }
    }
    bodies(&[
        // A read that is an operand.
        ("(w.1)+1;", "w.1+1;"),
        ("1+(w.1);", "1+w.1;"),
        ("((w.1))==((h.2));", "w.1==h.2;"),
        ("w=(w.1)-(h.2);", "w=w.1-h.2;"),
        // Inside what stays, too.
        ("((1)+(2))*(3);", "(1+2)*3;"),
        ("(((w).(1))).((2));", "(w.1).2;"),
        // A body that began with a needless parenthesis.
        ("if(w)((1)+2)*3;", "if(w)⏎(1+2)*3;"),
    ]);
}

// Would catch parentheses taken away that the tree needs.
#[test]
fn kept_parentheses() {
    bodies(&[
        // An operator inside an operand.
        ("(1+2)*3;", "(1+2)*3;"),
        ("1+(2*3);", "1+(2*3);"),
        ("(1-2)-3;", "(1-2)-3;"),
        ("1-(2-3);", "1-(2-3);"),
        ("(1+2)*(3+4);", "(1+2)*(3+4);"),
        ("((1+2)+3)+4;", "((1+2)+3)+4;"),
        ("w=(w==h)==true;", "w=(w==h)==true;"),
        // An operator or a dot inside a dot's side.
        ("(w+1).2;", "(w+1).2;"),
        ("w.(1+2);", "w.(1+2);"),
        ("(w.1).2;", "(w.1).2;"),
        ("w.(1.2);", "w.(1.2);"),
        ("(w.1).(h.2);", "(w.1).(h.2);"),
        ("(w.1).2=3;", "(w.1).2=3;"),
        ("w.(h.1)=(w.1).2+1;", "w.(h.1)=(w.1).2+1;"),
        ("w.(1+2)=3;", "w.(1+2)=3;"),
        // A dot that is part of an operand of an operator in a dot's side.
        ("w.((h.1)+2);", "w.(h.1+2);"),
    ]);
    // Those of calls, tests and parameters are no parentheses around
    // something.
    bodies(&[
        ("f((1),2);", "f(1,2);"),
        ("f();", "f();"),
        ("if((w))1;", "if(w)⏎1;"),
    ]);
    assert_ne!(written_body("(1-2)-3;"), written_body("1-(2-3);"));
    assert_ne!(written_body("(w.1).2;"), written_body("w.(1.2);"));
    assert_ne!(written_body("f();"), written_body("f;"));
}

// Would catch a leading zero or a minus zero that stays, and a constant that changes its value.
#[test]
fn constants() {
    bodies(&[
        ("0;", "0;"),
        ("00;", "0;"),
        ("000000000000000000000000000000;", "0;"),
        ("-0;", "0;"),
        ("-000;", "0;"),
        ("007;", "7;"),
        ("-007;", "-7;"),
        ("10;", "10;"),
        ("0100;", "100;"),
        ("2147483647;", "2147483647;"),
        ("-2147483648;", "-2147483648;"),
        ("00000000000000000002147483647;", "2147483647;"),
        ("-00000000000000000002147483648;", "-2147483648;"),
        ("w=-0;", "w=0;"),
        ("w--0;", "w-0;"),
        ("w - -00;", "w-0;"),
        ("w-(-0);", "w-0;"),
        ("w-(-1);", "w--1;"),
        ("w.-0;", "w.0;"),
        ("-0.-0;", "0.0;"),
        ("-1.-2;", "-1.-2;"),
        ("1 . 2;", "1.2;"),
        ("-1--1;", "-1--1;"),
        ("0-1;", "0-1;"),
        ("[-0];", "[0];"),
        ("f(-0,00,-01);", "f(0,0,-1);"),
    ]);
    // Zero less one is no minus one, and stays an operator.
    assert_ne!(written_body("0-1;"), written_body("-1;"));
    // Digits in names and strings are no constants.
    bodies(&[("a007;", "a007;"), ("\"a007\";", "\"a007\";")]);
}

// Would catch a name or a string that loses or changes a letter, or a reserved word inside a string.
#[test]
fn names_and_strings() {
    bodies(&[
        ("\"none\";", "\"none\";"),
        ("w=\"Def\"++\"def\";", "w=\"Def\"++\"def\";"),
        ("nOne;Trues;iff;", "nOne;⏎Trues;⏎iff;"),
        ("drawLines(drawline);", "drawLines(drawline);"),
        ("var drawLine;drawLine();", "var drawLine;⏎drawLine();"),
        ("main;main(1);", "main;⏎main(1);"),
        ("w=averylongname0123456789;", "w=averylongname0123456789;"),
    ]);
    for library in [
        "drawLine",
        "drawEllipse",
        "drawBox",
        "drawText",
        "destroyShape",
        "drawLineConnectingShapes",
        "drawTextOnShape",
        "getShapeXCoordinate",
        "getShapeYCoordinate",
        "clearScene",
        "sin",
        "eval",
        "main",
    ] {
        let call = format!("{library}(1);");
        assert_eq!(written_body(&call), call);
    }
}

// Would catch a tree in which parentheses, the spelling of constants or places show, and one in which a block, an order, a name or a grouping does not.
#[test]
fn what_a_tree_is() {
    let tree = |body: &str| read(&main_of(body)).unwrap();
    for (one, other) in [
        ("1;", " 1 ;"),
        ("w=(1);", "w=01;"),
        ("w=-0;", "w=((0));"),
        ("(w.1)+2;", "w.1+2;"),
        ("f((1));", "f(1);"),
    ] {
        assert_eq!(tree(one), tree(other), "{one} {other}");
        assert_eq!(written_body(one), written_body(other), "{one} {other}");
    }
    for (one, other) in [
        ("1;", "{1;}"),
        ("1;2;", "2;1;"),
        ("w;", "h;"),
        ("a;", "A;"),
        ("a;b;", "b;a;"),
        ("a;a;", "a;b;"),
        ("w;", "w();"),
        ("\"w\";", "w;"),
        ("1;", "-1;"),
        ("0-1;", "-1;"),
        ("1-(2-3);", "(1-2)-3;"),
        ("w.(1.2);", "(w.1).2;"),
        ("w.1;", "w.1=1;"),
        ("w=1;", "w==1;"),
        ("if(w)1;", "while(w)1;"),
        ("if(w){1;}2;", "if(w){1;2;}"),
        ("[1];", "1;"),
        ("true;", "false;"),
        ("none;", "\"none\";"),
        ("return 1;", "1;"),
        ("var a;", "a;"),
        ("f(1,2);", "f(2,1);"),
        ("w+h;", "h+w;"),
        ("w>h;", "w>>h;"),
    ] {
        assert_ne!(tree(one), tree(other), "{one} {other}");
        assert_ne!(written_body(one), written_body(other), "{one} {other}");
    }
    let programs: [&[u8]; 4] = [
        b"def f(){1;}def main(w,h){1;}",
        b"def main(w,h){1;}def f(){1;}",
        b"def main(w,h){1;}",
        b"def main(h,w){1;}",
    ];
    for (at, one) in programs.iter().enumerate() {
        for other in &programs[..at] {
            assert_ne!(read(one).unwrap(), read(other).unwrap());
            assert_ne!(written(one), written(other));
        }
    }
}

/// Main with one statement, a name of this length. Its text has 19 more
/// bytes, its shortest spelling 16.
fn long(name: usize) -> Vec<u8> {
    main_of(&format!("{};", "n".repeat(name)))
}

// Would catch 82 off by one at either limit, with another place, steps or length.
#[test]
fn too_long_is_82() {
    let length = |name| written(&long(name)).chars().count();
    assert_eq!(length(1), 20);
    assert_eq!(length(32_749), 32_768);
    assert_eq!(written(&long(32_750)), "82@0 s0 l32769");
    assert_eq!(written(&long(32_752)), "82@0 s0 l32771");
    assert_eq!(check(&long(32_752)), Answer::WellFormed);
    // A larger out slice makes no difference to 32,768.
    let roomy = text(&long(32_750), GRANTS, u64::MAX);
    assert_eq!(short_text(&roomy), "82@0 s0 l32769");
    // The longest: 8,192 tokens of which nearly all begin a line.
    let blocks = "{".repeat(63) + "1;" + &"}".repeat(63);
    let blocks = blocks.repeat(63);
    let name = "n".repeat(32_768 - 16 - blocks.len());
    let longest = main_of(&format!("{blocks}{name};"));
    assert_eq!(longest.len(), 32_768);
    // Each brace and each statement is on its own line, and main's end.
    let lines = 63 * (63 + 1 + 63) + 1 + 2;
    assert_eq!(written(&longest), format!("82@0 s0 l{}", 32_768 + lines));
    // The out slice.
    let program = main_of("var a ;");
    let wanted = "def main(w,h){⏎var a;⏎}⏎";
    for room in 0..40 {
        let found = short_text(&text(&program, GRANTS, room));
        match room < 24 {
            true => assert_eq!(found, "82@0 s0 l24"),
            false => assert_eq!(found, wanted),
        }
    }
}

// Would catch 82 before any number that checking gives, 72 asked at all, or a count that is not asked.
#[test]
fn asked_after_all_that_checking_asks() {
    let room_of = |program: &[u8], room| short_text(&text(program, GRANTS, room));
    for room in [0, 1, 40_000] {
        assert_eq!(room_of(b"", room), "10@0 s0");
        assert_eq!(room_of(&main_of(""), room), "10@14 s0");
        assert_eq!(room_of(&main_of("(w)=1;"), room), "10@17 s0");
        assert_eq!(room_of(&[b' '; 32_769], room), "73@0 s0");
        assert_eq!(room_of(&main_of(&"1;".repeat(4_092)), room), "74@8198 s0");
        assert_eq!(room_of(&main_of(&"(".repeat(65)), room), "75@78 s0");
        assert_eq!(room_of(b"def f(){1;}", room), "10@11 s0");
        let twice = b"def f(){1;}def f(){1;}def main(w,h){1;}";
        assert_eq!(room_of(twice, room), "60@11 s0");
        let library = b"def main(w,h){1;}def drawBox(){1;}";
        assert_eq!(room_of(library, room), "60@17 s0");
    }
    // One whose text is too long in itself as well.
    let twice = [long(32_700), b"def main(){1;}".to_vec()].concat();
    assert_eq!(written(&twice), "60@32716 s0");
    // What would only show in a run is not asked: 20, 50, 60 of a variable.
    assert_eq!(
        written(b"def main(a){b;var a;1/0;none+1;}"),
        "def main(a){⏎b;⏎var a;⏎1/0;⏎none+1;⏎}⏎"
    );
}

// Would catch a count whose range is not asked, asked off by one or asked late, and one that changes a text.
#[test]
fn counts_are_asked_as_by_checking() {
    let with = |change: fn(&mut Grants)| {
        let mut grants = GRANTS;
        change(&mut grants);
        grants
    };
    let beyond = [
        with(|grants| grants.steps = 1 << 32),
        with(|grants| grants.shapes = 65_536),
        with(|grants| grants.entries = 65_536),
        with(|grants| grants.text_bytes = 65_536),
        with(|grants| grants.calls = 65),
        with(|grants| grants.calls = 0),
    ];
    for grants in beyond {
        for program in [main_of("1;"), main_of(""), vec![b' '; 40_000]] {
            for room in [0, 65_536] {
                let found = short_text(&text(&program, grants, room));
                assert_eq!(found, "71@0 s0", "{grants:?}");
            }
        }
    }
    for grants in [Grants::LEAST, GRANTS, Grants::LARGEST] {
        let found = short_text(&text(&main_of("1;"), grants, 65_536));
        assert_eq!(found, "def main(w,h){⏎1;⏎}⏎");
    }
}

// Would catch a deep or long program that is written wrongly, or not at all.
#[test]
fn at_the_limits() {
    // 64 needless levels, and 64 that stay.
    let deep = format!("{}1{};", "(".repeat(64), ")".repeat(64));
    assert_eq!(written_body(&deep), "1;");
    let deep = format!("{}1{}+1;", "(".repeat(64), "+1)".repeat(64));
    assert_eq!(written_body(&deep), deep);
    let deep = format!("{}w{}.1;", "(".repeat(64), ".1)".repeat(64));
    assert_eq!(written_body(&deep), deep);
    let deep = format!("{}1{};", "[(".repeat(32), ")]".repeat(32));
    let shown = format!("{}1{};", "[".repeat(32), "]".repeat(32));
    assert_eq!(written_body(&deep), shown);
    let deep = format!("{}1;{}", "{".repeat(64), "}".repeat(64));
    let shown = format!("{}1;{}", "{⏎".repeat(64), "⏎}".repeat(64));
    assert_eq!(written_body(&deep), shown);
    let deep = "if(w)".repeat(64) + "1;";
    assert_eq!(written_body(&deep), "if(w)⏎".repeat(64) + "1;");
    // 8,192 tokens.
    let ones = "-1;".to_string() + &"1;".repeat(4_090);
    let shown = "-1;".to_string() + &"⏎1;".repeat(4_090);
    assert_eq!(written_body(&ones), shown);
    // A program of 32,768 bytes, most of them white space or zeros.
    let mut spaced = main_of("1;");
    spaced.resize(32_768, b'\n');
    assert_eq!(written(&spaced), "def main(w,h){⏎1;⏎}⏎");
    assert_eq!(written_body(&format!("{}7;", "0".repeat(32_751))), "7;");
}

// Would catch a foreach whose body shares its line, a space too many or too few around its words, and needless parentheses around its group.
#[test]
fn foreach() {
    bodies(&[
        ("foreach x in w do 1;", "foreach x in w do⏎1;"),
        ("foreach\tx\nin w\ndo\n1;2;", "foreach x in w do⏎1;⏎2;"),
        ("foreach x in w do{1;}", "foreach x in w do⏎{⏎1;⏎}"),
        ("foreach x in(w)do 1;", "foreach x in w do⏎1;"),
        ("foreach x in (w+h) do 1;", "foreach x in w+h do⏎1;"),
        ("foreach x in((w+h)*2)do 1;", "foreach x in(w+h)*2 do⏎1;"),
        ("foreach x in w*(w+h) do 1;", "foreach x in w*(w+h)do⏎1;"),
        ("foreach x in -1 do 1;", "foreach x in-1 do⏎1;"),
        ("foreach x in -0 do 1;", "foreach x in 0 do⏎1;"),
        ("foreach x in 007 do 1;", "foreach x in 7 do⏎1;"),
        ("foreach x in \"a\" do 1;", "foreach x in\"a\"do⏎1;"),
        ("foreach x in [ 1 ] do 1;", "foreach x in[1]do⏎1;"),
        ("foreach x in none do 1;", "foreach x in none do⏎1;"),
        ("foreach x in(w.1)do 1;", "foreach x in w.1 do⏎1;"),
        (
            "foreach x in drawGroup ( w , h ) do -1;",
            "foreach x in drawGroup(w,h)do⏎-1;",
        ),
        (
            "if(w)foreach x in w do while(h)foreach y in x do{x;}",
            "if(w)⏎foreach x in w do⏎while(h)⏎foreach y in x do⏎{⏎x;⏎}",
        ),
        ("foreach x in w do var a;", "foreach x in w do⏎var a;"),
        ("foreach x in w do return 1;", "foreach x in w do⏎return 1;"),
        ("foreach x in w do(1);", "foreach x in w do⏎1;"),
    ]);
    // The name and the body are part of the tree.
    assert_ne!(
        written_body("foreach x in w do 1;"),
        written_body("foreach y in w do 1;")
    );
    assert_ne!(
        written_body("foreach x in w do{1;}"),
        written_body("foreach x in w do 1;")
    );
}
