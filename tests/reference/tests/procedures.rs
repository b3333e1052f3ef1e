//! Procedures of a program's own, as section 3.2 of document 002 and request
//! 1 of document 02 have them.

mod common;

use common::{shape_lines, short};
use reference::sheet::{GRANTS, OUT_LENGTH};
use reference::{check, draw, run_specified, Answer, Event, Grants, Operation, Taking};

fn drawn(program: &str) -> Answer {
    draw(program.as_bytes(), 20, 20, GRANTS, OUT_LENGTH)
}

/// The program, what it gives and the other reading.
type Row = (&'static str, &'static str, &'static str);

fn run_rows(rows: &[Row], grants: Grants) {
    for (program, expected, other) in rows {
        let found = short(&draw(program.as_bytes(), 20, 20, grants, OUT_LENGTH));
        assert_eq!(&found, expected, "{program}, not {other}");
        assert_ne!(&found, other, "{program}");
    }
}

fn calls(calls: u64) -> Grants {
    Grants { calls, ..GRANTS }
}

fn shapes(shapes: u64) -> Grants {
    Grants { shapes, ..GRANTS }
}

/// Listing 3 of document 002, with the semicolons that its copy lost.
const STICKMAN: &str = "def stickman (x, y, sx, sy) {
  var sm;
  sm = [10];
  sm.\"head\" = drawEllipse(x+0,y-(sy*5),sx*2,sy*3);
  sm.\"neck\" = drawLine (x+0,y-(sy*2),x+0, y);
  sm.\"torso\" = drawLine (x+0,y ,x+0, y+(sy*2));
  sm.\"arms\" = drawLine (x-(sx*3),y+0,x+(sx*3),y+0);
  sm.\"legl\" = drawLine (x-(sx*2),y+(sy*4), x+0,y+(sy*2));
  sm.\"legr\" = drawLine (x+(sx*2),y+(sy*4), x+0,y+(sy*2));
  return sm;
}
";

const STICKMAN_MAIN: &str = "def main ( w , h ) {
  var sm;
  sm = stickman(w/2, h/2, w/8, h/16);
  var head; head = sm.\"head\";
  var neck; neck = sm.\"neck\" ;
  var torso; torso = sm.\"torso\";
  var arms; arms = sm.\"arms\";
  var legl; legl = sm.\"legl\";
  var legr; legr = sm.\"legr\";
}
";

#[test]
fn listing_3_of_document_002() {
    let first = drawn(&format!("{STICKMAN}{STICKMAN_MAIN}"));
    assert_eq!(
        shape_lines(&first),
        "<ellipse cx=\"10\" cy=\"5\" rx=\"4\" ry=\"3\"/>\n\
         <line x1=\"10\" y1=\"8\" x2=\"10\" y2=\"10\"/>\n\
         <line x1=\"10\" y1=\"10\" x2=\"10\" y2=\"12\"/>\n\
         <line x1=\"4\" y1=\"10\" x2=\"16\" y2=\"10\"/>\n\
         <line x1=\"6\" y1=\"14\" x2=\"10\" y2=\"12\"/>\n\
         <line x1=\"14\" y1=\"14\" x2=\"10\" y2=\"12\"/>\n"
    );
    // The order of the two makes no difference.
    assert_eq!(first, drawn(&format!("{STICKMAN_MAIN}{STICKMAN}")));
}

#[test]
fn recursion_of_document_002() {
    let body = |a: &str, b: &str, below: &str| {
        format!(
            "def {a} ( n ) {{\n if ( n < 0 ) return {below} ;\n if ( n == 0 ) return 1 ;\n\
             if ( n == 1 ) return 1 ;\n return {b} ( n - 1 ) + {b} ( n - 2 ) ;\n}}\n"
        )
    };
    let one = format!(
        "{}def main ( w , h ) {{ var a ; a = drawLine ( fib(1), fib(2), fib(3), fib(4) ) ; }}",
        body("fib", "fib", "none")
    );
    let two = format!(
        "{}{}def main ( w , h ) {{ var a ; a = drawLine ( fibA(1), fibB(2), fibA(3), fibB(4) ) ; }}",
        body("fibA", "fibB", "0-1"),
        body("fibB", "fibA", "0-1")
    );
    for program in [one, two] {
        let line = "<line x1=\"1\" y1=\"2\" x2=\"3\" y2=\"5\"/>\n";
        assert_eq!(shape_lines(&drawn(&program)), line);
    }
}

#[test]
fn order_of_a_calls_questions() {
    run_rows(
        &[
            // Arguments are evaluated before anything is asked.
            ("def f(){1;}def main(w,h){f(x);}", "50@25 s3", "20@25 s3"),
            // The number of arguments, before what they hold is used.
            (
                "def f(x){1;}def main(w,h){var a;a=drawLine(1,2,3,4);f(a,destroyShape(a));}",
                "20@52 s12",
                "30@52 s12",
            ),
            // A call to main is 20 and uses nothing, whatever its arguments.
            (
                "def f(){return main(1,2);}def main(w,h){f();}",
                "20@8 s6",
                "81@8 s6",
            ),
            // Their number before the parameters' names.
            ("def f(a,a){1;}def main(w,h){f(1);}", "20@28 s3", "60@28 s3"),
            // Equal names are asked at each call, not of one that is not called.
            (
                "def f(a,a){1;}def main(w,h){f(1,2);}",
                "60@28 s4",
                "60@0 s0",
            ),
            ("def f(a,a){1;}def main(w,h){1;}", "picture s2", "60@0 s0"),
            (
                "def f(a,b,a){1;}def main(w,h){if(false)f(1,2,3);}",
                "picture s2",
                "60@30 s2",
            ),
            // A parameter is asked for a destroyed shape.
            (
                "def f(x,y){1;}def main(w,h){var a;a=drawLine(1,2,3,4);f(a,destroyShape(a));}",
                "30@54 s12",
                "picture s14",
            ),
        ],
        GRANTS,
    );
    run_rows(
        &[
            // Before a call is left.
            ("def f(x){1;}def main(w,h){f();}", "20@26 s2", "81@26 s2"),
            (
                "def f(a,a){1;}def main(w,h){f(1,2);}",
                "60@28 s4",
                "81@28 s4",
            ),
            ("def f(){1;}def main(w,h){f(1/0);}", "70@25 s5", "81@25 s5"),
            ("def main(w,h){foo();}", "20@14 s2", "81@14 s2"),
            // After it: the parameters.
            (
                "def f(x,y){1;}def main(w,h){var a;a=drawLine(1,2,3,4);f(a,destroyShape(a));}",
                "81@54 s12",
                "30@54 s12",
            ),
            // A library call takes none.
            (
                "def main(w,h){w=drawText(getShapeXCoordinate(drawBox(1,2,3,4)),1,\"a\");}",
                "picture s10",
                "81@14 s10",
            ),
        ],
        calls(1),
    );
    // Each parameter is asked 30, then takes its copy, before the next.
    let three = "def f(x,y,z){1;}def main(w,h){var a;a=drawLine(1,2,3,4);\
                 f(drawLine(1,2,3,4),a,destroyShape(a));}";
    run_rows(&[(three, "76@56 s17", "30@56 s17")], shapes(3));
    run_rows(&[(three, "30@56 s17", "76@56 s17")], shapes(4));
    let destroyed_first = "def f(x,y,z){1;}def main(w,h){var a;a=drawLine(1,2,3,4);\
                           f(a,drawLine(1,2,3,4),destroyShape(a));}";
    run_rows(&[(destroyed_first, "30@56 s17", "76@56 s17")], shapes(3));
    // 81 goes before a parameter's 76.
    let grants = Grants {
        shapes: 1,
        ..calls(1)
    };
    let shape = "def f(x){1;}def main(w,h){f(drawLine(1,2,3,4));}";
    run_rows(&[(shape, "81@26 s7", "76@26 s7")], grants);
    run_rows(&[(shape, "76@26 s7", "81@26 s7")], shapes(1));
}

#[test]
fn steps_and_places() {
    run_rows(
        &[
            // Parameters, a procedure's braces and an implied return count none.
            (
                "def f(x){1;}def main(w,h){f(1);}",
                "picture s5",
                "picture s6",
            ),
            ("def f(){1;}def main(w,h){f();}", "picture s4", "picture s5"),
            // Errors in a called procedure have its statement's place.
            ("def f(){w;}def main(w,h){f();}", "50@8 s4", "50@25 s4"),
            // After the return the calling statement is under way again.
            ("def f(){1;}def main(w,h){f()+x;}", "50@25 s6", "50@8 s6"),
            (
                "def f(){return true;}def main(w,h){while(f())x;}",
                "50@45 s6",
                "50@8 s6",
            ),
            (
                "def f(){return 1;}def main(w,h){if(f())x;}",
                "20@32 s4",
                "20@8 s4",
            ),
            (
                "def f(){return 1;}def main(w,h){w=[0];w.f()=1/0;}",
                "70@38 s11",
                "70@8 s11",
            ),
        ],
        GRANTS,
    );
}

#[test]
fn calls_under_way() {
    let fewer = |program: &str, enough: u64, steps: u64, fewer: &str| {
        let found = |grants| short(&draw(program.as_bytes(), 20, 20, grants, OUT_LENGTH));
        assert_eq!(
            found(calls(enough)),
            format!("picture s{steps}"),
            "{program}"
        );
        assert_eq!(found(calls(enough - 1)), fewer, "{program}");
    };
    // A call is not under way while its arguments are evaluated.
    fewer(
        "def g(x){return x;}def main(w,h){g(g(1));}",
        2,
        8,
        "81@33 s4",
    );
    // A return gives its call back before anything else in the caller.
    fewer("def f(){1;}def main(w,h){f()==f();}", 2, 8, "81@25 s3");
    fewer(
        "def f(){return g();}def g(){1;}def main(w,h){f();g();}",
        3,
        10,
        "81@8 s4",
    );
    // 64 are the most, main among them.
    let deep = "def f(n){if(n>0)f(n-1);}def main(w,h){f(62);}";
    fewer(deep, 64, 3 + 62 * 9 + 4, "81@16 s561");
    let deeper = deep.replace("62", "63");
    assert_eq!(short(&drawn(&deeper)), format!("81@16 s{}", 3 + 63 * 9));
    let endless = "def f(){f();}def main(w,h){f();}";
    assert_eq!(short(&drawn(endless)), "81@8 s128");
    let mutual = "def f(){g();}def g(){f();}def main(w,h){f();}";
    assert_eq!(short(&drawn(mutual)), "81@8 s128");
    // Any number one after the other.
    let many = "def f(){1;}def main(w,h){var i;i=0;while(i<1000){f();i=i+1;}}";
    let found = draw(many.as_bytes(), 20, 20, calls(2), OUT_LENGTH);
    assert_eq!(short(&found), format!("picture s{}", 3 + 1_000 * 13 + 4));
}

#[test]
fn values_handed_over() {
    run_rows(
        &[
            // Without return: none. With one: its value, from any depth.
            (
                "def f(){1;}def main(w,h){if(f()==none)w=none/1;}",
                "20@38 s10",
                "picture s6",
            ),
            (
                "def f(){while(true){if(true){return 7;}}}def main(w,h){if(f()==7)w=none/1;}",
                "20@65 s16",
                "picture s12",
            ),
            // A return ends its own call only.
            (
                "def f(){return 1;2;}def main(w,h){f();x;}",
                "50@38 s6",
                "picture s4",
            ),
            // A shape's copy is another shape.
            (
                "def f(x){destroyShape(x);}def main(w,h){var a;a=drawBox(1,2,3,4);f(a);a;}",
                "picture s15",
                "30@71 s15",
            ),
            // A table is shared.
            (
                "def f(t){t.1=2;}def main(w,h){w=[0];f(w);w.1;}",
                "picture s14",
                "20@41 s14",
            ),
            // A parameter may be assigned, and the argument stays.
            (
                "def f(x){x=x+1;}def main(w,h){f(w);if(w!=20)x;}",
                "picture s11",
                "50@46 s13",
            ),
            // A returned shape is the very shape, not a copy.
            (
                "def f(t){return t.1;}def main(w,h){w=[0];w.1=drawBox(1,2,3,4);destroyShape(f(w));w.1;}",
                "30@81 s23",
                "picture s23",
            ),
            // Handed back and destroyed before an operator uses it.
            (
                "def f(t){return t.1;}def main(w,h){w=[0];w.1=drawBox(1,2,3,4);f(w)+destroyShape(w.1);}",
                "30@62 s23",
                "20@62 s23",
            ),
        ],
        GRANTS,
    );
    // A returned shape is not copied; assigning it in the caller copies it.
    let returned = "def f(){var s;s=drawLine(1,2,3,4);return s;}def main(w,h){var a;a=f();}";
    run_rows(&[(returned, "picture s12", "76@64 s12")], shapes(3));
    run_rows(&[(returned, "76@64 s12", "picture s12")], shapes(2));
    let unused = "def f(){var s;s=drawLine(1,2,3,4);return s;}def main(w,h){f();}";
    run_rows(&[(unused, "picture s11", "76@14 s8")], shapes(2));
}

#[test]
fn variables_of_each_call() {
    run_rows(
        &[
            ("def f(){w;}def main(w,h){f();}", "50@8 s4", "picture s4"),
            (
                "def f(){a=1;}def main(w,h){var a;f();}",
                "50@8 s5",
                "picture s5",
            ),
            // Each call has its own.
            (
                "def f(){var a;}def main(w,h){var a;f();f();}",
                "picture s7",
                "60@8 s4",
            ),
            (
                "def f(n){var a;a=n;if(n>0)f(n-1);if(a!=n)x;}def main(w,h){f(3);}",
                "picture s62",
                "60@9 s13",
            ),
            (
                "def f(x){var x;}def main(w,h){f(1);}",
                "60@9 s4",
                "picture s4",
            ),
            (
                "def f(){var a;var a;}def main(w,h){f();}",
                "60@14 s4",
                "picture s4",
            ),
            // They are gone after the call.
            (
                "def f(){var a;}def main(w,h){f();a;}",
                "50@33 s5",
                "picture s5",
            ),
            // Names of procedures and variables are apart.
            (
                "def a(){return 1;}def main(w,h){var a;a=a();}",
                "picture s5",
                "60@32 s1",
            ),
            (
                "def f(f){return f;}def main(main,h){f(main);}",
                "picture s5",
                "20@36 s3",
            ),
        ],
        GRANTS,
    );
    // Only main's variables make the picture, in the order of their
    // declarations.
    let program = "def f(x){var b;b=drawBox(1,2,3,4);return b>>x;}\
                   def main(w,h){var a;f(1);a=f(2);h=f(3);}";
    assert_eq!(
        shape_lines(&drawn(program)),
        "<rect x=\"4\" y=\"2\" width=\"3\" height=\"4\"/>\n\
         <rect x=\"3\" y=\"2\" width=\"3\" height=\"4\"/>\n"
    );
}

#[test]
fn clearing_under_calls() {
    run_rows(
        &[
            // It reaches the variables of all calls under way.
            (
                "def f(){clearScene();}def main(w,h){var a;a=drawBox(1,2,3,4);f();a;}",
                "30@65 s13",
                "picture s13",
            ),
            (
                "def f(x){g();x;}def g(){clearScene();}def main(w,h){f(drawBox(1,2,3,4));}",
                "30@13 s13",
                "picture s13",
            ),
            // A waiting argument that a variable holds is destroyed.
            (
                "def f(x,y){1;}def g(){return clearScene();}def main(w,h){w=drawBox(1,2,3,4);f(w,g());}",
                "30@76 s12",
                "picture s14",
            ),
            // A fresh one lives.
            (
                "def f(x,y){1;}def g(){return clearScene();}def main(w,h){f(drawBox(1,2,3,4),g());}",
                "picture s12",
                "30@57 s10",
            ),
            // A call that is over has no variables.
            (
                "def f(){var s;s=drawBox(1,2,3,4);return s;}def main(w,h){w=[0];w.1=f();clearScene();w.1;}",
                "picture s22",
                "30@84 s22",
            ),
        ],
        GRANTS,
    );
}

#[test]
fn names_left_out_may_be_defined() {
    let left_out = [
        "sin",
        "cos",
        "tan",
        "arcsin",
        "arccos",
        "arctan",
        "eval",
        "instanceOf",
        "drawgroup",
        "forEach",
        "each",
        "In",
        "dog",
        "else",
        "w",
        "drawline",
    ];
    for name in left_out {
        let program = format!("def {name}(x){{return x+1;}}def main(w,h){{w={name}(1);}}");
        assert_eq!(short(&check(program.as_bytes())), "well formed", "{name}");
        assert_eq!(short(&drawn(&program)), "picture s7", "{name}");
    }
}

#[test]
fn questions_about_main() {
    // At place 0 wherever main stands, before the first step.
    let without_steps = Grants { steps: 0, ..GRANTS };
    for (program, expected) in [
        ("def f(){1;}def main(w){1;}", "20@0 s0"),
        ("def f(){1;}def main(a,a){1;}", "60@0 s0"),
        ("def f(){1;}def main(a,a,a){1;}def g(){1;}", "20@0 s0"),
    ] {
        for grants in [GRANTS, without_steps, calls(1)] {
            let answer = draw(program.as_bytes(), 20, 20, grants, OUT_LENGTH);
            assert_eq!(short(&answer), expected, "{program}");
        }
        assert_eq!(short(&check(program.as_bytes())), "well formed");
    }
}

/// The events of a drawing.
fn events(program: &str) -> Vec<Event> {
    run_specified(Operation::Draw, program.as_bytes(), 20, 20, 1_000).events
}

#[test]
fn what_a_call_takes() {
    let step = |place| Event::Taken(Taking::Step, place);
    let call = |place| Event::Taken(Taking::Call, place);
    let shape = |place| Event::Taken(Taking::Shape, place);
    let mut found = events("def f(x){return x;}def main(w,h){f(drawText(1,2,\"a\"));}");
    assert!(matches!(
        found.pop(),
        Some(Event::Taken(Taking::Picture(_), 0))
    ));
    assert_eq!(
        found,
        [
            // Main's call, at place 0.
            call(0),
            step(33),
            step(33),
            step(33),
            step(33),
            step(33),
            step(33),
            shape(33),
            // The call, then its parameter's copy, at the calling statement.
            call(33),
            shape(33),
            step(9),
            step(9),
            Event::GaveBack,
            Event::GaveBack,
        ]
    );
    // Main's own questions come before its call.
    assert_eq!(events("def main(w){1;}"), []);
    assert_eq!(events("def main(w,w){1;}"), []);
    // An error gives nothing back.
    let found = events("def f(){x;}def main(w,h){f();}");
    assert_eq!(
        found,
        [call(0), step(25), step(25), call(25), step(8), step(8)]
    );
    // A beginning has so many events, returns among them.
    let endless = "def f(){1;}def main(w,h){while(true)f();}";
    for limit in 0..40 {
        let specified = run_specified(Operation::Draw, endless.as_bytes(), 20, 20, limit);
        assert_eq!(specified.events.len(), limit);
    }
}
