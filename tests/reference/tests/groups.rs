//! Groups and foreach, as section 3.3 of document 002 and request 6 of
//! document 02 have them. Every number here was worked out by hand.
//!
//! In programs, `L1` stands for `drawLine(1,2,3,4)` and `L2` for
//! `drawLine(5,6,7,8)` (17 bytes, 5 steps, 1 shape each), `G` for `drawGroup`.

mod common;

use common::{boolean, main_of, shape_lines, short};
use reference::sheet::{GRANTS, OUT_LENGTH};
use reference::{check, draw, run_specified, Answer, Event, Grants, Operation, Taking};

fn spelled(text: &str) -> String {
    text.replace("G(", "drawGroup(")
        .replace("L1", "drawLine(1,2,3,4)")
        .replace("L2", "drawLine(5,6,7,8)")
}

/// A whole program, or the body of main.
fn program(text: &str) -> Vec<u8> {
    let text = spelled(text);
    match text.starts_with("def ") {
        true => text.into_bytes(),
        false => main_of(&text),
    }
}

fn drawn(text: &str, grants: Grants) -> Answer {
    draw(&program(text), 20, 20, grants, OUT_LENGTH)
}

/// What each program gives with the grants of `imgdraw`.
fn run_rows(rows: &[(&str, &str)]) {
    for (text, expected) in rows {
        assert_eq!(&short(&drawn(text, GRANTS)), expected, "{text}");
    }
}

fn steps(steps: u64) -> Grants {
    Grants { steps, ..GRANTS }
}

/// So many shapes and entries, and no text bytes.
fn only(shapes: u64, entries: u64) -> Grants {
    Grants {
        shapes,
        entries,
        text_bytes: 0,
        ..GRANTS
    }
}

/// A program gives this with exactly so many shapes and entries, and takes
/// no fewer.
fn takes(text: &str, shapes: u64, entries: u64, expected: &str) {
    let found = |grants| short(&drawn(text, grants));
    assert_eq!(found(only(shapes, entries)), expected, "{text}");
    if shapes > 0 {
        let few = found(only(shapes - 1, entries));
        assert!(few.starts_with("76@"), "{text}: {few}");
    }
    if entries > 0 {
        let few = found(only(shapes, entries - 1));
        assert!(few.starts_with("77@"), "{text}: {few}");
    }
}

fn line(x1: i32, y1: i32, x2: i32, y2: i32) -> String {
    format!("<line x1=\"{x1}\" y1=\"{y1}\" x2=\"{x2}\" y2=\"{y2}\"/>\n")
}

/// The lines that a program draws.
fn lines(text: &str) -> String {
    shape_lines(&drawn(text, GRANTS))
}

#[test]
fn what_a_group_takes() {
    // A shape, then an entry for each component, and no steps for these.
    takes("G();", 1, 0, "picture s2");
    takes("G(L1,L1);", 3, 2, "picture s12");
    for (shapes, entries, expected) in [
        (0, 0, "76@14 s7"),
        (1, 0, "76@14 s12"),
        (2, 0, "76@14 s12"),
        (2, 2, "76@14 s12"),
        (3, 0, "77@14 s12"),
        (3, 1, "77@14 s12"),
    ] {
        let found = short(&drawn("G(L1,L1);", only(shapes, entries)));
        assert_eq!(found, expected, "{shapes} shapes, {entries} entries");
    }
    // The same shape twice takes two entries.
    takes("var a;a=L1;G(a,a);", 3, 2, "picture s11");
    // The takings one by one: the line's, the group's, the copy's.
    let found = run_specified(Operation::Draw, &program("w=G(L1,L1);"), 20, 20, 100).events;
    let step = Event::Taken(Taking::Step, 14);
    let shape = Event::Taken(Taking::Shape, 14);
    let entry = Event::Taken(Taking::Entry, 14);
    let mut wanted = vec![Event::Taken(Taking::Call, 0), step, step];
    for _ in 0..2 {
        wanted.extend([step, step, step, step, step, shape]);
    }
    wanted.extend([shape, entry, entry, shape, entry, entry]);
    // The picture's steps stand at place 0, behind main's return.
    wanted.push(Event::GaveBack);
    wanted.extend([Event::Taken(Taking::Step, 0); 2]);
    wanted.push(Event::Taken(Taking::Picture(213), 0));
    assert_eq!(found, wanted);
}

#[test]
fn what_a_copy_takes() {
    takes("w=G(L1);", 3, 2, "picture s8");
    assert_eq!(short(&drawn("w=G(L1);", only(2, 2))), "76@14 s7");
    assert_eq!(short(&drawn("w=G(L1);", only(3, 1))), "77@14 s7");
    // An entry for a destroyed component too.
    let destroyed = "var a;a=L1;w=G(a);destroyShape(a);h=w;";
    takes(destroyed, 5, 3, "picture s15");
    assert_eq!(short(&drawn(destroyed, only(5, 2))), "77@71 s15");
    // The components are not copied.
    takes("w=G(L1,G(L1,L1));", 6, 6, "picture s22");
    // A parameter is copied, a returned group is not.
    let handed = "def f(x){1;}def main(w,h){f(G(L1,L1));}";
    takes(handed, 4, 4, "picture s15");
    assert_eq!(short(&drawn(handed, only(3, 4))), "76@26 s13");
    assert_eq!(short(&drawn(handed, only(4, 3))), "77@26 s13");
    takes(
        "def f(){return G(L1);}def main(w,h){f();}",
        2,
        1,
        "picture s9",
    );
    // A parameter's entries come before the next is asked.
    let three = "def f(x,y,z){1;}def main(w,h){var a;a=L1;f(G(a),a,destroyShape(a));}";
    assert_eq!(short(&drawn(three, only(9, 1))), "77@56 s14");
    assert_eq!(short(&drawn(three, only(9, 2))), "30@56 s14");
    // A table shares.
    takes("w=[0];w.1=G(L1);", 2, 2, "picture s12");
}

#[test]
fn what_draw_group_asks() {
    run_rows(&[
        ("G(1);", "20@14 s3"),
        ("G(L1,none);", "20@14 s8"),
        ("G([0]);", "20@14 s4"),
        // 30 before 20.
        ("var a;a=L1;G(a,destroyShape(a));", "30@40 s12"),
        ("var a;a=L1;G(1,a,destroyShape(a));", "30@40 s13"),
        // Arguments are evaluated first.
        ("G(1,1/0);", "70@14 s6"),
        // It is the library's name now.
        ("def G(){1;}def main(w,h){1;}", "60@0 s0"),
        ("var drawGroup;G(L1);", "picture s8"),
    ]);
    // 20 before 76.
    assert_eq!(short(&drawn("G(none);", only(0, 0))), "20@14 s3");
}

#[test]
fn operators_ask() {
    run_rows(&[
        ("G()/0;", "70@14 s4"),
        // Before any component is reached.
        ("G(L1)/0;", "70@14 s9"),
        // Kinds come first.
        ("G()%0;", "20@14 s4"),
        ("G()%1;", "20@14 s4"),
        ("G()++\"a\";", "20@14 s4"),
        ("G()<1;", "20@14 s4"),
        ("G()>G();", "20@14 s4"),
        ("1+G();", "20@14 s4"),
        ("G()+G();", "20@14 s4"),
        ("G()+none;", "20@14 s4"),
        // 30 before both.
        ("h=G(L1);h/destroyShape(h);", "30@45 s13"),
        ("h=G();h+destroyShape(h);", "30@28 s7"),
    ]);
}

#[test]
fn operators_make_components_first() {
    let moved = "w=G(L1,L2)+10;";
    takes(moved, 7, 6, "picture s18");
    assert_eq!(lines(moved), line(1, 12, 3, 14) + &line(5, 16, 7, 18));
    for (shapes, entries, expected) in [
        // Its step before a component's shape.
        (3, 6, "76@14 s15"),
        (4, 6, "76@14 s16"),
        // The group's own shape comes last, its entries behind it.
        (5, 0, "77@14 s13"),
        (5, 2, "76@14 s16"),
        (6, 2, "77@14 s16"),
        (6, 3, "77@14 s16"),
        // The copy.
        (6, 4, "76@14 s16"),
        (7, 4, "77@14 s16"),
    ] {
        let found = short(&drawn(moved, only(shapes, entries)));
        assert_eq!(found, expected, "{shapes} shapes, {entries} entries");
    }
    let few = Grants {
        steps: 14,
        ..only(3, 6)
    };
    assert_eq!(short(&drawn(moved, few)), "79@14 s14");
    // A nested group counts its step, then its own components are made, and
    // only then does it take its shape.
    let nested = "w=G(L1,G(L2))>>1;";
    takes(nested, 9, 8, "picture s21");
    assert_eq!(lines(nested), line(2, 2, 4, 4) + &line(6, 6, 8, 8));
    for (shapes, expected) in [(4, "76@14 s16"), (5, "76@14 s18"), (6, "76@14 s18")] {
        assert_eq!(short(&drawn(nested, only(shapes, 8))), expected);
    }
    // Every operator.
    for (operator, expected) in [
        ("+2", line(1, 4, 3, 6)),
        ("-2", line(1, 0, 3, 2)),
        ("*2", line(2, 4, 6, 8)),
        ("/2", line(0, 1, 1, 2)),
        (">>2", line(3, 2, 5, 4)),
        ("<<2", line(-1, 2, 1, 4)),
    ] {
        assert_eq!(lines(&format!("w=G(L1){operator};")), expected);
    }
    takes("w=G();w=w+1;", 4, 0, "picture s6");
}

#[test]
fn operators_pass_over_destroyed_components() {
    let shorter = "var a;a=L1;var g;g=G(a,L2);destroyShape(a);w=g*2;g=none;";
    takes(shorter, 8, 6, "picture s27");
    assert_eq!(lines(shorter), line(10, 12, 14, 16));
    assert_eq!(short(&drawn(shorter, only(9, 5))), "77@95 s24");
    // One that is there twice is made twice.
    let twice = "var a;a=L1;w=G(a,a)+1;a=none;";
    takes(twice, 7, 6, "picture s19");
    assert_eq!(lines(twice), line(1, 3, 3, 5).repeat(2));
    // A destroyed group inside goes with all in it.
    run_rows(&[(
        "var g;g=G(L1,L1);h=G(g,L2);destroyShape(g);h=h+1;",
        "picture s32",
    )]);
}

#[test]
fn destroying() {
    run_rows(&[
        // No step for the group itself.
        ("destroyShape(G());", "picture s3"),
        ("var g;g=G(L1,L2);destroyShape(g);", "picture s18"),
        ("var g;g=G(L1,L2);destroyShape(g);g;", "30@85 s20"),
        // One that is there twice is destroyed the second time.
        ("var a;a=L1;destroyShape(G(a,a));", "picture s13"),
        ("var a;a=L1;destroyShape(G(G(a),a));", "picture s15"),
        ("var a;a=L1;destroyShape(G(a,G(a)));", "picture s15"),
        // All in it, depth first.
        ("destroyShape(G(L1,G(L2,L1)));", "picture s23"),
        // The components are shared, so a copy is emptied too.
        (
            "var g;var k;g=G(L1);k=g;destroyShape(k);w=g;",
            "picture s17",
        ),
        ("var a;a=L1;destroyShape(G(a));a;", "30@67 s14"),
        // A group whose component is destroyed is not destroyed itself.
        ("var a;a=L1;h=G(a);destroyShape(a);h;", "picture s15"),
        // In a table.
        ("w=[0];w.1=G(L1);destroyShape(w.1);w.1;", "30@71 s22"),
        // Returned by a procedure, which does not copy.
        (
            "def f(t){return t.1;}def main(w,h){w=[0];w.1=G(L1);destroyShape(f(w));w.1;}",
            "30@93 s25",
        ),
    ]);
    assert_eq!(lines("var g;var k;g=G(L1);k=g;destroyShape(k);w=g;"), "");
    let copy = "var g;var k;g=G(L1);k=g;destroyShape(k);w=g;";
    assert_eq!(short(&drawn(copy, steps(14))), "79@61 s14");
}

#[test]
fn clearing_the_scene() {
    run_rows(&[
        // No step for what a variable holds, one for what is in it.
        ("w=L1;h=G(L1,L2);clearScene();", "picture s22"),
        // In the picture's order: what a variable holds before the group is
        // passed over in the group.
        ("var a;a=L1;var g;g=G(a);clearScene();", "picture s13"),
        ("var g;var a;a=L1;g=G(a);clearScene();", "picture s14"),
        // Main's variables first.
        (
            "def f(x){clearScene();}def main(w,h){var a;a=L1;f(G(a));}",
            "picture s13",
        ),
        (
            "def f(g){foreach x in g do clearScene();}def main(w,h){w=G(L1);f(w);}",
            "picture s16",
        ),
        // A group that only a table holds lives, if nothing in it is held.
        ("w=[0];w.1=G(L1);clearScene();w.1;", "picture s18"),
        ("h=L1;w=[0];w.1=G(h);clearScene();w=w.1;", "picture s20"),
    ]);
}

#[test]
fn equal_groups() {
    for (expression, expected) in [
        ("G()==G()", true),
        ("G()!=G()", false),
        ("G(L1)==G(L1)", true),
        ("G(L1)==G(L2)", false),
        ("G(L1,L2)==G(L1,L2)", true),
        ("G(L1,L2)==G(L2,L1)", false),
        ("G(L1)==G(L1,L2)", false),
        ("G(L1,L2)==G(L1)", false),
        ("G()==G(G())", false),
        ("G(G())==G(G())", true),
        ("G(G(L1),L2)==G(G(L1),L2)", true),
        ("G(L1,L2)==G(G(L1,L2))", false),
        ("G(G(L1),L2)==G(L1,G(L2))", false),
        ("G(L1)==L1", false),
        ("L1!=G(L1)", true),
        ("G(L1)==none", false),
        ("none!=G()", true),
        ("(G(L1)+1)==G(drawLine(1,3,3,5))", true),
    ] {
        assert_eq!(boolean(&spelled(expression)), expected, "{expression}");
    }
    run_rows(&[
        ("G()==G();", "picture s4"),
        ("G(L1)==G(L1);", "picture s15"),
        ("G(L1)!=G(L1);", "picture s15"),
        // The first unequal pair settles it.
        ("G(L1,L1)==G(L2,L1);", "picture s25"),
        // No step for an end.
        ("G(L1)==G();", "picture s9"),
        ("G()==G(L1);", "picture s9"),
        ("G(L1)==G(L1,L2);", "picture s20"),
        // None for a group and another kind, one if they are a pair.
        ("G(L1)==L1;", "picture s13"),
        ("G(L1)==G(G(L1));", "picture s16"),
        // One for a pair of groups, before what is in them.
        ("G(G(L1))==G(G(L1));", "picture s18"),
        ("G(G(),L1)==G(G(L1),L1);", "picture s22"),
        ("G(G(L1),L2)==G(G(L1),L2);", "picture s29"),
        // No short way for a group and itself.
        ("h=G(L1,L1);h==h;", "picture s20"),
        // Kinds and destroyed shapes as ever.
        ("G()==1;", "20@14 s4"),
        ("G()==true;", "20@14 s4"),
        ("h=G(L1);h==destroyShape(h);", "30@45 s13"),
        // Destroyed components make no pair.
        (
            "var a;a=L1;var g;g=G(a,L2);destroyShape(a);g==G(L2);",
            "picture s30",
        ),
        (
            "var a;a=L1;h=G(a);destroyShape(a);if(h==G())w=L2;",
            "picture s23",
        ),
    ]);
    // The pair's step is due at its statement.
    assert_eq!(short(&drawn("G(L1)==G(L1);", steps(14))), "79@14 s14");
}

#[test]
fn no_centre() {
    run_rows(&[
        ("getShapeXCoordinate(G());", "20@14 s3"),
        ("getShapeYCoordinate(G(L1));", "20@14 s8"),
        ("drawTextOnShape(G(),\"a\");", "20@14 s4"),
        ("drawLineConnectingShapes(G(),L1);", "20@14 s8"),
        ("drawLineConnectingShapes(L1,G());", "20@14 s8"),
        // 30 before 20.
        (
            "h=G(L1);drawLineConnectingShapes(h,destroyShape(h));",
            "30@45 s13",
        ),
    ]);
    // 20 before 76.
    let found = drawn("drawTextOnShape(G(),\"a\");", only(1, 0));
    assert_eq!(short(&found), "20@14 s4");
}

#[test]
fn no_key() {
    run_rows(&[
        ("[0].G();", "20@14 s5"),
        ("[0].G()=1;", "20@14 s5"),
        // Once the value is evaluated.
        ("[0].G()=1/0;", "70@14 s7"),
        ("[0].G()=x;", "50@14 s5"),
        // It is not asked again whether it is destroyed.
        ("h=G();[0].h=destroyShape(h);", "20@28 s8"),
        // The table is asked first.
        ("1.G()=1/0;", "20@14 s2"),
    ]);
    // Before 77.
    assert_eq!(short(&drawn("[0].G()=1;", only(1, 0))), "20@14 s5");
}

#[test]
fn foreach_steps() {
    run_rows(&[
        // A step for each of the group's own, a nested group too.
        ("foreach x in G(L1,G(L1,L1)) do 1;", "picture s26"),
        ("foreach x in G(G(G(L1),G()),L2) do 1;", "picture s21"),
        ("foreach x in G(G(),G(G())) do 1;", "picture s7"),
        ("var x;foreach x in G(L1) do 1;", "picture s11"),
        // What is destroyed when it is reached is passed over, with no step.
        (
            "h=G(L1,L2);foreach x in h do destroyShape(h);",
            "picture s20",
        ),
        (
            "h=G(L1,L2);foreach x in h do destroyShape(x);",
            "picture s22",
        ),
        (
            "var g;g=G();h=G(g,G());destroyShape(g);foreach x in h do 1;",
            "picture s14",
        ),
        // Inside each other, and over the variable itself.
        (
            "h=G(L1,L2);foreach x in h do foreach y in h do 1;",
            "picture s34",
        ),
        ("var x;x=G(L1,L2);foreach x in x do 1;", "picture s21"),
        // A return leaves the procedure.
        ("foreach x in G(L1,L2) do return 1;", "picture s15"),
        (
            "def f(g){foreach x in g do return x;}def main(w,h){w=f(G(L1,L2));}",
            "picture s18",
        ),
        // It calls itself.
        (
            "def f(g,n){foreach x in g do if(n>0)f(g,n-1);}def main(w,h){f(G(L1),2);}",
            "picture s42",
        ),
    ]);
    // The last atom stays in the variable, and is drawn.
    let last = drawn("foreach x in G(L1,G(L1,L1)) do 1;", GRANTS);
    assert!(matches!(last, Answer::Picture { length: 177, .. }));
    // The steps of the loop have its place, those of the body the body's.
    let two = "foreach x in G(L1,L2) do 1;";
    for (granted, expected) in [
        (0, "79@14 s0"),
        (12, "79@14 s12"),
        (13, "79@77 s13"),
        (14, "79@77 s14"),
        (15, "79@14 s15"),
        (16, "79@77 s16"),
        (18, "picture s18"),
    ] {
        assert_eq!(short(&drawn(two, steps(granted))), expected);
    }
}

#[test]
fn foreach_binds() {
    run_rows(&[
        // Its variable is declared, with none, once the group is known.
        ("foreach x in G() do 1;x;", "picture s4"),
        ("foreach x in G() do 1;if(x==none)x/1;", "20@55 s10"),
        ("foreach x in G() do 1;var x;", "60@44 s3"),
        ("foreach x in x do 1;", "50@14 s2"),
        ("foreach w in G(L1) do w;", "picture s10"),
        (
            "def f(){foreach x in G() do 1;}def main(w,h){f();x;}",
            "50@57 s6",
        ),
        // Only a group will do.
        ("foreach x in 1 do 1;", "20@14 s2"),
        ("foreach x in none do 1;", "20@14 s2"),
        ("foreach x in [0] do 1;", "20@14 s3"),
        ("foreach x in L1 do 1;", "20@14 s6"),
        ("w=G(L1);destroyShape(w);foreach x in w do 1;", "30@61 s13"),
        // It shares the component: what destroys it shows in the group.
        (
            "h=G(L1,L2);foreach x in h do destroyShape(x);if(h==G())w=L1;",
            "picture s32",
        ),
        (
            "h=G(L1);foreach x in h do{x=L2;destroyShape(x);}h;x;",
            "30@102 s24",
        ),
        // What the body assigns does not last to the next turn.
        ("foreach x in G(L1,L2) do{x+1;x=1;}", "picture s28"),
    ]);
    // Binding takes no shape, and copies none.
    takes("var x;foreach x in G(L1) do 1;", 2, 1, "picture s11");
    takes("var x;x=G(L1,L2);foreach x in x do 1;", 4, 4, "picture s21");
    // The variable is drawn where it was declared, beside the group.
    assert_eq!(
        lines("foreach x in G(L1,L2) do 1;var a;a=L1;"),
        line(5, 6, 7, 8) + &line(1, 2, 3, 4)
    );
    assert_eq!(
        lines("var x;h=G(L2);foreach x in h do 1;"),
        line(5, 6, 7, 8).repeat(2)
    );
    run_rows(&[("h=G(L1);foreach x in h do 1;", "picture s13")]);
}

#[test]
fn the_picture() {
    let nested = "h=G(L1,G(L2,L1));";
    run_rows(&[
        (nested, "picture s22"),
        // Twice in a group: two lines and two steps.
        ("var a;a=L1;h=G(a,a);", "picture s13"),
        // A group has no line of its own.
        ("w=G();h=G(G());", "picture s6"),
        // Destroyed components are passed over.
        ("var a;a=L1;h=G(a,L2,a);destroyShape(a);", "picture s20"),
        // Only main's variables, and no tables.
        ("def f(){var g;g=G(L1);}def main(w,h){f();}", "picture s10"),
        ("w=[0];w.1=G(L1);", "picture s12"),
    ]);
    let (one, two) = (line(1, 2, 3, 4), line(5, 6, 7, 8));
    assert_eq!(lines(nested), format!("{one}{two}{one}"));
    assert_eq!(lines("var a;a=L1;h=G(a,a);"), one.repeat(3));
    assert_eq!(lines("w=G();h=G(G());"), "");
    // Its steps stand at place 0, and come before 80.
    for granted in [18, 19, 21] {
        let found = short(&drawn(nested, steps(granted)));
        assert_eq!(found, format!("79@0 s{granted}"));
        let found = draw(&program(nested), 20, 20, steps(granted), 0);
        assert_eq!(short(&found), format!("79@0 s{granted}"));
    }
    let found = draw(&program(nested), 20, 20, steps(22), 0);
    assert_eq!(
        found,
        Answer::Number {
            number: 80,
            place: 0,
            steps: 22,
            length_needed: Some(141 + 3 * 36),
        }
    );
    // A return in main comes to the same.
    assert_eq!(short(&drawn("h=G(L1);return 1;", steps(9))), "79@0 s9");
}

#[test]
fn listing_4_of_document_002() {
    let listing = "def main ( w , h ) {
  var sm1;
  sm1 = drawGroup (
          drawEllipse(10,5,4,3),
          drawLine (10,8,10,10),
          drawLine (10,10,10,12),
          drawLine (5,10,15,10),
          drawLine (6, 14,10,12),
          drawLine (14,14,10,12)
        );
  var sm2;
  sm2 = drawGroup ( ) ;
  foreach x in sm1 do
    sm2 = drawGroup (sm2, x);
  sm2 = (sm2 + 10) >> 10;
}
";
    assert_eq!(short(&drawn(listing, GRANTS)), "picture s116");
    let figure = |by: i32| {
        format!(
            "<ellipse cx=\"{}\" cy=\"{}\" rx=\"4\" ry=\"3\"/>\n",
            10 + by,
            5 + by
        ) + &line(10 + by, 8 + by, 10 + by, 10 + by)
            + &line(10 + by, 10 + by, 10 + by, 12 + by)
            + &line(5 + by, 10 + by, 15 + by, 10 + by)
            + &line(6 + by, 14 + by, 10 + by, 12 + by)
            + &line(14 + by, 14 + by, 10 + by, 12 + by)
    };
    let last = line(14, 14, 10, 12);
    assert_eq!(lines(listing), figure(0) + &figure(10) + &last);
}

/// A group doubled 40 times: 538 steps behind `var a;a=L1;var g;g=G(a);`, 530
/// behind `var g;g=G();`.
const DOUBLED: &str = "var i;i=0;while(i<40){g=G(g,g);i=i+1;}";

#[test]
fn doubled_groups() {
    let empty = format!("var g;g=G();{DOUBLED}");
    let full = format!("var a;a=L1;var g;g=G(a);{DOUBLED}");
    run_rows(&[
        // foreach passes over 2 to the 40th empty places without a step.
        (
            &format!("{empty}foreach x in g do 1;destroyShape(g);"),
            "picture s577",
        ),
        (
            &format!("{full}destroyShape(a);foreach x in g do 1;g=none;"),
            "picture s547",
        ),
        // Also those that the body empties.
        (
            &format!("{full}foreach x in g do destroyShape(x);g=none;"),
            "picture s547",
        ),
        // Everything else counts every group that it reaches.
        (&empty, "79@0 s1000000"),
        (&format!("{empty}g==g;"), "79@80 s1000000"),
        (&format!("{full}destroyShape(g);a;"), "30@123 s584"),
    ]);
    let cleared = format!("{empty}foreach x in g do 1;destroyShape(g);");
    assert_eq!(lines(&cleared), "");
    // An operator takes a shape for each, and entries: they are soon used up.
    for (grants, expected) in [
        (only(1_024, 1_024), "77@80 s"),
        (only(900, 2_000), "76@80 s"),
    ] {
        let found = short(&drawn(&format!("{empty}g+1;"), grants));
        assert!(found.starts_with(expected), "{found}");
    }
    // foreach over a living atom binds it again and again.
    let found = short(&drawn(&format!("{full}foreach x in g do 1;"), GRANTS));
    assert_eq!(found, "79@125 s1000000");
}

#[test]
fn groups_as_deep_as_there_are_shapes() {
    // Each turn takes 3 shapes, 4 entries and 17 steps.
    let chain = |turns: usize, rest: &str| {
        format!("h=G();var i;i=0;while(i<{turns}){{h=G(h,L1);i=i+1;}}{rest}")
    };
    takes(&chain(250, ""), 752, 1000, "picture s4759");
    takes(
        &chain(250, "foreach x in h do 1;h=1;"),
        752,
        1000,
        "picture s4765",
    );
    // A depth that recursion by nesting would not survive.
    let deep = 16_383;
    let largest = Grants {
        steps: 10_000_000,
        ..Grants::LARGEST
    };
    for (rest, more) in [
        ("h=1;", 2),
        ("foreach x in h do 1;h=1;", 2 + 1 + 2 * (deep - 1) + 3 + 2),
        ("h==h;h=1;", 4 + 2 * deep + 2),
        ("destroyShape(h);", 3 + 2 * deep),
        ("clearScene();", 2 + 2 * deep),
        ("", 2 * deep),
    ] {
        let text = chain(deep, rest);
        let answer = draw(&program(&text), 20, 20, largest, 1 << 30);
        let expected = format!("picture s{}", 9 + 17 * deep + more);
        assert_eq!(short(&answer), expected, "{rest}");
    }
}

#[test]
fn levels() {
    let found = |body: String| short(&check(&main_of(&body)));
    let foreach = "foreach x in w do ";
    // The body opens a level, the `in` part none.
    assert_eq!(found(format!("{}1;", foreach.repeat(64))), "well formed");
    let place = 14 + 65 * 18;
    assert_eq!(
        found(format!("{}1;", foreach.repeat(65))),
        format!("75@{place} s0")
    );
    assert_eq!(
        found(format!("{}{foreach}1;", "{".repeat(64))),
        format!("75@{} s0", 14 + 64 + 18)
    );
    // A parenthesis of the `in` part is closed before the body.
    let closed = |parens: usize| {
        let (open, close) = ("(".repeat(parens), ")".repeat(parens));
        format!("foreach x in{open}w{close}do 1;")
    };
    assert_eq!(found(closed(64)), "well formed");
    assert_eq!(found(closed(65)), format!("75@{} s0", 14 + 12 + 64));
    let last = |braces: usize, body: &str| {
        let ends = "}".repeat(braces);
        found(format!("{}{foreach}{body}{ends}", "{".repeat(braces)))
    };
    let at = |braces: usize, more: usize| 14 + braces + 18 + more;
    // Level 65 at the body's first token, if that can begin a statement.
    for body in [
        "1;",
        "w;",
        "-1;",
        "\"a\";",
        "none;",
        "true;",
        "var a;",
        "if(1)1;",
        "while(1)1;",
        "foreach y in w do 1;",
        "return 1;",
        "{1;}",
        "(1);",
        "[1];",
        "f(1);",
        "w=1;",
        "-99999999999;",
        "-1)",
        "w)",
    ] {
        assert_eq!(last(64, body), format!("75@{} s0", at(64, 0)), "{body}");
    }
    // Else 10.
    for body in [
        ")",
        "]",
        "}",
        ";",
        "in",
        "do",
        "def",
        "=",
        "+",
        "- 1;",
        "-w;",
        ".",
        ",",
        "99999999999;",
        "2147483648;",
    ] {
        assert_eq!(last(64, body), format!("10@{} s0", at(64, 0)), "{body}");
    }
    // Also if the program ends there.
    let early = format!("def main(w,h){{{}{foreach}", "{".repeat(64));
    let expected = format!("10@{} s0", at(64, 0));
    assert_eq!(short(&check(early.as_bytes())), expected);
    // One level more: the body opens the 64th, what it begins with may open
    // the 65th.
    for body in ["1;", "w=1;", "-1;", "2147483647;", "return 1;", "var a;"] {
        assert_eq!(last(63, body), "well formed", "{body}");
    }
    for (body, more) in [
        ("{1;}", 0),
        ("(1);", 0),
        ("[1];", 0),
        ("f(1);", 1),
        ("if(1)1;", 2),
        ("w=(1);", 2),
        ("foreach y in w do 1;", 18),
        ("foreach y in(w)do 1;", 12),
    ] {
        assert_eq!(last(63, body), format!("75@{} s0", at(63, more)), "{body}");
    }
    assert_eq!(last(63, ")"), format!("10@{} s0", at(63, 0)));
    assert_eq!(last(63, "-99999999999;"), format!("10@{} s0", at(63, 1)));
    // A body's level ends with it.
    assert_eq!(found("foreach x in w do{(1);}".repeat(100)), "well formed");
}
