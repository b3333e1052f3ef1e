//! What must hold of programs with groups: counting agrees with the book at
//! the edge of every total, every outcome occurs, and rules that follow from
//! several others hold of any group.

use generator::case::{needed, one_less, EVENTS};
use generator::groups::program;
use generator::random::Random;
use generator::words::{GROUPS, SHAPES};
use reference::sheet::GRANTS;
use reference::{book, draw, run_specified, Answer, End, Event, Grants, Operation, Taking};
use std::collections::BTreeMap;

const DRAW: Operation = Operation::Draw;

fn text(program: &[u8]) -> String {
    String::from_utf8_lossy(program).into_owned()
}

/// The number of an answer, 0 for a picture, with its place if that is 0.
fn name(answer: &Answer) -> String {
    match answer {
        Answer::Number {
            number, place: 0, ..
        } => format!("{number} at 0"),
        Answer::Number { number, .. } => number.to_string(),
        _ => "drawn".to_string(),
    }
}

// Would catch a taking that is asked at another moment than it is listed, at
// what each run takes and one below it for each kind.
#[test]
fn counting_agrees_with_the_book_at_the_edges() {
    let mut counts: BTreeMap<String, usize> = BTreeMap::new();
    for seed in 0..3_000 {
        let program = program(&mut Random::new(seed));
        let specified = run_specified(DRAW, &program, 20, 20, EVENTS);
        let exact = needed(&specified.events);
        let mut all = one_less(exact);
        if specified.end != End::Cut {
            all.push(exact);
            all.push(GRANTS);
        }
        for grants in all {
            let booked = book(&specified, grants, 1 << 20);
            let answer = draw(&program, 20, 20, grants, 1 << 20);
            assert_eq!(Some(&answer), booked.as_ref(), "{}", text(&program));
            *counts.entry(name(&answer)).or_default() += 1;
        }
    }
    for (outcome, least) in [
        ("drawn", 1_000),
        ("20", 1_000),
        ("30", 500),
        ("50", 100),
        ("60", 100),
        ("70", 100),
        ("76", 2_000),
        ("77", 2_000),
        ("78", 20),
        ("79", 1_000),
        ("79 at 0", 500),
        ("81", 20),
    ] {
        let count = counts.get(outcome).copied().unwrap_or(0);
        assert!(count >= least, "{outcome}: {count} of at least {least}");
    }
}

// Would catch a shortage along the way that is told at another moment: each
// of the takings of a group is lacking once.
#[test]
fn every_taking_is_lacking_once() {
    let mut lacking = 0;
    for seed in 0..60 {
        let program = program(&mut Random::new(seed));
        let specified = run_specified(DRAW, &program, 20, 20, 600);
        let mut seen = Grants::LEAST;
        for event in &specified.events {
            let (count, grants) = match event {
                Event::Taken(Taking::Step, _) => {
                    let steps = seen.steps;
                    (&mut seen.steps, Grants { steps, ..GRANTS })
                }
                Event::Taken(Taking::Shape, _) => {
                    let shapes = seen.shapes;
                    (&mut seen.shapes, Grants { shapes, ..GRANTS })
                }
                Event::Taken(Taking::Entry, _) => {
                    let entries = seen.entries;
                    (&mut seen.entries, Grants { entries, ..GRANTS })
                }
                _ => continue,
            };
            *count += 1;
            let booked = book(&specified, grants, 1 << 20);
            let answer = draw(&program, 20, 20, grants, 1 << 20);
            assert_eq!(Some(answer), booked, "{}", text(&program));
            lacking += 1;
        }
    }
    assert!(lacking > 3_000, "only {lacking} takings");
}

/// The lines of the shapes that a body draws.
fn lines(body: &str) -> String {
    let program = format!("def main(w,h){{{body}}}");
    match draw(program.as_bytes(), 20, 20, GRANTS, 1 << 20) {
        Answer::Picture { bytes, .. } => String::from_utf8(bytes).unwrap(),
        other => panic!("{other:?}: {body}"),
    }
}

/// Some groups, made of a and b, of each other and of other shapes.
fn groups(random: &mut Random) -> String {
    let mut body = "var a;a=drawBox(1,2,3,4);var b;b=drawText(5,6,\"b\");var g;var k;".to_string();
    body.push_str(&format!(
        "g={};k={};",
        random.pick(&GROUPS),
        random.pick(&GROUPS)
    ));
    for _ in 0..random.below(5) {
        body.push_str(match random.below(6) {
            0 => "g=drawGroup(g,k);",
            1 => "k=drawGroup(g,g);",
            2 => "g=drawGroup(k,a);",
            3 => "k=drawGroup(b,g,b);",
            4 => "g=drawGroup();",
            _ => "k=g;",
        });
        if random.chance(400) {
            let shape = random.pick(&SHAPES);
            body.push_str(&format!("g=drawGroup(g,{shape});"));
        }
        if random.chance(150) {
            let more = *random.pick(&["foreach x in k do 1;", "g=g+0;", "k=k*1;"]);
            body.push_str(more);
        }
    }
    body
}

// Would catch a foreach that goes through a group in another order than the
// picture, that binds a group or leaves something out.
#[test]
fn foreach_collects_what_the_picture_shows() {
    for seed in 0..500 {
        let mut random = Random::new(seed);
        let body = groups(&mut random);
        let destroyed = *random.pick(&["", "destroyShape(a);", "destroyShape(b);"]);
        let alone = "w=drawGroup(g,k);g=none;k=none;a=none;b=none;x=none;";
        let shown = lines(&format!("var x;{body}{destroyed}{alone}"));
        // One line at a time, in a flat group.
        let collected = lines(&format!(
            "var x;{body}{destroyed}{alone}var t;t=[0];t.0=drawGroup();\
             foreach x in w do t.0=drawGroup(t.0,x+0);w=t.0;x=none;"
        ));
        assert_eq!(collected, shown, "{body}{destroyed}");
    }
}

// Would catch an operator that loses, doubles or reorders components, and an
// equality that does not see it.
#[test]
fn moved_there_and_back() {
    for seed in 0..500 {
        let mut random = Random::new(seed);
        let body = groups(&mut random);
        let destroyed = *random.pick(&["", "destroyShape(a);", "destroyShape(b);"]);
        let (there, back) = *random.pick(&[("+7", "-7"), (">>9", "<<9"), ("*-1", "*-1")]);
        let same =
            format!("{body}{destroyed}w=(g{there}){back};if(w!=g)1/0;if(g!=w)1/0;if(g!=g)1/0;");
        let shown = lines(&format!("{same}g=none;"));
        let itself = lines(&format!("{body}{destroyed}w=g;g=none;"));
        assert_eq!(shown, itself, "{same}");
        // Moved only there, it is equal only if there is nothing to see.
        let moved = format!("{body}{destroyed}w=g+7;if(w==g){{foreach x in w do 1/0;}}");
        lines(&moved);
    }
}

// Would catch a component left over: a destroyed group is empty through every
// copy, and so are its components.
#[test]
fn destroying_empties_every_copy() {
    for seed in 0..500 {
        let mut random = Random::new(seed);
        let body = groups(&mut random);
        let destroying = *random.pick(&[
            "destroyShape(g);",
            "foreach y in g do destroyShape(y);",
            "destroyShape(drawGroup(drawGroup(g)));",
        ]);
        lines(&format!(
            "{body}w=g;h=drawGroup(g,g);{destroying}foreach x in w do 1/0;foreach x in h do 1/0;"
        ));
    }
}
