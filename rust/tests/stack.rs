//! An operation needs less stack than [`Grants::stack`] tells: the deepest programs, read and run on threads of that size.

use img::{Grants, Workspace};
use std::thread;

/// What nests: what opens its levels, what stands before and behind the inside, what closes them, and how many levels it opens.
type Nest = (
    &'static str,
    &'static str,
    &'static str,
    &'static str,
    usize,
);

const NESTS: [Nest; 18] = [
    ("(", "", "", ")", 1),
    ("[", "", "", "]", 1),
    ("g(", "", "", ")", 1),
    ("drawText(1,2,", "", "", ")", 1),
    ("1+(", "", "", ")", 1),
    ("(", "", "", "+1)", 1),
    ("w.(", "", "", ")", 1),
    ("1+w.(", "", "", ")", 1),
    ("1+w.[", "", "", "]", 1),
    ("1+w.g(", "", "", ")", 1),
    ("1+w.drawText(1,2,", "", "", ")", 1),
    ("{", "return ", ";", "}", 1),
    ("if(true)", "return ", ";", "", 1),
    ("while(true)", "return ", ";", "", 1),
    ("if(true){", "return ", ";", "}", 2),
    ("while(true){", "return ", ";", "}", 2),
    ("foreach x in w.0 do ", "return ", ";", "", 1),
    ("foreach x in w.0 do{", "return ", ";", "}", 2),
];

/// A statement with so many levels around an inside, which is an expression.
fn nested((open, before, behind, close, opens): Nest, levels: usize, inside: &str) -> String {
    let times = levels / opens;
    let end = if behind.is_empty() { ";" } else { "" };
    let (open, close) = (open.repeat(times), close.repeat(times));
    format!("{open}{before}{inside}{behind}{close}{end}")
}

/// An expression in parentheses with so many levels around an inside.
fn inner((open, _, _, close, _): Nest, levels: usize, inside: &str) -> String {
    let (open, close) = (open.repeat(levels - 1), close.repeat(levels - 1));
    format!("({open}{inside}{close})")
}

/// A program with so many calls under way, the innermost statement of each in as many levels as `around` makes of a call.
fn program(calls: usize, around: impl Fn(&str) -> String) -> String {
    let call = |number: &str| around(&format!("f({number},w)"));
    let main = match calls {
        1 => around("(1)"),
        _ => call(&(calls - 2).to_string()),
    };
    format!(
        "def f(n,w){{if(n==0)return 1;{}}}def g(x){{return x;}}def main(w,h){{w=[0];w.0=drawGroup(drawGroup(drawLine(1,2,3,4)));{main}}}",
        call("n-1")
    )
}

/// The numbers of checking, writing the text and drawing, on a thread whose stack is as large as the calls granted ask for.
fn on_a_small_stack(calls: usize, program: String) -> [u64; 3] {
    let grants = Grants {
        calls: calls as u64,
        ..Grants::IMGDRAW
    };
    let small = thread::Builder::new().stack_size(grants.stack());
    let call = move || {
        let mut workspace = Workspace::new(grants);
        let mut out = vec![0; 65_536];
        let checked = workspace.check(program.as_bytes());
        let text = workspace.text(program.as_bytes(), &mut out);
        let drawn = workspace.draw(program.as_bytes(), 20, 20, &mut out);
        [
            checked.map_or_else(|r| r.number, |()| 0),
            text.map_or_else(|r| r.number, |_| 0),
            drawn.map_or_else(|r| r.number, |_| 0),
        ]
    };
    small.spawn(call).unwrap().join().unwrap()
}

#[test]
fn the_deepest_programs_need_less_stack_than_stated() {
    for calls in [1, 2, 3, 16, 64] {
        for outer in NESTS {
            // The call's own parenthesis is the last level. A `g` on the way back may find no call left.
            let one = program(calls, |call| nested(outer, 63, call));
            let one = on_a_small_stack(calls, one);
            let ends = |drawn| matches!(drawn, 0 | 20 | 81);
            assert!(
                one[..2] == [0, 0] && ends(one[2]),
                "{calls} {outer:?}: {one:?}"
            );
            // Another kind inside, half and half.
            for kind in NESTS.iter().filter(|kind| kind.1.is_empty()) {
                let both = program(calls, |call| nested(outer, 31, &inner(*kind, 32, call)));
                let both = on_a_small_stack(calls, both);
                assert!(
                    both[..2] == [0, 0] && ends(both[2]),
                    "{calls} {outer:?} {kind:?}: {both:?}"
                );
            }
        }
    }
    let deeper = program(1, |inside| nested(NESTS[0], 64, inside));
    assert_eq!(on_a_small_stack(1, deeper), [75, 75, 75]);
}

#[test]
fn one_call_more_than_granted_is_81() {
    for calls in [2, 3, 16, 64] {
        let deep = program(calls, |call| nested(NESTS[4], 63, call));
        let first = format!("f({},w)", calls - 2);
        let deeper = deep.replace(&first, &format!("f({},w)", calls - 1));
        assert_eq!(on_a_small_stack(calls, deep)[0], 0);
        assert_eq!(on_a_small_stack(calls, deeper), [0, 0, 81]);
    }
}
