//! How many bytes of stack a level of nesting takes: programs of 32 and of 64 levels are drawn in threads with ever less stack, each in a
//! process of its own, since too little of it ends the process.

use compare::{ours, Baseline, Drawer, Drawing, SHEET};
use std::hint::black_box;
use std::process::{Command, Stdio};

/// Stack that is used up before a drawing, so that no thread is smaller than the system allows.
const BALLAST: usize = 65_536;
const PAGE: usize = 4_096;

type Program = fn(usize) -> String;

/// Kinds of nesting: a program of so many levels each.
const KINDS: [(&str, Program); 11] = [
    ("parentheses", |n| body(&around("w=", "(", "1", ")", n))),
    ("sums", |n| body(&around("w=", "1+(", "1", ")", n))),
    ("comparisons", |n| {
        body(&around("w=", "none==(", "none", ")", n))
    }),
    ("calls", |n| body(&around("", "a(", "", ")", n))),
    ("tables", |n| body(&around("", "[", "1", "]", n))),
    ("entries", |n| {
        body(&around("w=[1];w.0=0;h=", "w.(", "0", ")", n))
    }),
    ("blocks", |n| body(&around("", "{", "var a;", "}", n))),
    ("ifs", |n| body(&around("", "if(true)", "var a", "", n - 1))),
    ("whiles", |n| {
        body(&around("", "while(true)", "return 1", "", n - 1))
    }),
    // So many calls under way, and so many in 64 levels each.
    ("procedures", |n| procedures(n, "", "")),
    ("in 64 levels", |n| {
        procedures(n, &"none==(".repeat(63), &")".repeat(63))
    }),
];

/// A program with so many calls under way, each inside what stands before and behind it.
fn procedures(calls: usize, before: &str, behind: &str) -> String {
    let main = body(&format!("{before}f({}){behind}", calls - 2));
    format!("def f(n){{if(n==0)return none;return {before}f(n-1){behind};}}{main}")
}

fn body(statements: &str) -> String {
    let end = if statements.ends_with('}') { "" } else { ";" };
    format!("def main(w,h){{{statements}{end}}}")
}

fn around(front: &str, open: &str, inside: &str, close: &str, levels: usize) -> String {
    let (open, close) = (open.repeat(levels), close.repeat(levels));
    format!("{front}{open}{inside}{close}")
}

fn main() {
    let words: Vec<String> = std::env::args().skip(1).collect();
    match &words[..] {
        [] => measure(),
        [who, kind, levels, bytes] => {
            let number = |word: &String| word.parse().expect("a number");
            attempt(who, number(kind), number(levels), number(bytes));
        }
        _ => panic!("usage: stack"),
    }
}

fn measure() {
    println!("stack         bytes a level       bytes for 64 levels");
    println!("nesting       baseline    ours    baseline       ours");
    for (kind, (name, _)) in KINDS.iter().enumerate() {
        let [half, whole] = [32, 64].map(|levels| {
            ["baseline", "ours"].map(|who| {
                let absent = who == "ours" && ours(SHEET).is_none();
                (!absent).then(|| least(who, kind, levels))
            })
        });
        let level = |i: usize| shown(half[i].zip(whole[i]).map(|(a, b)| (b - a) / 32));
        print!("{name:<12}  {:>8}  {:>6}", level(0), level(1));
        println!("  {:>10}  {:>9}", shown(whole[0]), shown(whole[1]));
    }
}

fn shown(number: Option<usize>) -> String {
    number.map_or("-".to_string(), |number| number.to_string())
}

/// The least stack, in whole pages and without the ballast, with which a drawing comes to its end.
fn least(who: &str, kind: usize, levels: usize) -> usize {
    let (mut low, mut high) = (0, 16_777_216 / PAGE);
    while high - low > 1 {
        let middle = (low + high) / 2;
        if suffices(who, kind, levels, BALLAST + middle * PAGE) {
            high = middle;
        } else {
            low = middle;
        }
    }
    high * PAGE
}

fn suffices(who: &str, kind: usize, levels: usize, bytes: usize) -> bool {
    let own = std::env::current_exe().expect("the path of this program");
    let words = [kind, levels, bytes].map(|number| number.to_string());
    let status = Command::new(own)
        .arg(who)
        .args(words)
        .stderr(Stdio::null())
        .status();
    status.expect("a process").success()
}

/// Draws in a thread with so much stack.
fn attempt(who: &str, kind: usize, levels: usize, bytes: usize) {
    let program = (KINDS[kind].1)(levels).into_bytes();
    let drawing = Drawing {
        name: KINDS[kind].0,
        program: Box::leak(program.into_boxed_slice()),
        width: 20,
        height: 20,
        grants: SHEET,
    };
    let ours_is_asked = who == "ours";
    let thread = std::thread::Builder::new().stack_size(bytes);
    let drawn = thread.spawn(move || {
        let mut drawer: Box<dyn Drawer> = if ours_is_asked {
            ours(SHEET).expect("a library that draws")
        } else {
            Box::new(Baseline::new(SHEET))
        };
        let mut out = vec![0; 65_536];
        below(drawer.as_mut(), &drawing, &mut out)
    });
    let number = drawn.expect("a thread").join().expect("an answer");
    // Nested calls name no procedure, and a table is no size: 20.
    assert!(number == 0 || number == 20, "number {number}");
}

/// Draws with the ballast on the stack.
#[inline(never)]
fn below(drawer: &mut dyn Drawer, drawing: &Drawing, out: &mut [u8]) -> u64 {
    let ballast = black_box([1u8; BALLAST]);
    let answer = drawer.draw(drawing, out);
    black_box(&ballast);
    answer.number
}
