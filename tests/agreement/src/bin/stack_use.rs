//! How much stack a level of nesting and a call takes, by what nests. Each call runs on a thread whose stack was filled with a pattern; the deepest byte that lost the
//! pattern tells what was used. Prints a table, in bytes.

use agreement::compare::{library, Lengths};
use agreement::{text, Work};
use generator::Case;
use reference::sheet::GRANTS;
use reference::Operation;
use std::alloc::{alloc, dealloc, Layout};
use std::ffi::c_void;

const STACK: usize = 32 << 20;
const PATTERN: u8 = 0xa5;
const CALLS: usize = 64;

/// Large enough for what the C library keeps there.
#[repr(C, align(16))]
struct Attributes([u8; 128]);

extern "C" {
    fn pthread_attr_init(attributes: *mut Attributes) -> i32;
    fn pthread_attr_setstack(attributes: *mut Attributes, stack: *mut c_void, size: usize) -> i32;
    fn pthread_attr_destroy(attributes: *mut Attributes) -> i32;
    fn pthread_create(
        thread: *mut usize,
        attributes: *const Attributes,
        start: extern "C" fn(*mut c_void) -> *mut c_void,
        argument: *mut c_void,
    ) -> i32;
    fn pthread_join(thread: usize, result: *mut *mut c_void) -> i32;
}

/// A call, its slices and what it answered. For a text the operation means nothing.
struct Run {
    writes: bool,
    case: Case,
    work: Work,
    number: u64,
}

extern "C" fn start(run: *mut c_void) -> *mut c_void {
    // The thread that made it waits until this one is done.
    let run = unsafe { &mut *(run as *mut Run) };
    let (case, work) = (&run.case, &mut run.work);
    run.number = match run.writes {
        true => {
            text(
                &case.program,
                case.grants,
                &mut work.tokens,
                &mut work.code,
                &mut [],
            )
            .number
        }
        false => library(case, work, &mut []).number,
    };
    std::ptr::null_mut()
}

/// The number that a call answers and the stack that it uses.
fn used(operation: Operation, program: &str) -> (u64, usize) {
    used_by(false, operation, program)
}

/// The same of a call that asks for the text. It is lent no out slice, so it is 82.
fn used_for_text(program: &str) -> usize {
    let (number, bytes) = used_by(true, Operation::Check, program);
    assert_eq!(number, 82);
    bytes
}

fn used_by(writes: bool, operation: Operation, program: &str) -> (u64, usize) {
    let lengths = Lengths::needed(GRANTS);
    let mut run = Run {
        writes,
        case: Case {
            operation,
            width: 20,
            height: 20,
            grants: GRANTS,
            out_length: 0,
            program: program.as_bytes().to_vec(),
        },
        work: Work {
            tokens: vec![0; lengths.tokens],
            code: vec![0; lengths.code],
            words: vec![0; lengths.words],
            texts: vec![0; lengths.texts],
        },
        number: 0,
    };
    let layout = Layout::from_size_align(STACK, 4096).expect("a layout");
    // The stack is this thread's until the other one starts and again once it is joined.
    let untouched = unsafe {
        let stack = alloc(layout);
        assert!(!stack.is_null(), "no memory");
        stack.write_bytes(PATTERN, STACK);
        let mut attributes = Attributes([0; 128]);
        let mut thread = 0;
        let argument = (&mut run as *mut Run).cast();
        let mut failed = pthread_attr_init(&mut attributes);
        failed |= pthread_attr_setstack(&mut attributes, stack.cast(), STACK);
        failed |= pthread_create(&mut thread, &attributes, start, argument);
        assert_eq!(failed, 0, "no thread");
        pthread_join(thread, std::ptr::null_mut());
        pthread_attr_destroy(&mut attributes);
        let bytes = std::slice::from_raw_parts(stack, STACK);
        let untouched = bytes.iter().take_while(|byte| **byte == PATTERN).count();
        dealloc(stack, layout);
        untouched
    };
    (run.number, STACK - untouched)
}

/// What nests: its name, what opens its levels, what stands before and behind the inside, what closes them, and how many levels it opens.
struct Nest {
    name: &'static str,
    open: &'static str,
    before: &'static str,
    behind: &'static str,
    close: &'static str,
    levels: usize,
}

const fn expression(name: &'static str, open: &'static str, close: &'static str) -> Nest {
    Nest {
        name,
        open,
        before: "",
        behind: "",
        close,
        levels: 1,
    }
}

const fn statement(name: &'static str, open: &'static str, close: &'static str) -> Nest {
    Nest {
        name,
        open,
        before: "return ",
        behind: ";",
        close,
        levels: 1 + close.len(),
    }
}

const NESTS: [Nest; 22] = [
    expression("`(…)`", "(", ")"),
    expression("`[…]`", "[", "]"),
    expression("`f(…)`", "f(", ")"),
    expression("`1+(…)`", "1+(", ")"),
    expression("`(…)+1`", "(", "+1)"),
    expression("`t.(…)`", "w.(", ")"),
    expression("`1+t.(…)`", "1+w.(", ")"),
    expression("`1+t.[…]`", "1+w.[", "]"),
    expression("`1+t.f(…)`", "1+w.f(", ")"),
    expression("`t.(…)+1`", "w.(", ")+1"),
    expression("`(…).1+1`", "(", ").1+1"),
    expression("`[…].1+1`", "[", "].1+1"),
    expression("`f(…).1+1`", "f(", ").1+1"),
    expression("`f(1,…)`", "f(1,", ")"),
    expression("`1+t.f(1,…)`", "1+w.f(1,", ")"),
    Nest {
        levels: 1,
        ..statement("`{…}`", "{", "}")
    },
    statement("`if(true)…`", "if(true)", ""),
    statement("`while(true)…`", "while(true)", ""),
    statement("`if(true){…}`", "if(true){", "}"),
    statement("`while(true){…}`", "while(true){", "}"),
    statement("`foreach x in g do …`", "foreach x in w.0 do ", ""),
    statement("`foreach x in g do{…}`", "foreach x in w.0 do{", "}"),
];

/// A table with a group in a group, for what goes through one.
const TABLE: &str = "w=[0];h=drawLine(1,2,3,4);h=drawGroup(h);h=drawGroup(h);w.0=h;";

/// A statement that nests so many levels around an inside, which is an expression.
fn nested(nest: &Nest, levels: usize, inside: &str) -> String {
    let times = levels / nest.levels;
    let (open, close) = (nest.open.repeat(times), nest.close.repeat(times));
    let end = if nest.behind.is_empty() { ";" } else { "" };
    format!("{open}{}{inside}{}{close}{end}", nest.before, nest.behind)
}

/// A program whose main nests so many levels around an inside.
fn program(nest: &Nest, levels: usize, inside: &str) -> String {
    format!("def main(w,h){{{TABLE}{}}}", nested(nest, levels, inside))
}

/// A program with so many calls under way, each inside so many levels of its procedure; the call's own parenthesis is the last of them.
fn recursive(nest: &Nest, levels: usize, calls: usize) -> String {
    let call = |number: &str| nested(nest, levels - 1, &format!("d({number},w)"));
    format!(
        "def d(n,w){{if(n==0)return 1;{}}}def main(w,h){{{TABLE}{}}}",
        call("n-1"),
        call(&(calls - 2).to_string())
    )
}

/// The stack that a drawing uses. It is lent no out slice, so a picture is 80.
fn drawn(nest: &Nest, program: &str) -> usize {
    let (number, bytes) = used(Operation::Draw, program);
    assert!(matches!(number, 20 | 80), "{} is {number}", nest.name);
    bytes
}

/// What a level adds, between so few and so many of them around the same inside.
fn share(operation: Operation, nest: &Nest, few: usize, many: usize, inside: &str) -> f64 {
    let (_, shallow) = used(operation, &program(nest, few, inside));
    let (number, deep) = used(operation, &program(nest, many, inside));
    // Drawing is lent no out slice, so a picture is 80.
    assert!(matches!(number, 0 | 20 | 80), "{} is {number}", nest.name);
    (deep as f64 - shallow as f64) / (many - few) as f64
}

fn main() {
    println!(
        "| nested | reading, a level | its text, 64 levels | running, a level | drawing, 64 levels | a call in no level | a call in 64 | {CALLS} calls in 64 levels each |"
    );
    println!("|---|---|---|---|---|---|---|---|");
    // Deep enough that running it takes more than reading it, so that what is around it shows.
    let deep = format!("({}1{})", "1+w.f(".repeat(40), ")".repeat(40));
    let mut most = 0;
    for nest in &NESTS {
        let reading = share(Operation::Check, nest, 4, 64, "1");
        let running = share(Operation::Draw, nest, 2, 18, &deep);
        let written = used_for_text(&program(nest, 64, "1"));
        let whole = drawn(nest, &program(nest, 64, "1"));
        let calls = |levels, calls| drawn(nest, &recursive(nest, levels, calls));
        let each =
            |levels| calls(levels, CALLS).saturating_sub(calls(levels, CALLS / 2)) / (CALLS / 2);
        let all = calls(64, CALLS);
        most = most.max(all);
        println!(
            "| {} | {reading:.0} | {written} | {running:.0} | {whole} | {} | {} | {all} |",
            nest.name,
            each(1),
            each(64)
        );
    }
    let (_, least) = used(Operation::Draw, "def main(w,h){1;}");
    println!("\nA program without nesting uses {least}, the thread's own share among it; the worst of these {most}.");
}
