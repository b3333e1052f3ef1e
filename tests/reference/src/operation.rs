//! Checking, drawing and the one text of a program, with all their questions
//! in order.

use crate::grammar::{self, Refusal};
use crate::picture;
use crate::run::{self, Finish};
use crate::shape::Shape;
use crate::takings::{Left, Stop};
use crate::tree::Program;
use crate::writer;
use std::cell::Cell;

/// The most bytes a program may have.
pub const PROGRAM_BYTES: usize = 32_768;
/// The most bytes a program's one text may have.
pub const TEXT_BYTES: u64 = 32_768;
/// The stack that a run may use, in bytes.
const STACK: usize = 64 << 20;

#[derive(Clone, Copy, Debug, PartialEq, Eq)]
pub enum Operation {
    Check,
    Draw,
}

/// The five granted counts. They may be out of range; the first question
/// finds that.
#[derive(Clone, Copy, Debug, PartialEq, Eq)]
pub struct Grants {
    pub steps: u64,
    pub shapes: u64,
    pub entries: u64,
    pub text_bytes: u64,
    /// Calls under way at once, main's among them.
    pub calls: u64,
}

impl Grants {
    /// No total has anything in it yet. This is no grant: one call at least
    /// is granted.
    pub const NOTHING: Grants = Grants {
        steps: 0,
        shapes: 0,
        entries: 0,
        text_bytes: 0,
        calls: 0,
    };

    /// The smallest counts within their ranges.
    pub const LEAST: Grants = Grants {
        calls: 1,
        ..Grants::NOTHING
    };

    /// The largest counts within their ranges.
    pub const LARGEST: Grants = Grants {
        steps: 4_294_967_295,
        shapes: 65_535,
        entries: 65_535,
        text_bytes: 65_535,
        calls: 64,
    };

    /// Whether no count is larger than that of `other`.
    pub fn within(&self, other: &Grants) -> bool {
        self.steps <= other.steps
            && self.shapes <= other.shapes
            && self.entries <= other.entries
            && self.text_bytes <= other.text_bytes
            && self.calls <= other.calls
    }

    /// Whether each count is within its range.
    pub fn in_range(&self) -> bool {
        Grants::LEAST.within(self) && self.within(&Grants::LARGEST)
    }
}

/// What an operation hands back.
#[derive(Clone, Debug, PartialEq, Eq)]
pub enum Answer {
    /// A picture with its bytes.
    Picture {
        length: u64,
        steps: u64,
        bytes: Vec<u8>,
    },
    WellFormed,
    /// A number of document 01's table. Only 80 and 82 tell a length.
    Number {
        number: u32,
        place: u64,
        steps: u64,
        length_needed: Option<u64>,
    },
}

impl Answer {
    /// A number that tells no length.
    pub fn number(number: u32, place: usize, steps: u64) -> Answer {
        Answer::Number {
            number,
            place: place as u64,
            steps,
            length_needed: None,
        }
    }
}

/// Checking, with all counts within their ranges.
pub fn check(program: &[u8]) -> Answer {
    match prepare(Operation::Check, program, 0, 0) {
        Ok(_) => Answer::WellFormed,
        Err(answer) => answer,
    }
}

/// Checking, with the question about the counts asked first.
pub fn check_granted(program: &[u8], grants: Grants) -> Answer {
    if grants.in_range() {
        check(program)
    } else {
        Answer::number(71, 0, 0)
    }
}

/// The one text of a program, for an out slice of `out_length` bytes, or a
/// number. All that checking asks is asked first; 82 tells the text's length.
pub fn text(program: &[u8], grants: Grants, out_length: u64) -> Result<Vec<u8>, Answer> {
    if !grants.in_range() {
        return Err(Answer::number(71, 0, 0));
    }
    let tree = prepare(Operation::Check, program, 0, 0)?;
    let text = writer::text_of(&tree);
    let length = text.len() as u64;
    if length > TEXT_BYTES || length > out_length {
        return Err(Answer::Number {
            number: 82,
            place: 0,
            steps: 0,
            length_needed: Some(length),
        });
    }
    Ok(text)
}

/// Drawing into an out slice of `out_length` bytes. With none, 80 tells the
/// length and the steps.
pub fn draw(program: &[u8], width: i32, height: i32, grants: Grants, out_length: u64) -> Answer {
    with_room(|| drawn(program, width, height, grants, out_length))
}

thread_local! {
    /// Whether this thread has stack enough for every run.
    static ROOMY: Cell<bool> = const { Cell::new(false) };
}

/// Does something with stack enough for 64 calls under way, each in 64
/// levels: in a thread of its own, unless this one was made for that.
pub fn with_room<T: Send>(work: impl FnOnce() -> T + Send) -> T {
    if ROOMY.get() {
        return work();
    }
    std::thread::scope(|scope| {
        let thread = std::thread::Builder::new().stack_size(STACK);
        let roomy = || {
            ROOMY.set(true);
            work()
        };
        let thread = thread.spawn_scoped(scope, roomy).expect("a thread");
        match thread.join() {
            Ok(done) => done,
            Err(panic) => std::panic::resume_unwind(panic),
        }
    })
}

fn drawn(program: &[u8], width: i32, height: i32, grants: Grants, out_length: u64) -> Answer {
    let (shapes, steps) = match scene(program, width, height, grants) {
        Ok(scene) => scene,
        Err(answer) => return answer,
    };
    let length = picture::length(width, height, &shapes);
    if length > out_length {
        return Answer::Number {
            number: 80,
            place: 0,
            steps,
            length_needed: Some(length),
        };
    }
    finished(width, height, &shapes, steps)
}

/// The questions before reading, but for the first, those of reading, and
/// whether a name is defined twice.
pub(crate) fn prepare(
    operation: Operation,
    program: &[u8],
    width: i32,
    height: i32,
) -> Result<Program, Answer> {
    if operation == Operation::Draw && (width < 1 || height < 1) {
        return Err(Answer::number(72, 0, 0));
    }
    if program.len() > PROGRAM_BYTES {
        return Err(Answer::number(73, 0, 0));
    }
    let tree = grammar::read(program)
        .map_err(|Refusal { number, place }| Answer::number(number, place, 0))?;
    match tree.doubled() {
        Some(definition) => Err(Answer::number(60, definition.place, 0)),
        None => Ok(tree),
    }
}

/// The picture that a run ended in.
pub(crate) fn finished(width: i32, height: i32, shapes: &[Shape], steps: u64) -> Answer {
    Answer::Picture {
        length: picture::length(width, height, shapes),
        steps,
        bytes: picture::bytes(width, height, shapes),
    }
}

/// The picture's shapes and the steps counted.
fn scene(
    program: &[u8],
    width: i32,
    height: i32,
    grants: Grants,
) -> Result<(Vec<Shape>, u64), Answer> {
    if !grants.in_range() {
        return Err(Answer::number(71, 0, 0));
    }
    let tree = prepare(Operation::Draw, program, width, height)?;
    let Finish { steps, end } = run::run(&tree, width, height, Left::new(grants));
    match end {
        Ok(shapes) => Ok((shapes, steps)),
        Err(Stop::Number { number, place }) => Err(Answer::number(number, place, steps)),
        // Counts are never cut off.
        Err(Stop::Cut) => Err(Answer::number(79, 0, steps)),
    }
}
