//! The proved library, called safely: the slices are lent here, and each answer comes back as numbers.

use reference::Grants;

/// How many words checking and `text` must be lent.
pub const TOKEN_WORDS: usize = 8_193;
pub const CODE_WORDS: usize = 16_384;
/// How many words a run must be lent besides those for shapes, entries and components.
pub const RUN_WORDS: usize = 262_416;

#[path = "../../../rust/src/ffi.rs"]
mod ffi;

/// What an operation answers: a number (0 for none), its place, the steps and the length.
#[derive(Clone, Copy, Debug, PartialEq, Eq)]
pub struct Numbers {
    pub number: u64,
    pub place: u64,
    pub steps: u64,
    pub length: u64,
}

impl From<[u64; 4]> for Numbers {
    fn from([number, place, steps, length]: [u64; 4]) -> Numbers {
        Numbers {
            number,
            place,
            steps,
            length,
        }
    }
}

/// The four numbers, the first of which is also what the function returned.
fn told(answer: [u64; 4], returned: u64) -> Numbers {
    assert_eq!(returned, answer[0], "the number returned");
    answer.into()
}

/// Checks a program with these work slices.
pub fn check(program: &[u8], grants: Grants, tokens: &mut [u64], code: &mut [u64]) -> Numbers {
    let mut answer = [u64::MAX; 4];
    let returned = check_to(program, grants, tokens, code, &mut answer);
    told(answer, returned)
}

/// The same, with the answer written to a slice of any length. The number is returned.
pub fn check_to(
    program: &[u8],
    grants: Grants,
    tokens: &mut [u64],
    code: &mut [u64],
    answer: &mut [u64],
) -> u64 {
    // The library reads and writes within the lengths that it is handed; it is proved to.
    unsafe {
        ffi::img_check(
            program.as_ptr(),
            program.len(),
            grants.steps,
            grants.shapes,
            grants.entries,
            grants.text_bytes,
            grants.calls,
            tokens.as_mut_ptr(),
            tokens.len(),
            code.as_mut_ptr(),
            code.len(),
            answer.as_mut_ptr(),
            answer.len(),
        )
    }
}

/// Writes the one text of a program to the front of `out` with these work slices.
pub fn text(
    program: &[u8],
    grants: Grants,
    tokens: &mut [u64],
    code: &mut [u64],
    out: &mut [u8],
) -> Numbers {
    let mut answer = [u64::MAX; 4];
    let returned = text_to(program, grants, tokens, code, out, &mut answer);
    told(answer, returned)
}

/// The same, with the answer written to a slice of any length. The number is returned.
pub fn text_to(
    program: &[u8],
    grants: Grants,
    tokens: &mut [u64],
    code: &mut [u64],
    out: &mut [u8],
    answer: &mut [u64],
) -> u64 {
    // As for checking.
    unsafe {
        ffi::img_text(
            program.as_ptr(),
            program.len(),
            grants.steps,
            grants.shapes,
            grants.entries,
            grants.text_bytes,
            grants.calls,
            tokens.as_mut_ptr(),
            tokens.len(),
            code.as_mut_ptr(),
            code.len(),
            out.as_mut_ptr(),
            out.len(),
            answer.as_mut_ptr(),
            answer.len(),
        )
    }
}

/// The four work slices of drawing.
#[derive(Clone, Debug, Default)]
pub struct Work {
    pub tokens: Vec<u64>,
    pub code: Vec<u64>,
    pub words: Vec<u64>,
    pub texts: Vec<u8>,
}

/// Draws a program's picture into the front of `out` with these work slices.
pub fn draw(
    program: &[u8],
    width: i32,
    height: i32,
    grants: Grants,
    work: &mut Work,
    out: &mut [u8],
) -> Numbers {
    let mut answer = [u64::MAX; 4];
    let returned = draw_to(program, width, height, grants, work, out, &mut answer);
    told(answer, returned)
}

/// The same, with the answer written to a slice of any length. The number is returned.
pub fn draw_to(
    program: &[u8],
    width: i32,
    height: i32,
    grants: Grants,
    work: &mut Work,
    out: &mut [u8],
    answer: &mut [u64],
) -> u64 {
    // As for checking.
    unsafe {
        ffi::img_draw(
            program.as_ptr(),
            program.len(),
            width,
            height,
            grants.steps,
            grants.shapes,
            grants.entries,
            grants.text_bytes,
            grants.calls,
            work.tokens.as_mut_ptr(),
            work.tokens.len(),
            work.code.as_mut_ptr(),
            work.code.len(),
            work.words.as_mut_ptr(),
            work.words.len(),
            work.texts.as_mut_ptr(),
            work.texts.len(),
            out.as_mut_ptr(),
            out.len(),
            answer.as_mut_ptr(),
            answer.len(),
        )
    }
}

/// Slices for checking and for `text`, filled with something and somewhat longer than they must be.
pub struct Lent {
    pub tokens: Vec<u64>,
    pub code: Vec<u64>,
}

impl Lent {
    pub fn filled(seed: u64) -> Lent {
        let longer = (seed % 5) as usize * 7;
        let fill = seed.wrapping_mul(0x9e37_79b9_7f4a_7c15);
        Lent {
            tokens: vec![fill; TOKEN_WORDS + longer],
            code: vec![!fill; CODE_WORDS + longer],
        }
    }

    pub fn is_zero(&self) -> bool {
        self.tokens.iter().all(|w| *w == 0) && self.code.iter().all(|w| *w == 0)
    }
}

pub mod compare;
pub mod inputs;
pub mod programs;
