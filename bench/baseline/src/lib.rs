//! An optimised tree-walking interpreter of IMG drawings, to measure the proved library against. It has the same stores in arrays that are
//! made before a drawing, asks the same questions, and leaves the same zeros; nothing is allocated while it reads, runs or draws.

#![forbid(unsafe_code)]

mod groups;
mod picture;
mod read;
mod run;
mod shape;
mod stores;
mod table;
mod token;
mod tree;
mod value;

pub use stores::{Grants, Stores};

/// What drawing answers. The number is 0 for a picture; the length is the picture's, or what it needs after 80.
#[derive(Clone, Copy, Debug, PartialEq, Eq)]
pub struct Answer {
    pub number: u64,
    pub place: u64,
    pub steps: u64,
    pub length: u64,
}

impl Answer {
    fn refused(number: u64, place: usize) -> Answer {
        Answer {
            number,
            place: place as u64,
            steps: 0,
            length: 0,
        }
    }
}

/// Draws a program with stores that may hold anything; they hold zeros afterwards.
pub fn draw(
    stores: &mut Stores,
    program: &[u8],
    width: i32,
    height: i32,
    out: &mut [u8],
) -> Answer {
    let answer = answer(stores, program, width, height, out);
    stores.clear();
    answer
}

fn answer(stores: &mut Stores, program: &[u8], width: i32, height: i32, out: &mut [u8]) -> Answer {
    if width < 1 || height < 1 {
        return Answer::refused(72, 0);
    }
    if program.len() > 32_768 {
        return Answer::refused(73, 0);
    }
    let main = match read::read(stores, program) {
        Ok(main) => main,
        Err(refusal) => return Answer::refused(refusal.number.into(), refusal.place),
    };
    let end = run::run(stores, program, main, width, height);
    if end.number != 0 {
        return Answer {
            number: end.number,
            place: end.place,
            steps: end.steps,
            length: 0,
        };
    }
    let length = picture::length(stores, program, width, height, end.declared);
    let fits = length <= out.len();
    if fits {
        picture::write(stores, program, width, height, end.declared, out);
    }
    Answer {
        number: if fits { 0 } else { 80 },
        place: 0,
        steps: end.steps,
        length: length as u64,
    }
}
