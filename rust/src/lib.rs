//! IMG drawings: the proved interpreter, called safely from Rust.
//!
//! A [`Workspace`] owns the work slices for the counts that it grants. It is made once and used for any number of programs, one after the other; the
//! library allocates nothing, and nothing of one call reaches the next.
//!
//! ```
//! use img::{Grants, Workspace};
//!
//! let program = br#"def main(w,h){var a;var b;a=drawBox(2,9,3,h-9);b=drawText(2,h,"day");}"#;
//! let mut workspace = Workspace::new(Grants::IMGDRAW);
//!
//! let mut out = [0; 65_536];
//! let picture = workspace.draw(program, 20, 20, &mut out)?;
//! assert_eq!(picture.steps, 15);
//! assert!(out[..picture.length].ends_with(b"<text x=\"2\" y=\"20\">day</text>\n</g>\n</svg>\n"));
//! # Ok::<(), img::Refusal>(())
//! ```
//!
//! There is a whole picture or a [`Refusal`], never a part of a picture:
//!
//! ```
//! use img::{Grants, Workspace};
//!
//! let mut workspace = Workspace::new(Grants { steps: 14, ..Grants::IMGDRAW });
//! let program = br#"def main(w,h){var a;var b;a=drawBox(2,9,3,h-9);b=drawText(2,h,"day");}"#;
//! let mut out = [7; 1_000];
//! let refusal = workspace.draw(program, 20, 20, &mut out).unwrap_err();
//! assert_eq!((refusal.number, refusal.place, refusal.steps), (79, 47, 14));
//! assert_eq!(refusal.to_string(), "error 79 at 47: no step is left of those granted");
//! assert_eq!(out, [7; 1_000]);
//! ```
//!
//! [`Workspace::check`] says whether a program is well formed, and [`Workspace::text`] gives its one text.

pub mod ffi;
pub mod numbers;
mod refusal;

pub use refusal::Refusal;

/// The lines of Rust that the README shows are run as tests.
#[cfg(doctest)]
#[doc = include_str!("../../README.md")]
struct Readme;

/// The version of the library, its header, the programs and this crate.
pub const VERSION: &str = env!("CARGO_PKG_VERSION");
/// An operation needs less stack than this many bytes for each call that is granted: [`Grants::stack`] tells how much that is.
pub const STACK: usize = 81_920;
/// The most bytes that a program may have, and a text too.
pub const MOST_PROGRAM: usize = 32_768;
/// How many words the slice for tokens must have.
pub const TOKENS: usize = 8_193;
/// How many words the slice for code must have.
pub const CODE: usize = 16_384;

/// How much a run may take.
#[derive(Clone, Copy, Debug, PartialEq, Eq)]
pub struct Grants {
    /// Steps, at most 4,294,967,295.
    pub steps: u64,
    /// Shapes, at most 65,535.
    pub shapes: u64,
    /// Table entries, at most 65,535.
    pub entries: u64,
    /// Bytes of joined strings, at most 65,535.
    pub text_bytes: u64,
    /// Calls under way at once, from 1 to 64: main's is one, those of library procedures are none.
    pub calls: u64,
}

impl Grants {
    /// What the program `imgdraw` grants.
    pub const IMGDRAW: Grants = Grants {
        steps: 1_000_000,
        shapes: 1_024,
        entries: 1_024,
        text_bytes: 16_384,
        calls: 64,
    };

    /// The most that can be granted.
    pub const MOST: Grants = Grants {
        steps: 4_294_967_295,
        shapes: 65_535,
        entries: 65_535,
        text_bytes: 65_535,
        calls: 64,
    };

    /// How many words the slice for variables, arguments, shapes and entries must have. A count out of its range is taken as the nearest in range, since
    /// the library answers 71 to it however much is lent.
    pub fn words(&self) -> usize {
        let shapes = self.shapes.min(Grants::MOST.shapes) as usize;
        let entries = self.entries.min(Grants::MOST.entries) as usize;
        let calls = self.calls.clamp(1, Grants::MOST.calls) as usize;
        262_416 + 5 * shapes + (5 + calls) * entries
    }

    /// How many bytes the slice for joined strings must have, with a count out of its range as in [`Grants::words`].
    pub fn texts(&self) -> usize {
        self.text_bytes.min(Grants::MOST.text_bytes) as usize
    }

    /// How many bytes of stack an operation needs at most, with a count out of its range as in [`Grants::words`].
    ///
    /// A program that calls its own procedures in each other needs stack for each call under way. With all 64 that is more than the 2 MiB that
    /// [`std::thread::spawn`] gives, though less than a main thread has on Linux. Who draws on other threads gives them this much and what they need
    /// themselves, by [`std::thread::Builder::stack_size`], or grants fewer calls.
    pub fn stack(&self) -> usize {
        STACK * self.calls.clamp(1, Grants::MOST.calls) as usize
    }
}

/// What is told of a picture. The picture itself is where it was drawn, if it was.
#[derive(Clone, Copy, Debug, PartialEq, Eq)]
pub struct Picture {
    /// How many bytes it has.
    pub length: usize,
    /// The steps of its run.
    pub steps: u64,
}

/// The work slices for some grants.
#[derive(Clone, Debug)]
pub struct Workspace {
    grants: Grants,
    tokens: Vec<u64>,
    code: Vec<u64>,
    words: Vec<u64>,
    texts: Vec<u8>,
}

impl Workspace {
    /// Allocates the slices that these grants need.
    pub fn new(grants: Grants) -> Workspace {
        Workspace {
            grants,
            tokens: vec![0; TOKENS],
            code: vec![0; CODE],
            words: vec![0; grants.words()],
            texts: vec![0; grants.texts()],
        }
    }

    /// What is granted.
    pub fn grants(&self) -> Grants {
        self.grants
    }

    /// Says whether a program is well formed. It is not run, so width and height do not matter, nor does what is granted, as long as each count is in its
    /// range.
    ///
    /// ```
    /// # use img::{Grants, Workspace};
    /// let mut workspace = Workspace::new(Grants::IMGDRAW);
    /// assert!(workspace.check(b"def main(w,h){a=1;}").is_ok());
    /// let refusal = workspace.check(b"def main(w,h){a=1+2+3;}").unwrap_err();
    /// assert_eq!((refusal.number, refusal.place), (10, 19));
    /// ```
    pub fn check(&mut self, program: &[u8]) -> Result<(), Refusal> {
        let mut answer = [0; 4];
        // SAFETY: each pointer and length is that of one slice, the slices do not overlap, and the library is proved to read and write within them.
        let number = unsafe {
            ffi::img_check(
                program.as_ptr(),
                program.len(),
                self.grants.steps,
                self.grants.shapes,
                self.grants.entries,
                self.grants.text_bytes,
                self.grants.calls,
                self.tokens.as_mut_ptr(),
                self.tokens.len(),
                self.code.as_mut_ptr(),
                self.code.len(),
                answer.as_mut_ptr(),
                answer.len(),
            )
        };
        told(number, answer).map(|_| ())
    }

    /// Writes the one text of a program into the front of `out`, and tells how long it is. Programs that differ only in white space, needless parentheses and
    /// the spelling of constants have the same text. The program is not run, as with [`Workspace::check`], and what is granted does not matter either.
    ///
    /// The bytes behind the text stay as they were; after a refusal all of `out` does. A text that is longer than `out`, or than [`MOST_PROGRAM`], is refused
    /// with 82, which tells its length.
    ///
    /// ```
    /// # use img::{Grants, Workspace};
    /// let mut workspace = Workspace::new(Grants::IMGDRAW);
    /// let mut out = [b'#'; 40];
    /// let length = workspace.text(b"def main(w, h) { w = (h - 007); }", &mut out)?;
    /// assert_eq!(&out[..length], b"def main(w,h){\nw=h-7;\n}\n");
    /// assert_eq!(out[length..], [b'#'; 40][length..]);
    /// # Ok::<(), img::Refusal>(())
    /// ```
    pub fn text(&mut self, program: &[u8], out: &mut [u8]) -> Result<usize, Refusal> {
        let mut answer = [0; 4];
        // SAFETY: as in `check`.
        let number = unsafe {
            ffi::img_text(
                program.as_ptr(),
                program.len(),
                self.grants.steps,
                self.grants.shapes,
                self.grants.entries,
                self.grants.text_bytes,
                self.grants.calls,
                self.tokens.as_mut_ptr(),
                self.tokens.len(),
                self.code.as_mut_ptr(),
                self.code.len(),
                out.as_mut_ptr(),
                out.len(),
                answer.as_mut_ptr(),
                answer.len(),
            )
        };
        told(number, answer).map(|text| text.length)
    }

    /// The one text of a program as a string, which holds ASCII alone. A text that is longer than [`MOST_PROGRAM`] is refused with 82.
    ///
    /// ```
    /// # use img::{Grants, Workspace};
    /// let mut workspace = Workspace::new(Grants::IMGDRAW);
    /// let one = workspace.text_string(b"def main(w,h){var a;a=h-7;}")?;
    /// let other = workspace.text_string(b"def main(w, h) {\n  var a;\n  a = (h - 007);\n}\n")?;
    /// assert_eq!(one, "def main(w,h){\nvar a;\na=h-7;\n}\n");
    /// assert_eq!(one, other);
    /// # Ok::<(), img::Refusal>(())
    /// ```
    pub fn text_string(&mut self, program: &[u8]) -> Result<String, Refusal> {
        let mut out = vec![0; MOST_PROGRAM];
        let length = self.text(program, &mut out)?;
        out.truncate(length);
        Ok(String::from_utf8(out).expect("a text is ASCII"))
    }

    /// Runs a program and draws its picture into the front of `out`. The bytes behind it stay as they were; after a refusal all of `out` does.
    pub fn draw(
        &mut self,
        program: &[u8],
        width: i32,
        height: i32,
        out: &mut [u8],
    ) -> Result<Picture, Refusal> {
        let mut answer = [0; 4];
        // SAFETY: as in `check`.
        let number = unsafe {
            ffi::img_draw(
                program.as_ptr(),
                program.len(),
                width,
                height,
                self.grants.steps,
                self.grants.shapes,
                self.grants.entries,
                self.grants.text_bytes,
                self.grants.calls,
                self.tokens.as_mut_ptr(),
                self.tokens.len(),
                self.code.as_mut_ptr(),
                self.code.len(),
                self.words.as_mut_ptr(),
                self.words.len(),
                self.texts.as_mut_ptr(),
                self.texts.len(),
                out.as_mut_ptr(),
                out.len(),
                answer.as_mut_ptr(),
                answer.len(),
            )
        };
        told(number, answer)
    }

    /// Runs a program and draws its picture into a vector, which is then as long as the picture. It may have `most` bytes; a longer one is refused with 80.
    ///
    /// The program is run once if the picture fits into 65,536 bytes, or into as many as the vector held before, and otherwise again with the length that the
    /// first run told. After a refusal the vector is empty.
    ///
    /// ```
    /// # use img::{Grants, Workspace};
    /// let mut workspace = Workspace::new(Grants::IMGDRAW);
    /// let mut out = Vec::new();
    /// workspace.draw_vec(b"def main(w,h){w=drawEllipse(9,9,w,h);}", 4, 3, 1 << 20, &mut out)?;
    /// assert!(out.ends_with(b"<ellipse cx=\"9\" cy=\"9\" rx=\"4\" ry=\"3\"/>\n</g>\n</svg>\n"));
    /// # Ok::<(), img::Refusal>(())
    /// ```
    pub fn draw_vec(
        &mut self,
        program: &[u8],
        width: i32,
        height: i32,
        most: usize,
        out: &mut Vec<u8>,
    ) -> Result<Picture, Refusal> {
        fitted(out, most, |out| self.draw(program, width, height, out))
    }

    /// Runs a program and tells how long its picture is, which is not drawn: an empty out slice is lent, and the 80 that says so is no refusal here.
    ///
    /// ```
    /// # use img::{Grants, Workspace};
    /// let mut workspace = Workspace::new(Grants::IMGDRAW);
    /// let program = b"def main(w,h){w=drawEllipse(9,9,w,h);}";
    /// let told = workspace.length(program, 4, 3)?;
    /// let mut out = vec![0; told.length];
    /// assert_eq!(workspace.draw(program, 4, 3, &mut out)?, told);
    /// # Ok::<(), img::Refusal>(())
    /// ```
    pub fn length(&mut self, program: &[u8], width: i32, height: i32) -> Result<Picture, Refusal> {
        match self.draw(program, width, height, &mut []) {
            Err(Refusal {
                number: 80,
                steps,
                length,
                ..
            }) => Ok(Picture { length, steps }),
            answer => answer,
        }
    }
}

/// The room that a picture is drawn into first, unless the vector held more or less may be lent.
const FIRST_ROOM: usize = 65_536;

/// Draws into a vector, a second time only if the first room was too short and what is needed may be lent. What the vector holds is then the picture, or nothing.
fn fitted(
    out: &mut Vec<u8>,
    most: usize,
    mut draw: impl FnMut(&mut [u8]) -> Result<Picture, Refusal>,
) -> Result<Picture, Refusal> {
    out.resize(out.len().max(FIRST_ROOM).min(most), 0);
    let mut answer = draw(out);
    if let Err(refusal) = answer {
        if refusal.number == 80 && refusal.length <= most {
            out.resize(refusal.length, 0);
            answer = draw(out);
        }
    }
    out.truncate(answer.map_or(0, |picture| picture.length));
    answer
}

/// The number returned and the answer's four words, the first of which is that number again, as a result. The library is for x86-64, where a `usize` has as
/// many bits as they.
fn told(number: u64, [_, place, steps, length]: [u64; 4]) -> Result<Picture, Refusal> {
    let length = length as usize;
    if number == 0 {
        return Ok(Picture { length, steps });
    }
    Err(Refusal {
        number,
        place: place as usize,
        steps,
        length,
    })
}

#[cfg(test)]
mod tests {
    use super::*;

    /// Draws a picture of so many bytes into a vector that held some, and tells the rooms that were lent, how long the vector is then, and the number.
    fn rooms(length: usize, held: usize, most: usize) -> (Vec<usize>, usize, u64) {
        let mut rooms = Vec::new();
        let mut out = vec![b'#'; held];
        let answer = fitted(&mut out, most, |lent| {
            rooms.push(lent.len());
            if lent.len() < length {
                return told(80, [80, 0, 9, length as u64]);
            }
            lent[..length].fill(b'p');
            told(0, [0, 0, 9, length as u64])
        });
        assert!(out.iter().all(|byte| *byte == b'p'));
        (rooms, out.len(), answer.map_or_else(|r| r.number, |_| 0))
    }

    #[test]
    fn a_second_run_only_where_the_first_room_was_too_short() {
        let free = usize::MAX;
        assert_eq!(rooms(1, 0, free), (vec![65_536], 1, 0));
        assert_eq!(rooms(65_536, 0, free), (vec![65_536], 65_536, 0));
        assert_eq!(rooms(65_537, 0, free), (vec![65_536, 65_537], 65_537, 0));
        // As much as the vector held is lent again.
        assert_eq!(rooms(65_537, 70_000, free), (vec![70_000], 65_537, 0));
        assert_eq!(rooms(200, 100, free), (vec![65_536], 200, 0));
    }

    #[test]
    fn no_more_than_may_be_lent() {
        assert_eq!(rooms(200, 0, 200), (vec![200], 200, 0));
        assert_eq!(rooms(200, 0, 199), (vec![199], 0, 80));
        assert_eq!(rooms(200, 300, 199), (vec![199], 0, 80));
        assert_eq!(rooms(70_000, 0, 70_000), (vec![65_536, 70_000], 70_000, 0));
        assert_eq!(rooms(70_000, 0, 69_999), (vec![65_536], 0, 80));
        assert_eq!(rooms(1, 0, 0), (vec![0], 0, 80));
    }

    #[test]
    fn another_number_is_not_tried_again() {
        let mut runs = 0;
        let mut out = vec![b'#'; 5];
        let answer = fitted(&mut out, usize::MAX, |_| {
            runs += 1;
            told(79, [79, 14, 0, 0])
        });
        assert_eq!((answer.unwrap_err().number, runs, out.len()), (79, 1, 0));
    }
}
