//! Why there is no picture, or no text.

use crate::numbers;
use std::error::Error;
use std::fmt;

/// A number of document 01 in place of a picture, of a text, or of `well formed`.
#[derive(Clone, Copy, Debug, PartialEq, Eq)]
pub struct Refusal {
    /// What was wrong or lacking: 10 to 82.
    pub number: u64,
    /// The byte of the program that the number is about.
    pub place: usize,
    /// The steps counted by then.
    pub steps: u64,
    /// With 80 the length that the picture needs, with 82 the text, otherwise 0.
    pub length: usize,
}

impl Refusal {
    /// What the number means, in plain words.
    pub fn sentence(&self) -> &'static str {
        numbers::sentence(self.number).unwrap_or("the library gave a number that is not known here")
    }

    /// What to do about it in the drawing.
    pub fn help(&self) -> &'static str {
        numbers::help(self.number).unwrap_or("nothing is known about it")
    }
}

/// For example `error 50 at 14: a variable is used that is not declared by then`.
impl fmt::Display for Refusal {
    fn fmt(&self, f: &mut fmt::Formatter<'_>) -> fmt::Result {
        write!(
            f,
            "error {} at {}: {}",
            self.number,
            self.place,
            self.sentence()
        )?;
        if matches!(self.number, 80 | 82) {
            write!(f, "; it needs {} bytes", self.length)?;
        }
        Ok(())
    }
}

impl Error for Refusal {}
