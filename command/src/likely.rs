//! The likely reason for a number, where it can be told by looking at the drawing. A guess for people: the library's answer is the number and its place.

mod reading;
mod running;

use crate::input::Drawing;
use img::Refusal;

/// A few words beside the mark, and what to do.
pub struct Reason {
    pub label: String,
    pub help: String,
}

fn reason_of(label: impl Into<String>, help: impl Into<String>) -> Option<Reason> {
    Some(Reason { label: label.into(), help: help.into() })
}

/// What is said beside a number's mark and behind `help`.
pub fn reason(drawing: &Drawing, refusal: &Refusal) -> Reason {
    let found = match refusal.number {
        10 => return reading::unwritten(drawing, refusal),
        20 => running::unfit(drawing, refusal),
        50 => running::undeclared(drawing, refusal),
        60 => running::declared(drawing, refusal),
        81 => running::endless(drawing, refusal),
        _ => None,
    };
    let table = Reason::table(refusal);
    match found {
        Some(reason) if reason.help.is_empty() => Reason { label: reason.label, ..table },
        Some(reason) => reason,
        None => table,
    }
}

impl Reason {
    /// Nothing is known but what the table says.
    fn table(refusal: &Refusal) -> Reason {
        Reason { label: String::new(), help: refusal.help().into() }
    }
}
