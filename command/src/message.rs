//! What is said about a number: the number with its sentence, where it is, the line with a mark, and what to do.

use crate::input::Drawing;
use crate::likely;
use crate::tokens;
use img::Refusal;
use std::io::{self, IsTerminal};

/// As much of a line as is shown before its mark, and from there on.
const BEFORE: usize = 60;
const BEHIND: usize = 80;

/// Colours, or none.
pub struct Colours {
    error: &'static str,
    frame: &'static str,
    strong: &'static str,
    end: &'static str,
}

pub const PLAIN: Colours = Colours { error: "", frame: "", strong: "", end: "" };

const BRIGHT: Colours = Colours { error: "\x1b[1;31m", frame: "\x1b[1;34m", strong: "\x1b[1m", end: "\x1b[0m" };

/// Colours only on a terminal, and not with NO_COLOR.
pub fn colours() -> Colours {
    let unwanted = std::env::var_os("NO_COLOR").is_some_and(|value| !value.is_empty());
    let simple = std::env::var_os("TERM").is_some_and(|terminal| terminal == "dumb");
    match io::stderr().is_terminal() && !unwanted && !simple {
        true => BRIGHT,
        false => PLAIN,
    }
}

/// The whole message, in lines.
pub fn of(drawing: &Drawing, refusal: &Refusal, colours: Colours) -> String {
    let Colours { error, frame, strong, end } = colours;
    let reason = likely::reason(drawing, refusal);
    let needs = match refusal.number {
        80 | 82 => format!("; it needs {} bytes", refusal.length),
        _ => String::new(),
    };
    let number = refusal.number;
    let mut text = format!("{error}error[{number}]{end}{strong}: {}{needs}{end}\n", refusal.sentence());
    let width = match marked(drawing, refusal) {
        None => {
            text += &format!(" {frame}-->{end} {}\n", drawing.name);
            1
        }
        Some((start, stop)) => {
            let place = Place::of(&drawing.bytes, start, stop);
            let line = place.line.to_string();
            let width = line.len();
            text += &format!(
                "{:width$}{frame}-->{end} {}:{line}:{} (byte {})\n{:width$} {frame}|{end}\n",
                "", drawing.name, place.column, refusal.place, ""
            );
            text += &format!("{frame}{line} |{end} {}\n", place.shown);
            let label = reason.label;
            let space = if label.is_empty() { "" } else { " " };
            text += &format!("{:width$} {frame}|{end} {}{error}{}{space}{label}{end}\n", "", place.pad, place.mark);
            text += &format!("{:width$} {frame}|{end}\n", "");
            width
        }
    };
    text + &format!("{:width$} {frame}={end} {strong}help{end}: {}\n\n", "", reason.help)
}

/// What a number's mark covers, in bytes of the file: a token or a statement. Nothing for a number about the whole drawing.
fn marked(drawing: &Drawing, refusal: &Refusal) -> Option<(usize, usize)> {
    let program = drawing.program();
    let all = tokens::tokens(program);
    let from = all.partition_point(|token| token.start < refusal.place);
    let rest = &all[from..];
    let last = match refusal.number {
        71 | 73 | 80 | 82 => return None,
        72 if !drawing.is_sheet => return None,
        // The sheet's first line.
        72 => {
            let line = drawing.bytes.iter().position(|byte| *byte == b'\n');
            return Some((0, line.unwrap_or(drawing.bytes.len())));
        }
        10 | 74 | 75 => rest.first(),
        _ => tokens::statement(rest).last(),
    };
    let stop = last.map_or(refusal.place, |token| token.end());
    Some((drawing.start + refusal.place, drawing.start + stop))
}

/// A place as it is shown: line and column from 1, the line, what stands under it before the mark, and the mark.
struct Place {
    line: usize,
    column: usize,
    shown: String,
    pad: String,
    mark: String,
}

impl Place {
    fn of(bytes: &[u8], start: usize, stop: usize) -> Place {
        let first = bytes[..start].iter().rposition(|byte| *byte == b'\n').map_or(0, |newline| newline + 1);
        let last = bytes[start..].iter().position(|byte| *byte == b'\n').map_or(bytes.len(), |length| start + length);
        let stop = stop.min(last);
        let before = characters(&bytes[first..start]);
        let marked = characters(&bytes[start..stop]);
        let behind = characters(&bytes[stop..last]);
        let column = before.len() + 1;

        let mut shown: Vec<char> = before;
        if shown.len() > BEFORE {
            shown.splice(..column - 1 - BEFORE, "...".chars());
        }
        let pad = shown.iter().map(|c| if *c == '\t' { '\t' } else { ' ' }).collect();
        let mark = "^".repeat(marked.len().clamp(1, BEHIND));
        let rest: Vec<char> = marked.into_iter().chain(behind).collect();
        shown.extend(rest.iter().take(BEHIND));
        if rest.len() > BEHIND {
            shown.extend("...".chars());
        }
        Place { line: 1 + bytes[..start].iter().filter(|byte| **byte == b'\n').count(), column, shown: String::from_iter(shown), pad, mark }
    }
}

/// Characters as they are shown: nothing in them can act on a terminal.
fn characters(bytes: &[u8]) -> Vec<char> {
    let text = String::from_utf8_lossy(bytes);
    let shown = |c: char| {
        if (c.is_control() && c != '\t') || c == '\u{feff}' {
            '\u{fffd}'
        } else {
            c
        }
    };
    text.chars().map(shown).collect()
}
