//! Short ways to write programs and answers, shared by the tests.

#![allow(dead_code)]

use reference::sheet::{GRANTS, OUT_LENGTH};
use reference::{draw, text, Answer, Grants};

/// `def main(w,h){...}` around a body, so byte k of the body has place 14 + k.
pub fn main_of(body: &str) -> Vec<u8> {
    format!("def main(w,h){{{body}}}").into_bytes()
}

/// Draws a body on a sheet of 20 by 20 with the grants of `imgdraw`.
pub fn draw_body(body: &str) -> Answer {
    draw_granted(body, GRANTS)
}

/// Draws a body on a sheet of 20 by 20 with other grants.
pub fn draw_granted(body: &str, grants: Grants) -> Answer {
    draw(&main_of(body), 20, 20, grants, OUT_LENGTH)
}

/// An answer in short: `30@39 s12` is number 30 at place 39 after 12 steps,
/// `picture s13` is a picture after 13 steps.
pub fn short(answer: &Answer) -> String {
    match answer {
        Answer::Picture { steps, .. } => format!("picture s{steps}"),
        Answer::WellFormed => "well formed".to_string(),
        Answer::Number {
            number,
            place,
            steps,
            ..
        } => format!("{number}@{place} s{steps}"),
    }
}

/// What `text` hands back, in short: the text with `⏎` for each linefeed, or a
/// number such as `82@0 s0 l22`, where l tells the length.
pub fn short_text(answer: &Result<Vec<u8>, Answer>) -> String {
    match answer {
        Ok(text) => String::from_utf8(text.clone()).unwrap().replace('\n', "⏎"),
        Err(number) => match number {
            Answer::Number {
                length_needed: Some(length),
                ..
            } => format!("{} l{length}", short(number)),
            _ => short(number),
        },
    }
}

/// The one text of a program with the grants of `imgdraw` and an out slice of
/// 65,536 bytes, in short.
pub fn written(program: &[u8]) -> String {
    short_text(&text(program, GRANTS, OUT_LENGTH))
}

/// The lines of a picture's shapes, each followed by a linefeed.
pub fn shape_lines(answer: &Answer) -> String {
    let Answer::Picture { bytes, .. } = answer else {
        panic!("no picture: {}", short(answer));
    };
    let text = String::from_utf8(bytes.clone()).unwrap();
    let front = "<?xml version=\"1.0\"?>\n<svg viewBox=\"0 0 20 20\" \
                 xmlns=\"http://www.w3.org/2000/svg\" version=\"1.1\">\n\
                 <g stroke=\"black\" fill=\"black\">\n";
    text.strip_prefix(front)
        .and_then(|rest| rest.strip_suffix("</g>\n</svg>\n"))
        .unwrap_or_else(|| panic!("another frame: {text}"))
        .to_string()
}

/// The shape lines that a body draws.
pub fn drawn(body: &str) -> String {
    shape_lines(&draw_body(body))
}

/// The integer that an expression has after some statements.
pub fn integer_after(statements: &str, expression: &str) -> i32 {
    let lines = drawn(&format!(
        "{statements}var result;clearScene();result=drawLine({expression},0,0,0);"
    ));
    let number = lines
        .strip_prefix("<line x1=\"")
        .and_then(|rest| rest.strip_suffix("\" y1=\"0\" x2=\"0\" y2=\"0\"/>\n"))
        .unwrap_or_else(|| panic!("{expression}: {lines}"));
    number.parse().unwrap()
}

/// The integer that an expression has.
pub fn integer(expression: &str) -> i32 {
    integer_after("", expression)
}

/// The boolean that an expression has after some statements.
pub fn boolean_after(statements: &str, expression: &str) -> bool {
    let one_or_two = format!("{statements}var v;v=2;if({expression})v=1;");
    integer_after(&one_or_two, "v") == 1
}

/// The boolean that an expression has.
pub fn boolean(expression: &str) -> bool {
    boolean_after("", expression)
}
