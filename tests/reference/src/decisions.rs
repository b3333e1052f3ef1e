//! The rows of docs/DECISIONS.md that have a program: what to call, and the
//! result that stands beside it. Nothing is run here.

use crate::operation::{Grants, Operation};
use crate::sheet::{GRANTS, OUT_LENGTH};

/// One row.
#[derive(Clone, Debug)]
pub struct Row {
    pub number: u32,
    pub operation: Operation,
    pub program: Vec<u8>,
    pub grants: Grants,
    pub out_length: u64,
    /// Such as `30@39 s12`, `picture s13` or `well formed`. Of a row that asks
    /// for the one text it is that text with `⏎` for each linefeed, or a number
    /// such as `82@0 s0 l22`, where l tells the length.
    pub result: String,
}

/// The rows that draw or check, in the document's order.
pub fn rows() -> Vec<Row> {
    all(|line| !asks_for_text(line))
}

/// The rows that ask for the one text: `written` stands among their grants.
/// Their operation means nothing.
pub fn text_rows() -> Vec<Row> {
    all(asks_for_text)
}

fn all(wanted: fn(&str) -> bool) -> Vec<Row> {
    include_str!("../../../docs/DECISIONS.md")
        .lines()
        .filter(|line| wanted(line))
        .filter_map(row)
        .collect()
}

fn asks_for_text(line: &str) -> bool {
    let grants = line.split('|').nth(4).unwrap_or("").trim();
    grants.split(", ").any(|part| part == "written")
}

fn row(line: &str) -> Option<Row> {
    let cells: Vec<&str> = line.split('|').map(str::trim).collect();
    let number = cells.get(1)?.parse().ok()?;
    assert_eq!(cells.len(), 8, "{line}");
    let (operation, grants, out_length) = granted(cells[4]);
    Some(Row {
        number,
        operation,
        program: program(quoted(cells[3])),
        grants,
        out_length,
        result: quoted(cells[5]).to_string(),
    })
}

/// What stands in backquotes in a cell.
fn quoted(cell: &str) -> &str {
    cell.trim_matches('`')
}

/// A program from its cell: the body of main, unless it begins with `def`.
fn program(cell: &str) -> Vec<u8> {
    let text = written_out(cell);
    match text.starts_with("def") {
        true => text.into_bytes(),
        false => format!("def main(w,h){{{text}}}").into_bytes(),
    }
}

/// `⟨1;⟩5000` stands for `1;` written 5,000 times. The two brackets belong to
/// no token.
fn written_out(cell: &str) -> String {
    let Some((before, rest)) = cell.split_once('⟨') else {
        return cell.to_string();
    };
    let (part, rest) = rest.split_once('⟩').expect("a closing bracket");
    let digits = rest.len() - rest.trim_start_matches(|c: char| c.is_ascii_digit()).len();
    let times = rest[..digits].parse().expect("how often");
    format!(
        "{before}{}{}",
        part.repeat(times),
        written_out(&rest[digits..])
    )
}

/// What a cell of grants says: `checked`, `written`, a grant such as
/// `shapes 1`, the out slice's length as `out 0`, some of these with commas
/// between, or nothing.
fn granted(cell: &str) -> (Operation, Grants, u64) {
    let mut operation = Operation::Draw;
    let mut grants = GRANTS;
    let mut out_length = OUT_LENGTH;
    for part in cell.split(", ").filter(|part| !part.is_empty()) {
        if part == "written" {
            continue;
        }
        if part == "checked" {
            operation = Operation::Check;
            continue;
        }
        let (name, count) = part.split_once(' ').expect("a grant");
        let count = count.parse().expect("a count");
        match name {
            "steps" => grants.steps = count,
            "shapes" => grants.shapes = count,
            "entries" => grants.entries = count,
            "text" => grants.text_bytes = count,
            "calls" => grants.calls = count,
            "out" => out_length = count,
            _ => panic!("no grant is called {name}"),
        }
    }
    (operation, grants, out_length)
}
