//! Every row of docs/DECISIONS.md that has a program gives the result that stands beside it.

mod common;

use common::{short, short_text};
use reference::case::Case;
use reference::decisions::{rows, text_rows};

#[test]
fn each_row() {
    let rows = rows();
    for row in &rows {
        let case = Case {
            operation: row.operation,
            width: 20,
            height: 20,
            grants: row.grants,
            out_length: row.out_length,
            program: row.program.clone(),
        };
        assert_eq!(short(&case.answer()), row.result, "row {}", row.number);
    }
    let text_rows = text_rows();
    for row in &text_rows {
        let answer = reference::text(&row.program, row.grants, row.out_length);
        assert_eq!(short_text(&answer), row.result, "row {}", row.number);
    }
    // None is left out, and none has the number of another.
    let all = rows.iter().chain(&text_rows);
    let mut numbers: Vec<u32> = all.map(|row| row.number).collect();
    numbers.sort_unstable();
    assert!(numbers.len() >= 222, "only {} rows", numbers.len());
    assert_eq!(numbers, (1..=numbers.len() as u32).collect::<Vec<u32>>());
}
