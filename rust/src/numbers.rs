//! What each number says and what to do about it: `docs/numbers.txt`, which README's table and the header's `img_sentence` are made from too.

const TABLE: &str = include_str!("../../docs/numbers.txt");

/// The blocks of the table: a number, its sentence, its help.
fn rows() -> impl Iterator<Item = (u64, &'static str, &'static str)> {
    TABLE.split("\n\n").filter_map(|block| {
        let mut lines = block.lines();
        let number = lines.next()?.parse().ok()?;
        Some((number, lines.next()?, lines.next()?))
    })
}

/// All numbers there are, in order.
pub fn all() -> impl Iterator<Item = u64> {
    rows().map(|row| row.0)
}

/// What a number says, in plain words; none if there is no such number.
pub fn sentence(number: u64) -> Option<&'static str> {
    rows().find(|row| row.0 == number).map(|row| row.1)
}

/// What to do about a number in the drawing; none if there is no such number.
pub fn help(number: u64) -> Option<&'static str> {
    rows().find(|row| row.0 == number).map(|row| row.2)
}
