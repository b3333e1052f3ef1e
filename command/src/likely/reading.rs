//! Why a drawing gets the number 10: what stands at the place, what before it and what behind.

use super::{reason_of, Reason};
use crate::input::{self, Drawing};
use crate::tokens::{self, Token};
use img::Refusal;

/// Where a drawing is read no further.
struct Spot<'a> {
    program: &'a [u8],
    /// Lines of the file before the program.
    lines_before: usize,
    before: &'a [Token<'a>],
    behind: &'a [Token<'a>],
}

/// The reason that is found first. The order matters: a comment may hold anything, and a missing semicolon is what remains.
pub fn unwritten(drawing: &Drawing, refusal: &Refusal) -> Reason {
    let program = drawing.program();
    let all = tokens::tokens(program);
    let at = all.partition_point(|token| token.start < refusal.place);
    let (before, rest) = all.split_at(at);
    let behind = rest.get(1..).unwrap_or_default();
    let spot = Spot { program, lines_before: (drawing.start > 0) as usize, before, behind };
    let Some(here) = rest.first().copied() else {
        return spot.too_early();
    };
    let guesses = [
        Spot::comment,
        Spot::sheet_line,
        Spot::byte,
        Spot::string,
        Spot::header,
        Spot::number,
        Spot::equals,
        Spot::elsewhere_a_word,
        Spot::empty,
        Spot::minus,
        Spot::second_operator,
        Spot::bracket,
        Spot::value_missing,
        Spot::semicolon,
    ];
    let found = guesses.iter().find_map(|guess| guess(&spot, here));
    found.unwrap_or_else(|| Reason {
        label: format!("`{}` cannot stand here", here.shown()),
        help: format!("No likely reason can be told. {}", refusal.help()),
    })
}

impl Spot<'_> {
    fn last(&self) -> Option<Token<'_>> {
        self.before.last().copied()
    }

    fn last_is(&self, texts: &[&str]) -> bool {
        self.last().is_some_and(|token| token.is_one_of(texts))
    }

    /// The line of a place in the file, from 1.
    fn line(&self, place: usize) -> usize {
        1 + self.lines_before + self.program[..place].iter().filter(|byte| **byte == b'\n').count()
    }

    /// The brackets that are open before the place.
    fn open(&self) -> Vec<Token<'_>> {
        let mut open = Vec::new();
        for token in self.before {
            if token.is_one_of(&["(", "[", "{"]) {
                open.push(*token);
            } else if token.is_one_of(&[")", "]", "}"]) {
                open.pop();
            }
        }
        open
    }

    /// What stands before the last bracket that is open.
    fn before_bracket(&self) -> Option<Token<'_>> {
        let start = self.open().last()?.start;
        self.before.iter().rfind(|token| token.end() <= start).copied()
    }

    /// The tokens before the place back to where their expression begins.
    fn expression(&self) -> &[Token<'_>] {
        let mut depth = 0;
        for (index, token) in self.before.iter().enumerate().rev() {
            if token.is_one_of(&[")", "]"]) {
                depth += 1;
            } else if depth > 0 {
                depth -= token.is_one_of(&["(", "["]) as usize;
            } else if token.is_one_of(&["(", "[", "{", "}", ";", ",", "=", "return"]) {
                return &self.before[index + 1..];
            }
        }
        self.before
    }

    fn too_early(&self) -> Reason {
        let (label, help) = match self.open().last() {
            _ if self.before.is_empty() => {
                ("the drawing is empty".into(), "A drawing is `def main(w, h) { … }` with at least one statement between the braces".into())
            }
            Some(bracket) => {
                let closing = match bracket.text {
                    b"(" => ")",
                    b"[" => "]",
                    _ => "}",
                };
                let open = format!("the `{}` of line {}", bracket.shown(), self.line(bracket.start));
                ("the drawing ends here".into(), format!("A `{closing}` is missing: {open} is never closed"))
            }
            None if self.last_is(&["}"]) => ("there is no `main`".into(), self.like_main()),
            None => ("the drawing ends here".into(), "A procedure is `def name(x, y) { … }`; its end is missing".into()),
        };
        Reason { label, help }
    }

    /// What is said where no procedure is called `main`.
    fn like_main(&self) -> String {
        let names = self.before.windows(2).filter(|two| two[0].is("def")).map(|two| two[1].shown());
        match names.clone().find(|name| name.eq_ignore_ascii_case("main")) {
            Some(name) => format!("Large and small letters differ: write `main` for `{name}`"),
            None => "One procedure of a drawing is `def main(w, h) { … }`, and the sheet is drawn by it".into(),
        }
    }

    /// `//`, `/*` or `#`, at the place or before it in the same line.
    fn comment(&self, here: Token) -> Option<Reason> {
        let text = &self.program[..here.start];
        let line = text.rsplit(|byte| *byte == b'\n').next()?;
        let behind = self.program.get(here.end());
        let opens = here.is("/") && matches!(behind, Some(b'/' | b'*'));
        let opened = here.is_one_of(&["/", "*"]) && text.ends_with(b"/");
        let in_line = line.windows(2).any(|two| two == b"//");
        let stars = text.windows(2).rposition(|two| two == b"/*");
        let closed = text.windows(2).rposition(|two| two == b"*/");
        let inside = stars.is_some() && closed < stars;
        if opens || opened || in_line || inside || here.is("#") {
            return reason_of("a comment", "The language has no comments: remove it, or keep it in another file");
        }
        None
    }

    /// A sheet where a program alone is due.
    fn sheet_line(&self, here: Token) -> Option<Reason> {
        let is_sheet = self.before.is_empty() && input::first_line(self.program).is_some();
        if is_sheet && here.start == 0 {
            return reason_of("the first line of a sheet", "It gives width and height itself: leave `--size` out");
        }
        None
    }

    /// A byte that no token begins with.
    fn byte(&self, here: Token) -> Option<Reason> {
        let only = "Outside of strings there are letters from A to Z, digits and signs alone";
        match here.text {
            b"\r" => reason_of(
                "a carriage return",
                "Lines must end in a linefeed alone: save the file with Unix line ends, or run `tr -d '\\r' <OLD >NEW`",
            ),
            b"&" | b"|" => {
                reason_of("no sign of the language", "There is no `and` and no `or`: write one `if` inside the other, or two of them")
            }
            b"!" => reason_of("no sign of the language", "There is no `not`: write `x == false`"),
            b"_" => reason_of("no sign of the language", "A name has letters and digits alone: write `barWidth` for `bar_width`"),
            b"'" => reason_of("no sign of the language", "A string stands between double quotes: `\"day\"`"),
            b"\xef\xbb\xbf" => reason_of("a byte order mark", "Save the file without it; it cannot be seen in an editor"),
            text if text[0] >= 0x80 => reason_of(
                "no letter of the language",
                match std::str::from_utf8(text) {
                    Ok("“" | "”" | "„" | "«" | "»") => "A string stands between straight double quotes: `\"day\"`",
                    Ok("−" | "–" | "—") => "A minus is the sign `-` of the keyboard",
                    Ok("×" | "·") => "Multiplying is `*`",
                    Ok("÷") => "Dividing is `/`",
                    Ok("\u{a0}") => "This is a blank of another kind: write a plain one",
                    _ => "Letters go from A to Z: write `ae` for `ä`, also in strings",
                },
            ),
            [b'A'..=b'Z' | b'a'..=b'z' | b'0'..=b'9' | b'"', ..] => None,
            text if b"+-*/%><=.,;()[]{}".contains(&text[0]) || text.len() > 1 => None,
            _ => reason_of("no sign of the language", only),
        }
    }

    fn string(&self, here: Token) -> Option<Reason> {
        let [b'"', inside @ ..] = here.text else {
            return None;
        };
        let Some(inside) = inside.strip_suffix(b"\"") else {
            return reason_of("a string that is not closed", "Write a second `\"` at its end, in the same line");
        };
        let join = "A string is one letter and then letters and digits, nothing else";
        match inside.iter().find(|byte| !byte.is_ascii_alphanumeric()) {
            _ if inside.is_empty() => reason_of("an empty string", format!("{join}; there is no empty one")),
            Some(b' ' | b'\t') => {
                reason_of("a string with a blank", format!("{join}: write `\"dayAndNight\"`, or draw two texts side by side"))
            }
            Some(0x80..) => reason_of("a string with a letter beyond ASCII", format!("{join}, from A to Z: write `ae` for `ä`")),
            Some(_) => reason_of("a string with a sign", join),
            None if inside[0].is_ascii_digit() => {
                reason_of("a string that begins with a digit", format!("{join}: write `\"h12\"` for `\"12\"`"))
            }
            None => None,
        }
    }

    /// `def name(`, where a procedure begins, and what is behind one.
    fn header(&self, here: Token) -> Option<Reason> {
        let form = "A procedure is `def name(x, y) { … }`; that of the sheet is `def main(w, h) { … }`";
        let open = self.open();
        match self.before {
            [] if !here.is("def") => {
                reason_of(format!("`{}` cannot begin a drawing", here.shown()), "A drawing begins with `def`, as in `def main(w, h) {`")
            }
            [.., def] if def.is("def") && here.is_reserved() => reason_of(
                "a reserved word",
                "A procedure needs another name: def, var, if, while, foreach, in, do, return, none, true and false are taken",
            ),
            [.., def] if def.is("def") && !here.is_number() => reason_of("a name is missing before", form),
            [.., def, _] if def.is("def") && !here.is("(") => reason_of("a `(` is missing before", form),
            [.., last] if open.is_empty() && last.is(")") => reason_of("a `{` is missing before", form),
            _ if here.is("def") => open.last().and_then(|bracket| {
                reason_of(
                    "a procedure inside another",
                    format!("The `{}` of line {} is not closed: is a `}}` missing before?", bracket.shown(), self.line(bracket.start)),
                )
            }),
            _ if open.is_empty() && self.last_is(&["}"]) => reason_of(
                "behind the end of a procedure",
                "The `}` before closes it, and only another `def` can follow. Is there one `}` too many before?",
            ),
            _ => None,
        }
    }

    fn number(&self, here: Token) -> Option<Reason> {
        if here.is_number() && self.last_is(&["var", "def"]) {
            return reason_of("a name is due", "A name begins with a letter: write `q1` for `1q`");
        }
        let value = here.shown().parse::<u64>();
        if here.is_number() && value.map_or(true, |value| value > i32::MAX as u64) {
            return reason_of("a number out of its range", "Numbers go from -2147483648 to 2147483647");
        }
        let glued = self.last().is_some_and(|last| last.is_number() && last.end() == here.start);
        if here.is_word() && glued {
            return reason_of("a name that begins with a digit", "A name begins with a letter: write `q1` for `1q`");
        }
        None
    }

    /// `=` where it cannot stand.
    fn equals(&self, here: Token) -> Option<Reason> {
        let last = self.last()?;
        if !here.is("=") {
            return None;
        }
        let glued = last.end() == here.start;
        if glued && last.is_one_of(&["<", ">"]) {
            let (sign, other) = (last.shown(), if last.is("<") { ">" } else { "<" });
            return reason_of(
                format!("there is no `{sign}=`"),
                format!("Write `k {sign} 97` for `k {sign}= 96`, or turn it round: `(a {other} b) == false` for `a {sign}= b`")
                    .replace("> 97", "> 95"),
            );
        }
        if glued && last.is_operator() {
            let sign = last.shown();
            return reason_of(format!("there is no `{sign}=`"), format!("Write `k = k {sign} 1;`"));
        }
        let declared = self.before.len() >= 2 && self.before[self.before.len() - 2].is("var");
        if declared {
            let name = last.shown();
            return reason_of("a declaration has no value", format!("Declare first and then assign: `var {name}; {name} = …;`"));
        }
        if self.before_bracket().is_some_and(|token| token.is("for")) {
            return reason_of("there is no `for`", "Write `while`: set the variable before, and change it at the end of the body");
        }
        if self.open().last().is_some_and(|bracket| bracket.is("(")) {
            return reason_of("`=` sets a variable", "To compare, write `==`");
        }
        if self.expression().iter().any(Token::is_operator) || last.is(")") {
            return reason_of("nothing to assign to", "On the left of `=` stands a name, or a table, a dot and a key: `t.1 = 5;`");
        }
        None
    }

    /// Words of other languages.
    fn elsewhere_a_word(&self, here: Token) -> Option<Reason> {
        let last = self.last()?;
        if last.is("else") {
            return reason_of(
                "behind `else`, which the language has not",
                "Write a second `if` with the opposite test: `if (x == false) …`",
            );
        }
        if last.is("var") && here.is_reserved() {
            return reason_of(
                "a reserved word",
                "A variable needs another name: def, var, if, while, foreach, in, do, return, none, true and false are taken",
            );
        }
        if last.is_one_of(&["if", "while"]) && !here.is("(") {
            return reason_of("a `(` is missing before", format!("A test stands in parentheses: `{} (k < 96)`", last.shown()));
        }
        if last.is("then") {
            return reason_of("behind `then`, which the language has not", "Behind the test stands a statement, or several in braces");
        }
        if here.is("do") && self.body_due() {
            return reason_of("a `do` belongs to `foreach`", "Behind the test stands a statement, or several in braces");
        }
        if last.is_one_of(&["let", "int", "const", "function"]) && here.is_name() {
            return reason_of(format!("there is no `{}`", last.shown()), "A variable is declared with `var name;`");
        }
        None
    }

    /// Nothing where a statement is due.
    fn empty(&self, here: Token) -> Option<Reason> {
        if here.is("}") && self.last_is(&["{"]) {
            return reason_of("an empty body", "Between `{` and `}` stands at least one statement; one that does nothing is `none;`");
        }
        if here.is(";") && self.last_is(&[";", "{", "}"]) {
            return reason_of("no statement before this `;`", "Remove it; behind `}` stands no `;` either");
        }
        if here.is(";") && self.body_due() {
            return reason_of("an empty body", "Behind the test stands a statement, or several in braces: remove this `;`");
        }
        if here.is("}") && self.body_due() {
            return reason_of("an empty body", "Behind the test stands a statement, or several in braces");
        }
        None
    }

    /// Whether the last token closes the test of an `if` or `while`.
    fn body_due(&self) -> bool {
        let mut depth = 0;
        for (index, token) in self.before.iter().enumerate().rev() {
            depth += token.is(")") as i32;
            depth -= token.is("(") as i32;
            if depth == 0 {
                return token.is("(") && index > 0 && self.before[index - 1].is_one_of(&["if", "while"]);
            }
        }
        false
    }

    fn minus(&self, here: Token) -> Option<Reason> {
        let operand = self.last().is_some_and(|last| last.ends_operand()) && !self.body_due();
        if here.is("-") && !operand {
            if self.last_is(&["-"]) && self.behind.first().is_some_and(|token| token.is_one_of(&[";", ")"])) {
                return reason_of("there is no `--`", "Write `k = k - 1;`");
            }
            return reason_of(
                "a minus that belongs to no number",
                "A minus stands directly before digits: write `0 - x` for `-x`, and `-5` for `- 5`",
            );
        }
        None
    }

    fn second_operator(&self, here: Token) -> Option<Reason> {
        let dot = here.is(".");
        if !(here.is_operator() || dot) || !self.last().is_some_and(|last| last.ends_operand()) {
            return None;
        }
        let mut depth = 0;
        let outside = self.expression().iter().filter(|token| {
            depth += token.is_one_of(&["(", "["]) as i32;
            let at_top = depth == 0;
            depth -= token.is_one_of(&[")", "]"]) as i32;
            at_top
        });
        let earlier: Vec<_> = outside.filter(|token| token.is_operator() || token.is(".")).collect();
        if dot && earlier.iter().any(|token| token.is(".")) {
            return reason_of("a second dot", "Put the first one in parentheses: `(t.1).2`");
        }
        if !dot && earlier.iter().any(|token| token.is_operator()) {
            return reason_of("a second operator", "Two operators need parentheses, for none binds closer: `(h - 2) - 1`");
        }
        None
    }

    fn bracket(&self, here: Token) -> Option<Reason> {
        let open = self.open();
        let bracket = open.last()?;
        let called = self.before_bracket().is_some_and(|token| token.is_name());
        let unclosed = match here.text {
            b";" | b"{" | b"}" => bracket.is_one_of(&["(", "["]),
            b"," => bracket.is("[") || (bracket.is("(") && !called),
            _ => false,
        };
        if unclosed && self.last().is_some_and(|last| last.ends_operand()) {
            let closing = if bracket.is("(") { ")" } else { "]" };
            return reason_of(
                format!("a `{closing}` is missing before"),
                format!("The `{}` of line {} is not closed", bracket.shown(), self.line(bracket.start)),
            );
        }
        let fits = match here.text {
            b")" => bracket.is("("),
            b"]" => bracket.is("["),
            _ => return None,
        };
        if !fits {
            return reason_of(format!("a `{}` too many", here.shown()), "No bracket that is open here is closed by it");
        }
        None
    }

    /// A sign behind which a value is due, and none stands there.
    fn value_missing(&self, here: Token) -> Option<Reason> {
        let last = self.last()?;
        let due =
            last.is_operator() || last.is_one_of(&["=", ".", "[", "return"]) || (last.is_one_of(&["(", ","]) && self.open().len() > 1);
        if !due {
            return None;
        }
        if last.is("++") && here.is_one_of(&[";", ")"]) {
            return reason_of("`++` joins two strings", "To count, write `k = k + 1;`");
        }
        reason_of("a value is missing before", format!("Behind `{}` a number, a name, a string, a call or a bracket is due", last.shown()))
    }

    /// Two things in a row where something stands between them.
    fn semicolon(&self, here: Token) -> Option<Reason> {
        let last = self.last()?;
        let inside = self.open().last().is_some_and(|bracket| bracket.is_one_of(&["(", "["]));
        let starts = here.is_word() || here.is_number() || here.is_string() || here.is_one_of(&["[", "(", "{", "}"]);
        if !starts || !last.ends_operand() {
            return None;
        }
        if inside {
            return reason_of("a comma or an operator is missing before", "Between two values stands an operator, or a comma in a call");
        }
        let line = match self.line(last.start) == self.line(here.start) {
            true => String::new(),
            false => ", at the end of its line".into(),
        };
        reason_of("a `;` is missing before", format!("Write it behind `{}`{line}: every statement but a block ends in `;`", last.shown()))
    }
}
