//! Why a drawing that ran gets 20, 50 or 60, where the statement under way shows it.

use super::{reason_of, Reason};
use crate::input::Drawing;
use crate::tokens::{self, Token};
use img::Refusal;

/// What a refusal is about: its statement, the procedures of the drawing, and the one that the statement stands in.
struct Spot<'a> {
    drawing: &'a Drawing,
    place: usize,
    statement: Vec<Token<'a>>,
    procedures: Vec<Own<'a>>,
    within: usize,
}

/// A procedure of the drawing: its tokens from `def` on.
struct Own<'a> {
    tokens: Vec<Token<'a>>,
}

impl<'a> Own<'a> {
    fn name(&self) -> &'a [u8] {
        self.tokens.get(1).map_or(b"", |name| name.text)
    }

    fn shown(&self) -> String {
        self.tokens.get(1).map_or(String::new(), Token::shown)
    }

    fn parameters(&self) -> impl Iterator<Item = Token<'a>> + '_ {
        let list = self.tokens.iter().skip(3).take_while(|token| !token.is(")"));
        list.filter(|token| token.is_name()).copied()
    }

    fn has_equal_parameters(&self) -> bool {
        let names: Vec<&[u8]> = self.parameters().map(|name| name.text).collect();
        names.iter().enumerate().any(|(index, name)| names[..index].contains(name))
    }

    /// The names of its parameters and of its declarations, where they stand; a foreach declares its name.
    fn declared(&self) -> Vec<Token<'a>> {
        let variables = self.tokens.windows(2).filter(|two| two[0].is("var") || two[0].is("foreach")).map(|two| two[1]);
        self.parameters().chain(variables).collect()
    }

    /// Whether the name that stands there is declared by a foreach.
    fn by_foreach(&self, name: Token) -> bool {
        self.tokens.windows(2).any(|two| two[0].is("foreach") && two[1].start == name.start)
    }
}

impl<'a> Spot<'a> {
    fn of(drawing: &'a Drawing, refusal: &Refusal) -> Spot<'a> {
        let all = tokens::tokens(drawing.program());
        let from = all.partition_point(|token| token.start < refusal.place);
        let statement = tokens::statement(&all[from..]).to_vec();
        let mut procedures: Vec<Own> = Vec::new();
        let mut within = 0;
        for token in all {
            match procedures.last_mut() {
                Some(last) if !token.is("def") => last.tokens.push(token),
                _ => {
                    if token.start <= refusal.place {
                        within = procedures.len();
                    }
                    procedures.push(Own { tokens: vec![token] });
                }
            }
        }
        Spot { drawing, place: refusal.place, statement, procedures, within }
    }

    /// The procedure that the statement stands in.
    fn within(&self) -> &Own<'a> {
        &self.procedures[self.within]
    }

    fn named(&self, name: Token) -> Option<&Own<'a>> {
        self.procedures.iter().find(|own| own.name() == name.text)
    }

    /// The line of a token, from 1.
    fn line(&self, token: Token) -> usize {
        let place = self.drawing.start + token.start;
        1 + self.drawing.bytes[..place].iter().filter(|byte| **byte == b'\n').count()
    }

    /// The calls of the statement: each name and the tokens behind its parenthesis.
    fn calls(&self) -> impl Iterator<Item = (Token<'a>, &[Token<'a>])> {
        let pairs = self.statement.windows(2).enumerate();
        let calls = pairs.filter(|(_, two)| two[0].is_name() && two[1].is("("));
        calls.map(|(index, two)| (two[0], &self.statement[index + 2..]))
    }
}

/// A name of the statement that its procedure declares nowhere, or only further down.
pub fn undeclared(drawing: &Drawing, refusal: &Refusal) -> Option<Reason> {
    let spot = Spot::of(drawing, refusal);
    let declared = spot.within().declared();
    let mut names = spot.statement.iter().enumerate().filter_map(|(index, token)| {
        let called = spot.statement.get(index + 1).is_some_and(|next| next.is("("));
        let bound = index > 0 && spot.statement[index - 1].is("foreach");
        (token.is_name() && !called && !bound).then_some(token)
    });
    let name = names.find(|name| !declared.iter().any(|first| first.text == name.text && first.start < refusal.place))?;
    let shown = name.shown();
    if let Some(first) = declared.iter().find(|first| first.text == name.text) {
        if spot.within().by_foreach(*first) {
            return reason_of(
                format!("`{shown}` is declared only by the foreach in line {}", spot.line(*first)),
                format!("Declare it by `var {shown};` before this statement"),
            );
        }
        return reason_of(
            format!("`{shown}` is declared further down, in line {}", spot.line(*first)),
            format!("Move its `var {shown};` before this statement"),
        );
    }
    let elsewhere = spot.procedures.iter().find(|own| own.declared().iter().any(|first| first.text == name.text));
    match elsewhere {
        None => reason_of(format!("`{shown}` is declared nowhere"), ""),
        Some(own) => {
            let (own, here) = (own.shown(), spot.within().shown());
            reason_of(
                format!("`{shown}` is declared in `{own}`, not in `{here}`"),
                format!("Each procedure has variables of its own: give `{here}` a parameter more and hand `{shown}` over"),
            )
        }
    }
}

/// Where the variable was declared first, or the procedure's name defined.
pub fn declared(drawing: &Drawing, refusal: &Refusal) -> Option<Reason> {
    let spot = Spot::of(drawing, refusal);
    let each = "Give each parameter a name of its own";
    let [first, name, ..] = &spot.statement[..] else {
        return None;
    };
    let shown = name.shown();
    if first.is("def") {
        if LIBRARY.iter().any(|(known, _)| name.is(known)) {
            return reason_of(format!("`{shown}` is a procedure of the library"), "Give this one another name");
        }
        let earlier = spot.procedures.iter().find(|own| own.name() == name.text && own.tokens[0].start < spot.place);
        return match earlier {
            Some(own) => reason_of(
                format!("`{shown}` is defined in line {} already", spot.line(own.tokens[0])),
                "Give one of the two another name, or remove it",
            ),
            // Main's own number stands at the drawing's beginning.
            None => reason_of("two parameters of `main` have one name", each),
        };
    }
    if !first.is("var") {
        let (called, own) = spot.calls().find_map(|(name, _)| {
            let own = spot.named(name)?;
            own.has_equal_parameters().then_some((name, own))
        })?;
        let line = spot.line(own.tokens[0]);
        return reason_of(format!("two parameters of `{}` have one name", called.shown()), format!("{each}, in line {line}"));
    }
    let within = spot.within();
    let before = within.tokens.iter().position(|token| token.start >= refusal.place).unwrap_or(0);
    let earlier = within.tokens[..before].windows(2).find(|two| two[0].is("var") && two[1].text == name.text);
    if let Some(first) = earlier {
        return reason_of(format!("`{shown}` is declared in line {} already", spot.line(first[0])), "");
    }
    let own = within.shown();
    let is_parameter = within.parameters().any(|token| token.text == name.text);
    match is_parameter {
        true => reason_of(
            format!("`{shown}` is a parameter of `{own}`"),
            "Parameters are declared already: remove this `var`, or take another name",
        ),
        false => reason_of(format!("`{shown}` was declared in an earlier round"), ""),
    }
}

/// A call too many: of the procedure that the statement stands in.
pub fn endless(drawing: &Drawing, refusal: &Refusal) -> Option<Reason> {
    let spot = Spot::of(drawing, refusal);
    let own = spot.within();
    let itself = spot.calls().any(|(name, _)| name.text == own.name());
    match itself {
        true => reason_of(format!("`{}` calls itself here", own.shown()), ""),
        false => None,
    }
}

/// The procedures of the library, with how many arguments each takes; drawGroup takes any number.
const LIBRARY: [(&str, Option<usize>); 11] = [
    ("drawLine", Some(4)),
    ("drawEllipse", Some(4)),
    ("drawBox", Some(4)),
    ("drawText", Some(3)),
    ("drawLineConnectingShapes", Some(2)),
    ("drawTextOnShape", Some(2)),
    ("getShapeXCoordinate", Some(1)),
    ("getShapeYCoordinate", Some(1)),
    ("destroyShape", Some(1)),
    ("clearScene", Some(0)),
    ("drawGroup", None),
];

/// A value that does not fit, a call of the statement that names no procedure, or one with another number of arguments.
pub fn unfit(drawing: &Drawing, refusal: &Refusal) -> Option<Reason> {
    let spot = Spot::of(drawing, refusal);
    if spot.statement.first()?.is("def") && refusal.steps == 0 {
        return reason_of("`main` has two parameters", "Write `def main(w, h)`: width and height of the sheet");
    }
    for (name, behind) in spot.calls() {
        let shown = name.shown();
        if name.is("main") {
            return reason_of("`main` cannot be called", "Put what both need into another procedure, and call that");
        }
        let library = LIBRARY.iter().find(|(known, _)| name.is(known)).map(|(_, takes)| *takes);
        let own = spot.named(name).map(|own| Some(own.parameters().count()));
        let Some(takes) = library.or(own) else {
            let known = LIBRARY.iter().map(|(known, _)| known.to_string());
            let mut names = known.chain(spot.procedures.iter().map(Own::shown));
            let like = names.find(|known| known.eq_ignore_ascii_case(&shown));
            let help = like.map_or(String::new(), |known| format!("Large and small letters differ: write `{known}`"));
            return reason_of(format!("there is no procedure `{shown}`"), help);
        };
        let given = arguments(behind);
        if let Some(takes) = takes.filter(|takes| *takes != given) {
            let arguments = if takes == 1 { "argument" } else { "arguments" };
            return reason_of(format!("`{shown}` takes {takes} {arguments}, here are {given}"), "");
        }
    }
    values(&spot.statement)
}

/// Values that cannot do what they seem to be meant for: a point in a number, `+` beside a string, a test that compares nothing.
fn values(statement: &[Token]) -> Option<Reason> {
    for three in statement.windows(3) {
        let [left, sign, right] = three else { continue };
        if sign.is(".") && left.is_number() && right.is_number() {
            return reason_of(
                "numbers are whole",
                format!("`{}.{}` would read the key {2} of a table: write a whole number", left.shown(), right.shown(), right.shown()),
            );
        }
        if sign.is("+") && (left.is_string() || right.is_string()) {
            return reason_of("`+` adds numbers", "Two strings are joined by `++`; a number cannot be joined to a string");
        }
    }
    let first = statement.first()?;
    let compares = |token: &Token| token.is_one_of(&["==", "!=", "<", ">", "true", "false"]);
    if first.is_one_of(&["if", "while"]) && !statement.iter().any(compares) {
        return reason_of("nothing is compared", "A test is true or false: compare with `==`, `!=`, `<` or `>`");
    }
    None
}

/// How many arguments a call has, from behind its parenthesis on.
fn arguments(tokens: &[Token]) -> usize {
    let mut depth = 0;
    let mut commas = 0;
    for (index, token) in tokens.iter().enumerate() {
        if depth == 0 && token.is(")") {
            return if index == 0 { 0 } else { commas + 1 };
        }
        depth += token.is_one_of(&["(", "["]) as i32;
        depth -= token.is_one_of(&[")", "]"]) as i32;
        commas += (depth == 0 && token.is(",")) as usize;
    }
    commas + 1
}
