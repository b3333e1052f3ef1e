//! Other spellings of a program: other white space, needless parentheses,
//! leading zeros and minus zeros. And programs with one thing changed, which
//! most often have another tree.

use crate::random::Random;
use crate::spacing::{write, Spacing};
use crate::words::{edge, string, token, NAMES, OPERATORS};
use reference::grammar::{read, LEVELS, TOKENS};
use reference::operation::PROGRAM_BYTES;
use reference::token::{tokens, Kind, Token};
use reference::tree::{Action, Expression, Name, Program, Statement};

/// How much that is needless is put into a spelling.
#[derive(Clone, Copy, Debug, PartialEq, Eq)]
pub enum Amount {
    /// No parentheses and no zeros.
    Nothing,
    /// Here and there, so many times of a thousand.
    Some(usize),
    /// As many parentheses as levels and tokens allow.
    Brim,
}

impl Amount {
    pub fn any(random: &mut Random) -> Amount {
        match random.weighted(&[10, 888, 2]) {
            0 => Amount::Nothing,
            1 => Amount::Some(*random.pick(&[30, 100, 300, 700])),
            _ => Amount::Brim,
        }
    }
}

/// A program in another spelling, within all limits; nothing if it cannot be
/// read.
pub fn respelled(program: &[u8], random: &mut Random) -> Option<Vec<u8>> {
    let amount = Amount::any(random);
    spelled(program, amount, random)
}

/// The same, with this much that is needless.
pub fn spelled(program: &[u8], amount: Amount, random: &mut Random) -> Option<Vec<u8>> {
    let tree = read(program).ok()?;
    let plain = spell(&tree, Amount::Nothing, 0, random);
    // A constant with its minus is two tokens.
    let minus = |token: &&String| token.len() > 1 && token.starts_with('-');
    let count = plain.len() + plain.iter().filter(minus).count();
    let spare = TOKENS - count;
    let spare = match amount {
        Amount::Some(_) if random.chance(980) => spare.min(300),
        _ => spare,
    };
    let spacing = match random.weighted(&[60, 20, 10, 10]) {
        0 => Spacing::Mixed,
        1 => Spacing::Least,
        2 => Spacing::Spaces,
        _ => Spacing::Lines,
    };
    let rich = spell(&tree, amount, spare, random);
    // The last of these is no longer than the program was.
    for (tokens, spacing) in [
        (&rich, spacing),
        (&rich, Spacing::Least),
        (&plain, Spacing::Least),
    ] {
        let bytes = write(tokens, spacing, random);
        if bytes.len() <= PROGRAM_BYTES {
            return Some(bytes);
        }
    }
    None
}

fn spell(tree: &Program, amount: Amount, spare: usize, random: &mut Random) -> Vec<String> {
    let mut speller = Speller {
        names: &tree.names,
        amount,
        spare,
        level: 0,
        tokens: Vec::new(),
        random,
    };
    for definition in &tree.definitions {
        speller.put("def");
        speller.bytes(definition.procedure.spelling(&tree.names));
        speller.put("(");
        for (at, parameter) in definition.parameters.iter().enumerate() {
            if at > 0 {
                speller.put(",");
            }
            speller.name(*parameter);
        }
        speller.put(")");
        speller.put("{");
        speller.statements(&definition.body);
        speller.put("}");
    }
    speller.tokens
}

struct Speller<'a> {
    names: &'a [Vec<u8>],
    amount: Amount,
    /// How many tokens may be put in besides those that must be.
    spare: usize,
    /// How many levels are open.
    level: usize,
    /// A constant with its minus is one text here.
    tokens: Vec<String>,
    random: &'a mut Random,
}

impl Speller<'_> {
    fn put(&mut self, text: &str) {
        self.tokens.push(text.to_string());
    }

    fn bytes(&mut self, bytes: &[u8]) {
        self.tokens
            .push(String::from_utf8_lossy(bytes).into_owned());
    }

    fn name(&mut self, name: Name) {
        let names = self.names;
        self.bytes(&names[name]);
    }

    /// Whether something needless is put in here.
    fn lavish(&mut self) -> bool {
        match self.amount {
            Amount::Nothing => false,
            Amount::Some(times) => self.random.chance(times),
            Amount::Brim => true,
        }
    }

    /// How many needless parentheses stand around something that itself
    /// needs so many levels.
    fn around(&mut self, needs: usize) -> usize {
        let levels = (LEVELS as usize).saturating_sub(self.level + needs);
        let room = levels.min(self.spare / 2);
        if room == 0 || !self.lavish() {
            return 0;
        }
        let many = match (self.amount, self.random.weighted(&[60, 25, 12, 3])) {
            (Amount::Brim, _) | (_, 3) => room,
            (_, 0) => 1,
            (_, 1) => 2,
            _ => self.random.between(3, 6),
        };
        let many = many.min(room);
        self.spare -= 2 * many;
        many
    }

    /// Something in so many parentheses.
    fn wrapped(&mut self, many: usize, inside: impl FnOnce(&mut Self)) {
        for _ in 0..many {
            self.put("(");
        }
        self.level += many;
        inside(self);
        self.level -= many;
        for _ in 0..many {
            self.put(")");
        }
    }

    fn statements(&mut self, list: &[Statement]) {
        for statement in list {
            self.statement(statement);
        }
    }

    fn statement(&mut self, statement: &Statement) {
        match &statement.action {
            Action::Declare(name) => {
                self.put("var");
                self.name(*name);
                self.put(";");
            }
            // The name is not put in parentheses: it could not be assigned to.
            Action::Assign(name, value) => {
                self.name(*name);
                self.put("=");
                self.expression(value);
                self.put(";");
            }
            Action::Update { table, key, value } => {
                self.primary(table);
                self.put(".");
                self.primary(key);
                self.put("=");
                self.expression(value);
                self.put(";");
            }
            Action::If(test, body) => self.guarded("if", test, body),
            Action::While(test, body) => self.guarded("while", test, body),
            Action::Foreach(name, group, body) => {
                self.put("foreach");
                self.name(*name);
                self.put("in");
                self.expression(group);
                self.put("do");
                self.level += 1;
                self.statement(body);
                self.level -= 1;
            }
            Action::Return(value) => {
                self.put("return");
                self.expression(value);
                self.put(";");
            }
            Action::Block(list) => {
                self.put("{");
                self.level += 1;
                self.statements(list);
                self.level -= 1;
                self.put("}");
            }
            Action::Evaluate(value) => {
                self.expression(value);
                self.put(";");
            }
        }
    }

    fn guarded(&mut self, word: &str, test: &Expression, body: &Statement) {
        self.put(word);
        self.wrapped(1, |speller| speller.expression(test));
        self.level += 1;
        self.statement(body);
        self.level -= 1;
    }

    fn expression(&mut self, whole: &Expression) {
        let many = self.around(levels_of_expression(whole));
        self.wrapped(many, |speller| match whole {
            Expression::Operate(operator, first, second) => {
                speller.operand(first);
                speller.put(operator.spelling());
                speller.operand(second);
            }
            other => speller.operand(other),
        });
    }

    fn operand(&mut self, operand: &Expression) {
        match operand {
            Expression::Read(table, key) => {
                let many = self.around(levels_of_operand(operand));
                self.wrapped(many, |speller| {
                    speller.primary(table);
                    speller.put(".");
                    speller.primary(key);
                });
            }
            other => self.primary(other),
        }
    }

    fn primary(&mut self, primary: &Expression) {
        let many = self.around(levels_of_primary(primary));
        self.wrapped(many, |speller| match primary {
            Expression::Integer(number) => speller.constant(*number),
            Expression::Text(inside) => {
                let inside = String::from_utf8_lossy(inside);
                speller.tokens.push(format!("\"{inside}\""));
            }
            Expression::None => speller.put("none"),
            Expression::Boolean(true) => speller.put("true"),
            Expression::Boolean(false) => speller.put("false"),
            Expression::Variable(name) => speller.name(*name),
            Expression::Create(size) => {
                speller.put("[");
                speller.level += 1;
                speller.expression(size);
                speller.level -= 1;
                speller.put("]");
            }
            Expression::Call(procedure, arguments) => {
                speller.bytes(procedure.spelling(speller.names));
                speller.wrapped(1, |speller| {
                    for (at, argument) in arguments.iter().enumerate() {
                        if at > 0 {
                            speller.put(",");
                        }
                        speller.expression(argument);
                    }
                });
            }
            Expression::Operate(..) | Expression::Read(..) => {
                speller.wrapped(1, |speller| speller.expression(primary));
            }
        });
    }

    fn constant(&mut self, number: i32) {
        let mut minus = number < 0;
        if number == 0 && self.spare > 0 && self.lavish() && self.random.chance(500) {
            minus = true;
            self.spare -= 1;
        }
        let zeros = match self.lavish() {
            false => 0,
            true if self.random.chance(20) => self.random.between(10, 80),
            true => self.random.below(4),
        };
        let minus = if minus { "-" } else { "" };
        let zeros = "0".repeat(zeros);
        self.tokens
            .push(format!("{minus}{zeros}{}", number.unsigned_abs()));
    }
}

/// How many levels something must open, by what is due where it stands.
fn levels_of_expression(whole: &Expression) -> usize {
    match whole {
        Expression::Operate(_, first, second) => {
            levels_of_operand(first).max(levels_of_operand(second))
        }
        other => levels_of_operand(other),
    }
}

fn levels_of_operand(operand: &Expression) -> usize {
    match operand {
        Expression::Read(table, key) => levels_of_primary(table).max(levels_of_primary(key)),
        other => levels_of_primary(other),
    }
}

fn levels_of_primary(primary: &Expression) -> usize {
    match primary {
        Expression::Create(size) => 1 + levels_of_expression(size),
        Expression::Call(_, arguments) => {
            1 + arguments
                .iter()
                .map(levels_of_expression)
                .max()
                .unwrap_or(0)
        }
        Expression::Operate(..) | Expression::Read(..) => 1 + levels_of_expression(primary),
        _ => 0,
    }
}

/// A program with one token changed, or with a pair of parentheses or braces
/// put in or taken out.
pub fn changed(program: &[u8], random: &mut Random) -> Vec<u8> {
    let found = match tokens(program) {
        Ok(found) if !found.is_empty() => found,
        _ => return program.to_vec(),
    };
    match random.weighted(&[74, 10, 8, 8]) {
        0 => {
            // Most often one that can be another.
            let mut one = *random.pick(&found);
            for _ in 0..8 {
                if matches!(one.kind, Kind::Name | Kind::Digits | Kind::Text)
                    || is_operator(one.kind)
                {
                    break;
                }
                one = *random.pick(&found);
            }
            let other = other_token(program, &found, one, random);
            replaced(program, &[(one.start, one.end, &other)])
        }
        // Parentheses around a few tokens.
        1 => {
            let first = random.below(found.len());
            let last = (first + random.below(6)).min(found.len() - 1);
            let (start, end) = (found[first].start, found[last].end);
            replaced(program, &[(start, start, "("), (end, end, ")")])
        }
        // A pair taken out.
        2 => match random_pair(program, &found, random) {
            Some((open, close)) => replaced(
                program,
                &[(open.start, open.end, ""), (close.start, close.end, "")],
            ),
            None => program.to_vec(),
        },
        // A block around a few statements, or what looks like some.
        _ => {
            let first = random.below(found.len());
            let last = (first + random.below(12)).min(found.len() - 1);
            let start = before_statement(program, &found, first);
            let end = before_statement(program, &found, last).max(start);
            replaced(program, &[(start, start, "{"), (end, end, "}")])
        }
    }
}

/// The end of the last token up to this one behind which a statement may
/// begin.
fn before_statement(program: &[u8], found: &[Token], at: usize) -> usize {
    found[..=at]
        .iter()
        .rev()
        .find(|token| matches!(program[token.start], b';' | b'{' | b'}'))
        .map_or(0, |token| token.end)
}

/// The opening parentheses of a program, each with its partner.
pub fn pairs(program: &[u8], found: &[Token]) -> Vec<(Token, Token)> {
    let mut open = Vec::new();
    let mut pairs = Vec::new();
    for token in found {
        match program[token.start] {
            b'(' => open.push(*token),
            b')' => pairs.extend(open.pop().map(|partner| (partner, *token))),
            _ => {}
        }
    }
    pairs
}

fn random_pair(program: &[u8], found: &[Token], random: &mut Random) -> Option<(Token, Token)> {
    let pairs = pairs(program, found);
    match pairs.is_empty() {
        true => None,
        false => Some(*random.pick(&pairs)),
    }
}

/// A program with some of its bytes, from left to right, replaced by others;
/// a space keeps words apart that would run together.
pub fn replaced(program: &[u8], changes: &[(usize, usize, &str)]) -> Vec<u8> {
    let mut bytes = Vec::new();
    let mut add = |part: &[u8]| {
        let word = |byte: Option<&u8>| byte.is_some_and(u8::is_ascii_alphanumeric);
        if word(bytes.last()) && word(part.first()) {
            bytes.push(b' ');
        }
        bytes.extend_from_slice(part);
    };
    let mut from = 0;
    for (start, end, by) in changes {
        add(&program[from..*start]);
        add(by.as_bytes());
        from = *end;
    }
    add(&program[from..]);
    bytes
}

/// Most often a token of the same sort.
fn other_token(program: &[u8], found: &[Token], one: Token, random: &mut Random) -> String {
    let spelling = String::from_utf8_lossy(one.spelling(program)).into_owned();
    if random.chance(100) {
        return token(random);
    }
    match one.kind {
        Kind::Name => match random.below(4) {
            0 => random.pick(&NAMES).to_string(),
            1 => format!("{spelling}{}", random.pick(&["0", "1", "a", "Z"])),
            2 => {
                let names: Vec<&Token> = found.iter().filter(|t| t.kind == Kind::Name).collect();
                let other = random.pick(&names).spelling(program);
                String::from_utf8_lossy(other).into_owned()
            }
            _ => match spelling.as_bytes()[0].is_ascii_lowercase() {
                true => spelling.to_ascii_uppercase(),
                false => spelling.to_ascii_lowercase(),
            },
        },
        Kind::Digits => match random.below(4) {
            0 => edge(random).replace('-', ""),
            1 => format!("{spelling}{}", random.below(10)),
            2 => format!("{}{spelling}", random.below(2)),
            _ => spelling[1..].to_string() + &random.below(10).to_string(),
        },
        Kind::Text => string(random),
        Kind::None | Kind::True | Kind::False => {
            let words = ["none", "true", "false", "0", "\"none\"", "w"];
            random.pick(&words).to_string()
        }
        Kind::Foreach | Kind::In | Kind::Do => {
            let words = ["foreach", "in", "do", "var", "each", ""];
            random.pick(&words).to_string()
        }
        Kind::If => "while".to_string(),
        Kind::While => "if".to_string(),
        Kind::Assign => random.pick(&["==", "=", ".", "-"]).to_string(),
        Kind::Dot | Kind::Comma => random.pick(&[".", ",", "+", ");("]).to_string(),
        Kind::Var | Kind::Return => random.pick(&["", "var", "return"]).to_string(),
        Kind::Semicolon => {
            let ends = [
                ";;", ".1;", "+1;", "=1;", ";1;", ";}{", ",1;", "-1;", "--0;",
            ];
            random.pick(&ends).to_string()
        }
        kind if is_operator(kind) => random.pick(&OPERATORS).to_string(),
        _ => match random.below(3) {
            0 => String::new(),
            1 => format!("{spelling}{spelling}"),
            _ => token(random),
        },
    }
}

fn is_operator(kind: Kind) -> bool {
    matches!(
        kind,
        Kind::Join
            | Kind::Plus
            | Kind::Minus
            | Kind::Times
            | Kind::Over
            | Kind::Percent
            | Kind::ShiftRight
            | Kind::ShiftLeft
            | Kind::Equal
            | Kind::Unequal
            | Kind::Greater
            | Kind::Less
    )
}
