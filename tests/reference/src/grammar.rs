//! The parser: tokens as a tree, or the first token that cannot stand where
//! it stands.
//!
//! The grammar is read with one token of foresight, so the first token that
//! does not fit is the one at which the parser stops. A token that fits and
//! would open level 65 is refused there with 75.

use crate::token::{tokens, Kind, Token};
use crate::tree::{Action, Definition, Expression, Name, Operator};
use crate::tree::{Procedure, Program, Statement};
use std::collections::HashMap;

/// The most tokens a program may have.
pub const TOKENS: usize = 8192;
/// The deepest level a token may open.
pub const LEVELS: u32 = 64;

/// Why a program is not well formed.
#[derive(Clone, Copy, Debug, PartialEq, Eq)]
pub struct Refusal {
    pub number: u32,
    pub place: usize,
}

/// Reads a program: the tokens first, then their number, then the grammar.
pub fn read(program: &[u8]) -> Result<Program, Refusal> {
    let tokens = tokens(program).map_err(|place| Refusal { number: 10, place })?;
    if let Some(token) = tokens.get(TOKENS) {
        return Err(Refusal {
            number: 74,
            place: token.start,
        });
    }
    Parser {
        program,
        tokens,
        next: 0,
        level: 0,
        names: HashMap::new(),
    }
    .program()
}

struct Parser<'a> {
    program: &'a [u8],
    tokens: Vec<Token>,
    next: usize,
    level: u32,
    names: HashMap<&'a [u8], Name>,
}

/// An operand, kept apart as long as it may still be an assignment's left
/// side.
enum Operand {
    Name(Name),
    Entry(Expression, Expression),
    Other(Expression),
}

impl Operand {
    fn expression(self) -> Expression {
        match self {
            Operand::Name(name) => Expression::Variable(name),
            Operand::Entry(table, key) => Expression::Read(Box::new(table), Box::new(key)),
            Operand::Other(expression) => expression,
        }
    }
}

impl<'a> Parser<'a> {
    fn kind(&self) -> Option<Kind> {
        self.tokens.get(self.next).map(|token| token.kind)
    }

    fn at(&self, kind: Kind) -> bool {
        self.kind() == Some(kind)
    }

    /// The next token's first byte, or the program's length behind the last.
    fn place(&self) -> usize {
        match self.tokens.get(self.next) {
            Some(token) => token.start,
            None => self.program.len(),
        }
    }

    fn misfit<T>(&self) -> Result<T, Refusal> {
        Err(Refusal {
            number: 10,
            place: self.place(),
        })
    }

    fn accept(&mut self, kind: Kind) -> bool {
        let here = self.at(kind);
        if here {
            self.next += 1;
        }
        here
    }

    fn expect(&mut self, kind: Kind) -> Result<(), Refusal> {
        if self.accept(kind) {
            Ok(())
        } else {
            self.misfit()
        }
    }

    /// Opens a level at the next token.
    fn open_level(&mut self) -> Result<(), Refusal> {
        if self.level == LEVELS {
            return Err(Refusal {
                number: 75,
                place: self.place(),
            });
        }
        self.level += 1;
        Ok(())
    }

    fn close_level(&mut self) {
        self.level -= 1;
    }

    /// Expects a token that opens a level.
    fn open(&mut self, kind: Kind) -> Result<(), Refusal> {
        if !self.at(kind) {
            return self.misfit();
        }
        self.open_level()?;
        self.next += 1;
        Ok(())
    }

    /// Expects a token that closes the level of its partner.
    fn close(&mut self, kind: Kind) -> Result<(), Refusal> {
        self.expect(kind)?;
        self.close_level();
        Ok(())
    }

    /// Expects a name and hands back the part of the program it covers.
    fn spelling(&mut self) -> Result<&'a [u8], Refusal> {
        match self.tokens.get(self.next) {
            Some(token) if token.kind == Kind::Name => {
                self.next += 1;
                Ok(token.spelling(self.program))
            }
            _ => self.misfit(),
        }
    }

    fn name(&mut self) -> Result<Name, Refusal> {
        let spelling = self.spelling()?;
        Ok(self.number_of(spelling))
    }

    /// The procedure that a name names.
    fn procedure(&mut self) -> Result<Procedure, Refusal> {
        let spelling = self.spelling()?;
        Ok(Procedure::named(spelling, self.number_of(spelling)))
    }

    fn number_of(&mut self, spelling: &'a [u8]) -> Name {
        let fresh = self.names.len();
        *self.names.entry(spelling).or_insert(fresh)
    }

    /// How each name is spelled, by its number.
    fn spellings(&self) -> Vec<Vec<u8>> {
        let mut all = vec![Vec::new(); self.names.len()];
        for (spelling, number) in &self.names {
            all[*number] = spelling.to_vec();
        }
        all
    }

    /// Procedures up to the end of the program, at least one. One of them is
    /// main, or the program ends too early.
    fn program(mut self) -> Result<Program, Refusal> {
        let mut definitions = vec![self.definition()?];
        while self.next < self.tokens.len() {
            definitions.push(self.definition()?);
        }
        let is_main = |one: &Definition| one.procedure == Procedure::Main;
        match definitions.iter().position(is_main) {
            Some(main) => Ok(Program {
                definitions,
                main,
                names: self.spellings(),
            }),
            None => self.misfit(),
        }
    }

    /// A procedure. Its own parentheses and braces open no level.
    fn definition(&mut self) -> Result<Definition, Refusal> {
        let place = self.place();
        self.expect(Kind::Def)?;
        let procedure = self.procedure()?;
        self.expect(Kind::OpenParen)?;
        let mut parameters = Vec::new();
        if !self.accept(Kind::CloseParen) {
            parameters.push(self.name()?);
            while self.accept(Kind::Comma) {
                parameters.push(self.name()?);
            }
            self.expect(Kind::CloseParen)?;
        }
        self.expect(Kind::OpenBrace)?;
        let body = self.statements()?;
        self.expect(Kind::CloseBrace)?;
        Ok(Definition {
            place,
            procedure,
            parameters,
            body,
        })
    }

    /// One or more statements, up to a closing brace.
    fn statements(&mut self) -> Result<Vec<Statement>, Refusal> {
        let mut list = vec![self.statement()?];
        while !self.at(Kind::CloseBrace) {
            list.push(self.statement()?);
        }
        Ok(list)
    }

    fn statement(&mut self) -> Result<Statement, Refusal> {
        let place = self.place();
        let action = match self.kind() {
            Some(Kind::Var) => {
                self.next += 1;
                let name = self.name()?;
                self.expect(Kind::Semicolon)?;
                Action::Declare(name)
            }
            Some(Kind::If) => {
                let (test, body) = self.test_and_body()?;
                Action::If(test, body)
            }
            Some(Kind::While) => {
                let (test, body) = self.test_and_body()?;
                Action::While(test, body)
            }
            Some(Kind::Foreach) => self.foreach()?,
            Some(Kind::Return) => {
                self.next += 1;
                let value = self.expression()?;
                self.expect(Kind::Semicolon)?;
                Action::Return(value)
            }
            Some(Kind::OpenBrace) => {
                self.open(Kind::OpenBrace)?;
                let list = self.statements()?;
                self.close(Kind::CloseBrace)?;
                Action::Block(list)
            }
            _ => self.simple_statement()?,
        };
        Ok(Statement { place, action })
    }

    /// The rest of an if or while. Its body's first token opens a level that
    /// lasts to the body's end. The test's parenthesis opened the same level,
    /// so this one is never refused; only what that token opens besides can be.
    fn test_and_body(&mut self) -> Result<(Expression, Box<Statement>), Refusal> {
        self.next += 1;
        self.open(Kind::OpenParen)?;
        let test = self.expression()?;
        self.close(Kind::CloseParen)?;
        self.open_level()?;
        let body = self.statement()?;
        self.close_level();
        Ok((test, Box::new(body)))
    }

    /// A foreach. Its body's first token opens a level as that of an if does,
    /// but no parenthesis has asked for it before: a token that begins no
    /// statement is a misfit there, any other may be one level too deep.
    fn foreach(&mut self) -> Result<Action, Refusal> {
        self.next += 1;
        let name = self.name()?;
        self.expect(Kind::In)?;
        let group = self.expression()?;
        self.expect(Kind::Do)?;
        if !self.begins_statement() {
            return self.misfit();
        }
        self.open_level()?;
        let body = self.statement()?;
        self.close_level();
        Ok(Action::Foreach(name, group, Box::new(body)))
    }

    /// Whether a statement can begin with the next token.
    fn begins_statement(&self) -> bool {
        match self.kind() {
            Some(Kind::Digits) => self.constant(false).is_some(),
            Some(Kind::Minus) => self.digits_follow(),
            Some(
                Kind::Var
                | Kind::If
                | Kind::While
                | Kind::Foreach
                | Kind::Return
                | Kind::OpenBrace
                | Kind::Name
                | Kind::Text
                | Kind::None
                | Kind::True
                | Kind::False
                | Kind::OpenParen
                | Kind::OpenBracket,
            ) => true,
            _ => false,
        }
    }

    /// An assignment, a table update or an expression statement.
    fn simple_statement(&mut self) -> Result<Action, Refusal> {
        let first = self.operand()?;
        let action = if self.at(Kind::Assign) {
            match first {
                Operand::Name(name) => {
                    self.next += 1;
                    Action::Assign(name, self.expression()?)
                }
                Operand::Entry(table, key) => {
                    self.next += 1;
                    Action::Update {
                        table,
                        key,
                        value: self.expression()?,
                    }
                }
                Operand::Other(_) => return self.misfit(),
            }
        } else {
            Action::Evaluate(self.rest_of_expression(first)?)
        };
        self.expect(Kind::Semicolon)?;
        Ok(action)
    }

    fn expression(&mut self) -> Result<Expression, Refusal> {
        let first = self.operand()?;
        self.rest_of_expression(first)
    }

    /// An operator and a second operand, if an operator follows.
    fn rest_of_expression(&mut self, first: Operand) -> Result<Expression, Refusal> {
        let operator = match self.kind() {
            Some(Kind::Join) => Operator::Join,
            Some(Kind::Plus) => Operator::Add,
            Some(Kind::Minus) => Operator::Subtract,
            Some(Kind::Times) => Operator::Multiply,
            Some(Kind::Over) => Operator::Divide,
            Some(Kind::Percent) => Operator::Remainder,
            Some(Kind::ShiftRight) => Operator::ShiftRight,
            Some(Kind::ShiftLeft) => Operator::ShiftLeft,
            Some(Kind::Equal) => Operator::Equal,
            Some(Kind::Unequal) => Operator::Unequal,
            Some(Kind::Greater) => Operator::Greater,
            Some(Kind::Less) => Operator::Less,
            _ => return Ok(first.expression()),
        };
        self.next += 1;
        let second = self.operand()?;
        Ok(Expression::Operate(
            operator,
            Box::new(first.expression()),
            Box::new(second.expression()),
        ))
    }

    /// A primary, or two with a dot between them.
    fn operand(&mut self) -> Result<Operand, Refusal> {
        let first = self.primary()?;
        if !self.accept(Kind::Dot) {
            return Ok(first);
        }
        let key = self.primary()?;
        Ok(Operand::Entry(first.expression(), key.expression()))
    }

    fn primary(&mut self) -> Result<Operand, Refusal> {
        let expression = match self.kind() {
            Some(Kind::Digits) => self.integer(false)?,
            Some(Kind::Minus) if self.digits_follow() => {
                self.next += 1;
                self.integer(true)?
            }
            Some(Kind::Text) => self.text(),
            Some(Kind::None) => self.word(Expression::None),
            Some(Kind::True) => self.word(Expression::Boolean(true)),
            Some(Kind::False) => self.word(Expression::Boolean(false)),
            Some(Kind::Name) => return self.name_or_call(),
            Some(Kind::OpenBracket) => {
                self.open(Kind::OpenBracket)?;
                let size = self.expression()?;
                self.close(Kind::CloseBracket)?;
                Expression::Create(Box::new(size))
            }
            Some(Kind::OpenParen) => {
                self.open(Kind::OpenParen)?;
                let inside = self.expression()?;
                self.close(Kind::CloseParen)?;
                inside
            }
            _ => return self.misfit(),
        };
        Ok(Operand::Other(expression))
    }

    fn word(&mut self, expression: Expression) -> Expression {
        self.next += 1;
        expression
    }

    fn text(&mut self) -> Expression {
        let covered = self.tokens[self.next].spelling(self.program);
        self.next += 1;
        Expression::Text(covered[1..covered.len() - 1].into())
    }

    fn integer(&mut self, negative: bool) -> Result<Expression, Refusal> {
        match self.constant(negative) {
            Some(number) => {
                self.next += 1;
                Ok(Expression::Integer(number))
            }
            None => self.misfit(),
        }
    }

    /// The constant whose digits are the next token, if it is in range.
    fn constant(&self, negative: bool) -> Option<i32> {
        let mut size: i64 = 0;
        for digit in self.tokens.get(self.next)?.spelling(self.program) {
            size = size * 10 + i64::from(digit - b'0');
            if size > 1 << 31 {
                return None;
            }
        }
        i32::try_from(if negative { -size } else { size }).ok()
    }

    /// Whether the token behind the next one is digits that touch it.
    fn digits_follow(&self) -> bool {
        match self.tokens.get(self.next..) {
            Some([minus, digits, ..]) => digits.kind == Kind::Digits && digits.start == minus.end,
            _ => false,
        }
    }

    fn name_or_call(&mut self) -> Result<Operand, Refusal> {
        let spelling = self.spelling()?;
        if !self.at(Kind::OpenParen) {
            return Ok(Operand::Name(self.number_of(spelling)));
        }
        self.open(Kind::OpenParen)?;
        let mut arguments = Vec::new();
        if !self.at(Kind::CloseParen) {
            arguments.push(self.expression()?);
            while self.accept(Kind::Comma) {
                arguments.push(self.expression()?);
            }
        }
        self.close(Kind::CloseParen)?;
        let procedure = Procedure::named(spelling, self.number_of(spelling));
        Ok(Operand::Other(Expression::Call(procedure, arguments)))
    }
}
