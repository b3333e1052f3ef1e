//! The reader: tokens, then the tree. Names become numbers, and the variables of a procedure slots of its own.

use crate::stores::{boxed, Stores, TOKENS};
use crate::token::{self, Kind, Token};
use crate::tree::{Action, Definition, Expression, Link, Operator, Procedure};
use crate::tree::{Statement, Tree, NO_LINK};
use crate::value::{Text, Value};

const LEVELS: u32 = 64;
const BUCKETS: usize = 16_384;

/// Why a program is not well formed.
pub struct Refusal {
    pub number: u8,
    pub place: usize,
}

/// The names, by a hash.
pub struct Index {
    /// One more than the number of a bucket's name.
    numbers: Box<[u16; BUCKETS]>,
    /// The token of each name.
    names: Box<[u16; TOKENS]>,
    /// The procedure, counted from 1, that declared a name last, and its slot there.
    slots: Box<[(u16, u16); TOKENS]>,
}

impl Index {
    pub fn new() -> Index {
        Index {
            numbers: boxed(0),
            names: boxed(0),
            slots: boxed((0, 0)),
        }
    }

    pub fn clear(&mut self) {
        self.numbers.fill(0);
        self.names.fill(0);
        self.slots.fill((0, 0));
    }
}

/// Reads a program into the tree, and tells which procedure is main.
pub fn read(stores: &mut Stores, program: &[u8]) -> Result<usize, Refusal> {
    let count = tokens(&mut stores.tokens, program)?;
    if count > TOKENS {
        return Err(Refusal {
            number: 74,
            place: stores.tokens[TOKENS].place.into(),
        });
    }
    stores.tokens[count] = Token::default();
    stores.index.numbers.fill(0);
    stores.index.slots.fill((0, 0));
    stores.tree.defined.fill(0);
    let reader = Reader {
        program,
        tokens: &stores.tokens,
        next: 0,
        level: 0,
        index: &mut stores.index,
        names: 0,
        definitions: 0,
        variables: 0,
        tree: &mut stores.tree,
        expressions: 0,
        statements: 0,
    };
    reader.program()
}

/// The tokens, as far as they have room, and their number.
fn tokens(tokens: &mut [Token; TOKENS + 1], program: &[u8]) -> Result<usize, Refusal> {
    let mut count = 0;
    let mut at = 0;
    while at < program.len() {
        if matches!(program[at], b' ' | b'\t' | b'\n') {
            at += 1;
            continue;
        }
        let Some((kind, size)) = token::first(&program[at..]) else {
            return Err(Refusal {
                number: 10,
                place: at,
            });
        };
        if let Some(token) = tokens.get_mut(count) {
            *token = Token {
                place: at as u16,
                size: size as u16,
                kind,
            };
        }
        count += 1;
        at += size;
    }
    Ok(count)
}

struct Reader<'a> {
    program: &'a [u8],
    tokens: &'a [Token; TOKENS + 1],
    next: usize,
    level: u32,
    index: &'a mut Index,
    /// How many names there are.
    names: u16,
    /// How many procedures, the one that is read among them.
    definitions: u16,
    /// How many variables that one declares.
    variables: u16,
    tree: &'a mut Tree,
    expressions: usize,
    statements: usize,
}

/// What an operand may still become.
#[derive(Clone, Copy, PartialEq, Eq)]
enum Form {
    Name,
    Entry,
    Other,
}

impl Reader<'_> {
    fn token(&self) -> Token {
        self.tokens[self.next]
    }

    fn kind(&self) -> Kind {
        self.token().kind
    }

    fn refusal<T>(&self, number: u8) -> Result<T, Refusal> {
        let place = match self.kind() {
            Kind::End => self.program.len(),
            _ => self.token().place.into(),
        };
        Err(Refusal { number, place })
    }

    fn accept(&mut self, kind: Kind) -> bool {
        let here = self.kind() == kind;
        self.next += usize::from(here);
        here
    }

    fn expect(&mut self, kind: Kind) -> Result<(), Refusal> {
        if self.accept(kind) {
            Ok(())
        } else {
            self.refusal(10)
        }
    }

    fn open_level(&mut self) -> Result<(), Refusal> {
        if self.level == LEVELS {
            return self.refusal(75);
        }
        self.level += 1;
        Ok(())
    }

    fn open(&mut self, kind: Kind) -> Result<(), Refusal> {
        if self.kind() != kind {
            return self.refusal(10);
        }
        self.open_level()?;
        self.next += 1;
        Ok(())
    }

    fn close(&mut self, kind: Kind) -> Result<(), Refusal> {
        self.expect(kind)?;
        self.level -= 1;
        Ok(())
    }

    /// A name's number.
    fn name(&mut self) -> Result<u16, Refusal> {
        if self.kind() != Kind::Name {
            return self.refusal(10);
        }
        let name = self.number(self.next);
        self.next += 1;
        Ok(name)
    }

    /// The slot of a name in this procedure, if it declares it.
    fn slot(&self, name: u16) -> Option<u16> {
        let (definition, slot) = self.index.slots[usize::from(name)];
        (definition == self.definitions).then_some(slot)
    }

    /// Gives a name a slot in this procedure; false if it has one.
    fn declare(&mut self, name: u16) -> bool {
        let fresh = self.slot(name).is_none();
        if fresh {
            self.index.slots[usize::from(name)] = (self.definitions, self.variables);
            self.variables += 1;
        }
        fresh
    }

    /// The number of the name that a token is.
    fn number(&mut self, token: usize) -> u16 {
        let bytes = self.tokens[token].bytes(self.program);
        let hash = bytes.iter().fold(0, |hash: u32, b| {
            hash.wrapping_mul(31).wrapping_add(u32::from(*b))
        });
        let mut bucket = (hash.wrapping_mul(0x9e37_79b9) >> 18) as usize;
        loop {
            let number = self.index.numbers[bucket];
            if number == 0 {
                self.index.names[usize::from(self.names)] = token as u16;
                self.names += 1;
                self.index.numbers[bucket] = self.names;
                return self.names - 1;
            }
            let home = self.index.names[usize::from(number) - 1];
            if self.tokens[usize::from(home)].bytes(self.program) == bytes {
                return number - 1;
            }
            bucket = (bucket + 1) % BUCKETS;
        }
    }

    fn add(&mut self, expression: Expression) -> Link {
        let at = self.expressions;
        self.tree.expressions[at] = expression;
        self.tree.siblings[at] = NO_LINK;
        self.expressions += 1;
        at as Link
    }

    /// Procedures up to the end. One of them is main; no name is another's or the library's.
    fn program(mut self) -> Result<usize, Refusal> {
        let mut main = None;
        let mut doubled = None;
        loop {
            let place = self.token().place;
            self.expect(Kind::Def)?;
            let token = self.next;
            let name = self.name()?;
            let number = usize::from(self.definitions);
            let procedure = Procedure::named(self.tokens[token].bytes(self.program), name);
            let taken = match procedure {
                Procedure::Main => main.replace(main.unwrap_or(number)).is_some(),
                Procedure::Other(_) => self.tree.defined[usize::from(name)] != 0,
                _ => true,
            };
            if taken {
                doubled = doubled.or(Some(place));
            }
            self.tree.defined[usize::from(name)] = number as u16 + 1;
            self.tree.definitions[number] = self.definition()?;
            if self.kind() == Kind::End {
                break;
            }
        }
        match (main, doubled) {
            (None, _) => self.refusal(10),
            (_, Some(place)) => Err(Refusal {
                number: 60,
                place: place.into(),
            }),
            (Some(main), None) => Ok(main),
        }
    }

    /// A procedure behind its name.
    fn definition(&mut self) -> Result<Definition, Refusal> {
        self.definitions += 1;
        self.variables = 0;
        let mut read = Definition::default();
        self.expect(Kind::OpenParen)?;
        if !self.accept(Kind::CloseParen) {
            loop {
                let name = self.name()?;
                read.alike |= !self.declare(name);
                read.parameters += 1;
                if !self.accept(Kind::Comma) {
                    break;
                }
            }
            self.expect(Kind::CloseParen)?;
        }
        self.expect(Kind::OpenBrace)?;
        self.declare_ahead();
        read.body = self.body()?;
        self.expect(Kind::CloseBrace)?;
        read.variables = self.variables;
        Ok(read)
    }

    /// Slots for the names that the body declares anywhere.
    fn declare_ahead(&mut self) {
        let mut at = self.next;
        let mut depth = 1;
        while depth > 0 {
            match self.tokens[at].kind {
                Kind::OpenBrace => depth += 1,
                Kind::CloseBrace => depth -= 1,
                Kind::Var | Kind::Foreach if self.tokens[at + 1].kind == Kind::Name => {
                    let name = self.number(at + 1);
                    self.declare(name);
                }
                Kind::End => return,
                _ => {}
            }
            at += 1;
        }
    }

    /// One or more statements, up to a closing brace.
    fn body(&mut self) -> Result<Link, Refusal> {
        let first = self.statement()?;
        let mut last = first;
        while self.kind() != Kind::CloseBrace {
            let link = self.statement()?;
            self.tree.statements[usize::from(last)].next = link;
            last = link;
        }
        Ok(first)
    }

    fn statement(&mut self) -> Result<Link, Refusal> {
        let place = self.token().place;
        let action = match self.kind() {
            Kind::Var => {
                self.next += 1;
                let name = self.name()?;
                self.expect(Kind::Semicolon)?;
                // It was declared ahead.
                Action::Declare(self.slot(name).unwrap_or(0))
            }
            Kind::If => {
                let (test, body) = self.test_and_body()?;
                Action::If(test, body)
            }
            Kind::While => {
                let (test, body) = self.test_and_body()?;
                Action::While(test, body)
            }
            Kind::Foreach => self.foreach()?,
            Kind::Return => {
                self.next += 1;
                let value = self.expression()?;
                self.expect(Kind::Semicolon)?;
                Action::Return(value)
            }
            Kind::OpenBrace => {
                self.open(Kind::OpenBrace)?;
                let first = self.body()?;
                self.close(Kind::CloseBrace)?;
                Action::Block(first)
            }
            _ => self.simple()?,
        };
        let at = self.statements;
        self.tree.statements[at] = Statement {
            place,
            next: NO_LINK,
            action,
        };
        self.statements += 1;
        Ok(at as Link)
    }

    fn test_and_body(&mut self) -> Result<(Link, Link), Refusal> {
        self.next += 1;
        self.open(Kind::OpenParen)?;
        let test = self.expression()?;
        self.close(Kind::CloseParen)?;
        self.open_level()?;
        let body = self.statement()?;
        self.level -= 1;
        Ok((test, body))
    }

    /// A foreach. At its body's first token 10 goes before 75.
    fn foreach(&mut self) -> Result<Action, Refusal> {
        self.next += 1;
        let name = self.name()?;
        self.expect(Kind::In)?;
        let group = self.expression()?;
        self.expect(Kind::Do)?;
        self.ask_beginning()?;
        self.open_level()?;
        let body = self.statement()?;
        self.level -= 1;
        // It was declared ahead.
        Ok(Action::Foreach(self.slot(name).unwrap_or(0), group, body))
    }

    /// Asks that a statement can begin here.
    fn ask_beginning(&mut self) -> Result<(), Refusal> {
        match self.kind() {
            Kind::Digits => self.integer(false).map(|_| ()),
            Kind::Operator(Operator::Subtract) if self.digits_follow() => Ok(()),
            Kind::Var
            | Kind::If
            | Kind::While
            | Kind::Foreach
            | Kind::Return
            | Kind::Name
            | Kind::Text
            | Kind::None
            | Kind::True
            | Kind::False
            | Kind::OpenBrace
            | Kind::OpenParen
            | Kind::OpenBracket => Ok(()),
            _ => self.refusal(10),
        }
    }

    fn simple(&mut self) -> Result<Action, Refusal> {
        let (first, form) = self.operand()?;
        let action = if self.kind() == Kind::Assign {
            if form == Form::Other {
                return self.refusal(10);
            }
            self.next += 1;
            let value = self.expression()?;
            match self.tree.expressions[usize::from(first)] {
                Expression::Variable(slot) => Action::Assign(slot, value),
                Expression::Undeclared => Action::AssignUndeclared(value),
                Expression::Read(table, key) => Action::Update(table, key, value),
                _ => return self.refusal(10),
            }
        } else {
            Action::Evaluate(self.rest(first)?)
        };
        self.expect(Kind::Semicolon)?;
        Ok(action)
    }

    fn expression(&mut self) -> Result<Link, Refusal> {
        let (first, _) = self.operand()?;
        self.rest(first)
    }

    /// An operator and a second operand, if an operator follows.
    fn rest(&mut self, first: Link) -> Result<Link, Refusal> {
        let Kind::Operator(operator) = self.kind() else {
            return Ok(first);
        };
        self.next += 1;
        let (second, _) = self.operand()?;
        Ok(self.add(Expression::Operate(operator, first, second)))
    }

    /// A primary, or two with a dot between them.
    fn operand(&mut self) -> Result<(Link, Form), Refusal> {
        let (first, form) = self.primary()?;
        if !self.accept(Kind::Dot) {
            return Ok((first, form));
        }
        let (key, _) = self.primary()?;
        Ok((self.add(Expression::Read(first, key)), Form::Entry))
    }

    fn primary(&mut self) -> Result<(Link, Form), Refusal> {
        let value = match self.kind() {
            Kind::Digits => self.integer(false)?,
            Kind::Operator(Operator::Subtract) if self.digits_follow() => {
                self.next += 1;
                self.integer(true)?
            }
            Kind::Text => {
                let token = self.token();
                Value::Text(Text {
                    stored: false,
                    start: token.place + 1,
                    size: token.size - 2,
                })
            }
            Kind::None => Value::Nothing,
            Kind::True => Value::Boolean(true),
            Kind::False => Value::Boolean(false),
            Kind::Name => return self.name_or_call(),
            Kind::OpenBracket => {
                self.open(Kind::OpenBracket)?;
                let size = self.expression()?;
                self.close(Kind::CloseBracket)?;
                return Ok((self.add(Expression::Create(size)), Form::Other));
            }
            Kind::OpenParen => {
                self.open(Kind::OpenParen)?;
                let inside = self.expression()?;
                self.close(Kind::CloseParen)?;
                return Ok((inside, Form::Other));
            }
            _ => return self.refusal(10),
        };
        self.next += 1;
        Ok((self.add(Expression::Constant(value)), Form::Other))
    }

    /// The constant whose digits are the next token.
    fn integer(&mut self, negative: bool) -> Result<Value, Refusal> {
        let mut size: i64 = 0;
        for digit in self.token().bytes(self.program) {
            size = (size * 10 + i64::from(digit - b'0')).min(1 << 32);
        }
        match i32::try_from(if negative { -size } else { size }) {
            Ok(number) => Ok(Value::Integer(number)),
            Err(_) => self.refusal(10),
        }
    }

    /// Whether the token behind the next one is digits that touch it.
    fn digits_follow(&self) -> bool {
        let digits = self.tokens[self.next + 1];
        digits.kind == Kind::Digits && usize::from(digits.place) == self.token().end()
    }

    fn name_or_call(&mut self) -> Result<(Link, Form), Refusal> {
        let token = self.next;
        self.next += 1;
        if self.kind() != Kind::OpenParen {
            let name = self.number(token);
            let variable = match self.slot(name) {
                Some(slot) => Expression::Variable(slot),
                None => Expression::Undeclared,
            };
            return Ok((self.add(variable), Form::Name));
        }
        self.open(Kind::OpenParen)?;
        let mut first = NO_LINK;
        if self.kind() != Kind::CloseParen {
            first = self.expression()?;
            let mut last = first;
            while self.accept(Kind::Comma) {
                let argument = self.expression()?;
                self.tree.siblings[usize::from(last)] = argument;
                last = argument;
            }
        }
        self.close(Kind::CloseParen)?;
        let name = self.number(token);
        let procedure = Procedure::named(self.tokens[token].bytes(self.program), name);
        Ok((self.add(Expression::Call(procedure, first)), Form::Other))
    }
}
