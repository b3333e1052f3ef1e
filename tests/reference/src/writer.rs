//! The writer: the one text of a program.
//!
//! One linefeed stands at the end and before each statement, closing brace
//! and later `def`; one space stands between two tokens of letters or digits
//! on a line. Parentheses stand only around an operator that is part of an
//! operand, and around an operator or a dot beside a dot.

use crate::tree::{Action, Definition, Expression, Name, Program, Statement};

/// The one text of a program, however long.
pub fn text_of(program: &Program) -> Vec<u8> {
    let mut writer = Writer {
        names: &program.names,
        text: Vec::new(),
    };
    for (at, definition) in program.definitions.iter().enumerate() {
        if at > 0 {
            writer.linefeed();
        }
        writer.definition(definition);
    }
    writer.linefeed();
    writer.text
}

struct Writer<'a> {
    names: &'a [Vec<u8>],
    text: Vec<u8>,
}

impl<'a> Writer<'a> {
    fn linefeed(&mut self) {
        self.text.push(b'\n');
    }

    /// A token of letters or digits.
    fn word(&mut self, spelling: &[u8]) {
        if self.text.last().is_some_and(u8::is_ascii_alphanumeric) {
            self.text.push(b' ');
        }
        self.text.extend_from_slice(spelling);
    }

    /// Any other token.
    fn sign(&mut self, spelling: &str) {
        self.text.extend_from_slice(spelling.as_bytes());
    }

    fn name(&mut self, name: Name) {
        let names = self.names;
        self.word(&names[name]);
    }

    fn definition(&mut self, definition: &Definition) {
        self.word(b"def");
        self.word(definition.procedure.spelling(self.names));
        self.sign("(");
        for (at, parameter) in definition.parameters.iter().enumerate() {
            if at > 0 {
                self.sign(",");
            }
            self.name(*parameter);
        }
        self.sign(")");
        self.braces(&definition.body);
    }

    /// Statements in braces, those of a block or of a procedure.
    fn braces(&mut self, statements: &[Statement]) {
        self.sign("{");
        for statement in statements {
            self.statement(statement);
        }
        self.linefeed();
        self.sign("}");
    }

    /// A statement on a line of its own.
    fn statement(&mut self, statement: &Statement) {
        self.linefeed();
        match &statement.action {
            Action::Declare(name) => {
                self.word(b"var");
                self.name(*name);
                self.sign(";");
            }
            Action::Assign(name, value) => {
                self.name(*name);
                self.sign("=");
                self.expression(value);
                self.sign(";");
            }
            Action::Update { table, key, value } => {
                self.read(table, key);
                self.sign("=");
                self.expression(value);
                self.sign(";");
            }
            Action::If(test, body) => self.guarded(b"if", test, body),
            Action::While(test, body) => self.guarded(b"while", test, body),
            Action::Foreach(name, group, body) => {
                self.word(b"foreach");
                self.name(*name);
                self.word(b"in");
                self.expression(group);
                self.word(b"do");
                self.statement(body);
            }
            Action::Return(value) => {
                self.word(b"return");
                self.expression(value);
                self.sign(";");
            }
            Action::Block(list) => self.braces(list),
            Action::Evaluate(value) => {
                self.expression(value);
                self.sign(";");
            }
        }
    }

    /// A test in its parentheses, and the body on the next line.
    fn guarded(&mut self, word: &[u8], test: &Expression, body: &Statement) {
        self.word(word);
        self.sign("(");
        self.expression(test);
        self.sign(")");
        self.statement(body);
    }

    /// Where a whole expression is due.
    fn expression(&mut self, expression: &Expression) {
        match expression {
            Expression::Operate(operator, first, second) => {
                self.operand(first);
                self.sign(operator.spelling());
                self.operand(second);
            }
            other => self.operand(other),
        }
    }

    /// Where an operand is due.
    fn operand(&mut self, operand: &Expression) {
        match operand {
            Expression::Read(table, key) => self.read(table, key),
            other => self.primary(other),
        }
    }

    fn read(&mut self, table: &Expression, key: &Expression) {
        self.primary(table);
        self.sign(".");
        self.primary(key);
    }

    /// Where a primary is due.
    fn primary(&mut self, primary: &Expression) {
        match primary {
            Expression::Integer(number) => {
                if *number < 0 {
                    self.sign("-");
                }
                self.word(number.unsigned_abs().to_string().as_bytes());
            }
            Expression::Text(inside) => {
                self.sign("\"");
                self.text.extend_from_slice(inside);
                self.sign("\"");
            }
            Expression::None => self.word(b"none"),
            Expression::Boolean(true) => self.word(b"true"),
            Expression::Boolean(false) => self.word(b"false"),
            Expression::Variable(name) => self.name(*name),
            Expression::Create(size) => {
                self.sign("[");
                self.expression(size);
                self.sign("]");
            }
            Expression::Call(procedure, arguments) => {
                self.word(procedure.spelling(self.names));
                self.sign("(");
                for (at, argument) in arguments.iter().enumerate() {
                    if at > 0 {
                        self.sign(",");
                    }
                    self.expression(argument);
                }
                self.sign(")");
            }
            Expression::Operate(..) | Expression::Read(..) => {
                self.sign("(");
                self.expression(primary);
                self.sign(")");
            }
        }
    }
}
