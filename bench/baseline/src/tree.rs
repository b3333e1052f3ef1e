//! What the reader makes of a program: expressions and statements in two arrays, which know each other by their places there.

use crate::value::Value;

/// As many expressions, and as many statements, as a program can have.
pub const NODES: usize = 8_192;

/// The place of an expression or a statement in its array.
pub type Link = u16;

/// No expression or statement.
pub const NO_LINK: Link = u16::MAX;

#[derive(Clone, Copy)]
pub enum Expression {
    Constant(Value),
    Variable(u16),
    /// A name that its procedure declares nowhere.
    Undeclared,
    Create(Link),
    Read(Link, Link),
    Operate(Operator, Link, Link),
    /// A procedure and the first argument; the others follow by `siblings`.
    Call(Procedure, Link),
}

#[derive(Clone, Copy)]
pub struct Statement {
    pub place: u16,
    /// The statement behind it in its block.
    pub next: Link,
    pub action: Action,
}

#[derive(Clone, Copy)]
pub enum Action {
    Declare(u16),
    Assign(u16, Link),
    /// To a name that its procedure declares nowhere.
    AssignUndeclared(Link),
    Update(Link, Link, Link),
    If(Link, Link),
    While(Link, Link),
    /// A variable, a group and a body.
    Foreach(u16, Link, Link),
    Return(Link),
    Block(Link),
    Evaluate(Link),
}

#[derive(Clone, Copy, PartialEq, Eq)]
pub enum Operator {
    Join,
    Add,
    Subtract,
    Multiply,
    Divide,
    Remainder,
    ShiftRight,
    ShiftLeft,
    Equal,
    Unequal,
    Greater,
    Less,
}

#[derive(Clone, Copy, PartialEq, Eq)]
pub enum Procedure {
    DrawLine,
    DrawEllipse,
    DrawBox,
    DrawText,
    DrawGroup,
    Connect,
    Label,
    XCoordinate,
    YCoordinate,
    Destroy,
    ClearScene,
    Main,
    /// Any other name, by its number: that of a procedure of the program, or of none.
    Other(u16),
}

impl Procedure {
    /// What a spelling names; `name` is its number.
    pub fn named(spelling: &[u8], name: u16) -> Procedure {
        match spelling {
            b"drawLine" => Procedure::DrawLine,
            b"drawEllipse" => Procedure::DrawEllipse,
            b"drawBox" => Procedure::DrawBox,
            b"drawText" => Procedure::DrawText,
            b"drawGroup" => Procedure::DrawGroup,
            b"drawLineConnectingShapes" => Procedure::Connect,
            b"drawTextOnShape" => Procedure::Label,
            b"getShapeXCoordinate" => Procedure::XCoordinate,
            b"getShapeYCoordinate" => Procedure::YCoordinate,
            b"destroyShape" => Procedure::Destroy,
            b"clearScene" => Procedure::ClearScene,
            b"main" => Procedure::Main,
            _ => Procedure::Other(name),
        }
    }
}

/// As many procedures as a program can have: each has 8 tokens or more.
pub const DEFINITIONS: usize = 1_024;

/// A procedure of the program.
#[derive(Clone, Copy, Default)]
pub struct Definition {
    pub parameters: u16,
    /// Whether two parameters have one name.
    pub alike: bool,
    /// How many variables it declares, its parameters among them.
    pub variables: u16,
    pub body: Link,
}

pub struct Tree {
    pub expressions: Box<[Expression; NODES]>,
    /// The argument behind an argument.
    pub siblings: Box<[Link; NODES]>,
    pub statements: Box<[Statement; NODES]>,
    pub definitions: Box<[Definition; DEFINITIONS]>,
    /// For each name, one more than the procedure that it names.
    pub defined: Box<[u16; NODES]>,
}

impl Expression {
    pub const EMPTY: Expression = Expression::Constant(Value::Undeclared);
}

impl Statement {
    pub const EMPTY: Statement = Statement {
        place: 0,
        next: 0,
        action: Action::Declare(0),
    };
}
