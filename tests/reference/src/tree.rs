//! What the parser makes of a program.

use std::collections::HashSet;
use std::rc::Rc;

/// The name of a variable or of a procedure, numbered in the order in which
/// names first appear.
pub type Name = usize;

/// The procedures of a program, as they stand in its text. Two programs are
/// equal if they differ only in white space, in parentheses and in how their
/// constants are spelled.
#[derive(Debug, PartialEq, Eq)]
pub struct Program {
    pub definitions: Vec<Definition>,
    /// Which of them is main, the first one so named.
    pub main: usize,
    /// How each name is spelled.
    pub names: Vec<Vec<u8>>,
}

/// A procedure that the program defines. Its place is nothing that makes two
/// of them differ.
#[derive(Debug)]
pub struct Definition {
    /// The first byte of its `def`.
    pub place: usize,
    /// What a call by its name names.
    pub procedure: Procedure,
    pub parameters: Vec<Name>,
    pub body: Vec<Statement>,
}

impl Program {
    /// The first definition whose name the library or an earlier one has.
    pub fn doubled(&self) -> Option<&Definition> {
        let all = &self.definitions;
        let doubled = all.iter().enumerate().find(|(at, definition)| {
            let earlier = all[..*at].iter();
            definition.procedure.is_library()
                || earlier
                    .map(|one| one.procedure)
                    .any(|one| one == definition.procedure)
        });
        doubled.map(|(_, definition)| definition)
    }
}

impl Definition {
    /// Whether two of its parameters have one name.
    pub fn has_equal_parameters(&self) -> bool {
        let names: HashSet<&Name> = self.parameters.iter().collect();
        names.len() < self.parameters.len()
    }
}

impl PartialEq for Definition {
    fn eq(&self, other: &Definition) -> bool {
        self.procedure == other.procedure
            && self.parameters == other.parameters
            && self.body == other.body
    }
}

impl Eq for Definition {}

/// A statement. Its place is nothing that makes two of them differ.
#[derive(Debug)]
pub struct Statement {
    /// The first byte of the statement.
    pub place: usize,
    pub action: Action,
}

impl PartialEq for Statement {
    fn eq(&self, other: &Statement) -> bool {
        self.action == other.action
    }
}

impl Eq for Statement {}

#[derive(Debug, PartialEq, Eq)]
pub enum Action {
    Declare(Name),
    Assign(Name, Expression),
    Update {
        table: Expression,
        key: Expression,
        value: Expression,
    },
    If(Expression, Box<Statement>),
    While(Expression, Box<Statement>),
    /// For each shape in a group, bound to the variable.
    Foreach(Name, Expression, Box<Statement>),
    Return(Expression),
    Block(Vec<Statement>),
    Evaluate(Expression),
}

/// An expression; parentheses leave no trace.
#[derive(Debug, PartialEq, Eq)]
pub enum Expression {
    Integer(i32),
    Text(Rc<[u8]>),
    None,
    Boolean(bool),
    Variable(Name),
    Create(Box<Expression>),
    Read(Box<Expression>, Box<Expression>),
    Operate(Operator, Box<Expression>, Box<Expression>),
    Call(Procedure, Vec<Expression>),
}

#[derive(Clone, Copy, Debug, PartialEq, Eq)]
pub enum Operator {
    Join,
    Add,
    Subtract,
    Multiply,
    Divide,
    Remainder,
    ShiftRight,
    ShiftLeft,
    Equal,
    Unequal,
    Greater,
    Less,
}

/// The procedure that a name names, in a call or behind `def`.
#[derive(Clone, Copy, Debug, PartialEq, Eq, Hash)]
pub enum Procedure {
    DrawLine,
    DrawEllipse,
    DrawBox,
    DrawText,
    DrawGroup,
    DestroyShape,
    DrawLineConnectingShapes,
    DrawTextOnShape,
    GetShapeXCoordinate,
    GetShapeYCoordinate,
    ClearScene,
    Main,
    /// Any other name: that of a procedure of the program, or of none.
    Other(Name),
}

/// The procedures that are known by their names.
const KNOWN: [(&str, Procedure); 12] = [
    ("drawLine", Procedure::DrawLine),
    ("drawEllipse", Procedure::DrawEllipse),
    ("drawBox", Procedure::DrawBox),
    ("drawText", Procedure::DrawText),
    ("drawGroup", Procedure::DrawGroup),
    ("destroyShape", Procedure::DestroyShape),
    (
        "drawLineConnectingShapes",
        Procedure::DrawLineConnectingShapes,
    ),
    ("drawTextOnShape", Procedure::DrawTextOnShape),
    ("getShapeXCoordinate", Procedure::GetShapeXCoordinate),
    ("getShapeYCoordinate", Procedure::GetShapeYCoordinate),
    ("clearScene", Procedure::ClearScene),
    ("main", Procedure::Main),
];

impl Procedure {
    /// What a spelling names; `name` is its number.
    pub fn named(spelling: &[u8], name: Name) -> Procedure {
        let known = KNOWN.iter().find(|(known, _)| known.as_bytes() == spelling);
        known.map_or(Procedure::Other(name), |(_, procedure)| *procedure)
    }

    /// Its name, with the spellings of the names of the program.
    pub fn spelling(self, names: &[Vec<u8>]) -> &[u8] {
        match self {
            Procedure::Other(name) => &names[name],
            _ => KNOWN
                .iter()
                .find(|(_, procedure)| *procedure == self)
                .map_or(&[], |(known, _)| known.as_bytes()),
        }
    }

    pub fn is_library(self) -> bool {
        !matches!(self, Procedure::Main | Procedure::Other(_))
    }
}

impl Operator {
    pub fn spelling(self) -> &'static str {
        match self {
            Operator::Join => "++",
            Operator::Add => "+",
            Operator::Subtract => "-",
            Operator::Multiply => "*",
            Operator::Divide => "/",
            Operator::Remainder => "%",
            Operator::ShiftRight => ">>",
            Operator::ShiftLeft => "<<",
            Operator::Equal => "==",
            Operator::Unequal => "!=",
            Operator::Greater => ">",
            Operator::Less => "<",
        }
    }
}
