//! The stores of a drawing.

use crate::read::Index;
use crate::shape::Shape;
use crate::table::Entry;
use crate::token::Token;
use crate::tree::{Definition, Expression, Statement, Tree, NODES};
use crate::value::Value;

/// As many tokens as a program may have.
pub const TOKENS: usize = 8_192;

/// As many variables and waiting arguments as 64 calls can have. A variable has two tokens of its procedure or more, an argument two more, so each
/// call has at most 4,096 of them.
pub const STACK: usize = 262_144;

/// As many declared variables as 64 calls can have besides their parameters: each has three tokens of its procedure.
pub const DECLARED: usize = 174_784;

/// Where a walk stands in a group: the next entry and the end. Two groups that are compared have a level together; for an operator the second pair's first tells
/// which component was made first.
#[derive(Clone, Copy, Default)]
pub struct Level {
    pub next: u16,
    pub end: u16,
    pub other: u16,
    pub other_end: u16,
}

/// What a drawing may take.
#[derive(Clone, Copy, Debug)]
pub struct Grants {
    pub steps: u64,
    pub shapes: u64,
    pub entries: u64,
    pub text_bytes: u64,
    pub calls: u64,
}

pub struct Stores {
    pub(crate) steps: u64,
    pub(crate) calls: usize,
    pub(crate) tokens: Box<[Token; TOKENS + 1]>,
    pub(crate) index: Index,
    pub(crate) tree: Tree,
    /// Variables and waiting arguments of the calls under way, main's first.
    pub(crate) stack: Box<[Value; STACK]>,
    /// The declared variables of the calls under way, but for parameters, in the order of their declarations, main's first.
    pub(crate) order: Box<[u16; DECLARED]>,
    pub(crate) shapes: Box<[Shape]>,
    pub(crate) entries: Box<[Entry]>,
    /// For each bucket, one more than the entry that was added last.
    pub(crate) heads: Box<[u16]>,
    pub(crate) texts: Box<[u8]>,
    /// The way into a group; groups may lie in each other as deep as there are shapes.
    pub(crate) path: Box<[Level]>,
    /// Components made for groups that are not made yet.
    pub(crate) made: Box<[u16]>,
    /// For each call and each entry, a bit for each loop of the call whose way into a group leads through the entry. Components are older than their group, so
    /// entries further down a way have smaller numbers: its last entry is the first that has the bit.
    pub(crate) ways: Box<[u64]>,
}

impl Stores {
    /// Stores for these counts, which must be within their ranges.
    pub fn new(grants: Grants) -> Stores {
        let largest = grants.shapes.max(grants.entries).max(grants.text_bytes);
        assert!(grants.steps <= u64::from(u32::MAX) && largest <= u64::from(u16::MAX));
        assert!((1..=64).contains(&grants.calls));
        Stores {
            steps: grants.steps,
            calls: grants.calls as usize,
            tokens: boxed(Token::default()),
            index: Index::new(),
            tree: Tree {
                expressions: boxed(Expression::EMPTY),
                siblings: boxed(0),
                statements: boxed(Statement::EMPTY),
                definitions: boxed(Definition::default()),
                defined: boxed(0),
            },
            stack: boxed(Value::Undeclared),
            order: boxed(0),
            shapes: vec![Shape::default(); grants.shapes as usize].into(),
            entries: vec![Entry::default(); grants.entries as usize].into(),
            heads: vec![0; grants.entries as usize].into(),
            texts: vec![0; grants.text_bytes as usize].into(),
            path: vec![Level::default(); grants.shapes as usize].into(),
            made: vec![0; grants.shapes as usize].into(),
            ways: vec![0; (grants.calls * grants.entries) as usize].into(),
        }
    }

    /// Clears what a run expects to be clear.
    pub(crate) fn prepare(&mut self) {
        self.heads.fill(0);
    }

    /// Clears everything.
    pub(crate) fn clear(&mut self) {
        self.tokens.fill(Token::default());
        self.index.clear();
        self.tree.expressions.fill(Expression::EMPTY);
        self.tree.siblings.fill(0);
        self.tree.statements.fill(Statement::EMPTY);
        self.tree.definitions.fill(Definition::default());
        self.tree.defined.fill(0);
        self.stack.fill(Value::Undeclared);
        self.order.fill(0);
        self.shapes.fill(Shape::default());
        self.entries.fill(Entry::default());
        self.heads.fill(0);
        self.texts.fill(0);
        self.path.fill(Level::default());
        self.made.fill(0);
        self.ways.fill(0);
    }
}

/// An array that never stands on the stack.
pub fn boxed<T: Clone, const N: usize>(value: T) -> Box<[T; N]> {
    match vec![value; N].into_boxed_slice().try_into() {
        Ok(array) => array,
        Err(_) => unreachable!(),
    }
}

const _: () = assert!(NODES >= TOKENS);
