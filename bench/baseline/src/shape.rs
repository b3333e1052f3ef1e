//! Shapes.

use crate::tree::Operator;
use crate::value::{Stop, Text};

#[derive(Clone, Copy, PartialEq, Eq, Default)]
pub enum Kind {
    #[default]
    Line,
    Ellipse,
    Box,
    Text,
    Group,
}

/// A shape's kind, four numbers and text, each 0 where it has none. A group's first two numbers are its first entry and the end of its entries.
#[derive(Clone, Copy, Default)]
pub struct Shape {
    pub kind: Kind,
    pub destroyed: bool,
    /// Of a group: there is no undestroyed atom in it, and never will be one again.
    pub barren: bool,
    pub text: Text,
    pub numbers: [i32; 4],
}

impl Shape {
    pub fn new(kind: Kind, numbers: [i32; 4]) -> Shape {
        Shape {
            kind,
            numbers,
            ..Shape::default()
        }
    }

    pub fn text(x: i32, y: i32, text: Text) -> Shape {
        Shape {
            kind: Kind::Text,
            text,
            numbers: [x, y, 0, 0],
            ..Shape::default()
        }
    }

    pub fn group(first: usize, end: usize) -> Shape {
        Shape::new(Kind::Group, [first as i32, end as i32, 0, 0])
    }

    pub fn is_group(&self) -> bool {
        self.kind == Kind::Group
    }

    /// A group's first entry and the end of its entries.
    pub fn entries(&self) -> (usize, usize) {
        (self.numbers[0] as usize, self.numbers[1] as usize)
    }

    /// The centre; a group has none.
    pub fn centre(&self) -> Result<(i32, i32), Stop> {
        let [a, b, c, d] = self.numbers;
        match self.kind {
            Kind::Line => Ok((middle(a, c), middle(b, d))),
            Kind::Box => Ok((a.wrapping_add(c / 2), b.wrapping_add(d / 2))),
            Kind::Ellipse | Kind::Text => Ok((a, b)),
            Kind::Group => Err(Stop(20)),
        }
    }

    /// What an operator makes of an atom and an integer.
    pub fn changed(&self, operator: Operator, by: i32) -> Result<Shape, Stop> {
        match operator {
            Operator::Add => Ok(self.placed(|x| x, |y| y.wrapping_add(by))),
            Operator::Subtract => Ok(self.placed(|x| x, |y| y.wrapping_sub(by))),
            Operator::ShiftRight => Ok(self.placed(|x| x.wrapping_add(by), |y| y)),
            Operator::ShiftLeft => Ok(self.placed(|x| x.wrapping_sub(by), |y| y)),
            Operator::Multiply => Ok(self.scaled(|n| n.wrapping_mul(by))),
            Operator::Divide if by == 0 => Err(Stop(70)),
            Operator::Divide => Ok(self.scaled(|n| n.wrapping_div(by))),
            _ => Err(Stop(20)),
        }
    }

    #[inline(always)]
    fn placed(&self, x: impl Fn(i32) -> i32, y: impl Fn(i32) -> i32) -> Shape {
        let [a, b, c, d] = self.numbers;
        let numbers = match self.kind {
            Kind::Line => [x(a), y(b), x(c), y(d)],
            _ => [x(a), y(b), c, d],
        };
        Shape { numbers, ..*self }
    }

    /// Each number by a rule that gives 0 for 0.
    #[inline(always)]
    fn scaled(&self, rule: impl Fn(i32) -> i32) -> Shape {
        Shape {
            numbers: self.numbers.map(rule),
            ..*self
        }
    }

    /// Whether kind, numbers and text are the same. Two groups are not asked.
    pub fn same(&self, other: &Shape, program: &[u8], texts: &[u8]) -> bool {
        self.kind == other.kind
            && self.numbers == other.numbers
            && self.text.bytes(program, texts) == other.text.bytes(program, texts)
    }
}

fn middle(first: i32, second: i32) -> i32 {
    ((i64::from(first) + i64::from(second)) / 2) as i32
}
