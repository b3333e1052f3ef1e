//! Values, the keys they make and the arithmetic of integers.

use crate::shape::Shape;
use crate::tree::Operator;
use std::rc::Rc;

/// A value. A table and a shape are numbers into the run's stores, so that
/// several holders can share one.
#[derive(Clone, Debug)]
pub enum Value {
    Integer(i32),
    Text(Rc<[u8]>),
    Boolean(bool),
    None,
    Table(u64),
    Shape(usize),
}

/// A value as a table's key: a shape by what it is, a table by which it is.
#[derive(Clone, Debug, PartialEq, Eq, Hash)]
pub enum Key {
    Integer(i32),
    Text(Rc<[u8]>),
    Boolean(bool),
    None,
    Table(u64),
    Shape(Shape),
}

/// What an operator makes of two integers, or the error's number.
pub fn calculate(operator: Operator, left: i32, right: i32) -> Result<Value, u32> {
    let number = match operator {
        Operator::Add => left.wrapping_add(right),
        Operator::Subtract => left.wrapping_sub(right),
        Operator::Multiply => left.wrapping_mul(right),
        Operator::Divide | Operator::Remainder if right == 0 => return Err(70),
        Operator::Divide => left.wrapping_div(right),
        Operator::Remainder => left.wrapping_rem(right),
        Operator::ShiftRight => left >> right.rem_euclid(32),
        Operator::ShiftLeft => left << right.rem_euclid(32),
        Operator::Equal => return Ok(Value::Boolean(left == right)),
        Operator::Unequal => return Ok(Value::Boolean(left != right)),
        Operator::Greater => return Ok(Value::Boolean(left > right)),
        Operator::Less => return Ok(Value::Boolean(left < right)),
        Operator::Join => return Err(20),
    };
    Ok(Value::Integer(number))
}

/// Whether an operator takes a shape and this integer, or the error's number.
pub fn ask(operator: Operator, by: i32) -> Result<(), u32> {
    match operator {
        Operator::Add
        | Operator::Subtract
        | Operator::Multiply
        | Operator::ShiftRight
        | Operator::ShiftLeft => Ok(()),
        Operator::Divide if by == 0 => Err(70),
        Operator::Divide => Ok(()),
        Operator::Join
        | Operator::Remainder
        | Operator::Equal
        | Operator::Unequal
        | Operator::Greater
        | Operator::Less => Err(20),
    }
}

/// What an operator makes of an atomic shape and an integer, or the error's
/// number.
pub fn transform(operator: Operator, shape: &Shape, by: i32) -> Result<Shape, u32> {
    ask(operator, by)?;
    let same = |coordinate: i32| coordinate;
    Ok(match operator {
        Operator::Add => shape.changed(same, |y| y.wrapping_add(by)),
        Operator::Subtract => shape.changed(same, |y| y.wrapping_sub(by)),
        Operator::ShiftRight => shape.changed(|x| x.wrapping_add(by), same),
        Operator::ShiftLeft => shape.changed(|x| x.wrapping_sub(by), same),
        Operator::Multiply => shape.scaled(|number| number.wrapping_mul(by)),
        Operator::Divide => shape.scaled(|number| number.wrapping_div(by)),
        _ => return Err(20),
    })
}
