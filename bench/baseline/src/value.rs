//! Values and the arithmetic of integers.

use crate::tree::Operator;

/// A value: eight bytes. A table and a shape are numbers into the stores.
#[derive(Clone, Copy, Default)]
pub enum Value {
    /// What a variable that is not declared holds.
    #[default]
    Undeclared,
    Integer(i32),
    Text(Text),
    Boolean(bool),
    Nothing,
    Table(u32),
    Shape(u16),
}

/// A part of the program, or of the text store.
#[derive(Clone, Copy, Default)]
pub struct Text {
    pub stored: bool,
    pub start: u16,
    pub size: u16,
}

impl Text {
    pub fn bytes<'a>(self, program: &'a [u8], texts: &'a [u8]) -> &'a [u8] {
        let start = usize::from(self.start);
        let end = start + usize::from(self.size);
        if self.stored {
            &texts[start..end]
        } else {
            &program[start..end]
        }
    }
}

/// The number of an error.
#[derive(Clone, Copy)]
pub struct Stop(pub u8);

/// What an operator makes of two integers.
#[inline(always)]
pub fn calculate(operator: Operator, left: i32, right: i32) -> Result<Value, Stop> {
    let number = match operator {
        Operator::Add => left.wrapping_add(right),
        Operator::Subtract => left.wrapping_sub(right),
        Operator::Multiply => left.wrapping_mul(right),
        Operator::Divide | Operator::Remainder if right == 0 => return Err(Stop(70)),
        Operator::Divide => left.wrapping_div(right),
        Operator::Remainder => left.wrapping_rem(right),
        Operator::ShiftRight => left.wrapping_shr(right as u32),
        Operator::ShiftLeft => left.wrapping_shl(right as u32),
        Operator::Equal => return Ok(Value::Boolean(left == right)),
        Operator::Unequal => return Ok(Value::Boolean(left != right)),
        Operator::Greater => return Ok(Value::Boolean(left > right)),
        Operator::Less => return Ok(Value::Boolean(left < right)),
        Operator::Join => return Err(Stop(20)),
    };
    Ok(Value::Integer(number))
}
