//! Entries of tables, found by a hash.

use crate::shape::Shape;
use crate::value::Value;

/// An entry of a table, or of a group: then its table is the end of the group's entries and its value the component.
#[derive(Clone, Copy, Default)]
pub struct Entry {
    pub table: u32,
    /// One more than the next entry of the bucket.
    pub next: u16,
    pub key: Value,
    pub value: Value,
}

/// What keys stand for.
#[derive(Clone, Copy)]
pub struct Keys<'a> {
    pub program: &'a [u8],
    pub texts: &'a [u8],
    pub shapes: &'a [Shape],
}

impl Keys<'_> {
    #[inline(always)]
    pub fn bucket(&self, table: u32, key: Value, buckets: usize) -> usize {
        let hash = match key {
            Value::Integer(n) => mix(table, n as u32),
            Value::Table(n) => mix(table, n),
            Value::Boolean(b) => mix(table, b.into()),
            Value::Nothing | Value::Undeclared => mix(table, 2),
            Value::Text(text) => self.text_hash(table, text.bytes(self.program, self.texts)),
            Value::Shape(i) => self.shape_hash(table, &self.shapes[usize::from(i)]),
        };
        let spread = hash.wrapping_mul(0x9e37_79b9);
        ((u64::from(spread) * buckets as u64) >> 32) as usize
    }

    fn text_hash(&self, hash: u32, text: &[u8]) -> u32 {
        text.iter().fold(hash, |hash, b| mix(hash, u32::from(*b)))
    }

    fn shape_hash(&self, hash: u32, shape: &Shape) -> u32 {
        let kind = mix(hash, shape.kind as u32);
        let numbers = shape.numbers.iter().fold(kind, |h, n| mix(h, *n as u32));
        self.text_hash(numbers, shape.text.bytes(self.program, self.texts))
    }

    #[inline(always)]
    pub fn same(&self, left: Value, right: Value) -> bool {
        match (left, right) {
            (Value::Integer(a), Value::Integer(b)) => a == b,
            (Value::Boolean(a), Value::Boolean(b)) => a == b,
            (Value::Nothing, Value::Nothing) => true,
            (Value::Table(a), Value::Table(b)) => a == b,
            (Value::Text(a), Value::Text(b)) => {
                a.bytes(self.program, self.texts) == b.bytes(self.program, self.texts)
            }
            (Value::Shape(a), Value::Shape(b)) => {
                let other = &self.shapes[usize::from(b)];
                self.shapes[usize::from(a)].same(other, self.program, self.texts)
            }
            _ => false,
        }
    }
}

fn mix(hash: u32, number: u32) -> u32 {
    hash.wrapping_mul(31).wrapping_add(number)
}
