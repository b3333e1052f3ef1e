//! The picture. Its length is worked out before the first byte is written.

use crate::shape::{Kind, Shape};
use crate::stores::{Level, Stores};
use crate::value::Value;

const HEAD: &[u8] = b"<?xml version=\"1.0\"?>\n<svg viewBox=\"0 0 ";
const REST: &[u8] = b"\" xmlns=\"http://www.w3.org/2000/svg\" version=\"1.1\">\n<g stroke=\"black\" fill=\"black\">\n";
const TAIL: &[u8] = b"</g>\n</svg>\n";
const LINE: [&[u8]; 5] = [
    b"<line x1=\"",
    b"\" y1=\"",
    b"\" x2=\"",
    b"\" y2=\"",
    b"\"/>\n",
];
const ELLIPSE: [&[u8]; 5] = [
    b"<ellipse cx=\"",
    b"\" cy=\"",
    b"\" rx=\"",
    b"\" ry=\"",
    b"\"/>\n",
];
const BOX: [&[u8]; 5] = [
    b"<rect x=\"",
    b"\" y=\"",
    b"\" width=\"",
    b"\" height=\"",
    b"\"/>\n",
];
const TEXT: [&[u8]; 4] = [b"<text x=\"", b"\" y=\"", b"\">", b"</text>\n"];

/// Does something with each atom of the picture: those that main's variables hold undestroyed, parameters first, then in the order of declaration, and those in
/// groups that they hold.
fn each(stores: &mut Stores, declared: usize, mut show: impl FnMut(&Shape, &[u8])) {
    let Stores {
        stack,
        order,
        shapes,
        entries,
        texts,
        path,
        ..
    } = stores;
    let slots = [0, 1].iter().chain(&order[..declared]);
    for slot in slots {
        let Value::Shape(i) = stack[usize::from(*slot)] else {
            continue;
        };
        let mut next = Some(i);
        let mut depth = 0;
        loop {
            if let Some(i) = next {
                let shape = &shapes[usize::from(i)];
                if shape.is_group() && !shape.destroyed {
                    let (first, end) = shape.entries();
                    path[depth] = Level {
                        next: first as u16,
                        end: end as u16,
                        ..Level::default()
                    };
                    depth += 1;
                } else if !shape.destroyed {
                    show(shape, texts);
                }
            }
            if depth == 0 {
                break;
            }
            let level = &mut path[depth - 1];
            next = match level.next < level.end {
                true => match entries[usize::from(level.next)].value {
                    Value::Shape(i) => Some(i),
                    _ => None,
                },
                false => None,
            };
            match next {
                Some(_) => level.next += 1,
                None => depth -= 1,
            }
        }
    }
}

/// The numbers that a shape's line shows: no size is negative.
fn turned(shape: &Shape) -> [i64; 4] {
    let mut numbers = shape.numbers.map(i64::from);
    for (start, size) in [(0, 2), (1, 3)] {
        if numbers[size] < 0 && matches!(shape.kind, Kind::Box | Kind::Ellipse) {
            if matches!(shape.kind, Kind::Box) {
                numbers[start] += numbers[size];
            }
            numbers[size] = -numbers[size];
        }
    }
    numbers
}

pub fn length(
    stores: &mut Stores,
    program: &[u8],
    width: i32,
    height: i32,
    declared: usize,
) -> usize {
    let sides = digits(width.into()) + 1 + digits(height.into());
    let mut length = HEAD.len() + sides + REST.len() + TAIL.len();
    each(stores, declared, |shape, texts| {
        let parts = |parts: &[&[u8]]| parts.iter().map(|part| part.len()).sum::<usize>();
        let numbers = |numbers: &[i64]| numbers.iter().map(|n| digits(*n)).sum::<usize>();
        let shown = turned(shape);
        length += match shape.kind {
            Kind::Line => parts(&LINE) + numbers(&shown),
            Kind::Ellipse => parts(&ELLIPSE) + numbers(&shown),
            Kind::Box => parts(&BOX) + numbers(&shown),
            Kind::Text => {
                let text = shape.text.bytes(program, texts);
                parts(&TEXT) + numbers(&shown[..2]) + text.len()
            }
            Kind::Group => 0,
        };
    });
    length
}

/// Writes the picture to the front of a slice in which it fits.
pub fn write(
    stores: &mut Stores,
    program: &[u8],
    width: i32,
    height: i32,
    declared: usize,
    out: &mut [u8],
) {
    let mut writer = Writer { out, at: 0 };
    writer.bytes(HEAD);
    writer.number(width.into());
    writer.bytes(b" ");
    writer.number(height.into());
    writer.bytes(REST);
    each(stores, declared, |shape, texts| {
        let numbers = turned(shape);
        match shape.kind {
            Kind::Line => writer.element(&LINE, &numbers),
            Kind::Ellipse => writer.element(&ELLIPSE, &numbers),
            Kind::Box => writer.element(&BOX, &numbers),
            Kind::Text => {
                writer.bytes(TEXT[0]);
                writer.number(numbers[0]);
                writer.bytes(TEXT[1]);
                writer.number(numbers[1]);
                writer.bytes(TEXT[2]);
                writer.bytes(shape.text.bytes(program, texts));
                writer.bytes(TEXT[3]);
            }
            Kind::Group => {}
        }
    });
    writer.bytes(TAIL);
}

struct Writer<'a> {
    out: &'a mut [u8],
    at: usize,
}

impl Writer<'_> {
    fn bytes(&mut self, bytes: &[u8]) {
        self.out[self.at..self.at + bytes.len()].copy_from_slice(bytes);
        self.at += bytes.len();
    }

    fn number(&mut self, number: i64) {
        let size = digits(number);
        let place = &mut self.out[self.at..self.at + size];
        self.at += size;
        let mut rest = number.unsigned_abs();
        for byte in place.iter_mut().rev() {
            *byte = b'0' + (rest % 10) as u8;
            rest /= 10;
        }
        if number < 0 {
            place[0] = b'-';
        }
    }

    fn element(&mut self, parts: &[&[u8]; 5], numbers: &[i64; 4]) {
        for (part, number) in parts.iter().zip(numbers) {
            self.bytes(part);
            self.number(*number);
        }
        self.bytes(parts[4]);
    }
}

/// How many bytes a number has.
fn digits(number: i64) -> usize {
    let size = number.unsigned_abs().checked_ilog10().unwrap_or(0) + 1;
    size as usize + usize::from(number < 0)
}
