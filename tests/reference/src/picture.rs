//! The picture as SVG.

use crate::shape::Shape;
use std::io::{self, Write};

/// The picture's length in bytes, found without making the picture.
pub fn length(width: i32, height: i32, shapes: &[Shape]) -> u64 {
    let mut counter = Counter { bytes: 0 };
    // Counting cannot fail.
    let _ = write(width, height, shapes, &mut counter);
    counter.bytes
}

/// The picture's bytes.
pub fn bytes(width: i32, height: i32, shapes: &[Shape]) -> Vec<u8> {
    let mut picture = Vec::new();
    // Writing to a vector cannot fail.
    let _ = write(width, height, shapes, &mut picture);
    picture
}

struct Counter {
    bytes: u64,
}

impl Write for Counter {
    fn write(&mut self, part: &[u8]) -> io::Result<usize> {
        self.bytes += part.len() as u64;
        Ok(part.len())
    }

    fn flush(&mut self) -> io::Result<()> {
        Ok(())
    }
}

fn write(width: i32, height: i32, shapes: &[Shape], out: &mut impl Write) -> io::Result<()> {
    out.write_all(b"<?xml version=\"1.0\"?>\n")?;
    write!(out, "<svg viewBox=\"0 0 {width} {height}\"")?;
    out.write_all(b" xmlns=\"http://www.w3.org/2000/svg\" version=\"1.1\">\n")?;
    out.write_all(b"<g stroke=\"black\" fill=\"black\">\n")?;
    for shape in shapes {
        write_shape(shape, out)?;
    }
    out.write_all(b"</g>\n</svg>\n")
}

fn write_shape(shape: &Shape, out: &mut impl Write) -> io::Result<()> {
    match shape {
        Shape::Line { x1, y1, x2, y2 } => writeln!(
            out,
            "<line x1=\"{x1}\" y1=\"{y1}\" x2=\"{x2}\" y2=\"{y2}\"/>"
        ),
        Shape::Ellipse { x, y, across, up } => writeln!(
            out,
            "<ellipse cx=\"{x}\" cy=\"{y}\" rx=\"{}\" ry=\"{}\"/>",
            across.unsigned_abs(),
            up.unsigned_abs()
        ),
        Shape::Box {
            x,
            y,
            width,
            height,
        } => {
            let (x, width) = forwards(*x, *width);
            let (y, height) = forwards(*y, *height);
            writeln!(
                out,
                "<rect x=\"{x}\" y=\"{y}\" width=\"{width}\" height=\"{height}\"/>"
            )
        }
        Shape::Text { x, y, text } => {
            write!(out, "<text x=\"{x}\" y=\"{y}\">")?;
            out.write_all(text)?;
            out.write_all(b"</text>\n")
        }
    }
}

/// Where the line of a box begins along one side, and its size there. A
/// negative size begins at its other end; nothing wraps.
fn forwards(start: i32, size: i32) -> (i64, i64) {
    let (start, size) = (i64::from(start), i64::from(size));
    if size < 0 {
        (start + size, -size)
    } else {
        (start, size)
    }
}
