//! Atomic shapes, their centres and what the operators make of them.

use std::rc::Rc;

/// An atomic shape's kind, numbers and text. Two shapes are equal, and match as
/// keys, if all of these are.
#[derive(Clone, Debug, PartialEq, Eq, Hash)]
pub enum Shape {
    Line {
        x1: i32,
        y1: i32,
        x2: i32,
        y2: i32,
    },
    Ellipse {
        x: i32,
        y: i32,
        across: i32,
        up: i32,
    },
    Box {
        x: i32,
        y: i32,
        width: i32,
        height: i32,
    },
    Text {
        x: i32,
        y: i32,
        text: Rc<[u8]>,
    },
}

impl Shape {
    /// The same shape with each x and each y coordinate changed; widths,
    /// heights, radii and text stay.
    pub fn changed(&self, x_rule: impl Fn(i32) -> i32, y_rule: impl Fn(i32) -> i32) -> Shape {
        let mut new = self.clone();
        match &mut new {
            Shape::Line { x1, y1, x2, y2 } => {
                *x1 = x_rule(*x1);
                *y1 = y_rule(*y1);
                *x2 = x_rule(*x2);
                *y2 = y_rule(*y2);
            }
            Shape::Ellipse { x, y, .. } | Shape::Box { x, y, .. } | Shape::Text { x, y, .. } => {
                *x = x_rule(*x);
                *y = y_rule(*y);
            }
        }
        new
    }

    /// The same shape with every number changed: its coordinates, width and
    /// height or both radii. A text has only its point.
    pub fn scaled(&self, rule: impl Fn(i32) -> i32) -> Shape {
        let mut new = self.changed(&rule, &rule);
        match &mut new {
            Shape::Ellipse { across, up, .. } => {
                *across = rule(*across);
                *up = rule(*up);
            }
            Shape::Box { width, height, .. } => {
                *width = rule(*width);
                *height = rule(*height);
            }
            Shape::Line { .. } | Shape::Text { .. } => {}
        }
        new
    }

    /// The centre: of a line, half the exact sum of its ends, of a box, its
    /// corner plus half its size, all rounded toward zero; of an ellipse or
    /// a text, its own point.
    pub fn centre(&self) -> (i32, i32) {
        match *self {
            Shape::Line { x1, y1, x2, y2 } => (middle(x1, x2), middle(y1, y2)),
            Shape::Ellipse { x, y, .. } | Shape::Text { x, y, .. } => (x, y),
            Shape::Box {
                x,
                y,
                width,
                height,
            } => (x.wrapping_add(width / 2), y.wrapping_add(height / 2)),
        }
    }
}

/// Half the exact sum, rounded toward zero. It lies between the two ends or
/// nearer to zero, so it always fits.
fn middle(first: i32, second: i32) -> i32 {
    ((i64::from(first) + i64::from(second)) / 2) as i32
}
