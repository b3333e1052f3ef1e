//! Drawings whose boxes and ellipses have negative sizes.

use crate::random::Random;
use crate::words::edge;

/// A sheet of this many dots each way.
pub const SIDE: i32 = 200;

/// The numbers of a box or of an ellipse.
pub type Numbers = [i32; 4];

/// Boxes and ellipses that are seen on a sheet, with sizes of either sign and none of 0. The first box has a negative width.
pub struct Drawing {
    pub boxes: Vec<Numbers>,
    pub ellipses: Vec<Numbers>,
}

fn number(random: &mut Random, least: i32, most: i32) -> i32 {
    least + random.between(0, (most - least) as usize) as i32
}

fn size(random: &mut Random) -> i32 {
    let size = number(random, 1, 120);
    if random.chance(600) {
        -size
    } else {
        size
    }
}

impl Drawing {
    pub fn any(random: &mut Random) -> Drawing {
        let mut shapes = || {
            (0..random.between(1, 5))
                .map(|_| {
                    let (x, y) = (number(random, -40, 240), number(random, -40, 240));
                    [x, y, size(random), size(random)]
                })
                .collect()
        };
        let (mut boxes, ellipses): (Vec<Numbers>, _) = (shapes(), shapes());
        boxes[0][2] = -boxes[0][2].abs();
        Drawing { boxes, ellipses }
    }

    /// The same shapes without a negative size.
    pub fn forwards(&self) -> Drawing {
        let turned = |[x, y, w, h]: &Numbers| [x + w.min(&0), y + h.min(&0), w.abs(), h.abs()];
        let rounded = |[x, y, a, b]: &Numbers| [*x, *y, a.abs(), b.abs()];
        Drawing {
            boxes: self.boxes.iter().map(turned).collect(),
            ellipses: self.ellipses.iter().map(rounded).collect(),
        }
    }

    /// The program that draws them.
    pub fn program(&self) -> Vec<u8> {
        let calls = |name: &str, shapes: &[Numbers]| -> Vec<String> {
            let call = |[a, b, c, d]: &Numbers| format!("{name}({a},{b},{c},{d})");
            shapes.iter().map(call).collect()
        };
        let mut all = calls("drawBox", &self.boxes);
        all.extend(calls("drawEllipse", &self.ellipses));
        held(&all)
    }

    /// An SVG of them by itself: a box is the polygon of its four corners, whichever lies where.
    pub fn polygons(&self) -> Vec<u8> {
        let mut svg = format!(
            "<svg viewBox=\"0 0 {SIDE} {SIDE}\" xmlns=\"http://www.w3.org/2000/svg\" version=\"1.1\">\n\
             <g stroke=\"black\" fill=\"black\">\n"
        );
        for [x, y, w, h] in &self.boxes {
            let (to_x, to_y) = (x + w, y + h);
            svg += &format!("<polygon points=\"{x},{y} {to_x},{y} {to_x},{to_y} {x},{to_y}\"/>\n");
        }
        for [x, y, a, b] in &self.ellipses {
            let (across, up) = (a.abs(), b.abs());
            svg += &format!("<ellipse cx=\"{x}\" cy=\"{y}\" rx=\"{across}\" ry=\"{up}\"/>\n");
        }
        (svg + "</g>\n</svg>\n").into_bytes()
    }
}

/// A drawing whose numbers lie at the edges, with at least one negative size.
pub fn at_the_edges(random: &mut Random) -> Vec<u8> {
    let mut all = vec!["drawBox(-2147483648,1,-2147483648,-1)".to_string()];
    for _ in 0..random.between(1, 12) {
        let name = *random.pick(&["drawBox", "drawEllipse"]);
        let numbers: Vec<String> = (0..4).map(|_| edge(random)).collect();
        all.push(format!("{name}({})", numbers.join(",")));
    }
    held(&all)
}

/// A program that holds each of these shapes in a variable.
fn held(shapes: &[String]) -> Vec<u8> {
    let statements: Vec<String> = shapes
        .iter()
        .enumerate()
        .map(|(i, shape)| format!("var s{i};s{i}={shape};"))
        .collect();
    format!("def main(w,h){{{}}}", statements.concat()).into_bytes()
}
