//! Two ways to draw, and what they are measured on.

use baseline::{Answer, Grants, Stores};

/// A program with its width, its height and its grants.
#[derive(Clone, Copy, Debug)]
pub struct Drawing {
    pub name: &'static str,
    pub program: &'static [u8],
    pub width: i32,
    pub height: i32,
    pub grants: Grants,
}

/// What `imgdraw` grants.
pub const SHEET: Grants = Grants {
    steps: 1_000_000,
    shapes: 1_024,
    entries: 1_024,
    text_bytes: 16_384,
    calls: 64,
};

/// A loop of 900,000 steps.
pub const LOOP: Drawing = Drawing {
    name: "loop",
    program: include_bytes!("../../drawings/loop.img"),
    width: 640,
    height: 480,
    grants: SHEET,
};

/// 4,000 shapes.
pub const SHAPES: Drawing = Drawing {
    name: "shapes",
    program: include_bytes!("../../drawings/shapes.img"),
    width: 640,
    height: 480,
    grants: Grants {
        shapes: 4_000,
        ..SHEET
    },
};

/// A tree of 4,095 lines, each drawn by a call, up to 13 of which are under way at once.
pub const TREE: Drawing = Drawing {
    name: "tree",
    program: include_bytes!("../../drawings/tree.img"),
    width: 640,
    height: 480,
    grants: Grants {
        shapes: 8_192,
        ..SHEET
    },
};

/// 96 bars in one group, each bar in a group with those before it, moved by two operators and gone through 100 times.
pub const GROUP: Drawing = Drawing {
    name: "group",
    program: include_bytes!("../../drawings/group.img"),
    width: 640,
    height: 480,
    grants: SHEET,
};

/// A flat's day with its 96 bars in one group, the highest of which is looked for.
pub const DAY: Drawing = Drawing {
    name: "day",
    program: include_bytes!("../../../examples/drawings/day-group.img"),
    width: 1080,
    height: 400,
    grants: SHEET,
};

/// A loop of so many turns, each with a call of a procedure with two parameters that hands back their sum, or with the sum itself.
pub fn calls(called: bool, times: i32) -> Drawing {
    Drawing {
        name: if called { "call" } else { "inline" },
        program: match called {
            true => include_bytes!("../../drawings/call.img"),
            false => include_bytes!("../../drawings/inline.img"),
        },
        width: 1,
        height: times,
        grants: Grants {
            steps: u32::MAX.into(),
            ..SHEET
        },
    }
}

/// A table of so many entries, and so many look-ups in it.
pub fn look_ups(entries: i32, times: i32) -> Drawing {
    Drawing {
        name: "lookup",
        program: include_bytes!("../../drawings/lookup.img"),
        width: entries,
        height: times,
        grants: Grants {
            steps: u32::MAX.into(),
            shapes: 0,
            entries: 65_535,
            text_bytes: 0,
            calls: 1,
        },
    }
}

/// 500 boxes with four numbers each, all of them the sheet's width and height.
pub fn numbers(number: i32) -> Drawing {
    let boxes: String = (0..500)
        .map(|i| format!("var a{i};a{i}=drawBox(w,h,w,h);"))
        .collect();
    Drawing {
        name: "numbers",
        program: format!("def main(w,h){{{boxes}}}").leak().as_bytes(),
        width: number,
        height: number,
        grants: SHEET,
    }
}

/// A drawing by its name.
pub fn drawing(name: &str) -> Option<Drawing> {
    match name {
        "loop" => Some(LOOP),
        "shapes" => Some(SHAPES),
        "tree" => Some(TREE),
        "group" => Some(GROUP),
        "day" => Some(DAY),
        "call" => Some(calls(true, 100_000)),
        "inline" => Some(calls(false, 100_000)),
        "few" => Some(look_ups(16, 100_000)),
        "many" => Some(look_ups(60_000, 100_000)),
        "ten-digits" => Some(numbers(2_147_483_647)),
        "one-digit" => Some(numbers(7)),
        _ => None,
    }
}

/// Something that draws, with stores that were made before.
pub trait Drawer {
    fn draw(&mut self, drawing: &Drawing, out: &mut [u8]) -> Answer;
}

pub struct Baseline(Stores);

impl Baseline {
    pub fn new(grants: Grants) -> Baseline {
        Baseline(Stores::new(grants))
    }
}

impl Drawer for Baseline {
    fn draw(&mut self, drawing: &Drawing, out: &mut [u8]) -> Answer {
        let Drawing {
            program,
            width,
            height,
            ..
        } = *drawing;
        baseline::draw(&mut self.0, program, width, height, out)
    }
}

#[cfg(ours)]
pub use ours::Ours;

/// The one declaration of the library's functions in Rust.
#[cfg(ours)]
#[allow(dead_code)]
#[path = "../../../rust/src/ffi.rs"]
mod ffi;

#[cfg(ours)]
mod ours {
    use super::ffi::img_draw;
    use super::{Answer, Drawer, Drawing, Grants};

    /// The proved library with its work slices.
    pub struct Ours {
        tokens: Vec<u64>,
        code: Vec<u64>,
        words: Vec<u64>,
        texts: Vec<u8>,
    }

    impl Ours {
        /// Slices as long as docs/INTERFACE.md asks.
        pub fn new(grants: Grants) -> Ours {
            let words = 262_416 + 5 * grants.shapes + (5 + grants.calls) * grants.entries;
            Ours {
                tokens: vec![0; 8_193],
                code: vec![0; 16_384],
                words: vec![0; words as usize],
                texts: vec![0; grants.text_bytes as usize],
            }
        }
    }

    impl Drawer for Ours {
        fn draw(&mut self, drawing: &Drawing, out: &mut [u8]) -> Answer {
            let mut answer = [0; 4];
            let grants = drawing.grants;
            // The library reads and writes within the lengths that it is handed; it is proved to.
            unsafe {
                img_draw(
                    drawing.program.as_ptr(),
                    drawing.program.len(),
                    drawing.width,
                    drawing.height,
                    grants.steps,
                    grants.shapes,
                    grants.entries,
                    grants.text_bytes,
                    grants.calls,
                    self.tokens.as_mut_ptr(),
                    self.tokens.len(),
                    self.code.as_mut_ptr(),
                    self.code.len(),
                    self.words.as_mut_ptr(),
                    self.words.len(),
                    self.texts.as_mut_ptr(),
                    self.texts.len(),
                    out.as_mut_ptr(),
                    out.len(),
                    answer.as_mut_ptr(),
                    answer.len(),
                );
            }
            let [number, place, steps, length] = answer;
            Answer {
                number,
                place,
                steps,
                length,
            }
        }
    }
}

/// The proved library, if this was built with it.
pub fn ours(grants: Grants) -> Option<Box<dyn Drawer>> {
    #[cfg(ours)]
    return Some(Box::new(Ours::new(grants)));
    #[cfg(not(ours))]
    {
        let _ = grants;
        None
    }
}
