//! Draws `once baseline|ours NAME TIMES`, for a tool that counts instructions. NAME is loop, shapes, tree, group, day, call or inline (100,000 turns with a call
//! each, and without), few or many (100,000 look-ups in a table of 16 and of 60,000 entries), ten-digits or one-digit (2,000 numbers of so many).

use compare::{drawing, ours, Baseline, Drawer};

fn main() {
    let words: Vec<String> = std::env::args().skip(1).collect();
    let [who, name, times] = &words[..] else {
        panic!("usage: once baseline|ours NAME TIMES");
    };
    let drawing = drawing(name).expect("the name of a drawing");
    let mut drawer: Box<dyn Drawer> = match who.as_str() {
        "baseline" => Box::new(Baseline::new(drawing.grants)),
        _ => ours(drawing.grants).expect("a library that draws"),
    };
    let mut out = vec![0; 65_536];
    for _ in 0..times.parse().expect("a number of times") {
        let answer = drawer.draw(&drawing, &mut out);
        assert_eq!(answer.number, 0, "{answer:?}");
    }
}
