//! Pictures of drawings with negative sizes: other programs take them, and show what the drawing forwards shows.

use generator::backwards::{at_the_edges, Drawing, SIDE};
use generator::random::Random;
use generator::readers::{dots, well_formed};
use reference::sheet::print;

/// The picture of a program, by the separately written interpreter.
fn picture(program: &[u8]) -> Vec<u8> {
    let sheet = [format!("{SIDE} {SIDE}\n").as_bytes(), program].concat();
    let picture = print(&sheet);
    assert!(
        picture.starts_with(b"<?xml"),
        "{}",
        String::from_utf8_lossy(&picture)
    );
    picture
}

/// No width, height or radius of it has a minus.
fn no_negative_size(picture: &[u8]) {
    let text = String::from_utf8_lossy(picture);
    for name in ["width", "height", "rx", "ry"] {
        assert!(!text.contains(&format!(" {name}=\"-")), "{text}");
    }
}

#[test]
fn the_same_dots_as_forwards() {
    let empty = dots(&picture(b"def main(w,h){1;}"), SIDE);
    let mut seen = 0;
    for seed in 0..150 {
        let drawing = Drawing::any(&mut Random::new(seed));
        let backwards = picture(&drawing.program());
        no_negative_size(&backwards);
        well_formed(&backwards);
        let shown = dots(&backwards, SIDE);
        let forwards = picture(&drawing.forwards().program());
        assert!(
            shown == dots(&forwards, SIDE),
            "seed {seed}: not as forwards"
        );
        let polygons = dots(&drawing.polygons(), SIDE);
        assert!(shown == polygons, "seed {seed}: not as the polygons");
        seen += usize::from(shown != empty);
    }
    assert!(140 <= seen, "only {seen} drawings show something");
}

#[test]
fn numbers_at_the_edges() {
    for seed in 0..150 {
        let picture = picture(&at_the_edges(&mut Random::new(seed)));
        no_negative_size(&picture);
        well_formed(&picture);
        dots(&picture, SIDE);
    }
}
