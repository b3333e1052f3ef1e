//! Other programs that read pictures. tools/readers installs them.

use std::io::Write;
use std::process::{Command, Stdio};

/// What a program prints that is handed the picture; it must end well and say nothing else.
fn run(program: &str, arguments: &[&str], picture: &[u8]) -> Vec<u8> {
    let mut child = Command::new(program)
        .args(arguments)
        .stdin(Stdio::piped())
        .stdout(Stdio::piped())
        .stderr(Stdio::piped())
        .spawn()
        .unwrap_or_else(|error| panic!("{program}: {error}; tools/readers installs it"));
    let mut input = child.stdin.take().expect("its input");
    input.write_all(picture).expect("a picture handed over");
    drop(input);
    let output = child.wait_with_output().expect("its output");
    assert!(
        output.status.success() && output.stderr.is_empty(),
        "{program}: {}\n{}\n{}",
        output.status,
        String::from_utf8_lossy(&output.stderr),
        String::from_utf8_lossy(picture)
    );
    output.stdout
}

/// xmllint takes the picture.
pub fn well_formed(picture: &[u8]) {
    run("xmllint", &["--noout", "-"], picture);
}

/// The picture as rsvg-convert shows it, in dots.
pub fn dots(picture: &[u8], side: i32) -> Vec<u8> {
    let side = side.to_string();
    run(
        "rsvg-convert",
        &["--width", &side, "--height", &side],
        picture,
    )
}
