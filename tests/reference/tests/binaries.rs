//! The three programs, run as programs.

use reference::case::{hash, Case};
use reference::{Grants, Operation};
use std::io::Write;
use std::process::{Command, Stdio};

fn run(program: &str, input: &[u8]) -> String {
    let mut child = Command::new(program)
        .stdin(Stdio::piped())
        .stdout(Stdio::piped())
        .spawn()
        .unwrap();
    child.stdin.take().unwrap().write_all(input).unwrap();
    let output = child.wait_with_output().unwrap();
    assert!(output.status.success());
    String::from_utf8(output.stdout).unwrap()
}

#[test]
fn reference_prints_what_imgdraw_should() {
    let reference = env!("CARGO_BIN_EXE_reference");
    let day = "20 20\ndef main(w,h){var a;var b;a=drawBox(2,9,3,h-9);b=drawText(2,h,\"day\");}";
    let expected = "<?xml version=\"1.0\"?>\n\
        <svg viewBox=\"0 0 20 20\" xmlns=\"http://www.w3.org/2000/svg\" version=\"1.1\">\n\
        <g stroke=\"black\" fill=\"black\">\n\
        <rect x=\"2\" y=\"9\" width=\"3\" height=\"11\"/>\n\
        <text x=\"2\" y=\"20\">day</text>\n\
        </g>\n</svg>\n";
    assert_eq!(run(reference, day.as_bytes()), expected);
    assert_eq!(run(reference, b""), "error 72 at 0\n");
    assert_eq!(run(reference, b"20 20\n\xff"), "error 10 at 0\n");
}

#[test]
fn written_prints_what_imgtext_should() {
    let written = env!("CARGO_BIN_EXE_written");
    // The whole input is the program; there is no first line.
    let program = b"def main(w,h){var\ta;a=((w))+-00;}\n\n";
    let text = "def main(w,h){\nvar a;\na=w+0;\n}\n";
    assert_eq!(run(written, program), text);
    assert_eq!(run(written, b""), "error 10 at 0\n");
    assert_eq!(run(written, b"20 20\ndef main(w,h){1;}"), "error 10 at 0\n");
    assert_eq!(run(written, &[b' '; 32_769]), "error 73 at 0\n");
    let long = format!("def main(w,h){{{};}}", "n".repeat(32_750));
    assert_eq!(run(written, long.as_bytes()), "error 82 at 0\n");
}

#[test]
fn judge_answers_line_by_line() {
    let case = |operation, out_length, program: &str| Case {
        operation,
        width: 20,
        height: 20,
        grants: Grants {
            steps: 10,
            shapes: 1,
            entries: 1,
            text_bytes: 1,
            calls: 1,
        },
        out_length,
        program: program.as_bytes().to_vec(),
    };
    let good = "def main(w,h){1;}";
    let picture = "<?xml version=\"1.0\"?>\n\
        <svg viewBox=\"0 0 20 20\" xmlns=\"http://www.w3.org/2000/svg\" version=\"1.1\">\n\
        <g stroke=\"black\" fill=\"black\">\n</g>\n</svg>\n";
    let length = picture.len();
    let lines = [
        (
            case(Operation::Draw, 1_000, good).to_line(),
            format!("picture {length} 2 {:016x}", hash(picture.as_bytes())),
        ),
        (
            case(Operation::Draw, 0, good).to_line(),
            format!("number 80 0 2 {length}"),
        ),
        (
            case(Operation::Check, 0, good).to_line(),
            "wellformed".to_string(),
        ),
        (
            case(Operation::Check, 0, "").to_line(),
            "number 10 0 0 -".to_string(),
        ),
        (
            case(Operation::Draw, 0, "def main(w,h){a;}").to_line(),
            "number 50 14 2 -".to_string(),
        ),
        ("draw 20 20 1".to_string(), "malformed".to_string()),
        (String::new(), "malformed".to_string()),
        (
            "run 20 20 1 1 1 1 1 1 -".to_string(),
            "malformed".to_string(),
        ),
        (
            "draw 20 20 65536 65536 1 1 1 1 -".to_string(),
            "number 71 0 0 -".to_string(),
        ),
        (
            "draw 20 20 1 1 1 1 65 1 -".to_string(),
            "number 71 0 0 -".to_string(),
        ),
        (
            "draw -2147483648 20 1 1 1 1 1 1 00fF".to_string(),
            "number 72 0 0 -".to_string(),
        ),
        (
            "draw 2147483648 20 1 1 1 1 1 1 00ff".to_string(),
            "malformed".to_string(),
        ),
        (
            "draw 20 20 1 1 1 1 1 1 0".to_string(),
            "malformed".to_string(),
        ),
        (
            "draw 20 20 1 1 1 1 1 1 - ".to_string(),
            "malformed".to_string(),
        ),
    ];
    let input: String = lines.iter().map(|line| format!("{}\n", line.0)).collect();
    let expected: String = lines.iter().map(|line| format!("{}\n", line.1)).collect();
    assert_eq!(run(env!("CARGO_BIN_EXE_judge"), input.as_bytes()), expected);
}

#[test]
fn hash_is_fnv_1a() {
    assert_eq!(hash(b""), 0xcbf2_9ce4_8422_2325);
    assert_eq!(hash(b"a"), 0xaf63_dc4c_8601_ec8c);
    assert_eq!(hash(b"foobar"), 0x8594_4171_f739_67e8);
}
