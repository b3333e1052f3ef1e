//! The inputs that the fuzzer left, tried once: through the harness, compiled as C, and against the reference.

use agreement::compare::Lender;
use agreement::inputs::Input;
use reference::{Answer, Operation};
use std::collections::BTreeSet;
use std::path::{Path, PathBuf};
use std::process::Command;

fn top() -> PathBuf {
    Path::new(env!("CARGO_MANIFEST_DIR")).join("../..")
}

/// The kept inputs, in order.
fn corpus() -> Vec<PathBuf> {
    let folder = top().join("tests/fuzz/corpus");
    let entries = std::fs::read_dir(folder).expect("the corpus");
    let mut paths: Vec<PathBuf> = entries.map(|entry| entry.expect("a file").path()).collect();
    paths.sort();
    assert!(paths.len() >= 20, "only {} inputs", paths.len());
    paths
}

// Would catch a library that cannot be called from C as docs/INTERFACE.md says, that leaves its slices, or that does anything else that the harness asks about.
#[test]
fn the_harness_accepts_it() {
    let program = Path::new(env!("CARGO_TARGET_TMPDIR")).join("harness");
    let compiled = Command::new("cc")
        .args(["-O2", "-Wall", "-Wextra", "-o"])
        .arg(&program)
        .arg(top().join("tests/fuzz/harness.c"))
        .arg(top().join("target/staticlib/libimg.a"))
        .output()
        .expect("a C compiler, which cargo links with too");
    let message = String::from_utf8_lossy(&compiled.stderr);
    assert!(compiled.status.success(), "{message}");
    let paths = corpus();
    let tried = Command::new(&program)
        .args(&paths)
        .output()
        .expect("the harness");
    let message = String::from_utf8_lossy(&tried.stderr);
    assert!(tried.status.success(), "{message}");
    let count = format!("{} tried\n", paths.len());
    assert_eq!(String::from_utf8_lossy(&tried.stdout), count);
}

// Would catch a difference on inputs that no generator made.
#[test]
fn the_reference_agrees_on_it() {
    let mut lender = Lender::default();
    for path in corpus() {
        let input = Input::read(&std::fs::read(&path).expect("an input"));
        assert_eq!(input.misfit(&mut lender), None, "{}", path.display());
    }
}

// Would catch a corpus that has shrunk to a few outcomes, and a file whose name tells another one.
#[test]
fn it_leads_to_every_number() {
    let mut numbers = BTreeSet::new();
    for path in corpus() {
        let Input { case, lengths, .. } = Input::read(&std::fs::read(&path).expect("an input"));
        let number = match case.answer() {
            _ if !lengths.suffice(case.operation, case.grants) => 71,
            Answer::Number { number, .. } => number,
            _ => 0,
        };
        let operation = match case.operation {
            Operation::Check => "check",
            Operation::Draw => {
                numbers.insert(number);
                "draw"
            }
        };
        let name = path.file_name().expect("a name").to_string_lossy();
        let begin = format!("{operation}-{number:02}-");
        assert!(name.starts_with(&begin), "{name} is {begin}");
    }
    let all = [
        0, 10, 20, 30, 40, 50, 60, 70, 71, 72, 75, 76, 77, 78, 79, 80, 81,
    ];
    for number in all {
        assert!(numbers.contains(&number), "{number} is missing");
    }
}
