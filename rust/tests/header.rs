//! The declarations of `src/ffi.rs` are those of `include/img.h`, parameter by parameter, and the header's numbers those of this crate.

use img::{Grants, CODE, MOST_PROGRAM, STACK, TOKENS, VERSION};
use std::collections::BTreeMap;
use std::fs;
use std::path::Path;

fn text(file: &str) -> String {
    fs::read_to_string(Path::new(env!("CARGO_MANIFEST_DIR")).join(file)).unwrap()
}

/// What stands between the first `(` and the next `)`, in pieces, each with single blanks.
fn parameters(declaration: &str) -> Vec<String> {
    let (_, behind) = declaration.split_once('(').unwrap();
    let (inside, _) = behind.split_once(')').unwrap();
    let pieces = inside
        .split(',')
        .map(|piece| piece.split_whitespace().collect::<Vec<_>>().join(" "));
    pieces.filter(|piece| !piece.is_empty()).collect()
}

/// Each function with its result and its parameters, a name and a type each. Types are written as in Rust.
type Functions = BTreeMap<String, (String, Vec<(String, String)>)>;

fn of_the_header() -> Functions {
    let kind = |c: &str| {
        let kinds = [
            ("const uint8_t *", "*const u8"),
            ("uint8_t *", "*mut u8"),
            ("uint64_t *", "*mut u64"),
            ("uint64_t", "u64"),
            ("size_t", "usize"),
            ("int32_t", "i32"),
            ("void", ""),
        ];
        let found = kinds.iter().find(|(from, _)| *from == c);
        found
            .unwrap_or_else(|| panic!("what is {c}?"))
            .1
            .to_string()
    };
    let header = text("../include/img.h");
    let mut functions = Functions::new();
    for result in ["void", "uint64_t"] {
        for declaration in header.split(&format!("\n{result} img_")).skip(1) {
            let name = declaration.split('(').next().unwrap();
            let parameters = parameters(declaration).into_iter().map(|piece| {
                let cut = piece.rfind([' ', '*']).unwrap() + 1;
                (piece[cut..].to_string(), kind(piece[..cut].trim_end()))
            });
            functions.insert(format!("img_{name}"), (kind(result), parameters.collect()));
        }
    }
    functions
}

fn of_this_crate() -> Functions {
    let source = text("src/ffi.rs");
    let mut functions = Functions::new();
    for declaration in source.split("pub fn ").skip(1) {
        let name = declaration.split('(').next().unwrap();
        let behind = declaration
            .split_once(')')
            .unwrap()
            .1
            .split(';')
            .next()
            .unwrap();
        let pairs = parameters(declaration).into_iter().map(|piece| {
            let (name, kind) = piece.split_once(": ").unwrap();
            (name.to_string(), kind.to_string())
        });
        functions.insert(
            name.to_string(),
            (
                behind.trim_start_matches(" -> ").to_string(),
                pairs.collect(),
            ),
        );
    }
    functions
}

#[test]
fn the_declarations_are_those_of_the_header() {
    let functions = of_the_header();
    assert!(functions.len() >= 3, "{functions:?}");
    assert_eq!(functions, of_this_crate());
}

#[test]
fn the_numbers_are_those_of_the_header() {
    let header = text("../include/img.h");
    let defined = |name: &str| -> String {
        let begin = format!("#define {name} ");
        let line = header.lines().find_map(|line| line.strip_prefix(&begin));
        let digits = line
            .unwrap_or_else(|| panic!("no {name}"))
            .replace("(size_t)", "")
            .replace("UINT64_C", "");
        digits.trim_matches(['(', ')', '"']).to_string()
    };
    assert_eq!(defined("IMG_VERSION"), VERSION);
    let most = Grants::MOST;
    for (name, number) in [
        ("IMG_TOKENS", TOKENS as u64),
        ("IMG_CODE", CODE as u64),
        ("IMG_MOST_PROGRAM", MOST_PROGRAM as u64),
        ("IMG_MOST_STEPS", most.steps),
        ("IMG_MOST_SHAPES", most.shapes),
        ("IMG_MOST_ENTRIES", most.entries),
        ("IMG_MOST_TEXT_BYTES", most.text_bytes),
        ("IMG_MOST_CALLS", most.calls),
    ] {
        assert_eq!(defined(name), number.to_string(), "{name}");
    }
    // Those that depend on what is granted, in the words of C.
    let stack = format!("#define IMG_STACK(calls) ((size_t){STACK} * (size_t)(calls))\n");
    assert!(header.contains(&stack), "{stack}");
    assert_eq!(most.stack(), 64 * STACK);
    let none = Grants {
        shapes: 0,
        entries: 0,
        ..most
    };
    let words = format!(
        "((size_t){} + (size_t)5 * (size_t)(shapes) + \\\n     ((size_t)5 + (size_t)(calls)) * (size_t)(entries))\n",
        none.words()
    );
    assert!(header.contains(&words), "{words}");
    let most_words = none.words() + 5 * most.shapes as usize + (5 + 64) * most.entries as usize;
    assert_eq!(most.words(), most_words);
}
