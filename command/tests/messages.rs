//! What `img` says about every number and every likely reason: each drawing in `messages/` and `examples/numbers/` with the text that is expected, byte by byte.
//! With IMG_BLESS=1 the expected texts are written anew; look at them before they are kept.

use std::collections::BTreeSet;
use std::fs;
use std::path::{Path, PathBuf};
use std::process::Command;

fn folder(name: &str) -> PathBuf {
    Path::new(env!("CARGO_MANIFEST_DIR")).join(name)
}

/// What `img` says on standard error for some arguments. It prints nothing and ends with 1.
fn said(within: &Path, arguments: &[&str]) -> String {
    let run = Command::new(env!("CARGO_BIN_EXE_img")).args(arguments).current_dir(within).output().unwrap();
    assert_eq!(run.status.code(), Some(1), "{arguments:?}: {run:?}");
    assert!(run.stdout.is_empty(), "{arguments:?} prints something");
    String::from_utf8(run.stderr).unwrap()
}

fn expect(name: &str, said: &str) {
    let file = folder("tests/messages").join(name).with_extension("stderr");
    if std::env::var_os("IMG_BLESS").is_some() {
        fs::write(&file, said).unwrap();
    }
    let expected = fs::read_to_string(&file).unwrap_or_default();
    assert!(said == expected, "{name}: expected\n{expected}said\n{said}");
}

/// The names of a folder's files with one of these endings, in order.
fn names(within: &Path, endings: &[&str]) -> BTreeSet<String> {
    let files = fs::read_dir(within).unwrap();
    let names = files.map(|file| file.unwrap().file_name().into_string().unwrap());
    let wanted = |name: &String| endings.iter().any(|ending| name.ends_with(ending));
    names.filter(wanted).collect()
}

#[test]
fn every_drawing_gets_its_message() {
    let within = folder("tests/messages");
    let drawings = names(&within, &[".img", ".sheet"]);
    for name in &drawings {
        let message = match name.ends_with(".sheet") {
            true => said(&within, &["draw", name]),
            false => said(&within, &["draw", "--size", "20", "20", name]),
        };
        expect(name, &message);
        // Reading, and a name that is defined twice, give the same number to checking, and so the same message.
        let defined = message.starts_with("error[60]") && name.starts_with("procedure-");
        if (message.starts_with("error[10]") || defined) && name != "size-and-line.img" {
            assert_eq!(said(&within, &["check", name]), message, "{name}");
        }
    }
    let numbers = |name: &String| name.starts_with("number-");
    let texts = names(&within, &[".stderr"]);
    assert_eq!(texts.iter().filter(|name| !numbers(name)).count(), drawings.len());
}

/// Writes a drawing whose text has one byte too many, though the drawing itself has fewer, and gives its folder.
fn long_text(name: &str) -> PathBuf {
    let folder = PathBuf::from(env!("CARGO_TARGET_TMPDIR"));
    let statements = "wwwwwww;".repeat(3_638);
    fs::write(folder.join(name), format!("def main(w,h){{{statements}wwwwwwww;}}")).unwrap();
    folder
}

#[test]
fn every_number_has_its_message() {
    let within = folder("../examples/numbers");
    for number in img::numbers::all() {
        let drawing = format!("{number}.img");
        let size = fs::read_to_string(within.join(format!("{number}.size"))).unwrap_or("20 20\n".into());
        let (width, height) = size.trim_end().split_once(' ').unwrap();
        let message = match number {
            71 => said(&within, &["draw", "--shapes", "65536", "--size", width, height, "72.img"]),
            82 => said(&long_text(&drawing), &["text", &drawing]),
            _ => said(&within, &["draw", "--size", width, height, &drawing]),
        };
        assert!(message.starts_with(&format!("error[{number}]: ")), "{message}");
        expect(&format!("number-{number}"), &message);
    }
}
