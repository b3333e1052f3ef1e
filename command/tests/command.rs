//! What `img` prints, writes and ends with. Status 0: every file gave its result; 1: a number, or a file that is not its own text; 2: wrong use; 3: input or output
//! failed.

use std::fs::{self, File, OpenOptions};
use std::io::Write;
use std::os::unix::fs::PermissionsExt;
use std::path::{Path, PathBuf};
use std::process::{Command, Output, Stdio};

const DAY: &str = "20 20\ndef main(w,h){var a;var b;a=drawBox(2,9,3,h-9);b=drawText(2,h,\"day\");}";
const DAY_TEXT: &str = "20 20\ndef main(w,h){\nvar a;\nvar b;\na=drawBox(2,9,3,h-9);\nb=drawText(2,h,\"day\");\n}\n";
const WRONG: &str = "20 20\ndef main(w,h){a=1;}";

fn examples(name: &str) -> PathBuf {
    Path::new(env!("CARGO_MANIFEST_DIR")).join("../examples/drawings").join(name)
}

/// The picture of document 01, which is that of DAY.
fn picture() -> Vec<u8> {
    fs::read(examples("document01.svg")).unwrap()
}

/// A folder of the test's own with two sheets, one that is wrong.
fn folder(test: &str) -> PathBuf {
    let folder = Path::new(env!("CARGO_TARGET_TMPDIR")).join(test);
    let _ = fs::remove_dir_all(&folder);
    fs::create_dir_all(folder.join("more")).unwrap();
    fs::write(folder.join("day.sheet"), DAY).unwrap();
    fs::write(folder.join("-day"), DAY).unwrap();
    fs::write(folder.join("more/day.img"), DAY).unwrap();
    fs::write(folder.join("wrong"), WRONG).unwrap();
    folder
}

fn img(folder: &Path, arguments: &[&str]) -> Command {
    let mut command = Command::new(env!("CARGO_BIN_EXE_img"));
    command.args(arguments).current_dir(folder).stdin(Stdio::null());
    command
}

/// Runs it, expecting a status; gives what it printed and said.
fn run(folder: &Path, arguments: &[&str], status: i32) -> (Vec<u8>, String) {
    ended(img(folder, arguments).output().unwrap(), status)
}

fn ended(run: Output, status: i32) -> (Vec<u8>, String) {
    let said = String::from_utf8(run.stderr).unwrap();
    assert_eq!(run.status.code(), Some(status), "{said}");
    assert_eq!(said.is_empty(), status == 0, "{said}");
    (run.stdout, said)
}

/// Runs it with something on standard input.
fn fed(folder: &Path, arguments: &[&str], input: &str, status: i32) -> (Vec<u8>, String) {
    let piped = || Stdio::piped();
    let mut child = img(folder, arguments).stdin(piped()).stdout(piped()).stderr(piped()).spawn().unwrap();
    child.stdin.take().unwrap().write_all(input.as_bytes()).unwrap();
    ended(child.wait_with_output().unwrap(), status)
}

/// The files of a folder, in order.
fn files(folder: &Path) -> Vec<String> {
    let mut names: Vec<_> = fs::read_dir(folder).unwrap().map(|f| f.unwrap().file_name().into_string().unwrap()).collect();
    names.sort();
    names
}

#[test]
fn draws_sheets_and_drawings() {
    let folder = folder("draws");
    assert_eq!(run(&folder, &["draw", "day.sheet"], 0).0, picture());
    assert_eq!(run(&folder, &["draw", "--", "-day"], 0).0, picture());
    assert_eq!(fed(&folder, &["draw", "-"], DAY, 0).0, picture());
    let program = DAY.strip_prefix("20 20\n").unwrap();
    assert_eq!(fed(&folder, &["draw", "--size", "20", "20", "-"], program, 0).0, picture());
    for name in ["day", "day-procedures", "day-group", "week", "stickman", "stickman-table", "stickman-procedures", "stickman-group"] {
        let size = fs::read_to_string(examples(&format!("{name}.size"))).unwrap();
        let (width, height) = size.trim_end().split_once(' ').unwrap();
        let drawing = examples(&format!("{name}.img"));
        let (printed, _) = run(&folder, &["draw", drawing.to_str().unwrap(), "--size", width, height], 0);
        assert!(printed == fs::read(examples(&format!("{name}.svg"))).unwrap(), "{name}");
    }
}

#[test]
fn checks_sheets_and_drawings() {
    let folder = folder("checks");
    let (printed, _) = run(&folder, &["check", "day.sheet", "more/day.img", "wrong"], 0);
    assert_eq!(printed, b"day.sheet: well formed\nmore/day.img: well formed\nwrong: well formed\n");
    assert_eq!(fed(&folder, &["check", "-"], "def main(w,h){1;}", 0).0, b"standard input: well formed\n");
    let (printed, said) = fed(&folder, &["check", "-", "wrong"], "def main(w,h){}", 1);
    assert_eq!(printed, b"wrong: well formed\n");
    assert!(said.starts_with("error[10]: "), "{said}");
}

#[test]
fn writes_texts_of_sheets_and_drawings() {
    let folder = folder("texts");
    // A sheet's text is a sheet, and draws the same picture.
    assert_eq!(run(&folder, &["text", "day.sheet"], 0).0, DAY_TEXT.as_bytes());
    assert_eq!(run(&folder, &["text", "--", "-day"], 0).0, DAY_TEXT.as_bytes());
    assert_eq!(fed(&folder, &["text", "-"], DAY_TEXT, 0).0, DAY_TEXT.as_bytes());
    assert_eq!(fed(&folder, &["draw", "-"], DAY_TEXT, 0).0, picture());
    // Its first line has no leading zeros; width and height are not asked about.
    let zeros = DAY.replace("20 20\n", "0020 000\n\t\n");
    assert_eq!(fed(&folder, &["text", "-"], &zeros, 0).0, DAY_TEXT.replace("20 20\n", "20 0\n").as_bytes());
    // A program alone, which is not run.
    let program = |sheet: &str| sheet.strip_prefix("20 20\n").unwrap().to_string();
    assert_eq!(fed(&folder, &["text", "-"], &program(DAY), 0).0, program(DAY_TEXT).as_bytes());
    assert_eq!(fed(&folder, &["text", "-"], &program(WRONG), 0).0, b"def main(w,h){\na=1;\n}\n");
    for name in ["document01", "hall", "stickman-procedures"] {
        let drawing = examples(&format!("{name}.img"));
        let text = fs::read(examples(&format!("../texts/{name}.img"))).unwrap();
        assert!(run(&folder, &["text", drawing.to_str().unwrap()], 0).0 == text, "{name}");
    }
    // A number.
    let (printed, said) = fed(&folder, &["text", "-"], "20 20\ndef main(w,h){1+2+3;}", 1);
    assert!(printed.is_empty());
    assert!(said.starts_with("error[10]: "), "{said}");
    assert!(said.contains(" --> standard input:2:18 (byte 17)\n"), "{said}");
}

#[test]
fn writes_texts_to_files() {
    let folder = folder("text-files");
    let read = |name: &str| fs::read_to_string(folder.join(name)).unwrap();
    run(&folder, &["text", "-o", "new", "day.sheet"], 0);
    assert_eq!(read("new"), DAY_TEXT);
    assert_eq!(run(&folder, &["text", "-o", "-", "day.sheet"], 0).0, DAY_TEXT.as_bytes());
    // The file itself, which keeps its permissions.
    fs::set_permissions(folder.join("day.sheet"), fs::Permissions::from_mode(0o640)).unwrap();
    run(&folder, &["text", "-o", "day.sheet", "day.sheet"], 0);
    assert_eq!(read("day.sheet"), DAY_TEXT);
    assert_eq!(fs::metadata(folder.join("day.sheet")).unwrap().permissions().mode() & 0o777, 0o640);
    // A folder gets each under its name; what gets a number stays as it is.
    fs::write(folder.join("more/broken"), "def main").unwrap();
    run(&folder, &["text", "-o", "more", "--", "more/day.img", "-day", "wrong", "more/broken"], 1);
    assert_eq!(read("more/day.img"), DAY_TEXT);
    assert_eq!(read("more/-day"), DAY_TEXT);
    assert_eq!(read("more/wrong"), "20 20\ndef main(w,h){\na=1;\n}\n");
    assert_eq!(read("more/broken"), "def main");
    fed(&folder, &["text", "-o", "more", "-"], DAY, 0);
    assert_eq!(read("more/text"), DAY_TEXT);
    assert_eq!(files(&folder), ["-day", "day.sheet", "more", "new", "wrong"]);
}

#[test]
fn tells_which_files_are_not_their_own_text() {
    let folder = folder("text-check");
    let checked = |arguments: &[&str], status: i32| {
        let run = img(&folder, &[&["text", "--check"], arguments].concat()).output().unwrap();
        let text = |bytes| String::from_utf8(bytes).unwrap();
        assert_eq!(run.status.code(), Some(status), "{arguments:?}: {run:?}");
        (text(run.stdout), text(run.stderr))
    };
    let nothing = String::new;
    fs::write(folder.join("text"), DAY_TEXT).unwrap();
    fs::write(folder.join("alone"), "def main(w,h){\na=1;\n}\n").unwrap();
    assert_eq!(checked(&["text", "alone"], 0), (nothing(), nothing()));
    assert_eq!(checked(&["text", "wrong", "alone", "day.sheet"], 1), ("wrong\nday.sheet\n".into(), nothing()));
    for other in [
        DAY_TEXT.replace("20 20", "020 20"),
        DAY_TEXT.replace(";\n}", ";\n }"),
        format!("{DAY_TEXT}\n"),
        DAY_TEXT.trim_end().into(),
        DAY_TEXT.replace("h-9", "(h-9)"),
        DAY_TEXT.replace("h-9", "h-09"),
    ] {
        fs::write(folder.join("other"), other).unwrap();
        assert_eq!(checked(&["other"], 1), ("other\n".into(), nothing()));
    }
    fs::write(folder.join("other"), "def main").unwrap();
    let (printed, said) = checked(&["other", "wrong"], 1);
    assert_eq!(printed, "wrong\n");
    assert!(said.starts_with("error[10]: "), "{said}");
    checked(&["wrong", "none"], 3);
}

#[test]
fn writes_a_file_whole_or_not_at_all() {
    let folder = folder("writes");
    assert!(run(&folder, &["draw", "-o", "day.svg", "day.sheet"], 0).0.is_empty());
    assert_eq!(fs::read(folder.join("day.svg")).unwrap(), picture());

    // A number leaves what is there as it is.
    run(&folder, &["draw", "-o", "day.svg", "wrong"], 1);
    run(&folder, &["draw", "-o", "none.svg", "wrong"], 1);
    assert_eq!(fs::read(folder.join("day.svg")).unwrap(), picture());
    assert_eq!(files(&folder), ["-day", "day.sheet", "day.svg", "more", "wrong"]);

    // What is there is replaced; a device is written to, not replaced.
    fs::write(folder.join("day.svg"), "old").unwrap();
    run(&folder, &["draw", "-o", "day.svg", "day.sheet"], 0);
    assert_eq!(fs::read(folder.join("day.svg")).unwrap(), picture());
    assert_eq!(run(&folder, &["draw", "-o", "/dev/stdout", "day.sheet"], 0).0, picture());
    assert_eq!(run(&folder, &["draw", "-o", "-", "day.sheet"], 0).0, picture());

    // A folder gets NAME.svg, of those that give a picture.
    run(&folder, &["draw", "-o", "more", "day.sheet", "-", "wrong"], 1);
    assert_eq!(files(&folder.join("more")), ["day.img", "day.svg"]);
    fed(&folder, &["draw", "-o", "more", "-"], DAY, 0);
    assert_eq!(files(&folder.join("more")), ["day.img", "day.svg", "picture.svg"]);
}

#[test]
fn counts_shapes() {
    let folder = folder("counts");
    let (printed, _) = run(&folder, &["draw", "--count", "day.sheet", "more/day.img"], 0);
    let counts = "boxes 1, lines 0, ellipses 0, texts 1";
    assert_eq!(String::from_utf8(printed).unwrap(), format!("day.sheet: {counts}\nmore/day.img: {counts}\n"));
    let named = ["draw", "--count", "--name", "flat12", "-"];
    let (printed, _) = fed(&folder, &named, DAY, 0);
    assert_eq!(String::from_utf8(printed).unwrap(), format!("flat12: {counts}\n"));
    let (_, said) = fed(&folder, &named, WRONG, 1);
    assert!(said.contains(" --> flat12:2:15 (byte 14)\n"), "{said}");
    let (printed, _) = run(&folder, &["draw", "--count", "-o", "day.svg", "day.sheet"], 0);
    assert_eq!(String::from_utf8(printed).unwrap(), format!("day.sheet: {counts}\n"));
    assert_eq!(fs::read(folder.join("day.svg")).unwrap(), picture());
    let day = examples("day.img");
    let (printed, _) = run(&folder, &["draw", "--count", "--size", "1080", "400", day.to_str().unwrap()], 0);
    assert!(String::from_utf8(printed).unwrap().ends_with(": boxes 96, lines 10, ellipses 0, texts 12\n"));
}

#[test]
fn grants_are_options() {
    let folder = folder("grants");
    for (arguments, status, begin) in [
        (["--steps", "14"], 1, "error[79]: "),
        (["--steps", "15"], 0, ""),
        (["--shapes", "3"], 1, "error[76]: "),
        (["--shapes", "4"], 0, ""),
        (["--entries", "0"], 0, ""),
        (["--text-bytes", "0"], 0, ""),
        (["--out-bytes", "212"], 1, "error[80]: the picture is longer than the place lent for it; it needs 213 bytes\n"),
        (["--out-bytes", "213"], 0, ""),
        (["--entries", "65536"], 1, "error[71]: "),
        (["--calls", "1"], 0, ""),
        (["--calls", "64"], 0, ""),
        (["--calls", "0"], 1, "error[71]: "),
        (["--calls", "65"], 1, "error[71]: "),
        (["--out-bytes", "18446744073709551615"], 0, ""),
    ] {
        let (printed, said) = run(&folder, &["draw", arguments[0], arguments[1], "day.sheet"], status);
        assert!(said.starts_with(begin), "{arguments:?}: {said}");
        assert_eq!(printed, if status == 0 { picture() } else { Vec::new() }, "{arguments:?}");
    }
    // As many calls as are granted.
    let procedures = examples("day-procedures.img");
    let drawn = |calls: &str, status| {
        let arguments = ["draw", "--size", "1080", "400", "--calls", calls, procedures.to_str().unwrap()];
        run(&folder, &arguments, status)
    };
    assert!(drawn("2", 0).0 == fs::read(examples("day.svg")).unwrap());
    assert!(drawn("1", 1).1.starts_with("error[81]: "));
    // A picture that is longer than what is lent at first.
    let long = Path::new(env!("CARGO_MANIFEST_DIR")).join("../examples/numbers/80.img");
    let (printed, _) = run(&folder, &["draw", "--size", "20", "20", "--out-bytes", "70000", long.to_str().unwrap()], 0);
    assert_eq!(printed.len(), 68_017);
    assert!(printed.ends_with(b"</svg>\n"));
}

#[test]
fn wrong_use_is_2() {
    let folder = folder("use");
    for (arguments, says) in [
        (&[][..], "what shall be done?"),
        (&["paint", "day.sheet"], "`paint` is no command"),
        (&["draw"], "no file is named"),
        (&["check"], "no file is named"),
        (&["text"], "no file is named"),
        (&["text", "--check"], "no file is named"),
        (&["text", "--size", "20", "20", "day.sheet"], "`img text` has no option `--size`"),
        (&["text", "day.sheet", "-o"], "-o needs"),
        (&["text", "--check", "-o", "new", "day.sheet"], "takes no `-o`"),
        (&["text", "day.sheet", "wrong"], "where the texts of day.sheet"),
        (&["text", "-o", "new", "day.sheet", "wrong"], "new is no folder"),
        (&["text", "-o", "more", "more/day.img", "./more/day.img"], "two files would be written to more/day.img"),
        (&["text", "--check", "-", "-"], "`-` is named twice"),
        (&["check", "--steps", "3", "day.sheet"], "no option `--steps`"),
        (&["draw", "--colour", "day.sheet"], "no option `--colour`"),
        (&["draw", "day.sheet", "-o"], "-o needs"),
        (&["draw", "day.sheet", "--size", "20"], "--size needs two numbers"),
        (&["draw", "day.sheet", "--size", "20", "2e1"], "`2e1` is no number"),
        (&["draw", "day.sheet", "--steps", "-1"], "`-1` is no number"),
        (&["draw", "day.sheet", "more/day.img"], "`-o FOLDER`"),
        (&["draw", "-o", "day.svg", "day.sheet", "more/day.img"], "day.svg is no folder"),
        (&["draw", "-o", "more", "day.sheet", "more/day.img"], "two files would be written to more/day.svg"),
        (&["draw", "--count", "-", "-"], "`-` is named twice"),
    ] {
        let (printed, said) = run(&folder, arguments, 2);
        assert!(printed.is_empty(), "{arguments:?}");
        assert!(said.contains(says), "{arguments:?}: {said}");
    }
    assert_eq!(files(&folder), ["-day", "day.sheet", "more", "wrong"]);
    assert_eq!(files(&folder.join("more")), ["day.img"]);
}

#[test]
fn what_cannot_be_read_or_written_is_3() {
    let folder = folder("failures");
    assert!(run(&folder, &["draw", "no.sheet"], 3).1.starts_with("img: no.sheet: "));
    assert!(run(&folder, &["check", "more"], 3).1.starts_with("img: more: "));
    assert!(run(&folder, &["draw", "-o", "no/day.svg", "day.sheet"], 3).1.starts_with("img: no/day.svg: "));
    run(&folder, &["draw", "-o", "/dev/full", "day.sheet"], 3);
    assert!(run(&folder, &["text", "more"], 3).1.starts_with("img: more: "));
    run(&folder, &["text", "-o", "/dev/full", "day.sheet"], 3);
    run(&folder, &["draw", "--count", "wrong", "no.sheet", "day.sheet"], 3);

    let full = || OpenOptions::new().write(true).open("/dev/full").unwrap();
    for arguments in [
        &["draw", "day.sheet"][..],
        &["check", "day.sheet"],
        &["text", "day.sheet"],
        &["text", "--check", "day.sheet"],
        &["--help"],
        &["--version"],
    ] {
        let (_, said) = ended(img(&folder, arguments).stdout(full()).output().unwrap(), 3);
        assert!(said.starts_with("img: standard output: "), "{said}");
    }
    // A pipe that nobody reads.
    let (reading, writing) = std::io::pipe().unwrap();
    drop(reading);
    ended(img(&folder, &["draw", "day.sheet"]).stdout(writing).output().unwrap(), 3);
    // Standard output or input that is closed.
    let closed = |redirected: &str| {
        let line = format!("{} draw {redirected}", env!("CARGO_BIN_EXE_img"));
        let shell = Command::new("sh").args(["-c", &line]).current_dir(&folder).output().unwrap();
        ended(shell, 3).1
    };
    assert_eq!(closed("day.sheet >&-"), "img: standard output: it is closed\n");
    assert_eq!(closed("- <&-"), "img: standard input: it is closed\n");
    // Standard error that cannot be written changes no status.
    let run = img(&folder, &["draw", "wrong"]).stderr(full()).output().unwrap();
    assert_eq!(run.status.code(), Some(1));
    // An output that can only be read.
    let read = File::open(folder.join("wrong")).unwrap();
    ended(img(&folder, &["draw", "day.sheet"]).stdout(read).output().unwrap(), 3);
    assert_eq!(files(&folder), ["-day", "day.sheet", "more", "wrong"]);
}

#[test]
fn help_and_version() {
    let folder = folder("help");
    for arguments in [&["--help"][..], &["-h"], &["help"], &["draw", "--help"], &["text", "--help"]] {
        let help = String::from_utf8(run(&folder, arguments, 0).0).unwrap();
        assert!(help.contains("img draw [OPTION]... FILE..."), "{help}");
        assert!(help.lines().all(|line| line.len() <= 100), "{help}");
    }
    let header = fs::read_to_string(Path::new(env!("CARGO_MANIFEST_DIR")).join("../include/img.h")).unwrap();
    let version = header.lines().find_map(|line| line.strip_prefix("#define IMG_VERSION ")).unwrap();
    assert_eq!(run(&folder, &["--version"], 0).0, format!("img {}\n", version.trim_matches('"')).as_bytes());
    assert_eq!(img::VERSION, env!("CARGO_PKG_VERSION"));
}

/// Colours only on a terminal, and not with NO_COLOR: `script` lends a terminal.
#[test]
fn colours_on_a_terminal() {
    let folder = folder("colours");
    assert!(!run(&folder, &["draw", "wrong"], 1).1.contains('\x1b'));
    let on_terminal = |no_colour: &str| {
        let mut script = Command::new("script");
        script.args(["-qec", concat!(env!("CARGO_BIN_EXE_img"), " draw wrong"), "/dev/null"]).current_dir(&folder);
        script.env("TERM", "xterm").env("NO_COLOR", no_colour).stdin(Stdio::null());
        script.output().ok().map(|run| String::from_utf8_lossy(&run.stdout).contains("\x1b[1;31merror[50]\x1b[0m"))
    };
    match (on_terminal(""), on_terminal("1")) {
        (None, _) => eprintln!("skipped: no `script`"),
        seen => assert_eq!(seen, (Some(true), Some(false))),
    }
}
