//! What the call asks for.

use crate::output::{self, Kind};
use img::Grants;
use std::ffi::{OsStr, OsString};
use std::path::Path;

pub const HELP: &str = "\
img draws small programs of the IMG language as SVG.

  img draw [OPTION]... FILE...    print the picture, or say what is wrong
  img check FILE...               say whether each file is well formed; nothing is run
  img text [OPTION]... FILE...    print the drawing in its one text; nothing is run
  img --help, img --version

FILE is a sheet: a line `WIDTH HEIGHT`, then the program. `-` is standard input.
check and text take a program alone too.

Options of draw:
  --size WIDTH HEIGHT   FILE is a program alone, to be drawn at this size
  -o FILE               write the picture to FILE, whole or not at all; into a folder, as NAME.svg.
                        Several files need -o FOLDER or --count
  --count               print how many boxes, lines, ellipses and texts the picture has;
                        the picture itself only with -o
  --steps N             grant N steps           (1000000 if not given)
  --shapes N            grant N shapes          (1024)
  --entries N           grant N table entries   (1024)
  --text-bytes N        grant N bytes for joined strings   (16384)
  --calls N             grant N procedures under way at once, main among them; 64 at most   (64)
  --out-bytes N         the longest picture     (65536 bytes)
  --name NAME           what standard input is called in messages

Options of text:
  -o FILE               write the text to FILE, whole or not at all; that may be the file itself.
                        Into a folder, under the file's name.
                        Several files need -o FOLDER or --check
  --check               write nothing; print the name of each file that is not its own text

  --                    what follows is a file, also if it begins with `-`

Exit status: 0 every file gave its result; 1 one got a number, which is explained on standard error,
or is not its own text (text --check); 2 wrong use; 3 something cannot be read or written.
";

/// What is wanted.
pub enum Wanted {
    Help,
    Version,
    Check(Vec<OsString>),
    Text(Text),
    Draw(Draw),
}

/// What to do with texts.
pub struct Text {
    pub files: Vec<OsString>,
    pub output: Option<OsString>,
    pub check: bool,
}

/// How to draw.
pub struct Draw {
    pub files: Vec<OsString>,
    pub output: Option<OsString>,
    pub size: Option<(i32, i32)>,
    pub count: bool,
    pub name: Option<OsString>,
    pub grants: Grants,
    pub out_bytes: usize,
}

/// Reads the arguments behind the program's name, or says what is wrong with them.
pub fn parse(arguments: impl Iterator<Item = OsString>) -> Result<Wanted, String> {
    let arguments: Vec<OsString> = arguments.collect();
    let before = arguments.iter().position(|a| a == "--").unwrap_or(arguments.len());
    let asked = |name: &str| arguments[..before].iter().any(|a| a == name);
    if asked("--help") || asked("-h") || arguments.first().is_some_and(|a| a == "help") {
        return Ok(Wanted::Help);
    }
    if asked("--version") || asked("-V") {
        return Ok(Wanted::Version);
    }
    let mut rest = arguments.into_iter();
    match rest.next() {
        None => Err("what shall be done?".into()),
        Some(word) if word == "draw" => draw(rest),
        Some(word) if word == "check" => check(rest),
        Some(word) if word == "text" => text(rest),
        Some(word) => Err(format!("`{}` is no command", shown(&word))),
    }
}

fn check(rest: impl Iterator<Item = OsString>) -> Result<Wanted, String> {
    let mut files = Vec::new();
    options(rest, &mut files, |option, _| Err(unknown("check", option)))?;
    Ok(Wanted::Check(files))
}

fn text(rest: impl Iterator<Item = OsString>) -> Result<Wanted, String> {
    let (mut files, mut output, mut check) = (Vec::new(), None, false);
    options(rest, &mut files, |option, values| {
        match option {
            "-o" => output = Some(place(values)?),
            "--check" => check = true,
            _ => return Err(unknown("text", option)),
        }
        Ok(())
    })?;
    if check && output.is_some() {
        return Err("`--check` writes nothing, so it takes no `-o`".into());
    }
    places_differ(&files, output.as_deref(), Kind::Text, check)?;
    Ok(Wanted::Text(Text { files, output, check }))
}

fn draw(rest: impl Iterator<Item = OsString>) -> Result<Wanted, String> {
    let mut wanted =
        Draw { files: Vec::new(), output: None, size: None, count: false, name: None, grants: Grants::IMGDRAW, out_bytes: 65_536 };
    let mut files = Vec::new();
    options(rest, &mut files, |option, values| {
        let grants = &mut wanted.grants;
        match option {
            "-o" => wanted.output = Some(place(values)?),
            "--count" => wanted.count = true,
            "--name" => wanted.name = Some(values.next().ok_or("--name needs a name")?),
            "--size" => wanted.size = Some((number(option, values)?, number(option, values)?)),
            "--steps" => grants.steps = number(option, values)?,
            "--shapes" => grants.shapes = number(option, values)?,
            "--entries" => grants.entries = number(option, values)?,
            "--text-bytes" => grants.text_bytes = number(option, values)?,
            "--calls" => grants.calls = number(option, values)?,
            "--out-bytes" => wanted.out_bytes = number(option, values)?,
            _ => return Err(unknown("draw", option)),
        }
        Ok(())
    })?;
    wanted.files = files;
    places_differ(&wanted.files, wanted.output.as_deref(), Kind::Picture, wanted.count)?;
    Ok(Wanted::Draw(wanted))
}

/// Sorts the arguments into options and files; there must be a file.
fn options<I: Iterator<Item = OsString>>(
    mut rest: I,
    files: &mut Vec<OsString>,
    mut option: impl FnMut(&str, &mut I) -> Result<(), String>,
) -> Result<(), String> {
    while let Some(word) = rest.next() {
        if word == "--" {
            files.extend(&mut rest);
        } else if word != "-" && word.as_encoded_bytes().starts_with(b"-") {
            option(&shown(&word), &mut rest)?;
        } else {
            files.push(word);
        }
    }
    match files.is_empty() {
        true => Err("no file is named; `-` is standard input".into()),
        false => Ok(()),
    }
}

/// Nothing that is written may take the place of another of the same call. Several files are told apart by their names, in a folder or in the lines about them.
fn places_differ(files: &[OsString], output: Option<&OsStr>, kind: Kind, told: bool) -> Result<(), String> {
    let [first, others @ ..] = files else {
        return Ok(());
    };
    let stdin = |file: &&OsString| *file == "-";
    if files.iter().filter(stdin).count() > 1 {
        return Err("`-` is named twice, and standard input can be read once".into());
    }
    if others.is_empty() {
        return Ok(());
    }
    match output {
        None if told => Ok(()),
        Some(folder) if Path::new(folder).is_dir() => {
            let mut names: Vec<_> = files.iter().map(|f| output::path(folder, f, kind)).collect();
            names.sort();
            match names.windows(2).find(|pair| pair[0] == pair[1]) {
                Some(pair) => Err(format!("two files would be written to {}", pair[0].display())),
                None => Ok(()),
            }
        }
        Some(other) => Err(format!("several files are named, and {} is no folder", shown(other))),
        None => {
            let what = match kind {
                Kind::Picture => "pictures",
                Kind::Text => "texts",
            };
            Err(format!("several files are named: `-o FOLDER` says where the {what} of {} and the others go", shown(first)))
        }
    }
}

/// The next argument as a place to write to.
fn place(values: &mut impl Iterator<Item = OsString>) -> Result<OsString, String> {
    values.next().ok_or("-o needs a file or a folder".into())
}

/// The next argument as a number.
fn number<T: std::str::FromStr>(option: &str, values: &mut impl Iterator<Item = OsString>) -> Result<T, String> {
    let needs = match option {
        "--size" => "--size needs two numbers, width and height",
        _ => "needs a number",
    };
    let value = values.next().ok_or_else(|| format!("{option} {needs}"))?;
    let parsed = value.to_str().and_then(|text| text.parse().ok());
    parsed.ok_or_else(|| format!("{option}: `{}` is no number that it takes", shown(&value)))
}

fn unknown(command: &str, option: &str) -> String {
    format!("`img {command}` has no option `{option}`")
}

fn shown(word: &OsStr) -> String {
    word.to_string_lossy().into_owned()
}
