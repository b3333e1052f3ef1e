//! `img`: checks and draws programs of the IMG language, and writes their one text. Every answer is the proved library's; this reads files, writes pictures and
//! texts, and says what a number means.

mod arguments;
mod input;
mod likely;
mod message;
mod open;
mod output;
mod tokens;

use arguments::{Draw, Text, Wanted};
use img::{Grants, Refusal, Workspace};
use input::Drawing;
use output::Kind;
use std::ffi::{OsStr, OsString};
use std::io::{self, Write};
use std::process::ExitCode;

/// How a file, or the whole call, ended. The greatest of all files is the exit status.
#[derive(Clone, Copy, PartialEq, Eq, PartialOrd, Ord)]
enum Status {
    Done = 0,
    Number = 1,
    Use = 2,
    Failed = 3,
}

/// The library needs stack for each call that it is granted, more than a system may give to a main thread.
fn main() -> ExitCode {
    let stack = Grants::MOST.stack() + (1 << 20);
    let status = match std::thread::Builder::new().stack_size(stack).spawn(run) {
        Ok(thread) => thread.join().unwrap_or(Status::Failed),
        Err(error) => failed("a thread", &error),
    };
    ExitCode::from(status as u8)
}

fn run() -> Status {
    match arguments::parse(std::env::args_os().skip(1)) {
        Ok(Wanted::Help) => print(arguments::HELP.as_bytes()),
        Ok(Wanted::Version) => print(format!("img {}\n", img::VERSION).as_bytes()),
        Ok(Wanted::Check(files)) => worst(&files, check()),
        Ok(Wanted::Text(wanted)) => worst(&wanted.files, text(&wanted)),
        Ok(Wanted::Draw(wanted)) => worst(&wanted.files, draw(&wanted)),
        Err(complaint) => {
            say(&format!("img: {complaint}\nTry `img --help`.\n"));
            Status::Use
        }
    }
}

/// The worst of what becomes of each file.
fn worst(files: &[OsString], mut one: impl FnMut(&OsStr) -> Status) -> Status {
    files.iter().fold(Status::Done, |all, file| all.max(one(file)))
}

/// Says whether each file is well formed.
fn check() -> impl FnMut(&OsStr) -> Status {
    let mut workspace = Workspace::new(Grants::IMGDRAW);
    move |file| {
        let drawing = match Drawing::read(file) {
            Ok(drawing) => drawing.sheet(),
            Err(error) => return failed(&input::shown(file), &error),
        };
        match workspace.check(drawing.program()) {
            Ok(()) => print(format!("{}: well formed\n", input::shown(file)).as_bytes()),
            Err(refusal) => refused(&drawing, &refusal),
        }
    }
}

/// Writes each file in its one text, or names it if it is written otherwise. The text of a sheet is a sheet again.
fn text(wanted: &Text) -> impl FnMut(&OsStr) -> Status + '_ {
    let mut workspace = Workspace::new(Grants::IMGDRAW);
    move |file| {
        let drawing = match Drawing::read(file) {
            Ok(drawing) => drawing.sheet(),
            Err(error) => return failed(&input::shown(file), &error),
        };
        let text = match workspace.text_string(drawing.program()) {
            Ok(text) => drawing.line() + &text,
            Err(refusal) => return refused(&drawing, &refusal),
        };
        match wanted.check {
            false => put(wanted.output.as_deref(), file, Kind::Text, text.as_bytes()),
            true if text.as_bytes() == drawing.bytes => Status::Done,
            true => print(format!("{}\n", drawing.name).as_bytes()).max(Status::Number),
        }
    }
}

/// Draws each file, or prints its counts.
fn draw(wanted: &Draw) -> impl FnMut(&OsStr) -> Status + '_ {
    let mut workspace = Workspace::new(wanted.grants);
    move |file| {
        let mut drawing = match Drawing::read(file) {
            Ok(drawing) if wanted.size.is_some() => drawing,
            Ok(drawing) => drawing.sheet(),
            Err(error) => return failed(&input::shown(file), &error),
        };
        if let (true, Some(name)) = (file == "-", &wanted.name) {
            drawing.name = input::shown(name);
        }
        // The library answers 72 for a sheet of 0 by 0, and so for a first line that is none.
        let (width, height) = wanted.size.or(drawing.size()).unwrap_or((0, 0));
        let mut out = Vec::new();
        match workspace.draw_vec(drawing.program(), width, height, wanted.out_bytes, &mut out) {
            Ok(_) => drawn(wanted, &drawing, file, &out),
            Err(refusal) => refused(&drawing, &refusal),
        }
    }
}

/// Puts a picture where it belongs, and prints its counts if they are wanted: then the picture itself only where `-o` says.
fn drawn(wanted: &Draw, drawing: &Drawing, file: &OsStr, picture: &[u8]) -> Status {
    let status = match (&wanted.output, wanted.count) {
        (None, true) => Status::Done,
        (to, _) => put(to.as_deref(), file, Kind::Picture, picture),
    };
    match wanted.count && status == Status::Done {
        true => print(counts(&drawing.name, picture).as_bytes()),
        false => status,
    }
}

/// Puts a whole picture or text where it belongs: to the place that is named, or on standard output.
fn put(to: Option<&OsStr>, file: &OsStr, kind: Kind, bytes: &[u8]) -> Status {
    match to.filter(|to| *to != "-") {
        None => print(bytes),
        Some(to) => {
            let path = output::path(to, file, kind);
            match output::write(&path, bytes) {
                Ok(()) => Status::Done,
                Err(error) => failed(&path.display().to_string(), &error),
            }
        }
    }
}

/// How many shapes of each kind a picture has: each is a line of its own.
fn counts(name: &str, picture: &[u8]) -> String {
    let of = |begin: &str| {
        let lines = picture.split(|byte| *byte == b'\n');
        lines.filter(|line| line.starts_with(begin.as_bytes())).count()
    };
    format!("{name}: boxes {}, lines {}, ellipses {}, texts {}\n", of("<rect "), of("<line "), of("<ellipse "), of("<text "))
}

/// Prints on standard output, all of it and at once.
fn print(bytes: &[u8]) -> Status {
    match output::print(bytes) {
        Ok(()) => Status::Done,
        Err(error) => failed("standard output", &error),
    }
}

fn refused(drawing: &Drawing, refusal: &Refusal) -> Status {
    say(&message::of(drawing, refusal, message::colours()));
    Status::Number
}

fn failed(what: &str, error: &io::Error) -> Status {
    say(&format!("img: {what}: {error}\n"));
    Status::Failed
}

/// Says it on standard error; if that fails, nobody is left to be told.
fn say(text: &str) {
    let _ = io::stderr().write_all(text.as_bytes());
}

#[cfg(test)]
mod tests {
    use super::*;

    /// Messages about drawings that are damaged in any way: none makes the program stop, and each is about one place of the file.
    #[test]
    fn damaged_drawings_get_messages() {
        let mut workspace = Workspace::new(Grants { steps: 5_000, ..Grants::IMGDRAW });
        let whole = include_bytes!("../../examples/drawings/week.img");
        let signs = b"(){}[];,.=+-*/%<>!&\"' \n\r#_5aZ\xc3\xa4\xff";
        let mut seed = 1_u64;
        let mut random = |below: usize| {
            seed = seed.wrapping_mul(6_364_136_223_846_793_005).wrapping_add(1);
            (seed >> 33) as usize % below
        };
        let mut out = [0; 65_536];
        let mut messages = 0;
        for _ in 0..5_000 {
            let mut program = whole.to_vec();
            for _ in 0..1 + random(3) {
                let at = random(program.len());
                match random(4) {
                    0 => drop(program.remove(at)),
                    1 => program.insert(at, signs[random(signs.len())]),
                    2 => program[at] = signs[random(signs.len())],
                    _ => drop(program.drain(at..(at + random(80)).min(program.len()))),
                }
            }
            let drawing = Drawing::of("x", [b"20 20\n", &program[..]].concat()).sheet();
            if let Err(refusal) = workspace.draw(drawing.program(), 20, 20, &mut out) {
                let message = message::of(&drawing, &refusal, message::PLAIN);
                assert!(message.contains("= help: "), "{message}");
                messages += 1;
            }
        }
        assert!(messages > 2_500, "{messages}");
    }
}
