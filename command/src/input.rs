//! Files as they are read.

use std::ffi::OsStr;
use std::fs::File;
use std::io::{self, Read};

/// No first line is longer: two numbers of ten digits, a blank and a linefeed.
const LONGEST_LINE: usize = 22;

/// A file, and where its program begins.
pub struct Drawing {
    pub name: String,
    pub bytes: Vec<u8>,
    /// Where the program begins.
    pub start: usize,
    size: Option<(i32, i32)>,
    /// Whether a first line was looked for.
    pub is_sheet: bool,
}

impl Drawing {
    /// Reads a file, or standard input for `-`: as much as decides the answer, for 73 is asked before anything of a longer one is looked at.
    pub fn read(file: &OsStr) -> io::Result<Drawing> {
        let mut bytes = Vec::new();
        let most = (LONGEST_LINE + img::MOST_PROGRAM + 1) as u64;
        match file == "-" {
            true => {
                crate::open::input()?;
                io::stdin().lock().take(most).read_to_end(&mut bytes)?
            }
            false => File::open(file)?.take(most).read_to_end(&mut bytes)?,
        };
        Ok(Drawing::of(&shown(file), bytes))
    }

    /// A program alone.
    pub fn of(name: &str, bytes: Vec<u8>) -> Drawing {
        Drawing { name: name.into(), bytes, start: 0, size: None, is_sheet: false }
    }

    /// The same as a sheet: if its first line is one of width and height, the program stands behind it. No program begins with a digit.
    pub fn sheet(mut self) -> Drawing {
        self.is_sheet = true;
        if let Some((size, start)) = first_line(&self.bytes) {
            self.size = Some(size);
            self.start = start;
        }
        self
    }

    /// Width and height from the first line.
    pub fn size(&self) -> Option<(i32, i32)> {
        self.size
    }

    /// The first line as it is written, without leading zeros; nothing of a program alone.
    pub fn line(&self) -> String {
        self.size.map_or(String::new(), |(width, height)| format!("{width} {height}\n"))
    }

    pub fn program(&self) -> &[u8] {
        &self.bytes[self.start..]
    }
}

/// Width and height from a sheet's first line, and where the program behind it begins. The form is that of `imgdraw`.
pub fn first_line(bytes: &[u8]) -> Option<((i32, i32), usize)> {
    let end = bytes.iter().take(LONGEST_LINE).position(|byte| *byte == b'\n')?;
    let line = std::str::from_utf8(&bytes[..end]).ok()?;
    let (width, height) = line.split_once(' ')?;
    Some(((side(width)?, side(height)?), end + 1))
}

fn side(text: &str) -> Option<i32> {
    let digits = (1..=10).contains(&text.len()) && text.bytes().all(|byte| byte.is_ascii_digit());
    text.parse().ok().filter(|_| digits)
}

/// A file's name as it is shown: nothing in it can act on a terminal.
pub fn shown(file: &OsStr) -> String {
    match file.to_str() {
        Some("-") => "standard input".into(),
        _ => file.to_string_lossy().replace(char::is_control, "\u{fffd}"),
    }
}
