//! Pictures and texts as they are written: whole or not at all.

use std::ffi::{OsStr, OsString};
use std::fs::{self, File, OpenOptions};
use std::io::{self, Write};
use std::os::fd::AsFd;
use std::path::{Path, PathBuf};

/// What is written.
#[derive(Clone, Copy)]
pub enum Kind {
    Picture,
    Text,
}

/// Where what a file gave goes: to a file, or into a folder, a picture as NAME.svg and a text under the file's own name.
pub fn path(to: &OsStr, file: &OsStr, kind: Kind) -> PathBuf {
    let to = Path::new(to);
    if !to.is_dir() {
        return to.to_path_buf();
    }
    let from = Path::new(file);
    let named = |name: Option<&OsStr>, nameless: &str| name.filter(|name| *name != "-").unwrap_or(OsStr::new(nameless)).to_os_string();
    let name = match (kind, from.extension().and_then(OsStr::to_str)) {
        (Kind::Text, _) => named(from.file_name(), "text"),
        (Kind::Picture, Some("img" | "sheet")) => svg(named(from.file_stem(), "picture")),
        (Kind::Picture, _) => svg(named(from.file_name(), "picture")),
    };
    to.join(name)
}

fn svg(mut name: OsString) -> OsString {
    name.push(".svg");
    name
}

/// Writes to a new file beside the place, and puts it there once all of it is on the disk. It has the permissions of the file that it replaces. What is there and
/// is no file, a device say, is written to as it is.
pub fn write(path: &Path, bytes: &[u8]) -> io::Result<()> {
    let path = &fs::canonicalize(path).unwrap_or_else(|_| path.to_path_buf());
    let there = fs::metadata(path).ok();
    if there.as_ref().is_some_and(|there| !there.is_file()) {
        return OpenOptions::new().write(true).open(path)?.write_all(bytes);
    }
    let mut name = OsString::from(".");
    name.push(path.file_name().unwrap_or_default());
    name.push(format!(".{}", std::process::id()));
    let beside = path.with_file_name(name);
    let mut file = File::create_new(&beside)?;
    file.write_all(bytes)
        .and_then(|()| there.map_or(Ok(()), |there| file.set_permissions(there.permissions())))
        .and_then(|()| file.sync_all())
        .and_then(|()| fs::rename(&beside, path))
        .inspect_err(|_| drop(fs::remove_file(&beside)))
}

/// Prints on standard output without keeping anything back, so that a failure is seen.
pub fn print(bytes: &[u8]) -> io::Result<()> {
    crate::open::output()?;
    File::from(io::stdout().as_fd().try_clone_to_owned()?).write_all(bytes)
}
