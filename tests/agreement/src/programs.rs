//! The programs in `target/bin`, run on an input.

use std::io::Write;
use std::path::PathBuf;
use std::process::{Child, Command, Stdio};

/// Where a program is: in `target/bin`, or where a variable in capitals, such as `IMGDRAW`, says.
fn path(name: &str) -> PathBuf {
    match std::env::var_os(name.to_uppercase()) {
        Some(other) => PathBuf::from(other),
        None => PathBuf::from(env!("CARGO_MANIFEST_DIR"))
            .join("../../target/bin")
            .join(name),
    }
}

/// Starts a program, with so many kilobytes of stack if that is said.
fn started(name: &str, stack: Option<u32>) -> Child {
    let program = path(name);
    let mut command = match stack {
        None => Command::new(&program),
        Some(kilobytes) => {
            let mut shell = Command::new("sh");
            let line = format!("ulimit -s {kilobytes} && exec \"$0\"");
            shell.arg("-c").arg(line).arg(&program);
            shell
        }
    };
    command
        .stdin(Stdio::piped())
        .stdout(Stdio::piped())
        .stderr(Stdio::piped())
        .spawn()
        .unwrap_or_else(|e| panic!("{}: {e}; `tools/build` builds it", program.display()))
}

/// What a program prints on an input that comes in pieces. It must end well, and with nothing on standard error.
pub fn printed_piecewise<'a>(name: &str, pieces: impl Iterator<Item = &'a [u8]>) -> Vec<u8> {
    let mut child = started(name, None);
    // Programs read what is left of their input, so that the pipe stays open.
    let mut input = child.stdin.take().unwrap();
    for (k, piece) in pieces.enumerate() {
        if k > 0 {
            // Time to read the piece before.
            std::thread::sleep(std::time::Duration::from_millis(10));
        }
        input.write_all(piece).unwrap();
    }
    drop(input);
    let output = child.wait_with_output().unwrap();
    assert!(output.status.success(), "{name}: {}", output.status);
    assert!(
        output.stderr.is_empty(),
        "{name}: {}",
        String::from_utf8_lossy(&output.stderr)
    );
    output.stdout
}

/// What a program prints on an input with so many kilobytes of stack, if it ends well.
pub fn printed_with_stack(name: &str, kilobytes: u32, input: &[u8]) -> Option<Vec<u8>> {
    let mut child = started(name, Some(kilobytes));
    // One that has too little may be gone before it has read anything.
    let _ = child.stdin.take().unwrap().write_all(input);
    let output = child.wait_with_output().unwrap();
    output.status.success().then_some(output.stdout)
}

/// What a program prints on an input.
pub fn printed(name: &str, input: &[u8]) -> Vec<u8> {
    printed_piecewise(name, std::iter::once(input))
}
