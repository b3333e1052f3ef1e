//! Whether standard input and output were open when the program began. Rust's runtime puts /dev/null in the place of one that was not, so that a picture
//! would go nowhere without an error; therefore this is asked before the runtime starts.

use std::io;
use std::sync::atomic::{AtomicBool, Ordering::Relaxed};

static OPEN: [AtomicBool; 2] = [AtomicBool::new(true), AtomicBool::new(true)];

extern "C" {
    fn fcntl(descriptor: i32, command: i32, ...) -> i32;
}

#[used]
#[link_section = ".init_array"]
static ASK: extern "C" fn() = ask;

extern "C" fn ask() {
    const F_GETFD: i32 = 1;
    for (descriptor, open) in OPEN.iter().enumerate() {
        // SAFETY: this only reads the flags of a descriptor, and fails for one that is not open.
        open.store(unsafe { fcntl(descriptor as i32, F_GETFD) } != -1, Relaxed);
    }
}

fn was_open(descriptor: usize) -> io::Result<()> {
    match OPEN[descriptor].load(Relaxed) {
        true => Ok(()),
        false => Err(io::Error::other("it is closed")),
    }
}

pub fn input() -> io::Result<()> {
    was_open(0)
}

pub fn output() -> io::Result<()> {
    was_open(1)
}
