//! Whether standard input and standard output were open when the program was started.
//!
//! Rust's runtime opens /dev/null in the place of a closed one before `main`: an answer that goes
//! nowhere would then count as written, and no text as an empty one. So both are looked at earlier,
//! by a function that Linux calls before the runtime starts.

use std::io::{self, ErrorKind};
use std::os::raw::c_int;
use std::sync::atomic::{AtomicBool, Ordering};

static CLOSED: [AtomicBool; 2] = [AtomicBool::new(false), AtomicBool::new(false)];

#[cfg(target_os = "linux")]
#[used]
#[link_section = ".init_array"]
static LOOK: extern "C" fn() = look;

#[cfg(target_os = "linux")]
extern "C" fn look() {
    extern "C" {
        fn fcntl(descriptor: c_int, command: c_int, ...) -> c_int;
    }
    const F_GETFD: c_int = 1;
    for (descriptor, closed) in (0..).zip(&CLOSED) {
        // SAFETY: it answers every number, and touches no memory of ours.
        closed.store(unsafe { fcntl(descriptor, F_GETFD) } == -1, Ordering::Relaxed);
    }
}

/// An error where standard input was closed.
pub fn stdin_is_open() -> io::Result<()> {
    is_open(0)
}

/// An error where standard output was closed.
pub fn stdout_is_open() -> io::Result<()> {
    is_open(1)
}

fn is_open(descriptor: usize) -> io::Result<()> {
    match CLOSED[descriptor].load(Ordering::Relaxed) {
        true => Err(io::Error::new(ErrorKind::Other, "it is closed")),
        false => Ok(()),
    }
}
