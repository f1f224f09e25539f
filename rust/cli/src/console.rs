//! What the program writes, and with which status it ends.

use std::io::{self, ErrorKind, Write};
use std::os::raw::c_int;
use std::os::unix::io::AsRawFd;

use flascjuvan::Refusal;

use crate::closed;
use crate::input::Text;
use crate::paint::{ColorChoice, Paint};
use crate::refusal;

/// How it went. Of several the worst counts.
#[derive(Clone, Copy, Debug, Eq, Ord, PartialEq, PartialOrd)]
pub enum Status {
    /// nothing to complain of
    Good = 0,
    /// refused, different, would change, would drop
    Bad = 1,
    /// wrong usage, no input, no output
    Failed = 2,
}

/// What a subcommand says of a text, and how that is to be taken.
pub struct Answer(pub String, pub Status);

/// Standard output and standard error, and whether each is coloured.
pub struct Console {
    /// for what is written to standard output
    pub paint: Paint,
    /// for what is written to standard error
    pub err_paint: Paint,
    closed: bool,
}

impl Console {
    pub fn new(choice: ColorChoice) -> Console {
        let out = is_terminal(&io::stdout());
        let err = is_terminal(&io::stderr());
        Console { paint: choice.paint(out), err_paint: choice.paint(out && err), closed: false }
    }

    /// Writes an answer, or to standard error why there is none.
    pub fn tell(&mut self, text: &Text, answer: Result<Answer, Refusal>) -> io::Result<Status> {
        match answer {
            Ok(Answer(said, status)) => {
                self.write(&said)?;
                Ok(status)
            }
            Err(refused) => {
                self.refuse(text, refused);
                Ok(Status::Bad)
            }
        }
    }

    /// Shows a refusal where it isn't what was asked for.
    pub fn refuse(&self, text: &Text, refused: Refusal) {
        self.say(|paint| refusal::shown(text, refused, paint));
    }

    /// Writes to standard error, painted if that is.
    pub fn say(&self, what: impl FnOnce(Paint) -> String) {
        err(&what(self.err_paint));
    }

    /// Whether nobody reads any more.
    pub fn is_closed(&self) -> bool {
        self.closed
    }

    /// Writes a whole answer. If nobody reads any more, nothing is written from then on; the work
    /// is still done, so that the status says how it went.
    pub fn write(&mut self, answer: &str) -> io::Result<()> {
        if self.closed || answer.is_empty() {
            return Ok(());
        }
        closed::stdout_is_open()?;
        let mut out = io::stdout().lock();
        match out.write_all(answer.as_bytes()).and_then(|()| out.flush()) {
            Err(why) if why.kind() == ErrorKind::BrokenPipe => {
                self.closed = true;
                Ok(())
            }
            done => done,
        }
    }
}

/// std's `IsTerminal` is younger than the Rust that Debian 12 has.
fn is_terminal(stream: &impl AsRawFd) -> bool {
    extern "C" {
        fn isatty(descriptor: c_int) -> c_int;
    }
    // SAFETY: it answers every number, and touches no memory of ours.
    unsafe { isatty(stream.as_raw_fd()) == 1 }
}

/// A line to standard error, in the program's name.
pub fn complain(what: &str) {
    err(&format!("flascjuvan: {what}\n"));
}

/// Writes to standard error. If that fails there is nowhere left to say so.
pub fn err(text: &str) {
    let _ = io::stderr().write_all(text.as_bytes());
}
