//! The program as people run it: what it writes and where, and its exit status.

mod check;
mod dropped;
mod editions;
mod explain;
mod failures;
mod match_lines;
mod print;
mod same;
mod terminal;
mod tokens;
mod tree;
mod usage;

use std::ffi::OsStr;
use std::fs;
use std::io::Write;
use std::path::{Path, PathBuf};
use std::process::{Command, Output, Stdio};
use std::sync::atomic::{AtomicUsize, Ordering};

/// A folder of its own that the program is run in, so that names of files are short. It goes with
/// the value.
struct Folder(PathBuf);

impl Folder {
    fn new() -> Folder {
        static MADE: AtomicUsize = AtomicUsize::new(0);
        let name =
            format!("command-{}-{}", std::process::id(), MADE.fetch_add(1, Ordering::Relaxed));
        let path = Path::new(env!("CARGO_TARGET_TMPDIR")).join(name);
        fs::create_dir(&path).expect("a folder can be made");
        Folder(path)
    }

    /// A folder with these files.
    fn of(files: &[(&str, &str)]) -> Folder {
        files.iter().fold(Folder::new(), |folder, (name, text)| folder.with(name, text))
    }

    fn with(self, name: impl AsRef<Path>, bytes: impl AsRef<[u8]>) -> Folder {
        fs::write(self.0.join(name), bytes).expect("a file can be written");
        self
    }

    /// The program, with nothing on standard input and as if no colours had been talked of.
    fn command<S: AsRef<OsStr>>(&self, args: impl IntoIterator<Item = S>) -> Command {
        let mut command = Command::new(env!("CARGO_BIN_EXE_flascjuvan"));
        command.args(args).current_dir(&self.0).stdin(Stdio::null());
        command.env_remove("NO_COLOR").env("TERM", "xterm");
        command
    }

    /// Runs it with arguments that have no blanks in them.
    fn run(&self, args: &str) -> Ran {
        ran(&mut self.command(args.split_whitespace()))
    }

    /// The same, with a text on standard input.
    fn feed(&self, args: &str, text: impl AsRef<[u8]>) -> Ran {
        let mut command = self.command(args.split_whitespace());
        command.stdin(Stdio::piped()).stdout(Stdio::piped()).stderr(Stdio::piped());
        let mut child = command.spawn().expect("the program starts");
        // it may have ended without reading
        let _ = child.stdin.take().expect("a pipe").write_all(text.as_ref());
        Ran::from(child.wait_with_output().expect("the program ends"))
    }
}

impl Drop for Folder {
    fn drop(&mut self) {
        let _ = fs::remove_dir_all(&self.0);
    }
}

/// How a run went: status, standard output, standard error.
#[derive(Debug, Eq, PartialEq)]
struct Ran {
    status: i32,
    out: String,
    err: String,
}

impl From<Output> for Ran {
    fn from(output: Output) -> Ran {
        Ran {
            status: output.status.code().expect("no signal ends it"),
            out: String::from_utf8(output.stdout).expect("what it writes is UTF-8"),
            err: String::from_utf8(output.stderr).expect("what it writes is UTF-8"),
        }
    }
}

fn ran(command: &mut Command) -> Ran {
    Ran::from(command.output().expect("the program starts"))
}

/// What is seen where only standard output is written to.
fn out(status: i32, out: &str) -> Ran {
    Ran { status, out: out.to_owned(), err: String::new() }
}

/// What is seen where only standard error is written to.
fn err(status: i32, err: &str) -> Ran {
    Ran { status, out: String::new(), err: err.to_owned() }
}
