//! Draws a grammar that it reads on standard input: what belongs to what, with spans and lines.
//!
//!     cargo run --example picture < ../../layouts/pan.pest
//!     cargo run --example picture plain < ../../layouts/tagged.pest

use std::io::{self, Read, Write};
use std::process::ExitCode;

use flascjuvan::{read, Level};

fn main() -> ExitCode {
    let level = match std::env::args().nth(1).as_deref() {
        None => Level::Tagged,
        Some("plain") => Level::Plain,
        Some(_) => {
            eprintln!("usage: picture [plain] < GRAMMAR");
            return ExitCode::from(2);
        }
    };
    let mut text = Vec::new();
    if let Err(why) = io::stdin().take(65537).read_to_end(&mut text) {
        eprintln!("picture: standard input can't be read: {why}");
        return ExitCode::from(2);
    }
    let (shown, status) = match read(&text, level) {
        Ok(grammar) => (grammar.picture().to_string(), ExitCode::SUCCESS),
        Err(refusal) => (format!("{refusal}: {}\n", refusal.meaning()), ExitCode::from(1)),
    };
    match io::stdout().write_all(shown.as_bytes()) {
        Ok(()) => status,
        Err(_) => ExitCode::from(2),
    }
}
