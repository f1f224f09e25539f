//! Colours, as rustc and cargo use them.

use std::env;

#[derive(Clone, Copy, clap::ValueEnum)]
pub enum ColorChoice {
    Auto,
    Always,
    Never,
}

impl ColorChoice {
    /// What to paint with where `auto` means yes for a terminal, unless NO_COLOR is set or the
    /// terminal is a dumb one.
    pub fn paint(self, terminal: bool) -> Paint {
        Paint(match self {
            ColorChoice::Always => true,
            ColorChoice::Never => false,
            ColorChoice::Auto => {
                let unwanted = env::var_os("NO_COLOR").map_or(false, |set| !set.is_empty());
                let dumb = env::var_os("TERM").map_or(false, |term| term == "dumb");
                terminal && !unwanted && !dumb
            }
        })
    }
}

/// Paints, or leaves as it is.
#[derive(Clone, Copy)]
pub struct Paint(bool);

impl Paint {
    /// for tests, and for what has no colour anywhere
    #[cfg(test)]
    pub const PLAIN: Paint = Paint(false);

    fn with(self, code: &str, what: &str) -> String {
        if !self.0 {
            return what.to_owned();
        }
        format!("\x1b[{code}m{what}\x1b[0m")
    }

    pub fn bold(self, what: &str) -> String {
        self.with("1", what)
    }

    /// A refusal, and the caret under its place.
    pub fn red(self, what: &str) -> String {
        self.with("1;31", what)
    }

    /// What a rule takes of a line.
    pub fn green(self, what: &str) -> String {
        self.with("1;32", what)
    }

    /// The rule beside a line that is quoted, and its number.
    pub fn blue(self, what: &str) -> String {
        self.with("1;34", what)
    }
}
