//! Strings and characters as the grammar writes them. The proved printer writes them, so that there is one rule for it.

use crate::{ast, print, Expr, MAX_TEXT};

/// A string in its quotes.
pub(crate) fn string(s: &str) -> String {
    let mut literal = String::with_capacity(s.len() + 2);
    literal.push('"');
    let mut left = s;
    while !left.is_empty() {
        let (piece, rest) = left.split_at(piece(left));
        let quoted = printed(Expr::Str(piece.to_owned()));
        literal.push_str(&quoted[1..quoted.len() - 1]);
        left = rest;
    }
    literal.push('"');
    literal
}

/// A character in its quotes.
pub(crate) fn character(c: char) -> String {
    let range = printed(Expr::Range(c, c));
    let twice = range.len() - "(..)".len();
    range[1..1 + twice / 2].to_owned()
}

/// How much of a string goes to the printer at a time, which takes names and strings of at most 65,536 bytes.
fn piece(s: &str) -> usize {
    let mut end = s.len().min(MAX_TEXT / 2);
    while !s.is_char_boundary(end) {
        end -= 1;
    }
    end
}

fn printed(leaf: Expr) -> String {
    ast::printed_by(print, &leaf).expect("any string and any character can be printed")
}
