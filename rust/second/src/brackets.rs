//! The round brackets of a text, for whoever judges a printed one: those of strings aren't among them.

use crate::token::{next, Next, Token, CLOSE_ROUND, OPEN_ROUND};

fn tokens(text: &[u8]) -> impl Iterator<Item = Token> + '_ {
    let mut at = 0;
    std::iter::from_fn(move || {
        let Next::Token(token) = next(text, at) else { return None };
        at = token.end as usize;
        Some(token)
    })
}

/// The places of each pair but those of PUSH and PUSH_LITERAL, in a text in which all are closed.
pub fn pairs(text: &[u8]) -> Vec<(usize, usize)> {
    let (mut found, mut open) = (Vec::new(), Vec::new());
    let mut before: &[u8] = b"";
    for Token { kind, start, end } in tokens(text) {
        let start = start as usize;
        if kind == OPEN_ROUND {
            open.push((before, start));
        } else if kind == CLOSE_ROUND {
            let (word, place) = open.pop().expect("an open bracket");
            if !matches!(word, b"PUSH" | b"PUSH_LITERAL") {
                found.push((place, start));
            }
        }
        before = &text[start..end as usize];
    }
    found
}

/// A text without the two bytes of a pair.
pub fn without(text: &[u8], (open, close): (usize, usize)) -> Vec<u8> {
    [&text[..open], &text[open + 1..close], &text[close + 1..]].concat()
}

/// How many are open at once, at the most.
pub fn depth(text: &[u8]) -> usize {
    let (mut open, mut most) = (0, 0);
    for token in tokens(text) {
        if token.kind == OPEN_ROUND {
            open += 1;
            most = most.max(open);
        } else if token.kind == CLOSE_ROUND {
            open -= 1;
        }
    }
    most
}
