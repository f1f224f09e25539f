//! A second reader, printer, token lister (of whole texts and of packets) and line matcher, written
//! from docs' rules alone and with nothing of the product's or of pest's: what it answers can be
//! held beside both.

pub mod arrive;
pub mod brackets;
pub mod broken;
pub mod calls;
pub mod matching;
pub mod pairs;
pub mod print;
pub mod read;
pub mod stream;
pub mod token;

/// The longest text, and the longest store that prints.
pub const BYTES: usize = 65_536;
/// The most nodes.
pub const NODES: usize = 4_096;
/// The most rules.
pub const RULES: usize = 1_024;
/// The most round brackets open at once.
pub const OPEN: usize = 1_024;
/// The most visits of the matcher inside one another.
pub const NESTED: usize = 1_024;
/// The numbers in a node's record: kind, span, p, q, r, line.
pub const NODE_RECORD: usize = 7;
/// The numbers in a rule's record: name, mark, root, the name's span.
pub const RULE_RECORD: usize = 6;

/// A number that the caller sees, and its place.
#[derive(Clone, Copy, Debug, PartialEq, Eq)]
pub struct Refusal {
    pub number: u64,
    pub place: u64,
}

pub(crate) fn refuse<T>(number: u64, place: usize) -> Result<T, Refusal> {
    Err(Refusal { number, place: place as u64 })
}

/// 1 and 2, which come first in the reader and in the lister.
pub(crate) fn whole_text(text: &[u8]) -> Result<(), Refusal> {
    if text.len() > BYTES {
        return refuse(1, 0);
    }
    match std::str::from_utf8(text) {
        Ok(_) => Ok(()),
        Err(error) => refuse(2, error.valid_up_to()),
    }
}

/// A word's spelling: a letter or `_`, then letters, `_` and digits.
pub(crate) fn is_word(bytes: &[u8]) -> bool {
    let letter = |b: &u8| b.is_ascii_alphabetic() || *b == b'_';
    bytes.first().is_some_and(letter) && bytes.iter().all(|b| letter(b) || b.is_ascii_digit())
}
