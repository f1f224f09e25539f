//! Tokens.

use std::fmt;

use crate::refusal::judged;
use crate::{raw, Refusal};

/// What a token is. Its number is the C interface's.
///
/// As text it is the sign itself in backquotes, or words: `` `~` ``, `negative number`.
#[derive(Clone, Copy, Debug, Eq, Hash, PartialEq)]
#[non_exhaustive]
#[repr(u8)]
pub enum TokenKind {
    /// `=`
    Equals = 1,
    /// `{`
    OpeningBrace = 2,
    /// `}`
    ClosingBrace = 3,
    /// `[`
    OpeningBrack = 4,
    /// `]`
    ClosingBrack = 5,
    /// `(`
    OpeningParen = 6,
    /// `)`
    ClosingParen = 7,
    /// `&`
    Ampersand = 8,
    /// `!`
    Exclamation = 9,
    /// `~`
    Tilde = 10,
    /// `|`
    Bar = 11,
    /// `?`
    Question = 12,
    /// `*`
    Star = 13,
    /// `+`
    Plus = 14,
    /// `,`
    Comma = 15,
    /// `@`
    At = 16,
    /// `$`
    Dollar = 17,
    /// `name`; PUSH, PUSH_LITERAL, PEEK and the mark `_` too
    Word = 18,
    /// `#tag`
    Tag = 19,
    /// `12`
    Number = 20,
    /// `-12`
    NegativeNumber = 21,
    /// `..`
    Dots = 22,
    /// `"string"`
    String = 23,
    /// `^"string"`
    InsensitiveString = 24,
    /// `'c'`
    Character = 25,
    /// `//! about the grammar`
    GrammarDoc = 26,
    /// `/// about the rule below`
    LineDoc = 27,
}

impl TokenKind {
    /// Every kind, by rising number.
    pub const ALL: &'static [TokenKind] = &[
        TokenKind::Equals,
        TokenKind::OpeningBrace,
        TokenKind::ClosingBrace,
        TokenKind::OpeningBrack,
        TokenKind::ClosingBrack,
        TokenKind::OpeningParen,
        TokenKind::ClosingParen,
        TokenKind::Ampersand,
        TokenKind::Exclamation,
        TokenKind::Tilde,
        TokenKind::Bar,
        TokenKind::Question,
        TokenKind::Star,
        TokenKind::Plus,
        TokenKind::Comma,
        TokenKind::At,
        TokenKind::Dollar,
        TokenKind::Word,
        TokenKind::Tag,
        TokenKind::Number,
        TokenKind::NegativeNumber,
        TokenKind::Dots,
        TokenKind::String,
        TokenKind::InsensitiveString,
        TokenKind::Character,
        TokenKind::GrammarDoc,
        TokenKind::LineDoc,
    ];

    /// Its number, 1 to 27.
    pub fn number(self) -> u64 {
        self as u64
    }

    /// The kind that has this number.
    pub fn from_number(number: u64) -> Option<TokenKind> {
        TokenKind::ALL.iter().copied().find(|kind| kind.number() == number)
    }
}

impl fmt::Display for TokenKind {
    fn fmt(&self, f: &mut fmt::Formatter<'_>) -> fmt::Result {
        f.pad(match self {
            TokenKind::Equals => "`=`",
            TokenKind::OpeningBrace => "`{`",
            TokenKind::ClosingBrace => "`}`",
            TokenKind::OpeningBrack => "`[`",
            TokenKind::ClosingBrack => "`]`",
            TokenKind::OpeningParen => "`(`",
            TokenKind::ClosingParen => "`)`",
            TokenKind::Ampersand => "`&`",
            TokenKind::Exclamation => "`!`",
            TokenKind::Tilde => "`~`",
            TokenKind::Bar => "`|`",
            TokenKind::Question => "`?`",
            TokenKind::Star => "`*`",
            TokenKind::Plus => "`+`",
            TokenKind::Comma => "`,`",
            TokenKind::At => "`@`",
            TokenKind::Dollar => "`$`",
            TokenKind::Word => "word",
            TokenKind::Tag => "tag",
            TokenKind::Number => "number",
            TokenKind::NegativeNumber => "negative number",
            TokenKind::Dots => "`..`",
            TokenKind::String => "string",
            TokenKind::InsensitiveString => "`^` string",
            TokenKind::Character => "character literal",
            TokenKind::GrammarDoc => "`//!` doc",
            TokenKind::LineDoc => "`///` doc",
        })
    }
}

/// A token of a text: its kind, and its bytes from `start` to `end`.
#[derive(Clone, Copy, Debug, Eq, Hash, PartialEq)]
pub struct Token {
    /// What it is.
    pub kind: TokenKind,
    /// Its first byte.
    pub start: usize,
    /// The byte after its last.
    pub end: usize,
}

/// The bytes that are lent first for a token.
pub(crate) const WINDOW: usize = 256;

/// All tokens of a text, each looked for in a window of so many bytes first.
pub(crate) fn listed(text: &[u8], window: usize) -> Result<Vec<Token>, Refusal> {
    // 1 and 2 are about the whole text; the last call would find them too, but after listing all of it
    let [number, place, ..] = raw::next_token(text, text.len());
    judged(number, place)?;
    let mut tokens = Vec::new();
    let mut at = 0;
    while let Some(token) = next(text, at, window)? {
        at = token.end;
        tokens.push(token);
    }
    Ok(tokens)
}

/// The token from a place on.
///
/// Each call of the library looks for 1 and 2 in all that is lent, so that lending the whole text for each token takes
/// seconds for a large one. What ends inside a window is the same token in the whole text, since tokens and comments are
/// decided by their bytes and the one behind them, or two if those are CR LF. Whatever else a window answers is asked
/// again of the whole.
fn next(text: &[u8], at: usize, window: usize) -> Result<Option<Token>, Refusal> {
    let rest = &text[at..];
    let lent = &rest[..window.min(rest.len())];
    let [number, _, kind, start, end] = raw::next_token(lent, 0);
    if number == 0 && kind != 0 && (end as usize) < lent.len() {
        return Ok(Some(Token { kind: known(kind), start: at + start as usize, end: at + end as usize }));
    }
    let [number, place, kind, start, end] = raw::next_token(text, at);
    judged(number, place)?;
    if kind == 0 {
        return Ok(None);
    }
    Ok(Some(Token { kind: known(kind), start: start as usize, end: end as usize }))
}

/// The kind of an answer's token.
///
/// # Panics
///
/// By a number that the C interface has not: then another library is linked than the one this crate is for.
pub(crate) fn known(kind: u64) -> TokenKind {
    match TokenKind::from_number(kind) {
        Some(kind) => kind,
        None => panic!(
            "libflascjuvan gave a token of kind {kind}, which this crate doesn't know: is another version linked?"
        ),
    }
}

#[cfg(test)]
mod tests {
    use super::*;

    #[test]
    fn kinds_are_known_by_number() {
        let numbers: Vec<_> = TokenKind::ALL.iter().map(|kind| kind.number()).collect();
        assert_eq!(numbers, (1..=27).collect::<Vec<_>>());
        assert!(TokenKind::ALL.iter().all(|&kind| known(kind.number()) == kind));
        assert_eq!((TokenKind::from_number(0), TokenKind::from_number(28)), (None, None));
    }

    /// The tokens by calls over the whole text.
    fn slowly(text: &[u8]) -> Result<Vec<Token>, Refusal> {
        let mut tokens = Vec::new();
        let mut at = 0;
        loop {
            let [number, place, kind, start, end] = raw::next_token(text, at);
            judged(number, place)?;
            if kind == 0 {
                return Ok(tokens);
            }
            at = end as usize;
            tokens.push(Token { kind: known(kind), start: start as usize, end: at });
        }
    }

    #[test]
    fn windows_change_nothing() {
        let pieces = [
            "a", "PUSH", "_LITERAL", "X", "=", "{", ".", "..", "-", "0", "12", "#", "\"", "\\", "\\\"", "\\u{41}", "'",
            "^", "/", "//", "///", "//!", "/*", "*/", "*", "\r", "\n", "\r\n", " ", "\t", "é", "😀", "%",
        ];
        let mut state = 0x2545_f491_4f6c_dd1d_u64;
        let mut random = move |below: usize| {
            state ^= state << 13;
            state ^= state >> 7;
            state ^= state << 17;
            (state % below as u64) as usize
        };
        let (mut whole, mut refused) = (0, 0);
        for _ in 0..30_000 {
            let text: String = (0..random(12)).map(|_| pieces[random(pieces.len())]).collect();
            let found = slowly(text.as_bytes());
            match &found {
                Ok(tokens) if tokens.len() > 1 => whole += 1,
                Ok(_) => {}
                Err(_) => refused += 1,
            }
            for window in (0..9).chain([WINDOW]) {
                assert_eq!(listed(text.as_bytes(), window), found, "{text:?} by {window}");
            }
        }
        assert!(whole > 1_000 && refused > 1_000, "{whole} {refused}");
        for text in [&b"a\xff"[..], b"\xc3", b"a \"\xe2\x82\"", &[b' '; 65537]] {
            assert_eq!(listed(text, 1), slowly(text));
        }
    }

    #[test]
    #[should_panic(expected = "libflascjuvan gave a token of kind 28, which this crate doesn't know")]
    fn an_unknown_kind_is_told() {
        known(28);
    }
}
