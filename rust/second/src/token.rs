//! Tokens.

use crate::{refuse, whole_text, Refusal};

/// The one-byte tokens; a token's kind is its place here, from 1.
const ONE_BYTE: &[u8; 17] = b"={}[]()&!~|?*+,@$";

pub const EQUALS: u8 = 1;
pub const OPEN_BRACE: u8 = 2;
pub const CLOSE_BRACE: u8 = 3;
pub const OPEN_SQUARE: u8 = 4;
pub const CLOSE_SQUARE: u8 = 5;
pub const OPEN_ROUND: u8 = 6;
pub const CLOSE_ROUND: u8 = 7;
pub const AND: u8 = 8;
pub const NOT: u8 = 9;
pub const TILDE: u8 = 10;
pub const BAR: u8 = 11;
pub const QUESTION: u8 = 12;
pub const STAR: u8 = 13;
pub const PLUS: u8 = 14;
pub const COMMA: u8 = 15;
pub const AT: u8 = 16;
pub const DOLLAR: u8 = 17;
pub const WORD: u8 = 18;
pub const TAG: u8 = 19;
pub const NUMBER: u8 = 20;
pub const NEGATIVE: u8 = 21;
pub const DOTS: u8 = 22;
pub const STRING: u8 = 23;
pub const INSENS: u8 = 24;
pub const CHARACTER: u8 = 25;
pub const GRAMMAR_DOC: u8 = 26;
pub const LINE_DOC: u8 = 27;

/// What the first byte says of a token.
#[derive(Clone, Copy, PartialEq, Eq)]
enum Class {
    Other = 0,
    Blank = 1,
    Letter = 2,
    Digit = 3,
    OneByte = 4,
    Opener = 5,
}

const fn one_byte(byte: u8) -> u8 {
    let mut i = 0;
    while i < ONE_BYTE.len() {
        if ONE_BYTE[i] == byte {
            return i as u8 + 1;
        }
        i += 1;
    }
    0
}

const CLASSES: [Class; 256] = {
    let mut classes = [Class::Other; 256];
    let mut b = 0;
    while b < 256 {
        classes[b] = match b as u8 {
            b' ' | b'\t' | b'\n' => Class::Blank,
            b'A'..=b'Z' | b'a'..=b'z' | b'_' => Class::Letter,
            b'0'..=b'9' => Class::Digit,
            b'"' | b'\'' | b'^' | b'#' | b'.' | b'/' | b'-' | b'\r' => Class::Opener,
            byte if one_byte(byte) != 0 => Class::OneByte,
            _ => Class::Other,
        };
        b += 1;
    }
    classes
};

const KINDS: [u8; 256] = {
    let mut kinds = [0; 256];
    let mut b = 0;
    while b < 256 {
        kinds[b] = one_byte(b as u8);
        b += 1;
    }
    kinds
};

#[derive(Clone, Copy, Debug, PartialEq, Eq)]
pub struct Token {
    pub kind: u8,
    pub start: u32,
    pub end: u32,
}

/// The next token past blanks; or there is none; or the place of what is no token: the backslash
/// of a malformed escape, else the first byte.
#[derive(Clone, Copy, Debug, PartialEq, Eq)]
pub enum Next {
    Token(Token),
    End,
    Bad(usize),
}

/// A call of the lister: 1 and 2 over the whole text, then the next token at or past `at`.
pub fn next_token(text: &[u8], at: usize) -> Result<Option<Token>, Refusal> {
    whole_text(text)?;
    match next(text, at) {
        Next::Token(token) => Ok(Some(token)),
        Next::End => Ok(None),
        Next::Bad(place) => refuse(3, place),
    }
}

fn at(text: &[u8], place: usize) -> Option<u8> {
    text.get(place).copied()
}

/// The next token of a text that is UTF-8.
pub fn next(text: &[u8], place: usize) -> Next {
    let start = match past_blanks(text, place) {
        Ok(start) => start,
        Err(comment) => return Next::Bad(comment),
    };
    if start >= text.len() {
        return Next::End;
    }
    match token(text, start) {
        Ok((kind, end)) => Next::Token(Token { kind, start: start as u32, end: end as u32 }),
        Err(place) => Next::Bad(place),
    }
}

/// Blanks: space, tab, LF, CRLF, comments. An unclosed comment is the error, at its opener.
fn past_blanks(text: &[u8], mut place: usize) -> Result<usize, usize> {
    loop {
        match at(text, place) {
            Some(b' ' | b'\t' | b'\n') => place += 1,
            Some(b'\r') if at(text, place + 1) == Some(b'\n') => place += 2,
            Some(b'/') => match (at(text, place + 1), at(text, place + 2)) {
                (Some(b'*'), _) => place = comment(text, place).ok_or(place)?,
                (Some(b'/'), Some(b'/' | b'!')) => return Ok(place),
                (Some(b'/'), _) => place = line_end(text, place),
                _ => return Ok(place),
            },
            _ => return Ok(place),
        }
    }
}

/// Past the comment that opens at `place`, if it is closed.
fn comment(text: &[u8], mut place: usize) -> Option<usize> {
    let mut open = 0usize;
    loop {
        match (at(text, place)?, at(text, place + 1)) {
            (b'/', Some(b'*')) => {
                open += 1;
                place += 2;
            }
            (b'*', Some(b'/')) => {
                open -= 1;
                place += 2;
                if open == 0 {
                    return Some(place);
                }
            }
            _ => place += 1,
        }
    }
}

/// The place of the LF or CRLF that ends the line, or the text's end.
fn line_end(text: &[u8], mut place: usize) -> usize {
    loop {
        match (at(text, place), at(text, place + 1)) {
            (None, _) | (Some(b'\n'), _) | (Some(b'\r'), Some(b'\n')) => return place,
            _ => place += 1,
        }
    }
}

fn run(text: &[u8], mut place: usize, good: impl Fn(u8) -> bool) -> usize {
    while at(text, place).is_some_and(&good) {
        place += 1;
    }
    place
}

fn in_word(byte: u8) -> bool {
    matches!(CLASSES[byte as usize], Class::Letter | Class::Digit)
}

/// Kind and end of the token whose first byte is at `start`, or the place of its fault. Only a
/// literal can have another place than `start`.
fn token(text: &[u8], start: usize) -> Result<(u8, usize), usize> {
    match CLASSES[text[start] as usize] {
        Class::Other | Class::Blank => Err(start),
        Class::OneByte => Ok((KINDS[text[start] as usize], start + 1)),
        Class::Letter => {
            let end = run(text, start, in_word);
            let word = &text[start..end];
            let free = !word.starts_with(b"PUSH") || word == b"PUSH" || word == b"PUSH_LITERAL";
            free.then_some((WORD, end)).ok_or(start)
        }
        Class::Digit => Ok((NUMBER, run(text, start, |b| b.is_ascii_digit()))),
        Class::Opener => opened(text, start),
    }
}

fn opened(text: &[u8], start: usize) -> Result<(u8, usize), usize> {
    match text[start] {
        b'"' => Ok((STRING, string(text, start, start)?)),
        b'^' if at(text, start + 1) == Some(b'"') => Ok((INSENS, string(text, start, start + 1)?)),
        b'\'' => Ok((CHARACTER, character(text, start)?)),
        _ => no_literal(text, start).ok_or(start),
    }
}

/// Kind and end of a token with an opener that isn't a literal's.
fn no_literal(text: &[u8], start: usize) -> Option<(u8, usize)> {
    let second = at(text, start + 1);
    match text[start] {
        b'#' if second.is_some_and(|b| CLASSES[b as usize] == Class::Letter) => {
            Some((TAG, run(text, start + 1, in_word)))
        }
        b'.' if second == Some(b'.') => Some((DOTS, start + 2)),
        b'-' => {
            let end = run(text, start + 1, |b| b.is_ascii_digit());
            let digits = &text[start + 1..end];
            digits.iter().any(|b| *b != b'0').then_some((NEGATIVE, end))
        }
        b'/' if second == Some(b'/') => match at(text, start + 2)? {
            b'!' => Some((GRAMMAR_DOC, line_end(text, start))),
            b'/' => Some((LINE_DOC, line_end(text, start))),
            _ => None,
        },
        _ => None,
    }
}

/// The end of the string whose quote is at `quote`, or the place of the fault met first: the
/// backslash of a malformed escape, or `start`, the token's first byte, if no quote closes it.
fn string(text: &[u8], start: usize, quote: usize) -> Result<usize, usize> {
    let mut place = quote + 1;
    loop {
        match at(text, place).ok_or(start)? {
            b'"' => return Ok(place + 1),
            b'\\' => place = escape(text, place).ok_or(place)?.0,
            _ => place += 1,
        }
    }
}

/// The end of the character literal whose quote is at `quote`, or the place of the fault. Only
/// what comes first can be a malformed escape: after it a quote is due, and what stands there
/// instead is one character too many, even a backslash.
fn character(text: &[u8], quote: usize) -> Result<usize, usize> {
    let first = quote + 1;
    let end = match at(text, first).ok_or(quote)? {
        b'\\' => escape(text, first).ok_or(first)?.0,
        byte => first + width(byte),
    };
    if at(text, end) != Some(b'\'') {
        return Err(quote);
    }
    Ok(end + 1)
}

/// The bytes of a character, by its first.
pub(crate) fn width(first: u8) -> usize {
    match first {
        0..=0x7f => 1,
        0x80..=0xdf => 2,
        0xe0..=0xef => 3,
        0xf0..=0xff => 4,
    }
}

/// The end and the value of the escape whose backslash is at `place`; nothing if it is malformed,
/// for whatever reason, the text's end included.
pub(crate) fn escape(text: &[u8], place: usize) -> Option<(usize, u32)> {
    let hex = |place: usize| (at(text, place)? as char).to_digit(16);
    let value = match at(text, place + 1)? {
        b'"' => '"',
        b'\\' => '\\',
        b'r' => '\r',
        b'n' => '\n',
        b't' => '\t',
        b'0' => '\0',
        b'\'' => '\'',
        b'x' => return Some((place + 4, hex(place + 2)? * 16 + hex(place + 3)?)),
        b'u' if at(text, place + 2)? == b'{' => {
            let digits = place + 3;
            let mut end = digits;
            let mut value = 0;
            while let Some(digit) = hex(end) {
                if end - digits == 6 {
                    return None;
                }
                value = value * 16 + digit;
                end += 1;
            }
            return (end - digits >= 2 && at(text, end)? == b'}').then_some((end + 1, value));
        }
        _ => return None,
    };
    Some((place + 2, value as u32))
}
