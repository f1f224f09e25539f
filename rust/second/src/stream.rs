//! Tokens as they arrive. Nothing here moves with each byte: after some bytes, the whole-text lexer
//! is asked about texts that begin with them. What it says of all of these is known; all else may
//! yet come out otherwise.
//!
//! All that begin so are too many to ask about, and a few of them tell. What the few don't agree
//! on isn't known, whatever the others say. What they do agree on is known, for this reason:
//!
//! - A character that is cut stands in a literal, a comment or a doc, or it is a fault already. No
//!   rule tells characters above U+007F apart, so any one that begins so will do. Those that begin
//!   with E0 or F0 can't go on with 80; with A0, or with 90, they can.
//! - Then some token or blank may have begun and not be over. If it can still be good, it is so
//!   with the rest of one of `SPECIMENS`, cut where that has come as far; or with nothing more; or,
//!   for a comment, with the line's end and as many `*/` as it needs. So 3 comes in all texts if
//!   it comes in these. Its place is the same in all, since all before it is decided by then.
//! - A token that is over by its own last byte, or by a byte behind it, is in all texts. One that
//!   isn't is a word, a tag, a number or a doc up to the last byte, and another 0 makes it longer.
//!   So a token is in all texts if it is in those with nothing and with 0 behind.

use crate::token::{next, Next, Token};
use crate::{refuse, whole_text, Refusal, BYTES};

/// The numbers in a token's record: kind, start, end.
const TOKEN: usize = 3;

/// What a call answers: 0 and the records in the list so far; or a refusal, and no records.
#[derive(Clone, Copy, Debug, Default, PartialEq, Eq)]
pub struct Answer {
    pub number: u64,
    pub place: u64,
    pub count: usize,
}

/// A text that hasn't ended.
#[derive(Clone, Debug, Default)]
pub struct Feed {
    text: Vec<u8>,
    /// The tokens that are known; the list holds their records.
    held: usize,
    /// The last one's end. What comes behind it doesn't hang on what stands before.
    from: usize,
    refusal: Option<Refusal>,
}

impl Feed {
    /// More bytes of the text. The list is the same in all calls, or one that begins as it does.
    pub fn feed(&mut self, packet: &[u8], list: &mut [u32]) -> Answer {
        let taken = self.refusal.map_or_else(|| self.take(packet, list), Err);
        self.answer(taken)
    }

    /// The text's end. If it is good, another text may begin.
    pub fn end(&mut self, list: &mut [u32]) -> Answer {
        let ended = self.refusal.map_or_else(|| self.finish(list), Err);
        let answer = self.answer(ended);
        if ended.is_ok() {
            *self = Feed::default();
        }
        answer
    }

    fn answer(&mut self, result: Result<(), Refusal>) -> Answer {
        self.refusal = result.err();
        match result {
            Ok(()) => Answer { number: 0, place: 0, count: self.held },
            Err(Refusal { number, place }) => Answer { number, place, count: 0 },
        }
    }

    fn take(&mut self, packet: &[u8], list: &mut [u32]) -> Result<(), Refusal> {
        let old = self.text.len();
        // A byte too many is refused whatever it is, so none behind it is looked at.
        self.text.extend(packet.iter().take(BYTES + 1 - old));
        let room = list.len() / TOKEN;
        if let Ok(tokens) = self.after(self.text.len(), room) {
            self.hold(&tokens, list);
            return Ok(());
        }
        // What all texts have that begin with some bytes, they have with more bytes too. So a fault
        // stays, and halving finds the first byte that shows one.
        let shows = |length: usize| self.after(length, room).is_err();
        let first = least(old + 1, self.text.len(), shows);
        self.after(first, room).map(|_| ())
    }

    fn finish(&mut self, list: &mut [u32]) -> Result<(), Refusal> {
        whole_text(&self.text)?;
        let (tokens, fault) = listed(&self.text, self.from);
        if let Some(place) = fault {
            return refuse(3, place);
        }
        self.fit(&tokens, list.len() / TOKEN)?;
        self.hold(&tokens, list);
        Ok(())
    }

    /// The tokens that become known with this much of the text; or what shows by then, and of what
    /// shows at one byte the first in the order of refusals.
    fn after(&self, length: usize, room: usize) -> Result<Vec<Token>, Refusal> {
        if length > BYTES {
            return refuse(1, 0);
        }
        let (tokens, fault) = common(&mut completed(&self.text[..length])?, self.from);
        if let Some(place) = fault {
            return refuse(3, place);
        }
        self.fit(&tokens, room)?;
        Ok(tokens)
    }

    /// 14 for the first of these that finds the list full.
    fn fit(&self, tokens: &[Token], room: usize) -> Result<(), Refusal> {
        match tokens.get(room.saturating_sub(self.held)) {
            Some(token) => refuse(14, token.start as usize),
            None => Ok(()),
        }
    }

    fn hold(&mut self, tokens: &[Token], list: &mut [u32]) {
        let records = list.chunks_exact_mut(TOKEN).skip(self.held);
        for (record, token) in records.zip(tokens) {
            record.copy_from_slice(&[u32::from(token.kind), token.start, token.end]);
        }
        self.held += tokens.len();
        self.from = tokens.last().map_or(self.from, |token| token.end as usize);
    }
}

/// The least number from `low` to `high` that `holds`, if all above it do, `high` among them.
fn least(mut low: usize, mut high: usize, holds: impl Fn(usize) -> bool) -> usize {
    while low < high {
        let middle = low + (high - low) / 2;
        if holds(middle) {
            high = middle;
        } else {
            low = middle + 1;
        }
    }
    low
}

/// The tokens of a whole text from a place on, up to its end or to 3, which is at the other place.
fn listed(text: &[u8], from: usize) -> (Vec<Token>, Option<usize>) {
    let mut tokens: Vec<Token> = Vec::new();
    loop {
        match next(text, tokens.last().map_or(from, |token| token.end as usize)) {
            Next::Token(token) => tokens.push(token),
            Next::End => return (tokens, None),
            Next::Bad(place) => return (tokens, Some(place)),
        }
    }
}

/// Each beginning of a character becomes one with one of these.
const CHARACTER_ENDS: [&[u8]; 6] =
    [b"", b"\x80", b"\x80\x80", b"\x80\x80\x80", b"\xa0\x80", b"\x90\x80\x80"];

/// A text that begins so and is UTF-8; 2 if there is none.
fn completed(start: &[u8]) -> Result<Vec<u8>, Refusal> {
    let mut text = start.to_vec();
    for end in CHARACTER_ENDS {
        text.truncate(start.len());
        text.extend_from_slice(end);
        if std::str::from_utf8(&text).is_ok() {
            return Ok(text);
        }
    }
    let error = std::str::from_utf8(start).expect_err("no end makes it UTF-8");
    refuse(2, error.valid_up_to())
}

/// One of each of what can't end wherever it likes, but for comments.
const SPECIMENS: [&str; 10] = [
    "-10",
    "'\\x00'",
    "^\"\\x00\"",
    "\r\n",
    "//",
    "..",
    "#a",
    "'\\u{00}'",
    "\"\\u{00}\"",
    "PUSH_LITERAL",
];

/// The tokens that all texts have that begin with this one, from a place on at which all have the
/// same; and the place of 3 if all have one. The text is UTF-8.
fn common(text: &mut Vec<u8>, from: usize) -> (Vec<Token>, Option<usize>) {
    let length = text.len();
    let openers = text[from..].windows(2).filter(|two| two == b"/*").count();
    // What is too many for the comment is `*` and a `///` doc, so that more are no harm.
    let comment_end = ["\n", &"*///\n".repeat(openers)].concat();
    let rests = SPECIMENS.iter().flat_map(|whole| (1..whole.len()).map(move |cut| &whole[cut..]));
    let (mut tokens, mut fault) = listed(text, from);
    for rest in rests.chain([&comment_end[..]]) {
        if tokens.is_empty() && fault.is_none() {
            break;
        }
        text.truncate(length);
        text.extend_from_slice(rest.as_bytes());
        let (other_tokens, other_fault) = listed(text, from);
        let same = tokens.iter().zip(&other_tokens).take_while(|(one, other)| one == other).count();
        tokens.truncate(same);
        fault = fault.and(other_fault);
    }
    (tokens, fault)
}
