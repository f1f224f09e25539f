//! Tokens of a text that arrives in packets.

use std::fmt;
use std::io::{self, Read};
use std::iter::FusedIterator;

use crate::refusal::judged;
use crate::token::known;
use crate::{raw, Refusal, Token, MAX_TEXT};

/// The numbers of a token's record.
const RECORD: usize = 3;

/// The tokens of a text as it arrives, in packets that are cut anywhere: inside a token, inside a character, empty.
///
/// [`feed`](TokenFeed::feed) gives the tokens whose end is known by then, and [`end`](TokenFeed::end) the one that stood
/// at the text's end. All of them together are what [`tokens`](crate::tokens) gives of the whole text, however it was
/// cut. Their places count from the text's first byte.
///
/// ```
/// use flascjuvan::{TokenFeed, TokenKind};
///
/// let mut feed = TokenFeed::new();
/// let mut kinds = Vec::new();
/// // the ü of "für" is cut
/// for packet in [&b"a = { \"f\xc3"[..], b"", b"\xbcr\" ~ b", b"c }"] {
///     kinds.extend(feed.feed(packet)?.iter().map(|token| token.kind));
/// }
/// assert_eq!(kinds[3..], [TokenKind::String, TokenKind::Tilde, TokenKind::Word, TokenKind::ClosingBrace]);
/// assert!(feed.end()?.is_empty());
/// # Ok::<(), flascjuvan::Refusal>(())
/// ```
///
/// A fault is told at the first byte after which no continuation of the text would be free of it, or at the end. The
/// packet in which that byte stands gives no tokens, also none before the fault. Every later call repeats the refusal,
/// until [`reset`](TokenFeed::reset).
///
/// ```
/// use flascjuvan::{Reason, Refusal, TokenFeed};
///
/// let mut feed = TokenFeed::new();
/// assert_eq!(feed.feed(b"size = { \"")?.len(), 3);
/// let refusal = Refusal { reason: Reason::NoToken, place: 11 };
/// assert_eq!(feed.feed(b"a\\q"), Err(refusal)); // no escape begins so, whatever may come
/// assert_eq!(feed.feed(b"\" }"), Err(refusal));
/// assert_eq!(feed.end(), Err(refusal));
/// feed.reset();
/// assert_eq!(feed.feed(b"a = ")?.len(), 2);
/// # Ok::<(), flascjuvan::Refusal>(())
/// ```
///
/// 3 does not wait for a character to be whole. So a text that is not UTF-8 may be refused by 3 here, where
/// [`read`](crate::read) and [`tokens`](crate::tokens) say 2. Where the text is UTF-8 and at most
/// [`MAX_TEXT`] bytes long they say 3 at the same place.
///
/// The list that it lends grows with the text, up to 768 KB for the most tokens that a text can have.
#[derive(Clone, Default)]
pub struct TokenFeed {
    state: [u64; 10],
    /// all records of the text, and room behind them
    list: Vec<u32>,
    /// how many there are
    records: usize,
    /// the tokens of the last call
    given: Vec<Token>,
    refusal: Option<Refusal>,
}

impl TokenFeed {
    /// A feed to which nothing has come.
    pub fn new() -> TokenFeed {
        TokenFeed::default()
    }

    /// Takes the text's next bytes, and gives the tokens whose end is known now.
    ///
    /// The end of a word, a tag or a number is known by the byte behind it, that of a doc by the end of its line, that of
    /// every other token by its own last byte.
    pub fn feed(&mut self, packet: &[u8]) -> Result<&[Token], Refusal> {
        self.make_room(packet.len());
        let answer = raw::feed(&mut self.state, packet, &mut self.list);
        self.take(answer)
    }

    /// Ends the text, and gives the token that stood at its end, if one did. The feed is fresh then, and what is fed next
    /// is another text.
    ///
    /// ```
    /// use flascjuvan::{Token, TokenFeed, TokenKind};
    ///
    /// let mut feed = TokenFeed::new();
    /// assert_eq!(feed.feed(b"pan")?, []);
    /// assert_eq!(feed.end()?, [Token { kind: TokenKind::Word, start: 0, end: 3 }]);
    /// assert_eq!(feed.feed(b"=")?, [Token { kind: TokenKind::Equals, start: 0, end: 1 }]);
    /// # Ok::<(), flascjuvan::Refusal>(())
    /// ```
    pub fn end(&mut self) -> Result<&[Token], Refusal> {
        self.make_room(0);
        let answer = raw::feed_end(&mut self.state, &mut self.list);
        self.take(answer)?;
        self.records = 0;
        Ok(&self.given)
    }

    /// Forgets the text and its refusal, if there was one: what is fed next is another text.
    pub fn reset(&mut self) {
        self.state = [0; 10];
        self.records = 0;
        self.given.clear();
        self.refusal = None;
    }

    /// The refusal that every call repeats, if there was one.
    pub fn refusal(&self) -> Option<Refusal> {
        self.refusal
    }

    /// The tokens of what a reader gives, each as soon as its end is known. What one read gives is a packet, so nothing
    /// waits for a buffer to fill.
    ///
    /// ```
    /// use flascjuvan::{Failure, TokenFeed, TokenKind};
    ///
    /// // a file, a pipe, a serial line
    /// let line = "size = @{ digit{3} }".as_bytes();
    /// for token in TokenFeed::from_reader(line) {
    ///     match token {
    ///         Ok(token) => assert!(token.kind != TokenKind::LineDoc),
    ///         Err(Failure::Refused(refusal)) => println!("{refusal}: {}", refusal.meaning()),
    ///         Err(Failure::Unread(error)) => return Err(error),
    ///     }
    /// }
    /// # Ok::<(), std::io::Error>(())
    /// ```
    pub fn from_reader<R: Read>(reader: R) -> Arriving<R> {
        Arriving { reader, feed: TokenFeed::new(), packet: vec![0; PACKET].into(), next: 0, ended: false }
    }

    /// Makes room for all tokens that so many bytes can end: a token has a byte at least, and one may have stood before
    /// them.
    fn make_room(&mut self, bytes: usize) {
        let room = RECORD * (self.records + bytes + 1).min(MAX_TEXT);
        if self.list.len() < room {
            self.list.resize(room, 0);
        }
    }

    /// The tokens of an answer: those behind the records that there were.
    fn take(&mut self, [number, place, records]: [u64; 3]) -> Result<&[Token], Refusal> {
        self.given.clear();
        self.refusal = judged(number, place).err();
        if let Some(refusal) = self.refusal {
            return Err(refusal);
        }
        let records = records as usize;
        self.given.extend(self.list[RECORD * self.records..RECORD * records].chunks_exact(RECORD).map(token));
        self.records = records;
        Ok(&self.given)
    }
}

/// A record as a token.
fn token(record: &[u32]) -> Token {
    Token { kind: known(record[0].into()), start: record[1] as usize, end: record[2] as usize }
}

/// Without the list, which is long.
impl fmt::Debug for TokenFeed {
    fn fmt(&self, f: &mut fmt::Formatter<'_>) -> fmt::Result {
        let TokenFeed { records, refusal, .. } = self;
        f.debug_struct("TokenFeed").field("tokens", records).field("refusal", refusal).finish_non_exhaustive()
    }
}

/// The most bytes that are asked of a reader at once.
const PACKET: usize = 4096;

/// The tokens of what a reader gives: see [`TokenFeed::from_reader`].
///
/// A refusal is told once, and then there are no more. A failure to read is told too, and the next call reads again, as
/// far as the reader has more to give.
#[derive(Debug)]
pub struct Arriving<R> {
    reader: R,
    feed: TokenFeed,
    packet: Box<[u8]>,
    /// the next of the feed's last tokens
    next: usize,
    ended: bool,
}

impl<R> Arriving<R> {
    /// The reader, which has given as much as was asked for.
    pub fn into_inner(self) -> R {
        self.reader
    }
}

impl<R: Read> Arriving<R> {
    /// Feeds what one read gives, or ends the text.
    fn read(&mut self) -> Result<(), Failure> {
        let bytes = loop {
            match self.reader.read(&mut self.packet) {
                Err(error) if error.kind() == io::ErrorKind::Interrupted => {}
                read => break read.map_err(Failure::Unread)?,
            }
        };
        self.next = 0;
        self.ended = bytes == 0;
        let fed = if self.ended { self.feed.end() } else { self.feed.feed(&self.packet[..bytes]) };
        if let Err(refusal) = fed {
            self.ended = true;
            return Err(Failure::Refused(refusal));
        }
        Ok(())
    }
}

impl<R: Read> Iterator for Arriving<R> {
    type Item = Result<Token, Failure>;

    fn next(&mut self) -> Option<Result<Token, Failure>> {
        loop {
            if let Some(&token) = self.feed.given.get(self.next) {
                self.next += 1;
                return Some(Ok(token));
            }
            if self.ended {
                return None;
            }
            if let Err(failure) = self.read() {
                return Some(Err(failure));
            }
        }
    }
}

impl<R: Read> FusedIterator for Arriving<R> {}

/// Why a reader gave no more tokens.
#[derive(Debug)]
pub enum Failure {
    /// It could not be read.
    Unread(io::Error),
    /// What it gave is refused.
    Refused(Refusal),
}

impl fmt::Display for Failure {
    fn fmt(&self, f: &mut fmt::Formatter<'_>) -> fmt::Result {
        match self {
            Failure::Unread(error) => error.fmt(f),
            Failure::Refused(refusal) => refusal.fmt(f),
        }
    }
}

impl std::error::Error for Failure {}

impl From<Failure> for io::Error {
    fn from(failure: Failure) -> io::Error {
        match failure {
            Failure::Unread(error) => error,
            Failure::Refused(refusal) => io::Error::new(io::ErrorKind::InvalidData, refusal),
        }
    }
}
