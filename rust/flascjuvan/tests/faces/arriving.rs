//! Tokens of a text that arrives in packets.

use std::io::{self, Read};

use flascjuvan::{raw, tokens, Failure, Reason, Refusal, Token, TokenFeed, TokenKind, MAX_TEXT};

/// All tokens of a text that is fed in such packets.
fn fed<'a>(packets: impl IntoIterator<Item = &'a [u8]>) -> Result<Vec<Token>, Refusal> {
    let mut feed = TokenFeed::new();
    let mut found = Vec::new();
    for packet in packets {
        found.extend_from_slice(feed.feed(packet)?);
    }
    found.extend_from_slice(feed.end()?);
    Ok(found)
}

const TEXTS: [&str; 8] = [
    "a = { \"für\" ~ 'é'..'😀' | ^\"x\\u{41}\"{2, 3} } // end",
    "//! about\r\n/// rule\r\nPUSH_LITERAL = @{ PUSH(b)[-12..0] /* a /* b */ c */ }",
    "",
    " \t\r\n",
    "PUSHx",
    "\"a\\q\"",
    "'ab'",
    "a = { % }",
];

#[test]
fn cut_anywhere() {
    for text in TEXTS {
        let (whole, bytes) = (tokens(text), text.as_bytes());
        assert_eq!(fed([bytes]), whole, "{text:?}");
        assert_eq!(fed(bytes.chunks(1)), whole, "{text:?}");
        for cut in 0..=bytes.len() {
            let (left, right) = bytes.split_at(cut);
            assert_eq!(fed([left, b"", right]), whole, "{text:?} at {cut}");
        }
    }
}

#[test]
fn each_token_as_soon_as_its_end_is_known() {
    let mut feed = TokenFeed::new();
    let mut ends =
        |packet: &[u8]| feed.feed(packet).map(|given| given.iter().map(|token| token.end).collect::<Vec<_>>());
    assert_eq!(ends(b"ab"), Ok(vec![]));
    assert_eq!(ends(b"c="), Ok(vec![3, 4]));
    assert_eq!(ends(b"\"x\""), Ok(vec![7]));
    assert_eq!(ends(b"///d\r"), Ok(vec![]));
    assert_eq!(ends(b"\n"), Ok(vec![11]));
    assert_eq!(ends(b"12"), Ok(vec![]));
    assert_eq!(feed.end(), Ok(&[Token { kind: TokenKind::Number, start: 13, end: 15 }][..]));
}

#[test]
fn a_refusal_shows_at_its_byte_and_is_repeated() {
    let no_token = |place| Refusal { reason: Reason::NoToken, place };
    let not_utf8 = |place| Refusal { reason: Reason::NotUtf8, place };
    let cases: [(&[u8], Refusal); 10] = [
        (b"PUSHx", no_token(0)),
        (b"PUSH_ ", no_token(0)),
        (b"-0 ", no_token(0)),
        (b"'ab", no_token(0)),
        (b"\r ", no_token(0)),
        (b"\"\\u{1}", no_token(1)),
        (b"\xc3", no_token(0)),
        (b"\x80", not_utf8(0)),
        (b"a\xff", not_utf8(1)),
        (b"\"\xe0\x80", not_utf8(1)),
    ];
    for (text, refusal) in cases {
        let mut feed = TokenFeed::new();
        let (last, before) = text.split_last().expect("a byte");
        assert!(feed.feed(before).is_ok(), "{text:?}");
        assert_eq!(feed.refusal(), None);
        assert_eq!(feed.feed(&[*last]), Err(refusal), "{text:?}");
        assert_eq!(feed.feed(b""), Err(refusal));
        assert_eq!(feed.end(), Err(refusal));
        assert_eq!((feed.refusal(), feed.clone().feed(b"a")), (Some(refusal), Err(refusal)));
        feed.reset();
        assert_eq!((feed.refusal(), feed.feed(b"a=").map(<[_]>::len)), (None, Ok(2)));
    }
    assert_eq!(fed([&b"''"[..]]), Err(no_token(0)));
    assert_eq!(fed([&b"\"a\xe2\x82"[..]]), Err(not_utf8(2)));
}

#[test]
fn the_longest_text_has_room() {
    let signs = vec![b'='; MAX_TEXT];
    assert_eq!(fed([&signs[..]]).map(|found| found.len()), Ok(MAX_TEXT));
    assert_eq!(fed(signs.chunks(1)).map(|found| found.len()), Ok(MAX_TEXT));
    let refusal = Refusal { reason: Reason::TooLong, place: 0 };
    assert_eq!(fed([&signs[..], b" "]), Err(refusal));
    assert_eq!(fed([&vec![b'='; 3 * MAX_TEXT][..]]), Err(refusal));
}

#[test]
fn a_lent_list_that_is_full() {
    let (mut state, mut list) = ([0; 10], [7; 5]);
    assert_eq!(raw::feed(&mut state, b"a", &mut list), [0, 0, 0]);
    assert_eq!(raw::feed(&mut state.clone(), b"%", &mut []), [3, 1, 0]);
    assert_eq!(raw::feed(&mut state.clone(), b"=", &mut []), [14, 0, 0]);
    assert_eq!(raw::feed(&mut state, b"=", &mut list), [14, 1, 0]);
    assert_eq!(list, [7; 5], "a refusal changes nothing");
    assert_eq!(raw::feed(&mut state, b" ", &mut [0; 99]), [14, 1, 0]);
    assert_eq!(raw::feed_end(&mut state, &mut [0; 99]), [14, 1, 0]);
    // numbers that no call left are those of a fresh stream
    let mut foreign = [u64::MAX; 10];
    assert_eq!(raw::feed(&mut foreign, b"= ", &mut list), [0, 0, 1]);
    assert_eq!(list, [1, 0, 1, 7, 7]);
}

/// A reader that gives a byte, fails, and so on.
struct Halting<'a>(&'a [u8], bool);

impl Read for Halting<'_> {
    fn read(&mut self, buffer: &mut [u8]) -> io::Result<usize> {
        self.1 = !self.1;
        if self.1 {
            return Err(io::Error::new(io::ErrorKind::WouldBlock, "not yet"));
        }
        self.0.read(&mut buffer[..1])
    }
}

#[test]
fn tokens_of_a_reader() {
    for text in TEXTS {
        let mut arriving = TokenFeed::from_reader(Halting(text.as_bytes(), false));
        let (mut found, mut waits, mut refused) = (Vec::new(), 0, None);
        for token in &mut arriving {
            match token {
                Ok(token) => found.push(token),
                Err(Failure::Unread(error)) => {
                    assert_eq!(error.kind(), io::ErrorKind::WouldBlock);
                    waits += 1;
                }
                Err(Failure::Refused(refusal)) => refused = Some(refusal),
            }
        }
        assert!(arriving.next().is_none());
        match tokens(text) {
            Ok(whole) => assert_eq!((found, waits, refused), (whole, text.len() + 1, None), "{text:?}"),
            Err(refusal) => assert_eq!(refused, Some(refusal), "{text:?}"),
        }
    }
    let long = "a = ".repeat(5_000);
    let found: Result<Vec<_>, Failure> = TokenFeed::from_reader(long.as_bytes()).collect();
    assert_eq!(found.expect("good"), tokens(&long).expect("good"));
}

#[test]
fn failures_in_words() {
    let refused = || TokenFeed::from_reader(&b"a %"[..]).next().expect("a refusal").expect_err("refused");
    assert_eq!(refused().to_string(), "refused 3 at 2");
    let error = io::Error::from(refused());
    assert_eq!((error.kind(), error.to_string()), (io::ErrorKind::InvalidData, "refused 3 at 2".to_owned()));
    let feed = TokenFeed::new();
    assert_eq!(format!("{feed:?}"), "TokenFeed { tokens: 0, refusal: None, .. }");
}
