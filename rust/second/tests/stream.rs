//! Tokens as they arrive: which byte shows what, where; and what the lent list holds.

use second::arrive::{self, Arrival};
use second::broken;
use second::read::tables;
use second::stream::{Answer, Feed};
use second::token::{self, Next, Token};
use second::Refusal;

/// Numbers enough for any token list here but those of long texts.
const AMPLE: usize = 300;
/// What no record has.
const UNUSED: u32 = 0xffff_ffff;

fn good(count: usize) -> Answer {
    Answer { number: 0, place: 0, count }
}

fn refusal(number: u64, place: usize) -> Answer {
    Answer { number, place: place as u64, count: 0 }
}

fn shown(text: &[u8]) -> String {
    format!("{} {text:02x?}", String::from_utf8_lossy(text))
}

/// Where a fault shows: in a call that feeds, by its number, or in the one that ends.
#[derive(Clone, Copy, Debug, PartialEq, Eq)]
enum When {
    Feed(usize),
    End,
    Never,
}

/// What came of a feed: when the first refusal came, the last answer, and the list.
#[derive(Clone, Debug, PartialEq, Eq)]
struct Outcome {
    when: When,
    answer: Answer,
    list: Vec<u32>,
}

/// Feeds packets, then ends; `lent` gives the list's length for each call. Held in each call: a
/// refusal changes no list, and all calls behind it repeat it; a good call changes only the records
/// that it adds; and after a good end all is as at first.
fn run<'a>(
    feed: &mut Feed,
    packets: impl IntoIterator<Item = &'a [u8]>,
    lent: impl Fn(usize) -> usize,
) -> Outcome {
    let mut outcome = Outcome { when: When::Never, answer: good(0), list: Vec::new() };
    let calls = packets.into_iter().map(Some).chain([None]);
    for (i, packet) in calls.enumerate() {
        let length = lent(i);
        if outcome.list.len() < length {
            outcome.list.resize(length, UNUSED);
        }
        let before = outcome.list.clone();
        let (lent, last) = (&mut outcome.list[..length], outcome.answer);
        let answer = match packet {
            Some(packet) => feed.feed(packet, lent),
            None => feed.end(lent),
        };
        if answer.number == 0 {
            assert_eq!(outcome.when, When::Never);
            assert!(last.count <= answer.count);
            let (old, new) = (3 * last.count, 3 * answer.count);
            assert_eq!(outcome.list[..old], before[..old]);
            assert_eq!(outcome.list[new..], before[new..]);
        } else {
            assert_eq!(outcome.list, before);
            assert!(outcome.when == When::Never || answer == last);
        }
        if answer.number != 0 && outcome.when == When::Never {
            outcome.when = if packet.is_some() { When::Feed(i) } else { When::End };
        }
        outcome.answer = answer;
    }
    if outcome.when != When::Never {
        let mut other = [UNUSED; 5];
        assert_eq!(feed.feed(b"", &mut other), outcome.answer);
        assert_eq!(feed.feed(b"a \"", &mut []), outcome.answer);
        assert_eq!(feed.end(&mut other), outcome.answer);
        assert_eq!(feed.end(&mut []), outcome.answer);
        assert_eq!(other, [UNUSED; 5]);
    }
    outcome
}

/// Each byte a packet, so that the call is the byte.
fn by_bytes(text: &[u8], length: usize) -> Outcome {
    run(&mut Feed::default(), text.chunks(1), |_| length)
}

fn records(tokens: &[Token]) -> Vec<u32> {
    tokens.iter().flat_map(|token| [u32::from(token.kind), token.start, token.end]).collect()
}

/// The whole text's tokens, and the place of 3.
fn listed(text: &[u8]) -> (Vec<Token>, Option<usize>) {
    let (mut tokens, mut place) = (Vec::new(), 0);
    loop {
        match token::next(text, place) {
            Next::Token(token) => {
                place = token.end as usize;
                tokens.push(token);
            }
            Next::End => return (tokens, None),
            Next::Bad(place) => return (tokens, Some(place)),
        }
    }
}

/// The text is good, and its list is this.
fn lists(text: &[u8], wanted: &[[u32; 3]]) {
    let outcome = by_bytes(text, 3 * wanted.len());
    assert_eq!(outcome.when, When::Never, "{}", shown(text));
    assert_eq!(outcome.answer, good(wanted.len()), "{}", shown(text));
    assert_eq!(outcome.list, wanted.concat(), "{}", shown(text));
}

/// With this much room, this byte shows this, and each byte before it nothing.
fn byte_shows(text: &[u8], room: usize, byte: usize, number: u64, place: usize) {
    let outcome = by_bytes(text, 3 * room);
    assert_eq!(outcome.when, When::Feed(byte), "{}", shown(text));
    assert_eq!(outcome.answer, refusal(number, place), "{}", shown(text));
    // The byte's own doing, whatever follows.
    let outcome = by_bytes(&text[..=byte], 3 * room);
    assert_eq!((outcome.when, outcome.answer), (When::Feed(byte), refusal(number, place)));
}

/// With this much room, the end shows this, and no byte anything.
fn end_shows(text: &[u8], room: usize, number: u64, place: usize) {
    let outcome = by_bytes(text, 3 * room);
    assert_eq!(outcome.when, When::End, "{}", shown(text));
    assert_eq!(outcome.answer, refusal(number, place), "{}", shown(text));
}

/// 3, with room enough; the last byte is the one that shows it.
fn last_byte(text: &[u8], place: usize) {
    byte_shows(text, 100, text.len() - 1, 3, place);
}

/// 3 at the end, with room enough.
fn at_end(text: &[u8], place: usize) {
    end_shows(text, 100, 3, place);
}

#[test]
fn good_texts() {
    lists(b"", &[]);
    lists(b" \t\n\r\n// x", &[]);
    lists(b"a={b}", &[[18, 0, 1], [1, 1, 2], [2, 2, 3], [18, 3, 4], [3, 4, 5]]);
    lists(b"a /* \xc3\xa9 */ ~", &[[18, 0, 1], [10, 11, 12]]);
    lists(b"PUSH_LITERAL PUSH", &[[18, 0, 12], [18, 13, 17]]);
    lists(b"#PUSHx7=", &[[19, 0, 7], [1, 7, 8]]);
    lists(b"12a-010..", &[[20, 0, 2], [18, 2, 3], [21, 3, 7], [22, 7, 9]]);
    lists(b"\"\\\"\"^\"\"'''", &[[23, 0, 4], [24, 4, 7], [25, 7, 10]]);
    lists(b"'\\u{d800}''\xe2\x82\xac'", &[[25, 0, 10], [25, 10, 15]]);
    lists(b"//!x\n///\xc3\xa9\r\na", &[[26, 0, 4], [27, 5, 10], [18, 12, 13]]);
    lists(b"///x\ry\r\r\n", &[[27, 0, 7]]);
    lists(b"///x\r", &[[27, 0, 5]]);
    lists(b"//\r\n////", &[[27, 4, 8]]);
    lists(b"/*/**/*/a//", &[[18, 8, 9]]);
}

/// Every way to cut this in four; some of the packets are empty.
#[test]
fn cut_anywhere() {
    let text = "//! é\r\nr=@{^\"\\u{e9}é\"~'😀'..'\\''/*é*/}".as_bytes();
    let wanted = by_bytes(text, AMPLE);
    assert_eq!(wanted.answer, good(11));
    assert_eq!(wanted.list[..33], records(&listed(text).0));
    for a in 0..=text.len() {
        for b in a..=text.len() {
            for c in b..=text.len() {
                let packets = [&text[..a], &text[a..b], &text[b..c], &text[c..]];
                assert_eq!(run(&mut Feed::default(), packets, |_| AMPLE), wanted, "{a} {b} {c}");
            }
        }
    }
}

/// The counts on the way: tokens whose end is known.
#[test]
fn counts() {
    let mut list = [UNUSED; 12];
    let mut feed = Feed::default();
    assert_eq!(feed.feed(b"", &mut list), good(0));
    assert_eq!(feed.feed(b"ab", &mut list), good(0));
    assert_eq!(feed.feed(b"c", &mut list), good(0));
    assert_eq!(list, [UNUSED; 12]);
    assert_eq!(feed.feed(b"=", &mut list), good(2));
    assert_eq!(list[..6], [18, 0, 3, 1, 3, 4]);
    assert_eq!(feed.feed(b"'\\n", &mut list), good(2));
    assert_eq!(feed.feed(b"'", &mut list), good(3));
    assert_eq!(feed.feed(b"", &mut list), good(3));
    assert_eq!(feed.feed(b"///\r", &mut list), good(3));
    assert_eq!(feed.feed(b"\n", &mut list), good(4));
    assert_eq!(feed.end(&mut list), good(4));
    assert_eq!(list, [18, 0, 3, 1, 3, 4, 25, 4, 8, 27, 8, 11]);
    // Fresh: places and records from the beginning.
    assert_eq!(feed.feed(b"b", &mut list), good(0));
    assert_eq!(list, [18, 0, 3, 1, 3, 4, 25, 4, 8, 27, 8, 11]);
    assert_eq!(feed.end(&mut list), good(1));
    assert_eq!(list, [18, 0, 1, 1, 3, 4, 25, 4, 8, 27, 8, 11]);
    assert_eq!(feed.end(&mut list), good(0));
    assert_eq!(feed.end(&mut []), good(0));
}

#[test]
fn no_token() {
    for text in [&b"%"[..], b"\\", b"<", b"\x00", b"\x7f", b":"] {
        last_byte(text, 0);
        last_byte(&[b" a ", text].concat(), 3);
    }
    // Words: at the byte that fits neither PUSH nor PUSH_LITERAL.
    last_byte(b"PUSHx", 0);
    last_byte(b"PUSH1", 0);
    last_byte(b"PUSH_ ", 0);
    last_byte(b"PUSH_l", 0);
    last_byte(b"PUSH__", 0);
    last_byte(b"PUSH_LITERA=", 0);
    last_byte(b"PUSH_LITERAL_", 0);
    last_byte(b"a+PUSHU", 2);
    at_end(b"PUSH_", 0);
    at_end(b"PUSH_LITERA", 0);
    lists(b"PUSH ", &[[18, 0, 4]]);
    lists(b"PUSH_LITERAL", &[[18, 0, 12]]);
    lists(b"PUS_", &[[18, 0, 4]]);
    // Openers without what they want.
    last_byte(b"#1", 0);
    last_byte(b"# ", 0);
    last_byte(b"##", 0);
    at_end(b"a #", 2);
    last_byte(b".a", 0);
    last_byte(b"...a", 2);
    at_end(b"...", 2);
    last_byte(b"-a", 0);
    last_byte(b"--", 0);
    last_byte(b"-0 ", 0);
    last_byte(b"-000.", 0);
    at_end(b"-", 0);
    at_end(b"-00", 0);
    last_byte(b"^'", 0);
    last_byte(b"^ ", 0);
    last_byte(b"^^", 0);
    at_end(b"^", 0);
    last_byte(b"/ ", 0);
    last_byte(b"/!", 0);
    at_end(b"a/", 1);
    // CR.
    last_byte(b"\r ", 0);
    last_byte(b"\r\r", 0);
    last_byte(b"a\r=", 1);
    last_byte(b"\r\n\r/", 2);
    at_end(b"a\r", 1);
}

#[test]
fn comments() {
    at_end(b"/*", 0);
    at_end(b"a /*/", 2);
    at_end(b"/* /* */", 0);
    at_end(b"/**/ /*\xc3\xa9", 5);
    at_end(b"/*/*/*/**/*/", 0);
    last_byte(b"/**/%", 4);
    last_byte(b"/*%*/*/ ", 6);
    last_byte(b"//%\n%", 4);
    lists(b"//%\r%", &[]);
    lists(b"//%\r\n//", &[]);
}

#[test]
fn literals() {
    // A byte that can't go on with an escape: at the backslash.
    last_byte(b"\"\\q", 1);
    last_byte(b"\"a\\\n", 2);
    last_byte(b"^\"\\X", 2);
    last_byte(b"\"\\xg", 1);
    last_byte(b"\"\\x4g", 1);
    last_byte(b"\"\\x4\"", 1);
    last_byte(b"\"\\u4", 1);
    last_byte(b"\"\\u{}", 1);
    last_byte(b"\"\\u{1}", 1);
    last_byte(b"\"\\u{4g", 1);
    last_byte(b"\"\\u{41g", 1);
    last_byte(b"\"\\u{41\"", 1);
    last_byte(b"\"\\u{1234567", 1);
    last_byte(b"'\\q", 1);
    last_byte(b"'\\u{1}", 1);
    last_byte(b"\"\\n\\u{d800}\\\"\\q", 13);
    // Cut by the end: there too.
    for escape in [&b"\\"[..], b"\\x", b"\\x4", b"\\u", b"\\u{", b"\\u{1", b"\\u{123456"] {
        at_end(&[b"\"", escape].concat(), 1);
        at_end(&[b"'", escape].concat(), 1);
        at_end(&[b" ^\"\\n", escape].concat(), 5);
    }
    // Else at the literal's first byte.
    at_end(b"\"", 0);
    at_end(b"\"a\\n", 0);
    at_end(b"a^\"\xc3\xa9", 1);
    at_end(b"'", 0);
    at_end(b"'a", 0);
    at_end(b"''", 0);
    at_end(b"'\\'", 0);
    at_end(b"'\xc3\xa9", 0);
    last_byte(b"'ab", 0);
    last_byte(b"''a", 0);
    last_byte(b"'\\na", 0);
    last_byte(b"'a\\", 0);
    last_byte(b"'\\x411", 0);
    last_byte(b"'\xc3\xa9a", 0);
    last_byte(b"'\xf0\x9f\x98\x80\"", 0);
    lists(b"'''", &[[25, 0, 3]]);
    at_end(b"''''", 3);
}

/// Docs, LF, CRLF and CR; a byte with room for no record shows where the end is known.
#[test]
fn docs() {
    lists(b"///x\r\n", &[[27, 0, 4]]);
    lists(b"//!x\r", &[[26, 0, 5]]);
    lists(b"//!\r!\n", &[[26, 0, 5]]);
    byte_shows(b"///x\n", 0, 4, 14, 0);
    byte_shows(b"///x\r\n", 0, 5, 14, 0);
    byte_shows(b"//!x\r\r\n", 0, 6, 14, 0);
    byte_shows(b"//!x\ry\n", 0, 6, 14, 0);
    end_shows(b"///x\r", 0, 14, 0);
    end_shows(b"///x", 0, 14, 0);
    end_shows(b"///x\ry", 0, 14, 0);
    // A byte that would be none outside.
    lists(b"///%\xc3\xa9\\", &[[27, 0, 7]]);
}

/// 2 at the byte that breaks a character, and where that began.
#[test]
fn not_utf8() {
    let broken: [&[u8]; 21] = [
        b"\x80",
        b"\xbf",
        b"\xc0",
        b"\xc1",
        b"\xf5",
        b"\xff",
        b"\xc3a",
        b"\xc3\xc3",
        b"\xc3\xff",
        b"\xe0\x80",
        b"\xe0\x9f",
        b"\xed\xa0",
        b"\xe2\x82a",
        b"\xe2\x82\"",
        b"\xf0\x8f",
        b"\xf4\x90",
        b"\xf1\x80\xc0",
        b"\xf0\x90\x80\x7f",
        b"\xf4\x8f\xbf\xc2",
        b"\xe1'",
        b"\xdf\n",
    ];
    for bytes in broken {
        for before in [&b"\""[..], b"^\"\\n\xc3\xa9", b"//", b"///", b"//! \r", b"a/* *", b"'"] {
            let text = [before, bytes].concat();
            byte_shows(&text, 100, text.len() - 1, 2, before.len());
        }
    }
    // Cut by the end: there, and before the 3 that comes with it.
    for bytes in [&b"\xc3"[..], b"\xe0", b"\xe0\xa0", b"\xed\x9f", b"\xf0\x90\x80", b"\xf4\x8f"] {
        for before in [&b"\""[..], b"//", b"a ///", b"/*", b"'"] {
            end_shows(&[before, bytes].concat(), 100, 2, before.len());
        }
    }
    byte_shows(b"\x22\xe0\x80", 100, 2, 2, 1);
    byte_shows(b"\x61\xff", 100, 1, 2, 1);
}

/// A character outside literals, comments and docs is 3 at its first byte; but what can't be one
/// is 2, which comes first.
#[test]
fn not_whole() {
    for first in [0xc2, 0xc3, 0xdf, 0xe0, 0xef, 0xf0, 0xf4] {
        byte_shows(&[first], 100, 0, 3, 0);
        byte_shows(&[b'a', first], 100, 1, 3, 1);
        byte_shows(&[b' ', first, b'a'], 100, 1, 3, 1);
        // Instead of the second byte that an opener wants.
        for opener in [b'#', b'.', b'-', b'^', b'/', b'\r'] {
            byte_shows(&[opener, first], 100, 1, 3, 0);
        }
    }
    for first in [0x80, 0xbf, 0xc0, 0xc1, 0xf5, 0xff] {
        byte_shows(&[first], 100, 0, 2, 0);
        byte_shows(&[b'a', first], 100, 1, 2, 1);
        byte_shows(&[b'.', first], 100, 1, 2, 1);
    }
    byte_shows(b"\x27\x61\xc3", 100, 2, 3, 0);
    byte_shows(b"\x27\x27\xe2", 100, 2, 3, 0);
    byte_shows(b"\x27\x61\x80", 100, 2, 2, 2);
    byte_shows(b"\x22\x5c\xc3", 100, 2, 3, 1);
    byte_shows(b"\x22\x5c\x78\xf0", 100, 3, 3, 1);
    byte_shows(b"\x22\x5cu{41\xc3", 100, 6, 3, 1);
    byte_shows(b"\x22\x5c\x80", 100, 2, 2, 2);
    byte_shows(b"PUSH_\xc3", 100, 5, 3, 0);
    byte_shows(b"PUSH\xc3", 100, 4, 3, 4);
    // The reader has 2 for the whole of such a text.
    let text = b"a\xc3=";
    byte_shows(text, 100, 1, 3, 1);
    assert_eq!(tables(text, true), Err(Refusal { number: 2, place: 1 }));
}

/// 14 at a token's start, shown by the byte that makes its end known.
#[test]
fn full() {
    end_shows(b"a", 0, 14, 0);
    end_shows(b" 12", 0, 14, 1);
    end_shows(b"#a", 0, 14, 0);
    end_shows(b"-1", 0, 14, 0);
    end_shows(b"= PUSH", 1, 14, 2);
    byte_shows(b"a ", 0, 1, 14, 0);
    byte_shows(b"a/", 0, 1, 14, 0);
    byte_shows(b"a\r", 0, 1, 14, 0);
    byte_shows(b"ab\"", 0, 2, 14, 0);
    byte_shows(b"PUSH.", 0, 4, 14, 0);
    byte_shows(b" #a1#", 0, 4, 14, 1);
    byte_shows(b"12a", 0, 2, 14, 0);
    byte_shows(b"-01a", 0, 3, 14, 0);
    byte_shows(b"=", 0, 0, 14, 0);
    byte_shows(b"..", 0, 1, 14, 0);
    byte_shows(b"\"\\\"\"", 0, 3, 14, 0);
    byte_shows(b"^\"\"", 0, 2, 14, 0);
    byte_shows(b"'a'", 0, 2, 14, 0);
    byte_shows(b"'''", 0, 2, 14, 0);
    byte_shows(b"'\\u{41}'", 0, 7, 14, 0);
    // One byte ends two tokens.
    byte_shows(b"a=", 0, 1, 14, 0);
    byte_shows(b"a=", 1, 1, 14, 1);
    lists(b"a=", &[[18, 0, 1], [1, 1, 2]]);
    // 2 and 3 come first at one byte, and only there.
    byte_shows(b"a%", 0, 1, 3, 1);
    byte_shows(b"a\xc3", 0, 1, 3, 1);
    byte_shows(b"a\xff", 0, 1, 2, 1);
    byte_shows(b"a\xc3", 1, 1, 3, 1);
    byte_shows(b"a %", 0, 1, 14, 0);
    byte_shows(b"a/ ", 0, 1, 14, 0);
    byte_shows(b"a/ ", 1, 2, 3, 1);
    byte_shows(b"=%", 0, 0, 14, 0);
    byte_shows(b"PUSHx", 0, 4, 3, 0);
    end_shows(b"PUSH_", 0, 3, 0);
    end_shows(b"'a", 0, 3, 0);
    end_shows(b"///\xc3", 0, 2, 3);
    // Blanks want no room.
    assert_eq!(by_bytes(b" /* a= */ // a=", 0).answer, good(0));
}

/// Records are whole ones, and the room is that of the call in which an end becomes known.
#[test]
fn lent_lists() {
    for length in 0..12 {
        let outcome = by_bytes(b"=,+", length);
        let wanted = if length < 9 { refusal(14, length / 3) } else { good(3) };
        assert_eq!(outcome.answer, wanted, "{length}");
        assert_eq!(outcome.list[length / 3 * 3..].len(), length % 3);
        assert!(outcome.list[(length / 3 * 3).min(9)..].iter().all(|number| *number == UNUSED));
    }
    let mut list = [UNUSED; 9];
    let mut feed = Feed::default();
    // Not yet wanted, so not missed.
    assert_eq!(feed.feed(b"a", &mut list[..0]), good(0));
    assert_eq!(feed.feed(b"+", &mut list[..6]), good(2));
    assert_eq!(feed.feed(b"", &mut list[..0]), good(2));
    assert_eq!(feed.feed(b" b", &mut list[..2]), good(2));
    assert_eq!(feed.end(&mut list), good(3));
    assert_eq!(list, [18, 0, 1, 14, 1, 2, 18, 3, 4]);
    // Less than what is held is full for the next token.
    for length in 0..9 {
        let mut feed = Feed::default();
        assert_eq!(feed.feed(b"a+", &mut list), good(2));
        assert_eq!(feed.feed(b"b", &mut list[..length]), good(2));
        assert_eq!(feed.feed(b" ,", &mut list[..length]), refusal(14, 2));
        assert_eq!(feed.end(&mut list), refusal(14, 2));
    }
    // Two numbers are no record.
    let mut feed = Feed::default();
    assert_eq!(feed.feed(b"a", &mut list), good(0));
    assert_eq!(feed.end(&mut list[..2]), refusal(14, 0));
    // All of it is there, and less is lent for the end alone.
    let mut feed = Feed::default();
    assert_eq!(feed.feed(b"a+ ", &mut list), good(2));
    assert_eq!(feed.end(&mut []), good(2));
}

/// In one packet too the byte that shows it first decides, and the order only at one byte.
#[test]
fn the_first_byte_decides() {
    for (text, room, number, place) in [
        (&b"a% \xff"[..], 9, 3, 1),
        (b"a\xff%", 9, 2, 1),
        (b"a\xc3\xff", 9, 3, 1),
        (b"= \xff%", 0, 14, 0),
        (b"a%", 0, 3, 1),
        (b"a %", 0, 14, 0),
        (b"\"\xe0\x80\\q", 9, 2, 1),
        (b"\"\\q\xff", 9, 3, 1),
        (b"'ab\xff\"", 9, 3, 0),
        (b"a=b=", 1, 14, 1),
        (b"a=b=", 2, 14, 2),
        (b"a=b=%", 2, 14, 2),
        (b"a=b%", 2, 3, 3),
    ] {
        for cut in 0..=text.len() {
            let outcome = run(&mut Feed::default(), [&text[..cut], &text[cut..]], |_| 3 * room);
            assert_eq!(outcome.answer, refusal(number, place), "{} {cut}", shown(text));
        }
    }
}

/// Tokens before the fault in the same packet aren't written either.
#[test]
fn a_refused_call_writes_nothing() {
    for (packet, number, place) in
        [(&b"b=%"[..], 3, 5), (b"b=\xff", 2, 5), (b"b=c=d=", 14, 5), (b"b='cd'", 3, 5)]
    {
        let mut list = [UNUSED; 14];
        let mut feed = Feed::default();
        assert_eq!(feed.feed(b"a+ ", &mut list), good(2));
        assert_eq!(feed.feed(packet, &mut list), refusal(number, place));
        assert_eq!(list[..6], [18, 0, 1, 14, 1, 2]);
        assert_eq!(list[6..], [UNUSED; 8]);
        for _ in 0..3 {
            assert_eq!(feed.feed(b"e", &mut [0; 99]), refusal(number, place));
            assert_eq!(feed.end(&mut [0; 99]), refusal(number, place));
        }
    }
    // A refused end too, and the state isn't fresh.
    let mut list = [UNUSED; 5];
    let mut feed = Feed::default();
    assert_eq!(feed.feed(b"a", &mut list), good(0));
    assert_eq!(feed.feed(b"\r", &mut list), good(1));
    assert_eq!(feed.end(&mut list), refusal(3, 1));
    assert_eq!(feed.feed(b"\n", &mut list), refusal(3, 1));
    assert_eq!(feed.end(&mut list), refusal(3, 1));
    assert_eq!(list, [18, 0, 1, UNUSED, UNUSED]);
}

/// The most bytes, and one more.
#[test]
fn long_texts() {
    let run = |text: &[u8], tail: usize, length: usize| {
        let cut = text.len() - tail;
        let packets = std::iter::once(&text[..cut]).chain(text[cut..].chunks(1));
        let outcome = run(&mut Feed::default(), packets, |_| length);
        (outcome.when, outcome.answer)
    };
    let of = |start: &[u8], filler: u8, end: &[u8], bytes: usize| {
        let middle = vec![filler; bytes - start.len() - end.len()];
        [start, &middle, end].concat()
    };
    let most = 65_536;
    for filler in [b' ', b'\n'] {
        assert_eq!(run(&of(b"", filler, b"", most), 5, 0), (When::Never, good(0)));
        let one_more = of(b"", filler, b"", most + 1);
        assert_eq!(run(&one_more, 5, 0), (When::Feed(5), refusal(1, 0)));
        assert_eq!(run(&one_more, 0, 0), (When::Feed(0), refusal(1, 0)));
        assert_eq!(run(&of(b"", filler, b"", 3 * most), 2 * most, 0).1, refusal(1, 0));
    }
    assert_eq!(run(&of(b"", b'=', b"", most), 5, 3 * most), (When::Never, good(most)));
    let short = (When::Feed(5), refusal(14, most - 1));
    assert_eq!(run(&of(b"", b'=', b"", most), 5, 3 * most - 1), short);
    // An open string at the last byte isn't 3 yet.
    assert_eq!(run(&of(b"\"", b'a', b"", most), 5, 3), (When::End, refusal(3, 0)));
    assert_eq!(run(&of(b"\"", b'a', b"\"", most + 1), 5, 3), (When::Feed(5), refusal(1, 0)));
    assert_eq!(run(&of(b"\"", b'a', b"\"", most), 5, 3), (When::Never, good(1)));
    assert_eq!(run(&of(b"\"", b'a', b"\\x4", most), 5, 3), (When::End, refusal(3, most - 3)));
    assert_eq!(run(&of(b"/*", b'*', b"/", most), 5, 3), (When::Never, good(0)));
    assert_eq!(run(&of(b"/*", b'*', b"/", most + 1), 5, 3), (When::Feed(5), refusal(1, 0)));
    assert_eq!(run(&of(b"/*", b'/', b"", most), 5, 3), (When::End, refusal(3, 0)));
    assert_eq!(run(&of(b"", b' ', b"PUSH_", most), 5, 3), (When::End, refusal(3, most - 5)));
    // 1 comes before all others at its byte, and after what shows before it.
    assert_eq!(run(&of(b"", b' ', b"%", most + 1), 5, 3), (When::Feed(5), refusal(1, 0)));
    assert_eq!(run(&of(b"", b' ', b"\xff", most + 1), 5, 3), (When::Feed(5), refusal(1, 0)));
    assert_eq!(run(&of(b"", b' ', b"a ", most + 1), 5, 0), (When::Feed(5), refusal(1, 0)));
    assert_eq!(run(&of(b"", b' ', b"% ", most + 1), 5, 3), (When::Feed(4), refusal(3, most - 1)));
    assert_eq!(run(&of(b"", b' ', b"% ", most + 1), 0, 3), (When::Feed(0), refusal(3, most - 1)));
    assert_eq!(run(&of(b"%", b' ', b"", most + 1), 0, 3), (When::Feed(0), refusal(3, 0)));
    assert_eq!(run(&of(b"//", b' ', b"\xc3", most), 5, 3), (When::End, refusal(2, most - 1)));
    let cut_by_one = of(b"//", b' ', b"\xc3\xa9", most + 1);
    assert_eq!(run(&cut_by_one, 5, 3), (When::Feed(5), refusal(1, 0)));
    // Comments as deep as they get.
    let deep = ["/*".repeat(most / 4), "*/".repeat(most / 4)].concat();
    assert_eq!(run(deep.as_bytes(), 3, 0), (When::Never, good(0)));
    assert_eq!(run(&deep.as_bytes()[..most - 1], 3, 0), (When::End, refusal(3, 0)));
    // What comes after a good one begins anew.
    let mut feed = Feed::default();
    for _ in 0..3 {
        assert_eq!(feed.feed(&of(b"", b' ', b"+", most), &mut [0; 3]), good(1));
        assert_eq!(feed.end(&mut [0; 3]), good(1));
    }
}

/// A text for a message; of a long one its end.
fn told(made: &Arrival) -> String {
    let Arrival { text, ends, lists } = made;
    let end = shown(&text[text.len().saturating_sub(40)..]);
    format!("{} bytes, ends {ends:?}, lists {lists:?}: {end}", text.len())
}

/// Of a good text the whole text's list; and 3 where the lexer and the reader have it.
fn as_a_whole(made: &Arrival, outcome: &Outcome) {
    let (tokens, fault) = listed(&made.text);
    let utf8 = std::str::from_utf8(&made.text).is_ok();
    if outcome.when == When::Never {
        assert_eq!(outcome.answer, good(tokens.len()), "{}", told(made));
        assert_eq!(outcome.list[..3 * tokens.len()], records(&tokens), "{}", told(made));
        assert!(utf8 && fault.is_none() && made.text.len() <= 65_536, "{}", told(made));
    }
    if utf8 && made.text.len() <= 65_536 && outcome.answer.number != 14 {
        let wanted = fault.map_or(good(tokens.len()), |place| refusal(3, place));
        assert_eq!(outcome.answer, wanted, "{}", told(made));
        let read = tables(&made.text, true).err().filter(|refusal| refusal.number == 3);
        assert_eq!(read.map(|refusal| refusal.place as usize), fault, "{}", told(made));
    }
}

/// Which packet is refused, if this byte shows the fault.
fn packet_of(ends: &[usize], when: When) -> When {
    match when {
        When::Feed(byte) => When::Feed(ends.iter().filter(|end| **end <= byte).count()),
        other => other,
    }
}

/// A short text as it was made, and with the same list for all calls: as with single bytes.
fn check(made: &Arrival) -> u64 {
    let outcome = run(&mut Feed::default(), made.packets(), |call| made.lists[call]);
    as_a_whole(made, &outcome);
    for length in [made.lists[0], AMPLE] {
        let alike = run(&mut Feed::default(), made.packets(), |_| length);
        as_a_whole(made, &alike);
        let single = by_bytes(&made.text, length);
        assert_eq!(alike.answer, single.answer, "{}", told(made));
        assert_eq!(alike.when, packet_of(&made.ends, single.when), "{}", told(made));
        if alike.when == When::Never {
            assert_eq!(alike.list, single.list, "{}", told(made));
        }
    }
    outcome.answer.number
}

#[test]
fn random_short_texts() {
    let mut below = broken::random(1);
    let mut counts = [0; 15];
    for _ in 0..300_000 {
        counts[check(&arrive::short(&mut below)) as usize] += 1;
    }
    for number in [0, 2, 3, 14] {
        assert!(counts[number] > 20_000, "{counts:?}");
    }
}

#[test]
fn random_long_texts() {
    let mut below = broken::random(2);
    let mut counts = [0; 15];
    for _ in 0..120 {
        let made = arrive::long(&mut below);
        let outcome = run(&mut Feed::default(), made.packets(), |call| made.lists[call]);
        as_a_whole(&made, &outcome);
        if made.lists.iter().all(|length| *length == made.lists[0]) {
            let once = run(&mut Feed::default(), [&made.text[..]], |_| made.lists[0]);
            assert_eq!(once.answer, outcome.answer, "{}", told(&made));
        }
        counts[outcome.answer.number as usize] += 1;
    }
    for number in [0, 1, 2, 3, 14] {
        assert!(counts[number] > 3, "{counts:?}");
    }
}

/// One state for many texts; a good one leaves nothing behind.
#[test]
fn one_after_the_other() {
    let mut below = broken::random(3);
    let mut feed = Feed::default();
    for _ in 0..50_000 {
        let made = arrive::short(&mut below);
        let outcome = run(&mut feed, made.packets(), |call| made.lists[call]);
        let alone = run(&mut Feed::default(), made.packets(), |call| made.lists[call]);
        assert_eq!(outcome, alone, "{}", told(&made));
        if outcome.when != When::Never {
            feed = Feed::default();
        }
    }
}

/// What all of some texts have: the least and greatest place of 2 and of 3, if each has one, and
/// the tokens with which all begin.
struct Shared {
    two: Option<(usize, usize)>,
    three: Option<(usize, usize)>,
    tokens: Vec<Token>,
}

impl Shared {
    /// Of one text.
    fn one(text: &[u8]) -> Shared {
        let (tokens, fault) = listed(text);
        let broken = std::str::from_utf8(text).err().map(|error| error.valid_up_to());
        Shared { two: broken.map(|p| (p, p)), three: fault.map(|p| (p, p)), tokens }
    }

    fn and(self, other: &Shared) -> Shared {
        let both = |one: Option<(usize, usize)>, other: Option<(usize, usize)>| {
            let (one, other) = (one?, other?);
            Some((one.0.min(other.0), one.1.max(other.1)))
        };
        let mut tokens = self.tokens;
        let same = tokens.iter().zip(&other.tokens).take_while(|(a, b)| a == b).count();
        tokens.truncate(same);
        let (two, three) = (both(self.two, other.two), both(self.three, other.three));
        Shared { two, three, tokens }
    }

    /// What is due once this much is known.
    fn answer(&self, room: usize) -> Answer {
        for (number, places) in [(2, self.two), (3, self.three)] {
            if let Some((least, most)) = places {
                assert_eq!(least, most);
                return refusal(number, least);
            }
        }
        match self.tokens.get(room) {
            Some(token) => refusal(14, token.start as usize),
            None => good(self.tokens.len()),
        }
    }
}

/// All texts of so many pieces are fed, and held against all that go on for so many pieces more.
struct Brute<'a> {
    pieces: &'a [&'a [u8]],
    fed: usize,
    more: usize,
    text: Vec<u8>,
}

const ROOMS: [usize; 4] = [0, 1, 2, 50];

impl Brute<'_> {
    /// The text so far, and all that begin with it.
    fn shared(&mut self, depth: usize, feeds: &[Feed]) -> Shared {
        let own = Shared::one(&self.text);
        for (mut feed, room) in feeds.iter().cloned().zip(ROOMS) {
            if feed.feed(b"", &mut [0; 150]).number == 0 {
                let ended = feed.end(&mut vec![0; 3 * room]);
                assert_eq!(ended, own.answer(room), "{} {room}", shown(&self.text));
            }
        }
        if depth == self.fed + self.more {
            return own;
        }
        let mut all = own;
        for piece in self.pieces {
            let length = self.text.len();
            self.text.extend_from_slice(piece);
            let mut feeds = if depth < self.fed { feeds.to_vec() } else { Vec::new() };
            let mut answers = Vec::new();
            for (feed, room) in feeds.iter_mut().zip(ROOMS) {
                let before = feed.feed(b"", &mut [0; 150]);
                let answer = feed.feed(piece, &mut vec![0; 3 * room]);
                answers.push((room, before, answer));
            }
            let shared = self.shared(depth + 1, &feeds);
            for (room, before, answer) in answers {
                let wanted = if before.number == 0 { shared.answer(room) } else { before };
                assert_eq!(answer, wanted, "{} {room}", shown(&self.text));
            }
            all = all.and(&shared);
            self.text.truncate(length);
        }
        all
    }
}

/// Texts that begin with `stem`, fed for `fed` pieces and followed for `more`.
fn brute(stem: &[u8], pieces: &[&[u8]], fed: usize, more: usize) {
    let mut feeds = vec![Feed::default(); ROOMS.len()];
    for (feed, room) in feeds.iter_mut().zip(ROOMS) {
        assert_eq!(feed.feed(stem, &mut vec![0; 3 * room]), good(0));
    }
    Brute { pieces, fed, more, text: stem.to_vec() }.shared(0, &feeds);
}

fn brute_bytes(stem: &[u8], bytes: &[u8], fed: usize, more: usize) {
    brute(stem, &bytes.chunks(1).collect::<Vec<_>>(), fed, more);
}

#[test]
fn every_short_literal() {
    brute_bytes(b"", b"\"\\x0", 5, 4);
    brute_bytes(b"", b"\"\\u{0}", 4, 5);
    brute_bytes(b"", b"'\\u{0}", 4, 5);
    brute_bytes(b"", b"'\\x0\"", 5, 4);
    brute_bytes(b"\"\\u{0", b"\"0}g", 7, 3);
    brute_bytes(b"'\\u{0", b"'0}g", 7, 3);
    brute_bytes(b"", b"^\"'\\na ", 4, 3);
}

#[test]
fn every_short_blank_and_doc() {
    brute_bytes(b"", b"/*\n", 6, 6);
    brute_bytes(b"", b"/*\na", 5, 5);
    brute_bytes(b"", b"/!\r\na", 6, 2);
    brute_bytes(b"", b"/\r\n =\"", 5, 2);
}

#[test]
fn every_short_word_and_number() {
    brute_bytes(b"", b"-01.#a= ", 4, 2);
    brute(b"", &[b"P", b"USH", b"_", b"LIT", b"ERAL", b"x", b" "], 4, 3);
    brute_bytes(b"PUSH_LIT", b"ERALX1=", 5, 3);
    brute_bytes(b"PUSH_LITER", b"AL", 5, 4);
    brute_bytes(b"PUS", b"H1\xc3\xa9 ", 4, 3);
}

#[test]
fn every_short_character() {
    brute_bytes(b"", b"\xc3\xa9\xe0\xa0\x80\"'", 4, 3);
    brute_bytes(b"", b"\xf0\x90\x80\xed'a", 4, 4);
    brute_bytes(b"", b"/\xc3\xa9\xf4\x80\n\r", 4, 3);
    brute_bytes(b"/*", b"\xf0\x90\x80*/", 3, 7);
    brute_bytes(b"", b"#.^-\r\xc3\xa91a\n\"", 3, 2);
    brute_bytes(b"\"", b"\\\xc3\xa9x0\"", 4, 3);
}

/// All openers together, and what may follow each.
#[test]
fn every_short_mix() {
    brute_bytes(b"", b"\"'^#./-\r\n\\*a1=", 3, 3);
}

/// What begins something, or doesn't.
const STARTS: [&str; 32] = [
    "", "a", "PUSH", "PUSH_", "7", "-", "-0", "-1", ".", "#", "#a", "^", "^\"", "\"", "\"\\",
    "\"\\x", "\"\\x4", "\"\\u", "\"\\u{", "\"\\u{4", "\"\\u{41", "'", "'a", "''", "'\\", "'\\n",
    "/", "//", "///", "//!\r", "/*", "\r",
];
/// What ends it, all by itself or before a quote.
const RESTS: [&str; 18] = [
    "", "\n", "\n*/", "\n*/*/", "/", "a", "1", ".", "\"", "LITERAL", "ITERAL", "n", "{00}", "00}",
    "0}", "}", "00", "0",
];

/// Every byte after every start, against what ends it.
#[test]
fn every_byte() {
    let ends: [&[u8]; 6] =
        [b"", b"\x80", b"\x80\x80", b"\x80\x80\x80", b"\xa0\x80", b"\x90\x80\x80"];
    let starts = STARTS.map(|start| start.as_bytes().to_vec());
    let cut = [&b"\"\xe0"[..], b"'\xed", b"//\xf0", b"///\xf4\x8f", b"/*\xc3"].map(<[u8]>::to_vec);
    let six = ["'\\u{12345", "\"\\u{123456"].map(|start| start.as_bytes().to_vec());
    for start in starts.into_iter().chain(cut).chain(six) {
        for byte in 0..=255 {
            let text = [&start[..], &[byte]].concat();
            let mut all = Shared::one(&text);
            for end in ends {
                for rest in RESTS {
                    for quote in ["", "\"", "'"] {
                        let parts = [&text[..], end, rest.as_bytes(), quote.as_bytes()];
                        all = all.and(&Shared::one(&parts.concat()));
                    }
                }
            }
            for room in ROOMS {
                let mut feed = Feed::default();
                assert_eq!(feed.feed(&start, &mut vec![0; 3 * room]).number, 0);
                let answer = feed.feed(&[byte], &mut vec![0; 3 * room]);
                assert_eq!(answer, all.answer(room), "{}", shown(&text));
            }
        }
    }
}
