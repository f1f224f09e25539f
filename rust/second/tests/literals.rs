//! Where 3 stands in a broken literal: at the backslash of a malformed escape, else at the
//! literal's first byte.

use second::broken::{self, Broken, Fault, Literal};
use second::read::tables;
use second::token::{next_token, Token, CHARACTER, INSENS, STRING, WORD};
use second::Refusal;

fn shown(text: &[u8]) -> String {
    String::from_utf8_lossy(text).into_owned()
}

/// The reader at both levels.
fn refused(text: &str, number: u64, place: usize) {
    let wanted = Err(Refusal { number, place: place as u64 });
    assert_eq!(tables(text.as_bytes(), true), wanted, "{text}");
    assert_eq!(tables(text.as_bytes(), false), wanted, "{text}");
}

fn no_token(text: &str, at: usize, place: usize) {
    let wanted = Err(Refusal { number: 3, place: place as u64 });
    assert_eq!(next_token(text.as_bytes(), at), wanted, "{text} from {at}");
}

fn lists(text: &str, at: usize, kind: u8, start: u32, end: u32) {
    let wanted = Ok(Some(Token { kind, start, end }));
    assert_eq!(next_token(text.as_bytes(), at), wanted, "{text} from {at}");
}

/// 3 in the reader, and in the lister from the literal's first byte and from a blank before it.
fn both(literal: &str, place: usize) {
    no_token(literal, 0, place);
    no_token(&format!(" {literal}"), 0, place + 1);
    no_token(&format!("/* \\q é */{literal}"), 0, place + 11);
    refused(literal, 3, place);
    refused(&format!("r={{{literal}"), 3, place + 3);
}

#[test]
fn the_places() {
    refused(r"r={'\q'}", 3, 4);
    refused(r"r={'a\q'}", 3, 3);
    refused(r#"r={"\"#, 3, 4);
    refused(r#"r={"\x4"#, 3, 4);
    refused(r#"r={"abc"#, 3, 3);
    refused(r#"r={^"a\q"}"#, 3, 6);
    refused(r"r={'\'}", 3, 3);
    refused(r"r={'\", 3, 4);
    refused(r#"r={"a\qb\w"}"#, 3, 5);
    refused(r#"r={"ab\x4g cd"} ""#, 3, 6);
    refused("r={\"a\nb\\\nc\"}", 3, 7);
    refused(r#"r = { "\u{1}" }"#, 3, 7);
    refused(r#"r={"\u{d800}"}"#, 8, 4);
}

/// Every way in which an escape is malformed, whatever stands after it.
const MALFORMED: [&str; 40] = [
    r"\q",
    r"\X41",
    r"\U{41}",
    r"\N",
    r"\1",
    r"\ ",
    "\\\n",
    "\\\r\n",
    r"\é",
    r"\😀",
    r"\x",
    r"\x4",
    r"\xF",
    r"\xg",
    r"\x4g",
    r"\xg4",
    r"\x+4",
    r"\x 4",
    r"\x{41}",
    r"\x4é",
    r"\u",
    r"\u4",
    r"\u41}",
    r"\u0041",
    r"\u {41}",
    r"\u(41)",
    r"\u{}",
    r"\u{g}",
    r"\u{+41}",
    r"\u{ 41}",
    r"\u{1}",
    r"\u{4g}",
    r"\u{0000041}",
    r"\u{1234567890}",
    r"\u{41",
    r"\u{10ffff",
    r"\u{41 }",
    r"\u{41g}",
    r"\u{41)",
    r"\u{d800",
];

#[test]
fn malformed_escapes() {
    for escape in MALFORMED {
        // Closed, unclosed and cut off alike.
        for after in ["", "\"", "'", "\"}", "'}", ")", "~\"\\w\"", "'..'\\w'"] {
            both(&format!("\"{escape}{after}"), 1);
            both(&format!("^\"{escape}{after}"), 2);
            both(&format!("'{escape}{after}"), 1);
            // Behind good characters and escapes; a place counts bytes.
            both(&format!("\"a{escape}{after}"), 2);
            both(&format!("\"é\\\\\\\"\n😀'\\u{{d800}}{escape}{after}"), 21);
            refused(&format!("r={{PUSH_LITERAL(\"{escape}{after}"), 3, 17);
            refused(&format!("r={{PUSH_LITERAL( /*\\q*/ \"b{escape}{after}"), 3, 26);
            refused(&format!("r={{'a'..'{escape}{after}"), 3, 9);
            refused(&format!("r={{'{escape}'..'b'}}"), 3, 4);
        }
    }
}

#[test]
fn cut_off_by_the_end() {
    for escape in [r"\x41", r"\u{41}", r"\u{10ffff}", r"\n", r"\\", r#"\""#, r"\'"] {
        for end in 1..escape.len() {
            both(&format!("\"{}", &escape[..end]), 1);
            both(&format!("^\"ab{}", &escape[..end]), 4);
            both(&format!("'{}", &escape[..end]), 1);
        }
        // Whole, and only the literal isn't: its first byte.
        both(&format!("\"{escape}"), 0);
        both(&format!("^\"{escape}"), 0);
        both(&format!("'{escape}"), 0);
    }
}

#[test]
fn first_bytes_stay() {
    for literal in ["\"", "\"a", "\"\n", "\"é", "\"\\\"", "\"\\u{d800}", "\"'\\x41'", "\"a}~b"] {
        both(literal, 0);
        both(&format!("^{literal}"), 0);
    }
    for literal in ["'", "''", "'a", "'é", "'\\n", "'\\'", "'\\u{41}", "'\\u{d800}"] {
        both(literal, 0);
    }
    for literal in ["''a", "'' '", "'ab'", "'éé'", "'\\nb'", "'\\'a'", "'\\x411'", "'\r\n'"] {
        both(literal, 0);
    }
    // Where a quote is due, a backslash is a second character.
    for literal in
        ["'a\\q'", "'a\\'", "'a\\", "'\\n\\q'", "'\\\\\\q'", "''\\q'", "'é\\x4", "'\"\\u{"]
    {
        both(literal, 0);
    }
    // No literal: a caret alone, a backslash alone, an open comment.
    both("^'\\q'", 0);
    both("^ \"\\q\"", 0);
    both("\\q", 0);
    both("/* \"\\q\"", 0);
}

#[test]
fn the_first_fault_decides() {
    both(r#""\qa\w"#, 1);
    both(r#""a\q\x4"#, 2);
    both(r#""\u{d800}\q""#, 9);
    both(r#""\"\q"#, 3);
    both(r#""\\\q"#, 3);
    both(r#""\u{1}\u{d800}""#, 1);
    both(r"'\qa'", 1);
    both(r"'\u{d800}\q'", 0);
    // A good string ends before the backslash; what is outside is a token of its own.
    refused(r#"r={"a" \q"#, 3, 7);
    refused(r#"r={"a"\q""#, 3, 6);
    lists(r#""a" \q"#, 0, STRING, 0, 3);
}

#[test]
fn the_leftmost_token_decides() {
    refused(r#"r={'ab' "\q"}"#, 3, 3);
    refused(r#"r={"\q" 'ab'}"#, 3, 4);
    refused(r#"r={"\q" /*"#, 3, 4);
    refused(r#"r={% "\q"}"#, 3, 3);
    refused(r#"r={'\q'..'\w'}"#, 3, 4);
    refused(r#"r={'a'..'\w'}"#, 3, 9);
    refused(r#"r={"\u{d800}" ~ "\q"}"#, 3, 17);
    refused(r#"r=}{0} "\q"}"#, 3, 8);
    refused(r#"// "\q"#, 4, 6);
    refused("//! \"\\q\n'\\q'", 3, 9);
    lists("\"a\" \"\\q\"", 0, STRING, 0, 3);
}

#[test]
fn eight_stays() {
    for escape in [r"\u{d800}", r"\u{DFFF}", r"\u{110000}", r"\u{ffffff}", r"\u{00d800}"] {
        let end = escape.len() as u32;
        lists(&format!("\"{escape}\""), 0, STRING, 0, end + 2);
        lists(&format!("^\"{escape}\""), 0, INSENS, 0, end + 3);
        lists(&format!("'{escape}'"), 0, CHARACTER, 0, end + 2);
        refused(&format!("r={{\"{escape}\"}}"), 8, 4);
        refused(&format!("r={{^\"a{escape}\"}}"), 8, 6);
        refused(&format!("r={{'{escape}'..'b'}}"), 8, 4);
        refused(&format!("r={{'a'..'{escape}'}}"), 8, 9);
    }
    // Structure comes before it, and 3 before both.
    refused(r#"r={"\u{d800}""#, 4, 13);
    refused(r#"r={"\u{d800}"#, 3, 3);
    refused(r#"r={"\u{d800"}"#, 3, 4);
}

#[test]
fn from_inside_a_literal() {
    let text = r#""a\q'b" '"#;
    no_token(text, 0, 2);
    lists(text, 1, WORD, 1, 2);
    no_token(text, 2, 2);
    lists(text, 3, WORD, 3, 4);
    no_token(text, 4, 4);
    no_token(text, 6, 6);
    no_token(text, 7, 8);
    assert_eq!(next_token(text.as_bytes(), 9), Ok(None));
    // An escaped quote opens a literal for a call that starts there.
    no_token(r#""\"\q""#, 0, 3);
    no_token(r#""\"\q""#, 1, 1);
    no_token(r#""\"\q""#, 2, 3);
    no_token(r#""'\q'""#, 0, 2);
    no_token(r#""'\q'""#, 1, 2);
    lists(r#""'\n'\q""#, 1, CHARACTER, 1, 5);
    no_token(r#""^"\q"#, 1, 3);
    no_token(r#"^"\q""#, 1, 2);
    // Between a character's bytes nothing begins.
    no_token("\"é\\q\"", 2, 2);
    no_token("\"é\\q\"", 0, 3);
    // 2 and 1 come first.
    let not_utf8 = Err(Refusal { number: 2, place: 3 });
    assert_eq!(next_token(b"\"\\q\xff", 0), not_utf8);
    assert_eq!(tables(b"\"\\q\xff", true).map(|_| None), not_utf8);
    let long = format!("\"\\q{}", " ".repeat(65_534));
    assert_eq!(next_token(long.as_bytes(), 0), Err(Refusal { number: 1, place: 0 }));
    refused(&long, 1, 0);
    both(&long[..65_000], 1);
}

/// Whether all of the text is one token.
fn one_token(text: &[u8]) -> bool {
    matches!(next_token(text, 0), Ok(Some(t)) if t.start == 0 && t.end as usize == text.len())
}

/// The place of 3 for a bad token, told from nothing but which texts are tokens: `bad` begins
/// with it and goes up to the text's end.
fn told_place(bad: &[u8]) -> usize {
    let (opener, quote) = match bad {
        [b'"', ..] => (1, b'"'),
        [b'^', b'"', ..] => (2, b'"'),
        [b'\'', ..] => (1, b'\''),
        _ => return 0,
    };
    let closed = |end: usize| one_token(&[&bad[..end], &[quote]].concat());
    // No escape is longer than 10 bytes.
    let malformed = |place: usize| (2..=10).all(|k| place + k > bad.len() || !closed(place + k));
    let last = if quote == b'"' { bad.len() } else { bad.len().min(opener + 1) };
    // In a string, an escape begins where the string could also have ended.
    let begins = |place: usize| bad[place] == b'\\' && (quote == b'\'' || closed(place));
    (opener..last).find(|place| begins(*place) && malformed(*place)).unwrap_or(0)
}

/// The lister from every place: at a blank as behind it, else against the place so told. Counts
/// the latter.
fn every_place(text: &[u8]) -> usize {
    let mut count = 0;
    for at in 0..text.len() {
        let listed = next_token(text, at);
        match text[at..] {
            [b' ' | b'\t' | b'\n', ..] => assert_eq!(listed, next_token(text, at + 1)),
            [b'\r', b'\n', ..] => assert_eq!(listed, next_token(text, at + 2)),
            // Comments: what is behind them is met from there.
            [b'/', b'/' | b'*', ..] => (),
            _ => {
                let Err(refusal) = listed else { continue };
                let place = (at + told_place(&text[at..])) as u64;
                assert_eq!(refusal, Refusal { number: 3, place }, "{} from {at}", shown(text));
                count += 1;
            }
        }
    }
    count
}

/// Every text of up to five pieces.
#[test]
fn all_short_texts() {
    const PIECES: [&str; 11] = ["\"", "'", "\\", "x", "4", "u", "{", "}", "^", "é", " "];
    let mut texts = vec![String::new()];
    let mut count = 0;
    for _ in 0..5 {
        texts =
            texts.iter().flat_map(|text| PIECES.map(|piece| format!("{text}{piece}"))).collect();
        count += texts.iter().map(|text| every_place(text.as_bytes())).sum::<usize>();
    }
    assert!(count > 300_000, "{count}");
}

/// Every row of up to six pieces in a string, and behind it what may finish an escape or not.
#[test]
fn all_short_escapes() {
    const PIECES: [&str; 6] = ["\\", "u", "{", "4", "}", "\""];
    let mut texts = vec![String::from("\"")];
    for _ in 0..6 {
        texts =
            texts.iter().flat_map(|text| PIECES.map(|piece| format!("{text}{piece}"))).collect();
        for text in &texts {
            every_place(format!("{text}41}}'").as_bytes());
        }
    }
}

/// The reader, and the lister at the literal if that is good.
fn check_made(made: &Broken) {
    let read = tables(&made.text, true).map_err(|refusal| (refusal.number, refusal.place as usize));
    match made.fault {
        // What stands before the literal may have an 8 of its own.
        Fault::None => assert!(matches!(read, Ok(_) | Err((8, _))), "{made:?}"),
        Fault::NoScalar => assert!(matches!(read, Err((8, _))), "{made:?}"),
        _ => return assert_eq!(read, Err((3, made.place)), "{made:?} {}", shown(&made.text)),
    }
    let kind = match made.literal {
        Literal::String => STRING,
        Literal::Insens => INSENS,
        Literal::Character => CHARACTER,
    };
    let listed = next_token(&made.text, made.place);
    assert!(matches!(listed, Ok(Some(token)) if token.kind == kind), "{made:?}");
}

#[test]
fn made_texts() {
    let mut below = broken::random(1);
    for _ in 0..200_000 {
        check_made(&broken::text(&mut below));
    }
}

#[test]
fn made_texts_from_every_place() {
    let mut below = broken::random(2);
    for _ in 0..20_000 {
        every_place(&broken::text(&mut below).text);
    }
}
