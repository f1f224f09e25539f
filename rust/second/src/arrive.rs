//! Random texts that arrive in packets, and lists of random lengths to hold their tokens. What
//! answers are due isn't known here, and nothing of any program is needed. Feeding one after the
//! other into one state is allowed as long as each is good.

/// A text, where it is cut, and what is lent for it.
#[derive(Clone, Debug)]
pub struct Arrival {
    pub text: Vec<u8>,
    /// Where each packet ends, from left to right; the same place twice makes an empty packet. The
    /// last is the text's length. An empty text may come in no packet at all.
    pub ends: Vec<usize>,
    /// How many numbers the lent list has: for each packet, then for the call that ends the text.
    pub lists: Vec<usize>,
}

impl Arrival {
    pub fn packets(&self) -> impl Iterator<Item = &[u8]> + '_ {
        let starts = std::iter::once(0).chain(self.ends.iter().copied());
        starts.zip(&self.ends).map(|(start, end)| &self.text[start..*end])
    }
}

/// A short text, good or not.
pub fn short(below: &mut dyn FnMut(usize) -> usize) -> Arrival {
    let text = short_text(below);
    cut(text, below)
}

/// A text about as long as a text may be, with all cuts near its end.
pub fn long(below: &mut dyn FnMut(usize) -> usize) -> Arrival {
    let text = long_text(below);
    let ends = (0..below(12)).map(|_| text.len() - below(24)).collect();
    lend(text, ends, below)
}

/// A text of some thousand bytes in a few packets, most of them long: good, with perhaps a short text
/// somewhere in it. Lists have room for all, or for some of the tokens.
pub fn middle(below: &mut dyn FnMut(usize) -> usize) -> Arrival {
    let mut text = Vec::new();
    let length = 400 + below(3_000);
    let place = below(2 * length);
    let mut odd = Some(short_text(below));
    while text.len() < length {
        if place <= text.len() {
            text.extend(odd.take().unwrap_or_default());
        }
        let piece = good(below);
        text.extend(piece);
        text.push(b' ');
    }
    let ends = (0..below(4)).map(|_| below(text.len() + 1)).collect();
    let mut made = lend(text, ends, below);
    if below(2) == 0 {
        let room = below(made.text.len());
        made.lists.fill(room);
    }
    made
}

/// Any cuts and lists for a text.
pub fn cut(text: Vec<u8>, below: &mut dyn FnMut(usize) -> usize) -> Arrival {
    let ends = match below(4) {
        0 => (1..text.len()).collect(),
        1 => Vec::new(),
        _ => (0..below(8)).map(|_| below(text.len() + 1)).collect(),
    };
    lend(text, ends, below)
}

fn lend(text: Vec<u8>, mut ends: Vec<usize>, below: &mut dyn FnMut(usize) -> usize) -> Arrival {
    ends.sort_unstable();
    if !text.is_empty() || below(2) == 0 {
        ends.push(text.len());
    }
    let ample = 3 * (text.len() + 1);
    let few = below(20);
    let kind = below(4);
    let lists = (0..=ends.len()).map(|_| match kind {
        0 => few,
        1 => below(20),
        2 => ample + below(20),
        _ => ample,
    });
    let lists = lists.collect();
    Arrival { text, ends, lists }
}

/// Bytes that begin something, that go on with it, that end it or that break it.
const BYTES: &[u8] = b"\"\"''\\\\^#./-*!\r\n xu{}0017aPUSH_L=+%\x01\x7f\
    \x80\xa9\xbf\xc3\xe0\xa0\xed\x9f\xf0\x90\xf4\x8f\xff";

/// Tokens and blanks, good by themselves. Where two words or numbers meet, a blank comes between.
const GOOD: [&str; 56] = [
    "=",
    "{",
    "}",
    "[",
    "]",
    "(",
    ")",
    "&",
    "!",
    "~",
    "|",
    "?",
    "*",
    "+",
    ",",
    "@",
    "$",
    "a",
    "_b1",
    "PUSH",
    "PUSH_LITERAL",
    "PUS",
    "pUSH_",
    "#t",
    "#PUSHx",
    "#_",
    "0",
    "007",
    "-1",
    "-0010",
    "..",
    "\"\"",
    "\"a\"",
    "\"é\\n\"",
    "\"\\x4f\\u{e9}\\\"\"",
    "^\"\"",
    "^\"\\\\'\"",
    "'a'",
    "'''",
    "'\"'",
    "'\\''",
    "'\\u{10fFfF}'",
    "'é'",
    "'€'",
    "'😀'",
    "//! é\n",
    "///\n",
    "////x\r\r\n",
    "//\n",
    "// \"é\r\r\n",
    "/**/",
    "/*/*é*/'*/",
    " ",
    "\t",
    "\n",
    "\r\n",
];

/// What is cut short, or false, or only good with something before it or behind.
const BROKEN: [&[u8]; 44] = [
    b"PUSHx",
    b"PUSH_",
    b"PUSH_LITERA",
    b"PUSH_LITERAL_",
    b"#",
    b"#1",
    b"-",
    b"-0",
    b"-00",
    b".",
    b"\"",
    b"'",
    b"^",
    b"''",
    b"'a",
    b"'ab'",
    b"\"\\",
    b"\"\\q",
    b"\"\\x",
    b"\"\\x4",
    b"'\\u",
    b"\"\\u{",
    b"\"\\u{1",
    b"'\\u{41",
    b"\"\\u{0000041",
    b"^\"a\\",
    b"\r",
    b"/",
    b"//",
    b"///",
    b"//!",
    b"/*",
    b"*/",
    b"/*/",
    b"%",
    b"\xc3",
    b"\xa9",
    b"\xe2\x82",
    b"\xac",
    b"\xed\xa0",
    b"\xf0\x9f",
    b"\x98\x80",
    b"\xf4\x90",
    b"\xff",
];

/// How something begins, and bytes with which it goes on, ends or breaks.
const BEGUN: [(&str, &[u8]); 11] = [
    ("\"", b"\\\\xu{}04F\"'n \xc3\xa9"),
    ("^\"", b"\\\\xu{}04F\"'n \xc3\xa9"),
    ("'", b"\\\\xu{}04F\"''n \xc3\xa9"),
    ("\"\\u{", b"00aF9}}}\"\"g"),
    ("'\\u{", b"00aF9}}}''g"),
    ("'", b"''\xf0\x90\x80\xe0\xa0\xed\xf4"),
    ("/*", b"///***\n\xc3\xa9a"),
    ("//", b"/!\r\r\n a\xc3\xa9"),
    ("-", b"00001 a-"),
    ("PUSH", b"_LITERAL1x ="),
    ("a", b"PUSH_ /=\r\n#"),
];

fn one<T: Copy>(from: &[T], below: &mut dyn FnMut(usize) -> usize) -> T {
    from[below(from.len())]
}

fn short_text(below: &mut dyn FnMut(usize) -> usize) -> Vec<u8> {
    match below(10) {
        0 => (0..below(12)).map(|_| one(BYTES, below)).collect(),
        1 | 2 => {
            // A few bytes, over and over: so that what they begin goes on for longer.
            let few: Vec<u8> = (0..2 + below(5)).map(|_| one(BYTES, below)).collect();
            (0..below(20)).map(|_| one(&few, below)).collect()
        }
        3 => {
            let pieces = (0..below(6)).map(|_| match below(2) {
                0 => one(&GOOD, below).as_bytes(),
                _ => one(&BROKEN, below),
            });
            pieces.collect::<Vec<_>>().concat()
        }
        4 | 5 => good(below),
        6 | 7 => {
            let mut text = if below(2) == 0 { good(below) } else { Vec::new() };
            let (begun, bytes) = one(&BEGUN, below);
            text.extend_from_slice(begun.as_bytes());
            text.extend((0..below(10)).map(|_| one(bytes, below)));
            text
        }
        8 => {
            let mut text = good(below);
            text.truncate(below(text.len() + 1));
            text
        }
        _ => {
            let mut text = good(below);
            let place = below(text.len() + 1);
            let past = text.len().min(place + below(2));
            let with: Vec<u8> = (0..below(3)).map(|_| one(BYTES, below)).collect();
            text.splice(place..past, with);
            text
        }
    }
}

/// A text without any fault.
fn good(below: &mut dyn FnMut(usize) -> usize) -> Vec<u8> {
    let in_word = |byte: &u8| byte.is_ascii_alphanumeric() || *byte == b'_';
    let mut text = Vec::new();
    for _ in 0..below(9) {
        let piece = one(&GOOD, below).as_bytes();
        // Else the two could be one word, or one number.
        if text.last().is_some_and(in_word) && in_word(&piece[0]) {
            text.push(b' ');
        }
        text.extend_from_slice(piece);
    }
    text
}

fn long_text(below: &mut dyn FnMut(usize) -> usize) -> Vec<u8> {
    let (before, filler, behind) = one(
        &[
            ("", " ", ""),
            ("", "=", ""),
            ("", "a ", ""),
            ("", "7", ""),
            ("#", "t", ""),
            ("-", "0", ""),
            ("\"", "a", ""),
            ("\"", "\\\\", "\""),
            ("^\"", "é", "\""),
            ("//", "x", ""),
            ("//!", "é", "\n"),
            ("///", "\r", ""),
            ("/*", "/", "*/"),
            ("/*", "/*", "*/"),
            ("\"", "\\u{41}", "\""),
            ("", "'''", ""),
        ],
        below,
    );
    let length = 65_520 + below(20);
    let mut text = before.as_bytes().to_vec();
    while text.len() < length {
        text.extend_from_slice(filler.as_bytes());
    }
    if below(2) == 0 {
        text.extend_from_slice(behind.as_bytes());
    }
    let tail = short_text(below);
    text.extend_from_slice(&tail[..tail.len().min(below(24))]);
    text
}
