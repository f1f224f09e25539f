//! Texts rich in broken literals. Each is made around one fault, so the place where 3 must come is
//! known without reading the text.

/// The literal that is made.
#[derive(Clone, Copy, Debug, PartialEq, Eq, PartialOrd, Ord)]
pub enum Literal {
    String,
    Insens,
    Character,
}

/// What is wrong with it. All but the last five are malformed escapes.
#[derive(Clone, Copy, Debug, PartialEq, Eq, PartialOrd, Ord)]
pub enum Fault {
    /// `\q`.
    NoEscape,
    /// `\x` with fewer than two digits.
    ShortHex,
    /// `\u` without `{`.
    NoBrace,
    /// `\u{}`, and no digit after the brace.
    NoDigit,
    /// `\u{4}`.
    OneDigit,
    /// `\u{0000041}`.
    ManyDigits,
    /// `\u{41` and then neither a digit nor `}`.
    OpenBraces,
    /// A good escape's beginning, then the text's end.
    CutOff,
    /// No closing quote up to the text's end.
    Unclosed,
    /// `''` and no third quote.
    NoCharacter,
    /// A good character, then no quote.
    MoreCharacters,
    /// Nothing, but an escape is a surrogate or above U+10FFFF: the reader gives no 3.
    NoScalar,
    /// Nothing at all.
    None,
}

/// A text, and what was built into it.
#[derive(Clone, Debug)]
pub struct Broken {
    pub text: Vec<u8>,
    pub literal: Literal,
    pub fault: Fault,
    /// Of 3; the literal's first byte where the literal is good.
    pub place: usize,
}

const LITERALS: [Literal; 3] = [Literal::String, Literal::Insens, Literal::Character];

const FAULTS: [Fault; 13] = [
    Fault::NoEscape,
    Fault::ShortHex,
    Fault::NoBrace,
    Fault::NoDigit,
    Fault::OneDigit,
    Fault::ManyDigits,
    Fault::OpenBraces,
    Fault::CutOff,
    Fault::Unclosed,
    Fault::NoCharacter,
    Fault::MoreCharacters,
    Fault::NoScalar,
    Fault::None,
];

/// What may stand before any literal. Backslashes in comments and good literals are no fault, and
/// characters of more bytes tell a count of bytes from one of characters.
const BEFORE: [&str; 12] = [
    "r={",
    "r = { ",
    "a={b}\r\nr={",
    "//! \"\\q\nr={",
    "/// '\\\nr={",
    "// \"é\\q\nr={",
    "/* \"\\q' /* é */ */r={",
    "r={a~",
    "r={\"\\\"\\u{d800}\"~",
    "r={'\\''..'\\u{41}'|",
    "r={^\"é\\\\\"~!",
    "r={#t=",
];

/// Before a string only, where a grammar allows it.
const BEFORE_STRING: [&str; 2] = ["PUSH_LITERAL(", "PUSH_LITERAL( "];
/// Before a character literal only: the range's first end.
const BEFORE_CHARACTER: [&str; 4] = ["'a'..", "'\\x41' .. ", "'''..", "'\\\\'.."];

/// Characters that a string may hold.
const IN_STRING: [&str; 16] =
    ["a", "4", "x", "u", "{", "}", " ", "\n", "\r\n", "\t", "'", "^", "//", "/*", "é", "😀"];
/// Characters that a character literal may hold.
const IN_CHARACTER: [&str; 12] =
    ["a", "4", "x", "u", "{", "}", " ", "\n", "\"", "'", "é", "\u{10ffff}"];
/// Good escapes.
const ESCAPES: [&str; 14] = [
    "\\\"",
    "\\\\",
    "\\r",
    "\\n",
    "\\t",
    "\\0",
    "\\'",
    "\\x41",
    "\\xfF",
    "\\u{41}",
    "\\u{00b5}",
    "\\u{10FFFF}",
    "\\u{000000}",
    "\\u{e000}",
];
/// Well-formed escapes of no character.
const NO_SCALARS: [&str; 5] =
    ["\\u{d800}", "\\u{DfFf}", "\\u{110000}", "\\u{ffffff}", "\\u{00d800}"];

/// What may follow a fault that was met: it may close the literal, or break more.
const AFTER: [&str; 18] = [
    "",
    "\"",
    "'",
    "\"}",
    "'}",
    "}",
    "\\",
    "\\q\"}",
    "\\w'",
    "\\u{41}\"",
    "a\"}",
    "4",
    "}\"",
    "41}\"}",
    " /*",
    "\" \"\\",
    "é'",
    "\n\"}",
];

/// Neither a hex digit nor `}`.
const NO_HEX: [&str; 10] = ["g", "+4", " ", "\"", "'", "\\", "{", "é", "\n", "G"];
const HEX: [&str; 8] = ["0", "4", "9", "a", "F", "d", "8", "1"];
/// No escape begins with these.
const NO_ESCAPE: [&str; 14] =
    ["q", "X", "U", "N", "R", "a", "1", "{", "/", "^", " ", "\n", "é", "😀"];
const NO_BRACE: [&str; 8] = ["4", "}", "\"", "'", "\\", "(", " ", "é"];

/// A text with a fault in it, or, two times in thirteen, with none. `below` gives a number below
/// the one that it is given.
pub fn text(below: &mut dyn FnMut(usize) -> usize) -> Broken {
    let literal = LITERALS[below(LITERALS.len())];
    let mut fault = FAULTS[below(FAULTS.len())];
    // Strings hold any number of characters.
    if literal != Literal::Character && matches!(fault, Fault::NoCharacter | Fault::MoreCharacters)
    {
        fault = Fault::Unclosed;
    }
    let mut maker = Maker { below, text: Vec::new() };
    let close = maker.before(literal);
    let place = match literal {
        Literal::Character => maker.character(fault),
        _ => maker.string(literal, fault),
    };
    if matches!(fault, Fault::NoScalar | Fault::None) {
        maker.put(close);
    }
    Broken { text: maker.text, literal, fault, place }
}

struct Maker<'a> {
    below: &'a mut dyn FnMut(usize) -> usize,
    text: Vec<u8>,
}

impl Maker<'_> {
    fn put(&mut self, piece: &str) {
        self.text.extend_from_slice(piece.as_bytes());
    }

    fn put_one(&mut self, pieces: &[&str]) {
        let piece = pieces[(self.below)(pieces.len())];
        self.put(piece);
    }

    fn one_in(&mut self, n: usize) -> bool {
        (self.below)(n) == 0
    }

    /// Puts what stands before the literal; gives what must follow it if it is good.
    fn before(&mut self, literal: Literal) -> &'static str {
        self.put_one(&BEFORE);
        match literal {
            Literal::String if self.one_in(4) => {
                self.put_one(&BEFORE_STRING);
                ")}"
            }
            Literal::Character if self.one_in(2) => {
                self.put_one(&BEFORE_CHARACTER);
                "}"
            }
            Literal::Character => "..'z'}",
            _ => "}",
        }
    }

    /// Good characters and escapes of a string.
    fn good(&mut self) {
        for _ in 0..(self.below)(5) {
            if self.one_in(2) {
                self.put_one(&ESCAPES);
            } else {
                self.put_one(&IN_STRING);
            }
        }
    }

    /// What comes after the fault. It can't matter, so anything will do.
    fn after(&mut self) {
        for _ in 0..(self.below)(3) {
            self.put_one(&AFTER);
        }
    }

    /// A string; the place of its fault.
    fn string(&mut self, literal: Literal, fault: Fault) -> usize {
        let start = self.text.len();
        self.put(if literal == Literal::Insens { "^\"" } else { "\"" });
        self.good();
        match fault {
            Fault::Unclosed => return start,
            Fault::None => (),
            Fault::NoScalar => {
                self.put_one(&NO_SCALARS);
                self.good();
            }
            _ => return self.malformed(fault),
        }
        self.put("\"");
        start
    }

    /// A character literal; the place of its fault.
    fn character(&mut self, fault: Fault) -> usize {
        let start = self.text.len();
        self.put("'");
        match fault {
            Fault::Unclosed => {
                if !self.one_in(3) {
                    self.one_character();
                }
                return start;
            }
            Fault::NoCharacter => {
                self.put("'");
                self.no_quote();
                return start;
            }
            Fault::MoreCharacters => {
                self.one_character();
                self.no_quote();
                return start;
            }
            Fault::NoScalar => self.put_one(&NO_SCALARS),
            Fault::None => self.one_character(),
            _ => return self.malformed(fault),
        }
        self.put("'");
        start
    }

    fn one_character(&mut self) {
        if self.one_in(2) {
            self.put_one(&ESCAPES);
        } else {
            self.put_one(&IN_CHARACTER);
        }
    }

    /// Anything but a quote where a quote is due, and more.
    fn no_quote(&mut self) {
        self.put_one(&["a", "\"", "\\q'", "\\", "\\''", "\\x4'", "\\u{1}'", "é'", " '", "}", "\n"]);
        self.after();
    }

    fn digits(&mut self, count: usize) {
        for _ in 0..count {
            self.put_one(&HEX);
        }
    }

    /// A malformed escape, and what comes after it; the place of its backslash.
    fn malformed(&mut self, fault: Fault) -> usize {
        let place = self.text.len();
        match fault {
            Fault::NoEscape => {
                self.put("\\");
                self.put_one(&NO_ESCAPE);
            }
            Fault::ShortHex => {
                self.put("\\x");
                let count = (self.below)(2);
                self.digits(count);
                self.put_one(&NO_HEX);
            }
            Fault::NoBrace => {
                self.put("\\u");
                self.put_one(&NO_BRACE);
            }
            Fault::NoDigit => {
                self.put("\\u{");
                self.put_one(&["}", "}", "g}", "+41}", " 41}", "\"", "'", "\\", "{41}", "é"]);
            }
            Fault::OneDigit => {
                self.put("\\u{");
                self.digits(1);
                self.put_one(&["}", "}", "g}", "+4}", " }", "\"", "'", "\\", "{41}", "é"]);
            }
            Fault::ManyDigits => {
                self.put("\\u{");
                let count = 7 + (self.below)(3);
                self.digits(count);
                self.put_one(&["}", "}", "", "g}", "\"", "'"]);
            }
            Fault::OpenBraces => {
                self.put("\\u{");
                let count = 2 + (self.below)(5);
                self.digits(count);
                self.put_one(&NO_HEX);
            }
            _ => {
                self.cut_off();
                return place;
            }
        }
        self.after();
        place
    }

    /// The beginning of a good escape, and nothing after it.
    fn cut_off(&mut self) {
        self.put_one(&["\\", "\\x", "\\x4", "\\xF", "\\u", "\\u{"]);
        if self.text.ends_with(b"{") {
            let count = (self.below)(7);
            self.digits(count);
        }
    }
}

/// Numbers that look random and come again for the same seed (SplitMix64).
pub fn random(seed: u64) -> impl FnMut(usize) -> usize {
    let mut state = seed;
    move |n| {
        state = state.wrapping_add(0x9e37_79b9_7f4a_7c15);
        let mut z = state;
        z = (z ^ (z >> 30)).wrapping_mul(0xbf58_476d_1ce4_e5b9);
        z = (z ^ (z >> 27)).wrapping_mul(0x94d0_49bb_1331_11eb);
        ((z ^ (z >> 31)) % n as u64) as usize
    }
}
