//! Texts: all short ones over small alphabets, random good ones, damaged ones, token soup, broken
//! literals, pairs of numbers, and those at the limits.

use crate::Random;

/// Where a text came from.
#[derive(Clone, Copy, Debug, PartialEq, Eq, PartialOrd, Ord)]
pub enum Source {
    Corner,
    Exhaustive,
    Grown,
    Damaged,
    Soup,
    Broken,
    Long,
    Pairs,
    Limit,
}

/// Pieces of a rule's body.
pub const PIECES: [&str; 36] = [
    "a",
    "\"b\"",
    "^\"c\"",
    "'d'",
    "..",
    "~",
    "|",
    "!",
    "&",
    "?",
    "*",
    "+",
    "(",
    ")",
    "{",
    "}",
    ",",
    "1",
    "0",
    "PEEK",
    "[",
    "]",
    "-1",
    "PUSH",
    "PUSH_LITERAL",
    "#t",
    "=",
    " ",
    "/*c*/",
    "//c\n",
    "///d\n",
    "_",
    "\r\n",
    "^",
    "4294967296",
    "\"\\u{d800}\"",
];

/// Fewer pieces, for longer bodies.
const FEW: [&str; 18] = [
    "a",
    "\"\"",
    "'d'..'e'",
    "~",
    "|",
    "!",
    "?",
    "(",
    ")",
    "{1}",
    "{,2}",
    "PUSH(",
    "PUSH_LITERAL(",
    "PEEK[",
    "-1",
    "..",
    "]",
    "#t=",
];

/// Fewest, for the longest.
const FEWEST: [&str; 8] = ["a", "~", "|", "!", "*", "(", ")", "#t="];

/// Pieces of a whole text.
const WHOLE: [&str; 12] =
    ["a", "=", "{", "}", "_", "@", "///x\n", "//!x\n", " ", "|", "a={b}", "PUSH"];

/// Calls `f` with every row of at most `most` of `pieces`, between `before` and `after`.
fn rows(before: &str, pieces: &[&str], most: usize, after: &str, f: &mut dyn FnMut(&[u8])) {
    let mut row: Vec<usize> = Vec::new();
    let mut text = Vec::new();
    loop {
        text.clear();
        text.extend_from_slice(before.as_bytes());
        for piece in &row {
            text.extend_from_slice(pieces[*piece].as_bytes());
        }
        text.extend_from_slice(after.as_bytes());
        f(&text);
        // The next row: counting in base `pieces.len()`, then one longer.
        let mut i = row.len();
        loop {
            if i == 0 {
                row.insert(0, 0);
                break;
            }
            i -= 1;
            row[i] += 1;
            if row[i] < pieces.len() {
                break;
            }
            row[i] = 0;
        }
        if row.len() > most {
            return;
        }
    }
}

/// All short texts. `size` 0 is a quick selection, 1 the full one.
pub fn exhaustive(size: usize, f: &mut dyn FnMut(&[u8])) {
    let long = size;
    rows("r={", &PIECES, 2 + long, "}", f);
    rows("r={", &FEW, 3 + long, "}", f);
    rows("r={", &FEWEST, 5 + long, "}", f);
    rows("", &WHOLE, 4 + long, "", f);
    rows("r={\"", &["\"", "\\", "x", "4", "u", "{", "}", "'", "a", "é"], 4 + long, "\"}", f);
    rows("r={'", &["\"", "\\", "x", "4", "u", "{", "}", "'", "a", "é"], 4 + long, "'..'a'}", f);
    rows("r={\"\\u{", &["0", "1", "8", "d", "D", "f", "}"], 5 + long, "}\"}", f);
    rows("", &["/", "*", "x", "\n", "\r", "!"], 5 + long, "a={b}", f);
    rows("r={a", &["/", "*", "x", "\n", "\r", "!"], 5 + long, "}", f);
    rows("a={PEEK", &["[", "-", "0", "1", ".", "]", " "], 5 + long, "]}", f);
    rows("a={b", &["{", "-", "0", "1", ",", "}", " "], 5 + long, "}}", f);
    rows("a={", &["PUSH", "P", "_", "LITERAL", "(", "\"x\"", ")", "#", "="], 4 + long, "}", f);
    rows("a={", &["^", " ", "\"k\"", "~", "/**/", "\t"], 5 + long, "}", f);
    rows("\na={", &["b", "(", ")", "\n", "\r\n", "~", "*", "!"], 4 + long, "}", f);
}

/// Grows good texts; `faults` in a thousand values are such as the reader refuses.
pub struct Grower {
    pub random: Random,
    pub faults: usize,
    text: Vec<u8>,
    left: usize,
}

impl Grower {
    pub fn new(random: Random) -> Grower {
        Grower { random, faults: 5, text: Vec::new(), left: 0 }
    }

    /// A text of some `size` terms.
    pub fn grow(&mut self, size: usize) -> Vec<u8> {
        self.text.clear();
        self.left = size;
        self.blank();
        while self.random.one_in(6) {
            self.doc("//!");
        }
        loop {
            if self.random.one_in(8) {
                self.doc("///");
            } else {
                self.rule();
            }
            if self.left == 0 || self.random.one_in(4) {
                break;
            }
        }
        std::mem::take(&mut self.text)
    }

    fn put(&mut self, text: &str) {
        self.text.extend_from_slice(text.as_bytes());
        self.blank();
    }

    fn fault(&mut self) -> bool {
        self.random.below(1_000) < self.faults
    }

    fn blank(&mut self) {
        let blank = match self.random.below(28) {
            0..=11 => "",
            12..=16 => " ",
            17..=19 => "\n",
            20 => "\t",
            21 | 22 => "\r\n",
            23 => "/* \" // é */",
            24 => "/*/**/ /***/*/",
            25 => "/*\r\n /* \n\n */ \r*/",
            26 => "\n\r\n\n",
            _ => "// ' \r /* \u{a0}\r\n",
        };
        self.text.extend_from_slice(blank.as_bytes());
    }

    fn doc(&mut self, opener: &str) {
        let inside = self.random.of(&["", " x", "/", "! é", "\r", " /* ", "\t\"", " \r\r"]);
        let end = self.random.of(&["\n", "\r\n"]);
        self.text.extend_from_slice(format!("{opener}{inside}{end}").as_bytes());
        self.blank();
    }

    fn rule(&mut self) {
        let name = self.name();
        self.put(name);
        self.put("=");
        let mark = self.random.of(&["", "", "_", "@", "$", "!"]);
        if !mark.is_empty() {
            self.put(mark);
        }
        self.put("{");
        if self.random.one_in(6) {
            self.put("|");
        }
        self.expression(0);
        self.put("}");
    }

    fn name(&mut self) -> &'static str {
        self.random.of(&["a", "b", "r", "_", "foo_1", "PEEK", "ANY", "pUSH", "PUS", "_PUSH", "Z9z"])
    }

    fn expression(&mut self, depth: usize) {
        self.term(depth);
        while self.left > 0 && self.random.below(5) < 2 {
            let operator = self.random.of(&["~", "|", "~"]);
            self.put(operator);
            self.term(depth);
        }
    }

    fn term(&mut self, depth: usize) {
        self.left = self.left.saturating_sub(1);
        if self.random.one_in(6) {
            let tag = self.random.of(&["#t", "#_", "#PUSH", "#PUSH_LITERALx", "#a1", "#PEEK"]);
            self.put(tag);
            self.put("=");
        }
        while self.random.one_in(5) {
            let predicate = self.random.of(&["!", "&"]);
            self.put(predicate);
        }
        self.node(depth);
        while self.random.one_in(4) {
            self.postfix();
        }
    }

    fn node(&mut self, depth: usize) {
        let kind = self.random.below(if depth > 12 || self.left == 0 { 10 } else { 14 });
        match kind {
            0..=2 => {
                let name = self.name();
                self.put(name);
            }
            3 | 4 => {
                let string = self.string();
                self.put(&string);
            }
            5 => {
                let string = format!("^{}", self.string());
                self.put(&string);
            }
            6 | 7 => {
                let (first, last) = (self.character(), self.character());
                self.put(&first);
                self.put("..");
                self.put(&last);
            }
            8 => {
                self.put("PEEK");
                self.put("[");
                self.peek_number();
                self.put("..");
                self.peek_number();
                self.put("]");
            }
            9 => {
                if self.random.one_in(3) {
                    self.put("PUSH_LITERAL");
                    self.put("(");
                    let string = self.string();
                    self.put(&string);
                    self.put(")");
                } else {
                    self.put("PEEK");
                }
            }
            10 => {
                self.put("PUSH");
                self.put("(");
                self.expression(depth + 1);
                self.put(")");
            }
            _ => {
                self.put("(");
                self.expression(depth + 1);
                self.put(")");
            }
        }
    }

    fn peek_number(&mut self) {
        let number = if self.fault() {
            self.random.of(&["2147483648", "-2147483649", "99999999999999999999"])
        } else {
            let good = ["", "", "0", "1", "-1", "007", "-030", "2147483647", "-2147483648"];
            self.random.of(&good)
        };
        if !number.is_empty() {
            self.put(number);
        }
    }

    fn count(&mut self, zero: bool) {
        let number = if self.fault() {
            self.random.of(&["4294967296", "0", "00", "123456789012345678901234567890"])
        } else if zero && self.random.one_in(3) {
            "0"
        } else {
            self.random.of(&["1", "2", "3", "03", "4294967295", "00000000000000000000000017"])
        };
        self.put(number);
    }

    fn postfix(&mut self) {
        match self.random.below(7) {
            0 => self.put("?"),
            1 => self.put("*"),
            2 => self.put("+"),
            shape => {
                self.put("{");
                if shape != 5 {
                    self.count(shape == 4 || shape == 6);
                }
                if shape != 3 {
                    self.put(",");
                }
                if shape > 4 {
                    self.count(false);
                }
                self.put("}");
            }
        }
    }

    /// A character or an escape, as it may stand between `quote`s.
    fn inside(&mut self, quote: char) -> String {
        if self.fault() {
            return self
                .random
                .of(&["\\u{d800}", "\\u{DFFF}", "\\u{110000}", "\\u{ffffff}"])
                .into();
        }
        match self.random.below(12) {
            0 => self.random.of(&["\\\"", "\\\\", "\\r", "\\n", "\\t", "\\0", "\\'"]).into(),
            1 => format!("\\x{:02x}", self.random.below(256)),
            2 => format!("\\x{:02X}", self.random.below(256)),
            3 => {
                let number = self.random.below(0xd800);
                let wide = 2 + self.random.below(5);
                format!("\\u{{{number:0wide$x}}}")
            }
            4 => self.random.of(&["\\u{10ffff}", "\\u{E000}", "\\u{00007f}", "\\u{d7fF}"]).into(),
            5 => self.random.of(&["é", "€", "😀", "\u{301}", "\u{10ffff}", "\u{7f}"]).into(),
            6 => {
                let some = ["\n", "\r\n", "\t", "\r", "\0", "/", "*", "#", "^", "{", "//"];
                self.random.of(&some).into()
            }
            // Characters that print bare, and those around them.
            7 => {
                char::from_u32(0xa0 + self.random.below(0x1b1) as u32).expect("a character").into()
            }
            8 => format!("\\u{{{:x}}}", 0xa0 + self.random.below(0x1b1)),
            _ => {
                let byte = 32 + self.random.below(95) as u8;
                match byte as char {
                    '\\' => "\\\\".into(),
                    '"' if quote == '"' => "\\\"".into(),
                    other => other.into(),
                }
            }
        }
    }

    fn string(&mut self) -> String {
        let mut string = String::from("\"");
        while self.random.below(3) > 0 {
            string.push_str(&self.inside('"'));
        }
        string.push('"');
        string
    }

    fn character(&mut self) -> String {
        let mut inside = self.inside('\'');
        if matches!(&inside[..], "//" | "\r\n") {
            inside.pop();
        }
        format!("'{inside}'")
    }
}

/// Pieces that damage a text.
const DAMAGE: [&[u8]; 30] = [
    b"(", b")", b"{", b"}", b"[", b"]", b"|", b"~", b"!", b"\"", b"'", b"\\", b"/*", b"*/", b"//",
    b"///", b"//!", b"#", b"^", b"..", b"-", b"0", b"PUSH", b"PEEK", b"\r", b"\n", b",", b"=",
    b"\xff", b"\xc3",
];

/// A copy with one to three faults.
pub fn damaged(random: &mut Random, text: &[u8]) -> Vec<u8> {
    let mut text = text.to_vec();
    for _ in 0..1 + random.below(3) {
        let at = random.below(text.len() + 1);
        let some = (1 + random.below(4)).min(text.len() - at);
        match random.below(6) {
            0 => drop(text.drain(at..at + some)),
            1 => drop(text.splice(at..at, random.of(&DAMAGE).iter().copied())),
            2 => drop(text.splice(at..at + some.min(1), random.of(&DAMAGE).iter().copied())),
            3 => {
                let copy = text[at..at + some].to_vec();
                let to = random.below(text.len() + 1);
                drop(text.splice(to..to, copy));
            }
            4 if at < text.len() => text[at] ^= 1 << random.below(8),
            _ if random.one_in(4) => text.truncate(at),
            _ => drop(text.drain(at..at + some.min(1))),
        }
    }
    text
}

/// Pieces without order.
pub fn soup(random: &mut Random) -> Vec<u8> {
    let mut text = Vec::new();
    if random.one_in(2) {
        text.extend_from_slice(b"a={");
    }
    for _ in 0..1 + random.below(16) {
        match random.below(8) {
            0 => text.extend_from_slice(random.of(&WHOLE).as_bytes()),
            1 => text.extend_from_slice(random.of(&DAMAGE)),
            2 => text.extend_from_slice(random.of(&FEW).as_bytes()),
            3 => text.push(random.next() as u8),
            _ => text.extend_from_slice(random.of(&PIECES).as_bytes()),
        }
        if random.one_in(3) {
            text.push(b' ');
        }
    }
    if random.one_in(2) {
        text.push(b'}');
    }
    text
}

/// Small texts that a rule, a reading or a known difference names.
pub const CORNERS: [&str; 136] = [
    "a = { b ~ c | \"x\"* }",
    "a={b~c~d}",
    "a={b~(c~d)}",
    "a={b|c~d}",
    "a={b~c|d}",
    "a={b|c|d}",
    "a={!b*}",
    "a={(!b)*}",
    "a={&!b?}",
    "a={b{0}}",
    "a={b{,0}}",
    "a={b{0,}}",
    "a={b{3,2}}",
    "a={b{0,0}}",
    "a={b{00}}",
    "a={b{4294967295}}",
    "a={b{4294967296}}",
    "a={b{4294967296,0}}",
    "a={b{0,4294967296}}",
    "a={b{4294967296,}}",
    "a={b{,4294967296}}",
    "a={b{-1}}",
    "a={b{-0}}",
    "a={b{}}",
    "a={b{,}}",
    "a={b{1 2}}",
    "a={b{1,2,}}",
    "a={\"\\x80\"}",
    "a={\"\\u{1}\"}",
    "a={\"\\u{01}\"}",
    "a={\"\\u{0000001}\"}",
    "a={\"\\u{d800}\"}",
    "a={\"\\u{dfff}\"}",
    "a={\"\\u{110000}\"}",
    "a={\"\\u{10FFFF}\"}",
    "a={\"\\\\u{d800}\"}",
    "a={\"\\x+4\"}",
    "a={\"\\u{+4}\"}",
    "a={\"\\X41\"}",
    "a={\"\\'\\\"\\r\\n\\t\\0\\\\\"}",
    "a={'\\u{d800}'..'b'}",
    "a={'\\\\'..'\\''}",
    "a={'''..'\"'}",
    "a={''..'a'}",
    "a={'ab'..'c'}",
    "a={'b'}",
    "a={'b'..}",
    "a={^\"k\"}",
    "a={^ \"k\"}",
    "a={^/**/\"k\"}",
    "a={^'k'}",
    "r = { (a)* }",
    "r={(a)*?}",
    "r={((a)*)?}",
    "r={(a)}",
    "r={PUSH( a ) *}",
    "r={PUSH_LITERAL( \"x\" )+}",
    "r={!PUSH_LITERAL(\"x\")}",
    "r={PUSH_LITERAL(x)}",
    "r={PUSH_LITERAL(\"\\u{d800}\")}",
    "r={PUSH_LITERAL(\"x\") ~ a{0}}",
    "r={PUSH}",
    "r={PUSH_LITERAL}",
    "r={PUSHx}",
    "r={PUSH_}",
    "r={PUSH_LITERALx(\"a\")}",
    "PUSH={a}",
    "PUSH_LITERAL={a}",
    "PEEK={PEEK}",
    "r={PEEK[..]}",
    "r={PEEK[1..-1]}",
    "r={PEEK[1]}",
    "r={PEEK [ -01 .. 02 ]}",
    "r={PEEK[-0..]}",
    "r={PEEK[2147483648..]}",
    "r={PEEK[..-2147483649]}",
    "r={PEEK[-2147483648..2147483647]}",
    "r={a[1..2]}",
    "r={#t = a}",
    "r={#t = a~b}",
    "r={(#t = a)}",
    "r={#t = !a*}",
    "r={#PUSHx = a}",
    "r={#t = #u = a}",
    "r={!#t = a}",
    "r={# t = a}",
    "r={#t a}",
    "r={#1 = a}",
    "r={|a}",
    "r={||a}",
    "r={(|a)}",
    "r={(||a)}",
    "r={PUSH(|a)}",
    "r={a|}",
    "r={~a}",
    "_=_{_}",
    "a=__{b}",
    "a=@{b}b=${c}c=!{d}",
    "a=@@{b}",
    "a={b}c={d}",
    "/// x",
    "//! x",
    "//! x\n/// y\na={b}",
    "/// x\n//! y",
    "a={b}//! x",
    "a={///x\nb}",
    "////",
    "//!/",
    "// x",
    "/**/a={b}",
    "/*/*/a={b}",
    "/*/a={b}",
    "/* /* */a={b}",
    "/***/a={b}",
    "/* /*/a={b}",
    "a={b}/*",
    "a={b}\r",
    "a\r\n=\r\n{b}",
    "r={(\na)}",
    "r={(\na)*}",
    "r={PUSH(\na)}",
    "r={(\na~b)}",
    "r={\r\n!\n a ~ b}",
    "r={#t\n=\n\"x\ny\"~b}",
    "r={a{2,1}}",
    "r={a{2,2}}",
    "r={a{03,2}}",
    "r={a{2,02}}",
    "r={a{5, 0}}",
    "r={a{4294967296, 1}}",
    "r={a{4294967295,4294967294}}",
    "r={a{3,2}{0}}",
    "r={a{0}{3,2}}",
    "r={PUSH_LITERAL(\"x\"){3,2}}",
    "r={a{2,1}~\"\\u{d800}\"}",
    "r={PEEK[3..2]}",
];

/// Texts on both sides of every limit.
pub fn limits() -> Vec<Vec<u8>> {
    let mut texts: Vec<Vec<u8>> = Vec::new();
    let mut add = |text: String| texts.push(text.into_bytes());
    for deep in [1, 2, 1_023, 1_024, 1_025, 1_026] {
        let (open, close) = ("(".repeat(deep), ")".repeat(deep));
        add(format!("a={{{open}b{close}}}"));
        add(format!("a={{{open}b{close}*}}"));
        add(format!("a={{{open}"));
        add(format!("a={{{}b{close}}}", "PUSH(".repeat(deep)));
        add(format!("a={{{open}PUSH_LITERAL(\"x\"){close}}}"));
        add(format!("a={{{open}PUSH(b){close}}}"));
        add(format!("a={{{open}){close}}}"));
        add(format!("a={{{}b{}}}", "(#t=".repeat(deep), ")*".repeat(deep)));
        add(format!("a={{{}}}", vec![format!("{open}b{close}"); 3].join("~")));
        // Each start is on a line of its own, and moves.
        let (open, close) = ("\r\n(\n".repeat(deep), ")\n*".repeat(deep));
        add(format!("a={{{open}b\n~\nc{close}}}"));
        add(format!("a={{c~\n{open}b{close}\n|\nc}}"));
    }
    for count in [4_094, 4_095, 4_096, 4_097, 4_098] {
        add(format!("a={{{}b}}", "!".repeat(count - 1)));
        add(format!("a={{b{}}}", "*".repeat(count - 1)));
        add(format!("a={{#t={}b}}", "!".repeat(count - 1)));
        add("a={b}".repeat(count / 4));
        add(format!("a={{b{}}}", "~b".repeat(count / 2)));
        add(format!("a={{!b{}}}", "|b".repeat(count / 2)));
        add(format!("a={{b{}}}", "\n~\r\n\"\n\"".repeat(count / 2)));
    }
    for count in [1_022, 1_023, 1_024, 1_025, 1_026] {
        add("a={b}".repeat(count));
        add("a={b*}///\n".repeat(count));
        add(format!("{}a={{", "a={b}".repeat(count)));
        add(format!("{}a={{b{{0}}}}", "a={b}".repeat(count)));
    }
    for bytes in [65_534, 65_535, 65_536, 65_537, 65_538, 70_000] {
        let pad = |text: &str, with: &str| format!("{}{text}", with.repeat(bytes - text.len()));
        add(pad("a={b}", " "));
        add(pad("a={b~\n\"\n\"|(\nc)*}", "\n"));
        add(pad("", " "));
        add(format!("a={{\"{}\"}}", "x".repeat(bytes - 6)));
        add(format!("a={{\"{}\"}}", "\\n".repeat((bytes - 6) / 2)));
        add(format!("{}={{b}}", "a".repeat(bytes - 4)));
        add(format!("a={{b{{{}1}}}}", "0".repeat(bytes - 8)));
        add(format!("a={{b{{{}}}}}", "9".repeat(bytes - 7)));
        add(format!("a={{PEEK[-{}1..]}}", "0".repeat(bytes - 14)));
        add(format!("a={{b}}//{}", "x".repeat(bytes - 7)));
        add(format!("a={{b}}///{}", "x".repeat(bytes - 8)));
        add(format!("a={{b}}/*{}*/", "x".repeat(bytes - 9)));
        add(format!("a={{#{}=b}}", "t".repeat(bytes - 7)));
    }
    for count in [16_000, 16_380] {
        add(format!("{}{}a={{b}}", "/*".repeat(count), "*/".repeat(count)));
        add(format!("{}{}a={{b}}", "/*".repeat(count), "*/".repeat(count - 1)));
    }
    add(format!("a={{{}b}}", "!".repeat(60_000)));
    add(format!("a={{b{}}}", "*".repeat(60_000)));
    add(format!("a={{b{}}}", "~b".repeat(30_000)));
    add(format!("a={{b{}}}", "|b".repeat(30_000)));
    add(format!("a={{b{}}}", "{1}".repeat(20_000)));
    add("a={b}".repeat(13_000));
    add("///\n".repeat(16_000));
    add("//!\n".repeat(16_000));
    for bad in [&b"\xff"[..], b"\xc0\x80", b"\xe0\x9f\xbf", b"\xed\xa0\x80", b"\xf4\x90\x80\x80"] {
        for before in [&b""[..], b"a={b}", b"a={\"", b"%", "é€😀".as_bytes()] {
            texts.push([before, bad, b"\"}"].concat());
            texts.push([before, &bad[..bad.len() - 1]].concat());
        }
    }
    for bad in [&b"\xc3"[..], b"\xe2\x82", b"\xf0\x9f\x98", b"\xf0\x9f", b"\x80"] {
        texts.push([b"a={\"", bad].concat());
        texts.push([b"a={\"", bad, b"x\"}"].concat());
    }
    texts
}

/// Texts with as many tokens as one of the product's tables has rows, one less or one more; good ones and such as are refused
/// by their last token, as short as they are and on both sides of the lengths that decide about tables.
fn listings() -> Vec<Vec<u8>> {
    let mut texts = Vec::new();
    for rows in [1_536, 4_096, 12_288] {
        for tokens in [rows - 1, rows, rows + 1] {
            // ten tokens a term with its `~`, four around them, and a predicate for each that is left
            let (terms, left) = ((tokens - 3) / 10, (tokens - 3) % 10);
            let body = format!("{}{}", "!".repeat(left), vec!["((((b))))"; terms].join("~"));
            for end in ["}", "", "~", "%", "{0"] {
                let text = format!("a={{{body}{end}");
                for bytes in [0usize, 2_048, 2_049, 12_288, 12_289] {
                    let before = "\n".repeat(bytes.saturating_sub(text.len()));
                    texts.push(format!("{before}{text}").into_bytes());
                }
            }
        }
    }
    texts
}

/// A text around one literal, which mostly has a fault.
pub fn broken(random: &mut Random) -> Vec<u8> {
    second::broken::text(&mut |n| random.below(n)).text
}

/// What may stand in a line comment beside letters: what ends no line, though it looks like it, and characters of more bytes.
const IN_LINE: [&str; 10] = ["\r", "\r\r", "\t", "\u{b}", "\u{c}", "\u{e}", "\0", "é", "€", "/*"];
/// And in a block comment or a string.
const IN_BLOCK: [&str; 6] = ["\n", "\r\n", "\r", "\n\n", "é", "\t"];

/// Up to 99 letters, with others of `pieces` anywhere among them.
fn letters(random: &mut Random, pieces: &[&str], text: &mut Vec<u8>) {
    let seldom = random.of(&[4, 20, 80]);
    for _ in 0..random.below(100) {
        let piece = if random.one_in(seldom) { random.of(pieces) } else { "x" };
        text.extend_from_slice(piece.as_bytes());
    }
}

/// What may stand between two tokens, some of it long.
fn gap(random: &mut Random, text: &mut Vec<u8>) {
    match random.below(8) {
        0 | 1 => {}
        2 | 3 => text.push(b' '),
        4 => text.push(b'\n'),
        5 => {
            let blanks = random.of(&[&[" ", "\n"][..], &[" ", "\t", "\r\n"], &["\n"]]);
            for _ in 0..random.below(150) {
                text.extend_from_slice(random.of(blanks).as_bytes());
            }
        }
        6 => {
            text.extend_from_slice(b"// ");
            letters(random, &IN_LINE, text);
            text.extend_from_slice(random.of(&["\n", "\r\n"]).as_bytes());
        }
        _ => {
            text.extend_from_slice(b"/*");
            letters(random, &IN_BLOCK, text);
            text.extend_from_slice(b"*/");
        }
    }
}

/// A text with long comments, docs, strings and rows of blanks, in which line ends and what looks like them stand anywhere:
/// the product goes past such bytes many at a time.
pub fn long(random: &mut Random) -> Vec<u8> {
    let mut text = Vec::new();
    for _ in 0..1 + random.below(3) {
        gap(random, &mut text);
        if random.one_in(4) {
            text.extend_from_slice(b"///");
            letters(random, &IN_LINE, &mut text);
            text.extend_from_slice(random.of(&["\n", "\r\n"]).as_bytes());
        }
        text.extend_from_slice(b"r = {");
        for term in 0..1 + random.below(4) {
            if term > 0 {
                text.push(random.of(b"~|"));
            }
            gap(random, &mut text);
            let [opener, closer] =
                random.of(&[["", ""], ["!", ""], ["(", ")*"], ["#t = ", ""], ["PUSH(", ")"]]);
            text.extend_from_slice(opener.as_bytes());
            gap(random, &mut text);
            if random.one_in(3) {
                text.push(b'"');
                letters(random, &IN_BLOCK, &mut text);
                text.push(b'"');
            } else {
                text.push(b'a');
            }
            gap(random, &mut text);
            text.extend_from_slice(closer.as_bytes());
            gap(random, &mut text);
        }
        text.push(b'}');
    }
    gap(random, &mut text);
    text
}

/// A text rich in pairs of numbers.
pub fn pairs(random: &mut Random) -> Vec<u8> {
    second::pairs::text(&mut |n| random.below(n)).text
}

/// Every text of a run, in order. `scale` is in hundredths of the full run.
pub fn all(seed: u64, scale: usize, f: &mut dyn FnMut(Source, &[u8])) {
    for text in CORNERS {
        f(Source::Corner, text.as_bytes());
    }
    for text in limits().iter().chain(&listings()) {
        f(Source::Limit, text);
    }
    exhaustive(usize::from(scale >= 50), &mut |text| f(Source::Exhaustive, text));
    let mut random = Random(seed);
    let mut grower = Grower::new(Random(seed ^ 0x5eed));
    for _ in 0..3_000 * scale {
        let size = random.of(&[1, 2, 4, 8, 8, 16, 30]);
        let text = grower.grow(size);
        f(Source::Grown, &text);
        let text = damaged(&mut random, &text);
        f(Source::Damaged, &text);
        if random.one_in(3) {
            let text = soup(&mut random);
            f(Source::Soup, &text);
        }
    }
    // Some long ones, up to the limit of the text.
    for _ in 0..scale / 2 {
        grower.faults = 0;
        let mut text = Vec::new();
        let most = random.of(&[2_000, 10_000, 40_000, 60_000]);
        while text.len() < most {
            let more = grower.grow(200);
            let has_doc = more.windows(3).any(|w| w == b"//!");
            if !has_doc {
                text.extend_from_slice(&more);
                text.push(b'\n');
            }
        }
        text.truncate(65_536);
        f(Source::Grown, &text);
        let text = damaged(&mut random, &text);
        f(Source::Damaged, &text);
    }
    let mut random = Random(seed ^ 0xbac5);
    for _ in 0..11_000 * scale {
        f(Source::Broken, &broken(&mut random));
    }
    let mut random = Random(seed ^ 0x1096);
    for _ in 0..4_000 * scale {
        let text = long(&mut random);
        f(Source::Long, &text);
        if random.one_in(4) {
            f(Source::Long, &damaged(&mut random, &text));
        }
    }
    let mut random = Random(seed ^ 0x9a125);
    for _ in 0..2_000 * scale {
        let text = pairs(&mut random);
        f(Source::Pairs, &text);
        if random.one_in(4) {
            f(Source::Damaged, &damaged(&mut random, &text));
        }
    }
}
