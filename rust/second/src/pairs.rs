//! Texts rich in pairs `{n, m}`. What is wrong with a value is known while it is made, so the answer
//! that is due at each level and edition is known without reading the text.

use crate::read::Edition;
use crate::Refusal;

/// A text whose tokens and structure are good, and its values' faults.
#[derive(Clone, Debug, Default)]
pub struct Pairs {
    pub text: Vec<u8>,
    /// Numbers and places, from left to right: 5, 6, 7, 8, 13 and 15.
    pub faults: Vec<(u64, usize)>,
    /// Pairs of two good numbers: the minimum below the maximum, equal to it, above it.
    pub pairs: [u64; 3],
    /// Numbers with leading zeros.
    pub zeros: u64,
}

impl Pairs {
    /// The refusal that is due, all the room in the world being there.
    pub fn refusal(&self, tagged: bool, edition: Edition) -> Option<Refusal> {
        let counts = |number| match number {
            13 => !tagged,
            15 => edition == Edition::Second,
            _ => true,
        };
        let first = self.faults.iter().find(|(number, _)| counts(*number));
        first.map(|(number, place)| Refusal { number: *number, place: *place as u64 })
    }
}

/// What may stand between two tokens. Pairs in comments are nothing.
const BLANKS: [&str; 13] = [
    "",
    "",
    "",
    "",
    " ",
    "\n",
    "\r\n",
    "\t",
    "/*,*/",
    "// {3,2}\n",
    "/*{9,1}*/",
    "/*/**/\n*/",
    "  ",
];

/// Digits without leading zeros, so that 0 is no digit at all. The largest that fit, and such as are
/// in another order as words than as numbers.
const NUMBERS: [&str; 19] = [
    "1",
    "2",
    "3",
    "9",
    "10",
    "11",
    "12",
    "99",
    "100",
    "255",
    "256",
    "65535",
    "65536",
    "999999999",
    "1000000000",
    "4294967294",
    "4294967295",
    "2147483647",
    "2147483648",
];
/// Numbers above 4,294,967,295.
const OVER: [&str; 6] = [
    "4294967296",
    "4294967297",
    "9999999999",
    "42949672950",
    "18446744073709551616",
    "100000000000000000000000000000",
];

/// A text of some terms. `below` gives a number below the one that it is given.
pub fn text(below: &mut dyn FnMut(usize) -> usize) -> Pairs {
    let mut maker = Maker { below, made: Pairs::default(), left: 0 };
    for _ in 0..1 + (maker.below)(2) {
        maker.left = 1 + (maker.below)(5);
        maker.rule();
    }
    maker.made
}

struct Maker<'a> {
    below: &'a mut dyn FnMut(usize) -> usize,
    made: Pairs,
    /// Terms that may yet be made.
    left: usize,
}

impl Maker<'_> {
    fn one_in(&mut self, n: usize) -> bool {
        (self.below)(n) == 0
    }

    fn of<'t>(&mut self, pieces: &[&'t str]) -> &'t str {
        pieces[(self.below)(pieces.len())]
    }

    /// A token and blanks; the token's place.
    fn put(&mut self, token: &str) -> usize {
        let place = self.made.text.len();
        self.made.text.extend_from_slice(token.as_bytes());
        let blank = self.of(&BLANKS);
        self.made.text.extend_from_slice(blank.as_bytes());
        place
    }

    fn fault(&mut self, number: u64, place: usize) {
        self.made.faults.push((number, place));
    }

    fn rule(&mut self) {
        for token in ["r", "=", "{"] {
            self.put(token);
        }
        self.expression();
        self.put("}");
    }

    fn expression(&mut self) {
        self.term();
        while self.left > 0 && !self.one_in(3) {
            let operator = self.of(&["~", "|"]);
            self.put(operator);
            self.term();
        }
    }

    fn term(&mut self) {
        self.left = self.left.saturating_sub(1);
        if self.one_in(6) {
            self.put("#t");
            self.put("=");
        }
        if self.one_in(6) {
            self.put("!");
        }
        self.node();
        while !self.one_in(3) {
            self.postfix();
        }
    }

    fn node(&mut self) {
        match (self.below)(14) {
            0 | 1 if self.left > 0 => {
                let opener = self.of(&["(", "PUSH"]);
                self.put(opener);
                if opener == "PUSH" {
                    self.put("(");
                }
                self.expression();
                self.put(")");
            }
            2 => {
                let place = self.put("PUSH_LITERAL");
                self.fault(13, place);
                self.put("(");
                self.put("\"x\"");
                self.put(")");
            }
            // A slice is no pair, whatever its numbers.
            3 => {
                for token in ["PEEK", "[", "3", "..", "2", "]"] {
                    self.put(token);
                }
            }
            4 if self.one_in(2) => {
                self.put("PEEK");
                self.put("[");
                let place = self.put("2147483648");
                self.fault(7, place);
                self.put("..");
                self.put("]");
            }
            5 if self.one_in(2) => {
                let place = self.put("\"a\\u{d800}\"");
                self.fault(8, place + 2);
            }
            6 if self.one_in(2) => {
                self.put("'a'");
                self.put("..");
                let place = self.put("'\\u{110000}'");
                self.fault(8, place + 1);
            }
            // So is one in a string.
            7 => drop(self.put("\"{3,2}\"")),
            8 => drop(self.put("^\"{9, 1}\"")),
            _ => drop(self.put("a")),
        }
    }

    fn postfix(&mut self) {
        match (self.below)(12) {
            0 => drop(self.put("?")),
            1 => drop(self.put("*")),
            2 => {
                self.put("{");
                let number = self.number();
                let place = self.put_number(number);
                self.alone(number, place, true);
                self.put("}");
            }
            3 => {
                self.put("{");
                let number = self.number();
                let place = self.put_number(number);
                self.alone(number, place, false);
                self.put(",");
                self.put("}");
            }
            4 => {
                self.put("{");
                self.put(",");
                let number = self.number();
                let place = self.put_number(number);
                self.alone(number, place, true);
                self.put("}");
            }
            _ => self.pair(),
        }
    }

    /// Seldom 0 or too large.
    fn number(&mut self) -> &'static str {
        match (self.below)(24) {
            0 => self.of(&OVER),
            1 | 2 => "",
            _ => self.of(&NUMBERS),
        }
    }

    /// With leading zeros, which are free.
    fn put_number(&mut self, number: &str) -> usize {
        let least = usize::from(number.is_empty());
        let more = if self.one_in(6) { 1 + (self.below)(12) } else { 0 };
        self.made.zeros += u64::from(more > 0);
        self.put(&format!("{}{number}", "0".repeat(least + more)))
    }

    /// The fault of a number by itself; a maximum, or an exact count, may not be 0.
    fn alone(&mut self, number: &str, place: usize, most: bool) {
        if is_over(number) {
            self.fault(5, place);
        } else if most && number.is_empty() {
            self.fault(6, place);
        }
    }

    fn pair(&mut self) {
        self.put("{");
        let least = self.number();
        let least_place = self.put_number(least);
        self.put(",");
        let most = if self.one_in(5) { least } else { self.number() };
        let faults = self.made.faults.len();
        let most_place = self.put_number(most);
        self.alone(least, least_place, false);
        self.alone(most, most_place, true);
        self.put("}");
        if self.made.faults.len() > faults {
            return;
        }
        let order = (least.len(), least).cmp(&(most.len(), most));
        self.made.pairs[(order as i8 + 1) as usize] += 1;
        if order.is_gt() {
            self.fault(15, least_place);
        }
    }
}

/// Above 4,294,967,295.
fn is_over(number: &str) -> bool {
    (number.len(), number) > (10, "4294967295")
}
