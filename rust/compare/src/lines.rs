//! Tables that the matcher runs, and lines for them: random ones, ones that a rule may well match,
//! and damaged copies of both.

use oracle::Tables;
use second::{NODE_RECORD, RULE_RECORD};

use crate::Random;

/// Characters of one to four bytes, at both ends of each length, and some that only differ by case.
const POOL: [char; 30] = [
    'a',
    'b',
    'A',
    'B',
    'k',
    'K',
    'z',
    'Z',
    '@',
    '[',
    '`',
    '{',
    ';',
    '0',
    '9',
    '\0',
    '\r',
    '\u{7f}',
    '\u{80}',
    'é',
    'É',
    '\u{7ff}',
    '\u{800}',
    '€',
    '\u{212a}',
    '\u{d7ff}',
    '\u{e000}',
    '\u{ffff}',
    '\u{10000}',
    '\u{10ffff}',
];

/// A few characters, such as a grammar and its lines share.
pub fn characters(random: &mut Random) -> Vec<char> {
    let count = 1 + random.below(5);
    let wide = random.one_in(2);
    (0..count).map(|_| random.of(if wide { &POOL } else { &POOL[..15] })).collect()
}

fn push(line: &mut Vec<u8>, character: char) {
    line.extend_from_slice(character.encode_utf8(&mut [0; 4]).as_bytes());
}

/// Makes tables that give none of 30 and 31, and 32 only where it is wanted.
pub struct Maker {
    pub random: Random,
    pub characters: Vec<char>,
    made: Tables,
    names: Vec<(u32, u32)>,
}

impl Maker {
    pub fn new(random: Random) -> Maker {
        let (made, names) = (Tables::default(), Vec::new());
        Maker { random, characters: Vec::new(), made, names }
    }

    /// Tables of so many rules with trees of some `size`.
    pub fn make(&mut self, rules: usize, size: usize) -> Tables {
        self.characters = characters(&mut self.random);
        self.made = Tables::default();
        self.names.clear();
        let any = self.keep(b"ANY");
        for rule in 0..rules {
            // Beginnings of one another, and of ANY.
            let name = ["r", "rr", "A", "AN", "ANYr", "_", "any", "r_0"];
            let name = name.get(rule).map_or_else(|| format!("r{rule}"), |name| name.to_string());
            let part = self.keep(name.as_bytes());
            self.names.push(part);
        }
        self.names.push(any);
        for rule in 0..rules {
            self.tree(size);
            let (offset, length) = self.names[rule];
            let (mark, root) = (self.random.below(5) as u32, self.last());
            let span = [self.random.next() as u32, self.random.below(99) as u32];
            self.made.rules.extend([offset, length, mark, root]);
            self.made.rules.extend(span);
        }
        std::mem::take(&mut self.made)
    }

    fn keep(&mut self, bytes: &[u8]) -> (u32, u32) {
        let part = (self.made.store.len() as u32, bytes.len() as u32);
        self.made.store.extend_from_slice(bytes);
        part
    }

    fn put(&mut self, kind: u32, p: u32, q: u32, r: u32) {
        let unused = self.random.of(&[0, 1, u32::MAX]);
        self.made.nodes.extend([kind, unused, unused, p, q, r, unused]);
    }

    fn last(&self) -> u32 {
        (self.made.nodes.len() / NODE_RECORD - 1) as u32
    }

    fn character(&mut self) -> char {
        self.characters[self.random.below(self.characters.len())]
    }

    fn leaf(&mut self) {
        match self.random.below(10) {
            0..=3 => {
                let length = self.random.of(&[0, 1, 1, 1, 1, 2, 2, 3]);
                let mut text = Vec::new();
                for _ in 0..length {
                    let character = self.character();
                    push(&mut text, character);
                }
                let (offset, length) = self.keep(&text);
                let kind = self.random.of(&[1, 1, 2]);
                self.put(kind, offset, length, 7);
            }
            4 | 5 => {
                let (a, b) = (u32::from(self.character()), u32::from(self.character()));
                let turned = self.random.one_in(8);
                let (low, high) = if turned { (a, b) } else { (a.min(b), a.max(b)) };
                self.put(3, low, high, 7);
            }
            // a rule's name, or ANY
            _ => {
                let (offset, length) = self.names[self.random.below(self.names.len())];
                self.put(4, offset, length, 7);
            }
        }
    }

    fn tree(&mut self, size: usize) {
        if size <= 1 {
            return self.leaf();
        }
        match self.random.below(16) {
            kind @ 0..=8 => {
                let left = 1 + self.random.below(size - 1);
                self.tree(left);
                let left_root = self.last();
                self.tree((size - 1 - left).max(1));
                let right_root = self.last();
                self.put(if kind < 5 { 8 } else { 9 }, left_root, right_root, 7);
            }
            9 => self.lone(size, 6, 7, 7),
            10 => self.lone(size, 7, 7, 7),
            _ => {
                let kind = 10 + self.random.below(7) as u32;
                let most: u32 = if self.random.one_in(40) { u32::MAX } else { 4 };
                let least = self.random.below(4) as u32;
                let (q, r) = match kind {
                    13 | 14 if most > 4 && self.random.one_in(4) => (most, 7),
                    13 | 14 => (least, 7),
                    15 => (self.random.of(&[0, 1, 2, 3, most]), 7),
                    16 => (least, least + self.random.of(&[0, 0, 1, 2])),
                    _ => (7, 7),
                };
                let r = if kind == 16 && most > 4 { most } else { r };
                self.lone(size, kind, q, r);
            }
        }
    }

    fn lone(&mut self, size: usize, kind: u32, q: u32, r: u32) {
        self.tree(size - 1);
        self.put(kind, self.last(), q, r);
    }
}

/// Makes lines for tables.
pub struct Liner<'a> {
    random: &'a mut Random,
    characters: &'a [char],
    /// Nodes to go to yet: rules may lead to themselves without end.
    left: usize,
}

impl<'a> Liner<'a> {
    pub fn new(random: &'a mut Random, characters: &'a [char]) -> Liner<'a> {
        Liner { random, characters, left: 0 }
    }

    fn character(&mut self) -> char {
        if self.characters.is_empty() || self.random.one_in(25) {
            return self.random.of(&POOL);
        }
        self.characters[self.random.below(self.characters.len())]
    }

    /// A line for a rule: random, or one that it may match, or that one damaged.
    pub fn line(&mut self, tables: &Tables, rule: usize) -> Vec<u8> {
        let mut line = Vec::new();
        match self.random.below(8) {
            0 | 1 => {
                let length = self.random.of(&[0, 1, 1, 2, 3, 4, 6, 10, 30]);
                for _ in 0..length {
                    let character = self.character();
                    push(&mut line, character);
                }
            }
            which => {
                if let Some(root) =
                    tables.rules.chunks_exact(RULE_RECORD).nth(rule).map(|rule| rule[3])
                {
                    self.left = 400;
                    self.derive(tables, root as usize, 0, &mut line);
                }
                if which > 4 {
                    self.damage(&mut line);
                }
                if self.random.one_in(3) {
                    let character = self.character();
                    push(&mut line, character);
                }
            }
        }
        line
    }

    /// Text that a node may match.
    fn derive(&mut self, tables: &Tables, node: usize, depth: usize, line: &mut Vec<u8>) {
        let Some(record) = tables.nodes.chunks_exact(NODE_RECORD).nth(node) else { return };
        let [kind, _, _, p, q, r, _] = *record else { return };
        if depth > 24 || line.len() > 90 || self.left == 0 {
            return;
        }
        self.left -= 1;
        let text = || tables.store.get(p as usize..).and_then(|rest| rest.get(..q as usize));
        let child = p as usize;
        let mut random = Random(self.random.next());
        match kind {
            1 => line.extend_from_slice(text().unwrap_or(b"")),
            2 => {
                let from = line.len();
                line.extend_from_slice(text().unwrap_or(b""));
                for byte in &mut line[from..] {
                    if byte.is_ascii_alphabetic() && random.one_in(2) {
                        *byte ^= 32;
                    }
                }
            }
            3 => {
                let (low, high) = (p.min(q), p.max(q));
                let number = low + random.below((high - low) as usize + 1) as u32;
                let number = random.of(&[low, high, number]);
                push(line, char::from_u32(number).unwrap_or('\u{d7ff}'));
            }
            4 => {
                let name = text();
                let mut rules = tables.rules.chunks_exact(RULE_RECORD);
                let rule = rules.find(|rule| {
                    let of = tables.store.get(rule[0] as usize..);
                    of.and_then(|rest| rest.get(..rule[1] as usize)) == name
                });
                match rule {
                    Some(rule) => self.derive(tables, rule[3] as usize, depth + 1, line),
                    None => {
                        let character = self.character();
                        push(line, character);
                    }
                }
            }
            6 if random.one_in(6) => self.derive(tables, child, depth + 1, line),
            8 => {
                self.derive(tables, child, depth + 1, line);
                self.derive(tables, q as usize, depth + 1, line);
            }
            9 => {
                let child = if random.one_in(2) { child } else { q as usize };
                self.derive(tables, child, depth + 1, line);
            }
            10..=16 => {
                let (least, most) = match kind {
                    10 => (0, 1),
                    11 => (0, u32::MAX),
                    12 => (1, u32::MAX),
                    13 => (q, q),
                    14 => (q, u32::MAX),
                    15 => (0, q),
                    _ => (q, r),
                };
                let more = random.of(&[0, 0, 1, 1, 2, 5]).min(most.saturating_sub(least));
                for _ in 0..least.min(6) + more {
                    self.derive(tables, child, depth + 1, line);
                }
            }
            17 | 19 => self.derive(tables, child, depth + 1, line),
            _ => (),
        }
    }

    /// A character more, less or other, or two of them exchanged. It stays UTF-8 if it was.
    fn damage(&mut self, line: &mut Vec<u8>) {
        let mut all: Vec<char> = String::from_utf8_lossy(line).chars().collect();
        for _ in 0..1 + self.random.below(2) {
            let at = self.random.below(all.len() + 1);
            let character = self.character();
            match self.random.below(5) {
                0 => all.insert(at, character),
                1 if at < all.len() => all[at] = character,
                2 if at < all.len() => {
                    all.remove(at);
                }
                3 if at < all.len() => {
                    let other = self.random.below(all.len());
                    all.swap(at, other);
                }
                _ => all.truncate(at),
            }
        }
        *line = all.into_iter().collect::<String>().into_bytes();
    }

    /// Broken in a place: a byte put in, taken out or changed, wherever that is.
    pub fn broken(&mut self, line: &mut Vec<u8>) {
        let at = self.random.below(line.len() + 1);
        let byte = self.random.of(&[0x80, 0xbf, 0xc0, 0xc2, 0xe0, 0xed, 0xf0, 0xf4, 0xf5, 0xff]);
        match self.random.below(4) {
            0 if at < line.len() => line[at] = byte,
            1 if at < line.len() => {
                line.remove(at);
            }
            2 => line.extend_from_slice(self.random.of(&[
                &b"\xe2\x82"[..],
                b"\xf0\x9f\x98",
                b"\xed\xa0\x80",
                b"\xf4\x90\x80\x80",
                b"\xc1\x81",
                b"\xe0\x9f\xbf",
                b"\xf0\x8f\xbf\xbf",
            ])),
            _ => line.insert(at, byte),
        }
    }
}

/// A text of some lines, with ends of all sorts.
pub fn text(random: &mut Random, characters: &[char], tables: &Tables, rule: usize) -> Vec<u8> {
    let mut text = Vec::new();
    let count = random.of(&[0, 1, 1, 2, 3, 4, 7]);
    for _ in 0..count {
        let mut liner = Liner::new(random, characters);
        let mut line = liner.line(tables, rule);
        if random.one_in(8) {
            Liner::new(random, characters).broken(&mut line);
        }
        text.extend(line);
        let ends: [&[u8]; 9] =
            [b"\n", b"\n", b"\n", b"\n", b"\r\n", b"\r\n", b"\r\r\n", b"\n\n", b"\n\r\n"];
        text.extend_from_slice(random.of(&ends));
    }
    if random.one_in(2) {
        text.extend(Liner::new(random, characters).line(tables, rule));
        if random.one_in(4) {
            text.push(b'\r');
        }
    }
    text
}

/// Good tables with something in them that is 31 or 32, in every order.
pub fn spoilt(random: &mut Random, made: &Tables) -> Tables {
    let mut made = made.clone();
    for _ in 0..1 + random.below(2) {
        let (nodes, rules) = (made.nodes.len() / NODE_RECORD, made.rules.len() / RULE_RECORD);
        if rules == 0 {
            break;
        }
        let at = random.below(nodes) * NODE_RECORD;
        match random.below(8) {
            // a kind that has no meaning here
            0 if (10..=16).contains(&made.nodes[at]) => made.nodes[at] = 17,
            0 | 1 if matches!(made.nodes[at], 1 | 2) => made.nodes[at] = 18,
            1 if made.nodes[at] == 3 => (made.nodes[at], made.nodes[at + 4]) = (5, 1),
            2 if (10..=16).contains(&made.nodes[at]) => {
                made.nodes[at] = 16;
                made.nodes[at + 4] = random.of(&[1, 2, u32::MAX]);
                made.nodes[at + 5] = made.nodes[at + 4] - 1;
            }
            2 if (10..=16).contains(&made.nodes[at]) || made.nodes[at] == 6 => {
                // a tag, whose name stands at the store's front
                made.nodes[at] = 19;
                (made.nodes[at + 4], made.nodes[at + 5]) = (0, 3);
            }
            // a name without a rule
            3 if made.nodes[at] == 4 => {
                made.nodes[at + 3] = made.store.len() as u32;
                made.nodes[at + 4] = 3;
                made.store.extend_from_slice(random.of(&[b"SOI", b"rRr", b"any"]));
            }
            // a rule called ANY, which stands at the store's front
            4 => {
                let rule = random.below(rules) * RULE_RECORD;
                (made.rules[rule], made.rules[rule + 1]) = (0, 3);
            }
            // a name used twice, by the same bytes or by other ones
            5 if rules > 1 => {
                let (one, other) =
                    (random.below(rules) * RULE_RECORD, random.below(rules) * RULE_RECORD);
                let (offset, length) = (made.rules[one], made.rules[one + 1]);
                let name = made.store[offset as usize..][..length as usize].to_vec();
                let again = made.store.len() as u32;
                made.store.extend(name);
                made.rules[other] = if random.one_in(2) { offset } else { again };
                made.rules[other + 1] = length;
            }
            6 => made.rules.truncate(0),
            _ => (),
        }
    }
    made
}
