//! Tables: random good ones, with store parts shared; false ones; those at the limits; small trees.

use oracle::Tables;
use second::{NODE_RECORD, RULE_RECORD};

use crate::trees::{self, Rule, Tree};
use crate::Random;

const WORDS: [&str; 9] = ["a", "b", "_", "foo_1", "PEEK", "ANY", "pUSH", "Z9", "PUS"];
const TAGS: [&str; 5] = ["t", "_", "PUSH", "PUSHx", "PUSH_LITERAL"];
const ASCII: [&str; 10] =
    ["", "x", "ab", "\"", "'", "\\", "\n\t\r\0", "\u{1}\u{1f}\u{7f}", " ~", "}"];
const OTHER: [&str; 6] = ["\u{a0}", "\u{80}", "€\u{301}", "😀", "\u{250}µ", "\u{10ffff}\u{fffe}"];

/// The characters of strings and of range ends.
#[derive(Clone, Copy, Debug, PartialEq, Eq)]
pub enum Characters {
    Ascii,
    /// Those of U+00A1 to U+024F too: all that must print as in the Rust.
    Letters,
    All,
}

impl Characters {
    pub const EACH: [Characters; 3] = [Characters::All, Characters::Letters, Characters::Ascii];
}

/// A character of U+00A1 to U+024F; often one that a mistake would be made with.
pub fn letter(random: &mut Random) -> char {
    let edges = ['\u{a1}', '\u{ac}', '\u{ad}', '\u{ae}', '\u{ff}', '\u{100}', '\u{24f}', 'µ'];
    if random.one_in(3) {
        return random.of(&edges);
    }
    char::from_u32(0xa1 + random.below(0x1af) as u32).expect("a character")
}

/// Grows good tables.
pub struct Grower {
    pub random: Random,
    pub characters: Characters,
    made: Tables,
    /// Parts of the store that can be used again: words, tags, strings.
    parts: [Vec<(u32, u32)>; 3],
}

impl Grower {
    pub fn new(random: Random) -> Grower {
        let (made, parts) = Default::default();
        Grower { random, characters: Characters::Ascii, made, parts }
    }

    /// Tables of some `rules` rules with trees of some `size`.
    pub fn grow(&mut self, rules: usize, size: usize) -> Tables {
        self.made = Tables::default();
        self.parts = Default::default();
        if self.random.one_in(4) {
            // Bytes that nobody uses needn't be UTF-8.
            self.made.store.push(0xff);
        }
        for _ in 0..rules {
            let (offset, length) = self.part(0);
            self.tree(size);
            let root = self.last();
            let mark = self.random.below(5) as u32;
            let span = [self.random.next() as u32, self.random.below(99) as u32];
            self.made.rules.extend([offset, length, mark, root]);
            self.made.rules.extend(span);
        }
        std::mem::take(&mut self.made)
    }

    fn part(&mut self, sort: usize) -> (u32, u32) {
        if !self.parts[sort].is_empty() && self.random.one_in(3) {
            let (offset, length) = self.random.of(&self.parts[sort]);
            // An ASCII part has parts.
            let bytes = &self.made.store[offset as usize..(offset + length) as usize];
            if sort == 2 && length > 1 && bytes.is_ascii() && self.random.one_in(2) {
                return (offset + 1, length - 1);
            }
            return (offset, length);
        }
        let text = match sort {
            0 => self.random.of(&WORDS).to_string(),
            1 => self.random.of(&TAGS).to_string(),
            _ => self.string(),
        };
        let part = (self.made.store.len() as u32, text.len() as u32);
        self.made.store.extend_from_slice(text.as_bytes());
        self.parts[sort].push(part);
        part
    }

    fn string(&mut self) -> String {
        if self.characters == Characters::All && self.random.one_in(3) {
            return self.random.of(&OTHER).to_string();
        }
        if self.characters == Characters::Ascii || self.random.one_in(2) {
            return self.random.of(&ASCII).to_string();
        }
        let after = self.random.of(&["", "", "m", "\"", "\\"]);
        (0..1 + self.random.below(3))
            .map(|_| letter(&mut self.random))
            .chain(after.chars())
            .collect()
    }

    fn end(&mut self) -> u32 {
        if self.characters == Characters::All && self.random.one_in(3) {
            return self.random.of(&[0x80, 0xa0, 0x250, 0xd7ff, 0xe000, 0x10ffff, 0x301]);
        }
        if self.characters != Characters::Ascii && self.random.one_in(2) {
            return letter(&mut self.random).into();
        }
        match self.random.below(4) {
            0 => self.random.of(&[0, 9, 10, 13, 34, 39, 92, 127, 11, 31]),
            _ => self.random.below(128) as u32,
        }
    }

    fn count(&mut self) -> u32 {
        self.random.of(&[0, 1, 2, 9, 10, 4_294_967_295, 1_000_000_000])
    }

    /// A number that nobody looks at.
    fn unused(&mut self) -> u32 {
        self.random.of(&[0, 0, 7, u32::MAX])
    }

    fn put(&mut self, kind: u32, p: u32, q: u32, r: u32) {
        let (start, end, line) = (self.unused(), self.unused(), self.unused());
        self.made.nodes.extend([kind, start, end, p, q, r, line]);
    }

    fn last(&self) -> u32 {
        (self.made.nodes.len() / NODE_RECORD).wrapping_sub(1) as u32
    }

    fn tree(&mut self, size: usize) {
        if size <= 1 {
            return self.leaf();
        }
        let unused = (self.unused(), self.unused());
        match self.random.below(20) {
            0..=7 => {
                // Long chains, too: often the same operator again on one side.
                let kind = 8 + self.random.below(2) as u32;
                let left = 1 + self.random.below(size.min(6));
                let left = if self.random.one_in(2) { left } else { (size - left).max(1) };
                self.tree(left.min(size - 1));
                let p = self.last();
                self.tree((size - 1).saturating_sub(left).max(1));
                let q = self.last();
                self.put(kind, p, q, unused.0);
            }
            8 | 9 => {
                let kind = self.random.of(&[6, 7]);
                self.lone(size, kind, unused.0, unused.1);
            }
            10..=12 => {
                let kind = self.random.of(&[10, 11, 12, 17]);
                self.lone(size, kind, unused.0, unused.1);
            }
            13 | 14 => {
                let (kind, count) = (self.random.of(&[13, 14, 15]), self.count());
                self.lone(size, kind, count, unused.1);
            }
            15 => {
                let (least, most) = (self.count(), self.count());
                self.lone(size, 16, least, most);
            }
            16 => {
                let (offset, length) = self.part(1);
                self.lone(size, 19, offset, length);
            }
            _ => self.leaf(),
        }
    }

    fn lone(&mut self, size: usize, kind: u32, q: u32, r: u32) {
        self.tree(size - 1);
        self.put(kind, self.last(), q, r);
    }

    fn leaf(&mut self) {
        let r = self.unused();
        match self.random.below(9) {
            0..=2 => {
                let (p, q) = self.part(0);
                self.put(4, p, q, r);
            }
            3..=5 => {
                let kind = self.random.of(&[1, 2, 18]);
                let (p, q) = self.part(2);
                self.put(kind, p, q, r);
            }
            6 | 7 => {
                let (p, q) = (self.end(), self.end());
                self.put(3, p, q, r);
            }
            _ => {
                let ends = [0, 1, u32::MAX, 0x8000_0000, 0x7fff_ffff, 12_345];
                let (p, end) = (self.random.of(&ends), self.random.of(&ends));
                let q = self.random.below(2) as u32;
                self.put(5, p, q, end);
            }
        }
    }
}

/// A copy with one to three faults; some turn out to be none.
pub fn falsified(random: &mut Random, tables: &Tables) -> Tables {
    let mut tables = tables.clone();
    for _ in 0..1 + random.below(3) {
        match random.below(12) {
            0..=5 if !tables.nodes.is_empty() => {
                let at = random.below(tables.nodes.len());
                tables.nodes[at] = other(random, tables.nodes[at]);
            }
            6 | 7 if !tables.rules.is_empty() => {
                let at = random.below(tables.rules.len());
                tables.rules[at] = other(random, tables.rules[at]);
            }
            8 if !tables.store.is_empty() => {
                let at = random.below(tables.store.len());
                tables.store[at] = random.of(&[0xff, 0x80, 0xc3, b'P', b'0', b'-', b' ']);
            }
            9 => {
                let (whole, of_nodes) = (random.one_in(2), random.one_in(2));
                let (table, record) = if of_nodes {
                    (&mut tables.nodes, NODE_RECORD)
                } else {
                    (&mut tables.rules, RULE_RECORD)
                };
                let cut = if whole { record } else { 1 + random.below(record) };
                table.truncate(table.len().saturating_sub(cut));
            }
            10 => {
                tables.store.pop();
            }
            11 if tables.rules.len() >= 2 * RULE_RECORD => tables.rules.rotate_left(RULE_RECORD),
            _ => {
                let record = [4, 0, 0, 0, 1, 0, 0];
                tables.nodes.extend(record);
            }
        }
    }
    tables
}

fn other(random: &mut Random, number: u32) -> u32 {
    match random.below(8) {
        0 => number.wrapping_add(1),
        1 => number.wrapping_sub(1),
        2 => random.below(21) as u32,
        3 => u32::MAX,
        4 => random.of(&[0xd7ff, 0xd800, 0xdfff, 0xe000, 0x10ffff, 0x110000]),
        5 => number ^ 1 << random.below(32),
        6 => 0,
        _ => random.below(64) as u32,
    }
}

/// Tables on both sides of every limit.
pub fn limits() -> Vec<Tables> {
    let store = b"aPUSHx\xc3\xa9".to_vec();
    let a = [4, 0, 0, 0, 1, 0, 0];
    let of = |nodes: Vec<u32>, rules: Vec<u32>| Tables { nodes, rules, store: store.clone() };
    let mut made = vec![Tables::default(), of(vec![], vec![]), of(a.to_vec(), vec![])];
    // Records of six and of seven numbers, and all that is not whole.
    for (nodes, rules) in (0..=2 * NODE_RECORD).zip([6, 7, 5, 12, 6].into_iter().cycle()) {
        made.push(of(
            a.repeat(2)[..nodes].to_vec(),
            [0, 1, 0, 0, 0, 0].repeat(2)[..rules].to_vec(),
        ));
    }
    made.push(of([4, 0, 0, 0, 1, 0].repeat(2), vec![0, 1, 0, 0, 0, 0]));
    made.push(of([4, 0, 0, 0, 1, 0].repeat(7), vec![0, 1, 0, 0, 0, 0]));
    for count in [2u32, 2_047, 2_048, 4_095, 4_096, 4_097] {
        let chain = |kind: u32, right: bool| {
            let mut nodes = Vec::new();
            let leaves = count.div_ceil(2);
            if right {
                nodes.extend(a.repeat(leaves as usize));
                for i in leaves..leaves * 2 - 1 {
                    nodes.extend([kind, 0, 0, leaves * 2 - 2 - i, i - 1, 0, 0]);
                }
            } else {
                nodes.extend(a);
                for i in 1..leaves {
                    nodes.extend(a);
                    nodes.extend([kind, 0, 0, 2 * i - 2, 2 * i - 1, 0, 0]);
                }
            }
            let root = (nodes.len() / NODE_RECORD - 1) as u32;
            of(nodes, vec![0, 1, 0, root, 0, 0])
        };
        made.extend([chain(8, true), chain(9, true), chain(8, false), chain(9, false)]);
        for kind in [6u32, 7, 10, 13, 16, 17, 19] {
            let mut nodes = a.to_vec();
            for i in 1..count {
                nodes.extend([kind, 0, 0, i - 1, 1, 4, 0]);
            }
            made.push(of(nodes, vec![0, 1, 0, count - 1, 0, 0]));
        }
        // A postfix on a predicate, over and over.
        let mut nodes = a.to_vec();
        for i in 1..count {
            nodes.extend([if i % 2 == 1 { 7 } else { 11 }, 0, 0, i - 1, 0, 0, 0]);
        }
        made.push(of(nodes, vec![0, 1, 0, count - 1, 0, 0]));
    }
    for count in [1_023u32, 1_024, 1_025] {
        let rules: Vec<u32> = (0..count).flat_map(|i| [0, 1, i % 5, i, 0, 0]).collect();
        made.push(of(a.repeat(count as usize), rules));
    }
    for bytes in [65_535usize, 65_536, 65_537] {
        let store = vec![b'x'; bytes];
        let long = Tables {
            nodes: vec![1, 0, 0, 0, bytes as u32, 0, 0],
            rules: vec![0, bytes as u32, 0, 0, 0, 0],
            store: store.clone(),
        };
        made.push(long);
        // The whole store over and over, each byte an escape.
        for (byte, count) in [(0u8, 40u32), (1, 12)] {
            let mut nodes: Vec<u32> = Vec::new();
            let all = [1, 0, 0, 1, bytes as u32 - 1, 0, 0];
            nodes.extend(all);
            for i in 1..count {
                nodes.extend(all);
                nodes.extend([8, 0, 0, 2 * i - 2, 2 * i - 1, 0, 0]);
            }
            let root = (nodes.len() / NODE_RECORD - 1) as u32;
            let mut store = vec![byte; bytes];
            store[0] = b'a';
            made.push(Tables { nodes, rules: vec![0, 1, 0, root, 0, 0], store });
        }
    }
    made
}

/// A node over children, with numbers and a text that its kind can have. Brackets stand in literals.
fn node(kind: u32, children: Vec<Tree>) -> Tree {
    let (numbers, text) = match kind {
        1 | 18 => ([0; 3], "("),
        2 => ([0; 3], ")"),
        3 => (['('.into(), ')'.into(), 0], ""),
        4 => ([0; 3], "a"),
        5 => ([u32::MAX, 1, 2], ""),
        13..=15 => ([2, 0, 0], ""),
        16 => ([2, 3, 0], ""),
        19 => ([0; 3], "PUSH"),
        _ => ([0; 3], ""),
    };
    Tree { kind, numbers, text: text.into(), children }
}

const LEAVES: [u32; 6] = [1, 2, 3, 4, 5, 18];
const LONE: [u32; 11] = [6, 7, 10, 11, 12, 13, 14, 15, 16, 17, 19];
const JOINS: [u32; 2] = [8, 9];

/// A rule of a tree.
fn ruled(tree: &Tree) -> Tables {
    trees::tables(&[Rule { name: b"r".to_vec(), mark: 0, tree: tree.clone() }])
}

/// Every tree of up to five nodes of all kinds, a rule for each.
pub fn small(f: &mut dyn FnMut(&Tables)) {
    const MOST: usize = 5;
    let mut by_size: Vec<Vec<Tree>> = vec![vec![]];
    for size in 1..=MOST {
        let mut made = Vec::new();
        let mut put = |kind, children| {
            let tree = node(kind, children);
            f(&ruled(&tree));
            // The largest are under nothing.
            if size < MOST {
                made.push(tree);
            }
        };
        if size == 1 {
            LEAVES.iter().for_each(|kind| put(*kind, vec![]));
        }
        for child in &by_size[size - 1] {
            LONE.iter().for_each(|kind| put(*kind, vec![child.clone()]));
        }
        for left in 1..size.saturating_sub(1) {
            for (left, right) in both(&by_size[left], &by_size[size - 1 - left]) {
                JOINS.iter().for_each(|kind| put(*kind, vec![left.clone(), right.clone()]));
            }
        }
        by_size.push(made);
    }
}

fn both<'a>(left: &'a [Tree], right: &'a [Tree]) -> impl Iterator<Item = (&'a Tree, &'a Tree)> {
    left.iter().flat_map(move |left| right.iter().map(move |right| (left, right)))
}

/// Every kind of node over names in every place: under a rule, and as a child of every kind.
pub fn places() -> Vec<Tables> {
    let a = || node(4, vec![]);
    let leaves = LEAVES.map(|kind| node(kind, vec![]));
    let lone = LONE.map(|kind| node(kind, vec![a()]));
    let joins = JOINS.map(|kind| node(kind, vec![a(), a()]));
    let mut made = Vec::new();
    for tree in leaves.iter().chain(&lone).chain(&joins) {
        made.push(ruled(tree));
        made.extend(LONE.map(|kind| ruled(&node(kind, vec![tree.clone()]))));
        made.extend(JOINS.map(|kind| ruled(&node(kind, vec![tree.clone(), a()]))));
        made.extend(JOINS.map(|kind| ruled(&node(kind, vec![a(), tree.clone()]))));
    }
    made
}

/// Every table of a run, in order. `scale` is in hundredths of the full run.
pub fn all(seed: u64, scale: usize, f: &mut dyn FnMut(&Tables)) {
    for tables in limits() {
        f(&tables);
    }
    small(f);
    let mut random = Random(seed ^ 0x7ab1e5);
    let mut grower = Grower::new(Random(seed ^ 0x6e0de5));
    for _ in 0..3_000 * scale {
        grower.characters = random.of(&Characters::EACH);
        let rules = random.of(&[1, 1, 1, 2, 3, 5]);
        let size = random.of(&[1, 2, 3, 5, 8, 13, 20, 40]);
        let tables = grower.grow(rules, size);
        f(&tables);
        f(&falsified(&mut random, &tables));
    }
    for _ in 0..scale {
        let tables = grower.grow(2, 1_500);
        f(&tables);
        f(&falsified(&mut random, &tables));
    }
    let mut random = Random(seed ^ 0x10_6e5);
    for _ in 0..1_000 * scale {
        f(&long_texts(&mut random));
    }
}

/// Tables with long texts: parts of stretches of words or of other characters, which begin and end near the ends of their
/// stretch, now and then inside a character or past a byte that is none.
fn long_texts(random: &mut Random) -> Tables {
    let mut store = b"a".to_vec();
    let mut stretches = Vec::new();
    for _ in 0..1 + random.below(5) {
        let piece = random.of(&["a", "_Z9", "PUSH", "PUSx", "é", "€", "😀", "aé€"]);
        let (start, length) = (store.len(), random.of(&[1, 60, 64, 65, 66, 128, 200, 700]));
        while store.len() < start + length {
            store.extend_from_slice(piece.as_bytes());
        }
        stretches.push((start, store.len(), piece.is_ascii()));
        if random.one_in(3) {
            store.push(random.of(&[b' ', 0x80, 0xe2, 0xff]));
        }
    }
    let near = |random: &mut Random| random.of(&[0, 0, 0, 0, 0, 0, 1, 2, 3, 4, 64]);
    let part = |random: &mut Random| {
        let (start, end, is_word) = random.of(&stretches);
        let from = (start + near(random)).min(end);
        let length = end.saturating_sub(near(random)).max(from) - from;
        (from as u32, length as u32, is_word)
    };
    let mut nodes: Vec<u32> = Vec::new();
    for i in 0..1 + random.below(4) {
        let (from, length, is_word) = part(random);
        let kind = if is_word { random.of(&[1, 4, 4, 18]) } else { random.of(&[1, 1, 2, 18]) };
        nodes.extend(record(kind, from, length, 0));
        if i > 0 {
            let last = (nodes.len() / NODE_RECORD) as u32 - 1;
            nodes.extend(record(random.of(&[8, 9]), last - 1, last, 0));
        }
    }
    for _ in 0..random.below(3) {
        let (from, length, _) = part(random);
        let last = (nodes.len() / NODE_RECORD) as u32 - 1;
        nodes.extend(record(19, last, from, length));
    }
    let mut made = named_a(nodes, store);
    if random.one_in(4) {
        let (from, length, _) = part(random);
        made.rules[..2].copy_from_slice(&[from, length]);
    }
    made
}

/// Tables whose nodes or rules name one text over and over, which a check would go over again and again: of 64 KB; of
/// 64 KB less what stands in front, so that it begins off any power of two; and of 64 bytes.
pub fn worst() -> Vec<(&'static str, Tables)> {
    let word = vec![b'a'; 65_536];
    let two = ["aa", &"é".repeat(32_767)].concat().into_bytes();
    let three = ["a", &"€".repeat(21_845)].concat().into_bytes();
    let behind = [&[0xff], &three[..65_533]].concat();
    let all = 65_536;
    vec![
        ("tags", tagged(word.clone(), 0, all)),
        ("tags from byte 1 on", tagged(word.clone(), 1, all - 1)),
        ("tags of 64 bytes", tagged(word.clone(), 1, 64)),
        ("names", joined(4, word.clone(), 0, all)),
        ("names from byte 1 on", joined(4, word.clone(), 1, all - 1)),
        ("names of 64 bytes", joined(4, word.clone(), 1, 64)),
        ("rules' names", named(word.clone(), 0, all)),
        ("rules' names from byte 1 on", named(word.clone(), 1, all - 1)),
        ("strings, ASCII", joined(1, word, 0, all)),
        ("strings, two bytes a character", joined(1, two.clone(), 0, all)),
        ("the same from byte 4 on", joined(1, two, 4, all - 4)),
        ("strings, three bytes a character", joined(1, three.clone(), 0, all)),
        ("the same from byte 4 on", joined(1, three.clone(), 4, all - 4)),
        ("the same of 63 bytes", joined(1, three, 4, 63)),
        ("strings behind a byte that is none", joined(1, behind, 1, all - 3)),
    ]
}

/// A node record without a span and a line.
fn record(kind: u32, p: u32, q: u32, r: u32) -> [u32; NODE_RECORD] {
    [kind, 0, 0, p, q, r, 0]
}

/// The rule of a tree, named by the first `a` of the store.
fn named_a(nodes: Vec<u32>, store: Vec<u8>) -> Tables {
    let name = store.iter().position(|byte| *byte == b'a').expect("an a") as u32;
    let root = (nodes.len() / NODE_RECORD - 1) as u32;
    Tables { nodes, rules: vec![name, 1, 0, root, 0, 0], store }
}

/// A name under 4,095 tags, each a part of the store.
fn tagged(store: Vec<u8>, from: u32, length: u32) -> Tables {
    let tags = (1..4_096).flat_map(|i| record(19, i - 1, from, length));
    named_a(record(4, 0, 1, 0).into_iter().chain(tags).collect(), store)
}

/// A row of 2,048 leaves of a kind, each a part of the store.
fn joined(kind: u32, store: Vec<u8>, from: u32, length: u32) -> Tables {
    let leaf = record(kind, from, length, 0);
    let more = (0..2_047).flat_map(|i| [leaf, record(8, 2 * i, 2 * i + 1, 0)]);
    named_a(leaf.into_iter().chain(more.flatten()).collect(), store)
}

/// 1,024 rules, each named by a part of the store.
fn named(store: Vec<u8>, from: u32, length: u32) -> Tables {
    let nodes = (0..1_024).flat_map(|_| record(4, 0, 1, 0)).collect();
    let rules = (0..1_024).flat_map(|root| [from, length, 0, root, 0, 0]).collect();
    Tables { nodes, rules, store }
}
