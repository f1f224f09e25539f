//! The printer: 20, 21, 22, 23, then the text, in full or short. Nothing recurses.

use crate::{is_word, refuse, Refusal, BYTES, NODES, NODE_RECORD, RULES, RULE_RECORD};

/// Prints into a lent buffer, and answers the bytes written. A refusal writes nothing.
pub fn print(nodes: &[u32], rules: &[u32], store: &[u8], out: &mut [u8]) -> Result<usize, Refusal> {
    put(nodes, rules, store, in_full, out)
}

/// As `print`, but the short text: left-grouped chains are flat, and the only round brackets are
/// those without which another tree would be read.
pub fn print_short(
    nodes: &[u32],
    rules: &[u32],
    store: &[u8],
    out: &mut [u8],
) -> Result<usize, Refusal> {
    put(nodes, rules, store, in_short, out)
}

/// Whether a node of a kind stands in round brackets: under a node of kind `over`, or under a
/// rule, which is 0; and as a right child or not. The two texts differ in nothing else.
type Brackets = fn(over: u32, kind: u32, right: bool) -> bool;

/// A Seq or Choice that is a right child of its own kind goes on with the chain.
fn in_full(over: u32, kind: u32, right: bool) -> bool {
    match kind {
        3 | 19 => true,
        6 | 7 => matches!(over, 10..=16),
        8 | 9 => !(right && kind == over),
        _ => false,
    }
}

/// A Seq or Choice that is a left child of its own kind goes on with the chain. Under a rule and
/// in PUSH nothing needs brackets, and a range never does.
fn in_short(over: u32, kind: u32, right: bool) -> bool {
    match over {
        10..=16 => matches!(kind, 6..=9 | 19),
        6 | 7 | 19 => matches!(kind, 8 | 9 | 19),
        8 => kind == 9 || (kind == 8 && right),
        9 => kind == 9 && right,
        _ => false,
    }
}

fn put(
    nodes: &[u32],
    rules: &[u32],
    store: &[u8],
    brackets: Brackets,
    out: &mut [u8],
) -> Result<usize, Refusal> {
    check(nodes, rules, store)?;
    let good = Good { nodes, store, brackets };
    let length = measure(&good, rules, out.len() as u64);
    if length > out.len() as u64 {
        return refuse(23, 0);
    }
    let text = write(&good, rules, length as usize);
    assert_eq!(text.len() as u64, length, "measured and written");
    out[..text.len()].copy_from_slice(&text);
    Ok(text.len())
}

pub(crate) fn part(store: &[u8], offset: u32, length: u32) -> Option<&[u8]> {
    let end = u64::from(offset) + u64::from(length);
    if end > store.len() as u64 {
        return None;
    }
    Some(&store[offset as usize..end as usize])
}

fn is_name(store: &[u8], offset: u32, length: u32) -> bool {
    part(store, offset, length).is_some_and(|name| is_word(name) && !name.starts_with(b"PUSH"))
}

/// 20, 21 and 22.
pub fn check(nodes: &[u32], rules: &[u32], store: &[u8]) -> Result<(), Refusal> {
    let whole = nodes.chunks_exact(NODE_RECORD).remainder().is_empty()
        && rules.chunks_exact(RULE_RECORD).remainder().is_empty();
    let (node_count, rule_count) = (nodes.len() / NODE_RECORD, rules.len() / RULE_RECORD);
    if !whole || node_count > NODES || rule_count > RULES || store.len() > BYTES {
        return refuse(20, 0);
    }
    // The first node of each node's tree.
    let mut firsts: Vec<usize> = Vec::with_capacity(node_count);
    for (i, node) in nodes.chunks_exact(NODE_RECORD).enumerate() {
        let (p, q, r) = (node[3], node[4], node[5]);
        let just_before = |child: u32| i > 0 && child as usize == i - 1;
        let first = match node[0] {
            1 | 2 | 18 => {
                part(store, p, q).is_some_and(|text| std::str::from_utf8(text).is_ok()).then_some(i)
            }
            3 => (char::from_u32(p).is_some() && char::from_u32(q).is_some()).then_some(i),
            4 => is_name(store, p, q).then_some(i),
            5 => (q <= 1).then_some(i),
            6 | 7 | 10..=17 => just_before(p).then(|| firsts[i - 1]),
            8 | 9 => {
                let right = just_before(q).then(|| firsts[i - 1]);
                right
                    .filter(|right| *right > 0 && p as usize == right - 1)
                    .map(|right| firsts[right - 1])
            }
            19 => (just_before(p) && part(store, q, r).is_some_and(is_word)).then(|| firsts[i - 1]),
            _ => None,
        };
        match first {
            Some(first) => firsts.push(first),
            None => return refuse(21, i),
        }
    }
    let mut begin = 0;
    for (i, rule) in rules.chunks_exact(RULE_RECORD).enumerate() {
        let root = rule[3] as usize;
        let good = is_name(store, rule[0], rule[1])
            && rule[2] <= 4
            && root < node_count
            && firsts[root] == begin;
        if !good {
            return refuse(22, i);
        }
        begin = root + 1;
    }
    if begin != node_count {
        return refuse(22, rule_count);
    }
    Ok(())
}

/// Whether a character that is neither a quote in use nor `\` prints as it is.
fn is_bare(character: char) -> bool {
    matches!(character, ' '..='~' | '\u{a1}'..='\u{24f}') && character != '\u{ad}'
}

/// What a character prints as, between quotes of one kind.
fn character(character: char, quote: char, out: &mut Vec<u8>) {
    match character {
        '\0' => out.extend_from_slice(b"\\0"),
        '\t' => out.extend_from_slice(b"\\t"),
        '\n' => out.extend_from_slice(b"\\n"),
        '\r' => out.extend_from_slice(b"\\r"),
        _ if character == quote || character == '\\' => {
            out.extend_from_slice(&[b'\\', character as u8]);
        }
        _ if is_bare(character) => {
            out.extend_from_slice(character.encode_utf8(&mut [0; 4]).as_bytes());
        }
        _ => {
            const DIGITS: &[u8; 16] = b"0123456789abcdef";
            let number = character as u32;
            out.extend_from_slice(b"\\u{");
            for i in (0..hex_digits(number)).rev() {
                out.push(DIGITS[(number >> (4 * i) & 15) as usize]);
            }
            out.push(b'}');
        }
    }
}

/// As few as the number needs, but at least two.
fn hex_digits(number: u32) -> u32 {
    (32 - number.leading_zeros()).div_ceil(4).max(2)
}

/// The bytes that `character` writes.
fn character_length(character: char, quote: char) -> u64 {
    match character {
        '\0' | '\t' | '\n' | '\r' | '\\' => 2,
        _ if character == quote => 2,
        _ if is_bare(character) => character.len_utf8() as u64,
        _ => u64::from(hex_digits(character as u32)) + 4,
    }
}

fn literal(text: &str, quote: char, out: &mut Vec<u8>) {
    out.push(quote as u8);
    for c in text.chars() {
        character(c, quote, out);
    }
    out.push(quote as u8);
}

fn literal_length(text: &str, quote: char) -> u64 {
    2 + text.chars().map(|c| character_length(c, quote)).sum::<u64>()
}

/// A table that `check` has let through, and the brackets to print it with.
struct Good<'a> {
    nodes: &'a [u32],
    store: &'a [u8],
    brackets: Brackets,
}

impl<'a> Good<'a> {
    fn node(&self, index: u32) -> [u32; NODE_RECORD] {
        let at = index as usize * NODE_RECORD;
        self.nodes[at..at + NODE_RECORD].try_into().expect("a whole record")
    }

    fn text(&self, offset: u32, length: u32) -> &'a str {
        let bytes = part(self.store, offset, length).expect("a part that lies inside");
        std::str::from_utf8(bytes).expect("UTF-8")
    }

    fn bracketed(&self, over: u32, index: u32, right: bool) -> bool {
        (self.brackets)(over, self.node(index)[0], right)
    }

    /// What stands behind the operand of a postfix.
    fn postfix(&self, node: [u32; NODE_RECORD]) -> String {
        let (q, r) = (node[4], node[5]);
        match node[0] {
            10 => "?".to_string(),
            11 => "*".to_string(),
            12 => "+".to_string(),
            13 => format!("{{{q}}}"),
            14 => format!("{{{q},}}"),
            15 => format!("{{,{q}}}"),
            _ => format!("{{{q}, {r}}}"),
        }
    }

    fn peek(&self, node: [u32; NODE_RECORD]) -> String {
        let (p, r) = (node[3] as i32, node[5] as i32);
        if node[4] == 0 {
            format!("PEEK[{p}..]")
        } else {
            format!("PEEK[{p}..{r}]")
        }
    }
}

fn scalar(number: u32) -> char {
    char::from_u32(number).expect("a scalar")
}

/// The length of the printed text; or some number above `most`, as soon as it is known to be.
fn measure(good: &Good<'_>, rules: &[u32], most: u64) -> u64 {
    // Every leaf is printed, so their lengths together are a lower bound.
    let mut leaves = 0;
    // Each node's length, without the brackets that it stands in.
    let mut lengths: Vec<u64> = Vec::new();
    let inside = |lengths: &[u64], over, index: u32, right| {
        lengths[index as usize] + if good.bracketed(over, index, right) { 2 } else { 0 }
    };
    for node in good.nodes.chunks_exact(NODE_RECORD) {
        let node: [u32; NODE_RECORD] = node.try_into().expect("a whole record");
        let (p, q, r) = (node[3], node[4], node[5]);
        let child = |index, right| inside(&lengths, node[0], index, right);
        let length = match node[0] {
            1 => literal_length(good.text(p, q), '"'),
            2 => 1 + literal_length(good.text(p, q), '"'),
            3 => 6 + [p, q].map(|n| character_length(scalar(n), '\'')).iter().sum::<u64>(),
            4 => u64::from(q),
            5 => good.peek(node).len() as u64,
            6 | 7 => 1 + child(p, false),
            8 | 9 => child(p, false) + 3 + child(q, true),
            10..=16 => child(p, false) + good.postfix(node).len() as u64,
            17 => 6 + child(p, false),
            18 => 14 + literal_length(good.text(p, q), '"'),
            _ => 4 + u64::from(r) + child(p, false),
        };
        if matches!(node[0], 1..=5 | 18) {
            leaves += length;
            if leaves > most {
                return leaves;
            }
        }
        lengths.push(length);
    }
    let line = |rule: &[u32]| {
        let mark = if rule[2] == 0 { 0 } else { 1 };
        u64::from(rule[1]) + 3 + mark + 2 + inside(&lengths, 0, rule[3], false) + 3
    };
    rules.chunks_exact(RULE_RECORD).map(line).sum()
}

/// What is still to be written, the next at the end.
enum Left {
    Node(u32),
    Bytes(&'static str),
    Text(String),
}

/// A node that is still to be written, in its brackets.
fn leave(good: &Good<'_>, over: u32, index: u32, right: bool, left: &mut Vec<Left>) {
    if good.bracketed(over, index, right) {
        left.extend([Left::Bytes(")"), Left::Node(index), Left::Bytes("(")]);
    } else {
        left.push(Left::Node(index));
    }
}

fn write(good: &Good<'_>, rules: &[u32], length: usize) -> Vec<u8> {
    let mut out = Vec::with_capacity(length);
    for rule in rules.chunks_exact(RULE_RECORD) {
        out.extend_from_slice(good.text(rule[0], rule[1]).as_bytes());
        out.extend_from_slice(b" = ");
        out.extend_from_slice(["", "_", "@", "$", "!"][rule[2] as usize].as_bytes());
        out.extend_from_slice(b"{ ");
        let mut left = Vec::new();
        leave(good, 0, rule[3], false, &mut left);
        while let Some(next) = left.pop() {
            match next {
                Left::Node(index) => node(good, index, &mut left, &mut out),
                Left::Bytes(text) => out.extend_from_slice(text.as_bytes()),
                Left::Text(text) => out.extend_from_slice(text.as_bytes()),
            }
        }
        out.extend_from_slice(b" }\n");
    }
    out
}

/// Writes a node without the brackets that it stands in, its children being left.
fn node(good: &Good<'_>, index: u32, left: &mut Vec<Left>, out: &mut Vec<u8>) {
    let node = good.node(index);
    let (kind, p, q, r) = (node[0], node[3], node[4], node[5]);
    match kind {
        1 => literal(good.text(p, q), '"', out),
        2 => {
            out.push(b'^');
            literal(good.text(p, q), '"', out);
        }
        3 => {
            literal(&scalar(p).to_string(), '\'', out);
            out.extend_from_slice(b"..");
            literal(&scalar(q).to_string(), '\'', out);
        }
        4 => out.extend_from_slice(good.text(p, q).as_bytes()),
        5 => out.extend_from_slice(good.peek(node).as_bytes()),
        6 | 7 => {
            out.push(if kind == 6 { b'&' } else { b'!' });
            leave(good, kind, p, false, left);
        }
        8 | 9 => {
            leave(good, kind, q, true, left);
            left.push(Left::Bytes(if kind == 8 { " ~ " } else { " | " }));
            leave(good, kind, p, false, left);
        }
        10..=16 => {
            left.push(Left::Text(good.postfix(node)));
            leave(good, kind, p, false, left);
        }
        17 => {
            out.extend_from_slice(b"PUSH(");
            left.push(Left::Bytes(")"));
            leave(good, kind, p, false, left);
        }
        18 => {
            out.extend_from_slice(b"PUSH_LITERAL(");
            literal(good.text(p, q), '"', out);
            out.push(b')');
        }
        _ => {
            out.push(b'#');
            out.extend_from_slice(good.text(q, r).as_bytes());
            out.extend_from_slice(b" = ");
            leave(good, kind, p, false, left);
        }
    }
}
