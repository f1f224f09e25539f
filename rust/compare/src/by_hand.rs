//! A line matcher as one would write it by hand in Rust, over the same tables and with the same
//! answers: what the product's speed is held to. Tables are checked and names looked up once a call,
//! a visit recurses over the records, and the last visit of a name, Seq or Choice is a loop.

use std::collections::HashMap;

use second::print::check;
use second::{NODE_RECORD, RULE_RECORD};

const NESTED: u32 = 1_024;
/// The link of ANY. Others are roots.
const ANY: u32 = u32::MAX;

/// Too deep, or too many steps.
struct Over;

struct Walk<'a> {
    nodes: &'a [[u32; NODE_RECORD]],
    /// By node: where a name leads to.
    links: &'a [u32],
    store: &'a [u8],
    line: &'a [u8],
    /// Steps left.
    left: u64,
}

/// The character at a place of a line that is UTF-8, and its size.
#[inline]
fn character(line: &[u8], at: usize) -> Option<(u32, usize)> {
    let first = u32::from(*line.get(at)?);
    let more = |by: usize| line.get(at + by).map_or(0, |byte| u32::from(byte & 63));
    Some(match first {
        0..=0x7f => (first, 1),
        0x80..=0xdf => ((first & 31) << 6 | more(1), 2),
        0xe0..=0xef => ((first & 15) << 12 | more(1) << 6 | more(2), 3),
        _ => ((first & 7) << 18 | more(1) << 12 | more(2) << 6 | more(3), 4),
    })
}

impl Walk<'_> {
    /// Where the match of a node ends, or none.
    fn visit(
        &mut self,
        mut node: usize,
        mut at: usize,
        mut depth: u32,
    ) -> Result<Option<usize>, Over> {
        loop {
            if depth > NESTED || self.left == 0 {
                return Err(Over);
            }
            self.left -= 1;
            let [kind, _, _, p, q, r, _] = self.nodes[node];
            match kind {
                1 => {
                    let text = &self.store[p as usize..][..q as usize];
                    return Ok(self.line[at..].starts_with(text).then(|| at + text.len()));
                }
                2 => {
                    let text = &self.store[p as usize..][..q as usize];
                    let front = self.line[at..].get(..text.len());
                    let alike = front.is_some_and(|front| front.eq_ignore_ascii_case(text));
                    return Ok(alike.then(|| at + text.len()));
                }
                3 => {
                    return Ok(character(self.line, at)
                        .filter(|(number, _)| (p..=q).contains(number))
                        .map(|(_, size)| at + size))
                }
                4 if self.links[node] == ANY => {
                    return Ok(character(self.line, at).map(|(_, size)| at + size))
                }
                4 => node = self.links[node] as usize,
                6 => return Ok(self.visit(p as usize, at, depth + 1)?.map(|_| at)),
                7 => {
                    return Ok(match self.visit(p as usize, at, depth + 1)? {
                        Some(_) => None,
                        None => Some(at),
                    })
                }
                8 => match self.visit(p as usize, at, depth + 1)? {
                    Some(end) => (node, at) = (q as usize, end),
                    None => return Ok(None),
                },
                9 => match self.visit(p as usize, at, depth + 1)? {
                    Some(end) => return Ok(Some(end)),
                    None => node = q as usize,
                },
                _ => {
                    let (least, most) = match kind {
                        10 => (0, Some(1)),
                        11 => (0, None),
                        12 => (1, None),
                        13 => (q, Some(q)),
                        14 => (q, None),
                        15 => (0, Some(q)),
                        _ => (q, Some(r)),
                    };
                    return self.repeat(p as usize, least, most, at, depth + 1);
                }
            }
            depth += 1;
        }
    }

    fn repeat(
        &mut self,
        child: usize,
        least: u32,
        most: Option<u32>,
        mut at: usize,
        depth: u32,
    ) -> Result<Option<usize>, Over> {
        let mut times: u32 = 0;
        while most != Some(times) {
            match self.visit(child, at, depth)? {
                Some(end) => at = end,
                None => return Ok((times >= least).then_some(at)),
            }
            // without a maximum only the minimum is asked of it
            times = times.saturating_add(1);
        }
        Ok(Some(at))
    }
}

/// Tables that can be run.
struct Layout<'a> {
    nodes: Vec<[u32; NODE_RECORD]>,
    links: Vec<u32>,
    store: &'a [u8],
    root: usize,
}

impl<'a> Layout<'a> {
    fn new(nodes: &[u32], rules: &[u32], store: &'a [u8], start: usize) -> Result<Self, [u64; 2]> {
        if check(nodes, rules, store).is_err() {
            return Err([30, 0]);
        }
        let records = nodes.chunks_exact(NODE_RECORD);
        let nodes: Vec<[u32; NODE_RECORD]> =
            records.map(|node| node.try_into().expect("a whole record")).collect();
        let unfit = |node: &[u32; NODE_RECORD]| {
            matches!(node[0], 5 | 17 | 18 | 19) || node[0] == 16 && node[4] > node[5]
        };
        if let Some(node) = nodes.iter().position(unfit) {
            return Err([31, node as u64]);
        }
        let part = |offset: u32, length: u32| &store[offset as usize..][..length as usize];
        let mut roots = HashMap::with_capacity(rules.len() / RULE_RECORD);
        for rule in rules.chunks_exact(RULE_RECORD) {
            let name = part(rule[0], rule[1]);
            if name == b"ANY" || roots.insert(name, rule[3]).is_some() {
                return Err([32, 0]);
            }
        }
        let mut links = vec![0; nodes.len()];
        for (node, link) in nodes.iter().zip(&mut links) {
            if node[0] == 4 {
                let name = part(node[3], node[4]);
                *link = match roots.get(name) {
                    Some(root) => *root,
                    None if name == b"ANY" => ANY,
                    None => return Err([32, 0]),
                };
            }
        }
        match rules.chunks_exact(RULE_RECORD).nth(start) {
            Some(rule) => Ok(Layout { nodes, links, store, root: rule[3] as usize }),
            None => Err([32, 0]),
        }
    }

    fn run(&self, line: &[u8], allowance: u64) -> [u64; 5] {
        if let Err(error) = std::str::from_utf8(line) {
            return [33, error.valid_up_to() as u64, 0, 0, 0];
        }
        let Layout { nodes, links, store, root } = self;
        let mut walk = Walk { nodes, links, store, line, left: allowance };
        match walk.visit(*root, 0, 1) {
            Ok(Some(end)) => [0, 0, 1, end as u64, allowance - walk.left],
            Ok(None) => [0, 0, 0, 0, allowance - walk.left],
            Err(Over) => [34, 0, 0, 0, 0],
        }
    }
}

/// One line: number, place, 1 if matched, length, steps.
pub fn match_line(
    nodes: &[u32],
    rules: &[u32],
    store: &[u8],
    start: usize,
    line: &[u8],
    allowance: u64,
) -> [u64; 5] {
    match Layout::new(nodes, rules, store, start) {
        Ok(layout) => layout.run(line, allowance),
        Err([number, place]) => [number, place, 0, 0, 0],
    }
}

/// Every line of a text, five numbers each: number, place, lines run, the next line's place.
pub fn match_lines(
    nodes: &[u32],
    rules: &[u32],
    store: &[u8],
    start: usize,
    text: &[u8],
    allowance: u64,
    records: &mut [u64],
) -> [u64; 4] {
    let layout = match Layout::new(nodes, rules, store, start) {
        Ok(layout) => layout,
        Err([number, place]) => return [number, place, 0, 0],
    };
    let (mut ran, mut next) = (0, 0);
    for record in records.chunks_exact_mut(5) {
        let rest = &text[next..];
        if rest.is_empty() {
            break;
        }
        let end = rest.iter().position(|byte| *byte == b'\n');
        let line = match end {
            Some(end) => rest[..end].strip_suffix(b"\r").unwrap_or(&rest[..end]),
            None => rest,
        };
        record.copy_from_slice(&layout.run(line, allowance));
        next += end.map_or(rest.len(), |end| end + 1);
        ran += 1;
    }
    [0, 0, ran, next as u64]
}
