//! Trees of good tables: regrouping, and leaving tags out.

use oracle::Tables;
use second::{NODE_RECORD, RULE_RECORD};

/// A node: its numbers (counts, characters, a slice's ends), its text, its children.
#[derive(Clone, Debug, PartialEq, Eq)]
pub struct Tree {
    pub kind: u32,
    pub numbers: [u32; 3],
    pub text: Vec<u8>,
    pub children: Vec<Tree>,
}

#[derive(Clone, Debug, PartialEq, Eq)]
pub struct Rule {
    pub name: Vec<u8>,
    pub mark: u32,
    pub tree: Tree,
}

/// The rules of good tables.
pub fn rules(tables: &Tables) -> Vec<Rule> {
    let part = |offset: u32, length: u32| {
        tables.store[offset as usize..offset as usize + length as usize].to_vec()
    };
    let mut made: Vec<Tree> = Vec::new();
    let mut nodes = tables.nodes.chunks_exact(NODE_RECORD);
    let mut next = 0;
    let mut found = Vec::new();
    for rule in tables.rules.chunks_exact(RULE_RECORD) {
        while next <= rule[3] {
            let node = nodes.next().expect("a node");
            let (kind, p, q, r) = (node[0], node[3], node[4], node[5]);
            let (numbers, text, children) = match kind {
                1 | 2 | 4 | 18 => ([0; 3], part(p, q), 0),
                3 => ([p, q, 0], Vec::new(), 0),
                5 => ([p, q, if q == 0 { 0 } else { r }], Vec::new(), 0),
                8 | 9 => ([0; 3], Vec::new(), 2),
                13..=15 => ([q, 0, 0], Vec::new(), 1),
                16 => ([q, r, 0], Vec::new(), 1),
                19 => ([0; 3], part(q, r), 1),
                _ => ([0; 3], Vec::new(), 1),
            };
            let children = made.split_off(made.len() - children);
            made.push(Tree { kind, numbers, text, children });
            next += 1;
        }
        let tree = made.pop().expect("a root");
        found.push(Rule { name: part(rule[0], rule[1]), mark: rule[2], tree });
    }
    found
}

/// Tables of rules: spans and lines 0, the store in text order.
pub fn tables(rules: &[Rule]) -> Tables {
    fn keep(tables: &mut Tables, text: &[u8]) -> (u32, u32) {
        let offset = tables.store.len() as u32;
        tables.store.extend_from_slice(text);
        (offset, text.len() as u32)
    }
    fn add(tables: &mut Tables, tree: &Tree) -> u32 {
        let [a, b, c] = tree.numbers;
        let child = |tables: &mut Tables, i: usize| add(tables, &tree.children[i]);
        let (p, q, r) = match tree.kind {
            1 | 2 | 4 | 18 => {
                let (offset, length) = keep(tables, &tree.text);
                (offset, length, 0)
            }
            3 | 5 => (a, b, c),
            8 | 9 => {
                let left = child(tables, 0);
                (left, child(tables, 1), 0)
            }
            13..=16 => (child(tables, 0), a, b),
            19 => {
                let (offset, length) = keep(tables, &tree.text);
                (child(tables, 0), offset, length)
            }
            _ => (child(tables, 0), 0, 0),
        };
        tables.nodes.extend([tree.kind, 0, 0, p, q, r, 0]);
        (tables.nodes.len() / NODE_RECORD - 1) as u32
    }
    let mut made = Tables::default();
    for rule in rules {
        let (offset, length) = keep(&mut made, &rule.name);
        let root = add(&mut made, &rule.tree);
        made.rules.extend([offset, length, rule.mark, root, 0, 0]);
    }
    made
}

/// Regrouping once: the chain along the right children, each regrouped, joined left to right.
pub fn regrouped(tree: Tree) -> Tree {
    if !matches!(tree.kind, 8 | 9) {
        let children = tree.children.into_iter().map(regrouped).collect();
        return Tree { children, ..tree };
    }
    let kind = tree.kind;
    let mut chain = Vec::new();
    let mut right = tree;
    while right.kind == kind {
        let last = right.children.pop().expect("a right child");
        chain.push(right.children.pop().expect("a left child"));
        right = last;
    }
    chain.push(right);
    let join =
        |left, right| Tree { kind, numbers: [0; 3], text: Vec::new(), children: vec![left, right] };
    chain.into_iter().map(regrouped).reduce(join).expect("a chain")
}

/// Tags left out.
pub fn untagged(mut tree: Tree) -> Tree {
    if tree.kind == 19 {
        return untagged(tree.children.pop().expect("a child"));
    }
    let children = tree.children.into_iter().map(untagged).collect();
    Tree { children, ..tree }
}

/// Whether a tree has a count that prints and can't be read: `{0}`, or a maximum of 0.
pub fn has_zero(tree: &Tree) -> bool {
    let zero = match tree.kind {
        13 | 15 => tree.numbers[0] == 0,
        16 => tree.numbers[1] == 0,
        _ => false,
    };
    zero || tree.children.iter().any(has_zero)
}

/// Whether a tree has a minimum above its maximum, which prints and can't be read by the second
/// edition. Where the maximum is 0, that is the fault.
pub fn has_above(tree: &Tree) -> bool {
    let [least, most, _] = tree.numbers;
    tree.kind == 16 && 0 < most && most < least || tree.children.iter().any(has_above)
}

/// Whether a tree has a PUSH_LITERAL.
pub fn has_push_literal(tree: &Tree) -> bool {
    tree.kind == 18 || tree.children.iter().any(has_push_literal)
}
