//! Printing of tables: `Display` of the given ast.rs, a printer by hand in Rust and the product, into an output that
//! is ample and into one of exactly the text's length; of three layouts that stand in the repository and of random
//! trees. Then the tables that take the check longest.

use std::hint::black_box;
use std::time::Duration;

use oracle::{Printable, Tables};

use crate::product::{print_into, print_short_into};
use crate::tables::{worst, Grower};
use crate::timing::{measure, Work};
use crate::{print_by_hand, second_reads, used, Random};

const LAYOUTS: [(&str, &str); 3] = [
    ("layouts/pan.pest", include_str!("../../../layouts/pan.pest")),
    ("layouts/mill.pest", include_str!("../../../layouts/mill.pest")),
    ("layouts/campaign.pest", include_str!("../../../layouts/campaign.pest")),
];

/// Nodes of random tables, and how many of them take turns, so that a processor doesn't learn the branches of one.
const SIZES: [usize; 4] = [64, 500, 2_000, 4_000];
const TABLES: usize = 8;

/// An output that is long enough for each of the texts, and for the printer's bound.
const AMPLE: usize = 131_072;

type Printer = fn(&[u32], &[u32], &[u8], &mut [u8]) -> [u64; 3];

/// The bytes that the product prints.
fn print(by: Printer, tables: &Tables, out: &mut [u8]) -> usize {
    let tables = black_box(tables);
    let answer = by(&tables.nodes, &tables.rules, &tables.store, out);
    assert_eq!(answer[..2], [0, 0]);
    answer[2] as usize
}

fn by_hand(tables: &Tables, text: &mut Vec<u8>, out: &mut [u8]) -> usize {
    let tables = black_box(tables);
    print_by_hand::print(&tables.nodes, &tables.rules, &tables.store, text, out).expect("printed")
}

/// Prints some tables by turns, a line for each printer; outputs are lent once and not cleared. All texts are compared
/// before anything is measured.
fn one(name: &str, all: &[Tables], budget: Duration) {
    let trees: Vec<Printable> =
        all.iter().map(|t| Printable::of(&t.nodes, &t.rules, &t.store)).collect();
    let texts: Vec<String> = trees.iter().map(Printable::print).collect();
    let [mut ample, mut ample2, mut short] = [(); 3].map(|()| vec![0; AMPLE]);
    let mut exact: Vec<Vec<u8>> = texts.iter().map(|text| vec![0; text.len()]).collect();
    let mut text = Vec::new();
    for ((tables, wanted), exact) in all.iter().zip(&texts).zip(&mut exact) {
        let length = by_hand(tables, &mut text, &mut ample2);
        assert_eq!(&ample2[..length], wanted.as_bytes());
        let length = print(print_into, tables, &mut ample);
        assert_eq!(&ample[..length], wanted.as_bytes());
        print(print_into, tables, exact);
        assert_eq!(exact, wanted.as_bytes());
    }
    let counts = all.iter().map(used);
    let nodes = counts.clone().map(|used| used.nodes).sum::<usize>() / all.len();
    let rules = counts.map(|used| used.rules).sum::<usize>() / all.len();
    let bytes = texts.iter().map(String::len).sum::<usize>();
    let each = bytes / all.len();
    println!("\nprinting {name}: {nodes} nodes, {rules} rules, {each} bytes printed");
    let works: Vec<Work<'_>> = vec![
        (
            "given files of 2.9.5: Display",
            Box::new(|| {
                trees.iter().for_each(|tree| {
                    black_box(black_box(tree).print());
                });
            }),
        ),
        (
            "by hand in Rust, the same tables",
            Box::new(|| {
                all.iter().for_each(|tables| {
                    black_box(by_hand(tables, &mut text, &mut ample2));
                });
            }),
        ),
        (
            "the product, ample output",
            Box::new(|| {
                all.iter().for_each(|tables| {
                    black_box(print(print_into, tables, &mut ample));
                });
            }),
        ),
        (
            "the product, exact output",
            Box::new(|| {
                all.iter().zip(&mut exact).for_each(|(tables, exact)| {
                    black_box(print(print_into, tables, exact));
                });
            }),
        ),
        (
            "the product, short text, ample",
            Box::new(|| {
                all.iter().for_each(|tables| {
                    black_box(print(print_short_into, tables, &mut short));
                });
            }),
        ),
    ];
    measure(budget, bytes, works);
}

/// The three layouts, and the tables that take the check longest.
pub fn layouts(budget: Duration) {
    for (name, layout) in LAYOUTS {
        let tables = second_reads(layout.as_bytes(), true).expect("a good text");
        one(name, &[tables], budget);
    }
    println!("\nthe check of nodes or rules that name one text over and over, into no room");
    for (name, tables) in worst() {
        let check = || {
            let tables = black_box(&tables);
            let answer = print_into(&tables.nodes, &tables.rules, &tables.store, &mut []);
            assert_eq!(black_box(answer)[0], 23);
        };
        measure(budget, tables.store.len(), vec![(name, Box::new(check))]);
    }
}

/// A table with ASCII texts whose nodes are no more than a twentieth off.
fn grown(grower: &mut Grower, nodes: usize) -> Tables {
    let mut rules = 1 + nodes / 30;
    loop {
        let tables = grower.grow(rules, 40);
        let count = used(&tables).nodes;
        if count <= 4_096 && count.abs_diff(nodes) * 20 <= nodes {
            return tables;
        }
        rules = if count < nodes { rules + 1 } else { (rules - 1).max(1) };
    }
}

/// Random trees of each size; what is measured is a turn of all tables.
pub fn random_trees(seed: u64, budget: Duration) {
    let mut grower = Grower::new(Random(seed));
    for nodes in SIZES {
        let tables: Vec<Tables> = (0..TABLES).map(|_| grown(&mut grower, nodes)).collect();
        one(&format!("{TABLES} random tables, each of some"), &tables, budget);
    }
}
