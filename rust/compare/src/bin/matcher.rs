//! The matcher's lengths against those of parsers that pest 2.5.2 itself generated (rust/pest_lines);
//! then, with the feature `product`, the product against the second program, as in `compare`.
//! `--seed N` (default 1); `--scale N`, hundredths of the full run (default 100). Ends with 1 if
//! anything is different.

use std::time::Instant;

use compare::lines::Liner;
use compare::{argument, on_stack, shown, Random};
use oracle::Tables;
use pest_lines::{Grammar, GRAMMARS, KNOWN, MADE};
use second::matching::{match_line, record};

/// Lines for each rule of each grammar.
const LINES: usize = 2_000;
/// What needs more steps than this, pest isn't asked.
const ALLOWANCE: u64 = 200_000;

#[derive(Default)]
struct Counts {
    matched: u64,
    none: u64,
    /// Of the matched, those that took nothing.
    empty: u64,
    over: u64,
    different: u64,
}

/// The grammar's tables, read by the product where it is linked.
fn tables(grammar: &Grammar) -> Tables {
    let read = second::read::tables(grammar.text.as_bytes(), true).expect(grammar.text);
    let read = Tables { nodes: read.nodes, rules: read.rules, store: read.store };
    #[cfg(feature = "product")]
    assert_eq!(compare::product::read(grammar.text.as_bytes()), read, "{}", grammar.text);
    read
}

fn compare_grammar(grammar: &Grammar, random: &mut Random, lines: usize, counts: &mut Counts) {
    let tables = tables(grammar);
    let characters: Vec<char> = grammar.characters.chars().collect();
    let mut least: Option<(usize, Vec<u8>, String)> = None;
    for rule in 0..grammar.rules.len() {
        for _ in 0..lines {
            let line = Liner::new(random, &characters).line(&tables, rule);
            let line = String::from_utf8(line).expect("UTF-8");
            let Tables { nodes, rules, store } = &tables;
            let ours = match_line(nodes, rules, store, rule, line.as_bytes(), ALLOWANCE);
            let ours = record(ours);
            #[cfg(feature = "product")]
            {
                let theirs = compare::product::match_into(
                    nodes,
                    rules,
                    store,
                    rule,
                    line.as_bytes(),
                    ALLOWANCE,
                );
                if theirs != [ours.number, ours.place, ours.matched, ours.length, ours.steps] {
                    counts.different += 1;
                    println!("PRODUCT {theirs:?}, second {ours:?}: {}", shown(line.as_bytes()));
                }
            }
            if ours.number != 0 {
                // 34, and nothing else can be
                assert_eq!(ours.number, 34, "{}", grammar.text);
                counts.over += 1;
                continue;
            }
            let pest = (grammar.length)(rule, &line);
            let length = (ours.matched == 1).then_some(ours.length as usize);
            match length {
                Some(length) => {
                    counts.matched += 1;
                    counts.empty += u64::from(length == 0);
                }
                None => counts.none += 1,
            }
            if pest != length {
                counts.different += 1;
                let what = format!("pest {pest:?}, the matcher {length:?}");
                let first = match &least {
                    Some((_, least, _)) => line.len() < least.len(),
                    None => true,
                };
                if first {
                    least = Some((rule, line.into_bytes(), what));
                }
            }
        }
    }
    if let Some((rule, line, what)) = least {
        println!("DIFFERENT: {what}, rule {rule}, line {}, of\n{}", shown(&line), grammar.text);
    }
}

/// What pest's optimizer is known to turn into something else: still so, as docs/DIFFERENCES.md says.
fn known() -> bool {
    let mut good = true;
    for (grammar, line, wanted, ours) in KNOWN {
        let Tables { nodes, rules, store } = tables(grammar);
        let answer = record(match_line(&nodes, &rules, &store, 0, line.as_bytes(), ALLOWANCE));
        let answer = (answer.matched == 1).then_some(answer.length as usize);
        let pest = (grammar.length)(0, line);
        println!("known: {} on {line:?}: pest {pest:?}, the matcher {answer:?}", grammar.text);
        good &= pest == *wanted && answer == *ours;
    }
    good
}

fn compare_pest(seed: u64, scale: usize) -> bool {
    let start = Instant::now();
    println!("grammars: {}; {MADE}", GRAMMARS.len());
    let rules: usize = GRAMMARS.iter().map(|grammar| grammar.rules.len()).sum();
    let mut counts = Counts::default();
    let mut random = Random(seed ^ 0x9e57);
    for grammar in &GRAMMARS {
        compare_grammar(grammar, &mut random, LINES * scale / 100, &mut counts);
    }
    let Counts { matched, none, empty, over, different } = counts;
    let matches = matched + none;
    println!("{rules} rules, {matches} matches: {matched} matched ({empty} of them nothing), {none} none");
    println!("{over} more were 34 and pest was not asked; {different} different");
    let good = known() && different == 0;
    println!("pest: {:.1} s", start.elapsed().as_secs_f64());
    good
}

fn main() {
    let (seed, scale) = (argument("--seed", 1), argument("--scale", 100) as usize);
    println!("seed {seed}, scale {scale} of 100");
    #[allow(unused_mut)]
    let mut good = on_stack(1 << 30, || compare_pest(seed, scale));
    #[cfg(feature = "product")]
    {
        // The product gets the stack that a program has.
        let start = Instant::now();
        good &= on_stack(8 << 20, || compare::matching::compare(seed, scale));
        println!("product: {:.1} s", start.elapsed().as_secs_f64());
    }
    println!("\n{}", if good { "no difference" } else { "DIFFERENT" });
    std::process::exit(i32::from(!good));
}
