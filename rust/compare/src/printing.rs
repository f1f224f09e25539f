//! Printing: both texts of every table, `Display` beside the full one, and what is read back from each.

use oracle::{Answer, Tables};
use second::brackets::{depth, pairs, without};
use second::print::{print, print_short};
use second::read::Edition;
use second::{Refusal, BYTES, OPEN};

use crate::characters::is_in_domain;
use crate::trees::{self, Rule, Tree};
use crate::{second_reads, second_reads_edition, tables, used, Tally};

/// The printer's two texts.
#[derive(Clone, Copy, Debug, PartialEq, Eq)]
pub enum Style {
    Full,
    Short,
}

impl Style {
    pub const BOTH: [Style; 2] = [Style::Full, Style::Short];

    /// The second program's text; one of more than 8,388,608 bytes is 23.
    pub fn print(self, made: &Tables) -> Result<Vec<u8>, Refusal> {
        let print = match self {
            Style::Full => print,
            Style::Short => print_short,
        };
        let mut out = vec![0; 1 << 12];
        let mut printed = print(&made.nodes, &made.rules, &made.store, &mut out);
        // Few texts are longer, and so much room takes its time to clear.
        if printed == Err(Refusal { number: 23, place: 0 }) {
            out = vec![0; 1 << 23];
            printed = print(&made.nodes, &made.rules, &made.store, &mut out);
        }
        out.truncate(printed?);
        Ok(out)
    }

    /// The rules that are read from a style's text of some rules.
    pub fn seen(self, rules: Vec<Rule>) -> Vec<Rule> {
        match self {
            Style::Full => each(rules, trees::regrouped),
            Style::Short => rules,
        }
    }
}

fn each(rules: Vec<Rule>, change: fn(Tree) -> Tree) -> Vec<Rule> {
    rules.into_iter().map(|rule| Rule { tree: change(rule.tree), ..rule }).collect()
}

/// Whether tables have so few nodes that their text is read without each pair of brackets too, and by
/// the Rust.
pub fn is_small(made: &Tables) -> bool {
    used(made).nodes <= 40
}

/// A text without each pair of round brackets in turn, but for those of PUSH and PUSH_LITERAL.
pub fn without_pairs(text: &[u8]) -> impl Iterator<Item = Vec<u8>> + '_ {
    pairs(text).into_iter().map(|pair| without(text, pair))
}

/// The numbers of which a reader gives one for a printed text; where there are none, it reads it.
fn refusals(rules: &[Rule], text: &[u8], tagged: bool, edition: Edition) -> Vec<u64> {
    if text.len() > BYTES {
        return vec![1];
    }
    if text.is_empty() {
        return vec![4];
    }
    if depth(text) > OPEN {
        return vec![9];
    }
    let any = |has: fn(&Tree) -> bool| rules.iter().any(|rule| has(&rule.tree));
    let mut numbers = Vec::new();
    if any(trees::has_zero) {
        numbers.push(6);
    }
    if !tagged && any(trees::has_push_literal) {
        numbers.push(13);
    }
    if edition == Edition::Second && any(trees::has_above) {
        numbers.push(15);
    }
    numbers
}

#[derive(Default)]
struct Printing {
    answers: Tally,
    faults: Tally,
    tables: u64,
    trees: u64,
    /// Pairs of brackets that were left out.
    pairs: u64,
}

impl Printing {
    fn table(&mut self, made: &Tables) {
        self.tables += 1;
        self.trees += used(made).rules as u64;
        for style in Style::BOTH {
            match style.print(made) {
                Ok(text) => self.text(style, made, &text),
                Err(refusal) => self.answers.add(format!("{style:?}: {}", refusal.number), b""),
            }
        }
    }

    fn text(&mut self, style: Style, made: &Tables, text: &[u8]) {
        let rules = trees::rules(made);
        if style == Style::Full {
            self.display(made, &rules, text);
        }
        let more = style == Style::Short && is_small(made) && text.len() <= BYTES;
        let tagged = style.seen(rules);
        self.back(style, true, &tagged, text, more);
        let plain = each(tagged, trees::untagged);
        self.back(style, false, &plain, text, more);
    }

    /// Holds the full text to `Display`'s.
    fn display(&mut self, made: &Tables, rules: &[Rule], text: &[u8]) {
        let rust = oracle::print(&made.nodes, &made.rules, &made.store);
        if rust.as_bytes() == text {
            let what = if text.is_ascii() { "ASCII" } else { "beyond ASCII" };
            self.answers.add(format!("Full: printed alike by `Display`, {what}"), text);
        } else if in_domain(rules) {
            self.faults.add("PRINTED OTHERWISE".to_string(), text);
        } else {
            self.answers.add("Full: with other characters: printed otherwise".to_string(), text);
        }
    }

    /// Reads a text again: it must be these rules. There is `more` to a small tree's short text.
    fn back(&mut self, style: Style, tagged: bool, rules: &[Rule], text: &[u8], more: bool) {
        let name = format!("{style:?}, {}", if tagged { "tagged" } else { "plain" });
        let wanted = trees::tables(rules);
        for (edition, by) in [(Edition::First, "back"), (Edition::Second, "back by edition 2")] {
            let refusals = refusals(rules, text, tagged, edition);
            match second_reads_edition(text, tagged, edition).map(Tables::without_spans) {
                Ok(read) if refusals.is_empty() && read == wanted => {
                    self.answers.add(format!("{name}: {by}"), text);
                }
                Err(Refusal { number, .. }) if refusals.contains(&number) => {
                    self.answers.add(format!("{name}: {by}: {number}"), text);
                }
                _ => self.faults.add(format!("{name}: NOT {by}"), text),
            }
        }
        if !more {
            return;
        }
        let is_read = refusals(rules, text, tagged, Edition::First).is_empty();
        let wanted = Some(&wanted).filter(|_| is_read);
        self.rust(&name, tagged, wanted, text);
        if let (true, Some(wanted)) = (tagged, wanted) {
            self.needed(wanted, text);
        }
    }

    /// The Rust must read the same, or refuse too.
    fn rust(&mut self, name: &str, tagged: bool, wanted: Option<&Tables>, text: &[u8]) {
        oracle::limit_calls(1_000_000 + 200 * text.len());
        let same = match oracle::read(std::str::from_utf8(text).expect("UTF-8"), tagged) {
            Answer::Read(rules) => wanted == Some(&Tables::of(&rules).without_spans()),
            Answer::NotRecognized(_) | Answer::NotBuilt(..) => wanted.is_none(),
            Answer::Panicked(_) | Answer::GaveUp => false,
        };
        match (same, wanted) {
            (true, Some(_)) => self.answers.add(format!("{name}: back by the Rust"), text),
            (true, None) => self.answers.add(format!("{name}: the Rust refuses it too"), text),
            (false, _) => self.faults.add(format!("{name}: THE RUST OTHERWISE"), text),
        }
    }

    /// No pair of brackets can be left out.
    fn needed(&mut self, wanted: &Tables, text: &[u8]) {
        for less in without_pairs(text) {
            self.pairs += 1;
            if second_reads(&less, true).is_ok_and(|read| read.without_spans() == *wanted) {
                self.faults.add("Short: A PAIR TOO MANY".to_string(), text);
            }
        }
    }
}

/// Whether all strings and range ends are such as print as in the Rust.
fn in_domain(rules: &[Rule]) -> bool {
    fn tree_is(tree: &Tree) -> bool {
        let end_is = |end: &u32| char::from_u32(*end).is_some_and(is_in_domain);
        let ends = tree.kind != 3 || tree.numbers[..2].iter().all(end_is);
        let text = std::str::from_utf8(&tree.text).expect("UTF-8");
        ends && text.chars().all(is_in_domain) && tree.children.iter().all(tree_is)
    }
    rules.iter().all(|rule| tree_is(&rule.tree))
}

/// The second program and the Rust, over the tables of a run.
pub fn compare(seed: u64, scale: usize) -> bool {
    let mut printing = Printing::default();
    tables::all(seed, scale, &mut |made| printing.table(made));
    let Printing { answers, faults, tables, trees, pairs } = printing;
    println!("\ntables: {tables}, of {trees} trees; pairs of brackets left out: {pairs}");
    answers.print("printer, count, class, smallest text:");
    faults.print("DIFFERENT (nothing below is good):");
    faults.is_empty()
}
