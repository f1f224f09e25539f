//! Texts and tables by the million, and what the Rust, the second program and the product
//! answer for them.

pub mod by_hand;
pub mod characters;
pub mod instructions;
pub mod layouts;
pub mod lines;
pub mod print_by_hand;
pub mod printing;
pub mod tables;
pub mod texts;
pub mod timing;
pub mod trees;

#[cfg(feature = "product")]
pub mod matching;
#[cfg(feature = "product")]
pub mod printed;
#[cfg(feature = "product")]
pub mod product;

use std::collections::BTreeMap;

use oracle::Tables;
use second::read::{Edition, Used};
use second::{Refusal, NODE_RECORD, RULE_RECORD};

/// What the second program reads by the first edition, all the room in the world being there.
pub fn second_reads(text: &[u8], tagged: bool) -> Result<Tables, Refusal> {
    second_reads_edition(text, tagged, Edition::First)
}

/// What it reads by an edition.
pub fn second_reads_edition(
    text: &[u8],
    tagged: bool,
    edition: Edition,
) -> Result<Tables, Refusal> {
    let made = second::read::tables_edition(text, tagged, edition)?;
    Ok(Tables { nodes: made.nodes, rules: made.rules, store: made.store })
}

/// What tables use of lent buffers.
pub fn used(tables: &Tables) -> Used {
    Used {
        nodes: tables.nodes.len() / NODE_RECORD,
        rules: tables.rules.len() / RULE_RECORD,
        store: tables.store.len(),
    }
}

/// Counts under names, each with its smallest text.
#[derive(Default)]
pub struct Tally(BTreeMap<String, (u64, Vec<u8>)>);

impl Tally {
    pub fn add(&mut self, name: String, text: &[u8]) {
        let (count, least) = self.0.entry(name).or_insert((0, text.to_vec()));
        *count += 1;
        if (text.len(), text) < (least.len(), &least[..]) {
            *least = text.to_vec();
        }
    }

    pub fn is_empty(&self) -> bool {
        self.0.is_empty()
    }

    pub fn print(&self, title: &str) {
        println!("\n{title}");
        for (name, (count, least)) in &self.0 {
            println!("  {count:>9}  {name}   {}", shown(least));
        }
    }
}

/// Numbers that look random and come again for the same seed (SplitMix64).
#[derive(Clone)]
pub struct Random(pub u64);

impl Random {
    #[allow(clippy::should_implement_trait)]
    pub fn next(&mut self) -> u64 {
        self.0 = self.0.wrapping_add(0x9e37_79b9_7f4a_7c15);
        let mut z = self.0;
        z = (z ^ (z >> 30)).wrapping_mul(0xbf58_476d_1ce4_e5b9);
        z = (z ^ (z >> 27)).wrapping_mul(0x94d0_49bb_1331_11eb);
        z ^ (z >> 31)
    }

    /// Below `n`.
    pub fn below(&mut self, n: usize) -> usize {
        (self.next() % n as u64) as usize
    }

    pub fn one_in(&mut self, n: usize) -> bool {
        self.below(n) == 0
    }

    pub fn of<T: Copy>(&mut self, choices: &[T]) -> T {
        choices[self.below(choices.len())]
    }
}

/// Runs on a stack of `bytes`: the Rust recurses once for each bracket and predicate.
pub fn on_stack<T: Send>(bytes: usize, work: impl FnOnce() -> T + Send) -> T {
    std::thread::scope(|scope| {
        let thread = std::thread::Builder::new().stack_size(bytes).spawn_scoped(scope, work);
        thread.expect("a thread").join().expect("no panic")
    })
}

/// Panics of the Rust are answers here, not messages.
pub fn quiet_panics() {
    std::panic::set_hook(Box::new(|_| ()));
}

/// Bytes as a line can hold them.
pub fn shown(text: &[u8]) -> String {
    const MOST: usize = 70;
    let all = String::from_utf8_lossy(text);
    let mut short = String::from("`");
    for c in all.chars().take(MOST) {
        match c {
            '"' | '\'' | '\\' => short.push(c),
            _ => short.extend(c.escape_debug()),
        }
    }
    short.push('`');
    if all.chars().count() > MOST {
        short.push_str(&format!(" .. ({} bytes)", text.len()));
    }
    short
}

pub fn hex(bytes: &[u8]) -> String {
    bytes.iter().map(|b| format!("{b:02x}")).collect()
}

/// Whether `--name` stands on the command line.
pub fn asked(name: &str) -> bool {
    std::env::args().any(|argument| argument == name)
}

/// `--name value` on the command line, or the default.
pub fn argument(name: &str, default: u64) -> u64 {
    let mut arguments = std::env::args();
    while let Some(argument) = arguments.next() {
        if argument == name {
            let value = arguments.next().and_then(|v| v.parse().ok());
            return value.unwrap_or_else(|| panic!("{name} wants a number"));
        }
    }
    default
}
