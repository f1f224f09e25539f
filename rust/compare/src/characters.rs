//! Every character in every literal and at both ends of a range: the second program's text against
//! `Display`'s, and what is read back from it.

use std::collections::BTreeMap;

use oracle::{Answer, Tables};

use crate::printing::Style;
use crate::second_reads;
use crate::trees::{self, Rule, Tree};

/// Characters that must print as in the Rust, between whichever quotes: ASCII, and those that print
/// bare beyond it, with U+00AD, which both escape.
pub fn is_in_domain(character: char) -> bool {
    character.is_ascii() || ('\u{a1}'..='\u{24f}').contains(&character)
}

fn ruled(tree: Tree) -> Tables {
    trees::tables(&[Rule { name: b"r".to_vec(), mark: 0, tree }])
}

fn leaf(kind: u32, numbers: [u32; 3], text: &str) -> Tree {
    Tree { kind, numbers, text: text.into(), children: Vec::new() }
}

fn range(first: char, last: char) -> Tree {
    leaf(3, [first.into(), last.into(), 0], "")
}

/// A rule of a chain of these.
fn chain(trees: impl IntoIterator<Item = Tree>) -> Tables {
    let join =
        |left, right| Tree { children: vec![left, right], ..leaf(8, Default::default(), "") };
    ruled(trees.into_iter().reduce(join).expect("a tree"))
}

/// A rule of a literal of a kind: a string, one that ignores case, or a PUSH_LITERAL.
pub fn literal(kind: u32, text: &str) -> Tables {
    ruled(leaf(kind, [0; 3], text))
}

/// A rule of ranges from each to the next of some characters, two and two.
pub fn ranges(characters: &[char]) -> Tables {
    chain(characters.chunks(2).map(|pair| range(pair[0], pair[pair.len() - 1])))
}

/// A character everywhere: between both quotes, and at both ends of ranges.
fn everywhere(character: char) -> Tables {
    let text = character.to_string();
    let literals = [1, 2, 18].map(|kind| leaf(kind, [0; 3], &text));
    chain(literals.into_iter().chain([range(character, 'a'), range('a', character)]))
}

/// The full text of `everywhere`, had nothing to be escaped.
fn unescaped(character: char) -> String {
    format!(
        "r = {{ ((((\"{0}\" ~ ^\"{0}\") ~ PUSH_LITERAL(\"{0}\")) ~ ('{0}'..'a')) ~ ('a'..'{0}')) }}\n",
        character
    )
}

/// Tables of every character. Below a scale of 50 hundredths only some of those above U+02FF.
pub fn all(scale: usize, f: &mut dyn FnMut(char, &Tables)) {
    let step = if scale < 50 { 97 } else { 1 };
    let above = ('\u{300}'..=char::MAX).step_by(step);
    for character in ('\0'..='\u{2ff}').chain(above) {
        f(character, &everywhere(character));
    }
}

/// Counts of one block of characters.
#[derive(Default)]
struct Block {
    alike: u64,
    otherwise: u64,
    /// Printed bare by the second program, and by the Rust.
    bare: [u64; 2],
}

fn block(character: char) -> &'static str {
    match character {
        '\0'..='\u{7f}' => "U+0000 to U+007F",
        '\u{80}'..='\u{a0}' => "U+0080 to U+00A0",
        '\u{a1}'..='\u{24f}' => "U+00A1 to U+024F",
        '\u{250}'..='\u{2ff}' => "U+0250 to U+02FF",
        _ => "U+0300 and above",
    }
}

/// The second program and the Rust.
pub fn compare(scale: usize) -> bool {
    oracle::limit_calls(0);
    let mut blocks: BTreeMap<&str, Block> = BTreeMap::new();
    let (mut first, mut bad) = (None, Vec::new());
    let (mut back, mut back_by_rust) = (0u64, 0u64);
    all(scale, &mut |character, made| {
        let [full, short] = Style::BOTH.map(|style| style.print(made).expect("a good table"));
        let full = String::from_utf8(full).expect("UTF-8");
        let rust = oracle::print(&made.nodes, &made.rules, &made.store);
        let counts = blocks.entry(block(character)).or_default();
        let raw = unescaped(character);
        counts.bare[0] += u64::from(full == raw);
        counts.bare[1] += u64::from(rust == raw);
        let same = full == rust;
        if same {
            counts.alike += 1;
        } else {
            counts.otherwise += 1;
            first.get_or_insert(character);
        }
        let read = |text: &[u8]| second_reads(text, true).map(Tables::without_spans);
        let is_back = read(full.as_bytes()).as_ref() == Ok(made)
            && read(&short).as_ref() == Ok(made)
            && oracle::unescape(&full) == Some(raw);
        back += u64::from(is_back);
        let mut good = is_back && (same || !is_in_domain(character));
        // All that the Rust may be asked in a few seconds.
        if character <= '\u{2ff}' {
            let read = oracle::read(&full, true);
            let is_back =
                matches!(read, Answer::Read(rules) if Tables::of(&rules).without_spans() == *made);
            back_by_rust += u64::from(is_back);
            good &= is_back;
        }
        if !good {
            bad.push(character);
        }
    });
    println!("\ncharacters in every literal and at both ends of ranges; printed bare by the second program, by the Rust:");
    for (name, Block { alike, otherwise, bare: [ours, rust] }) in &blocks {
        println!("  {name}: {alike} print alike, {otherwise} otherwise; bare {ours}, {rust}");
    }
    let sum = |count: fn(&Block) -> u64| blocks.values().map(count).sum::<u64>();
    println!(
        "all: {} print alike, {} otherwise, the first {:?}; back {back}, by the Rust too {back_by_rust}",
        sum(|block| block.alike),
        sum(|block| block.otherwise),
        first.map(|character| format!("U+{:04X}", character as u32))
    );
    println!("ASCII and U+00A1 to U+024F that print otherwise, or what doesn't come back: {bad:?}");
    bad.is_empty()
}
