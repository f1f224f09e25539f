//! The good tables that the gate prints in full (crates/printer_run), by `Display` too.

use std::path::Path;

/// A list of numbers; `-` is an empty one.
fn numbers(word: &str) -> Vec<u32> {
    let word = word.trim_matches('-');
    word.split_terminator(',').map(|number| number.parse().expect("a number")).collect()
}

/// Bytes in hex digits; `-` is none.
fn bytes(word: &str) -> Vec<u8> {
    let word = word.trim_matches('-');
    let digits = |at| u8::from_str_radix(&word[at..at + 2], 16).expect("two hex digits");
    (0..word.len()).step_by(2).map(digits).collect()
}

/// The characters of all strings and range ends.
fn characters(nodes: &[u32], store: &[u8]) -> String {
    let mut all = String::new();
    for node in nodes.chunks_exact(7) {
        match node[0] {
            1 | 2 | 18 => {
                let text = &store[node[3] as usize..][..node[4] as usize];
                all.push_str(std::str::from_utf8(text).expect("UTF-8"));
            }
            3 => all.extend(node[3..5].iter().map(|&end| char::from_u32(end).expect("an end"))),
            _ => {}
        }
    }
    all
}

/// Whether the Rust prints them as the product does.
fn are_in_domain(characters: &str) -> bool {
    characters.chars().all(|c| c.is_ascii() || ('\u{a1}'..='\u{24f}').contains(&c))
}

#[test]
fn printed_as_display_prints() {
    let file = Path::new(env!("CARGO_MANIFEST_DIR")).join("../../crates/printer_run/stdout");
    let answers = std::fs::read(file).expect("the answers of printer_run");
    let mut rest = &answers[..];
    let (mut ascii, mut beyond, mut others) = (0, 0, 0);
    while let Some(end) = rest.iter().position(|&byte| byte == b'\n') {
        let line = std::str::from_utf8(&rest[..end]).expect("UTF-8");
        rest = &rest[end + 1..];
        // `p ROOM NODES RULES STORE 0 0 USED LEFT`, and below it the text
        let words: Vec<&str> = line.split(' ').collect();
        let (used, [nodes, rules, store]) = match words[..] {
            ["p", _, nodes, rules, store, "0", "0", used, _] => (used, [nodes, rules, store]),
            _ => continue,
        };
        let (text, behind) = rest.split_at(used.parse().expect("a length"));
        rest = behind;
        let (nodes, rules, store) = (numbers(nodes), numbers(rules), bytes(store));
        let characters = characters(&nodes, &store);
        if !are_in_domain(&characters) {
            others += 1;
            continue;
        }
        let by_display = oracle::print(&nodes, &rules, &store);
        assert_eq!(String::from_utf8_lossy(text), by_display, "{line}");
        *if characters.is_ascii() { &mut ascii } else { &mut beyond } += 1;
    }
    println!("{ascii} in ASCII and {beyond} up to U+024F alike; {others} hold other characters");
    assert!(ascii > 0 && beyond > 0 && others > 0);
}
