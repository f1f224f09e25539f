//! Which characters print bare: U+0020 to U+007E and U+00A1 to U+024F but U+00AD, in every literal,
//! at both ends of a range, in full and short. What is printed is read again.

use second::print::{print, print_short};
use second::read::{tables, Tables};
use second::Refusal;

type Print = fn(&[u32], &[u32], &[u8], &mut [u8]) -> Result<usize, Refusal>;

const RULE: [u32; 6] = [0, 1, 0, 0, 0, 0];

/// The full text of one node in a rule `r`, which the store begins with; without the rule.
fn body(node: [u32; 7], store: &str) -> String {
    let mut out = [0; 64];
    let length = print(&node, &RULE, store.as_bytes(), &mut out).expect("a good table");
    // The measured length is the written one.
    assert_eq!(print(&node, &RULE, store.as_bytes(), &mut out[..length]), Ok(length));
    let refusal = Err(Refusal { number: 23, place: 0 });
    assert_eq!(print(&node, &RULE, store.as_bytes(), &mut out[..length - 1]), refusal);
    let text = std::str::from_utf8(&out[..length]).expect("UTF-8");
    let inside = text.strip_prefix("r = { ").and_then(|text| text.strip_suffix(" }\n"));
    inside.unwrap_or_else(|| panic!("{text}")).to_string()
}

fn string(text: &str) -> String {
    body([1, 0, 0, 1, text.len() as u32, 0, 0], &format!("r{text}"))
}

fn range(first: char, last: char) -> String {
    body([3, 0, 0, first.into(), last.into(), 0, 0], "r")
}

#[test]
fn the_examples() {
    assert_eq!(string("µm").as_bytes(), b"\x22\xc2\xb5\x6d\x22");
    assert_eq!(string("\u{ad}").as_bytes(), b"\x22\x5c\x75\x7b\x61\x64\x7d\x22");
    assert_eq!(string("\u{24f}").as_bytes(), b"\x22\xc9\x8f\x22");
    assert_eq!(string("\u{250}"), r#""\u{250}""#);
    assert_eq!(range('\u{b5}', '\u{ff}').as_bytes(), b"\x28\x27\xc2\xb5\x27..\x27\xc3\xbf\x27\x29");
    assert_eq!(range('\u{ad}', '\u{9f}'), r"('\u{ad}'..'\u{9f}')");
    assert_eq!(string("\u{80}"), r#""\u{80}""#);
}

/// Both sides of each end of what is bare.
#[test]
fn the_ends() {
    for (character, written) in [
        ('\u{1f}', r"\u{1f}"),
        (' ', " "),
        ('~', "~"),
        ('\u{7f}', r"\u{7f}"),
        ('\u{a0}', r"\u{a0}"),
        ('\u{a1}', "\u{a1}"),
        ('\u{ac}', "\u{ac}"),
        ('\u{ad}', r"\u{ad}"),
        ('\u{ae}', "\u{ae}"),
        ('\u{24f}', "\u{24f}"),
        ('\u{250}', r"\u{250}"),
    ] {
        assert_eq!(string(&character.to_string()), format!("\"{written}\""));
        assert_eq!(range(character, 'z'), format!("('{written}'..'z')"));
        assert_eq!(range('a', character), format!("('a'..'{written}')"));
    }
    // Bytes of bare characters are bytes of others too: a byte alone decides nothing.
    assert_eq!(string("\u{c3}\u{a9}\u{c2a9}"), "\"\u{c3}\u{a9}\\u{c2a9}\"");
    assert_eq!(string("a\u{301}"), r#""a\u{301}""#);
}

/// Inside quotes, by the words of the rules.
fn written(character: char, quote: char) -> String {
    match character {
        '\0' => r"\0".to_string(),
        '\t' => r"\t".to_string(),
        '\n' => r"\n".to_string(),
        '\r' => r"\r".to_string(),
        '\\' => r"\\".to_string(),
        _ if character == quote => format!("\\{quote}"),
        '\u{20}'..='\u{7e}' | '\u{a1}'..='\u{ac}' | '\u{ae}'..='\u{24f}' => character.to_string(),
        _ => format!("\\u{{{:02x}}}", character as u32),
    }
}

/// A character in every literal and at both ends of ranges, in one chain.
fn chain(character: char) -> Tables {
    let (own, width) = (character as u32, character.len_utf8() as u32);
    let leaves = [
        [1, 0, 0, 1, width, 0, 0],
        [2, 0, 0, 1, width, 0, 0],
        [18, 0, 0, 1, width, 0, 0],
        [3, 0, 0, own, 97, 0, 0],
        [3, 0, 0, 97, own, 0, 0],
    ];
    let mut nodes = leaves[0].to_vec();
    for (i, leaf) in (1..).zip(&leaves[1..]) {
        nodes.extend(leaf);
        nodes.extend([8, 0, 0, 2 * i - 2, 2 * i - 1, 0, 0]);
    }
    Tables { nodes, rules: vec![0, 1, 0, 8, 0, 0], store: format!("r{character}").into_bytes() }
}

#[test]
fn every_character() {
    let mut bare = 0;
    for character in '\0'..=char::MAX {
        let Tables { nodes, rules, store } = chain(character);
        let mut out = [0; 160];
        let mut text = |print: Print| {
            let length = print(&nodes, &rules, &store, &mut out).expect("a good table");
            String::from_utf8(out[..length].to_vec()).expect("UTF-8")
        };
        let (double, single) = (written(character, '"'), written(character, '\''));
        let (a, b) = (format!("'{single}'..'a'"), format!("'a'..'{single}'"));
        let [s, i, p] = ["", "^", "PUSH_LITERAL("].map(|before| format!("{before}\"{double}\""));
        let short = format!("r = {{ {s} ~ {i} ~ {p}) ~ {a} ~ {b} }}\n");
        assert_eq!(text(print_short), short);
        bare += usize::from(double == character.to_string());
        if character > '\u{2ff}' {
            continue;
        }
        let full = format!("r = {{ (((({s} ~ {i}) ~ {p})) ~ ({a})) ~ ({b})) }}\n");
        assert_eq!(text(print), full);
        let [short, full] = [short, full].map(|text| tables(text.as_bytes(), true).expect(&text));
        let numbers = |nodes: &[u32], at: usize| nodes[7 * at + 3..][..2].to_vec();
        for read in [short, full] {
            assert_eq!(numbers(&read.nodes, 5), [character as u32, 97]);
            assert_eq!(numbers(&read.nodes, 7), [97, character as u32]);
            assert_eq!(read.store, format!("r{0}{0}{0}", character).as_bytes());
        }
    }
    // Between `"`, of the 95 of ASCII all but that and the backslash.
    assert_eq!(bare, 93 + 430);
}
