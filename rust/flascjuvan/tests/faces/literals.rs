//! Strings and characters stand everywhere as the grammar writes them.

use flascjuvan::{Expr, Grammar};

use crate::{printed, rule};

/// A character inside quotes, by the words of the rules.
fn written(c: char, quote: char) -> String {
    match c {
        _ if c == quote || c == '\\' => format!("\\{c}"),
        '\0' => "\\0".to_owned(),
        '\t' => "\\t".to_owned(),
        '\n' => "\\n".to_owned(),
        '\r' => "\\r".to_owned(),
        ' '..='~' | '\u{a1}'..='\u{ac}' | '\u{ae}'..='\u{24f}' => c.to_string(),
        _ => format!("\\u{{{:02x}}}", u32::from(c)),
    }
}

/// How a leaf is printed, drawn and named: without what stands around it.
fn shown(leaf: Expr, name: &str) -> [String; 3] {
    let grammar = Grammar::from(rule(leaf.clone()));
    let cut = |text: String, before: &str, after: &str| {
        let inside = text.strip_prefix(before).and_then(|text| text.strip_suffix(after));
        inside.unwrap_or_else(|| panic!("{text:?}")).to_owned()
    };
    [
        cut(printed(&grammar), "r = { ", " }\n"),
        cut(grammar.picture().to_string(), &format!("r  0..0\n└─ {name} "), "  0..0\n"),
        cut(format!("{leaf:?}"), &format!("{name}("), ")"),
    ]
}

#[test]
fn every_character() {
    let above = [0x7ff, 0x800, 0x2028, 0xd7ff, 0xe000, 0xfeff, 0xffff, 0x10000, 0x1f600, 0x10ffff];
    let mut seen = 0;
    for c in (0..0x300).chain(above).filter_map(char::from_u32) {
        let string = format!("\"{}\"", written(c, '"'));
        for (leaf, name, sign) in [(Expr::Str(c.to_string()), "Str", ""), (Expr::Insens(c.to_string()), "Insens", "^")]
        {
            assert_eq!(shown(leaf, name), [format!("{sign}{string}"), string.clone(), string.clone()]);
        }
        let [printed, drawn, named] = shown(Expr::PushLiteral(c.to_string()), "PushLiteral");
        assert_eq!([printed, drawn, named], [format!("PUSH_LITERAL({string})"), string.clone(), string]);

        let end = format!("'{}'", written(c, '\''));
        assert_eq!(
            shown(Expr::Range(c, 'z'), "Range"),
            [format!("({end}..'z')"), format!("{end}..'z'"), format!("{end}, 'z'")]
        );
        assert_eq!(
            shown(Expr::Range('"', c), "Range"),
            [format!("('\"'..{end})"), format!("'\"'..{end}"), format!("'\"', {end}")]
        );
        seen += 1;
    }
    assert_eq!(seen, 0x300 + above.len());
}

#[test]
fn strings_of_any_length() {
    for length in [0, 1, 2, 8191, 16384, 16385, 30000] {
        let text = "é\u{1}\"\u{10000}".repeat(length);
        let literal = format!("Str(\"{}\")", "é\\u{01}\\\"\\u{10000}".repeat(length));
        assert!(format!("{:?}", Expr::Str(text)) == literal, "{length} times");
    }
}
