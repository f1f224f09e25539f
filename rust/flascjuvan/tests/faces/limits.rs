//! The largest texts, and any bytes at all.

use flascjuvan::{print, read, Expr, Level, Rule};

use crate::{printed, tagged};

#[test]
fn the_limits_can_be_reached() {
    let text = format!("a = {{ {}b{} }}", "(".repeat(1024), ")".repeat(1024));
    assert_eq!(printed(&tagged(&text)), "a = { b }\n");
    let text = format!("a={{b}}{}", " ".repeat(65536 - 5));
    assert_eq!(text.len(), 65536);
    assert_eq!(printed(&tagged(&text)), "a = { b }\n");
    assert_eq!(tagged(&"a={b}".repeat(1024)).rules().len(), 1024);
    let chain = format!("a = {{ {} }}", vec!["b"; 2048].join(" ~ "));
    assert_eq!(tagged(&chain).tables().0.len(), 7 * 4095);
    // a text that prints to more than any first guess of its room
    let long = format!("a = {{ \"{}\" }}", "\u{1}".repeat(65000));
    assert_eq!(printed(&tagged(&long)).len(), "a = { \"\" }\n".len() + 6 * 65000);
}

/// The tree that comes back: chains along the right children of one operator are joined from the left, once.
fn regrouped(expr: Expr) -> Expr {
    let inside = |expr: Box<Expr>| Box::new(regrouped(*expr));
    match expr {
        Expr::Seq(a, b) => {
            let mut whole = regrouped(*a);
            let mut rest = *b;
            while let Expr::Seq(a, b) = rest {
                whole = Expr::Seq(Box::new(whole), inside(a));
                rest = *b;
            }
            Expr::Seq(Box::new(whole), Box::new(regrouped(rest)))
        }
        Expr::Choice(a, b) => {
            let mut whole = regrouped(*a);
            let mut rest = *b;
            while let Expr::Choice(a, b) = rest {
                whole = Expr::Choice(Box::new(whole), inside(a));
                rest = *b;
            }
            Expr::Choice(Box::new(whole), Box::new(regrouped(rest)))
        }
        Expr::PosPred(a) => Expr::PosPred(inside(a)),
        Expr::NegPred(a) => Expr::NegPred(inside(a)),
        Expr::Opt(a) => Expr::Opt(inside(a)),
        Expr::Rep(a) => Expr::Rep(inside(a)),
        Expr::RepOnce(a) => Expr::RepOnce(inside(a)),
        Expr::RepExact(a, n) => Expr::RepExact(inside(a), n),
        Expr::RepMin(a, n) => Expr::RepMin(inside(a), n),
        Expr::RepMax(a, n) => Expr::RepMax(inside(a), n),
        Expr::RepMinMax(a, n, m) => Expr::RepMinMax(inside(a), n, m),
        Expr::Push(a) => Expr::Push(inside(a)),
        Expr::NodeTag(a, tag) => Expr::NodeTag(inside(a), tag),
        leaf => leaf,
    }
}

const PIECES: [&str; 42] = [
    "a",
    "=",
    "{",
    "}",
    "(",
    ")",
    "!",
    "&",
    "~",
    "|",
    "*",
    "?",
    "+",
    "{2}",
    "{,0}",
    "\"x\"",
    "'a'",
    "..",
    "#t",
    "_",
    "@",
    "PUSH",
    "PUSH_LITERAL",
    "PEEK",
    "[",
    "]",
    "-1",
    "//c\n",
    "/*",
    "*/",
    "///d\n",
    " ",
    "\\",
    "é",
    "^",
    "%",
    "a = {",
    "}",
    "a ~ (a ~ b)",
    "| (b | a)",
    "#t = (a",
    "b)*",
];

/// Whatever the bytes are, there is an answer, and it keeps to its bounds. What is read comes back.
#[test]
fn any_bytes_are_answered() {
    let mut state = 0x9e37_79b9_7f4a_7c15_u64;
    let mut next = move || {
        state ^= state << 13;
        state ^= state >> 7;
        state ^= state << 17;
        state
    };
    let (mut read_back, mut regrouping) = (0, 0);
    for turn in 0..20_000 {
        let mut text = Vec::new();
        if turn % 4 == 1 {
            text.extend_from_slice(b"a = {");
        }
        for _ in 0..next() % (if turn % 4 == 1 { 6 } else { 24 }) {
            if turn % 4 == 0 {
                text.push(next() as u8);
            } else {
                text.extend_from_slice(PIECES[next() as usize % PIECES.len()].as_bytes());
            }
        }
        if turn % 4 == 1 {
            text.extend_from_slice(b"}");
        }
        for level in [Level::Tagged, Level::Plain] {
            match read(&text, level) {
                Ok(grammar) => {
                    let once = printed(&grammar);
                    assert_eq!(grammar.to_string(), once);
                    if once.is_empty() {
                        // docs alone: a grammar without rules
                        continue;
                    }
                    let again = read(&once, level).expect("what was printed is read");
                    let rules = grammar.rules();
                    let expected: Vec<_> =
                        rules.iter().cloned().map(|rule| Rule { expr: regrouped(rule.expr), ..rule }).collect();
                    assert_eq!(again.rules(), expected);
                    assert_eq!(again.same(&grammar), expected == rules);
                    regrouping += usize::from(expected != rules);
                    read_back += 1;
                    // spans lie in the text, and show in the picture
                    for rule in grammar.parser_rules() {
                        assert!(rule.node.iter_top_down().all(|node| node.span.end <= text.len()));
                    }
                    assert_eq!(print(&again).map(|twice| twice.len()), Ok(printed(&again).len()));
                }
                Err(refusal) => {
                    assert!((2..=13).contains(&refusal.number()), "{refusal}");
                    assert!(refusal.place <= text.len(), "{refusal}");
                    assert!(refusal.line_column(&text).is_some());
                }
            }
        }
    }
    assert!(read_back > 100 && regrouping > 10, "only {read_back}, {regrouping}");
}
