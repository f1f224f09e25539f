//! The short text: the fewest brackets, every pair of them needed, and read back as the same rules.

use flascjuvan::{print, print_short, raw, tokens, Expr, Grammar, Level, Reason, Rule, TokenKind};

use crate::{body, choice, ident, printed, rule, seq, tagged, EVERY_KIND};

fn short(grammar: &Grammar) -> String {
    print_short(grammar).unwrap_or_else(|refusal| panic!("{grammar:?}: {refusal}"))
}

/// An expression, its full text and its short one: each kind on both sides of where it gets brackets.
const BOTH: [(&str, &str, &str); 36] = [
    ("((a~b)~c)~d", "(((a ~ b) ~ c) ~ d)", "a ~ b ~ c ~ d"),
    ("a~(b~(c~d))", "(a ~ b ~ c ~ d)", "a ~ (b ~ (c ~ d))"),
    ("a~((b~c)~d)", "(a ~ (b ~ c) ~ d)", "a ~ (b ~ c ~ d)"),
    ("(a|b)|c", "((a | b) | c)", "a | b | c"),
    ("a|(b|c)", "(a | b | c)", "a | (b | c)"),
    ("a~b|c", "((a ~ b) | c)", "a ~ b | c"),
    ("a|b~c", "(a | (b ~ c))", "a | b ~ c"),
    ("(a|b)~c", "((a | b) ~ c)", "(a | b) ~ c"),
    ("a~(b|c)", "(a ~ (b | c))", "a ~ (b | c)"),
    ("(a~b)|c~(d|e)", "((a ~ b) | (c ~ (d | e)))", "a ~ b | c ~ (d | e)"),
    ("a~(b~c|d)", "(a ~ ((b ~ c) | d))", "a ~ (b ~ c | d)"),
    ("('a'..'z')*", "('a'..'z')*", "'a'..'z'*"),
    ("!('a'..'z')", "!('a'..'z')", "!'a'..'z'"),
    ("'a'..'z'~b", "(('a'..'z') ~ b)", "'a'..'z' ~ b"),
    ("(a~b)*", "(a ~ b)*", "(a ~ b)*"),
    ("(a|b){2,3}", "(a | b){2, 3}", "(a | b){2, 3}"),
    ("(!a)?", "(!a)?", "(!a)?"),
    ("!a?", "!a?", "!a?"),
    ("(#t=a)+", "(#t = a)+", "(#t = a)+"),
    ("#t=a+", "(#t = a+)", "#t = a+"),
    ("a*?", "a*?", "a*?"),
    ("PUSH(a)*", "PUSH(a)*", "PUSH(a)*"),
    ("!(a~b)", "!(a ~ b)", "!(a ~ b)"),
    ("&(a|b)", "&(a | b)", "&(a | b)"),
    ("!(#t=a)", "!(#t = a)", "!(#t = a)"),
    ("!&a", "!&a", "!&a"),
    ("#t=(a~b)", "(#t = (a ~ b))", "#t = (a ~ b)"),
    ("#t=(a|b)", "(#t = (a | b))", "#t = (a | b)"),
    ("#t=(#u=a)", "(#t = (#u = a))", "#t = (#u = a)"),
    ("#t=!a", "(#t = !a)", "#t = !a"),
    ("a~#t=(b~c)", "(a ~ (#t = (b ~ c)))", "a ~ #t = (b ~ c)"),
    ("#t=a|b", "((#t = a) | b)", "#t = a | b"),
    ("!a~!b", "(!a ~ !b)", "!a ~ !b"),
    ("PUSH((a|b))", "PUSH((a | b))", "PUSH(a | b)"),
    ("PUSH(a~(b~c))", "PUSH((a ~ b ~ c))", "PUSH(a ~ (b ~ c))"),
    ("PUSH_LITERAL(\"(\")~PEEK[..]", "(PUSH_LITERAL(\"(\") ~ PEEK[0..])", "PUSH_LITERAL(\"(\") ~ PEEK[0..]"),
];

#[test]
fn both_texts() {
    for (text, full, brief) in BOTH {
        let grammar = Grammar::from(rule(body(text)));
        assert_eq!(printed(&grammar), format!("r = {{ {full} }}\n"), "{text}");
        assert_eq!(short(&grammar), format!("r = {{ {brief} }}\n"), "{text}");
        assert!(tagged(&short(&grammar)).same(&grammar), "{text}");
    }
}

/// `{:#}` is the short text of a grammar, a rule and an expression, and a refusal is shown there too.
#[test]
fn the_alternate_form_is_the_short_text() {
    let grammar = tagged("a=@{(b~c)~('0'..'9')} d={e}");
    assert_eq!(format!("{grammar:#}"), "a = @{ b ~ c ~ '0'..'9' }\nd = { e }\n");
    assert_eq!(format!("{:#}", grammar.rules()[0]), "a = @{ b ~ c ~ '0'..'9' }");
    assert_eq!(format!("{:#}", grammar.rules()[0].expr), "b ~ c ~ '0'..'9'");
    assert_eq!(format!("{:>#12}|{:<#6}|", body("a~b~c"), ident("a")), "   a ~ b ~ c|a     |");
    let bad = rule(ident("no word"));
    assert_eq!(format!("{:#}", bad[0]), bad[0].to_string());
    assert_eq!(format!("{:#}", bad[0].expr), bad[0].expr.to_string());
    assert_eq!(format!("{:#}", Grammar::from(bad)).split(':').next(), Some("<refused 21 at 0"));
}

#[test]
fn it_refuses_what_print_refuses() {
    let large = Expr::Str("x".repeat(65536));
    let named = |name: &str| vec![Rule { name: name.to_owned(), ..rule(ident("a")).remove(0) }];
    for (rules, reason, place) in [
        (rule(large), Reason::Shape, 0),
        (rule(seq(ident("a"), ident("PUSHED"))), Reason::Node, 1),
        (rule(Expr::NodeTag(Box::new(ident("a")), String::new())), Reason::Node, 1),
        ([named("a"), named("no word")].concat(), Reason::Rule, 1),
    ] {
        let grammar = Grammar::from(rules);
        let refusal = print_short(&grammar).expect_err("refused");
        assert_eq!((refusal.reason, refusal.place), (reason, place));
        assert_eq!(print(&grammar), Err(refusal));
    }
    assert_eq!(short(&Grammar::default()), "");
}

/// An output of exactly the text's length, and of a byte less. The full text would not fit into either.
#[test]
fn room() {
    let grammar = tagged("ab = { cd ~ ef }");
    let (nodes, rules, store) = grammar.tables();
    let mut out = [7; 18];
    assert_eq!(raw::print_short(nodes, rules, store, &mut out[..16]), [23, 0, 0]);
    assert_eq!(out, [7; 18], "a refusal changes nothing");
    assert_eq!(raw::print(nodes, rules, store, &mut out), [23, 0, 0]);
    assert_eq!(raw::print_short(nodes, rules, store, &mut out[..17]), [0, 0, 17]);
    assert_eq!(&out, b"ab = { cd ~ ef }\n\x07");
    assert_eq!(raw::print_short(&nodes[1..], rules, store, &mut out), [20, 0, 0]);
    assert_eq!(raw::print_short(&[0; 7], rules, store, &mut out), [21, 0, 0]);
    assert_eq!(raw::print_short(nodes, &rules[..0], store, &mut out), [22, 0, 0]);
    assert_eq!(raw::print_short(&[], &[], &[], &mut []), [0, 0, 0]);
    // more than any first guess of its room
    let long = tagged(&format!("a = {{ \"{}\" }}", "\u{1}".repeat(65000)));
    assert_eq!(short(&long), printed(&long));
}

/// A chain to the right has a pair of brackets for each of its terms but two: 1,024 are read back, and one more isn't.
#[test]
fn a_chain_to_the_right_is_the_longer_one() {
    let chain = |terms: usize| (1..terms).fold(ident("a"), |rest, _| seq(ident("a"), rest));
    for terms in [3, 4, 1026, 1027] {
        let grammar = Grammar::from(rule(chain(terms)));
        let (full, brief) = (printed(&grammar), short(&grammar));
        assert_eq!((full.matches('(').count(), brief.matches('(').count()), (1, terms - 2));
        assert_eq!(brief.len(), full.len() - 2 + 2 * (terms - 2));
        match brief.parse::<Grammar>() {
            Ok(again) => assert!(terms < 1027 && again.same(&grammar)),
            Err(refusal) => assert_eq!((terms, refusal.reason), (1027, Reason::TooDeep)),
        }
    }
}

/// Read plain, the short text is the tree without its tags, grouped as it stood; with a PUSH_LITERAL it is refused.
#[test]
fn read_plain() {
    let plain = |text: &str| flascjuvan::read(short(&Grammar::from(rule(body(text)))), Level::Plain);
    assert_eq!(plain("a~#t=(b~(#u=c|d))").expect("read").rules(), rule(body("a~(b~(c|d))")));
    assert_eq!(plain("a~PUSH_LITERAL(\"x\")").expect_err("refused").reason, Reason::NotPlain);
}

#[test]
fn every_kind_comes_back() {
    for text in EVERY_KIND {
        let grammar = tagged(&format!("r = {{ {text} }}"));
        assert!(tagged(&short(&grammar)).same(&grammar), "{text}");
    }
}

/// Numbers that look random, the same at each run.
struct Dice(u64);

impl Dice {
    fn throw(&mut self, sides: u64) -> u64 {
        self.0 ^= self.0 << 13;
        self.0 ^= self.0 >> 7;
        self.0 ^= self.0 << 17;
        self.0 % sides
    }

    fn leaf(&mut self) -> Expr {
        match self.throw(6) {
            0 => Expr::Str("(x)".to_owned()),
            1 => Expr::Range('(', ')'),
            2 => Expr::PushLiteral(")".to_owned()),
            3 => Expr::PeekSlice(-1, Some(2)),
            _ => ident("a"),
        }
    }

    fn tree(&mut self, nodes: u64) -> Expr {
        if nodes < 2 {
            return self.leaf();
        }
        if self.throw(2) == 0 {
            let left = 1 + self.throw(nodes - 1);
            let join = if self.throw(2) == 0 { seq } else { choice };
            return join(self.tree(left), self.tree(nodes - left));
        }
        let inner = Box::new(self.tree(nodes - 1));
        match self.throw(6) {
            0 => Expr::PosPred(inner),
            1 => Expr::NegPred(inner),
            2 => Expr::Rep(inner),
            3 => Expr::RepMinMax(inner, 3, 2),
            4 => Expr::Push(inner),
            _ => Expr::NodeTag(inner, "t".to_owned()),
        }
    }
}

/// The places of each `(` and its `)`, but for those of PUSH and PUSH_LITERAL.
fn pairs(text: &str) -> Vec<(usize, usize)> {
    let (mut open, mut found, mut pushes) = (Vec::new(), Vec::new(), false);
    for token in tokens(text).expect("a printed text") {
        match token.kind {
            TokenKind::OpeningParen => open.push((token.start, pushes)),
            TokenKind::ClosingParen => {
                if let (start, false) = open.pop().expect("its opening one") {
                    found.push((start, token.start));
                }
            }
            _ => {}
        }
        pushes = text[token.start..token.end].starts_with("PUSH");
    }
    found
}

#[test]
fn the_same_rules_and_every_pair_needed() {
    let mut dice = Dice(5);
    let mut removed = 0;
    for _ in 0..20_000 {
        let nodes = 1 + dice.throw(12);
        let made = Grammar::from(rule(dice.tree(nodes)));
        let text = short(&made);
        assert!(tagged(&text).same(&made), "{text}");
        for (start, end) in pairs(&text) {
            let less = [&text[..start], &text[start + 1..end], &text[end + 1..]].concat();
            let same = less.parse::<Grammar>().map_or(false, |read| read.same(&made));
            assert!(!same, "{text}{less}");
            removed += 1;
        }
    }
    assert!(removed > 10_000, "{removed}");
}
