//! What binds tighter, records, trees with spans and without, walks.

use std::collections::hash_map::DefaultHasher;
use std::collections::HashSet;
use std::hash::{Hash, Hasher};

use flascjuvan::{read, Expr, Grammar, Level, ParserExpr, ParserNode, Reason, Rule, RuleType, Span};

use crate::{body, choice, ident, rule, seq, tagged, EVERY_KIND};

fn hash(value: &impl Hash) -> u64 {
    let mut hasher = DefaultHasher::new();
    value.hash(&mut hasher);
    hasher.finish()
}

#[test]
fn what_binds_tighter() {
    let [a, b, c] = ["a", "b", "c"].map(|name| move || ident(name));
    assert_eq!(body("a ~ b | c"), choice(seq(a(), b()), c()));
    assert_eq!(body("a | b ~ c"), choice(a(), seq(b(), c())));
    assert_eq!(body("a ~ b ~ c"), seq(seq(a(), b()), c()));
    assert_eq!(body("a | b | c"), choice(choice(a(), b()), c()));
    assert_eq!(body("a ~ (b ~ c)"), seq(a(), seq(b(), c())));
    assert_eq!(body("| a | b"), choice(a(), b()));
    assert_eq!(body("!a*"), Expr::NegPred(Box::new(Expr::Rep(Box::new(a())))));
    assert_eq!(body("(!a)*"), Expr::Rep(Box::new(Expr::NegPred(Box::new(a())))));
    assert_eq!(body("&!a?+"), {
        let opt = Expr::Opt(Box::new(a()));
        Expr::PosPred(Box::new(Expr::NegPred(Box::new(Expr::RepOnce(Box::new(opt))))))
    });
    assert_eq!(body("#t = !a ~ b"), {
        let tag = Expr::NodeTag(Box::new(Expr::NegPred(Box::new(a()))), "t".to_owned());
        seq(tag, b())
    });
}

#[test]
fn records_of_a_group() {
    let grammar = tagged("r = { (a)* }");
    let (nodes, rules, store) = grammar.tables();
    assert_eq!(nodes, [4, 7, 9, 1, 1, 0, 1, 11, 6, 10, 0, 0, 0, 1]);
    assert_eq!(rules, [0, 1, 0, 1, 0, 1]);
    assert_eq!(store, b"ra");
}

/// The tables with all spans and lines 0.
fn spanless(grammar: &Grammar) -> (Vec<u32>, Vec<u32>, Vec<u8>) {
    let (nodes, rules, store) = grammar.tables();
    let nodes = nodes.chunks(7).flat_map(|node| [node[0], 0, 0, node[3], node[4], node[5], 0]).collect();
    let rules = rules.chunks(6).flat_map(|rule| [rule[0], rule[1], rule[2], rule[3], 0, 0]).collect();
    (nodes, rules, store.to_vec())
}

#[test]
fn tables_of_rules_are_those_of_their_text_without_spans() {
    let mut texts: Vec<_> = EVERY_KIND.iter().map(|body| format!("r = {{ {body} }}")).collect();
    texts.push("a = _{ #t = (\"x\" ~ #u = PUSH(b | 'a'..'z'){2}) ~ PEEK[-2..1] } b = ${ ^\"\\x00é\" }".to_owned());
    for text in texts {
        let grammar = tagged(&text);
        let made = Grammar::from(grammar.rules());
        assert_eq!(spanless(&made), spanless(&grammar), "{text}");
        assert_eq!(spanless(&made), (made.tables().0.to_vec(), made.tables().1.to_vec(), made.tables().2.to_vec()));
        assert_eq!(made.rules(), grammar.rules(), "{text}");
        assert!(made.same(&grammar) && grammar.same(&made), "{text}");
        assert_ne!(made, grammar, "{text}");
    }
}

#[test]
fn grammars_of_rules() {
    let grammar: Grammar = "a = { b } c = @{ d }".parse().expect("a good text");
    let rules = grammar.rules();
    let made = Grammar::from(&rules[..]);
    assert_eq!(Grammar::from(rules.clone()), made);
    assert_eq!(rules.iter().cloned().collect::<Grammar>(), made);
    let mut grown = Grammar::default();
    grown.extend(rules[..1].to_vec());
    grown.extend(rules[1..].to_vec());
    assert_eq!(grown, made);
    assert_eq!(Grammar::from(vec![]), Grammar::default());
    assert_eq!("a = {".parse::<Grammar>().expect_err("refused").reason, Reason::NotAllowed);
}

#[test]
fn marks() {
    let rules = tagged("a = { x } b = _{ x } c = @{ x } d = ${ x } e = !{ x }").rules();
    let marks = [RuleType::Normal, RuleType::Silent, RuleType::Atomic, RuleType::CompoundAtomic, RuleType::NonAtomic];
    assert_eq!(rules.iter().map(|rule| rule.ty).collect::<Vec<_>>(), marks);
    assert_eq!(marks.map(RuleType::mark), ["", "_", "@", "$", "!"]);
}

#[test]
fn plain_drops_tags() {
    let text = "r = { #t = (a ~ b)* | c }";
    let plain = read(text, Level::Plain).expect("read").rules();
    assert_eq!(plain, tagged("r = { (a ~ b)* | c }").rules());
    assert_ne!(plain, tagged(text).rules());
}

/// Kinds, numbers and texts all count; a clone is the same, and hashes the same.
#[test]
fn equality() {
    let bodies = EVERY_KIND.iter().copied().chain([
        "\"b\"",
        "^\"b\"",
        "b",
        "'a'..'y'",
        "PEEK[0..0]",
        "PEEK[-1..3]",
        "(b ~ a)",
        "(a ~ b) ~ c",
        "a ~ (b ~ c)",
        "a{3}",
        "a{2, 3}",
        "(#u = a)",
        "(#t = b)",
        "PUSH_LITERAL(\"b\")",
        "!!a",
        "!b",
    ]);
    let exprs: Vec<_> = bodies.map(body).collect();
    for (i, a) in exprs.iter().enumerate() {
        assert_eq!(a.clone(), *a);
        assert_eq!(hash(&a.clone()), hash(a));
        for (j, b) in exprs.iter().enumerate() {
            assert_eq!(a == b, i == j, "{a:?} {b:?}");
        }
    }
    let count = exprs.len();
    assert_eq!(exprs.iter().map(hash).collect::<HashSet<_>>().len(), count);
    assert_eq!(exprs.into_iter().collect::<HashSet<_>>().len(), count);
}

#[test]
fn spans() {
    let text = "r = _{ #t = (a)* ~ PUSH(\"é\") }";
    let grammar = tagged(text);
    let rule = grammar.parser_rules().remove(0);
    assert_eq!((rule.name.as_str(), rule.span, rule.ty), ("r", Span { start: 0, end: 1 }, RuleType::Silent));
    // a closing bracket belongs to the node before it, an opening one to the finished term; PUSH ends before its own
    let spans: Vec<_> = rule.node.iter_top_down().map(|node| node.span.as_str(text).expect("inside")).collect();
    assert_eq!(spans, ["#t = (a)* ~ PUSH(\"é\"", "#t = (a)*", "(a)*", "a)", "PUSH(\"é\"", "\"é\""]);
    let tags = rule.node.iter_top_down().filter(|node| matches!(node.expr, ParserExpr::NodeTag(..)));
    assert_eq!(tags.map(|tag| tag.span.line_column(text).to_string()).collect::<Vec<_>>(), ["1:8"]);

    assert_eq!(rule.clone(), rule);
    assert_eq!(hash(&rule.clone()), hash(&rule));
    let moved = tagged(&format!(" {text}")).parser_rules().remove(0);
    assert_ne!(moved, rule);
    assert_eq!(Rule::from(moved), Rule::from(rule.clone()));
    assert_eq!(Rule::from(rule), grammar.rules()[0]);
    assert_eq!(Span { start: 3, end: 2 }.as_str(text), None);
    assert_eq!(Span { start: 0, end: 99 }.as_str(text), None);
}

#[test]
fn trees_with_spans_of_every_kind() {
    for text in EVERY_KIND {
        let text = format!("r = {{ {text} }}");
        let grammar = tagged(&text);
        let rules = grammar.parser_rules();
        assert_eq!(rules.clone(), rules);
        assert_eq!(rules.into_iter().map(Rule::from).collect::<Vec<_>>(), grammar.rules());
        let other = ParserNode { span: Span { start: 0, end: 99 }, ..grammar.parser_rules().remove(0).node };
        assert_ne!(other, grammar.parser_rules()[0].node);
        assert_eq!(other.expr, grammar.parser_rules()[0].node.expr);
    }
}

/// Each node before its children; children before their node. Left before right in both.
#[test]
fn walks() {
    let expr = body("(a ~ !b) | #t = (c{2} ~ \"x\")?");
    let name = |expr: &Expr| format!("{expr:?}").split('(').next().expect("a name").to_owned();
    let down: Vec<_> = expr.iter_top_down().map(name).collect();
    let names = ["Choice", "Seq", "Ident", "NegPred", "Ident", "NodeTag", "Opt", "Seq", "RepExact", "Ident", "Str"];
    assert_eq!(down, names);

    let mut seen = Vec::new();
    let same = expr.clone().map_top_down(|node| {
        seen.push(name(&node));
        node
    });
    assert_eq!((same, seen), (expr.clone(), down));

    let mut seen = Vec::new();
    let same = expr.clone().map_bottom_up(|node| {
        seen.push(name(&node));
        node
    });
    let names = ["Ident", "Ident", "NegPred", "Seq", "Ident", "RepExact", "Str", "Seq", "Opt", "NodeTag", "Choice"];
    assert_eq!((same, seen), (expr.clone(), names.map(str::to_owned).to_vec()));
}

/// What `f` gives is gone down into from the top, and is not seen again from the bottom.
#[test]
fn maps_that_change_the_tree() {
    let wrap = |node| match node {
        Expr::Ident(name) if name == "a" => Expr::Opt(Box::new(ident("b"))),
        Expr::Ident(name) => Expr::Ident(name + "x"),
        other => other,
    };
    assert_eq!(body("a ~ c").map_top_down(wrap), body("bx? ~ cx"));
    assert_eq!(body("a ~ c").map_bottom_up(wrap), body("b? ~ cx"));
    for text in EVERY_KIND {
        assert_eq!(body(text).map_top_down(|node| node), body(text));
        assert_eq!(body(text).map_bottom_up(|node| node), body(text));
        assert_eq!(rule(body(text)), tagged(&format!("r = {{ {text} }}")).rules());
    }
}
