//! Whether two grammars hold the same rules, and where they don't.

use flascjuvan::{Expr, Grammar, Rule, RuleType};

use crate::{ident, rule, tagged, EVERY_KIND};

/// The line that names the first difference, and the bytes of both sides.
fn difference(a: &str, b: &str) -> (String, [Option<String>; 2]) {
    let found = tagged(a).difference(&tagged(b)).expect("a difference");
    let part =
        |span: Option<flascjuvan::Span>, text: &str| span.map(|span| span.as_str(text).expect("inside").to_owned());
    let parts = [part(found.left.span, a), part(found.right.span, b)];
    (found.to_string(), parts)
}

#[test]
fn spans_blanks_and_brackets_are_no_difference() {
    let one = tagged("a = { #t = b{2} ~ c | \"x\" } d = @{ 'a'..'b' }");
    let other = tagged("// c\na={ | (((#t=b{02})) ~ c) | \"\\x78\"}d=@{('\\x61'..'b')}");
    assert!(one.same(&other) && other.same(&one));
    assert_eq!(one.difference(&other), None);
    assert_ne!(one, other);
    assert!(Grammar::default().same(&Grammar::default()));
}

#[test]
fn the_first_difference_in_words() {
    let some = |a: &str, b: &str| [Some(a.to_owned()), Some(b.to_owned())];
    for (a, b, line, parts) in [
        ("a = { b }", "c = { d }", "rule 1, a: name a against name c", some("a", "c")),
        ("a = { b }", "a = @{ d }", "rule 1, a: no mark against mark @", some("a", "a")),
        ("a = _{ b }", "a = !{ b }", "rule 1, a: mark _ against mark !", some("a", "a")),
        ("a = { b }", "a = { \"b\" }", "rule 1, a: Ident b against Str \"b\"", some("b", "\"b\"")),
        ("a = { b* ~ c }", "a = { (b ~ c)* }", "rule 1, a: Seq against Rep", some("b* ~ c", "(b ~ c)*")),
        (
            "a = { x } c = { d ~ (e | f)* }",
            "a = { x } c = { d ~ (e | g)* }",
            "rule 2, c, in Seq > right Rep > Choice: Ident f against Ident g",
            some("f", "g"),
        ),
        (
            "a = { b ~ c{2} }",
            "a = { b ~ c{3} }",
            "rule 1, a, in Seq: RepExact 2 against RepExact 3",
            some("c{2}", "c{3}"),
        ),
        ("a = { #t = b }", "a = { #u = b }", "rule 1, a: NodeTag #t against NodeTag #u", some("#t = b", "#u = b")),
        (
            "a = { PEEK[0..] }",
            "a = { PEEK[0..0] }",
            "rule 1, a: PeekSlice 0.. against PeekSlice 0..0",
            some("PEEK[0..]", "PEEK[0..0]"),
        ),
        ("a = { b } c = { d }", "a = { b }", "rule 2, c: name c against no rule", [Some("c".to_owned()), None]),
        ("a = { b }", "a = { b } c = { d }", "rule 2, c: no rule against name c", [None, Some("c".to_owned())]),
    ] {
        assert_eq!(difference(a, b), (line.to_owned(), parts));
    }
}

/// Of several differences in a tree it is the highest and leftmost.
#[test]
fn the_first_of_several() {
    assert_eq!(
        difference("a = { b* ~ c }", "a = { x* ~ y }").0,
        "rule 1, a, in Seq > left Rep: Ident b against Ident x"
    );
    assert_eq!(difference("a = { (b | d)* ~ c }", "a = { (b | e)* ~ y }").0, {
        "rule 1, a, in Seq > left Rep > Choice: Ident d against Ident e"
    });
    assert_eq!(difference("a = { b ~ c } d = { e }", "a = { b ~ c } f = { g }").0, "rule 2, d: name d against name f");
}

#[test]
fn a_long_way_down_is_cut() {
    let found = tagged("a = { !!!!!!!!!!b ~ c }").difference(&tagged("a = { !!!!!!!!!!d ~ c }")).expect("a difference");
    assert_eq!(found.path.len(), 11);
    assert_eq!(
        found.to_string(),
        "rule 1, a, in 5 nodes > NegPred > NegPred > NegPred > NegPred > NegPred > NegPred: Ident b against Ident d"
    );
    let found = tagged("a = { !!!!!!b }").difference(&tagged("a = { !!!!!!d }")).expect("a difference");
    assert_eq!(
        found.to_string(),
        "rule 1, a, in NegPred > NegPred > NegPred > NegPred > NegPred > NegPred: Ident b against Ident d"
    );
    assert_eq!((found.rule, found.name.as_str(), found.left.what.as_str()), (0, "a", "Ident b"));
}

#[test]
fn every_kind_differs_from_every_other() {
    let grammars: Vec<_> = EVERY_KIND.iter().map(|body| tagged(&format!("r = {{ {body} }}"))).collect();
    for (i, a) in grammars.iter().enumerate() {
        for (j, b) in grammars.iter().enumerate() {
            assert_eq!(a.same(b), i == j, "{a} {b}");
            assert_eq!(a.rules() == b.rules(), i == j, "{a} {b}");
        }
    }
}

#[test]
fn odd_names_stay_on_one_line() {
    let named = |name: &str| Rule { name: name.to_owned(), ty: RuleType::Normal, expr: ident("a") };
    let found = Grammar::from(vec![named("a\nb")]).difference(&Grammar::from(rule(Expr::Str("\n".to_owned()))));
    assert_eq!(found.expect("a difference").to_string(), r#"rule 1, "a\nb": name "a\nb" against name r"#);
}
