//! Printing, and whatever shows a text by way of the printer.

use flascjuvan::{print, Expr, Grammar, Rule, RuleType};

use crate::{body, ident, printed, rule, seq, tagged, EVERY_KIND};

#[test]
fn the_desks_example() {
    assert_eq!(print(&tagged("a = { b ~ c | \"x\"* }")), Ok("a = { ((b ~ c) | \"x\"*) }\n".to_owned()));
}

#[test]
fn every_kind_comes_back() {
    for text in EVERY_KIND {
        let line = format!("r = {{ {text} }}");
        let grammar = tagged(&line);
        assert_eq!(printed(&grammar), format!("{line}\n"));
        assert_eq!(grammar.to_string(), format!("{line}\n"));
        let rules = rule(body(text));
        assert_eq!(printed(&Grammar::from(&rules[..])), format!("{line}\n"));
        assert_eq!(rules[0].to_string(), line);
        assert_eq!(rules[0].expr.to_string(), text);
    }
}

#[test]
fn marks_come_back() {
    let text = "a = { x }\nb = _{ x }\nc = @{ x }\nd = ${ x }\ne = !{ x }\n";
    let rules = tagged(text).rules();
    assert_eq!(printed(&Grammar::from(&rules[..])), text);
    assert_eq!(rules.iter().map(|rule| format!("{rule}\n")).collect::<String>(), text);
}

#[test]
fn edited_trees_print() {
    let chain = seq(ident("a"), seq(ident("b"), ident("c")));
    assert_eq!(chain.to_string(), "(a ~ b ~ c)");
    assert_eq!(printed(&Grammar::from(rule(chain))), "r = { (a ~ b ~ c) }\n");
    assert_eq!(Expr::Str("\u{1}é".to_owned()).to_string(), "\"\\u{01}é\"");
    assert_eq!(Expr::RepExact(Box::new(ident("a")), 0).to_string(), "a{0}");
    assert_eq!(printed(&Grammar::default()), "");
    assert_eq!(Grammar::default().to_string(), "");
}

#[test]
fn edited_trees_that_no_text_spells_are_refused() {
    let refused = |rules: &[Rule]| print(&Grammar::from(rules)).map_err(|r| (r.number(), r.place));
    assert_eq!(refused(&rule(ident("no word"))), Err((21, 0)));
    assert_eq!(refused(&rule(ident("PUSHED"))), Err((21, 0)));
    assert_eq!(refused(&rule(Expr::NodeTag(Box::new(ident("a")), String::new()))), Err((21, 1)));
    let named = |name: &str| vec![Rule { name: name.to_owned(), ty: RuleType::Normal, expr: ident("a") }];
    assert_eq!(refused(&named("")), Err((22, 0)));
    assert_eq!(refused(&named("PUSH")), Err((22, 0)));
    assert_eq!(refused(&vec![named("a").remove(0); 1025]), Err((20, 0)));
    assert_eq!(refused(&rule(Expr::Str("x".repeat(65536)))), Err((20, 0)));
}

/// What can't be printed is shown as that, and nothing reads it.
#[test]
fn what_is_refused_is_shown_as_refused() {
    let bad = rule(seq(ident("a"), ident("no\nword"))).remove(0);
    let shown = "<refused 21 at 1: a node that can't be printed: \
                 a name or a tag that is no word, or a name that begins with PUSH>";
    assert_eq!(bad.expr.to_string(), shown);
    assert_eq!(bad.to_string(), shown);
    assert_eq!(Grammar::from(vec![bad]).to_string(), shown);
    let unnamed = Rule { name: String::new(), ty: RuleType::Atomic, expr: ident("a") };
    let shown = "<refused 22 at 0: a rule that can't be printed: a name that is no word, or begins with PUSH>";
    assert_eq!(unnamed.to_string(), shown);
    let large = Expr::Str("x".repeat(65536));
    assert_eq!(large.to_string(), "<refused 20 at 0: tables that are too large to print>");
    for shown in [shown, &large.to_string()] {
        assert_eq!(shown.parse::<Grammar>().map_err(|refusal| refusal.to_string()), Err("refused 3 at 0".to_owned()));
    }
}

/// A width counts for the whole text.
#[test]
fn padding() {
    assert_eq!(format!("{:>4}|{:<4}|{:.1}", ident("a"), ident("b"), ident("cd")), "   a|b   |c");
    assert_eq!(format!("{:<12}|", tagged("a = { b }").rules()[0]), "a = { b }   |");
}

/// A chain to the right comes back to the left, and everything else as it was.
#[test]
fn what_comes_back() {
    let grammar = tagged("a = { b ~ (c ~ d) }");
    let again: Grammar = grammar.to_string().parse().expect("what was printed is read");
    assert!(!again.same(&grammar));
    assert!(again.same(&tagged("a = { b ~ c ~ d }")));
    for text in EVERY_KIND {
        let grammar = tagged(&format!("a = {{ {text} }}"));
        let again: Grammar = grammar.to_string().parse().expect("what was printed is read");
        assert!(again.same(&grammar), "{text}");
    }
}
