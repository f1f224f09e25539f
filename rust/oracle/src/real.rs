//! Debian's pest_meta 2.5.2, as it is. Its trees carry no spans outside, and come only after its
//! validator has let them through.

use pest_meta::ast::{self, RuleType};
use pest_meta::parser;

use crate::{caught, found, not_built, not_recognized, Answer, Expr, Found, Node, Rule};

fn copy(expr: &ast::Expr) -> Node {
    let boxed = |expr: &ast::Expr| Box::new(copy(expr));
    let expr = match expr {
        ast::Expr::Str(s) => Expr::Str(s.clone()),
        ast::Expr::Insens(s) => Expr::Insens(s.clone()),
        ast::Expr::Range(a, b) => Expr::Range(a.clone(), b.clone()),
        ast::Expr::Ident(s) => Expr::Ident(s.clone()),
        ast::Expr::PeekSlice(a, b) => Expr::PeekSlice(*a, *b),
        ast::Expr::PosPred(e) => Expr::PosPred(boxed(e)),
        ast::Expr::NegPred(e) => Expr::NegPred(boxed(e)),
        ast::Expr::Seq(l, r) => Expr::Seq(boxed(l), boxed(r)),
        ast::Expr::Choice(l, r) => Expr::Choice(boxed(l), boxed(r)),
        ast::Expr::Opt(e) => Expr::Opt(boxed(e)),
        ast::Expr::Rep(e) => Expr::Rep(boxed(e)),
        ast::Expr::RepOnce(e) => Expr::RepOnce(boxed(e)),
        ast::Expr::RepExact(e, n) => Expr::RepExact(boxed(e), *n),
        ast::Expr::RepMin(e, n) => Expr::RepMin(boxed(e), *n),
        ast::Expr::RepMax(e, n) => Expr::RepMax(boxed(e), *n),
        ast::Expr::RepMinMax(e, n, m) => Expr::RepMinMax(boxed(e), *n, *m),
        ast::Expr::Push(e) => Expr::Push(boxed(e)),
        ast::Expr::Skip(_) => unreachable!("the optimizer's"),
    };
    Node { expr, start: 0, end: 0, line: 0 }
}

/// Parse and build; spans are 0.
pub fn read(text: &str) -> Answer<Vec<Rule>> {
    caught(|| {
        let pairs = match parser::parse(parser::Rule::grammar_rules, text) {
            Ok(pairs) => pairs,
            Err(error) => return not_recognized(error),
        };
        match parser::consume_rules(pairs) {
            Ok(rules) => Answer::Read(
                rules
                    .iter()
                    .map(|rule| Rule {
                        name: rule.name.clone(),
                        mark: match rule.ty {
                            RuleType::Normal => 0,
                            RuleType::Silent => 1,
                            RuleType::Atomic => 2,
                            RuleType::CompoundAtomic => 3,
                            RuleType::NonAtomic => 4,
                        },
                        start: 0,
                        end: 0,
                        node: copy(&rule.expr),
                    })
                    .collect(),
            ),
            Err(errors) => not_built(&errors),
        }
    })
}

/// The recognizer alone.
pub fn recognize(text: &str) -> Answer<Vec<Found>> {
    caught(|| match parser::parse(parser::Rule::grammar_rules, text) {
        Ok(pairs) => Answer::Read(found(pairs)),
        Err(error) => not_recognized(error),
    })
}

/// What a measurement times: parse, build and validate (the crate opens no other way). The text
/// must be good.
pub fn build(text: &str) -> usize {
    let pairs = parser::parse(parser::Rule::grammar_rules, text).expect("recognized");
    let rules = parser::consume_rules(pairs).expect("built");
    std::hint::black_box(&rules);
    rules.len()
}

/// The recognizer alone, for a measurement. The text must be good.
pub fn parse(text: &str) {
    let pairs = parser::parse(parser::Rule::grammar_rules, text).expect("recognized");
    std::hint::black_box(&pairs);
}

/// Whether the names of a text that the recognizer takes pass the crate's check of them.
pub fn names_pass(text: &str) -> bool {
    match parser::parse(parser::Rule::grammar_rules, text) {
        Ok(pairs) => pest_meta::validator::validate_pairs(pairs).is_ok(),
        Err(_) => false,
    }
}
