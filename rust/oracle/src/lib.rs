//! What the Rust answers.
//!
//! `read` and its neighbours run the given files of pest_meta 2.9.5 (byte for byte) over pest
//! 2.5.2's runtime, at both feature settings. `real` runs Debian's pest_meta 2.5.2 as it is.
//! Whoever calls lends a deep stack: both recurse once for each bracket, predicate and escape.

pub mod real;
pub mod tree;

use std::panic::{catch_unwind, AssertUnwindSafe};

use pest::error::{Error, ErrorVariant, InputLocation};
use pest_meta_tagged::ast;
pub use tree::{Expr, Node, Rule, Tables, NODE_RECORD, RULE_RECORD};

/// Read; or refused, by which half and at which place; or a panic.
#[derive(Clone, Debug, PartialEq, Eq)]
pub enum Answer<T> {
    Read(T),
    NotRecognized(usize),
    NotBuilt(usize, String),
    Panicked(String),
    /// The call limit was reached before an answer was known.
    GaveUp,
}

/// How many calls of the recognizer a parse may take; 0 for no limit.
pub fn limit_calls(calls: usize) {
    pest::set_call_limit(std::num::NonZeroUsize::new(calls));
}

pub(crate) fn caught<T>(work: impl FnOnce() -> Answer<T>) -> Answer<T> {
    catch_unwind(AssertUnwindSafe(work)).unwrap_or_else(|panic| {
        let text = panic.downcast_ref::<String>().cloned();
        let text = text.or_else(|| panic.downcast_ref::<&str>().map(|s| s.to_string()));
        Answer::Panicked(text.unwrap_or_default())
    })
}

pub(crate) fn place<R: pest::RuleType>(error: &Error<R>) -> usize {
    match error.location {
        InputLocation::Pos(place) => place,
        InputLocation::Span((start, _)) => start,
    }
}

pub(crate) fn not_recognized<T, R: pest::RuleType>(error: Error<R>) -> Answer<T> {
    match &error.variant {
        ErrorVariant::CustomError { message } if message.contains("call limit") => Answer::GaveUp,
        _ => Answer::NotRecognized(place(&error)),
    }
}

pub(crate) fn not_built<T, R: pest::RuleType>(errors: &[Error<R>]) -> Answer<T> {
    Answer::NotBuilt(place(&errors[0]), errors[0].variant.message().to_string())
}

/// A pair of the recognizer's: its depth, rule and span.
pub type Found = (usize, String, usize, usize);

/// The two builds of the given files differ in their types alone.
macro_rules! level {
    ($level:ident, $meta:ident $(, $push_literal:ident, $node_tag:ident)?) => {
        mod $level {
            use super::*;
            use $meta::ast::RuleType;
            use $meta::parser::{self, ParserExpr, ParserNode};

            fn boxed(node: &ParserNode<'_>, lines: Lines<'_>) -> Box<Node> {
                Box::new(copy(node, lines))
            }

            fn copy(node: &ParserNode<'_>, lines: Lines<'_>) -> Node {
                let boxed = |node: &ParserNode<'_>| boxed(node, lines);
                let expr = match &node.expr {
                    ParserExpr::Str(s) => Expr::Str(s.clone()),
                    ParserExpr::Insens(s) => Expr::Insens(s.clone()),
                    ParserExpr::Range(a, b) => Expr::Range(a.clone(), b.clone()),
                    ParserExpr::Ident(s) => Expr::Ident(s.clone()),
                    ParserExpr::PeekSlice(a, b) => Expr::PeekSlice(*a, *b),
                    ParserExpr::PosPred(e) => Expr::PosPred(boxed(e)),
                    ParserExpr::NegPred(e) => Expr::NegPred(boxed(e)),
                    ParserExpr::Seq(l, r) => Expr::Seq(boxed(l), boxed(r)),
                    ParserExpr::Choice(l, r) => Expr::Choice(boxed(l), boxed(r)),
                    ParserExpr::Opt(e) => Expr::Opt(boxed(e)),
                    ParserExpr::Rep(e) => Expr::Rep(boxed(e)),
                    ParserExpr::RepOnce(e) => Expr::RepOnce(boxed(e)),
                    ParserExpr::RepExact(e, n) => Expr::RepExact(boxed(e), *n),
                    ParserExpr::RepMin(e, n) => Expr::RepMin(boxed(e), *n),
                    ParserExpr::RepMax(e, n) => Expr::RepMax(boxed(e), *n),
                    ParserExpr::RepMinMax(e, n, m) => Expr::RepMinMax(boxed(e), *n, *m),
                    ParserExpr::Push(e) => Expr::Push(boxed(e)),
                    $(
                        ParserExpr::$push_literal(s) => Expr::PushLiteral(s.clone()),
                        ParserExpr::$node_tag(e, tag) => Expr::NodeTag(boxed(e), tag.clone()),
                    )?
                };
                let (start, end) = (node.span.start(), node.span.end());
                let line = lines(&node.span.start_pos());
                Node { expr, start, end, line }
            }

            pub fn read(text: &str, lines: Lines<'_>) -> Answer<Vec<Rule>> {
                caught(|| {
                    let pairs = match parser::parse(parser::Rule::grammar_rules, text) {
                        Ok(pairs) => pairs,
                        Err(error) => return not_recognized(error),
                    };
                    match parser::rules_with_spans(pairs) {
                        Ok(rules) => Answer::Read(
                            rules
                                .iter()
                                .map(|rule| Rule {
                                    name: rule.name.clone(),
                                    mark: match rule.ty {
                                        RuleType::Normal => 0,
                                        RuleType::Silent => 1,
                                        RuleType::Atomic => 2,
                                        RuleType::CompoundAtomic => 3,
                                        RuleType::NonAtomic => 4,
                                    },
                                    start: rule.span.start(),
                                    end: rule.span.end(),
                                    node: copy(&rule.node, lines),
                                })
                                .collect(),
                        ),
                        Err(errors) => not_built(&errors),
                    }
                })
            }

            pub fn build(text: &str) -> usize {
                let pairs = parser::parse(parser::Rule::grammar_rules, text).expect("recognized");
                let rules = parser::rules_with_spans(pairs).expect("built");
                std::hint::black_box(&rules);
                rules.len()
            }

            pub fn recognize(text: &str) -> Answer<Vec<Found>> {
                caught(|| match parser::parse(parser::Rule::grammar_rules, text) {
                    Ok(pairs) => Answer::Read(crate::found(pairs)),
                    Err(error) => not_recognized(error),
                })
            }
        }
    };
}

level!(plain, pest_meta_plain);
level!(tagged, pest_meta_tagged, PushLiteral, NodeTag);

/// All pairs, outer before inner, left before right.
pub(crate) fn found<R: pest::RuleType>(pairs: pest::iterators::Pairs<'_, R>) -> Vec<Found> {
    let mut left = vec![(0, pairs)];
    let mut found = Vec::new();
    while let Some((depth, pairs)) = left.last_mut() {
        let depth = *depth;
        match pairs.next() {
            None => {
                left.pop();
            }
            Some(pair) => {
                let span = pair.as_span();
                let name = format!("{:?}", pair.as_rule());
                found.push((depth, name, span.start(), span.end()));
                left.push((depth + 1, pair.into_inner()));
            }
        }
    }
    found
}

/// The longest text whose lines pest counts: it begins at the text's start for each place.
const COUNTED: usize = 2_000;

/// Parse and build, at a level. A line is pest's own `line_col`, in long texts LF bytes counted here.
pub fn read(text: &str, is_tagged: bool) -> Answer<Vec<Rule>> {
    if text.len() <= COUNTED {
        return read_with(text, is_tagged, &|place| place.line_col().0);
    }
    let ends: Vec<usize> = text.match_indices('\n').map(|(place, _)| place).collect();
    let line = |place: usize| 1 + ends.partition_point(|end| *end < place);
    read_with(text, is_tagged, &|place| line(place.pos()))
}

/// Which line a place is in.
type Lines<'a> = &'a dyn Fn(&pest::Position<'_>) -> usize;

fn read_with(text: &str, is_tagged: bool, lines: Lines<'_>) -> Answer<Vec<Rule>> {
    if is_tagged {
        tagged::read(text, lines)
    } else {
        plain::read(text, lines)
    }
}

/// What a measurement times: parse and build, and the number of rules. The text must be good.
pub fn build(text: &str, is_tagged: bool) -> usize {
    if is_tagged {
        tagged::build(text)
    } else {
        plain::build(text)
    }
}

/// The recognizer alone.
pub fn recognize(text: &str, is_tagged: bool) -> Answer<Vec<Found>> {
    if is_tagged {
        tagged::recognize(text)
    } else {
        plain::recognize(text)
    }
}

/// parser.rs `unescape`.
pub fn unescape(text: &str) -> Option<String> {
    pest_meta_tagged::parser::unescaped(text)
}

/// Rules as ast.rs has them, made from tables that are known to be good.
pub struct Printable(Vec<(String, ast::RuleType, ast::Expr)>);

impl Printable {
    pub fn of(nodes: &[u32], rules: &[u32], store: &[u8]) -> Printable {
        let part = |offset: u32, length: u32| {
            let bytes = &store[offset as usize..offset as usize + length as usize];
            String::from_utf8(bytes.to_vec()).expect("UTF-8")
        };
        let one = |number: u32| char::from_u32(number).expect("a character").to_string();
        let mut made: Vec<ast::Expr> = Vec::new();
        let mut trees = Vec::new();
        let mut next = 0;
        for rule in rules.chunks_exact(RULE_RECORD) {
            for node in nodes.chunks_exact(NODE_RECORD).take(rule[3] as usize + 1).skip(next) {
                let (p, q, r) = (node[3], node[4], node[5]);
                let expr = match node[0] {
                    1 => ast::Expr::Str(part(p, q)),
                    2 => ast::Expr::Insens(part(p, q)),
                    3 => ast::Expr::Range(one(p), one(q)),
                    4 => ast::Expr::Ident(part(p, q)),
                    5 if q == 0 => ast::Expr::PeekSlice(p as i32, None),
                    5 => ast::Expr::PeekSlice(p as i32, Some(r as i32)),
                    18 => ast::Expr::PushLiteral(part(p, q)),
                    kind => {
                        let last = Box::new(made.pop().expect("a child"));
                        match kind {
                            6 => ast::Expr::PosPred(last),
                            7 => ast::Expr::NegPred(last),
                            8 => ast::Expr::Seq(Box::new(made.pop().expect("a left child")), last),
                            9 => {
                                ast::Expr::Choice(Box::new(made.pop().expect("a left child")), last)
                            }
                            10 => ast::Expr::Opt(last),
                            11 => ast::Expr::Rep(last),
                            12 => ast::Expr::RepOnce(last),
                            13 => ast::Expr::RepExact(last, q),
                            14 => ast::Expr::RepMin(last, q),
                            15 => ast::Expr::RepMax(last, q),
                            16 => ast::Expr::RepMinMax(last, q, r),
                            17 => ast::Expr::Push(last),
                            19 => ast::Expr::NodeTag(last, part(q, r)),
                            _ => panic!("kind {kind}"),
                        }
                    }
                };
                made.push(expr);
            }
            next = rule[3] as usize + 1;
            let mark = match rule[2] {
                0 => ast::RuleType::Normal,
                1 => ast::RuleType::Silent,
                2 => ast::RuleType::Atomic,
                3 => ast::RuleType::CompoundAtomic,
                4 => ast::RuleType::NonAtomic,
                mark => panic!("mark {mark}"),
            };
            trees.push((part(rule[0], rule[1]), mark, made.pop().expect("a root")));
            assert!(made.is_empty(), "one tree to a rule");
        }
        Printable(trees)
    }

    /// `print_rule` over `Display`, and LF, for each rule.
    pub fn print(&self) -> String {
        let mut text = String::new();
        for (name, mark, expr) in &self.0 {
            text.push_str(&pest_meta_tagged::print_rule(name, *mark, expr));
            text.push('\n');
        }
        text
    }
}

/// What `Display` prints for tables that are known to be good.
pub fn print(nodes: &[u32], rules: &[u32], store: &[u8]) -> String {
    Printable::of(nodes, rules, store).print()
}
