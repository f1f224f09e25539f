//! The crate as a user meets it, a module to each part of its face.

mod arriving;
mod differences;
mod editions;
mod limits;
mod literals;
mod matching;
mod pictures;
mod printing;
mod refusals;
mod short;
mod stack;
mod tokens;
mod trees;

use flascjuvan::{print, read, Expr, Grammar, Level, Rule, RuleType};

/// What is read of a text that is known to be good.
fn tagged(text: &str) -> Grammar {
    read(text, Level::Tagged).unwrap_or_else(|refusal| panic!("{text:?}: {refusal}"))
}

/// The tree of a body.
fn body(text: &str) -> Expr {
    tagged(&format!("r = {{ {text} }}")).rules().remove(0).expr
}

/// What a grammar that is known to be good comes back as.
fn printed(grammar: &Grammar) -> String {
    print(grammar).unwrap_or_else(|refusal| panic!("{grammar:?}: {refusal}"))
}

fn ident(name: &str) -> Expr {
    Expr::Ident(name.to_owned())
}

/// The only rule of a grammar.
fn rule(expr: Expr) -> Vec<Rule> {
    vec![Rule { name: "r".to_owned(), ty: RuleType::Normal, expr }]
}

fn seq(a: Expr, b: Expr) -> Expr {
    Expr::Seq(Box::new(a), Box::new(b))
}

fn choice(a: Expr, b: Expr) -> Expr {
    Expr::Choice(Box::new(a), Box::new(b))
}

/// A body of each kind, spelled as it is printed.
const EVERY_KIND: [&str; 23] = [
    "\"a\"",
    "^\"a\"",
    "('a'..'z')",
    "a",
    "PEEK[0..]",
    "PEEK[-1..2]",
    "&a",
    "!a",
    "(a ~ b)",
    "(a | b)",
    "a?",
    "a*",
    "a+",
    "a{2}",
    "a{0,}",
    "a{,2}",
    "a{3, 2}",
    "PUSH(a)",
    "PUSH_LITERAL(\"a\")",
    "(#t = a)",
    "(!a)*",
    "\"\\\"\\\\\\0\\t\\n\\r\\u{80}\"",
    "('\\''..'\\u{10ffff}')",
];
