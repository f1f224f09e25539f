//! Makes the recognizer: Debian's grammar of pest_meta 2.5.2, with the additions below, in the
//! names that 2.9.5's parser.rs calls by. The additions are a reconstruction: the published
//! grammar of 2.9.5 isn't given.

use std::{env, fs, path::Path};

const GRAMMAR: &str = "/usr/share/cargo/registry/pest_meta-2.5.2/src/grammar.pest";

/// Each left side stands once in 2.5.2's grammar, and gives way to the right side.
const ADDITIONS: [(&str, &str); 6] = [
    // docs
    ("SOI ~ grammar_rule+", "SOI ~ grammar_doc* ~ grammar_rule+"),
    (
        "    opening_brace ~ expression ~ closing_brace\n}",
        "    opening_brace ~ expression ~ closing_brace |\n    line_doc\n}",
    ),
    (
        "COMMENT    = _{ block_comment | (\"//\" ~ (!newline ~ ANY)*) }",
        "line_comment = _{ \"//\" ~ !(\"/\" | \"!\") ~ (!newline ~ ANY)* }
COMMENT    = _{ block_comment | line_comment }

space       = _{ \" \" | \"\\t\" }
grammar_doc = ${ \"//!\" ~ space? ~ inner_doc }
line_doc    = ${ \"///\" ~ space? ~ inner_doc }
inner_doc   = @{ (!newline ~ ANY)* }",
    ),
    // tags
    ("{ prefix_operator* ~ node", "{ node_tag? ~ prefix_operator* ~ node"),
    // PUSH_LITERAL
    ("terminal   = _{ _push |", "terminal   = _{ _push_literal | _push |"),
    (
        "_push = { \"PUSH\" ~",
        "node_tag = _{ tag_id ~ assignment_operator }
tag_id   = @{ \"#\" ~ (\"_\" | alpha) ~ (\"_\" | alpha_num)* }

_push_literal = { \"PUSH_LITERAL\" ~ opening_paren ~ string ~ closing_paren }
_push = { \"PUSH\" ~",
    ),
];

fn main() {
    println!("cargo:rerun-if-changed={GRAMMAR}");
    println!("cargo:rerun-if-changed=../pest_meta/build.rs");
    let mut grammar = fs::read_to_string(GRAMMAR).expect("Debian's librust-pest-meta-dev");
    for (old, new) in ADDITIONS {
        assert_eq!(grammar.matches(old).count(), 1, "{old}");
        grammar = grammar.replace(old, new);
    }
    let parser = format!("#[grammar_inline = {grammar:?}] pub struct PestParser;");
    let code = pest_generator::derive_parser(parser.parse().unwrap(), false).to_string();
    let out = env::var("OUT_DIR").unwrap();
    fs::write(Path::new(&out).join("recognizer.rs"), code).unwrap();
}
