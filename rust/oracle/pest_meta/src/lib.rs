//! The given files of pest_meta 2.9.5 over pest 2.5.2's runtime.

#[allow(dead_code)]
pub mod ast;
#[allow(dead_code, mismatched_lifetime_syntaxes)]
pub mod parser;

/// The crate's validator leans on a file that isn't given. parser.rs calls it in
/// `consume_rules` only, and nothing here calls that.
mod validator {
    use crate::parser::{ParserRule, Rule};

    pub fn validate_ast(_: &[ParserRule<'_>]) -> Vec<pest::error::Error<Rule>> {
        Vec::new()
    }
}

/// `print_rule`, which ast.rs compiles for its tests alone, word for word.
pub fn print_rule(name: &str, ty: ast::RuleType, expr: impl core::fmt::Display) -> String {
    use ast::RuleType;
    let modifier = match ty {
        RuleType::Normal => "",
        RuleType::Silent => "_",
        RuleType::Atomic => "@",
        RuleType::CompoundAtomic => "$",
        RuleType::NonAtomic => "!",
    };
    format!("{name} = {modifier}{{ {expr} }}")
}
