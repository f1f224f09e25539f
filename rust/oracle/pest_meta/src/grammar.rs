// Stands in the place of pest_meta's generated recognizer. parser.rs includes this file in
// its own module `grammar`, and a child module may call what is private in its parent: so
// parser.rs needs no edit.

include!(concat!(env!("OUT_DIR"), "/recognizer.rs"));

pub struct PestParser;

/// `consume_rules_with_spans`, for callers outside.
pub fn rules_with_spans(
    pairs: pest::iterators::Pairs<'_, Rule>,
) -> Result<Vec<super::ParserRule<'_>>, Vec<pest::error::Error<Rule>>> {
    super::consume_rules_with_spans(pairs)
}

/// `unescape`, for callers outside.
pub fn unescaped(string: &str) -> Option<String> {
    super::unescape(string)
}
