//! What pest 2.5.2 itself answers on a line: parsers that pest_derive generated for random grammars,
//! all of whose rules are atomic, so that nothing is implicit. Without stack operations, tags and
//! endless repetitions.

use pest::error::Error;
use pest::iterators::Pairs;
use pest::RuleType;

pub struct Grammar {
    pub text: &'static str,
    /// Their names, in the order of the text.
    pub rules: &'static [&'static str],
    /// Characters that its strings and ranges have.
    pub characters: &'static str,
    /// How many bytes a rule matches at the front of a line.
    pub length: fn(rule: usize, line: &str) -> Option<usize>,
}

/// A grammar that pest runs otherwise than its rules say: a line, pest's length, and theirs.
pub type Known = (Grammar, &'static str, Option<usize>, Option<usize>);

/// Where the one pair ends that a rule makes.
pub fn end<R: RuleType>(parsed: Result<Pairs<'_, R>, Error<R>>) -> Option<usize> {
    let mut pairs = parsed.ok()?;
    let span = pairs.next().expect("a pair").as_span();
    assert!(span.start() == 0 && pairs.next().is_none(), "one pair, from the front on");
    Some(span.end())
}

include!(concat!(env!("OUT_DIR"), "/grammars.rs"));
