//! Rules run over lines.

use std::fmt;
use std::iter::FusedIterator;

use crate::refusal::judged;
use crate::{raw, Grammar, Reason, Refusal, Span};

/// How a line was run. As text: the length or `none`, then the steps, `1 8`.
#[derive(Clone, Copy, Debug, Eq, Hash, PartialEq)]
pub struct Run {
    /// The bytes from the line's start that the rule takes; None if it doesn't match there. `Some(0)` is a match that
    /// takes nothing.
    pub length: Option<usize>,
    /// The visits to nodes that it took, those that failed and those that were repeated included.
    pub steps: u64,
}

impl fmt::Display for Run {
    fn fmt(&self, f: &mut fmt::Formatter<'_>) -> fmt::Result {
        match self.length {
            Some(length) => write!(f, "{length} {}", self.steps),
            None => write!(f, "none {}", self.steps),
        }
    }
}

/// A line of a text, and how it was run.
#[derive(Clone, Copy, Debug, Eq, Hash, PartialEq)]
pub struct Line {
    /// Its bytes in the text, without the LF or CR LF that ends it.
    pub span: Span,
    /// How it was run, or 33 or 34. The place of 33 counts from the line's start.
    pub run: Result<Run, Refusal>,
}

impl Line {
    /// The bytes of the text that matched; None if none did, or the line is refused.
    pub fn matched(&self) -> Option<Span> {
        let length = self.run.ok()?.length?;
        Some(Span { start: self.span.start, end: self.span.start + length })
    }
}

/// The lines that one call is lent records for: a call looks at the whole tables first, so many calls would take long.
const LINES: usize = 4096;

/// The numbers of a line's record.
const ROW: usize = 5;

impl Grammar {
    /// Runs a rule over one line: how many bytes from its start it takes, or none, and in how many steps.
    ///
    /// Choice is ordered, a repetition takes all it can and gives nothing back, and nothing is implicit: marks mean
    /// nothing, WHITESPACE and COMMENT are rules like others. ANY is one character, and the only name that has a meaning
    /// without a rule. Each visit to a node is a step, and no more of them are taken than allowed; an allowance equal to
    /// the steps is enough, and a larger one changes nothing. LF and CR in a line are bytes like others.
    ///
    /// Refusals are looked for in this order: 30 and 31, which are about the tables; 32, about names, also if no rule is
    /// called `rule`; 33 and 34, about the line.
    ///
    /// It wants [2 MB of stack](crate#stack).
    ///
    /// ```
    /// use flascjuvan::{Grammar, Reason, Run};
    ///
    /// // a field up to the next semicolon, and what is often written for it
    /// let layout: Grammar = r#"field = { (!";" ~ ANY)* } slip = { !";" ~ ANY* }"#.parse()?;
    /// assert_eq!(layout.match_line("field", "a;b", 1_000)?, Run { length: Some(1), steps: 8 });
    /// assert_eq!(layout.match_line("slip", "a;b", 1_000)?, Run { length: Some(3), steps: 8 });
    /// assert_eq!(layout.match_line("slip", ";", 1_000)?.length, None);
    ///
    /// let refusal = layout.match_line("field", "a;b", 7).unwrap_err();
    /// assert_eq!(refusal.reason, Reason::Overrun);
    /// # Ok::<(), flascjuvan::Refusal>(())
    /// ```
    pub fn match_line(&self, rule: &str, line: impl AsRef<[u8]>, allowance: u64) -> Result<Run, Refusal> {
        self.starting_with(rule)?.line(line, allowance)
    }

    /// Runs a rule over each line of a text, as [`match_line`](Grammar::match_line) does, each with the same allowance.
    ///
    /// LF ends a line, and a CR right before it belongs to that end; any other CR is a byte of its line. The last line
    /// may lack its LF. 33 and 34 are a line's own, and the lines behind it are still run; 30, 31 and 32 are told at once.
    ///
    /// The lines are run as they are asked for, some thousands at a time, so that the text may be as large as memory.
    ///
    /// ```
    /// use flascjuvan::Grammar;
    ///
    /// let layout: Grammar = r#"size = { '0'..'9'+ ~ "µm" }"#.parse()?;
    /// let text = "12µm\r\nnone\n7µm wide";
    /// let said: Vec<_> = layout.match_lines("size", text, 1_000)?.map(|line| line.matched()?.as_str(text)).collect();
    /// assert_eq!(said, [Some("12µm"), None, Some("7µm")]);
    /// # Ok::<(), flascjuvan::Refusal>(())
    /// ```
    pub fn match_lines<'a>(
        &'a self,
        rule: &str,
        text: &'a (impl AsRef<[u8]> + ?Sized),
        allowance: u64,
    ) -> Result<Lines<'a>, Refusal> {
        Ok(self.matcher(rule)?.lines(text, allowance))
    }

    /// A rule that is ready to be run: it is looked up, and what can be refused of tables and names is not refused.
    ///
    /// ```
    /// use flascjuvan::{Grammar, Reason};
    ///
    /// let layout: Grammar = r#"size = { "12" } tagged = { #t = "x" }"#.parse()?;
    /// let refusal = layout.matcher("size").unwrap_err();
    /// assert_eq!((refusal.reason, refusal.place), (Reason::Unfit, 2));
    /// assert_eq!(layout.node_span(refusal.place).unwrap().to_string(), "27..35");
    ///
    /// let layout: Grammar = r#"size = { "12" }"#.parse()?;
    /// let size = layout.matcher("size")?;
    /// assert_eq!(size.line("12µm", 10)?.length, Some(2));
    /// assert_eq!(layout.matcher("length").unwrap_err().reason, Reason::NoRule);
    /// # Ok::<(), flascjuvan::Refusal>(())
    /// ```
    pub fn matcher(&self, rule: &str) -> Result<Matcher<'_>, Refusal> {
        let matcher = self.starting_with(rule)?;
        // no lines, so that nothing is judged but the tables
        matcher.call(b"", 0, &mut [])?;
        Ok(matcher)
    }

    /// The rule of this name, or an index that no rule has: the call with it says 32, but 31 before it.
    fn starting_with(&self, rule: &str) -> Result<Matcher<'_>, Refusal> {
        let (nodes, rules, store) = self.tables();
        let [number, place, index] = raw::rule_named(nodes, rules, store, rule.as_bytes());
        if number == Reason::NoRule.number() {
            return Ok(Matcher { grammar: self, start: rules.len() });
        }
        judged(number, place)?;
        Ok(Matcher { grammar: self, start: index as usize })
    }
}

/// A rule that is ready to be run: [`Grammar::matcher`] makes it.
#[derive(Clone, Copy, Debug)]
pub struct Matcher<'g> {
    grammar: &'g Grammar,
    /// The rule's index.
    start: usize,
}

impl<'g> Matcher<'g> {
    /// Runs the rule over one line: [`Grammar::match_line`] says how. Only 33 and 34 are refused.
    ///
    /// Every call checks the tables and looks names up again, which can take longer than the line: for many lines there
    /// is [`lines`](Matcher::lines).
    pub fn line(&self, line: impl AsRef<[u8]>, allowance: u64) -> Result<Run, Refusal> {
        let (nodes, rules, store) = self.grammar.tables();
        ran(raw::match_line(nodes, rules, store, self.start, line.as_ref(), allowance))
    }

    /// Runs the rule over each line of a text: [`Grammar::match_lines`] says how.
    pub fn lines<'a>(&self, text: &'a (impl AsRef<[u8]> + ?Sized), allowance: u64) -> Lines<'a>
    where
        'g: 'a,
    {
        Lines::of(*self, text.as_ref(), allowance, LINES)
    }

    /// Runs as many lines as there is room for: how many that are, and where the next one begins.
    fn call(&self, text: &[u8], allowance: u64, records: &mut [u64]) -> Result<(usize, usize), Refusal> {
        let (nodes, rules, store) = self.grammar.tables();
        let [number, place, lines, next] = raw::match_lines(nodes, rules, store, self.start, text, allowance, records);
        judged(number, place)?;
        Ok((lines as usize, next as usize))
    }
}

/// The five numbers of a run.
fn ran([number, place, matched, length, steps]: [u64; ROW]) -> Result<Run, Refusal> {
    judged(number, place)?;
    // a length is a line's, so it fits
    Ok(Run { length: (matched == 1).then_some(length as usize), steps })
}

/// The lines of a text and how they were run: [`Grammar::match_lines`] and [`Matcher::lines`] make it.
#[derive(Clone)]
pub struct Lines<'a> {
    matcher: Matcher<'a>,
    text: &'a [u8],
    allowance: u64,
    /// Five numbers for each line of the last call, and how many of them were given out.
    records: Vec<u64>,
    given: usize,
    /// The numbers that the next call is lent.
    room: usize,
    /// Where the next line begins.
    at: usize,
}

impl<'a> Lines<'a> {
    /// Calls run so many lines each, at least one.
    fn of(matcher: Matcher<'a>, text: &'a [u8], allowance: u64, lines: usize) -> Lines<'a> {
        Lines { matcher, text, allowance, records: Vec::new(), given: 0, room: ROW * lines, at: 0 }
    }

    /// Runs the next lines.
    fn fill(&mut self) {
        let rest = &self.text[self.at..];
        // a line takes a byte at least
        self.records.clear();
        self.records.resize(self.room.min(ROW * rest.len()), 0);
        let called = self.matcher.call(rest, self.allowance, &mut self.records);
        let (lines, _) = called.expect("the tables and names were judged when the matcher was made");
        self.records.truncate(ROW * lines);
        self.given = 0;
    }
}

impl Iterator for Lines<'_> {
    type Item = Line;

    fn next(&mut self) -> Option<Line> {
        if self.at == self.text.len() {
            return None;
        }
        if self.given == self.records.len() {
            self.fill();
        }
        let record = self.records[self.given..self.given + ROW].try_into().expect("a record of a line");
        self.given += ROW;
        let (end, next) = line_end(self.text, self.at);
        let span = Span { start: self.at, end };
        self.at = next;
        Some(Line { span, run: ran(record) })
    }

    fn size_hint(&self) -> (usize, Option<usize>) {
        let left = self.text.len() - self.at;
        (left.min(1), Some(left))
    }
}

impl FusedIterator for Lines<'_> {}

impl fmt::Debug for Lines<'_> {
    fn fmt(&self, f: &mut fmt::Formatter<'_>) -> fmt::Result {
        f.debug_struct("Lines").field("matcher", &self.matcher).field("at", &self.at).finish_non_exhaustive()
    }
}

/// Where the line that begins at a place ends, and where the next one begins.
fn line_end(text: &[u8], start: usize) -> (usize, usize) {
    match text[start..].iter().position(|&b| b == b'\n') {
        None => (text.len(), text.len()),
        Some(length) => {
            let lf = start + length;
            let end = if text[start..lf].ends_with(b"\r") { lf - 1 } else { lf };
            (end, lf + 1)
        }
    }
}

#[cfg(test)]
mod tests {
    use super::*;

    /// However few lines a call is lent records for, the lines and runs are the same.
    #[test]
    fn calls_change_nothing() {
        let grammar: Grammar = r#"r = { (!"b" ~ ANY)+ }"#.parse().expect("a good text");
        let matcher = grammar.matcher("r").expect("a good grammar");
        let mut state = 0x2545_f491_4f6c_dd1d_u64;
        let mut random = move |below: usize| {
            state ^= state << 13;
            state ^= state >> 7;
            state ^= state << 17;
            (state % below as u64) as usize
        };
        for _ in 0..3_000 {
            let text: Vec<u8> = (0..random(40)).map(|_| b"ab\n\r\n\xc3"[random(6)]).collect();
            let whole: Vec<_> = Lines::of(matcher, &text, 20, LINES).collect();
            for lines in 1..8 {
                assert!(Lines::of(matcher, &text, 20, lines).eq(whole.iter().copied()), "{text:?} by {lines}");
            }
            for line in whole {
                assert_eq!(line.run, matcher.line(&text[line.span.start..line.span.end], 20), "{text:?}");
            }
        }
    }

    /// Where this side takes a line to end is where the other goes on.
    #[test]
    fn both_sides_part_lines_alike() {
        let grammar: Grammar = r#"r = { "" }"#.parse().expect("a good text");
        let matcher = grammar.matcher("r").expect("a good grammar");
        for text in [&b"a\n"[..], b"\n", b"\r\n", b"a\r\r\nb", b"a\rb\n\r", b"\xff\r\n\n"] {
            let mut at = 0;
            while at < text.len() {
                let next = line_end(text, at).1;
                assert_eq!(matcher.call(&text[at..], 9, &mut [0; 9]), Ok((1, next - at)), "{text:?} at {at}");
                at = next;
            }
        }
    }
}
