//! The line matcher: 30, 31, 32, 33, 34, then how much of the line one rule takes. The records
//! become forms whose names are already followed to their rules, and a visit calls itself for
//! the form's children, at most 1,024 deep. What a visit takes, it takes off the front of what is
//! left of the line.

use std::collections::HashMap;

use crate::print::{check, part};
use crate::{refuse, Refusal, NESTED, NODE_RECORD, RULE_RECORD};

/// What a run came to: the bytes that matched, or none; and the visits that it took.
#[derive(Clone, Copy, Debug, PartialEq, Eq)]
pub struct Run {
    pub length: Option<usize>,
    pub steps: u64,
}

/// A run, or 30 to 34.
pub type Answer = Result<Run, Refusal>;

/// An answer as five numbers. A refusal has its number and place and is 0 otherwise; a run has
/// number 0 and place 0.
#[derive(Clone, Copy, Debug, Default, PartialEq, Eq)]
pub struct Record {
    pub number: u64,
    pub place: u64,
    /// 1 if the rule matched, else 0.
    pub matched: u64,
    pub length: u64,
    pub steps: u64,
}

/// The five numbers of an answer.
pub fn record(answer: Answer) -> Record {
    match answer {
        Ok(Run { length, steps }) => Record {
            matched: u64::from(length.is_some()),
            length: length.unwrap_or(0) as u64,
            steps,
            ..Record::default()
        },
        Err(Refusal { number, place }) => Record { number, place, ..Record::default() },
    }
}

/// Runs the rule of index `start` over one line.
pub fn match_line(
    nodes: &[u32],
    rules: &[u32],
    store: &[u8],
    start: usize,
    line: &[u8],
    allowance: u64,
) -> Answer {
    Layout::new(nodes, rules, store, start)?.run(line, allowance, Empty::Reckoned)
}

/// As `match_line`, but every single visit is made, so that a large allowance can take long. The
/// two are there to be held against each other.
pub fn match_line_visit_by_visit(
    nodes: &[u32],
    rules: &[u32],
    store: &[u8],
    start: usize,
    line: &[u8],
    allowance: u64,
) -> Answer {
    Layout::new(nodes, rules, store, start)?.run(line, allowance, Empty::Visited)
}

/// Runs the rule over each line of a text. 30, 31 and 32 are about the tables and refuse all of
/// it, also where there is no line; 33 and 34 are a line's own, and 33's place counts from the
/// line's first byte.
pub fn match_lines(
    nodes: &[u32],
    rules: &[u32],
    store: &[u8],
    start: usize,
    text: &[u8],
    allowance: u64,
) -> Result<Vec<Record>, Refusal> {
    let layout = Layout::new(nodes, rules, store, start)?;
    let answer = |line| record(layout.run(line, allowance, Empty::Reckoned));
    Ok(lines(text).into_iter().map(answer).collect())
}

/// The lines of a text, without their ends. An end is LF, or CR and LF; the last line may lack
/// it, and then a CR is the line's own.
pub fn lines(text: &[u8]) -> Vec<&[u8]> {
    let with_end = text.split_inclusive(|byte| *byte == b'\n');
    with_end
        .map(|line| match line.strip_suffix(b"\n") {
            Some(line) => line.strip_suffix(b"\r").unwrap_or(line),
            None => line,
        })
        .collect()
}

/// A node as the matcher takes it. Children, and the root that a name stands for, are indexes.
#[derive(Clone, Copy)]
enum Form<'a> {
    Text(&'a str),
    /// A text without regard to ASCII case.
    Folded(&'a str),
    /// One character of a range. Where the first is above the last, there is none.
    Between(u32, u32),
    Any,
    Rule(usize),
    /// A predicate: whether the child matches is to be as wanted, and nothing is taken.
    Ahead {
        child: usize,
        wanted: bool,
    },
    Both(usize, usize),
    Either(usize, usize),
    Repeat {
        child: usize,
        least: u64,
        most: Option<u64>,
    },
}

/// Tables that give none of 30, 31 and 32, and the root of the starting rule.
struct Layout<'a> {
    forms: Vec<Form<'a>>,
    root: usize,
}

impl<'a> Layout<'a> {
    fn new(
        nodes: &'a [u32],
        rules: &'a [u32],
        store: &'a [u8],
        start: usize,
    ) -> Result<Layout<'a>, Refusal> {
        // 20, 21 and 22 have places of their own, 30 has none.
        if check(nodes, rules, store).is_err() {
            return refuse(30, 0);
        }
        if let Some(unfit) = nodes.chunks_exact(NODE_RECORD).position(is_unfit) {
            return refuse(31, unfit);
        }
        let roots = match roots(rules, store) {
            Some(roots) => roots,
            None => return refuse(32, 0),
        };
        // All names are looked up, whether the starting rule leads to them or not.
        let forms = nodes.chunks_exact(NODE_RECORD).map(|node| form(node, store, &roots)).collect();
        let root = rules.chunks_exact(RULE_RECORD).nth(start).map(|rule| rule[3] as usize);
        match (forms, root) {
            (Some(forms), Some(root)) => Ok(Layout { forms, root }),
            _ => refuse(32, 0),
        }
    }

    /// 33 and 34, or the run.
    fn run(&self, line: &[u8], allowance: u64, empty: Empty) -> Answer {
        let line = match std::str::from_utf8(line) {
            Ok(line) => line,
            Err(error) => return refuse(33, error.valid_up_to()),
        };
        let mut walk = Walk { forms: &self.forms, allowance, steps: 0, empty };
        match walk.visit(self.root, line, 1) {
            Ok(rest) => {
                Ok(Run { length: rest.map(|rest| line.len() - rest.len()), steps: walk.steps })
            }
            Err(Over) => refuse(34, 0),
        }
    }
}

/// A kind that has no meaning on a line, or a minimum above its maximum.
fn is_unfit(node: &[u32]) -> bool {
    match node[0] {
        5 | 17 | 18 | 19 => true,
        16 => node[4] > node[5],
        _ => false,
    }
}

/// The root of each rule by its name; nothing where a rule is called ANY or a name is used twice.
fn roots<'a>(rules: &[u32], store: &'a [u8]) -> Option<HashMap<&'a [u8], usize>> {
    let mut roots = HashMap::new();
    for rule in rules.chunks_exact(RULE_RECORD) {
        let name = part(store, rule[0], rule[1]).expect("a part that lies inside");
        if name == b"ANY" || roots.insert(name, rule[3] as usize).is_some() {
            return None;
        }
    }
    Some(roots)
}

/// The form of a good and fit node; nothing where it is a name without a meaning.
fn form<'a>(node: &[u32], store: &'a [u8], roots: &HashMap<&'a [u8], usize>) -> Option<Form<'a>> {
    let (p, q, r) = (node[3], node[4], node[5]);
    let bytes = || part(store, p, q).expect("a part that lies inside");
    let text = || std::str::from_utf8(bytes()).expect("UTF-8");
    let child = p as usize;
    let repeat = |least: u32, most: Option<u32>| Form::Repeat {
        child,
        least: u64::from(least),
        most: most.map(u64::from),
    };
    Some(match node[0] {
        1 => Form::Text(text()),
        2 => Form::Folded(text()),
        3 => Form::Between(p, q),
        4 if bytes() == b"ANY" => Form::Any,
        4 => Form::Rule(*roots.get(bytes())?),
        6 => Form::Ahead { child, wanted: true },
        7 => Form::Ahead { child, wanted: false },
        8 => Form::Both(child, q as usize),
        9 => Form::Either(child, q as usize),
        10 => repeat(0, Some(1)),
        11 => repeat(0, None),
        12 => repeat(1, None),
        13 => repeat(q, Some(q)),
        14 => repeat(q, None),
        15 => repeat(0, Some(q)),
        16 => repeat(q, Some(r)),
        kind => unreachable!("kind {kind} is false or unfit"),
    })
}

/// What a repetition does about a child that matched and took nothing.
#[derive(Clone, Copy, PartialEq, Eq)]
enum Empty {
    /// The same visit is made again and again.
    Visited,
    /// The visits to come are added up.
    Reckoned,
}

/// Too deep, or too many steps.
struct Over;

struct Walk<'a> {
    forms: &'a [Form<'a>],
    allowance: u64,
    /// The visits begun, never above the allowance.
    steps: u64,
    empty: Empty,
}

impl Walk<'_> {
    /// Visits a form where `rest` is left of the line: what is left then, or none.
    fn visit<'l>(
        &mut self,
        form: usize,
        rest: &'l str,
        depth: usize,
    ) -> Result<Option<&'l str>, Over> {
        if depth > NESTED {
            return Err(Over);
        }
        self.count(1)?;
        let deeper = depth + 1;
        match self.forms[form] {
            Form::Text(text) => Ok(rest.strip_prefix(text)),
            Form::Folded(text) => Ok(strip_folded(rest, text)),
            Form::Between(low, high) => {
                Ok(strip_character(rest, |character| (low..=high).contains(&character)))
            }
            Form::Any => Ok(strip_character(rest, |_| true)),
            Form::Rule(root) => self.visit(root, rest, deeper),
            Form::Ahead { child, wanted } => {
                let matched = self.visit(child, rest, deeper)?.is_some();
                Ok((matched == wanted).then_some(rest))
            }
            Form::Both(left, right) => match self.visit(left, rest, deeper)? {
                Some(rest) => self.visit(right, rest, deeper),
                None => Ok(None),
            },
            Form::Either(left, right) => match self.visit(left, rest, deeper)? {
                Some(rest) => Ok(Some(rest)),
                None => self.visit(right, rest, deeper),
            },
            Form::Repeat { child, least, most } => self.repeat(child, least, most, rest, deeper),
        }
    }

    fn count(&mut self, steps: u64) -> Result<(), Over> {
        if steps > self.allowance - self.steps {
            return Err(Over);
        }
        self.steps += steps;
        Ok(())
    }

    /// Takes all it can: the child is visited until it fails or has matched `most` times.
    fn repeat<'l>(
        &mut self,
        child: usize,
        least: u64,
        most: Option<u64>,
        mut rest: &'l str,
        depth: usize,
    ) -> Result<Option<&'l str>, Over> {
        let mut matches = 0;
        while most != Some(matches) {
            let before = self.steps;
            let Some(left) = self.visit(child, rest, depth)? else {
                return Ok((matches >= least).then_some(rest));
            };
            matches += 1;
            if left.len() == rest.len() && self.empty == Empty::Reckoned {
                // A visit is decided by its form, its place and its depth, and these stay: so
                // every visit to come takes the same steps and matches nothing again. Without a
                // maximum that never ends, whatever the allowance.
                let to_come = most.ok_or(Over)? - matches;
                let steps = to_come.checked_mul(self.steps - before).ok_or(Over)?;
                self.count(steps)?;
                return Ok(Some(rest));
            }
            rest = left;
        }
        // The maximum is reached, and no minimum is above it.
        Ok(Some(rest))
    }
}

/// What is left behind one character that is as wanted.
fn strip_character(rest: &str, wanted: impl Fn(u32) -> bool) -> Option<&str> {
    let mut characters = rest.chars();
    wanted(u32::from(characters.next()?)).then_some(characters.as_str())
}

/// What is left behind a text, A-Z and a-z being alike. Only ASCII bytes are folded, so a front
/// that is alike has its characters' ends where the text has them.
fn strip_folded<'l>(rest: &'l str, text: &str) -> Option<&'l str> {
    let front = rest.as_bytes().get(..text.len())?;
    front.eq_ignore_ascii_case(text.as_bytes()).then(|| &rest[text.len()..])
}
