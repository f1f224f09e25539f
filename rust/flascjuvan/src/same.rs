//! Whether two grammars hold the same rules, spans aside, and where they first differ.

use std::fmt;

use crate::grammar::RuleRow;
use crate::picture::{label, word};
use crate::{Grammar, Span};

/// Where two grammars first differ, spans aside: the rule, the way down to the node, and what stands there in each.
///
/// It comes from [`Grammar::difference`]. As text it is one line.
#[derive(Clone, Debug, Eq, PartialEq)]
#[non_exhaustive]
pub struct Difference {
    /// The rule's index, counted from 0.
    pub rule: usize,
    /// The rule's name: that of the first grammar, or of the second where the first has no such rule.
    pub name: String,
    /// The nodes from the rule's root down to what differs, that left out: `Choice`, `right Seq`. Empty where the roots
    /// differ, or the rules themselves.
    pub path: Vec<String>,
    /// What the first grammar has.
    pub left: Found,
    /// What the second one has.
    pub right: Found,
}

/// One side of a [`Difference`].
#[derive(Clone, Debug, Eq, PartialEq)]
#[non_exhaustive]
pub struct Found {
    /// What it is: `Str "x"`, `name b`, `mark @`, `no mark`, `no rule`.
    pub what: String,
    /// The bytes of it; None for `no rule`. For a name or a mark they are the name's.
    pub span: Option<Span>,
}

impl Grammar {
    /// Whether both hold the same rules, spans aside: the same names, marks and trees in the same order. Texts are
    /// compared by their bytes, wherever the tables keep them.
    ///
    /// `==` compares the tables, spans and all.
    ///
    /// ```
    /// use flascjuvan::Grammar;
    ///
    /// let one: Grammar = "a = { b ~ c }".parse()?;
    /// let other: Grammar = "a = {\n  (b ~ c) // in brackets\n}".parse()?;
    /// assert!(one.same(&other));
    /// assert_ne!(one, other);
    /// # Ok::<(), flascjuvan::Refusal>(())
    /// ```
    pub fn same(&self, other: &Grammar) -> bool {
        self.difference(other).is_none()
    }

    /// The first difference from another grammar, spans aside: of the first rule that differs its name, its mark, or
    /// the node that stands highest and leftmost. None if they are the [`same`](Grammar::same).
    ///
    /// ```
    /// use flascjuvan::Grammar;
    ///
    /// let one: Grammar = "a = { b }  c = { d ~ e* }".parse()?;
    /// let other: Grammar = "a = { b }  c = { d ~ f* }".parse()?;
    /// let difference = one.difference(&other).unwrap();
    /// assert_eq!(difference.to_string(), "rule 2, c, in Seq > right Rep: Ident e against Ident f");
    /// assert_eq!(difference.left.span.unwrap().start, 21);
    /// # Ok::<(), flascjuvan::Refusal>(())
    /// ```
    pub fn difference(&self, other: &Grammar) -> Option<Difference> {
        let (mut ours, mut theirs) = (self.rule_rows(), other.rule_rows());
        let mut rule = 0;
        loop {
            let (left, right) = (ours.next(), theirs.next());
            let name = left.as_ref().or(right.as_ref())?.name.to_owned();
            let (path, left, right) = match (left, right) {
                (Some(left), Some(right)) => match rules_differ(self, &left, other, &right) {
                    Some(found) => found,
                    None => {
                        rule += 1;
                        continue;
                    }
                },
                (left, right) => (Vec::new(), found_rule(left), found_rule(right)),
            };
            return Some(Difference { rule, name, path, left, right });
        }
    }
}

/// The way to what differs, and both sides of it.
type Differing = (Vec<String>, Found, Found);

fn rules_differ(a: &Grammar, rule: &RuleRow<'_>, b: &Grammar, other: &RuleRow<'_>) -> Option<Differing> {
    if rule.name != other.name {
        return Some((Vec::new(), found_name(rule), found_name(other)));
    }
    if rule.ty != other.ty {
        return Some((Vec::new(), found_mark(rule), found_mark(other)));
    }
    trees_differ(a, rule.root, b, other.root)
}

fn trees_differ(a: &Grammar, root: usize, b: &Grammar, other: usize) -> Option<Differing> {
    let mut path: Vec<(&'static str, usize)> = Vec::new();
    // what is still to compare, the next one last: both nodes, how many stand above, which child it is
    let mut left = vec![(root, other, 0, "")];
    while let Some((i, j, depth, side)) = left.pop() {
        path.truncate(depth);
        let (head, children) = a.shape(i).parted();
        let (other_head, other_children) = b.shape(j).parted();
        if head != other_head {
            let path = path.iter().map(|&(side, index)| format!("{side}{}", label(a.shape(index).head()))).collect();
            let found = |grammar: &Grammar, head, index| Found { what: label(head), span: Some(grammar.span(index)) };
            return Some((path, found(a, head, i), found(b, other_head, j)));
        }
        path.push((side, i));
        let sides = if children[1].is_some() { ["left ", "right "] } else { ["", ""] };
        let pairs = children.into_iter().zip(other_children).zip(sides);
        let pairs = pairs.filter_map(|((i, j), side)| Some((i?, j?, depth + 1, side)));
        left.extend(pairs.rev());
    }
    None
}

fn found_rule(rule: Option<RuleRow<'_>>) -> Found {
    match rule {
        Some(rule) => found_name(&rule),
        None => Found { what: "no rule".to_owned(), span: None },
    }
}

fn found_name(rule: &RuleRow<'_>) -> Found {
    Found { what: format!("name {}", word(rule.name)), span: Some(rule.span) }
}

fn found_mark(rule: &RuleRow<'_>) -> Found {
    let what = match rule.ty.mark() {
        "" => "no mark".to_owned(),
        mark => format!("mark {mark}"),
    };
    Found { what, span: Some(rule.span) }
}

/// How many nodes of a long way down are shown.
const SHOWN: usize = 6;

impl fmt::Display for Difference {
    fn fmt(&self, f: &mut fmt::Formatter<'_>) -> fmt::Result {
        write!(f, "rule {}, {}", self.rule + 1, word(&self.name))?;
        if let Some(hidden) = self.path.len().checked_sub(SHOWN + 1) {
            write!(f, ", in {} nodes > {}", hidden + 1, self.path[hidden + 1..].join(" > "))?;
        } else if !self.path.is_empty() {
            write!(f, ", in {}", self.path.join(" > "))?;
        }
        write!(f, ": {} against {}", self.left.what, self.right.what)
    }
}
