//! Why a rule can't be run, for people: 31 and 32 tell a program little of where.

use std::collections::HashSet;

use flascjuvan::{Grammar, ParserExpr, Reason, Refusal};

use crate::input::Text;
use crate::paint::Paint;
use crate::refusal;
use crate::visible::visible;

/// The most rules that are all named to someone who looked for another.
const FEW: usize = 8;

/// Where and why, as other refusals are shown. A rule that isn't there is no fault of the layout's,
/// and one line says so.
pub fn told(
    layout: &Text,
    grammar: &Grammar,
    rule: &str,
    refused: Refusal,
    paint: Paint,
) -> String {
    let reason = refused.reason;
    let fault = match reason {
        Reason::Unfit => grammar.node_span(refused.place).map(|span| {
            let tag = layout.bytes.get(span.start) == Some(&b'#');
            let way_out = if tag { "; --plain reads without tags" } else { "" };
            (span.start, format!("{reason}{way_out}"))
        }),
        Reason::NoRule => false_name(grammar),
        _ => None,
    };
    match fault {
        _ if reason == Reason::NoRule && !names(grammar).any(|name| name == rule) => {
            let head = paint.bold(&format!("{}:", layout.name));
            let rule: String = rule.chars().map(visible).collect();
            let others = others(grammar, &rule);
            format!("{head} {} there is no rule {rule}; {others}\n", refusal::number(reason, paint))
        }
        Some((place, said)) => refusal::shown_at(layout, place, reason, &said, paint),
        None => refusal::shown_at(layout, 0, reason, reason.meaning(), paint),
    }
}

/// The first name that makes 32: where it stands, and what is wrong with it.
fn false_name(grammar: &Grammar) -> Option<(usize, String)> {
    let known: HashSet<String> = names(grammar).chain([ANY.to_owned()]).collect();
    let mut before = HashSet::new();
    for rule in grammar.parser_rules() {
        let name = rule.name;
        if name == ANY {
            return Some((rule.span.start, "a rule called ANY, which is one character".to_owned()));
        }
        if !before.insert(name.clone()) {
            return Some((rule.span.start, format!("a second rule called {name}")));
        }
        for node in rule.node.iter_top_down() {
            match &node.expr {
                ParserExpr::Ident(name) if !known.contains(name) => {
                    let own = !name.contains(|c: char| c.is_ascii_lowercase());
                    let why = if own { "; of pest's own rules there is ANY alone" } else { "" };
                    let said = format!("the name {name} is neither ANY nor a rule{why}");
                    return Some((node.span.start, said));
                }
                _ => {}
            }
        }
    }
    None
}

const ANY: &str = "ANY";

fn names(grammar: &Grammar) -> impl Iterator<Item = String> {
    grammar.rules().into_iter().map(|rule| rule.name)
}

/// Which rules there are; of many, those whose names are most alike.
fn others(grammar: &Grammar, wanted: &str) -> String {
    let mut names: Vec<String> = names(grammar).collect();
    let said = match names.len() {
        0 => return "it has none".to_owned(),
        1..=FEW => "it has",
        _ => "nearest are",
    };
    if names.len() > FEW {
        names.sort_by_key(|name| changes(name, wanted));
        names.truncate(3);
    }
    format!("{said} {}", names.join(", "))
}

/// How many characters have to be put in, taken out or changed to make one word of the other.
fn changes(one: &str, other: &str) -> usize {
    let other: Vec<char> = other.chars().collect();
    // for each front of the other word, from a front of the one
    let mut row: Vec<usize> = (0..=other.len()).collect();
    for (i, c) in one.chars().enumerate() {
        let mut corner = row[0];
        row[0] = i + 1;
        for (j, d) in other.iter().enumerate() {
            let changed = corner + usize::from(c != *d);
            corner = row[j + 1];
            row[j + 1] = changed.min(row[j] + 1).min(corner + 1);
        }
    }
    row[other.len()]
}

#[cfg(test)]
mod tests {
    use super::*;

    #[test]
    fn changes_between_words() {
        for (one, other, count) in [
            ("", "", 0),
            ("", "abc", 3),
            ("abc", "", 3),
            ("size", "size", 0),
            ("size", "sizes", 1),
            ("size", "siez", 2),
            ("kitten", "sitting", 3),
            ("flaw", "lawn", 2),
        ] {
            assert_eq!(changes(one, other), count, "{one} {other}");
        }
    }
}
