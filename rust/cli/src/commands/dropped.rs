//! `dropped`: what a desk without tags loses of a text.

use std::io;

use flascjuvan::{read_edition, tokens, Edition, Level, Refusal, Token};

use crate::console::{Answer, Console, Status};
use crate::input::{By, Files, Text};
use crate::paint::Paint;
use crate::{places, visible, STATUSES};

/// The most characters of a term that are shown.
const TERM: usize = 60;

/// List what plain reading drops or refuses; nothing if it loses nothing
///
/// A desk without tags drops every tag without a word, and refuses a text with PUSH_LITERAL.
/// Each tag is told with the term that it stands before, each PUSH_LITERAL with its string.
#[derive(clap::Args)]
#[command(after_help = STATUSES, verbatim_doc_comment)]
pub struct Args {
    #[command(flatten)]
    by: By,
    #[command(flatten)]
    files: Files,
}

pub fn run(args: &Args, console: &mut Console) -> io::Result<Status> {
    args.by.say(console)?;
    args.files.each(console, |text, paint| {
        let lost = losses(text, args.by.edition(), paint)?;
        let status = if lost.is_empty() { Status::Good } else { Status::Bad };
        Ok(Answer(lost, status))
    })
}

/// A line for each tag and each PUSH_LITERAL, in the order of the text.
fn losses(text: &Text, edition: Edition, paint: Paint) -> Result<String, Refusal> {
    // a text that is read has its tokens where `Terms` looks for them
    read_edition(&text.bytes, Level::Tagged, edition)?;
    let found = tokens(&text.bytes)?;
    let terms = Terms { text: &text.bytes, tokens: &found };
    let lines = places::starts(&text.bytes, &found).enumerate().filter_map(|(index, at)| {
        let said = terms.loss(index, paint)?;
        Some(format!("{} {said}\n", paint.bold(&format!("{}:{at}:", text.name))))
    });
    Ok(lines.collect())
}

/// The tokens of a text that is read.
struct Terms<'a> {
    text: &'a [u8],
    tokens: &'a [Token],
}

impl Terms<'_> {
    /// A token's bytes; nothing past the last.
    fn spelled(&self, index: usize) -> &[u8] {
        self.tokens.get(index).map_or(b"", |token| &self.text[token.start..token.end])
    }

    /// What is lost at a token, if it is a tag or PUSH_LITERAL.
    fn loss(&self, index: usize, paint: Paint) -> Option<String> {
        let spelled = self.spelled(index);
        if spelled.starts_with(b"#") {
            let tag =
                paint.red(&format!("dropped: the tag {}", visible::line(spelled, usize::MAX)));
            return Some(format!("{tag} of {}", self.shown(index + 2, self.term_end(index + 2))));
        }
        if spelled == b"PUSH_LITERAL" {
            let number = paint.red("refused 13:");
            let node = self.shown(index, self.node_end(index));
            return Some(format!("{number} {node}, which plain reading has not"));
        }
        None
    }

    /// The text from a token to the one before another.
    fn shown(&self, from: usize, to: usize) -> String {
        visible::line(&self.text[self.tokens[from].start..self.tokens[to - 1].end], TERM)
    }

    /// The token after a term's last: any signs, a node, any postfixes.
    fn term_end(&self, start: usize) -> usize {
        let signs = (start..).take_while(|&at| matches!(self.spelled(at), b"&" | b"!")).count();
        let mut at = self.node_end(start + signs);
        loop {
            at = match self.spelled(at) {
                b"?" | b"*" | b"+" => at + 1,
                b"{" => self.past(at, b"{", b"}"),
                _ => return at,
            }
        }
    }

    /// The token after a node's last.
    fn node_end(&self, start: usize) -> usize {
        match self.spelled(start) {
            b"(" => self.past(start, b"(", b")"),
            b"PUSH" | b"PUSH_LITERAL" => self.past(start + 1, b"(", b")"),
            b"PEEK" if self.spelled(start + 1) == b"[" => self.past(start + 1, b"[", b"]"),
            [b'\'', ..] => start + 3,
            _ => start + 1,
        }
    }

    /// The token after the one that closes what a token opens.
    fn past(&self, opener: usize, open: &[u8], close: &[u8]) -> usize {
        let mut depth = 0;
        for at in opener..self.tokens.len() {
            if self.spelled(at) == open {
                depth += 1;
            } else if self.spelled(at) == close {
                depth -= 1;
            }
            if depth == 0 {
                return at + 1;
            }
        }
        self.tokens.len()
    }
}

#[cfg(test)]
mod tests {
    use flascjuvan::{read, Expr, TokenKind};

    use super::*;

    fn dropped(text: &str) -> String {
        let text = Text { name: "t".to_owned(), bytes: text.as_bytes().to_owned() };
        losses(&text, Edition::First, Paint::PLAIN).expect("a text that is read")
    }

    #[test]
    fn a_tag_has_its_whole_term() {
        for term in [
            "b",
            "!b*",
            "&!b?+{2}{,3}{4, 5}",
            "(b ~ (c | d))*",
            "PUSH( b )+",
            "PUSH_LITERAL (\"x\")?",
            "PEEK[-1 .. ]*",
            "PEEK",
            "PEEK*",
            "'a' .. '}'{3}",
            "\"}\"*",
            "^\"(\"",
            "( /* ) */ b )",
        ] {
            for after in ["", " ~ c", " | #u = d"] {
                let lines = dropped(&format!("a = {{ #t = {term}{after} }}"));
                let first = lines.lines().next().expect("a line");
                assert_eq!(first, format!("t:1:7: dropped: the tag #t of {term}"));
            }
        }
    }

    /// Every tag's term, read by itself, is what the tree has below that tag.
    #[test]
    fn terms_are_those_of_the_tree() {
        let signs = ["", "!", "& !"];
        let nodes = [
            "b",
            "(#u = b | c)",
            "PUSH( (b) )",
            "PUSH_LITERAL(\")\")",
            "PEEK [ ..-1 ]",
            "PEEK",
            "\"}\"",
            "^\"{\"",
            "')'..'{'",
        ];
        let postfixes = ["", "*", "{2}", "? {1, } + {, 3}"];
        let after = ["", " ~ d", " | #v = !e", " /* } */ ~ (f)"];
        for sign in signs {
            for node in nodes {
                for postfix in postfixes {
                    for after in after {
                        same_terms(&format!(
                            "a = {{ #t = {sign}{node}{postfix}{after} }}\nx = @{{ y }}"
                        ));
                    }
                }
            }
        }
        same_terms(include_str!("../../../../layouts/tagged.pest"));
    }

    fn same_terms(text: &str) {
        let rules = read(text, Level::Tagged).expect(text).rules();
        let below =
            rules.iter().flat_map(|rule| rule.expr.iter_top_down()).filter_map(|expr| match expr {
                Expr::NodeTag(child, _) => Some((**child).clone()),
                _ => None,
            });
        let found = tokens(text).expect(text);
        let terms = Terms { text: text.as_bytes(), tokens: &found };
        let tags = (0..found.len()).filter(|&index| found[index].kind == TokenKind::Tag);
        let told = tags.map(|tag| {
            let term = &text[found[tag + 2].start..found[terms.term_end(tag + 2) - 1].end];
            let mut alone = read(format!("a = {{ {term} }}"), Level::Tagged).expect(term).rules();
            alone.remove(0).expr
        });
        assert_eq!(told.collect::<Vec<_>>(), below.collect::<Vec<_>>(), "{text}");
    }

    #[test]
    fn tags_inside_tags_are_told_too() {
        let lines = dropped("a = { #t = (#u = b ~ c)* }\nd = { #v = e }");
        let told = [
            "t:1:7: dropped: the tag #t of (#u = b ~ c)*\n",
            "t:1:13: dropped: the tag #u of b\n",
            "t:2:7: dropped: the tag #v of e\n",
        ];
        assert_eq!(lines, told.concat());
    }

    #[test]
    fn what_only_looks_like_one_is_none() {
        assert_eq!(dropped("a = { \"#t = PUSH_LITERAL\" } // #t = b\n/// #u = c"), "");
    }

    #[test]
    fn a_long_term_is_cut() {
        let lines = dropped(&format!("a = {{ #t = \"{}\" }}", "x".repeat(100)));
        assert_eq!(lines, format!("t:1:7: dropped: the tag #t of \"{}…\n", "x".repeat(58)));
    }
}
