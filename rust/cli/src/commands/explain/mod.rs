//! `explain`: refusals in words.

mod words;

use std::io;

use flascjuvan::{raw, read, read_edition, Edition, Level, Reason, Refusal};

use crate::console::{complain, Console, Status};
use crate::paint::Paint;
use crate::quote::quote;
use crate::{visible, STATUSES};

/// Explain a refusal: what it means, when it comes, how people get it and what to do
#[derive(clap::Args)]
#[command(after_help = STATUSES)]
pub struct Args {
    /// The refusal's number; without it all numbers are listed
    #[arg(value_name = "N")]
    number: Option<u64>,
}

/// What there is to say of a refusal.
struct Explanation {
    reason: Reason,
    /// what it means
    what: &'static str,
    /// what its place is
    place: &'static str,
    /// when it is looked for
    order: &'static str,
    /// the smallest one
    example: Example,
    /// how it is usually got, and what to do
    usual: &'static str,
    slips: &'static [Slip],
}

/// Something that is refused.
enum Example {
    /// a text, read at this level
    Text(&'static [u8], Level),
    /// a text, read by the second edition
    Second(&'static [u8]),
    /// a text that is too long to show: how it is told, and how it is made
    Made(&'static str, fn() -> Vec<u8>),
    /// a text that is read with room for one node, one rule and one byte of names and strings
    Lent(&'static str),
    /// a text that arrives, with no room in the list of its tokens
    Fed(&'static str),
    /// tables that are printed with room for so many bytes
    Tables { nodes: &'static [u32], rules: &'static [u32], store: &'static str, room: usize },
    /// tables whose first rule is run over an empty line
    RunTables { nodes: &'static [u32], rules: &'static [u32], store: &'static str },
    /// a layout whose first rule is run over a line, in at most so many steps
    Run(&'static str, &'static [u8], u64),
}

/// A text that people write, and what they meant.
struct Slip {
    why: &'static str,
    text: &'static [u8],
    /// what is read or run instead; nothing where there is no one text to name
    instead: &'static str,
}

/// The steps that are allowed where it doesn't matter how many.
const STEPS: u64 = 1_000;

pub fn run(args: &Args, console: &mut Console) -> io::Result<Status> {
    let answer = match args.number {
        None => list(),
        Some(number) => match words::ALL.iter().find(|it| it.reason.number() == number) {
            Some(explanation) => explanation.shown(console.paint),
            None => {
                complain(&format!("there is no refusal {number}; `flascjuvan explain` lists them"));
                return Ok(Status::Failed);
            }
        },
    };
    console.write(&answer)?;
    Ok(Status::Good)
}

/// All numbers with their meanings.
fn list() -> String {
    Reason::ALL.iter().map(|reason| format!("{:2}  {reason}\n", reason.number())).collect()
}

/// A number and a place as the library answers them; 0 if nothing is refused.
#[derive(Clone, Copy, Debug, Eq, PartialEq)]
struct Answer(u64, u64);

impl std::fmt::Display for Answer {
    fn fmt(&self, f: &mut std::fmt::Formatter<'_>) -> std::fmt::Result {
        match self.0 {
            0 => write!(f, "is good"),
            number => write!(f, "refused {number} at {}", self.1),
        }
    }
}

impl<T> From<Result<T, Refusal>> for Answer {
    fn from(answer: Result<T, Refusal>) -> Answer {
        match answer {
            Ok(_) => Answer(0, 0),
            Err(refusal) => Answer(refusal.number(), refusal.place as u64),
        }
    }
}

fn reading(text: &[u8], level: Level) -> Answer {
    read(text, level).into()
}

fn reading_by_second(text: &[u8]) -> Answer {
    read_edition(text, Level::Tagged, Edition::Second).into()
}

/// What the first rule of a layout answers to a line.
fn running(layout: &[u8], line: &[u8], steps: u64) -> Answer {
    let grammar = match read(layout, Level::Tagged) {
        Ok(grammar) => grammar,
        Err(refused) => return Err::<(), _>(refused).into(),
    };
    let first = grammar.rules().into_iter().next().map_or_else(String::new, |rule| rule.name);
    grammar.match_line(&first, line, steps).into()
}

impl Explanation {
    fn shown(&self, paint: Paint) -> String {
        let number = paint.red(&format!("refused {}:", self.reason.number()));
        let slips: String = self.slips.iter().map(|slip| self.slip_shown(slip)).collect();
        let parts = [
            ("What it means", self.what.to_owned()),
            ("Place", self.place.to_owned()),
            ("Order", self.order.to_owned()),
            ("Example", self.example.shown(paint)),
            ("How people get it, and what to do", format!("{}\n{slips}", self.usual)),
        ];
        let parts =
            parts.map(|(title, said)| format!("\n{}\n{}\n", paint.bold(title), said.trim_end()));
        format!("{number} {}\n{}", self.reason, parts.concat())
    }

    /// What is done with the texts of slips: they are read, those of 15 by the second edition, and
    /// the matcher's run as well, over an empty line.
    fn tried(&self, text: &[u8]) -> Answer {
        match self.reason.number() {
            15 => reading_by_second(text),
            30.. => running(text, b"", STEPS),
            _ => reading(text, Level::Tagged),
        }
    }

    fn slip_shown(&self, slip: &Slip) -> String {
        let texts = [slip.text, slip.instead.as_bytes()];
        let told: Vec<_> = texts
            .iter()
            .filter(|text| !text.is_empty())
            .map(|text| visible::line(text, usize::MAX))
            .collect();
        let width = told.iter().map(|line| line.chars().count()).max().unwrap_or(0);
        let lines = told.iter().zip(texts).map(|(line, text)| match self.tried(text) {
            Answer(0, _) if self.reason.number() >= 30 => format!("    {line:width$}    is run\n"),
            Answer(0, _) => format!("    {line:width$}    is read\n"),
            refused => format!("    {line:width$}    {refused}\n"),
        });
        format!("\n{}\n{}", slip.why, lines.collect::<String>())
    }
}

impl Example {
    fn answer(&self) -> Answer {
        match self {
            Example::Text(text, level) => reading(text, *level),
            Example::Second(text) => reading_by_second(text),
            Example::Made(_, make) => reading(&make(), Level::Tagged),
            Example::Lent(text) => {
                let answer = raw::read(text.as_bytes(), true, &mut [0; 7], &mut [0; 6], &mut [0]);
                Answer(answer[0], answer[1])
            }
            Example::Fed(text) => {
                let answer = raw::feed(&mut [0; 10], text.as_bytes(), &mut []);
                Answer(answer[0], answer[1])
            }
            Example::Tables { nodes, rules, store, room } => {
                let answer = raw::print(nodes, rules, store.as_bytes(), &mut vec![0; *room]);
                Answer(answer[0], answer[1])
            }
            Example::RunTables { nodes, rules, store } => {
                let answer = raw::match_line(nodes, rules, store.as_bytes(), 0, b"", STEPS);
                Answer(answer[0], answer[1])
            }
            Example::Run(layout, line, steps) => running(layout.as_bytes(), line, *steps),
        }
    }

    fn shown(&self, paint: Paint) -> String {
        let answer = self.answer();
        match self {
            Example::Text(text, level) => {
                let plain = if *level == Level::Plain { "read plain: " } else { "" };
                format!("{}{plain}{answer}", quote(text, answer.1 as usize, paint))
            }
            Example::Second(text) => {
                format!("{}read by edition 2: {answer}", quote(text, answer.1 as usize, paint))
            }
            Example::Made(told, _) => format!("{told}: {answer}"),
            Example::Lent(text) => {
                format!("{text}\nread with room for 1 byte of names and strings: {answer}")
            }
            Example::Fed(text) => format!("{text}\nfed with a list without room: {answer}"),
            Example::Tables { nodes, rules, store, room } => {
                let tables = format!("nodes {nodes:?}, rules {rules:?}, store {store:?}");
                format!("{tables}\nprinted with room for {room} bytes: {answer}")
            }
            Example::RunTables { nodes, rules, store } => {
                let tables = format!("nodes {nodes:?}, rules {rules:?}, store {store:?}");
                format!("{tables}\nrun over an empty line: {answer}")
            }
            Example::Run(layout, line, _) if answer.0 == Reason::LineNotUtf8.number() => {
                let line = quote(line, answer.1 as usize, paint);
                format!("{layout}\nrun over this line:\n{line}{answer}")
            }
            Example::Run(layout, line, steps) => {
                let line = String::from_utf8_lossy(line);
                format!("{layout}\nrun over {line:?} in at most {steps} steps: {answer}")
            }
        }
    }
}

#[cfg(test)]
mod tests {
    use super::*;

    /// Each refusal's example and slips answer its number, at these places.
    const PLACES: &[(u64, u64, &[u64])] = &[
        (1, 0, &[]),
        (2, 0, &[7, 0]),
        (3, 0, &[6, 6, 6, 1, 2, 0, 3, 7, 7, 6, 6, 10]),
        (4, 0, &[8, 10, 10, 8, 13, 4, 6, 7, 7, 6, 8, 11]),
        (5, 5, &[11]),
        (6, 5, &[8, 9, 15]),
        (7, 8, &[14]),
        (8, 4, &[7]),
        (9, 1027, &[]),
        (10, 0, &[]),
        (11, 0, &[]),
        (12, 0, &[]),
        (13, 3, &[]),
        (14, 0, &[]),
        (15, 5, &[8, 8]),
        (20, 0, &[]),
        (21, 0, &[]),
        (22, 0, &[]),
        (23, 0, &[]),
        (30, 0, &[]),
        (31, 1, &[1, 1, 1]),
        (32, 0, &[0, 0, 0, 0, 0]),
        (33, 1, &[]),
        (34, 0, &[0, 0, 0]),
    ];

    #[test]
    fn every_refusal_is_explained_once_and_in_order() {
        let explained: Vec<Reason> = words::ALL.iter().map(|it| it.reason).collect();
        assert_eq!(explained, Reason::ALL);
    }

    #[test]
    fn examples_and_slips_answer_their_number() {
        assert_eq!(words::ALL.len(), PLACES.len());
        for (explanation, &(number, place, slips)) in words::ALL.iter().zip(PLACES) {
            assert_eq!(explanation.reason.number(), number);
            assert_eq!(explanation.example.answer(), Answer(number, place));
            let answers: Vec<Answer> =
                explanation.slips.iter().map(|slip| explanation.tried(slip.text)).collect();
            assert_eq!(
                answers,
                slips.iter().map(|&place| Answer(number, place)).collect::<Vec<_>>()
            );
        }
    }

    #[test]
    fn what_stands_instead_is_read_or_run() {
        for explanation in words::ALL {
            for slip in explanation.slips.iter().filter(|slip| !slip.instead.is_empty()) {
                let answer = explanation.tried(slip.instead.as_bytes());
                assert_eq!(answer, Answer(0, 0), "{}", slip.instead);
            }
        }
    }

    #[test]
    fn nothing_below_the_head_is_wide() {
        for explanation in words::ALL {
            for line in explanation.shown(Paint::PLAIN).lines().skip(1) {
                assert!(line.chars().count() <= 90, "{line}");
            }
        }
    }
}
