//! `tokens`: a text's tokens.

use std::io;

use flascjuvan::{tokens, LineColumn, Token};

use crate::console::{Answer, Console, Status};
use crate::input::Files;
use crate::{places, visible, STATUSES};

/// List tokens, a line each
///
/// The line and the column where it starts, counted from 1; its kind in words and by number;
/// the bytes that it spans, counted from 0; its text, with pictures for control characters.
#[derive(clap::Args)]
#[command(after_help = STATUSES, verbatim_doc_comment)]
pub struct Args {
    #[command(flatten)]
    files: Files,
}

pub fn run(args: &Args, console: &mut Console) -> io::Result<Status> {
    args.files.each(console, |text, _| {
        let list = listed(&text.bytes, &tokens(&text.bytes)?);
        Ok(Answer(args.files.titled(text, list), Status::Good))
    })
}

/// The lines, their fields below one another.
fn listed(text: &[u8], tokens: &[Token]) -> String {
    let rows: Vec<[String; 4]> = tokens
        .iter()
        .zip(places::starts(text, tokens))
        .map(|(token, at)| row(text, token, at))
        .collect();
    let widths =
        [0, 1, 2].map(|field| rows.iter().map(|row| row[field].chars().count()).max().unwrap_or(0));
    let [place, kind, span] = widths;
    rows.iter().map(|[a, b, c, d]| format!("{a:place$}  {b:kind$}  {c:span$}  {d}\n")).collect()
}

fn row(text: &[u8], token: &Token, at: LineColumn) -> [String; 4] {
    let kind = format!("{} ({})", token.kind, token.kind.number());
    let span = format!("{}..{}", token.start, token.end);
    [at.to_string(), kind, span, visible::line(&text[token.start..token.end], usize::MAX)]
}
