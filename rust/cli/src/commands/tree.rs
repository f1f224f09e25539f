//! `tree`: what belongs to what.

use std::io;

use flascjuvan::read_edition;

use crate::console::{Answer, Console, Status};
use crate::input::{By, Files, Plain};
use crate::STATUSES;

/// Draw what belongs to what, with spans and lines
///
/// A line for each rule and node, children set in below what they belong to. The first two
/// numbers are the bytes of the text that it spans, counted from 0; then come the line and
/// the column of its start, counted from 1. With --edition the first line says which edition
/// the texts are read by; the picture is the same by both.
#[derive(clap::Args)]
#[command(after_help = STATUSES, verbatim_doc_comment)]
pub struct Args {
    #[command(flatten)]
    plain: Plain,
    #[command(flatten)]
    by: By,
    #[command(flatten)]
    files: Files,
}

pub fn run(args: &Args, console: &mut Console) -> io::Result<Status> {
    args.by.say(console)?;
    args.files.each(console, |text, _| {
        let grammar = read_edition(&text.bytes, args.plain.level(), args.by.edition())?;
        let picture = grammar.picture_of(&text.bytes).to_string();
        Ok(Answer(args.files.titled(text, picture), Status::Good))
    })
}
