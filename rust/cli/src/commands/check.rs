//! `check`: every refusal with its line, and nothing else.

use std::io;

use flascjuvan::{read_edition, Edition};

use crate::console::{self, Answer, Console, Status};
use crate::input::{By, Files, Plain, Text};
use crate::paint::Paint;
use crate::{refusal, STATUSES};

/// Say where and why texts are refused; nothing if none is
///
/// Each refusal is a line `FILE:LINE:COLUMN: refused N: MEANING`, then the text's line with
/// a caret under the place. Columns count characters, from 1. Refusals that are about the
/// whole text (1, 10, 12) name its start and show no line. The caret counts characters too, so
/// behind those that a terminal shows wide it stands to the left. `flascjuvan explain N` says
/// more.
///
/// With --edition the first line says which edition the texts are read by. Without it, a text
/// that edition 1 reads and edition 2 refuses is told on standard error, and is no fault.
#[derive(clap::Args)]
#[command(after_help = STATUSES, verbatim_doc_comment)]
pub struct Args {
    #[command(flatten)]
    plain: Plain,
    #[command(flatten)]
    by: By,
    #[command(flatten)]
    files: Files,
}

pub fn run(args: &Args, console: &mut Console) -> io::Result<Status> {
    args.by.say(console)?;
    let aside = console.err_paint;
    args.files.each(console, |text, paint| {
        Ok(match read_edition(&text.bytes, args.plain.level(), args.by.edition()) {
            Ok(_) => {
                if !args.by.is_named() {
                    tell_of_second(text, args, aside);
                }
                Answer(String::new(), Status::Good)
            }
            Err(refused) => Answer(refusal::shown(text, refused, paint), Status::Bad),
        })
    })
}

/// Says of a text that was read, by nobody's choice of an edition, if the second would refuse it.
fn tell_of_second(text: &Text, args: &Args, paint: Paint) {
    if let Err(refused) = read_edition(&text.bytes, args.plain.level(), Edition::Second) {
        console::err(&refusal::shown_of_second(text, refused, paint));
    }
}
