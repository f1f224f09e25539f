//! `same`: whether two texts hold the same rules.

use std::io;
use std::path::PathBuf;

use flascjuvan::{line_column, read_edition, Difference, Found, Level};

use crate::console::{Console, Status};
use crate::input::{By, Reader, Text};
use crate::paint::Paint;
use crate::quote::quote;
use crate::STATUSES;

/// Say the first difference between the rules of two texts; nothing if there is none
///
/// Rules are compared in their order: names, marks and trees. Blanks, comments, docs and
/// brackets that change nothing don't count.
#[derive(clap::Args)]
#[command(after_help = STATUSES, verbatim_doc_comment)]
pub struct Args {
    #[command(flatten)]
    by: By,
    /// A file; `-` is standard input
    #[arg(value_name = "A")]
    first: PathBuf,
    /// The file to compare it with; `-` too, but not both
    #[arg(value_name = "B")]
    second: PathBuf,
}

pub fn run(args: &Args, console: &mut Console) -> io::Result<Status> {
    let mut reader = Reader::default();
    let texts = match [&args.first, &args.second].map(|path| reader.read(path)) {
        [Some(first), Some(second)] => [first, second],
        _ => return Ok(Status::Failed),
    };
    args.by.say(console)?;
    let grammar = |text: &Text| {
        read_edition(&text.bytes, Level::Tagged, args.by.edition())
            .map_err(|refused| console.refuse(text, refused))
    };
    let difference = match [grammar(&texts[0]), grammar(&texts[1])] {
        [Ok(one), Ok(other)] => one.difference(&other),
        _ => return Ok(Status::Bad),
    };
    match difference {
        None => Ok(Status::Good),
        Some(difference) => {
            console.write(&told(&texts, &difference, console.paint))?;
            Ok(Status::Bad)
        }
    }
}

fn told(texts: &[Text; 2], difference: &Difference, paint: Paint) -> String {
    let head = format!("{} {difference}\n", paint.red("different:"));
    head + &shown(&texts[0], &difference.left, paint) + &shown(&texts[1], &difference.right, paint)
}

/// What a text has, as rustc shows a place; the text alone where it has nothing.
fn shown(text: &Text, found: &Found, paint: Paint) -> String {
    let arrow = paint.blue("-->");
    match found.span {
        Some(span) => {
            let at = line_column(&text.bytes, span.start);
            format!("{arrow} {}:{at}\n{}", text.name, quote(&text.bytes, span.start, paint))
        }
        None => format!("{arrow} {}\n", text.name),
    }
}
