//! `print`: what the desk prints, or the program `short`.

use std::io;

use flascjuvan::{print, print_short, read_edition, Level};

use crate::console::{Answer, Console, Status};
use crate::input::{By, Files};
use crate::STATUSES;

/// Print texts back as they were understood, every bracket shown, or the fewest
///
/// This is what the desk prints and, with --short, what the program short prints, also where
/// they have no room: over 2,048 nodes, or over 65,536 bytes of output. It is no formatter:
/// comments and docs are gone. Several texts are printed one after the other. With --edition
/// standard error says which edition they are read by.
#[derive(clap::Args)]
#[command(after_help = STATUSES, verbatim_doc_comment)]
pub struct Args {
    /// Print nothing but the names of files that printing would change, for hooks
    #[arg(long)]
    check: bool,
    /// Print with the fewest brackets that keep the tree
    #[arg(long)]
    short: bool,
    #[command(flatten)]
    by: By,
    #[command(flatten)]
    files: Files,
}

pub fn run(args: &Args, console: &mut Console) -> io::Result<Status> {
    let printer = if args.short { print_short } else { print };
    args.by.say_aside(console);
    args.files.each(console, |text, _| {
        let printed = printer(&read_edition(&text.bytes, Level::Tagged, args.by.edition())?)?;
        Ok(match args.check {
            false => Answer(printed, Status::Good),
            true if printed.as_bytes() == text.bytes => Answer(String::new(), Status::Good),
            true => Answer(format!("{}\n", text.name), Status::Bad),
        })
    })
}
