//! The command `flascjuvan`: pest grammars checked, shown, printed, compared and run by the proved
//! library.
//!
//! Each subcommand is a file of [`commands`]. What they share stands beside this one: arguments and
//! the reading of files ([`input`]), writing and exit statuses ([`console`]), closed descriptors
//! ([`closed`]), colours ([`paint`]), refusals for people ([`refusal`]), a line with a caret under a
//! place ([`quote`]), lines and columns of many places ([`places`]), and characters that can't steer
//! a terminal ([`visible`]).

mod closed;
mod commands;
mod console;
mod input;
mod paint;
mod places;
mod quote;
mod refusal;
mod visible;

use std::panic::resume_unwind;
use std::process::ExitCode;
use std::thread;

use clap::{Parser, Subcommand};

use commands::{check, dropped, explain, match_lines, print, same, tokens, tree};
use console::{Console, Status};
use paint::ColorChoice;

/// The library takes up to 2 MB of stack; what a caller's limit leaves to the first thread is not
/// known.
const STACK: usize = 16 << 20;

const STATUSES: &str = "\
Exit status:
  0  all is well
  1  a text or a line is refused, two texts differ, one would change or something would be dropped
  2  wrong usage, a file that can't be read, output that fails
A reader of the output that goes away early is no failure.";

/// Checks, shows, prints, compares and runs pest grammars.
#[derive(Parser)]
#[command(name = "flascjuvan", bin_name = "flascjuvan", version)]
#[command(after_help = STATUSES, arg_required_else_help = true)]
struct Cli {
    /// Colour: auto (where standard output is a terminal), always or never
    #[arg(
        long,
        value_name = "WHEN",
        default_value = "auto",
        value_enum,
        hide_possible_values = true,
        global = true
    )]
    color: ColorChoice,
    #[command(subcommand)]
    command: Command,
}

#[derive(Subcommand)]
enum Command {
    Check(check::Args),
    Tree(tree::Args),
    Print(print::Args),
    Tokens(tokens::Args),
    Dropped(dropped::Args),
    Same(same::Args),
    Match(match_lines::Args),
    Explain(explain::Args),
}

fn main() -> ExitCode {
    let status = match thread::Builder::new().stack_size(STACK).spawn(run) {
        Ok(work) => work.join().unwrap_or_else(|panic| resume_unwind(panic)),
        Err(why) => {
            console::complain(&format!("no thread can be made: {why}"));
            Status::Failed
        }
    };
    ExitCode::from(status as u8)
}

fn run() -> Status {
    let done = match Cli::try_parse() {
        Ok(cli) => cli.command.run(&mut Console::new(cli.color)),
        Err(usage) if usage.use_stderr() => {
            console::err(&usage.to_string());
            Ok(Status::Failed)
        }
        // --help and --version
        Err(asked) => {
            Console::new(ColorChoice::Never).write(&asked.to_string()).map(|()| Status::Good)
        }
    };
    done.unwrap_or_else(|why| {
        console::complain(&format!("standard output can't be written: {why}"));
        Status::Failed
    })
}

impl Command {
    fn run(&self, console: &mut Console) -> std::io::Result<Status> {
        match self {
            Command::Check(args) => check::run(args, console),
            Command::Tree(args) => tree::run(args, console),
            Command::Print(args) => print::run(args, console),
            Command::Tokens(args) => tokens::run(args, console),
            Command::Dropped(args) => dropped::run(args, console),
            Command::Same(args) => same::run(args, console),
            Command::Match(args) => match_lines::run(args, console),
            Command::Explain(args) => explain::run(args, console),
        }
    }
}

#[test]
fn clap_finds_no_fault() {
    use clap::CommandFactory;
    Cli::command().debug_assert();
}
