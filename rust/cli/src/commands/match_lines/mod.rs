//! `match`: a rule run over lines.

mod blocks;
mod unready;

use std::fmt;
use std::io;
use std::path::PathBuf;

use flascjuvan::{read_edition, Matcher, Reason, Refusal, Run};

use crate::console::{Console, Status};
use crate::input::{unreadable, By, Plain, Reader};
use crate::paint::Paint;
use crate::quote::window;
use crate::visible::{characters, visible};
use crate::{refusal, STATUSES};

use blocks::Blocks;

/// Run a rule over lines, and mark what it takes of each
///
/// Each line is shown with its number, and below it marks under what the rule takes from the
/// line's start, the bytes that are, and the steps that it took: each visit to a node is one.
/// `no match` is told apart from 0 bytes. Of a line of over 100 characters those around the
/// end of the match are shown. A last line sums up.
///
/// Choice is ordered, a repetition takes all it can and gives nothing back, and nothing is
/// implicit: no blanks are skipped, marks mean nothing, and of pest's own rules there is ANY
/// alone. LF or CR LF ends a line.
#[derive(clap::Args)]
#[command(after_help = STATUSES, verbatim_doc_comment)]
pub struct Args {
    #[command(flatten)]
    plain: Plain,
    #[command(flatten)]
    by: By,
    /// The most steps that a line may take
    #[arg(long, value_name = "N", default_value_t = 1_000_000)]
    steps: u64,
    /// The layout; `-` is standard input
    #[arg(value_name = "LAYOUT")]
    layout: PathBuf,
    /// The name of the rule
    #[arg(value_name = "RULE")]
    rule: String,
    /// The lines; without it, or if it is `-`, those of standard input
    #[arg(value_name = "FILE", default_value = "-", hide_default_value = true)]
    lines: PathBuf,
}

pub fn run(args: &Args, console: &mut Console) -> io::Result<Status> {
    let mut reader = Reader::default();
    let (layout, lines) = match (reader.read(&args.layout), reader.open(&args.lines)) {
        (Some(layout), Some(lines)) => (layout, lines),
        _ => return Ok(Status::Failed),
    };
    args.by.say(console)?;
    let grammar = match read_edition(&layout.bytes, args.plain.level(), args.by.edition()) {
        Ok(grammar) => grammar,
        Err(refused) => {
            console.refuse(&layout, refused);
            return Ok(Status::Bad);
        }
    };
    let matcher = match grammar.matcher(&args.rule) {
        Ok(matcher) => matcher,
        Err(refused) => {
            console.say(|paint| unready::told(&layout, &grammar, &args.rule, refused, paint));
            return Ok(Status::Bad);
        }
    };
    let mut blocks = Blocks::of(lines.from);
    let mut seen = Seen::default();
    // a stream may have no end, so none is looked for when nobody reads what is found
    while !console.is_closed() {
        match blocks.next() {
            Ok(Some(block)) => {
                let shown = block_shown(matcher, block, args.steps, &mut seen, console.paint);
                console.write(&shown)?;
            }
            Ok(None) => {
                console.write(&format!("{seen}\n"))?;
                break;
            }
            Err(why) => {
                unreadable(&lines.name, why);
                return Ok(Status::Failed);
            }
        }
    }
    Ok(if seen.refused == 0 { Status::Good } else { Status::Bad })
}

/// How the lines went so far.
#[derive(Default)]
struct Seen {
    lines: u64,
    whole: u64,
    refused: u64,
    none: u64,
}

impl fmt::Display for Seen {
    fn fmt(&self, f: &mut fmt::Formatter<'_>) -> fmt::Result {
        let Seen { lines, whole, refused, none } = *self;
        let part = lines - whole - refused - none;
        let all = counted(lines, "line");
        write!(
            f,
            "{all}: {whole} matched whole, {part} in part, {none} not at all, {refused} refused"
        )
    }
}

/// `1 line`, `2 lines`
fn counted(count: u64, what: &str) -> String {
    format!("{count} {what}{}", if count == 1 { "" } else { "s" })
}

/// The lines of a block, each with its marks.
fn block_shown(
    matcher: Matcher<'_>,
    block: &[u8],
    steps: u64,
    seen: &mut Seen,
    paint: Paint,
) -> String {
    let mut shown = String::new();
    for found in matcher.lines(block, steps) {
        let line = &block[found.span.start..found.span.end];
        seen.lines += 1;
        match found.run {
            Ok(Run { length: Some(length), .. }) => seen.whole += u64::from(length == line.len()),
            Ok(Run { length: None, .. }) => seen.none += 1,
            Err(_) => seen.refused += 1,
        }
        shown += &line_shown(seen.lines, line, found.run, paint);
    }
    shown
}

/// A line, and below it how it was run.
fn line_shown(number: u64, line: &[u8], run: Result<Run, Refusal>, paint: Paint) -> String {
    let (line, below) = marked(line, run, paint);
    let number = format!("{number:4}");
    let beside = paint.blue(&format!("{} |", " ".repeat(number.len())));
    let gap = if line.is_empty() { "" } else { " " };
    format!("{}{gap}{line}\n{beside} {below}\n", paint.blue(&format!("{number} |")))
}

/// What is shown of a line and what stands below it. Every character is shown as one, tabs too, so
/// that the marks stand below what they mean.
fn marked(line: &[u8], run: Result<Run, Refusal>, paint: Paint) -> (String, String) {
    let all = characters(line);
    // the bytes in front of the place that the line is shown around
    let front = match run {
        Ok(run) => run.length.unwrap_or(0),
        Err(refused) => refused.place,
    };
    let index = characters(&line[..front]).len();
    let cut = window(&all, index);
    let before = if cut.start > 0 { "…" } else { "" };
    let after = if cut.end < all.len() { "…" } else { "" };
    let seen = |part: &[char]| part.iter().map(|&c| visible(c)).collect::<String>();
    let (left, right) =
        (format!("{before}{}", seen(&all[cut.start..index])), seen(&all[index..cut.end]) + after);
    let width = left.chars().count();
    match run {
        Ok(Run { length: None, steps }) => {
            (left + &right, format!("{}, {}", paint.bold("no match"), counted(steps, "step")))
        }
        Ok(Run { length: Some(length), steps }) => {
            let said = format!(
                "{length} of {}, {}",
                counted(line.len() as u64, "byte"),
                counted(steps, "step")
            );
            match width {
                0 => (right, said),
                _ => (
                    paint.green(&left) + &right,
                    format!("{} {said}", paint.green(&"^".repeat(width))),
                ),
            }
        }
        Err(Refusal { reason, .. }) => {
            let said = format!("{} {reason}", refusal::number(reason, paint));
            let below = match reason {
                Reason::LineNotUtf8 => format!("{}{} {said}", " ".repeat(width), paint.red("^")),
                _ => said,
            };
            (left + &right, below)
        }
    }
}

#[cfg(test)]
mod tests {
    use super::*;

    fn shown(line: &[u8], length: usize) -> String {
        line_shown(1, line, Ok(Run { length: Some(length), steps: 7 }), Paint::PLAIN)
    }

    #[test]
    fn marks_stand_below_what_is_taken() {
        assert_eq!(shown(b"12;340", 3), "   1 | 12;340\n     | ^^^ 3 of 6 bytes, 7 steps\n");
        assert_eq!(
            shown("µm\t\x1b[2Jx".as_bytes(), 4),
            "   1 | µm␉␛[2Jx\n     | ^^^ 4 of 9 bytes, 7 steps\n"
        );
        assert_eq!(shown(b"a", 0), "   1 | a\n     | 0 of 1 byte, 7 steps\n");
        assert_eq!(shown(b"", 0), "   1 |\n     | 0 of 0 bytes, 7 steps\n");
    }

    #[test]
    fn none_and_refusals() {
        let none = Ok(Run { length: None, steps: 1 });
        let told = line_shown(12345, b"ab", none, Paint::PLAIN);
        assert_eq!(told, "12345 | ab\n      | no match, 1 step\n");
        let refused = Err(Refusal { reason: Reason::LineNotUtf8, place: 3 });
        let told = line_shown(2, b"a\xc3\xa9\xff\xffb", refused, Paint::PLAIN);
        assert_eq!(told, "   2 | aé��b\n     |   ^ refused 33: the line is not UTF-8\n");
    }

    #[test]
    fn long_lines_are_cut_around_the_end_of_the_match() {
        let line = [vec![b'a'; 300], vec![b'b'; 300]].concat();
        let (left, right) = ("a".repeat(50), "b".repeat(50));
        assert_eq!(
            shown(&line, 300),
            format!(
                "   1 | …{left}{right}…\n     | {} 300 of 600 bytes, 7 steps\n",
                "^".repeat(51)
            )
        );
        assert_eq!(
            shown(&line, 0),
            format!("   1 | {left}{left}…\n     | 0 of 600 bytes, 7 steps\n")
        );
        assert_eq!(
            shown(&line, 600),
            format!(
                "   1 | …{right}{right}\n     | {} 600 of 600 bytes, 7 steps\n",
                "^".repeat(101)
            )
        );
    }

    #[test]
    fn sums() {
        let seen = Seen { lines: 1, whole: 1, ..Seen::default() };
        assert_eq!(seen.to_string(), "1 line: 1 matched whole, 0 in part, 0 not at all, 0 refused");
        let seen = Seen { lines: 12, whole: 5, none: 3, refused: 2 };
        assert_eq!(
            seen.to_string(),
            "12 lines: 5 matched whole, 2 in part, 3 not at all, 2 refused"
        );
    }
}
