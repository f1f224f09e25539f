//! A line of a text with a caret under a place, as rustc shows one.

use std::ops::Range;

use flascjuvan::line_column;

use crate::paint::Paint;
use crate::visible::{characters, visible};

/// The most characters of a line that are shown.
const WIDTH: usize = 100;

/// Three lines: an empty one, the line of the place with its number, a caret under the place.
///
/// The caret stands behind as many characters as the place's column counts: control characters and
/// bytes of no character are shown as one character each, and below a tab stands a tab.
pub fn quote(bytes: &[u8], place: usize, paint: Paint) -> String {
    let at = line_column(bytes, place);
    let (line, indent) = cut(&characters(line_of(bytes, place)), at.column - 1);
    let number = at.line.to_string();
    let beside = paint.blue(&format!("{} |", " ".repeat(number.len())));
    let shown = paint.blue(&format!("{number} |"));
    let gap = if line.is_empty() { "" } else { " " };
    format!("{beside}\n{shown}{gap}{line}\n{beside} {indent}{}\n", paint.red("^"))
}

/// The bytes of the line that a place is in, without its end.
fn line_of(bytes: &[u8], place: usize) -> &[u8] {
    let place = place.min(bytes.len());
    let start = bytes[..place].iter().rposition(|&b| b == b'\n').map_or(0, |end| end + 1);
    let end =
        bytes[place..].iter().position(|&b| b == b'\n').map_or(bytes.len(), |more| place + more);
    let line = &bytes[start..end];
    match line.strip_suffix(b"\r") {
        Some(before) if end < bytes.len() => before,
        _ => line,
    }
}

/// Which characters of a line are shown, if one of them or its end has to be.
pub fn window(line: &[char], index: usize) -> Range<usize> {
    let start = index.saturating_sub(WIDTH / 2).min(line.len().saturating_sub(WIDTH));
    start..line.len().min(start + WIDTH)
}

/// What is shown of a line around one of its characters, and what stands below it in front of the
/// caret.
fn cut(line: &[char], index: usize) -> (String, String) {
    let index = index.min(line.len());
    let Range { start, end } = window(line, index);
    let before = if start > 0 { "…" } else { "" };
    let after = if end < line.len() { "…" } else { "" };
    let shown: String =
        line[start..end].iter().map(|&c| if c == '\t' { c } else { visible(c) }).collect();
    let below: String =
        line[start..index].iter().map(|&c| if c == '\t' { c } else { ' ' }).collect();
    (format!("{before}{shown}{after}"), format!("{}{below}", " ".repeat(before.chars().count())))
}

#[cfg(test)]
mod tests {
    use super::*;

    fn quoted(text: &[u8], place: usize) -> String {
        quote(text, place, Paint::PLAIN)
    }

    #[test]
    fn the_line_and_a_caret() {
        assert_eq!(
            quoted(b"a = { b }\nc = { d % }\ne", 18),
            "  |\n2 | c = { d % }\n  |         ^\n"
        );
    }

    #[test]
    fn the_gutter_is_as_wide_as_the_number() {
        let text = "\n".repeat(99) + "ab";
        assert_eq!(quoted(text.as_bytes(), 100), "    |\n100 | ab\n    |  ^\n");
    }

    #[test]
    fn tabs_stay() {
        assert_eq!(quoted(b"\ta\t=%", 4), "  |\n1 | \ta\t=%\n  | \t \t ^\n");
    }

    #[test]
    fn characters_count_and_not_bytes() {
        assert_eq!(quoted("\"Öl 糖\"%".as_bytes(), 9), "  |\n1 | \"Öl 糖\"%\n  |       ^\n");
        assert_eq!(quoted("\"e\u{301}\"%".as_bytes(), 5), "  |\n1 | \"e\u{301}\"%\n  |     ^\n");
    }

    #[test]
    fn the_end_of_a_text() {
        assert_eq!(quoted(b"", 0), "  |\n1 |\n  | ^\n");
        assert_eq!(quoted(b"a = {", 5), "  |\n1 | a = {\n  |      ^\n");
        assert_eq!(quoted(b"a = {\n", 6), "  |\n2 |\n  | ^\n");
        assert_eq!(quoted(b"a = {\r\n", 7), "  |\n2 |\n  | ^\n");
        assert_eq!(quoted(b"a = {\r", 6), "  |\n1 | a = {␍\n  |       ^\n");
    }

    #[test]
    fn an_end_of_cr_and_lf_is_not_shown() {
        assert_eq!(quoted(b"a %\r\nb", 2), "  |\n1 | a %\n  |   ^\n");
        assert_eq!(quoted(b"a \r\r\nb", 2), "  |\n1 | a ␍\n  |   ^\n");
    }

    #[test]
    fn nothing_steers_the_terminal() {
        assert_eq!(quoted(b"\"\x1b[2J\xff\x00\" %", 9), "  |\n1 | \"␛[2J�␀\" %\n  |          ^\n");
    }

    #[test]
    fn long_lines_are_cut_around_the_place() {
        let long = format!("{}%{}", "a".repeat(500), "b".repeat(500));
        let shown =
            format!("  |\n1 | …{}%{}…\n  | {}^\n", "a".repeat(50), "b".repeat(49), " ".repeat(51));
        assert_eq!(quoted(long.as_bytes(), 500), shown);
        let shown = format!("  |\n1 | {}…\n  | ^\n", "a".repeat(100));
        assert_eq!(quoted(long.as_bytes(), 0), shown);
        let shown = format!("  |\n1 | …{}\n  | {}^\n", "b".repeat(100), " ".repeat(101));
        assert_eq!(quoted(long.as_bytes(), 1001), shown);
        let fits = "a".repeat(100);
        assert_eq!(quoted(fits.as_bytes(), 0), format!("  |\n1 | {fits}\n  | ^\n"));
    }
}
