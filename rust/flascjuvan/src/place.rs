//! Lines and columns.

use std::fmt;

/// A line and a column, both counted from 1. As text: `3:14`.
#[derive(Clone, Copy, Debug, Eq, Hash, Ord, PartialEq, PartialOrd)]
pub struct LineColumn {
    /// The line.
    pub line: usize,
    /// The character in that line.
    pub column: usize,
}

impl fmt::Display for LineColumn {
    fn fmt(&self, f: &mut fmt::Formatter<'_>) -> fmt::Result {
        write!(f, "{}:{}", self.line, self.column)
    }
}

/// The line and column of a place in a text.
///
/// The place counts bytes from 0 and may be any; past the text's end it counts as the end.
///
/// - A line ends with LF or CR LF. A CR that stands alone ends none.
/// - A column counts characters, not bytes; a tab is one, and so is CR LF. A place inside of one has its column.
/// - In a text that is not UTF-8, each byte that is part of no character counts as one character.
///
/// ```
/// use flascjuvan::line_column;
///
/// let text = "a = { \"é\" ~ b }\r\nc = { d }\n";
/// assert_eq!(line_column(text, text.find('b').unwrap()).to_string(), "1:13");
/// assert_eq!(line_column(text, text.find('d').unwrap()).to_string(), "2:7");
/// assert_eq!(line_column(text, usize::MAX).to_string(), "3:1");
/// assert_eq!(line_column(b"\xff\xfe=", 2).to_string(), "1:3");
/// ```
pub fn line_column(text: impl AsRef<[u8]>, place: usize) -> LineColumn {
    let text = text.as_ref();
    let mut all = LineColumns::of(text);
    let place = place.min(text.len());
    loop {
        let at = all.next();
        if all.end > place {
            return at;
        }
    }
}

/// The line and column of every place of a text, its end included.
pub(crate) fn line_columns(text: &[u8]) -> Vec<LineColumn> {
    let mut all = LineColumns::of(text);
    let mut found = Vec::with_capacity(text.len() + 1);
    while found.len() <= text.len() {
        let at = all.next();
        found.resize(all.end, at);
    }
    found
}

/// A walk over a text, a character at a time.
struct LineColumns<'a> {
    text: &'a [u8],
    /// The byte after the last character that was given.
    end: usize,
    /// Where the next one stands.
    at: LineColumn,
}

impl LineColumns<'_> {
    fn of(text: &[u8]) -> LineColumns<'_> {
        LineColumns { text, end: 0, at: LineColumn { line: 1, column: 1 } }
    }

    /// Where the next character stands; the text's end counts as one of a byte.
    fn next(&mut self) -> LineColumn {
        let at = self.at;
        let rest = &self.text[self.end.min(self.text.len())..];
        self.end += width(rest);
        if rest.starts_with(b"\n") || rest.starts_with(b"\r\n") {
            self.at = LineColumn { line: at.line + 1, column: 1 };
        } else {
            self.at.column += 1;
        }
        at
    }
}

/// How many bytes the first character has; 1 where none stands.
fn width(text: &[u8]) -> usize {
    let width = match text.first() {
        Some(b'\r') if text.get(1) == Some(&b'\n') => 2,
        Some(0xc2..=0xdf) => 2,
        Some(0xe0..=0xef) => 3,
        Some(0xf0..=0xf4) => 4,
        _ => 1,
    };
    match text.get(..width).map(std::str::from_utf8) {
        Some(Ok(_)) => width,
        _ => 1,
    }
}

#[cfg(test)]
mod tests {
    use super::*;

    /// The slow way: everything in front is counted again for each place.
    fn counted(text: &[u8], place: usize) -> LineColumn {
        let front = &text[..place];
        let line_start = front.iter().rposition(|&b| b == b'\n').map_or(0, |lf| lf + 1);
        let inside = match text.get(place) {
            Some(b'\n') if front.ends_with(b"\r") => 1,
            Some(0x80..=0xbf) => {
                // as far back as a character starts that reaches over this place
                (1..=3.min(place - line_start))
                    .find(|back| {
                        (back + 1..=4).any(|len| {
                            let part = text.get(place - back..place - back + len);
                            part.and_then(|part| std::str::from_utf8(part).ok()).map_or(0, |s| s.chars().count()) == 1
                        })
                    })
                    .unwrap_or(0)
            }
            _ => 0,
        };
        let mut line = &text[line_start..place - inside];
        let mut column = 1;
        loop {
            match std::str::from_utf8(line) {
                Ok(whole) => {
                    column += whole.chars().count();
                    break;
                }
                Err(why) => {
                    let good = std::str::from_utf8(&line[..why.valid_up_to()]).expect("the good part");
                    column += good.chars().count() + 1;
                    line = &line[why.valid_up_to() + 1..];
                }
            }
        }
        LineColumn { line: 1 + front.iter().filter(|&&b| b == b'\n').count(), column }
    }

    #[test]
    fn every_place_of_odd_texts() {
        for text in [
            &b""[..],
            b"\n",
            b"\r\n",
            b"\r",
            b"\r\r\n\n\r",
            b"a\tb\r\nc\n\nd",
            "é€😀\r\n\u{feff}é".as_bytes(),
            b"\xff\xfe\n\xe2\x82x\xf0\x9f\x98\n\x80\x80\xc3",
            b"\xed\xa0\x80\xf4\x90\x80\x80\xc0\x80",
        ] {
            let all = line_columns(text);
            assert_eq!(all.len(), text.len() + 1);
            for (place, &found) in all.iter().enumerate() {
                assert_eq!(found, counted(text, place), "{text:?} at {place}");
                assert_eq!(line_column(text, place), found, "{text:?} at {place}");
            }
            assert_eq!(line_column(text, text.len() + 1), all[text.len()]);
        }
    }
}
