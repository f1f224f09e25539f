//! Lines and columns of many places.

use flascjuvan::{line_column, LineColumn, Token};

/// Where each token of a text starts. Each is counted from the one before, so that long texts don't
/// take long.
pub fn starts<'a>(text: &'a [u8], tokens: &'a [Token]) -> impl Iterator<Item = LineColumn> + 'a {
    let mut last = (0, LineColumn { line: 1, column: 1 });
    tokens.iter().map(move |token| {
        let (from, mut at) = last;
        let more = line_column(&text[from..token.start], token.start - from);
        if more.line == 1 {
            at.column += more.column - 1;
        } else {
            at = LineColumn { line: at.line + more.line - 1, column: more.column };
        }
        last = (token.start, at);
        at
    })
}

#[cfg(test)]
mod tests {
    use super::*;

    #[test]
    fn each_is_where_it_is_counted_from_the_start() {
        let text = "//! é\r\na = {\t\"Ö\n\" ~ /* ü\r\n */ b }\n\n/// ß\r\nc={d}".as_bytes();
        let tokens = flascjuvan::tokens(text).expect("all are tokens");
        let counted: Vec<_> = tokens.iter().map(|token| line_column(text, token.start)).collect();
        assert_eq!(starts(text, &tokens).collect::<Vec<_>>(), counted);
    }
}
