//! The lister.

use flascjuvan::{raw, tokens, Reason, Refusal, Token, TokenKind};

#[test]
fn tokens_of_a_text() {
    let token = |kind, start, end| Token { kind, start, end };
    assert_eq!(
        tokens("a = { b+ } // end"),
        Ok(vec![
            token(TokenKind::Word, 0, 1),
            token(TokenKind::Equals, 2, 3),
            token(TokenKind::OpeningBrace, 4, 5),
            token(TokenKind::Word, 6, 7),
            token(TokenKind::Plus, 7, 8),
            token(TokenKind::ClosingBrace, 9, 10),
        ])
    );
    assert_eq!(tokens(" "), Ok(vec![]));
    assert_eq!(tokens("a %"), Err(Refusal { reason: Reason::NoToken, place: 2 }));
    assert_eq!(tokens(b"a \xff"), Err(Refusal { reason: Reason::NotUtf8, place: 2 }));
    assert_eq!(raw::next_token(b"a ", 1), [0, 0, 0, 2, 2]);
    assert_eq!(raw::next_token(b"a", usize::MAX), [0, 0, 0, 1, 1]);
}

/// Each sign has the number and the name that are its own.
#[test]
fn every_kind() {
    let texts = [
        "=", "{", "}", "[", "]", "(", ")", "&", "!", "~", "|", "?", "*", "+", ",", "@", "$", "word", "#tag", "12",
        "-12", "..", "\"s\"", "^\"s\"", "'c'", "//! d", "/// d",
    ];
    assert_eq!(texts.len(), TokenKind::ALL.len());
    for (text, &kind) in texts.iter().zip(TokenKind::ALL) {
        assert_eq!(tokens(text), Ok(vec![Token { kind, start: 0, end: text.len() }]));
        let is_sign = kind.number() <= 17 || kind == TokenKind::Dots;
        assert_eq!(kind.to_string() == format!("`{text}`"), is_sign, "{kind}");
    }
    let words: Vec<_> = TokenKind::ALL[17..].iter().map(|kind| kind.to_string()).collect();
    assert_eq!(
        words,
        [
            "word",
            "tag",
            "number",
            "negative number",
            "`..`",
            "string",
            "`^` string",
            "character literal",
            "`//!` doc",
            "`///` doc"
        ]
    );
}
