//! A text for each number that a reading can give, with its place; lines and columns; numbers and reasons.

use flascjuvan::{line_column, print, raw, read, tokens, Expr, Grammar, Level, LineColumn, Reason, Refusal};

use crate::rule;

fn refused(text: impl AsRef<[u8]>, level: Level) -> (Reason, usize) {
    let Refusal { reason, place } = read(text, level).expect_err("refused");
    (reason, place)
}

#[test]
fn every_number_of_a_reading() {
    let t = Level::Tagged;
    assert_eq!(refused("a".repeat(65537), t), (Reason::TooLong, 0));
    assert_eq!(refused(b"a = { \"\xff\" }", t), (Reason::NotUtf8, 7));
    assert_eq!(refused("a = { b % }", t), (Reason::NoToken, 8));
    assert_eq!(refused("a = { b ~ }", t), (Reason::NotAllowed, 10));
    assert_eq!(refused("", t), (Reason::NotAllowed, 0));
    assert_eq!(refused("a = { b   ", t), (Reason::NotAllowed, 10));
    assert_eq!(refused("a = { b{4294967296} }", t), (Reason::Over, 8));
    assert_eq!(refused("a = { b{,0} }", t), (Reason::Zero, 9));
    assert_eq!(refused("a = { PEEK[2147483648..] }", t), (Reason::PeekRange, 11));
    assert_eq!(refused("a = { \"x\\u{d800}\" }", t), (Reason::NotScalar, 8));
    let deep = format!("a = {{ {}b{} }}", "(".repeat(1025), ")".repeat(1025));
    assert_eq!(refused(deep, t), (Reason::TooDeep, 6 + 1024));
    assert_eq!(refused(format!("a = {{ {}b }}", "!".repeat(4096)), t), (Reason::NodesRoom, 0));
    assert_eq!(refused("a={b}".repeat(1025), t), (Reason::RulesRoom, 0));
    assert_eq!(refused("a = { PUSH_LITERAL(\"x\") }", Level::Plain), (Reason::NotPlain, 6));
}

/// 3 in a literal: at the bad escape that is met first, and otherwise at the literal's first byte.
#[test]
fn bad_escapes_and_bad_literals() {
    let at_backslash = [
        (r"r={'\q'}", 4),
        ("r={\"\\", 4),
        ("r={\"\\x4", 4),
        (r#"r={^"a\q"}"#, 6),
        (r"r={'\", 4),
        (r#"r={"a\qb\w"}"#, 5),
        (r#"r={"ab\x4g cd"} ""#, 6),
        ("r={\"a\nb\\\nc\"}", 7),
        (r#"r = { "\u{1}" }"#, 7),
        (r#"r={"µ\q"}"#, 6),
    ];
    let at_first_byte =
        [(r"r={'a\q'}", 3), (r#"r={"abc"#, 3), (r"r={'\'}", 3), (r"r={'ab'}", 3), (r#"r={^"\u{d800}"#, 3)];
    for (text, place) in at_backslash {
        assert_eq!(text.as_bytes()[place], b'\\', "{text}");
        assert_eq!(refused(text, Level::Tagged), (Reason::NoToken, place), "{text}");
        assert_eq!(refused(text, Level::Plain), (Reason::NoToken, place), "{text}");
        assert_eq!(tokens(text), Err(Refusal { reason: Reason::NoToken, place }), "{text}");
    }
    for (text, place) in at_first_byte {
        assert_eq!(refused(text, Level::Tagged), (Reason::NoToken, place), "{text}");
        assert_eq!(tokens(text), Err(Refusal { reason: Reason::NoToken, place }), "{text}");
    }
    let long = format!("a = {{ \"{}\\d\" }}", "mm;\n".repeat(40));
    let refusal = read(&long, Level::Tagged).unwrap_err();
    assert_eq!(refusal.line_column(&long), Some(LineColumn { line: 41, column: 1 }));
}

/// Numbers that only a caller who lends too little can meet.
#[test]
fn too_little_room() {
    let text = b"ab = { cd ~ ef }";
    let mut nodes = [7; 21];
    let mut rules = [7; 6];
    let mut store = [7; 6];
    assert_eq!(raw::read(text, true, &mut nodes[..20], &mut rules, &mut store), [10, 0, 0, 0, 0]);
    assert_eq!(raw::read(text, true, &mut nodes, &mut rules[..5], &mut store), [12, 0, 0, 0, 0]);
    assert_eq!(raw::read(text, true, &mut nodes, &mut rules, &mut store[..5]), [11, 0, 0, 0, 0]);
    assert_eq!((nodes, rules, store), ([7; 21], [7; 6], [7; 6]), "a refusal changes nothing");
    assert_eq!(raw::read(text, true, &mut nodes, &mut rules, &mut store), [0, 0, 3, 1, 6]);
    let mut out = [7; 19];
    assert_eq!(raw::print(&nodes, &rules, &store, &mut out[..18]), [23, 0, 0]);
    assert_eq!(out, [7; 19], "a refusal changes nothing");
    assert_eq!(raw::print(&nodes, &rules, &store, &mut out), [0, 0, 19]);
    assert_eq!(&out, b"ab = { (cd ~ ef) }\n");
    assert_eq!(raw::print(&nodes[..17], &rules, &store, &mut out), [20, 0, 0]);
    assert_eq!(raw::print(&[], &[], &[], &mut []), [0, 0, 0]);
    assert_eq!(raw::read(b"", true, &mut [], &mut [], &mut []), [4, 0, 0, 0, 0]);
}

#[test]
fn reasons_by_number() {
    let numbers: Vec<_> = Reason::ALL.iter().map(|reason| reason.number()).collect();
    assert_eq!(numbers, (1..=15).chain(20..=23).chain(30..=34).collect::<Vec<_>>());
    for number in (0..100).chain([u64::MAX, 1 << 32 | 1]) {
        let reason = Reason::ALL.iter().copied().find(|reason| reason.number() == number);
        assert_eq!(Reason::from_number(number), reason);
    }
    for (i, reason) in Reason::ALL.iter().enumerate() {
        assert_eq!(reason.to_string(), reason.meaning());
        assert!(Reason::ALL[..i].iter().all(|other| other.meaning() != reason.meaning()), "{reason}");
    }
}

#[test]
fn a_refusal_is_an_error_with_number_place_and_meaning() {
    let refusal = read("a = { b{0} }", Level::Tagged).expect_err("refused");
    assert_eq!((refusal.number(), refusal.place, refusal.meaning()), (6, 8, "a repeat of exactly 0, or of at most 0"));
    let error: Box<dyn std::error::Error + Send + Sync> = refusal.into();
    assert_eq!(error.to_string(), "refused 6 at 8");
    assert_eq!(format!("{refusal:?}"), "Refusal { reason: Zero, place: 8 }");
}

#[test]
fn lines_and_columns_of_refusals() {
    let at = |text: &[u8]| {
        let refusal = read(text, Level::Tagged).expect_err("refused");
        refusal.line_column(text).expect("a place of the text").to_string()
    };
    assert_eq!(at(b"a = { b }\n\nc = { d % }"), "3:9");
    assert_eq!(at("a = { \"äöü\" % }".as_bytes()), "1:13");
    assert_eq!(at(b"a = {\r\n\tb ~\r\n"), "3:1");
    assert_eq!(at(b"a = { b }\nc = { \"\xc3\" }"), "2:8");
    assert_eq!(at(b""), "1:1");
    assert_eq!(at(&[b'a'; 65537]), "1:1");

    for &reason in Reason::ALL {
        let found = Refusal { reason, place: 3 }.line_column("a\nbc");
        let has_a_place = reason.number() < 20 || reason.number() == 33;
        let expected = has_a_place.then_some(LineColumn { line: 2, column: 2 });
        assert_eq!(found, expected, "{reason}");
    }
    let refusal = print(&Grammar::from(rule(Expr::Ident(String::new())))).expect_err("refused");
    assert_eq!((refusal.number(), refusal.line_column("a")), (21, None));
}

#[test]
fn any_place_has_a_line_and_a_column() {
    let text = "é\r\n\u{1f600}\tx";
    let found: Vec<_> = (0..=text.len() + 1).map(|place| line_column(text, place).to_string()).collect();
    assert_eq!(found, ["1:1", "1:1", "1:2", "1:2", "2:1", "2:1", "2:1", "2:1", "2:2", "2:3", "2:4", "2:4"]);
    assert!(LineColumn { line: 2, column: 1 } > LineColumn { line: 1, column: 9 });
}
