//! Rules run over lines: lengths, steps, every refusal with its place, lines of a text.

use flascjuvan::{raw, Expr, Grammar, Line, Reason, Refusal, Rule, Run, Span};

use crate::{rule, tagged};

/// How the rule `r` runs: the length or `none` and the steps, or the refusal.
fn ran(layout: &str, line: impl AsRef<[u8]>, allowance: u64) -> String {
    said(tagged(layout).match_line("r", line, allowance))
}

fn said(run: Result<Run, Refusal>) -> String {
    run.map_or_else(|refusal| refusal.to_string(), |run| run.to_string())
}

#[test]
fn worked_examples() {
    for (layout, line, allowance, answer) in [
        ("r={\"\"{5}}", "", 6, "0 6"),
        ("r={\"\"{5}}", "", 5, "refused 34 at 0"),
        ("r={\"a\"{2,}}", "a", 99, "none 3"),
        ("r={\"a\"{,2}}", "aaa", 99, "2 3"),
        ("r={\"a\"{3}}", "aaaa", 99, "3 4"),
        ("r={\"a\"?}", "b", 99, "0 2"),
        ("r={(\"a\"|\"ab\")~\"c\"}", "abc", 99, "none 4"),
        ("r={'a'..'z'*}", "ab1", 99, "2 4"),
        ("r={(\"a\"~\"b\")*}", "aba", 99, "2 7"),
        ("r={!\"a\"~ANY}", "b", 99, "1 4"),
        ("r={(!\";\"~ANY)*}", "a;b", 99, "1 8"),
        ("r={!\";\"~ANY*}", "a;b", 99, "3 8"),
        ("r={\"a\"~r|\"\"}", "aa", 99, "2 12"),
        ("r={s+} s={^\"Ab\"}", "aBABx", 99, "4 7"),
        ("r={ANY}", "µm", 99, "2 1"),
        ("r={(\"a\"?)*}", "b", 0, "refused 34 at 0"),
        ("r={(\"a\"?)*}", "b", 1_000_000, "refused 34 at 0"),
        ("r={a{3,2}} a={b}", "a", 9, "refused 31 at 1"),
    ] {
        assert_eq!(ran(layout, line, allowance), answer, "{layout} over {line:?}");
    }
}

/// The 1,024th visit inside one another is made, and the 1,025th is not.
#[test]
fn the_deepest_runs() {
    let nots = |count| format!("r={{{}\"a\"}}", "!".repeat(count));
    assert_eq!(ran(&nots(1023), "a", 1_000_000), "none 1024");
    assert_eq!(ran(&nots(1024), "a", 1_000_000), "refused 34 at 0");
    let line = |count| "a".repeat(count) + "b";
    assert_eq!(ran("r={\"a\"~r|\"b\"}", line(340), 1_000_000), "341 1364");
    assert_eq!(ran("r={\"a\"~r|\"b\"}", line(341), 1_000_000), "refused 34 at 0");
}

#[test]
fn an_allowance_equal_to_the_steps_is_enough() {
    for (layout, line, answer) in
        [("r={(!\";\"~ANY)*}", "a;b", "1 8"), ("r={\"a\"~r|\"\"}", "aa", "2 12"), ("r={\"a\"{2,}}", "a", "none 3")]
    {
        let steps = answer.split(' ').nth(1).expect("steps").parse().expect("a number");
        for allowance in 0..steps {
            assert_eq!(ran(layout, line, allowance), "refused 34 at 0", "{layout} in {allowance}");
        }
        for allowance in [steps, steps + 1, u64::MAX] {
            assert_eq!(ran(layout, line, allowance), answer, "{layout} in {allowance}");
        }
    }
}

#[test]
fn marks_and_blanks_mean_nothing() {
    for mark in ["", "_", "@", "$", "!"] {
        let layout = format!("r = {mark}{{ \"a\" ~ \"b\" }} WHITESPACE = _{{ \" \" }}");
        assert_eq!(ran(&layout, "ab", 9), "2 3");
        assert_eq!(ran(&layout, "a b", 9), "none 3");
    }
}

#[test]
fn case_is_ignored_in_ascii_only() {
    assert_eq!(ran("r={^\"k\"}", "K", 9), "1 1");
    assert_eq!(ran("r={^\"k\"}", "\u{212a}", 9), "none 1");
    assert_eq!(ran("r={^\"é\"}", "É", 9), "none 1");
    assert_eq!(ran("r={^\"é\"}", "é", 9), "2 1");
}

#[test]
fn a_rule_is_named_by_its_whole_name() {
    let layout = tagged("a = { \"1\" } ab = { \"2\" } b = { a | ab }");
    assert_eq!(said(layout.match_line("a", "1", 9)), "1 1");
    assert_eq!(said(layout.match_line("ab", "2", 9)), "1 1");
    assert_eq!(said(layout.match_line("b", "2", 9)), "1 5");
    for name in ["", "A", "abb", "ANY", "a\0", "é"] {
        assert_eq!(said(layout.match_line(name, "1", 9)), "refused 32 at 0", "{name:?}");
    }
}

/// The same refusal, from each of the three ways to a run.
fn refused(grammar: &Grammar, name: &str) -> (Reason, usize) {
    let refusal = grammar.match_line(name, "a", 99).expect_err("refused");
    assert_eq!(grammar.matcher(name).expect_err("refused"), refusal);
    assert_eq!(grammar.match_lines(name, "a", 99).expect_err("refused"), refusal);
    assert_eq!(grammar.match_lines(name, "", 0).expect_err("refused"), refusal, "also without lines");
    (refusal.reason, refusal.place)
}

/// What printing refuses is 30, whatever else is wrong with it and whatever the place was.
#[test]
fn false_tables() {
    let deep = (0..4096).fold(Expr::Str("a".to_owned()), |expr, _| Expr::NegPred(Box::new(expr)));
    let no_word = Expr::Push(Box::new(Expr::Ident("no word".to_owned())));
    let named = |name: &str| {
        let mut rules = rule(Expr::Str("a".to_owned()));
        rules.extend([Rule { name: name.to_owned(), ..rules[0].clone() }]);
        rules
    };
    for rules in [rule(deep), rule(no_word), named("no word"), named("PUSHED")] {
        let grammar = Grammar::from(rules);
        assert!(flascjuvan::print(&grammar).is_err());
        for name in ["r", "nobody"] {
            assert_eq!(refused(&grammar, name), (Reason::FalseTables, 0));
        }
    }
}

/// Each kind that can't be run, reached or not, and the first of them; also if no rule is named.
#[test]
fn unfit_nodes() {
    for (body, index) in [
        ("PEEK[..]", 0),
        ("PEEK[0..]", 0),
        ("PUSH(\"b\")", 1),
        ("PUSH_LITERAL(\"b\")", 0),
        ("#t = \"b\"", 1),
        ("\"b\"{3, 2}", 1),
        ("\"b\" ~ PEEK[..] ~ PUSH_LITERAL(\"b\")", 1),
    ] {
        let unfit = tagged(&format!("s = {{ {body} }} r = {{ \"a\" }}"));
        let hidden = tagged(&format!("r = {{ \"a\" }} s = {{ {body} }}"));
        for name in ["r", "s", "nobody"] {
            assert_eq!(refused(&unfit, name), (Reason::Unfit, index), "{body}");
            assert_eq!(refused(&hidden, name), (Reason::Unfit, 1 + index), "{body}");
        }
    }
    let text = "r = { \"a\" }\ns = { \"b\" ~ #t = \"c\" }";
    let grammar = tagged(text);
    let refusal = grammar.match_line("r", "a", 99).expect_err("refused");
    assert_eq!((refusal.number(), refusal.place, refusal.line_column(text)), (31, 3, None));
    assert_eq!(grammar.node_span(refusal.place).expect("a node").line_column(text).to_string(), "2:13");
    assert_eq!([4, 5, usize::MAX].map(|index| grammar.node_span(index).is_some()), [true, false, false]);
}

#[test]
fn counts_of_nothing_are_run() {
    let body = |expr| Grammar::from(rule(expr));
    let a = || Box::new(Expr::Str("a".to_owned()));
    for expr in [Expr::RepExact(a(), 0), Expr::RepMax(a(), 0), Expr::RepMinMax(a(), 0, 0)] {
        assert_eq!(said(body(expr).match_line("r", "a", 9)), "0 1");
    }
    assert_eq!(said(body(Expr::RepMinMax(a(), 1, 0)).match_line("r", "a", 9)), "refused 31 at 1");
}

#[test]
fn names_without_a_meaning() {
    for text in [
        "r = { s }",
        "r = { \"a\" } s = { t }",
        "r = { \"a\" ~ ASCII_DIGIT }",
        "r = { SOI ~ \"a\" }",
        "r = { PEEK }",
        "r = { any }",
        "r = { \"a\" } ANY = { \"b\" }",
        "r = { \"a\" } r = { \"a\" }",
        "r = { \"a\" } s = { \"b\" } s = { \"b\" }",
    ] {
        assert_eq!(refused(&tagged(text), "r"), (Reason::NoRule, 0), "{text}");
    }
    assert_eq!(refused(&tagged("r = { \"a\" }"), "nobody"), (Reason::NoRule, 0));
    assert_eq!(refused(&Grammar::default(), "r"), (Reason::NoRule, 0));
}

#[test]
fn lines_that_are_not_utf8() {
    for (line, place) in [
        (&b"a\xc3\x28"[..], 1),
        (b"\xff", 0),
        (b"aa\xe2\x82", 2),
        (b"\xc3\xa9\xc3", 2),
        (b"\xed\xa0\x80", 0),
        (b"aaaaaaaaaaaa\xc0\x80", 12),
    ] {
        // also with no step allowed, and past what the rule takes
        for allowance in [0, 99] {
            let refusal = tagged("r={\"a\"}").match_line("r", line, allowance).expect_err("refused");
            assert_eq!((refusal.number(), refusal.place), (33, place));
            let column = String::from_utf8_lossy(&line[..place]).chars().count() + 1;
            assert_eq!(refusal.line_column(line).expect("a place of the line").to_string(), format!("1:{column}"));
        }
    }
    // a line's own refusals come after those of tables and names
    assert_eq!(ran("r={s}", b"\xff", 0), "refused 32 at 0");
}

#[test]
fn endless_runs() {
    for body in ["\"\"*", "(\"a\"*)+", "(&\"a\")*", "(!\"b\"){1,}", "r", "r ~ \"a\"", "!r"] {
        for allowance in [0, 1, 10_000] {
            assert_eq!(ran(&format!("r = {{ {body} }}"), "a", allowance), "refused 34 at 0", "{body}");
        }
    }
}

/// Any length of a line, and any byte in it: LF and CR are none but bytes to it.
#[test]
fn long_lines() {
    let line = "µ".repeat(200_000);
    assert_eq!(ran("r = { ANY* }", &line, u64::MAX), "400000 200002");
    assert_eq!(ran("r = { \"a\\n\\r\\nb\" }", "a\n\r\nb", 1), "5 1");
    assert_eq!(ran("r = { ANY{3} }", "\0\n\u{10ffff}", 4), "6 4");
}

/// The lines of a text without their ends, the simple way.
fn split(text: &[u8]) -> Vec<Span> {
    let mut start = 0;
    let with_ends = text.split_inclusive(|&b| b == b'\n');
    with_ends
        .map(|line| {
            let bare = line.strip_suffix(b"\r\n").or_else(|| line.strip_suffix(b"\n")).unwrap_or(line);
            let span = Span { start, end: start + bare.len() };
            start += line.len();
            span
        })
        .collect()
}

#[test]
fn lines_of_a_text() {
    let grammar = tagged("r = { \"a\"* }");
    let found = |text: &str| {
        let lines = grammar.match_lines("r", text, 99).expect("a good grammar");
        lines.map(|line| format!("{} {}", line.span, said(line.run))).collect::<Vec<_>>()
    };
    assert_eq!(found(""), [""; 0]);
    assert_eq!(found("a"), ["0..1 1 3"]);
    assert_eq!(found("a\n"), ["0..1 1 3"]);
    assert_eq!(found("\n"), ["0..0 0 2"]);
    assert_eq!(found("aa\r\n\r\nab"), ["0..2 2 4", "4..4 0 2", "6..8 1 3"]);
    assert_eq!(found("a\r"), ["0..2 1 3"], "a CR alone is a byte of its line");
    assert_eq!(found("\r\r\n\rb\n"), ["0..1 0 2", "3..5 0 2"]);
}

#[test]
fn what_matched_of_a_line() {
    let text = b"xx\n12;3\r\n\xff\n;\n123;\n4;";
    let grammar = tagged("r = { '0'..'9'+ ~ \";\" }");
    let lines: Vec<Line> = grammar.match_lines("r", text, 6).expect("a good grammar").collect();
    let matched: Vec<_> = lines.iter().map(|line| line.matched().map(|span| (span.start, span.end))).collect();
    assert_eq!(matched, [None, Some((3, 6)), None, None, None, Some((18, 20))]);
    let runs: Vec<_> = lines.iter().map(|line| said(line.run)).collect();
    assert_eq!(runs, ["none 3", "3 6", "refused 33 at 0", "none 3", "refused 34 at 0", "2 5"]);
}

/// Texts of random bytes: every line is there, and is run as it would be by itself.
#[test]
fn each_line_is_run_as_if_alone() {
    let grammar = tagged("r = { (!\";\" ~ ANY)+ ~ (\";\" ~ r)? }");
    let matcher = grammar.matcher("r").expect("a good grammar");
    let mut state = 0x9e37_79b9_7f4a_7c15_u64;
    let mut random = move |below: usize| {
        state ^= state << 13;
        state ^= state >> 7;
        state ^= state << 17;
        (state % below as u64) as usize
    };
    let (mut matched, mut none, mut refused) = (0, 0, 0);
    let pieces: [&[u8]; 9] = [b"a", b";", b"\n", b"\r", b"\r\n", "é".as_bytes(), "😀".as_bytes(), b"\xc3", b"\n\n"];
    for turn in 0..20_000 {
        let text: Vec<u8> = (0..random(30)).flat_map(|_| pieces[random(pieces.len())]).copied().collect();
        let allowance = [1_000, 20][turn % 2];
        let lines: Vec<Line> = matcher.lines(&text, allowance).collect();
        let spans: Vec<_> = lines.iter().map(|line| line.span).collect();
        assert_eq!(spans, split(&text), "{text:?}");
        for Line { span, run } in lines {
            let line = &text[span.start..span.end];
            assert_eq!(run, matcher.line(line, allowance), "{text:?} {span}");
            assert_eq!(run, grammar.match_line("r", line, allowance), "{text:?} {span}");
            match run {
                Ok(Run { length: Some(length), .. }) => {
                    assert!(std::str::from_utf8(&line[..length]).is_ok(), "it ends between characters");
                    matched += 1;
                }
                Ok(_) => none += 1,
                Err(refusal) => {
                    let bad = std::str::from_utf8(line).err().map(|bad| bad.valid_up_to());
                    let (reason, place) = bad.map_or((Reason::Overrun, 0), |place| (Reason::LineNotUtf8, place));
                    assert_eq!(refusal, Refusal { reason, place });
                    refused += 1;
                }
            }
        }
    }
    assert!(matched > 10_000 && none > 10_000 && refused > 10_000, "{matched} {none} {refused}");
}

/// More lines than one call has records for.
#[test]
fn many_lines() {
    let grammar = tagged("r = { \"a\"* }");
    for count in [4095, 4096, 4097, 8192, 20_000] {
        for end in ["", "\n", "\r\n"] {
            let mut text = String::new();
            let mut expected = Vec::new();
            for i in 0..count {
                let length = i % 3;
                let span = Span { start: text.len(), end: text.len() + length };
                expected.push(Line { span, run: Ok(Run { length: Some(length), steps: length as u64 + 2 }) });
                text += &"a".repeat(length);
                text += if i + 1 < count { "\n" } else { end };
            }
            // a last line without bytes and end is none
            if end.is_empty() && text.ends_with('\n') {
                expected.pop();
            }
            let mut lines = grammar.match_lines("r", &text, 9).expect("a good grammar");
            assert!(lines.by_ref().eq(expected), "{count} {end:?}");
            assert_eq!(lines.next(), None);
            assert_eq!(lines.size_hint(), (0, Some(0)));
        }
    }
}

#[test]
fn a_matcher_and_its_lines_can_be_copied() {
    let grammar = tagged("r = { \"a\" }");
    let text = String::from("a\nb\na");
    let lines = {
        let matcher = grammar.matcher("r").expect("a good grammar");
        let copy = matcher;
        assert_eq!(copy.line("a", 1), matcher.line("a", 1));
        copy.lines(&text, 1)
    };
    let mut half = lines.clone();
    assert_eq!(half.by_ref().take(2).map(|line| said(line.run)).collect::<Vec<_>>(), ["1 1", "none 1"]);
    assert_eq!(half.clone().count(), 1);
    assert_eq!(lines.count(), 3);
    assert!(format!("{half:?}").starts_with("Lines { matcher: Matcher { "), "{half:?}");
}

/// The interface as it is: answers that only a caller with tables or records of its own can get.
#[test]
fn raw_calls() {
    let grammar = tagged("r = { \"a\"* } s = { \"b\" } s = { r }");
    let (nodes, rules, store) = grammar.tables();
    let good = tagged("r = { \"a\"* } s = { \"b\" } t = { r }");
    let (good_nodes, good_rules, good_store) = good.tables();
    assert_eq!(raw::rule_named(nodes, rules, store, b"s"), [0, 0, 1], "the lowest of that name");
    assert_eq!(raw::rule_named(nodes, rules, store, b""), [32, 0, 0]);
    assert_eq!(raw::rule_named(&nodes[1..], rules, store, b"s"), [30, 0, 0]);
    assert_eq!(raw::rule_named(&[], &[], &[], b"r"), [32, 0, 0]);
    assert_eq!(raw::match_line(nodes, rules, store, 0, b"a", 9), [32, 0, 0, 0, 0], "a name used twice");
    assert_eq!(raw::match_line(nodes, &rules[..5], store, 0, b"a", 9), [30, 0, 0, 0, 0]);
    for start in [3, 4, usize::MAX] {
        assert_eq!(raw::match_line(good_nodes, good_rules, good_store, start, b"a", 9), [32, 0, 0, 0, 0]);
    }
    assert_eq!(raw::match_line(good_nodes, good_rules, good_store, 2, b"aa", 9), [0, 0, 1, 2, 5]);
    assert_eq!(raw::match_line(good_nodes, good_rules, good_store, 1, b"a", 9), [0, 0, 0, 0, 1]);

    let text = b"a\r\n\xff\nb";
    let mut records = [7; 17];
    let mut run = |room: usize, start| {
        records = [7; 17];
        let lent = &mut records[..room];
        let answer = raw::match_lines(good_nodes, good_rules, good_store, start, text, 9, lent);
        (answer, records)
    };
    let lines = [[0, 0, 1, 1, 4], [33, 0, 0, 0, 0], [0, 0, 1, 0, 3]].concat();
    for room in 0..=17 {
        let (answer, records) = run(room, 2);
        let count = room / 5;
        assert_eq!(answer, [0, 0, count as u64, [0, 3, 5, 6][count]]);
        assert_eq!(records[..5 * count], lines[..5 * count]);
        assert!(records[5 * count..].iter().all(|&number| number == 7), "the rest is as it was");
    }
    assert_eq!(run(17, 3), ([32, 0, 0, 0], [7; 17]), "a refusal changes nothing");
    assert_eq!(raw::match_lines(&[], &[], &[], 0, text, 9, &mut []), [32, 0, 0, 0]);
}
