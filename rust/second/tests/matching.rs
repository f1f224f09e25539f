//! The matcher's examples, each refusal with its place and its order, and texts of many lines.

use second::matching::{
    lines, match_line, match_line_visit_by_visit, match_lines, record, Answer, Record, Run,
};
use second::read::{tables, Tables};
use second::Refusal;

/// The tables of a layout.
fn layout(text: &str) -> Tables {
    tables(text.as_bytes(), true).expect(text)
}

fn run(made: &Tables, line: &[u8], allowance: u64) -> Answer {
    match_line(&made.nodes, &made.rules, &made.store, 0, line, allowance)
}

fn matched(length: usize, steps: u64) -> Answer {
    Ok(Run { length: Some(length), steps })
}

fn none(steps: u64) -> Answer {
    Ok(Run { length: None, steps })
}

fn refused(number: u64, place: u64) -> Answer {
    Err(Refusal { number, place })
}

/// The steps are enough as an allowance, and one less is not; nor does a larger one matter.
fn answers(text: &str, line: &str, wanted: Answer) {
    let made = layout(text);
    let shown = || (text.chars().take(60).collect::<String>(), line);
    assert_eq!(run(&made, line.as_bytes(), 1_000_000), wanted, "{:?}", shown());
    let Ok(Run { steps, .. }) = wanted else { return };
    assert_eq!(run(&made, line.as_bytes(), steps), wanted, "{:?}", shown());
    assert_eq!(run(&made, line.as_bytes(), u64::MAX), wanted, "{:?}", shown());
    assert_eq!(run(&made, line.as_bytes(), steps - 1), refused(34, 0), "{:?}", shown());
}

#[test]
fn worked_examples() {
    answers(r#"r={""{5}}"#, "", matched(0, 6));
    answers(r#"r={"a"{2,}}"#, "a", none(3));
    answers(r#"r={"a"{,2}}"#, "aaa", matched(2, 3));
    answers(r#"r={"a"{3}}"#, "aaaa", matched(3, 4));
    answers(r#"r={"a"?}"#, "b", matched(0, 2));
    answers(r#"r={("a"|"ab")~"c"}"#, "abc", none(4));
    answers(r#"r={'a'..'z'*}"#, "ab1", matched(2, 4));
    answers(r#"r={("a"~"b")*}"#, "aba", matched(2, 7));
    answers(r#"r={!"a"~ANY}"#, "b", matched(1, 4));
    answers(r#"r={(!";"~ANY)*}"#, "a;b", matched(1, 8));
    answers(r#"r={!";"~ANY*}"#, "a;b", matched(3, 8));
    answers(r#"r={"a"~r|""}"#, "aa", matched(2, 12));
    answers(r#"r={s+} s={^"Ab"}"#, "aBABx", matched(4, 7));
    answers(r#"r={ANY}"#, "µm", matched(2, 1));
    answers(&format!(r#"r={{{}"a"}}"#, "!".repeat(1_023)), "a", none(1_024));
    answers(&format!(r#"r={{{}"a"}}"#, "!".repeat(1_024)), "a", refused(34, 0));
    let chain = r#"r={"a"~r|"b"}"#;
    answers(chain, &format!("{}b", "a".repeat(340)), matched(341, 1_364));
    answers(chain, &format!("{}b", "a".repeat(341)), refused(34, 0));
    assert_eq!(run(&layout("r={a{3,2}} a={b}"), b"a", 9), refused(31, 1));
    // The same with the allowances of the examples.
    assert_eq!(run(&layout(r#"r={""{5}}"#), b"", 5), refused(34, 0));
    assert_eq!(run(&layout(r#"r={"a"~r|""}"#), b"aa", 99), matched(2, 12));
}

/// An empty repetition without a maximum is over whatever the allowance, and at once.
#[test]
fn endless() {
    let grammars = [
        r#"r={("a"?)*}"#,
        r#"r={""*}"#,
        r#"r={""+}"#,
        r#"r={""{0,}}"#,
        r#"r={""{4294967295,}}"#,
        r#"r={(!"a")*}"#,
        r#"r={"a"|(""{4294967295})*}"#,
        r#"r={r}"#,
        r#"r={r~"a"|"b"}"#,
    ];
    for text in grammars {
        let made = layout(text);
        for allowance in [0, 1, 2, 99, 1_000_000, u64::MAX - 1, u64::MAX] {
            assert_eq!(run(&made, b"b", allowance), refused(34, 0), "{text} {allowance}");
        }
    }
    // What the line lets through before it is put back, or not reached, is no matter.
    answers(r#"r={"b"|""*}"#, "b", matched(1, 2));
    answers(r#"r={("a"~""*)?}"#, "b", matched(0, 3));
}

/// Steps up to the largest number are counted; one more than that is over.
#[test]
fn large_counts() {
    const MOST: u64 = 4_294_967_295;
    let one = layout(r#"r={""{4294967295}}"#);
    assert_eq!(run(&one, b"", MOST + 1), matched(0, MOST + 1));
    assert_eq!(run(&one, b"", MOST), refused(34, 0));
    let two = layout(r#"r={""{4294967295}{4294967295}}"#);
    let steps = 1 + MOST * (MOST + 1);
    assert_eq!(run(&two, b"", u64::MAX), matched(0, steps));
    assert_eq!(run(&two, b"", steps), matched(0, steps));
    assert_eq!(run(&two, b"", steps - 1), refused(34, 0));
    let three = layout(r#"r={""{4294967295}{4294967295}{4294967295}}"#);
    assert_eq!(run(&three, b"", u64::MAX), refused(34, 0));
    let with_more = layout(r#"r={""{4294967295}{4294967295}{2}}"#);
    assert_eq!(run(&with_more, b"", u64::MAX), refused(34, 0));
}

#[test]
fn leaves() {
    answers(r#"r={""}"#, "", matched(0, 1));
    answers(r#"r={"abc"}"#, "ab", none(1));
    answers(r#"r={ANY}"#, "", none(1));
    answers(r#"r={ANY*}"#, "aµ€😀", matched(10, 6));
    answers(r#"r={^"aZ@[`{"}"#, "Az@[`{", matched(6, 1));
    answers(r#"r={^"@"}"#, "`", none(1));
    answers(r#"r={^"["}"#, "{", none(1));
    answers(r#"r={^"k"}"#, "\u{212a}", none(1));
    answers(r#"r={^"é"}"#, "É", none(1));
    answers(r#"r={^"é"}"#, "é", matched(2, 1));
    answers(r#"r={^"ab"}"#, "aé", none(1));
    answers(r#"r={^"abc"}"#, "ab", none(1));
    answers(r#"r={'a'..'z'}"#, "", none(1));
    answers(r#"r={'b'..'b'}"#, "b", matched(1, 1));
    answers(r#"r={'z'..'a'}"#, "m", none(1));
    answers(r#"r={'a'..'é'}"#, "µm", matched(2, 1));
    answers(r"r={'\0'..'\u{10ffff}'}", "😀", matched(4, 1));
}

#[test]
fn joins_and_repeats() {
    answers(r#"r={"a"~"b"}"#, "b", none(2));
    answers(r#"r={"a"~"b"}"#, "ac", none(3));
    answers(r#"r={"a"|"b"}"#, "a", matched(1, 2));
    answers(r#"r={"a"|"b"}"#, "c", none(3));
    answers(r#"r={&"a"~"ab"}"#, "ab", matched(2, 4));
    answers(r#"r={&"b"}"#, "ab", none(2));
    answers(r#"r={&"a"}"#, "ab", matched(0, 2));
    answers(r#"r={!"b"}"#, "", matched(0, 2));
    // It gives nothing back, and what a failing visit took is put back.
    answers(r#"r={"a"*~"a"}"#, "aaa", none(7));
    answers(r#"r={("a"~"b"){2,}}"#, "aba", none(7));
    answers(r#"r={"a"+}"#, "b", none(2));
    answers(r#"r={"a"{1, 3}}"#, "aaaa", matched(3, 4));
    answers(r#"r={"a"{2, 3}}"#, "aab", matched(2, 4));
    answers(r#"r={"a"{2, 3}}"#, "ab", none(3));
    answers(r#"r={"a"{2, 2}}"#, "aaa", matched(2, 3));
    answers(r#"r={"a"{0,}}"#, "b", matched(0, 2));
    answers(r#"r={("a"?){3}}"#, "ab", matched(1, 7));
    answers(r#"r={("a"?){2, 4}~"b"}"#, "ab", matched(2, 11));
    // Marks and the names of blanks mean nothing.
    answers(r#"r={"a"~"b"} WHITESPACE=_{" "} COMMENT={"-"}"#, "a b", none(3));
    answers(r#"r=!{s~s} s=@{"a"} WHITESPACE={" "}"#, "aa", matched(2, 5));
    answers(r#"r={WHITESPACE~SOI} WHITESPACE={" "} SOI={"x"}"#, " x", matched(2, 5));
}

/// Counts of 0, which no text has but tables may.
#[test]
fn zero_counts() {
    let text = [1, 0, 0, 0, 0, 0, 0];
    for (kind, q) in [(13, 0), (15, 0), (16, 0)] {
        let nodes = [text, [kind, 0, 0, 0, q, 0, 7]].concat();
        let answer = match_line(&nodes, &[0, 1, 0, 1, 0, 0], b"r", 0, b"a", 1);
        assert_eq!(answer, matched(0, 1), "kind {kind}");
    }
    let nodes = [text, [14, 0, 0, 0, 0, 0, 7]].concat();
    assert_eq!(match_line(&nodes, &[0, 1, 0, 1, 0, 0], b"r", 0, b"a", 99), refused(34, 0));
}

#[test]
fn the_starting_rule() {
    let made = layout(r#"r={"a"} s={r~"b"} t={"c"}"#);
    let from = |start| match_line(&made.nodes, &made.rules, &made.store, start, b"ab", 99);
    assert_eq!(from(0), matched(1, 1));
    assert_eq!(from(1), matched(2, 4));
    assert_eq!(from(2), none(1));
    assert_eq!(from(3), refused(32, 0));
    assert_eq!(from(usize::MAX), refused(32, 0));
}

#[test]
fn false_tables() {
    let answer =
        |nodes: &[u32], rules: &[u32], store: &[u8]| match_line(nodes, rules, store, 0, b"a", 99);
    let (good, rule) = ([1, 0, 0, 0, 1, 0, 0, 11, 0, 0, 0, 0, 0, 0], [1, 1, 0, 1, 0, 0]);
    assert_eq!(answer(&good, &rule, b"ar"), matched(1, 3));
    // 20, 21 at 0, 21 at 1, 22 at 0 and 22 at 1: the place is 0 for all.
    assert_eq!(answer(&good[..12], &rule, b"ar"), refused(30, 0));
    assert_eq!(answer(&good, &rule[..5], b"ar"), refused(30, 0));
    assert_eq!(answer(&good, &rule, &[b'r'; 65_537]), refused(30, 0));
    assert_eq!(answer(&[20, 0, 0, 0, 0, 0, 0], &[0, 1, 0, 0, 0, 0], b"r"), refused(30, 0));
    assert_eq!(answer(&[1, 0, 0, 0, 1, 0, 0, 11, 0, 0, 1, 0, 0, 0], &rule, b"ar"), refused(30, 0));
    assert_eq!(answer(&good, &[1, 1, 5, 1, 0, 0], b"ar"), refused(30, 0));
    assert_eq!(answer(&good, &[1, 1, 0, 0, 0, 0], b"ar"), refused(30, 0));
    assert_eq!(answer(&good, &[], b"ar"), refused(30, 0));
}

#[test]
fn unfit_nodes() {
    answers(r#"r={"a"} s={#t="b"}"#, "a", refused(31, 2));
    answers(r#"r={"a"~PEEK[0..1]}"#, "a", refused(31, 1));
    answers(r#"r={PUSH("a")}"#, "a", refused(31, 1));
    answers(r#"r={PUSH_LITERAL("a")}"#, "a", refused(31, 0));
    answers(r#"r={"a"{3, 2}}"#, "aaa", refused(31, 1));
    answers(r#"r={"a"{4294967295, 4294967294}}"#, "a", refused(31, 1));
    // The first by its index, whatever the reason, reached or not.
    answers(r#"r={"a"{3, 2}~PUSH("b")}"#, "a", refused(31, 1));
    answers(r#"r={"a"} s={PUSH("b")|"c"{3, 2}}"#, "a", refused(31, 2));
    answers(r#"r={"a"} s={"b"{1, 1}~PEEK[..]~#t="c"}"#, "a", refused(31, 3));
}

#[test]
fn names() {
    assert_eq!(match_line(&[], &[], b"", 0, b"", 99), refused(32, 0));
    answers(r#"r={"a"|s}"#, "a", refused(32, 0));
    answers(r#"r={"a"} s={t}"#, "a", refused(32, 0));
    for name in ["any", "SOI", "EOI", "PEEK", "POP", "DROP", "NEWLINE", "ASCII_DIGIT", "R"] {
        answers(&format!(r#"r={{"a"|{name}}}"#), "a", refused(32, 0));
    }
    answers(r#"r={"a"} ANY={"b"}"#, "a", refused(32, 0));
    answers(r#"ANY={"a"}"#, "a", refused(32, 0));
    answers(r#"r={"a"} s={"b"} s={"c"}"#, "a", refused(32, 0));
    answers(r#"r={"a"} s={"b"} r={"a"}"#, "a", refused(32, 0));
    // One name at two offsets of the store is one name, and so is one part named by two rules.
    let (node, store) = ([1, 0, 0, 0, 1, 0, 0], b"ra");
    let nodes = [node, node].concat();
    let twice = [0, 1, 0, 0, 0, 0, 0, 1, 0, 1, 0, 0];
    assert_eq!(match_line(&nodes, &twice, store, 0, b"r", 99), refused(32, 0));
    let apart = [0, 1, 0, 0, 0, 0, 1, 1, 0, 1, 0, 0];
    assert_eq!(match_line(&nodes, &apart, store, 0, b"r", 99), matched(1, 1));
}

#[test]
fn lines_that_are_not_utf8() {
    let made = layout(r#"r={"a"}"#);
    let bad: [(&[u8], u64); 8] = [
        (b"a\xc3\x28", 1),
        (b"\x80", 0),
        (b"a\xc0\x80", 1),
        (b"ab\xed\xa0\x80", 2),
        (b"\xc2\xb5\xf4\x90\x80\x80", 2),
        (b"\xe2\x82", 0),
        (b"\xe2\x82\xac\xe2\x82", 3),
        (b"b\xff\xfe", 1),
    ];
    for (line, place) in bad {
        assert_eq!(run(&made, line, 99), refused(33, place), "{line:?}");
    }
    let long = [&b"a".repeat(100_000)[..], b"\xff"].concat();
    assert_eq!(run(&made, &long, 99), refused(33, 100_000));
    assert_eq!(run(&made, &long[..100_000], 99), matched(1, 1));
}

/// Where several refusals could be given, the lowest is.
#[test]
fn order() {
    // Node 1 is false, node 0 unfit, the start out of range, the line no UTF-8, no step allowed.
    let unfit = [18, 0, 0, 0, 1, 0, 0];
    let nodes = [unfit, [20, 0, 0, 0, 0, 0, 0]].concat();
    let rule = [0, 1, 0, 0, 0, 0];
    let answer = |nodes: &[u32], start| match_line(nodes, &rule, b"r", start, b"\xff", 0);
    assert_eq!(answer(&nodes, 1), refused(30, 0));
    assert_eq!(answer(&unfit, 1), refused(31, 0));
    assert_eq!(answer(&[1, 0, 0, 0, 1, 0, 0], 1), refused(32, 0));
    assert_eq!(answer(&[1, 0, 0, 0, 1, 0, 0], 0), refused(33, 0));
    let made = layout("r={r}");
    assert_eq!(run(&made, b"a\xff", 0), refused(33, 1));
    assert_eq!(run(&made, b"a", 0), refused(34, 0));
    assert_eq!(run(&layout("r={s} s={PUSH(t)}"), b"\xff", 0), refused(31, 2));
    assert_eq!(run(&layout("r={s}"), b"\xff", 0), refused(32, 0));
}

/// The deepest runs, also on the smallest of usual threads.
#[test]
fn nesting() {
    let deep = std::thread::Builder::new().stack_size(2 << 20).spawn(|| {
        for postfix in ["?", "{1}", "{1, 1}"] {
            let nested = |times: usize| format!(r#"r={{"a"{}}}"#, postfix.repeat(times));
            answers(&nested(1_023), "a", matched(1, 1_024));
            answers(&nested(1_024), "a", refused(34, 0));
        }
        answers(&format!(r#"r={{{}"a"}}"#, "&".repeat(1_023)), "a", matched(0, 1_024));
        answers(&format!(r#"r={{"a"{}}}"#, "~\"a\"".repeat(1_023)), "a", none(1_025));
        answers(&format!(r#"r={{"a"{}}}"#, "~\"a\"".repeat(1_024)), "a", refused(34, 0));
        // Brackets make no node.
        let brackets = format!(r#"r={{{}"a"{}}}"#, "(".repeat(1_024), ")".repeat(1_024));
        answers(&brackets, "a", matched(1, 1));
        // A name's visit and that of its rule's root are one inside the other.
        let rules = |last: usize| {
            let chain = (0..last).map(|i| format!("r{i}={{r{}}} ", i + 1)).collect::<String>();
            format!("{chain}r{last}={{\"a\"}}")
        };
        answers(&rules(1_023), "a", matched(1, 1_024));
        let made = layout(&format!("{} x={{!r0}}", rules(1_022)));
        let start = made.rules.len() / 6 - 1;
        let from = |start| match_line(&made.nodes, &made.rules, &made.store, start, b"a", 9_999);
        assert_eq!(from(0), matched(1, 1_023));
        assert_eq!(from(start), refused(34, 0));
    });
    deep.expect("a thread").join().expect("deep runs");
}

/// Small random layouts: adding visits up comes to what making them comes to.
#[test]
fn reckoned_as_visited() {
    let mut dice = Dice(1);
    let (mut ran, mut over) = (0, 0);
    for _ in 0..4_000 {
        let text = format!("r={{{}}} s={{{}}}", dice.expression(4), dice.expression(3));
        let made = layout(&text);
        for line in ["", "a", "ab", "aab", "babab"] {
            let allowance = [20, 400][dice.below(2)];
            let (nodes, rules, store) = (&made.nodes, &made.rules, &made.store);
            let reckoned = match_line(nodes, rules, store, 0, line.as_bytes(), allowance);
            let visited =
                match_line_visit_by_visit(nodes, rules, store, 0, line.as_bytes(), allowance);
            assert_eq!(reckoned, visited, "{text} {line} {allowance}");
            match reckoned {
                Ok(_) => ran += 1,
                Err(_) => over += 1,
            }
        }
    }
    assert!(ran > 4_000 && over > 2_000, "{ran} ran, {over} were over");
}

struct Dice(u64);

impl Dice {
    fn below(&mut self, sides: usize) -> usize {
        self.0 ^= self.0 << 13;
        self.0 ^= self.0 >> 7;
        self.0 ^= self.0 << 17;
        (self.0 >> 20) as usize % sides
    }

    fn expression(&mut self, depth: usize) -> String {
        const LEAVES: [&str; 8] =
            [r#""""#, r#""a""#, r#""b""#, r#"^"A""#, r#""ab""#, "'a'..'b'", "ANY", "s"];
        const POSTFIXES: [&str; 10] =
            ["?", "*", "+", "{2}", "{9}", "{1,}", "{0,}", "{,3}", "{1, 2}", "{0, 7}"];
        if depth == 0 {
            return LEAVES[self.below(LEAVES.len())].to_string();
        }
        let inner = self.expression(depth - 1);
        match self.below(8) {
            0 => format!("!({inner})"),
            1 => format!("&({inner})"),
            2 | 3 => format!("({inner} ~ {})", self.expression(depth - 1)),
            4 | 5 => format!("({inner} | {})", self.expression(depth - 1)),
            _ => format!("({inner}){}", POSTFIXES[self.below(POSTFIXES.len())]),
        }
    }
}

#[test]
fn where_lines_end() {
    let none: [&[u8]; 0] = [];
    assert_eq!(lines(b""), none);
    assert_eq!(lines(b"\n"), [b""]);
    assert_eq!(lines(b"\r\n"), [b""]);
    assert_eq!(lines(b"\r"), [b"\r"]);
    assert_eq!(lines(b"a"), [b"a"]);
    assert_eq!(lines(b"a\n"), [b"a"]);
    assert_eq!(lines(b"a\r\n"), [b"a"]);
    assert_eq!(lines(b"a\r"), [b"a\r"]);
    assert_eq!(lines(b"a\r\r\n"), [b"a\r"]);
    assert_eq!(lines(b"a\n\n"), [&b"a"[..], b""]);
    assert_eq!(lines(b"a\rb\nc"), [&b"a\rb"[..], b"c"]);
    assert_eq!(lines(b"\n\r\r"), [&b""[..], b"\r\r"]);
    assert_eq!(lines(b"\r\n\n\r\nb"), [&b""[..], b"", b"", b"b"]);
}

#[test]
fn many_lines() {
    let made = layout(r#"r={"a"~("b"|r)|&"x"~""*}"#);
    let run_all = |start, text: &[u8], allowance| {
        match_lines(&made.nodes, &made.rules, &made.store, start, text, allowance)
    };
    let text = b"ab\r\naab;\nb\n\nx\na\xc2\xb5\xff\nab\r\na\xc2\nab\r";
    let numbers =
        |number, place, matched, length, steps| Record { number, place, matched, length, steps };
    let wanted = [
        numbers(0, 0, 1, 2, 5),
        numbers(0, 0, 1, 3, 11),
        numbers(0, 0, 0, 0, 6),
        numbers(0, 0, 0, 0, 6),
        numbers(34, 0, 0, 0, 0),
        numbers(33, 3, 0, 0, 0),
        numbers(0, 0, 1, 2, 5),
        numbers(33, 1, 0, 0, 0),
        numbers(0, 0, 1, 2, 5),
    ];
    assert_eq!(run_all(0, text, 99), Ok(wanted.to_vec()));
    // Each line has the whole allowance to itself, and the answer of the line alone.
    for allowance in [0, 4, 5, 6, 10, 11, u64::MAX] {
        let alone: Vec<_> =
            lines(text).iter().map(|line| record(run(&made, line, allowance))).collect();
        assert_eq!(run_all(0, text, allowance), Ok(alone), "{allowance}");
    }
    assert_eq!(run_all(0, b"", 99), Ok(vec![]));
    assert_eq!(run_all(1, text, 99), Err(Refusal { number: 32, place: 0 }));
    assert_eq!(run_all(1, b"", 99), Err(Refusal { number: 32, place: 0 }));
    let unfit = layout(r#"r={"a"~PUSH("b")}"#);
    let answer = match_lines(&unfit.nodes, &unfit.rules, &unfit.store, 0, b"\xff", 0);
    assert_eq!(answer, Err(Refusal { number: 31, place: 2 }));
    let answer = match_lines(&unfit.nodes[1..], &unfit.rules, &unfit.store, 9, b"", 0);
    assert_eq!(answer, Err(Refusal { number: 30, place: 0 }));
}
