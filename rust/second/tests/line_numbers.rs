//! The seventh number of a node: one plus the LF bytes before its span's start. CR counts nothing, and
//! an LF counts wherever it stands.

use second::broken::random;
use second::matching::match_line;
use second::print::{check, print, print_short};
use second::read::{tables, Tables};

/// Node records, seven numbers each.
fn nodes(text: &str, tagged: bool) -> Vec<[u32; 7]> {
    let made = tables(text.as_bytes(), tagged).expect(text);
    assert_eq!(made.nodes.len() % 7, 0);
    made.nodes.chunks(7).map(|node| node.try_into().expect("seven")).collect()
}

fn lines(text: &str) -> Vec<u32> {
    nodes(text, true).iter().map(|node| node[6]).collect()
}

#[test]
fn the_examples() {
    for (text, wanted) in [
        ("r = { (a)* }", &[[4, 7, 9, 1, 1, 0, 1], [11, 6, 10, 0, 0, 0, 1]][..]),
        ("r={(\na)}", &[[4, 3, 7, 1, 1, 0, 1]]),
        ("r={(\na)*}", &[[4, 5, 7, 1, 1, 0, 2], [11, 3, 8, 0, 0, 0, 1]]),
        ("r={PUSH(\na)}", &[[4, 9, 10, 1, 1, 0, 2], [17, 3, 10, 0, 0, 0, 1]]),
        // The join has the bracket's line, not its left child's.
        ("r={(\na~b)}", &[[4, 5, 6, 1, 1, 0, 2], [4, 7, 8, 2, 1, 0, 2], [8, 3, 9, 0, 1, 0, 1]]),
        (
            "r={\r\n!\n a ~ b}",
            &[
                [4, 8, 9, 1, 1, 0, 3],
                [7, 5, 9, 0, 0, 0, 2],
                [4, 12, 13, 2, 1, 0, 3],
                [8, 5, 13, 1, 2, 0, 2],
            ],
        ),
        (
            "r={#t\n=\n\"x\ny\"~b}",
            &[
                [1, 8, 13, 2, 3, 0, 3],
                [19, 3, 13, 0, 1, 1, 1],
                [4, 14, 15, 5, 1, 0, 4],
                [8, 3, 15, 1, 2, 0, 1],
            ],
        ),
    ] {
        assert_eq!(nodes(text, true), wanted, "{text:?}");
    }
}

/// Every place where an LF may stand, and bytes that end no line.
#[test]
fn wherever_it_stands() {
    assert_eq!(lines("r={a}"), [1]);
    assert_eq!(lines("\nr={a}"), [2]);
    assert_eq!(lines("\r\nr={a}"), [2]);
    assert_eq!(lines("\n\r\n\nr={a}"), [4]);
    assert_eq!(lines("//! d\nr={a}"), [2]);
    assert_eq!(lines("//! d\r\n/// e\r\n// c\r\nr={a}"), [4]);
    assert_eq!(lines("/* \n /* \r\n */ \n*/r={a}"), [4]);
    assert_eq!(lines("r\n=\n@\n{\na\n}"), [5]);
    assert_eq!(lines("r={a}\ns={b}\r\nt={c}"), [1, 2, 3]);
    // In a string it counts for what stands behind it; escaped it is no LF.
    assert_eq!(lines("r={\"\n\"~a}"), [1, 2, 1]);
    assert_eq!(lines("r={\"\\n\\x0a\\u{0a}\"~a}"), [1, 1, 1]);
    assert_eq!(lines("r={'\n'..'\n'~a}"), [1, 3, 1]);
    assert_eq!(lines("r={^\"\r\n\"|PUSH_LITERAL(\n\"\n\")}"), [1, 3, 1]);
    // CR alone, where one may stand.
    assert_eq!(lines("//! d\r\r\n// \r c\nr={\"\r\"~/*\r*/a}"), [3, 3, 3]);
    // Other characters that some programs take for a line's end.
    assert_eq!(lines("r={\"\u{85}\u{2028}\u{2029}\u{b}\u{c}\"~a}"), [1, 1, 1]);
    // A tag is dropped at the plain level, and the start is the node's own.
    assert_eq!(nodes("r={#t\n=\na}", false)[0][6], 3);
    assert_eq!(nodes("r={(#t\n=\na)}", false)[0][6], 1);
}

/// Rows of brackets and chains, whose starts move late.
#[test]
fn moved_starts() {
    assert_eq!(lines("r={(\n(\n(\na)))}"), [1]);
    assert_eq!(lines("r={(\n(\n(\na)*)+)?}"), [4, 3, 2, 1]);
    assert_eq!(lines("r={a\n~\nb\n~\nc}"), [1, 3, 1, 5, 1]);
    assert_eq!(lines("r={a\n~\n(\nb\n~\nc)}"), [1, 4, 6, 3, 1]);
    assert_eq!(lines("r={\n|\n(\na)\n|\nb}"), [3, 6, 3]);
    assert_eq!(lines("r={PEEK\n[\n1\n..\n]\n{2}}"), [1, 1]);
    assert_eq!(lines("r={&\n!\n(\na)\n*}"), [4, 3, 2, 1]);
}

const TOKENS: [&str; 54] = [
    "a",
    "=",
    "@",
    "{",
    "|",
    "(",
    "(",
    "b",
    "~",
    "\"x\ny\"",
    ")",
    "*",
    "|",
    "!",
    "&",
    "c",
    "{",
    "2",
    ",",
    "3",
    "}",
    ")",
    "?",
    "~",
    "#t",
    "=",
    "'\n'",
    "..",
    "'z'",
    "}",
    "r",
    "=",
    "{",
    "PUSH",
    "(",
    "PEEK",
    "[",
    "-1",
    "..",
    "]",
    "~",
    "^\"\r\n\"",
    ")",
    "+",
    "~",
    "(",
    "#u",
    "=",
    "d",
    "|",
    "e",
    ")",
    "{3}",
    "}",
];

const BLANKS: [&str; 12] = [
    " ",
    "\n",
    "\r\n",
    "\t",
    "/* \n\r */",
    "/*\r\n/*\n*/\r\n*/",
    "// c\n",
    "// \r c\r\n",
    " \n\n ",
    "/**/",
    "\r\n\n",
    "// é µ\n",
];

/// Spans and lines 0.
fn bare_of_places(mut made: Tables) -> Tables {
    for node in made.nodes.chunks_mut(7) {
        node[1..3].fill(0);
        node[6] = 0;
    }
    made.rules.chunks_mut(6).for_each(|rule| rule[4..].fill(0));
    made
}

#[test]
fn random_blanks() {
    let mut below = random(7);
    let plainly = bare_of_places(tables(TOKENS.join(" ").as_bytes(), true).expect("good"));
    for _ in 0..20_000 {
        let mut text = String::new();
        for token in TOKENS {
            if token == "r" {
                text.push_str(["", "/// d\n", "/// \r\r\n", "//// \r\n/// \n"][below(4)]);
            }
            text.push_str(token);
            for _ in 0..1 + below(2) {
                text.push_str(BLANKS[below(BLANKS.len())]);
            }
        }
        let made = tables(text.as_bytes(), true).expect(&text);
        for node in made.nodes.chunks(7).chain(nodes(&text, false).iter().map(|node| &node[..])) {
            let before = &text.as_bytes()[..node[1] as usize];
            let line = 1 + before.iter().filter(|byte| **byte == b'\n').count();
            assert_eq!(node[6] as usize, line, "{text:?} {node:?}");
        }
        assert_eq!(bare_of_places(made), plainly, "{text:?}");
    }
}

/// The longest text, all of it lines.
#[test]
fn many_lines() {
    let text = format!("{}a={{\"\n\"~b}}", "\n".repeat(65_527));
    assert_eq!(text.len(), 65_536);
    assert_eq!(lines(&text), [65_528, 65_529, 65_528]);
    let text = format!("r={{a{}}}", "\n~\nb".repeat(10_000));
    assert_eq!(lines(&text)[19_999..], [20_001, 1]);
}

/// Who reads tables doesn't look at it.
#[test]
fn any_value_is_good() {
    let mut made = tables(b"r={\"a\"\n~\nb} b={'b'..'c'*}", true).expect("good");
    let texts = |made: &Tables| {
        let Tables { nodes, rules, store } = made;
        let mut out = [0; 128];
        let full = print(nodes, rules, store, &mut out).expect("good");
        let full = out[..full].to_vec();
        let short = print_short(nodes, rules, store, &mut out).expect("good");
        let run = match_line(nodes, rules, store, 0, b"abcbd", 99).expect("good");
        (full, out[..short].to_vec(), run)
    };
    let wanted = texts(&made);
    for line in [0, 1, 7, 65_537, u32::MAX] {
        made.nodes.chunks_mut(7).for_each(|node| node[6] = line);
        assert_eq!(check(&made.nodes, &made.rules, &made.store), Ok(()));
        assert_eq!(texts(&made), wanted);
    }
}
