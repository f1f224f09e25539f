//! The short text: each clause on both sides, the refusals, the limits, and all small trees. Each
//! text is read again, and again with each pair of its brackets left out.

use second::brackets::{depth, pairs, without};
use second::print::{print, print_short};
use second::read::{read, tables, Tables};
use second::Refusal;

type Print = fn(&[u32], &[u32], &[u8], &mut [u8]) -> Result<usize, Refusal>;

fn printed(made: &Tables, print: Print) -> String {
    let mut out = vec![0; 70_000];
    let length = print(&made.nodes, &made.rules, &made.store, &mut out).expect("a text");
    out.truncate(length);
    String::from_utf8(out).expect("UTF-8")
}

fn short(made: &Tables) -> String {
    printed(made, print_short)
}

fn full(made: &Tables) -> String {
    printed(made, print)
}

/// The tables of a text at a level, spans aside. The store is in text order, so those of the same
/// trees are equal.
fn trees(text: &str, tagged: bool) -> Result<Tables, Refusal> {
    let mut made = tables(text.as_bytes(), tagged)?;
    for node in made.nodes.chunks_exact_mut(7) {
        node[1..3].fill(0);
        node[6] = 0;
    }
    made.rules.chunks_exact_mut(6).for_each(|rule| rule[4..].fill(0));
    Ok(made)
}

/// All that the request says of a short text; `source` is another text of the same trees, in which
/// each tag is `#t = ` or `#u = ` and no string has such a thing in it. Answers the pairs tried.
fn holds(source: &str, text: &str) -> usize {
    let wanted = trees(source, true);
    let made = wanted.as_ref().expect(source);
    assert_eq!(short(made), text);
    // Exactly the room that it needs is enough, and one byte less is not.
    let mut out = vec![0; text.len()];
    let less = text.len() - 1;
    let Tables { nodes, rules, store } = made;
    assert_eq!(print_short(nodes, rules, store, &mut out), Ok(text.len()), "{text}");
    let refusal = Err(Refusal { number: 23, place: 0 });
    assert_eq!(print_short(nodes, rules, store, &mut out[..less]), refusal, "{text}");

    assert_eq!(trees(text, true), wanted, "{text}");
    let plain = match text.find("PUSH_LITERAL(") {
        Some(place) => Err(Refusal { number: 13, place: place as u64 }),
        None => trees(&source.replace("#t = ", "").replace("#u = ", ""), true),
    };
    assert_eq!(trees(text, false), plain, "{text}");
    let pairs = pairs(text.as_bytes());
    for pair in &pairs {
        let less = String::from_utf8(without(text.as_bytes(), *pair)).expect("UTF-8");
        assert_ne!(trees(&less, true), wanted, "{less} for {text}");
    }
    pairs.len()
}

/// The short text of one expression is another, and the whole request holds of it.
fn writes(expression: &str, wanted: &str) -> usize {
    holds(&format!("r = {{ {expression} }}"), &format!("r = {{ {wanted} }}\n"))
}

#[test]
fn chains() {
    let ten = "a ~ b ~ c ~ d ~ e ~ f ~ g ~ h ~ i ~ j";
    let made = tables(format!("r={{{ten}}}").as_bytes(), true).expect(ten);
    assert_eq!(pairs(full(&made).as_bytes()).len(), 9);
    writes(ten, ten);
    writes("((a ~ b) ~ c) ~ d", "a ~ b ~ c ~ d");
    writes("((a | b) | c) | d", "a | b | c | d");
    // A right child of the same operator, and of the other.
    writes("a ~ (b ~ c)", "a ~ (b ~ c)");
    writes("a | (b | c)", "a | (b | c)");
    writes("a ~ ((b ~ c) ~ d)", "a ~ (b ~ c ~ d)");
    writes("a ~ (b ~ (c ~ d))", "a ~ (b ~ (c ~ d))");
    writes("(a ~ (b ~ c)) ~ d", "a ~ (b ~ c) ~ d");
    writes("(a | (b | c)) | d", "a | (b | c) | d");
    writes("a | (b ~ c)", "a | b ~ c");
    writes("(a ~ b) | c", "a ~ b | c");
    writes("(a ~ b) | (c ~ d)", "a ~ b | c ~ d");
    writes("a | (b ~ (c ~ d))", "a | b ~ (c ~ d)");
    writes("(a ~ b) | ((c ~ d) | e)", "a ~ b | (c ~ d | e)");
    // Choice under Seq, on both sides.
    writes("(a | b) ~ c", "(a | b) ~ c");
    writes("a ~ (b | c)", "a ~ (b | c)");
    writes("(a | b) ~ (c | d) ~ (e | (f | g))", "(a | b) ~ (c | d) ~ (e | (f | g))");
    writes("((a ~ b) | c) ~ d", "(a ~ b | c) ~ d");
}

#[test]
fn under_a_postfix() {
    let postfixes = ["?", "*", "+", "{2}", "{2,}", "{,2}", "{2, 3}"];
    for postfix in postfixes {
        for bracketed in ["a ~ b", "a | b", "&a", "!a", "#t = a", "!a*", "#t = !a"] {
            writes(&format!("({bracketed}){postfix}"), &format!("({bracketed}){postfix}"));
        }
        let bare = ["a", "\"a\"", "^\"a\"", "'a'..'b'", "PEEK[0..]", "PUSH(a ~ b)", "a{2}", "a*+?"];
        for bare in bare.into_iter().chain(["PUSH_LITERAL(\"a\")", "PEEK"]) {
            writes(&format!("({bare}){postfix}"), &format!("{bare}{postfix}"));
        }
        // One pair is enough for a row of postfixes.
        writes(&format!("(((a ~ b)?){postfix})*"), &format!("(a ~ b)?{postfix}*"));
    }
}

#[test]
fn under_a_predicate_or_a_tag() {
    for over in ["&", "!", "#t = "] {
        for bracketed in ["a ~ b", "a | b", "#u = a", "#u = !a*", "a ~ b | c"] {
            writes(&format!("{over}({bracketed})"), &format!("{over}({bracketed})"));
        }
        let bare =
            ["a", "\"a\"", "^\"a\"", "'a'..'b'", "PEEK[..1]", "PUSH(#t = a)", "a*", "a{2, 3}"];
        for bare in bare.into_iter().chain(["PUSH_LITERAL(\"a\")", "!a", "&!a", "!(a ~ b)+"]) {
            let written = bare.replace("[..", "[0..");
            writes(&format!("{over}({bare})"), &format!("{over}{written}"));
        }
    }
}

/// Where the request names no brackets, there are none.
#[test]
fn bare() {
    writes("(#t = a) ~ (#u = b)", "#t = a ~ #u = b");
    writes("(#t = a) | (#u = b)", "#t = a | #u = b");
    writes("(!a) ~ (&b)", "!a ~ &b");
    writes("(!a) | (&b*)", "!a | &b*");
    writes("('a'..'b') ~ ('c'..'d')", "'a'..'b' ~ 'c'..'d'");
    writes("'('..')'* | \"(\" ~ '''..'\\\\'", "'('..')'* | \"(\" ~ '\\''..'\\\\'");
    writes("PUSH((a ~ b))", "PUSH(a ~ b)");
    writes("PUSH((a | b))", "PUSH(a | b)");
    writes("PUSH((a | b) ~ (c ~ d))", "PUSH((a | b) ~ (c ~ d))");
    writes("(#t = (!((a)*)))", "#t = !a*");
    writes("((((a))))", "a");
    writes("| (a | b)", "a | b");
}

/// Marks, literals and lines are the printer's own.
#[test]
fn as_the_printer() {
    let text = "a=_{\"\\x00\\t\\n\\r\\\"\\\\'\\x7f€\"} b=@{^\"\\u{1F600}\"} c=${'\"'..'\\''} \
        d=!{PEEK[-1..2]~PEEK[..]} e={PUSH_LITERAL(\"\\u{01}\"){0,}}";
    let wanted = "a = _{ \"\\0\\t\\n\\r\\\"\\\\'\\u{7f}\\u{20ac}\" }\nb = @{ ^\"\\u{1f600}\" }\n\
        c = ${ '\"'..'\\'' }\nd = !{ PEEK[-1..2] ~ PEEK[0..] }\n\
        e = { PUSH_LITERAL(\"\\u{01}\"){0,} }\n";
    holds(text, wanted);
    assert_eq!(short(&Tables::default()), "");
    // Zero counts print, and can't be read.
    for (counted, at, wanted) in
        [("a{1}", 4, "a{0}"), ("a{,1}", 4, "a{,0}"), ("a{1,1}", 5, "a{1, 0}")]
    {
        let mut made = tables(format!("r={{{counted}}}").as_bytes(), true).expect(counted);
        made.nodes[7 + at] = 0;
        let text = short(&made);
        assert_eq!(text, format!("r = {{ {wanted} }}\n"));
        let place = text.find('0').expect("a count") as u64;
        assert_eq!(tables(text.as_bytes(), true), Err(Refusal { number: 6, place }));
    }
}

/// The printer's four, at the same places; and a refusal writes nothing.
#[test]
fn refusals() {
    let ab = [4, 0, 0, 0, 1, 0, 0, 4, 0, 0, 1, 1, 0, 9, 8, 0, 0, 0, 1, 0, u32::MAX];
    let rule = [0, 1, 0, 2, 0, 0];
    let answer = |nodes: &[u32], rules: &[u32], store: &[u8], room: usize| {
        let mut out = vec![0xff; room];
        let answer = print_short(nodes, rules, store, &mut out).map_err(|e| (e.number, e.place));
        let used = answer.unwrap_or(0);
        assert!(out[used..].iter().all(|byte| *byte == 0xff), "{answer:?}");
        if !matches!(answer, Err((23, _))) {
            let printed = print(nodes, rules, store, &mut [0; 64]);
            assert_eq!(answer.err(), printed.map_err(|e| (e.number, e.place)).err());
        }
        answer
    };
    assert_eq!(answer(&ab, &rule, b"ab", 64), Ok(14));
    assert_eq!(answer(&ab, &rule, b"ab", 14), Ok(14));
    assert_eq!(answer(&ab, &rule, b"ab", 13), Err((23, 0)));
    assert_eq!(answer(&ab, &rule, b"ab", 0), Err((23, 0)));
    assert_eq!(answer(&[], &[], b"", 0), Ok(0));
    assert_eq!(answer(&ab[..18], &rule, b"ab", 0), Err((20, 0)));
    assert_eq!(answer(&ab, &rule[..5], b"ab", 64), Err((20, 0)));
    assert_eq!(answer(&ab, &rule, &[b'a'; 65_537], 64), Err((20, 0)));
    assert_eq!(answer(&[4, 0, 0, 0, 0, 0, 0].repeat(4_097), &rule, b"a", 64), Err((20, 0)));
    assert_eq!(answer(&ab, &[0, 1, 5, 2, 0, 0], b"a", 0), Err((21, 1)));
    assert_eq!(answer(&[8, 0, 0, 0, 0, 0, 0], &rule, b"ab", 0), Err((21, 0)));
    assert_eq!(answer(&ab, &[0, 1, 5, 2, 0, 0], b"ab", 0), Err((22, 0)));
    assert_eq!(answer(&ab, &[], b"ab", 0), Err((22, 0)));
    assert_eq!(answer(&ab, &[0, 1, 0, 0, 0, 0, 0, 1, 0, 1, 0, 0], b"ab", 0), Err((22, 2)));
    // A text of 268 MB.
    let long = [&[1, 0, 0, 0, 65_536, 0, 0].repeat(2_048)[..], &join(2_048)].concat();
    let rule = [65_535, 1, 0, 4_094, 0, 0];
    let store = [&[0; 65_535][..], b"r"].concat();
    assert_eq!(answer(&long, &rule, &store, 64), Err((23, 0)));
}

/// The records of Seq nodes behind some leaves: the last two, then the one before and that.
fn join(leaves: u32) -> Vec<u32> {
    (1..leaves).flat_map(|i| [8, 0, 0, leaves - 1 - i, leaves + i - 2, 0, 0]).collect()
}

/// The limits are those of the short text: a chain that groups right is flat in full and deep
/// here, one that groups left the other way round.
#[test]
fn limits() {
    // With the most room that the reader ever wants.
    let reads = |text: &str| {
        let (mut nodes, mut rules) = (vec![0; 4_096 * 7], vec![0; 1_024 * 6]);
        let answer = read(text.as_bytes(), true, &mut nodes, &mut rules, &mut vec![0; 65_536]);
        answer.map(|_| ()).map_err(|e| (e.number, e.place as usize))
    };
    let grouped_right = |leaves: u32| {
        let nodes = [&[4, 0, 0, 0, 1, 0, 0].repeat(leaves as usize)[..], &join(leaves)].concat();
        Tables { nodes, rules: vec![0, 1, 0, 2 * leaves - 2, 0, 0], store: b"a".to_vec() }
    };
    let text = short(&grouped_right(1_026));
    assert_eq!(depth(text.as_bytes()), 1_024);
    assert_eq!(reads(&text), Ok(()));
    assert_eq!(trees(&text, true), trees(&text, false));
    assert_eq!(short(&trees(&text, true).expect("a chain")), text);
    let deeper = grouped_right(1_027);
    let text = short(&deeper);
    assert_eq!(reads(&text), Err((9, text.rfind('(').expect("a bracket"))));
    assert_eq!(reads(&full(&deeper)), Ok(()));

    let flat = format!("r = {{ {}a }}\n", "a ~ ".repeat(2_047));
    let made = tables(flat.as_bytes(), true).expect("a chain");
    assert_eq!(made.nodes.len() / 7, 4_095);
    assert_eq!(short(&made), flat);
    assert_eq!(reads(&flat), Ok(()));
    assert_eq!(reads(&full(&made)), Err((9, "r = { ".len() + 1_024)));

    // 65,536 bytes of text, and one more.
    for (bytes, answer) in [(65_536, Ok(())), (65_537, Err((1, 0)))] {
        let string = "x".repeat(bytes - 16);
        let made = tables(format!("r={{\"{string}\"*~a}}").as_bytes(), true).expect("a text");
        let text = format!("r = {{ \"{string}\"* ~ a }}\n");
        assert!(text.len() == bytes && short(&made) == text);
        assert_eq!(reads(&text), answer);
    }
}

/// A tree of a name, negative predicates, repetitions, PUSH, tags, Seq and Choice.
#[derive(Clone)]
struct Tree {
    form: char,
    children: Vec<Tree>,
}

impl Tree {
    fn source(&self) -> String {
        let child = |i: usize| self.children[i].source();
        match self.form {
            '~' | '|' => format!("({}) {} ({})", child(0), self.form, child(1)),
            '!' => format!("!({})", child(0)),
            '*' => format!("({})*", child(0)),
            'P' => format!("PUSH({})", child(0)),
            '#' => format!("#t = ({})", child(0)),
            _ => "a".to_string(),
        }
    }

    /// The request in other words: what holds together less tightly than it has to where it stands
    /// is put in brackets.
    fn short(&self, wanted: u32) -> String {
        let child = |i: usize, wanted| self.children[i].short(wanted);
        let (own, text) = match self.form {
            '|' => (0, format!("{} | {}", child(0, 0), child(1, 1))),
            '~' => (1, format!("{} ~ {}", child(0, 1), child(1, 2))),
            '#' => (2, format!("#t = {}", child(0, 3))),
            '!' => (3, format!("!{}", child(0, 3))),
            '*' => (4, format!("{}*", child(0, 4))),
            'P' => (4, format!("PUSH({})", child(0, 0))),
            _ => (4, "a".to_string()),
        };
        if own < wanted {
            return format!("({text})");
        }
        text
    }
}

/// Every such tree of up to seven nodes.
#[test]
fn all_small_trees() {
    let mut by_size = vec![vec![], vec![Tree { form: 'a', children: vec![] }]];
    for size in 2..=7 {
        let mut made = Vec::new();
        for child in &by_size[size - 1] {
            made.extend("!*P#".chars().map(|form| Tree { form, children: vec![child.clone()] }));
        }
        for first in 1..size - 1 {
            for left in &by_size[first] {
                for right in &by_size[size - 1 - first] {
                    let children = vec![left.clone(), right.clone()];
                    made.extend("~|".chars().map(|form| Tree { form, children: children.clone() }));
                }
            }
        }
        by_size.push(made);
    }
    let (mut trees, mut pairs) = (0, 0);
    for tree in by_size.into_iter().flatten() {
        pairs += writes(&tree.source(), &tree.short(0));
        trees += 1;
    }
    assert_eq!((trees, pairs), (16_767, 17_030));
}
