//! Both editions: what each refuses, and that nothing else is different.

use flascjuvan::{print, raw, read, read_edition, Edition, Grammar, Level, Reason, Refusal};

use crate::{tagged, EVERY_KIND};

/// What both editions answer to a text: 0, or the number and the place.
fn answers(text: &str, level: Level) -> [(u64, usize); 2] {
    [Edition::First, Edition::Second].map(|edition| match read_edition(text, level, edition) {
        Ok(_) => (0, 0),
        Err(refusal) => (refusal.number(), refusal.place),
    })
}

#[test]
fn a_minimum_above_its_maximum() {
    for (text, first, second) in [
        ("r={a{2,1}}", (0, 0), (15, 5)),
        ("r={a{2,2}}", (0, 0), (0, 0)),
        ("r={a{1,2}}", (0, 0), (0, 0)),
        ("r={a{0,1}}", (0, 0), (0, 0)),
        // values count, and not spellings
        ("r={a{03,2}}", (0, 0), (15, 5)),
        ("r={a{10,9}}", (0, 0), (15, 5)),
        ("r={a{9,10}}", (0, 0), (0, 0)),
        ("r={a{4294967295,4294967294}}", (0, 0), (15, 5)),
        ("r={a{ 3 /*{*/ , // }\n 2 }}", (0, 0), (15, 6)),
        // what is wrong with one number of a pair comes first
        ("r={a{5, 0}}", (6, 8), (6, 8)),
        ("r={a{4294967296, 1}}", (5, 5), (5, 5)),
        ("r={a{2, 4294967296}}", (5, 8), (5, 8)),
        // leftmost among the others
        ("r={a{3,2}{0}}", (6, 10), (15, 5)),
        ("r={a{0}{3,2}}", (6, 5), (6, 5)),
        ("r={a{2,1}~\"\\u{d800}\"}", (8, 11), (15, 5)),
        ("r={\"\\u{d800}\"{2,1}}", (8, 4), (8, 4)),
        ("r={PEEK[2147483648..]{3,2}}", (7, 8), (7, 8)),
        // no pair
        ("r={PEEK[3..2]}", (0, 0), (0, 0)),
        ("r={a{3,}{,2}}", (0, 0), (0, 0)),
        // behind tokens and structure
        ("r={a{3,2}~}", (4, 10), (4, 10)),
        ("r={a{3,2}%}", (3, 9), (3, 9)),
    ] {
        for level in [Level::Tagged, Level::Plain] {
            assert_eq!(answers(text, level), [first, second], "{text} {level:?}");
        }
    }
    let pushed = "r={PUSH_LITERAL(\"x\"){3,2}}";
    assert_eq!(answers(pushed, Level::Tagged), [(0, 0), (15, 21)]);
    assert_eq!(answers(pushed, Level::Plain), [(13, 3), (13, 3)]);
    let pushed = "r={a{3,2}~PUSH_LITERAL(\"x\")}";
    assert_eq!(answers(pushed, Level::Plain), [(13, 10), (15, 5)]);
}

#[test]
fn the_refusal_in_words() {
    let refusal = read_edition("r = { a{3, 2} }", Level::Tagged, Edition::Second).expect_err("refused");
    assert_eq!(refusal, Refusal { reason: Reason::Above, place: 8 });
    assert_eq!(refusal.to_string(), "refused 15 at 8");
    assert_eq!(refusal.meaning(), "a repeat whose minimum is above its maximum");
    assert_eq!(refusal.line_column("r = { a{3, 2} }").expect("a place").to_string(), "1:9");
}

#[test]
fn trees_know_no_edition() {
    let ordered: Vec<_> = EVERY_KIND.iter().filter(|body| **body != "a{3, 2}").collect();
    assert_eq!(ordered.len() + 1, EVERY_KIND.len());
    for body in ordered {
        let text = format!("r = {{ {body} }}");
        let by = |edition| read_edition(&text, Level::Tagged, edition).expect(&text);
        assert_eq!(by(Edition::First), by(Edition::Second));
        assert_eq!(by(Edition::First), tagged(&text));
    }
}

/// What was there reads by the first edition, and nothing but a reading asks for one.
#[test]
fn what_was_there_is_the_first() {
    let text = "r = { \"a\"{3, 2} }\n";
    let grammar: Grammar = text.parse().expect("read");
    assert_eq!(read(text, Level::Plain), Ok(grammar.clone()));
    assert_eq!(print(&grammar).as_deref(), Ok(text));
    assert_eq!(Grammar::from(grammar.rules()).to_string(), text);
    // it can't be run, at any edition
    assert_eq!(grammar.match_line("r", "a", 9), Err(Refusal { reason: Reason::Unfit, place: 1 }));
}

/// In C's numbers 0 and 1 are the first edition, all others the second.
#[test]
fn editions_by_number() {
    let text = b"r={a{3,2}}";
    for (edition, number) in [(0, 0), (1, 0), (2, 15), (3, 15), (u32::MAX, 15)] {
        let (mut nodes, mut rules, mut store) = ([7; 14], [7; 6], [7; 2]);
        let answer = raw::read_edition(text, true, edition, &mut nodes, &mut rules, &mut store);
        if number == 0 {
            assert_eq!(answer, [0, 0, 2, 1, 2], "{edition}");
            assert_eq!(nodes, [4, 3, 4, 1, 1, 0, 1, 16, 3, 9, 0, 3, 2, 1]);
            assert_eq!((rules, &store), ([0, 1, 0, 1, 0, 1], b"ra"));
        } else {
            assert_eq!(answer, [15, 5, 0, 0, 0], "{edition}");
            assert_eq!((nodes, rules, store), ([7; 14], [7; 6], [7; 2]), "a refusal changes nothing");
        }
    }
    // 15 comes before room
    assert_eq!(raw::read_edition(text, true, 2, &mut [], &mut [], &mut []), [15, 5, 0, 0, 0]);
    assert_eq!(raw::read_edition(text, true, 1, &mut [], &mut [], &mut []), [12, 0, 0, 0, 0]);
    assert_eq!([Edition::First, Edition::Second].map(Edition::number), [1, 2]);
}
