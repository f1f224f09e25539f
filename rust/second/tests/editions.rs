//! A minimum above its maximum: read by the first edition, 15 by the second.

use second::broken::random;
use second::pairs::{self, Pairs};
use second::print::{print, print_short};
use second::read::{read, read_edition, tables, tables_edition, Edition, Tables};
use second::Refusal;

fn answer(text: &str, tagged: bool, edition: Edition) -> Option<(u64, u64)> {
    let read = tables_edition(text.as_bytes(), tagged, edition);
    read.err().map(|refusal| (refusal.number, refusal.place))
}

/// By the first edition, by the second, and by the second at the plain level.
fn answers(text: &str, wanted: [Option<(u64, u64)>; 3]) {
    let found = [
        answer(text, true, Edition::First),
        answer(text, true, Edition::Second),
        answer(text, false, Edition::Second),
    ];
    assert_eq!(found, wanted, "{text}");
}

/// Read by the first edition, 15 by the second, at both levels.
fn above(text: &str, place: u64) {
    answers(text, [None, Some((15, place)), Some((15, place))]);
}

fn the_same(text: &str, wanted: Option<(u64, u64)>) {
    answers(text, [wanted; 3]);
    assert_eq!(answer(text, false, Edition::First), wanted, "{text}");
}

#[test]
fn the_examples() {
    above("r={a{2,1}}", 5);
    the_same("r={a{5, 0}}", Some((6, 8)));
    the_same("r={a{4294967296, 1}}", Some((5, 5)));
    answers("r={a{3,2}{0}}", [Some((6, 10)), Some((15, 5)), Some((15, 5))]);
    the_same("r={a{0}{3,2}}", Some((6, 5)));
    answers(r#"r={PUSH_LITERAL("x"){3,2}}"#, [None, Some((15, 21)), Some((13, 3))]);
    answers(r#"r={a{2,1}~"\u{d800}"}"#, [Some((8, 11)), Some((15, 5)), Some((15, 5))]);
    the_same("r={PEEK[3..2]}", None);
    // P5 is the first edition's.
    above("r={a{3,2}}", 5);
    the_same("r={a{0,}}", None);
    the_same("r={a{0}}", Some((6, 5)));
    the_same("r={a{,0}}", Some((6, 6)));
}

#[test]
fn by_value() {
    for equal in ["{2,2}", "{02,2}", "{2,002}", "{4294967295,4294967295}", "{1, 00001}"] {
        the_same(&format!("r={{a{equal}}}"), None);
    }
    for below in ["{0,1}", "{1,2}", "{9,10}", "{99,100}", "{2,03}", "{0,4294967295}", "{000,1}"] {
        the_same(&format!("r={{a{below}}}"), None);
    }
    for more in ["{2,1}", "{03,2}", "{3,02}", "{10,9}", "{100,99}", "{4294967295,4294967294}"] {
        above(&format!("r={{a{more}}}"), 5);
    }
    above(&format!("r={{a{{{}3,2}}}}", "0".repeat(60_000)), 5);
    the_same(&format!("r={{a{{2,{}3}}}}", "0".repeat(60_000)), None);
    // A lone number is in no pair.
    for lone in ["{3}", "{3,}", "{,2}", "{3}{2}", "{3,}{2}", "{3}{,2}", "{3,}{,2}"] {
        the_same(&format!("r={{a{lone}}}"), None);
    }
}

/// The place is the minimum's, whatever stands around it.
#[test]
fn places() {
    above("r={a { 3 , 2 } }", 7);
    above("r={a{/*9,*/3/*,1*/,// 4\n2}}", 11);
    above("r={a{\r\n03\n,\n2}}", 7);
    above("r={(a{3,2})}", 6);
    above("r={\"µ\"{3,2}}", 8);
    above("r={a{1,2}~(b|c{2,2}{4,3})*}", 20);
    above("r={a} s={b{3,2}} t={c{3,2}}", 11);
    above("r={#t=!a*{7,6}?}", 10);
    above("r={PUSH(a{3,2})}", 10);
    the_same("r={\"{3,2}\"~^\"{3,2}\"} // {3,2}\n/// {3,2}\n", None);
}

/// 5 and 6 of the pair's own numbers come first, others by their place.
#[test]
fn order() {
    the_same("r={a{4294967296,4294967295}}", Some((5, 5)));
    the_same("r={a{5,4294967296}}", Some((5, 7)));
    the_same("r={a{4294967297,4294967296}}", Some((5, 5)));
    the_same("r={a{4294967296,0}}", Some((5, 5)));
    the_same("r={a{5,00}}", Some((6, 7)));
    the_same("r={a{0,0}}", Some((6, 7)));
    the_same("r={a{5,0}{3,2}}", Some((6, 7)));
    the_same("r={a{3,0}~b{3,2}}", Some((6, 7)));
    the_same("r={PEEK[2147483648..]{3,2}}", Some((7, 8)));
    answers("r={a{3,2}~PEEK[2147483648..]}", [Some((7, 15)), Some((15, 5)), Some((15, 5))]);
    the_same(r#"r={"\u{d800}"{3,2}}"#, Some((8, 4)));
    answers("r={a{3,2}{4294967296}}", [Some((5, 10)), Some((15, 5)), Some((15, 5))]);
    answers("r={a{3,2}{5,0}}", [Some((6, 12)), Some((15, 5)), Some((15, 5))]);
    answers(r#"r={a{3,2}~PUSH_LITERAL("x")}"#, [None, Some((15, 5)), Some((15, 5))]);
    assert_eq!(answer(r#"r={a{3,2}~PUSH_LITERAL("x")}"#, false, Edition::First), Some((13, 10)));
    // Tokens and structure come before all values.
    the_same("r={a{3,2}", Some((4, 9)));
    the_same("r={a{3,2}}%", Some((3, 10)));
    the_same("r={a{3,2,1}}", Some((4, 8)));
    the_same("r={a{3,-2}}", Some((4, 7)));
    // Room comes behind them.
    let room = |edition| {
        let refusal = read_edition(b"r={a{3,2}}", true, edition, &mut [], &mut [], &mut []);
        refusal.map_err(|refusal| refusal.number)
    };
    assert_eq!((room(Edition::First), room(Edition::Second)), (Err(12), Err(15)));
}

/// What is read is the same, and a refusal changes nothing.
#[test]
fn buffers() {
    let (mut nodes, mut rules, mut store) = ([7; 14], [7; 6], [7; 2]);
    let refusal = Err(Refusal { number: 15, place: 5 });
    let text = b"r={a{3,2}}";
    let second = read_edition(text, true, Edition::Second, &mut nodes, &mut rules, &mut store);
    assert_eq!((second, nodes, rules, store), (refusal, [7; 14], [7; 6], [7; 2]));
    let first = read(text, true, &mut nodes, &mut rules, &mut store).expect("read");
    assert_eq!((first.nodes, first.rules, first.store), (2, 1, 2));
    assert_eq!(nodes[7..], [16, 3, 9, 0, 3, 2, 1]);
    let text = b"r={a{2,3}}";
    let used = read_edition(text, true, Edition::Second, &mut nodes, &mut rules, &mut store);
    assert_eq!(used, Ok(first));
    assert_eq!(nodes[7..], [16, 3, 9, 0, 2, 3, 1]);
}

/// Printers know no edition: a pair prints in any order, and only the second edition refuses it.
#[test]
fn printed() {
    let Tables { nodes, rules, store } = tables(b"r={a{3,2}}", true).expect("read");
    for print in [print, print_short] {
        let mut out = [0; 32];
        let length = print(&nodes, &rules, &store, &mut out).expect("printed");
        let text = std::str::from_utf8(&out[..length]).expect("UTF-8");
        assert_eq!(text, "r = { a{3, 2} }\n");
        above(text, 8);
    }
}

/// A made text against what is known of it.
fn check(made: &Pairs) -> [Option<u64>; 4] {
    let shown = String::from_utf8_lossy(&made.text);
    let mut numbers = [None; 4];
    let mut trees = Vec::new();
    for (i, (tagged, edition)) in [
        (true, Edition::First),
        (true, Edition::Second),
        (false, Edition::First),
        (false, Edition::Second),
    ]
    .into_iter()
    .enumerate()
    {
        let read = tables_edition(&made.text, tagged, edition);
        let due = made.refusal(tagged, edition);
        assert_eq!(read.as_ref().err(), due.as_ref(), "{tagged} {edition:?} {shown} {made:?}");
        numbers[i] = due.map(|refusal| refusal.number);
        if edition == Edition::First {
            assert_eq!(read, tables(&made.text, tagged), "{shown}");
        }
        trees.push(read.ok());
    }
    for level in trees.chunks(2) {
        if let [Some(first), Some(second)] = level {
            assert_eq!(first, second, "{shown}");
        }
    }
    // No tree that the second edition reads has a minimum above its maximum.
    if let Some(read) = &trees[1] {
        assert!(read.nodes.chunks(7).all(|node| node[0] != 16 || node[4] <= node[5]), "{shown}");
    }
    numbers
}

#[test]
fn made_texts() {
    let mut below = random(15);
    let (mut seen, mut pairs) = ([0u64; 16], [0u64; 3]);
    for _ in 0..200_000 {
        let made = pairs::text(&mut below);
        let numbers = check(&made);
        seen[numbers[1].unwrap_or(0) as usize] += 1;
        for (sum, count) in pairs.iter_mut().zip(made.pairs) {
            *sum += count;
        }
    }
    // Each answer is met often, and each order of a pair.
    for number in [0, 5, 6, 7, 8, 15] {
        assert!(seen[number] > 4_000, "{number}: {seen:?}");
    }
    assert!(pairs.iter().all(|count| *count > 50_000), "{pairs:?}");
}

/// Every row of a few pieces: the second edition differs by 15 alone.
#[test]
fn all_short_rows() {
    const PIECES: [&str; 10] = ["{", "}", ",", "0", "1", "2", "10", " ", "{0}", "{2,1}"];
    let mut rows = vec![String::new()];
    let mut above = [0, 0];
    for _ in 0..5 {
        rows = rows.iter().flat_map(|row| PIECES.map(|piece| format!("{row}{piece}"))).collect();
        for row in &rows {
            let text = format!("r={{a{row}}}");
            let [first, second] =
                [Edition::First, Edition::Second].map(|edition| answer(&text, true, edition));
            if second == first {
                continue;
            }
            let Some((15, place)) = second else { panic!("{text}: {second:?}") };
            match first {
                None => above[0] += 1,
                Some((5 | 6, further)) if further > place => above[1] += 1,
                _ => panic!("{text}: {first:?}"),
            }
            // The pair, from its minimum on.
            let mut pair = text[place as usize..].split(['}', ',']).map(|digits| {
                let digits = digits.trim();
                digits.parse::<u64>().expect("a number")
            });
            let (least, most) = (pair.next(), pair.next());
            assert!(Some(0) < most && most < least, "{text}");
        }
    }
    assert!(above[0] > 900 && above[1] > 400, "{above:?}");
}
