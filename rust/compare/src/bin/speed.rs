//! Measures, in one run: reading by pest 2.5.2, by the given files of 2.9.5, by the second program
//! and (feature `product`) by the product; printing by `Display`, by the second program and by
//! the product, and of three layouts and of random trees by a printer by hand in Rust too; lines matched by
//! parsers that pest 2.5.2 generates, by a matcher by hand in Rust and by the product; and tokens of a
//! whole text by the second program, of one in packets by the product.
//! `--only PART` (layouts, random, tables, lines, tokens); `--seed N`; `--ms N`, milliseconds for each
//! line (default 1,000); `--sample N`, microseconds that a work runs before the next takes its turn
//! (default 5,000). `--instructions` counts instructions in the place of time, by callgrind.

use std::hint::black_box;
use std::time::Duration;

use compare::instructions::by_callgrind;
use compare::layouts::{Layout, LAYOUTS};
use compare::timing::{heading, held_to, measure, Work};
use compare::{argument, asked, by_hand, on_stack, Random};
use oracle::{Answer, Printable, Tables};
use second::{NODE_RECORD, RULE_RECORD};

/// A grammar of so many bytes, such as people write: it passes 2.5.2's validator, since every rule
/// begins with a string and names later rules only.
fn grammar(random: &mut Random, bytes: usize) -> String {
    let mut text = String::new();
    let mut number = 0;
    while text.len() < bytes - 150 {
        let next = rule(random, number);
        if bytes < text.len() + next.len() {
            break;
        }
        text.push_str(&next);
        number += 1;
    }
    while text.len() < bytes {
        text.push('\n');
    }
    text
}

fn rule(random: &mut Random, number: usize) -> String {
    let mut text = String::new();
    text.push_str("// A field of the line, as the camera sends it: the key first, then\n");
    text.push_str("// what belongs to it /* and a remark */\n");
    let mark = random.of(&["", "", "", "_", "@", "$"]);
    text.push_str(&format!("field_number_{number} = {mark}{{\n    \"key{number}\""));
    for _ in 0..1 + random.below(4) {
        // What can't fail may not stand before `|`.
        let bar = random.one_in(3);
        text.push_str(if bar { "\n  | " } else { " ~ " });
        let later = number + 1 + random.below(20);
        text.push_str(&match random.below(if bar { 6 } else { 8 }) {
            0 => format!("field_number_{later}"),
            1 => "'0'..'9'+".to_string(),
            2 => "!\"end of line\"".to_string(),
            3 => "('a'..'z' | 'A'..'Z' | \"_\"){2, 8}".to_string(),
            4 => "\"\\u{41}m \\\"quoted\\\"\"".to_string(),
            5 => format!("&(field_number_{later} ~ \":\")"),
            6 => "^\"Unit\"?".to_string(),
            _ => format!("(\"value\" ~ field_number_{later} | \"none\")*"),
        });
    }
    text.push_str("\n}\n");
    text
}

fn main() {
    if asked("--instructions") {
        by_callgrind(held_to).expect("valgrind");
        return;
    }
    let seed = argument("--seed", 1);
    let budget = Duration::from_millis(argument("--ms", 1_000));
    println!("{}", heading(seed));
    let only = std::env::args().skip_while(|a| a != "--only").nth(1);
    let wanted = |part: &str| match &only {
        Some(only) => only == part,
        None => true,
    };
    on_stack(1 << 30, || {
        #[cfg(feature = "product")]
        if wanted("layouts") {
            compare::printed::layouts(budget);
        }
        #[cfg(feature = "product")]
        if wanted("random") {
            compare::printed::random_trees(seed, budget);
        }
        let mut random = Random(seed);
        if wanted("tables") {
            for bytes in [1_024, 10_240, 65_536] {
                let text = grammar(&mut random, bytes);
                one(&text, budget);
            }
        }
        if wanted("lines") {
            // the same lines, whatever else is measured
            let mut random = Random(seed);
            for layout in &LAYOUTS {
                lines(layout, &mut random, budget);
            }
            names(budget);
        }
        #[cfg(feature = "product")]
        if wanted("tokens") {
            let mut random = Random(seed);
            for bytes in [1_024, 10_240, 65_536] {
                tokens(grammar(&mut random, bytes).as_bytes(), budget);
            }
        }
    });
}

/// The tokens of a text into a list of records, by the second program; how many there are.
#[cfg(feature = "product")]
fn list_whole(text: &[u8], list: &mut [u32]) -> usize {
    use second::token::{next, Next};
    std::str::from_utf8(text).expect("UTF-8");
    let (mut place, mut count) = (0, 0);
    loop {
        match next(text, place) {
            Next::Token(token) => {
                let record = [u32::from(token.kind), token.start, token.end];
                list[3 * count..][..3].copy_from_slice(&record);
                (place, count) = (token.end as usize, count + 1);
            }
            Next::End => return count,
            Next::Bad(place) => panic!("no token at {place}"),
        }
    }
}

/// The same in packets of so many bytes, by the product.
#[cfg(feature = "product")]
fn list_arriving(text: &[u8], size: usize, list: &mut [u32]) -> usize {
    use flascjuvan::raw::{feed, feed_end};
    let mut state = [0; 10];
    for packet in text.chunks(size) {
        assert_eq!(feed(&mut state, packet, list)[0], 0);
    }
    let [number, _, records] = feed_end(&mut state, list);
    assert_eq!(number, 0);
    records as usize
}

/// A text's tokens, whole and in packets.
#[cfg(feature = "product")]
fn tokens(text: &[u8], budget: Duration) {
    let mut wanted = vec![0; 3 * text.len()];
    let count = list_whole(text, &mut wanted);
    println!("\ntokens of {} bytes: {count}", text.len());
    let mut lists = vec![wanted.clone(); 5];
    let mut works: Vec<Work<'_>> = Vec::new();
    for ((name, size), list) in [
        ("second program, whole", 0),
        ("the product, packets of 4,096", 4_096),
        ("the product, packets of 512", 512),
        ("the product, packets of 64", 64),
        ("the product, packets of 1", 1),
    ]
    .into_iter()
    .zip(&mut lists)
    {
        if size == 0 {
            works.push((
                name,
                Box::new(move || assert_eq!(list_whole(black_box(text), list), count)),
            ));
            continue;
        }
        list.fill(0);
        assert_eq!(list_arriving(text, size, list), count);
        assert_eq!(*list, wanted);
        works.push((
            name,
            Box::new(move || assert_eq!(list_arriving(black_box(text), size, list), count)),
        ));
    }
    measure(budget, text.len(), works);
}

/// Lines of a text that is matched.
const LINES: usize = 1_000;
/// Enough for every line.
const ALLOWANCE: u64 = 1_000_000;

/// A layout over lines of 40 to 200 bytes, one in ten of them damaged.
fn lines(layout: &Layout, random: &mut Random, budget: Duration) {
    let made = second::read::tables(layout.text.as_bytes(), true).expect("a good text");
    let (nodes, rules, store) = (&made.nodes[..], &made.rules[..], &made.store[..]);
    let lines: Vec<String> = (0..LINES)
        .map(|_| {
            let mut line = (layout.line)(random);
            if random.one_in(10) {
                let mut all: Vec<char> = line.chars().collect();
                let at = random.below(all.len());
                all[at] = '#';
                line = all.into_iter().collect();
            }
            assert!((40..=200).contains(&line.len()), "{}: {line}", line.len());
            line
        })
        .collect();
    let text: String = lines.iter().map(|line| format!("{line}\n")).collect();
    let (text, bytes) = (text.as_bytes(), text.len());
    let wanted = second::matching::match_lines(nodes, rules, store, 0, text, ALLOWANCE);
    let wanted = wanted.expect("it runs");
    let mut records = vec![0; 5 * LINES];
    let answer = by_hand::match_lines(nodes, rules, store, 0, text, ALLOWANCE, &mut records);
    assert_eq!(answer, [0, 0, LINES as u64, bytes as u64]);
    for ((line, wanted), record) in lines.iter().zip(&wanted).zip(records.chunks_exact(5)) {
        let length = (wanted.matched == 1).then_some(wanted.length as usize);
        assert_eq!((layout.pest)(line), length, "{line}");
        let numbers = [0, 0, wanted.matched, wanted.length, wanted.steps];
        assert_eq!(record, numbers, "{line}");
        let one = by_hand::match_line(nodes, rules, store, 0, line.as_bytes(), ALLOWANCE);
        assert_eq!(one, numbers);
    }
    let steps: u64 = wanted.iter().map(|record| record.steps).sum();
    let matched = wanted.iter().filter(|record| record.matched == 1).count();
    let whole =
        wanted.iter().zip(&lines).filter(|(record, line)| record.length == line.len() as u64);
    println!(
        "\nmatching, {} layout: {} nodes, {} rules; {LINES} lines, {} bytes a line, {} steps a line, {matched} matched, {} wholly",
        layout.name,
        nodes.len() / NODE_RECORD,
        rules.len() / RULE_RECORD,
        (bytes - LINES) / LINES,
        steps / LINES as u64,
        whole.count(),
    );
    #[cfg(feature = "product")]
    let mut records2 = records.clone();
    #[allow(unused_mut)]
    let mut works: Vec<Work<'_>> = vec![
        (
            "pest 2.5.2: P::parse, line by line",
            Box::new(|| {
                for line in &lines {
                    black_box((layout.pest)(black_box(line)));
                }
            }),
        ),
        (
            "by hand in Rust: match_lines",
            Box::new(|| {
                let answer = by_hand::match_lines(
                    black_box(nodes),
                    rules,
                    store,
                    0,
                    text,
                    ALLOWANCE,
                    &mut records,
                );
                assert_eq!(black_box(answer)[2], LINES as u64);
            }),
        ),
        (
            "by hand in Rust: match_line",
            Box::new(|| {
                for line in &lines {
                    let line = black_box(line).as_bytes();
                    black_box(by_hand::match_line(nodes, rules, store, 0, line, ALLOWANCE));
                }
            }),
        ),
    ];
    #[cfg(feature = "product")]
    {
        use compare::product::{match_into, match_lines_into};
        let answer = match_lines_into(nodes, rules, store, 0, text, ALLOWANCE, &mut records2);
        assert_eq!(answer, [0, 0, LINES as u64, bytes as u64]);
        for (record, wanted) in records2.chunks_exact(5).zip(&wanted) {
            assert_eq!(record, [0, 0, wanted.matched, wanted.length, wanted.steps]);
        }
        works.push((
            "the product: match_lines",
            Box::new(|| {
                let nodes = black_box(nodes);
                let answer =
                    match_lines_into(nodes, rules, store, 0, text, ALLOWANCE, &mut records2);
                assert_eq!(black_box(answer)[2], LINES as u64);
            }),
        ));
        works.push((
            "the product: match_line",
            Box::new(|| {
                for line in &lines {
                    let line = black_box(line).as_bytes();
                    black_box(match_into(nodes, rules, store, 0, line, ALLOWANCE));
                }
            }),
        ));
    }
    for one in measure(budget, bytes, works) {
        let best = one.samples[0].as_secs_f64();
        print!("    {:<36} best: {:>8.1} ns a line", one.name, best * 1e9 / LINES as f64);
        // pest makes no such steps
        if !held_to(&one.name) {
            print!(", {:>6.1} million steps a second", steps as f64 / best / 1e6);
        }
        println!();
    }
}

/// As many names as fit beside 1,000 rules: what a call costs before it matches anything.
fn names(budget: Duration) {
    let mut random = Random(5);
    let mut text = String::new();
    let mut name = || format!("field_number_{}", random.below(1_000));
    let mut names = 0;
    for rule in 0..1_000 {
        // 4,096 nodes: 2,548 names and what joins them
        let count = if rule < 548 { 3 } else { 2 };
        let of: Vec<String> = (0..count).map(|_| name()).collect();
        names += count;
        text.push_str(&format!("field_number_{rule}={{{}}}\n", of.join("~")));
    }
    // the first rule has nothing to look for
    let made = second::read::tables(text.as_bytes(), true).expect("a good text");
    let (nodes, rules, store) = (&made.nodes[..], &made.rules[..], &made.store[..]);
    println!(
        "\na call over {} rules and {names} names in {} nodes, 1 step allowed, {} bytes kept",
        rules.len() / RULE_RECORD,
        nodes.len() / NODE_RECORD,
        store.len()
    );
    let wanted = [34, 0, 0, 0, 0];
    assert_eq!(by_hand::match_line(nodes, rules, store, 0, b"", 1), wanted);
    #[allow(unused_mut)]
    let mut works: Vec<Work<'_>> = vec![(
        "by hand in Rust: match_line",
        Box::new(|| {
            black_box(by_hand::match_line(black_box(nodes), rules, store, 0, b"", 1));
        }),
    )];
    #[cfg(feature = "product")]
    {
        use compare::product::{match_into, print_into};
        assert_eq!(match_into(nodes, rules, store, 0, b"", 1), wanted);
        works.push((
            "the product: match_line",
            Box::new(|| {
                black_box(match_into(black_box(nodes), rules, store, 0, b"", 1));
            }),
        ));
        // with a node that is 31 no name is looked up
        let mut unfit = nodes.to_vec();
        unfit[0] = 18;
        assert_eq!(match_into(&unfit, rules, store, 0, b"", 1), [31, 0, 0, 0, 0]);
        works.push((
            "the product: refused by 31 at once",
            Box::new(move || {
                black_box(match_into(black_box(&unfit), rules, store, 0, b"", 1));
            }),
        ));
        // as much for the printer, which checks the tables alone before it finds no room
        works.push((
            "the product: print into no room",
            Box::new(|| {
                black_box(print_into(black_box(nodes), rules, store, &mut []));
            }),
        ));
    }
    measure(budget, store.len(), works);
}

fn one(text: &str, budget: Duration) {
    let bytes = text.as_bytes();
    let made = second::read::tables(bytes, true).expect("a good text");
    let made = Tables { nodes: made.nodes, rules: made.rules, store: made.store };
    let (n, r) = (made.nodes.len() / NODE_RECORD, made.rules.len() / RULE_RECORD);
    assert!(n <= 4_096 && r <= 1_024, "within the limits: {n} nodes, {r} rules");
    let Answer::Read(given) = oracle::read(text, true) else { panic!("the given files refuse") };
    assert_eq!(Tables::of(&given), made);
    let Answer::Read(real) = oracle::real::read(text) else { panic!("2.5.2 refuses") };
    assert_eq!(Tables::of(&real), made.clone().without_spans());

    println!(
        "\nreading {} bytes: {n} nodes, {r} rules, {} bytes kept",
        bytes.len(),
        made.store.len()
    );
    let mut nodes = vec![0; 4_096 * NODE_RECORD];
    let mut rules = vec![0; 1_024 * RULE_RECORD];
    let mut store = vec![0; 65_536];
    #[cfg(feature = "product")]
    let (mut nodes2, mut rules2, mut store2) = (nodes.clone(), rules.clone(), store.clone());
    #[allow(unused_mut)]
    let mut works: Vec<Work<'_>> = vec![
        ("pest 2.5.2: parse", Box::new(|| oracle::real::parse(black_box(text)))),
        (
            "pest 2.5.2: parse, build, validate",
            Box::new(|| {
                black_box(oracle::real::build(black_box(text)));
            }),
        ),
        (
            "given files of 2.9.5: parse, build",
            Box::new(|| {
                black_box(oracle::build(black_box(text), true));
            }),
        ),
        (
            "second program, by hand in Rust",
            Box::new(|| {
                let used =
                    second::read::read(black_box(bytes), true, &mut nodes, &mut rules, &mut store);
                black_box(used).expect("read");
            }),
        ),
    ];
    #[cfg(feature = "product")]
    works.push((
        "the product",
        Box::new(|| {
            use compare::product::read_into;
            let answer = read_into(black_box(bytes), true, &mut nodes2, &mut rules2, &mut store2);
            assert_eq!(black_box(answer)[0], 0);
        }),
    ));
    measure(budget, bytes.len(), works);

    let (nodes, rules, store) = (&made.nodes[..], &made.rules[..], &made.store[..]);
    let printable = Printable::of(nodes, rules, store);
    let printed = printable.print();
    let mut out = vec![0; 1 << 20];
    let length = second::print::print(nodes, rules, store, &mut out).expect("printed");
    let alike = printed.as_bytes() == &out[..length];
    println!("printing {length} bytes: {n} nodes; `Display` prints alike: {alike}");
    #[cfg(feature = "product")]
    let (mut out2, mut out3) = (out.clone(), out.clone());
    #[allow(unused_mut)]
    let mut works: Vec<Work<'_>> = vec![
        (
            "given files of 2.9.5: Display",
            Box::new(|| {
                black_box(black_box(&printable).print());
            }),
        ),
        (
            "second program, by hand in Rust",
            Box::new(|| {
                black_box(second::print::print(black_box(nodes), rules, store, &mut out))
                    .expect("printed");
            }),
        ),
    ];
    #[cfg(feature = "product")]
    works.push((
        "the product",
        Box::new(|| {
            let answer = compare::product::print_into(black_box(nodes), rules, store, &mut out2);
            assert_eq!(black_box(answer)[0], 0);
        }),
    ));
    // by its own text, which is another: nanoseconds a byte are those of the full text's bytes
    #[cfg(feature = "product")]
    works.push((
        "the product, the short text",
        Box::new(|| {
            let answer =
                compare::product::print_short_into(black_box(nodes), rules, store, &mut out3);
            assert_eq!(black_box(answer)[0], 0);
        }),
    ));
    measure(budget, length, works);
}
