//! The product's matcher against the second program's: every number of every answer, over tables
//! good, unfit and false, lines whole and broken, and allowances on both sides of what is needed.

use std::collections::BTreeMap;

use oracle::Tables;
use second::matching::{lines, match_line, match_lines, record, Record};
use second::{Refusal, NODE_RECORD, RULE_RECORD};

use crate::lines::{spoilt, text, Liner, Maker};
use crate::product::{match_into, match_lines_into, rule_named, Lent};
use crate::tables::{falsified, limits, Characters, Grower};
use crate::{by_hand, shown, used, Random};

/// More steps than most need. What needs more is asked with no more, since it may be endless.
const AMPLE: u64 = 4_000;
const CANARY: u64 = 0x5eed_dead_beef_5eed;

/// What was asked, and what was answered.
#[derive(Default)]
struct Seen {
    tables: u64,
    /// Calls for one line, for many, and for a rule's name.
    one: u64,
    many: u64,
    named: u64,
    /// By number; a run is "matched" or "none".
    answers: BTreeMap<String, u64>,
    records: BTreeMap<String, u64>,
    different: u64,
}

fn kind(record: &Record) -> String {
    match (record.number, record.matched) {
        (0, 1) => "matched".to_string(),
        (0, _) => "none".to_string(),
        (number, _) => number.to_string(),
    }
}

fn numbers(record: &Record) -> [u64; 5] {
    [record.number, record.place, record.matched, record.length, record.steps]
}

impl Seen {
    fn fault(&mut self, what: String, tables: &Tables, text: &[u8]) {
        self.different += 1;
        if self.different <= 20 {
            println!("DIFFERENT: {what}: {} by {tables:?}", shown(text));
        }
    }

    /// One call, and the answer on which all agree. Where they don't, no more is to be asked: what ends
    /// by one may be endless by the other.
    fn ask(
        &mut self,
        tables: &Tables,
        start: usize,
        line: &[u8],
        allowance: u64,
    ) -> Option<Record> {
        let Tables { nodes, rules, store } = tables;
        let wanted = record(match_line(nodes, rules, store, start, line, allowance));
        let answer = match_into(nodes, rules, store, start, line, allowance);
        self.one += 1;
        *self.answers.entry(kind(&wanted)).or_default() += 1;
        if answer != numbers(&wanted) {
            let what = format!("rule {start}, allowance {allowance}: {answer:?} for {wanted:?}");
            self.fault(what, tables, line);
            return None;
        }
        // What speed is held to has to answer the same.
        let by_hand = by_hand::match_line(nodes, rules, store, start, line, allowance);
        if by_hand != numbers(&wanted) {
            self.fault(format!("by hand, {by_hand:?} for {wanted:?}"), tables, line);
            return None;
        }
        Some(wanted)
    }

    /// A line with allowances around what it needs.
    fn ask_around(&mut self, random: &mut Random, tables: &Tables, start: usize, line: &[u8]) {
        let Some(answer) = self.ask(tables, start, line, AMPLE) else { return };
        match answer.number {
            0 => {
                let steps = answer.steps;
                for allowance in [steps - 1, steps, steps + 1] {
                    self.ask(tables, start, line, allowance);
                }
                let other = random.of(&[0, 1, steps / 2, 2 * steps, u64::MAX, u64::MAX - 1]);
                self.ask(tables, start, line, other);
            }
            34 => {
                let less = random.below(AMPLE as usize) as u64;
                for allowance in [0, 1 + random.below(40) as u64, less] {
                    self.ask(tables, start, line, allowance);
                }
            }
            _ => {
                let allowance = random.of(&[0, 1, u64::MAX]);
                self.ask(tables, start, line, allowance);
            }
        }
    }

    /// A text of lines, in one room; with going on, until all its lines are run.
    fn ask_lines(
        &mut self,
        tables: &Tables,
        start: usize,
        text: &[u8],
        allowance: u64,
        room: usize,
        go_on: bool,
    ) {
        let Tables { nodes, rules, store } = tables;
        let wanted = match_lines(nodes, rules, store, start, text, allowance);
        let mut from = 0;
        let mut done = 0;
        loop {
            let mut records = Lent::new(room, CANARY);
            let rest = &text[from..];
            let answer =
                match_lines_into(nodes, rules, store, start, rest, allowance, records.lent());
            self.many += 1;
            let (expected, used) = match &wanted {
                Err(Refusal { number, place }) => {
                    *self.answers.entry(number.to_string()).or_default() += 1;
                    ([*number, *place, 0, 0], Vec::new())
                }
                Ok(all) => {
                    let fit = (all.len() - done).min(room / 5);
                    let next = after_lines(rest, fit);
                    let used = &all[done..done + fit];
                    for record in used {
                        *self.records.entry(kind(record)).or_default() += 1;
                    }
                    ([0, 0, fit as u64, next as u64], used.iter().flat_map(numbers).collect())
                }
            };
            if answer != expected || !records.holds(&used, CANARY) {
                let what = format!(
                    "rule {start}, allowance {allowance}, room {room}, from {from}: {answer:?} for {expected:?}"
                );
                return self.fault(what, tables, text);
            }
            let ran = expected[2] as usize;
            if !go_on || ran == 0 {
                break;
            }
            done += ran;
            from += expected[3] as usize;
        }
    }

    fn ask_named(&mut self, tables: &Tables, name: &[u8]) {
        let Tables { nodes, rules, store } = tables;
        let wanted = if second::print::check(nodes, rules, store).is_err() {
            [30, 0, 0]
        } else {
            let mut names = rules
                .chunks_exact(RULE_RECORD)
                .map(|rule| &store[rule[0] as usize..][..rule[1] as usize]);
            names.position(|it| it == name).map_or([32, 0, 0], |rule| [0, 0, rule as u64])
        };
        let answer = rule_named(nodes, rules, store, name);
        self.named += 1;
        if answer != wanted {
            self.fault(format!("the name: {answer:?} for {wanted:?}"), tables, name);
        }
    }
}

/// Where the line begins that comes after so many.
fn after_lines(text: &[u8], count: usize) -> usize {
    let mut ends = text.iter().enumerate().filter(|(_, byte)| **byte == b'\n');
    match count {
        0 => 0,
        _ => ends.nth(count - 1).map_or(text.len(), |(end, _)| end + 1),
    }
}

/// One set of tables: lines, texts and names.
fn tables(seen: &mut Seen, random: &mut Random, made: &Tables, characters: &[char], much: usize) {
    seen.tables += 1;
    let rules = used(made).rules;
    for _ in 0..much {
        let start = match random.below(30) {
            0 => random.of(&[rules, rules + 1, usize::MAX, 1_024, 1 << 32]),
            _ => random.below(rules.max(1)),
        };
        let mut line = Liner::new(random, characters).line(made, start);
        if random.one_in(12) {
            Liner::new(random, characters).broken(&mut line);
        }
        seen.ask_around(random, made, start, &line);
    }
    let past = usize::from(rules == 0 || random.one_in(20));
    let start = random.below(rules + past);
    let lines_of = text(random, characters, made, start);
    let allowance = random.of(&[AMPLE, AMPLE, 200, 30, 5, 0]);
    let count = lines(&lines_of).len();
    for _ in 0..1 + much / 3 {
        let room = 5 * random.below(count + 2) + random.of(&[0, 0, 1, 4]);
        let go_on = random.one_in(2);
        seen.ask_lines(made, start, &lines_of, allowance, room, go_on);
    }
    let name = match made.rules.chunks_exact(RULE_RECORD).nth(start) {
        Some(rule) if random.one_in(2) => made
            .store
            .get(rule[0] as usize..)
            .and_then(|rest| rest.get(..rule[1] as usize))
            .unwrap_or(b"r"),
        _ => random.of(&[&b"r"[..], b"rr", b"ANY", b"", b"A", b"r_0x", b"\xff"]),
    };
    seen.ask_named(made, name);
}

/// Numbers without order, some of them small.
fn numbers_of(random: &mut Random) -> Tables {
    let mut some = |most: usize| -> Vec<u32> {
        let count = random.below(most);
        let number = |random: &mut Random| match random.below(4) {
            0 => random.next() as u32,
            1 => random.of(&[0, 1, u32::MAX, 6, 19, 20]),
            _ => random.below(20) as u32,
        };
        (0..count).map(|_| number(random)).collect()
    };
    let (mut nodes, mut rules) = (some(40), some(20));
    let store = some(30).into_iter().map(|number| b'a' + (number % 26) as u8).collect();
    if random.one_in(2) {
        nodes.truncate(nodes.len() / NODE_RECORD * NODE_RECORD);
        rules.truncate(rules.len() / RULE_RECORD * RULE_RECORD);
    }
    Tables { nodes, rules, store }
}

/// Nesting on both sides of 1,024 visits, by nodes and by names.
fn deep(seen: &mut Seen) {
    let of = |text: &str| {
        let read = second::read::tables(text.as_bytes(), true).expect(text);
        Tables { nodes: read.nodes, rules: read.rules, store: read.store }
    };
    let mut ask = |text: &str, line: &str, around: bool| {
        seen.tables += 1;
        let made = of(text);
        let Some(answer) = seen.ask(&made, 0, line.as_bytes(), 10_000_000) else { return };
        if around && answer.number == 0 {
            for allowance in [answer.steps - 1, answer.steps, answer.steps + 1] {
                seen.ask(&made, 0, line.as_bytes(), allowance);
            }
        }
    };
    for count in [1, 2, 1_000, 1_021, 1_022, 1_023, 1_024, 1_025, 1_026, 2_000, 3_900] {
        for sign in ["!", "&"] {
            for leaf in ["\"a\"", "ANY", "'a'..'b'", "^\"A\""] {
                for line in ["a", "b", ""] {
                    ask(&format!("r={{{}{leaf}}}", sign.repeat(count)), line, true);
                }
            }
        }
        for postfix in ["?", "{2}", "{1}", "{,2}", "{1, 1}", "{0, 1}"] {
            // twos nested over and over take steps without number, unless they are too deep
            if count > 2 && postfix == "{2}" {
                continue;
            }
            ask(&format!("r={{\"a\"{}}}", postfix.repeat(count)), "aa", true);
            ask(&format!("r={{\"a\"{}}}", postfix.repeat(count)), "b", true);
        }
        // chains of names, of left and of right joins
        if count <= 1_000 {
            let names: String = (0..count).map(|i| format!("r{i}={{r{}}}", i + 1)).collect();
            ask(&format!("{names} r{count}={{\"a\"}}"), "a", true);
        }
        for join in ["~", "|"] {
            let leaves = vec!["\"a\""; count.min(2_000)].join(join);
            ask(&format!("r={{{leaves}}}"), &"a".repeat(count), true);
            ask(&format!("r={{{leaves}}}"), "b", true);
            let open = "(\"b\"".to_string() + join;
            let right = open.repeat(count.min(1_024)) + "\"a\"" + &")".repeat(count.min(1_024));
            ask(&format!("r={{{right}}}"), "bba", true);
        }
    }
    // by recursion: three or four visits inside one another for each character
    for count in [250, 254, 255, 256, 257, 300, 338, 339, 340, 341, 342, 343, 510, 511, 512, 513] {
        for text in [
            r#"r={"a"~r|"b"}"#,
            r#"r={"a"~r|""}"#,
            r#"r={("a"~r)?}"#,
            r#"r={"a"~s|"b"} s={r}"#,
            r#"r={!"b"~ANY~r|"b"}"#,
            r#"r={&"a"~"a"~r|ANY}"#,
            r#"r={"a"~r}"#,
        ] {
            ask(text, &("a".repeat(count) + "b"), true);
            ask(text, &"a".repeat(count), true);
        }
    }
    for count in [1_020, 1_021, 1_022, 1_023, 1_024, 1_025] {
        // many rules, each naming the next
        let count = count.min(1_023);
        let names: String = (0..count).map(|i| format!("r{i}={{r{}}}", i + 1)).collect();
        ask(&format!("{names} r{count}={{\"a\"}}"), "a", true);
    }
    for text in [r#"r={r}"#, r#"r={r~"a"|"b"}"#, r#"r={s} s={t} t={r}"#, r#"r={!r}"#, r#"r={r?}"#] {
        ask(text, "b", true);
    }
}

/// Repetitions that take nothing, ended and endless, with allowances on both sides of their counts.
fn idle(seen: &mut Seen) {
    let bodies = [
        ("\"\"", 1),
        ("\"a\"?", 2),
        ("!\"a\"", 2),
        ("&\"\"", 2),
        ("(\"\"~\"\")", 3),
        ("^\"\"", 1),
        ("(\"a\"|\"\")", 3),
        ("\"a\"{,3}", 2),
    ];
    for (body, cost) in bodies {
        for count in [1u64, 2, 3, 7, 100, 1_000, 4_294_967_295] {
            let posts = [
                format!("{{{count}}}"),
                format!("{{,{count}}}"),
                format!("{{{count},}}"),
                format!("{{1, {count}}}"),
                "*".to_string(),
                "+".to_string(),
            ];
            for post in posts {
                let text = format!("r={{({body}){post}}}");
                let read = second::read::tables(text.as_bytes(), true).expect("it reads");
                let made = Tables { nodes: read.nodes, rules: read.rules, store: read.store };
                seen.tables += 1;
                let needed = 1 + count.saturating_mul(cost);
                let around = [needed - 1, needed, needed + 1, needed * 2, 0, 1, 2, 999];
                for allowance in around {
                    // the product makes every visit
                    if allowance < 1_000_000 {
                        seen.ask(&made, 0, b"b", allowance);
                        seen.ask(&made, 0, b"", allowance);
                    }
                }
            }
        }
    }
}

/// Long lines and texts.
fn long(seen: &mut Seen, random: &mut Random) {
    let grammars = [
        r#"r={(!";"~ANY)*}"#,
        r#"r={ANY*}"#,
        r#"r={(f~";")*~f} f={(!";"~ANY)+}"#,
        r#"r={("a"|^"é"|'€'..'😀')+}"#,
        r#"r={"a"*~"b"}"#,
    ];
    for text in grammars {
        let read = second::read::tables(text.as_bytes(), true).expect("it reads");
        let made = Tables { nodes: read.nodes, rules: read.rules, store: read.store };
        seen.tables += 1;
        for length in [1_000, 65_535, 65_536, 65_537, 200_000] {
            let mut line = Vec::new();
            while line.len() < length {
                let of = ["a", "a", "a", "a", "é", "€", "😀", ";"];
                line.extend_from_slice(random.of(&of).as_bytes());
            }
            let all = "a".repeat(length).into_bytes();
            for line in [&line, &all] {
                let Some(answer) = seen.ask(&made, 0, line, u64::MAX) else { continue };
                if answer.number == 0 {
                    for allowance in [answer.steps - 1, answer.steps, answer.steps + 1] {
                        seen.ask(&made, 0, line, allowance);
                    }
                }
                let mut broken = line.clone();
                broken.push(0xe2);
                seen.ask(&made, 0, &broken, 9);
                let at = random.below(broken.len());
                broken[at] = 0xff;
                seen.ask(&made, 0, &broken, 9);
            }
            let mut many = line.clone();
            let ends = many.len() / 50;
            for _ in 0..ends {
                let at = random.below(many.len());
                many[at] = random.of(b"\n\n\n\r");
            }
            let count = lines(&many).len();
            for room in [0, 4, 5, 5 * (count / 3), 5 * count - 1, 5 * count, 5 * count + 9] {
                seen.ask_lines(&made, 0, &many, 400, room, room > 100);
            }
        }
    }
}

/// The whole of it. Whether nothing differed.
pub fn compare(seed: u64, scale: usize) -> bool {
    let mut seen = Seen::default();
    let mut random = Random(seed ^ 0x6a7c4);
    deep(&mut seen);
    idle(&mut seen);
    long(&mut seen, &mut random);
    for made in limits() {
        tables(&mut seen, &mut random, &made, &['a'], 2);
    }
    let mut maker = Maker::new(Random(seed ^ 0x11e5));
    for _ in 0..2_000 * scale {
        let rules = random.of(&[1, 1, 2, 3, 5, 9]);
        let size = random.of(&[1, 2, 3, 4, 6, 9, 14]);
        let made = maker.make(rules, size);
        let characters = maker.characters.clone();
        tables(&mut seen, &mut random, &made, &characters, 8);
        let spoilt = spoilt(&mut random, &made);
        tables(&mut seen, &mut random, &spoilt, &characters, 2);
        if random.one_in(2) {
            let made = falsified(&mut random, &made);
            tables(&mut seen, &mut random, &made, &characters, 2);
        }
    }
    let mut grower = Grower::new(Random(seed ^ 0x6e0de5));
    for _ in 0..200 * scale {
        grower.characters = random.of(&Characters::EACH);
        let rules = random.of(&[1, 1, 2, 3]);
        let size = random.of(&[1, 1, 2, 3, 5, 8, 20]);
        let made = grower.grow(rules, size);
        tables(&mut seen, &mut random, &made, &['a', 'b', 'é'], 2);
        let made = falsified(&mut random, &made);
        tables(&mut seen, &mut random, &made, &['a', 'b', 'é'], 1);
        let made = numbers_of(&mut random);
        tables(&mut seen, &mut random, &made, &['a', 'b', 'é'], 1);
    }
    for _ in 0..scale / 2 {
        let made = maker.make(1_000, 3);
        let characters = maker.characters.clone();
        tables(&mut seen, &mut random, &made, &characters, 8);
    }
    let Seen { tables, one, many, named, answers, records, different } = seen;
    println!(
        "\nmatcher, product and second program: {tables} tables, {} calls ({one} for a line, {many} for lines, {named} for a name), {different} different",
        one + many + named
    );
    let shown = |counts: &BTreeMap<String, u64>| {
        let each = counts.iter().map(|(name, count)| format!("{name} {count}"));
        each.collect::<Vec<_>>().join(", ")
    };
    println!("  answers: {}", shown(&answers));
    println!("  records of lines: {}", shown(&records));
    different == 0
}
