//! Writes a sample of answers for a program that replays them: `stored FOLDER` makes FOLDER/stdin,
//! one question a line, and FOLDER/stdout, each question again with ` = ` and its answer, and at the
//! end how many there are. `--seed N`; `--scale N`, hundredths of the random part (default 100).
//!
//! The program reads blocks of 65,536 bytes: no line lies in two of them, and LFs fill a block up.
//!
//! - `t LEVEL HEX NODES RULES STORE`: read the text; level 1 tagged, 0 plain; rooms in numbers,
//!   numbers, bytes. Answer: number, place, nodes, rules, store bytes; the node numbers, the rule
//!   numbers (each followed by a comma), the store in hex.
//! - `e LEVEL HEX NODES RULES STORE`: the same, by the second edition.
//! - `x LEVEL COUNT:HEX,.. NODES RULES STORE`: as `t`, of a long text: each part so many times.
//!   Answer: the five numbers, then for nodes, rules and store a sum over what is used, beginning
//!   with 0: sum * 31 + value, in 32 bits.
//! - `k AT HEX`: the lister. Answer: number, place, kind, start, end.
//! - `l AT COUNT:HEX,..`: the same, of a long text.
//! - `p ROOM NODES RULES STORE`: print tables of such numbers and such a store. Answer: number,
//!   place, bytes; the text in hex.
//! - `s ROOM NODES RULES STORE`: the same, of the short text.
//! - `m ALLOWANCE START HEX NODES RULES STORE`: run the rule of that index over a line. Answer:
//!   number, place, 1 for a match, its length, steps.
//! - `r ALLOWANCE START HEX NODES RULES STORE ROOM`: run it over the lines of a text; the room in
//!   numbers. Answer: number, place, lines, where the next one begins; the records' numbers (of a
//!   refusal none).
//! - `f CALLS..`: tokens as they arrive, in the words that crates/calls has for them. Answer: number,
//!   place and records of each call, then the list's records.
//!
//! An empty list or hex is `-`; a refusal's answer is its numbers alone.
//!
//! Answers are the second program's. Where the Rust reads a text too, it must read the same, or
//! this program stops.

use std::collections::BTreeMap;
use std::fs;
use std::io::{BufWriter, Write};

use compare::lines::{self, Liner, Maker};
use compare::printing::Style;
use compare::{
    argument, characters, hex, on_stack, quiet_panics, second_reads, second_reads_edition, tables,
    texts, used, Random,
};
use oracle::{Answer, Tables};
use second::arrive::{self, Arrival};
use second::matching::{match_line, match_lines, record, Record};
use second::read::{Edition, Used};
use second::{calls, read, Refusal, NODE_RECORD, RULE_RECORD};

fn or_dash(text: String) -> String {
    if text.is_empty() {
        return "-".to_string();
    }
    text
}

/// Numbers with a comma after each.
fn list(numbers: &[u32]) -> String {
    or_dash(numbers.iter().map(|n| format!("{n},")).collect())
}

fn bytes(bytes: &[u8]) -> String {
    or_dash(hex(bytes))
}

fn sum(values: impl Iterator<Item = u32>) -> u32 {
    values.fold(0, |sum, value| sum.wrapping_mul(31).wrapping_add(value))
}

/// A text as parts and how often each stands.
fn parts(text: &[u8]) -> String {
    let mut line = String::new();
    let (mut at, mut plain) = (0, 0);
    let repeat = |at: usize, wide: usize| {
        let piece = &text[at..(at + wide).min(text.len())];
        text[at..].chunks_exact(wide).take_while(|chunk| *chunk == piece).count()
    };
    while at <= text.len() {
        let best =
            (1..=24).map(|wide| (repeat(at, wide) * wide, wide)).max_by_key(|b| (b.0, 24 - b.1));
        let (bytes, wide) = best.filter(|_| at < text.len()).unwrap_or((0, 1));
        let long = bytes / wide >= 12;
        if long || at == text.len() {
            if plain < at {
                line.push_str(&format!("1:{},", hex(&text[plain..at])));
            }
            if at == text.len() {
                break;
            }
            line.push_str(&format!("{}:{},", bytes / wide, hex(&text[at..at + wide])));
            at += bytes;
            plain = at;
        } else {
            at += 1;
        }
    }
    line
}

/// Rooms for a text's nodes, rules and store, in numbers and bytes more or less than these need.
const ROOMS: [(isize, isize, isize); 7] =
    [(0, 0, 0), (6, 5, 1), (-1, 0, 0), (0, -1, 0), (0, 0, -1), (-7, -6, -1), (-1, 0, -1)];

const BLOCK: usize = 65_536;

/// More steps than most lines need.
const AMPLE: u64 = 4_000;

/// The numbers of nodes, of rules, the store and the line that the program has room for.
const MOST: usize = 600;
const RECORDS: usize = 120;

/// The longest text that the program prints.
const TEXT: usize = 1_200;

/// Where the line after so many begins.
fn past(text: &[u8], count: usize) -> usize {
    text.split_inclusive(|byte| *byte == b'\n').take(count).map(<[u8]>::len).sum()
}

fn fits(made: &Tables, line: &[u8]) -> bool {
    made.nodes.len().max(made.rules.len()).max(made.store.len()).max(line.len()) <= MOST
}

struct Stored {
    questions: BufWriter<fs::File>,
    /// Bytes of the last block that are written.
    block: usize,
    answers: BufWriter<fs::File>,
    counts: BTreeMap<String, u64>,
    also_rust: u64,
}

impl Stored {
    fn put(&mut self, class: String, question: &str, answer: &str) {
        *self.counts.entry(class).or_default() += 1;
        let line = question.len() + 1;
        assert!(line <= BLOCK, "a line of more than a block");
        if self.block + line > BLOCK {
            write!(self.questions, "{}", "\n".repeat(BLOCK - self.block)).expect("written");
            self.block = 0;
        }
        self.block += line;
        writeln!(self.questions, "{question}").expect("written");
        writeln!(self.answers, "{question} = {answer}").expect("written");
    }

    /// How many answers there are, as the program says at its end.
    fn end(&mut self) {
        let count: u64 = self.counts.values().sum();
        writeln!(self.answers, "{count} answers").expect("written");
    }

    fn text(&mut self, text: &[u8], tagged: bool, rooms: &[(isize, isize, isize)]) {
        self.reading(text, tagged, Edition::First, rooms);
    }

    fn reading(
        &mut self,
        text: &[u8],
        tagged: bool,
        edition: Edition,
        rooms: &[(isize, isize, isize)],
    ) {
        let short = text.len() <= 400;
        let form = match edition {
            Edition::First if short => "t",
            Edition::First => "x",
            Edition::Second => "e",
        };
        assert!(short || form == "x", "a long text of the second edition");
        let made = second_reads_edition(text, tagged, edition);
        if let (Ok(made), Ok(text)) = (&made, std::str::from_utf8(text)) {
            if let Answer::Read(rules) = oracle::read(text, tagged) {
                assert_eq!(*made, Tables::of(&rules), "{text}");
                self.also_rust += 1;
            } else {
                panic!("the Rust refuses {text}");
            }
        }
        let used = made.as_ref().map_or(Used { nodes: 2, rules: 1, store: 4 }, used);
        // To a refusal of the text the room is nothing.
        let most = if made.is_ok() { rooms.len() } else { 1 };
        for (n, r, s) in &rooms[..most] {
            let n = ((used.nodes * NODE_RECORD) as isize + n).max(0) as usize;
            let r = ((used.rules * RULE_RECORD) as isize + r).max(0) as usize;
            let s = (used.store as isize + s).max(0) as usize;
            let answer = made.as_ref().map_err(|e| *e).and_then(|made| {
                read::room(used, n, r, s)?;
                Ok(made)
            });
            let level = u8::from(tagged);
            let shown = if short { bytes(text) } else { parts(text) };
            let question = format!("{form} {level} {shown} {n} {r} {s}");
            let (number, answer) = match answer {
                Err(Refusal { number, place }) => (number, format!("{number} {place} 0 0 0")),
                Ok(made) => {
                    let counts = format!("0 0 {} {} {}", used.nodes, used.rules, used.store);
                    let rest = if short {
                        format!(
                            "{} {} {}",
                            list(&made.nodes),
                            list(&made.rules),
                            bytes(&made.store)
                        )
                    } else {
                        let nodes = sum(made.nodes.iter().copied());
                        let rules = sum(made.rules.iter().copied());
                        let store = sum(made.store.iter().map(|b| u32::from(*b)));
                        format!("{nodes} {rules} {store}")
                    };
                    (0, format!("{counts} {rest}"))
                }
            };
            self.put(format!("{form}, {number:>2}"), &question, &answer);
        }
    }

    fn token(&mut self, text: &[u8], at: usize) {
        let length = text.len();
        let (number, answer) = match second::token::next_token(text, at) {
            Ok(Some(token)) => (0, format!("0 0 {} {} {}", token.kind, token.start, token.end)),
            Ok(None) => (0, format!("0 0 0 {length} {length}")),
            Err(Refusal { number, place }) => (number, format!("{number} {place} 0 0 0")),
        };
        let (form, shown) = if length <= 400 { ("k", bytes(text)) } else { ("l", parts(text)) };
        self.put(format!("{form}, {number:>2}"), &format!("{form} {at} {shown}"), &answer);
    }

    /// A style's text, in so much more room than it needs.
    fn tables(&mut self, style: Style, made: &Tables, more: isize) {
        let printed = style.print(made);
        let length = printed.as_ref().map_or(16, Vec::len);
        let room = (length as isize + more).max(0) as usize;
        assert!(fits(made, b"") && room <= TEXT, "more than the program has room for");
        let (number, answer) = match printed {
            Ok(text) if length <= room => (0, format!("0 0 {length} {}", bytes(&text))),
            Ok(_) => (23, "23 0 0".to_string()),
            Err(Refusal { number, place }) => (number, format!("{number} {place} 0")),
        };
        let form = match style {
            Style::Full => "p",
            Style::Short => "s",
        };
        let Tables { nodes, rules, store } = made;
        let question = format!("{form} {room} {} {} {}", list(nodes), list(rules), bytes(store));
        self.put(format!("{form}, {number:>2}"), &question, &answer);
    }

    /// A line, and how many steps it took.
    fn line(&mut self, made: &Tables, start: usize, line: &[u8], allowance: u64) -> Option<u64> {
        if !fits(made, line) {
            return None;
        }
        let Tables { nodes, rules, store } = made;
        let question = format!(
            "m {allowance} {start} {} {} {} {}",
            bytes(line),
            list(nodes),
            list(rules),
            bytes(store)
        );
        let Record { number, place, matched, length, steps } =
            record(match_line(nodes, rules, store, start, line, allowance));
        let answer = format!("{number} {place} {matched} {length} {steps}");
        self.put(format!("m, {number:>2}"), &question, &answer);
        Some(steps).filter(|_| number == 0)
    }

    fn lines(&mut self, made: &Tables, start: usize, text: &[u8], allowance: u64, room: usize) {
        if !fits(made, text) || room > RECORDS {
            return;
        }
        let Tables { nodes, rules, store } = made;
        let question = format!(
            "r {allowance} {start} {} {} {} {} {room}",
            bytes(text),
            list(nodes),
            list(rules),
            bytes(store)
        );
        let (number, answer) = match match_lines(nodes, rules, store, start, text, allowance) {
            Err(Refusal { number, place }) => (number, format!("{number} {place} 0 0 -")),
            Ok(records) => {
                let count = records.len().min(room / 5);
                let numbers = records[..count].iter().map(|r| {
                    let Record { number, place, matched, length, steps } = r;
                    format!("{number},{place},{matched},{length},{steps},")
                });
                let numbers = or_dash(numbers.collect());
                (0, format!("0 0 {count} {} {numbers}", past(text, count)))
            }
        };
        self.put(format!("r, {number:>2}"), &question, &answer);
    }

    /// A text as it arrives, and calls behind its end: another text, unless there is a refusal to repeat.
    fn arrival(&mut self, made: &Arrival) {
        let mut words = Vec::new();
        let mut lent = None;
        let packets = made.packets().map(Some).chain([None, Some(&b"a="[..]), None]);
        for (call, packet) in packets.enumerate() {
            let list = made.lists.get(call).map(|list| *list.min(&calls::MOST)).or(lent);
            if list != lent {
                words.extend(list.map(|list| format!("r{list}")));
                lent = list;
            }
            words.push(match packet {
                None => "e".to_string(),
                Some(packet) if packet.len() <= 400 => format!("x{}", hex(packet)),
                Some(packet) => format!("n{}", parts(packet)),
            });
        }
        let line = words.join(" ");
        let answers = calls::answers(&line).expect("no state");
        let ended = answers.split(';').nth(made.ends.len()).expect("the end's answer");
        let number = ended.split_ascii_whitespace().next().expect("a number");
        self.put(format!("f, {number:>2}"), &format!("f {line}"), answers.trim_start());
    }

    /// Some short lines of a rule, with allowances around what each needs, and a short text.
    fn rule(&mut self, random: &mut Random, made: &Tables, characters: &[char], much: usize) {
        let rules = used(made).rules;
        for _ in 0..much {
            let start = if random.one_in(20) {
                rules + random.below(2)
            } else {
                random.below(rules.max(1))
            };
            let mut line = Liner::new(random, characters).line(made, start);
            if random.one_in(10) {
                Liner::new(random, characters).broken(&mut line);
            }
            if line.len() > 40 {
                continue;
            }
            if let Some(steps) = self.line(made, start, &line, AMPLE) {
                let other = random.of(&[steps - 1, steps, steps / 2, 0, 1 << 40]);
                self.line(made, start, &line, other);
            }
        }
        let start = random.below(rules.max(1));
        let text = lines::text(random, characters, made, start);
        let room =
            5 * random.below(second::matching::lines(&text).len() + 2) + random.of(&[0, 0, 1, 4]);
        let allowance = random.of(&[AMPLE, AMPLE, 30, 5]);
        if text.len() <= 80 {
            self.lines(made, start, &text, allowance, room);
        }
    }
}

/// The matcher: grown tables, tables with something in them that is 31 or 32, and false ones; and
/// nesting on both sides of 1,024 visits.
fn matcher(stored: &mut Stored, seed: u64, scale: usize) {
    let mut random = Random(seed ^ 3);
    let mut maker = Maker::new(Random(seed ^ 4));
    for i in 0..2 * scale {
        let made = maker.make(1 + i % 3, 1 + i % 6);
        let characters = maker.characters.clone();
        stored.rule(&mut random, &made, &characters, 4);
        let spoilt = lines::spoilt(&mut random, &made);
        stored.rule(&mut random, &spoilt, &characters, 1);
        let falsified = tables::falsified(&mut random, &made);
        if random.one_in(2) {
            stored.rule(&mut random, &falsified, &characters, 1);
        }
    }
    for (text, counts) in [
        (r#"r={"a"~r|"b"}"#, [340, 341]),
        (r#"r={("a"~r)?}"#, [340, 341]),
        (r#"r={"a"~s|"b"} s={r}"#, [255, 256]),
        (r#"r={!"b"~ANY~r|"b"}"#, [255, 256]),
    ] {
        let made = second_reads(text.as_bytes(), true).expect(text);
        for count in counts.into_iter().flat_map(|count| count - 2..=count + 2) {
            let line = "a".repeat(count) + "b";
            if let Some(steps) = stored.line(&made, 0, line.as_bytes(), 1_000_000) {
                stored.line(&made, 0, line.as_bytes(), steps - 1);
                stored.line(&made, 0, line.as_bytes(), steps);
            }
        }
    }
}

/// The short text: every kind of node in every place; grown tables, and false ones.
fn short(stored: &mut Stored, seed: u64, scale: usize) {
    let mut random = Random(seed ^ 5);
    for made in tables::places() {
        stored.tables(Style::Short, &made, 0);
        if random.one_in(4) {
            stored.tables(Style::Short, &made, random.of(&[1, -1, -1, -(TEXT as isize)]));
        }
    }
    let mut grower = tables::Grower::new(Random(seed ^ 6));
    for i in 0..2 * scale {
        grower.characters = tables::Characters::EACH[i % 3];
        let made = grower.grow(i % 4, 1 + i % 11);
        stored.tables(Style::Short, &made, random.of(&[0, 0, 9, -1]));
        stored.tables(Style::Short, &tables::falsified(&mut random, &made), 0);
    }
}

/// Every character around those that print bare, and some others: many in a literal, each kind by
/// turns, and as ends of ranges.
fn bare(stored: &mut Stored) {
    let above = ['\u{2ff}', '\u{300}', '\u{7ff}', '\u{800}', '\u{ffff}', '\u{10000}', '\u{10ffff}'];
    let all: Vec<char> = ('\u{7e}'..='\u{260}').chain(above).collect();
    for (some, kind) in all.chunks(40).zip([1, 2, 18].into_iter().cycle()) {
        let literal = characters::literal(kind, &some.iter().collect::<String>());
        for style in Style::BOTH {
            stored.tables(style, &literal, 0);
            stored.tables(style, &literal, -1);
            stored.tables(style, &characters::ranges(some), 0);
        }
    }
}

/// Literals that mostly have a fault: the reader at one level, the lister from some places.
fn broken(stored: &mut Stored, seed: u64, scale: usize) {
    let mut random = Random(seed ^ 7);
    for _ in 0..4 * scale {
        let text = texts::broken(&mut random);
        stored.text(&text, random.one_in(2), &[(0, 0, 0)]);
        for _ in 0..2 {
            stored.token(&text, random.below(text.len() + 2));
        }
    }
}

/// Both editions: small texts that a rule names, and texts rich in pairs of numbers.
fn editions(stored: &mut Stored, seed: u64, scale: usize) {
    for text in texts::CORNERS {
        for tagged in [true, false] {
            stored.reading(text.as_bytes(), tagged, Edition::Second, &[(0, 0, 0)]);
        }
    }
    let mut random = Random(seed ^ 9);
    for _ in 0..4 * scale {
        let text = texts::pairs(&mut random);
        if text.len() > 240 {
            continue;
        }
        let (tagged, room) = (random.one_in(2), random.of(&ROOMS));
        stored.reading(&text, tagged, Edition::Second, &[(0, 0, 0), room]);
        stored.reading(&text, tagged, Edition::First, &[(0, 0, 0)]);
    }
}

/// Tokens as they arrive: short texts, texts around a literal that mostly has a fault, and long ones.
fn arriving(stored: &mut Stored, seed: u64, scale: usize) {
    let mut random = Random(seed ^ 8);
    let mut below = |n| random.below(n);
    for i in 0..10 * scale {
        stored.arrival(&arrive::short(&mut below));
        if i % 4 == 0 {
            let text = second::broken::text(&mut below).text;
            stored.arrival(&arrive::cut(text, &mut below));
        }
        if i % 20 == 0 {
            stored.arrival(&arrive::long(&mut below));
        }
    }
}

fn write(folder: &str, seed: u64, scale: usize) {
    let file = |name| BufWriter::new(fs::File::create(format!("{folder}/{name}")).expect(folder));
    let mut stored = Stored {
        questions: file("stdin"),
        block: 0,
        answers: file("stdout"),
        counts: BTreeMap::new(),
        also_rust: 0,
    };
    let all = ROOMS;
    let mut random = Random(seed);
    for text in texts::CORNERS {
        for tagged in [true, false] {
            stored.text(text.as_bytes(), tagged, &all);
        }
        for at in (0..text.len() + 2).filter(|_| random.one_in(4)) {
            stored.token(text.as_bytes(), at);
        }
    }
    // Every kind of token, from every place.
    for text in ["={}[]()&!~|?*+,@$", "a #t 1 -1 .. \"s\" ^\"s\" 's' //!g", "\r\n///l\r\n PUSH"] {
        for at in 0..text.len() + 2 {
            stored.token(text.as_bytes(), at);
        }
    }
    for text in texts::limits() {
        for at in [0, random.below(text.len() + 1), text.len() + 1] {
            stored.token(&text, at);
        }
        for tagged in [true, false] {
            let rooms = if text.len() > 400 { &all[1..5] } else { &all[..1] };
            // The Rust takes long over the largest; the run that compares asks it.
            if text.len() < 10_000 || text.len() > 65_500 {
                stored.text(&text, tagged, rooms);
            }
        }
    }
    texts::exhaustive(0, &mut |text| {
        // Of each refusal and of what is read, some; more of what is read.
        for tagged in [true, false] {
            let number = read::tables(text, tagged).map_or_else(|e| e.number, |_| 0);
            let one_in = match number {
                0 => 100,
                3 | 4 => 800,
                _ => 30,
            };
            if random.one_in(one_in * 100 / scale) {
                let room = random.of(&all);
                stored.text(text, tagged, &[room]);
            }
        }
    });
    let mut grower = texts::Grower::new(Random(seed ^ 1));
    grower.faults = 30;
    for i in 0..5 * scale {
        let text = grower.grow(1 + i % 9);
        let damaged = texts::damaged(&mut random, &text);
        let soup = texts::soup(&mut random);
        let short = [text, damaged, soup].into_iter().filter(|text| text.len() <= 160);
        for text in short {
            let (tagged, room) = (random.one_in(2), random.of(&all));
            stored.text(&text, tagged, &[(0, 0, 0), room]);
            if random.one_in(3) {
                let at = random.below(text.len() + 1);
                stored.token(&text, at);
            }
        }
    }
    let mut grower = tables::Grower::new(Random(seed ^ 2));
    for i in 0..6 * scale {
        grower.characters = tables::Characters::EACH[i % 3];
        let made = grower.grow(i % 4, 1 + i % 12);
        let more = random.of(&[0, 0, 1, 9, -1, -5]);
        stored.tables(Style::Full, &made, more);
        stored.tables(Style::Full, &tables::falsified(&mut random, &made), 0);
    }
    for made in tables::limits() {
        if made.nodes.len() <= 60 && made.store.len() < 100 {
            stored.tables(Style::Full, &made, 0);
            stored.tables(Style::Full, &made, -1);
        }
    }
    matcher(&mut stored, seed, scale);
    short(&mut stored, seed, scale);
    broken(&mut stored, seed, scale);
    arriving(&mut stored, seed, scale);
    bare(&mut stored);
    editions(&mut stored, seed, scale);
    stored.end();
    println!("seed {seed}");
    for (class, count) in &stored.counts {
        println!("  {count:>6}  {class}");
    }
    println!("{} texts are read by the Rust too, the same", stored.also_rust);
}

fn main() {
    let folder = std::env::args().nth(1).expect("a folder");
    let seed = argument("--seed", 1);
    quiet_panics();
    oracle::limit_calls(50_000_000);
    let scale = argument("--scale", 100) as usize;
    on_stack(4 << 30, || write(&folder, seed, scale));
}
