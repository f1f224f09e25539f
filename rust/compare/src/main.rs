//! The comparison. `--seed N` (default 1); `--scale N`, hundredths of the full run (default
//! 100); `--only PART`: texts, tables, characters (the Rust and the second program), reader, stream, printer,
//! matcher (the product and the second program). Ends with 1 if anything is different and not explained.

use std::collections::BTreeMap;
use std::time::Instant;

use compare::texts::Source;
use compare::{
    argument, characters, on_stack, printing, quiet_panics, second_reads, second_reads_edition,
    texts, used, Tally,
};
use oracle::{Answer, Tables};
use second::read::Edition;
use second::token::{Next, Token, BAR, COMMA, NUMBER, OPEN_BRACE};
use second::{Refusal, NODE_RECORD};

/// Where pest's own rule for comments ends the comment at `place`.
fn pest_comment(text: &[u8], place: usize, fuel: &mut u32) -> Option<usize> {
    if !text[place..].starts_with(b"/*") || *fuel == 0 {
        return None;
    }
    *fuel -= 1;
    let mut place = place + 2;
    loop {
        if let Some(end) = pest_comment(text, place, fuel) {
            place = end;
        } else if text[place..].starts_with(b"*/") {
            return Some(place + 2);
        } else if place >= text.len() {
            return None;
        } else {
            place += 1;
        }
    }
}

/// Where pest's blanks from `place` on end.
fn pest_blanks(text: &[u8], mut place: usize) -> usize {
    loop {
        let rest = &text[place..];
        if rest.starts_with(b" ") || rest.starts_with(b"\t") || rest.starts_with(b"\n") {
            place += 1;
        } else if rest.starts_with(b"\r\n") {
            place += 2;
        } else if let Some(end) = pest_comment(text, place, &mut 10_000) {
            place = end;
        } else if rest.starts_with(b"//") && !rest.starts_with(b"///") && !rest.starts_with(b"//!")
        {
            let ends = |i: &usize| rest[*i] == b'\n' || rest[*i..].starts_with(b"\r\n");
            place += (0..rest.len()).find(ends).unwrap_or(rest.len());
        } else {
            return place;
        }
    }
}

/// The ways in which the crate is known to take what the rules refuse.
#[derive(Clone, Copy, Debug, PartialEq, Eq, PartialOrd, Ord)]
enum Way {
    BlankAfterCaret,
    InnerCommentOpen,
    BarAfterBracket,
}

/// The text without what the crate is known to take otherwise, and the ways found.
fn repaired(text: &[u8], tagged: bool) -> (Vec<u8>, Vec<Way>) {
    let mut text = text.to_vec();
    let mut ways = Vec::new();
    for _ in 0..64 {
        let Err(refusal) = second::read::tables(&text, tagged) else { break };
        let place = refusal.place as usize;
        let way = match (refusal.number, text.get(place)) {
            (3, Some(b'^')) => {
                let quote = pest_blanks(&text, place + 1);
                if quote == place + 1 || text.get(quote) != Some(&b'"') {
                    break;
                }
                text.drain(place + 1..quote);
                Way::BlankAfterCaret
            }
            (3, Some(b'/')) => {
                let Some(end) = pest_comment(&text, place, &mut 10_000) else { break };
                text.splice(place..end, *b" ");
                Way::InnerCommentOpen
            }
            (4, Some(b'|')) => {
                // One bar, right after a bracket that holds an expression.
                let (mut before, mut at) = (Vec::new(), 0);
                let after = loop {
                    let Next::Token(token) = second::token::next(&text, at) else { break None };
                    if token.start as usize > place {
                        break Some(token.kind);
                    }
                    at = token.end as usize;
                    before.push(&text[token.start as usize..at]);
                };
                let opened = before.ends_with(&[b"(", b"|"]);
                let literal = before.ends_with(&[b"PUSH_LITERAL", b"(", b"|"]);
                if !opened || literal || after == Some(BAR) {
                    break;
                }
                text.remove(place);
                Way::BarAfterBracket
            }
            _ => break,
        };
        ways.push(way);
    }
    ways.sort();
    ways.dedup();
    (text, ways)
}

fn label<T>(answer: &Answer<T>) -> &'static str {
    match answer {
        Answer::Read(_) => "read",
        Answer::NotRecognized(_) => "not recognized",
        Answer::NotBuilt(..) => "not built",
        Answer::Panicked(_) => "panic",
        Answer::GaveUp => "gave up (call limit)",
    }
}

const OTHER_PLACE: &str = "at another place";
const OTHER_PLACE_OF_3: &str = "at another place of that literal";

/// How the Rust's place stands to ours where ours is 3, by what begins at the bad token. The Rust has no
/// order of phases, so it may stop before that token.
fn place_class_of_3(text: &[u8], at: usize, place: usize) -> &'static str {
    let mut next = 0;
    while let Next::Token(token) = second::token::next(text, next) {
        next = token.end as usize;
    }
    let start = pest_blanks(text, next);
    let opened = &text[start.min(text.len())..];
    let is_string = opened.starts_with(b"\"") || opened.starts_with(b"^\"");
    if at < start {
        return "behind a comment that it takes for closed";
    }
    if place <= start {
        return "not behind that token's first byte";
    }
    if is_string && at > start {
        return if place == at { "in a string, at that backslash" } else { OTHER_PLACE_OF_3 };
    }
    if is_string {
        return if place == text.len() {
            "in a string, at the text's end"
        } else {
            OTHER_PLACE_OF_3
        };
    }
    if opened.starts_with(b"'\\") && at > start {
        return if place == at + 1 {
            "in a character literal, behind that backslash"
        } else {
            OTHER_PLACE_OF_3
        };
    }
    if opened.starts_with(b"'\\") && place <= start + 2 {
        return OTHER_PLACE_OF_3;
    }
    "further on"
}

/// How the Rust's place of a refusal stands to ours.
fn place_class(text: &[u8], ours: Refusal, place: usize) -> &'static str {
    let at = ours.place as usize;
    if ours.number == 3 {
        return place_class_of_3(text, at, place);
    }
    if at == place {
        return "at the same place";
    }
    let (mut before, mut next) = (Vec::new(), 0);
    while let Next::Token(token) = second::token::next(text, next) {
        if token.start as usize >= at {
            break;
        }
        next = token.end as usize;
        before.push(&text[token.start as usize..next]);
    }
    match text.get(at) {
        Some(b'|') if ours.number == 4 && before.ends_with(&[b"("]) => "further on, behind a bar",
        Some(b'_') if ours.number == 4 && before.ends_with(&[b"="]) => {
            "further on, behind a `_` taken for the mark"
        }
        _ => OTHER_PLACE,
    }
}

/// The leftmost of the pairs of good numbers whose minimum is above its maximum: where that is, told
/// from the digits.
fn above_maximum(text: &[u8]) -> Option<usize> {
    let (mut tokens, mut next) = (Vec::new(), 0);
    while let Next::Token(token) = second::token::next(text, next) {
        next = token.end as usize;
        tokens.push(token);
    }
    let digits = |token: &Token| {
        let digits = &text[token.start as usize..token.end as usize];
        let zeros = digits.iter().take_while(|digit| **digit == b'0').count();
        (digits.len() - zeros, digits[zeros..].to_vec())
    };
    let largest = (10, b"4294967295".to_vec());
    let found = tokens.windows(4).find(|some| {
        if !some.iter().map(|token| token.kind).eq([OPEN_BRACE, NUMBER, COMMA, NUMBER]) {
            return false;
        }
        let (least, most) = (digits(&some[1]), digits(&some[3]));
        least <= largest && most.0 > 0 && most < least
    });
    found.map(|some| some[1].start as usize)
}

/// Holds the second edition to the first, which is held to the Rust: 15 comes at the leftmost minimum
/// above its maximum unless another fault of a value is further left, and nothing else is different.
fn hold_edition(
    text: &[u8],
    tagged: bool,
    first: &Result<Tables, Refusal>,
    ways: &mut Tally,
    faults: &mut Tally,
) {
    let level = if tagged { "tagged" } else { "plain" };
    let above = above_maximum(text).map(|place| Refusal { number: 15, place: place as u64 });
    let wanted = match (first, above) {
        (Ok(_), Some(above)) => Err(above),
        (Err(other), Some(above)) if is_of_value(other.number) && above.place < other.place => {
            Err(above)
        }
        _ => first.clone(),
    };
    let second = second_reads_edition(text, tagged, Edition::Second);
    if second != wanted {
        faults.add(format!("{level}: THE SECOND EDITION: {second:?} for {wanted:?}"), text);
    }
    let in_tree = |made: &Tables| {
        made.nodes.chunks_exact(NODE_RECORD).any(|node| node[0] == 16 && node[4] > node[5])
    };
    if first.as_ref().is_ok_and(in_tree) != (first.is_ok() && second.is_err()) {
        faults.add(format!("{level}: THE SECOND EDITION AND THE TREE"), text);
    }
    let number =
        |answer: &Result<Tables, Refusal>| answer.as_ref().map_or_else(|e| e.number, |_| 0);
    if second != *first {
        let (first, second) = (number(first), number(&second));
        ways.add(format!("{level}: first edition {first}, second {second}"), text);
    }
}

/// Numbers of which the leftmost is given, when tokens and structure are good.
fn is_of_value(number: u64) -> bool {
    matches!(number, 5 | 6 | 7 | 8 | 13)
}

/// Holds the given files of 2.9.5 against the second program, at one level.
fn hold(text: &str, tagged: bool, ways: &mut Tally, faults: &mut Tally) -> &'static str {
    let level = if tagged { "tagged" } else { "plain" };
    let bytes = text.as_bytes();
    oracle::limit_calls(1_000_000 + 200 * text.len());
    let rust = oracle::read(text, tagged);
    let rust_label = label(&rust);
    let ours = second_reads(bytes, tagged);
    hold_edition(bytes, tagged, &ours, ways, faults);
    // With all the room in the world, the limits stay.
    let number = match &ours {
        Ok(made) => {
            let room = second::read::room(used(made), usize::MAX, usize::MAX, usize::MAX);
            room.err().map_or(0, |refusal| refusal.number)
        }
        Err(refusal) => refusal.number,
    };
    ways.add(format!("{level}: ours {number}, the Rust: {rust_label}"), bytes);
    if let (Ok(ours), Answer::Read(rules)) = (&ours, &rust) {
        if *ours != Tables::of(rules) {
            faults.add(format!("{level}: TREES DIFFER"), bytes);
        }
        return rust_label;
    }
    if let (Err(refusal), Answer::NotRecognized(place) | Answer::NotBuilt(place, _)) =
        (&ours, &rust)
    {
        let how = place_class(bytes, *refusal, *place);
        ways.add(format!("{level}: ours {number}, the Rust: {rust_label}, {how}"), bytes);
        if how == OTHER_PLACE_OF_3 || how == OTHER_PLACE && matches!(number, 4 | 5 | 6 | 13) {
            faults.add(format!("{level}: ours {number}, the Rust: {how}"), bytes);
        }
    }
    // No limits there; and unclosed comments can take it exponential time.
    if number == 1 || number == 9 || number == 3 && matches!(rust, Answer::GaveUp) {
        return rust_label;
    }
    let (text, found) = repaired(bytes, tagged);
    let after = second_reads(&text, tagged);
    let after_number = after.as_ref().err().map_or(0, |refusal| refusal.number);
    let good = match (after_number, &rust) {
        (0, Answer::Read(rules)) => {
            // A comment apart, the trees are the same; a blank after `^` spoils the string.
            found.contains(&Way::BlankAfterCaret)
                || after.map(Tables::without_spans) == Ok(Tables::of(rules).without_spans())
        }
        (0, Answer::Panicked(_)) => found.contains(&Way::BarAfterBracket),
        (3 | 4, Answer::NotRecognized(_)) => true,
        (5 | 6 | 13, Answer::NotBuilt(..) | Answer::Panicked(_)) => true,
        (7 | 8, Answer::Panicked(_)) => true,
        (7 | 8, Answer::NotBuilt(..)) => found.contains(&Way::BarAfterBracket),
        (9, _) => true,
        _ => false,
    };
    if !good {
        faults.add(format!("{level}: NOT EXPLAINED: ours {number}, the Rust {rust_label}"), bytes);
    } else if !found.is_empty() && rust_label != "not recognized" {
        ways.add(format!("{level}: explained by {found:?}: the Rust {rust_label}"), bytes);
    }
    rust_label
}

/// Whether a text has nothing that 2.5.2 lacks.
fn is_old(text: &str) -> bool {
    !["#", "PUSH_LITERAL", "///", "//!"].iter().any(|new| text.contains(new))
}

/// Holds Debian's 2.5.2 against the given files of 2.9.5.
fn hold_real(text: &str, pairs: &mut Tally, faults: &mut Tally) {
    oracle::limit_calls(1_000_000 + 200 * text.len());
    let bytes = text.as_bytes();
    let recognized = oracle::real::recognize(text);
    let given = oracle::recognize(text, false);
    if recognized != given {
        let known = matches!(recognized, Answer::GaveUp) || matches!(given, Answer::GaveUp);
        let tally = if known { pairs } else { faults };
        tally.add("2.5.2: PAIRS DIFFER".to_string(), bytes);
        return;
    }
    if !matches!(recognized, Answer::Read(_)) {
        return pairs.add(format!("2.5.2: {} in both", label(&recognized)), bytes);
    }
    // Over chains of some 4,000 nodes 2.5.2's `consume_rules` took seconds.
    if text.len() > 2_000 {
        return pairs.add("2.5.2: long, pairs alone compared, alike".to_string(), bytes);
    }
    let real = oracle::real::read(text);
    let given = oracle::read(text, false);
    let good = match (&real, &given) {
        (Answer::Read(real), Answer::Read(given)) => {
            Tables::of(real) == Tables::of(given).without_spans()
        }
        // 2.5.2 gives no tree before its validator has looked.
        (Answer::NotBuilt(..), Answer::Read(_) | Answer::NotBuilt(..)) => true,
        (Answer::Panicked(_), Answer::Panicked(_)) => true,
        _ => false,
    };
    if matches!(real, Answer::Read(_)) && !oracle::real::names_pass(text) {
        pairs.add("2.5.2: read; `validate_pairs` finds fault with names".to_string(), bytes);
    }
    let name = format!("2.5.2: {}, given files: {}", label(&real), label(&given));
    if good {
        pairs.add(name, bytes);
    } else {
        faults.add(name, bytes);
    }
}

fn compare_texts(seed: u64, scale: usize) -> bool {
    let (mut ways, mut pairs, mut faults) = (Tally::default(), Tally::default(), Tally::default());
    let mut sources: BTreeMap<Source, (u64, f64)> = BTreeMap::new();
    let (mut count, mut not_utf8, mut old) = (0u64, 0u64, 0u64);
    texts::all(seed, scale, &mut |source, bytes| {
        let start = Instant::now();
        count += 1;
        let Ok(text) = std::str::from_utf8(bytes) else {
            not_utf8 += 1;
            return;
        };
        hold(text, true, &mut ways, &mut faults);
        hold(text, false, &mut ways, &mut faults);
        if is_old(text) {
            old += 1;
            hold_real(text, &mut pairs, &mut faults);
        }
        let (texts, seconds) = sources.entry(source).or_default();
        *texts += 1;
        *seconds += start.elapsed().as_secs_f64();
    });
    println!("\ntexts: {count}; not UTF-8, so not for the Rust: {not_utf8}; old: {old}");
    for (source, (texts, seconds)) in sources {
        println!("  {texts:>9}  {source:?}, {seconds:.1} s");
    }
    ways.print("the given files of 2.9.5 and the second program, count, class, smallest text:");
    pairs.print("Debian's 2.5.2 and the given files of 2.9.5, on texts without what is new:");
    faults.print("DIFFERENT AND NOT EXPLAINED (nothing below is good):");
    faults.is_empty()
}

/// Every character; and two of the Rust's own ways with literals and comments.
fn compare_characters(scale: usize) -> bool {
    let good = characters::compare(scale);
    for open in [4, 8, 12, 16] {
        let text = format!("a={{b}}{}", "/* ".repeat(open));
        let start = Instant::now();
        let answer = oracle::real::recognize(&text);
        let time = start.elapsed().as_secs_f64() * 1e6;
        println!("{open} comments, none closed: 2.5.2: {}, after {time:.0} µs", label(&answer));
    }
    println!(
        "`unescape` of \\x+4: {:?}; of \\u{{+4}}: {:?}",
        oracle::unescape("\\x+4"),
        oracle::unescape("\\u{+4}")
    );
    good
}

/// The parts that want the product's library.
#[cfg(feature = "product")]
mod linked {
    use super::{characters, texts, used, Edition, Source, Tables};
    use compare::printing::Style;
    use compare::product::By;
    use compare::{product, second_reads_edition, shown, tables, Random};
    use second::{arrive, pairs};

    pub use compare::matching::compare as matcher;

    #[derive(Default)]
    struct Differences(u64);

    impl Differences {
        fn note(&mut self, result: Result<(), String>) {
            let Err(difference) = result else { return };
            self.0 += 1;
            if self.0 <= 20 {
                println!("DIFFERENT: {difference}");
            }
        }
    }

    /// The reader and the lister.
    pub fn reader(seed: u64, scale: usize) -> bool {
        let mut random = Random(seed);
        let (mut count, mut reads, mut listed, mut broken) = (0u64, 0u64, 0u64, 0u64);
        let (mut lf, mut crlf, mut cr) = (0u64, 0u64, 0u64);
        let mut differences = Differences::default();
        texts::all(seed, scale, &mut |source, text| {
            count += 1;
            lf += u64::from(text.contains(&b'\n'));
            crlf += u64::from(text.windows(2).any(|two| two == b"\r\n"));
            cr += u64::from(text.windows(2).any(|two| two[0] == b'\r' && two[1] != b'\n'));
            let few = source == Source::Exhaustive && !random.one_in(8);
            // Where an edition matters most, every way to name one; else one way more.
            let mut ways = vec![By::Read, random.of(&By::EACH)];
            if matches!(source, Source::Corner | Source::Limit | Source::Pairs) {
                ways = By::EACH.to_vec();
            }
            for by in ways {
                differences.note(product::check_read(text, true, by, few, &mut reads));
                differences.note(product::check_read(text, false, by, few, &mut reads));
            }
            broken += u64::from(source == Source::Broken);
            if text.len() < 12 || source == Source::Broken {
                for at in 0..text.len() + 2 {
                    differences.note(product::check_next(text, at, &mut listed));
                }
            } else {
                let at = random.below(text.len() + 3);
                differences.note(product::check_next(text, at, &mut listed));
                differences.note(product::check_next(text, usize::MAX, &mut listed));
            }
        });
        println!("\nproduct and second program: {count} texts, {broken} of them around a broken literal: {reads} readings, {listed} calls of the lister, {} different", differences.0);
        println!("line ends: {lf} texts have an LF, {crlf} a CR in front of one, {cr} a CR in front of another byte");
        differences.0 == 0
    }

    /// Both editions over texts rich in pairs: the product and the second program, and the second
    /// program and what was known while the text was made.
    pub fn editions(seed: u64, scale: usize) -> bool {
        let mut random = Random(seed ^ 0xed17);
        let mut differences = Differences::default();
        let (mut count, mut comments, mut zeros, mut reads) = (0u64, 0u64, 0u64, 0u64);
        let (mut orders, mut faults) = ([0u64; 3], [0u64; 16]);
        // by level (plain, tagged) and edition
        let mut by_number = [[[0u64; 16]; 2]; 2];
        for _ in 0..10_000 * scale {
            let made = pairs::text(&mut |n| random.below(n));
            count += 1;
            comments += u64::from(made.text.contains(&b'/'));
            zeros += made.zeros;
            orders.iter_mut().zip(made.pairs).for_each(|(sum, more)| *sum += more);
            made.faults.iter().for_each(|(number, _)| faults[*number as usize] += 1);
            for tagged in [true, false] {
                for edition in [Edition::First, Edition::Second] {
                    let due = made.refusal(tagged, edition);
                    let found = second_reads_edition(&made.text, tagged, edition).err();
                    if found != due {
                        let what = format!("{edition:?}, tagged {tagged}: {found:?} for {due:?}");
                        differences.note(Err(format!("{what}: {}", shown(&made.text))));
                    }
                    let number = due.map_or(0, |refusal| refusal.number);
                    by_number[usize::from(tagged)][edition as usize][number as usize] += 1;
                }
                for by in By::EACH {
                    differences
                        .note(product::check_read(&made.text, tagged, by, false, &mut reads));
                }
            }
        }
        println!("\nproduct and second program, both editions: {count} texts rich in pairs, {reads} readings, {} different", differences.0);
        println!("pairs of good numbers: {} below, {} equal, {} above; {zeros} numbers with leading zeros; {comments} texts with comments", orders[0], orders[1], orders[2]);
        println!("faults that were built in: {}", numbered(&faults));
        for (tagged, level) in ["plain", "tagged"].iter().enumerate() {
            for (edition, answers) in by_number[tagged].iter().enumerate() {
                println!("answers, {level}, edition {}: {}", edition + 1, numbered(answers));
            }
        }
        differences.0 == 0
    }

    /// How often each number comes, of those that do.
    fn numbered(counts: &[u64]) -> String {
        let some = counts.iter().enumerate().filter(|(_, count)| **count > 0);
        some.map(|(number, count)| format!("{number}: {count}")).collect::<Vec<_>>().join(", ")
    }

    /// Tokens as they arrive: short texts, texts around a broken literal, some in long packets, and long ones, cut at random.
    pub fn stream(seed: u64, scale: usize) -> bool {
        let mut random = Random(seed ^ 0xfeed);
        let mut differences = Differences::default();
        let (mut calls, mut by_number) = (0u64, [0u64; 15]);
        let mut hold = |made: &arrive::Arrival| match product::check_arrival(made, &mut calls) {
            Ok(number) => by_number[number as usize] += 1,
            Err(difference) => differences.note(Err(difference)),
        };
        for i in 0..10_000 * scale {
            let mut below = |n| random.below(n);
            hold(&arrive::short(&mut below));
            if i % 2 == 0 {
                let text = second::broken::text(&mut below).text;
                hold(&arrive::cut(text, &mut below));
            }
            if i % 25 == 0 {
                hold(&arrive::middle(&mut below));
            }
            if i % 10_000 == 0 {
                hold(&arrive::long(&mut below));
            }
        }
        println!("\nproduct and second program: {} texts as they arrive, in {calls} calls; by number of the answer: {by_number:?}; {} different", by_number.iter().sum::<u64>(), differences.0);
        differences.0 == 0
    }

    /// The printer, both its texts, of random tables and of every character; and the reader over the short ones.
    pub fn printer(seed: u64, scale: usize) -> bool {
        let (mut count, mut trees, mut prints, mut reads) = (0u64, 0u64, 0u64, 0u64);
        let mut differences = Differences::default();
        let mut hold = |made: &Tables| {
            count += 1;
            trees += used(made).rules as u64;
            for style in Style::BOTH {
                differences.note(product::check_print(style, made, &mut prints));
            }
            differences.note(product::check_short(made, &mut reads));
        };
        tables::all(seed, scale, &mut hold);
        characters::all(scale, &mut |_, made| hold(made));
        println!("\nproduct and second program: {count} tables of {trees} trees: {prints} printings in full and short, {reads} readings of short texts and of these without a pair of brackets, {} different", differences.0);
        differences.0 == 0
    }
}

#[cfg(not(feature = "product"))]
mod linked {
    fn is_not(part: &str) -> bool {
        println!("\n{part}: not linked (feature `product`)");
        true
    }

    pub fn reader(_: u64, _: usize) -> bool {
        is_not("reader")
    }

    pub fn editions(_: u64, _: usize) -> bool {
        is_not("editions")
    }

    pub fn stream(_: u64, _: usize) -> bool {
        is_not("stream")
    }

    pub fn printer(_: u64, _: usize) -> bool {
        is_not("printer")
    }

    pub fn matcher(_: u64, _: usize) -> bool {
        is_not("matcher")
    }
}

/// Answers whether nothing is different.
type Part = Box<dyn Fn() -> bool + Send + Sync>;

fn main() {
    let (seed, scale) = (argument("--seed", 1), argument("--scale", 100) as usize);
    println!("seed {seed}, scale {scale} of 100");
    quiet_panics();
    let parts: [(&str, usize, Part); 8] = [
        ("texts", 4 << 30, Box::new(move || compare_texts(seed, scale))),
        ("tables", 1 << 30, Box::new(move || printing::compare(seed, scale))),
        ("characters", 8 << 20, Box::new(move || compare_characters(scale))),
        // The product gets the stack that a program has.
        ("reader", 8 << 20, Box::new(move || linked::reader(seed, scale))),
        ("editions", 8 << 20, Box::new(move || linked::editions(seed, scale))),
        ("stream", 8 << 20, Box::new(move || linked::stream(seed, scale))),
        ("printer", 8 << 20, Box::new(move || linked::printer(seed, scale))),
        ("matcher", 8 << 20, Box::new(move || linked::matcher(seed, scale))),
    ];
    let mut good = true;
    let only = std::env::args().skip_while(|a| a != "--only").nth(1);
    for (name, stack, part) in &parts {
        if only.as_ref().is_some_and(|only| only != name) {
            continue;
        }
        let start = Instant::now();
        good &= on_stack(*stack, part);
        println!("{name}: {:.1} s", start.elapsed().as_secs_f64());
    }
    println!("\n{}", if good { "no difference that isn't explained" } else { "DIFFERENT" });
    std::process::exit(i32::from(!good));
}
