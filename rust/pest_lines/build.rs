//! Writes random grammars, each a module with a parser that pest_derive generates. The seed is
//! fixed, so every build has the same.

use std::collections::{HashMap, HashSet};
use std::fmt::Write;
use std::path::Path;

use pest_meta::ast::{Expr, Rule};
use pest_meta::optimizer::{optimize, OptimizedExpr};
use pest_meta::{parser, validator};

mod random;
use random::Random;

const SEED: u64 = 12;
const GRAMMARS: usize = 300;
/// Nodes of a grammar as pest's optimizer leaves it, at most. Counts are written out there, and
/// compiling takes its time by the node.
const NODES: usize = 90;

/// Grammars that must be among them, with what people write and random trees seldom have.
const WRITTEN: [&str; 8] = [
    r#"r = @{ field ~ (";" ~ field)* } field = @{ (!";" ~ ANY)* }"#,
    r#"r = @{ !";" ~ ANY* }"#,
    r#"r = @{ (!(";" | "µ" | "\r\n") ~ ANY)* ~ ANY }"#,
    r#"r = ${ (!("ab" | "é") ~ ANY)+ ~ (^"AB" | "é") }"#,
    r#"r = @{ "a" ~ r ~ "b" | "" }"#,
    r#"r = ${ "(" ~ r* ~ ")" | 'a'..'é' }"#,
    r#"r = @{ "a" ~ "b" ~ 'c'..'d' | "a" ~ "b" | "a" } s = ${ r | r ~ "x" } t = @{ s ~ r | s }"#,
    r#"r = @{ d{2} ~ ":" ~ d{2,} ~ "." ~ d{,3} ~ d{1, 2} } d = @{ '0'..'9' }"#,
];

/// What pest's optimizer is known to turn into something else, with a line, what pest answers and what
/// its own rules say.
const KNOWN: [(&str, &str, &str, &str); 2] = [
    (r#"r = ${ ("a" ~ "b")* ~ "a" }"#, "ab", "Some(1)", "None"),
    (r#"r = @{ (x ~ ";")* ~ x } x = @{ '0'..'9' }"#, "1;2;", "Some(3)", "None"),
];

/// Characters of one to four bytes, with pairs that case folding or a shared byte brings near.
const POOL: [char; 30] = [
    'a', 'b', 'c', 'A', 'B', 'k', 'K', 'z', 'Z', '@', '[', '`', '{', '0', '1', '9', ';', '.', ' ',
    '"', '\\', 'é', 'É', 'µ', '\u{7ff}', '\u{800}', '€', '\u{212a}', '\u{ffff}', '😀',
];

struct Writer {
    random: Random,
    characters: Vec<char>,
    rules: usize,
}

impl Writer {
    fn grammar(&mut self) -> String {
        let count = 2 + self.random.below(5);
        self.characters = (0..count).map(|_| self.random.of(&POOL)).collect();
        self.rules = 1 + self.random.below(5);
        let mut text = String::new();
        for rule in 0..self.rules {
            let mark = self.random.of(&["@", "$"]);
            let size = self.random.of(&[1, 2, 3, 4, 6, 8, 12]);
            let tree = self.tree(size);
            writeln!(text, "r{rule} = {mark}{{ {tree} }}").unwrap();
        }
        text
    }

    fn character(&mut self) -> char {
        if self.random.one_in(12) {
            return self.random.of(&POOL);
        }
        self.characters[self.random.below(self.characters.len())]
    }

    fn string(&mut self) -> String {
        let length = self.random.of(&[0, 1, 1, 1, 1, 1, 1, 2, 2, 2, 3, 3]);
        let mut text = String::from("\"");
        for _ in 0..length {
            text.push_str(&escaped(self.character()));
        }
        text.push('"');
        text
    }

    fn leaf(&mut self) -> String {
        match self.random.below(10) {
            0..=3 => self.string(),
            4 => format!("^{}", self.string()),
            5 | 6 => {
                let (a, b) = (self.character(), self.character());
                let (a, b) = if self.random.one_in(9) { (a, b) } else { (a.min(b), a.max(b)) };
                format!("'{}'..'{}'", escaped(a), escaped(b))
            }
            7 => "ANY".to_string(),
            _ => format!("r{}", self.random.below(self.rules)),
        }
    }

    fn tree(&mut self, size: usize) -> String {
        if size <= 1 {
            return self.leaf();
        }
        match self.random.below(16) {
            kind @ 0..=8 => {
                let left = 1 + self.random.below(size - 1);
                let (left, right) = (self.tree(left), self.tree((size - 1 - left).max(1)));
                let join = if kind < 5 { "~" } else { "|" };
                format!("({left} {join} {right})")
            }
            9 => format!("!{}", self.tree(size - 1)),
            10 => format!("&{}", self.tree(size - 1)),
            11 => {
                // What pest's optimizer turns into a search.
                let strings: Vec<_> =
                    (0..1 + self.random.below(3)).map(|_| self.string()).collect();
                format!("(!({}) ~ ANY)*", strings.join(" | "))
            }
            _ => {
                let child = self.tree(size - 1);
                let child =
                    if child.starts_with(['!', '&']) { format!("({child})") } else { child };
                let (n, m) = (1 + self.random.below(3), self.random.below(3));
                let postfix = match self.random.below(8) {
                    0 | 1 => "?".to_string(),
                    2 | 3 => "*".to_string(),
                    4 => "+".to_string(),
                    5 => format!("{{{n}}}"),
                    6 if m == 0 => format!("{{{},}}", n - 1),
                    6 => format!("{{,{n}}}"),
                    _ => format!("{{{m}, {}}}", m.max(1) + n - 1),
                };
                format!("{child}{postfix}")
            }
        }
    }
}

fn escaped(character: char) -> String {
    match character {
        '"' | '\\' => format!("\\{character}"),
        _ => character.to_string(),
    }
}

/// Why a grammar is left out.
#[derive(Clone, Copy, Debug, PartialEq, Eq, Hash)]
enum Out {
    /// pest's own reading and checks refuse it.
    Refused,
    /// A repetition without end whose body may match nothing, or a rule that may come to itself at
    /// the same place: pest's checks don't find all of these, and its parsers then don't return.
    Endless,
    /// A count of its own around a rule that leads to itself: pest tries the rule for each of the count
    /// even after it failed, and so at every level again.
    Slow,
    /// `(a ~ b)* ~ a`, which pest's optimizer takes for `a ~ (b ~ a)*`: other lengths.
    List,
    Large,
}

fn looked_at(text: &str) -> Result<Vec<String>, Out> {
    let pairs = parser::parse(parser::Rule::grammar_rules, text).map_err(|_| Out::Refused)?;
    validator::validate_pairs(pairs.clone()).map_err(|_| Out::Refused)?;
    let rules = parser::consume_rules(pairs).map_err(|_| Out::Refused)?;
    if endless(&rules) {
        return Err(Out::Endless);
    }
    if slow(&rules) {
        return Err(Out::Slow);
    }
    let names = rules.iter().map(|rule| rule.name.clone()).collect();
    let written = rules.iter().map(|rule| lists(&rule.expr)).sum::<usize>();
    let optimized = optimize(rules);
    let all = optimized.iter().flat_map(|rule| rule.expr.iter_top_down());
    let (mut nodes, mut made) = (0, 0);
    for expr in all {
        nodes += 1;
        if let OptimizedExpr::Seq(left, right) = &expr {
            if let OptimizedExpr::Rep(body) = &**right {
                made += usize::from(matches!(&**body, OptimizedExpr::Seq(_, last) if last == left));
            }
        }
    }
    if made > written {
        return Err(Out::List);
    }
    if nodes > NODES {
        return Err(Out::Large);
    }
    Ok(names)
}

/// Whether a rule that leads to itself is tried again where it failed.
fn slow(rules: &[Rule]) -> bool {
    let names = |expr: &Expr| -> HashSet<String> {
        let names = expr.iter_top_down().filter_map(|expr| match expr {
            Expr::Ident(name) => Some(name),
            _ => None,
        });
        names.collect()
    };
    let mut reached: HashMap<String, HashSet<String>> =
        rules.iter().map(|rule| (rule.name.clone(), names(&rule.expr))).collect();
    for _ in rules {
        let before = reached.clone();
        for found in reached.values_mut() {
            for name in found.clone() {
                found.extend(before.get(&name).into_iter().flatten().cloned());
            }
        }
    }
    let again = |expr: &Expr| match expr {
        Expr::RepMax(body, most) => (*most > 1).then(|| names(body)),
        Expr::RepMinMax(body, least, most) => (*most > least + 1).then(|| names(body)),
        _ => None,
    };
    let to_itself = |name: &String| {
        let of = |name: &String| reached.get(name).is_some_and(|found| found.contains(name));
        of(name) || reached.get(name).into_iter().flatten().any(of)
    };
    let mut all = rules.iter().flat_map(|rule| rule.expr.iter_top_down());
    all.any(|expr| again(&expr).into_iter().flatten().any(|name| to_itself(&name)))
}

/// How often `a ~ (b ~ a)*` stands there as such.
fn lists(expr: &Expr) -> usize {
    let found = |expr: &Expr| {
        let Expr::Seq(left, right) = expr else { return false };
        let Expr::Rep(body) = &**right else { return false };
        matches!(&**body, Expr::Seq(_, last) if last == left)
    };
    expr.iter_top_down().filter(found).count()
}

/// Whether it may match without taking anything: yes where that isn't known.
fn empty(expr: &Expr, empties: &HashMap<String, bool>) -> bool {
    match expr {
        Expr::Str(text) | Expr::Insens(text) => text.is_empty(),
        Expr::Range(..) => false,
        Expr::Ident(name) => empties.get(name).copied().unwrap_or(false),
        Expr::Seq(left, right) => empty(left, empties) && empty(right, empties),
        Expr::Choice(left, right) => empty(left, empties) || empty(right, empties),
        Expr::RepOnce(body) | Expr::RepExact(body, _) => empty(body, empties),
        Expr::RepMin(body, least) | Expr::RepMinMax(body, least, _) => {
            *least == 0 || empty(body, empties)
        }
        _ => true,
    }
}

/// The rules that it may come to at its own place.
fn firsts<'a>(expr: &'a Expr, empties: &HashMap<String, bool>, found: &mut HashSet<&'a str>) {
    match expr {
        Expr::Ident(name) => {
            found.insert(name);
        }
        Expr::Seq(left, right) => {
            firsts(left, empties, found);
            if empty(left, empties) {
                firsts(right, empties, found);
            }
        }
        Expr::Choice(left, right) => {
            firsts(left, empties, found);
            firsts(right, empties, found);
        }
        Expr::PosPred(body)
        | Expr::NegPred(body)
        | Expr::Opt(body)
        | Expr::Rep(body)
        | Expr::RepOnce(body)
        | Expr::RepExact(body, _)
        | Expr::RepMin(body, _)
        | Expr::RepMax(body, _)
        | Expr::RepMinMax(body, ..) => {
            firsts(body, empties, found);
            // The next time round begins where this one ended, which may be here.
        }
        _ => (),
    }
}

fn endless(rules: &[Rule]) -> bool {
    let mut empties: HashMap<String, bool> =
        rules.iter().map(|rule| (rule.name.clone(), false)).collect();
    loop {
        let next: HashMap<_, _> =
            rules.iter().map(|rule| (rule.name.clone(), empty(&rule.expr, &empties))).collect();
        if next == empties {
            break;
        }
        empties = next;
    }
    let repeats = |expr: &Expr| match expr {
        Expr::Rep(body) | Expr::RepOnce(body) | Expr::RepMin(body, _) => empty(body, &empties),
        _ => false,
    };
    if rules.iter().any(|rule| rule.expr.iter_top_down().any(|expr| repeats(&expr))) {
        return true;
    }
    let mut reached: HashMap<&str, HashSet<&str>> = HashMap::new();
    for rule in rules {
        let mut found = HashSet::new();
        firsts(&rule.expr, &empties, &mut found);
        reached.insert(&rule.name, found);
    }
    for _ in rules {
        let before = reached.clone();
        for found in reached.values_mut() {
            for name in found.clone() {
                found.extend(before.get(name).into_iter().flatten());
            }
        }
    }
    reached.iter().any(|(name, found)| found.contains(name))
}

/// The characters that a grammar names.
fn characters(text: &str) -> String {
    let mut seen: Vec<char> = Vec::new();
    let mut inside = None;
    let mut all = text.chars();
    while let Some(next) = all.next() {
        match inside {
            None if next == '"' || next == '\'' => inside = Some(next),
            None => (),
            Some(quote) if next == quote => inside = None,
            Some(_) if next == '\\' => {
                // an escape by a letter is left out: its letter is no character of the grammar's
                seen.extend(all.next().filter(|next| matches!(next, '"' | '\\' | '\'')));
            }
            Some(_) => seen.push(next),
        }
    }
    seen.sort();
    seen.dedup();
    seen.into_iter().collect()
}

fn main() {
    println!("cargo:rerun-if-changed=build.rs");
    println!("cargo:rerun-if-changed=random.rs");
    let mut writer = Writer { random: Random(SEED), characters: Vec::new(), rules: 0 };
    let mut out: HashMap<Out, usize> = HashMap::new();
    let mut kept: Vec<(String, Vec<String>)> = Vec::new();
    for text in WRITTEN {
        kept.push((text.to_string(), looked_at(text).expect(text)));
    }
    let mut tried = 0;
    while kept.len() < GRAMMARS {
        tried += 1;
        let text = writer.grammar();
        if !text.contains(['~', '|', '*', '+', '?', '!', '&']) && !writer.random.one_in(20) {
            continue;
        }
        match looked_at(&text) {
            Ok(names) => kept.push((text, names)),
            Err(why) => *out.entry(why).or_default() += 1,
        }
    }
    let mut code = String::new();
    let mut list = String::new();
    for (number, (text, names)) in kept.iter().enumerate() {
        writeln!(list, "{},", module(&mut code, &format!("g{number}"), text, names)).unwrap();
    }
    writeln!(
        code,
        "/// All of them.\npub static GRAMMARS: [Grammar; {}] = [\n{list}];",
        kept.len()
    )
    .unwrap();
    list.clear();
    for (number, (text, line, pest, rules)) in KNOWN.iter().enumerate() {
        assert_eq!(looked_at(text), Err(Out::List));
        let names: &[_] = if text.contains("x =") { &["r", "x"] } else { &["r"] };
        let names: Vec<_> = names.iter().map(|name| name.to_string()).collect();
        let grammar = module(&mut code, &format!("known{number}"), text, &names);
        writeln!(list, "({grammar}, {line:?}, {pest}, {rules}),").unwrap();
    }
    writeln!(code, "/// Grammar, line, pest's length, and the one by the rules.").unwrap();
    writeln!(code, "pub static KNOWN: &[Known] = &[\n{list}];").unwrap();
    let left_out: Vec<_> = [Out::Refused, Out::Endless, Out::Slow, Out::List, Out::Large]
        .iter()
        .map(|why| format!("{:?} {}", why, out.get(why).copied().unwrap_or(0)))
        .collect();
    let made = format!(
        "{} by hand; {tried} written at random, {} of them kept, left out: {}",
        WRITTEN.len(),
        kept.len() - WRITTEN.len(),
        left_out.join(", ")
    );
    writeln!(code, "/// Where they come from.\npub const MADE: &str = {made:?};").unwrap();
    let folder = std::env::var_os("OUT_DIR").expect("cargo sets it");
    std::fs::write(Path::new(&folder).join("grammars.rs"), code).expect("written");
}

/// A module with the parser of a grammar, and the `Grammar` that it makes.
fn module(code: &mut String, name: &str, text: &str, names: &[String]) -> String {
    let rules: Vec<_> = names.iter().map(|name| format!("Rule::{name}")).collect();
    write!(
        code,
        "mod {name} {{
    #[derive(pest_derive::Parser)]
    #[grammar_inline = {text:?}]
    struct Generated;
    const RULES: [Rule; {}] = [{}];
    pub fn length(rule: usize, line: &str) -> Option<usize> {{
        crate::end(<Generated as pest::Parser<Rule>>::parse(RULES[rule], line))
    }}
}}
",
        names.len(),
        rules.join(", ")
    )
    .unwrap();
    let characters = characters(text);
    format!("Grammar {{ text: {text:?}, rules: &{names:?}, characters: {characters:?}, length: {name}::length }}")
}
