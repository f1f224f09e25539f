//! The deepest trees on a thread of 2 MB, printing alone on one of 1 MB, and what happens on one that is too small.

use std::collections::hash_map::DefaultHasher;
use std::hash::{Hash, Hasher};
use std::thread;

use flascjuvan::{print, print_short, raw, read, Expr, Grammar, Level, ParserRule, Reason, Rule, MAX_NODES};

use crate::{choice, ident, rule, seq};

/// Trees of 4,096 nodes, or 4,095 where each has two children.
fn deepest() -> Vec<(&'static str, Expr)> {
    let over = |count: usize, wrap: fn(usize, Expr) -> Expr| (0..count).fold(ident("a"), |expr, i| wrap(i, expr));
    vec![
        (
            "predicates",
            over(MAX_NODES - 1, |i, expr| match i % 2 {
                0 => Expr::PosPred(Box::new(expr)),
                _ => Expr::NegPred(Box::new(expr)),
            }),
        ),
        (
            "postfixes",
            over(MAX_NODES - 1, |i, expr| match i % 7 {
                0 => Expr::Opt(Box::new(expr)),
                1 => Expr::Rep(Box::new(expr)),
                2 => Expr::RepOnce(Box::new(expr)),
                3 => Expr::RepExact(Box::new(expr), 2),
                4 => Expr::RepMin(Box::new(expr), 2),
                5 => Expr::RepMax(Box::new(expr), 2),
                _ => Expr::RepMinMax(Box::new(expr), 2, 3),
            }),
        ),
        ("tags", over(MAX_NODES - 1, |_, expr| Expr::NodeTag(Box::new(expr), "t".to_owned()))),
        ("pushes", over(MAX_NODES - 1, |_, expr| Expr::Push(Box::new(expr)))),
        ("left chain", over(MAX_NODES / 2 - 1, |_, expr| seq(expr, ident("b")))),
        ("right chain", over(MAX_NODES / 2 - 1, |_, expr| choice(ident("b"), expr))),
        (
            "both ways",
            over(MAX_NODES / 2 - 1, |i, expr| match i % 2 {
                0 => choice(ident("b"), expr),
                _ => seq(expr, ident("b")),
            }),
        ),
    ]
}

/// Runs something on a thread that has this much stack. What overflows it ends the process, with the thread's name.
fn on_a_thread_of<T: Send + 'static>(bytes: usize, name: String, run: impl FnOnce() -> T + Send + 'static) -> T {
    let thread = thread::Builder::new().name(name).stack_size(bytes).spawn(run).expect("a thread");
    thread.join().expect("no panic")
}

/// Does each thing to each of the deepest trees, on a thread of its own of 2 MB.
fn each(what: &'static str, act: fn(Vec<Rule>)) {
    for (kind, expr) in deepest() {
        on_a_thread_of(2_000_000, format!("{what}, {kind}"), move || act(rule(expr)));
    }
}

fn hash(value: impl Hash) -> u64 {
    let mut hasher = DefaultHasher::new();
    value.hash(&mut hasher);
    hasher.finish()
}

/// The rules with another name for the deepest `a`.
fn changed(rules: Vec<Rule>) -> Vec<Rule> {
    let other = |expr| match expr {
        Expr::Ident(name) if name == "a" => Expr::Ident("c".to_owned()),
        other => other,
    };
    rules.into_iter().map(|rule| Rule { expr: rule.expr.map_bottom_up(other), ..rule }).collect()
}

#[test]
fn cloning() {
    each("clone", |rules| {
        assert_eq!(rules.clone(), rules);
        let trees = Grammar::from(rules).parser_rules();
        assert_eq!(trees.clone(), trees);
    });
}

#[test]
fn comparing() {
    each("compare", |rules| {
        let other = changed(rules.clone());
        assert!(rules != other);
        let (a, b) = (Grammar::from(rules), Grammar::from(other));
        assert!(a != b && !a.same(&b) && a.same(&a.clone()));
        assert!(a.parser_rules() != b.parser_rules());
        let line = a.difference(&b).expect("a difference").to_string();
        assert!(line.ends_with("Ident a against Ident c") && line.len() < 200, "{line}");
    });
}

#[test]
fn hashing() {
    each("hash", |rules| {
        assert_eq!(hash(&rules), hash(rules.clone()));
        let trees = Grammar::from(rules).parser_rules();
        assert_eq!(hash(&trees), hash(trees.clone()));
    });
}

#[test]
fn naming() {
    each("{:?}", |rules| {
        let named = format!("{rules:?}");
        let opened = named.matches('(').count();
        assert!(opened >= MAX_NODES - 1 && opened == named.matches(')').count(), "{opened}");
        let grammar = Grammar::from(rules);
        assert_eq!(format!("{grammar:?}").matches("0..0").count(), opened + 1);
    });
}

#[test]
fn drawing() {
    each("{:#?}", |rules| {
        let nodes = rules[0].expr.iter_top_down().count();
        assert_eq!(format!("{:#?}", rules[0]).lines().count(), nodes + 1);
        assert_eq!(format!("{:#?}", rules[0].expr).lines().count(), nodes);
        let grammar = Grammar::from(rules);
        assert_eq!(grammar.picture().to_string().lines().count(), nodes + 1);
        assert_eq!(format!("{:#?}", grammar.parser_rules()[0].node).lines().count(), nodes);
    });
}

#[test]
fn printing() {
    each("Display", |rules| {
        let text = print(&Grammar::from(&rules[..])).expect("printed");
        assert_eq!(format!("{}\n", rules[0]), text);
        assert_eq!(format!("r = {{ {} }}\n", rules[0].expr), text);
        assert_eq!(Grammar::from(rules).to_string(), text);
    });
}

#[test]
fn printing_short() {
    each("{:#}", |rules| {
        let text = print_short(&Grammar::from(&rules[..])).expect("printed");
        assert_eq!(format!("{:#}\n", rules[0]), text);
        assert_eq!(format!("r = {{ {:#} }}\n", rules[0].expr), text);
    });
}

/// Both texts, into an output with room to spare and into one of exactly their length.
#[test]
fn printing_on_a_small_stack() {
    for (kind, expr) in deepest() {
        let grammar = Grammar::from(rule(expr));
        on_a_thread_of(1_000_000, format!("1 MB, {kind}"), move || {
            let (nodes, rules, store) = grammar.tables();
            for printer in [raw::print, raw::print_short] {
                let mut ample = vec![0; 131_072];
                let [number, _, length] = printer(nodes, rules, store, &mut ample);
                let mut exact = vec![0; length as usize];
                assert_eq!((number, printer(nodes, rules, store, &mut exact)), (0, [0, 0, length]));
                assert_eq!(ample[..length as usize], exact);
            }
        });
    }
}

#[test]
fn walking() {
    each("walk", |rules| {
        let expr = rules[0].expr.clone();
        assert!(expr.iter_top_down().count() >= MAX_NODES - 1);
        assert_eq!(expr.clone().map_top_down(|node| node), expr);
        assert_eq!(expr.clone().map_bottom_up(|node| node), expr);
    });
}

#[test]
fn making_tables_and_trees() {
    each("rules", |rules| {
        let grammar = Grammar::from(&rules[..]);
        assert_eq!(grammar.rules(), rules);
        let trees = grammar.parser_rules();
        assert_eq!(trees.into_iter().map(Rule::from).collect::<Vec<_>>(), rules);
        assert_eq!(rules.into_iter().collect::<Grammar>(), grammar);
    });
}

/// What isn't Rust's own takes no stack for a tree's depth: one far deeper than any that is printed is no matter.
#[test]
fn deeper_than_any_text() {
    fn taken_apart(mut expr: Expr) {
        while let Expr::NegPred(inner) = expr {
            expr = *inner;
        }
        assert_eq!(expr, ident("a"));
    }
    on_a_thread_of(2_000_000, "100,000 predicates".to_owned(), || {
        let deep = (0..100_000).fold(ident("a"), |expr, _| Expr::NegPred(Box::new(expr)));
        let copy = deep.clone();
        assert!(copy == deep && hash(&copy) == hash(&deep));
        assert_eq!(format!("{deep:?}").len(), 100_000 * "NegPred()".len() + "Ident(\"a\")".len());
        assert_eq!(deep.to_string(), "<refused 20 at 0: tables that are too large to print>");
        assert_eq!(deep.iter_top_down().count(), 100_001);
        let copy = copy.map_top_down(|node| node).map_bottom_up(|node| node);
        let mut rules = rule(copy);
        let grammar = Grammar::from(&rules[..]);
        assert!(grammar.same(&grammar.clone()));
        let tree = grammar.parser_rules().remove(0);
        let copy = tree.clone();
        assert!(tree == copy && hash(&tree) == hash(&copy));
        let [back, other] = [tree, copy].map(|tree| Rule::from(tree).expr);
        [deep, back, other, rules.remove(0).expr, grammar.rules().remove(0).expr].into_iter().for_each(taken_apart);
    });
}

/// Rust's own way to drop a tree goes down it a call at a time; 2 MB are enough for it.
#[test]
fn dropping() {
    each("drop", |rules| {
        let trees: Vec<ParserRule> = Grammar::from(&rules[..]).parser_rules();
        drop(rules);
        drop(trees);
    });
}

#[test]
fn reading_and_printing_the_deepest_texts() {
    for (deep, text) in [
        ("predicates", format!("{}b", "!".repeat(4095))),
        ("postfixes", format!("b{}", "*".repeat(4095))),
        ("brackets", format!("{}b{}", "(".repeat(1024), ")".repeat(1024))),
        ("tags", format!("{}b{}", "(#t = ".repeat(1024), ")".repeat(1024))),
        ("left chain", vec!["b"; 2048].join(" ~ ")),
        ("right chain", format!("{}b{}", "b | (".repeat(1023), ")".repeat(1023))),
        // more tokens than the reader's middle arrays hold
        ("brackets and docs", format!("{}b{} }}{}c = {{ d", "(".repeat(1024), ")".repeat(1024), "///\n".repeat(15500))),
    ] {
        on_a_thread_of(2_000_000, deep.to_owned(), move || {
            let grammar = read(format!("a = {{ {text} }}"), Level::Tagged).expect("read");
            assert_eq!(Grammar::from(grammar.rules()).rules(), grammar.rules());
            assert!(print(&grammar).expect("printed").ends_with(" }\n"));
            assert!(print_short(&grammar).expect("printed").ends_with(" }\n"));
        });
    }
}

/// 1,024 visits inside one another, and the one more that is refused.
#[test]
fn matching_the_deepest_runs() {
    for (deep, body, line) in [
        ("predicates", format!("{}\"a\"", "!".repeat(1023)), "a".to_owned()),
        ("more predicates", format!("{}\"a\"", "!".repeat(1024)), "a".to_owned()),
        ("postfixes", format!("\"a\"{}", "?".repeat(1023)), "a".to_owned()),
        ("more postfixes", format!("\"a\"{}", "?".repeat(1024)), "a".to_owned()),
        ("left chain", vec!["\"a\""; 1024].join(" ~ "), "a".repeat(1024)),
        ("right chain", format!("{}\"b\"{}", "\"a\" | (".repeat(1023), ")".repeat(1023)), "b".to_owned()),
        ("rules", "\"a\" ~ r | \"b\"".to_owned(), "a".repeat(340) + "b"),
        ("more rules", "\"a\" ~ r | \"b\"".to_owned(), "a".repeat(341) + "b"),
        ("predicates and rules", "!\"b\" ~ &(ANY ~ r?)* ~ ANY".to_owned(), "a".repeat(400)),
    ] {
        on_a_thread_of(2_000_000, deep.to_owned(), move || {
            let grammar = read(format!("r = {{ {body} }}"), Level::Tagged).expect("read");
            let run = grammar.match_line("r", &line, 100_000);
            let too_deep = deep.starts_with("more") || deep.ends_with("and rules");
            assert_eq!(run.map_err(|refusal| refusal.reason).err(), too_deep.then_some(Reason::Overrun));
            let lines = grammar.match_lines("r", &line, 100_000).expect("a good grammar");
            assert_eq!(lines.map(|line| line.run).collect::<Vec<_>>(), [run]);
        });
    }
}

/// With too little stack the process is ended in Rust's own way. It is seen in a process that this test starts.
#[cfg(target_os = "linux")]
#[test]
fn too_little_stack_ends_the_process() {
    use std::os::unix::process::ExitStatusExt;
    const INSIDE: &str = "FLASCJUVAN_TEST_TOO_LITTLE_STACK";
    const SIGABRT: i32 = 6;
    let deep = |what: String| match &what[..] {
        "read" => drop(read(format!("a = {{ {}b{} }}", "(".repeat(1024), ")".repeat(1024)), Level::Tagged)),
        "match" => {
            let grammar = read(format!("a = {{ {}\"b\" }}", "!".repeat(1023)), Level::Tagged).expect("read");
            let _ = grammar.match_line("a", "b", 10_000);
        }
        _ => drop(print(&Grammar::from(rule(deepest().remove(0).1)))),
    };
    if let Ok(what) = std::env::var(INSIDE) {
        let bytes = if what == "match" { 200_000 } else { 400_000 };
        return on_a_thread_of(bytes, what.clone(), move || deep(what));
    }
    for what in ["read", "print", "match"] {
        let output = std::process::Command::new(std::env::current_exe().expect("this program"))
            .args(["--exact", "stack::too_little_stack_ends_the_process", "--nocapture"])
            .env(INSIDE, what)
            .output()
            .expect("this program runs");
        let said = String::from_utf8_lossy(&output.stderr);
        assert!(said.contains(&format!("thread '{what}'")) && said.contains("has overflowed its stack"), "{said}");
        assert_eq!(output.status.signal(), Some(SIGABRT));
    }
}
