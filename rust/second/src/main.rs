//! Reads a grammar on standard input at the tagged level and writes its printed text, or one
//! line `refused N at P`.

use std::io::{Read, Write};

use second::{NODE_RECORD, RULE_RECORD};

fn main() {
    let mut text = Vec::new();
    std::io::stdin().take(65_537).read_to_end(&mut text).expect("standard input");
    let (mut nodes, mut rules) = (vec![0; 2_048 * NODE_RECORD], vec![0; 1_024 * RULE_RECORD]);
    let (mut store, mut out) = (vec![0; 65_536], vec![0; 65_536]);
    let printed =
        second::read::read(&text, true, &mut nodes, &mut rules, &mut store).and_then(|used| {
            let nodes = &nodes[..used.nodes * NODE_RECORD];
            let rules = &rules[..used.rules * RULE_RECORD];
            second::print::print(nodes, rules, &store[..used.store], &mut out)
        });
    let mut stdout = std::io::stdout();
    let done = match printed {
        Ok(length) => stdout.write_all(&out[..length]),
        Err(refusal) => writeln!(stdout, "refused {} at {}", refusal.number, refusal.place),
    };
    done.expect("standard output");
}
