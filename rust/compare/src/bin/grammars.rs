//! Reads the grammars named on the command line at both levels, prints them, and reads what was printed: by the
//! Rust (2.5.2 and the given files), by the second program and (feature `product`) by the product.

use compare::printing::Style;
use compare::{on_stack, quiet_panics, second_reads, trees, used};
use oracle::{Answer, Tables};

/// A style's text of a level's tables, and whether they come back as they were: if not, as the
/// style regroups them.
fn round(style: Style, made: &Tables, tagged: bool) -> Result<(Vec<u8>, bool), String> {
    let printed =
        style.print(made).map_err(|e| format!("not printed: {} at {}", e.number, e.place))?;
    let rules = trees::rules(made);
    let (same, seen) = (trees::tables(&rules), trees::tables(&style.seen(rules)));
    let back =
        second_reads(&printed, tagged).map_err(|e| format!("back: {} at {}", e.number, e.place))?;
    if back.without_spans() != seen {
        return Err(format!("{style:?}: it doesn't come back"));
    }
    Ok((printed, seen == same))
}

/// Whether the product reads a text, prints its tables and reads what was printed as the second program
/// does, in all rooms worth trying; how often it was called.
#[cfg(feature = "product")]
fn product(text: &str, made: &Tables, tagged: bool) -> Result<u64, String> {
    use compare::product::{check_print, check_read, By};
    let mut calls = 0;
    for by in By::EACH {
        check_read(text.as_bytes(), tagged, by, false, &mut calls)?;
    }
    for style in Style::BOTH {
        check_print(style, made, &mut calls)?;
        let (printed, _) = round(style, made, tagged)?;
        check_read(&printed, tagged, By::Read, false, &mut calls)?;
    }
    Ok(calls)
}

#[cfg(not(feature = "product"))]
fn product(_: &str, _: &Tables, _: bool) -> Result<u64, String> {
    Ok(0)
}

/// What went well, or what didn't.
fn one(text: &str) -> Result<String, String> {
    let (mut words, mut calls) = (Vec::new(), 0);
    for (tagged, level) in [(true, "tagged"), (false, "plain")] {
        let made = second_reads(text.as_bytes(), tagged)
            .map_err(|e| format!("refused {} at {}", e.number, e.place))?;
        let Answer::Read(rules) = oracle::read(text, tagged) else {
            return Err("the given files refuse it".to_string());
        };
        if Tables::of(&rules) != made {
            return Err("the given files read it otherwise".to_string());
        }
        if tagged {
            let used = used(&made);
            words.push(format!("{} nodes, {} rules", used.nodes, used.rules));
        } else {
            words.push(match oracle::real::read(text) {
                Answer::Read(rules) if Tables::of(&rules) == made.clone().without_spans() => {
                    "2.5.2 alike".to_string()
                }
                Answer::Read(_) => return Err("2.5.2 reads it otherwise".to_string()),
                _ => "2.5.2 refuses it".to_string(),
            });
        }
        let (full, same) = round(Style::Full, &made, tagged)?;
        let display = oracle::print(&made.nodes, &made.rules, &made.store);
        let alike = if display.as_bytes() == full { "alike" } else { "otherwise" };
        let back = if same { "back equal" } else { "back regrouped" };
        let (short, _) = round(Style::Short, &made, tagged)?;
        let lengths = format!("{} bytes, short {}", full.len(), short.len());
        words.push(format!("{level}: `Display` prints {alike}, {back}; {lengths}, back equal"));
        calls += product(text, &made, tagged)?;
    }
    words.push(if calls == 0 {
        "the product isn't linked".to_string()
    } else {
        format!("the product alike in {calls} calls")
    });
    Ok(words.join("; "))
}

fn main() {
    quiet_panics();
    let (mut good, mut bad) = (0, 0);
    for path in std::env::args().skip(1) {
        let text = std::fs::read_to_string(&path).expect(&path);
        let name = path.rsplit('/').take(3).collect::<Vec<_>>().into_iter().rev();
        let name = name.collect::<Vec<_>>().join("/");
        match on_stack(1 << 30, || one(&text)) {
            Ok(words) => {
                good += 1;
                println!("{name}: {} bytes, {words}", text.len());
            }
            Err(words) => {
                bad += 1;
                println!("{name}: DIFFERENT: {words}");
            }
        }
    }
    println!("{good} grammars alike, {bad} different");
    std::process::exit(i32::from(bad > 0));
}
