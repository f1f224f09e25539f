//! Calls of a feed in the words of a line, as the vectors and the stored answers have them, and what
//! is due for each. crates/calls says what the words mean.

use crate::stream::{Answer, Feed};

/// The most numbers that a list has.
pub const MOST: usize = 600;

/// What stands in the list before the first call.
const UNUSED: u32 = 0xaaaa_aaaa;

/// The answers to a line. None if it gives a state in numbers: these are the product's own, and nothing
/// is known of them here.
pub fn answers(line: &str) -> Option<String> {
    let (mut feed, mut list, mut room) = (Feed::default(), [UNUSED; MOST], 0);
    let (mut shown, mut held, mut most) = (String::new(), 0, 0);
    for word in line.split_ascii_whitespace() {
        let (kind, rest) = word.split_at(1);
        let before = list;
        let lent = &mut list[..room];
        let answer = match kind {
            "r" => {
                room = rest.parse::<usize>().expect("a room").min(MOST);
                continue;
            }
            "t" => feed.feed(rest.as_bytes(), lent),
            "x" => feed.feed(&unhex(rest), lent),
            "n" => feed.feed(&pieces(rest), lent),
            "e" => feed.end(lent),
            _ => return None,
        };
        let Answer { number, place, count } = answer;
        let may_change = if number == 0 { 3 * held..3 * count } else { 0..0 };
        let kept = (0..MOST).all(|i| may_change.contains(&i) || list[i] == before[i]);
        let mark = if kept { "" } else { " CHANGED" };
        shown.push_str(&format!(" {number} {place} {count}{mark};"));
        if number == 0 {
            held = if kind == "e" { 0 } else { count };
            most = most.max(count);
        }
    }
    let held: String = list[..3 * most].iter().map(|number| format!("{number},")).collect();
    let held = if held.is_empty() { "-" } else { &held };
    Some(format!("{shown} {held}"))
}

fn unhex(digits: &str) -> Vec<u8> {
    let pairs = (0..digits.len()).step_by(2).map(|at| &digits[at..at + 2]);
    pairs.map(|pair| u8::from_str_radix(pair, 16).expect("hex digits")).collect()
}

/// Bytes in hex, each piece so many times: `COUNT:HEX,` again and again.
fn pieces(all: &str) -> Vec<u8> {
    let piece = |piece: &str| {
        let (count, digits) = piece.split_once(':').expect("a colon");
        unhex(digits).repeat(count.parse().expect("a count"))
    };
    all.split_terminator(',').flat_map(piece).collect()
}
