//! The product's compiled library, through its C interface, in buffers with canaries.

use crate::printing::{is_small, without_pairs, Style};
use crate::shown;
use flascjuvan::raw::{feed, feed_end, next_token, print_short, read_edition};
use oracle::Tables;
use second::arrive::Arrival;
use second::read::{Edition, Used};
use second::stream::Feed;
use second::{read, Refusal, NODE_RECORD, RULE_RECORD};

/// As they are, for measuring: into buffers of the caller's.
pub use flascjuvan::raw::{
    match_line as match_into, match_lines as match_lines_into, print as print_into,
    print_short as print_short_into, read as read_into, rule_named,
};

/// The tables of a text that reads, at the tagged level.
pub fn read(text: &[u8]) -> Tables {
    let (mut nodes, mut rules, mut store) =
        (vec![0; text.len() * NODE_RECORD], vec![0; text.len() * RULE_RECORD], vec![0; text.len()]);
    let answer = read_into(text, true, &mut nodes, &mut rules, &mut store);
    let [0, 0, n, r, s] = answer else { panic!("{answer:?}: {}", shown(text)) };
    nodes.truncate(n as usize * NODE_RECORD);
    rules.truncate(r as usize * RULE_RECORD);
    store.truncate(s as usize);
    Tables { nodes, rules, store }
}

/// A lent buffer with canaries on both sides.
pub(crate) struct Lent<T> {
    all: Vec<T>,
}

const GUARD: usize = 16;

impl<T: Copy + PartialEq + std::fmt::Debug> Lent<T> {
    pub(crate) fn new(length: usize, canary: T) -> Lent<T> {
        Lent { all: vec![canary; length + 2 * GUARD] }
    }

    pub(crate) fn lent(&mut self) -> &mut [T] {
        let end = self.all.len() - GUARD;
        &mut self.all[GUARD..end]
    }

    /// Whether `used` stands at the front, and all else is as it was.
    pub(crate) fn holds(&self, used: &[T], canary: T) -> bool {
        let (front, rest) = self.all.split_at(GUARD);
        let (written, rest) = rest.split_at(used.len());
        written == used && front.iter().chain(rest).all(|x| *x == canary)
    }
}

const NUMBER: u32 = 0xdead_beef;
const BYTE: u8 = 0xa5;

/// What differed, in words.
pub type Difference = String;

/// Lent lengths, in numbers and bytes.
type Room = (usize, usize, usize);

/// Rooms worth trying: exact, one short of each, ragged, none, and larger than any limit.
fn rooms(used: Used) -> Vec<Room> {
    let (n, r, s) = (used.nodes * NODE_RECORD, used.rules * RULE_RECORD, used.store);
    let mut rooms = vec![(n, r, s), (n + 6, r + 5, s + 1), (n + 64, r + 7, s + 99)];
    if n > 0 {
        rooms.extend([(n - 1, r, s), (n - NODE_RECORD, r, s), (n - 1, r, s.saturating_sub(1))]);
    }
    if r > 0 {
        rooms.extend([(n, r - 1, s), (n, r - RULE_RECORD, s), (n.saturating_sub(1), r - 1, s)]);
    }
    if s > 0 {
        rooms.extend([(n, r, s - 1), (0, 0, 0)]);
    }
    if used.nodes > 4_000 || used.rules > 1_000 {
        rooms.extend([(4_096 * NODE_RECORD, 1_024 * RULE_RECORD, s)]);
        rooms.extend([(4_097 * NODE_RECORD, 1_025 * RULE_RECORD, s)]);
    }
    rooms
}

/// How a caller names the edition: by calling `flascjuvan_read`, or by a number.
#[derive(Clone, Copy, Debug, PartialEq, Eq)]
pub enum By {
    Read,
    Number(u32),
}

impl By {
    /// Every sort of number.
    pub const EACH: [By; 6] = [
        By::Read,
        By::Number(0),
        By::Number(1),
        By::Number(2),
        By::Number(3),
        By::Number(u32::MAX),
    ];

    fn edition(self) -> Edition {
        match self {
            By::Read | By::Number(0 | 1) => Edition::First,
            By::Number(_) => Edition::Second,
        }
    }
}

/// The reader, at one level and edition, over all rooms worth trying. `few` tries one room.
pub fn check_read(
    text: &[u8],
    tagged: bool,
    by: By,
    few: bool,
    calls: &mut u64,
) -> Result<(), Difference> {
    let tables = read::tables_edition(text, tagged, by.edition());
    let used = match &tables {
        Ok(tables) => tables.used(),
        Err(_) => Used { nodes: 3, rules: 2, store: 9 },
    };
    let mut rooms = rooms(used);
    if tables.is_err() || few {
        rooms.truncate(1);
    }
    for (n, r, s) in rooms {
        let mut nodes = Lent::new(n, NUMBER);
        let mut rules = Lent::new(r, NUMBER);
        let mut store = Lent::new(s, BYTE);
        let lent = (nodes.lent(), rules.lent(), store.lent());
        let answer = match by {
            By::Read => read_into(text, tagged, lent.0, lent.1, lent.2),
            By::Number(edition) => read_edition(text, tagged, edition, lent.0, lent.1, lent.2),
        };
        *calls += 1;
        let wanted = tables
            .as_ref()
            .map_err(|refusal| *refusal)
            .and_then(|tables| read::room(used, n, r, s).map(|()| tables));
        let good = match wanted {
            Ok(tables) => {
                answer == [0, 0, used.nodes as u64, used.rules as u64, used.store as u64]
                    && nodes.holds(&tables.nodes, NUMBER)
                    && rules.holds(&tables.rules, NUMBER)
                    && store.holds(&tables.store, BYTE)
            }
            Err(Refusal { number, place }) => {
                answer == [number, place, 0, 0, 0]
                    && nodes.holds(&[], NUMBER)
                    && rules.holds(&[], NUMBER)
                    && store.holds(&[], BYTE)
            }
        };
        if !good {
            let wanted = wanted.map(|_| used);
            return Err(format!(
                "{by:?}, tagged {tagged}, room {n} {r} {s}: {answer:?} for {wanted:?}: {}",
                shown(text)
            ));
        }
    }
    Ok(())
}

/// The lister at a place. Without a refusal the answer's place is 0.
pub fn check_next(text: &[u8], at: usize, calls: &mut u64) -> Result<(), Difference> {
    let answer = next_token(text, at);
    *calls += 1;
    let length = text.len() as u64;
    let wanted = match second::token::next_token(text, at) {
        Ok(Some(token)) => [0, 0, token.kind.into(), token.start.into(), token.end.into()],
        Ok(None) => [0, 0, 0, length, length],
        Err(Refusal { number, place }) => [number, place, 0, 0, 0],
    };
    if answer != wanted {
        return Err(format!("next token at {at}: {answer:?} for {wanted:?}: {}", shown(text)));
    }
    Ok(())
}

/// The printer of a style, with exact room, one short, ample and none.
pub fn check_print(style: Style, tables: &Tables, calls: &mut u64) -> Result<(), Difference> {
    let print = match style {
        Style::Full => print_into,
        Style::Short => print_short,
    };
    let (nodes, rules, store) = (&tables.nodes[..], &tables.rules[..], &tables.store[..]);
    let printed = style.print(tables);
    let mut rooms = vec![0, 40];
    if let Ok(text) = &printed {
        let length = text.len();
        rooms = vec![length, length + 1, length + 50, length / 2, length.saturating_sub(1), 0];
    }
    for room in rooms {
        let mut out = Lent::new(room, BYTE);
        let answer = print(nodes, rules, store, out.lent());
        *calls += 1;
        let wanted = match &printed {
            Ok(text) if text.len() <= room => Ok(text),
            Ok(_) => Err(Refusal { number: 23, place: 0 }),
            Err(refusal) => Err(*refusal),
        };
        let good = match wanted {
            Ok(text) => answer == [0, 0, text.len() as u64] && out.holds(text, BYTE),
            Err(refusal) => answer == [refusal.number, refusal.place, 0] && out.holds(&[], BYTE),
        };
        if !good {
            let wanted = wanted.map(|text| shown(text));
            return Err(format!("{style:?}, room {room}: {answer:?} for {wanted:?}: {tables:?}"));
        }
    }
    Ok(())
}

/// The reader over the short text of tables, at both levels; of a small tree over that text without
/// each pair of its brackets too.
pub fn check_short(tables: &Tables, calls: &mut u64) -> Result<(), Difference> {
    let Ok(text) = Style::Short.print(tables) else { return Ok(()) };
    check_read(&text, true, By::Read, true, calls)?;
    check_read(&text, false, By::Read, true, calls)?;
    if !is_small(tables) {
        return Ok(());
    }
    for less in without_pairs(&text) {
        check_read(&less, true, By::Read, true, calls)?;
    }
    Ok(())
}

/// A text as it arrives: every call's answer and the whole list after it, over one state, and two calls more,
/// which repeat a refusal or find a fresh state.
pub fn check_arrival(made: &Arrival, calls: &mut u64) -> Result<u64, Difference> {
    let most = made.lists.iter().copied().max().unwrap_or(0);
    let (mut list, mut wanted_list) = (Lent::new(most, NUMBER), vec![NUMBER; most]);
    let (mut state, mut wanted_state) = ([0; 10], Feed::default());
    let mut shown_number = 0;
    let packets = made.packets().map(Some).chain([None, Some(&b"a="[..]), None]);
    for (call, packet) in packets.enumerate() {
        let length = *made.lists.get(call).unwrap_or(&most);
        let (lent, wanted_lent) = (&mut list.lent()[..length], &mut wanted_list[..length]);
        let (answer, wanted) = match packet {
            Some(packet) => {
                (feed(&mut state, packet, lent), wanted_state.feed(packet, wanted_lent))
            }
            None => (feed_end(&mut state, lent), wanted_state.end(wanted_lent)),
        };
        *calls += 1;
        let wanted = [wanted.number, wanted.place, wanted.count as u64];
        if answer != wanted || !list.holds(&wanted_list, NUMBER) {
            return Err(format!(
                "call {call} of {:?} {:?}: {answer:?} for {wanted:?}: {}",
                made.ends,
                made.lists,
                shown(&made.text)
            ));
        }
        if call <= made.ends.len() {
            shown_number = answer[0];
        }
        if packet.is_none() && answer[0] == 0 && state != [0; 10] {
            return Err(format!("a good end leaves {state:?}: {}", shown(&made.text)));
        }
    }
    Ok(shown_number)
}
