//! Reading, printing and running of pest grammars, proved.
//!
//! The work is done by a library in Rattle, a language in which every function is proved to meet its contract. This
//! crate is its safe face: [`read`] a text into a [`Grammar`], look at its [`Rule`]s as trees under pest's names, edit
//! them, [`print`](fn@print) them back with every bracket or [with the fewest](print_short), run one
//! [over lines](Grammar::match_lines). A text that comes in packets gives its tokens [as it arrives](TokenFeed).
//!
//! ```
//! use flascjuvan::{Expr, Grammar, Reason};
//!
//! let grammar: Grammar = "size = @{ digit{3} }".parse()?;
//! let mut rules = grammar.rules();
//! if let Expr::RepExact(_, count) = &mut rules[0].expr {
//!     *count = 4;
//! }
//! assert_eq!(Grammar::from(rules).to_string(), "size = @{ digit{4} }\n");
//!
//! let refusal = "size = @{ digit{0} }".parse::<Grammar>().unwrap_err();
//! assert_eq!((refusal.reason, refusal.place), (Reason::Zero, 16));
//! # Ok::<(), flascjuvan::Refusal>(())
//! ```
//!
//! # Stack
//!
//! [`read`], [`print`](fn@print), [`print_short`], [`tokens`] and matching run on the caller's stack, and so does
//! whatever shows a grammar or a tree, since the printer writes it. Have 2 MB of stack free. Threads of these sizes
//! were seen to be enough on x86-64:
//!
//! | for | stack |
//! |---|---|
//! | tokens of any text | 32 KB |
//! | reading any text with up to 100 brackets inside one another | 900 KB |
//! | reading 1,024 brackets inside one another | 1,640 KB |
//! | printing 4,096 nodes inside one another | 480 KB |
//! | matching with 1,024 visits inside one another | 330 KB |
//!
//! So a thread as Rust makes them, of 2 MiB, is enough if little of it is in use. Where too little is free, the process
//! is ended as by any other overflow of a stack in Rust: the library touches each page of a frame in order, so it meets
//! the guard page below the stack and overwrites nothing. Nothing is moved to another thread behind the caller's back;
//! whoever has small threads calls from a larger one:
//!
//! ```
//! use flascjuvan::{read, Level};
//!
//! let text = String::from("a = { b }");
//! let thread = std::thread::Builder::new().stack_size(4 << 20).spawn(move || read(text, Level::Tagged));
//! let grammar = thread?.join().expect("reading doesn't panic")?;
//! assert_eq!(grammar.rules().len(), 1);
//! # Ok::<(), Box<dyn std::error::Error>>(())
//! ```
//!
//! # Linking
//!
//! The build links `libflascjuvan.a`: that of the folder which the environment variable `FLASCJUVAN_LIB_DIR` names. If
//! that is not set, it is the one that `scripts/native-lib` makes in the project's own repository, and elsewhere that
//! of the folder which pkg-config knows for `flascjuvan`. A number that this crate doesn't know, as the library of
//! another version might answer, is a panic that says so.

#![warn(missing_debug_implementations, missing_docs)]

#[cfg(doctest)]
#[doc = include_str!("../README.md")]
struct Readme;

mod arriving;
mod ast;
mod grammar;
mod literal;
mod matching;
mod parser;
mod picture;
mod place;
pub mod raw;
mod refusal;
mod same;
mod shape;
mod token;

pub use arriving::{Arriving, Failure, TokenFeed};
pub use ast::{Expr, ExprTopDownIterator, Rule, RuleType};
pub use grammar::Grammar;
pub use matching::{Line, Lines, Matcher, Run};
pub use parser::{ParserExpr, ParserNode, ParserNodeTopDownIterator, ParserRule, Span};
pub use picture::Picture;
pub use place::{line_column, LineColumn};
pub use refusal::{Reason, Refusal};
pub use same::{Difference, Found};
pub use token::{Token, TokenKind};

use std::fmt;

use grammar::{NODE_RECORD, RULE_RECORD};
use refusal::judged;
use token::WINDOW;

/// The most nodes of a grammar.
pub const MAX_NODES: usize = 4096;
/// The most rules of a grammar.
pub const MAX_RULES: usize = 1024;
/// The most bytes of a text, and of the names and strings of a grammar that is printed.
pub const MAX_TEXT: usize = 65536;

/// Whether tags are kept.
#[derive(Clone, Copy, Debug, Eq, Hash, PartialEq)]
pub enum Level {
    /// Tags are kept, and PUSH_LITERAL is read: pest's feature grammar-extras.
    Tagged,
    /// Tags are dropped without a word, and PUSH_LITERAL is refused by 13.
    Plain,
}

/// An edition of the rules for layouts. It decides what is refused, never what a tree is.
///
/// As text it is its number, which the C interface takes.
///
/// ```
/// use flascjuvan::Edition;
///
/// assert_eq!(Edition::default(), Edition::First);
/// assert_eq!(Edition::Second.number(), 2);
/// assert_eq!(format!("edition {}", Edition::Second), "edition 2");
/// ```
#[derive(Clone, Copy, Debug, Default, Eq, Hash, Ord, PartialEq, PartialOrd)]
#[repr(u32)]
pub enum Edition {
    /// A repeat may have a minimum above its maximum, as in `a{3, 2}`. It is [`read`]'s edition, and the desk's.
    #[default]
    First = 1,
    /// Such a repeat is refused by 15.
    Second = 2,
}

impl Edition {
    /// Its number, 1 or 2.
    pub fn number(self) -> u32 {
        self as u32
    }
}

impl fmt::Display for Edition {
    fn fmt(&self, f: &mut fmt::Formatter<'_>) -> fmt::Result {
        self.number().fmt(f)
    }
}

/// Reads a text by the first edition.
///
/// The room lent is always enough: a node takes a byte of the text at least, and unescaping makes nothing longer. So 11
/// is never given here, and 10 and 12 only over [`MAX_NODES`] and [`MAX_RULES`].
///
/// It wants [2 MB of stack](crate#stack).
///
/// ```
/// use flascjuvan::{read, Level};
///
/// let text = "note = { #size = digit{3} }";
/// assert_eq!(read(text, Level::Tagged)?.to_string(), "note = { (#size = digit{3}) }\n");
/// assert_eq!(read(text, Level::Plain)?.to_string(), "note = { digit{3} }\n");
/// assert_eq!(read(b"note = \xff", Level::Tagged).unwrap_err().to_string(), "refused 2 at 7");
/// # Ok::<(), flascjuvan::Refusal>(())
/// ```
pub fn read(text: impl AsRef<[u8]>, level: Level) -> Result<Grammar, Refusal> {
    read_edition(text, level, Edition::First)
}

/// Reads a text as [`read`] does, by an edition that the caller names. [`Edition::Second`] refuses a minimum above its
/// maximum by 15; what it reads is the very same grammar by both.
///
/// ```
/// use flascjuvan::{read_edition, Edition, Level, Reason};
///
/// let text = "size = { digit{4, 2} }";
/// assert!(read_edition(text, Level::Tagged, Edition::First).is_ok());
/// let refusal = read_edition(text, Level::Tagged, Edition::Second).unwrap_err();
/// assert_eq!((refusal.reason, refusal.place), (Reason::Above, 15));
/// ```
pub fn read_edition(text: impl AsRef<[u8]>, level: Level, edition: Edition) -> Result<Grammar, Refusal> {
    let text = text.as_ref();
    let mut nodes = vec![0; NODE_RECORD * text.len().min(MAX_NODES)];
    let mut rules = vec![0; RULE_RECORD * text.len().min(MAX_RULES)];
    let mut store = vec![0; text.len().min(MAX_TEXT)];
    let [number, place, node_count, rule_count, stored] =
        raw::read_edition(text, level == Level::Tagged, edition.number(), &mut nodes, &mut rules, &mut store);
    judged(number, place)?;
    nodes.truncate(NODE_RECORD * node_count as usize);
    rules.truncate(RULE_RECORD * rule_count as usize);
    store.truncate(stored as usize);
    Ok(Grammar::of(nodes, rules, store))
}

/// Prints a grammar, a rule to a line, every bracket shown.
///
/// In strings and ranges the characters of U+00A1 to U+024F but U+00AD stand as they are; all others beyond ASCII are
/// escaped.
///
/// What was read always prints: a theorem, `read-prints` of promises/proofs/Again. A grammar of rules that were made by
/// hand may be refused: by 20 if it is too large, by 21 or 22 if a name or a tag in it is no word, or a name begins with
/// PUSH.
///
/// It wants [2 MB of stack](crate#stack).
///
/// ```
/// use flascjuvan::{print, Expr, Grammar, Reason, Rule, RuleType};
///
/// let rule = |name: &str| Rule { name: name.into(), ty: RuleType::Normal, expr: Expr::Str("x".into()) };
/// assert_eq!(print(&Grammar::from(vec![rule("a")])).unwrap(), "a = { \"x\" }\n");
/// let refusal = print(&Grammar::from(vec![rule("a"), rule("no word")])).unwrap_err();
/// assert_eq!((refusal.reason, refusal.place), (Reason::Rule, 1));
/// let text = "size = { \"µm\\u{ad}€\" }".parse::<Grammar>().unwrap().to_string();
/// assert_eq!(text, "size = { \"µm\\u{ad}\\u{20ac}\" }\n");
/// ```
pub fn print(grammar: &Grammar) -> Result<String, Refusal> {
    printed_by(raw::print, grammar)
}

/// Prints a grammar, a rule to a line, with the fewest brackets that keep its trees. It refuses what
/// [`print`](fn@print) refuses, by the same numbers, and wants as much stack.
///
/// The text is read back as the [`same`](Grammar::same) rules, within the limits that [`Grammar`] names, and no text
/// that is read as these rules has fewer opening brackets. Chains grouped to the left are joined flat. One that is
/// grouped to the right keeps its brackets: from four terms on it is longer here than [`print`](fn@print) has it.
///
/// ```
/// use flascjuvan::{print, print_short, Grammar};
///
/// let to_the_left: Grammar = "a = { ((b ~ c) ~ d) | ('0'..'9')* }".parse()?;
/// assert_eq!(print(&to_the_left)?, "a = { (((b ~ c) ~ d) | ('0'..'9')*) }\n");
/// assert_eq!(print_short(&to_the_left)?, "a = { b ~ c ~ d | '0'..'9'* }\n");
/// let to_the_right: Grammar = "a = { b ~ (c ~ (d ~ e)) }".parse()?;
/// assert_eq!(print(&to_the_right)?, "a = { (b ~ c ~ d ~ e) }\n");
/// assert_eq!(print_short(&to_the_right)?, "a = { b ~ (c ~ (d ~ e)) }\n");
/// # Ok::<(), flascjuvan::Refusal>(())
/// ```
pub fn print_short(grammar: &Grammar) -> Result<String, Refusal> {
    printed_by(raw::print_short, grammar)
}

/// [`raw::print`] or [`raw::print_short`].
type RawPrinter = fn(&[u32], &[u32], &[u8], &mut [u8]) -> [u64; 3];

/// What a printer writes, given room.
fn printed_by(printer: RawPrinter, grammar: &Grammar) -> Result<String, Refusal> {
    let (nodes, rules, store) = grammar.tables();
    let mut out = vec![0; 64 + 2 * store.len() + nodes.len() + 2 * rules.len()];
    loop {
        let [number, place, printed] = printer(nodes, rules, store, &mut out);
        if number == Reason::OutputRoom.number() {
            out = vec![0; 2 * out.len()];
            continue;
        }
        judged(number, place)?;
        out.truncate(printed as usize);
        // A theorem, `printed-utf8` of docs/PROMISES.md.
        return Ok(String::from_utf8(out).expect("a printed text is UTF-8"));
    }
}

/// All tokens of a text, blanks and comments left out. [`TokenFeed`] gives those of a text that comes in packets.
///
/// ```
/// use flascjuvan::{tokens, Reason, TokenKind};
///
/// let found = tokens("a = { -1 } // end")?;
/// assert_eq!((found[3].kind, found[3].start, found[3].end), (TokenKind::NegativeNumber, 6, 8));
/// let kinds: Vec<_> = found.iter().map(|token| token.kind.to_string()).collect();
/// assert_eq!(kinds, ["word", "`=`", "`{`", "negative number", "`}`"]);
/// assert_eq!(tokens("a %").unwrap_err().reason, Reason::NoToken);
/// # Ok::<(), flascjuvan::Refusal>(())
/// ```
pub fn tokens(text: impl AsRef<[u8]>) -> Result<Vec<Token>, Refusal> {
    token::listed(text.as_ref(), WINDOW)
}
