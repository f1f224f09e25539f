//! Why nothing was read, printed, given or matched.

use std::fmt;

use crate::{line_column, LineColumn};

/// Why a text was not read, tables were not printed, a packet gave no tokens, or a line was not run. Its number is the C
/// interface's.
///
/// ```
/// use flascjuvan::Reason;
///
/// assert_eq!(Reason::TooDeep.number(), 9);
/// assert_eq!(Reason::from_number(9), Some(Reason::TooDeep));
/// assert_eq!(Reason::from_number(16), None);
/// assert_eq!(Reason::TooDeep.to_string(), "a ( that would make 1,025 open at once");
/// ```
#[derive(Clone, Copy, Debug, Eq, Hash, PartialEq)]
#[non_exhaustive]
#[repr(u64)]
pub enum Reason {
    /// The text has over 65,536 bytes. The place is 0.
    TooLong = 1,
    /// The text is not UTF-8. The place is where the first bad sequence starts.
    NotUtf8 = 2,
    /// No token can be made of what stands here, or in a literal no escape. The place is the backslash of the bad
    /// escape, the first that is met in that literal, and otherwise the token's first byte: also of a literal that isn't
    /// closed, and of a character literal with the wrong number of characters.
    NoToken = 3,
    /// A token that isn't allowed here, or the text ends too early. The place is the token, or the text's length.
    NotAllowed = 4,
    /// A repeat number over 4,294,967,295. The place is the number.
    Over = 5,
    /// A repeat of exactly 0, or of at most 0. The place is the number.
    Zero = 6,
    /// A PEEK number that 32 signed bits can't hold. The place is the number.
    PeekRange = 7,
    /// An escape of a surrogate, or above U+10FFFF. The place is its backslash.
    NotScalar = 8,
    /// A `(` that would make 1,025 open at once. The place is the `(`.
    TooDeep = 9,
    /// More nodes than [`MAX_NODES`](crate::MAX_NODES), or than there is room for. The place is 0.
    NodesRoom = 10,
    /// More bytes of names and strings than there is room for: never from [`read`](crate::read), which lends enough.
    /// The place is 0.
    StoreRoom = 11,
    /// More rules than [`MAX_RULES`](crate::MAX_RULES), or than there is room for. The place is 0.
    RulesRoom = 12,
    /// PUSH_LITERAL, which [`Level::Plain`](crate::Level::Plain) has not. The place is the word.
    NotPlain = 13,
    /// A token of a text that arrives ends, and the lent list is full: never from [`TokenFeed`](crate::TokenFeed), which
    /// lends enough. The place is the token's first byte.
    ListRoom = 14,
    /// A repeat whose minimum is above its maximum: by [`Edition::Second`](crate::Edition::Second) alone. The place is the
    /// minimum. Where one of the two numbers is refused by 5 or 6, that comes first.
    Above = 15,
    /// Tables that are too large to print: over [`MAX_NODES`](crate::MAX_NODES), [`MAX_RULES`](crate::MAX_RULES), or
    /// [`MAX_TEXT`](crate::MAX_TEXT) bytes of names and strings; through [`raw`](crate::raw) also tables that aren't
    /// whole records. The place is 0.
    Shape = 20,
    /// A node that can't be printed: a name that is no word or begins with PUSH, a tag that is no word; through
    /// [`raw`](crate::raw) any false record. The place is the node's index.
    Node = 21,
    /// A rule that can't be printed: a name that is no word, or begins with PUSH; through [`raw`](crate::raw) any
    /// false record. The place is the rule's index.
    Rule = 22,
    /// The printed text is longer than the lent output: never from [`print`](crate::print) and
    /// [`print_short`](crate::print_short), which lend enough. The place is 0.
    OutputRoom = 23,
    /// Tables that printing refuses by 20, 21 or 22 can't be run either. The place is 0.
    FalseTables = 30,
    /// A node that can't be run on lines, reached or not: PEEK[..], PUSH, PUSH_LITERAL, a tag, or a repeat whose minimum
    /// is above its maximum. The place is the index of the first such node:
    /// [`node_span`](crate::Grammar::node_span) says where it stands.
    Unfit = 31,
    /// The rule to start with isn't there, a name anywhere is neither ANY nor a rule, a rule is called ANY, or two rules
    /// have one name. The place is 0.
    NoRule = 32,
    /// The line is not UTF-8. The place is where its first bad sequence starts, counted from the line's start.
    LineNotUtf8 = 33,
    /// A run went past 1,024 visits inside one another, or past the steps allowed, as an endless repetition always does.
    /// The place is 0.
    Overrun = 34,
}

impl Reason {
    /// Every reason, by rising number.
    pub const ALL: &'static [Reason] = &[
        Reason::TooLong,
        Reason::NotUtf8,
        Reason::NoToken,
        Reason::NotAllowed,
        Reason::Over,
        Reason::Zero,
        Reason::PeekRange,
        Reason::NotScalar,
        Reason::TooDeep,
        Reason::NodesRoom,
        Reason::StoreRoom,
        Reason::RulesRoom,
        Reason::NotPlain,
        Reason::ListRoom,
        Reason::Above,
        Reason::Shape,
        Reason::Node,
        Reason::Rule,
        Reason::OutputRoom,
        Reason::FalseTables,
        Reason::Unfit,
        Reason::NoRule,
        Reason::LineNotUtf8,
        Reason::Overrun,
    ];

    /// Its number: 1 to 13 and 15 from reading (1 to 3 from listing tokens and from tokens as they arrive too), 14 from
    /// tokens as they arrive, 20 to 23 from printing, 30 to 34 from matching.
    pub fn number(self) -> u64 {
        self as u64
    }

    /// The reason that has this number.
    pub fn from_number(number: u64) -> Option<Reason> {
        Reason::ALL.iter().copied().find(|reason| reason.number() == number)
    }

    /// What it says, in words. [`Display`](fmt::Display) writes the same.
    pub fn meaning(self) -> &'static str {
        match self {
            Reason::TooLong => "the text has over 65,536 bytes",
            Reason::NotUtf8 => "the text is not UTF-8",
            Reason::NoToken => "no token or escape can be made of what stands here",
            Reason::NotAllowed => "this token isn't allowed here, or the text ends too early",
            Reason::Over => "a repeat number over 4,294,967,295",
            Reason::Zero => "a repeat of exactly 0, or of at most 0",
            Reason::PeekRange => "a PEEK number that 32 signed bits can't hold",
            Reason::NotScalar => "an escape of a surrogate, or above U+10FFFF",
            Reason::TooDeep => "a ( that would make 1,025 open at once",
            Reason::NodesRoom => "more than 4,096 nodes",
            Reason::StoreRoom => "no room for names and strings",
            Reason::RulesRoom => "more than 1,024 rules",
            Reason::NotPlain => "PUSH_LITERAL, which plain reading has not",
            Reason::ListRoom => "no room for a token in the lent list",
            Reason::Above => "a repeat whose minimum is above its maximum",
            Reason::Shape => "tables that are too large to print",
            Reason::Node => {
                "a node that can't be printed: a name or a tag that is no word, or a name that begins with PUSH"
            }
            Reason::Rule => "a rule that can't be printed: a name that is no word, or begins with PUSH",
            Reason::OutputRoom => "the printed text is longer than its room",
            Reason::FalseTables => "tables that can't be run, as they can't be printed",
            Reason::Unfit => {
                "a node that can't be run on lines: PEEK[..], PUSH, PUSH_LITERAL, a tag, or a minimum above its maximum"
            }
            Reason::NoRule => {
                "no such rule to start with, a name that is neither ANY nor a rule, a rule called ANY, or a name used twice"
            }
            Reason::LineNotUtf8 => "the line is not UTF-8",
            Reason::Overrun => "over 1,024 visits inside one another, or more steps than allowed",
        }
    }

    /// Whether its place is a place of a text or a line, and not the index of a record or nothing at all.
    fn is_about_a_text(self) -> bool {
        self.number() < Reason::Shape.number() || self == Reason::LineNotUtf8
    }
}

impl fmt::Display for Reason {
    fn fmt(&self, f: &mut fmt::Formatter<'_>) -> fmt::Result {
        f.pad(self.meaning())
    }
}

/// Why nothing was read, printed, given or matched, and where.
///
/// As text it is the desk's line, `refused N at P`; [`meaning`](Refusal::meaning) says it in words.
///
/// ```
/// use flascjuvan::{read, Level, Reason};
///
/// let text = "a = { b }\nc = { d ~ }\n";
/// let refusal = read(text, Level::Tagged).unwrap_err();
/// assert_eq!(refusal.reason, Reason::NotAllowed);
/// assert_eq!(refusal.to_string(), "refused 4 at 20");
/// assert_eq!(refusal.line_column(text).unwrap().to_string(), "2:11");
/// ```
#[derive(Clone, Copy, Debug, Eq, Hash, PartialEq)]
pub struct Refusal {
    /// Why.
    pub reason: Reason,
    /// Where: a byte of the text or line counted from 0, or the index of a record of a table; 0 where there is none to
    /// name. [`Reason`] says which.
    pub place: usize,
}

impl Refusal {
    /// The reason's number.
    pub fn number(&self) -> u64 {
        self.reason.number()
    }

    /// The reason in words.
    pub fn meaning(&self) -> &'static str {
        self.reason.meaning()
    }

    /// The line and column of the place in the text that was refused; for 33, in the line that was.
    ///
    /// None where the place is no place of a text: 20 to 23, 30 to 32, 34. Refusals of a whole text (1, 10, 11, 12) have
    /// the place 0, and so its first line and column.
    pub fn line_column(&self, text: impl AsRef<[u8]>) -> Option<LineColumn> {
        self.reason.is_about_a_text().then(|| line_column(text, self.place))
    }
}

impl fmt::Display for Refusal {
    fn fmt(&self, f: &mut fmt::Formatter<'_>) -> fmt::Result {
        write!(f, "refused {} at {}", self.number(), self.place)
    }
}

impl std::error::Error for Refusal {}

/// An answer's number and place as a result.
///
/// # Panics
///
/// By a number that the C interface has not: then another library is linked than the one this crate is for.
pub(crate) fn judged(number: u64, place: u64) -> Result<(), Refusal> {
    if number == 0 {
        return Ok(());
    }
    match Reason::from_number(number) {
        // a place is a text's or a table's, so it fits
        Some(reason) => Err(Refusal { reason, place: place as usize }),
        None => panic!("libflascjuvan answered {number}, which this crate doesn't know: is another version linked?"),
    }
}

#[cfg(test)]
mod tests {
    use super::*;

    #[test]
    fn answers_are_judged() {
        assert_eq!(judged(0, 0), Ok(()));
        assert_eq!(judged(4, 10), Err(Refusal { reason: Reason::NotAllowed, place: 10 }));
    }

    #[test]
    #[should_panic(expected = "libflascjuvan answered 16, which this crate doesn't know")]
    fn an_unknown_number_is_told() {
        let _ = judged(16, 3);
    }
}
