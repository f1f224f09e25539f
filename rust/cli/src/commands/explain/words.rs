//! What there is to say of each refusal. What its texts and tables answer is asked of the library.

use flascjuvan::{Level, Reason};

use super::{Example, Explanation, Slip, STEPS};

const WITH_NINE: &str = "\
After 1, 2 and 3, each of which is looked for in the whole text first: a stray % on
the last line is told before a wrong } on the first. 4 and 9 are looked for together,
from the left; at one token 4 comes first.";
const VALUES: &str = "\
After 1, 2, 3, 4 and 9, so in a text whose tokens are all good and well placed. 5, 6,
7, 8, 13 and, by edition 2, 15 are looked for together, from the left.";
const PROGRAMS: &str = "\
No text gets it: what was read always prints. It is for programs that make tables of
their own and print them; README.md says what a table's numbers mean.";
const WHOLE_TEXT: &str = "0: it is about the whole text.";
const WHOLE_TABLES: &str = "0: it is about the whole tables.";
const NUMBER: &str = "The number's first byte.";

pub(super) const ALL: &[Explanation] = &[
    Explanation {
        reason: Reason::TooLong,
        what: "A text has at most 65,536 bytes, comments and blanks included.",
        place: WHOLE_TEXT,
        order: "First of all. Nothing else is looked at.",
        example: Example::Made("65,537 blanks", || vec![b' '; 65537]),
        usual: "\
A wrong file was named, a camera's log or a picture. Name the layout. Or it has grown
too long: take out comments, or split it.",
        slips: &[],
    },
    Explanation {
        reason: Reason::NotUtf8,
        what: "A text is UTF-8, as RFC 3629 has it. This one has bytes that are none.",
        place: "The start of the first sequence of bytes that is none.",
        order: "After 1.",
        example: Example::Text(b"\xff", Level::Tagged),
        usual: "\
The file was saved in another encoding. Save it as UTF-8, in the editor or by
`iconv -f WINDOWS-1252 -t UTF-8 OLD >NEW`.",
        slips: &[
            Slip {
                why: "A letter as Windows-1252 has it, here an e with an accent, byte E9:",
                text: b"a = { \"\xe9\" }",
                instead: "a = { \"é\" }",
            },
            Slip {
                why: "UTF-16, which begins with the bytes FF FE or FE FF:",
                text: b"\xff\xfea\0",
                instead: "",
            },
        ],
    },
    Explanation {
        reason: Reason::NoToken,
        what: "\
A text is made of tokens: the signs = { } [ ] ( ) & ! ~ | ? * + , @ $ and .., words,
tags, numbers, strings, characters and docs. What begins here is none of them, or it is
a string or a character with a bad escape: a backslash has to begin one of
\\\" \\\\ \\r \\n \\t \\0 \\' \\x41 \\u{41}.",
        place: "\
The backslash of the bad escape, the first in its literal. Otherwise the first byte of
what is no token: of a string, a character or a comment that is never closed, that is
where it opens.",
        order: "After 1 and 2.",
        example: Example::Text(b"%", Level::Tagged),
        usual: "Look at the character above the caret, and at what it opens.",
        slips: &[
            Slip {
                why: "A string that is never closed. Its opening quote is told, or a later one:",
                text: b"a = { \"x }",
                instead: "a = { \"x\" }",
            },
            Slip {
                why: "Curly quotes, from a word processor or a mail:",
                text: "a = { “x” }".as_bytes(),
                instead: "a = { \"x\" }",
            },
            Slip {
                why: "More than one character between single quotes. Strings stand in double ones:",
                text: b"a = { 'xy' }",
                instead: "a = { \"xy\" }",
            },
            Slip {
                why: "A minus in a name. Names are letters A to Z, a to z, _ and digits behind:",
                text: b"a-b = { c }",
                instead: "a_b = { c }",
            },
            Slip {
                why: "Another letter in a name:",
                text: "größe = { b }".as_bytes(),
                instead: "groesse = { b }",
            },
            Slip {
                why: "A byte order mark, which some editors put in front. Save without it:",
                text: "\u{feff}a = { b }".as_bytes(),
                instead: "a = { b }",
            },
            Slip {
                why: "A no-break space. Blanks are space, tab and line ends:",
                text: "a =\u{a0}{ b }".as_bytes(),
                instead: "a = { b }",
            },
            Slip {
                why: "A backslash in a string that begins no escape. Double it if you mean it:",
                text: b"a = { \"\\d\" }",
                instead: "a = { \"\\\\d\" }",
            },
            Slip {
                why: "Fewer than two digits, or more than six, in \\u{..}:",
                text: b"a = { \"\\u{1}\" }",
                instead: "a = { \"\\u{01}\" }",
            },
            Slip {
                why: "A blank between ^ and its string:",
                text: b"a = { ^ \"x\" }",
                instead: "a = { ^\"x\" }",
            },
            Slip {
                why: "A word that begins with PUSH and is neither PUSH nor PUSH_LITERAL:",
                text: b"a = { PUSHED }",
                instead: "a = { pushed }",
            },
            Slip {
                why: "A comment that is never closed. Each /* inside wants its own */:",
                text: b"a = { b } /* c",
                instead: "a = { b } /* c */",
            },
        ],
    },
    Explanation {
        reason: Reason::NotAllowed,
        what: "\
Every token of the text is good, but this one may not stand here. Or the text ends
where more is wanted.",
        place: "The token's first byte; where the text ends too early, the text's length.",
        order: WITH_NINE,
        example: Example::Text(b"", Level::Tagged),
        usual: "\
A grammar is rules, each `name = { .. }`; a mark _ @ $ or ! may stand before the {. Look
at the token and at the one before it: one of them is wrong, or something is missing
between them.",
        slips: &[
            Slip {
                why: "Nothing joins two terms. Write ~ for `then` or | for `or`:",
                text: b"a = { b c }",
                instead: "a = { b ~ c }",
            },
            Slip {
                why: "A term is missing behind ~ or |:",
                text: b"a = { b ~ }",
                instead: "a = { b ~ c }",
            },
            Slip {
                why: "A character by itself. Single quotes are for ranges; write a string:",
                text: b"a = { 'x' }",
                instead: "a = { \"x\" }",
            },
            Slip {
                why: "The rule isn't closed. Then the next rule's name is told, its =, or the end:",
                text: b"a = { b c = { d }",
                instead: "a = { b } c = { d }",
            },
            Slip {
                why: "A bracket isn't closed:",
                text: b"a = { (b ~ c }",
                instead: "a = { (b ~ c) }",
            },
            Slip { why: "No braces:", text: b"a = b", instead: "a = { b }" },
            Slip {
                why: "An empty rule. The empty string is what takes nothing:",
                text: b"a = { }",
                instead: "a = { \"\" }",
            },
            Slip {
                why: "A | in front inside brackets. Only a rule's body may open with one:",
                text: b"a = { (| b | c) }",
                instead: "a = { | b | c }",
            },
            Slip {
                why: "A tag behind a sign. It stands in front of the whole term:",
                text: b"a = { !#t = b }",
                instead: "a = { #t = !b }",
            },
            Slip {
                why: "A doc inside a rule. Comments there have two slashes:",
                text: b"a = { /// why\nb }",
                instead: "a = { // why\nb }",
            },
            Slip {
                why: "A negative number in a repeat:",
                text: b"a = { b{-1} }",
                instead: "a = { b{1} }",
            },
            Slip {
                why: "PUSH as a name. It is a word of its own, and ( follows it:",
                text: b"a = { PUSH }",
                instead: "a = { PUSH(b) }",
            },
        ],
    },
    Explanation {
        reason: Reason::Over,
        what: "A repeat's number is at most 4,294,967,295. Leading zeros don't count.",
        place: NUMBER,
        order: VALUES,
        example: Example::Text(b"a={b{4294967296}}", Level::Tagged),
        usual: "A digit too many, or a number meant as `any`. Without an upper bound write {n,}.",
        slips: &[Slip {
            why: "A large number for `any more`:",
            text: b"a = { b{1, 9999999999} }",
            instead: "a = { b{1,} }",
        }],
    },
    Explanation {
        reason: Reason::Zero,
        what: "A repeat of exactly 0, or of at most 0, would stand for nothing at all.",
        place: NUMBER,
        order: VALUES,
        example: Example::Text(b"a={b{0}}", Level::Tagged),
        usual: "A minimum may be 0, a maximum and an exact count may not.",
        slips: &[
            Slip { why: "A minimum was meant:", text: b"a = { b{0} }", instead: "a = { b{0,} }" },
            Slip { why: "At most one was meant:", text: b"a = { b{,0} }", instead: "a = { b? }" },
            Slip {
                why: "A field was switched off. Take the term out, or put it into a comment:",
                text: b"a = { b ~ c{0, 0} }",
                instead: "a = { b /* ~ c */ }",
            },
        ],
    },
    Explanation {
        reason: Reason::PeekRange,
        what: "A number of PEEK[..] is from -2,147,483,648 to 2,147,483,647.",
        place: "The number's first byte; of a negative one, its minus.",
        order: VALUES,
        example: Example::Text(b"a={PEEK[2147483648..]}", Level::Tagged),
        usual: "A large number for `to the top of the stack`. Leave it out.",
        slips: &[Slip {
            why: "A large number for `all`:",
            text: b"a = { PEEK[0..9999999999] }",
            instead: "a = { PEEK[0..] }",
        }],
    },
    Explanation {
        reason: Reason::NotScalar,
        what: "\
An escape \\u{..} names a character: up to 10ffff, and none of the surrogates d800 to
dfff, which are halves of characters in UTF-16.",
        place: "The escape's backslash.",
        order: VALUES,
        example: Example::Text(b"a={\"\\u{d800}\"}", Level::Tagged),
        usual: "It was copied from JSON, Java or JavaScript, where two halves make a character.",
        slips: &[Slip {
            why: "Two halves. Write the character itself, or its own number:",
            text: b"a = { \"\\u{d83d}\\u{de00}\" }",
            instead: "a = { \"\\u{1f600}\" }",
        }],
    },
    Explanation {
        reason: Reason::TooDeep,
        what: "\
At most 1,024 round brackets are open at once, those of PUSH and PUSH_LITERAL included.
This ( would be one more.",
        place: "The (.",
        order: WITH_NINE,
        example: Example::Made("a={ and 1,025 (", || {
            ["a={".to_owned(), "(".repeat(1025)].concat().into_bytes()
        }),
        usual: "\
A program wrote the text, putting brackets around each step. Give inner parts rules of
their own, and name those.",
        slips: &[],
    },
    Explanation {
        reason: Reason::NodesRoom,
        what: "\
A grammar has at most 4,096 nodes. In rules' bodies each name, string, range and
PEEK[..] is one; so is each ~ and | between terms, each sign before a term, each repeat
behind it, each tag and each PUSH(..).",
        place: WHOLE_TEXT,
        order: "After all but 11: the text is good, and only too large.",
        example: Example::Made("a={, 4,096 ! and b}", || {
            ["a={".to_owned(), "!".repeat(4096), "b}".to_owned()].concat().into_bytes()
        }),
        usual: "\
Long lists of strings, or a text that a program wrote. Put what comes again into a rule
of its own and name it: a name is one node. The desk has room for 2,048 nodes and gives
this number above that; this command reads 4,096.",
        slips: &[],
    },
    Explanation {
        reason: Reason::StoreRoom,
        what: "Names, tags and strings take more bytes than there is room for.",
        place: WHOLE_TEXT,
        order: "Last.",
        example: Example::Lent("a={b}"),
        usual: "\
Neither this command nor the desk gives it: they have room for every text. It is for
programs that lend the library buffers of their own. Lend as many bytes as the text has.",
        slips: &[],
    },
    Explanation {
        reason: Reason::RulesRoom,
        what: "A grammar has at most 1,024 rules.",
        place: WHOLE_TEXT,
        order: "After all but 10 and 11.",
        example: Example::Made("a={b}, 1,025 times", || b"a={b}".repeat(1025)),
        usual: "A program wrote the text, or many layouts were put into one. Split it.",
        slips: &[],
    },
    Explanation {
        reason: Reason::NotPlain,
        what: "\
The text has a PUSH_LITERAL, which is read with tags only. Plain reading is what pest
does without its feature grammar-extras.",
        place: "The word PUSH_LITERAL.",
        order: VALUES,
        example: Example::Text(b"a={PUSH_LITERAL(\"\")}", Level::Plain),
        usual: "\
The layout was written for a desk with tags. `flascjuvan dropped FILE` lists every place
that a desk without tags refuses, and the tags that it drops without a word.",
        slips: &[],
    },
    Explanation {
        reason: Reason::ListRoom,
        what: "\
A text comes in packets, one of its tokens ends, and the list that was lent for them is
full.",
        place: "The token's first byte.",
        order: "Where the token's end is known; at one byte after 1, 2 and 3.",
        example: Example::Fed("a="),
        usual: "\
Neither this command nor `./arrive` gives it: they have room for every text. It is for
programs that lend the library a list of their own. Lend three numbers for each byte of
the text.",
        slips: &[],
    },
    Explanation {
        reason: Reason::Above,
        what: "\
A repeat's minimum is at most its maximum, by edition 2 of the rules for layouts.
Leading zeros don't count, and the two may be equal. Edition 1, which the desk reads by,
has no such rule.",
        place: "The minimum's first byte.",
        order: "\
After 1, 2, 3, 4 and 9, and together with 5, 6, 7, 8 and 13, from the left. But where 5
or 6 is said of a number of the same pair, that comes first: b{5, 0} is 6 at the 0.",
        example: Example::Second(b"a={b{3,2}}"),
        usual: "\
By edition 1 such a repeat is read, and then it can't be run on any line: `flascjuvan
match` gives 31. Put the smaller number first.",
        slips: &[
            Slip {
                why: "Minimum and maximum the wrong way round:",
                text: b"a = { b{4, 2} }",
                instead: "a = { b{2, 4} }",
            },
            Slip {
                why: "Three, and up to two more. The second number counts all of them:",
                text: b"a = { b{3, 2} }",
                instead: "a = { b{3, 5} }",
            },
        ],
    },
    Explanation {
        reason: Reason::Shape,
        what: "\
Tables that aren't whole records, of seven numbers for nodes and of six for rules, or
that hold over 4,096 nodes, 1,024 rules or 65,536 bytes of names and strings.",
        place: WHOLE_TABLES,
        order: "First of the printer's numbers.",
        example: Example::Tables { nodes: &[0], rules: &[], store: "", room: 0 },
        usual: PROGRAMS,
        slips: &[],
    },
    Explanation {
        reason: Reason::Node,
        what: "\
A node record is false: its kind is none of 1 to 19, a child isn't where it should be,
a name or tag is no word, a name begins with PUSH, a part of the store lies outside of
it, a string is no UTF-8, a range's end is no character, or PEEK's q is over 1.",
        place: "The lowest index of a node that is false.",
        order: "After 20.",
        example: Example::Tables {
            nodes: &[1, 0, 0, 0, 3, 0, 0],
            rules: &[0, 1, 0, 0, 0, 0],
            store: "ab",
            room: 0,
        },
        usual: PROGRAMS,
        slips: &[],
    },
    Explanation {
        reason: Reason::Rule,
        what: "\
A rule record is false: its name is no word or begins with PUSH, its mark is none of 0
to 4, its root is no node, or its tree doesn't begin right behind the one before. Or
nodes are left over.",
        place: "The lowest index of a rule that is false; the number of rules for nodes left over.",
        order: "After 20 and 21.",
        example: Example::Tables {
            nodes: &[4, 0, 0, 0, 1, 0, 0],
            rules: &[0, 1, 0, 1, 0, 0],
            store: "ab",
            room: 0,
        },
        usual: PROGRAMS,
        slips: &[],
    },
    Explanation {
        reason: Reason::OutputRoom,
        what: "The printed text is longer than the room that was lent for it.",
        place: WHOLE_TABLES,
        order: "After 20, 21 and 22.",
        example: Example::Tables {
            nodes: &[4, 0, 0, 1, 1, 0, 0],
            rules: &[0, 1, 0, 0, 0, 0],
            store: "ab",
            room: 9,
        },
        usual: "\
This command prints into as much room as it takes. The desk and the program short have
65,536 bytes: a string of 20,000 characters that print as \\u{01} each is too long for
them. A program lends more.",
        slips: &[],
    },
    Explanation {
        reason: Reason::FalseTables,
        what: "Tables that printing refuses by 20, 21 or 22 can't be run either.",
        place: "0: print the same tables, and 20, 21 or 22 says which record it is.",
        order: "First of the matcher's numbers.",
        example: Example::RunTables { nodes: &[0], rules: &[], store: "" },
        usual: "\
No layout gets it: what was read can be run, or gives another number. It is for programs
that make tables of their own and run them; README.md says what a table's numbers mean.",
        slips: &[],
    },
    Explanation {
        reason: Reason::Unfit,
        what: "\
The layout is read, but has something that means nothing on a line: PEEK[..], PUSH(..),
PUSH_LITERAL(..), a tag, or a repeat whose minimum is above its maximum.",
        place: "\
The index of the first such node, children before what they belong to. The command
`flascjuvan match` shows where it stands in the layout.",
        order: "After 30. All nodes are looked at, also those that the rule doesn't lead to.",
        example: Example::Run("r={\"a\"{3,2}}", b"a", STEPS),
        usual: "\
The layout was written for pest's own parser, which has a stack and keeps tags. Run a
copy without them.",
        slips: &[
            Slip {
                why: "A tag. `flascjuvan match --plain` reads without tags:",
                text: b"a = { #size = \"3\" }",
                instead: "a = { \"3\" }",
            },
            Slip {
                why: "What was taken before is asked for again. Say it once more:",
                text: b"a = { PUSH(\";\") ~ \"3\" ~ PEEK[..] }",
                instead: "a = { \";\" ~ \"3\" ~ \";\" }",
            },
            Slip {
                why: "Minimum and maximum the wrong way round:",
                text: b"a = { \"3\"{4, 2} }",
                instead: "a = { \"3\"{2, 4} }",
            },
        ],
    },
    Explanation {
        reason: Reason::NoRule,
        what: "\
A name means nothing, or two things: the rule to start with isn't in the layout, a name
in it is neither ANY nor a rule, a rule is called ANY, or two rules have one name.",
        place: "0. The command `flascjuvan match` says which name it is, and where.",
        order: "\
After 30 and 31. All names are looked at, also those that the rule doesn't lead to.",
        example: Example::Run("r={a}", b"a", STEPS),
        usual: "\
The layout leans on rules that pest has built in. Of those there is ANY alone, one
character; write the others yourself.",
        slips: &[
            Slip {
                why: "A rule of pest's own:",
                text: b"a = { ASCII_DIGIT }",
                instead: "a = { ASCII_DIGIT } ASCII_DIGIT = { '0'..'9' }",
            },
            Slip {
                why: "The line's start and end. A run begins at the start, and nothing follows the end:",
                text: b"a = { SOI ~ \"3\" ~ EOI }",
                instead: "a = { \"3\" ~ !ANY }",
            },
            Slip {
                why: "A name that is spelled otherwise. Upper and lower case differ:",
                text: b"a = { Digit } digit = { '0'..'9' }",
                instead: "a = { digit } digit = { '0'..'9' }",
            },
            Slip {
                why: "Two rules of one name. Join what they say:",
                text: b"a = { \"3\" } a = { \"4\" }",
                instead: "a = { \"3\" | \"4\" }",
            },
            Slip {
                why: "A rule called ANY:",
                text: b"a = { ANY } ANY = { \"3\" | \"4\" }",
                instead: "a = { any } any = { \"3\" | \"4\" }",
            },
        ],
    },
    Explanation {
        reason: Reason::LineNotUtf8,
        what: "A line is UTF-8, as RFC 3629 has it. This one has bytes that are none.",
        place: "\
The start of the first sequence of bytes that is none, counted from the line's start.",
        order: "\
After 30, 31 and 32. The whole line is looked at, also past what the rule would take.
Other lines of the same file are run.",
        example: Example::Run("r={\"a\"}", b"a\xff", STEPS),
        usual: "\
The camera writes another encoding, so that µ or ° is one byte, or the line was damaged
on its way. Turn the file into UTF-8 by `iconv -f WINDOWS-1252 -t UTF-8 OLD >NEW`.",
        slips: &[],
    },
    Explanation {
        reason: Reason::Overrun,
        what: "\
The run takes more steps than allowed, or has over 1,024 visits inside one another. Each
visit to a node is a step, and so is each that fails.",
        place: "0: it is about the whole line.",
        order: "Last.",
        example: Example::Run("r={\"\"*}", b"a", STEPS),
        usual: "\
Often a repetition that never ends, since what it repeats may take nothing: no
allowance is enough for it. Or a rule that comes back to itself before it has taken
anything. A long line may take many steps: `flascjuvan match --steps N` allows more.",
        slips: &[
            Slip {
                why: "What may be missing, any number of times:",
                text: b"a = { (\"3\"?)* }",
                instead: "a = { \"3\"* }",
            },
            Slip {
                why: "A repetition of a repetition:",
                text: b"a = { (\" \"*)+ }",
                instead: "a = { \" \"* }",
            },
            Slip {
                why: "A rule that begins with itself. Say how often it comes:",
                text: b"a = { a ~ \";3\" | \"3\" }",
                instead: "a = { \"3\" ~ \";3\"* }",
            },
        ],
    },
];
