/* Flascjuvan: reading and printing of pest grammars, their tokens as a text arrives, and running their rules over lines,
 * for C and whatever calls C.
 *
 * Ten functions over lent memory. None of them allocates, keeps anything between calls (what there is to keep of a text
 * that arrives, its caller keeps), reads or writes a file, or fails to return; any number of threads may call them at
 * once. Each is proved to answer every input as the rules say (crates/exports_c/src/lib.rt has the promises). What no
 * proof can see is this side of the call, so see to it that
 *
 *   - each pointer is aligned and points to as many elements as the length behind it says (elements, not bytes);
 *     with a length of 0 nothing is read or written, but the pointer should still not be null: lend any object;
 *   - `answer` and `state` point to as many numbers as their declarations say;
 *   - what is written (not const) overlaps nothing else that is lent to the same call, and no other thread touches it
 *     until the call returns;
 *   - 2 MB of stack are free (the most that was seen to be needed: 1,470 KB to read rules of 1,024 brackets inside one
 *     another, 28 KB to read a short text, 460 KB to print tables 4,096 nodes deep, 310 KB to run a rule 1,024 visits deep).
 *
 * Every function writes all of `answer`. answer[0] is a number of enum flascjuvan_refusal, answer[1] its place. A place
 * counts bytes of the text from 0; an index counts records. After any number but 0 every lent buffer is as it was,
 * but `answer`, in which every count is 0, and `state`, which holds the refusal. After 0 only what is reported as used
 * has changed. If several faults are there, the reader gives the first of this order: 1; 2; 3; 4 and 9, the leftmost; 5,
 * 6, 7, 8, 13 and 15, the leftmost, but a 5 or 6 before the 15 of the same pair of counts; 12; 10; 11. The printers give
 * the first of 20, 21, 22, 23; the functions that run rules the first of 30, 31, 32, 33, 34. Of a text that arrives it is
 * what shows first, and at one byte the first of 1, 2, 3, 14.
 *
 * examples/c has programs that use all of it.
 */
#ifndef FLASCJUVAN_H
#define FLASCJUVAN_H

#include <stddef.h>
#include <stdint.h>

#ifdef __cplusplus
extern "C" {
#endif

/* answer[0]. The numbers between 15 and 20, those between 23 and 30, and those above 34 are never given. */
enum flascjuvan_refusal {
    FLASCJUVAN_DONE = 0, /* nothing is refused; place 0 */

    /* from flascjuvan_read, flascjuvan_read_edition, flascjuvan_next_token, flascjuvan_feed and flascjuvan_feed_end */
    FLASCJUVAN_REFUSED_TOO_LONG = 1, /* the text has over 65,536 bytes; place 0 */
    FLASCJUVAN_REFUSED_NOT_UTF8 = 2, /* the text is not UTF-8; where the first bad sequence starts */
    FLASCJUVAN_REFUSED_NO_TOKEN = 3, /* no token can be made of what stands here, or in a literal no escape; the bad
                                        escape's backslash, otherwise the token's first byte */

    /* from flascjuvan_read and flascjuvan_read_edition alone */
    FLASCJUVAN_REFUSED_NOT_ALLOWED = 4, /* a token that isn't allowed here, or the text ends too early; the token, or
                                           the text's length */
    FLASCJUVAN_REFUSED_OVER = 5,        /* a repeat number over 4,294,967,295; the number */
    FLASCJUVAN_REFUSED_ZERO = 6,        /* a repeat of exactly 0, or of at most 0; the number */
    FLASCJUVAN_REFUSED_PEEK_RANGE = 7,  /* a PEEK number that 32 signed bits can't hold; the number */
    FLASCJUVAN_REFUSED_NOT_SCALAR = 8,  /* an escape of a surrogate, or above U+10FFFF; its backslash */
    FLASCJUVAN_REFUSED_TOO_DEEP = 9,    /* a ( that would make 1,025 open at once; the ( */
    FLASCJUVAN_REFUSED_NODES_ROOM = 10, /* more nodes than 4,096, or than whole records lent; place 0 */
    FLASCJUVAN_REFUSED_STORE_ROOM = 11, /* more store bytes than lent; place 0 */
    FLASCJUVAN_REFUSED_RULES_ROOM = 12, /* more rules than 1,024, or than whole records lent; place 0 */
    FLASCJUVAN_REFUSED_NOT_PLAIN = 13,  /* plain reading only: PUSH_LITERAL; the word */

    /* from flascjuvan_feed and flascjuvan_feed_end */
    FLASCJUVAN_REFUSED_LIST_ROOM = 14, /* a token that ends with the lent list full; its first byte */

    /* from flascjuvan_read_edition, by the second edition alone */
    FLASCJUVAN_REFUSED_ABOVE = 15, /* a repeat whose least is above its most; the least */

    /* from flascjuvan_print and flascjuvan_print_short */
    FLASCJUVAN_REFUSED_SHAPE = 20,       /* a table that isn't whole records or has too many (4,096 nodes, 1,024 rules),
                                            or a store over 65,536 bytes; place 0 */
    FLASCJUVAN_REFUSED_NODE = 21,        /* a node record that is false; its index */
    FLASCJUVAN_REFUSED_RULE = 22,        /* a rule record that is false; its index. Or nodes left over; the number of
                                            rules */
    FLASCJUVAN_REFUSED_OUTPUT_ROOM = 23, /* the printed text is longer than the lent output; place 0 */

    /* from flascjuvan_match and flascjuvan_match_lines; 30 and 32 from flascjuvan_rule_named too. 33 and 34 are those of
       a line: flascjuvan_match_lines gives them in its record */
    FLASCJUVAN_REFUSED_FALSE_TABLES = 30,  /* tables that a printer would refuse by 20, 21 or 22; place 0 */
    FLASCJUVAN_REFUSED_UNFIT = 31,         /* a node that can't be run, reached or not: PEEK[..], PUSH, PUSH_LITERAL, a
                                              tag, or a repeat whose least is above its most; the lowest such index */
    FLASCJUVAN_REFUSED_NO_RULE = 32,       /* no rule at the start's index, a name that is neither ANY nor a rule's, a
                                              rule called ANY, or two rules of one name; place 0. From
                                              flascjuvan_rule_named: no rule of that name; place 0 */
    FLASCJUVAN_REFUSED_LINE_NOT_UTF8 = 33, /* the line is not UTF-8; where its first bad sequence starts, from the line's
                                              start */
    FLASCJUVAN_REFUSED_OVERRUN = 34        /* over 1,024 visits inside one another, or more steps than allowed; place 0 */
};

/* Where the numbers of an answer stand. */
enum flascjuvan_answer {
    FLASCJUVAN_ANSWER_NUMBER = 0, /* of every function */
    FLASCJUVAN_ANSWER_PLACE = 1,
    FLASCJUVAN_READ_NODES = 2, /* of flascjuvan_read and flascjuvan_read_edition: records */
    FLASCJUVAN_READ_RULES = 3, /* records */
    FLASCJUVAN_READ_STORE = 4, /* bytes */
    FLASCJUVAN_PRINT_USED = 2, /* of flascjuvan_print and flascjuvan_print_short: bytes */
    FLASCJUVAN_NEXT_KIND = 2,  /* of flascjuvan_next_token: a number of enum flascjuvan_token */
    FLASCJUVAN_NEXT_START = 3,
    FLASCJUVAN_NEXT_END = 4,
    FLASCJUVAN_MATCH_MATCHED = 2, /* of flascjuvan_match, and of a record: 1 if the line matched, else 0 */
    FLASCJUVAN_MATCH_LENGTH = 3,  /* bytes from the line's start */
    FLASCJUVAN_MATCH_STEPS = 4,
    FLASCJUVAN_LINES_RUN = 2,  /* of flascjuvan_match_lines: how many lines have a record */
    FLASCJUVAN_LINES_NEXT = 3, /* the place where the next line begins */
    FLASCJUVAN_NAMED_RULE = 2,  /* of flascjuvan_rule_named: the index of a rule record */
    FLASCJUVAN_FEED_RECORDS = 2 /* of flascjuvan_feed and flascjuvan_feed_end: records in the list */
};

/* Numbers in the record of a token that arrived: kind, start, end. And numbers of its stream's state. */
#define FLASCJUVAN_TOKEN_RECORD 3
#define FLASCJUVAN_STATE 10

/* Numbers in the record of a line. */
#define FLASCJUVAN_LINE_RECORD 5

/* Numbers in a node record and in a rule record. */
#define FLASCJUVAN_NODE_RECORD 7
#define FLASCJUVAN_RULE_RECORD 6

/* The most that is ever used: numbers of nodes, numbers of rules, bytes of a text or a printed store. Buffers of these
 * sizes are always enough to read into. A text of n bytes never uses more than n nodes, n rules and n store bytes. */
#define FLASCJUVAN_NODES (4096 * FLASCJUVAN_NODE_RECORD)
#define FLASCJUVAN_RULES (1024 * FLASCJUVAN_RULE_RECORD)
#define FLASCJUVAN_TEXT 65536

/* The most numbers of a list of tokens: a token has a byte at least. With such a list 14 is never given. */
#define FLASCJUVAN_LIST (FLASCJUVAN_TEXT * FLASCJUVAN_TOKEN_RECORD)

/* Where the numbers of a node record stand. Start and end are the bytes of the text that the node spans; the end is the
 * byte after the last. Line is one plus the LF bytes before the start, wherever they stand; CR counts nothing. It is 0
 * where a table did not come from flascjuvan_read, and no function looks at it. */
enum flascjuvan_node_field {
    FLASCJUVAN_FIELD_KIND = 0, /* a number of enum flascjuvan_node */
    FLASCJUVAN_FIELD_START = 1,
    FLASCJUVAN_FIELD_END = 2,
    FLASCJUVAN_FIELD_P = 3,
    FLASCJUVAN_FIELD_Q = 4,
    FLASCJUVAN_FIELD_R = 5,
    FLASCJUVAN_FIELD_LINE = 6
};

/* Kinds of nodes, with an example of each, and what p, q and r are; those that aren't named are 0.
 *
 * A child is the index of a node record. Children come first: left, right, then the node. So a lone child and a right
 * child are the record just before the node's, and a loop over the records from the front meets each node after its
 * children. An offset counts bytes of the store. Strings stand there with their escapes undone. */
enum flascjuvan_node {
    FLASCJUVAN_NODE_STR = 1,           /* "a"           p offset, q length */
    FLASCJUVAN_NODE_INSENS = 2,        /* ^"a"          p offset, q length */
    FLASCJUVAN_NODE_RANGE = 3,         /* 'a'..'z'      p first, q last character (a Unicode scalar value) */
    FLASCJUVAN_NODE_IDENT = 4,         /* a             p offset, q length of the name */
    FLASCJUVAN_NODE_PEEK_SLICE = 5,    /* PEEK[1..-2]   p start, q 1 if there is an end, r the end; start and end are
                                                        in two's complement, and a start that isn't written is 0 */
    FLASCJUVAN_NODE_POS_PRED = 6,      /* &a            p child */
    FLASCJUVAN_NODE_NEG_PRED = 7,      /* !a            p child */
    FLASCJUVAN_NODE_SEQ = 8,           /* a ~ b         p left, q right child */
    FLASCJUVAN_NODE_CHOICE = 9,        /* a | b         p left, q right child */
    FLASCJUVAN_NODE_OPT = 10,          /* a?            p child */
    FLASCJUVAN_NODE_REP = 11,          /* a*            p child */
    FLASCJUVAN_NODE_REP_ONCE = 12,     /* a+            p child */
    FLASCJUVAN_NODE_REP_EXACT = 13,    /* a{2}          p child, q count */
    FLASCJUVAN_NODE_REP_MIN = 14,      /* a{2,}         p child, q count */
    FLASCJUVAN_NODE_REP_MAX = 15,      /* a{,2}         p child, q count */
    FLASCJUVAN_NODE_REP_MIN_MAX = 16,  /* a{2, 3}       p child, q least, r most */
    FLASCJUVAN_NODE_PUSH = 17,         /* PUSH(a)       p child */
    FLASCJUVAN_NODE_PUSH_LITERAL = 18, /* PUSH_LITERAL("a")   p offset, q length; tagged reading only */
    FLASCJUVAN_NODE_NODE_TAG = 19      /* #t = a        p child, q offset, r length of the tag without its #; tagged
                                                        reading only */
};

/* Where the numbers of a rule record stand. Start and end are the bytes of the text that the name spans. The rule's
 * nodes are those after the root of the rule before it, up to its own root. */
enum flascjuvan_rule_field {
    FLASCJUVAN_RULE_NAME = 0, /* offset in the store */
    FLASCJUVAN_RULE_NAME_LENGTH = 1,
    FLASCJUVAN_RULE_MARK = 2, /* a number of enum flascjuvan_mark */
    FLASCJUVAN_RULE_ROOT = 3, /* the index of a node record */
    FLASCJUVAN_RULE_START = 4,
    FLASCJUVAN_RULE_END = 5
};

/* Marks of rules. */
enum flascjuvan_mark {
    FLASCJUVAN_MARK_NORMAL = 0,          /* a = { b } */
    FLASCJUVAN_MARK_SILENT = 1,          /* a = _{ b } */
    FLASCJUVAN_MARK_ATOMIC = 2,          /* a = @{ b } */
    FLASCJUVAN_MARK_COMPOUND_ATOMIC = 3, /* a = ${ b } */
    FLASCJUVAN_MARK_NON_ATOMIC = 4       /* a = !{ b } */
};

/* Kinds of tokens, with their looks. */
enum flascjuvan_token {
    FLASCJUVAN_TOKEN_NONE = 0,                /* no token is left */
    FLASCJUVAN_TOKEN_EQUALS = 1,              /* = */
    FLASCJUVAN_TOKEN_OPENING_BRACE = 2,       /* { */
    FLASCJUVAN_TOKEN_CLOSING_BRACE = 3,       /* } */
    FLASCJUVAN_TOKEN_OPENING_BRACK = 4,       /* [ */
    FLASCJUVAN_TOKEN_CLOSING_BRACK = 5,       /* ] */
    FLASCJUVAN_TOKEN_OPENING_PAREN = 6,       /* ( */
    FLASCJUVAN_TOKEN_CLOSING_PAREN = 7,       /* ) */
    FLASCJUVAN_TOKEN_AMPERSAND = 8,           /* & */
    FLASCJUVAN_TOKEN_EXCLAMATION = 9,         /* ! */
    FLASCJUVAN_TOKEN_TILDE = 10,              /* ~ */
    FLASCJUVAN_TOKEN_BAR = 11,                /* | */
    FLASCJUVAN_TOKEN_QUESTION = 12,           /* ? */
    FLASCJUVAN_TOKEN_STAR = 13,               /* * */
    FLASCJUVAN_TOKEN_PLUS = 14,               /* + */
    FLASCJUVAN_TOKEN_COMMA = 15,              /* , */
    FLASCJUVAN_TOKEN_AT = 16,                 /* @ */
    FLASCJUVAN_TOKEN_DOLLAR = 17,             /* $ */
    FLASCJUVAN_TOKEN_WORD = 18,               /* a, PUSH, _ */
    FLASCJUVAN_TOKEN_TAG = 19,                /* #a */
    FLASCJUVAN_TOKEN_NUMBER = 20,             /* 12 */
    FLASCJUVAN_TOKEN_NEGATIVE_NUMBER = 21,    /* -12 */
    FLASCJUVAN_TOKEN_DOTS = 22,               /* .. */
    FLASCJUVAN_TOKEN_STRING = 23,             /* "a" */
    FLASCJUVAN_TOKEN_INSENSITIVE_STRING = 24, /* ^"a" */
    FLASCJUVAN_TOKEN_CHARACTER = 25,          /* 'a' */
    FLASCJUVAN_TOKEN_GRAMMAR_DOC = 26,        /* //! up to the line's end */
    FLASCJUVAN_TOKEN_LINE_DOC = 27            /* /// up to the line's end */
};

/* The library is of machines with 64-bit sizes, and a record has as many numbers as fields. */
#if defined(__cplusplus) && __cplusplus >= 201103L
#define FLASCJUVAN_ASSERT(what, words) static_assert(what, words)
#elif !defined(__cplusplus) && defined(__STDC_VERSION__) && __STDC_VERSION__ >= 201112L
#define FLASCJUVAN_ASSERT(what, words) _Static_assert(what, words)
#endif
#ifdef FLASCJUVAN_ASSERT
FLASCJUVAN_ASSERT(sizeof(size_t) == sizeof(uint64_t), "flascjuvan needs a machine with 64-bit sizes");
FLASCJUVAN_ASSERT(FLASCJUVAN_FIELD_LINE + 1 == FLASCJUVAN_NODE_RECORD, "a node record has seven numbers");
FLASCJUVAN_ASSERT(FLASCJUVAN_RULE_END + 1 == FLASCJUVAN_RULE_RECORD, "a rule record has six numbers");
FLASCJUVAN_ASSERT(FLASCJUVAN_MATCH_STEPS + 1 == FLASCJUVAN_LINE_RECORD, "a line's record has five numbers");
#undef FLASCJUVAN_ASSERT
#endif

/* Reads a text into tables, by the first edition of the rules for layouts.
 *
 * tagged: 0 reads plain (tags are dropped, PUSH_LITERAL is 13); every other value reads tagged (tags are kept).
 * answer: number, place, nodes, rules, store bytes. Nodes are counted in records of seven numbers, rules in records of
 * six.
 *
 * The store holds names, tags and strings in the order of the text. */
void flascjuvan_read(const uint8_t *text, size_t text_len, uint32_t tagged,
                     uint32_t *nodes, size_t nodes_len,
                     uint32_t *rules, size_t rules_len,
                     uint8_t *store, size_t store_len,
                     uint64_t answer[5]);

/* Reads a text into tables as flascjuvan_read does, by an edition of the rules for layouts.
 *
 * edition: 0 and 1 are the first edition, which flascjuvan_read reads by; every other value is the second, which refuses a
 * repeat whose least is above its most, as in a{3,2}, by 15. What both read is the same. */
void flascjuvan_read_edition(const uint8_t *text, size_t text_len, uint32_t tagged, uint32_t edition,
                             uint32_t *nodes, size_t nodes_len,
                             uint32_t *rules, size_t rules_len,
                             uint8_t *store, size_t store_len,
                             uint64_t answer[5]);

/* Prints tables, a rule to a line, every bracket shown. Lend exactly the tables: after a reading, its nodes times
 * FLASCJUVAN_NODE_RECORD, its rules times FLASCJUVAN_RULE_RECORD, and its store bytes.
 *
 * Read again, a chain that was grouped to the right comes back grouped to the left: a ~ (b ~ c) prints as (a ~ b ~ c).
 *
 * The text is UTF-8. In strings and ranges the characters of U+00A1 to U+024F but U+00AD stand as they are; all others
 * beyond ASCII are escaped.
 *
 * answer: number, place, bytes printed. */
void flascjuvan_print(const uint32_t *nodes, size_t nodes_len,
                      const uint32_t *rules, size_t rules_len,
                      const uint8_t *store, size_t store_len,
                      uint8_t *out, size_t out_len,
                      uint64_t answer[3]);

/* Prints tables as flascjuvan_print does, but with the fewest brackets that keep the trees: (a ~ b) ~ c prints as
 * a ~ b ~ c, and a ~ (b ~ c) as it stands. So either text can be the longer one; 23 goes by the one that is asked for.
 * Everything else is alike: what is lent, the numbers and their order, the stack.
 *
 * Read again, tagged, it gives the very same trees. Not read are a text of over 65,536 bytes or with over 1,024 brackets
 * open at once, the empty text of no rules, and a zero count or maximum, which no reading makes.
 *
 * answer: number, place, bytes printed. */
void flascjuvan_print_short(const uint32_t *nodes, size_t nodes_len,
                            const uint32_t *rules, size_t rules_len,
                            const uint8_t *store, size_t store_len,
                            uint8_t *out, size_t out_len,
                            uint64_t answer[3]);

/* The next token of a text from the place `at` on, past blanks and comments. `at` may be any number.
 *
 * answer: number, place, kind, start, end. At or past the text's end, and where only blanks are left, number and kind are 0,
 * and start and end are the text's length. Ask for the token after this one at its end. */
void flascjuvan_next_token(const uint8_t *text, size_t text_len, size_t at, uint64_t answer[5]);

/* Runs the rule at the index `start` over a line, from its first byte on. Lend exactly the tables, as for printing. The
 * line may have any bytes, line ends too, and any length.
 *
 * Choice is ordered, a repeat takes all it can and gives nothing back, and nothing is implicit: no blanks, and marks of
 * rules change nothing. ANY is one character; ^"a" ignores the case of ASCII letters alone. Each visit to a node is a
 * step, failed and repeated ones too; allowance says how many there may be, and a run that needs exactly so many is not
 * refused. A larger allowance never alters the length or the steps of a run that ended.
 *
 * answer: number, place, 1 if the line matched or 0, how many bytes matched, steps. A match may have 0 bytes. */
void flascjuvan_match(const uint32_t *nodes, size_t nodes_len,
                      const uint32_t *rules, size_t rules_len,
                      const uint8_t *store, size_t store_len,
                      size_t start,
                      const uint8_t *line, size_t line_len,
                      uint64_t allowance,
                      uint64_t answer[5]);

/* Runs a rule over each line of a text as flascjuvan_match does, each line with the whole allowance. The tables are
 * checked and their names looked up once a call, not once a line.
 *
 * LF ends a line, and a CR right before it belongs to that end; any other CR is a byte of its line. The last line may
 * lack its LF; behind a last LF there is no line. Each line's five numbers, those of flascjuvan_match, stand in the
 * record of its index. 33 and 34 are the line's own, and stand there; the next lines are run nonetheless.
 *
 * Full records are no refusal. As many lines are run as there are whole records lent; the next begins at the place
 * answer[3] of the text. It is the text's length if all were run. To go on, lend the text from there. A text that comes
 * in pieces should be lent up to a line's end: what is lent is taken for whole lines.
 *
 * answer: number (0, 30, 31 or 32), place, lines run, the place where the next line begins. */
void flascjuvan_match_lines(const uint32_t *nodes, size_t nodes_len,
                            const uint32_t *rules, size_t rules_len,
                            const uint8_t *store, size_t store_len,
                            size_t start,
                            const uint8_t *text, size_t text_len,
                            uint64_t allowance,
                            uint64_t *records, size_t records_len,
                            uint64_t answer[4]);

/* The index of the lowest rule of a name, compared by bytes. It looks at the tables alone (30), not at whether they can
 * be run (31 and the other reasons for 32).
 *
 * answer: number (0, 30 or 32), place 0, the rule's index. */
void flascjuvan_rule_named(const uint32_t *nodes, size_t nodes_len,
                           const uint32_t *rules, size_t rules_len,
                           const uint8_t *store, size_t store_len,
                           const uint8_t *name, size_t name_len,
                           uint64_t answer[3]);

/* Feeds a packet of a text to its stream: its next bytes, any number of them, cut anywhere, inside a character too. The
 * tokens whose end is known now are put into the list, behind those of the calls before. A record has three numbers:
 * kind, start, end. Start and end count from the text's first byte.
 *
 * state: what is kept of the stream between calls. All zeros is a stream of which nothing has come. What the numbers are
 * is the library's own. Any are answered: those that don't fit one another (docs/GRAMMAR.md has the test) as if they
 * were zeros.
 * list: lend the same one to every call of a text, or a longer one with the records so far at its front. Whole records
 * count. FLASCJUVAN_LIST numbers are enough for any text.
 *
 * A refusal shows at the first byte after which no continuation of the text would be free of it. So a faulty text is
 * refused as early as can be; where a token could still become good, or a sequence whole, nothing shows yet. 3 doesn't
 * wait for a character to be whole, so a text that is not UTF-8 may get 3 here and 2 from flascjuvan_read. 14 shows where
 * the end of the token is known: at the byte after a word, a tag or a number, at the last byte of most others.
 *
 * A refused call leaves the list as it found it, without the tokens of its packet before the fault. Every later call with
 * that state answers the refusal again; put zeros there to begin anew.
 *
 * answer: number (0, 1, 2, 3 or 14), place, records in the list (0 if refused). */
void flascjuvan_feed(uint64_t state[10],
                     const uint8_t *packet, size_t packet_len,
                     uint32_t *list, size_t list_len,
                     uint64_t answer[3]);

/* Ends a stream's text, and puts the token that stood at its end into the list. What was open is refused now: an open
 * string by 3, a character that is cut by 2. After a good end the state is all zeros, for the next text.
 *
 * answer: number (0, 2, 3 or 14; 1 if it is repeated), place, records in the list (0 if refused). */
void flascjuvan_feed_end(uint64_t state[10], uint32_t *list, size_t list_len, uint64_t answer[3]);

#ifdef __cplusplus
}
#endif

#endif
