/* What test-c asks of the functions that print tables and run rules: their answers on tables made by hand, each number,
 * and that they touch nothing but what they are lent; and the same of those that read, by each edition. Each lent buffer stands alone between pages that can't be touched,
 * right behind the one or right before the other, and what is lent to be read can't be written. It tells each case that
 * goes wrong, then how many there were; it is ended by a signal where it touches what it may not. C that is C++ too. */
#ifndef _GNU_SOURCE
#define _GNU_SOURCE /* C++ compilers have it already */
#endif
#include <inttypes.h>
#include <stdio.h>
#include <stdlib.h>
#include <string.h>
#include <sys/mman.h>
#include <unistd.h>

#include <flascjuvan.h>

#define NODE(kind, p, q, r) kind, 0, 0, p, q, r, 0
#define RULE(name, length, root) name, length, 0, root, 0, 0
#define UNTOUCHED 7
#define LENGTH(numbers) (sizeof(numbers) / sizeof *(numbers))

static int cases, wrong;
static int at_end; /* buffers end right before a guard, or else begin right behind one */

/* ---- lent memory */

struct lent {
    void *start;
    uint8_t *pages;
    size_t size;
};

static struct lent lend(const void *bytes, size_t size, int writable)
{
    size_t page = (size_t)sysconf(_SC_PAGESIZE), inside = (size + page) / page * page;
    struct lent l;
    l.size = inside + 2 * page;
    l.pages = (uint8_t *)mmap(NULL, l.size, PROT_READ | PROT_WRITE, MAP_PRIVATE | MAP_ANONYMOUS, -1, 0);
    if (l.pages == MAP_FAILED) {
        perror("mmap");
        exit(2);
    }
    memset(l.pages, UNTOUCHED, l.size);
    l.start = l.pages + page + (at_end ? inside - size : 0);
    if (size != 0) {
        memcpy(l.start, bytes, size);
    }
    if (mprotect(l.pages, page, PROT_NONE) != 0 || mprotect(l.pages + page + inside, page, PROT_NONE) != 0 ||
        (!writable && mprotect(l.pages + page, inside, PROT_READ) != 0)) {
        perror("mprotect");
        exit(2);
    }
    return l;
}

/* Whether the bytes beside a lent buffer, up to its guards, are as they were. */
static int beside(struct lent l, size_t size)
{
    size_t page = (size_t)sysconf(_SC_PAGESIZE);
    uint8_t *p;
    for (p = l.pages + page; p < l.pages + l.size - page; p++) {
        if ((p < (uint8_t *)l.start || p >= (uint8_t *)l.start + size) && *p != UNTOUCHED) {
            return 0;
        }
    }
    return 1;
}

static void take_back(struct lent l)
{
    munmap(l.pages, l.size);
}

/* ---- tables */

struct tables {
    const uint32_t *nodes;
    size_t nodes_len;
    const uint32_t *rules;
    size_t rules_len;
    const char *store;
};

static struct lent nodes, rules, store;

static void lend_tables(const struct tables *t)
{
    nodes = lend(t->nodes, t->nodes_len * sizeof *t->nodes, 0);
    rules = lend(t->rules, t->rules_len * sizeof *t->rules, 0);
    store = lend(t->store, strlen(t->store), 0);
}

static void take_tables_back(void)
{
    take_back(nodes);
    take_back(rules);
    take_back(store);
}

#define TABLES(t) \
    (const uint32_t *)nodes.start, (t)->nodes_len, (const uint32_t *)rules.start, (t)->rules_len, \
        (const uint8_t *)store.start, strlen((t)->store)

/* ---- a case of each function: what comes out, against what has to */

static void compare(const char *what, const char *of, const uint64_t *got, const uint64_t *due, size_t count)
{
    size_t i;
    cases++;
    if (memcmp(got, due, count * sizeof *got) == 0) {
        return;
    }
    wrong++;
    fprintf(stderr, "test-tables: %s, %s:", what, of);
    for (i = 0; i < count; i++) {
        fprintf(stderr, " %" PRIu64 "%s%" PRIu64, got[i], got[i] == due[i] ? "=" : " and not ", due[i]);
    }
    fputc('\n', stderr);
}

static void lone(const char *what, struct lent l, size_t size)
{
    cases++;
    if (!beside(l, size)) {
        wrong++;
        fprintf(stderr, "test-tables: %s: written beside what was lent\n", what);
    }
}

static void match(const char *what, const struct tables *t, size_t start, const char *line, size_t length,
                  uint64_t allowance, uint64_t number, uint64_t place, uint64_t matched, uint64_t bytes, uint64_t steps)
{
    const uint64_t filled[5] = {UNTOUCHED, UNTOUCHED, UNTOUCHED, UNTOUCHED, UNTOUCHED};
    const uint64_t due[5] = {number, place, matched, bytes, steps};
    struct lent answer = lend(filled, sizeof filled, 1), input = lend(line, length, 0);
    lend_tables(t);
    flascjuvan_match(TABLES(t), start, (const uint8_t *)input.start, length, allowance, (uint64_t *)answer.start);
    compare(what, "answer", (const uint64_t *)answer.start, due, 5);
    lone(what, answer, sizeof filled);
    take_tables_back();
    take_back(answer);
    take_back(input);
}

/* The records are lent as numbers that stand at 7: `due` says what they hold afterwards, the first `written` of them. */
static void match_lines(const char *what, const struct tables *t, size_t start, const char *text, size_t length,
                        uint64_t allowance, size_t room, uint64_t number, uint64_t place, uint64_t lines, uint64_t next,
                        const uint64_t *due_records, size_t written)
{
    const uint64_t filled[4] = {UNTOUCHED, UNTOUCHED, UNTOUCHED, UNTOUCHED};
    const uint64_t due[4] = {number, place, lines, next};
    uint64_t records_before[64], records_after[64];
    struct lent answer = lend(filled, sizeof filled, 1), input = lend(text, length, 0), records;
    size_t i;
    for (i = 0; i < 64; i++) {
        records_before[i] = UNTOUCHED;
        records_after[i] = i < written ? due_records[i] : UNTOUCHED;
    }
    records = lend(records_before, room * sizeof *records_before, 1);
    lend_tables(t);
    flascjuvan_match_lines(TABLES(t), start, (const uint8_t *)input.start, length, allowance, (uint64_t *)records.start,
                           room, (uint64_t *)answer.start);
    compare(what, "answer", (const uint64_t *)answer.start, due, 4);
    compare(what, "records", (const uint64_t *)records.start, records_after, room);
    lone(what, answer, sizeof filled);
    lone(what, records, room * sizeof *records_before);
    take_tables_back();
    take_back(answer);
    take_back(input);
    take_back(records);
}

/* flascjuvan_print or flascjuvan_print_short */
typedef void printer(const uint32_t *, size_t, const uint32_t *, size_t, const uint8_t *, size_t, uint8_t *, size_t,
                     uint64_t *);

/* The output is lent as bytes that stand at 7: after a refusal, or behind the text, they still do. */
static void print(const char *what, printer *by, const struct tables *t, size_t room, uint64_t number, uint64_t place,
                  const char *text)
{
    const uint64_t filled[3] = {UNTOUCHED, UNTOUCHED, UNTOUCHED};
    const uint64_t due[3] = {number, place, strlen(text)};
    uint8_t before[64], after[64];
    struct lent answer = lend(filled, sizeof filled, 1), out;
    memset(before, UNTOUCHED, sizeof before);
    memcpy(after, before, sizeof after);
    memcpy(after, text, strlen(text));
    out = lend(before, room, 1);
    lend_tables(t);
    by(TABLES(t), (uint8_t *)out.start, room, (uint64_t *)answer.start);
    compare(what, "answer", (const uint64_t *)answer.start, due, 3);
    cases++;
    if (memcmp(out.start, after, room) != 0) {
        wrong++;
        fprintf(stderr, "test-tables: %s: %.*s and not %s\n", what, (int)room, (const char *)out.start, text);
    }
    lone(what, answer, sizeof filled);
    lone(what, out, room);
    take_tables_back();
    take_back(answer);
    take_back(out);
}

/* flascjuvan_read, which names no edition */
#define NO_EDITION UINT32_MAX

/* Room for two nodes, a rule and two bytes is lent, all of it standing at 7. Every text here that is read is
 * r={a{LEAST,MOST}} and fills it; LEAST is 0 where it is refused. */
static void read_text(const char *what, const char *text, uint32_t edition, uint64_t number, uint64_t place,
                      uint32_t least, uint32_t most)
{
    const uint64_t filled[5] = {UNTOUCHED, UNTOUCHED, UNTOUCHED, UNTOUCHED, UNTOUCHED};
    const uint64_t done[5] = {0, 0, 2, 1, 2}, refused[5] = {number, place, 0, 0, 0};
    const uint32_t end = (uint32_t)strlen(text) - 1, seven = UNTOUCHED * 0x01010101u;
    const uint32_t due_nodes[14] = {4, 3, 4, 1, 1, 0, 1, 16, 3, end, 0, least, most, 1}, due_rule[6] = {0, 1, 0, 1, 0, 1};
    uint32_t before[14];
    struct lent answer = lend(filled, sizeof filled, 1), input = lend(text, strlen(text), 0), made[3];
    int good = number == 0;
    size_t i;
    for (i = 0; i < LENGTH(before); i++) {
        before[i] = seven;
    }
    made[0] = lend(before, sizeof due_nodes, 1);
    made[1] = lend(before, sizeof due_rule, 1);
    made[2] = lend(before, 2, 1);
    if (edition == NO_EDITION) {
        flascjuvan_read((const uint8_t *)input.start, strlen(text), 1, (uint32_t *)made[0].start, 14,
                        (uint32_t *)made[1].start, 6, (uint8_t *)made[2].start, 2, (uint64_t *)answer.start);
    } else {
        flascjuvan_read_edition((const uint8_t *)input.start, strlen(text), 1, edition, (uint32_t *)made[0].start, 14,
                                (uint32_t *)made[1].start, 6, (uint8_t *)made[2].start, 2, (uint64_t *)answer.start);
    }
    compare(what, "answer", (const uint64_t *)answer.start, good ? done : refused, 5);
    cases++;
    if (memcmp(made[0].start, good ? due_nodes : before, sizeof due_nodes) != 0 ||
        memcmp(made[1].start, good ? due_rule : before, sizeof due_rule) != 0 ||
        memcmp(made[2].start, good ? (const void *)"ra" : (const void *)before, 2) != 0) {
        wrong++;
        fprintf(stderr, "test-tables: %s: tables that should be others\n", what);
    }
    lone(what, answer, sizeof filled);
    lone(what, made[0], sizeof due_nodes);
    lone(what, made[1], sizeof due_rule);
    lone(what, made[2], 2);
    take_back(answer);
    take_back(input);
    for (i = 0; i < LENGTH(made); i++) {
        take_back(made[i]);
    }
}

static void rule_named(const char *what, const struct tables *t, const char *name, uint64_t number, uint64_t rule)
{
    const uint64_t filled[3] = {UNTOUCHED, UNTOUCHED, UNTOUCHED};
    const uint64_t due[3] = {number, 0, rule};
    struct lent answer = lend(filled, sizeof filled, 1), input = lend(name, strlen(name), 0);
    lend_tables(t);
    flascjuvan_rule_named(TABLES(t), (const uint8_t *)input.start, strlen(name), (uint64_t *)answer.start);
    compare(what, "answer", (const uint64_t *)answer.start, due, 3);
    lone(what, answer, sizeof filled);
    take_tables_back();
    take_back(answer);
    take_back(input);
}

/* ---- the cases */

/* r = { "a"* }  s = { "b" } */
static const uint32_t good_nodes[] = {NODE(1, 2, 1, 0), NODE(11, 0, 0, 0), NODE(1, 3, 1, 0)};
static const uint32_t good_rules[] = {RULE(0, 1, 1), RULE(1, 1, 2)};
static const struct tables good = {good_nodes, LENGTH(good_nodes), good_rules, LENGTH(good_rules), "rsab"};
/* the same, its last record cut short */
static const struct tables cut = {good_nodes, LENGTH(good_nodes) - 1, good_rules, LENGTH(good_rules), "rsab"};
/* the same in records of six numbers, as they were before a node had its line */
static const uint32_t sixes[] = {1, 0, 0, 2, 1, 0, 11, 0, 0, 0, 0, 0, 1, 0, 0, 3, 1, 0};
static const struct tables of_six = {sixes, LENGTH(sixes), good_rules, LENGTH(good_rules), "rsab"};
/* the same with lines, which nothing looks at */
static const uint32_t lined_nodes[] = {1, 0, 0, 2, 1, 0, 4, 11, 0, 0, 0, 0, 0, UINT32_MAX, 1, 0, 0, 3, 1, 0, 1};
static const struct tables lined = {lined_nodes, LENGTH(lined_nodes), good_rules, LENGTH(good_rules), "rsab"};
/* r = { "a"* }  s = { PUSH("b") } */
static const uint32_t unfit_nodes[] = {NODE(1, 2, 1, 0), NODE(11, 0, 0, 0), NODE(1, 3, 1, 0), NODE(17, 2, 0, 0)};
static const uint32_t unfit_rules[] = {RULE(0, 1, 1), RULE(1, 1, 3)};
static const struct tables unfit = {unfit_nodes, LENGTH(unfit_nodes), unfit_rules, LENGTH(unfit_rules), "rsab"};
/* r = { "a"* }  r = { "b" } */
static const struct tables twice = {good_nodes, LENGTH(good_nodes), good_rules, LENGTH(good_rules), "rrab"};
static const struct tables nothing = {good_nodes, 0, good_rules, 0, ""};

/* r = { a ~ b ~ c | 'a'..'z' } */
static const uint32_t left_nodes[] = {NODE(4, 1, 1, 0), NODE(4, 2, 1, 0), NODE(8, 0, 1, 0), NODE(4, 3, 1, 0),
                                      NODE(8, 2, 3, 0), NODE(3, 'a', 'z', 0), NODE(9, 4, 5, 0)};
static const uint32_t last_root[] = {RULE(0, 1, 6)};
static const struct tables left = {left_nodes, LENGTH(left_nodes), last_root, LENGTH(last_root), "rabc"};
/* r = { a ~ (b ~ (c ~ a)) } */
static const uint32_t right_nodes[] = {NODE(4, 1, 1, 0), NODE(4, 2, 1, 0), NODE(4, 3, 1, 0), NODE(4, 1, 1, 0),
                                       NODE(8, 2, 3, 0), NODE(8, 1, 4, 0), NODE(8, 0, 5, 0)};
static const struct tables right = {right_nodes, LENGTH(right_nodes), last_root, LENGTH(last_root), "rabc"};
/* a node whose child is not the one before it */
static const uint32_t childless_nodes[] = {NODE(1, 2, 1, 0), NODE(11, 1, 0, 0), NODE(1, 3, 1, 0)};
static const struct tables childless = {childless_nodes, LENGTH(childless_nodes), good_rules, LENGTH(good_rules),
                                        "rsab"};
/* a rule whose root is no node */
static const uint32_t rootless_rules[] = {RULE(0, 1, 1), RULE(1, 1, 3)};
static const struct tables rootless = {good_nodes, LENGTH(good_nodes), rootless_rules, LENGTH(rootless_rules), "rsab"};

/* A text with room to spare, with exactly its room, and with a byte less. */
static void text(const char *what, printer *by, const struct tables *t, const char *due)
{
    print(what, by, t, strlen(due) + 9, 0, 0, due);
    print(what, by, t, strlen(due), 0, 0, due);
    print(what, by, t, strlen(due) - 1, 23, 0, "");
    print(what, by, t, 0, 23, 0, "");
}

static void texts(void)
{
    static printer *const both[] = {flascjuvan_print, flascjuvan_print_short};
    size_t i;
    text("a chain to the left", flascjuvan_print, &left, "r = { (((a ~ b) ~ c) | ('a'..'z')) }\n");
    text("a chain to the left, short", flascjuvan_print_short, &left, "r = { a ~ b ~ c | 'a'..'z' }\n");
    text("a chain to the right", flascjuvan_print, &right, "r = { (a ~ b ~ c ~ a) }\n");
    text("a chain to the right, short", flascjuvan_print_short, &right, "r = { a ~ (b ~ (c ~ a)) }\n");
    for (i = 0; i < LENGTH(both); i++) {
        text("two rules", both[i], &good, "r = { \"a\"* }\ns = { \"b\" }\n");
        print("no rule", both[i], &nothing, 0, 0, 0, "");
        print("lines", both[i], &lined, 40, 0, 0, "r = { \"a\"* }\ns = { \"b\" }\n");
        print("20", both[i], &cut, 40, 20, 0, "");
        print("20, records of six", both[i], &of_six, 40, 20, 0, "");
        print("21", both[i], &childless, 40, 21, 1, "");
        print("22", both[i], &rootless, 40, 22, 1, "");
        print("20 before 23", both[i], &cut, 0, 20, 0, "");
        print("21 before 23", both[i], &childless, 0, 21, 1, "");
        print("22 before 23", both[i], &rootless, 0, 22, 1, "");
    }
}

static void lines_one_by_one(void)
{
    match("a line", &good, 0, "aab", 3, 99, 0, 0, 1, 2, 4);
    match("no match", &good, 1, "a", 1, 99, 0, 0, 0, 0, 1);
    match("a match of 0 bytes", &good, 0, "", 0, 99, 0, 0, 1, 0, 2);
    match("exactly the steps", &good, 0, "aab", 3, 4, 0, 0, 1, 2, 4);
    match("a step too few", &good, 0, "aab", 3, 3, 34, 0, 0, 0, 0);
    match("the most steps", &good, 0, "aab", 3, UINT64_MAX, 0, 0, 1, 2, 4);
    match("line ends are bytes of the line", &good, 1, "b\r\n", 3, 99, 0, 0, 1, 1, 1);
    match("30", &cut, 0, "a", 1, 99, 30, 0, 0, 0, 0);
    match("31", &unfit, 0, "a", 1, 99, 31, 3, 0, 0, 0);
    match("32, a name twice", &twice, 0, "a", 1, 99, 32, 0, 0, 0, 0);
    match("32, the start", &good, 2, "a", 1, 99, 32, 0, 0, 0, 0);
    match("32, the largest start", &good, SIZE_MAX, "a", 1, 99, 32, 0, 0, 0, 0);
    match("32, no rule", &nothing, 0, "a", 1, 99, 32, 0, 0, 0, 0);
    match("33", &good, 0, "aa\303(", 4, 99, 33, 2, 0, 0, 0);
    match("33 before 34", &good, 0, "\377", 1, 0, 33, 0, 0, 0, 0);
}

static void whole_texts(void)
{
    static const uint64_t four[] = {0, 0, 1, 1, 3, 0, 0, 1, 2, 4, 0, 0, 1, 0, 2, 0, 0, 1, 1, 3};
    static const uint64_t own[] = {0, 0, 1, 1, 3, 33, 1, 0, 0, 0, 34, 0, 0, 0, 0, 0, 0, 1, 0, 2};
    match_lines("LF, CRLF, a CR in a line, no last LF", &good, 0, "a\naa\r\n\na\r", 9, 99, 22, 0, 0, 4, 9, four, 20);
    match_lines("a last LF", &good, 0, "a\naa\n\r\na\n", 9, 99, 22, 0, 0, 4, 9, four, 20);
    match_lines("33 and 34 are a line's own", &good, 0, "a\na\377\naa\nb", 9, 3, 20, 0, 0, 4, 9, own, 20);
    match_lines("full records", &good, 0, "a\naa\n\na\n", 8, 99, 10, 0, 0, 2, 5, four, 10);
    match_lines("from the next line on", &good, 0, "\na\n", 3, 99, 10, 0, 0, 2, 3, four + 10, 10);
    match_lines("numbers left over", &good, 0, "a\naa\n\na\n", 8, 99, 14, 0, 0, 2, 5, four, 10);
    match_lines("no whole record", &good, 0, "a\naa\n", 5, 99, 4, 0, 0, 0, 0, four, 0);
    match_lines("no record", &good, 0, "a\naa\n", 5, 99, 0, 0, 0, 0, 0, four, 0);
    match_lines("no line", &good, 0, "", 0, 99, 10, 0, 0, 0, 0, four, 0);
    match_lines("30", &cut, 0, "a\n", 2, 99, 10, 30, 0, 0, 0, four, 0);
    match_lines("31", &unfit, 0, "a\n", 2, 99, 10, 31, 3, 0, 0, four, 0);
    match_lines("32", &good, 2, "a\n", 2, 99, 10, 32, 0, 0, 0, four, 0);
    match_lines("32 without a line", &good, 2, "", 0, 99, 10, 32, 0, 0, 0, four, 0);
}

static void names(void)
{
    rule_named("the first rule", &good, "r", 0, 0);
    rule_named("the second rule", &good, "s", 0, 1);
    rule_named("the lowest of a name", &twice, "r", 0, 0);
    rule_named("tables that can't be run", &unfit, "s", 0, 1);
    rule_named("30", &cut, "r", 30, 0);
    rule_named("30 before 32", &cut, "t", 30, 0);
    rule_named("32", &good, "t", 32, 0);
    rule_named("32, more than a name", &good, "rs", 32, 0);
    rule_named("32, the empty name", &good, "", 32, 0);
    rule_named("32, no rule", &nothing, "r", 32, 0);
}

static void readings(void)
{
    static const uint32_t firsts[] = {NO_EDITION, 0, 1}, seconds[] = {2, 3, UINT32_MAX - 1};
    size_t i;
    for (i = 0; i < LENGTH(firsts); i++) {
        read_text("a least above its most, first edition", "r={a{3,2}}", firsts[i], 0, 0, 3, 2);
        read_text("a least above its most, second edition", "r={a{3,2}}", seconds[i], 15, 5, 0, 0);
        read_text("both alike, second edition", "r={a{2,02}}", seconds[i], 0, 0, 2, 2);
        read_text("a 0, first edition", "r={a{5, 0}}", firsts[i], 6, 8, 0, 0);
        read_text("a 0, second edition", "r={a{5, 0}}", seconds[i], 6, 8, 0, 0);
        read_text("over, second edition", "r={a{4294967296,1}}", seconds[i], 5, 5, 0, 0);
        read_text("leftmost, first edition", "r={a{3,2}{0}}", firsts[i], 6, 10, 0, 0);
        read_text("leftmost, second edition", "r={a{3,2}{0}}", seconds[i], 15, 5, 0, 0);
        read_text("15 before room", "r={a{3,2}~b}", seconds[i], 15, 5, 0, 0);
        read_text("room", "r={a{3,2}~b}", firsts[i], 10, 0, 0, 0);
    }
}

/* r = { !! .. !"a" }, as many visits inside one another */
static void nested(uint32_t visits, uint64_t number, uint64_t steps)
{
    static uint32_t deep[1025 * FLASCJUVAN_NODE_RECORD];
    const uint64_t due[5] = {number, 0, 0, 0, steps};
    uint32_t rule[] = {RULE(0, 1, visits - 1)}, i;
    struct tables t;
    for (i = 0; i < visits; i++) {
        const uint32_t leaf[] = {NODE(1, 1, 1, 0)}, not_that[] = {NODE(7, i - 1, 0, 0)};
        memcpy(deep + i * FLASCJUVAN_NODE_RECORD, i == 0 ? leaf : not_that, sizeof leaf);
    }
    t.nodes = deep;
    t.nodes_len = visits * FLASCJUVAN_NODE_RECORD;
    t.rules = rule;
    t.rules_len = LENGTH(rule);
    t.store = "ra";
    /* an odd number of ! makes none of it */
    match("nested visits", &t, 0, "a", 1, 1000000, number, 0, 0, 0, steps);
    match_lines("lines of nested visits", &t, 0, "a\na\n", 4, 1000000, 5, 0, 0, 1, 2, due, 5);
}

int main(void)
{
    for (at_end = 0; at_end < 2; at_end++) {
        lines_one_by_one();
        whole_texts();
        names();
        readings();
        texts();
        nested(1024, 0, 1024);
        nested(1025, 34, 0);
    }
    printf("%d cases, %d wrong\n", cases, wrong);
    return wrong != 0;
}
