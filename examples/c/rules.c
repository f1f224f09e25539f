/* rules: a layout printed back, with a note above each rule: where it stood, how deep its tree is, which rules it uses.
 *
 *     cc $(pkg-config --cflags flascjuvan) rules.c $(pkg-config --libs flascjuvan) -o rules
 *     ./rules layouts/pan.pest             or standard input, if no file is named
 *     ./rules --short layouts/pan.pest     with the fewest brackets
 *     ./rules --edition 2 layouts/pan.pest read by the second edition, which the first line then says
 *
 * Exit status: 0 printed; 1 refused, with one line on standard error; 2 anything else that went wrong.
 * It shows the functions of flascjuvan.h that read, print and list tokens, in C that is C++ too. */
#include <stdio.h>
#include <stdlib.h>
#include <string.h>
#include <sys/resource.h>

#include <flascjuvan.h>

#define NODE_RECORDS (FLASCJUVAN_NODES / FLASCJUVAN_NODE_RECORD)
#define PRINTED_AT_FIRST 4096
#define STACK (3u << 20)

enum { PRINTED = 0, REFUSED = 1, FAILED = 2 };

/* The names of the header's enums, by number. */
static const char *const refusals[] = {
    "DONE", "TOO_LONG", "NOT_UTF8", "NO_TOKEN", "NOT_ALLOWED", "OVER", "ZERO", "PEEK_RANGE", "NOT_SCALAR", "TOO_DEEP",
    "NODES_ROOM", "STORE_ROOM", "RULES_ROOM", "NOT_PLAIN", "LIST_ROOM", "ABOVE",
    NULL, NULL, NULL, NULL, /* 16 to 19 are never given */
    "SHAPE", "NODE", "RULE", "OUTPUT_ROOM",
};

static const char *const tokens[] = {
    "the text's end",
    "EQUALS", "OPENING_BRACE", "CLOSING_BRACE", "OPENING_BRACK", "CLOSING_BRACK", "OPENING_PAREN", "CLOSING_PAREN",
    "AMPERSAND", "EXCLAMATION", "TILDE", "BAR", "QUESTION", "STAR", "PLUS", "COMMA", "AT", "DOLLAR",
    "WORD", "TAG", "NUMBER", "NEGATIVE_NUMBER", "DOTS", "STRING", "INSENSITIVE_STRING", "CHARACTER",
    "GRAMMAR_DOC", "LINE_DOC",
};

/* What the library is lent. No text uses more than this, so reading can't be refused for want of room. It is much for
 * a stack, so it isn't there; a program with threads lends each call buffers of its own. */
static uint8_t text[FLASCJUVAN_TEXT + 1]; /* the byte more shows that a text is too long */
static uint32_t nodes[FLASCJUVAN_NODES];
static uint32_t rules[FLASCJUVAN_RULES];
static uint8_t store[FLASCJUVAN_TEXT];
static uint32_t depths[NODE_RECORDS];

static int fail(const char *what)
{
    fprintf(stderr, "rules: %s\n", what);
    return FAILED;
}

/* Reading and printing go down a tree by calls, so the stack that they use grows with a layout's depth: 2 MB have to be
 * free. No library can catch a stack that is too small, so it is looked at before; the third MB is for what stands above
 * the call. The first thread has what the system's limit gives, another what it was made with
 * (pthread_attr_setstacksize). */
static int stack_is_enough(void)
{
    struct rlimit limit;
    return getrlimit(RLIMIT_STACK, &limit) == 0 && (limit.rlim_cur == RLIM_INFINITY || limit.rlim_cur >= STACK);
}

/* Lines and columns count from 1, and a column counts characters: bytes that don't continue one. */
static void line_and_column(size_t place, size_t *line, size_t *column)
{
    size_t i;
    *line = 1;
    *column = 1;
    for (i = 0; i < place; i++) {
        if (text[i] == '\n') {
            ++*line;
            *column = 1;
        } else if ((text[i] & 0xc0) != 0x80) {
            ++*column;
        }
    }
}

/* One line, FILE:LINE:COLUMN: refused NUMBER NAME; behind it the kind of a token that isn't allowed. */
static int tell_refusal(const char *file, size_t length, const uint64_t *answer)
{
    uint64_t number = answer[FLASCJUVAN_ANSWER_NUMBER], next[5];
    size_t place = (size_t)answer[FLASCJUVAN_ANSWER_PLACE], line, column;
    line_and_column(place, &line, &column);
    fprintf(stderr, "%s:%zu:%zu: refused %d %s", file, line, column, (int)number, refusals[number]);
    if (number == FLASCJUVAN_REFUSED_NOT_ALLOWED) {
        flascjuvan_next_token(text, length, place, next);
        if (next[FLASCJUVAN_ANSWER_NUMBER] == FLASCJUVAN_DONE) {
            fprintf(stderr, ": %s", tokens[next[FLASCJUVAN_NEXT_KIND]]);
        }
    }
    fputc('\n', stderr);
    return REFUSED;
}

static int children_of(uint32_t kind)
{
    switch (kind) {
    case FLASCJUVAN_NODE_STR:
    case FLASCJUVAN_NODE_INSENS:
    case FLASCJUVAN_NODE_RANGE:
    case FLASCJUVAN_NODE_IDENT:
    case FLASCJUVAN_NODE_PEEK_SLICE:
    case FLASCJUVAN_NODE_PUSH_LITERAL:
        return 0;
    case FLASCJUVAN_NODE_SEQ:
    case FLASCJUVAN_NODE_CHOICE:
        return 2;
    default:
        return 1;
    }
}

/* How deep the tree of each node is. Children come first, so one pass does, without recursion. */
static void measure(size_t count)
{
    size_t i;
    for (i = 0; i < count; i++) {
        const uint32_t *node = nodes + i * FLASCJUVAN_NODE_RECORD;
        int children = children_of(node[FLASCJUVAN_FIELD_KIND]);
        uint32_t below = children > 0 ? depths[node[FLASCJUVAN_FIELD_P]] : 0;
        if (children == 2 && depths[node[FLASCJUVAN_FIELD_Q]] > below) {
            below = depths[node[FLASCJUVAN_FIELD_Q]];
        }
        depths[i] = below + 1;
    }
}

static int same_name(const uint32_t *a, const uint32_t *b)
{
    return a[FLASCJUVAN_FIELD_KIND] == FLASCJUVAN_NODE_IDENT && a[FLASCJUVAN_FIELD_Q] == b[FLASCJUVAN_FIELD_Q] &&
           memcmp(store + a[FLASCJUVAN_FIELD_P], store + b[FLASCJUVAN_FIELD_P], b[FLASCJUVAN_FIELD_Q]) == 0;
}

/* The names among the nodes from `from` to `to`, each once. */
static void list_names(size_t from, size_t to)
{
    const char *before = "; uses ";
    size_t i, k;
    for (i = from; i < to; i++) {
        const uint32_t *node = nodes + i * FLASCJUVAN_NODE_RECORD;
        if (node[FLASCJUVAN_FIELD_KIND] != FLASCJUVAN_NODE_IDENT) {
            continue;
        }
        for (k = from; k < i && !same_name(nodes + k * FLASCJUVAN_NODE_RECORD, node); k++) {
        }
        if (k == i) {
            /* a name isn't ended by a 0: its length says where it ends */
            printf("%s%.*s", before, (int)node[FLASCJUVAN_FIELD_Q], (const char *)store + node[FLASCJUVAN_FIELD_P]);
            before = ", ";
        }
    }
}

/* A note and the printed line for each rule. The printer writes a rule to a line, and no rule has a line end inside. */
static void show(size_t rule_count, const uint8_t *printed)
{
    size_t k, from = 0, line, column;
    for (k = 0; k < rule_count; k++) {
        const uint32_t *rule = rules + k * FLASCJUVAN_RULE_RECORD;
        size_t root = rule[FLASCJUVAN_RULE_ROOT];
        const uint8_t *end = printed;
        line_and_column(rule[FLASCJUVAN_RULE_START], &line, &column);
        printf("// line %zu, depth %u", line, (unsigned)depths[root]);
        list_names(from, root + 1);
        while (*end++ != '\n') {
        }
        putchar('\n');
        fwrite(printed, 1, (size_t)(end - printed), stdout);
        printed = end;
        from = root + 1;
    }
}

/* flascjuvan_print or flascjuvan_print_short: they are called alike. */
typedef void printer(const uint32_t *, size_t, const uint32_t *, size_t, const uint8_t *, size_t, uint8_t *, size_t,
                     uint64_t *);

/* Prints the tables to memory of its own; NULL if there is none. A table doesn't tell how long its text will be, so
 * more is lent until it fits. A refusal changes nothing, so asking again is safe. */
static uint8_t *print(printer *by, size_t node_count, size_t rule_count, size_t store_bytes, uint64_t *answer)
{
    size_t room;
    for (room = PRINTED_AT_FIRST; room != 0; room *= 2) {
        uint8_t *out = (uint8_t *)malloc(room);
        if (out == NULL) {
            return NULL;
        }
        by(nodes, node_count * FLASCJUVAN_NODE_RECORD, rules, rule_count * FLASCJUVAN_RULE_RECORD, store, store_bytes,
           out, room, answer);
        if (answer[FLASCJUVAN_ANSWER_NUMBER] != FLASCJUVAN_REFUSED_OUTPUT_ROOM) {
            return out;
        }
        free(out);
    }
    return NULL;
}

/* Without an edition it reads as flascjuvan_read does, by the first. */
static int read_and_show(const char *file, size_t length, const char *edition, printer *by)
{
    uint64_t was_read[5], was_printed[3];
    size_t node_count, rule_count;
    uint8_t *printed;
    flascjuvan_read_edition(text, length, 1, edition == NULL ? 1 : (uint32_t)atoi(edition), nodes, FLASCJUVAN_NODES,
                            rules, FLASCJUVAN_RULES, store, sizeof store, was_read);
    if (was_read[FLASCJUVAN_ANSWER_NUMBER] != FLASCJUVAN_DONE) {
        return tell_refusal(file, length, was_read);
    }
    node_count = (size_t)was_read[FLASCJUVAN_READ_NODES];
    rule_count = (size_t)was_read[FLASCJUVAN_READ_RULES];
    printed = print(by, node_count, rule_count, (size_t)was_read[FLASCJUVAN_READ_STORE], was_printed);
    if (printed == NULL) {
        return fail("there is no memory for the printed text");
    }
    if (was_printed[FLASCJUVAN_ANSWER_NUMBER] != FLASCJUVAN_DONE) {
        /* tables that were read can't be false; tables that you have changed can */
        free(printed);
        return fail(refusals[was_printed[FLASCJUVAN_ANSWER_NUMBER]]);
    }
    if (edition != NULL) {
        printf("// read by edition %s\n", edition);
    }
    measure(node_count);
    show(rule_count, printed);
    free(printed);
    /* a write that failed may show only here */
    if (ferror(stdout) || fclose(stdout) != 0) {
        return fail("standard output could not be written");
    }
    return PRINTED;
}

/* The bytes of a file, or of standard input for `-`; not more than show that there are too many. */
static int read_file(const char *file, size_t *length)
{
    int named = strcmp(file, "-") != 0, good;
    FILE *in = named ? fopen(file, "rb") : stdin;
    if (in == NULL) {
        return 0;
    }
    *length = fread(text, 1, sizeof text, in);
    good = !ferror(in);
    if (named) {
        fclose(in);
    }
    return good;
}

int main(int argc, char **argv)
{
    int brief = argc > 1 && strcmp(argv[1], "--short") == 0, next = 1 + brief;
    const char *edition = NULL, *file = "-";
    size_t length;
    if (argc > next + 1 && strcmp(argv[next], "--edition") == 0) {
        edition = argv[next + 1];
        next += 2;
    }
    if (next < argc) {
        file = argv[next++];
    }
    if (next < argc || (edition != NULL && strcmp(edition, "1") != 0 && strcmp(edition, "2") != 0)) {
        return fail("usage: rules [--short] [--edition 1|2] [FILE]");
    }
    if (!stack_is_enough()) {
        return fail("the stack is less than 3 MB");
    }
    if (!read_file(file, &length)) {
        perror(file);
        return FAILED;
    }
    return read_and_show(file, length, edition, brief ? flascjuvan_print_short : flascjuvan_print);
}
