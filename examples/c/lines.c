/* lines: a rule of a layout run over each line of standard input. It writes a line for each: `LENGTH STEPS`, `none STEPS`,
 * or `refused NUMBER at PLACE`.
 *
 *     cc $(pkg-config --cflags flascjuvan) lines.c $(pkg-config --libs flascjuvan) -o lines
 *     ./lines LAYOUT RULE [STEPS] <camera.txt
 *
 * STEPS is how many a line may take, a million if it isn't said. Input of any size goes through; a line may have 65,536
 * bytes with its end. Exit status: 0 all lines were run; 1 the layout or the rule is refused, with one line on standard
 * error; 2 anything else that went wrong.
 * It shows the functions of flascjuvan.h that run rules, in C that is C++ too. */
#include <inttypes.h>
#include <stdio.h>
#include <stdlib.h>
#include <string.h>

#include <flascjuvan.h>

#define BLOCK 65536
#define RECORDS 64
#define STEPS 1000000

enum { RUN = 0, REFUSED = 1, FAILED = 2 };

static uint8_t text[FLASCJUVAN_TEXT + 1]; /* the byte more shows that a layout is too long */
static uint32_t nodes[FLASCJUVAN_NODES];
static uint32_t rules[FLASCJUVAN_RULES];
static uint8_t store[FLASCJUVAN_TEXT];
static size_t nodes_len, rules_len, store_len;
static uint8_t block[BLOCK];
static uint64_t records[RECORDS * FLASCJUVAN_LINE_RECORD];

static int fail(const char *what)
{
    fprintf(stderr, "lines: %s\n", what);
    return FAILED;
}

static int refuse(const char *what, const uint64_t *answer)
{
    fprintf(stderr, "%s: refused %d at %" PRIu64 "\n", what, (int)answer[FLASCJUVAN_ANSWER_NUMBER],
            answer[FLASCJUVAN_ANSWER_PLACE]);
    return REFUSED;
}

/* The layout as tables. */
static int read_layout(const char *file)
{
    uint64_t answer[5];
    size_t length;
    FILE *in = fopen(file, "rb");
    if (in == NULL) {
        perror(file);
        return FAILED;
    }
    length = fread(text, 1, sizeof text, in);
    if (ferror(in)) {
        perror(file);
        fclose(in);
        return FAILED;
    }
    fclose(in);
    flascjuvan_read(text, length, 1, nodes, FLASCJUVAN_NODES, rules, FLASCJUVAN_RULES, store, sizeof store, answer);
    if (answer[FLASCJUVAN_ANSWER_NUMBER] != FLASCJUVAN_DONE) {
        return refuse(file, answer);
    }
    /* from here on exactly the tables are lent */
    nodes_len = (size_t)answer[FLASCJUVAN_READ_NODES] * FLASCJUVAN_NODE_RECORD;
    rules_len = (size_t)answer[FLASCJUVAN_READ_RULES] * FLASCJUVAN_RULE_RECORD;
    store_len = (size_t)answer[FLASCJUVAN_READ_STORE];
    return RUN;
}

static void tell(const uint64_t *record)
{
    if (record[FLASCJUVAN_ANSWER_NUMBER] != FLASCJUVAN_DONE) {
        printf("refused %d at %" PRIu64 "\n", (int)record[FLASCJUVAN_ANSWER_NUMBER], record[FLASCJUVAN_ANSWER_PLACE]);
    } else if (record[FLASCJUVAN_MATCH_MATCHED]) {
        printf("%" PRIu64 " %" PRIu64 "\n", record[FLASCJUVAN_MATCH_LENGTH], record[FLASCJUVAN_MATCH_STEPS]);
    } else {
        printf("none %" PRIu64 "\n", record[FLASCJUVAN_MATCH_STEPS]);
    }
}

/* Whole lines. There are records for some of them, so it goes on from where the next one begins until none is left. */
static int run(const char *rule, size_t start, uint64_t steps, size_t length)
{
    size_t at = 0;
    do {
        uint64_t answer[4], i;
        flascjuvan_match_lines(nodes, nodes_len, rules, rules_len, store, store_len, start, block + at, length - at,
                               steps, records, RECORDS * FLASCJUVAN_LINE_RECORD, answer);
        if (answer[FLASCJUVAN_ANSWER_NUMBER] != FLASCJUVAN_DONE) {
            return refuse(rule, answer);
        }
        for (i = 0; i < answer[FLASCJUVAN_LINES_RUN]; i++) {
            tell(records + i * FLASCJUVAN_LINE_RECORD);
        }
        at += (size_t)answer[FLASCJUVAN_LINES_NEXT];
    } while (at < length);
    return RUN;
}

/* How many bytes of a block are whole lines: all behind the input's end, else those up to the last LF. */
static size_t whole(size_t length, int ended)
{
    while (!ended && length > 0 && block[length - 1] != '\n') {
        length--;
    }
    return length;
}

static int run_input(const char *rule, size_t start, uint64_t steps)
{
    size_t length = 0;
    int ended, status = RUN;
    do {
        size_t lines;
        length += fread(block + length, 1, sizeof block - length, stdin);
        ended = length < sizeof block;
        lines = whole(length, ended);
        if (lines == 0 && !ended) {
            return fail("a line has over 65,536 bytes");
        }
        status = run(rule, start, steps, lines);
        memmove(block, block + lines, length - lines);
        length -= lines;
    } while (status == RUN && !ended);
    return status;
}

int main(int argc, char **argv)
{
    uint64_t answer[3], steps = argc == 4 ? strtoull(argv[3], NULL, 10) : STEPS;
    int status;
    if (argc != 3 && argc != 4) {
        return fail("usage: lines LAYOUT RULE [STEPS]");
    }
    status = read_layout(argv[1]);
    if (status != RUN) {
        return status;
    }
    flascjuvan_rule_named(nodes, nodes_len, rules, rules_len, store, store_len, (const uint8_t *)argv[2],
                          strlen(argv[2]), answer);
    if (answer[FLASCJUVAN_ANSWER_NUMBER] != FLASCJUVAN_DONE) {
        return refuse(argv[2], answer);
    }
    status = run_input(argv[2], (size_t)answer[FLASCJUVAN_NAMED_RULE], steps);
    if (status == RUN && ferror(stdin)) {
        status = fail("standard input could not be read");
    }
    /* a write that failed may show only here */
    if (ferror(stdout) || fclose(stdout) != 0) {
        return fail("standard output could not be written");
    }
    return status;
}
