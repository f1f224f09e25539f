/* arrive: the tokens of a grammar on standard input, as it arrives. It writes a line `KIND START END` for each, as soon as
 * its end is known; or, where the text is refused, `refused NUMBER at PLACE`.
 *
 *     cc $(pkg-config --cflags flascjuvan) arrive.c $(pkg-config --libs flascjuvan) -o arrive
 *     ./arrive [BYTES] <layout.pest
 *
 * BYTES is the most that are fed at once, 4,096 if it isn't said. Exit status: 0 the text is good; 1 it is refused; 2
 * anything else that went wrong. It shows flascjuvan_feed and flascjuvan_feed_end, in C that is C++ too. */
#include <inttypes.h>
#include <stdio.h>
#include <stdlib.h>
#include <unistd.h>

#include <flascjuvan.h>

#define MOST 4096

static uint64_t state[FLASCJUVAN_STATE]; /* zeros: nothing has come */
static uint32_t list[FLASCJUVAN_LIST];   /* room for every text, so 14 is never given */
static uint8_t packet[MOST];

/* Writes the records of an answer behind those before, or its refusal, and says whether the text goes on. */
static int told(const uint64_t *answer, uint64_t *before)
{
    if (answer[FLASCJUVAN_ANSWER_NUMBER] != FLASCJUVAN_DONE) {
        printf("refused %" PRIu64 " at %" PRIu64 "\n", answer[FLASCJUVAN_ANSWER_NUMBER],
               answer[FLASCJUVAN_ANSWER_PLACE]);
        return 0;
    }
    for (; *before < answer[FLASCJUVAN_FEED_RECORDS]; ++*before) {
        const uint32_t *token = list + *before * FLASCJUVAN_TOKEN_RECORD;
        printf("%" PRIu32 " %" PRIu32 " %" PRIu32 "\n", token[0], token[1], token[2]);
    }
    return fflush(stdout) == 0;
}

int main(int argc, char **argv)
{
    size_t most = argc > 1 ? strtoul(argv[1], NULL, 10) : MOST;
    uint64_t answer[3], before = 0;
    ssize_t got;
    if (most == 0 || most > MOST) {
        fprintf(stderr, "arrive: at most %d bytes, and one at least\n", MOST);
        return 2;
    }
    while ((got = read(0, packet, most)) > 0) {
        flascjuvan_feed(state, packet, (size_t)got, list, FLASCJUVAN_LIST, answer);
        if (!told(answer, &before))
            return answer[FLASCJUVAN_ANSWER_NUMBER] != FLASCJUVAN_DONE ? 1 : 2;
    }
    if (got < 0) {
        perror("arrive");
        return 2;
    }
    flascjuvan_feed_end(state, list, FLASCJUVAN_LIST, answer);
    if (!told(answer, &before))
        return answer[FLASCJUVAN_ANSWER_NUMBER] != FLASCJUVAN_DONE ? 1 : 2;
    return 0;
}
