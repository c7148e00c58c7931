/* Each call of malloc and realloc fails in its turn, alone and then with all that come after it, under both calls of the
 * library for C, and of tables with each of their words; with a word STEP only each STEP-th of them, from the first on.
 * Of each it prints how often which status came, and how many blocks were not given back. It is linked with
 * -Wl,--wrap=malloc,--wrap=realloc,--wrap=free. */
#include "mir.h"

#include <stdio.h>
#include <stdlib.h>
#include <string.h>

void *__real_malloc(size_t size);
void *__real_realloc(void *at, size_t size);
void __real_free(void *at);

/* The calls so far, the one that fails, whether all after it fail too, and the blocks that are taken. */
static long calls, failing, all, blocks;

static int fails(void) {
    calls++;
    return calls == failing || (all && calls > failing);
}

void *__wrap_malloc(size_t size) {
    if (fails())
        return NULL;
    blocks++;
    return __real_malloc(size);
}

void *__wrap_realloc(void *at, size_t size) {
    if (fails())
        return NULL;
    blocks += at == NULL;
    return __real_realloc(at, size);
}

void __wrap_free(void *at) {
    blocks -= at != NULL;
    __real_free(at);
}

static const char text[] =
    "main: begin\nreceive a(val)\nreceive b(val)\nif a > 9 goto L1\nx <- a + b\nprint x\n"
    "L1: y <- a + b\nprint y\nz <- call half, (y,int)\nreturn z\nend\n"
    "half: begin\nreceive n(val)\nif n > 9 goto L1\nreturn n\nL1: n <- n / 2\nm <- call half, (n,int)\nreturn m\nend\n";

static uint8_t out[1 << 16], line[200];

/* What is called: a name, whether it is for tables, and the word, or an empty one for none. */
static const struct { const char *name; int tables; const char *word; } asked[] = {
    {"optimise", 0, "optimise"}, {"tables", 1, ""}, {"tables divisions", 1, "divisions"}, {"tables tails", 1, "tails"},
    {"tables join", 1, "join"}, {"tables bounds", 1, "bounds"}, {"tables wanted", 1, "wanted"},
    {"tables demanded", 1, "demanded"},
};

/* One call, whose blocks are counted. */
static uint8_t call(size_t at, size_t *length, size_t *line_length) {
    const uint8_t *words = (const uint8_t *)asked[at].word, *from = (const uint8_t *)text;
    size_t words_length = *words ? strlen(asked[at].word) + 1 : 0;
    calls = blocks = 0;
    return (asked[at].tables ? mir_tables_call : mir_call)(words, words_length, from, sizeof text - 1, out, sizeof out,
                                                           length, line, sizeof line, line_length);
}

int main(int count, char **words) {
    long step = count > 1 ? atol(words[1]) : 1;
    if (step < 1)
        return 1;
    for (size_t at = 0; at < sizeof asked / sizeof *asked; at++)
        for (all = 0; all < 2; all++) {
            long statuses[256] = {0}, lost = 0, wrong = 0;
            /* The last one fails nothing: the call made fewer requests than that. */
            for (failing = 1; failing == 1 || calls >= failing - step; failing += step) {
                size_t length, line_length;
                uint8_t status = call(at, &length, &line_length);
                statuses[status]++;
                lost += blocks;
                wrong += status == 0 ? length == 0 : length != 0;
            }
            printf("%s, %s:", asked[at].name, all ? "all from one on" : "one alone");
            for (int status = 0; status < 256; status++)
                if (statuses[status])
                    printf(" status %d %ld,", status, statuses[status]);
            printf(" wrong lengths %ld, blocks lost %ld\n", wrong, lost);
        }
    return 0;
}
