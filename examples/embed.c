/* Optimises a program in memory and runs what comes of it, by the library for C. In the repository, and in a release:
 *
 *     tools/build --library && cc -Ibuild examples/embed.c build/libmir.a -o embed && ./embed
 *     cc -Iinclude examples/embed.c lib/libmir.a -o embed && ./embed
 */
#include "mir.h"

#include <stdio.h>
#include <stdlib.h>
#include <string.h>

#define WORDS(text) (const uint8_t *)text, sizeof text

static const char EXAMPLE[] =
    "main: begin\n"
    "receive a(val)\n"
    "receive b(val)\n"
    "if a > 9 goto L1\n"
    "x <- a + b\n"
    "print x\n"
    "L1: y <- a + b\n"
    "print y\n"
    "return y\n"
    "end\n";

/* A text in memory of its own, and its length. */
typedef struct {
    uint8_t *bytes;
    size_t length;
} Text;

/* Ends the program where a call left no whole output: with its status and its line of complaint, which may be cut off
 * or missing where memory ran out. */
static void demand_output(uint8_t status, const uint8_t *line, size_t line_room, size_t line_length) {
    if (status == MIR_DONE || status == MIR_TRAPPED || status == MIR_RUNNING)
        return;
    fwrite(line, 1, line_length < line_room ? line_length : line_room, stderr);
    exit(status);
}

/* What a call with these words makes of a text: asked first with no room, to learn how long it is, and then with room
 * for all of it. Where there is none, the program ends. */
static Text answer(const uint8_t *words, size_t words_length, Text given) {
    uint8_t none[1], line[200];
    size_t length, line_length;
    Text made;
    uint8_t status = mir_call(words, words_length, given.bytes, given.length, none, 0, &length, line, sizeof line,
                              &line_length);
    demand_output(status, line, sizeof line, line_length);
    made.bytes = malloc(length + 1);
    if (made.bytes == NULL) {
        fputs("out of memory\n", stderr);
        exit(MIR_NO_MEMORY);
    }
    status = mir_call(words, words_length, given.bytes, given.length, made.bytes, length, &made.length, line,
                      sizeof line, &line_length);
    demand_output(status, line, sizeof line, line_length);
    if (made.length > length) {
        fputs("the output has become longer\n", stderr);
        exit(MIR_NO_ROOM);
    }
    return made;
}

int main(void) {
    Text given = {(uint8_t *)EXAMPLE, sizeof EXAMPLE - 1};
    Text target = answer(WORDS("optimise"), given);
    Text report = answer(WORDS("run\0" "100\0" "3\0" "5"), target);
    printf("%.*s%.*s", (int)target.length, (const char *)target.bytes, (int)report.length, (const char *)report.bytes);
    free(target.bytes);
    free(report.bytes);
    return 0;
}
