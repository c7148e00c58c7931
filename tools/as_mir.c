/* The programs mir and mir_tables over the library for C, for comparison with them: the words of the command line and
 * standard input in, and both outputs and the status out. Behind a first word `tables` stand the words of mir_tables. */
#include "mir.h"

#include <stdio.h>
#include <stdlib.h>
#include <string.h>

static uint8_t text[1 << 22], words[1 << 16], line[200];

/* The call that the words ask for, with this room for the output. */
static uint8_t call(size_t words_length, size_t text_length, uint8_t *out, size_t room, size_t *length,
                    size_t *line_length) {
    size_t first = sizeof "tables";
    if (words_length >= first && memcmp(words, "tables", first) == 0)
        return mir_tables_call(words + first, words_length - first, text, text_length, out, room, length, line,
                               sizeof line, line_length);
    return mir_call(words, words_length, text, text_length, out, room, length, line, sizeof line, line_length);
}

int main(int count, char **given) {
    size_t words_length = 0, text_length = fread(text, 1, sizeof text, stdin), room = 1 << 12, length, line_length;
    for (int at = 1; at < count; at++) {
        size_t size = strlen(given[at]) + 1;
        memcpy(words + words_length, given[at], size);
        words_length += size;
    }
    uint8_t *out = malloc(room + 1);
    out[room] = '#';
    uint8_t status = call(words_length, text_length, out, room, &length, &line_length);
    if (out[room] != '#')
        return 99;
    if (length > room) {
        free(out);
        out = malloc(length);
        status = call(words_length, text_length, out, length, &length, &line_length);
    }
    fwrite(out, 1, length, stdout);
    fwrite(line, 1, line_length, stderr);
    free(out);
    return status;
}
