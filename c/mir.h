/* mir for C: the optimiser and interpreter as calls over memory alone.
 *
 *     #include "mir.h"                                            cc program.c libmir.a
 *
 *     const char words[] = "run\0" "1000\0" "5";
 *     size_t length, line_length;
 *     uint8_t out[4096], line[200];
 *     uint8_t status = mir_call((const uint8_t *)words, sizeof words, text, text_length,
 *                               out, sizeof out, &length, line, sizeof line, &line_length);
 *
 * A call answers with a status, an output and a line of complaint, as the program mir does of a command line and a text
 * on standard input. It never ends the process but where the stack runs out, prints nothing, and keeps nothing: all
 * memory that it took is given back when it returns. Calls from several threads are independent of each other.
 *
 * What the caller gives and holds:
 *   - No pointer is null, also where its length is 0. No length is above PTRDIFF_MAX.
 *   - The rooms and the lengths overlap nothing else, and nobody else reads or writes them during the call. Words and
 *     text may overlap each other; nobody writes them during the call.
 *   - malloc, realloc and free are those of one allocator, and each block is aligned to every power of two up to 16
 *     that divides its size.
 *   - No call is made from a signal handler, or in a forked child of a process with threads.
 */
#ifndef MIR_H
#define MIR_H

#include <stddef.h>
#include <stdint.h>

#ifdef __cplusplus
extern "C" {
#endif

/* The statuses of a call. With MIR_DONE, MIR_TRAPPED and MIR_RUNNING there is the whole output and no line; with any
 * other one a line that ends with a line feed, cut off or missing where there is no memory for it. With MIR_NO_ROOM a
 * part of the output may be there: judge by the status. The status 6 of the program, a failed read, never comes. */
enum mir_status {
    MIR_DONE = 0,         /* the output was made */
    MIR_WORDS = 1,        /* the words are of no command, or a run has other inputs than its program wants */
    MIR_TEXT = 2,         /* the text is no program; the line says why, and in which line of the text */
    MIR_TRAPPED = 3,      /* under "run": the output reports a run that trapped */
    MIR_RUNNING = 4,      /* under "run": the output reports a run that has steps left to do */
    MIR_DEEP = 5,         /* under "run": the run has too many frames */
    MIR_NO_ROOM = 7,      /* there was no memory to keep the output */
    MIR_NO_MEMORY = 8     /* there was no memory for anything else */
};

/* Does what the words ask with the text, and returns the status.
 *
 *   words        the words of the command line, each ended by a zero byte, as "run\0" "1000\0" "5" of which the last zero
 *                is that of the string: pass sizeof, not strlen. Bytes that spell no words, since the last byte is no
 *                zero or a word is not UTF-8, are refused as no words are.
 *   text         the program; any bytes.
 *   out          room for the output. Its first bytes are put there, as many as fit, and what is behind them is left as
 *                it was. *out_length is how many bytes the output has in all: where it is above out_room, call again with
 *                more room, or call first with a room of 0 to learn it.
 *   line         the same for the line of complaint. The longest one is that of the usage: 142 bytes now, but no
 *                clause of the proofs says so. */
uint8_t mir_call(const uint8_t *words, size_t words_length,
                 const uint8_t *text, size_t text_length,
                 uint8_t *out, size_t out_room, size_t *out_length,
                 uint8_t *line, size_t line_room, size_t *line_length);

/* Puts what each pass finds out about each node of the program of this text into the room, as the program mir_tables
 * writes it with these words: none, or one of "optimise", which asks for the same, "divisions", "tails", "join",
 * "bounds", "wanted" and "demanded", with its zero byte. No words are a length of 0, behind a pointer that is not null;
 * other words, and bytes that spell none, are refused. All else is as for mir_call; the statuses are MIR_DONE,
 * MIR_WORDS, MIR_TEXT, MIR_NO_ROOM and MIR_NO_MEMORY. */
uint8_t mir_tables_call(const uint8_t *words, size_t words_length,
                        const uint8_t *text, size_t text_length,
                        uint8_t *out, size_t out_room, size_t *out_length,
                        uint8_t *line, size_t line_room, size_t *line_length);

#ifdef __cplusplus
}
#endif
#endif
