#!/usr/bin/env python3
"""Refuses the program each of its requests for memory in turn, and looks at what it does then.

    bench/refused_memory.py [--program PATH] [--most N]

For each call below the requests are counted first. Then the call is made again once for each request, from the first to
the last, with this one refused and every other granted. Right is status 8 with the line `out of memory` and nothing on
the output, or the same status and the whole output as with ample memory; and status 8 with nothing written for the
first requests, by which the program gets its words. Where a call makes more than `--most`
requests, so many of them, evenly spread, are refused, with the first and the last among them. The requests are
refused by a library that is loaded before the system's own; so it wants `cc` beside Python 3.9, and a program that is
built. It is no part of the gate: no contract says which requests are made.
"""

import argparse
import os
import subprocess
import sys
import tempfile
from pathlib import Path
from typing import NamedTuple

TOP = Path(__file__).resolve().parent.parent

# Counts the requests of a process, refuses the one that REFUSED names, and writes the count where COUNTED says.
LIBRARY = r'''
#define _GNU_SOURCE
#include <dlfcn.h>
#include <errno.h>
#include <fcntl.h>
#include <stdio.h>
#include <stdlib.h>
#include <unistd.h>
static long refused, count, began;
static void *(*real_malloc)(size_t), *(*real_calloc)(size_t, size_t), *(*real_realloc)(void *, size_t);
static int (*real_posix)(void **, size_t, size_t);
static void *(*real_aligned)(size_t, size_t);
__attribute__((constructor)) static void begin(void) {
    real_malloc = dlsym(RTLD_NEXT, "malloc");
    real_calloc = dlsym(RTLD_NEXT, "calloc");
    real_realloc = dlsym(RTLD_NEXT, "realloc");
    real_posix = dlsym(RTLD_NEXT, "posix_memalign");
    real_aligned = dlsym(RTLD_NEXT, "aligned_alloc");
    const char *which = getenv("REFUSED");
    refused = which ? atol(which) : 0;
    began = 1;
}
static int refuses(void) { return began && ++count == refused; }
extern void *__libc_malloc(size_t);
extern void *__libc_calloc(size_t, size_t);
extern void *__libc_realloc(void *, size_t);
void *malloc(size_t n) {
    if (refuses()) { errno = ENOMEM; return NULL; }
    return real_malloc ? real_malloc(n) : __libc_malloc(n);
}
void *calloc(size_t n, size_t m) {
    if (refuses()) { errno = ENOMEM; return NULL; }
    return real_calloc ? real_calloc(n, m) : __libc_calloc(n, m);
}
void *realloc(void *p, size_t n) {
    if (refuses()) { errno = ENOMEM; return NULL; }
    return real_realloc ? real_realloc(p, n) : __libc_realloc(p, n);
}
int posix_memalign(void **p, size_t a, size_t n) { return refuses() ? ENOMEM : real_posix(p, a, n); }
void *aligned_alloc(size_t a, size_t n) {
    if (refuses()) { errno = ENOMEM; return NULL; }
    return real_aligned(a, n);
}
__attribute__((destructor)) static void end(void) {
    const char *file = getenv("COUNTED");
    char text[32];
    int at = file ? open(file, O_WRONLY | O_CREAT | O_TRUNC, 0600) : -1;
    if (at < 0) return;
    int length = snprintf(text, sizeof text, "%ld\n", count);
    if (write(at, text, length) != length) _exit(99);
    close(at);
}
'''


class Call(NamedTuple):
    """The words of a call, and the text on its standard input."""

    words: list[str]
    text: str


def squares(side: int) -> str:
    """Tests and sums in a square of joins: each join is entered by two branches."""
    lines = ['main: begin', 'receive a(val)', 'receive b(val)']
    for at in range(side):
        lines += [f'if a goto then{at}', 'x <- a + b', f'goto join{at}', f'then{at}: a <- a - 1',
                  f'join{at}: y <- a + b', 'print y']
    return '\n'.join(lines + ['end', ''])


# A loop that calls a unit, with a product that is the same in each turn.
CALLING = """|| squares and a loop invariant
main: begin
receive n(val)
s <- 0
i <- 1
L1: if i > n goto L2
t <- call square,(i,int)
k <- n * 8
s <- s + t
s <- s + k
i <- i + 1
goto L1
L2: print s
m <- n * 8
print m
return s
end
square: begin
receive x(val)
y <- x * x
return y
end
"""

PASSES = ('tails join arguments clean fold number copies motion divisions sink comparisons terms bounds extensions '
          'unread wanted demanded known optimise called').split()
CALLS = [
    Call(['optimise'], CALLING),
    Call(['move'], CALLING),
    Call(['stages'], CALLING),
    Call(['run', '1000', '3'], CALLING),
    Call(['thorough'], CALLING),
    Call(['passes', *(PASSES * 5)[:64]], CALLING),
    Call(['optimise'], squares(6)),
    Call(['move'], squares(6)),
    Call(['stages'], squares(3)),
    Call(['run', '1000', '3', '4'], squares(6)),
    Call(['trial', '7', '2'], ''),
    Call(['optimise'], 'main: begin\n?\nend\n'),
]


class Seen(NamedTuple):
    """What a call came to."""

    status: int
    output: bytes
    errors: bytes


class Trier:
    """Makes calls with a request refused."""

    def __init__(self, program: Path, folder: Path):
        self.program, self.library, self.counted = program, folder / 'refuse.so', folder / 'counted'
        (folder / 'refuse.c').write_text(LIBRARY)
        words = ['cc', '-O1', '-shared', '-fPIC', '-o', str(self.library), str(folder / 'refuse.c'), '-ldl']
        subprocess.run(words, check=True)

    def seen(self, call: Call, refused: int) -> Seen:
        """A call with this request refused, or none with 0."""
        variables = dict(os.environ, LD_PRELOAD=str(self.library), REFUSED=str(refused), COUNTED=str(self.counted))
        ran = subprocess.run([str(self.program), *call.words], input=call.text.encode(), capture_output=True,
                             env=variables, timeout=120)
        return Seen(ran.returncode, ran.stdout, ran.stderr)

    def tried(self, call: Call, most: int) -> int:
        """Refuses the requests of a call in turn, prints a line, and answers how many went wrong."""
        whole = self.seen(call, 0)
        requests = int(self.counted.read_text())
        if requests == 0:
            print(f'{" ".join(call.words):16} WRONG: no request was seen; the program has an allocator of its own')
            return 1
        step = max(1, -(-requests // most))
        places = sorted({*range(1, requests + 1, step), requests})
        no_words, out_of_memory = Seen(8, b'', b''), Seen(8, b'', b'out of memory\n')
        silent = refused = 0
        wrong = []
        for place in places:
            found = self.seen(call, place)
            refused += found == out_of_memory
            if found == no_words and refused == 0:
                silent += 1
            elif found not in (out_of_memory, whole):
                wrong.append((place, found))
        print(f'{" ".join(call.words[:4]):16} status {whole.status}, {requests} requests, {len(places)} refused in turn: '
              f'{silent} times no words, {refused} times out of memory, '
              f'{len(places) - silent - refused - len(wrong)} times the whole output, {len(wrong)} wrong')
        for place, found in wrong[:5]:
            print(f'  request {place}: {found}')
        return len(wrong)


def main() -> int:
    """Tries each call."""
    words = argparse.ArgumentParser(description=__doc__.split('\n')[0])
    words.add_argument('--program', type=Path, default=TOP / 'crates/mir_main/out/mir_main', help='the built program')
    words.add_argument('--most', type=int, default=1_000_000, help='how many requests of a call are refused at most')
    given = words.parse_args()
    with tempfile.TemporaryDirectory() as folder:
        trier = Trier(given.program.resolve(), Path(folder))
        return 1 if sum([trier.tried(call, given.most) for call in CALLS]) else 0


if __name__ == '__main__':
    sys.exit(main())
