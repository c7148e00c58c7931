#!/usr/bin/env python3
"""Calls the program with devices that fail or are slow, and prints what it did.

    bench/devices.py [--mir PATH] [--program PATH]

A full device and a closed one as output, a closed one and a folder as input, a pipe whose reader has gone, a megabyte
through a pipe a byte at a time, an error output that fails; and the script `./mir` from another folder, through a
symbolic link, twice at once, and twice at once where the program is not built yet: there a stand-in for `rt` takes a
second and copies the built program. It wants Linux and Python 3.9. It is no part of the gate: no contract can say what
a device takes. The last line is `N passed, M failed`.
"""

import argparse
import os
import shutil
import subprocess
import sys
import tempfile
import threading
from pathlib import Path
from typing import Callable, NamedTuple, Optional

TOP = Path(__file__).resolve().parent.parent
SMALL = b'main: begin\nprint 1\nend\n'
UNITS = b''.join(b'u%d: begin\nprint 1\nend\n' % at for at in range(200))
LARGE = UNITS + b'\n' * (1_048_576 - len(UNITS))


class Found(NamedTuple):
    """The status of a call, what it wrote, and its complaint."""

    status: int
    output: bytes
    errors: bytes


def call(words: list[str], stdin, stdout=subprocess.PIPE, stderr=subprocess.PIPE,
         before: Optional[Callable[[], None]] = None, folder: Path = TOP) -> Found:
    """A finished call over these streams; bytes are written to its standard input."""
    given = stdin if isinstance(stdin, bytes) else None
    ran = subprocess.run(words, input=given, stdin=None if given is not None else stdin, stdout=stdout, stderr=stderr,
                         preexec_fn=before, cwd=folder, timeout=300)
    return Found(ran.returncode, ran.stdout or b'', ran.stderr or b'')


def a_byte_at_a_time(mir: str) -> Found:
    """A text as long as a text may be, written a byte at a time."""
    process = subprocess.Popen([mir, 'optimise'], stdin=subprocess.PIPE, stdout=subprocess.PIPE,
                               stderr=subprocess.PIPE, bufsize=0)

    def feed() -> None:
        """Writes the text."""
        for at in range(len(LARGE)):
            os.write(process.stdin.fileno(), LARGE[at:at + 1])
        process.stdin.close()

    writer = threading.Thread(target=feed)
    writer.start()
    output, errors = process.stdout.read(), process.stderr.read()
    writer.join()
    return Found(process.wait(), output, errors)


def gone_reader(mir: str) -> Found:
    """The output is a pipe that nobody reads any more."""
    reading, writing = os.pipe()
    os.close(reading)
    try:
        return call([mir, 'optimise'], SMALL, stdout=writing)
    finally:
        os.close(writing)


def two_at_once(mir: str) -> Found:
    """Two calls at the same time, whose answers have to be the same."""
    found: list[Found] = []
    both = [threading.Thread(target=lambda: found.append(call([mir, 'optimise'], SMALL))) for _ in range(2)]
    for one in both:
        one.start()
    for one in both:
        one.join()
    return found[0] if found[0] == found[1] else Found(-1, b'', b'two answers')


def two_unbuilt(program: Path, folder: Path) -> Found:
    """Two calls at the same time of the script in a checkout in which nothing is built."""
    checkout, tools = folder / 'checkout', folder / 'tools'
    main = checkout / 'crates/mir_main'
    main.mkdir(parents=True)
    tools.mkdir()
    for name in ('mir', 'crates.txt', 'crates/mir_main/stdin'):
        shutil.copy(TOP / name, checkout / name)
    builder = tools / 'rt'
    builder.write_text('#!/bin/sh\nshift 2\nsleep 1\n'
                       f'cp "{program}" out/new.$$ && mv out/new.$$ out/mir_main && exec out/mir_main "$@"\n')
    builder.chmod(0o755)
    variables = dict(os.environ, PATH=f'{tools}:{os.environ["PATH"]}')
    both = [subprocess.Popen([str(checkout / 'mir'), 'optimise'], stdin=subprocess.PIPE, stdout=subprocess.PIPE,
                             stderr=subprocess.PIPE, env=variables) for _ in range(2)]
    for one in both:
        one.stdin.write(SMALL)
        one.stdin.close()
    found = [Found(one.wait(), one.stdout.read(), without_progress(one.stderr.read())) for one in both]
    marks = sorted(path.name for path in (main / 'out').iterdir())
    if marks != ['mir_main', 'mir_main.built']:
        return Found(-1, b'', f'left in the folder: {marks}'.encode())
    return found[0] if found[0] == found[1] else Found(-1, b'', f'two answers: {found}'.encode())


def without_progress(errors: bytes) -> bytes:
    """What stands on the error output beside the lines in which the script says that it builds."""
    told = (b'mir: proves and builds', b'mir: one answer')
    return b''.join(line for line in errors.splitlines(keepends=True) if not line.startswith(told))


def through_link(mir: str, folder: Path) -> Found:
    """By a symbolic link, from another folder."""
    link = folder / 'mir'
    link.symlink_to(Path(mir).resolve())
    return call([str(link), 'optimise'], SMALL, folder=folder)


def cases(mir: str, program: Path, folder: Path) -> list[tuple[str, Callable[[], Found], set]]:
    """Each case: its name, the call, and the statuses that are right with what has to be told."""
    optimise, whole = [mir, 'optimise'], b'main: begin\nprint 1\nreturn 0\nend\n'
    right, write_fault = (0, whole, b''), (7, b'', b'write fault\n')
    read_fault = (6, b'', b'read fault\n')
    full = open('/dev/full', 'wb')
    large = b''.join(b'u%d: begin\nprint 1\nreturn 0\nend\n' % at for at in range(200))
    return [
        ('small text', lambda: call(optimise, SMALL), {right}),
        ('output to a full device', lambda: call(optimise, SMALL, stdout=full), {write_fault}),
        ('output closed', lambda: call(optimise, SMALL, stdout=None, before=lambda: os.close(1)), {write_fault}),
        ('errors to a full device', lambda: call(optimise, b'?', stderr=full), {(2, b'', b'')}),
        ('errors closed', lambda: call(optimise, b'?', stderr=None, before=lambda: os.close(2)), {(2, b'', b'')}),
        ('input closed', lambda: call(optimise, None, before=lambda: os.close(0)), {read_fault}),
        ('input is a folder', lambda: call(optimise, os.open('/', os.O_RDONLY)), {read_fault}),
        ('input is empty', lambda: call(optimise, b''), {(2, b'', b'no unit\n')}),
        ('the reader of the output has gone', lambda: gone_reader(mir), {write_fault}),
        ('a megabyte, a byte at a time', lambda: a_byte_at_a_time(mir), {(0, large, b'')}),
        ('from another folder', lambda: call(optimise, SMALL, folder=folder), {right}),
        ('through a symbolic link', lambda: through_link(mir, folder), {right}),
        ('two calls at once', lambda: two_at_once(mir), {right}),
        ('two calls at once, nothing built', lambda: two_unbuilt(program, folder), {right}),
    ]


def main() -> int:
    """Makes each call and prints the table."""
    words = argparse.ArgumentParser(description=__doc__.split('\n')[0])
    words.add_argument('--mir', default=str(TOP / 'mir'), help='the program or script that is called')
    words.add_argument('--program', type=Path, default=TOP / 'crates/mir_main/out/mir_main',
                       help='the built program, for the checkout in which nothing is built')
    given = words.parse_args()
    passed = failed = 0
    with tempfile.TemporaryDirectory() as folder:
        for name, work, allowed in cases(str(Path(given.mir).absolute()), given.program.resolve(), Path(folder)):
            found = work()
            is_right = tuple(found) in allowed
            passed, failed = passed + is_right, failed + (not is_right)
            told = found.errors.decode('latin-1').strip() or f'{len(found.output)} bytes'
            print(f'{"right" if is_right else "WRONG":6} {name:36} status {found.status}: {told[:80]}')
    print(f'{passed} passed, {failed} failed')
    return 1 if failed else 0


if __name__ == '__main__':
    sys.exit(main())
