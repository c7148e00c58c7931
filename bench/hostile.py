#!/usr/bin/env python3
"""Draws texts at the limits of the language, shape by shape, calls `mir` on each under every command, and tells what took
longest and what took most memory.

    bench/hostile.py [--mir PATH] [--of N] [--draws N] [--seed N] [--seconds N] [--memory MB] [--jobs N]
                     [--words WORDS .. | --chains] [SHAPE ..]

With no shape named, all are drawn, and with no words all commands are called. Words `passes 64` are a chain of as many
passes as there may be: of all in turn, of one that is named behind them, or drawn by a number that stands there; with
`--chains` each of these is called, and three draws. With `--of 4` each text has a quarter of the size that its shape may
have. A call is stopped after N processor seconds (60) or where it takes more than so much memory (8,000 MB), and its line
says so. N calls are made at a time (1), each of which may have this memory. Behind the lines are a row for each command,
as README.md beside this file has it, the slowest call and the largest, and those that took more than 10 seconds or 1,000
MB and wrote no more than 64 MB: what a definition itself makes long is told by its bytes.

It runs on Linux alone, with Python's standard library.
"""

import argparse
import os
import random
import re
import signal
import sys
import tempfile
from concurrent.futures import ProcessPoolExecutor
from pathlib import Path
from typing import Callable, NamedTuple

import texts
from run import Failure, adopt_orphans

TOP = Path(__file__).resolve().parent.parent

# The bytes of a text, the instructions of a unit, and the units.
BYTES, INSTRUCTIONS, UNITS = 1_048_576, 16_384, 256

# The commands, but for `trial`, which reads no text.
COMMANDS = ('optimise', 'stages', 'move', 'ranges', 'divisions', 'tails', 'join', 'thorough', 'passes wanted',
            'passes fold', 'passes number', 'passes copies', 'passes sink', 'passes comparisons',
            'passes terms', 'passes bounds', 'passes extensions', 'passes unread', 'passes arguments',
            'passes demanded', 'passes known', 'passes 64', 'run 1000000')

PASSES = ('tails join arguments optimise clean fold number copies motion divisions sink comparisons terms bounds '
          'extensions unread wanted demanded known called').split()

# The most passes of a chain, and the chains of so many: all in turn, each alone, and three that are drawn.
MOST_PASSES = 64
CHAINS = [f'passes {MOST_PASSES} {of}'.rstrip() for of in ['', *PASSES, 1, 2, 3]]

# A call that takes more, and writes no more, is named at the end.
MOST_SECONDS, MOST_BYTES, MOST_WRITTEN = 10, 1_000_000_000, 64_000_000

# Starts the command in the background, within limits of processor seconds and of kilobytes, and ends.
START = 'exec 3<&0; ulimit -t "$1"; ulimit -v "$2"; shift 2; "$@" <&3 3<&- & exec true'


class Taken(NamedTuple):
    """What a call took, and what it left."""

    shape: str
    words: str
    read: int
    seconds: float
    bytes: int
    written: int
    end: str

    def line(self) -> str:
        """A line of the table."""
        return (f'{self.shape:<20}{self.words:<18}{self.read / 1000:>9,.0f}{self.seconds:>10.2f}{self.bytes / 1e6:>10,.1f}'
                f'{self.written / 1000:>12,.0f}  {self.end}')


# ---- shapes


def at_most(count: int, least: int = 1) -> int:
    """A number of parts that is no less than this."""
    return max(least, count)


def with_calls(draw: random.Random, units: int) -> str:
    """Units that each call others, as often as their instructions allow, without coming back to themselves."""
    calls = INSTRUCTIONS // 4
    parts = []
    for number in range(units):
        callees = [f'u{draw.randrange(number + 1, units)}' for _ in range(min(8, units - 1 - number))]
        lines = ''.join(f'x <- {callee},(x,int;{at},int)\n' for at, callee in enumerate(callees))
        parts.append(f'u{number}: begin\nreceive x(val)\nreceive y(val)\nx <- x + y\n{lines}return x\nend\n')
    head = 'main: begin\nreceive a(val)\n' + ''.join(
        f'a <- u{draw.randrange(units)},(a,int;{at},int)\n' for at in range(calls)) + 'return a\nend\n'
    return head + ''.join(parts)


def long_names(draw: random.Random, length: int) -> str:
    """A unit of names that are as long as they may be, each assigned once and read by the next."""
    names, lines, size = [f'a{"x" * 58}{draw.randrange(10_000):04}'], [], 0
    while size < length - 1000:
        names.append(f'v{"y" * 55}{len(names):07}')
        lines.append(f'{names[-1]} <- {draw.choice(names[:-1])} + {names[-2]}\n')
        size += len(lines[-1])
    return f'main: begin\nreceive {names[0]}(val)\n{"".join(lines)}return {names[-1]}\nend\n'


def long_lines(length: int) -> str:
    """A unit behind one comment that fills the text."""
    rest = 'main: begin\nreceive a(val)\nprint a\nend\n'
    return texts.padding(length - len(rest)) + rest


def wide_join(draw: random.Random, count: int) -> str:
    """Tests that all jump to one place, each behind an assignment of one of many variables, which are printed there."""
    names = at_most(count // 8)
    tests = ''.join(f'v{draw.randrange(names)} <- a + {number % 9}\nif a > {number} goto out\n' for number in range(count))
    prints = ''.join(f'print v{number}\n' for number in range(names))
    return f'main: begin\nreceive a(val)\n{tests}out: print a\n{prints}end\n'


def ladder(draw: random.Random, count: int) -> str:
    """A row of loops, each of which may go back to the one before it, over one variable each that is read in the next."""
    rungs = ''.join(f'R{number}: v{number} <- v{number - 1} {draw.choice("+-*")} a\nif v{number} > a goto R{number - 1}\n'
                    for number in range(1, count))
    return f'main: begin\nreceive a(val)\nR0: v0 <- a\n{rungs}return v{count - 1}\nend\n'


def globals_and_calls(draw: random.Random, count: int) -> str:
    """Loops that read and assign 64 globals and call a unit that does."""
    names = [f'g{number}' for number in range(64)]
    head = ''.join(f'global {name}\n' for name in names)
    body = ''.join(f'L{number}: {draw.choice(names)} <- {draw.choice(names)} + {draw.choice(names)}\ncall u0,(a,int)\n'
                   f'if {draw.choice(names)} > a goto L{number}\n' for number in range(count))
    other = f'u0: begin\nreceive x(val)\n{draw.choice(names)} <- x\nreturn x\nend\n'
    return f'{head}main: begin\nreceive a(val)\n{body}return a\nend\n{other}'


def globals_handed_on(draw: random.Random, count: int) -> str:
    """A unit that calls itself, hands each of 64 globals on to the one before, the first to the last and shifted by one place,
    and of which one bit of one global is read, behind sums of other variables."""
    names, sums = [f'g{number}' for number in range(64)], [f'v{number}' for number in range(min(100, count))]
    head = ''.join(f'global {name}\n' for name in names)
    moves = ''.join(f'{name} <- {other}\n' for name, other in zip(names, [*names[1:], 'last']))
    fill = ''.join(f'{name} <- {name} + {draw.choice(sums)}\n' for name in draw.choices(sums, k=count))
    prints = ''.join(f'print {name}\n' for name in sums)
    main = 'main: begin\nreceive a(val)\ncall u0,(a,int)\na <- g0 and 1\nreturn a\nend\n'
    return (f'{head}{main}u0: begin\nreceive x(val)\nif x < 1 goto out\nx <- x - 1\ncall u0,(x,int)\nlast <- g0 shr 1\n'
            f'{moves}{fill}{prints}out: return x\nend\n')


def globals_in_loops(draw: random.Random, count: int) -> str:
    """The same with loops of one sum each in the place of the sums, so that to solve the unit once costs more."""
    text = globals_handed_on(draw, 0)
    sums = [f'v{number}' for number in range(64)]
    loops = ''.join(f'M{number}: {draw.choice(sums)} <- {draw.choice(sums)} + 1\nif {draw.choice(sums)} = {number} goto M{number}\n'
                    for number in range(count))
    return text.replace('out: return x\n', loops + ''.join(f'print {name}\n' for name in sums) + 'out: return x\n')


def shapes(of: int) -> dict[str, Callable[[random.Random], str]]:
    """What is drawn, at this part of the greatest size."""
    insts, units = INSTRUCTIONS // of, at_most(UNITS // of, 2)
    return {
        'reversed-copies': lambda draw: texts.reversed_copies('main', at_most((insts - 8) // 4)),
        'nests-first': lambda draw: texts.nests_tested_first('main', at_most((insts - 8) // 4)),
        'nests-last': lambda draw: texts.nests_tested_last('main', at_most((insts - 8) // 3)),
        'nests-full': lambda draw: texts.nested_loops('main', insts, draw.choice((16, 64, 256)))[0],
        'joins-prints': lambda draw: texts.joins_with_prints('main', at_most((insts - 8) // 3)),
        'joins-end': lambda draw: texts.joins_used_at_end('main', at_most((insts - 8) // 3)),
        'joins-copies': lambda draw: texts.joins_with_copies('main', at_most((insts - 8) // 4)),
        'sums-at-exits': lambda draw: texts.sums_used_at_exits('main', at_most((insts - 8) // 4)),
        'edges-one-join': lambda draw: texts.edges_into_one_join('main', at_most(insts - 8))[0],
        'wide-join': lambda draw: wide_join(draw, at_most((insts - 8) * 8 // 17)),
        'ladder': lambda draw: ladder(draw, at_most((insts - 8) // 2, 2)),
        'tests-one-sum': lambda draw: texts.tests_over_one('main', at_most((insts - 8) // 2)),
        'line-of-sums': lambda draw: texts.sums_in_a_line('main', insts)[0],
        'doubling': lambda draw: texts.doubling('main', at_most(insts - 8, 2)),
        'dense': lambda draw: texts.dense('main', insts),
        'straight': lambda draw: texts.straight('main', insts),
        'tail-calls': lambda draw: texts.self_tail_calls(insts, at_most(insts * 200 // 4096))[0],
        'tail-calls-names': lambda draw: texts.tail_calls_over_names('main', 6000 // of, 1000 // of),
        'small-leaves': lambda draw: texts.small_leaves(units - 1, at_most(4000 // of))[0],
        'calls': lambda draw: with_calls(draw, units - 1),
        'globals': lambda draw: globals_and_calls(draw, at_most((insts - 8) // 3)),
        'globals-handed-on': lambda draw: globals_handed_on(draw, at_most(insts - 200)),
        'globals-in-loops': lambda draw: globals_in_loops(draw, at_most((insts - 300) // 2)),
        'many-units': lambda draw: texts.many_units(BYTES // of // 4096 * 4096),
        'many-names': lambda draw: texts.many_names(BYTES // of // 16 * 16),
        'long-names': lambda draw: long_names(draw, BYTES // of),
        'long-lines': lambda draw: long_lines(BYTES // of),
    }


# ---- calls


def end_of(status: int) -> str:
    """How a call ended, by its status."""
    if os.WIFSIGNALED(status):
        number = os.WTERMSIG(status)
        return 'stopped' if number in (signal.SIGXCPU, signal.SIGKILL) else signal.Signals(number).name
    return {0: '', 4: 'still runs', 8: 'out of memory'}.get(os.WEXITSTATUS(status), f'status {os.WEXITSTATUS(status)}')


def words_of(command: str, text: str) -> list[str]:
    """The words of a command for a text: a run gets as many inputs as it wants, and some words stand for a chain of as many
    passes as there may be."""
    words = command.split()
    if words[0] == 'run':
        return [*words, *['7'] * re.search(r'begin\s+((?:receive .*\s+)*)', text)[1].count('receive')]
    if words[:2] != ['passes', str(MOST_PASSES)]:
        return words
    if words[2:] and words[2].isdigit():
        return ['passes', *random.Random(int(words[2])).choices(PASSES, k=MOST_PASSES)]
    return ['passes', *((words[2:] or PASSES) * MOST_PASSES)[:MOST_PASSES]]


def call(mir: str, shape: str, words: str, text: Path, folder: Path, seconds: int, memory: int) -> Taken:
    """Calls the command on a text. As in `run.py`, a shell that is small starts it, so that its peak of memory is its own."""
    output, errors = folder / f'output {os.getpid()}', folder / f'errors {os.getpid()}'
    write = os.O_WRONLY | os.O_CREAT | os.O_TRUNC
    streams = [
        (os.POSIX_SPAWN_OPEN, 0, text, os.O_RDONLY, 0),
        (os.POSIX_SPAWN_OPEN, 1, output, write, 0o600),
        (os.POSIX_SPAWN_OPEN, 2, errors, write, 0o600),
    ]
    arguments = ['sh', '-c', START, 'sh', str(seconds), str(memory * 1000), mir,
                 *words_of(words, text.read_text())]
    shell = os.posix_spawn('/bin/sh', arguments, os.environ, file_actions=streams)
    os.waitpid(shell, 0)
    _, status, usage = os.wait4(-1, 0)
    return Taken(shape, words, text.stat().st_size, usage.ru_utime + usage.ru_stime, usage.ru_maxrss * 1024,
                 output.stat().st_size, end_of(status))


# ---- the command line


def options() -> argparse.Namespace:
    """What the command line asks."""
    parser = argparse.ArgumentParser(description='Calls mir on texts at the limits, and tells what took most.')
    parser.add_argument('shapes', nargs='*', metavar='SHAPE', help=', '.join(shapes(1)))
    parser.add_argument('--mir', default=str(TOP / 'mir'), metavar='PATH', help='the command to call (./mir)')
    parser.add_argument('--of', type=int, default=1, metavar='N', help='an N-th of the greatest size (1)')
    parser.add_argument('--draws', type=int, default=1, metavar='N', help='draw each shape N times (1)')
    parser.add_argument('--seed', type=int, default=0, metavar='N', help='the first number that draws (0)')
    parser.add_argument('--seconds', type=int, default=60, metavar='N', help='stop a call after so many (60)')
    parser.add_argument('--memory', type=int, default=8000, metavar='MB', help='the memory that a call may have (8000)')
    parser.add_argument('--jobs', type=int, default=1, metavar='N', help='make N calls at a time (1)')
    parser.add_argument('--words', nargs='+', default=list(COMMANDS), metavar='WORDS', help=', '.join(COMMANDS))
    parser.add_argument('--chains', dest='words', action='store_const', const=CHAINS, help='call with chains of 64 passes')
    asked = parser.parse_args()
    unknown = set(asked.shapes) - set(shapes(1))
    if unknown or min(asked.of, asked.draws, asked.seconds, asked.memory, asked.jobs) < 1:
        parser.error(f'no shape {", ".join(sorted(unknown))}' if unknown else 'N is at least 1')
    return asked


def row_of(words: str, taken: list[Taken]) -> str:
    """The row of a command: of the calls that ended the slowest and the largest, and those that did not."""
    ended = [one for one in taken if one.end in ('', 'still runs')] or taken
    slowest, largest = max(ended, key=lambda one: one.seconds), max(ended, key=lambda one: one.bytes)
    others = ', '.join(f'`{one.shape}`{f" {one.end}" * (one.end != "stopped")}'
                       for one in taken if one.end not in ('', 'still runs'))
    return (f'| `{words}` | `{slowest.shape}` {slowest.seconds:,.1f} | `{largest.shape}` {largest.bytes / 1e6:,.0f} |'
            f'{f" {others} " if others else " "}|')


def tell(taken: list[Taken]) -> None:
    """Prints a row for each command, the slowest call, the largest one, and those that took too much for what they wrote."""
    print('\n| Command | Slowest, s | Largest, MB | Stopped |\n|---|---|---|---|')
    for words in dict.fromkeys(one.words for one in taken):
        print(row_of(words, [one for one in taken if one.words == words]))
    print(f'\nslowest: {max(taken, key=lambda one: one.seconds).line()}')
    print(f'largest: {max(taken, key=lambda one: one.bytes).line()}')
    for one in taken:
        if (one.seconds > MOST_SECONDS or one.bytes > MOST_BYTES) and one.written <= MOST_WRITTEN:
            print(f'too much: {one.line()}')


def draw_texts(asked: argparse.Namespace, folder: Path) -> list[tuple[str, Path]]:
    """Draws what was asked for: the shapes, each with the file of a text."""
    found = []
    for shape, drawn in shapes(asked.of).items():
        for number in range(asked.seed, asked.seed + asked.draws) if shape in (asked.shapes or [shape]) else ():
            text = folder / f'{shape} {number}'
            text.write_text(drawn(random.Random(number)))
            if text.stat().st_size > BYTES:
                raise Failure(f'{shape}: a text of {text.stat().st_size:,} bytes')
            found.append((shape, text))
    return found


def main() -> int:
    """Draws what was asked for, and calls the commands."""
    asked = options()
    taken = []
    print(f'{"shape":<20}{"words":<18}{"read kB":>9}{"seconds":>10}{"MB":>10}{"written kB":>12}')
    with tempfile.TemporaryDirectory(prefix='mir-hostile-') as name, \
            ProcessPoolExecutor(asked.jobs, initializer=adopt_orphans) as pool:
        folder = Path(name)
        calls = [pool.submit(call, asked.mir, shape, words, text, folder, asked.seconds, asked.memory)
                 for shape, text in draw_texts(asked, folder) for words in asked.words]
        for each in calls:
            taken.append(each.result())
            print(taken[-1].line(), flush=True)
    tell(taken)
    return 0


if __name__ == '__main__':
    try:
        sys.exit(main())
    except (Failure, OSError) as failure:
        sys.exit(f'bench/hostile.py: {failure}')
