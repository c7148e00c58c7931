#!/usr/bin/env python3
"""Counts by callgrind how many times the instructions of `optimise` `thorough` takes, on each workload of bench/run.py that
is a program to be rewritten, beside the turns that change something.

    bench/turns.py [--mir PATH] [--greatest] [--seconds N] [WORKLOAD ..]

With `--seconds` it measures processor seconds, the least of N calls, in the place of instructions.
Each text has the least size of its workload, or with `--greatest` the greatest. A turn that changes nothing is made behind
the last that changes something, so where one does, the passes of `optimise` are made twice. What they get in the first
turn is what `tails` and `join` leave: where this is longer than the text, `optimise` is counted on it too. It runs on Linux
alone, and wants valgrind.
"""

import argparse
import re
import subprocess
import sys
import tempfile
from pathlib import Path

import run
from against_llvm import least_time, ran
from measuring import ENDED, Case, Failure, adopt_orphans, instructions

# Where the passes of a turn stand, and the most turns that are made.
TURN = run.TOP / 'crates' / 'program_turns' / 'src' / 'thorough.rt'
MOST_TURNS = 16

# Commands that rewrite a program; a text that several workloads have is counted once.
REWRITING = ('optimise', 'move', 'tails', 'join')


def words_of_turn() -> list[str]:
    """The words of `passes` that make one turn: those of its two halves."""
    halves = re.findall(r'const \w+_HALF: [^=]*= \[(.*?)\];', TURN.read_text(), re.DOTALL)
    return ['passes', *(word.lower() for half in halves for word in re.findall(r'Pass::(\w+)', half))]


def written(mir: str, words: list[str], text: str) -> str:
    """What the program writes for a text."""
    return subprocess.run([mir, *words], input=text, capture_output=True, text=True, check=True).stdout


def turns_of(mir: str, text: str) -> int:
    """How many turns change something, at most as many as are made."""
    last = written(mir, ['passes'], text)
    for made in range(MOST_TURNS):
        said = written(mir, words_of_turn(), last)
        if said == last:
            return made
        last = said
    return MOST_TURNS


def joined_of(mir: str, text: str) -> str:
    """What `tails` and `join` leave of a text where it is longer by more than a tenth, else nothing."""
    joined = written(mir, ['passes', 'tails', 'join'], text)
    return joined if len(joined) > 1.1 * len(written(mir, ['passes'], text)) else ''


def texts(greatest: bool) -> dict[str, tuple[int, str]]:
    """The texts of the workloads, each with its size."""
    found: dict[str, tuple[int, str]] = {}
    for workload in run.WORKLOADS:
        cases = workload.cases()
        one = (max if greatest else min)(cases, key=lambda case: case.size)
        name = re.sub('-(optimise|move)$', '', workload.name)
        if one.words[0] in REWRITING and one.text not in [text for _, text in found.values()]:
            found.setdefault(name, (one.size, one.text))
    return found


def taken(mir: str, word: str, text: str, folder: Path, repeat: int) -> float:
    """The least processor seconds of so many calls, or with none the millions of instructions; 0 where there is no text."""
    if not text:
        return 0
    if repeat:
        return least_time(lambda: ran([mir, word], text.encode()), repeat)
    return instructions(mir, Case(len(text), [word], text, ENDED, None), folder) / 1e6


def main() -> int:
    """Counts the workloads that were asked for."""
    asked = argparse.ArgumentParser(description='Counts what turns take beside one optimise.')
    asked.add_argument('--mir', default=str(run.PROGRAM), metavar='PATH', help='the program that is measured')
    asked.add_argument('--greatest', action='store_true', help='at the greatest size of each workload')
    asked.add_argument('--seconds', type=int, default=0, metavar='N', help='measure the least time of N calls')
    asked.add_argument('workloads', nargs='*', metavar='WORKLOAD')
    given = asked.parse_args()
    mir, sizes = str(Path(given.mir).resolve()), texts(given.greatest)
    unknown = set(given.workloads) - set(sizes)
    if unknown:
        asked.error(f'no such workload: {", ".join(sorted(unknown))}')
    adopt_orphans()
    print('| Workload | Size | Turns | `optimise` | `thorough` | x | `optimise` of joined | x |')
    with tempfile.TemporaryDirectory(prefix='mir-bench-') as folder:
        for name in given.workloads or sizes:
            size, text = sizes[name]
            joined = joined_of(mir, text)
            once, often, behind = (taken(mir, word, of, Path(folder), given.seconds)
                                   for word, of in (('optimise', text), ('thorough', text), ('optimise', joined)))
            digits = 3 if given.seconds else 1
            beside = f' {behind:,.{digits}f} | {often / behind:.2f} |' if joined else ' | |'
            print(f'| `{name}` | {size:,} | {turns_of(mir, text)} | {once:,.{digits}f} | {often:,.{digits}f} | '
                  f'{often / once:.2f} |{beside}', flush=True)
    return 0


if __name__ == '__main__':
    try:
        sys.exit(main())
    except (Failure, OSError, subprocess.CalledProcessError) as failure:
        sys.exit(f'bench/turns.py: {failure}')
