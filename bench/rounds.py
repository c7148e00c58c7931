#!/usr/bin/env python3
"""Counts the rounds of sinking that `mir` makes of drawn programs, of C programs and of workloads.

    bench/rounds.py [--mir PATH] [--programs N] [--csmith N] [--seed N] [--jobs N] [FILE ..]
                    [--workloads NAME ..]

The drawn programs are those of `divisions.py`; the C programs are those that csmith draws, as `real.py` has it, and the
files that are named, brought in by `tools/from_c`. Of each program the greatest number of rounds that one of its units
makes is told by `stages`: one round where the first changes nothing, and sixteen at the most. A line for each kind says
how many programs came to each number. Of each workload of `run.py` that is named a line has the number at each size. It
wants Python 3.9 and its standard library, and for C programs csmith and
clang.
"""

import argparse
import collections
import re
import subprocess
import sys
import tempfile
from concurrent.futures import ThreadPoolExecutor
from pathlib import Path
from typing import Iterable

import drawn
import real
import run
from divisions import Draw

TOP = Path(__file__).resolve().parent.parent

# The title of a round in what `stages` writes; the last one has the number.
ROUND = re.compile(r'^\|\| round (\d+)$', re.MULTILINE)


def rounds_of(mir: str, text: str) -> int:
    """The greatest number of rounds that a unit of the program makes."""
    said = subprocess.run([mir, 'stages'], input=text, capture_output=True, text=True)
    if said.returncode:
        sys.exit(f'rounds: status {said.returncode}: {said.stderr.strip()}')
    return int(ROUND.findall(said.stdout)[-1])


def texts_of(sources: Iterable[drawn.Source]) -> Iterable[str]:
    """The programs of C files, as texts of `mir`; what cannot be brought in is left out."""
    from_c, from_llvm = map(real.module_of, ('from_c', 'from_llvm'))
    for source in sources:
        try:
            read = from_llvm.module_of(from_c.llvm(str(source.path), source.flags))
        except real.mir_text.Fault:
            continue
        for entry in source.entries.values():
            try:
                yield from_llvm.program_text(read, entry)
            except real.mir_text.Fault:
                continue


def tell(kind: str, mir: str, jobs: int, texts: Iterable[str]) -> None:
    """Prints how many of these programs make how many rounds."""
    with ThreadPoolExecutor(jobs) as pool:
        counts = collections.Counter(pool.map(lambda text: rounds_of(mir, text), texts))
    told = ', '.join(f'{rounds}: {count:,}' for rounds, count in sorted(counts.items()))
    print(f'{sum(counts.values()):,} {kind} by their rounds: {told}')


def tell_workload(mir: str, name: str) -> None:
    """Prints how many rounds the texts of a workload make."""
    cases = next(each for each in run.WORKLOADS if each.name == name).cases()
    print(f'{name}:', ', '.join(f'{case.size:,}: {rounds_of(mir, case.text)}' for case in cases), flush=True)


def main() -> None:
    """Counts of each kind."""
    words = argparse.ArgumentParser(description=__doc__.split('\n')[0])
    words.add_argument('--mir', default=str(TOP / 'mir'), help='the program that is called')
    words.add_argument('--programs', type=int, default=2_500, metavar='N', help='how many programs are drawn')
    words.add_argument('--csmith', type=int, default=0, metavar='N', help='how many programs csmith draws')
    words.add_argument('--seed', type=int, default=1, metavar='N', help='the number of the first of each')
    words.add_argument('--jobs', type=int, default=1, metavar='N', help='how many programs are worked on at a time (1)')
    words.add_argument('--workloads', nargs='*', default=[], metavar='NAME', help='workloads of run.py')
    words.add_argument('files', nargs='*', type=Path, metavar='FILE', help='C files and folders of them')
    given = words.parse_args()
    for name in given.workloads:
        tell_workload(given.mir, name)
    if given.programs:
        tell('drawn programs', given.mir, given.jobs,
             (Draw(number).program() for number in range(given.seed, given.seed + given.programs)))
    with tempfile.TemporaryDirectory() as made:
        folder = Path(made)
        (folder / 'csmith.h').write_text(drawn.HEADER)
        numbers = list(range(given.seed, given.seed + given.csmith))
        groups = [numbers[at:at + drawn.TOGETHER] for at in range(0, len(numbers), drawn.TOGETHER)]
        if groups:
            tell('programs of csmith', given.mir, given.jobs,
                 texts_of(drawn.drawn(drawn.SETTINGS['small'], some, folder, 'small') for some in groups))
        if given.files:
            tell('C files', given.mir, given.jobs, texts_of(drawn.of_file(path, folder) for path in real.files_of(given.files)))


if __name__ == '__main__':
    main()
