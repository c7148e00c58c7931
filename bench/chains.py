#!/usr/bin/env python3
"""Runs drawn programs beside what drawn chains of passes make of them.

    bench/chains.py [--mir PATH] [--programs N] [--chains N] [--runs N] [--seed N] [--jobs N]

Each program is drawn by its number: units that call later ones and themselves, globals, divisions and traps. `mir passes`
makes each of N drawn chains of it, of one to eight passes, and source and target are run on drawn inputs by
`interpret.py`. What the source prints within its steps the target prints first; where the source ends the target ends
with the same result, and where it traps the target traps with the same number, each with the same prints; where both
end the target evaluates no more operators; and it never has more frames. The globals stay, and the first unit with its
receives. Every difference is shown. The last line counts, and the status is 1 where one differs. It wants Python 3.9
and its standard library.
"""

import argparse
import random
import subprocess
import sys
from concurrent.futures import ProcessPoolExecutor
from dataclasses import dataclass, field
from pathlib import Path

from against_llvm import Draw
from interpret import LEAST, Machine, Report

TOP = Path(__file__).resolve().parent.parent
PASSES = ('tails join arguments optimise clean fold number copies motion divisions sink comparisons terms bounds '
          'extensions unread wanted demanded known called').split()

# The steps of the source, and those of the target, in which insertions and copies of joined units take some.
STEPS, MORE_STEPS = 400, 8_000
INPUTS = (0, 1, -1, 2, 5, 40, -7, LEAST, -LEAST - 1)


class DrawCalls(Draw):
    """Draws programs as `Draw` does, in which units also call themselves, mostly with nothing left to do behind it."""

    def instruction(self, unit: int, places: int) -> str:
        """An instruction of a unit, or a call of the unit itself and a return."""
        if self.random.random() >= 0.06:
            return super().instruction(unit, places)
        result, arguments = self.variable(), ';'.join(f'{self.operand()},int' for _ in range(self.receives[unit]))
        returned = result if self.random.random() < 0.8 else self.operand()
        return f'{result} <- u{unit},({arguments})\nreturn {returned}'


@dataclass
class Count:
    """What programs came to: their chains, those that changed the text, runs by how the source ends, how many evaluated
    less, and the differences."""

    chains: int = 0
    changed: int = 0
    fewer: int = 0
    ends: dict[str, int] = field(default_factory=lambda: {'ended': 0, 'trapped': 0, 'running': 0})
    differences: list[str] = field(default_factory=list)

    def add(self, other: 'Count') -> None:
        """Counts those of other programs too."""
        self.chains += other.chains
        self.changed += other.changed
        self.fewer += other.fewer
        for end, count in other.ends.items():
            self.ends[end] += count
        self.differences += other.differences


def is_alike(source: Report, target: Report) -> bool:
    """Whether the target does what the source does, with no more frames, and evaluates no more where both end."""
    if source.end == 'running':
        return target.printed[:len(source.printed)] == source.printed
    same = (target.end, target.result, target.printed) == (source.end, source.result, source.printed)
    no_more = source.end != 'ended' or target.evaluations <= source.evaluations
    return same and no_more and target.frames <= source.frames


def head(text: str) -> list[str]:
    """The lines up to the last receive of the first unit."""
    lines = text.splitlines()
    first = next(at for at, line in enumerate(lines) if line.endswith(': begin')) + 1
    while lines[first].startswith('receive '):
        first += 1
    return lines[:first]


def compared(mir: str, number: int, chains: int, runs: int) -> Count:
    """What the program of this number comes to."""
    count, draw = Count(), DrawCalls(number)
    text = draw.program()
    tried = [[draw.random.choice(INPUTS) for _ in range(draw.receives[0])] for _ in range(runs)]
    plain = subprocess.run([mir, 'passes'], input=text, capture_output=True, text=True).stdout
    source = Machine(plain)
    before = [source.run(inputs, STEPS) for inputs in tried]
    known: dict[str, list[Report]] = {}
    for _ in range(chains):
        words = draw.random.choices(PASSES, k=draw.random.randint(1, 8))
        said = subprocess.run([mir, 'passes', *words], input=text, capture_output=True, text=True)
        made, told = said.stdout, f'program {number}, {" ".join(words)}'
        count.chains += 1
        count.changed += made != plain
        if said.returncode or head(made) != head(plain):
            count.differences.append(f'{told}: status {said.returncode}\n{plain}{made}{said.stderr}')
            continue
        if made not in known:
            target = Machine(made)
            known[made] = [target.run(inputs, MORE_STEPS) for inputs in tried]
        for inputs, one, other in zip(tried, before, known[made]):
            count.ends[one.end] += 1
            count.fewer += one.end == other.end == 'ended' and other.evaluations < one.evaluations
            if not is_alike(one, other):
                count.differences.append(f'{told}, on {inputs}: {one} and {other}:\n{plain}{made}')
    return count


def main() -> int:
    """Draws, calls and runs."""
    words = argparse.ArgumentParser(description=__doc__.split('\n')[0])
    words.add_argument('--mir', default=str(TOP / 'mir'), help='the program that is called')
    words.add_argument('--programs', type=int, default=2_000, metavar='N', help='how many programs are drawn')
    words.add_argument('--chains', type=int, default=20, metavar='N', help='how many chains each goes through')
    words.add_argument('--runs', type=int, default=4, metavar='N', help='how many inputs each is run on')
    words.add_argument('--seed', type=int, default=0, metavar='N', help='the number of the first program')
    words.add_argument('--jobs', type=int, default=2, metavar='N', help='how many programs are tried at a time')
    given, whole = words.parse_args(), Count()
    numbers = range(given.seed, given.seed + given.programs)
    with ProcessPoolExecutor(given.jobs) as pool:
        fixed = [[value] * len(numbers) for value in (given.chains, given.runs)]
        for count in pool.map(compared, [given.mir] * len(numbers), numbers, *fixed, chunksize=20):
            whole.add(count)
    print(*whole.differences, sep='\n', end='\n' if whole.differences else '')
    told = ', '.join(f'{count:,} {end}' for end, count in whole.ends.items())
    print(f'{given.programs:,} programs under {whole.chains:,} chains, of which {whole.changed:,} changed one; '
          f'{sum(whole.ends.values()):,} runs: {told}; {whole.fewer:,} ended with fewer evaluations; '
          f'{len(whole.differences)} differences')
    return 1 if whole.differences else 0


if __name__ == '__main__':
    sys.exit(main())
