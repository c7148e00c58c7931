#!/usr/bin/env python3
"""Runs drawn programs full of divisions beside what `mir divisions` makes of them, with divisors of 0 among the inputs.

    bench/divisions.py [--mir PATH] [--programs N] [--runs N] [--seed N]

Each program is drawn by its number, rewritten by `mir divisions`, and both are run on N drawn inputs by `interpret.py`,
in one process. What the source prints within its steps the target prints first; where the source ends the target ends
with the same result, and where it traps the target traps, each with the same prints; and where both end the target
evaluates no more operators. Every difference is shown. The last line counts, and the status is 1 where one differs. It
wants Python 3.9 and its standard library.
"""

import argparse
import random
import subprocess
import sys
from pathlib import Path

from interpret import LEAST, Machine, Report

TOP = Path(__file__).resolve().parent.parent

# The steps of the source, and those of the target, in which insertions and jumps around them take some.
STEPS, MORE_STEPS = 400, 8_000

VARIABLES = ('a', 'b', 'c', 'x', 'y', 'z', 'i', 'g')
INPUTS = (0, 0, 1, -1, 2, 3, 7, -5, LEAST, -LEAST - 1)


class Draw:
    """Draws a program of a unit with three inputs, which calls a second one that prints or divides; there is a global,
    and there are traps."""

    def __init__(self, seed: int):
        self.random = random.Random(seed)
        # few, so that one is evaluated at many places
        self.divisions = [f'{self.operand()} {self.random.choice(("/", "/", "mod"))} {self.divisor()}' for _ in range(3)]

    def operand(self) -> str:
        """A variable, or now and then a number."""
        if self.random.random() < 0.8:
            return self.random.choice(VARIABLES)
        return str(self.random.choice((0, 1, -1, 2, 9)))

    def divisor(self) -> str:
        """A variable, most often a received one, or 0."""
        return self.random.choice(('a', 'b', 'b', 'b', 'c', 'c', 'x', '0'))

    def test(self) -> str:
        """A test of a branch."""
        return self.random.choice((self.operand(), f'! {self.operand()}', f'{self.operand()} < {self.operand()}'))

    def instruction(self, label: str) -> str:
        """An instruction of the first unit; a jump goes to this label."""
        kind = self.random.random()
        if kind < 0.4:
            return f'{self.random.choice("xyz")} <- {self.random.choice(self.divisions)}'
        if kind < 0.5:
            return f'{self.random.choice(VARIABLES)} <- {self.operand()} {self.random.choice("+-*")} {self.operand()}'
        if kind < 0.55:
            return f'i <- i + 1'
        if kind < 0.6:
            return f'{self.random.choice("abcxyz")} <- {self.operand()}'
        if kind < 0.66:
            return f'print {self.operand()}'
        if kind < 0.88:
            return f'if {self.test()} goto {label}'
        if kind < 0.9:
            return f'if {self.test()} trap {self.random.randrange(3)}'
        if kind < 0.93:
            return f'goto {label}'
        if kind < 0.96:
            return f'{self.random.choice(("x <-", "call"))} f,({self.operand()},int;{self.operand()},int)'
        return f'return {self.operand()}'

    def program(self) -> str:
        """The text."""
        places = self.random.randint(5, 22)
        lines = [f'L{place}: {self.instruction(f"L{self.random.randrange(places)}")}' for place in range(places)]
        received = ''.join(f'receive {name}(val)\n' for name in 'abc')
        inside = self.random.choice(('print a', 'x <- a / b', 'g <- a', 'x <- g / b'))
        callee = f'f: begin\nreceive a(val)\nreceive b(val)\n{inside}\nreturn x\nend\n'
        return f'global g\nmain: begin\n{received}' + '\n'.join(lines) + '\nend\n' + callee


def is_alike(source: Report, target: Report) -> bool:
    """Whether the target does what the source does, and evaluates no more where both end."""
    if source.end == 'running':
        return target.printed[:len(source.printed)] == source.printed
    same = (target.end, target.result, target.printed) == (source.end, source.result, source.printed)
    return same and (source.end != 'ended' or target.evaluations <= source.evaluations)


def main() -> int:
    """Draws, rewrites and runs."""
    words = argparse.ArgumentParser(description=__doc__.split('\n')[0])
    words.add_argument('--mir', default=str(TOP / 'mir'), help='the program that is called')
    words.add_argument('--programs', type=int, default=2_500, metavar='N', help='how many programs are drawn')
    words.add_argument('--runs', type=int, default=40, metavar='N', help='how many inputs each is run on')
    words.add_argument('--seed', type=int, default=0, metavar='N', help='the number of the first program')
    given = words.parse_args()
    ends, different, changed, fewer = {'ended': 0, 'trapped': 0, 'running': 0}, 0, 0, 0
    for number in range(given.seed, given.seed + given.programs):
        draw = Draw(number)
        text = draw.program()
        made = subprocess.run([given.mir, 'divisions'], input=text, capture_output=True, text=True)
        if made.returncode:
            sys.exit(f'divisions: program {number}: status {made.returncode}: {made.stderr.strip()}')
        source, target = Machine(text), Machine(made.stdout)
        changed += 'h1 <- ' in made.stdout
        for _ in range(given.runs):
            inputs = [draw.random.choice(INPUTS) for _ in range(3)]
            before, after = source.run(inputs, STEPS), target.run(inputs, MORE_STEPS)
            ends[before.end] += 1
            fewer += before.end == after.end == 'ended' and after.evaluations < before.evaluations
            if not is_alike(before, after):
                different += 1
                print(f'program {number} on {inputs}: {before} and {after}:\n{text}{made.stdout}')
    told = ', '.join(f'{count:,} {end}' for end, count in ends.items())
    print(f'{given.programs:,} programs, of which {changed:,} were rewritten; {sum(ends.values()):,} runs: {told}; '
          f'{fewer:,} ended with fewer evaluations; {different} differences')
    return 1 if different else 0


if __name__ == '__main__':
    sys.exit(main())
