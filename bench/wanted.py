#!/usr/bin/env python3
"""Runs drawn programs full of shifts, masks and narrow types beside what `mir passes wanted` makes of them.

    bench/wanted.py [--mir PATH] [--tests] [--words WORD ..] [--programs N] [--runs N] [--seed N]

Each program is drawn by its number, rewritten by `mir` with these words (`passes wanted`), and both are run on N drawn
inputs by `interpret.py`, in one process. What the source prints within its steps the target prints first; where the
source ends the target ends with the same result, and where it traps the target traps, each with the same prints; and
where both end the target evaluates no more operators. With `--tests` variables also hold comparisons, and tests ask
whether one is 0. Every difference is shown. The last line counts, and the status is 1 where one differs. It wants
Python 3.9 and its standard library.
"""

import argparse
import random
import subprocess
import sys
from pathlib import Path

from divisions import is_alike
from interpret import LEAST, Machine

TOP = Path(__file__).resolve().parent.parent

# The steps of the source, and those of the target, which takes none more but for jumps.
STEPS, MORE_STEPS = 400, 2_000

VARIABLES = ('a', 'b', 'c', 'x', 'y', 'z', 'i', 'g')
INPUTS = (0, 1, -1, 2, 127, 128, 255, 256, -129, 32_767, 65_535, -32_769, 2 ** 31, -2 ** 31 - 1, 2 ** 32 - 1, LEAST,
          -LEAST - 1)
WIDTHS = (8, 16, 32)
RECURSIVE = ('q', 'r')


class Draw:
    """Draws a program of a unit with three inputs, in which numbers are cut down to narrow types and masked, and few are
    looked at whole; it calls a second unit and two that call each other and themselves, and there is a global, and there
    are loops, divisions and traps."""

    def __init__(self, seed: int):
        self.random = random.Random(seed)
        # How often a unit that calls itself may still do so, as the unit that is being drawn hands it on.
        self.count = ''

    def variable(self) -> str:
        """A variable."""
        return self.random.choice(VARIABLES)

    def constant(self) -> int:
        """A number: small, a mask, the end of a type, or of any size."""
        bits = self.random.randrange(63)
        return self.random.choice((0, 1, -1, 3, 7, 64, 65, 2 ** bits - 1, 2 ** bits, -2 ** bits, ~(2 ** bits),
                                   self.random.choice(INPUTS), self.random.randint(LEAST, -LEAST - 1)))

    def operand(self) -> str:
        """A variable, or now and then a number."""
        return self.variable() if self.random.random() < 0.7 else str(self.constant())

    def distance(self) -> str:
        """How far is shifted: most often to the width of a type, and now and then past 63 or by a variable."""
        if self.random.random() < 0.1:
            return self.variable()
        return str(self.random.choice((*(64 - width for width in WIDTHS), *WIDTHS, 1, 4, 63, 64, 70, -8)))

    def mask(self) -> str:
        """A mask: of the low bits, of all but some, or any number."""
        return str(self.random.choice((*(2 ** width - 1 for width in WIDTHS), 1, 3, 15, -256, self.constant())))

    def test(self) -> str:
        """A test of a branch, which looks at a number whole or at a masked one."""
        return self.random.choice((self.variable(), f'! {self.operand()}', f'{self.operand()} < {self.operand()}'))

    def right_side(self) -> str:
        """What is assigned: shifts and masks, sums, and all other operators."""
        a, b = self.operand(), self.operand()
        kind = self.random.random()
        if kind < 0.2:
            return f'{a} {self.random.choice(("shl", "shr", "shra"))} {self.distance()}'
        if kind < 0.45:
            mask, operator = self.mask(), self.random.choice(('and', 'and', 'or', 'xor'))
            return f'{mask} {operator} {a}' if self.random.random() < 0.3 else f'{a} {operator} {mask}'
        if kind < 0.75:
            return f'{a} {self.random.choice(("+", "-", "*", "+", "xor", "or"))} {b}'
        if kind < 0.8:
            return self.random.choice((f'- {a}', f'! {a}'))
        if kind < 0.85:
            return f'{a} {self.random.choice(("/", "mod"))} {self.random.choice((b, b, "3", "-1", "0"))}'
        if kind < 0.9:
            return f'{a} {self.random.choice(("<", "=", "min", "max"))} {b}'
        return a

    def narrowed(self) -> list[str]:
        """A number is cut down to a narrow type, by two shifts or a mask, and now and then something stands between."""
        source, target, between = self.variable(), self.random.choice('xyz'), self.random.choice('abcxyzt')
        width = self.random.choice(WIDTHS)
        back = self.random.choice((64 - width, 64 - width, 128 - width, 56))
        lines = [f'{between} <- {source} shl {64 - width}']
        if self.random.random() < 0.3:
            lines.append(f'{self.variable()} <- {self.right_side()}')
        lines.append(f'{target} <- {between} {self.random.choice(("shra", "shra", "shr"))} {back}')
        if self.random.random() < 0.6:
            lines.append(f'{self.variable()} <- {target} and {self.mask()}')
        return lines

    def instructions(self, label: str) -> list[str]:
        """An instruction of the first unit, or some; a jump goes to this label."""
        kind = self.random.random()
        if kind < 0.45:
            return [f'{self.variable()} <- {self.right_side()}']
        if kind < 0.65:
            return self.narrowed()
        if kind < 0.7:
            return ['i <- i + 1']
        if kind < 0.8:
            return [f'p <- {self.variable()} and {self.mask()}', 'print p']
        if kind < 0.82:
            return [f'print {self.operand()}']
        if kind < 0.92:
            return [f'p <- {self.variable()} and {self.random.choice((1, 3, 255))}', f'if p goto {label}']
        if kind < 0.95:
            return [f'if {self.test()} goto {label}']
        if kind < 0.96:
            return [f'if {self.test()} trap {self.random.randrange(3)}']
        if kind < 0.97:
            return [f'{self.random.choice(("x <-", "call"))} f,({self.operand()},int;{self.operand()},int)']
        if kind < 0.98:
            return [self.call()]
        return [f'goto {label}']

    def call(self) -> str:
        """A call of a unit that calls itself or the other one, which the count that it is handed puts an end to."""
        into, unit = self.random.choice(('x <-', f'{self.variable()} <-', 'call')), self.random.choice(RECURSIVE)
        return f'{into} {unit},({self.count},int;{self.operand()},int;{self.operand()},int)'

    def recursive(self, unit: str) -> str:
        """The text of a unit that calls itself or the other one once or twice, until what counts its calls is 0."""
        self.count = 'n'
        lines = [self.call()]
        for _ in range(self.random.randint(1, 4)):
            lines[self.random.choice((0, len(lines))):0] = self.instructions('out')
        if self.random.random() < 0.3:
            lines.append(self.call())
        handed = self.random.choice(('x', 'g', self.variable(), 'p'))
        return (f'{unit}: begin\nreceive n(val)\nreceive a(val)\nreceive b(val)\nif n < 1 goto out\nn <- n - 1\n'
                + '\n'.join(lines) + f'\nout: return {handed}\nend\n')

    def program(self) -> str:
        """The text."""
        self.count = str(self.random.randint(1, 4))
        places = self.random.randint(5, 20)
        lines = []
        for place in range(places):
            first, *others = self.instructions(f'L{self.random.randrange(places)}')
            lines += [f'L{place}: {first}', *others]
        if self.random.random() < 0.7:
            lines.insert(self.random.randint(0, len(lines)), self.call())
        received = ''.join(f'receive {name}(val)\n' for name in 'abc')
        result = self.random.choice((f'return {self.variable()}', f'r <- {self.variable()} and {self.mask()}\nreturn r'))
        inside = self.random.choice(('x <- a shl 56\nx <- x shra 56', 'g <- a and 255', 'print a', 'x <- a xor b'))
        callee = f'f: begin\nreceive a(val)\nreceive b(val)\n{inside}\nreturn x\nend\n'
        others = ''.join(self.recursive(unit) for unit in RECURSIVE)
        return f'global g\nmain: begin\n{received}' + '\n'.join(lines) + f'\n{result}\nend\n' + callee + others


class DrawTests(Draw):
    """Draws such programs in which variables also hold comparisons, and tests ask whether one is 0."""

    def instructions(self, label: str) -> list[str]:
        """An instruction, or a comparison, something between now and then, and a test of the variable that holds it."""
        if self.random.random() < 0.6:
            return super().instructions(label)
        held, relation = self.random.choice('xyzp'), self.random.choice(('=', '!=', '<', '<=', '>', '>='))
        value = self.random.choice((f'! {self.operand()}', f'{self.operand()} {relation} {self.operand()}'))
        lines = [f'{held} <- {value}']
        if self.random.random() < 0.4:
            lines += super().instructions(label)
        test = self.random.choice((held, f'! {held}', f'{held} = 0', f'{held} != 0', f'0 = {held}', f'0 != {held}'))
        then = f'trap {self.random.randrange(3)}' if self.random.random() < 0.3 else f'goto {label}'
        return [*lines, f'if {test} {then}']


def main() -> int:
    """Draws, rewrites and runs."""
    words = argparse.ArgumentParser(description=__doc__.split('\n')[0])
    words.add_argument('--mir', default=str(TOP / 'mir'), help='the program that is called')
    words.add_argument('--words', nargs='*', default=['passes', 'wanted'], metavar='WORD', help='with which words')
    words.add_argument('--tests', action='store_true', help='draw tests of variables that hold comparisons too')
    words.add_argument('--programs', type=int, default=2_500, metavar='N', help='how many programs are drawn')
    words.add_argument('--runs', type=int, default=40, metavar='N', help='how many inputs each is run on')
    words.add_argument('--seed', type=int, default=0, metavar='N', help='the number of the first program')
    given = words.parse_args()
    ends, different, fewer = {'ended': 0, 'trapped': 0, 'running': 0}, 0, 0
    evaluated = [0, 0]
    for number in range(given.seed, given.seed + given.programs):
        draw = (DrawTests if given.tests else Draw)(number)
        text = draw.program()
        made = subprocess.run([given.mir, *given.words], input=text, capture_output=True, text=True)
        if made.returncode:
            sys.exit(f'wanted: program {number}: status {made.returncode}: {made.stderr.strip()}\n{text}')
        source, target = Machine(text), Machine(made.stdout)
        for _ in range(given.runs):
            inputs = [draw.random.choice(INPUTS) for _ in range(3)]
            before, after = source.run(inputs, STEPS), target.run(inputs, MORE_STEPS)
            ends[before.end] += 1
            if before.end == after.end == 'ended':
                fewer += after.evaluations < before.evaluations
                evaluated[0] += before.evaluations
                evaluated[1] += after.evaluations
            if not is_alike(before, after):
                different += 1
                print(f'program {number} on {inputs}: {before} and {after}:\n{text}{made.stdout}')
    told = ', '.join(f'{count:,} {end}' for end, count in ends.items())
    print(f'{given.programs:,} programs, {sum(ends.values()):,} runs: {told}; {fewer:,} ended with fewer evaluations, '
          f'{evaluated[1]:,} in all of {evaluated[0]:,}; {different} differences')
    return 1 if different else 0


if __name__ == '__main__':
    sys.exit(main())
