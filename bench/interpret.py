"""Runs programs as the language page says, in Python: many small runs in one process, and programs that `mir` would
not read again, since what it writes may have more instructions than a text. Nothing here is proved, and it shares with
`mir` the definition alone, so a difference between the two is one to look at."""

import sys
from pathlib import Path
from typing import Callable, NamedTuple, Optional

sys.path.insert(0, str(Path(__file__).resolve().parent.parent / 'tools'))

import mir_text  # noqa: E402

LEAST = -2 ** 63


class Trap(Exception):
    """A divisor was 0."""


class Report(NamedTuple):
    """What a run came to: `ended`, `trapped` or `running`, its result where it ended and the number of its trap where one
    was raised, what it printed, how many operators its assignments evaluated, and the most frames that it had."""

    end: str
    result: Optional[int]
    printed: list[int]
    evaluations: int
    frames: int


def wrapped(value: int) -> int:
    """The number modulo 2^64, as a signed one."""
    return (value - LEAST) % 2 ** 64 + LEAST


def quotient(a: int, b: int) -> int:
    """The quotient, rounded towards 0."""
    if b == 0:
        raise Trap
    return wrapped(abs(a) // abs(b) * (1 if (a < 0) == (b < 0) else -1))


def remainder(a: int, b: int) -> int:
    """What the quotient leaves, with the sign of the dividend."""
    if b == 0:
        raise Trap
    return abs(a) % abs(b) * (-1 if a < 0 else 1)


BINARY: dict[str, Callable[[int, int], int]] = {
    '=': lambda a, b: int(a == b), '!=': lambda a, b: int(a != b), '<': lambda a, b: int(a < b),
    '<=': lambda a, b: int(a <= b), '>': lambda a, b: int(a > b), '>=': lambda a, b: int(a >= b),
    '+': lambda a, b: wrapped(a + b), '-': lambda a, b: wrapped(a - b), '*': lambda a, b: wrapped(a * b),
    '/': quotient, 'mod': remainder, 'min': min, 'max': max,
    'shl': lambda a, b: wrapped(a << b % 64), 'shr': lambda a, b: wrapped((a % 2 ** 64) >> b % 64),
    'shra': lambda a, b: a >> b % 64, 'and': lambda a, b: a & b, 'or': lambda a, b: a | b, 'xor': lambda a, b: a ^ b,
}
UNARY: dict[str, Callable[[int], int]] = {'-': lambda a: wrapped(-a), '!': lambda a: int(a == 0)}


class Code(NamedTuple):
    """A unit to be run: the first value of each variable and constant, the globals before all others, the places of the
    received ones, and for each instruction its kind, a function where it evaluates, the places that it reads, and where
    its result or its jump goes; of a trap its number."""

    first: list[int]
    received: list[int]
    steps: list[tuple]


def coded(unit: mir_text.Unit, shared: list[str], numbers: dict[str, int]) -> Code:
    """A unit as it is run, over these globals, where each unit has a number."""
    places: dict = {name: place for place, name in enumerate(shared)}
    first = [0] * len(shared)

    def at(operand: mir_text.Operand) -> int:
        """The place of a variable or a constant."""
        if operand not in places:
            places[operand] = len(first)
            first.append(operand if isinstance(operand, int) else 0)
        return places[operand]

    def evaluation(value: mir_text.Value) -> tuple:
        """The function of a right side or a test, and what it reads."""
        if isinstance(value, mir_text.Plain):
            return None, (at(value.value),)
        if isinstance(value, mir_text.Unary):
            return UNARY[value.operator], (at(value.value),)
        return BINARY[value.operator], (at(value.left), at(value.right))

    steps: list[tuple] = []
    for one in unit.instructions:
        if isinstance(one, mir_text.Receive):
            steps.append(('receive', None, (), at(one.name)))
        elif isinstance(one, mir_text.Assign):
            function, reads = evaluation(one.value)
            steps.append(('assign' if function else 'copy', function, reads, at(one.name)))
        elif isinstance(one, mir_text.Call):
            into = None if one.name is None else at(one.name)
            steps.append(('call', numbers[one.unit], tuple(map(at, one.arguments)), into))
        elif isinstance(one, mir_text.Goto):
            steps.append(('goto', None, (), unit.labels[one.label]))
        elif isinstance(one, mir_text.If):
            function, reads = evaluation(one.test)
            steps.append(('if', function, reads, unit.labels[one.label]))
        elif isinstance(one, mir_text.TrapIf):
            function, reads = evaluation(one.test)
            steps.append(('trap', function, reads, one.number))
        else:
            kind = 'print' if isinstance(one, mir_text.Print) else 'return'
            steps.append((kind, None, (at(one.value),), None))
    steps.append(('return', None, (at(0),), None))
    received = [step[3] for step in steps if step[0] == 'receive']
    return Code(first, received, steps)


class Machine:
    """A program that can be run."""

    def __init__(self, text: str):
        parser = mir_text.Parser(list(mir_text.tokens(text)))
        shared = [name for name, _ in parser.globals()]
        units = parser.units()
        numbers = {unit.name: number for number, unit in enumerate(units)}
        self.code = [coded(unit, shared, numbers) for unit in units]
        self.shared = len(shared)

    def inputs(self) -> int:
        """How many inputs a run takes."""
        return len(self.code[0].received)

    def run(self, inputs: list[int], most: int) -> Report:
        """The run of the first unit on these inputs, for at most so many steps."""
        code, printed, evaluations, stack, at, frames = self.code[0], [], 0, [], 0, 1
        values = entered(code, [0] * self.shared, inputs)
        for _ in range(most):
            kind, function, reads, to = code.steps[at]
            at += 1
            if kind == 'copy':
                values[to] = values[reads[0]]
            elif kind == 'assign':
                evaluations += 1
                try:
                    values[to] = function(*[values[place] for place in reads])
                except Trap:
                    return Report('trapped', None, printed, evaluations, frames)
            elif kind in ('if', 'trap'):
                holds = function(*[values[place] for place in reads]) if function else values[reads[0]]
                if holds and kind == 'trap':
                    return Report('trapped', to, printed, evaluations, frames)
                at = to if holds else at
            elif kind == 'goto':
                at = to
            elif kind == 'print':
                printed.append(values[reads[0]])
            elif kind == 'call':
                stack.append((code, values, at, to))
                frames = max(frames, len(stack) + 1)
                code, at = self.code[function], 0
                values = entered(code, values[:self.shared], [values[place] for place in reads])
            elif kind == 'return':
                result = values[reads[0]]
                if not stack:
                    return Report('ended', result, printed, evaluations, frames)
                shared, (code, values, at, to) = values[:self.shared], stack.pop()
                values[:self.shared] = shared
                if to is not None:
                    values[to] = result
        return Report('running', None, printed, evaluations, frames)


def entered(code: Code, shared: list[int], arguments: list[int]) -> list[int]:
    """The values of a unit that begins with these globals and arguments."""
    values = shared + code.first[len(shared):]
    for place, argument in zip(code.received, arguments):
        values[place] = argument
    return values
