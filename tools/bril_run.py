#!/usr/bin/env python3
"""Runs programs in Bril, to be compared with `mir run`: arithmetic wraps at 64 bits, a division truncates, and a value
of another type than its operation wants, a variable that is not set, and a divisor of 0 stop the run. What is not of
Bril's core is refused before it, in one line with its function and its instruction, and status 1.

    tools/bril_run.py P.bril [N | true | false ..]

It prints what the program prints. At the end it writes to standard error, as Bril's interpreter does with `-p`, how
many instructions it ran, and why it stopped where it did, with status 2.
"""

import sys
from typing import NamedTuple, Optional, Union

import mir_text
from bril_text import ENDS, Function, Instruction, Label, check_core, number_wanted, one_line, program

Value = Union[int, bool]
SUMS = {'add': lambda a, b: a + b, 'sub': lambda a, b: a - b, 'mul': lambda a, b: a * b}
RELATIONS = {'eq': lambda a, b: a == b, 'lt': lambda a, b: a < b, 'gt': lambda a, b: a > b,
             'le': lambda a, b: a <= b, 'ge': lambda a, b: a >= b}
LOGIC = {'and': lambda a, b: a and b, 'or': lambda a, b: a or b}
COMPARED = {**RELATIONS, **LOGIC}

# Of which type the operands are to be: of either, of `bool`, and of `int` for all other operations.
WANTED = {'id': None, **dict.fromkeys(('not', *LOGIC), 'bool')}


class Stopped(Exception):
    """Why a run stops."""


class Report(NamedTuple):
    """What a run printed, a list of values a line; why it stopped, or none; what `main` returned; how many
    instructions it ran."""

    printed: list[list[Value]]
    stopped: Optional[str]
    result: Optional[Value]
    count: int


class Frame:
    """A call of a function: its place, where its labels stand, its variables, and the variable of the caller that gets its
    value."""

    def __init__(self, function: Function, labels: dict[str, int], values: list[Value], dest: Optional[str]):
        self.function, self.labels, self.dest, self.at = function, labels, dest, 0
        self.values: dict[str, Value] = {}
        for (name, of), value in zip(function.args, values):
            if is_other(value, of):
                raise Stopped(f'the argument {name} is no {of}')
            self.values[name] = value

    def value(self, name: str, of: Optional[str] = None) -> Value:
        """The value of a variable, which has this type."""
        value = self.values.get(name)
        if value is None:
            raise Stopped(f'the variable {name} is not set')
        if is_other(value, of):
            raise Stopped(f'the variable {name} is no {of}')
        return value


def is_other(value: Value, of: Optional[str]) -> bool:
    """Whether a value is not of a type."""
    return of is not None and isinstance(value, bool) != (of == 'bool')


def wrapped(number: int) -> int:
    """The number that 64 bits have of another."""
    return number if -2 ** 63 <= number < 2 ** 63 else (number + 2 ** 63) % 2 ** 64 - 2 ** 63


def quotient(left: int, right: int) -> int:
    """A quotient, truncated."""
    if right == 0:
        raise Stopped('a division by 0')
    return abs(left) // abs(right) * (1 if (left < 0) == (right < 0) else -1)


def computed(frame: Frame, one: Instruction) -> Value:
    """The value of an operation."""
    if one.op == 'const':
        return one.value
    values = [frame.value(name, WANTED.get(one.op, 'int')) for name in one.args]
    if one.op in SUMS:
        return wrapped(SUMS[one.op](*values))
    if one.op in COMPARED:
        return COMPARED[one.op](*values)
    if one.op == 'div':
        return wrapped(quotient(*values))
    return not values[0] if one.op == 'not' else values[0]


class Run:
    """A run, which goes on until it ends, stops or has run so many instructions."""

    def __init__(self, functions: list[Function]):
        check_core(functions)
        self.functions = {function.name: function for function in functions}
        self.labels = {function.name: {line.name: at for at, line in enumerate(function.lines) if isinstance(line, Label)}
                       for function in functions}
        self.printed: list[list[Value]] = []
        self.count, self.result, self.frames = 0, None, []

    def frame(self, name: str, values: list[Value], dest: Optional[str]) -> Frame:
        """A call of a function with these values."""
        return Frame(self.functions[name], self.labels[name], values, dest)

    def report(self, inputs: list[Value], steps: int) -> Report:
        """The report of the run with these inputs."""
        stopped = None
        try:
            if len(inputs) != len(self.functions['main'].args):
                raise Stopped(number_wanted(len(self.functions['main'].args), 'input'))
            self.frames = [self.frame('main', inputs, None)]
            while self.frames and self.count < steps:
                self.step(self.frames[-1])
        except Stopped as why:
            stopped = str(why)
        return Report(self.printed, stopped or ('running' if self.frames else None), self.result, self.count)

    def step(self, frame: Frame) -> None:
        """One line: a label is passed, and an instruction is run and counted."""
        if frame.at == len(frame.function.lines):
            self.give(frame, None)
            return
        one = frame.function.lines[frame.at]
        frame.at += 1
        if isinstance(one, Label):
            return
        self.count += 1
        if one.op in ENDS:
            self.leave(frame, one)
        elif one.op == 'call':
            values = [frame.value(name) for name in one.args]
            self.frames.append(self.frame(one.funcs[0], values, one.dest))
        elif one.op == 'print':
            self.printed.append([frame.value(name) for name in one.args])
        elif one.op != 'nop':
            self.give_to(frame, one.dest, one.type, computed(frame, one))

    def give_to(self, frame: Frame, dest: str, of: Optional[str], value: Value) -> None:
        """Sets a variable."""
        if is_other(value, of):
            raise Stopped(f'the variable {dest} gets no {of}')
        frame.values[dest] = value

    def leave(self, frame: Frame, one: Instruction) -> None:
        """A jump, a branch or a return."""
        if one.op == 'ret':
            self.give(frame, frame.value(one.args[0]) if one.args else None)
        else:
            goes_on = one.op == 'br' and not frame.value(one.args[0], 'bool')
            frame.at = frame.labels[one.labels[1 if goes_on else 0]]

    def give(self, frame: Frame, value: Optional[Value]) -> None:
        """Returns a value, or none, to the caller."""
        of = frame.function.type
        if (value is None) != (of is None) or value is not None and is_other(value, of):
            raise Stopped(f'@{frame.function.name} returns no {of}')
        self.frames.pop()
        if not self.frames:
            self.result = value
        elif frame.dest is not None:
            self.frames[-1].values[frame.dest] = value


def spelled(value: Value) -> str:
    """A value as it is printed."""
    return str(value).lower()


def input_of(word: str) -> Value:
    """An input of its word."""
    if word in ('true', 'false'):
        return word == 'true'
    try:
        return wrapped(int(word))
    except ValueError:
        raise mir_text.Fault(f'no number: {word}') from None


def work() -> None:
    """Runs the program of the first word with the others as inputs."""
    functions = program(mir_text.read_input(sys.argv[1] if len(sys.argv) > 1 else None))
    if 'main' not in [function.name for function in functions]:
        raise mir_text.Fault('there is no function @main')
    found = Run(functions).report([input_of(word) for word in sys.argv[2:]], 10 ** 8)
    for values in found.printed:
        print(*map(spelled, values))
    print(f'total_dyn_inst: {found.count}', file=sys.stderr)
    if found.stopped:
        print(f'stopped: {one_line(found.stopped)}', file=sys.stderr)
        sys.exit(2)


def main() -> int:
    """Runs a program of Bril."""
    return mir_text.run_tool('bril_run', work)


if __name__ == '__main__':
    sys.exit(main())
