#!/usr/bin/env python3
"""Tells what `thorough` would leave of C programs where loops are rotated, or evaluated ahead, which no pass of `mir` does.

    bench/loops.py [--mir PATH] [--set NAME] [--csmith N] [--least N] [--jobs N] [--keep FOLDER] [--counted PATH]

Both are made here of the text that `thorough` writes, and `thorough` is made again of what comes of it:

    rotated   where a loop begins with assignments and a test that leaves it, and an edge leads back that follows no test that
              leaves it too, copies of these stand at the end of this edge: what does not change in the loop is then sure to
              be evaluated where it is entered, and so may move before it
    ahead     where all that a loop evaluates is known where it is entered, it is run here, up to 20,000 steps; what it assigns
              is assigned by numbers, and what comes behind it is gone to

The programs are those of a set of `bench/real.py` of which the runs under `thorough` evaluate N operators or more, judged
here or taken from the folder of `--keep` as `bench/left.py` does. What each prints in its runs is compared. Each way is
made until it finds nothing more, three times at most. It wants csmith, libcsmith-dev, clang and opt.
"""

import argparse
import sys
from concurrent.futures import ThreadPoolExecutor
from typing import Callable, Optional

import interpret
import left
import mir_text
from flow import edges_of, reached
from mir_text import Assign, Call, Goto, If, Plain, Receive, Return, Unary, Unit
from real_tables import row

# The most steps for which a loop is run here, the most assignments of which copies are made, and how often a way is made.
STEPS, COPIES, TURNS = 20_000, 40, 3
# What is known of variables, and the edges that lead elsewhere: to a label of the lines that are added.
State = dict[str, int]
Moved = dict[tuple[int, int], str]


def loops_of(unit: Unit) -> dict[int, set[int]]:
    """The places in each loop, by the place at which it begins."""
    after = {place: [edge.target for edge in edges_of(unit, place)] for place in reached(unit)}
    before: dict[int, list[int]] = {place: [] for place in after}
    for place, targets in after.items():
        for target in targets:
            before[target].append(place)
    back: dict[int, list[int]] = {}
    stack, on_path, seen = [(0, iter(after[0]))], {0}, {0}
    while stack:
        place, rest = stack[-1]
        target = next(rest, None)
        if target is None:
            on_path.remove(stack.pop()[0])
        elif target in on_path:
            back.setdefault(target, []).append(place)
        elif target not in seen:
            seen.add(target)
            on_path.add(target)
            stack.append((target, iter(after[target])))
    found = {}
    for head, waiting in back.items():
        found[head] = {head}
        while waiting:
            place = waiting.pop()
            if place not in found[head]:
                found[head].add(place)
                waiting += before[place]
    return found


def into(unit: Unit, head: int) -> list[int]:
    """The places from which an edge leads to this one."""
    return [place for place in reached(unit) if any(edge.target == head for edge in edges_of(unit, place))]


def beginning(unit: Unit, head: int, body: set[int]) -> Optional[tuple[list[Assign], int]]:
    """The assignments with which a loop begins, and the place of the test behind them, if it leaves the loop."""
    copied, place, seen = [], head, set()
    while place in body - seen and place < len(unit.instructions) and len(copied) <= COPIES:
        seen.add(place)
        one = unit.instructions[place]
        if isinstance(one, If):
            return (copied, place) if leaves(unit, place, body) else None
        if not isinstance(one, (Assign, Goto)):
            return None
        copied += [one] * isinstance(one, Assign)
        place = edges_of(unit, place)[0].target
    return None


def leaves(unit: Unit, place: int, body: set[int]) -> bool:
    """Whether an edge leads from this place out of the loop."""
    return any(edge.target not in body for edge in edges_of(unit, place))


def rotated(unit: Unit, shared: tuple[str, ...]) -> tuple[Moved, list[str]]:
    """Loops whose tests stand at their ends too."""
    moved, added = {}, []
    for head, body in loops_of(unit).items():
        found = beginning(unit, head, body)
        ends = [place for place in into(unit, head) if place in body and not leaves(unit, place, body)] if found else []
        if ends:
            copied, test = found
            yes, no = (f'P{edge.target}' for edge in edges_of(unit, test))
            lines = [mir_text.instruction_text(one) for one in copied]
            lines += [f'if {mir_text.value_text(unit.instructions[test].test)} goto {yes}', f'goto {no}']
            added += [f'R{head}: {lines[0]}', *lines[1:]]
            moved.update({(place, head): f'R{head}' for place in ends})
    return moved, added


def value_of(value: mir_text.Value, state: State) -> Optional[int]:
    """The value of a right side or a test, if it is known."""
    read = [each if isinstance(each, int) else state.get(each) for each in mir_text.operands_of(value)]
    if None in read:
        return None
    if isinstance(value, Plain):
        return read[0]
    function = (interpret.UNARY if isinstance(value, Unary) else interpret.BINARY)[value.operator]
    try:
        return function(*read)
    except interpret.Trap:
        return None


def behind(one: mir_text.Instruction, state: State, shared: tuple[str, ...]) -> State:
    """What is known behind an instruction."""
    value = value_of(one.value, state) if isinstance(one, Assign) else None
    gone = mir_text.variables_in(one)[1] | (set(shared) if isinstance(one, Call) else set())
    return {**{name: known for name, known in state.items() if name not in gone},
            **({one.name: value} if value is not None else {})}


def known_before(unit: Unit, shared: tuple[str, ...]) -> dict[int, State]:
    """What is known before each place on all paths: variables of the unit begin with 0."""
    known = {0: dict.fromkeys(mir_text.variables_of(unit) - set(shared), 0)}
    waiting = [0]
    while waiting:
        place = waiting.pop()
        if place < len(unit.instructions):
            state = behind(unit.instructions[place], known[place], shared)
            for edge in edges_of(unit, place):
                old = known.get(edge.target)
                new = state if old is None else {name: value for name, value in old.items() if state.get(name) == value}
                if new != old:
                    known[edge.target] = new
                    waiting.append(edge.target)
    return known


def run_ahead(unit: Unit, state: State, place: int, body: set[int]) -> Optional[tuple[State, int]]:
    """What a loop assigns from here on, and to which place behind it it comes, if all that it evaluates is known."""
    state, assigned = dict(state), {}
    for _ in range(STEPS):
        if place not in body:
            return assigned, place
        one = unit.instructions[place] if place < len(unit.instructions) else None
        if not isinstance(one, (Assign, Goto, If)):
            return None
        value = 0 if isinstance(one, Goto) else value_of(one.test if isinstance(one, If) else one.value, state)
        if value is None:
            return None
        if isinstance(one, Assign):
            state[one.name] = assigned[one.name] = value
        place = unit.labels[one.label] if isinstance(one, Goto) or isinstance(one, If) and value else place + 1
    return None


def ahead(unit: Unit, shared: tuple[str, ...]) -> tuple[Moved, list[str]]:
    """Loops that were run, in the place of which are the numbers that they assign."""
    moved, added, known = {}, [], known_before(unit, shared)
    for head, body in loops_of(unit).items():
        for place in (place for place in into(unit, head) if place not in body):
            found = run_ahead(unit, behind(unit.instructions[place], known[place], shared), head, body)
            if found:
                lines = [f'{name} <- {value}' for name, value in found[0].items()] + [f'goto P{found[1]}']
                moved[place, head] = f'A{len(added)}'
                added += [f'A{len(added)}: {lines[0]}', *lines[1:]]
    return moved, added


def written(text: str, way: Callable[[Unit, tuple[str, ...]], tuple[Moved, list[str]]]) -> str:
    """The text in which some loops are otherwise; the same where none is."""
    parser = mir_text.Parser(list(mir_text.tokens(text)))
    shared = tuple(name for name, _ in parser.globals())
    lines, changed = [f'global {name}' for name in shared], False
    for unit in parser.units():
        moved, added = way(unit, shared)
        changed |= bool(moved)
        lines.append(f'{unit.name}: begin')
        for place, one in enumerate(unit.instructions):
            to = [moved.get((place, edge.target), f'P{edge.target}') for edge in edges_of(unit, place)]
            shown = one._replace(label=to[0]) if isinstance(one, (Goto, If)) else one
            lines.append(('' if isinstance(one, Receive) else f'P{place}: ') + mir_text.instruction_text(shown))
            lines += [] if isinstance(one, (Goto, Return)) or to[-1][0] == 'P' else [f'goto {to[-1]}']
        lines += [f'P{len(unit.instructions)}: return 0', *added, 'end']
    return '\n'.join([*lines, '']) if changed else text


def made(program: left.Left, ways: tuple) -> int:
    """How many operators are left where loops are otherwise in these ways, one after the other, and `thorough` behind each."""
    text = program.text
    for way in ways:
        for _ in range(TURNS):
            new = written(text, way)
            if new == text:
                break
            new = program.thorough(new)
            if program.evals(new) == '':
                break
            text = new
    return program.evals(text)


def rows_of(given: argparse.Namespace, judged: left.Judged) -> list[list]:
    """A row for each program, and one of their sums."""
    names = [each.name for each in judged.whole if each.evals['thorough'] >= given.least]

    def counted(name: str) -> list:
        """The row of a program."""
        source, texts, _ = judged.read(judged.files[name])
        program = left.Left(judged.bench, texts[name], source.inputs)
        return [name, *(made(program, ways) for ways in ((), (rotated,), (ahead,), (rotated, ahead)))]

    found = []
    with ThreadPoolExecutor(given.jobs) as pool:
        for one in pool.map(counted, names):
            found.append(one)
            print(row(one), flush=True)
    return [*found, [f'{len(found)} programs', *(sum(column) for column in list(zip(*found))[1:])]]


def main() -> int:
    """Shows the table."""
    words = left.words_of(__doc__.split('\n')[0])
    words.add_argument('--least', type=int, default=0, metavar='N', help='of which programs: of how many operators (0)')
    given = words.parse_args()
    print('| Program | `thorough` | rotated | ahead | both |')
    print(row(left.with_judged(given, rows_of)[-1]))
    return 0


if __name__ == '__main__':
    sys.exit(main())
