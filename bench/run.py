#!/usr/bin/env python3
"""Measures `mir` on workloads that it writes itself: wall time, peak memory, page faults, and how the first two grow.

    bench/run.py [--mir PATH] [--repeat N] [--callgrind] [WORKLOAD ..]

With no workload named, all are measured; tables by the `mir_tables` beside a `mir` that is named. What each shows stands
in WORKLOADS, and is printed with it; README.md beside this file has the numbers. To add a workload, write a function that
gives its cases, and a line in WORKLOADS. It runs on Linux alone, with Python's standard library.
"""

import argparse
import itertools
import subprocess
import sys
import tempfile
from pathlib import Path
from typing import Callable, NamedTuple, Optional

from measuring import (ENDED, RUNNING, Case, Failure, Measure, adopt_orphans, instructions, judge, measure,
                       take_tables)
from texts import (LOOP, LOOP_OF_CALLS, LOOP_OF_CALLS_GLOBAL, LOOP_OF_GLOBALS, dense, diamonds, doubling,
                   edges_into_one_join, gotos_in_a_chain, joins_used_at_end, joins_used_in_arms, joins_with_copies,
                   joins_with_prints, loops_in_a_row, loops_laid_out, many_names, many_units, nested_loops,
                   nests_tested_first, nests_tested_last, reversed_copies, self_tail_calls, small_leaves, straight,
                   sums_in_a_line, sums_of_one, sums_used_at_exits, tail_calls_over_names, tests_over_one, twins,
                   with_divisions)

TOP = Path(__file__).resolve().parent.parent
MIR, PROGRAM = str(TOP / 'mir'), TOP / 'crates' / 'mir_main' / 'out' / 'mir_main'

# The lengths of texts: a quarter, a half and the whole of what a text may have.
LENGTHS = (262_144, 524_288, 1_048_576)

# Less than this above the smallest program is noise, and no ratio is made of it.
LEAST_SECONDS, LEAST_BYTES = 0.001, 200_000


class Workload(NamedTuple):
    """Cases that grow: what they show, and of what their sizes are."""

    name: str
    about: str
    unit: str
    cases: Callable[[], list[Case]]
    # Cases whose instructions are counted under `--callgrind`, where that is of use.
    counted: Optional[Callable[[], list[Case]]] = None
    # Cases of another command of the same sizes, beside whose instructions these are shown, and how many times as many are
    # aimed at.
    beside: Optional[Callable[[], list[Case]]] = None
    most: float = 0


# ---- workloads


def smallest() -> Case:
    """The smallest program. What it takes is taken off what the others do."""
    return Case(0, ['run', '1'], 'main: begin\nend\n', ENDED, 'result 0\nevals 0\n')


def reading() -> list[Case]:
    """Texts of many units, of which one step is run, a test."""
    return [
        Case(length, ['run', '1'], many_units(length), RUNNING, 'running\nevals 0\n')
        for length in LENGTHS
    ]


def names() -> list[Case]:
    """Texts full of different names, of which one step is run, a sum."""
    return [
        Case(length, ['run', '1'], many_names(length), RUNNING, 'running\nevals 1\n')
        for length in LENGTHS
    ]


def loop_of(steps: int, text: str = LOOP) -> Case:
    """So many steps of a loop, a multiple of 4; two in four are evaluations."""
    return Case(steps, ['run', str(steps)], text, RUNNING, f'running\nevals {steps // 2}\n')


def calls_of(steps: int, text: str) -> Case:
    """So many steps of a loop of calls, a multiple of 6; two in six are evaluations."""
    return Case(steps, ['run', str(steps)], text, RUNNING, f'running\nevals {steps // 3}\n')


# What source instructions, source evaluations and printed numbers the trial of number 0 has with so many units: they were
# worked out by another program, from the definition.
TRIALS = {64: (8855, 10322, 1045), 128: (17849, 20881, 2032), 256: (35668, 41931, 4105)}


def trial() -> list[Case]:
    """Programs that a number draws, whose runs and those of their targets end."""
    return [
        Case(
            units,
            ['trial', '0', str(units)],
            '',
            ENDED,
            f'source instructions {insts}\nresult instructions N\nsource evals {evals}\nresult evals N\nprinted {printed}\n',
            is_pattern=True,
        )
        for units, (insts, evals, printed) in TRIALS.items()
    ]


# The numbers of instructions of a unit: up to a quarter of what a unit may have, and from there to all of it.
INSTRUCTIONS, LONG = (1024, 2048, 4096), (4096, 8192, 16_384)


def graphs() -> list[Case]:
    """Units of many loops, which are lowered, cleaned and laid out as they were."""
    cases = []
    for instructions in INSTRUCTIONS:
        text = ''.join(loops_laid_out(f'u{number}', instructions) for number in range(12))
        cases.append(Case(instructions, ['optimise'], text, ENDED, text))
    return cases


def chains() -> list[Case]:
    """Units of one long chain of gotos, of which nothing but the print at its end is left."""
    cases = []
    for instructions in INSTRUCTIONS:
        text = ''.join(gotos_in_a_chain(f'u{number}', instructions) for number in range(12))
        output = ''.join(f'u{number}: begin\nprint 1\nreturn 0\nend\n' for number in range(12))
        cases.append(Case(instructions, ['optimise'], text, ENDED, output))
    return cases


def line() -> list[Case]:
    """Units of one line of assignments, all of which are constants in the end."""
    cases = []
    for count in INSTRUCTIONS:
        text, known = sums_in_a_line('main', count)
        cases.append(Case(count, ['optimise'], text, ENDED, known))
    return cases


def diamonds_by(word: str) -> list[Case]:
    """A unit of 250, 500 and 1,000 diamonds, under this command."""
    cases = []
    for count in (250, 500, 1000):
        text, moved = diamonds('main', count)
        cases.append(Case(4 * count, [word], text, ENDED, moved))
    return cases


def nested_by(word: str) -> list[Case]:
    """A unit of 32 nested loops that is full of different expressions, under this command."""
    cases = []
    for instructions in INSTRUCTIONS:
        text, moved = nested_loops('main', instructions, 32)
        cases.append(Case(instructions, [word], text, ENDED, moved))
    return cases


def units_by(word: str) -> list[Case]:
    """64, 128 and 256 units of 58 diamonds, 235 instructions each, under this command."""
    cases = []
    for count in (64, 128, 256):
        units = [diamonds(f'u{number}', 58) for number in range(count)]
        text, moved = (''.join(parts) for parts in zip(*units))
        cases.append(Case(count, [word], text, ENDED, moved))
    return cases


def stays(text: str) -> tuple[str, str]:
    """A text that is its own layout and in which no code moves: what goes in and what comes out."""
    return text, text


def sized_by(sizes: tuple[int, ...], texts: Callable[[int], tuple[str, str]]) -> Callable[[str], list[Case]]:
    """The cases of a command on the texts of these sizes: what goes in, and what comes out."""
    return lambda word: [Case(size, [word], text, ENDED, moved) for size in sizes for text, moved in [texts(size)]]


def by_runs(sizes: tuple[int, ...], texts: Callable[[int], str]) -> Callable[[], list[Case]]:
    """The cases of `optimise` on the texts of these sizes, judged by their runs."""
    return lambda: [Case(size, ['optimise'], texts(size), ENDED, None) for size in sizes]


def judged(cases: list[Case]) -> list[Case]:
    """The cases of a command on code motion: what `move` writes is known, and what others write is judged. The texts of
    `divisions` divide where those of the others add."""
    if cases[0].words == ['move']:
        return cases
    cases = [case._replace(output=None) for case in cases]
    return [case._replace(text=with_divisions(case.text)) for case in cases] if cases[0].words == ['divisions'] else cases


# How many joins, tests, loops and sums: a quarter, a half and all that 4,096 instructions have room for, or nearly so.
JOINS, TESTS, LOOPS, SUMS = (250, 500, 1000), (300, 600, 1200), (55, 110, 220), (1000, 2000, 4000)

# What the passes before and after code motion are measured on.
VALUES = [
    Workload(name, about, unit, by_runs(sizes, texts), by_runs(sizes, texts))
    for name, about, unit, sizes, texts in (
        ('doubling', 'terms that double with each line', 'lines', SUMS, lambda lines: doubling('main', lines)),
        (
            'twins',
            'a line over 40 names, every second instruction of which computes again',
            'insts',
            (1024, 2048, 4096),
            lambda insts: twins('main', insts),
        ),
        (
            'joins-copies',
            'a copy in both arms before each join, another one for each join',
            'joins',
            JOINS,
            lambda joins: joins_with_copies('main', joins),
        ),
        ('dense', 'loops up to six deep over 92 names', 'insts', INSTRUCTIONS, lambda insts: dense('main', insts)),
        ('diamonds-long', 'as many diamonds as a unit may have', 'insts', LONG,
         lambda insts: diamonds('main', (insts - 3) // 4)[0]),
        ('sums-long', 'as many different sums as a unit may have, of which one is read', 'insts', LONG,
         lambda insts: sums_of_one('main', insts)),
        ('straight', 'no jump, over 40 names', 'insts', INSTRUCTIONS, lambda insts: straight('main', insts)),
    )
]

# What code motion is measured on: under `move`, which does nothing else, as one of the passes of `optimise`, and under
# the commands that place by it, for which it is said how many times the instructions of `move` are aimed at.
MOTION_COMMANDS = {'move': 0, 'optimise': 0, 'ranges': 1.5, 'divisions': 2}
MOTION = [
    Workload(
        f'{name}-{word}',
        f'{about}, under {word}',
        unit,
        lambda cases=cases, word=word: judged(cases(word)),
        lambda cases=cases, word=word: judged(cases(word)),
        (lambda cases=cases: cases('move')) if most else None,
        most,
    )
    for name, about, unit, cases in (
        ('diamonds', 'code is moved in a chain of diamonds', 'insts', diamonds_by),
        ('nested', 'thousands of expressions are moved out of nested loops', 'insts', nested_by),
        ('units', 'code is moved in many units', 'units', units_by),
        (
            'joins-end',
            'an expression for each join, used once, after the last join',
            'joins',
            sized_by(JOINS, lambda joins: stays(joins_used_at_end('main', joins))),
        ),
        (
            'joins-arms',
            'an expression for each join, used in both arms before it',
            'joins',
            sized_by(JOINS, lambda joins: stays(joins_used_in_arms('main', joins))),
        ),
        (
            'tests',
            'tests that jump over one sum',
            'tests',
            sized_by(TESTS, lambda tests: stays(tests_over_one('main', tests))),
        ),
        (
            'loops-row',
            'loops in a row, each with 15 sums that are moved before it',
            'loops',
            sized_by(LOOPS, lambda loops: loops_in_a_row('main', loops, 15)),
        ),
        (
            'inserts-one',
            'different sums that are all moved before one node',
            'sums',
            sized_by(SUMS, lambda sums: nested_loops('main', sums + 4, 1)),
        ),
        (
            'inserts-each',
            'one sum that is put before each of many nodes',
            'nodes',
            sized_by(SUMS, lambda count: edges_into_one_join('main', count)),
        ),
    )
    for word, most in MOTION_COMMANDS.items()
]


def tails_by(word: str) -> list[Case]:
    """A unit of 1,024, 2,048 and 4,096 instructions with 50, 100 and 200 self tail calls of 16 arguments, under this
    command."""
    cases = []
    for instructions in INSTRUCTIONS:
        text, looped = self_tail_calls(instructions, instructions * 200 // 4096)
        cases.append(Case(instructions, [word], text, ENDED, looped if word == 'tails' else None))
    return cases


def joined_by(word: str, sizes: tuple[tuple[int, int], ...]) -> list[Case]:
    """Programs of so many leaves and so many calls of them, under this command."""
    cases = []
    for leaves, calls in sizes:
        text, joined = small_leaves(leaves, calls)
        cases.append(Case(calls, [word], text, ENDED, joined if word == 'join' else None))
    return cases


# How many leaves there are, and how many calls of them: with the same leaves, and with leaves for the calls. With more a
# unit would be too long, and join leaves it as it is.
CALLS, LEAVES = ((64, 448), (64, 896), (64, 1_792)), ((28, 448), (56, 896), (112, 1_792))

# What changes calls: what `tails` and `join` write is known.
UNITS = [
    Workload('tails', 'self tail calls of 16 arguments become jumps', 'insts', lambda: tails_by('tails'),
             lambda: tails_by('tails'), lambda: tails_by('move'), 4),
    *(Workload(name, about, 'calls', lambda sizes=sizes: joined_by('join', sizes),
               lambda sizes=sizes: joined_by('join', sizes), lambda sizes=sizes: joined_by('move', sizes))
      for name, about, sizes in (('join-calls', 'calls of 64 leaves are joined', CALLS),
                                 ('join-leaves', 'leaves are joined, each of them 16 times', LEAVES))),
]


def tabled_by(word: str, sizes: tuple[int, ...], texts: Callable[[int], str]) -> list[Case]:
    """The cases of this word, `tables` or `stages`, on the texts of these sizes."""
    return [Case(size, [word], texts(size), ENDED, None) for size in sizes]


# What tables are measured on. Their passes are asked once more for what they find out, so twice what `stages` takes is
# aimed at beside the bytes that are written.
TABLED = [
    Workload(f'{name}-tables', f'the tables of {about}', unit,
             lambda sizes=sizes, texts=texts: tabled_by('tables', sizes, texts),
             lambda sizes=sizes, texts=texts: tabled_by('tables', sizes, texts),
             lambda sizes=sizes, texts=texts: tabled_by('stages', sizes, texts), 2)
    for name, about, unit, sizes, texts in (
        ('diamonds', 'a chain of diamonds', 'diamonds', (250, 500, 1000), lambda count: diamonds('main', count)[0]),
        ('nested', 'nested loops full of sums', 'insts', INSTRUCTIONS, lambda insts: nested_loops('main', insts, 32)[0]),
        ('tests', 'tests that jump over one sum', 'tests', TESTS, lambda tests: tests_over_one('main', tests)),
        ('loops-row', 'loops in a row', 'loops', LOOPS, lambda loops: loops_in_a_row('main', loops, 15)[0]),
        ('twins', 'a line that computes again', 'insts', INSTRUCTIONS, lambda insts: twins('main', insts)),
    )
]

# Shapes whose times or texts grow faster than they do. What the last two write grows with the square by definition, so
# their sizes leave it short enough to be read back.
GROWING = [
    Workload(name, about, unit,
             lambda word=word, sizes=sizes, texts=texts: [Case(size, [word], texts(size), ENDED, None) for size in sizes])
    for name, word, about, unit, sizes, texts in (
        ('reversed-copies', 'optimise', 'a loop of copies, from the last to the first, which finds out one more in each turn',
         'copies', (100, 200, 400), lambda count: reversed_copies('main', count)),
        ('nests-first', 'optimise', 'loops within each other, tested before their bodies', 'loops', (100, 200, 400),
         lambda depth: nests_tested_first('main', depth)),
        ('nests-first-move', 'move', 'the same under move', 'loops', (1000, 2000, 4000),
         lambda depth: nests_tested_first('main', depth)),
        ('nests-last', 'optimise', 'loops within each other, tested after their bodies', 'loops', (100, 200, 400),
         lambda depth: nests_tested_last('main', depth)),
        ('joins-prints', 'optimise', 'joins in a row with a variable and a print each', 'joins', (1250, 2500, 5000),
         lambda count: joins_with_prints('main', count)),
        ('sums-at-exits', 'optimise', 'sums in reverse order that are used at each exit', 'sums', (40, 80, 160),
         lambda count: sums_used_at_exits('main', count)),
        ('tails-names', 'tails', 'self tail calls in a unit of twice as many variables', 'calls', (20, 40, 80),
         lambda calls: tail_calls_over_names('main', 2 * calls, calls)),
    )
]

WORKLOADS = [
    Workload(
        'reading',
        'texts of 64, 128 and 256 units are read and checked',
        'bytes',
        reading,
    ),
    Workload(
        'names',
        '16 units full of different variables and labels are read and checked',
        'bytes',
        names,
    ),
    Workload(
        'graphs',
        '12 units of loops are lowered, cleaned and laid out',
        'insts',
        graphs,
    ),
    Workload(
        'chains',
        '12 units of one chain of gotos each are lowered, cleaned and laid out',
        'insts',
        chains,
    ),
    Workload(
        'line',
        'a line of assignments to as many variables, which are all constants',
        'insts',
        line,
        line,
    ),
    Workload(
        'loop',
        'a loop of four instructions is run',
        'steps',
        lambda: [loop_of(250_000), loop_of(500_000), loop_of(1_000_000)],
        lambda: [loop_of(100_000), loop_of(200_000)],
    ),
    Workload(
        'loop-globals',
        'the same loop is run where its sum and its counter are globals',
        'steps',
        lambda: [loop_of(steps, LOOP_OF_GLOBALS) for steps in (250_000, 500_000, 1_000_000)],
        lambda: [loop_of(steps, LOOP_OF_GLOBALS) for steps in (100_000, 200_000)],
    ),
    *(Workload(name, about, 'steps',
               lambda text=text: [calls_of(steps, text) for steps in (240_000, 480_000, 960_000)],
               lambda text=text: [calls_of(steps, text) for steps in (120_000, 240_000)])
      for name, about, text in (('calls', 'a loop of calls is run', LOOP_OF_CALLS),
                                ('calls-global', 'the same, and the called unit adds to a global',
                                 LOOP_OF_CALLS_GLOBAL))),
    Workload(
        'trial',
        'a large program is drawn, optimised and run, and its target too',
        'units',
        trial,
        trial,
    ),
    *VALUES,
    *MOTION,
    *UNITS,
    *TABLED,
    *GROWING,
]


def warm_up(command: list[str]) -> None:
    """Calls the command on the smallest program. This may build it, so the error output is shown as it comes."""
    case = smallest()
    answer = subprocess.run(command + case.words, input=case.text, stdout=subprocess.PIPE, text=True, check=False)
    judge(command, case, answer.returncode, answer.stdout, '')


# ---- output


def ratio(value: float, first: float, least: float) -> str:
    """How many times the first value this one is, where the first is not too small to tell."""
    return f'{value / first:.2f}' if first >= least else '-'


def show(workload: Workload, measures: list[tuple[int, Measure]], start: Measure) -> None:
    """Prints a line for each case: what it took, and its growth above the first case, less what the start took."""
    unit = workload.unit
    print(f'\n{workload.name}: {workload.about}')
    print(f'{unit:>12}{"time s":>10}{"memory MB":>11}{"faults":>9}{unit + "/s":>13}{"x " + unit:>10}{"x time":>9}'
          f'{"x memory":>10}')
    first_size, first = measures[0]
    for size, taken in measures:
        seconds, memory = taken.seconds - start.seconds, taken.bytes - start.bytes
        rate = f'{size / seconds:,.0f}' if seconds >= LEAST_SECONDS else '-'
        print(
            f'{size:>12,}{taken.seconds:>10.3f}{taken.bytes / 1e6:>11.1f}{taken.faults:>9,}{rate:>13}'
            f'{size / first_size:>10.2f}'
            f'{ratio(seconds, first.seconds - start.seconds, LEAST_SECONDS):>9}'
            f'{ratio(memory, first.bytes - start.bytes, LEAST_BYTES):>10}'
        )


def show_instructions(workload: Workload, counts: list[tuple[int, int]], word: str, beside: list[int]) -> None:
    """Prints the instructions of each case, beside those of another command where there are any, and those for each byte,
    step or join: the difference of the last case and the first over the difference of their sizes."""
    first_size, first = counts[0]
    last_size, last = counts[-1]
    for (size, count), other in itertools.zip_longest(counts, beside):
        moving = f', {word} {other:>15,}, {count / other:.2f} times as many' if other else ''
        print(f'{size:>12,}{count:>21,} instructions{ratio(count, first, 1):>9}{moving}')
    if workload.most:
        print(f'aimed at: at most {workload.most} times as many as {word}')
    each = (last - first) / (last_size - first_size)
    print(f'{each:,.1f} instructions for each of the {workload.unit}, from {first_size:,} to {last_size:,}')


# ---- the command line


def options() -> argparse.Namespace:
    """What the command line asks."""
    parser = argparse.ArgumentParser(description='Measures mir: wall time, peak memory, and how both grow.')
    parser.add_argument('workloads', nargs='*', metavar='WORKLOAD', help=', '.join(w.name for w in WORKLOADS))
    parser.add_argument('--mir', default=MIR, metavar='PATH', help='the command to measure (./mir)')
    parser.add_argument('--repeat', type=int, default=3, metavar='N', help='take the least time of N calls (3)')
    parser.add_argument('--callgrind', action='store_true', help='count the instructions of the processor too')
    asked = parser.parse_args()
    unknown = set(asked.workloads) - {w.name for w in WORKLOADS}
    if unknown or asked.repeat < 1:
        parser.error(f'no workload {", ".join(sorted(unknown))}' if unknown else 'N is at least 1')
    return asked


def main() -> int:
    """Measures the workloads that were asked for."""
    asked = options()
    command = [str(Path(asked.mir).resolve())]
    program = command[0] if asked.mir != MIR else str(PROGRAM)
    if asked.mir != MIR:
        take_tables(asked.mir)
    warm_up(command)
    adopt_orphans()
    with tempfile.TemporaryDirectory(prefix='mir-bench-') as name:
        folder = Path(name)
        start = measure(command, smallest(), folder, asked.repeat)
        print(f'start: the smallest program, {start.seconds:.3f} s, {start.bytes / 1e6:.1f} MB')
        for workload in WORKLOADS:
            if asked.workloads and workload.name not in asked.workloads:
                continue
            measures = [(case.size, measure(command, case, folder, asked.repeat)) for case in workload.cases()]
            show(workload, measures, start)
            if asked.callgrind and workload.counted:
                counts = [(case.size, instructions(program, case, folder)) for case in workload.counted()]
                others = workload.beside() if workload.beside else []
                word = others[0].words[0] if others else ''
                show_instructions(workload, counts, word, [instructions(program, case, folder) for case in others])
    return 0


if __name__ == '__main__':
    try:
        sys.exit(main())
    except (Failure, OSError) as failure:
        sys.exit(f'bench/run.py: {failure}')
