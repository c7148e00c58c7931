#!/usr/bin/env python3
"""Counts what runs of the programs of examples/bril/ take, before and after `mir` has worked on them.

    bench/bril.py [--mir PATH] [FILE ..]

Each program comes in (`tools/from_bril`), and goes out again of what each command makes of it (`tools/to_bril`). The
first columns are the operators that `mir run` counts in a run with the inputs that the program names behind `ARGS`: of
the source, and of what `optimise` makes of it, and `thorough` where the program that is tried has this command. The
others are the instructions that an interpreter of Bril counts, constants and jumps among them
(`tools/bril_run.py`): of the program as it is, and of what goes out. All print the same, or it is said and the status
is 1. It wants Python 3.9 and its standard library.
"""

import argparse
import re
import subprocess
import sys
from pathlib import Path
from typing import NamedTuple

TOP = Path(__file__).resolve().parent.parent
sys.dont_write_bytecode = True
sys.path.insert(0, str(TOP / 'tools'))

import bril_run  # noqa: E402
import bril_text  # noqa: E402
from tool_calls import module_of  # noqa: E402

COMMANDS = ('optimise', 'thorough')
STEPS, COUNT = '1000000', 10 ** 7


class Row(NamedTuple):
    """What the runs of a program take: operators of MIR, and instructions of Bril, in each way."""

    name: str
    inputs: str
    operators: list[int]
    instructions: list[int]


def ran(mir: str, words: list[str], text: str) -> str:
    """What a call of `mir` writes."""
    said = subprocess.run([mir, *words], input=text.encode(), capture_output=True)
    if said.returncode:
        sys.exit(f'bench/bril.py: {words[0]}: {said.stderr.decode().strip()}')
    return said.stdout.decode()


def judged(path: Path, mir: str, commands: list[str]) -> Row:
    """The row of a program, all of whose runs print the same."""
    source = path.read_text(encoding='utf-8')
    inputs = re.search('^# ARGS: (.*)$', source, re.MULTILINE)[1].split()
    plain, _ = module_of('from_bril').mir_of(source)
    texts = [plain, *(ran(mir, [command], plain) for command in commands)]
    reports = [ran(mir, ['run', STEPS, *inputs], text).splitlines() for text in texts]
    functions = [bril_text.program(source), *(module_of('to_bril').bril_of(text) for text in texts[1:])]
    found = [bril_run.Run(each).report(list(map(int, inputs)), COUNT) for each in functions]
    printed = [lines[:-2] for lines in reports]
    printed += [[str(int(value)) for values in each.printed for value in values] for each in found]
    if any(each.stopped for each in found) or any(lines != printed[0] for lines in printed):
        sys.exit(f'bench/bril.py: {path.name} prints otherwise, or stops')
    return Row(path.stem, ' '.join(inputs), [int(lines[-1].split()[1]) for lines in reports],
               [each.count for each in found])


def table(rows: list[Row], commands: list[str]) -> str:
    """The rows as text, in columns."""
    lines = [['', '', 'operators', *commands, 'instructions', *commands],
             *([row.name, row.inputs, *(f'{number:,}' for number in [*row.operators, *row.instructions])]
               for row in rows)]
    wide = [max(len(line[at]) for line in lines) for at in range(len(lines[0]))]
    return '\n'.join('  '.join(cell.ljust(size) if at < 2 else cell.rjust(size)
                               for at, (cell, size) in enumerate(zip(line, wide))).rstrip() for line in lines)


def main() -> int:
    """Prints the table."""
    words = argparse.ArgumentParser(description=__doc__.split('\n')[0])
    words.add_argument('--mir', default=str(TOP / 'mir'), metavar='PATH', help='the program that is tried')
    words.add_argument('files', nargs='*', type=Path, metavar='FILE', help='programs in Bril; those of examples/bril/')
    given = words.parse_args()
    try:
        usage = subprocess.run([given.mir], capture_output=True, text=True).stderr
    except OSError as fault:
        sys.exit(f'bench/bril.py: {fault}')
    commands = [command for command in COMMANDS if re.search(rf'[ |]{command}\b', usage)]
    files = given.files or sorted(TOP.glob('examples/bril/*.bril'))
    print(table([judged(path, given.mir, commands) for path in files], commands))
    return 0


if __name__ == '__main__':
    sys.exit(main())
