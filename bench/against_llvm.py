#!/usr/bin/env python3
"""Compares `mir optimise` with LLVM's passes, and runs of `mir` with runs of compiled programs.

    bench/against_llvm.py [--mir PATH] [--programs N] [--repeat N] [--seed N]

First the workloads of `run.py` under `optimise`, each beside `opt` on the same program as LLVM IR, in one run, as the
ratio of the least processor times of some calls, which a busy machine changes little; both read a text and write one,
but do not do the same work: a ratio says what a user pays and no more. Then programs that are drawn at random, each as
it is, after `optimise`, and compiled from either (`tools/compile`): whatever ends or traps must print the same, and
every difference is shown. Where `opt` or `clang` is not there it says so. It wants Python 3.9 and its standard library.
"""

import argparse
import importlib.util
import random
import resource
import shutil
import subprocess
import sys
import tempfile
from pathlib import Path
from typing import Callable, Union

TOP = Path(__file__).resolve().parent.parent
PASSES = 'mem2reg,simplifycfg,sccp,gvn,sink,adce,simplifycfg'
STEPS = '20000'
# `opt` takes up to 10 seconds, so it is called no more often.
MOST_OF_OPT = 3


def module(name: str):
    """The file of this folder with that name, as a module."""
    spec = importlib.util.spec_from_file_location(name, TOP / 'bench' / f'{name}.py')
    made = importlib.util.module_from_spec(spec)
    sys.modules[name] = made
    spec.loader.exec_module(made)
    return made


def ran(words: list, text: bytes = b'') -> subprocess.CompletedProcess:
    """A finished call."""
    return subprocess.run([str(word) for word in words], input=text, capture_output=True, timeout=600)


def children_seconds() -> float:
    """The processor seconds of all finished calls so far."""
    used = resource.getrusage(resource.RUSAGE_CHILDREN)
    return used.ru_utime + used.ru_stime


def least_time(work: Callable[[], subprocess.CompletedProcess], repeat: int) -> float:
    """The least processor seconds of some calls, each of which has to end with status 0."""
    times = []
    for _ in range(repeat):
        begin = children_seconds()
        said = work()
        times.append(children_seconds() - begin)
        if said.returncode:
            sys.exit(f'against_llvm: {said.args[0]}: {said.stderr.decode()[:400]}')
    return min(times)


def both_times(mir: str, case, repeat: int, folder: Path) -> Union[str, tuple[float, float]]:
    """The processor seconds of `mir optimise` and of `opt` for a case, or why there is no LLVM IR of it."""
    text, source = case.text.encode(), folder / 'source.ll'
    made = ran([TOP / 'tools' / 'to_llvm'], text)
    if made.returncode:
        return made.stderr.decode().strip()
    source.write_bytes(made.stdout)
    opt = [shutil.which('opt'), '-S', f'-passes={PASSES}', source, '-o', '/dev/null']
    return least_time(lambda: ran([mir, 'optimise'], text), repeat), least_time(lambda: ran(opt), min(repeat, MOST_OF_OPT))


def compare_times(mir: str, repeat: int, folder: Path) -> None:
    """Prints a line for the greatest case of each workload under `optimise`."""
    if shutil.which('opt') is None:
        print('opt is not here: no times are compared')
        return
    print(f'{"workload":22} {"size":>9} {"mir s":>8} {"opt s":>8} {"mir / opt":>10}')
    for workload in module('run').WORKLOADS:
        case = workload.cases()[-1]
        if case.words != ['optimise']:
            continue
        found = both_times(mir, case, repeat, folder)
        if isinstance(found, str):
            print(f'{workload.name:22} {found}')
            continue
        ours, theirs = found
        print(f'{workload.name:22} {case.size:9} {ours:8.3f} {theirs:8.3f} {ours / theirs:10.2f}', flush=True)


class Draw:
    """Draws a program of a few units, each of which calls later ones alone, with up to two globals and with traps."""

    operators = ('+', '-', '*', '/', 'mod', 'min', 'max', 'shl', 'shr', 'shra', 'and', 'or', 'xor', '=', '<', '>=')
    relations = ('=', '!=', '<', '<=', '>', '>=')

    def __init__(self, seed: int):
        self.random = random.Random(seed)
        self.units = self.random.randint(1, 3)
        self.receives = [self.random.randint(0, 3) for _ in range(self.units)]
        self.globals = [f'g{number}' for number in range(self.random.randint(0, 2))]

    def variable(self) -> str:
        """One of six variables, or a global."""
        return self.random.choice([f'v{number}' for number in range(6)] + self.globals)

    def operand(self) -> str:
        """A variable, more often than a small or an extreme number."""
        if self.random.random() < 0.75:
            return self.variable()
        return str(self.random.choice((0, 1, -1, 2, 3, 7, -5, 63, 64, 2 ** 63 - 1, -2 ** 63)))

    def value(self) -> str:
        """A right side."""
        kind = self.random.random()
        if kind < 0.2:
            return self.operand()
        if kind < 0.3:
            return f'{self.random.choice("-!")} {self.operand()}'
        return f'{self.operand()} {self.random.choice(self.operators)} {self.operand()}'

    def instruction(self, unit: int, places: int) -> str:
        """An instruction of a unit that has labels for some places."""
        kind, target = self.random.random(), f'L{self.random.randrange(places)}'
        if kind < 0.55:
            return f'{self.variable()} <- {self.value()}'
        if kind < 0.65:
            return f'print {self.operand()}'
        if kind < 0.85:
            test = self.random.choice((self.operand(), f'! {self.operand()}',
                                       f'{self.operand()} {self.random.choice(self.relations)} {self.operand()}'))
            ends = f'trap {self.random.randrange(256)}' if kind < 0.68 else f'goto {target}'
            return f'if {test} {ends}'
        if kind < 0.9:
            return f'goto {target}'
        if kind < 0.95 and unit + 1 < self.units:
            callee = self.random.randrange(unit + 1, self.units)
            arguments = ';'.join(f'{self.operand()},int' for _ in range(self.receives[callee]))
            return f'{self.random.choice((f"{self.variable()} <-", "call"))} u{callee},({arguments})'
        return f'return {self.operand()}'

    def program(self) -> str:
        """The text."""
        lines = [f'global {name}' for name in self.globals]
        for unit in range(self.units):
            places = self.random.randint(4, 20)
            lines += [f'u{unit}: begin'] + [f'receive v{at}(val)' for at in range(self.receives[unit])]
            lines += [f'L{place}: {self.instruction(unit, places)}' for place in range(places)] + ['end']
        return '\n'.join(lines) + '\n'


def report(said: subprocess.CompletedProcess) -> tuple:
    """The status and the printed lines of a run, without the count of evaluations."""
    return said.returncode, [line for line in said.stdout.decode().splitlines() if not line.startswith('evals ')]


def compare_runs(mir: str, programs: int, seed: int, folder: Path) -> int:
    """Runs each drawn program as it is, optimised, and compiled from either; answers how many differences there are."""
    native = shutil.which('clang') is not None
    if not native:
        print('clang is not here: optimised programs run by mir alone')
    different, ended = 0, 0
    for number in range(programs):
        draw = Draw(seed + number)
        text = draw.program()
        words = [str(draw.random.choice((-7, -1, 0, 1, 2, 5, 40))) for _ in range(draw.receives[0])]
        wanted = report(ran([mir, 'run', STEPS, *words], text.encode()))
        made = ran([mir, 'optimise'], text.encode()).stdout
        if wanted[0] not in (0, 3):
            continue
        ended += 1
        found = {'optimised': report(ran([mir, 'run', '1000000', *words], made))}
        for kind, source in (('compiled', text.encode()), ('optimised and compiled', made)) if native else ():
            (folder / 'source').write_bytes(source)
            said = ran([TOP / 'tools' / 'compile', folder / 'source', '-o', folder / 'program'])
            found[kind] = report(ran([folder / 'program', *words])) if said.returncode == 0 else (said.stderr,)
        for kind, seen in found.items():
            if seen != wanted:
                different += 1
                print(f'program {seed + number} {words}, {kind}:\n{text}wanted {wanted}\nfound {seen}')
    print(f'{programs} programs, {ended} of which ended or trapped within {STEPS} steps: {different} differences')
    return different


def main() -> int:
    """Compares times, then runs."""
    words = argparse.ArgumentParser(description=__doc__.split('\n')[0])
    words.add_argument('--mir', default=str(TOP / 'mir'), help='the program that is compared')
    words.add_argument('--programs', type=int, default=300, help='how many programs are drawn')
    words.add_argument('--repeat', type=int, default=5, help='of how many calls the least time is taken; with 0 none is')
    words.add_argument('--seed', type=int, default=0, help='the number of the first program')
    given = words.parse_args()
    with tempfile.TemporaryDirectory() as made:
        if given.repeat:
            compare_times(given.mir, given.repeat, Path(made))
        return 1 if compare_runs(given.mir, given.programs, given.seed, Path(made)) else 0


if __name__ == '__main__':
    sys.exit(main())
