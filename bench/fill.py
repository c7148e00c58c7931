#!/usr/bin/env python3
"""Measures the seconds and the memory that README.md beside this file shows, and puts them there.

    bench/fill.py [--mir PATH] [--tables PATH] [--repeat N] [--jobs N] [--show] [--counts] [--page PATH]
    bench/fill.py --all [PART ..] [--mir PATH] [--tables PATH] [--counted PATH] [--repeat N] [--jobs N] [--csmith N]
                  [--gcc FOLDER] [--keep FOLDER] [--core N] [--page PATH] [--few]

A cell is filled by the head of its column and the workload and size of its row: `Time s`, `Memory MB`, `A second`,
`x time` and `x memory`; `move: s` and `move: MB`, and the same of `optimise`, of the workload with this command behind
its name; `mir s`, `opt s` and `mir / opt`, where `opt` is here. All other cells stay, and so does the text but for what
the start takes. With `--counts` it measures no time and counts instructions by callgrind, of N calls at a time:
`Instructions`, `x at half`, `move: millions` and the like, and the sentence on the other workloads. With `--show` the new
page is printed and not written.

With `--all` every number of the page is made anew, part by part, and the page is written behind each part; with names
of PARTS (below) these alone are made. What the scripts beside it count and measure is put in by `fill_scripts.py`;
csmith draws N programs a set, and the tests of GCC are those of FOLDER. With `--keep` a call that was cut off goes on
where it was: in this folder stands which parts were made of this program, and what became of its programs of C. When all
parts are made of one program, the head of the page says so. With `--few` each part takes few programs and texts: so it
is tried whether each works.

`turns` and `times` measure seconds of one call after the other, and so does `native` behind what it makes: they want a
machine that does nothing else. `limits` measures seconds of the processor, of N calls at a time, and the others count N
at a time, beside whatever else the machine does. `real`, `left`, `beside`, `bril` and `rounds` count what programs
evaluate that `mir` writes. So a program that `tools/build` makes of the same sources without proof may make them before,
and a call with `--keep` and `--counted`, which names it, takes them, where both write the same of some drawn programs.
`left` takes what `real` has judged with `--keep`, and judges it again without.

The programs are those that the gate built where no others are named, and `mir_tables` is the one beside a `mir` that is
named; where that is not proved, by the file `proof.txt` beside it, or with `--few`, README.md itself is not written. Of
each call the least time of N is taken, and the greatest peak. It runs on Linux alone, with Python's standard library;
`--all` wants csmith, clang, opt and valgrind too: on Debian 12 `apt-get install csmith libcsmith-dev clang llvm valgrind
gcc-12-source`, where the tests of GCC are in /usr/src/gcc-12/gcc-12.2.0-dfsg.tar.xz, in gcc/testsuite/gcc.c-torture/execute.
"""

import argparse
import datetime
import functools
import hashlib
import re
import shutil
import subprocess
import sys
import tempfile
from concurrent.futures import ProcessPoolExecutor, ThreadPoolExecutor
from pathlib import Path
from typing import Callable, Optional

sys.dont_write_bytecode = True

import against_llvm  # noqa: E402
import chains  # noqa: E402
import divisions  # noqa: E402
import fill_scripts  # noqa: E402
import measuring  # noqa: E402
import run  # noqa: E402
import wanted  # noqa: E402

PAGE = Path(__file__).resolve().parent / 'README.md'
PARTS = ('real', 'left', 'native', 'beside', 'bril', 'turns', 'rounds', 'limits', 'times', 'counts')
# Those that count what programs evaluate, and of how many programs of each kind it is asked whether two write the same.
COUNTED, ALIKE = ('real', 'left', 'beside', 'bril', 'rounds'), 100
# What `--all` calls, a header without which it would refuse each program of csmith, and the workloads whose rows are
# filled where few are taken.
TOOLS = ('csmith', 'clang', 'opt', 'valgrind')
HEADER = 'csmith/safe_math.h'
FEW = ('line', 'loop', 'diamonds', 'tails', 'diamonds-tables')


@functools.lru_cache(maxsize=None)
def cases_of(name: str) -> dict[int, run.Case]:
    """The cases of a workload by their sizes; of a name that ends in `, move`, those of the command beside it."""
    plain = name.removesuffix(', move')
    named = [workload for workload in run.WORKLOADS if workload.name == plain]
    found = [workload.cases() if plain == name else workload.beside() for workload in named]
    return {case.size: case for cases in found for case in cases}


def millions_of(mir: str, name: str, size: int, without_bytes: bool) -> float:
    """How many millions of instructions a case takes."""
    print(f'bench/fill.py: {name} {size:,}', file=sys.stderr, flush=True)
    with tempfile.TemporaryDirectory(prefix='mir-bench-') as folder:
        return run.instructions(mir, cases_of(name)[size], Path(folder), without_bytes) / 1e6


def begin(mir: str, tables: Optional[str]) -> None:
    """Has this process call these programs, and wait for what they leave."""
    measuring.take_tables(mir, tables)
    run.adopt_orphans()


class Meter:
    """Measures each call once."""

    def __init__(self, mir: str, repeat: int, folder: Path, counts: bool, few: bool = False):
        """What is called, how often, where the texts stand meanwhile, and whether instructions are counted, and of few
        workloads alone."""
        self.command, self.repeat, self.folder, self.few = [str(Path(mir).resolve())], repeat, folder, few
        self.workloads = {workload.name: workload for workload in run.WORKLOADS}
        self.counts, self.known, self.is_asking = counts, {}, False
        self.start = None if counts else run.measure(self.command, run.smallest(), folder, repeat)

    def is_filled(self, name: str) -> bool:
        """Whether what stands of a workload is made anew."""
        return not self.few or name in FEW

    def count(self, text: str, jobs: int, tables: Optional[str]) -> None:
        """Counts the instructions of all that the page wants, of some calls at a time."""
        self.is_asking = True
        filled(text, self)
        self.is_asking = False
        with ProcessPoolExecutor(jobs, initializer=begin, initargs=(self.command[0], tables)) as pool:
            # those of tables take longest
            keys = sorted(self.known, key=lambda key: '-tables' not in key[0])
            calls = {key: pool.submit(millions_of, self.command[0], *key) for key in keys}
            self.known = {key: made.result() for key, made in calls.items()}

    @functools.lru_cache(maxsize=None)
    def taken(self, name: str, size: int) -> run.Measure:
        """What a case takes."""
        print(f'bench/fill.py: {name} {size:,}', file=sys.stderr, flush=True)
        return run.measure(self.command, cases_of(name)[size], self.folder, self.repeat)

    def above(self, name: str, size: int) -> run.Measure:
        """The same, less what the start takes."""
        taken = self.taken(name, size)
        start = self.start
        return run.Measure(taken.seconds - start.seconds, taken.bytes - start.bytes, taken.faults - start.faults)

    @functools.lru_cache(maxsize=None)
    def beside(self, name: str, size: int) -> Optional[tuple[float, float]]:
        """The processor seconds of `mir` and of `opt`; none where `opt` is not here."""
        times = against_llvm.both_times(self.command[0], cases_of(name)[size], self.repeat, self.folder)
        return None if isinstance(times, str) else times

    def millions(self, name: str, size: int, without_bytes: bool = False) -> float:
        """How many millions of instructions a case takes; while it is asked which are wanted, any number."""
        if self.is_asking:
            self.known[name, size, without_bytes] = 1.0
        return self.known[name, size, without_bytes]

    def a_step(self, name: str) -> float:
        """How many instructions a step of a run takes: those of the last case less those of the first, by their steps."""
        first, last = (min(cases_of(name)), max(cases_of(name)))
        return (self.millions(name, last) - self.millions(name, first)) * 1e6 / (last - first)

    def against_half(self, name: str, size: int) -> str:
        """How many times as many a case takes as at half its size, where that is a case too."""
        return f'{self.millions(name, size) / self.millions(name, size // 2):.2f}' if size // 2 in cases_of(name) else ''

    def counted(self, heads: list[str], place: int, name: str, size: int, old: str) -> str:
        """The cell of instructions in this column of a row; the old one where it has none."""
        head, before = heads[place], heads[place - 1]
        command = re.fullmatch(r'(move|ranges|divisions|optimise): millions', head)
        if command:
            return f'{self.millions(f"{name}-{command[1]}", size):,.1f}'
        if head == 'x' and before == 'optimise: millions':
            return self.against_half(f'{name}-optimise', size)
        if 'stages' in heads and size not in [case.size for case in self.workloads[name].counted()]:
            return old
        if head == 'Instructions':
            return f'{self.millions(name, size):,.1f}'
        if head == 'x at half':
            return self.against_half(name, size)
        if head == 'x' and before == 'stages':
            return f'{self.millions(name, size) / self.millions(f"{name}, move", size):.2f}'
        if head == 'x without bytes':
            return f'{self.millions(name, size, True) / self.millions(f"{name}, move", size, True):.2f}'
        has_beside = head in ('move', 'stages') and self.workloads[name].beside
        return f'{self.millions(f"{name}, move", size):,.1f}' if has_beside else old

    def cell(self, head: str, name: str, size: int, old: str) -> str:
        """The cell of this head in the row of a workload and a size; the old one where it is nothing measured here."""
        command = re.fullmatch(r'(move|optimise): (s|MB)', head)
        if command:
            name, head = f'{name}-{command[1]}', {'s': 'Time s', 'MB': 'Memory MB'}[command[2]]
        if size not in cases_of(name):
            return old
        first = min(cases_of(name))
        rows: dict[str, Callable[[], str]] = {
            'Time s': lambda: f'{self.taken(name, size).seconds:.3f}',
            'Memory MB': lambda: f'{self.taken(name, size).bytes / 1e6:.1f}',
            'A second': lambda: re.sub(r'[\d,]+', f'{size / self.above(name, size).seconds:,.0f}', old),
            'x time': lambda: run.ratio(self.above(name, size).seconds, self.above(name, first).seconds,
                                        run.LEAST_SECONDS),
            'x memory': lambda: run.ratio(self.above(name, size).bytes, self.above(name, first).bytes,
                                          run.LEAST_BYTES),
        }
        if head in rows:
            return rows[head]()
        if head in ('mir s', 'opt s', 'mir / opt') and shutil.which('opt') and self.beside(name, size):
            ours, theirs = self.beside(name, size)
            return {'mir s': f'{ours:.3f}', 'opt s': f'{theirs:.3f}', 'mir / opt': f'{ours / theirs:.2f}'}[head]
        return old


def filled(text: str, meter: Meter) -> str:
    """The page with the cells that are measured here."""
    lines, heads, name = [], [], ''
    for line in text.split('\n'):
        cells = [cell.strip() for cell in line.split('|')[1:-1]] if line.startswith('|') else []
        if not cells:
            heads = []
        elif not heads:
            heads = [cell.replace('`', '') for cell in cells]
        elif heads[:2] == ['Workload', 'Size'] and re.match(r'[\d,]+', cells[1]):
            name, size = cells[0].strip('`') or name, int(re.match(r'[\d,]+', cells[1])[0].replace(',', ''))
            if not meter.is_filled(name):
                pass
            elif meter.counts:
                cells[2:] = [meter.counted(heads, place, name, size, cells[place]) for place in range(2, len(cells))]
            else:
                cells = [meter.cell(head, name, size, cell) for head, cell in zip(heads, cells)]
            line = '|' + '|'.join(f' {cell} ' if cell else ' ' for cell in cells) + '|'
        lines.append(line)
    if meter.counts:
        return told('\n'.join(lines), meter)
    start = f'Start: {meter.start.seconds:.3f} s, {meter.start.bytes / 1e6:.1f} MB.'
    return re.sub(r'Start: [\d.]+ s, [\d.]+ MB\.', start, '\n'.join(lines))


def told(text: str, meter: Meter) -> str:
    """The page with the sentences on the instructions of the workloads that stand in no table of them, and on those of a
    step."""
    def of(found: re.Match) -> str:
        if not meter.is_filled(found[1]):
            return found[0]
        size = max(cases_of(found[1]))
        half = f',{found[3]}{meter.against_half(found[1], size)}' if found[3] else ''
        return f'`{found[1]}`{found[2]}{meter.millions(found[1], size):,.1f}{half}'

    numbers = r'`([\w-]+)`(\s)[\d,.]*\d(?:,(\s)[\d.]+\d)?'
    text = in_sentence(text, 'Instructions of the other workloads', numbers, of)
    return in_sentence(text, 'Instructions a step:', r'`([\w-]+)`(\s)[\d.]+\d',
                       lambda found: f'`{found[1]}`{found[2]}{meter.a_step(found[1]):.1f}'
                       if meter.is_filled(found[1]) else found[0])


def in_sentence(text: str, head: str, pattern: str, of: Callable[[re.Match], str]) -> str:
    """The page in which the paragraph from these words on has new numbers."""
    begin = text.index(head)
    end = text.index('\n\n', begin)
    return text[:begin] + re.sub(pattern, of, text[begin:end]) + text[end:]


def fill(given: argparse.Namespace, counts: bool) -> str:
    """The page with what is measured here, times or counts."""
    with tempfile.TemporaryDirectory(prefix='mir-bench-') as folder:
        text = given.page.read_text(encoding='utf-8')
        meter = Meter(given.mir, 1 if given.few else given.repeat, Path(folder), counts, given.few)
        if counts:
            meter.count(text, given.jobs, given.tables)
        return filled(text, meter)


def fill_part(given: argparse.Namespace, part: str) -> None:
    """Puts the numbers of one part into the page."""
    how = fill_scripts.How(given.mir, given.csmith, given.gcc, given.keep, given.core, given.few, given.jobs,
                           given.counted)
    if part in ('real', 'left', 'native'):
        {'real': fill_scripts.real, 'left': fill_scripts.left, 'native': fill_scripts.native}[part](given.page, how)
        return
    if part in ('times', 'counts'):
        page = fill(given, part == 'counts')
    else:
        script = {'beside': fill_scripts.run_beside, 'bril': fill_scripts.bril, 'turns': fill_scripts.turns,
                  'rounds': fill_scripts.rounds, 'limits': fill_scripts.limits}[part]
        page = script(given.page.read_text(encoding='utf-8'), how)
    given.page.write_text(page, encoding='utf-8')


def program_measured() -> str:
    """What the head of the page says of the program: the sources that stand here, and the day."""
    def git(*words: str) -> str:
        told = subprocess.run(['git', '-C', str(run.TOP), *words], check=True, capture_output=True, text=True)
        return told.stdout.strip()

    changes = ' with changes' if git('status', '--porcelain', 'crates') else ''
    return f'the program of {git("rev-parse", "--short=8", "HEAD")}{changes}, measured on {datetime.date.today()}'


def made_before(given: argparse.Namespace) -> list[str]:
    """The lines of the folder that is kept, one for each part that was made of a program; none without such a folder."""
    kept = Path(given.keep, 'parts')
    return kept.read_text().splitlines() if given.keep and kept.exists() else []


def digest(program: str) -> str:
    """What a program is known by."""
    return hashlib.sha256(Path(program).read_bytes()).hexdigest()


def missing_here() -> list[str]:
    """What `--all` wants and does not find."""
    missing = [tool for tool in TOOLS if shutil.which(tool) is None]
    if 'clang' in missing:
        return missing
    said = subprocess.run(['clang', '-E', '-include', HEADER, '-x', 'c', '/dev/null'], capture_output=True)
    return missing + [HEADER] * (said.returncode != 0)


def is_alike(one: str, other: str, text: str) -> bool:
    """Whether two programs write the same of a text under all commands that write a program."""
    commands = [words.split() for words in fill_scripts.hostile.COMMANDS if not words.startswith(('run', 'passes 64'))]
    said = [[against_llvm.ran([program, *words], text.encode()) for words in commands] for program in (one, other)]
    return [each.stdout for each in said[0]] == [each.stdout for each in said[1]]


def made_parts(given: argparse.Namespace, program: str) -> set[str]:
    """The parts that are made of this program, and those that count and are made of the one that writes the same."""
    made = made_before(given)
    parts = {part for part in PARTS if f'{program} {part}' in made}
    if not given.counted:
        return parts
    texts = [draw(number).program() for draw in (divisions.Draw, wanted.DrawTests, chains.DrawCalls) for number in range(ALIKE)]
    with ThreadPoolExecutor(given.jobs) as pool:
        if not all(pool.map(lambda text: is_alike(given.mir, given.counted, text), texts)):
            raise run.Failure(f'{given.counted} does not write the same')
    other = digest(given.counted)
    return parts | {part for part in COUNTED if f'{other} {part}' in made}


def fill_all(given: argparse.Namespace) -> None:
    """Puts the numbers of the parts in, one part after the other; of all parts together it is said what they are of."""
    missing = missing_here()
    if missing:
        raise run.Failure(f'not here: {", ".join(missing)}')
    program = digest(given.mir)
    made = made_parts(given, program)
    for part in given.parts or [part for part in PARTS if part not in made]:
        print(f'bench/fill.py: part {part}', file=sys.stderr, flush=True)
        fill_part(given, part)
        made.add(part)
        if given.keep and not given.few:
            with open(Path(given.keep, 'parts'), 'a') as kept:
                print(program, part, file=kept)
    if made == set(PARTS) and not given.few:
        notes = '' if given.gcc else ', but for the rows of `gcc`, which are older'
        notes += '; what programs evaluate was counted by one that is not proved and writes the same' * bool(given.counted)
        page = fill_scripts.told_of(given.page.read_text(encoding='utf-8'), program_measured(), notes)
        given.page.write_text(page, encoding='utf-8')


def words_given() -> argparse.Namespace:
    """The words of the call."""
    words = argparse.ArgumentParser(description=__doc__.split('\n')[0])
    words.add_argument('--mir', default=str(run.PROGRAM), metavar='PATH', help='the program that is measured')
    words.add_argument('--tables', metavar='PATH', help='the program that writes tables (mir_tables beside the other)')
    words.add_argument('--repeat', type=int, default=11, metavar='N', help='take the least time of N calls (11)')
    words.add_argument('--jobs', type=int, default=1, metavar='N', help='what is counted is counted N at a time (1)')
    words.add_argument('--page', type=Path, default=PAGE, metavar='PATH', help='the page (README.md beside this file)')
    words.add_argument('--show', action='store_true', help='print the page, and do not write it')
    words.add_argument('--counts', action='store_true', help='count instructions, by callgrind, and measure no time')
    words.add_argument('--all', action='store_true', help='all numbers of the page, with those of other scripts')
    words.add_argument('--few', action='store_true', help='few of all, to try each part')
    words.add_argument('--csmith', type=int, default=560, metavar='N', help='with --all: programs of csmith a set (560)')
    words.add_argument('--gcc', default='', metavar='FOLDER', help='with --all: the tests of GCC')
    words.add_argument('--keep', default='', metavar='FOLDER', help='with --all: a folder with what is done')
    words.add_argument('--counted', default='', metavar='PATH', help='with --all: a program that writes the same')
    words.add_argument('--core', default='', metavar='N', help='with --all: the processor of timed native programs')
    words.add_argument('parts', nargs='*', metavar='PART', help=f'with --all: {", ".join(PARTS)}')
    given = words.parse_args()
    if given.keep:
        Path(given.keep).mkdir(exist_ok=True)
    if set(given.parts) - set(PARTS) or given.parts and not given.all or given.all and given.show:
        words.error(f'a PART is one of {", ".join(PARTS)}, behind --all, which shows nothing')
    proof = Path(given.mir).resolve().parent / 'proof.txt'
    is_unproved = proof.exists() and 'mir: not proved' in proof.read_text()
    if not given.show and given.page.resolve() == PAGE and (given.few or is_unproved):
        words.error('README.md has the numbers of a proved program: name another page')
    return given


def main() -> int:
    """Fills the page."""
    given = words_given()
    begin(given.mir, given.tables)
    if given.all:
        fill_all(given)
        return 0
    page = fill(given, given.counts)
    if given.show:
        print(page, end='')
    else:
        given.page.write_text(page, encoding='utf-8')
    return 0


if __name__ == '__main__':
    try:
        sys.exit(main())
    except (run.Failure, OSError, subprocess.CalledProcessError) as failure:
        sys.exit(f'bench/fill.py: {failure}')
