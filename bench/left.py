#!/usr/bin/env python3
"""Tells what `thorough` leaves of the C programs in which LLVM leaves least beside it, and which of LLVM's passes take it.

    bench/left.py [--mir PATH] [--set NAME] [--csmith N] [--rows N] [--jobs N] [--keep FOLDER] [--counted PATH]
                  [--fill [--page PATH]]

The programs are those that csmith draws for a set of `bench/real.py`, which judges them; what it has judged of this `mir`,
or of that of `--counted`, in the folder of `--keep` is taken. Those of which `thorough` leaves most more than `-O2` does
have a row each: the operators of their runs as `real.py` counts them, and then how many are left where what `thorough`
writes is given to LLVM (`tools/to_llvm`), `thorough` being made again of what its passes leave (`tools/from_llvm`):

    rotated       loops are rotated: their test stands at their end too
    identities   and operators are made of operators, by what is known of bits and between which numbers values lie
    units        and units are put into their callers, and globals into variables
    loops        and loops of known length are taken apart, or what they end with is computed
    all          and all passes of -O2

Behind the table it is told of which kinds the operators are that `thorough` and `-O2` leave. With `--fill` the table is put
into README.md beside this file. It wants csmith, libcsmith-dev, clang and opt.
"""

import argparse
import collections
import functools
import re
import sys
import tempfile
import time
from pathlib import Path
from typing import Callable, Optional, Union

sys.path.insert(0, str(Path(__file__).resolve().parent.parent / 'tools'))

import drawn  # noqa: E402
import mir_text  # noqa: E402
import real  # noqa: E402
import real_rows  # noqa: E402
from operator_kinds import kinds_of  # noqa: E402
from real_tables import row  # noqa: E402

HEAD = ('| Program | Source | `optimise` | `thorough` | `alike` | `all` '
        '| rotated | identities | units | loops | all |')
WAYS = ('source', 'optimise', 'thorough', 'alike', 'all')

VALUES = 'always-inline,function(sroa)'
TURNED = 'function(loop-simplify,lcssa,loop-rotate)'
IDENTITIES = 'function(instcombine,reassociate,instcombine,sccp,correlated-propagation,simplifycfg)'
UNITS = 'ipsccp,globalopt,deadargelim,cgscc(inline),function(sroa,instcombine,simplifycfg)'
LOOPS = ('function(loop-simplify,lcssa,loop-mssa(loop-rotate,licm),loop(indvars,loop-deletion,loop-unroll-full),'
         'instcombine,sccp,simplifycfg)')
GROUPS = (TURNED, IDENTITIES, UNITS, LOOPS, real.ALL)
# Two stores would become one to an address that is chosen.
FLAGS = [*real.NO_VECTORS, '-sink-common-insts=false']

# Bodies of functions that a module of `tools/to_llvm` has, such that `tools/from_llvm` brings in traps and divisions.
BODIES = {'raise': '%n = trunc i64 %number to i32\n  call void @exit(i32 %n)\n  unreachable',
          'quotient': '%q = sdiv i64 %a, %b\n  ret i64 %q', 'remainder': '%q = srem i64 %a, %b\n  ret i64 %q'}

def module_of(text: str, to_llvm) -> str:
    """The module of a text, whose first unit is a function that nothing calls."""
    made = to_llvm.llvm(text).partition('\ndefine i32 @main(')[0]
    for name, body in BODIES.items():
        made = re.sub(rf'(define [^\n]* @mir\.{name}\([^\n]*\n).*?\n\}}', lambda found, body=body: f'{found[1]}  {body}\n}}',
                      made, flags=re.DOTALL)
    return re.sub(r'define internal (i64 @u0\([^)]*\)) \{', r'define \1 norecurse {', made)


class Left:
    """What `thorough` leaves of a program, and its runs that end."""

    def __init__(self, bench: real.Bench, text: str, inputs: tuple[tuple[str, ...], ...]):
        self.bench = bench
        self.text = self.thorough(text)
        runs = {given: bench.run(self.text, given) for given in inputs}
        self.runs = {given: report for given, report in runs.items() if report.end != 'running'}

    def thorough(self, text: str) -> str:
        """What `thorough` makes of a text."""
        return dict(self.bench.ways(text, ('thorough',)))['thorough']

    def evals(self, text: str) -> Union[int, str]:
        """How many operators the runs of another text evaluate; nothing where one does not do the same."""
        reports = [(wanted, self.bench.run(text, given)) for given, wanted in self.runs.items()]
        if any((wanted.printed, wanted.end) != (found.printed, found.end) for wanted, found in reports):
            print('left: a text does not do the same', file=sys.stderr)
            return ''
        return sum(found.evals for _, found in reports)

    def behind(self, groups: tuple[str, ...]) -> Union[int, str]:
        """How many operators are left behind these groups of passes and `thorough`; nothing where what they leave does not
        come in."""
        words = ['opt', '-S', f'-passes={",".join([VALUES, *groups])}', *FLAGS, '-o', '-', '-']
        said = real.ran(words, module_of(self.text, self.bench.to_llvm).encode())
        try:
            read = self.bench.from_llvm.module_of(said.stdout.decode())
            return self.evals(self.thorough(self.bench.from_llvm.program_text(read, 'u0')))
        except mir_text.Fault as fault:
            print(f'left: {fault}', file=sys.stderr)
            return ''

    def kinds(self, text: Optional[str] = None) -> collections.Counter:
        """The operators of all runs by their kinds, of what `thorough` leaves or of another text."""
        return sum((kinds_of(text or self.text, given, real.STEPS) for given in self.runs), collections.Counter())


class Judged:
    """The programs of a set that were judged, of which all runs were counted."""

    def __init__(self, given: argparse.Namespace, folder: Path):
        """Judges those that are not kept in the folder."""
        self.bench, rows = real.Bench(given.mir, folder), real_rows.Rows(folder / 'outcomes', given.counted or Path(given.mir))
        self.sources = real.sources_of(given.set, given, folder)
        outcomes = real.judge_all(self.bench, rows, self.sources, given.jobs, time.monotonic() + given.minutes * 60)
        self.whole = [each for each in outcomes if each.state == 'same' and set(each.evals) >= set(WAYS)]
        self.files = {each.name: file for file in self.sources for each in rows.found.get(file, [])}
        self.read = functools.cache(self.read)

    def read(self, file: str) -> tuple[drawn.Source, dict[str, str], str]:
        """A file, the texts of its programs, and its IR."""
        source = self.sources[file]()
        texts, _, ir = self.bench.texts_of(source)
        return source, texts, ir


def rows_of(given: argparse.Namespace, judged: Judged) -> list[list]:
    """The rows of the table, and behind them the kinds of operators of all of these programs."""
    found, kinds = [], {'thorough': collections.Counter(), 'all': collections.Counter()}
    for each in sorted(judged.whole, key=lambda each: each.evals['all'] - each.evals['thorough'])[:given.rows]:
        source, texts, ir = judged.read(judged.files[each.name])
        left = Left(judged.bench, texts[each.name], source.inputs)
        groups = [left.behind(GROUPS[:at + 1]) for at in range(len(GROUPS))]
        by_llvm = judged.bench.left_by_llvm(ir, source.entries.values())
        kinds['thorough'] += left.kinds()
        kinds['all'] += left.kinds(judged.bench.by_llvm(by_llvm, source.entries[each.name])['all'])
        found.append([each.name.removeprefix(f'{given.set}_'), *(each.evals[way] for way in WAYS), *groups])
        print(row(found[-1]), flush=True)
    for way, counts in kinds.items():
        print(f'{way}:', ', '.join(f'{kind} {count:,}' for kind, count in counts.most_common()))
    return found


def with_rows(page: str, rows: list[list]) -> str:
    """The page with these rows in the place of the old ones."""
    begin = page.index(HEAD)
    end = page.index('\n\n', begin)
    return page[:begin] + '\n'.join([HEAD, '|---' * (HEAD.count('|') - 1) + '|', *map(row, rows)]) + page[end:]


def words_of(description: str) -> argparse.ArgumentParser:
    """The words that say which programs are judged."""
    words = argparse.ArgumentParser(description=description)
    words.add_argument('--mir', default=str(real.TOP / 'mir'), help='the program that is tried')
    words.add_argument('--set', default='inputs', help='of which set the programs are (inputs)',
                       choices=[name for name, setting in drawn.SETTINGS.items() if not setting.has_turns])
    words.add_argument('--csmith', type=int, default=560, metavar='N', help='how many programs csmith draws (560)')
    words.add_argument('--seed', type=int, default=1, help='the number of the first of them')
    words.add_argument('--jobs', type=int, default=2, help='how many programs are judged at a time')
    words.add_argument('--minutes', type=float, default=600, help='after how many no more are judged')
    words.add_argument('--keep', type=Path, help='the folder of what real.py keeps')
    words.add_argument('--counted', type=Path, help='a program that writes the same; what is kept of it is taken')
    return words


def with_judged(given: argparse.Namespace, told: Callable[[argparse.Namespace, Judged], list[list]]) -> list[list]:
    """What is told of the programs that are judged."""
    with tempfile.TemporaryDirectory() as made:
        folder = given.keep or Path(made)
        folder.mkdir(exist_ok=True)
        (folder / 'csmith.h').write_text(drawn.HEADER)
        return told(given, Judged(given, folder))


def main() -> int:
    """Shows the table, and fills it in where it is asked for."""
    words = words_of(__doc__.split('\n')[0])
    words.add_argument('--rows', type=int, default=10, metavar='N', help='how many programs are shown (10)')
    words.add_argument('--fill', action='store_true', help='put the table into the page')
    words.add_argument('--page', type=Path, default=real.PAGE, help='the page (README.md beside this file)')
    given = words.parse_args()
    print(HEAD)
    rows = with_judged(given, rows_of)
    if given.fill:
        given.page.write_text(with_rows(given.page.read_text(encoding='utf-8'), rows), encoding='utf-8')
    return 0


if __name__ == '__main__':
    sys.exit(main())
