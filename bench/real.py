#!/usr/bin/env python3
"""Brings C programs in, and compares what they do as native programs, as MIR, and as what `mir` makes of it.

    bench/real.py [--mir PATH] [--csmith N] [--set NAME ..] [--minutes N] [--gcc FOLDER] [--fill [--page PATH]]
                  [FILE ..]

The programs are those that `csmith` draws, N of each of these sets (`bench/drawn.py` has their settings), and each C
file that is named or lies in a folder that is named, from its `main` on:

    small      three functions, blocks three deep; no inputs, so that all may be evaluated while it is compiled
    large      five functions, blocks four deep
    inputs     as small, and each global variable begins with a value of an input; three runs of each program
    turns      as inputs, where a loop does all the work many times, from four lists of first values in turn; of these
               the time is measured, and no more
    examples   those of examples/c, each from the function of its name on, with the inputs that it names; none is drawn

clang makes a native program of each without optimisation; `tools/from_c` brings it in. Then `run` of its text, and of
what each command of `mir` makes of it, has to print the same numbers and end in the same way; runs of more than
1,000,000 steps are compared as native programs (`tools/compile`). The counts are of same, refused by reason, and
different ones, each of which is shown; the status is 1 where there is one.

Beside it the operators of whole runs are counted by `run`: of the text, of what commands make of it, and turns of other
passes than those of `thorough`, and of what LLVM leaves of the same IR, which is brought in like the source, so that the
unit is the same. `--table` shows the programs in which LLVM leaves least beside `thorough`. Of each set it is told which
programs have a run in which `thorough` evaluates more operators than `optimise`. The time is that of native programs, by
`bench/native_times.py`.

With `--fill` the tables are put into README.md beside this file, behind the line `<!-- bench/real.py -->`; those of a
set that is not named stay. Where a set takes more than its part of `--minutes`, what is done by then is told. With
`--keep FOLDER` what became of each program is written there as soon as it is known, and a call that is cut off goes on
where it was: programs that were judged with the same `mir`, or with the one of `--counted`, which writes the same, are
not judged again. With `--prepare` the native programs of the set `turns` are made there, on a machine that may be busy,
and a later call without it measures them. It wants csmith, libcsmith-dev, clang and opt.
"""

import argparse
import collections
import functools
import re
import signal
import subprocess
import sys
import tempfile
import time
from concurrent.futures import ThreadPoolExecutor, as_completed
from dataclasses import dataclass, field
from pathlib import Path
from typing import Callable, Iterable, NamedTuple, Optional, Union

TOP = Path(__file__).resolve().parent.parent
sys.dont_write_bytecode = True
sys.path.insert(0, str(TOP / 'tools'))
sys.setrecursionlimit(20_000)

import drawn  # noqa: E402
import mir_text  # noqa: E402
import native_times  # noqa: E402
import real_rows  # noqa: E402
import real_tables  # noqa: E402
from drawn import Source  # noqa: E402
from real_rows import Outcome  # noqa: E402
from tool_calls import module_of  # noqa: E402

TIMED = ('optimise', 'thorough')
COMMANDS = ('optimise', 'thorough', 'move', 'divisions', 'tails', 'join')
# Turns of fewer passes than `thorough` makes, until one changes nothing; and the most that are made.
TURNS = {'turns': 'tails join optimise called', 'wanted': 'tails join optimise wanted called',
         'demanded': 'tails join optimise demanded called'}
MOST_TURNS = 16
# Native programs end by themselves after a part of a second, which a busy machine gives them late.
STEPS, SECONDS = 1_000_000, 600
PAGE = Path(__file__).resolve().parent / 'README.md'
EXAMPLES = TOP / 'examples' / 'c'
# The numbers of traps that stand for signals.
SIGNALS = (132, 134, 136)

# Passes of LLVM that do what those of `optimise` do, and all that it has but for vectors.
ALIKE = 'mem2reg,simplifycfg,sccp,gvn,sink,adce,simplifycfg'
ALL = 'default<O2>'
NO_VECTORS = ['-vectorize-loops=false', '-vectorize-slp=false']

class Report(NamedTuple):
    """What a run printed, how it ended (a result, `trap`, `running`, `deep`), and how many operators it evaluated."""

    printed: list[str]
    end: str
    evals: int = 0


@dataclass
class Made:
    """A program as it comes in and as each command makes it, and what LLVM's passes leave of it or why that does not come
    in; and the native programs that were made of these texts."""

    name: str
    ways: dict[str, str]
    by_llvm: dict[str, Union[str, mir_text.Fault]]
    natives: dict[str, Union[Path, str]] = field(default_factory=dict)


def ended(line: str) -> str:
    """How a run ended, as a native program does: with the status that its result has, or by a signal. A trap with a
    number is an exit with this status, unless it stands for a signal."""
    words = line.split()
    if words[0] == 'result':
        return str(int(words[1]) & 255)
    if words[0] != 'trapped':
        return words[0]
    is_exit = words[1].isdigit() and int(words[1]) not in SIGNALS
    return words[1] if is_exit else 'trap'


def inputs_of(text: str, given: tuple[str, ...]) -> list[str]:
    """The inputs of a run: those that are given; else, where a `main` takes the number of its words, the one that the
    native program has."""
    receives = re.match(r'(?:global .*\n)*.*begin\n((?:receive .*\n)*)', text)
    return list(given) or (['1'] * receives[1].count('\n') if receives else [])


Call = subprocess.CompletedProcess


def ran(words: list, text: bytes = b'', seconds: int = 600, folder: Optional[Path] = None) -> Call:
    """A finished call; one that takes too long has no status."""
    plain = [str(word) for word in words]
    try:
        return subprocess.run(plain, input=text, capture_output=True, timeout=seconds, cwd=folder)
    except subprocess.TimeoutExpired:
        return Call(words, None, b'', f'no end within {seconds} seconds'.encode())


class Bench:
    """The tools, and the program that is tried."""

    def __init__(self, mir: str, folder: Path):
        self.mir, self.folder = mir, folder
        self.from_c, self.from_llvm, self.to_llvm = map(module_of, ('from_c', 'from_llvm', 'to_llvm'))
        usage = ran([mir]).stderr.decode()
        self.support = folder / 'native.o'
        if ran(['clang', '-O1', '-c', TOP / 'tools' / 'native.c', '-o', self.support]).returncode:
            sys.exit('real: there is no clang that makes an object file of tools/native.c')
        self.commands = [command for command in COMMANDS if re.search(rf'[ |]{command}\b', usage)]

    def is_native(self, source: Source, program: Path) -> bool:
        """Makes the native program, and says whether clang does."""
        words = ['clang', '-O0', '-fwrapv', '-w', *source.flags, source.path, self.support, '-lm', '-o', program]
        return ran(words).returncode == 0

    def native(self, program: Path, entry: str, given: tuple[str, ...]) -> Report:
        """The report of a native program."""
        said = ran([program, *([] if entry == 'main' else [entry]), *given], seconds=SECONDS)
        printed = said.stdout.decode('latin-1').splitlines()
        if said.returncode in (None, -signal.SIGPROF):
            return Report(printed, 'running')
        return Report(printed, 'trap' if said.returncode < 0 else str(said.returncode))

    def run(self, text: str, given: tuple[str, ...]) -> Report:
        """The report of a run; its result is counted as the status of a process is."""
        said = ran([self.mir, 'run', STEPS, *inputs_of(text, given)], text.encode())
        lines = said.stdout.decode().splitlines()
        if said.returncode not in (0, 3, 4):
            return Report([], 'deep' if said.returncode == 5 else said.stderr.decode().strip())
        return Report(lines[:-2], ended(lines[-2]), int(lines[-1].split()[1]))

    def native_of(self, made: Made, text: str) -> Union[Path, str]:
        """The native program of a text, made once; or what clang says where it makes none."""
        if text not in made.natives:
            program = self.folder / f'{made.name}_{len(made.natives)}.program'
            said = native_times.compiled(text, self.to_llvm, program, '-O2')
            made.natives[text] = program if said is None else said
        return made.natives[text]

    def compiled(self, made: Made, text: str, given: tuple[str, ...]) -> Report:
        """The report of a text that is compiled."""
        program = self.native_of(made, text)
        if isinstance(program, str):
            return Report([], program)
        said = ran([program, *inputs_of(text, given)], seconds=SECONDS)
        lines = said.stdout.decode().splitlines()
        if said.returncode not in (0, 3):
            return Report(lines, 'running' if said.returncode is None else 'deep')
        return Report(lines[:-1], ended(lines[-1]))

    def ways(self, text: str, commands: Optional[tuple[str, ...]] = None) -> Iterable[tuple[str, str]]:
        """The text, and what each command and turns of other passes make of it, or these commands alone."""
        yield 'source', text
        for command in self.commands if commands is None else commands:
            said = ran([self.mir, command], text.encode())
            yield command, said.stdout.decode() if said.returncode == 0 else said.stderr.decode()
        for way, words in TURNS.items() if commands is None else ():
            yield way, self.in_turns(text, words.split())

    def in_turns(self, text: str, words: list[str]) -> str:
        """What turns of these passes leave of a text, up to the one that cannot be read again."""
        last = text
        for _ in range(MOST_TURNS):
            said = ran([self.mir, 'passes', *words], last.encode())
            if said.returncode or said.stdout.decode() == last:
                return last
            last = said.stdout.decode()
        return last

    def judge(self, source: Source) -> list[Outcome]:
        """What becomes of the programs of a file."""
        program = self.folder / f'{source.path.stem}.native'
        texts, outcomes, ir = self.texts_of(source)
        if texts and not self.is_native(source, program):
            return outcomes + [Outcome(name, 'no native program') for name in texts]
        left = functools.cache(lambda: self.left_by_llvm(ir, source.entries.values()))
        judged = [self.judged(name, source.entries[name], text, source.inputs, program, left)
                  for name, text in texts.items()]
        for each in judged:
            each.is_called = '-DWRAPPER=' in source.flags
        return outcomes + judged

    def texts_of(self, source: Source) -> tuple[dict[str, str], list[Outcome], str]:
        """The programs of a file that come in, what becomes of the others, and the IR of all."""
        texts, outcomes, ir, read = {}, [], '', None
        for name, entry in source.entries.items():
            try:
                ir = ir or self.from_c.llvm(str(source.path), source.flags)
                read = read or self.from_llvm.module_of(ir)
                texts[name] = self.from_llvm.program_text(read, entry)
            except mir_text.Fault as fault:
                outcomes.append(Outcome(name, f'refused: {reason(str(fault))}', [str(fault)]))
        return texts, outcomes, ir

    def judged(self, name: str, entry: str, text: str, inputs: tuple[tuple[str, ...], ...], program: Path,
               left: Callable[[], dict]) -> Outcome:
        """What becomes of a program in all its runs, of which those are compared that end as native programs."""
        wanted = [(given, self.native(program, entry, given)) for given in inputs]
        ending = [(given, report) for given, report in wanted if report.end != 'running']
        if not ending:
            return Outcome(name, 'the native program takes more than a quarter of a second')
        made = Made(name, dict(self.ways(text)), self.by_llvm(left(), entry))
        outcome = together([self.compared(made, report, given) for given, report in ending])
        for path in made.natives.values():
            if isinstance(path, Path) and outcome.state == 'same':
                path.unlink()
        return outcome

    def compared(self, made: Made, wanted: Report, given: tuple[str, ...]) -> Outcome:
        """What becomes of one run of a program: what is not the same, and the operators that each way evaluates."""
        outcome = self.by_mir(Outcome(made.name, 'same'), made, wanted, given)
        if outcome.state == 'same' and not outcome.is_long:
            for kind, text in made.by_llvm.items():
                self.count_llvm(outcome, wanted, kind, text, given)
        return outcome

    def by_mir(self, outcome: Outcome, made: Made, wanted: Report, given: tuple[str, ...]) -> Outcome:
        """The outcome, with what is not the same where `mir` makes the program, and the operators of each run."""
        reports: dict[str, Report] = {}
        for way, text in made.ways.items():
            report = reports[text] if text in reports else reports.setdefault(text, self.run(text, given))
            if report.end == 'deep' and way == 'source':
                return Outcome(outcome.name, 'more than 10000 frames')
            if way != 'source' and report.end.endswith('too many instructions'):
                outcome.shown.append(f'{way} writes a unit that is too long to be read')
                continue
            if report.end == 'running':
                outcome.is_long = True
                report = self.compiled(made, text, given)
            elif not outcome.is_long:
                outcome.evals[way] = report.evals
            more = way != 'source' and wanted.end != 'trap' and report.evals > outcome.evals.get('source', report.evals)
            if (report.printed, report.end) != (wanted.printed, wanted.end) or more:
                outcome.state = 'different'
                outcome.shown.append(f'{way}: wanted {wanted}, found {report}')
        outcome.is_more = outcome.has_both() and outcome.evals['thorough'] > outcome.evals['optimise']
        return outcome

    def left_by_llvm(self, ir: str, entries: Iterable[str]) -> dict:
        """The modules that LLVM's passes leave. Entries are marked as functions that nothing calls, as `main` is."""
        marked = ir
        for entry in entries:
            marked = re.sub(rf'(define [^\n]*@{entry}\([^\n)]*\)) ', r'\1 norecurse ', marked)
        left = {}
        for kind, words in (('alike', [f'-passes={ALIKE}']), ('all', [f'-passes={ALL}', *NO_VECTORS])):
            said = ran(['opt', '-S', *words, '-o', '-', '-'], marked.encode('latin-1'))
            try:
                left[kind] = self.from_llvm.module_of(said.stdout.decode('latin-1'))
            except mir_text.Fault:
                continue
        return left

    def by_llvm(self, left: dict, entry: str) -> dict[str, Union[str, mir_text.Fault]]:
        """What LLVM's passes leave of a program, brought in as the source is; or why it does not come in."""
        found: dict[str, Union[str, mir_text.Fault]] = {}
        for kind, read in left.items():
            try:
                found[kind] = self.from_llvm.program_text(read, entry)
            except mir_text.Fault as fault:
                found[kind] = fault
        return found

    def count_llvm(self, outcome: Outcome, wanted: Report, kind: str, text: Union[str, mir_text.Fault],
                   given: tuple[str, ...]) -> None:
        """Adds the operators of what LLVM leaves, where it comes in and does the same."""
        if isinstance(text, mir_text.Fault):
            outcome.shown.append(f'{kind}: {text}')
            return
        report = self.run(text, given)
        if (report.printed, report.end) == (wanted.printed, wanted.end):
            outcome.evals[kind] = report.evals
        else:
            outcome.state = 'different'
            outcome.shown.append(f'{kind} of LLVM: wanted {wanted}, found {report}')

    def prepared(self, source: Source) -> list[native_times.Prepared]:
        """What is to be measured of the programs of a file, as they come in and as the first commands make them."""
        found = []
        for name, text in self.texts_of(source)[0].items():
            texts = dict(self.ways(text, TIMED))
            found.append(native_times.prepared(name, texts, list(source.inputs[-1]), self.to_llvm, self.folder / name))
        return found


def together(every: list[Outcome]) -> Outcome:
    """The outcome of all runs of a program: of those that end."""
    ended = [each for each in every if each.state in ('same', 'different')] or every[:1]
    whole = Outcome(ended[0].name, ended[0].state, is_long=any(each.is_long for each in ended),
                    is_more=any(each.is_more for each in ended))
    for each in ended:
        whole.state = 'different' if 'different' in (each.state, whole.state) else whole.state
        whole.shown += each.shown
        for way, count in each.evals.items():
            whole.evals[way] = whole.evals.get(way, 0) + count
    complete = [way for way in whole.evals if all(way in each.evals for each in ended)]
    whole.evals = {way: whole.evals[way] for way in complete}
    return whole


def reason(fault: str) -> str:
    """Why a program is refused, without its place and what is said in brackets."""
    plain = re.sub(r'^line \d+( \(line \d+ of the source\))?, (in @\S+: )?', '', fault)
    plain = re.sub(r'^\S+:\d+:\d+: .*', 'clang finds a fault in it', plain)
    return re.sub(r' \([^)]*\)$', '', plain)


def files_of(paths: list[Path]) -> list[Path]:
    """The C files that are named, and those of the folders that are named."""
    return [each for path in paths for each in (sorted(path.rglob('*.c')) if path.is_dir() else [path])]


def print_counts(title: str, outcomes: list[Outcome]) -> None:
    """Prints how many programs came to which end, and the operators of all that were counted in each way."""
    counts = collections.Counter(each.state for each in outcomes)
    print(f'{title}: {len(outcomes)} programs, {sum(each.is_long for each in outcomes)} compared as native programs')
    for state, count in sorted(counts.items(), key=lambda each: (-each[1], each[0])):
        print(f'{count:6} {state}')
    same = [each for each in outcomes if each.state == 'same']
    notes = collections.Counter(re.sub(': .*', '', note) for each in same for note in each.shown)
    for note, count in notes.items():
        print(f'{count:6} of them: {note}')
    more = [each.name for each in outcomes if each.is_more]
    print(f'thorough evaluates more operators than optimise in {len(more)} of '
          f'{sum(each.has_both() for each in outcomes)} programs', *more)
    print(*real_tables.lines(title, outcomes), sep='\n', flush=True)


def print_table(outcomes: list[Outcome], rows: int) -> None:
    """Prints the programs in which LLVM leaves least beside `thorough`."""
    whole = [each for each in outcomes if set(each.evals) >= {'thorough', 'all', 'alike'}]
    for each in sorted(whole, key=lambda each: each.evals['all'] - each.evals['thorough'])[:rows]:
        print(each.name, each.evals)


def judge_all(bench: Bench, rows: real_rows.Rows, sources: dict[str, Callable[[], Source]], jobs: int,
              end: float) -> list[Outcome]:
    """What becomes of the programs of some files; none is begun behind the end of their time, and none judged again."""
    def judged(name: str) -> list[Outcome]:
        """What becomes of the programs of a file, where there is time left."""
        if time.monotonic() > end:
            return []
        try:
            return bench.judge(sources[name]())
        except Exception as fault:  # so that one program does not end the whole run; the status is 1
            return [Outcome(Path(name).stem, 'different', [f'a fault of the tools: {fault!r}'])]

    outcomes = [each for name in sources if name in rows.found for each in rows.found[name]]
    with ThreadPoolExecutor(jobs) as pool:
        tasks = {pool.submit(judged, name): name for name in sources if name not in rows.found}
        for task in as_completed(tasks):
            outcomes += task.result()
            rows.keep(tasks[task], task.result())
    return sorted(outcomes, key=lambda each: each.name)


def sources_of(name: str, given: argparse.Namespace, folder: Path) -> dict[str, Callable[[], Source]]:
    """What draws the files of a set, or finds them, each by a name of its own."""
    if name not in drawn.SETTINGS:
        paths = {'gcc': [given.gcc], 'examples': [EXAMPLES], 'files': given.files}[name]
        return {f'{name}:{path.resolve()}': lambda path=path: drawn.of_file(path, folder) for path in files_of(paths)}
    numbers = list(range(given.seed, given.seed + given.csmith))
    parts = [numbers[at:at + drawn.TOGETHER] for at in range(0, len(numbers), drawn.TOGETHER)]
    return {f'{name}:{part[0]}-{part[-1]}': lambda part=part: drawn.drawn(drawn.SETTINGS[name], part, folder, name)
            for part in parts}


def prepare_all(bench: Bench, rows: real_rows.Rows, sources: dict[str, Callable[[], Source]], jobs: int,
                end: float) -> list[native_times.Prepared]:
    """What is to be measured of the programs of some files; what was prepared in an earlier call is taken."""
    def prepared(name: str) -> list[native_times.Prepared]:
        """What is to be measured of the programs of a file, where there is time left."""
        return bench.prepared(sources[name]()) if time.monotonic() < end else []

    with ThreadPoolExecutor(jobs) as pool:
        tasks = {pool.submit(prepared, name): name for name in sources if name not in rows.prepared}
        for task in as_completed(tasks):
            rows.keep_prepared(tasks[task], task.result())
    return [each for name in sources for each in rows.prepared.get(name, [])]


def time_all(rows: real_rows.Rows, names: Iterable[str], repeat: int, core: Optional[int], jobs: int,
             end: float) -> list[native_times.Times]:
    """The times of the programs that can be made to take long enough, of so many files at a time, up to the end of their
    time; those of files that were measured in an earlier call are taken."""
    def times_of(name: str) -> Optional[list[native_times.Times]]:
        """The times of the programs of a file, where there is time left."""
        if time.monotonic() > end:
            return None
        return [native_times.measured(each, repeat, core) for each in rows.prepared[name] if each.turns]

    with ThreadPoolExecutor(jobs if core is None else 1) as pool:
        tasks = {pool.submit(times_of, name): name for name in names if name in rows.prepared and name not in rows.times}
        for task in as_completed(tasks):
            if task.result() is not None:
                rows.keep_times(tasks[task], task.result())
    return [each for name in names for each in rows.times.get(name, [])]


def words_given() -> argparse.Namespace:
    """The words of the call."""
    words = argparse.ArgumentParser(description='Brings C programs in and compares what they do.')
    words.add_argument('--mir', default=str(TOP / 'mir'), help='the program that is tried')
    words.add_argument('--csmith', type=int, default=0, metavar='N', help='how many programs csmith draws for each set')
    words.add_argument('--set', nargs='+', default=['small'], choices=[*drawn.SETTINGS, 'examples'],
                       help='which sets (small)')
    words.add_argument('--seed', type=int, default=1, help='the number of the first of them')
    words.add_argument('--jobs', type=int, default=2, help='how many programs are judged or timed at a time')
    words.add_argument('--minutes', type=float, default=600, help='after how many nothing more is begun')
    words.add_argument('--repeat', type=int, default=3, help='of how many times the least is taken')
    words.add_argument('--prepare', action='store_true', help='make the programs of `turns`, and measure none')
    words.add_argument('--core', type=int, help='time one at a time on this processor, before all else if this is allowed')
    words.add_argument('--table', type=int, default=0, help='how many programs are shown in which LLVM leaves less')
    words.add_argument('--keep', type=Path, help='a folder for the programs, which stay there, and what became of each')
    words.add_argument('--counted', type=Path, help='a program that writes the same; what is kept of it is taken')
    words.add_argument('--gcc', type=Path, help='the folder gcc.c-torture/execute of the tests of GCC')
    words.add_argument('--fill', action='store_true', help='put the tables into the page')
    words.add_argument('--page', type=Path, default=PAGE, help='the page (README.md beside this file)')
    words.add_argument('files', nargs='*', type=Path, metavar='FILE', help='C files and folders of them')
    return words.parse_args()


def main() -> int:
    """Judges all programs, and prints the counts."""
    given = words_given()
    sets = [name for name in given.set if given.csmith or name == 'examples']
    sets += ['gcc'] * bool(given.gcc) + ['files'] * bool(given.files)
    status, page = 0, given.page.read_text(encoding='utf-8')
    with tempfile.TemporaryDirectory() as made:
        folder = given.keep or Path(made)
        folder.mkdir(exist_ok=True)
        (folder / 'csmith.h').write_text(drawn.HEADER)
        bench, begun = Bench(given.mir, folder), time.monotonic()
        rows = real_rows.Rows(folder / 'outcomes', given.counted or Path(given.mir))
        for at, name in enumerate(sets):
            end = begun + given.minutes * 60 * (at + 1) / len(sets)
            sources = sources_of(name, given, folder)
            if name == 'turns':
                found = prepare_all(bench, rows, sources, given.jobs, end)
                print(f'{len(found)} programs, {sum(bool(each.turns) for each in found)} to be measured', flush=True)
                if given.prepare:
                    continue
                times = time_all(rows, sources, given.repeat, given.core, given.jobs, end)
                print(*real_tables.time_lines(times), sep='\n', flush=True)
                page = real_tables.with_times(page, times)
                continue
            outcomes = judge_all(bench, rows, sources, given.jobs, end)
            for each in outcomes:
                if each.state == 'different':
                    print(f'{each.name}: different', *each.shown, sep='\n  ')
                    status = 1
            print_counts(name, outcomes)
            print_table(outcomes, given.table)
            page = real_tables.with_set(page, name, outcomes)
    if given.fill:
        given.page.write_text(page, encoding='utf-8')
    return status


if __name__ == '__main__':
    sys.exit(main())
