"""Calls of `mir` for bench/run.py: each is judged by what it should answer, and measured: wall time, peak memory, page
faults, and the processor's instructions by callgrind. On Linux alone, with Python's standard library."""

import collections
import ctypes
import itertools
import os
import re
import subprocess
import time
from pathlib import Path
from typing import Iterator, NamedTuple, Optional

from interpret import Machine

TOP = Path(__file__).resolve().parent.parent

# With this in the environment the C library does not copy or fill many bytes by one instruction, of which callgrind
# counts each byte.
BYTE_BY_BYTE = ('GLIBC_TUNABLES=glibc.cpu.x86_rep_movsb_threshold=1000000000'
                ':glibc.cpu.x86_rep_stosb_threshold=1000000000')

# The program that writes the tables, which takes no words: what is called where the word of a case is `tables`. Its
# functions that turn rows for writing or append bytes to the text, of which the instructions are not counted where the
# crates of tables call them, and neither are the functions of Vec that they call to append.
TABLES = TOP / 'crates' / 'mir_tables' / 'out' / 'mir_tables'
WRITERS = re.compile(r'(?:table_text|mir_print|itoa)::')
APPENDERS = re.compile(r'std_alloc::vec::Vec::(?:extend_from_slice|push|resize)\b')
TABLE_CRATES = re.compile(r'(?:pass_table|expression_table|mir_table)::')

# The statuses of `mir run`: the run ended, and it still runs after its steps.
ENDED, RUNNING = 0, 4

# Of prctl(2): orphans among this process's descendants become its children.
PR_SET_CHILD_SUBREAPER = 36

# Starts the command in the background, with the standard input that it was given, and ends.
START = 'exec 3<&0; "$@" <&3 3<&- & exec true'

class Case(NamedTuple):
    """One call of mir, with the size by which it is compared, and the status and the output that are right. A pattern is an
    output with `N` for each number that is not judged. With no output the answer is a program, and it is right where it
    runs as the text does, and evaluates no more; that of `ranges` is right where it counts what `move` writes."""

    size: int
    words: list[str]
    text: str
    status: int
    output: Optional[str]
    is_pattern: bool = False


class Measure(NamedTuple):
    """What a case took."""

    seconds: float
    bytes: int
    # Minor page faults: how often a page of memory was touched that the system had to give or to map first.
    faults: int


class Failure(Exception):
    """A call did not do what its case says, so its time tells nothing."""


# A line of `ranges`: the temporary, its expression, and how often it is inserted, replaced and held.
RANGE = r'(h\d+) <- (.*) inserted (\d+) replaced (\d+) held (\d+)'

# Steps in which all workloads end that are judged by their runs, and the inputs of those runs, by the number of receives.
STEPS, INPUTS = '1000000', (3, 5, -2)


def run_of(command: list[str], text: str) -> tuple[list[str], int]:
    """What the run of a program writes, and how many operators it evaluates."""
    inputs = list(itertools.islice(itertools.cycle(INPUTS), text.split('end\n', 1)[0].count('receive ')))
    words = ['run', STEPS, *map(str, inputs)]
    answer = subprocess.run(command + words, input=text, capture_output=True, text=True, check=False)
    if answer.stderr.endswith(': too many instructions\n'):
        report = Machine(text).run(inputs, int(STEPS))
        assert report.end == 'ended', 'a workload ends, and so does what is made of it'
        return [str(ENDED), *map(str, report.printed), f'result {report.result}'], report.evaluations
    *lines, evals = answer.stdout.splitlines()
    return [str(answer.returncode), *lines], int(evals.split()[1])


def runs_alike(command: list[str], text: str, output: str) -> bool:
    """Whether the output is a program that runs as the text does, and evaluates no more operators."""
    (source, before), (target, after) = run_of(program_of(command), text), run_of(program_of(command), output)
    return source == target and after <= before


def counts_ranges(command: list[str], text: str, output: str) -> bool:
    """Whether the output counts the insertions and the replaced uses that `move` makes of the text, unit by unit."""
    answer = subprocess.run([*program_of(command), 'move'], input=text, capture_output=True, text=True, check=False)
    wanted, told = [], []
    for line in answer.stdout.splitlines():
        words = line.split(': ', 1)[-1].split(' <- ')
        if line.endswith(': begin'):
            wanted.append((line[:-len(': begin')], collections.Counter(), collections.Counter()))
        elif words[0][:1] == 'h' and len(words) == 2:
            wanted[-1][1][words[0], words[1]] += 1
        elif words[-1][:1] == 'h' and len(words) == 2:
            wanted[-1][2][words[1]] += 1
    for line in output.splitlines():
        if line.startswith('unit '):
            told.append((line[len('unit '):], collections.Counter(), collections.Counter()))
            continue
        name, expression, inserted, replaced, _ = re.fullmatch(RANGE, line).groups()
        told[-1][1][name, expression], told[-1][2][name] = int(inserted), int(replaced)
    return told == wanted


def program_of(command: list[str]) -> list[str]:
    """The command without the tool that watches it."""
    return command[-1:]


def take_tables(mir: str, named: Optional[str] = None) -> None:
    """Has the cases of tables call the program that is named, or else the `mir_tables` beside this `mir`, where one is."""
    global TABLES
    program = Path(named) if named else Path(mir).resolve().parent / 'mir_tables'
    TABLES = program.resolve() if named or program.exists() else TABLES


def called(command: list[str], case: Case) -> list[str]:
    """The command with the words of a case; that of `tables` is a program of its own."""
    return [*command[:-1], str(TABLES)] if case.words == ['tables'] else [*command, *case.words]


def is_right(command: list[str], case: Case, output: str) -> bool:
    """Whether the output is that of the case, or fits its pattern, or is a program that runs as the text does. Tables and
    stages are right where they come to the last graph."""
    if case.words in (['tables'], ['stages']):
        return output.startswith({'tables': 'tables 1\n', 'stages': '|| source\n'}[case.words[0]]) and 'result\n' in output
    if case.output is None and case.words == ['ranges']:
        return counts_ranges(command, case.text, output)
    if case.output is None:
        return runs_alike(command, case.text, output)
    if case.is_pattern:
        return re.fullmatch(case.output.replace('N', '[0-9]+'), output) is not None
    return output == case.output


def judge(command: list[str], case: Case, status: int, output: str, errors: str) -> None:
    """Accepts the status and the output that are right for the case alone."""
    if status != case.status or not is_right(command, case, output):
        said = f'{output[:200]}{errors[-400:]}'.strip()
        raise Failure(f'{" ".join(called(command, case))}, at size {case.size}: status {status}: {said}')


def adopt_orphans() -> None:
    """Makes this process the parent of those of its descendants that lose theirs, for `call`."""
    if ctypes.CDLL(None).prctl(PR_SET_CHILD_SUBREAPER, 1, 0, 0, 0) != 0:
        raise Failure('prctl: orphans cannot be waited for')


def call(command: list[str], case: Case, folder: Path) -> Measure:
    """Calls the command with the words and the text of the case, and judges what it answers.

    Linux counts the peak memory of the process that starts another as the other's too. So a shell, which is small,
    starts the command and ends, and the command is waited for here.
    """
    text, output, errors = folder / 'text', folder / 'output', folder / 'errors'
    text.write_text(case.text)
    write = os.O_WRONLY | os.O_CREAT | os.O_TRUNC
    streams = [
        (os.POSIX_SPAWN_OPEN, 0, text, os.O_RDONLY, 0),
        (os.POSIX_SPAWN_OPEN, 1, output, write, 0o600),
        (os.POSIX_SPAWN_OPEN, 2, errors, write, 0o600),
    ]
    words = ['sh', '-c', START, 'sh', *called(command, case)]
    begin = time.perf_counter()
    shell = os.posix_spawn('/bin/sh', words, os.environ, file_actions=streams)
    os.waitpid(shell, 0)
    _, status, usage = os.wait4(-1, 0)
    seconds = time.perf_counter() - begin
    judge(command, case, os.waitstatus_to_exitcode(status), output.read_text(), errors.read_text())
    return Measure(seconds, usage.ru_maxrss * 1024, usage.ru_minflt)


def measure(command: list[str], case: Case, folder: Path, repeat: int) -> Measure:
    """The least time, the greatest peak of memory and the most page faults of so many calls."""
    measures = [call(command, case, folder) for _ in range(repeat)]
    return Measure(min(m.seconds for m in measures), max(m.bytes for m in measures), max(m.faults for m in measures))


def calls_in(counts: Path) -> Iterator[tuple[str, str, int]]:
    """The calls that callgrind wrote: who calls, who is called, and the instructions with all that is called there."""
    names, caller, callee = {}, '', None
    for line in counts.read_text().splitlines():
        function = re.match(r'(c?fn)=\((\d+)\)(?: (.*))?', line)
        if function:
            name = names.setdefault(function[2], function[3])
            caller, callee = (name, None) if function[1] == 'fn' else (caller, name)
        elif callee and re.match(r'[+*\d-]', line):
            yield caller, callee, int(line.split()[-1])
            callee = None


def of_writers(counts: Path) -> int:
    """How many instructions it takes to write tables: to turn the rows of which lines are written, and to append the
    bytes of the text."""
    calls = list(calls_in(counts))
    appenders = {callee for caller, callee, _ in calls if WRITERS.match(caller) and APPENDERS.match(callee)}
    return sum(spent for caller, callee, spent in calls
               if TABLE_CRATES.match(caller) and (WRITERS.match(callee) or callee in appenders))


def instructions(program: str, case: Case, folder: Path, without_bytes: bool = False) -> int:
    """How many instructions of the processor the program takes for the case, by callgrind; of tables all but those of the
    functions that write them. Bytes that one instruction copies or fills are counted, or left out."""
    counts = folder / 'counts'
    valgrind = ['valgrind', '--quiet', '--tool=callgrind', f'--callgrind-out-file={counts}', program]
    if without_bytes:
        valgrind = ['env', BYTE_BY_BYTE, *valgrind]
    call(valgrind, case, folder)
    for line in counts.read_text().splitlines():
        if line.startswith('totals:'):
            return int(line.split()[1]) - (of_writers(counts) if case.words == ['tables'] else 0)
    raise Failure('callgrind wrote no line "totals:"')
