"""The time of native programs that are made of MIR (`tools/to_llvm`), with clang -O0 and -O2 behind it: of programs as
they come in, and of what commands of `mir` make of them."""

import math
import os
import resource
import subprocess
from pathlib import Path
from typing import NamedTuple, Optional

import mir_text

LEVELS = ('-O0', '-O2')

# A program is counted from these seconds on, and ended after those; and it makes no fewer turns and no more than these: with
# four it has had all its lists of first values.
LEAST, LIMIT, FEWEST, GREATEST = 0.1, 2, 4, 10 ** 9


class Times(NamedTuple):
    """The user seconds of a program, by way and level, where it takes long enough at this level."""

    name: str
    seconds: dict[str, float]


class Prepared(NamedTuple):
    """What is to be measured of a program: its native programs by way and level, its inputs, and by level how many turns
    take the least time as it comes in. A level at which it cannot be made to take it has none."""

    name: str
    inputs: list[str]
    turns: dict[str, int]
    programs: dict[str, str]


def alone_on(core: Optional[int]) -> None:
    """Has this process end after its limit of processor seconds, and stay on a processor, before all others that want it,
    if this is asked for and allowed; for a child before its program begins, also where the caller is ended."""
    resource.setrlimit(resource.RLIMIT_CPU, (LIMIT, LIMIT))
    if core is not None:
        os.sched_setaffinity(0, {core})
        os.setsid()
        try:
            Path('/proc/self/autogroup').write_text('-18')
        except OSError:
            pass  # another user than root has the share that it has


def seconds_of(program: Path, words: list[str], core: Optional[int] = None) -> Optional[tuple[float, bytes]]:
    """The user seconds of a call and what it printed; none where it takes too long or fails."""
    with subprocess.Popen([str(program), *words], stdout=subprocess.PIPE, stderr=subprocess.DEVNULL,
                          preexec_fn=lambda: alone_on(core)) as child:
        printed = child.stdout.read()
        _, status, used = os.wait4(child.pid, 0)
        child.returncode = os.waitstatus_to_exitcode(status)
    return (used.ru_utime, printed) if child.returncode == 0 else None


def compiled(text: str, to_llvm, program: Path, level: str) -> Optional[str]:
    """Makes a native program of a text; what is said where there is none."""
    try:
        module = to_llvm.llvm(text)
    except mir_text.Fault as fault:
        return str(fault)
    words = ['clang', level, '-w', '-x', 'ir', '-', '-o', str(program)]
    said = subprocess.run(words, input=module.encode(), capture_output=True, timeout=600)
    return said.stderr.decode('utf-8', 'replace').strip() or 'clang failed' if said.returncode else None


def turns_wanted(program: Path, inputs: list[str], turns: int = FEWEST, core: Optional[int] = None) -> int:
    """How many turns take the least time that is measured, at least these; 0 where so many are not made or a run fails."""
    while turns <= GREATEST:
        taken = seconds_of(program, [*inputs, str(turns)], core)
        if taken is None:
            return 0
        if taken[0] >= LEAST:
            return turns
        turns = int(turns * min(100, max(1.5, 1.4 * LEAST / max(taken[0], 0.001))))
    return 0


def prepared(name: str, texts: dict[str, str], inputs: list[str], to_llvm, stem: Path) -> Prepared:
    """The native programs that are to be measured, one for equal texts, and the turns that they need; a machine that does
    much else makes them as well. Where clang makes one of them not, there is nothing to be measured."""
    turns: dict[str, int] = {}
    programs: dict[str, str] = {}
    for level in LEVELS:
        made: dict[str, str] = {}
        for way, text in texts.items():
            if text not in made:
                made[text] = str(stem.with_name(f'{stem.name}_{way}{level}'))
                if compiled(text, to_llvm, Path(made[text]), level) is not None:
                    return Prepared(name, inputs, {}, {})
            if way == 'source':
                turns[level] = turns_wanted(Path(made[text]), inputs)
                if not turns[level]:
                    del turns[level]
                    break
            programs[f'{way} {level}'] = made[text]
    return Prepared(name, inputs, turns, programs)


def measured(given: Prepared, repeat: int, core: Optional[int]) -> Times:
    """The times of a program in each way, the least of some runs, at each level at which it takes long enough."""
    found: dict[str, float] = {}
    for level, turns in given.turns.items():
        ways = {key: Path(program) for key, program in given.programs.items() if key.endswith(f' {level}')}
        turns = turns_wanted(ways[f'source {level}'], given.inputs, turns, core)
        runs = {program: [seconds_of(program, [*given.inputs, str(turns)], core) for _ in range(repeat)]
                for program in set(ways.values())} if turns else {}
        if not runs or any(None in taken for taken in runs.values()):
            continue
        if len({text for taken in runs.values() for _, text in taken}) > 1:
            raise ValueError(f'{given.name} prints otherwise')
        found |= {key: min(seconds for seconds, _ in runs[program]) for key, program in ways.items()}
    return Times(given.name, found)


def mean(ratios: list[float]) -> float:
    """The geometric mean."""
    return math.exp(sum(map(math.log, ratios)) / len(ratios))


def summary(every: list[Times]) -> dict[str, float]:
    """For each level how many programs take a tenth of a second or more as they come in, and for each way the geometric
    mean of its times over theirs."""
    found: dict[str, float] = {}
    for level in LEVELS:
        counted = [one.seconds for one in every if one.seconds.get(f'source {level}', 0) >= LEAST]
        found[f'programs {level}'] = len(counted)
        for key in (key for key in counted[0] if key.endswith(f' {level}')) if counted else ():
            found[key] = mean([max(one[key], 0.001) / one[f'source {level}'] for one in counted])
    return found
