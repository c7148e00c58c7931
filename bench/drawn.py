"""Programs in C that `csmith` draws for bench/real.py: numbers, tests, loops and calls, without pointers, arrays,
structures and floats. Some take inputs: then each global variable gets a value of one at the start."""

import re
import subprocess
from pathlib import Path
from typing import NamedTuple

PLAIN = ('--no-pointers --no-arrays --no-structs --no-unions --no-bitfields --no-volatiles --no-volatile-pointers '
         '--no-packed-struct --no-argc --concise --max-expr-complexity 6').split()
SMALL = [*PLAIN, *'--max-funcs 3 --max-block-depth 3'.split()]
LARGE = [*PLAIN, *'--max-funcs 5 --max-block-depth 4'.split()]

# Programs of one file, so that clang is called once for all of them.
TOGETHER = 10

# What stands for the runtime of csmith: its checked arithmetic, and a print of each value in the place of a checksum.
HEADER = '''#include <float.h>
#include <limits.h>
#include <math.h>
#include <stdint.h>
#include <stdlib.h>
#include <string.h>
void mir_print(long long);
#define STATIC static WRAPPER
#define UNDEFINED(value) (value)
#define LOG_INDEX
#define LOG_EXEC
#define FUNC_NAME(name) (safe_##name)
#include <csmith/safe_math.h>
#define platform_main_begin()
#define crc32_gentab()
#define transparent_crc(value, name, flag) mir_print((long long)(value))
#define platform_main_end(value, flag)
'''
INLINE = '__attribute__((always_inline)) inline'

# The inputs x1 to x4 with which programs are run that have them; with the first each global has the value of its text.
INPUTS = (('0', '0', '0', '0'), ('1', '-2', '3', '255'), ('-77', '65536', '4294967297', '-1'))
VARIABLE = re.compile(r'^static (\w+) (g_\d+) = (.*);$', re.MULTILINE)


class Setting(NamedTuple):
    """How programs are drawn: the flags of csmith, whether they have inputs, and whether they make many turns."""

    flags: list[str]
    has_inputs: bool = False
    has_turns: bool = False


SETTINGS = {'small': Setting(SMALL), 'large': Setting(LARGE), 'inputs': Setting(SMALL, has_inputs=True),
            'turns': Setting(SMALL, has_inputs=True, has_turns=True)}


class Source(NamedTuple):
    """A C file, flags of clang for it, and its programs: the function that each begins with. Where this is not `main`,
    the native program takes its name as a word. `inputs` has the words of each run, if the programs have inputs."""

    path: Path
    flags: list[str]
    entries: dict[str, str]
    inputs: tuple[tuple[str, ...], ...] = ()


def with_inputs(text: str, turns: bool) -> str:
    """The program with the inputs x1 to x4, which are added to the first values of its global variables. With turns it
    does all its work so many times, from four lists of first values in turn, and prints a sum of what it printed."""
    found = VARIABLE.findall(text)
    count = ' + (turn & 3)' if turns else ''
    firsts = ''.join(f'    {name} = ({of})({value} + x{at % 4 + 1}{count});\n'
                     for at, (of, name, value) in enumerate(found))
    head, body = re.split(r'\nint main ?\(.*?\)\n\{', text)
    if not turns:
        return f'{head}\nint main(long x1, long x2, long x3, long x4) {{\n{firsts}{body}'
    sums = ''.join(f'    sum = sum * 31 + (unsigned long){name};\n' for _, name, _ in found)
    return (f'{head}\nint main(long x1, long x2, long x3, long x4, long turns) {{\n  unsigned long sum = 0;\n'
            f'  for (long turn = 0; turn < turns; turn++) {{\n{firsts}    func_1();\n{sums}  }}\n'
            '  mir_print((long long)sum);\n  return 0;\n}\n')


def drawn(setting: Setting, numbers: list[int], folder: Path, stem: str) -> Source:
    """Programs that csmith draws, in one file. The checked arithmetic is put into its callers in every second file, so
    that both are tried."""
    parts, entries = ['#include "csmith.h"'], {}
    for number in numbers:
        words = ['csmith', *setting.flags, '--seed', str(number)]
        text = subprocess.run(words, capture_output=True, text=True, cwd=folder, timeout=600).stdout
        text = text.replace('#include "csmith.h"', '')
        text = with_inputs(text, setting.has_turns) if setting.has_inputs else text
        parts.append(re.sub(r'\b(func_\d+|g_\d+|main|__undefined)\b', rf'p{number}_\1', text))
        entries[f'{stem}_{number}'] = f'p{number}_main'
    parts.append(caller(list(entries.values()), (4 + setting.has_turns) if setting.has_inputs else 0))
    path = folder / f'{stem}_{numbers[0]}.c'
    path.write_text('\n'.join(parts))
    flags = ['-I', str(folder), f'-DWRAPPER={INLINE if numbers[0] // TOGETHER % 2 == 0 else ""}']
    return Source(path, flags, entries, INPUTS if setting.has_inputs else ((),))


def of_file(path: Path, folder: Path) -> Source:
    """A C file, from its `main` on; or, where its first comment names inputs, from the function of its name on."""
    named = re.search(r'ARGS: ([-\d ]*\d)', path.read_text(encoding='latin-1'))
    if named is None:
        return Source(path, ['-I', str(path.parent)], {path.stem: 'main'}, ((),))
    inputs = tuple(named[1].split())
    made = folder / f'{path.stem}_called.c'
    made.write_text(f'#include "{path.resolve()}"\n#include <stdlib.h>\n#include <string.h>\n'
                    + caller([path.stem], len(inputs)))
    return Source(made, [], {path.stem: path.stem}, (inputs,))


def caller(entries: list[str], count: int) -> str:
    """A `main` that calls the program that its first word names, with the others as inputs."""
    words = ', '.join(f'strtol(words[{at + 2}], 0, 10)' for at in range(count))
    tests = ''.join(f'    if (strcmp(words[1], "{entry}") == 0) return {entry}({words});\n' for entry in entries)
    return f'int main(int count, char **words) {{\n{tests}    return 99;\n}}\n'
