"""Which files of specs/ a definition unfolds to: those with a definition that it names, or that one so named names. By it
`docs/check` asks whether the table of docs/PROOFS.md of what has to be read has just the files that `Promises` of mir_top
unfolds to. A definition is an `abbrev`, an `unfoldable`, a `record` or a `data`, with its equations or fields; a name that
is not defined in the file is the one that a line `use` brings in."""

import functools
import re
from pathlib import Path
from typing import Iterator

TOP = Path(__file__).resolve().parent.parent
HEAD = re.compile(r' *(?:abbrev pub|abbrev|unfoldable pub|pub record|record|pub data|data) +([^\s:({]+)')
USE = re.compile(r'^(?:pub )?use Rattle\.(\w+)\.specs\.([\w.]+)\.\{([^}]*)\}', re.M)
NAME = re.compile(r"[A-Za-z_][\w'-]*")
# In a row of the table: a crate and what is to be read of it; one word of a file alone; a file.
READ = re.compile(r'`(\w+)`: ([^;|]*)')
ALONE = re.compile(r'of `(\w+)` `\w+`')
FILE = re.compile(r'`([A-Z]\w*)`')


@functools.lru_cache(maxsize=None)
def read_file(path: Path) -> tuple[dict[str, str], dict[str, tuple[str, str, str]]]:
    """The definitions of a file, each with its text, and where each name that it uses comes from."""
    text = re.sub(r'^ *--.*\n', '', path.read_text(encoding='utf-8'), flags=re.M)
    uses = {}
    for crate, file, names in USE.findall(text):
        for name in filter(None, map(str.strip, names.split(','))):
            there, _, here = name.partition(' as ')
            uses[here or there] = (crate, file, there)
    found: dict[str, str] = {}
    name, deep = '', 0
    for line in text.split('\n'):
        head, indent = HEAD.match(line), len(line) - len(line.lstrip())
        if head:
            name, deep = head[1], indent
        elif line.strip() and indent <= deep and not line.strip().startswith(name):
            name = ''
        if name:
            found[name] = f'{found.get(name, "")}{line}\n'
    return found, uses


def unfolded(crate: str, file: str, name: str) -> set[tuple[str, str]]:
    """The files, by their crates, with a definition that this one unfolds to."""
    seen, found, waiting = set(), set(), [(crate, file, name)]
    while waiting:
        one = waiting.pop()
        if one in seen:
            continue
        seen.add(one)
        path = TOP / 'crates' / one[0] / 'specs' / (one[1].replace('.', '/') + '.antt')
        if not path.exists():
            continue
        defined, uses = read_file(path)
        if one[2] not in defined:
            waiting += [uses[one[2]]] if one[2] in uses else []
            continue
        found.add(one[:2])
        waiting += [uses.get(each, (*one[:2], each)) for each in NAME.findall(defined[one[2]])
                    if each in uses or each in defined]
    return {(crate, file) for crate, file in found if not file.startswith('declared')}


def listed(text: str) -> Iterator[tuple[str, str]]:
    """The files that the table lists; `*` stands for all of a crate."""
    table = text[text.index('| To know | Read in'):]
    for crate, what in READ.findall(table[:table.index('\n\n')]):
        if re.search(r'\ball\b', what):
            yield crate, '*'
        yield from ((crate, file) for file in ALONE.findall(what) + FILE.findall(ALONE.sub('', what)))


def wrong(text: str) -> Iterator[str]:
    """In what the table differs from what `Promises` unfolds to."""
    shown = set(listed(text))
    whole = {crate for crate, file in shown if file == '*'}
    found = unfolded('mir_top', 'Promises', 'Promises')
    for crate, file in sorted(found - shown):
        if crate not in whole:
            yield f'does not list {file} of {crate}, which has to be read'
    for crate, file in sorted(shown - found):
        if file != '*':
            yield f'lists {file} of {crate}, which does not have to be read'
