"""What the pages name: links, files, and words of the code. `docs/check` asks here whether each of them is there, and a word
beside a crate or a file (`word` of `crate`, `Word` (`specs/File.antt`)) in that crate or file; whether each crate has its
row on the pages that have one for each; and whether docs/PROOFS.md lists what has to be read (`unfolded.py`)."""

import functools
import os
import re
import subprocess
from pathlib import Path
from typing import Iterator

import unfolded

TOP = Path(__file__).resolve().parent.parent
PAGES = ('*.md', 'docs/*.md', 'examples/*.md', 'bench/*.md', 'tools/*.md', 'crates/*/README.md')
ENDS = 'antt|rt|md|py|mir|txt|js|css|html|edit|c|h'
SOURCES = ('.rt', '.antt', '.py', '.js', '.c', '.h', '.mir', '.edit', '.sh', '.bash', '.txt')
LINK = re.compile(r'\]\(([^()\s]+)\)')
FENCE = re.compile(r'^```.*?^```', re.M | re.S)
QUOTED = re.compile(r'`([^`\n]+)`')
FILE = re.compile(rf'[\w/-][\w./-]*\.(?:{ENDS})')
# Words of the code are told from plain ones by a capital behind a small letter, or by a line between two parts.
WORD = re.compile(r'[A-Za-z][a-z0-9]+[A-Z]\w*|[a-z][a-z0-9]*(?:_[a-z0-9]+)+')
NAME = re.compile(r"[A-Za-z_][\w']*(?:::[\w']+)*")
# Words, and a crate, a file or another word that they are said to be of; words, and the files of definitions beside them.
OF = re.compile(r'((?:`[^`]+`(?:, and |, | and | or ))*`[^`]+`) (?:of|in) (`[\w./-]+`)')
BESIDE = re.compile(r'((?:`[^`./]+`(?:, and |, | and | or ))*`[^`./]+`)(?:, | \()((?:`[\w/]+\.antt`(?:, )?)+)')
# Pages with a row for each crate, and what names it there.
ROWS = {'docs/WAYS.md': '`{}`', 'docs/ARCHITECTURE.md': '\n| `{}` |', 'docs/PROOFS.md': '\n| `{}` | '}


@functools.lru_cache(maxsize=None)
def files() -> list[str]:
    """The files of the repository, also those that git does not know yet."""
    told = subprocess.run(['git', 'ls-files', '-co', '--exclude-standard'], cwd=TOP, stdout=subprocess.PIPE, text=True)
    return told.stdout.split('\n')[:-1]


@functools.lru_cache(maxsize=None)
def names() -> set[str]:
    """The names of files, without their folders."""
    return {name.rsplit('/', 1)[-1] for name in files()}


@functools.lru_cache(maxsize=None)
def made() -> set[str]:
    """The names of files that tools make."""
    texts = (TOP / name for name in files() if name.startswith('tools/') and not name.endswith('.md'))
    return {each for text in texts for each in FILE.findall(text.read_text(encoding='utf-8', errors='replace'))}


@functools.lru_cache(maxsize=None)
def words() -> set[str]:
    """All words of the sources, and the names of files and folders."""
    found = {part.split('.')[0] for name in files() for part in name.split('/')}
    for name in files():
        if name.endswith(SOURCES) or (name.startswith(('tools/', 'bench/', 'docs/', '.ci/')) and '.' not in Path(name).name):
            found |= set(re.findall(r'\w+', (TOP / name).read_text(encoding='utf-8', errors='replace')))
    return found


@functools.lru_cache(maxsize=None)
def words_in(name: str) -> set[str]:
    """The words of a file."""
    return set(re.findall(r'\w+', (TOP / name).read_text(encoding='utf-8', errors='replace')))


@functools.lru_cache(maxsize=None)
def sources() -> dict[str, list[str]]:
    """The files of each crate."""
    found: dict[str, list[str]] = {}
    for name in files():
        if name.startswith('crates/') and name.endswith(SOURCES):
            found.setdefault(name.split('/')[1], []).append(name)
    return found


@functools.lru_cache(maxsize=None)
def words_of(crate: str) -> set[str]:
    """The words of a crate."""
    return set().union(*map(words_in, sources()[crate]))


@functools.lru_cache(maxsize=None)
def functions(crate: str) -> set[str]:
    """The functions of a crate, whose clauses cite the words of its definitions."""
    texts = ((TOP / name).read_text(encoding='utf-8') for name in sources()[crate] if name.endswith('.rt'))
    return {each for text in texts for each in re.findall(r'\bfn (\w+)', text)}


@functools.lru_cache(maxsize=None)
def anchors(page: Path) -> set[str]:
    """What a link into a page may name: its heads, in small letters, with lines for blanks."""
    heads = re.findall(r'^#+ (.*)$', FENCE.sub('', page.read_text(encoding='utf-8')), re.M)
    return {re.sub(r'[^\w\- ]', '', head.lower()).replace(' ', '-') for head in heads}


def is_file(name: str, page: Path) -> bool:
    """Whether a file of this name is there: from the top, from the page, from its crate, or from some crate."""
    if '/' not in name:
        return name in names()
    roots = (TOP, page.parent, TOP / 'crates')
    return any((root / name).exists() for root in roots) or any(each.endswith('/' + name) for each in files())


def wrong_links(page: Path, text: str) -> Iterator[str]:
    """The links of a page that lead nowhere."""
    for link in LINK.findall(text):
        if re.match(r'[a-z]+:', link):
            continue
        name, _, anchor = link.partition('#')
        target = (page.parent / name).resolve() if name else page
        if not target.exists():
            yield f'links to {link}, which is not there'
        elif anchor and target.suffix == '.md' and anchor not in anchors(target):
            yield f'links to {link}, which has no such head'


def wrong_names(page: Path, text: str) -> Iterator[str]:
    """What a page names in quotes and is not there: files, and words of the code."""
    for quoted in QUOTED.findall(FENCE.sub('', text)):
        if FILE.fullmatch(quoted):
            shown = [*FENCE.findall(text), *(each for each in QUOTED.findall(text) if ' ' in each)]
            is_shown = any(quoted in each for each in shown)
            if not (is_file(quoted, page) or is_shown or quoted.rsplit('/', 1)[-1] in made()):
                yield f'names the file {quoted}, which is not there'
        elif WORD.fullmatch(quoted) and quoted not in words():
            yield f'names {quoted}, which stands in no source'


def stands_in(word: str, place: str, page: Path) -> bool:
    """Whether a word stands where a page has it, or a file in a crate: in the crate, in one of the files of this name, those
    of the page's crate before others, or in one file with the other word. In the place of what a function's clauses cite
    there may be the function."""
    parts = set(re.findall(r'\w+', word))
    if place in sources() and FILE.fullmatch(word):
        return any(name.endswith('/' + word) for name in sources()[place])
    if not NAME.fullmatch(word):
        return True
    if place in sources():
        return parts <= words_of(place)
    if FILE.fullmatch(place) and any(name.endswith('/' + place) for name in sources().get(word, [])):
        return True
    if FILE.fullmatch(place):
        found = [name for name in files() if name == place or name.endswith('/' + place)]
        own = [name for name in found if name.startswith(f'{os.path.relpath(page.parent, TOP)}/')] or found
        return not own or any(parts <= words_in(name) or name.startswith('crates/') and parts & functions(name.split('/')[1])
                              for name in own)
    if not re.fullmatch(r'\w+', place) or not (WORD.fullmatch(word) or WORD.fullmatch(place)):
        return True
    return any(parts | {place} <= words_in(name) for each in sources().values() for name in each)


def misplaced(page: Path, text: str) -> Iterator[str]:
    """The words of a page that do not stand in the crate or the file that is named beside them."""
    flat = ' '.join(FENCE.sub('', text).split())
    for found in [*OF.finditer(flat), *BESIDE.finditer(flat)]:
        places = QUOTED.findall(found[2])
        for word in QUOTED.findall(found[1]):
            if not any(stands_in(word, place, page) for place in places):
                yield f'names {word} of {", ".join(places)}, where it does not stand'


def unlisted(page: Path, text: str) -> Iterator[str]:
    """The crates that have no row on a page with a row for each, and that it does not say to be left out."""
    row = ROWS.get(os.path.relpath(page, TOP))
    left_out = ' '.join(re.findall(r'Left out are [^.]*\.', text))
    for crate in re.findall(r'^(\w+)[^:\n]*:', (TOP / 'crates.txt').read_text(encoding='utf-8'), re.M) if row else []:
        if row.format(crate) not in text and f'`{crate}`' not in left_out:
            yield f'has no row for the crate {crate}'


def unread(page: Path, text: str) -> Iterator[str]:
    """In what the table of what has to be read differs from what the theorem unfolds to."""
    if page == TOP / 'docs' / 'PROOFS.md':
        yield from unfolded.wrong(text)


def pages() -> list[Path]:
    """The pages that are looked at."""
    return sorted({page for pattern in PAGES for page in TOP.glob(pattern)})


def wrong(page: Path) -> list[str]:
    """All that a page names and is not there."""
    text = page.read_text(encoding='utf-8')
    return [*wrong_links(page, text), *wrong_names(page, text), *misplaced(page, text), *unlisted(page, text),
            *unread(page, text)]
