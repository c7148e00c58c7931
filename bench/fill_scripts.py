"""What `fill.py --all` puts into README.md beside what it measures itself: the numbers that other scripts print."""

import re
import subprocess
import sys
import textwrap
from concurrent.futures import ThreadPoolExecutor
from pathlib import Path
from typing import NamedTuple

FOLDER = Path(__file__).resolve().parent
sys.path.insert(0, str(FOLDER.parent / 'tools'))

import hostile  # noqa: E402
import real_tables  # noqa: E402

# The words behind which each row of drawn programs is made, by how the row begins.
DRAWN = {'`divisions.py`': ['divisions.py'], '`wanted.py`': ['wanted.py'],
         '`wanted.py`, `demanded`': ['wanted.py', '--words', 'passes', 'demanded'],
         '`wanted.py`, `bounds`': ['wanted.py', '--words', 'passes', 'bounds'],
         '`wanted.py`, `comparisons`': ['wanted.py', '--tests', '--words', 'passes', 'comparisons'],
         '`chains.py`': ['chains.py']}
# The words of which a sentence says that there were no differences.
ALSO = (['thorough'], ['passes', 'terms'], ['passes', 'extensions'], ['passes', 'unread'])
MOST_ROUNDS = 16
# The most programs whose native programs are timed, one after the other.
TURNED = 200
# A call of a text at the limits is stopped at these; and a command whose calls all take less than a second has no row.
SECONDS, MEGABYTES, LONG = 12, 4000, 1.0
FEW_WORKLOADS = ('diamonds', 'tails')


class How(NamedTuple):
    """The program, how many programs csmith draws, where the tests of GCC and what became of programs of C stand, the
    processor on which native programs are timed, whether few of all are taken, to try that each part works, how many
    processes work at a time, and a program that writes the same, of which what was counted is taken."""

    mir: str
    csmith: int = 560
    gcc: str = ''
    keep: str = ''
    core: str = ''
    few: bool = False
    jobs: int = 1
    counted: str = ''

    def some(self, *words: str) -> list[str]:
        """These words where few are taken, and else none."""
        return list(words) if self.few else []

    def of_judged(self) -> list[str]:
        """The words of what programs of C are judged with, and kept."""
        counted = ['--counted', self.counted] if self.counted else []
        return ['--jobs', str(self.jobs), *(['--keep', self.keep] if self.keep else []), *counted]

    def of_real(self) -> list[str]:
        """The words for `real.py`."""
        return [*self.of_judged(), '--fill', '--page']


def said(how: How, script: str, *words: str) -> str:
    """What a script of this folder prints of the program; where it fails, so does this."""
    print(f'bench/fill.py: {script} {" ".join(words)}', file=sys.stderr, flush=True)
    return subprocess.run([sys.executable, str(FOLDER / script), '--mir', how.mir, *words], check=True,
                          stdout=subprocess.PIPE, text=True).stdout


def number(text: str, what: str) -> str:
    """The number before some words of a script's closing line."""
    return re.search(rf'([\d,]+) {what}', text)[1]


def paragraph(page: str, begin: str, text: str) -> str:
    """The page with this text in the place of the paragraph that begins so."""
    start = page.index(f'\n\n{begin}') + 2
    end = page.index('\n\n', start)
    return page[:start] + textwrap.fill(text, 120, break_on_hyphens=False, break_long_words=False) + page[end:]


def real(page: Path, how: How) -> None:
    """Has `real.py` put its tables into the page, and puts in what follows from them."""
    put = [*how.of_real(), str(page)]
    told = said(how, 'real.py', '--csmith', str(how.csmith), *put, '--set', 'small', 'large', 'inputs', 'examples')
    if how.gcc:
        said(how, 'real.py', *how.some('--minutes', '0.5'), '--gcc', how.gcc, *put)
    text = page.read_text(encoding='utf-8')
    text = paragraph(text, 'Of what `optimise` leaves', real_tables.shares(text))
    pairs = re.findall(r'than optimise in (\d+) of (\d+) programs', told)[:-1]
    more, both = (sum(int(pair[at]) for pair in pairs) for at in (0, 1))
    text = paragraph(text, 'What `thorough` makes evaluates more', 'What `thorough` makes evaluates more operators than '
                     f'what `optimise` makes in {more:,} of {both:,} programs of csmith.')
    page.write_text(text, encoding='utf-8')


def left(page: Path, how: How) -> None:
    """Has `left.py` put its table into the page, and puts in what `loops.py` counts."""
    programs = ['--csmith', str(how.csmith)]
    said(how, 'left.py', *programs, *how.of_real(), str(page))
    count, *found = re.findall(r'[\d,]+', said(how, 'loops.py', *programs, *how.of_judged()).rstrip().split('\n')[-1])
    before, rotated, ahead, both = found
    page.write_text(paragraph(
        page.read_text(encoding='utf-8'), 'With such loops rotated',
        f'With such loops rotated in the text, or evaluated ahead (`bench/loops.py`), of the {before} operators that '
        f'`thorough` leaves of {count} programs of `inputs` remain {rotated} where they are rotated, {ahead} where they are '
        f'evaluated, {both} by both.'),
        encoding='utf-8')


def native(page: Path, how: How) -> None:
    """Has `real.py` put the times of native programs into the page."""
    core = ['--core', how.core] if how.core else []
    told = said(how, 'real.py', '--csmith', str(min(how.csmith, TURNED)), *core, *how.of_real(), str(page), '--set', 'turns')
    text = page.read_text(encoding='utf-8')
    text = re.sub(r'first [\d,]+ programs', f'first {number(told, "programs")} programs', text)
    page.write_text(text, encoding='utf-8')


def last_lines(how: How, calls: list[list[str]]) -> list[str]:
    """The closing line of each of these scripts, some of which run at a time."""
    with ThreadPoolExecutor(how.jobs) as pool:
        return list(pool.map(lambda words: said(how, *words).rstrip().split('\n')[-1], calls))


def run_beside(page: str, how: How) -> str:
    """The page with the table of drawn programs that are run beside what is made of them."""
    few, jobs = how.some('--programs', '20'), ['--jobs', str(how.jobs)]
    calls = [[*words, *(jobs if words == ['chains.py'] else []), *few] for words in DRAWN.values()]
    calls += [['wanted.py', *few, '--words', *words] for words in ALSO]
    compiled, *found = last_lines(how, [['against_llvm.py', '--repeat', '0', *few], *calls])
    for name, told in zip(DRAWN, found):
        cells = [number(told, what) for what in ('runs', 'ended', 'trapped', 'running', 'ended with', 'differences')]
        row = re.compile(rf'^(\| {re.escape(name)} \| )[\d,]+([^|]* \|).*$', re.M)
        drawn, *cells = (f'{int(count.replace(",", "")):,}' for count in (number(told, 'programs'), *cells))
        page = row.sub(lambda found: found[1] + drawn + found[2] + ''.join(f' {cell} |' for cell in cells), page)
    return paragraph(page, f'{number(page, "drawn programs with globals")} drawn programs',
                     f'{number(compiled, "programs")} drawn programs with globals and trap instructions, run as they are, '
                     f'optimised, compiled, and both: {number(compiled, "differences")} differences.')


def rounds(page: str, how: How) -> str:
    """The page with the table of how many rounds of sinking are made."""
    words = ['--jobs', str(how.jobs), '--csmith', str(min(how.csmith, 500)), *how.some('--programs', '20')]
    for line in said(how, 'rounds.py', *words).rstrip().split('\n'):
        counts = dict(re.findall(r'(\d+): ([\d,]*\d)', line.split(':', 1)[1]))
        kind = 'C programs of csmith' if 'csmith' in line else 'drawn programs'
        cells = [counts.get(str(each), '') for each in range(1, MOST_ROUNDS + 1)]
        row = re.compile(rf'^\| [\d,]+ {kind} \|.*$', re.M)
        filled = f'| {number(line, "(?:drawn )?programs")} {kind} |' + ''.join(f' {cell} |' if cell else ' |' for cell in cells)
        page = row.sub(lambda _, filled=filled: filled, page)
    return page


def is_told(row: str) -> bool:
    """Whether turns take half as much again as one `optimise`, or more."""
    return float(row.split('|')[6]) >= 1.5


def turns(page: str, how: How) -> str:
    """The page with the table of what turns take beside one `optimise`, of the workloads on which they take more."""
    words = ['--seconds', '1', *FEW_WORKLOADS] if how.few else ['--seconds', '5']
    head, *rows = said(how, 'turns.py', *words).rstrip().split('\n')
    rows = list(filter(is_told, rows))
    begin = page.index(head)
    end = page.index('\n\n', begin)
    return page[:begin] + '\n'.join([head, '|---' * head.count(' | ') + '|---|', *rows]) + page[end:]


def bril(page: str, how: How) -> str:
    """The page with the block of the programs in Bril."""
    begin = page.index('$ bench/bril.py --mir ./mir\n')
    end = page.index('```', begin)
    return page[:begin] + '$ bench/bril.py --mir ./mir\n' + said(how, 'bril.py') + page[end:]


def limits(page: str, how: How) -> str:
    """The page with what texts at the limits take: a row for each command of which a call is long or was stopped, and what
    the others take at most."""
    commands = [words for words in hostile.COMMANDS if words != 'passes 64']
    told = said(how, 'hostile.py', '--seconds', str(SECONDS), '--memory', str(MEGABYTES), '--jobs', str(how.jobs),
                *how.some('--of', '64'), '--words', *commands)
    calls, found = told.split('\n| Command |')
    ends = [line for line in calls.split('\n')[1:] if line]
    stopped = sum(line.endswith(('stopped', 'out of memory')) for line in ends)
    rows = [line for line in found.split('\n') if line.startswith('| `')]
    slowest = {row: float(re.match(r'\| `[^`]*` \| `[^`]*` ([\d.,]+) ', row)[1].replace(',', '')) for row in rows}
    shown = [row for row in rows if slowest[row] >= LONG or row.count('`') > 6]
    others = max([slowest[row] for row in rows if row not in shown], default=0)
    begin = page.index('| Command | Slowest, s |')
    page = page[:begin] + '\n'.join(['| Command | Slowest, s | Largest, MB | Stopped |', '|---|---|---|---|', *shown]) \
        + page[page.index('\n\n', begin):]
    page = paragraph(page, '`bench/hostile.py', f'`bench/hostile.py --seconds {SECONDS} --memory {MEGABYTES}` calls each '
                     f'command but `passes 64` on {len(hostile.shapes(1))} shapes of texts, each as long as it may be: the '
                     'slowest call that ended, the largest, and the shapes of which a call was stopped, since it took more '
                     f'than {SECONDS} s of the processor or {MEGABYTES / 1000:.0f} GB.')
    return paragraph(page, 'At most 10 s', f'At most 10 s and 1 GB are aimed at; {stopped} of {len(ends)} calls were '
                     f'stopped. The other commands take at most {others:.1f} s on any shape.')


def told_of(page: str, program: str, notes: str) -> str:
    """The page that says which program its numbers are of, with notes on some of them."""
    begin = page.index('<!-- of which program -->')
    end = page.index('\n\n## ', begin)
    text = f'All numbers are of {program}, by `bench/fill.py --all`{notes}.'
    return page[:begin] + '<!-- of which program -->\n' + textwrap.fill(text, 120, break_on_hyphens=False) + page[end:]
