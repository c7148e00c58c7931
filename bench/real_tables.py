"""The tables of bench/real.py: what it counts and measures, as rows of README.md."""

import collections
import re
import textwrap

import native_times

MARK = '<!-- bench/real.py -->'
FEW = 20  # the mean of fewer times than these tells little
WAYS = ('source', 'optimise', 'thorough', 'alike', 'all')
TURNS = ('source', 'optimise', 'turns', 'wanted', 'demanded', 'thorough', 'alike', 'all')
HEADS = {
    'ends': '| Set | Programs | Same | Different | Refused | Not compared | As native programs |',
    'reasons': '| Set | Refused or not compared, since | Programs |',
    'operators': '| Set | Programs | Source | `optimise` | `turns` | `wanted` | `demanded` | `thorough` '
                 '| `alike` | `all` |',
    'arithmetic': '| Set | Arithmetic | Programs | `optimise` | `thorough` | `alike` | `all` |',
    'beside': '| Set | LLVM | `optimise`: less | as much | more | `thorough`: less | as much | more |',
    'each': '| Program | Source | `optimise` | `thorough` | `alike` | `all` |',
    'times': '| clang | Programs | `optimise` | `thorough` |',
}


def row(cells: list) -> str:
    """A row of a table."""
    plain = [f'{cell:,}' if isinstance(cell, int) else cell for cell in cells]
    return '|' + '|'.join(f' {cell} ' if cell else ' ' for cell in plain) + '|'


def counted(outcomes: list) -> list:
    """The programs that are the same and of which all runs were counted."""
    return [each for each in outcomes if each.state == 'same' and set(each.evals) >= {'source', 'alike', 'all'}]


def rows_of(name: str, outcomes: list) -> dict[str, list[list]]:
    """The rows of a set in each table."""
    states = collections.Counter(each.state for each in outcomes)
    refused = sum(count for state, count in states.items() if state.startswith('refused'))
    others = len(outcomes) - states['same'] - states['different'] - refused
    whole, found = counted(outcomes), {}
    native = sum(each.is_long for each in outcomes)
    found['ends'] = [[len(outcomes), states['same'], states['different'], refused, others, native]]
    reasons = sorted(((count, state) for state, count in states.items() if state not in ('same', 'different')),
                     reverse=True)
    found['reasons'] = [[state.removeprefix('refused: '), count] for count, state in reasons]
    found['beside'] = [[f'`{kind}`', *signs(whole, kind, 'optimise'), *signs(whole, kind, 'thorough')]
                       for kind in ('alike', 'all')] if whole else []
    found['operators'] = [[len(whole), *sums(whole, TURNS)]] if whole else []
    called = [each for each in whole if each.is_called]
    placed = [each for each in whole if not each.is_called]
    found['arithmetic'] = [[kind, len(some), *sums(some, WAYS[1:])]
                           for kind, some in (('called', called), ('in place', placed)) if called and placed]
    return {table: [[f'`{name}`', *cells] for cells in rows] for table, rows in found.items()}


def sums(outcomes: list, ways: tuple) -> list:
    """The operators of these programs in some ways; nothing where none was counted."""
    return [sum(each.evals.get(way, each.evals['source']) for each in outcomes)
            if any(way in each.evals for each in outcomes) else '' for way in ways]


def signs(outcomes: list, kind: str, way: str) -> list[int]:
    """In how many programs this kind of LLVM's passes leaves less than a way, as much, and more."""
    both = [(each.evals[kind], each.evals[way]) for each in outcomes if way in each.evals]
    return [sum(left < right for left, right in both), sum(left == right for left, right in both),
            sum(left > right for left, right in both)]


def lines(name: str, outcomes: list) -> list[str]:
    """The rows of a set, each behind the head of its table."""
    return [line for table, rows in rows_of(name, outcomes).items() if rows for line in [HEADS[table], *map(row, rows)]]


def time_rows(times: list[native_times.Times]) -> list[list]:
    """The rows of the table of times."""
    found, rows = native_times.summary(times), []
    for level in native_times.LEVELS:
        count = int(found[f'programs {level}'])
        means = [found.get(f'{way} {level}') for way in ('optimise', 'thorough')]
        note = ' (too few to tell)' if count < FEW else ''
        rows.append([f'`{level}`', count, *('' if one is None else f'{one:.2f}{note}' for one in means)])
    return rows


def time_lines(times: list[native_times.Times]) -> list[str]:
    """The table of times."""
    return [HEADS['times'], *map(row, time_rows(times))]


def put(page: str, table: str, key: str, rows: list[list]) -> str:
    """The page with these rows in a table, in the place of those that begin with a key, or behind all."""
    before, mark, behind = page.partition(MARK)
    if not mark or HEADS[table] not in behind:
        return page
    top, head, rest = behind.partition(HEADS[table] + '\n')
    old = rest.split('\n\n')[0].split('\n')
    at = next((at for at, line in enumerate(old) if line.startswith(f'| {key} ')), len(old))
    kept = [line for line in old if not line.startswith(f'| {key} ')]
    new = kept[:at] + [row(cells) for cells in rows] + kept[at:]
    return before + mark + top + head + '\n'.join(new) + rest[len('\n'.join(old)):]


def with_each(page: str, outcomes: list) -> str:
    """The page with a row for each of these programs."""
    for each in outcomes:
        cells = [f'`{each.name}`', *(each.evals.get(way, '') for way in WAYS)]
        page = put(page, 'each', cells[0], [cells])
    return page


def with_set(page: str, name: str, outcomes: list) -> str:
    """The page with the rows of a set; of the examples it has one for each."""
    if name == 'examples':
        return with_each(page, outcomes)
    for table, rows in rows_of(name, outcomes).items():
        page = put(page, table, f'`{name}`', rows)
    return with_most(page, name, outcomes)


def shares(page: str) -> str:
    """A sentence on the operators that remain of those that `optimise` leaves, by the table of them."""
    head = [cell.strip(' `') for cell in HEADS['operators'].split('|')]
    table = page.partition(HEADS['operators'])[2].split('\n\n')[0]
    found = {}
    for line in table.split('\n'):
        cells = dict(zip(head, (cell.strip(' `') for cell in line.split('|'))))
        if cells.get('optimise', '-').strip('-'):
            found[cells['Set']] = [int(cells[way].replace(',', '')) for way in ('optimise', 'thorough', 'all')]
    ours = ', '.join(f'{thorough / least:.2f} of `{name}`' for name, (least, thorough, _) in found.items())
    theirs = ', '.join(f'{left / least:.2f}' for least, _, left in found.values())
    return f'Of what `optimise` leaves, `thorough` leaves {ours}; `all` leaves {theirs}.'


def with_most(page: str, name: str, outcomes: list) -> str:
    """The page with the numbers of the program of which `thorough` leaves most, where it tells of one of this set."""
    found = re.search(rf'(?m)^Program \d+ of `{name}` has (?:.+\n)+', page)
    whole = [each for each in counted(outcomes) if 'thorough' in each.evals]
    if found is None or len(whole) < 2:
        return page
    most = max(whole, key=lambda each: each.evals['thorough'])
    least, ours, theirs = (sum(each.evals[way] for each in whole) - most.evals[way] for way in ('optimise', 'thorough', 'all'))
    rest = ' '.join(found[0].split()).split('. ', 1)[1]
    number = most.name.removeprefix(f'{name}_')
    if f'Program {number} of' not in found[0]:  # what is said of the other program is not known of this one
        rest = rest.split('. ', 1)[1]
    text = (f'Program {number} of `{name}` has {most.evals["thorough"]:,} of what `thorough` leaves, and {most.evals["all"]:,} of '
            f'what `all` leaves; without it they leave {ours / least:.2f} and {theirs / least:.2f}. {rest}')
    return page.replace(found[0], textwrap.fill(text, 120, break_on_hyphens=False) + '\n')


def with_times(page: str, times: list[native_times.Times]) -> str:
    """The page with the rows of times."""
    for cells in time_rows(times):
        page = put(page, 'times', cells[0], [cells])
    return page
