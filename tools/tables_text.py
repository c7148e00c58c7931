"""Texts of tables, as `mir_tables` writes them, read for the page that `show` makes of them.

docs/TABLES.md has the lines. A text that is no tables is a `Fault`; the page reads a text that is by itself
(`page/tables.js`).
"""

import re

from mir_text import Fault

KINDS = ('start', 'skip', 'assign', 'print', 'guard', 'call', 'test', 'return')
ITEMS = {'expression': ('motion', 'divisions'), 'copy': ('copies',), 'pattern': ('sink',), 'variable': ('prune',)}
PASSES = ('clean', 'fold', 'number', 'copies', 'split', 'motion', 'sink', 'prune', 'divisions', 'tails', 'join',
          'bounds', 'wanted', 'demanded')

# The first line of a text, with the word of the command whose tables it has; none stands for `optimise`.
HEAD = re.compile(r'^tables 1(?: (?:divisions|tails|join|bounds|wanted|demanded))?$', re.MULTILINE)

# What a call is in tail position or not, or what becomes of it.
POSITIONS = ('loop', 'tail', 'dropped', 'global', 'then', 'joined', 'stays')

# Where these stand in a node of a stage, as on the page.
KIND, SUCCS, _, TEXT, _ = range(5)


class Reader:
    """Reads the lines of a text of tables; what it has read is in `units`."""

    def __init__(self) -> None:
        self.units: list[dict] = []
        self.bodies: list[dict] = []
        self.stage = self.facts = self.item = None

    def read(self, text: str) -> list[dict]:
        """Reads a whole text, and answers its units."""
        lines = text.split('\n')
        if not HEAD.fullmatch(lines[0]):
            raise Fault('line 1: no tables of version 1')
        for number, line in enumerate(lines[1:], 2):
            word, _, rest = line.partition(' ')
            call = getattr(self, 'line_' + word, None) if word.isidentifier() else None
            try:
                if call:
                    call(rest)
                elif word and self.facts is not None:
                    self.facts.setdefault('other', []).append(line)     # a later version may say more of a pass
                elif word:
                    raise Fault('unexpected')
            except (ValueError, IndexError, TypeError, KeyError, AttributeError):
                raise Fault(f'line {number}: unexpected') from None
            except Fault as fault:
                raise Fault(f'line {number}: {fault}') from None
        check(self.units)
        return self.units

    def line_body(self, rest: str) -> None:
        """What is told of a unit as a whole."""
        name, count, *why = rest.split()
        if why[0] not in ('leaf', 'long', 'calls') or self.units:
            raise Fault('unexpected')
        self.bodies.append({'name': name, 'count': int(count), 'why': why})

    def line_laid(self, rest: str) -> None:
        """How long a unit becomes, and whether it is taken so."""
        count, taken = rest.split()
        if taken not in ('taken', 'left') or 'laid' in self.units[-1] or self.facts is not None:
            raise Fault('unexpected')
        self.units[-1]['laid'] = {'count': int(count), 'taken': taken == 'taken'}

    def line_call(self, rest: str) -> None:
        """What is told of a call."""
        number, name, position, *after = rest.split()
        if self.stage['nodes'][int(number)][KIND] != 'call' or position not in POSITIONS or len(after) != (position == 'then'):
            raise Fault('unexpected')
        self.facts.setdefault('calls', []).append({'n': int(number), 'name': name, 'position': position,
                                                   'next': int(after[0]) if after else None})

    def line_unit(self, rest: str) -> None:
        """The name of a unit."""
        self.units.append({'name': rest, 'stages': [], 'passes': []})
        self.stage = self.facts = self.item = None

    def line_stage(self, rest: str) -> None:
        """The name of a stage."""
        self.stage = {'name': rest, 'shared': 0, 'vars': [], 'received': [], 'nodes': []}
        self.units[-1]['stages'].append(self.stage)
        self.facts = self.item = None

    def line_globals(self, rest: str) -> None:
        """How many variables of the stage are globals."""
        self.stage['shared'] = int(rest)

    def line_vars(self, rest: str) -> None:
        """The variables of the stage."""
        self.stage['vars'] = rest.split()

    def line_received(self, rest: str) -> None:
        """Those that are received."""
        self.stage['received'] = rest.split()

    def line_node(self, rest: str) -> None:
        """A node of the stage."""
        number, kind, succs, *text = rest.split(' ', 3)
        if int(number) != len(self.stage['nodes']) or kind not in KINDS:
            raise Fault('node out of order, or of no kind')
        leads = [] if succs == '-' else [int(one) for one in succs.split(',')]
        if len(leads) != {'test': 2, 'return': 0}.get(kind, 1):
            raise Fault('wrong number of successors')
        shared = self.stage['vars'][:self.stage['shared']] if kind in ('call', 'return') else []
        self.stage['nodes'].append([kind, leads, None, text[0] if text else kind, shared])

    def line_pass(self, rest: str) -> None:
        """The name of a pass."""
        if rest not in PASSES or not self.stage:
            raise Fault('no such pass')
        self.facts, self.item = {'name': rest, 'rows': {}}, None
        self.units[-1]['passes'].append(self.facts)

    def line_row(self, rest: str) -> None:
        """A bit for each node."""
        self.put_row('rows', rest, len(self.stage['nodes']))

    def line_edges(self, rest: str) -> None:
        """A bit for each edge."""
        self.put_row('edges', rest, sum(len(node[SUCCS]) for node in self.stage['nodes']))

    def put_row(self, where: str, rest: str, length: int) -> None:
        """A row of so many bits, with its title."""
        bits, name = rest.split(' ', 1)
        if len(bits) != length or set(bits) - {'0', '1'}:
            raise Fault('a row has a 0 or 1 for each node, or for each edge')
        (self.facts if self.item is None else self.item).setdefault(where, {})[name] = bits

    def put_item(self, word: str, rest: str) -> None:
        """An expression, a copy, a pattern or a variable."""
        if self.facts['name'] not in ITEMS[word]:
            raise Fault(f'{word} in pass {self.facts["name"]}')
        items = self.facts.setdefault('items', [])
        number, text = rest.split(' ', 1)
        if int(number) != len(items):
            raise Fault('out of order')
        self.item = {'text': text, 'rows': {}}
        items.append(self.item)

    def line_expression(self, rest: str) -> None:
        """An expression with its temporary."""
        number, temp, text = rest.split(' ', 2)
        self.put_item('expression', f'{number} {text}')
        self.item['temp'] = None if temp == '-' else temp

    def line_copy(self, rest: str) -> None:
        """A copy."""
        self.put_item('copy', rest)

    def line_pattern(self, rest: str) -> None:
        """A pattern."""
        self.put_item('pattern', rest)

    def line_variable(self, rest: str) -> None:
        """A variable."""
        self.put_item('variable', rest)

    def line_state(self, rest: str) -> None:
        """What is known before a node."""
        number, *values = rest.split()
        states = self.facts.setdefault('states', [])
        if int(number) != len(states):
            raise Fault('out of order')
        states.append(None if values == ['unreached'] else values)

    def line_wanted(self, rest: str) -> None:
        """How many bits are wanted before a node."""
        number, *bits = rest.split()
        wanted = self.facts.setdefault('wanted', [])
        if int(number) != len(wanted):
            raise Fault('out of order')
        wanted.append([int(one) for one in bits])

    def line_entered(self, rest: str) -> None:
        """How many bits are asked for of each global and each argument where the unit is entered."""
        self.facts['entered'] = [int(one) for one in rest.split()]

    def line_returned(self, rest: str) -> None:
        """How many are asked for of each global and of its result where it returns."""
        self.facts['returned'] = [int(one) for one in rest.split()]

    def line_term(self, rest: str) -> None:
        """A term."""
        number, *key = rest.split()
        terms = self.facts.setdefault('terms', [])
        if int(number) != len(terms):
            raise Fault('out of order')
        terms.append(key)

    def line_terms(self, rest: str) -> None:
        """The terms before a node."""
        number, root, *held = rest.split()
        before = self.facts.setdefault('before', [])
        if int(number) != len(before):
            raise Fault('out of order')
        before.append([int(root), [None if one == '-' else int(one) for one in held]])


def texts_of(text: str) -> list[str]:
    """The texts of tables that stand one after another in one."""
    heads = [match.start() for match in HEAD.finditer(text)]
    if not heads or heads[0]:
        raise Fault('line 1: no tables of version 1')
    return [text[start:end] for start, end in zip(heads, [*heads[1:], len(text)])]


def read_all(text: str) -> list[list[dict]]:
    """The units of each of the texts that stand one after another in one."""
    units, line = [], 0
    for one in texts_of(text):
        try:
            units.append(Reader().read(one))
        except Fault as fault:
            told = re.fullmatch(r'line (\d+): (.*)', str(fault))
            raise Fault(f'line {int(told[1]) + line}: {told[2]}' if told else str(fault)) from None
        line += one.count('\n')
    return units


def check(units: list[dict]) -> None:
    """Raises what is wrong with the whole."""
    if not units:
        raise Fault('no unit')
    for unit in units:
        if len(unit['stages']) != len(unit['passes']) + 1:
            raise Fault(f'unit {unit["name"]}: stages and passes do not take turns')
        for stage in unit['stages']:
            count = len(stage['nodes'])
            if not count or stage['nodes'][0][KIND] != 'start' or any(
                    not 0 < s < count for node in stage['nodes'] for s in node[SUCCS]):
                raise Fault(f'unit {unit["name"]}, stage {stage["name"]}: a successor is no node')
