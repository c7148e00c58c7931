"""Programs as text: their tokens, their grammar and checks, and the stages that `mir stages` writes.

What is wrong with a text is a `Fault` with the message that `mir` has for it. Nothing here is proved: the program is.
"""

import re
import sys
from dataclasses import dataclass, field
from typing import Iterator, NamedTuple, Optional, Union

RESERVED = set('begin end receive goto if call return print mod min max shl shr shra and or xor '
               'trap global sequence'.split())
RELATIONS = ('=', '!=', '<', '<=', '>', '>=')
OPERATORS = RELATIONS + ('+', '-', '*', '/', 'mod', 'min', 'max', 'shl', 'shr', 'shra', 'and', 'or', 'xor')
BYTES, UNITS, INSTRUCTIONS, RECEIVES, NAME_BYTES, GLOBALS = 1_048_576, 256, 16_384, 16, 64, 64

TOKEN = re.compile(r'(?P<blank>[ \t\r]+|\|\|[^\n]*)|(?P<end>\n)|(?P<name>[A-Za-z][A-Za-z0-9_]*)'
                   r'|(?P<number>-?[0-9]+)|(?P<mark><-|\xe2\x86\x90|<=|>=|!=|[:,;()+\-*/=<>!])')

Operand = Union[int, str]


class Fault(Exception):
    """What is wrong with a text, as `mir` says it."""


class Token(NamedTuple):
    """A name, a reserved word, a number, a mark or the end of a line, and its line."""

    kind: str
    text: str
    line: int


class Plain(NamedTuple):
    """A right side or a test that is one operand."""

    value: Operand


class Unary(NamedTuple):
    """A negation or a not."""

    operator: str
    value: Operand


class Binary(NamedTuple):
    """An operator with two operands; in a test a relation."""

    operator: str
    left: Operand
    right: Operand


Value = Union[Plain, Unary, Binary]


class Receive(NamedTuple):
    """`receive x(val)`."""

    name: str


class Assign(NamedTuple):
    """`x <- value`."""

    name: str
    value: Value


class Call(NamedTuple):
    """`x <- unit,(..)`, or `call unit,(..)` where no name gets the result."""

    name: Optional[str]
    unit: str
    arguments: tuple[Operand, ...]


class Goto(NamedTuple):
    """`goto label`."""

    label: str


class If(NamedTuple):
    """`if test goto label`."""

    test: Value
    label: str


class TrapIf(NamedTuple):
    """`if test trap number`."""

    test: Value
    number: int


class Print(NamedTuple):
    """`print a`."""

    value: Operand


class Return(NamedTuple):
    """`return a`."""

    value: Operand


Instruction = Union[Receive, Assign, Call, Goto, If, TrapIf, Print, Return]


@dataclass
class Unit:
    """A unit: its instructions with the line of each, the place of each label, and the globals of its program."""

    name: str
    line: int
    instructions: list[Instruction] = field(default_factory=list)
    lines: list[int] = field(default_factory=list)
    labels: dict[str, int] = field(default_factory=dict)
    label_lines: list[tuple[str, int, bool]] = field(default_factory=list)
    globals: tuple[str, ...] = ()

    def receives(self) -> int:
        """How many inputs the unit takes."""
        return sum(isinstance(instruction, Receive) for instruction in self.instructions)


def is_name(text: str) -> bool:
    """Whether a text is a name."""
    return bool(re.fullmatch('[A-Za-z][A-Za-z0-9_]*', text)) and len(text) <= NAME_BYTES and text not in RESERVED


def tokens(text: str) -> Iterator[Token]:
    """The tokens from the left; empty lines are dropped, and the last line has an end."""
    at, line, before = 0, 1, Token('end', '\n', 0)
    while at < len(text):
        match = TOKEN.match(text, at)
        if match and match.lastgroup == 'number' and text[at] == '-' and before.kind in ('name', 'number'):
            token = Token('mark', '-', line)
            at += 1
        elif match is None:
            raise Fault(f'line {line}: bad byte')
        else:
            token = judged(match, line, text[match.end():match.end() + 1])
            at = match.end()
        if token.kind == 'end':
            line += 1
        if token.kind != 'blank' and (token.kind, before.kind) != ('end', 'end'):
            yield token
        if token.kind != 'blank':
            before = token
    if before.kind != 'end':
        yield Token('end', '\n', line)


def judged(match: re.Match, line: int, follows: str) -> Token:
    """The token of a match, where its name is not too long and its number is in range."""
    kind, text = match.lastgroup, match.group()
    if kind == 'number' and (re.match('[A-Za-z_]', follows) or not -2 ** 63 <= int(text) < 2 ** 63):
        raise Fault(f'line {line}: bad number')
    if kind == 'name' and len(text) > NAME_BYTES:
        raise Fault(f'line {line}: long name')
    if kind == 'name' and text in RESERVED:
        kind = 'word'
    return Token(kind, '<-' if text == '\xe2\x86\x90' else text, line)


class Parser:
    """Reads units off tokens, by the grammar of the language page."""

    def __init__(self, read: list[Token]):
        self.tokens, self.at = read, 0

    def next(self) -> Token:
        """The next token, which is not taken."""
        if self.at == len(self.tokens):
            raise Fault('text ends inside a unit')
        return self.tokens[self.at]

    def unexpected(self) -> Fault:
        """The fault of the next token."""
        return Fault(f'line {self.next().line}: unexpected')

    def is_next(self, *texts: str) -> bool:
        """Whether the next token is one of these words or marks."""
        return self.next().kind in ('word', 'mark', 'end') and self.next().text in texts

    def take(self, *texts: str) -> str:
        """Takes one of these words or marks."""
        if not self.is_next(*texts):
            raise self.unexpected()
        self.at += 1
        return self.tokens[self.at - 1].text

    def name(self, *texts: str) -> str:
        """Takes a name, one of these where any are given."""
        if self.next().kind != 'name' or (texts and self.next().text not in texts):
            raise self.unexpected()
        self.at += 1
        return self.tokens[self.at - 1].text

    def operand(self) -> Operand:
        """Takes a name or a number."""
        if self.next().kind == 'number':
            self.at += 1
            return int(self.tokens[self.at - 1].text)
        return self.name()

    def may_end_line(self) -> None:
        """Takes the end of a line, if one is next."""
        if self.is_next('\n'):
            self.at += 1

    def globals(self) -> list[tuple[str, int]]:
        """Takes the lines of globals: their names, each with its line."""
        read = []
        while self.at < len(self.tokens) and self.is_next('global'):
            self.take('global')
            read.append((self.name(), self.tokens[self.at - 1].line))
            self.take('\n')
        return read

    def units(self) -> list[Unit]:
        """Takes all units."""
        read = []
        while self.at < len(self.tokens):
            read.append(self.unit())
        return read

    def unit(self) -> Unit:
        """Takes a unit."""
        unit = Unit(line=self.next().line, name=self.name())
        self.take(':')
        self.may_end_line()
        self.take('begin')
        self.take('\n')
        self.labels(unit)
        while not self.is_next('end'):
            unit.lines.append(self.next().line)
            unit.instructions.append(self.instruction())
            self.take('\n')
            self.labels(unit)
        self.take('end')
        self.take('\n')
        return unit

    def labels(self, unit: Unit) -> None:
        """Takes the labels of the next place; the first of a name counts."""
        while self.next().kind == 'name' and self.at + 1 < len(self.tokens) and self.tokens[self.at + 1].text == ':':
            line, name = self.next().line, self.name()
            self.take(':')
            self.may_end_line()
            unit.label_lines.append((name, line, name in unit.labels))
            unit.labels.setdefault(name, len(unit.instructions))

    def instruction(self) -> Instruction:
        """Takes an instruction."""
        if self.next().kind == 'name':
            name = self.name()
            self.take('<-')
            return self.assigned(name)
        word = self.take('receive', 'call', 'goto', 'if', 'print', 'return')
        if word == 'receive':
            name = self.name()
            self.take('(')
            self.name('val')
            self.take(')')
            return Receive(name)
        if word == 'call':
            return self.call(None)
        if word == 'goto':
            return Goto(self.name())
        if word == 'if':
            return self.jump()
        if word == 'print':
            return Print(self.operand())
        return Return(0 if self.is_next('\n') else self.operand())

    def assigned(self, name: str) -> Instruction:
        """Takes what stands behind the arrow of an assignment to a name."""
        if self.is_next('call'):
            self.take('call')
            return self.call(name)
        if self.is_next('-', '!'):
            return Assign(name, Unary(self.take('-', '!'), self.operand()))
        left = self.operand()
        if isinstance(left, str) and self.is_next(','):
            self.at -= 1
            return self.call(name)
        if self.is_next(*OPERATORS):
            return Assign(name, Binary(self.take(*OPERATORS), left, self.operand()))
        if not self.is_next('\n'):
            raise self.unexpected()
        return Assign(name, Plain(left))

    def call(self, name: Optional[str]) -> Call:
        """Takes the unit and the arguments of a call."""
        unit, arguments = self.name(), []
        self.take(',')
        self.take('(')
        while not self.is_next(')'):
            if arguments:
                self.take(';')
            arguments.append(self.operand())
            self.take(',')
            self.name('int')
            if not self.is_next(';', ')'):
                raise self.unexpected()
        self.take(')')
        return Call(name, unit, tuple(arguments))

    def jump(self) -> Union[If, TrapIf]:
        """Takes the test of an `if`, and its label or the number of its trap."""
        if self.is_next('!'):
            self.take('!')
            test: Value = Unary('!', self.operand())
        else:
            left = self.operand()
            test = Binary(self.take(*RELATIONS), left, self.operand()) if self.is_next(*RELATIONS) else Plain(left)
        if self.take('goto', 'trap') == 'goto':
            return If(test, self.name())
        if self.next().kind != 'number':
            raise self.unexpected()
        return TrapIf(test, int(self.operand()))


def least(lines: list[int], message: str) -> None:
    """Raises a fault with the smallest of these lines, if there is one."""
    if lines:
        raise Fault(f'line {min(lines)}: {message}')


def check(named: list[tuple[str, int]], units: list[Unit]) -> None:
    """Raises the first fault of a program with these globals, in the order of the language page."""
    if not units:
        raise Fault('no unit')
    if len(units) > UNITS:
        raise Fault('too many units')
    names = [unit.name for unit in units]
    least([unit.line for at, unit in enumerate(units) if unit.name in names[:at]], 'unit named twice')
    least([unit.lines[INSTRUCTIONS] for unit in units if len(unit.lines) > INSTRUCTIONS], 'too many instructions')
    check_receives(units)
    least([line for unit in units for _, line, again in unit.label_lines if again], 'label named twice')
    each = [(unit, one, line) for unit in units for one, line in zip(unit.instructions, unit.lines)]
    least([line for unit, one, line in each if isinstance(one, (Goto, If)) and one.label not in unit.labels],
          'no such label')
    calls = [(one, line) for _, one, line in each if isinstance(one, Call)]
    least([line for one, line in calls if one.unit not in names], 'no such unit')
    takes = {unit.name: unit.receives() for unit in units}
    least([line for one, line in calls if len(one.arguments) != takes[one.unit]], 'wrong number of arguments')
    shared = [name for name, _ in named]
    least([line for at, (name, line) in enumerate(named) if name in shared[:at]], 'global named twice')
    least([line for _, line in named[GLOBALS:]], 'too many globals')
    least([line for _, one, line in each if isinstance(one, Receive) and one.name in shared], 'global received')
    least([line for _, one, line in each if isinstance(one, TrapIf) and not 0 <= one.number <= 255],
          'bad trap number')


def program(text: str) -> list[Unit]:
    """The units of a valid text, whose characters are its bytes."""
    if len(text) > BYTES:
        raise Fault('text longer than 1048576 bytes')
    parser = Parser(list(tokens(text)))
    named = parser.globals()
    units = parser.units()
    check(named, units)
    for unit in units:
        unit.globals = tuple(name for name, _ in named)
    return units


def check_receives(units: list[Unit]) -> None:
    """Raises the first fault of the receives of a program."""
    late, twice, many = [], [], []
    for unit in units:
        received, others = [], min(unit.labels.values(), default=len(unit.lines))
        for place, (instruction, line) in enumerate(zip(unit.instructions, unit.lines)):
            if not isinstance(instruction, Receive):
                others = min(others, place)
                continue
            late += [line] if place >= others else []
            twice += [line] if instruction.name in received else []
            many += [line] if len(received) == RECEIVES else []
            received.append(instruction.name)
    least(late, 'late receive')
    least(twice, 'variable received twice')
    least(many, 'too many receives')


class Stage(NamedTuple):
    """A stage of the optimiser: its name, the text of its program, and the program."""

    name: str
    text: str
    units: list[Unit]


def stages(text: str) -> list[Stage]:
    """The stages that `mir stages` writes, from the source to the result."""
    if not text.startswith('|| source\n'):
        raise Fault('no stages: the text does not begin with the line `|| source`')
    found = []
    for part in re.split(r'^\|\| ', text, flags=re.MULTILINE)[1:]:
        name, _, body = part.partition('\n')
        try:
            found.append(Stage(name, body, program(body)))
        except Fault as fault:
            raise Fault(f'stage {name}: {fault}') from None
    if found[-1].name != 'result':
        raise Fault('no stages: the text does not end with the stage `result`')
    return found


def spelled(value: Operand) -> str:
    """An operand as it is written."""
    return str(value)


def value_text(value: Value) -> str:
    """A right side or a test as it is written."""
    if isinstance(value, Plain):
        return spelled(value.value)
    if isinstance(value, Unary):
        return f'{value.operator} {spelled(value.value)}'
    return f'{spelled(value.left)} {value.operator} {spelled(value.right)}'


def instruction_text(instruction: Instruction) -> str:
    """An instruction as it is written in the canonical text."""
    if isinstance(instruction, Receive):
        return f'receive {instruction.name}(val)'
    if isinstance(instruction, Assign):
        return f'{instruction.name} <- {value_text(instruction.value)}'
    if isinstance(instruction, Call):
        head = 'call' if instruction.name is None else f'{instruction.name} <-'
        return f'{head} {instruction.unit},({";".join(f"{spelled(one)},int" for one in instruction.arguments)})'
    if isinstance(instruction, Goto):
        return f'goto {instruction.label}'
    if isinstance(instruction, If):
        return f'if {value_text(instruction.test)} goto {instruction.label}'
    if isinstance(instruction, TrapIf):
        return f'if {value_text(instruction.test)} trap {instruction.number}'
    if isinstance(instruction, Print):
        return f'print {spelled(instruction.value)}'
    return f'return {spelled(instruction.value)}'


def operands_of(value: Value) -> tuple[Operand, ...]:
    """The operands of a right side or a test."""
    return (value.left, value.right) if isinstance(value, Binary) else (value.value,)


def variables_in(instruction: Instruction) -> tuple[set[str], set[str]]:
    """The variables that an instruction reads, and those that it sets."""
    read: tuple[Operand, ...] = ()
    written: set[str] = set()
    if isinstance(instruction, Receive):
        written = {instruction.name}
    elif isinstance(instruction, Assign):
        read, written = operands_of(instruction.value), {instruction.name}
    elif isinstance(instruction, Call):
        read, written = instruction.arguments, {instruction.name} if instruction.name else set()
    elif isinstance(instruction, (If, TrapIf)):
        read = operands_of(instruction.test)
    elif isinstance(instruction, (Print, Return)):
        read = (instruction.value,)
    return {operand for operand in read if isinstance(operand, str)}, written


def variables_of(unit: Unit) -> frozenset:
    """The names of a unit's variables."""
    return frozenset().union(*(read | written for read, written in map(variables_in, unit.instructions)))


def read_input(path: Optional[str] = None) -> str:
    """The bytes of a file, or of the standard input, each as one character."""
    try:
        if path is None:
            return sys.stdin.buffer.read().decode('latin-1')
        with open(path, 'rb') as file:
            return file.read().decode('latin-1')
    except OSError as error:
        raise Fault(f'{path or "standard input"}: {error.strerror}') from None


def run_tool(tool: str, work) -> int:
    """Runs a tool's work: what is wrong with its input is one line on the standard error, and the status 1."""
    try:
        work()
        sys.stdout.flush()
        return 0
    except Fault as fault:
        print(f'{tool}: {fault}', file=sys.stderr)
    except BrokenPipeError:
        sys.stderr.close()
    return 1
