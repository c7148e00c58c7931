"""Programs in Bril, the teaching language: as JSON, the form in which its tools hand programs on, and as text.

A program is read from either form and written in either. What is wrong with a text, and what has no meaning in Bril
(as a jump to no label), is a `Fault` with the function and the instruction, or the line.
"""

import collections
import json
import re
from dataclasses import dataclass, field
from typing import Iterator, NamedTuple, Optional, Union

from mir_text import Fault

TOKEN = re.compile(r'(?P<blank>[ \t\r\n]+|#[^\n]*)|(?P<number>[-+]?\d+(?:\.\d+)?(?:[eE][-+]?\d+)?)'
                   r'|(?P<character>\'(?:\\.|[^\'\n])\')|(?P<name>[@.]?[A-Za-z_%][\w%.]*)|(?P<mark>[:;=,(){}<>])')
TYPES = ('int', 'bool')
RELATIONS = ('eq', 'lt', 'gt', 'le', 'ge')
SUMS = ('add', 'sub', 'mul', 'div')

# How many digits a number has at the most, and how many names a type.
DIGITS, LEVELS = 100, 64

# How many arguments, labels and functions an operation has, and whether it gives a value; -1 means any number.
SHAPES = {
    **dict.fromkeys((*SUMS, *RELATIONS, 'and', 'or'), (2, 0, 0, True)), 'not': (1, 0, 0, True), 'id': (1, 0, 0, True),
    'const': (0, 0, 0, True), 'jmp': (0, 1, 0, False), 'br': (1, 2, 0, False), 'ret': (-1, 0, 0, False),
    'print': (-1, 0, 0, False), 'nop': (0, 0, 0, False), 'call': (-1, 0, 1, None),
}
ENDS = ('jmp', 'br', 'ret')

# What Bril has beside its core: operations and types.
KINDS = {
    'floating point': 'fadd fsub fmul fdiv feq flt fle fgt fge float2bits bits2float int2float float2int',
    'memory': 'alloc free store load ptradd',
    'characters': 'ceq clt cle cgt cge char2int int2char',
    'an assignment where ways meet': 'phi get set undef',
    'speculation': 'speculate commit guard',
}
REASONS = {op: reason for reason, ops in KINDS.items() for op in ops.split()}
REASONS_OF_TYPES = {'float': 'floating point', 'char': 'characters'}


class Label(NamedTuple):
    """A label, which marks the next instruction."""

    name: str


class Instruction(NamedTuple):
    """An instruction: what it does, the variable that gets its value and the type of this, and what it names."""

    op: str
    dest: Optional[str] = None
    type: Optional[object] = None
    args: tuple[str, ...] = ()
    labels: tuple[str, ...] = ()
    funcs: tuple[str, ...] = ()
    value: Union[int, bool, float, str, None] = None


@dataclass
class Function:
    """A function: its parameters with their types, the type of its value where it has one, and its lines."""

    name: str
    args: list[tuple[str, object]] = field(default_factory=list)
    type: Optional[object] = None
    lines: list[Union[Label, Instruction]] = field(default_factory=list)

    def instructions(self) -> list[Instruction]:
        """The lines that are no labels."""
        return [line for line in self.lines if isinstance(line, Instruction)]


def type_text(of: object) -> str:
    """A type as it is written in a text."""
    return f'{next(iter(of))}<{type_text(next(iter(of.values())))}>' if isinstance(of, dict) and of else str(of)


def value_text(value: object) -> str:
    """A constant as it is written in a text."""
    return str(value).lower() if isinstance(value, bool) else str(value)


def instruction_text(one: Instruction) -> str:
    """An instruction as it is written in a text, without the semicolon."""
    head = '' if one.dest is None else one.dest + (f': {type_text(one.type)}' if one.type else '') + ' = '
    words = [one.op, *(f'@{name}' for name in one.funcs), *one.args, *(f'.{name}' for name in one.labels)]
    return head + ' '.join(words + ([] if one.op != 'const' or one.value is None else [value_text(one.value)]))


def program_text(functions: list[Function]) -> str:
    """The program as text."""
    parts = []
    for function in functions:
        words = ', '.join(f'{name}: {type_text(of)}' for name, of in function.args)
        head = f'@{function.name}' + (f'({words})' if words else '')
        head += f': {type_text(function.type)}' if function.type else ''
        lines = [f'.{line.name}:' if isinstance(line, Label) else f'  {instruction_text(line)};'
                 for line in function.lines]
        parts.append('\n'.join([f'{head} {{', *lines, '}']) + '\n')
    return '\n'.join(parts)


def line_object(line: Union[Label, Instruction]) -> dict:
    """A label or an instruction as an object of JSON."""
    if isinstance(line, Label):
        return {'label': line.name}
    found = {key: list(each) if isinstance(each, tuple) else each for key, each in line._asdict().items()}
    return {key: each for key, each in found.items() if each is not None and each != []}


def function_object(function: Function) -> dict:
    """A function as an object of JSON."""
    found = {'name': function.name, 'args': [{'name': name, 'type': of} for name, of in function.args],
             'type': function.type, 'instrs': [line_object(line) for line in function.lines]}
    return {key: each for key, each in found.items() if key == 'instrs' or each not in (None, [])}


def program_json(functions: list[Function]) -> str:
    """The program as JSON, in the form that Bril's own tools write."""
    found = {'functions': [function_object(function) for function in functions]}
    return json.dumps(found, indent=2, sort_keys=True) + '\n'


def program(text: str) -> list[Function]:
    """The functions of a program, which is JSON or text; each has the labels and functions that it names."""
    try:
        functions = from_json(text) if text.lstrip().startswith('{') else Reader(text).functions()
        check(functions)
    except Fault as found:
        raise Fault(one_line(str(found))) from None
    return functions


def one_line(text: str) -> str:
    """A text in which line ends, and what else is not printed as it is, stand escaped."""
    return ''.join(each if each.isprintable() else repr(each)[1:-1] for each in text)


# JSON.

def from_json(text: str) -> list[Function]:
    """The functions of a program as JSON."""
    try:
        found = json.loads(text)
        if found.get('imports'):
            raise Fault('an import')
        return [function_of(one) for one in listed(found['functions'])]
    except json.JSONDecodeError as error:
        raise Fault(f'line {error.lineno}: no JSON: {error.msg}') from None
    except (KeyError, TypeError, AttributeError, ValueError):
        raise Fault('the JSON is no program of Bril') from None
    except RecursionError:
        raise Fault('the JSON is nested too deeply') from None


def function_of(one: dict) -> Function:
    """A function of its object."""
    args = [(named(arg['name']), type_of(arg['type'])) for arg in listed(one.get('args'))]
    made = Function(named(one['name']), args, type_of(one['type']) if one.get('type') is not None else None)
    for line in listed(one['instrs']):
        made.lines.append(Label(named(line['label'])) if 'label' in line else instruction_of(line, made.name))
    return made


def instruction_of(line: dict, function: str) -> Instruction:
    """An instruction of its object, in the function of this name."""
    words = {key: tuple(named(each) for each in listed(line.get(key))) for key in ('args', 'labels', 'funcs')}
    dest = named(line['dest']) if line.get('dest') is not None else None
    of = type_of(line['type']) if line.get('type') is not None else None
    if isinstance(line.get('value'), (list, dict)):
        raise Fault(f'in @{function}: the value of {dest} is a list or an object')
    return Instruction(named(line['op']), dest, of, value=line.get('value'), **words)


def type_of(of: object) -> object:
    """A type of its object: a name, or an object that has a type behind a name."""
    inner = of
    for _ in range(LEVELS):
        if not isinstance(inner, dict):
            named(inner)
            return of
        inner, = inner.values()
    raise ValueError


def listed(found: object) -> list:
    """A list, which is empty where there is none."""
    if not isinstance(found, (list, type(None))):
        raise ValueError
    return found or []


def named(word: object) -> str:
    """A name."""
    if not isinstance(word, str) or not word:
        raise ValueError
    return word


# Text.

class Token(NamedTuple):
    """A token: its kind, its text and its line."""

    kind: str
    text: str
    line: int


def tokens(text: str) -> Iterator[Token]:
    """The tokens of a text from the left."""
    at, line = 0, 1
    while at < len(text):
        match = TOKEN.match(text, at)
        if match is None:
            found = re.match(r'\s|\S{1,20}', text[at:at + 20]).group()
            raise Fault(f'line {line}: no Bril: `{found}`')
        if match.lastgroup != 'blank':
            yield Token(match.lastgroup, match.group(), line)
        line, at = line + match.group().count('\n'), match.end()


class Reader:
    """Reads a program off the tokens of a text."""

    def __init__(self, text: str):
        self.tokens, self.at = list(tokens(text)), 0

    def peek(self) -> str:
        """The text of the next token; empty at the end."""
        return self.tokens[self.at].text if self.at < len(self.tokens) else ''

    def next(self) -> Token:
        """Takes a token."""
        if self.at == len(self.tokens):
            raise Fault('the text ends too early')
        self.at += 1
        return self.tokens[self.at - 1]

    def take(self, text: str) -> None:
        """Takes this token."""
        token = self.next()
        if token.text != text:
            raise Fault(f'line {token.line}: `{text}` is wanted in the place of `{token.text}`')

    def name(self, mark: str = '') -> str:
        """Takes a name that begins with this mark, which is no part of it."""
        token = self.next()
        found = token.text[0] if token.text[0] in '@.' else ''
        if token.kind != 'name' or found != mark:
            raise Fault(f'line {token.line}: a name is wanted in the place of `{token.text}`')
        return token.text[len(mark):]

    def type(self) -> object:
        """Takes a type: a name, or one with another in angle brackets."""
        names = [self.name()]
        while self.peek() == '<':
            self.take('<')
            names.append(self.name())
        if len(names) > LEVELS:
            raise Fault(f'line {self.tokens[self.at - 1].line}: a type of more than {LEVELS} names')
        of: object = names.pop()
        while names:
            self.take('>')
            of = {names.pop(): of}
        return of

    def functions(self) -> list[Function]:
        """Takes all functions."""
        found = []
        while self.peek():
            if self.peek() in ('from', 'import'):
                raise Fault(f'line {self.tokens[self.at].line}: an import')
            found.append(self.function())
        return found

    def function(self) -> Function:
        """Takes a function."""
        made = Function(self.name('@'))
        if self.peek() == '(':
            self.take('(')
            while self.peek() != ')':
                if made.args:
                    self.take(',')
                name = self.name()
                self.take(':')
                made.args.append((name, self.type()))
            self.take(')')
        if self.peek() == ':':
            self.take(':')
            made.type = self.type()
        self.take('{')
        while self.peek() != '}':
            made.lines.append(self.line())
        self.take('}')
        return made

    def line(self) -> Union[Label, Instruction]:
        """Takes a label or an instruction."""
        if self.peek().startswith('.'):
            label = Label(self.name('.'))
            self.take(':')
            return label
        dest, of, op = None, None, self.name()
        if self.peek() in (':', '='):
            dest = op
            if self.peek() == ':':
                self.take(':')
                of = self.type()
            self.take('=')
            op = self.name()
        if op == 'const':
            made = Instruction(op, dest, of, value=self.constant())
        else:
            made = self.operation(op, dest, of)
        self.take(';')
        return made

    def constant(self) -> Union[int, bool, float, str]:
        """Takes a constant: a number, `true` or `false`, or a character."""
        token = self.next()
        if token.text in ('true', 'false'):
            return token.text == 'true'
        if token.kind == 'character':
            return token.text[1:-1]
        if token.kind != 'number':
            raise Fault(f'line {token.line}: a constant is wanted in the place of `{token.text}`')
        if not re.fullmatch(r'[-+]?\d+', token.text):
            return float(token.text)
        if len(token.text) > DIGITS:
            raise Fault(f'line {token.line}: a number of more than {DIGITS} digits')
        return int(token.text)

    def operation(self, op: str, dest: Optional[str], of: object) -> Instruction:
        """Takes what an operation names."""
        words: dict[str, list[str]] = {'': [], '@': [], '.': []}
        while self.peek() != ';':
            mark = self.peek()[:1] if self.peek()[:1] in ('@', '.') else ''
            words[mark].append(self.name(mark))
        return Instruction(op, dest, of, tuple(words['']), tuple(words['.']), tuple(words['@']))


# What a program has to be.

def fault(function: Function, one: Instruction, reason: str) -> Fault:
    """What is wrong with an instruction, with its function and its number in it, counted from 1."""
    at = next(at for at, each in enumerate(function.instructions(), 1) if each is one)
    return Fault(one_line(f'in @{function.name}, instruction {at} (`{instruction_text(one)}`): {reason}'))


def number_wanted(number: int, what: str) -> str:
    """That so many of something are wanted."""
    return f'1 {what} is wanted' if number == 1 else f'{number} {what}s are wanted'


def twice(names: list[str]) -> list[str]:
    """The names that stand in a list a second time."""
    return [name for name, count in collections.Counter(names).items() if count > 1]


def check(functions: list[Function]) -> None:
    """Raises what is wrong with the names and the shapes of a program."""
    for name in twice([function.name for function in functions]):
        raise Fault(f'there are two functions @{name}')
    known = {function.name: function for function in functions}
    for function in functions:
        labels = [line.name for line in function.lines if isinstance(line, Label)]
        for name in twice(labels):
            raise Fault(f'in @{function.name}: the label .{name} stands twice')
        for name in twice([name for name, _ in function.args]):
            raise Fault(f'in @{function.name}: two parameters are named {name}')
        marked = set(labels)
        for one in function.instructions():
            check_instruction(function, one, marked, known)


def check_instruction(function: Function, one: Instruction, labels: set[str], known: dict[str, Function]) -> None:
    """Raises what is wrong with the names and the shape of an instruction that this module knows."""
    if one.op not in SHAPES:
        return
    counts, gives = SHAPES[one.op][:3], SHAPES[one.op][3]
    for wanted, found, what in zip(counts, (one.args, one.labels, one.funcs), ('argument', 'label', 'function')):
        if wanted not in (-1, len(found)):
            raise fault(function, one, number_wanted(wanted, what))
    if one.op == 'ret' and len(one.args) > 1:
        raise fault(function, one, 'more than one value is returned')
    if gives is not None and gives != (one.dest is not None):
        raise fault(function, one, 'no variable for its value' if gives else 'a variable for no value')
    if one.op == 'const':
        check_constant(function, one)
    for name in one.labels:
        if name not in labels:
            raise fault(function, one, f'there is no label .{name}')
    for name in one.funcs:
        if name not in known:
            raise fault(function, one, f'there is no function @{name}')
        if len(known[name].args) != len(one.args):
            raise fault(function, one, number_wanted(len(known[name].args), 'argument'))
        if (known[name].type is None) != (one.dest is None):
            raise fault(function, one, 'no variable for its value' if known[name].type else 'a variable for no value')


def check_constant(function: Function, one: Instruction) -> None:
    """Raises what is wrong with the value of a constant."""
    if one.value is None:
        raise fault(function, one, 'a constant without a value')
    if isinstance(one.value, int) and one.type in TYPES and isinstance(one.value, bool) != (one.type == 'bool'):
        raise fault(function, one, 'a constant of another type')


# What is of Bril's core.

def reason_of_type(of: object) -> Optional[str]:
    """Why a type is not of Bril's core, or none where it is."""
    if of in (None, *TYPES):
        return None
    if isinstance(of, dict) and 'ptr' in of:
        return 'memory'
    return REASONS_OF_TYPES.get(str(of), 'a type that Bril does not have')


def reason_of(one: Instruction) -> Optional[str]:
    """Why an instruction is not of Bril's core, or none where it is."""
    reason = REASONS.get(one.op) or reason_of_type(one.type)
    if reason or one.op not in SHAPES:
        return reason or 'an operation that Bril does not have'
    if one.op != 'const':
        return None
    if isinstance(one.value, (float, str)):
        return 'floating point' if isinstance(one.value, float) else 'characters'
    return None if -2 ** 63 <= one.value < 2 ** 63 else 'no integer of 64 bits'


def check_core(functions: list[Function]) -> None:
    """Raises where a program has what is not of Bril's core."""
    for function in functions:
        for name, of in [*function.args, ('its value', function.type)]:
            if reason_of_type(of):
                raise Fault(one_line(f'in @{function.name}: {name}: {reason_of_type(of)}'))
        for one in function.instructions():
            if reason_of(one):
                raise fault(function, one, reason_of(one))
