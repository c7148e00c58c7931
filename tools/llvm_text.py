"""Textual LLVM IR, of release 14 and later, with typed pointers and with `ptr`: its functions, blocks and instructions.

All of a module is read, but only what may have a form in MIR is taken apart: instructions on integers, loads and
stores, calls and jumps. Of any other the name is kept, so that it can be refused where it is reached. What is wrong
with a text is a `Refusal` with its place.
"""

import re
from dataclasses import dataclass, field
from typing import Iterator, NamedTuple, Optional, Union

TOKEN = re.compile(r'(?P<blank>[ \t\r]+|;[^\n]*)|(?P<string>c?"[^"]*")'
                   r'|(?P<local>%(?:[-\w$.]+|"[^"]*"))|(?P<global>@(?:[-\w$.]+|"[^"]*"))'
                   r'|(?P<number>-?\d+(?![\w.]))|(?P<other>[!#$][-\w$.\\]*)|(?P<word>[-+\w$.]+)'
                   r'|(?P<mark>[=,()\[\]{}<>*:|^])|(?P<stray>.)', re.DOTALL)
LABEL = re.compile(r'\s*(?:([-\w$.]+)|"([^"]*)"):')
NOTES = re.compile(r'(, ![\w.]+ !\d+)+\s*$')
MARK = re.compile(r'!dbg (!\d+)')
SOURCE = re.compile(r'^(!\d+) = (?:distinct )?!DI(?:Location|Subprogram)\(.*?\bline: (\d+)')
INTEGER = re.compile(r'i(\d+)$')
TYPE_WORDS = set('void ptr half bfloat float double fp128 x86_fp80 ppc_fp128 x86_mmx x86_amx label metadata token '
                 'opaque'.split())
CONSTANTS = {'true': 1, 'false': 0, 'undef': 0, 'poison': 0, 'zeroinitializer': 0, 'null': 0, 'none': 0}
EXPRESSIONS = set('getelementptr bitcast inttoptr ptrtoint addrspacecast trunc zext sext add sub mul shl lshr ashr and '
                  'or xor icmp fcmp select blockaddress dso_local_equivalent no_cfi asm splat ptrauth'.split())
BINARY = set('add sub mul udiv sdiv urem srem shl lshr ashr and or xor'.split())
CASTS = set('trunc zext sext bitcast'.split())


class Refusal(Exception):
    """What of a module has no form in MIR, or is no LLVM IR, and the line in which it stands."""

    def __init__(self, line: int, reason: str):
        super().__init__(reason)
        self.line, self.reason = line, reason


class Local(NamedTuple):
    """A value of a function: a parameter or a result."""

    name: str


class Global(NamedTuple):
    """A function or a global variable, by its name."""

    name: str


class Address(NamedTuple):
    """An expression of constants that has the name of a global in it, as an address in an array: the steps to it, each
    a type and the numbers of parts, where they are known."""

    name: str
    steps: Optional[tuple[tuple[str, tuple[int, ...]], ...]] = None


class Other(NamedTuple):
    """A value that has no form in MIR, as a number with a point."""

    text: str


Value = Union[int, Local, Global, Address, Other]


class Token(NamedTuple):
    """A token: its kind and its text."""

    kind: str
    text: str


@dataclass
class Instruction:
    """An instruction: what it names, what it does, its type, its operands, the blocks it names, and words beside them.

    `type` is that of the operands of a comparison or a store, that of the source of a cast, and else that of the
    result. `words` are a relation, the type that a cast makes, or what marks an access.
    """

    line: int
    name: Optional[str]
    kind: str
    type: str = ''
    operands: list[Value] = field(default_factory=list)
    types: list[str] = field(default_factory=list)
    blocks: list[str] = field(default_factory=list)
    words: list[str] = field(default_factory=list)


@dataclass
class Block:
    """A block: its label and its instructions, the last of which ends it."""

    label: str
    line: int
    instructions: list[Instruction] = field(default_factory=list)


@dataclass
class Function:
    """A function: its type, its parameters with their types, and its blocks, none where it is only declared."""

    name: str
    line: int
    type: str
    parameters: list[tuple[str, str]]
    is_variadic: bool = False
    blocks: list[Block] = field(default_factory=list)


@dataclass
class Variable:
    """A global variable or constant: its type, and its first value where that is one number, a text, or parts."""

    name: str
    line: int
    type: str
    is_constant: bool
    first: Optional[Value]
    text: Optional[bytes] = None
    is_plain: bool = True
    parts: object = None


@dataclass
class Module:
    """The functions, the variables and the types of a text, by name, and what it says of the lines of its source."""

    functions: dict[str, Function] = field(default_factory=dict)
    variables: dict[str, Variable] = field(default_factory=dict)
    types: dict[str, str] = field(default_factory=dict)
    marks: dict[int, str] = field(default_factory=dict)
    source_lines: dict[str, str] = field(default_factory=dict)

    def place(self, line: int) -> str:
        """A line of the module, and the line of the source that it was made of, where the module has this."""
        source = self.source_lines.get(self.marks.get(line, ''))
        return f'line {line}' + (f' (line {source} of the source)' if source else '')


def width(of: str) -> Optional[int]:
    """The bits of an integer type."""
    match = INTEGER.match(of)
    return int(match[1]) if match else None


def bare(name: str) -> str:
    """A name without its mark and its quotes."""
    return name[1:].strip('"')


class Cursor:
    """The tokens of one entry of a module, from the left."""

    def __init__(self, line: int, text: str):
        self.line, self.at = line, 0
        found = [(match.lastgroup, match.group()) for match in TOKEN.finditer(text)]
        self.tokens = [Token(kind, each) for kind, each in found if kind != 'blank']
        stray = [each for kind, each in found if kind == 'stray']
        if stray:
            raise Refusal(line, f'no LLVM IR: `{text[text.index(stray[0]):].strip()[:20]}`')

    def peek(self, ahead: int = 0) -> str:
        """The text of the next token, or one further on; empty at the end."""
        return self.tokens[self.at + ahead].text if self.at + ahead < len(self.tokens) else ''

    def kind(self) -> str:
        """The kind of the next token."""
        return self.tokens[self.at].kind if self.at < len(self.tokens) else 'end'

    def next(self) -> str:
        """Takes a token."""
        if self.at == len(self.tokens):
            raise Refusal(self.line, 'no LLVM IR: the entry ends too early')
        self.at += 1
        return self.tokens[self.at - 1].text

    def take(self, text: str) -> None:
        """Takes this token."""
        if self.next() != text:
            raise Refusal(self.line, f'no LLVM IR: `{text}` is wanted before `{self.peek()}`')

    def has(self, text: str) -> bool:
        """Takes this token if it is next, and says so."""
        if self.peek() == text:
            self.at += 1
            return True
        return False

    def skip_group(self) -> str:
        """Takes what stands between this bracket and the one that closes it, and answers it."""
        begin, depth = self.at, 0
        while True:
            token = self.next()
            depth += (token in ('(', '[', '{', '<')) - (token in (')', ']', '}', '>'))
            if depth == 0:
                return ' '.join(each.text for each in self.tokens[begin:self.at])

    def is_type(self) -> bool:
        """Whether a type is next."""
        text = self.peek()
        return text in TYPE_WORDS or bool(INTEGER.match(text)) or text in ('{', '[', '<') or self.kind() == 'local'

    def type(self) -> str:
        """Takes a type, as it is written without blanks."""
        if not self.is_type():
            raise Refusal(self.line, f'no LLVM IR: a type is wanted in the place of `{self.peek()}`')
        made = self.skip_group() if self.peek() in ('{', '[', '<') else self.next()
        while self.peek() in ('*', '(', 'addrspace'):
            if self.has('addrspace'):
                self.skip_group()
            else:
                made += self.next() if self.peek() == '*' else self.skip_group()
        return made

    def skip_words(self) -> list[str]:
        """Takes marks of an instruction, a parameter or a function, up to a type or a value; answers them."""
        words = []
        while self.kind() in ('other', 'string') or self.is_mark():
            words.append(self.next())
            if self.peek() == '(':
                self.skip_group()
            elif words[-1] in ('align', 'cc') and self.kind() == 'number':
                self.next()
        return words

    def is_mark(self) -> bool:
        """Whether a word is next that is neither a type nor a value."""
        is_word = self.kind() == 'word' and re.match('[A-Za-z_]', self.peek()) is not None
        return is_word and not self.is_type() and not self.is_value()

    def is_value(self) -> bool:
        """Whether a value is next."""
        text = self.peek()
        return self.kind() in ('local', 'global', 'number') or text in CONSTANTS or text in EXPRESSIONS

    def value(self) -> Value:
        """Takes a value: a number as it is written, and what is undefined as 0."""
        kind, text = self.kind(), self.peek()
        if kind in ('local', 'global'):
            self.next()
            return Local(bare(text)) if kind == 'local' else Global(bare(text))
        if kind == 'number':
            return int(self.next())
        if text in CONSTANTS:
            return CONSTANTS[self.next()]
        if text in ('{', '[', '<'):
            return Other(self.skip_group())
        begin = self.at
        self.next()
        group = self.at + (self.peek() == 'inbounds')
        if text in EXPRESSIONS:
            self.skip_words()
        if self.peek() == '(':
            self.skip_group()
        names = [bare(each.text) for each in self.tokens[begin:self.at] if each.kind == 'global']
        return Address(names[0], self.steps(text, group)) if len(names) == 1 else Other(text)

    def steps(self, kind: str, group: int) -> Optional[tuple]:
        """The steps by constants of an expression whose bracket begins here; none where it has other steps."""
        end, self.at, taken = self.at, group, []
        try:
            self.take('(')
            of = self.type() if kind == 'getelementptr' else ''
            while not taken or self.peek() == ',':
                self.has(',')
                taken.append(self.typed()[1])
        except Refusal:
            return None
        finally:
            self.at = end
        before = () if isinstance(taken[0], Global) else taken[0].steps if isinstance(taken[0], Address) else None
        if kind not in ('getelementptr', 'bitcast') or before is None or not all(type(at) is int for at in taken[1:]):
            return None
        return before + (((of, tuple(taken[1:])),) if of else ())

    def typed(self) -> tuple[str, Value]:
        """Takes a type and a value of it."""
        of = self.type()
        if of == 'metadata':
            self.skip_metadata()
            return of, Other('metadata')
        self.skip_words()
        return of, self.value()

    def skip_metadata(self) -> None:
        """Takes what stands for a metadata operand, up to the next comma or bracket."""
        while self.peek() not in (',', ')', ''):
            self.skip_group() if self.peek() in ('(', '{') else self.next()

    def label(self) -> str:
        """Takes the name of a block."""
        self.take('label')
        return bare(self.next())


def entries(text: str) -> Iterator[tuple[int, str]]:
    """The entries of a module with their lines: a line each, and more while a bracket is open."""
    held, first, depth = '', 0, 0
    for number, line in enumerate(text.split('\n'), 1):
        plain = re.sub(r'"[^"]*"', '""', line).split(';')[0]
        if not plain.strip() and depth == 0:
            continue
        first = first if held else number
        held = f'{held} {without_comment(line)}' if held else without_comment(line)
        depth += sum(map(plain.count, '([{')) - sum(map(plain.count, ')]}'))
        if depth <= 0 or re.match(r'define\b.*\{\s*$', plain):
            yield first, held
            held, depth = '', 0


def without_comment(line: str) -> str:
    """A line up to the semicolon that begins a comment."""
    match = re.match(r'(?:[^";]|"[^"]*")*', line)
    return match.group() if match else line


def module(text: str) -> Module:
    """The functions and variables of a text."""
    made, inside = Module(), None
    for line, entry in entries(text):
        made.marks.update((line, mark) for mark in MARK.findall(entry))
        made.source_lines.update(SOURCE.findall(entry))
        if inside is not None and entry.strip() == '}':
            inside = None
        elif inside is not None:
            add_entry(inside, line, NOTES.sub('', entry))
        elif re.match(r'(define|declare)\b', entry):
            function = header(Cursor(line, entry))
            made.functions.setdefault(function.name, function)
            if entry.startswith('define'):
                made.functions[function.name] = inside = function
        elif entry.startswith('@'):
            variable = global_variable(Cursor(line, entry), entry)
            made.variables[variable.name] = variable
        elif re.match(r'%\S+ = type ', entry):
            made.types.update([entry.strip().split(' = type ')])
        elif not re.match(r'(source_filename|target|attributes|module|uselistorder|[!$%^])', entry.strip()):
            raise Refusal(line, f'no LLVM IR: `{entry.strip()[:40]}`')
    if inside is not None:
        raise Refusal(inside.line, f'no LLVM IR: function @{inside.name} has no end')
    return made


def header(cursor: Cursor) -> Function:
    """The head of a function."""
    cursor.next()
    cursor.skip_words()
    of = cursor.type()
    name, parameters, is_variadic = bare(cursor.next()), [], False
    cursor.take('(')
    while not cursor.has(')'):
        if cursor.has('...'):
            is_variadic = True
        elif not cursor.has(','):
            kind = cursor.type()
            cursor.skip_words()
            numbers = sum(each.isdigit() for each, _ in parameters)
            parameters.append((bare(cursor.next()) if cursor.kind() == 'local' else str(numbers), kind))
    return Function(name, cursor.line, of, parameters, is_variadic)


def global_variable(cursor: Cursor, entry: str) -> Variable:
    """A global variable, a constant, or another name that stands for something, which is kept as such."""
    name = bare(cursor.next())
    cursor.take('=')
    words = [each.text for each in cursor.tokens[cursor.at:]]
    kinds = [word for word in words if word in ('global', 'constant', 'alias', 'ifunc')]
    if not kinds or kinds[0] in ('alias', 'ifunc'):
        return Variable(name, cursor.line, '', False, None, is_plain=False)
    is_plain = not {'external', 'extern_weak', 'thread_local', 'externally_initialized'} & set(
        words[:words.index(kinds[0])])
    cursor.at += words.index(kinds[0]) + 1
    of, text, first = cursor.type(), re.search(r'c("[^"]*")', entry), None
    if width(of) is not None and cursor.is_value():
        first = cursor.value()
    plain = unescaped(text[1][1:-1]) if text else None
    return Variable(name, cursor.line, of, kinds[0] == 'constant', first, plain, is_plain, parts_of(cursor))


def parts_of(cursor: Cursor) -> object:
    """The first values of an array or a structure as lists in lists, `None` for zeros; 0 where they are others."""
    try:
        return aggregate(cursor)
    except Refusal:
        return 0


def aggregate(cursor: Cursor) -> object:
    """Takes the value of a part: a number, a text, zeros, or what stands in brackets."""
    if cursor.kind() == 'string':
        return list(unescaped(cursor.next().lstrip('c')[1:-1]))
    if cursor.peek() not in ('[', '{'):
        value = cursor.value()
        return None if cursor.tokens[cursor.at - 1].text in ('zeroinitializer', 'undef') else value
    found, close = [], ']' if cursor.next() == '[' else '}'
    while not cursor.has(close):
        cursor.type()
        found.append(aggregate(cursor))
        cursor.has(',')
    return found


def unescaped(text: str) -> bytes:
    """The bytes of a text of LLVM IR."""
    return re.sub(r'\\([0-9A-Fa-f]{2})', lambda match: chr(int(match[1], 16)), text).encode('latin-1', 'replace')


def add_entry(function: Function, line: int, entry: str) -> None:
    """Adds a label or an instruction to a function."""
    match = LABEL.match(entry)
    if match:
        function.blocks.append(Block(match[1] or match[2], line))
        entry = entry[match.end():]
    if not entry.strip() or re.match(r'\s*(#dbg_|uselistorder)', entry):
        return
    if not function.blocks:
        unnamed = sum(name.isdigit() for name, _ in function.parameters)
        function.blocks.append(Block(str(unnamed), line))
    function.blocks[-1].instructions.append(instruction(Cursor(line, entry)))


def instruction(cursor: Cursor) -> Instruction:
    """An instruction."""
    name = None
    if cursor.kind() == 'local' and cursor.peek(1) == '=':
        name = bare(cursor.next())
        cursor.next()
    while cursor.peek() in ('tail', 'musttail', 'notail'):
        cursor.next()
    made = Instruction(cursor.line, name, cursor.next())
    reader = READERS.get(made.kind)
    if reader is not None:
        reader(cursor, made)
    return made


def read_binary(cursor: Cursor, made: Instruction) -> None:
    """Two operands of one type."""
    cursor.skip_words()
    made.type, left = cursor.typed()
    cursor.take(',')
    made.operands = [left, cursor.value()]


def read_comparison(cursor: Cursor, made: Instruction) -> None:
    """A relation and two operands."""
    made.words = cursor.skip_words()[-1:]
    read_binary(cursor, made)


def read_cast(cursor: Cursor, made: Instruction) -> None:
    """An operand, and the type that it is made."""
    cursor.skip_words()
    made.type, value = cursor.typed()
    made.operands = [value]
    cursor.take('to')
    made.words = [cursor.type()]


def read_operand(cursor: Cursor, made: Instruction) -> None:
    """One operand, of a freeze."""
    made.type, value = cursor.typed()
    made.operands = [value]


def read_select(cursor: Cursor, made: Instruction) -> None:
    """A bit and two operands."""
    cursor.skip_words()
    of, test = cursor.typed()
    made.types = [of]
    cursor.take(',')
    made.type, left = cursor.typed()
    cursor.take(',')
    made.operands = [test, left, cursor.typed()[1]]


def read_phi(cursor: Cursor, made: Instruction) -> None:
    """A value for each block before."""
    cursor.skip_words()
    made.type = cursor.type()
    while cursor.has('['):
        made.operands.append(cursor.value())
        cursor.take(',')
        made.blocks.append(bare(cursor.next()))
        cursor.take(']')
        cursor.has(',')


def read_jump(cursor: Cursor, made: Instruction) -> None:
    """A block, or a bit and two blocks."""
    if cursor.peek() != 'label':
        made.operands = [cursor.typed()[1]]
        cursor.take(',')
    made.blocks = [cursor.label()]
    if made.operands:
        cursor.take(',')
        made.blocks.append(cursor.label())


def read_switch(cursor: Cursor, made: Instruction) -> None:
    """An operand, the block of all other numbers, and the numbers with their blocks; the operand stands first."""
    made.type, value = cursor.typed()
    cursor.take(',')
    made.operands, made.blocks = [value], [cursor.label()]
    cursor.take('[')
    while not cursor.has(']'):
        made.operands.append(cursor.typed()[1])
        cursor.take(',')
        made.blocks.append(cursor.label())


def read_return(cursor: Cursor, made: Instruction) -> None:
    """Nothing, or a value."""
    made.type = cursor.type()
    if made.type != 'void':
        cursor.skip_words()
        made.operands = [cursor.value()]


def read_alloca(cursor: Cursor, made: Instruction) -> None:
    """A type, and how many of it."""
    cursor.skip_words()
    made.type = cursor.type()
    if cursor.has(',') and cursor.is_type():
        made.operands = [cursor.typed()[1]]


def read_load(cursor: Cursor, made: Instruction) -> None:
    """A type and an address."""
    made.words = cursor.skip_words()
    made.type = cursor.type()
    cursor.take(',')
    made.operands = [cursor.typed()[1]]


def read_store(cursor: Cursor, made: Instruction) -> None:
    """A value and an address."""
    made.words = cursor.skip_words()
    made.type, value = cursor.typed()
    cursor.take(',')
    made.operands = [value, cursor.typed()[1]]


def read_element(cursor: Cursor, made: Instruction) -> None:
    """A type, an address, and the numbers of parts."""
    cursor.skip_words()
    made.type = cursor.type()
    while cursor.has(','):
        of, value = cursor.typed()
        made.types.append(of)
        made.operands.append(value)


def read_part(cursor: Cursor, made: Instruction) -> None:
    """A structure, and the number of one of its parts."""
    made.type, value = cursor.typed()
    cursor.take(',')
    made.operands, made.words = [value], [cursor.next()]


def read_call(cursor: Cursor, made: Instruction) -> None:
    """What is called, which is the first operand, and the arguments."""
    cursor.skip_words()
    made.type = cursor.type()
    if cursor.peek() == 'asm':
        made.kind = 'asm'
        return
    made.type, made.operands = made.type.split('(')[0], [cursor.value()]
    cursor.take('(')
    while not cursor.has(')'):
        of, value = cursor.typed()
        made.types.append(of)
        made.operands.append(value)
        cursor.has(',')


READERS = {
    **dict.fromkeys(BINARY, read_binary), **dict.fromkeys(CASTS, read_cast), 'icmp': read_comparison,
    'freeze': read_operand, 'select': read_select, 'phi': read_phi, 'br': read_jump, 'switch': read_switch,
    'ret': read_return, 'alloca': read_alloca, 'load': read_load, 'store': read_store, 'extractvalue': read_part,
    'call': read_call, 'getelementptr': read_element,
}
