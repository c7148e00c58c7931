"""Programs in Bril for tools/test: what is refused with which line, and programs that a number draws."""

import json
import random
from typing import Optional

from bril_text import Function, Instruction, Label

HEAD = '@main(n: int) {\n'

# What is refused, and the line that tells so.
REFUSED = {
    f'{HEAD}  x: float = const 1.5;\n}}\n': 'in @main, instruction 1 (`x: float = const 1.5`): floating point',
    f'{HEAD}  nop;\n  x: float = fadd n n;\n}}\n': 'in @main, instruction 2 (`x: float = fadd n n`): floating point',
    f'{HEAD}  x: char = const \'a\';\n}}\n': 'in @main, instruction 1 (`x: char = const a`): characters',
    f'{HEAD}  p: ptr<int> = alloc n;\n}}\n': 'in @main, instruction 1 (`p: ptr<int> = alloc n`): memory',
    '@main(p: ptr<int>) {\n}\n': 'in @main: p: memory',
    f'{HEAD}  x: int = phi n n .a .b;\n.a:\n.b:\n}}\n':
        'in @main, instruction 1 (`x: int = phi n n .a .b`): an assignment where ways meet',
    f'{HEAD}  speculate;\n}}\n': 'in @main, instruction 1 (`speculate`): speculation',
    f'{HEAD}  x: int = mod n n;\n}}\n':
        'in @main, instruction 1 (`x: int = mod n n`): an operation that Bril does not have',
    f'{HEAD}  print;\n}}\n': 'in @main, instruction 1 (`print`): an empty line',
    f'{HEAD}  x: int = const 9223372036854775808;\n}}\n':
        'in @main, instruction 1 (`x: int = const 9223372036854775808`): no integer of 64 bits',
    f'{HEAD}  x: int = add n;\n}}\n': 'in @main, instruction 1 (`x: int = add n`): 2 arguments are wanted',
    f'{HEAD}  add n n;\n}}\n': 'in @main, instruction 1 (`add n n`): no variable for its value',
    f'{HEAD}  jmp .a;\n}}\n': 'in @main, instruction 1 (`jmp .a`): there is no label .a',
    f'{HEAD}.a:\n.a:\n}}\n': 'in @main: the label .a stands twice',
    f'{HEAD}  call @f n;\n}}\n': 'in @main, instruction 1 (`call @f n`): there is no function @f',
    f'{HEAD}  call @main;\n}}\n':
        'in @main, instruction 1 (`call @main`): 1 argument is wanted',
    f'{HEAD}  x: int = call @main n;\n}}\n':
        'in @main, instruction 1 (`x: int = call @main n`): a variable for no value',
    f'{HEAD}}}\n@main {{\n}}\n': 'there are two functions @main',
    '@f {\n}\n': 'there is no function @main',
    f'@main({", ".join(f"a{at}: int" for at in range(17))}) {{\n}}\n': 'in @main: more than 16 parameters',
    'main: begin\nend\n': 'line 1: a name is wanted in the place of `main`',
    '@main {\n  x: int = const 1\n}\n': 'line 3: `;` is wanted in the place of `}`',
    '@main {\n  ?\n}\n': 'line 2: no Bril: `?`',
    '@main {\n': 'the text ends too early',
    '{"functions": [}': 'line 1: no JSON: Expecting value',
    '{"functions": [{}]}': 'the JSON is no program of Bril',
    '': 'there is no function @main',
}


def json_of(*lines: dict, **others) -> str:
    """A program as JSON whose `main` has these lines."""
    return json.dumps({'functions': [{'name': 'main', 'instrs': lines}], **others})


# What is no program although it is near one, and the line that tells so.
NUMBER = {'op': 'const', 'dest': 'x', 'type': 'int'}
MALFORMED = {
    json_of({**NUMBER, 'value': [1]}): 'in @main: the value of x is a list or an object',
    json_of({**NUMBER, 'value': {'a': 1}}): 'in @main: the value of x is a list or an object',
    json_of(NUMBER): 'in @main, instruction 1 (`x: int = const`): a constant without a value',
    json_of({**NUMBER, 'value': True}): 'in @main, instruction 1 (`x: int = const true`): a constant of another type',
    '@main {\n  b: bool = const 5;\n}\n':
        'in @main, instruction 1 (`b: bool = const 5`): a constant of another type',
    '@main {\n  x: float = const 1.2.3;\n}\n': 'line 2: no Bril: `.3;`',
    f'@main {{\n  x: int = const {5000 * "1"};\n}}\n': 'line 2: a number of more than 100 digits',
    f'@main(x: {20000 * "ptr<"}int{20000 * ">"}) {{\n}}\n': 'line 1: a type of more than 64 names',
    '{"functions":' + 20000 * '[': 'the JSON is nested too deeply',
    '\f': 'line 1: no Bril: `\\x0c`',
    json_of({'op': 'print', 'args': 'abc'}): 'the JSON is no program of Bril',
    json_of(imports=[{'path': 'a.bril'}]): 'an import',
    json_of({'label': '.a'}, {'op': 'jmp', 'labels': ['a']}):
        'in @main, instruction 1 (`jmp .a`): there is no label .a',
    json_of({'op': 'a\nb'}): 'in @main, instruction 1 (`a\\nb`): an operation that Bril does not have',
}

# What is not of Bril's core, and the line in which `bril_run.py` tells so before a run.
NOT_RUN = {
    '@main {\n  x: float = const 0.0;\n  print x;\n}\n':
        'in @main, instruction 1 (`x: float = const 0.0`): floating point',
    f'{HEAD}  print n;\n  x: int = mod n n;\n}}\n':
        'in @main, instruction 2 (`x: int = mod n n`): an operation that Bril does not have',
    f'{HEAD}  x: float = fadd n n;\n}}\n': 'in @main, instruction 1 (`x: float = fadd n n`): floating point',
    '@main(c: char) {\n}\n': 'in @main: c: characters',
}

# What has no form in Bril, and the line that tells so.
NO_BRIL = {
    'global g\nmain: begin\nend\n': 'Bril has no global variables (`global g`)',
    'main: begin\nreceive n(val)\nif n < 1 trap 7\nend\n':
        'in main, line 3 (`if n < 1 trap 7`): Bril has no traps with a number',
    'main: begin\nx <-\nend\n': 'line 2: unexpected',
}

# Each operator of MIR, of two inputs.
OPERATORS = 'main: begin\nreceive a(val)\nreceive b(val)\n' + ''.join(
    f'x <- a {operator} b\nprint x\nx <- 5 {operator} b\nprint x\n' for operator in
    '+ - * min max shl shr shra and or xor = != < <= > >='.split()) + ''.join(
    f'x <- {value}\nprint x\n' for value in
    ('- a', '! b', 'a shl 3', 'a shl 63', 'b shr 1', 'b shr 64', 'a shra -1', '5 and 6', '- 5', '! 0')) + '''
p <- a < b
q <- ! p
r <- p xor q
p <- p and r
q <- p or 0
if ! q goto past
if a goto past
if b != 7 goto past
print 1
past: x <- a mod b
print x
x <- a / b
y <- y + x
return y
end
'''

# Names that MIR does not have, and some that it has.
NAMES = ('a', 'b', 'end', 'mod', 'x.1', 'x_1', '%t', '_p', 'print', 'min', 'v0', 'B', 'long_name_' + 50 * 'x', 'main')

# The kinds of statements, some of which are drawn more often.
KINDS = ('sum', 'sum', 'relation', 'logic', 'print', 'print', 'copy', 'test', 'loop', 'call', 'nop', 'leave')


class Drawn:
    """Draws a program: functions that call those behind them, with tests, loops that end, and prints."""

    def __init__(self, number: int):
        self.draw = random.Random(number)
        count = self.draw.randrange(1, 4)
        self.functions = [Function(name) for name in ('main', 'end', 'f.1', 'g')[:count]]
        self.made: Optional[Function] = None
        self.labels = 0
        for function in self.functions:
            names = self.draw.sample(NAMES, self.draw.randrange(1, 4))
            function.args = [(name, 'bool' if at == 2 else 'int') for at, name in enumerate(names)]
        for at, function in enumerate(self.functions):
            function.type = self.draw.choice((None, 'int', 'bool')) if at else None
        for at in range(count):
            self.fill(at)

    def emit(self, op: str, dest: Optional[str] = None, of: Optional[str] = None, **words) -> None:
        """Adds an instruction."""
        self.made.lines.append(Instruction(op, dest, of, **words))

    def mark(self, label: str) -> None:
        """Adds a label."""
        self.made.lines.append(Label(label))

    def label(self) -> str:
        """A new label."""
        self.labels += 1
        return self.draw.choice(('L{}', 'if.{}', '_l{}', 'loop_{}')).format(self.labels)

    def fill(self, at: int) -> None:
        """Draws the lines of a function; its first label may be jumped to while a number is above 0."""
        self.made = self.functions[at]
        held: dict[str, list[str]] = {'int': [], 'bool': []}
        for name, of in self.made.args:
            held[of].append(name)
        again = self.label() if self.draw.random() < 0.3 else None
        if again:
            self.mark(again)
        self.statements(at, held, self.draw.randrange(4, 12), 2)
        if again:
            count, past = held['int'][0], self.label()
            self.emit('const', 'less.1', 'int', value=3)
            self.emit('div', count, 'int', args=(count, 'less.1'))
            self.emit('gt', 'more', 'bool', args=(count, 'less.1'))
            self.emit('br', args=('more',), labels=(again, past))
            self.mark(past)
        if self.made.type or self.draw.random() < 0.5:
            self.emit('ret', args=(self.value(held, self.made.type),) if self.made.type else ())

    def value(self, held: dict[str, list[str]], of: str) -> str:
        """A variable of a type that is set; a new constant where there is none."""
        if not held[of] or self.draw.random() < 0.15:
            name, number = f'c{len(self.made.lines)}', self.draw.choice((0, 1, 2, 7, -1, 2 ** 62, -2 ** 63))
            self.emit('const', name, of, value=number if of == 'int' else number > 1)
            held[of].append(name)
        return self.draw.choice(held[of])

    def target(self, held: dict[str, list[str]], of: str) -> str:
        """A variable that gets a value of a type: one that is set, or a new one."""
        others = held['bool' if of == 'int' else 'int']
        name = self.draw.choice([each for each in (*NAMES, 'n1', 'n2') if each not in others])
        if name not in held[of]:
            held[of].append(name)
        return name

    def statements(self, at: int, held: dict[str, list[str]], count: int, depth: int) -> None:
        """Draws statements; what is set within a test or a loop counts as not set behind it."""
        for _ in range(count):
            kind = self.draw.choice(KINDS)
            if depth or kind not in ('test', 'loop'):
                getattr(self, kind)(at, held, depth)

    def sum(self, _at: int, held: dict, _depth: int) -> None:
        """An operator of numbers; a division in one of eight."""
        op = self.draw.choice(('add', 'sub', 'mul') * 3 + ('div',))
        args = (self.value(held, 'int'), self.value(held, 'int'))
        self.emit(op, self.target(held, 'int'), 'int', args=args)

    def relation(self, _at: int, held: dict, _depth: int) -> None:
        """A comparison."""
        args = (self.value(held, 'int'), self.value(held, 'int'))
        self.emit(self.draw.choice(('eq', 'lt', 'gt', 'le', 'ge')), self.target(held, 'bool'), 'bool', args=args)

    def logic(self, _at: int, held: dict, _depth: int) -> None:
        """An operator of `bool`."""
        op = self.draw.choice(('and', 'or', 'not'))
        args = tuple(self.value(held, 'bool') for _ in range(1 if op == 'not' else 2))
        self.emit(op, self.target(held, 'bool'), 'bool', args=args)

    def print(self, _at: int, held: dict, _depth: int) -> None:
        """A print of one value or of two."""
        kinds = self.draw.choice((('int',), ('int',), ('bool',), ('int', 'bool')))
        self.emit('print', args=tuple(self.value(held, of) for of in kinds))

    def copy(self, _at: int, held: dict, _depth: int) -> None:
        """A copy."""
        of = self.draw.choice(('int', 'bool'))
        args = (self.value(held, of),)
        self.emit('id', self.target(held, of), of, args=args)

    def nop(self, _at: int, _held: dict, _depth: int) -> None:
        """Nothing."""
        self.emit('nop')

    def leave(self, _at: int, held: dict, _depth: int) -> None:
        """A return where a `bool` holds, in one of four."""
        if self.draw.random() < 0.25:
            test, yes, no = self.value(held, 'bool'), self.label(), self.label()
            given = (self.value(held, self.made.type),) if self.made.type else ()
            self.emit('br', args=(test,), labels=(yes, no))
            self.mark(yes)
            self.emit('ret', args=given)
            self.mark(no)

    def call(self, at: int, held: dict, _depth: int) -> None:
        """A call of a function behind this one."""
        if at + 1 < len(self.functions):
            called = self.draw.choice(self.functions[at + 1:])
            args = tuple(self.value(held, of) for _, of in called.args)
            dest = self.target(held, called.type) if called.type else None
            self.emit('call', dest, called.type, args=args, funcs=(called.name,))

    def within(self, at: int, held: dict, depth: int) -> None:
        """Statements whose new variables count as not set behind them."""
        inner = {of: list(names) for of, names in held.items()}
        self.statements(at, inner, self.draw.randrange(1, 5), depth - 1)

    def test(self, at: int, held: dict, depth: int) -> None:
        """Statements on one way or on two."""
        test, yes, no, past = self.value(held, 'bool'), self.label(), self.label(), self.label()
        self.emit('br', args=(test,), labels=(yes, no))
        self.mark(yes)
        self.within(at, held, depth)
        if self.draw.random() < 0.5:
            self.emit('jmp', labels=(past,))
        self.mark(no)
        self.within(at, held, depth)
        self.mark(past)

    def loop(self, at: int, held: dict, depth: int) -> None:
        """A loop of some turns, which a variable of its own counts."""
        count, one, more, turns = (f'{word}{self.labels}' for word in ('k', 'one', 'more', 'turns'))
        again, past = self.label(), self.label()
        self.emit('const', count, 'int', value=0)
        self.emit('const', one, 'int', value=1)
        self.emit('const', turns, 'int', value=self.draw.randrange(1, 5))
        self.mark(again)
        self.within(at, held, depth)
        self.emit('add', count, 'int', args=(count, one))
        self.emit('lt', more, 'bool', args=(count, turns))
        self.emit('br', args=(more,), labels=(again, past))
        self.mark(past)
