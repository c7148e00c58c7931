"""Takes arrays and structures apart that are only accessed by constants: each part that is a number becomes a variable.

An array of a function, or a global one, is taken apart where each use of it is a load or a store of one of its numbers,
as a whole, at a place that is known, or a copy or a fill of whole numbers; where one use is another, it stays as it is,
and is refused where it is reached.
"""

from typing import Iterator, NamedTuple, Optional

import llvm_calls
from llvm_text import (Address, Cursor, Function, Global, Instruction, Local, Module, Refusal, Value, Variable,
                       width)
from llvm_units import narrowed

# An array or a structure that is taken apart has at most so many bytes.
LARGEST = 1024

Base = tuple[str, str]


class Layout(NamedTuple):
    """How a type lies in memory, in bytes: the bits of a number, or its parts with their places; an array has one part
    and says how many of it, which may be none."""

    size: int
    align: int
    bits: int = 0
    parts: tuple['Layout', ...] = ()
    offsets: tuple[int, ...] = ()
    count: Optional[int] = None

    def part(self, number: int) -> 'Layout':
        """The part of this number."""
        return self.parts[number if self.count is None else 0]

    def offset(self, number: int) -> int:
        """How far behind its start the part of this number lies."""
        return self.offsets[number] if self.count is None else number * self.parts[0].size


def layout(module: Module, of: str) -> Optional[Layout]:
    """The layout of a type of numbers, arrays and structures; none of another."""
    try:
        cursor = Cursor(0, of)
        found = next_layout(module, cursor)
        return found if not cursor.peek() else None
    except Refusal:
        return None


def next_layout(module: Module, cursor: Cursor) -> Layout:
    """Takes a type, which is refused where it has another layout."""
    text = cursor.next()
    bits = width(text) or 0
    if cursor.peek() == '*' or bits > 64:
        raise Refusal(0, 'an address, or too many bits')
    if bits:
        size = next(each for each in (1, 2, 4, 8) if bits <= 8 * each)
        return Layout(size, size, bits)
    if text == '[':
        count = int(cursor.next())
        cursor.take('x')
        part = next_layout(module, cursor)
        cursor.take(']')
        return Layout(part.size * count, part.align, parts=(part,), count=count)
    if text == '{':
        members = []
        while not members or cursor.has(','):
            members.append(next_layout(module, cursor))
        cursor.take('}')
        return structure(members)
    if text in module.types:
        return next_layout(module, Cursor(0, module.types[text]))
    raise Refusal(0, 'another type')


def structure(members: list[Layout]) -> Layout:
    """The layout of a structure, each member at the next place that it may have."""
    at, offsets, align = 0, [], max(member.align for member in members)
    for member in members:
        at = -(-at // member.align) * member.align
        offsets.append(at)
        at += member.size
    return Layout(-(-at // align) * align, align, parts=tuple(members), offsets=tuple(offsets))


def distance(of: Layout, path: tuple[int, ...]) -> Optional[int]:
    """How far from an address the numbers of parts lead, the first of which counts whole types."""
    at = path[0] * of.size
    for number in path[1:]:
        if not of.parts or of.count is None and not 0 <= number < len(of.parts):
            return None
        at += of.offset(number)
        of = of.part(number)
    return at


def part_at(of: Layout, at: int) -> Optional[tuple[tuple[int, ...], int]]:
    """The numbers of the parts in which a number lies that begins at a place, and its bits."""
    path: list[int] = []
    while of.parts:
        if not 0 <= at < of.size:
            return None
        number = at // of.parts[0].size if of.count is not None else max(
            each for each, offset in enumerate(of.offsets) if offset <= at)
        path.append(number)
        at -= of.offset(number)
        of = of.part(number)
    return (tuple(path), of.bits) if at == 0 else None


def numbers_in(of: Layout, at: int = 0) -> Iterator[tuple[int, int]]:
    """The place and the bits of each number of a type."""
    if not of.parts:
        yield at, of.bits
    for number in range(len(of.parts) if of.count is None else of.count):
        yield from numbers_in(of.part(number), at + of.offset(number))


def first_value(parts: object, path: tuple[int, ...]) -> object:
    """The first value of a part."""
    for number in path:
        if parts is None:
            return 0
        if not isinstance(parts, list) or number >= len(parts):
            return None
        parts = parts[number]
    return 0 if parts is None else parts


class Fill(NamedTuple):
    """A copy or a fill: where it goes to, and for each number there the place and what it gets, a number or a place."""

    base: Base
    source: Optional[Base]
    numbers: list[tuple[int, int, int]]


class Splitter:
    """Takes the arrays of some functions of a module apart."""

    def __init__(self, module: Module, functions: list[Function]):
        self.module, self.functions = module, functions
        self.layouts: dict[Base, Layout] = {}
        self.bad: set[Base] = set()
        self.found: dict[int, tuple[Base, int]] = {}
        self.loaded: set[tuple[Base, int]] = set()
        self.copies: list[tuple[Base, Base]] = []
        self.fills: dict[int, Fill] = {}
        for name, variable in module.variables.items():
            self.add(('', name), variable.type, variable.is_plain)

    def add(self, base: Base, of: str, is_plain: bool) -> None:
        """Notes the layout of what may be taken apart."""
        found = layout(self.module, of) if is_plain and of[:1] in '[{%' else None
        if found is not None and found.parts and found.size <= LARGEST:
            self.layouts[base] = found

    def place(self, function: Function, made: dict, value: Value) -> Optional[tuple[Base, int]]:
        """The array and the place in it that a value is the address of."""
        if isinstance(value, Global):
            return (('', value.name), 0) if ('', value.name) in self.layouts else None
        if isinstance(value, Address):
            return self.after((('', value.name), 0), value.steps) if ('', value.name) in self.layouts else None
        one = made.get(value.name) if isinstance(value, Local) else None
        if one is None:
            return None
        if one.kind == 'alloca':
            return ((function.name, one.name), 0) if (function.name, one.name) in self.layouts else None
        if one.kind not in ('getelementptr', 'bitcast') or not one.operands:
            return None
        base = self.place(function, made, one.operands[0])
        steps = () if one.kind == 'bitcast' else ((one.type, tuple(one.operands[1:])),)
        return base and self.after(base, steps)

    def after(self, place: tuple[Base, int], steps: Optional[tuple]) -> Optional[tuple[Base, int]]:
        """The place that steps lead to."""
        if steps is None:
            return None
        base, at = place
        for of, path in steps:
            found = layout(self.module, of)
            if found is None or not path or not all(type(number) is int for number in path):
                return None
            more = distance(found, path)
            if more is None:
                return None
            at += more
        return base, at

    def look(self, function: Function) -> None:
        """Notes the accesses of a function, and of what it uses otherwise that it cannot be taken apart."""
        made = {one.name: one for block in function.blocks for one in block.instructions if one.name is not None}
        for one in made.values():
            if one.kind == 'alloca':
                self.add((function.name, one.name), one.type, one.operands in ([], [1]))
        for one in (one for block in function.blocks for one in block.instructions):
            for at, value in enumerate(one.operands):
                place = self.place(function, made, value)
                if place is not None:
                    self.judge(function, made, one, at, place)
                elif isinstance(value, Address):
                    self.bad.add(('', value.name))

    def judge(self, function: Function, made: dict, one: Instruction, at: int, place: tuple[Base, int]) -> None:
        """Notes a use of an address."""
        base, offset = place
        part = part_at(self.layouts[base], offset)
        if (one.kind, at) in (('load', 0), ('store', 1)):
            if part is None or part[1] != width(one.type) or {'volatile', 'atomic'} & set(one.words):
                self.bad.add(base)
            self.found[id(one)] = place
            self.loaded |= {place} if at == 0 else set()
        elif (one.kind, at) in (('getelementptr', 0), ('bitcast', 0)):
            if self.place(function, made, Local(one.name)) is None:
                self.bad.add(base)
        elif one.kind != 'call' or at == 0:
            self.bad.add(base)
        elif not llvm_calls.is_without_effect(one) and id(one) not in self.fills:
            self.fill(function, made, one)

    def fill(self, function: Function, made: dict, one: Instruction) -> None:
        """Notes a copy or a fill of whole numbers; any other call makes what it uses bad."""
        places = [self.place(function, made, value) for value in one.operands[1:3]]
        name = one.operands[0].name if isinstance(one.operands[0], Global) else ''
        is_copy = name.startswith(('llvm.memcpy.', 'llvm.memmove.'))
        found = None
        if len(one.operands) == 5 and type(one.operands[3]) is int and one.operands[4] == 0 and places[0]:
            if is_copy and places[1]:
                found = self.copied(places[0], places[1], one.operands[3])
            elif name.startswith('llvm.memset.') and type(one.operands[2]) is int:
                found = self.filled(places[0], one.operands[2], one.operands[3])
        if found is None:
            self.bad.update(place[0] for place in places if place)
            return
        self.fills[id(one)] = found
        if found.source is not None:
            self.copies.append((found.base, found.source))

    def covered(self, place: tuple[Base, int], length: int) -> Optional[list[tuple[int, int]]]:
        """The numbers that some bytes from a place on have; none where they have one in part."""
        base, begin = place
        every = list(numbers_in(self.layouts[base]))
        inside = [(at, bits) for at, bits in every if begin < at + (bits + 7) // 8 and at < begin + length]
        is_whole = all(begin <= at and at + (bits + 7) // 8 <= begin + length for at, bits in inside)
        return inside if is_whole and begin + length <= self.layouts[base].size else None

    def filled(self, to: tuple[Base, int], byte: int, length: int) -> Optional[Fill]:
        """A fill."""
        inside = self.covered(to, length)
        number = int.from_bytes(bytes([byte % 256]) * 8, 'little')
        return None if inside is None else Fill(to[0], None, [(at, bits, number) for at, bits in inside])

    def copied(self, to: tuple[Base, int], source: tuple[Base, int], length: int) -> Optional[Fill]:
        """A copy between places of one shape."""
        inside, others = self.covered(to, length), self.covered(source, length)
        shift = source[1] - to[1]
        if inside is None or [(at + shift, bits) for at, bits in inside] != others:
            return None
        self.loaded.update((source[0], at) for at, _ in others)
        return Fill(to[0], source[0], [(at, bits, at + shift) for at, bits in inside])

    def split(self) -> None:
        """Takes apart what can be."""
        for function in self.functions:
            self.look(function)
        for base in self.layouts:
            variable = self.module.variables.get(base[1]) if not base[0] else None
            if variable is not None and variable.parts == 0:
                self.bad.add(base)
        while any((to in self.bad) != (source in self.bad) for to, source in self.copies):
            self.bad.update(base for pair in self.copies if self.bad & set(pair) for base in pair)
        for function in self.functions:
            self.rewrite(function)

    def rewrite(self, function: Function) -> None:
        """Puts variables in the place of parts, and drops what only makes their addresses."""
        made = {one.name: one for block in function.blocks for one in block.instructions if one.name is not None}
        gone = set()
        for name, one in made.items():
            place = self.place(function, made, Local(name))
            if place is not None and place[0] not in self.bad:
                gone.add(id(one))
        locals_: dict[str, Instruction] = {}
        for block in function.blocks:
            kept = []
            for one in (one for one in block.instructions if id(one) not in gone):
                place, fill = self.found.get(id(one)), self.fills.get(id(one))
                if place is not None and place[0] not in self.bad:
                    one.operands[-1] = self.variable(one, *place, locals_)
                kept += [one] if fill is None or fill.base in self.bad else self.stores(one, fill, locals_)
            block.instructions = kept
        if locals_:
            function.blocks[0].instructions[:0] = locals_.values()

    def stores(self, one: Instruction, fill: Fill, locals_: dict[str, Instruction]) -> list[Instruction]:
        """The loads and stores of a copy or a fill; what a function stores and never loads is left out."""
        loads, stores = [], []
        for at, bits, value in fill.numbers:
            if fill.base[0] and (fill.base, at) not in self.loaded:
                continue
            if fill.source is not None:
                name = f'copied:{one.line}:{at}'
                source = self.variable(one, fill.source, value, locals_)
                loads.append(Instruction(one.line, name, 'load', f'i{bits}', [source]))
                value = Local(name)
            target = self.variable(one, fill.base, at, locals_)
            stores.append(Instruction(one.line, None, 'store', f'i{bits}', [value, target]))
        return loads + stores

    def variable(self, one: Instruction, base: Base, at: int, locals_: dict[str, Instruction]) -> Value:
        """The variable of a part."""
        path, bits = part_at(self.layouts[base], at)
        name = ':'.join([base[1], *map(str, path)])
        if base[0]:
            locals_.setdefault(name, Instruction(one.line, name, 'alloca', f'i{bits}'))
            return Local(name)
        whole = self.module.variables[base[1]]
        value = first_value(whole.parts, path)
        value = narrowed(value, bits) if isinstance(value, int) else value
        self.module.variables.setdefault(name, Variable(name, whole.line, f'i{bits}', whole.is_constant, value))
        return Global(name)


def split(module: Module, functions: list[Function]) -> None:
    """Takes the arrays and structures of these functions apart that are only accessed by constants."""
    Splitter(module, functions).split()
