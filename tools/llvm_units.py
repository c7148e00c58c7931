"""Makes units of MIR of the functions of a module of LLVM IR.

A value of N bits is kept as the 64-bit number that has its bits and its sign, and one of a single bit as 0 or 1. What
an operator makes is brought back to N bits by two shifts, `shl` and `shra`, unless its bounds show that it has no more.
A phi is a variable that each way to its block assigns. What is undefined is 0.
"""

import re
from typing import NamedTuple

import llvm_text
from llvm_text import Address, Function, Global, Instruction, Local, Refusal, Value, width
from mir_text import (NAME_BYTES, RESERVED, Assign, Binary, Goto, If, Operand, Plain, Return, Unary, instruction_text,
                      value_text)
from mir_text import Value as Right

LEAST = -2 ** 63
SIGNED = {'eq': '=', 'ne': '!=', 'slt': '<', 'sle': '<=', 'sgt': '>', 'sge': '>='}
UNSIGNED = {'ult': '<', 'ule': '<=', 'ugt': '>', 'uge': '>='}
OPPOSITE = {'=': '!=', '!=': '=', '<': '>=', '>=': '<', '>': '<=', '<=': '>'}
SAME_OPERATOR = {'add': '+', 'sub': '-', 'mul': '*', 'and': 'and', 'or': 'or', 'xor': 'xor'}

# Statuses that a shell gives for the signals by which a native program ends here, as the numbers of traps.
ILLEGAL, ABORTED, DIVIDED = 132, 134, 136

KINDS = {
    'an address is computed': 'getelementptr inttoptr ptrtoint addrspacecast ptrtoaddr',
    'floating point': 'fadd fsub fmul fdiv frem fneg fcmp fptosi fptoui sitofp uitofp fptrunc fpext',
    'a vector': 'extractelement insertelement shufflevector',
    'a structure': 'insertvalue',
    'an atomic access': 'atomicrmw cmpxchg fence',
    'an exception': 'invoke landingpad resume catchswitch catchpad cleanuppad catchret cleanupret',
    'a jump to a computed place': 'indirectbr callbr',
    'a variable number of arguments': 'va_arg',
    'assembler': 'asm',
}
REASONS = {kind: reason for reason, kinds in KINDS.items() for kind in kinds.split()}


class TrapIf(NamedTuple):
    """`if test trap number`."""

    test: Right
    number: int


class Line(NamedTuple):
    """An instruction behind its labels."""

    labels: list[str]
    instruction: object


def reason_of(of: str) -> str:
    """Why a type has no form in MIR."""
    bits = width(of)
    if bits is not None:
        return f'an integer of more than 64 bits ({of})'
    if of.endswith('*') or of == 'ptr':
        return 'an address is kept'
    first = {'[': 'an array', '<': 'a vector', '{': 'a structure'}.get(of[:1], 'a structure')
    return first if of[:1] in '[<{%' else f'floating point ({of})'


def narrowed(number: int, bits: int) -> int:
    """The number that has the low bits of another, and their sign; of one bit 0 or 1."""
    low = number % 2 ** bits
    return low - 2 ** bits if bits > 1 and low >= 2 ** (bits - 1) else low


def bounds(bits: int) -> tuple[int, int]:
    """The least and the greatest number that so many bits have."""
    return (0, 1) if bits == 1 else (-2 ** (bits - 1), 2 ** (bits - 1) - 1)


def negated(test: Right) -> Right:
    """The test that holds where another does not."""
    if isinstance(test, Binary):
        return Binary(OPPOSITE[test.operator], test.left, test.right)
    return Unary('!', test.value) if isinstance(test, Plain) else Plain(test.value)


def line_text(line: Line) -> str:
    """An instruction and its labels as they are written."""
    one = line.instruction
    text = f'if {value_text(one.test)} trap {one.number}' if isinstance(one, TrapIf) else instruction_text(one)
    return ''.join(f'{label}: ' for label in line.labels) + text


class Names:
    """Gives out names that a unit does not have yet."""

    def __init__(self, taken: set[str]):
        self.taken = set(taken)

    def fresh(self, wanted: str) -> str:
        """A name like the one that is wanted."""
        plain = re.sub('[^A-Za-z0-9_]', '_', wanted)[:NAME_BYTES - 8] or 'v'
        plain = plain if plain[0].isalpha() else f'v{plain}'
        name, number = plain, 1
        while name in self.taken or name in RESERVED:
            number += 1
            name = f'{plain}_{number}'
        self.taken.add(name)
        return name


class Body:
    """The lines of a unit as they come, with their labels and names."""

    def __init__(self, taken: set[str]):
        self.names, self.marks = Names(taken), Names(set())
        self.lines: list[Line] = []
        self.waiting: list[str] = []

    def emit(self, instruction) -> None:
        """Adds an instruction behind the labels that wait for one."""
        self.lines.append(Line(self.waiting, instruction))
        self.waiting = []

    def mark(self, label: str) -> None:
        """Puts a label before the next instruction."""
        self.waiting = self.waiting + [label]

    def assign(self, name: str, value: Right) -> str:
        """Assigns a value to a variable."""
        self.emit(Assign(name, value))
        return name

    def made(self, wanted: str, operator: str, left: Operand, right: Operand) -> str:
        """Assigns what an operator makes to a new variable."""
        return self.assign(self.names.fresh(wanted), Binary(operator, left, right))

    def narrow(self, name: str, value: Right, bits: int, fits: bool) -> None:
        """Assigns a value, brought back to so many bits where it may have more."""
        if fits or bits == 64:
            self.assign(name, value)
            return
        places = 64 - bits
        if isinstance(value, Binary) and value.operator == 'shl' and isinstance(value.right, int):
            high = self.made(name, 'shl', value.left, value.right + places) if value.right < bits else 0
        elif isinstance(value, Plain):
            high = self.made(name, 'shl', value.value, places)
        else:
            high = self.made(name, 'shl', self.assign(self.names.fresh(name), value), places)
        self.assign(name, Binary('shra', high, places))

    def trap(self, number: int, test: Right = Plain(1)) -> None:
        """Traps with a number where a test holds."""
        self.emit(TrapIf(test, number))

    def copy(self, pairs: list[tuple[str, Operand]]) -> None:
        """Assigns operands to variables, all at once."""
        waiting = [(to, source) for to, source in pairs if to != source]
        while waiting:
            sources = [source for _, source in waiting]
            free = [pair for pair in waiting if pair[0] not in sources]
            if free:
                self.assign(free[0][0], Plain(free[0][1]))
                waiting.remove(free[0])
            else:
                held = waiting[0][0]
                spare = self.assign(self.names.fresh('spare'), Plain(held))
                waiting = [(to, spare if source == held else source) for to, source in waiting]

    def clean(self) -> None:
        """Drops lines that no run comes to: those behind a jump or a return, up to a label that is named."""
        count = -1
        while count != len(self.lines):
            count, named, kept, is_reached = len(self.lines), self.named(), [], True
            for line in self.lines:
                is_reached = is_reached or not named.isdisjoint(line.labels)
                kept += [line] if is_reached else []
                is_reached = is_reached and not isinstance(line.instruction, (Goto, Return))
            self.lines = kept

    def named(self) -> set[str]:
        """The labels that jumps name."""
        return {line.instruction.label for line in self.lines if isinstance(line.instruction, (Goto, If))}

    def text(self, name: str) -> str:
        """The unit, with the labels that are named."""
        named = self.named()
        lines = [line_text(Line([each for each in line.labels if each in named], line.instruction))
                 for line in self.lines]
        end = ''.join(f'{label}: ' for label in self.waiting if label in named) + 'end'
        return '\n'.join([f'{name}: begin', *lines, end]) + '\n'


class Values:
    """The values of a function: where each comes from, what its bounds are, and the variable that has it."""

    def __init__(self, function: Function, body: Body):
        self.function, self.body = function, body
        self.widths = {name: of for name, of in function.parameters}
        self.definitions: dict[str, Instruction] = {}
        self.variables: dict[str, str] = {}
        self.spans: dict[str, tuple[int, int]] = {}
        for block in function.blocks:
            for one in block.instructions:
                if one.name is not None:
                    self.definitions[one.name] = one

    def variable(self, name: str) -> str:
        """The variable that has a value."""
        if name not in self.variables:
            self.variables[name] = self.body.names.fresh(name)
        return self.variables[name]

    def operand(self, value: Value, bits: int, line: int) -> Operand:
        """A value as an operand: a number, or the variable of what it comes from."""
        while isinstance(value, Local):
            one = self.definitions.get(value.name)
            if one is None or not self.is_same(one):
                return self.variable(value.name)
            value, bits = one.operands[0], width(one.type) or 64
        if isinstance(value, int):
            return narrowed(value, bits)
        if isinstance(value, (Global, Address)):
            reason = f'the address of a variable is used (@{value.name})'
        else:
            reason = 'floating point' if re.match(r'[-+]?[0-9]', value.text) else 'an expression of constants'
        raise Refusal(line, f'in @{self.function.name}: {reason}')

    def is_same(self, one: Instruction) -> bool:
        """Whether an instruction makes the number that its operand is."""
        if one.kind == 'freeze':
            return width(one.type) is not None
        if one.kind not in llvm_text.CASTS or (width(one.type) or 65) > 64 or (width(one.words[0]) or 65) > 64:
            return False
        source, target = width(one.type), width(one.words[0])
        if one.kind == 'sext':
            return source > 1
        low, high = self.span(one.operands[0], source)
        if one.kind == 'zext':
            return low >= 0
        return one.kind == 'bitcast' or bounds(target)[0] <= low and high <= bounds(target)[1]

    def span(self, value: Value, bits: int) -> tuple[int, int]:
        """Bounds of a value."""
        if isinstance(value, int):
            return narrowed(value, bits), narrowed(value, bits)
        if not isinstance(value, Local) or value.name not in self.definitions:
            return bounds(bits)
        if value.name not in self.spans:
            self.spans[value.name] = bounds(bits)
            low, high = self.made_span(self.definitions[value.name], bits)
            if bounds(bits)[0] <= low and high <= bounds(bits)[1]:
                self.spans[value.name] = low, high
        return self.spans[value.name]

    def made_span(self, one: Instruction, bits: int) -> tuple[int, int]:
        """Bounds of what an instruction makes before it is brought back to its bits."""
        if one.kind in llvm_text.CASTS and (width(one.type) or 65) <= 64:
            source = width(one.type)
            low, high = self.span(one.operands[0], source)
            if one.kind == 'zext' and low < 0:
                return 0, 2 ** source - 1
            return (-high, -low) if one.kind == 'sext' and source == 1 else (low, high)
        if one.kind == 'freeze':
            return self.span(one.operands[0], bits)
        if one.kind == 'icmp':
            return 0, 1
        if one.kind == 'select':
            both = [self.span(each, bits) for each in one.operands[1:]]
            return min(low for low, _ in both), max(high for _, high in both)
        if one.kind in llvm_text.BINARY and bits > 1:
            left, right = (self.span(each, bits) for each in one.operands)
            return operator_span(one.kind, left, right, bits)
        return bounds(bits)

    def fits(self, one: Instruction, bits: int) -> bool:
        """Whether what an operator makes has no more bits than it should."""
        low, high = self.made_span(one, bits)
        return bounds(bits)[0] <= low and high <= bounds(bits)[1]


def operator_span(kind: str, left: tuple[int, int], right: tuple[int, int], bits: int) -> tuple[int, int]:
    """Bounds of what an operator makes of numbers within bounds, as 64 bits or more have it."""
    corners = {'add': lambda a, b: a + b, 'sub': lambda a, b: a - b, 'mul': lambda a, b: a * b}
    if kind in corners:
        found = [corners[kind](a, b) for a in left for b in right]
        return min(found), max(found)
    is_natural, number = left[0] >= 0 and right[0] >= 0, right[0] if right[0] == right[1] else None
    unsigned = (left[0], left[1]) if left[0] >= 0 else (0, 2 ** bits - 1)
    if kind == 'and' and max(left[0], right[0]) >= 0:
        return 0, min(high for low, high in (left, right) if low >= 0)
    if kind in ('or', 'xor') and is_natural:
        return 0, 2 ** max(left[1].bit_length(), right[1].bit_length()) - 1
    if kind in ('lshr', 'udiv', 'urem'):
        if number is None or number <= 0 or number >= bits and kind == 'lshr':
            return 0, unsigned[1]
        if kind == 'urem':
            return 0, min(unsigned[1], number - 1)
        by = 2 ** number if kind == 'lshr' else number
        return unsigned[0] // by, unsigned[1] // by
    if kind == 'shl':
        is_small = number is not None and 0 <= number < bits
        return (left[0] << number, left[1] << number) if is_small else (-2 ** 127, 2 ** 127)
    if kind == 'ashr':
        return min(left[0], 0), max(left[1], 0)
    if kind in ('sdiv', 'srem'):
        greatest = max(abs(left[0]), abs(left[1]))
        if kind == 'sdiv' and number is not None and number > 0:
            return -(abs(min(left[0], 0)) // number), max(left[1], 0) // number
        if kind == 'sdiv':
            return -greatest, greatest
        less = abs(number) - 1 if number else greatest
        return -min(less, abs(min(left[0], 0))), min(less, max(left[1], 0))
    return bounds(bits)
