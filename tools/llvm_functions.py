"""Makes a unit of MIR of a function of LLVM IR, block by block."""

from typing import Callable, NamedTuple, Optional

import llvm_calls
from llvm_text import BINARY, Block, Function, Global, Instruction, Local, Module, Refusal, width
from llvm_units import (DIVIDED, ILLEGAL, LEAST, REASONS, SAME_OPERATOR, SIGNED, UNSIGNED, Body, Values,
                        bounds, narrowed, negated, reason_of)
from mir_text import RECEIVES, Binary, Call, Goto, If, Operand, Plain, Receive, Return, Unary
from mir_text import Value as Right

# The widths of which the processor has divisions; one of another width is made by that of the next greater one.
LEGAL = (8, 16, 32, 64)

# What an operator on single bits is; a shift is its first operand.
OF_BITS = {**dict.fromkeys(('add', 'sub', 'xor'), 'xor'), **dict.fromkeys(('and', 'mul'), 'and'), 'or': 'or',
           **dict.fromkeys(('udiv', 'sdiv'), '/'), **dict.fromkeys(('urem', 'srem'), 'mod')}


class Names(NamedTuple):
    """What a unit may name beside its own: the units of functions, and what stands for global variables."""

    units: dict[str, str]
    constants: dict[str, int]
    shared: dict[str, str]
    own: dict[str, int]
    firsts: dict[str, int]


class Maker:
    """Makes one unit: `names` has what it may name; `is_entry` says that inputs come to it, `ends_run` that its return
    is the end."""

    def __init__(self, module: Module, function: Function, names: Names, is_entry: bool, ends_run: bool):
        self.module, self.function, self.names = module, function, names
        self.is_entry, self.ends_run = is_entry, ends_run
        self.body = Body(set(names.shared.values()))
        self.values = Values(function, self.body)
        self.blocks = reached(function)
        self.block_of: dict[str, Block] = {block.label: block for block in self.blocks}
        self.labels = {block.label: self.body.marks.fresh(block.label) for block in self.blocks}
        self.own = {name: self.body.names.fresh(name) for name in names.own}
        self.needs: set[str] = set()
        self.tested: dict[str, Right] = {}
        self.pairs: dict[str, tuple[Operand, Operand]] = {}
        self.uses: dict[str, list[tuple[Instruction, int]]] = {}
        for one in (one for block in self.blocks for one in block.instructions):
            for at, value in enumerate(one.operands):
                if isinstance(value, Local):
                    self.uses.setdefault(value.name, []).append((one, at))

    def refusal(self, one: Instruction, reason: str) -> Refusal:
        """Why an instruction has no form in MIR."""
        return Refusal(one.line, f'in @{self.function.name}: {reason}')

    def unit(self) -> Body:
        """The unit."""
        self.head()
        for block, after in zip(self.blocks, [*self.blocks[1:], None]):
            if block is not self.blocks[0]:
                self.body.mark(self.labels[block.label])
            following = after.label if after else None
            for one in block.instructions:
                self.instruction(block, one, following)
        self.body.clean()
        return self.body

    def head(self) -> None:
        """The receives, with inputs brought to their bits, and the first values of variables."""
        line, kept = self.function.line, []
        for name, of in self.function.parameters:
            if (width(of) or 65) > 64:
                if not self.is_entry or name in self.uses:
                    raise Refusal(line, f'in @{self.function.name}: a parameter is no integer of at most 64 bits '
                                        f'({of})')
                continue
            kept.append((name, width(of)))
        if len(kept) > RECEIVES:
            raise Refusal(line, f'in @{self.function.name}: more than {RECEIVES} parameters')
        if self.function.type != 'void' and (width(self.function.type) or 65) > 64:
            raise Refusal(line, f'in @{self.function.name}: the result is no integer of at most 64 bits '
                                f'({self.function.type})')
        inputs = []
        for name, bits in kept:
            is_whole = bits == 64 or not self.is_entry
            inputs.append((name, bits, self.values.variable(name) if is_whole else self.body.names.fresh(name)))
            self.body.emit(Receive(inputs[-1][2]))
        for name, bits, given in inputs:
            if self.values.variables.get(name) != given:
                self.bring(self.values.variable(name), given, bits)
        firsts = {**self.names.firsts, **{self.own[name]: first for name, first in self.names.own.items() if first}}
        for name, first in firsts.items():
            self.body.assign(name, Plain(first))

    def bring(self, name: str, given: Operand, bits: int) -> None:
        """Assigns a number brought to so many bits."""
        if bits == 1:
            self.body.assign(name, Binary('and', given, 1))
        else:
            self.body.narrow(name, Plain(given), bits, False)

    def bits(self, one: Instruction, of: Optional[str] = None) -> int:
        """The bits of the type of an instruction, which has to be an integer of at most 64."""
        bits = width(one.type if of is None else of)
        if bits is None or bits > 64:
            raise self.refusal(one, reason_of(one.type if of is None else of))
        return bits

    def operand(self, one: Instruction, at: int, bits: int) -> Operand:
        """An operand of an instruction."""
        return self.values.operand(one.operands[at], bits, one.line)

    def result(self, one: Instruction) -> str:
        """The variable for what an instruction makes."""
        return self.values.variable(one.name)

    def instruction(self, block: Block, one: Instruction, following: Optional[str]) -> None:
        """Makes the lines of an instruction."""
        if one.kind in ('br', 'switch'):
            self.jump(block, one, following)
        elif one.kind in BINARY:
            self.bits(one)
            self.binary(one)
        elif one.kind in MAKERS:
            MAKERS[one.kind](self, one)
        elif one.kind != 'phi':
            raise self.refusal(one, f'{REASONS.get(one.kind, "an instruction without a form in MIR")} ({one.kind})')
        else:
            self.bits(one)

    # Operators.

    def unsigned(self, one: Instruction, at: int, bits: int) -> Operand:
        """An operand of fewer than 64 bits as the number that it is without a sign."""
        value, given = one.operands[at], self.operand(one, at, bits)
        if isinstance(given, int):
            return given % 2 ** bits
        if self.values.span(value, bits)[0] >= 0:
            return given
        return self.body.made(given, 'and', given, 2 ** bits - 1)

    def binary(self, one: Instruction) -> None:
        """An operator with two operands."""
        bits = width(one.type)
        if bits == 1:
            self.binary_of_bits(one)
        elif one.kind in ('sdiv', 'srem'):
            self.signed_division(one, bits)
        elif one.kind in ('udiv', 'urem'):
            self.unsigned_division(one, bits)
        elif one.kind in ('shl', 'lshr', 'ashr'):
            self.shift(one, bits)
        else:
            left, right = self.operand(one, 0, bits), self.operand(one, 1, bits)
            value = Binary(SAME_OPERATOR[one.kind], left, right)
            self.body.narrow(self.result(one), value, bits, self.values.fits(one, bits))

    def binary_of_bits(self, one: Instruction) -> None:
        """An operator on single bits, which are 0 or 1. A division by 0 traps; a shift by a place is undefined, and
        unoptimised code leaves the bit as it is."""
        operator = OF_BITS.get(one.kind)
        left, right = self.operand(one, 0, 1), self.operand(one, 1, 1)
        if operator is None:
            self.body.assign(self.result(one), Plain(left))
        elif operator == 'xor' and 1 in (left, right):
            self.body.assign(self.result(one), Unary('!', left if right == 1 else right))
        else:
            self.body.assign(self.result(one), Binary(operator, left, right))

    def shift(self, one: Instruction, bits: int) -> None:
        """A shift, whose places are counted modulo 32 or 64 as the processor does."""
        most, places = 63 if bits > 32 else 31, self.operand(one, 1, bits)
        low, high = self.values.span(one.operands[1], bits)
        if isinstance(places, int):
            places &= most
        elif most == 31 and not 0 <= low <= high <= most:
            places = self.body.made(places, 'and', places, most)
        name = self.result(one)
        if one.kind == 'ashr':
            self.body.assign(name, Binary('shra', self.operand(one, 0, bits), places))
        elif one.kind == 'shl':
            left = self.operand(one, 0, bits)
            self.body.narrow(name, Binary('shl', left, places), bits, self.values.fits(one, bits))
        else:
            left = self.operand(one, 0, bits) if bits == 64 else self.unsigned(one, 0, bits)
            self.body.narrow(name, Binary('shr', left, places), bits, self.values.fits(one, bits))

    def signed_division(self, one: Instruction, bits: int) -> None:
        """A division, which traps where the processor does: also of the least number by -1."""
        left, right = self.operand(one, 0, bits), self.operand(one, 1, bits)
        least, may_overflow = bounds(bits)[0], bits in LEGAL
        may_overflow = may_overflow and self.values.span(one.operands[0], bits)[0] == least
        low, high = self.values.span(one.operands[1], bits)
        if may_overflow and low <= -1 <= high:
            past = self.body.marks.fresh('divide')
            if right != -1:
                self.body.emit(If(Binary('!=', right, -1), past))
            self.body.trap(DIVIDED, Binary('=', left, least))
            self.body.mark(past)
        value = Binary('/' if one.kind == 'sdiv' else 'mod', left, right)
        self.body.narrow(self.result(one), value, bits, bits in LEGAL or self.values.fits(one, bits))

    def unsigned_division(self, one: Instruction, bits: int) -> None:
        """A division without signs; of 64 bits, where one may stand for a large number, by a unit of its own."""
        is_natural = all(self.values.span(each, bits)[0] >= 0 for each in one.operands)
        if bits < 64 or is_natural:
            operands = self.unsigned(one, 0, bits), self.unsigned(one, 1, bits)
            value = Binary('/' if one.kind == 'udiv' else 'mod', *operands)
            self.body.narrow(self.result(one), value, bits, self.values.fits(one, bits))
            return
        self.needs.add(one.kind)
        operands = (self.operand(one, 0, bits), self.operand(one, 1, bits))
        self.body.emit(Call(self.result(one), self.names.units[one.kind], operands))

    def cast(self, one: Instruction) -> None:
        """A conversion, where it changes the number."""
        source, target = self.bits(one), self.bits(one, one.words[0])
        if self.values.is_same(one):
            return
        value = self.operand(one, 0, source)
        if one.kind == 'sext':
            self.body.assign(self.result(one), Unary('-', value))
        elif one.kind == 'zext':
            self.body.assign(self.result(one), Binary('and', value, 2 ** source - 1))
        else:
            self.bring(self.result(one), value, target)

    def freeze(self, one: Instruction) -> None:
        """A freeze, which changes no number."""
        self.bits(one)

    # Comparisons, and what is chosen by them.

    def comparison(self, one: Instruction) -> None:
        """A comparison: the operands are made here, and the bit too where more than tests read it."""
        bits, relation = self.bits(one), one.words[0]
        left, right = self.operand(one, 0, bits), self.operand(one, 1, bits)
        if bits == 1 and relation in SIGNED and relation not in ('eq', 'ne'):
            left, right = right, left
        elif bits > 1 and relation in UNSIGNED:
            left, right = self.without_signs(one, bits)
        test = Binary(SIGNED.get(relation) or UNSIGNED[relation], left, right)
        self.tested[one.name] = test
        if not all(is_test(user, at) for user, at in self.uses.get(one.name, [])):
            self.body.assign(self.result(one), test)

    def without_signs(self, one: Instruction, bits: int, places: tuple[int, int] = (0, 1)) -> tuple[Operand, Operand]:
        """Operands whose signed order is the unsigned order of two operands of an instruction."""
        if bits < 64:
            return self.unsigned(one, places[0], bits), self.unsigned(one, places[1], bits)
        given = [self.operand(one, at, bits) for at in places]
        if all(self.values.span(one.operands[at], bits)[0] >= 0 for at in places):
            return given[0], given[1]
        left, right = (narrowed(each ^ LEAST, 64) if isinstance(each, int) else self.body.made(each, 'xor', each, LEAST)
                       for each in given)
        return left, right

    def test(self, one: Instruction, at: int) -> Right:
        """The test of a bit: a comparison where it is made by one."""
        value = one.operands[at]
        if isinstance(value, Local) and value.name in self.tested:
            return self.tested[value.name]
        return Plain(self.operand(one, at, 1))

    def choose(self, name: str, test: Right, chosen: Operand, other: Callable[[], Right]) -> None:
        """Assigns an operand where a test holds, and otherwise what the lines of the other way make."""
        past = self.body.marks.fresh('chosen')
        self.body.assign(name, Plain(chosen))
        self.body.emit(If(test, past))
        self.body.assign(name, other())
        self.body.mark(past)

    def select(self, one: Instruction) -> None:
        """A choice between two operands."""
        bits = self.bits(one)
        self.bits(one, one.types[0])
        left, right = self.operand(one, 1, bits), self.operand(one, 2, bits)
        self.choose(self.result(one), self.test(one, 0), left, lambda: Plain(right))

    # Variables in memory.

    def place(self, one: Instruction, at: int) -> Operand:
        """The variable, or the number, that a load or a store means."""
        value = one.operands[at]
        marks = [word for word in one.words if word in ('volatile', 'atomic')]
        if marks:
            raise self.refusal(one, f'a {marks[0]} access' if marks[0] == 'volatile' else 'an atomic access')
        if isinstance(value, Local) and value.name in self.values.definitions:
            made = self.values.definitions[value.name]
            if made.kind == 'alloca' and made.type == one.type:
                return self.values.variable(value.name)
        if isinstance(value, Global) and value.name in self.module.variables:
            if self.module.variables[value.name].type != one.type:
                raise self.refusal(one, 'an access of another type than the variable has')
            if value.name in self.names.constants and one.kind == 'load':
                return self.names.constants[value.name]
            if value.name in self.own or value.name in self.names.shared:
                return self.own.get(value.name) or self.names.shared[value.name]
        raise self.refusal(one, 'an access at an address that is computed')

    def element(self, one: Instruction) -> None:
        """A number of a table, which a unit of its own answers."""
        self.bits(one)
        index, unit = self.operand(one, 0, self.bits(one, one.types[0])), one.words[0]
        self.needs.add(unit)
        self.body.emit(Call(self.result(one), self.names.units[unit], (index,)))

    def load(self, one: Instruction) -> None:
        """A load of a variable."""
        self.bits(one)
        self.body.assign(self.result(one), Plain(self.place(one, 0)))

    def store(self, one: Instruction) -> None:
        """A store to a variable."""
        bits = self.bits(one)
        value = self.operand(one, 0, bits)
        self.body.assign(self.place(one, 1), Plain(value))

    def alloca(self, one: Instruction) -> None:
        """A variable of the function, of which nothing but its value is read."""
        self.bits(one)
        if one.operands not in ([], [1]) or one not in self.blocks[0].instructions:
            raise self.refusal(one, 'an array')
        for user, at in self.uses.get(one.name, []):
            is_access = (user.kind, at) in (('load', 0), ('store', 1)) and user.type == one.type
            if not is_access and not (user.kind == 'call' and llvm_calls.is_without_effect(user)):
                raise self.refusal(user, 'the address of a variable is used')

    # Ends of blocks.

    def copies(self, source: Block, target: str) -> list[tuple[str, Operand]]:
        """What the phis of a block are assigned on the way from another."""
        found = []
        for one in self.block_of[target].instructions:
            if one.kind == 'phi':
                bits = self.bits(one)
                value = one.operands[one.blocks.index(source.label)]
                found.append((self.result(one), self.values.operand(value, bits, one.line)))
        return [(to, value) for to, value in found if to != value]

    def go(self, source: Block, target: str, following: Optional[str]) -> None:
        """Goes to a block, by a jump unless it comes next; to one that returns what a phi has by a return."""
        copies, last = self.copies(source, target), self.block_of[target].instructions[-1]
        if copies and last.kind == 'ret' and all(one.kind == 'phi' for one in self.block_of[target].instructions[:-1]):
            value = self.operand(last, 0, self.bits(last)) if last.operands else 0
            self.body.emit(Return(dict(copies).get(value, value)))
            return
        self.body.copy(copies)
        if target != following:
            self.body.emit(Goto(self.labels[target]))

    def jump(self, block: Block, one: Instruction, following: Optional[str]) -> None:
        """The end of a block that goes to other ones."""
        if one.kind == 'switch':
            self.switch(block, one, following)
            return
        test = self.test(one, 0) if len(one.blocks) == 2 else Plain(1)
        if isinstance(test, Plain) and isinstance(test.value, int):
            self.go(block, one.blocks[0 if test.value else 1], following)
            return
        yes, no = one.blocks
        has_copies = [bool(self.copies(block, each)) for each in (yes, no)]
        if (has_copies[0] or yes == following) and not has_copies[1]:
            yes, no, test = no, yes, negated(test)
        if not self.copies(block, yes):
            self.body.emit(If(test, self.labels[yes]))
            self.go(block, no, following)
            return
        way = self.body.marks.fresh('way')
        self.body.emit(If(test, way))
        self.go(block, no, None)
        self.body.mark(way)
        self.go(block, yes, following)

    def switch(self, block: Block, one: Instruction, following: Optional[str]) -> None:
        """A test for each number; ways with phis behind them come last."""
        bits, ways = self.bits(one), {}
        value = self.operand(one, 0, bits)
        for at, target in enumerate(one.blocks[1:], 1):
            if target == one.blocks[0]:
                continue
            label = self.labels[target]
            if self.copies(block, target):
                label = ways.setdefault(target, ways.get(target) or self.body.marks.fresh('way'))
            self.body.emit(If(Binary('=', value, self.operand(one, at, bits)), label))
        self.go(block, one.blocks[0], None if ways else following)
        for target, label in ways.items():
            self.body.mark(label)
            self.go(block, target, None)

    def give(self, one: Instruction) -> None:
        """A return."""
        if one.operands:
            self.body.emit(Return(self.operand(one, 0, self.bits(one))))
        else:
            self.body.emit(Return(0))

    def never(self, one: Instruction) -> None:
        """What no run comes to: behind a call that does not return nothing has to be done, and elsewhere it traps."""
        block = next(block for block in self.blocks if one in block.instructions)
        before = block.instructions[-2:-1]
        if not before or before[0].kind != 'call':
            self.body.trap(ILLEGAL)
        self.body.emit(Return(0))

    def part(self, one: Instruction) -> None:
        """A part of what an operator makes that also says whether it has too many bits."""
        value = one.operands[0]
        made = self.values.definitions.get(value.name) if isinstance(value, Local) else None
        if made is None or made.kind != 'call' or value.name not in self.pairs:
            raise self.refusal(one, 'a structure')
        self.body.assign(self.result(one), Plain(self.pairs[value.name][int(one.words[0])]))


MAKERS = {
    **dict.fromkeys(('trunc', 'zext', 'sext', 'bitcast'), Maker.cast), 'freeze': Maker.freeze,
    'icmp': Maker.comparison, 'select': Maker.select, 'load': Maker.load, 'store': Maker.store,
    'alloca': Maker.alloca, 'call': llvm_calls.call, 'ret': Maker.give, 'unreachable': Maker.never,
    'extractvalue': Maker.part, 'element': Maker.element,
}


def is_test(user: Instruction, at: int) -> bool:
    """Whether an operand of an instruction is tested and no more."""
    return (user.kind, at) in (('br', 0), ('select', 0))


def reached(function: Function) -> list[Block]:
    """The blocks that the first one leads to: in the order of the text where values are made before they are read in
    it, and else in an order in which they are."""
    blocks, seen, order = {block.label: block for block in function.blocks}, set(), []
    waiting = [(function.blocks[0].label, False)]
    while waiting:
        label, is_done = waiting.pop()
        if is_done:
            order.append(label)
        elif label not in seen:
            seen.add(label)
            waiting.append((label, True))
            last = blocks[label].instructions[-1]
            waiting += [(each, False) for each in (last.blocks if last.kind in ('br', 'switch') else [])]
    text = [block for block in function.blocks if block.label in seen]
    return text if is_in_order(text) else [blocks[label] for label in reversed(order)]


def is_in_order(blocks: list[Block]) -> bool:
    """Whether each value is made before it is read, but for what phis read."""
    every = [one for block in blocks for one in block.instructions]
    made = {one.name: at for at, one in enumerate(every) if one.name is not None}
    return all(made.get(value.name, -1) < at for at, one in enumerate(every) if one.kind != 'phi'
               for value in one.operands if isinstance(value, Local))
