"""Makes the lines of what LLVM has as calls and a processor as instructions: bits that are counted, bytes and bits that
change places, turns, and products that tell of an overflow."""

from llvm_text import Instruction
from llvm_units import LEAST, narrowed
from mir_text import Binary, Call, If, Operand, Plain, Unary

# The masks of every second bit, of two of four, and so on; and a one in each byte.
MASKS = {places: narrowed(sum((2 ** places - 1) << at for at in range(0, 64, 2 * places)), 64)
         for places in (1, 2, 4, 8, 16, 32)}
ONES = narrowed(sum(1 << at for at in range(0, 64, 8)), 64)


def plain_bits(maker, one: Instruction, at: int, bits: int) -> Operand:
    """An operand without its sign, in the low bits."""
    return maker.operand(one, at, bits) if bits == 64 else maker.unsigned(one, at, bits)


def exchanged(maker, name: str, value: Operand, places: int) -> str:
    """The number in which each two neighbouring groups of so many bits have changed places."""
    high = maker.body.made(name, 'and', maker.body.made(name, 'shr', value, places), MASKS[places])
    low = maker.body.made(name, 'shl', maker.body.made(name, 'and', value, MASKS[places]), places)
    return maker.body.made(name, 'or', high, low)


def swapped(maker, one: Instruction, kind: str) -> None:
    """The bytes, or the bits, from the other end: of the next power of two bits, of which the highest are wanted."""
    bits, name = maker.bits(one), maker.result(one)
    groups = [places for places in MASKS if (8 if kind == 'bswap' else 1) <= places < bits]
    value, spare = plain_bits(maker, one, 1, bits), 2 * groups[-1] - bits if groups else 0
    for places in groups:
        value = exchanged(maker, name, value, places)
    maker.bring(name, maker.body.made(name, 'shr', value, spare) if spare else value, bits)


def ones(maker, name: str, value: Operand) -> str:
    """How many bits of a number are set: in groups of two, of four and of eight, which a product adds up."""
    made = maker.body.made
    value = made(name, '-', value, made(name, 'and', made(name, 'shr', value, 1), MASKS[1]))
    high = made(name, 'and', made(name, 'shr', value, 2), MASKS[2])
    value = made(name, '+', made(name, 'and', value, MASKS[2]), high)
    value = made(name, 'and', made(name, '+', value, made(name, 'shr', value, 4)), MASKS[4])
    return made(name, 'shr', made(name, '*', value, ONES), 56)


def counted(maker, one: Instruction, kind: str) -> None:
    """How many bits are set, or how many stand above the highest or below the lowest one that is; all of them, where
    none is."""
    bits, name, made = maker.bits(one), maker.result(one), maker.body.made
    value = plain_bits(maker, one, 1, bits)
    if kind == 'cttz':
        value = value if bits == 64 else made(name, 'or', value, narrowed(2 ** bits, 64))
        lowest = made(name, 'and', value, maker.body.assign(maker.body.names.fresh(name), Unary('-', value)))
        value = made(name, '-', lowest, 1)
    if kind == 'ctlz':
        for places in [places for places in MASKS if places < bits]:
            value = made(name, 'or', value, made(name, 'shr', value, places))
    count = ones(maker, name, value)
    if kind == 'ctlz':
        count = made(name, '-', bits, count)
    if bits > 2:
        maker.body.assign(name, Plain(count))
    else:
        maker.bring(name, count, bits)


def turned(maker, one: Instruction, kind: str) -> None:
    """The high or the low part of two numbers that are shifted as one."""
    bits, name, made = maker.bits(one), maker.result(one), maker.body.made
    if bits == 1:
        maker.body.assign(name, Plain(maker.operand(one, 1 if kind == 'fshl' else 2, 1)))
        return
    places = plain_bits(maker, one, 3, bits)
    if isinstance(places, int):
        places = places % bits
    else:
        places = made(name, 'and', places, bits - 1) if bits in (8, 16, 32, 64) else made(name, 'mod', places, bits)
    others = bits - 1 - places if isinstance(places, int) else made(name, '-', bits - 1, places)
    high, low = maker.operand(one, 1, bits), plain_bits(maker, one, 2, bits)
    if kind == 'fshl':
        high = made(name, 'shl', high, places)
        low = made(name, 'shr', made(name, 'shr', low, 1), others)
    else:
        high = made(name, 'shl', made(name, 'shl', high, 1), others)
        low = made(name, 'shr', low, places)
    maker.body.narrow(name, Binary('or', high, low), bits, False)


def product(maker, one: Instruction, kind: str, bits: int) -> None:
    """A product of more than 32 bits, and whether it has too many: it has where a division does not give the factor
    back, or by the one quotient that is too large."""
    name, more = maker.body.names.fresh(one.name), maker.body.names.fresh(f'{one.name}_more')
    read = maker.operand if kind[0] == 's' else lambda *given: plain_bits(maker, *given)
    left, right = read(one, 1, bits), read(one, 2, bits)
    past = maker.body.marks.fresh('divide')
    whole = maker.body.made(one.name, '*', left, right)
    maker.body.assign(more, Plain(0))
    maker.body.emit(If(Binary('=', left, 0), past))
    factor = maker.body.names.fresh(one.name)
    if kind[0] == 'u':
        maker.needs.add('udiv')
        maker.body.emit(Call(factor, maker.names.units['udiv'], (whole, left)))
    else:
        maker.body.assign(factor, Binary('/', whole, left))
    maker.body.assign(more, Binary('!=', factor, right))
    if kind[0] == 's':
        maker.body.emit(If(Binary('!=', left, -1), past))
        maker.body.assign(more, Binary('=', right, LEAST))
    maker.body.mark(past)
    maker.body.narrow(name, Plain(whole), bits, False)
    if bits < 64:
        kept = name if kind[0] == 's' else maker.body.made(name, 'and', name, 2 ** bits - 1)
        differs = maker.body.made(name, '!=', whole, kept)
        maker.body.assign(more, Binary('or', more, differs))
    maker.pairs[one.name] = name, more
