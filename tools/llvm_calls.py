"""Makes the lines of calls: of units, of the few functions of the C library that have a form in MIR, and of what LLVM
has as calls and is an operator."""

import llvm_bits
from llvm_text import Address, Global, Instruction, width
from llvm_units import ABORTED, ILLEGAL, LEAST, bounds, narrowed
from mir_text import Binary, Call, If, Operand, Plain, Print, Return, Unary

SIGNED_FORMATS = (b'%d\n\0', b'%i\n\0', b'%ld\n\0', b'%li\n\0', b'%lld\n\0', b'%lli\n\0')
UNSIGNED_FORMATS = (b'%u\n\0', b'%lu\n\0', b'%llu\n\0')
NO_EFFECT = ('llvm.dbg.', 'llvm.lifetime.', 'llvm.assume', 'llvm.donothing', 'llvm.experimental.noalias.',
             'llvm.invariant.', 'llvm.var.annotation', 'llvm.sideeffect', 'llvm.prefetch')
PAIRS = {'sadd': '+', 'ssub': '-', 'smul': '*', 'uadd': '+', 'usub': '-', 'umul': '*'}


def is_without_effect(one: Instruction) -> bool:
    """Whether a call tells something to LLVM and does nothing."""
    callee = one.operands[0] if one.operands else None
    return isinstance(callee, Global) and callee.name.startswith(NO_EFFECT)


def call(maker, one: Instruction) -> None:
    """A call of a function of the module, of one that is known, or of one that LLVM has."""
    callee = one.operands[0]
    if is_without_effect(one):
        return
    if not isinstance(callee, Global):
        raise maker.refusal(one, 'a call of a computed function')
    function = maker.module.functions.get(callee.name)
    if function is not None and function.blocks:
        call_of_unit(maker, one, function)
    elif callee.name in LIBRARY:
        LIBRARY[callee.name](maker, one)
    elif callee.name.startswith('llvm.'):
        intrinsic(maker, one, callee.name.split('.'))
    else:
        raise maker.refusal(one, f'a call of a function that is not here (@{callee.name})')


def call_of_unit(maker, one: Instruction, function) -> None:
    """A call of a unit."""
    if [of for _, of in function.parameters] != one.types or function.type != one.type or function.is_variadic:
        raise maker.refusal(one, f'a call with other types than the function has (@{function.name})')
    operands = tuple(maker.operand(one, at, maker.bits(one, of)) for at, of in enumerate(one.types, 1))
    name = maker.result(one) if one.name in maker.uses else None
    maker.body.emit(Call(name, maker.names.units[function.name], operands))


# The C library.

def is_byte(maker, one: Instruction, at: int) -> bool:
    """Whether an argument is the number of a character."""
    low, high = maker.values.span(one.operands[at], width(one.types[at - 1]))
    return 0 <= low and high <= 255


def printed_byte(maker, one: Instruction, at: int) -> Operand:
    """Prints the number of a character, which is answered."""
    value = maker.operand(one, at, maker.bits(one, one.types[at - 1]))
    if isinstance(value, int):
        value &= 255
    elif not is_byte(maker, one, at):
        value = maker.body.made('byte', 'and', value, 255)
    maker.body.emit(Print(value))
    return value


def printf(maker, one: Instruction) -> None:
    """A `printf` of one integer and the end of the line, or of one character, whose result nobody reads."""
    name = one.operands[1].name if len(one.operands) > 1 and isinstance(one.operands[1], (Global, Address)) else ''
    text = maker.module.variables[name].text if name in maker.module.variables else None
    if text not in (*SIGNED_FORMATS, *UNSIGNED_FORMATS, b'%c\0') or len(one.operands) != 3:
        raise maker.refusal(one, 'a printf of anything but one integer and the end of the line')
    if one.name in maker.uses:
        raise maker.refusal(one, 'the result of a printf is used')
    bits = maker.bits(one, one.types[1])
    if bits != (64 if b'l' in text else 32):
        raise maker.refusal(one, 'a printf of another type than its text says')
    if text == b'%c\0':
        printed_byte(maker, one, 2)
    elif text in SIGNED_FORMATS or bits < 64:
        number = maker.operand(one, 2, bits) if text in SIGNED_FORMATS else maker.unsigned(one, 2, bits)
        maker.body.emit(Print(number))
    elif maker.values.span(one.operands[2], bits)[0] >= 0:
        maker.body.emit(Print(maker.operand(one, 2, bits)))
    else:
        raise maker.refusal(one, 'a print of 64 bits without a sign')


def putchar(maker, one: Instruction) -> None:
    """A `putchar`, which prints the number of the character."""
    value = printed_byte(maker, one, 1)
    if one.name in maker.uses:
        maker.body.assign(maker.result(one), Plain(value))


def mir_print(maker, one: Instruction) -> None:
    """A `mir_print`, which prints a number of 64 bits."""
    if one.types != ['i64']:
        raise maker.refusal(one, 'mir_print takes one integer of 64 bits')
    maker.body.emit(Print(maker.operand(one, 1, 64)))


def abort(maker, one: Instruction) -> None:
    """An `abort`, or an assertion that fails."""
    maker.body.trap(ABORTED)


def leave(maker, one: Instruction) -> None:
    """An `exit`: a return where nothing calls the entry, elsewhere a trap with the status."""
    status = maker.operand(one, 1, maker.bits(one, one.types[0]))
    if maker.ends_run:
        maker.body.emit(Return(status))
    elif isinstance(status, int):
        maker.body.trap(status & 255)
    else:
        maker.needs.add('exit')
        maker.body.emit(Call(None, maker.names.units['exit'], (status,)))


LIBRARY = {'printf': printf, 'putchar': putchar, 'mir_print': mir_print, 'abort': abort, '__assert_fail': abort,
           'exit': leave}


# What LLVM has as calls.

def intrinsic(maker, one: Instruction, parts: list[str]) -> None:
    """An operator that LLVM has as a call, by the parts of its name."""
    kind = parts[1]
    if kind in ('trap', 'ubsantrap', 'debugtrap'):
        maker.body.trap(ILLEGAL)
        return
    work = OPERATORS.get('.'.join(parts[1:-1])) or OPERATORS.get(kind)
    if work is None:
        raise maker.refusal(one, f'an operator of LLVM without a form in MIR (@{".".join(parts)})')
    work(maker, one, kind)


def least_or_greatest(maker, one: Instruction, kind: str) -> None:
    """The lesser or the greater number."""
    bits = maker.bits(one)
    left, right = maker.operand(one, 1, bits), maker.operand(one, 2, bits)
    if kind in ('smin', 'smax') and bits > 1:
        maker.body.assign(maker.result(one), Binary(kind[1:], left, right))
        return
    first, second = maker.without_signs(one, bits, (1, 2)) if bits > 1 else (left, right)
    is_less = (kind in ('umin', 'smax')) if bits == 1 else kind == 'umin'
    maker.choose(maker.result(one), Binary('<=' if is_less else '>=', first, second), left, lambda: Plain(right))


def absolute(maker, one: Instruction, kind: str) -> None:
    """The number without its sign; the least number stays what it is."""
    bits = maker.bits(one)
    value, name = maker.operand(one, 1, bits), maker.result(one)
    past = maker.body.marks.fresh('chosen')
    maker.body.assign(name, Plain(value))
    maker.body.emit(If(Binary('>=', value, 0), past))
    maker.body.narrow(name, Unary('-', value), bits, maker.values.span(one.operands[1], bits)[0] > bounds(bits)[0])
    maker.body.mark(past)


def saturated(maker, one: Instruction, kind: str) -> None:
    """A sum or a difference that stays at the bounds of its type."""
    bits = maker.bits(one)
    left, right = maker.operand(one, 1, bits), maker.operand(one, 2, bits)
    operator, name, past = '+' if kind.endswith('add') else '-', maker.result(one), maker.body.marks.fresh('chosen')
    if kind == 'usub' and bits > 1:
        first, second = maker.without_signs(one, bits, (1, 2))
        maker.body.assign(name, Plain(0))
        maker.body.emit(If(Binary('<=', first, second), past))
        maker.body.narrow(name, Binary('-', left, right), bits, False)
        maker.body.mark(past)
    elif bits == 1:
        # the sum of two ones, and the difference of 0 and 1, stay
        maker.body.assign(name, Binary('or' if operator == '+' else '>', left, right))
    elif kind == 'uadd' and bits == 63:
        # what has a bit too many is below 0 here, and then all bits are set
        whole = maker.body.made(name, '+', maker.unsigned(one, 1, bits), maker.unsigned(one, 2, bits))
        maker.body.narrow(name, Binary('or', whole, maker.body.made(name, 'shra', whole, 63)), bits, False)
    elif kind == 'uadd' and bits < 63:
        whole = maker.body.made(name, '+', maker.unsigned(one, 1, bits), maker.unsigned(one, 2, bits))
        maker.body.narrow(name, Plain(maker.body.made(name, 'min', whole, 2 ** bits - 1)), bits, False)
    elif kind[0] == 's' and bits < 64:
        whole = maker.body.made(name, operator, left, right)
        low, high = bounds(bits)
        maker.body.assign(name, Binary('min', maker.body.made(name, 'max', whole, low), high))
    else:
        whole, has_more = maker.body.made(name, operator, left, right), maker.body.names.fresh(name)
        overflow_of_64(maker, one, kind, whole, has_more)
        bound = -1 if kind == 'uadd' else maker.body.made(name, 'xor', maker.body.made(name, 'shra', whole, 63), LEAST)
        maker.body.assign(name, Plain(whole))
        maker.body.emit(If(Unary('!', has_more), past))
        maker.body.assign(name, Plain(bound))
        maker.body.mark(past)


def with_overflow(maker, one: Instruction, kind: str) -> None:
    """A sum, a difference or a product, and whether it has too many bits."""
    bits = maker.bits(one, one.types[0])
    if kind.endswith('mul') and bits > 32:
        llvm_bits.product(maker, one, kind, bits)
        return
    left, right = maker.operand(one, 1, bits), maker.operand(one, 2, bits)
    name, has_more = maker.body.names.fresh(one.name), maker.body.names.fresh(f'{one.name}_more')
    if bits == 1:
        maker.body.assign(name, Binary('and' if kind.endswith('mul') else 'xor', left, right))
        has_it = Plain(0) if kind == 'umul' else Binary('<' if kind.endswith('sub') else 'and', left, right)
        maker.body.assign(has_more, has_it)
    elif bits == 64:
        maker.body.assign(name, Binary(PAIRS[kind], left, right))
        overflow_of_64(maker, one, kind, name, has_more)
    else:
        if kind[0] == 'u':
            left, right = maker.unsigned(one, 1, bits), maker.unsigned(one, 2, bits)
        whole = maker.body.made(one.name, PAIRS[kind], left, right)
        maker.body.narrow(name, Plain(whole), bits, False)
        kept = name if kind[0] == 's' else maker.body.made(name, 'and', name, 2 ** bits - 1)
        maker.body.assign(has_more, Binary('!=', whole, kept))
    maker.pairs[one.name] = name, has_more


def overflow_of_64(maker, one: Instruction, kind: str, name: str, has_more: str) -> None:
    """Whether a sum or a difference of 64 bits has more."""
    left, right = maker.operand(one, 1, 64), maker.operand(one, 2, 64)
    if kind[0] == 's':
        first = maker.body.made(name, 'xor', left, name if kind == 'sadd' else right)
        second = maker.body.made(name, 'xor', right if kind == 'sadd' else left, name)
        maker.body.assign(has_more, Binary('<', maker.body.made(name, 'and', first, second), 0))
    else:
        first, second = (name, left) if kind == 'uadd' else (left, right)
        turned = [narrowed(each ^ LEAST, 64) if isinstance(each, int) else maker.body.made(name, 'xor', each, LEAST)
                  for each in (first, second)]
        maker.body.assign(has_more, Binary('<', *turned))


def expected(maker, one: Instruction, kind: str) -> None:
    """A number of which LLVM is told more, or whether it is a constant, which it is not."""
    bits = maker.bits(one)
    value = 0 if kind == 'is' else maker.operand(one, 1, bits)
    maker.body.assign(maker.result(one), Plain(value))


OPERATORS = {
    **dict.fromkeys(('smin', 'smax', 'umin', 'umax'), least_or_greatest), 'abs': absolute,
    **dict.fromkeys(('sadd.sat', 'ssub.sat', 'uadd.sat', 'usub.sat'), saturated),
    **dict.fromkeys([f'{kind}.with.overflow' for kind in PAIRS], with_overflow),
    **dict.fromkeys(('fshl', 'fshr'), llvm_bits.turned), **dict.fromkeys(('bswap', 'bitreverse'), llvm_bits.swapped),
    **dict.fromkeys(('ctpop', 'ctlz', 'cttz'), llvm_bits.counted), 'expect': expected, 'is.constant': expected,
}
