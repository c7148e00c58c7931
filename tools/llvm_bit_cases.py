"""Texts of LLVM IR for tools/test with the operators of `llvm_bits.py`, of several widths, and what they print."""

WIDTHS = (1, 2, 3, 7, 8, 16, 31, 32, 33, 48, 63, 64)
INPUTS = ((0, 0), (1, 2), (-1, 1), (5, 63), (-2 ** 63, -1), (-1, -2 ** 63), (2 ** 32, 2 ** 31),
          (3037000500, 3037000500), (-3037000500, 3037000500), (0x0123456789ABCDEF, 12), (2 ** 62, 2), (2 ** 62, -2),
          (-7, 2 ** 61), (4294967296, 4294967296), (4294967295, 4294967297), (6700417, 2753074036095), (255, 8),
          (-128, 129))


def signed(number: int, bits: int) -> int:
    """A number as its type has it; of one bit 0 or 1."""
    return with_sign(number, bits) if bits > 1 else number % 2


def with_sign(number: int, bits: int) -> int:
    """A number with the sign of its highest bit; of one bit 0 or -1."""
    low = number % 2 ** bits
    return low - 2 ** bits if low >= 2 ** (bits - 1) else low


def turned(text: str, group: int) -> str:
    """The groups of a text from the other end."""
    return ''.join(text[at:at + group] for at in range(len(text) - group, -1, -group))


def overflowed(kind: str, a: int, b: int, bits: int) -> list[int]:
    """What an operator that tells of an overflow makes."""
    left, right = (with_sign(a, bits), with_sign(b, bits)) if kind[0] == 's' else (a, b)
    whole = {'add': left + right, 'sub': left - right, 'mul': left * right}[kind[1:4]]
    return [signed(whole, bits), int(whole != (with_sign(whole, bits) if kind[0] == 's' else whole % 2 ** bits))]


def saturated(kind: str, a: int, b: int, bits: int) -> int:
    """What an operator that stays at its bounds makes."""
    left, right = (with_sign(a, bits), with_sign(b, bits)) if kind[0] == 's' else (a, b)
    low, high = (-2 ** (bits - 1), 2 ** (bits - 1) - 1) if kind[0] == 's' else (0, 2 ** bits - 1)
    return signed(max(low, min(high, left + right if kind.endswith('add') else left - right)), bits)


# What each operator makes of two numbers without signs, by its name.
OPERATORS = {
    'bswap': lambda a, b, bits: int(turned(f'{a:0{bits}b}', 8), 2),
    'bitreverse': lambda a, b, bits: int(f'{a:0{bits}b}'[::-1], 2),
    'ctpop': lambda a, b, bits: f'{a:b}'.count('1'),
    'ctlz': lambda a, b, bits: bits - a.bit_length(),
    'cttz': lambda a, b, bits: (a & -a).bit_length() - 1 if a else bits,
    'fshl': lambda a, b, bits: int((f'{a:0{bits}b}{b:0{bits}b}'[b % bits:])[:bits], 2),
    'fshr': lambda a, b, bits: int((f'{a:0{bits}b}{b:0{bits}b}'[bits - b % bits:])[:bits], 2),
}
OVERFLOWS = ('smul', 'umul', 'sadd', 'uadd', 'ssub', 'usub')


def has(name: str, bits: int) -> bool:
    """Whether LLVM has an operator of this width."""
    return name != 'bswap' or bits % 16 == 0


def calls(name: str, bits: int, at: str) -> list[str]:
    """The lines that print what an operator makes."""
    more = {'ctlz': ', i1 false', 'cttz': ', i1 false', 'fshl': f', i{bits} %y, i{bits} %y',
            'fshr': f', i{bits} %y, i{bits} %y'}.get(name, '')
    lines = []
    if name in OVERFLOWS:
        pair = f'{{ i{bits}, i1 }}'
        lines.append(f'%{at} = call {pair} @llvm.{name}.with.overflow.i{bits}(i{bits} %x, i{bits} %y)')
        lines += [f'%{at}.0 = extractvalue {pair} %{at}, 0', f'%{at}.1 = extractvalue {pair} %{at}, 1']
        found = [(f'{at}.0', f'i{bits}'), (f'{at}.1', 'i1')]
        if 'mul' not in name:
            lines.append(f'%{at}.2 = call i{bits} @llvm.{name}.sat.i{bits}(i{bits} %x, i{bits} %y)')
            found.append((f'{at}.2', f'i{bits}'))
    else:
        lines.append(f'%{at} = call i{bits} @llvm.{name}.i{bits}(i{bits} %x{more})')
        found = [(at, f'i{bits}')]
    for value, of in found:
        wide = f'%{value}' if of == 'i64' else f'%{value}.w'
        if of != 'i64':
            lines.append(f'%{value}.w = {"zext" if of == "i1" else "sext"} {of} %{value} to i64')
        lines.append(f'call void @mir_print(i64 {wide})')
    return lines


def text_of(bits: int) -> str:
    """A function that prints what each operator makes of its inputs."""
    lines = [f'%{to} = {"add" if bits == 64 else "trunc"} i64 %{of}{", 0" if bits == 64 else f" to i{bits}"}'
             for to, of in (('x', 'a'), ('y', 'b'))]
    for at, name in enumerate(name for name in (*OPERATORS, *OVERFLOWS) if has(name, bits)):
        lines += calls(name, bits, f'v{at}')
    return 'declare void @mir_print(i64)\ndefine i64 @f(i64 %a, i64 %b) {\n' + '\n'.join(lines) + '\nret i64 0\n}\n'


def wanted(bits: int, a: int, b: int) -> list[int]:
    """The numbers that it should print, and its result."""
    a, b, found = a % 2 ** bits, b % 2 ** bits, []
    for name in (name for name in (*OPERATORS, *OVERFLOWS) if has(name, bits)):
        if name not in OVERFLOWS:
            found.append(signed(OPERATORS[name](a, b, bits), bits))
        else:
            found += overflowed(name, a, b, bits)
            found += [saturated(name, a, b, bits)] if 'mul' not in name else []
    return found + [0]


# Quotients, rests and shifts of single bits, by what comes of a 1: a divisor of 0 traps, as it does in the processor.
SINGLE = {'udiv': {1: 1}, 'sdiv': {1: 1}, 'urem': {1: 0}, 'srem': {1: 0},
          **dict.fromkeys(('shl', 'lshr', 'ashr'), {0: 1, 1: 1})}


def text_of_single(name: str) -> str:
    """A function that answers what an operator makes of the lowest bits of its inputs."""
    return (f'define i64 @f(i64 %a, i64 %b) {{\n%x = trunc i64 %a to i1\n%y = trunc i64 %b to i1\n%z = {name} i1 %x, %y\n'
            '%w = zext i1 %z to i64\nret i64 %w\n}\n')


def wanted_of_single(made: dict[int, int], a: int, b: int) -> list:
    """What comes of one bit by another: of a 1 as the table has it, and of a 0 a 0."""
    return [a & made[b]] if b in made else ['trap']


RUNS = {f'operators on {bits} bits': (text_of(bits), [([a, b], wanted(bits, a, b)) for a, b in INPUTS])
        for bits in WIDTHS}
RUNS.update({f'{name} on a single bit': (text_of_single(name), [([a, b], wanted_of_single(made, a, b))
                                                               for a in (0, 1) for b in (0, 1)])
             for name, made in SINGLE.items()})
