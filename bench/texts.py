"""The texts that `run.py` measures `mir` on: programs of a form that is known, of the sizes that are asked."""

import itertools
import random
import re
import string
from typing import Iterable, Iterator


def padding(length: int) -> str:
    """A comment line, or empty lines, of exactly so many bytes."""
    if length < 3:
        return '\n' * length
    return '||' + '.' * (length - 3) + '\n'


def filled(head: str, groups: Iterable[str], tail: str, length: int) -> str:
    """A unit of exactly `length` bytes: the head, as many of the groups as fit, a comment, and the tail."""
    room = length - len(head) - len(tail)
    parts = [head]
    for group in groups:
        if len(group) > room:
            break
        parts.append(group)
        room -= len(group)
    return ''.join(parts) + padding(room) + tail


def loops(callee: str) -> Iterator[str]:
    """Any number of loops: each has most kinds of instructions, a comment, two labels, two jumps and two calls."""
    for number in itertools.count():
        yield (
            f't{number}: if a >= b goto o{number} || leaves loop {number}\n'
            f'a <- a + {number}\n'
            f'x{number} <- a * b\n'
            f'y <- x{number} - -{number}\n'
            f'call {callee},(x{number},int;y,int)\n'
            f'y <- {callee},(a,int;-1,int)\n'
            f'print y\n'
            f'goto t{number}\n'
            f'o{number}:\n'
            f'z <- ! z\n\n'
        )


def many_units(length: int) -> str:
    """A program of exactly `length` bytes, a multiple of 4,096: each 4,096 bytes are a unit."""
    count = length // 4096
    units = []
    for number in range(count):
        callee = f'u{max(1, (number + 1) % count)}'
        receives = 'receive a(val)\nreceive b(val)\n' if number > 0 else ''
        head = f'u{number}: begin || unit number {number}\n{receives}'
        units.append(filled(head, loops(callee), 'return y\nend\n', 4096))
    return ''.join(units)


def new_names() -> Iterator[str]:
    """Different names of three bytes. No reserved word begins with a capital letter."""
    letters = string.ascii_letters + string.digits
    for name in itertools.product(string.ascii_uppercase, letters, letters):
        yield ''.join(name)


def lines_of_new_names() -> Iterator[str]:
    """Pairs of an assignment and a jump to it, whose labels and variables are new."""
    names = new_names()
    while True:
        here, x, a, b, there, c, d = itertools.islice(names, 7)
        yield f'{here}:{x}<-{a}+{b}\n{there}:if {c}<{d} goto {here}\n'


def many_names(length: int) -> str:
    """A program of exactly `length` bytes, a multiple of 16: 16 units, each full of names that are new in it."""
    return ''.join(
        filled(f'u{number}: begin\n', lines_of_new_names(), 'end\n', length // 16)
        for number in range(16)
    )


def loops_laid_out(unit: str, instructions: int) -> str:
    """A unit of so many instructions, an even number, that is its own layout: loops of a sum and a test."""
    lines = [f'{unit}: begin\n']
    for number in range(1, instructions // 2):
        lines.append(f'L{number}: x <- x + 1\nif x < 5 goto L{number}\n')
    lines.append('print x\nreturn x\nend\n')
    return ''.join(lines)


def gotos_in_a_chain(unit: str, instructions: int) -> str:
    """A unit of so many instructions: a chain of gotos, each of which goes to the one that stands before it, and a print."""
    lines = [f'{unit}: begin\ngoto c0\n']
    count = instructions - 2
    for number in reversed(range(count)):
        target = f'c{number + 1}' if number + 1 < count else 'out'
        lines.append(f'c{number}: goto {target}\n')
    lines.append('out: print 1\nend\n')
    return ''.join(lines)


def sums_in_a_line(unit: str, count: int) -> tuple[str, str]:
    """A unit of so many instructions: assignments to as many variables, each of which is one more than the one before, and
    a print of the last one; and what is left of it, the print of a constant."""
    names = [f'v{number}' for number in range(count - 1)]
    text = f'{names[0]} <- 1\n' + ''.join(f'{x} <- {y} + 1\n' for y, x in zip(names, names[1:]))
    return f'{unit}: begin\n{text}print {names[-1]}\nend\n', f'{unit}: begin\nprint {count - 1}\nreturn 0\nend\n'


def sums_of_one(unit: str, instructions: int) -> str:
    """A unit of so many instructions: different sums of the received variable, one after the other, of which the last is
    returned."""
    sums = ''.join(f'x <- a + {number}\n' for number in range(1, instructions - 1))
    return f'{unit}: begin\nreceive a(val)\n{sums}return x\nend\n'


def diamonds(unit: str, count: int) -> tuple[str, str]:
    """A unit of so many diamonds, one after the other, each of which evaluates a + b; and the unit with moved code, which
    evaluates it once, on the paths of which there are 2 to the power of the count."""
    head = f'{unit}: begin\nreceive a(val)\nreceive b(val)\n'
    text, moved = [head], [head]
    for number in range(1, count + 1):
        text.append(f'if a goto L{number}\nprint a\nL{number}: x <- a + b\nprint x\n')
        evaluation = f'L1: h1 <- a + b\nx <- h1' if number == 1 else f'L{number}: x <- h1'
        moved.append(f'if a goto L{number}\nprint a\n{evaluation}\nprint x\n')
    tail = 'return x\nend\n'
    return ''.join(text) + tail, ''.join(moved) + tail


def nested_loops(unit: str, instructions: int, depth: int) -> tuple[str, str]:
    """A unit of so many instructions: repeat-until loops within each other, full of different sums that do not change in
    them; and the unit with moved code, which evaluates all of these before the outermost loop."""
    head = f'{unit}: begin\nreceive a(val)\n'
    sums = instructions - 2 * depth - 2
    heads = {1 + inner * (sums // depth): f'L{inner + 1}: ' for inner in range(depth)}
    text, moved, before = [], [], []
    for number in range(1, sums + 1):
        label = heads.get(number, '')
        text.append(f'{label}x <- a + {number}\n')
        moved.append(f'{label}x <- h{number}\n')
        before.append(f'h{number} <- a + {number}\n')
    tail = ''.join(f'i <- i + 1\nif i < 5 goto L{number}\n' for number in range(depth, 0, -1)) + 'return x\nend\n'
    return head + ''.join(text) + tail, head + ''.join(before) + ''.join(moved) + tail


def joins_used_at_end(unit: str, count: int) -> str:
    """A unit of so many joins, one after the other, with a variable each that is assigned on one of the ways to it, and
    after the last one a sum of each of these variables. It is its own layout, and no sum moves."""
    lines = [f'{unit}: begin\nreceive a(val)\n']
    lines.extend(f'if a goto L{number}\nv{number} <- a\nL{number}: ' for number in range(1, count + 1))
    lines.extend(f'x <- v{number} + 1\n' for number in range(1, count + 1))
    return ''.join(lines) + 'return x\nend\n'


def joins_used_in_arms(unit: str, count: int) -> str:
    """A unit of so many joins, one after the other: the two arms before each evaluate the same sum, another one at each
    join. It is its own layout, and no sum moves."""
    lines, others = [f'{unit}: begin\nreceive a(val)\n'], []
    for number in range(1, count + 1):
        lines.append(f'if a goto L{count + number}\nx <- a + {number}\nL{number}: ')
        others.append(f'L{count + number}: x <- a + {number}\ngoto L{number}\n')
    return ''.join(lines) + 'return x\n' + ''.join(others) + 'end\n'


def tests_over_one(unit: str, count: int) -> str:
    """A unit of so many tests, each of which jumps over one sum. It is its own layout, and no sum moves."""
    lines = [f'{unit}: begin\nreceive a(val)\n']
    for number in range(1, count + 1):
        lines.append(f'if a goto L{number}\nx <- a + {number}\nL{number}: ')
    return ''.join(lines) + 'return x\nend\n'


def loops_in_a_row(unit: str, loops: int, sums: int) -> tuple[str, str]:
    """A unit of so many repeat-until loops, one after the other, each full of so many different sums that do not change
    in it; and the unit with moved code, which evaluates them before their loop."""
    text, moved = ([f'{unit}: begin\nreceive a(val)\n'] for _ in range(2))
    for loop in range(loops):
        numbers = range(loop * sums + 1, (loop + 1) * sums + 1)
        test = f'i <- i + 1\nif i < 5 goto L{loop + 1}\n'
        text.append(f'L{loop + 1}: ' + ''.join(f'x <- a + {number}\n' for number in numbers) + test)
        moved.extend(f'h{number} <- a + {number}\n' for number in numbers)
        moved.append(f'L{loop + 1}: ' + ''.join(f'x <- h{number}\n' for number in numbers) + test)
    return ''.join(text) + 'return x\nend\n', ''.join(moved) + 'return x\nend\n'


def doubling(unit: str, lines: int) -> str:
    """A unit of so many lines in which two variables with one value are squared in turn, so that their term doubles with
    each line."""
    head = f'{unit}: begin\nreceive x(val)\ny <- x\n'
    return head + 'x <- x * x\ny <- y * y\n' * (lines // 2) + 'return y\nend\n'


def twins(unit: str, instructions: int) -> str:
    """A unit of so many instructions without a jump, over 40 names: two received variables, and 19 pairs of variables
    that have one value, of which one pair after the other is multiplied."""
    lines = [f'x{number} <- p + {number}\ny{number} <- x{number}\n' for number in range(19)]
    pairs = (instructions - 2 - 38 - 1) // 2
    lines += [f'x{number % 19} <- x{number % 19} * q\ny{number % 19} <- y{number % 19} * q\n' for number in range(pairs)]
    return f'{unit}: begin\nreceive p(val)\nreceive q(val)\n' + ''.join(lines) + f'return y{(pairs - 1) % 19}\nend\n'


def joins_with_copies(unit: str, count: int) -> str:
    """A unit of so many joins, one after the other: both arms before each copy the received variable to a variable of
    the join, which the next test reads."""
    lines, others = [f'{unit}: begin\nreceive a(val)\n'], []
    for number in range(1, count + 1):
        test = f'v{number - 1}' if number > 1 else 'a'
        lines.append(f'if {test} goto L{count + number}\nv{number} <- a\nL{number}: ')
        others.append(f'L{count + number}: v{number} <- a\ngoto L{number}\n')
    return ''.join(lines) + f'return v{count}\n' + ''.join(others) + 'end\n'


def edges_into_one_join(unit: str, count: int) -> tuple[str, str]:
    """A unit of so many tests that all jump to one sum, which the last path to it has evaluated; and the unit with moved
    code, which evaluates it on each of the edges."""
    head = f'{unit}: begin\nreceive a(val)\nreceive b(val)\n'
    text = ''.join(f'if a < {number} goto L1\n' for number in range(count)) + 'x <- a + b\nL1: y <- a + b\nreturn y\n'
    tests = ''.join(f'if a < {number} goto L{number + 2}\n' for number in range(count))
    edges = ''.join(f'L{number + 2}: h1 <- a + b\ngoto L1\n' for number in range(count))
    moved = f'{tests}h1 <- a + b\nx <- h1\nL1: y <- h1\nreturn y\n{edges}'
    return f'{head}{text}end\n', f'{head}{moved}end\n'


LOOP = """\
main: begin
again: sum <- sum + i
i <- i + 1
last <- i
if i > 0 goto again
end
"""

# The same with its sum and its counter as globals.
LOOP_OF_GLOBALS = f'global sum\nglobal i\n{LOOP}'

# A loop of a call, whose unit adds what it is given to a variable of its own.
LOOP_OF_CALLS = """\
main: begin
again: x <- add,(i,int)
i <- i + 1
if i > 0 goto again
end
add: begin
receive n(val)
sum <- sum + n
return sum
end
"""

# The same where this variable is a global.
LOOP_OF_CALLS_GLOBAL = f'global sum\n{LOOP_OF_CALLS}'


def dense(unit: str, instructions: int) -> str:
    """A unit of so many instructions over 92 names: loops up to six deep, of which each runs twice, and tests that jump
    over a few instructions, full of operators on two names; one instruction in twenty is a print."""
    draw = random.Random(92)
    names, lines, labels = [f'v{number}' for number in range(84)] + ['p', 'q'], [], itertools.count(1)
    pending = ''

    def put(line: str) -> None:
        """One more instruction, behind the labels that stand at its place."""
        nonlocal pending
        lines.append(f'{pending}{line}\n')
        pending = ''

    def fill(room: int, depth: int) -> None:
        """So many instructions at this depth."""
        nonlocal pending
        while room > 0:
            kind = draw.random()
            if kind < 0.04 and depth < 6 and room >= 12:
                inner, label = draw.randint(8, room - 3), next(labels)
                put(f'i{depth} <- 0')
                pending += f'L{label}: '
                fill(inner, depth + 1)
                put(f'i{depth} <- i{depth} + 1')
                put(f'if i{depth} < 2 goto L{label}')
                room -= inner + 3
            elif kind < 0.12 and room >= 8:
                inner, label = draw.randint(1, 6), next(labels)
                put(f'if {draw.choice(names)} < {draw.choice(names)} goto L{label}')
                fill(inner, 6)
                pending += f'L{label}: '
                room -= inner + 1
            elif kind < 0.17:
                put(f'print {draw.choice(names)}')
                room -= 1
            else:
                operator = draw.choice(('+', '-', '*', 'and', 'or', 'xor'))
                put(f'{draw.choice(names[:84])} <- {draw.choice(names)} {operator} {draw.choice(names)}')
                room -= 1

    fill(instructions - 3, 0)
    put('return v0')
    return f'{unit}: begin\nreceive p(val)\nreceive q(val)\n' + ''.join(lines) + 'end\n'


def straight(unit: str, instructions: int) -> str:
    """A unit of so many instructions over 40 names without a jump: operators on two names, copies, constants, prints."""
    draw = random.Random(40)
    names, lines = [f'v{number}' for number in range(38)] + ['p', 'q'], []
    for _ in range(instructions - 3):
        kind = draw.random()
        if kind < 0.05:
            lines.append(f'print {draw.choice(names)}\n')
        elif kind < 0.2:
            lines.append(f'{draw.choice(names[:38])} <- {draw.choice(names)}\n')
        elif kind < 0.3:
            lines.append(f'{draw.choice(names[:38])} <- {draw.randint(-9, 9)}\n')
        else:
            operator = draw.choice(('+', '-', '*'))
            lines.append(f'{draw.choice(names[:38])} <- {draw.choice(names)} {operator} {draw.choice(names)}\n')
    return f'{unit}: begin\nreceive p(val)\nreceive q(val)\n' + ''.join(lines) + 'return v0\nend\n'


def with_divisions(text: str) -> str:
    """The text with a division in place of each sum of another variable than the one that is assigned: of the second
    operand by the first, so that it traps where this is 0."""
    return re.sub(r'\b(\w+) <- (?!\1 )(\w+) \+ (\w+)$', r'\1 <- \3 / \2', text, flags=re.MULTILINE)


def self_tail_calls(instructions: int, calls: int) -> tuple[str, str]:
    """A unit of so many instructions and as many calls of itself, of 16 arguments, whose results are returned: the first
    argument says which call is next, the others go round; and the unit in which the calls are jumps."""
    turned = (0, *range(2, 16), 1)
    copies = (instructions - 17) // calls - 4
    into = [f'h{number + 1} <- a{at}' for number, at in enumerate(turned)]
    into += [f'a{number} <- h{number + 1}' for number in range(16)] + ['r <- 0', 'goto L1']
    arguments = ';'.join(f'a{at},int' for at in turned)
    text, looped = [], []
    for number in range(calls):
        lines = [f'L{number + 1}: if a0 != {number} goto L{number + 2}']
        lines += [f'a{1 + at % 15} <- a{1 + (at + number) % 15}' for at in range(copies)] + [f'a0 <- {number + 1}']
        text += [*lines, f'r <- main,({arguments})', 'return r']
        looped += [*lines, *into]
    rest = [f'a1 <- a{2 + at % 14}' for at in range(instructions - 17 - calls * (copies + 4))] + ['return a1', 'end']
    head = ['main: begin', *(f'receive a{number}(val)' for number in range(16))]
    rest[0] = f'L{calls + 1}: {rest[0]}'
    return tuple('\n'.join(head + lines + rest) + '\n' for lines in (text, looped))


def small_leaves(leaves: int, calls: int) -> tuple[str, str]:
    """A unit that calls as many others in turn, so many times in all; each of these has eight instructions. And the
    program in which the calls are what they call, over copies of its variables."""
    head = 'main: begin\nreceive x(val)\nreceive y(val)\n'
    rest = 'return x\nend\n' + ''.join(
        f'f{number}: begin\nreceive a(val)\nreceive b(val)\nc <- a + {number}\nc <- c * b\nif c < 0 goto L1\n'
        f'c <- c - a\nprint c\nL1: return c\nend\n' for number in range(leaves))
    text, joined = [], []
    for number in range(calls):
        leaf, label = number % leaves, f'L{number + 1}'
        a, b, c = (f'h{3 * leaf + at}' for at in (1, 2, 3))
        text.append(f'x <- f{leaf},(x,int;y,int)\n')
        joined.append(f'{a} <- x\n{b} <- y\n{c} <- 0\n{c} <- {a} + {leaf}\n{c} <- {c} * {b}\nif {c} < 0 goto {label}\n'
                      f'{c} <- {c} - {a}\nprint {c}\n{label}: x <- {c}\n')
    return head + ''.join(text) + rest, head + ''.join(joined) + rest


def reversed_copies(unit: str, count: int) -> str:
    """A unit of a loop that copies so many variables, each to the next, from the last on, and jumps over a print before
    each copy; and prints of all of them. What one turn of the loop finds out of a variable the next finds out of the one
    after it."""
    body = ''.join(f'if a > {number} goto K{number}\nprint i\nK{number}: v{number} <- v{number - 1}\n'
                   for number in range(count, 0, -1))
    prints = ''.join(f'print v{number}\n' for number in range(count + 1))
    return f'{unit}: begin\nreceive a(val)\nreceive v0(val)\ntop: i <- i + 1\n{body}if i < a goto top\n{prints}end\n'


def nests_tested_first(unit: str, depth: int) -> str:
    """A unit of so many loops within each other, each of which is tested before its body and has one product of its own.
    Their counters are not set back, so that a run ends."""
    heads = ''.join(f'L{number}: if i{number} > a goto E{number}\nx{number} <- b * {number}\ni{number} <- i{number} + 1\n'
                    for number in range(depth))
    ends = ''.join(f'goto L{number}\nE{number}: ' for number in range(depth - 1, -1, -1))
    return f'{unit}: begin\nreceive a(val)\nreceive b(val)\n{heads}{ends}return x0\nend\n'


def nests_tested_last(unit: str, depth: int) -> str:
    """The same with loops that are tested after their bodies."""
    heads = ''.join(f'L{number}: x{number} <- b * {number}\n' for number in range(depth))
    ends = ''.join(f'i{number} <- i{number} + 1\nif i{number} < a goto L{number}\n' for number in range(depth - 1, -1, -1))
    return f'{unit}: begin\nreceive a(val)\nreceive b(val)\n{heads}{ends}return x0\nend\n'


def joins_with_prints(unit: str, count: int) -> str:
    """A unit of so many joins in a row, each with a variable of its own that is assigned on one way to it, and printed."""
    joins = ''.join(f'if a > {number} goto L{number}\nv{number} <- a\nL{number}: print v{number}\n' for number in range(count))
    return f'{unit}: begin\nreceive a(val)\n{joins}end\n'


def sums_used_at_exits(unit: str, count: int) -> str:
    """A unit of so many sums, each of the variable before it, from the last on, and so many exits to one place where all
    are printed. What is not used before an exit is computed on the way to it, so what is written grows with the square."""
    sums = ''.join(f'v{number} <- v{number - 1} + 1\n' for number in range(count, 0, -1))
    exits = ''.join(f'if a > {number} goto out\nprint v{number}\n' for number in range(1, count + 1))
    prints = ''.join(f'print v{number}\n' for number in range(1, count + 1))
    return f'{unit}: begin\nreceive a(val)\n{sums}{exits}out: print a\n{prints}end\n'


def tail_calls_over_names(unit: str, names: int, calls: int) -> str:
    """A unit of so many variables and so many calls of itself, whose results are returned."""
    sums = ''.join(f'v{number} <- a + {number}\n' for number in range(names))
    tests = ''.join(f'if a > {number} goto K{number}\na <- a + 1\nr <- {unit},(a,int)\nreturn r\nK{number}: '
                    for number in range(calls))
    return f'{unit}: begin\nreceive a(val)\n{sums}{tests}print v{names - 1}\nend\n'
