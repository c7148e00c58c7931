"""Of which kinds the operators are that a run evaluates."""

import collections
from typing import Callable

import interpret
import mir_text

# What is not named here, nor a negation, is a comparison, or the lesser or greater of two.
KINDS = {'+': 'sums', '-': 'sums', '*': 'products', '/': 'divisions', 'mod': 'divisions', 'and': 'bits', 'or': 'bits',
         'xor': 'bits', 'shl': 'shifts', 'shr': 'shifts', 'shra': 'shifts'}
# The masks of unsigned numbers of 8, 16 and 32 bits.
MASKS = (2 ** 8 - 1, 2 ** 16 - 1, 2 ** 32 - 1)


def kind_of(one: mir_text.Assign, back: set[tuple]) -> str:
    """The kind of an operator, where these variables are shifted to the right by these numbers: both shifts of an extension
    of a sign are of one."""
    value = one.value
    if isinstance(value, mir_text.Unary) or value.operator not in KINDS:
        return 'sums' if value.operator == '-' else 'comparisons'
    if value.operator == 'and' and value.right in MASKS:
        return 'masks'
    is_back = value.operator == 'shra' and value.right in (32, 48, 56)
    return 'extensions' if is_back or value.operator == 'shl' and (one.name, value.right) in back else KINDS[value.operator]


def kinds_of(text: str, inputs: tuple[str, ...], steps: int) -> collections.Counter:
    """How many operators of each kind a run of at most so many steps evaluates."""
    machine, counts = interpret.Machine(text), collections.Counter()
    parser = mir_text.Parser(list(mir_text.tokens(text)))
    parser.globals()

    def counting(function: Callable[..., int], kind: str) -> Callable[..., int]:
        """The function of an operator, which counts itself."""
        def counted(*values: int) -> int:
            counts[kind] += 1
            return function(*values)
        return counted

    for code, unit in zip(machine.code, parser.units()):
        computed = [(at, one) for at, one in enumerate(unit.instructions)
                    if isinstance(one, mir_text.Assign) and not isinstance(one.value, mir_text.Plain)]
        back = {(one.value.left, one.value.right) for _, one in computed if one.value.operator == 'shra'}
        for at, one in computed:
            what, function, *rest = code.steps[at]
            code.steps[at] = (what, counting(function, kind_of(one, back)), *rest)
    machine.run([int(word) for word in inputs], steps)
    return counts
