"""Reads of constant tables: an array of numbers that nothing changes, with an index that is computed, becomes a unit
that answers the number at an index. Where there is none, it traps."""

from typing import NamedTuple, Optional

from llvm_arrays import layout
from llvm_text import Address, Function, Global, Instruction, Local, Module, Value, Variable
from llvm_units import ILLEGAL, narrowed

# A table has at most so many numbers.
LARGEST = 1024


class Table(NamedTuple):
    """The numbers of a table, and how many bits each has."""

    bits: int
    numbers: list[int]


def table_of(module: Module, variable: Variable) -> Optional[Table]:
    """The table that a variable is, where it is one."""
    found = layout(module, variable.type) if variable.is_constant and variable.is_plain and variable.type else None
    if found is None or not 0 < (found.count or 0) <= LARGEST or found.parts[0].parts:
        return None
    bits = found.parts[0].bits
    numbers = variable.parts if variable.parts is not None else [0] * found.count
    if not isinstance(numbers, list) or len(numbers) != found.count:
        return None
    numbers = [0 if number is None else number for number in numbers]
    is_plain = all(type(number) is int for number in numbers)
    return Table(bits, [narrowed(number, bits) for number in numbers]) if is_plain else None


def tables(module: Module) -> dict[str, Table]:
    """All tables of a module, by their names."""
    found = {name: table_of(module, variable) for name, variable in module.variables.items()}
    return {name: table for name, table in found.items() if table is not None}


def named(value: Value) -> Optional[str]:
    """The global variable at whose first number an address is."""
    if isinstance(value, Global):
        return value.name
    if isinstance(value, Address) and value.steps is not None and not any(any(path) for _, path in value.steps):
        return value.name
    return None


def index_of(module: Module, every: dict[str, Table], one: Instruction) -> Optional[tuple[str, int]]:
    """The table of whose numbers an instruction makes an address, and the place of the index among its operands."""
    name = named(one.operands[0]) if one.kind == 'getelementptr' and one.operands else None
    if name not in every:
        return None
    is_whole = one.type == module.variables[name].type and one.operands[1:2] == [0]
    at = 2 if is_whole else 1 if one.type == f'i{every[name].bits}' else 0
    return (name, at) if at and len(one.operands) == at + 1 and isinstance(one.operands[at], Local) else None


def take(module: Module, functions: list[Function]) -> None:
    """Makes reads of tables of the loads of these functions that are such reads."""
    every = tables(module)
    for function in functions if every else ():
        instructions = [one for block in function.blocks for one in block.instructions]
        made = {one.name: (one, index_of(module, every, one)) for one in instructions if one.kind == 'getelementptr'}
        for one in instructions:
            address = one.operands[0] if one.kind == 'load' else None
            source, index = made.get(address.name, (None, None)) if isinstance(address, Local) else (None, None)
            if index is None or one.type != f'i{every[index[0]].bits}' or {'volatile', 'atomic'} & set(one.words):
                continue
            one.kind, one.words = 'element', [f'table {index[0]}']
            one.operands, one.types = [source.operands[index[1]]], [source.types[index[1]]]
        used = {value.name for one in instructions for value in one.operands if isinstance(value, Local)}
        gone = {name for name, (_, index) in made.items() if index is not None and name not in used}
        for block in function.blocks:
            block.instructions = [one for one in block.instructions if one.name not in gone]


def unit_text(table: Table, index: str) -> str:
    """The lines of the unit of a table, by halves: those of the lower one stand first."""
    def part(low: int, high: int) -> list[str]:
        """The lines for the indices from one up to before another."""
        if len(set(table.numbers[low:high])) == 1:
            return [f'return {table.numbers[low]}']
        middle = (low + high) // 2
        first, *rest = part(middle, high)
        return [f'if {index} >= {middle} goto from{middle}', *part(low, middle), f'from{middle}: {first}', *rest]

    count = len(table.numbers)
    head = [f'receive {index}(val)', f'if {index} < 0 trap {ILLEGAL}', f'if {index} >= {count} trap {ILLEGAL}']
    return '\n'.join([*head, *part(0, count)]) + '\n'
