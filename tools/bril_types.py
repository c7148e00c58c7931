"""Which variables of a program can be of Bril's type `bool`, and which have to be numbers.

A variable is a `bool` where it only gets what comparisons and nots make, 0, 1, and other such variables, and where it
is only tested, negated, joined by `and`, `or` and `xor`, and handed on to such variables. Parameters and results of
units count as variables. Inputs, the result of the first unit and what is printed are numbers.
"""

from typing import Iterable, Optional

from mir_text import (RELATIONS, Assign, Binary, Call, If, Instruction, Operand, Plain, Print, Receive, Return, TrapIf,
                      Unary, Unit, operands_of)

Place = tuple[str, Optional[str]]
LOGIC = ('and', 'or', 'xor')


class Types:
    """The types of all variables: a place is a unit with a variable, or without one for its result."""

    def __init__(self, units: list[Unit]):
        self.above: dict[Place, Place] = {}
        self.numbers: set[Place] = set()
        self.truths: set[Place] = set()
        self.receives = {unit.name: [one.name for one in unit.instructions if isinstance(one, Receive)]
                         for unit in units}
        first = units[0].name
        self.numbers |= {(first, None), *((first, name) for name in self.receives[first])}
        for unit in units:
            for one in unit.instructions:
                self.look(unit.name, one)
        self.numbers = set(map(self.root, self.numbers))
        self.truths = set(map(self.root, self.truths))

    def root(self, place: Place) -> Place:
        """The place that stands for all that have the type of this one."""
        while place in self.above:
            self.above[place] = self.above.get(self.above[place], self.above[place])
            place = self.above[place]
        return place

    def is_bool(self, unit: str, name: Optional[str]) -> bool:
        """Whether a variable, or the result of a unit, is a `bool`."""
        root = self.root((unit, name))
        return root in self.truths and root not in self.numbers

    def same(self, unit: str, operands: Iterable[Operand], *others: Place) -> None:
        """Notes that variables have one type; a constant beside them that is neither 0 nor 1 makes them numbers."""
        operands = list(operands)
        places = [*others, *((unit, each) for each in operands if isinstance(each, str))]
        for one, other in zip(places, places[1:]):
            if self.root(one) != self.root(other):
                self.above[self.root(one)] = self.root(other)
        if any(isinstance(each, int) and each not in (0, 1) for each in operands):
            self.numbers.update(places)

    def counts(self, unit: str, operands: Iterable[Operand]) -> None:
        """Notes that variables are numbers."""
        self.numbers.update((unit, each) for each in operands if isinstance(each, str))

    def look(self, unit: str, one: Instruction) -> None:
        """Notes what an instruction tells of its variables."""
        if isinstance(one, Assign):
            self.look_at_value(unit, (unit, one.name), one)
        elif isinstance(one, Call):
            for name, argument in zip(self.receives[one.unit], one.arguments):
                self.same(unit, [argument], (one.unit, name))
            if one.name is not None:
                self.same(unit, [one.name], (one.unit, None))
        elif isinstance(one, (If, TrapIf)):
            if isinstance(one.test, Binary):
                self.counts(unit, operands_of(one.test))
            elif isinstance(one.test.value, str):
                self.truths.add((unit, one.test.value))
        elif isinstance(one, Print):
            self.counts(unit, [one.value])
        elif isinstance(one, Return):
            self.same(unit, [one.value], (unit, None))

    def look_at_value(self, unit: str, place: Place, one: Assign) -> None:
        """Notes what an assignment tells."""
        value, operands = one.value, operands_of(one.value)
        if isinstance(value, Plain):
            self.same(unit, operands, place)
        elif isinstance(value, Unary) and value.operator == '!':
            self.truths.update([place, *((unit, each) for each in operands if isinstance(each, str))])
        elif isinstance(value, Binary) and value.operator in LOGIC:
            self.same(unit, operands, place)
            self.truths.add(place)
        else:
            self.counts(unit, operands)
            if is_relation(value):
                self.truths.add(place)
            else:
                self.numbers.add(place)


def is_relation(value: object) -> bool:
    """Whether a right side is a comparison."""
    return isinstance(value, Binary) and value.operator in RELATIONS
