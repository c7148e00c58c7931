"""Programs that a number draws, for tests: few names and few right sides, so that they repeat; tests and jumps both
ways, globals, calls, prints, divisions, trap instructions."""

import random

NAMES = ('a', 'b', 'c', 'g', 'x', 'y', 'z')
OPERANDS = ('a', 'b', 'c', 'g', '2')
OPERATORS = ('+', '-', '*')


class Drawer:
    """Draws a program from a number."""

    def __init__(self, number: int):
        self.draw = random.Random(number)
        sides = [f'{self.draw.choice(NAMES[:4])} {self.draw.choice(OPERATORS)} {self.draw.choice(OPERANDS)}'
                 for _ in range(3)]
        self.sides = [*sides, sides[0], f'{self.draw.choice(NAMES[:4])} / {self.draw.choice(OPERANDS)}']

    def instruction(self, units: list[str], labels: list[str]) -> str:
        """An instruction that may jump to one of these labels, or call one of these units."""
        into, operand, side = self.draw.choice(NAMES), self.draw.choice(OPERANDS), self.draw.choice(self.sides)
        kinds = ['assign'] * 9 + ['copy', 'constant', 'print', 'trap'] + ['test'] * 4 + ['goto'] + ['call'] * 2 * bool(units)
        return {
            'assign': lambda: f'{into} <- {side}',
            'copy': lambda: f'{into} <- {operand}',
            'constant': lambda: f'{into} <- {self.draw.randrange(4)}',
            'print': lambda: f'print {operand}',
            'trap': lambda: f'if {operand} = 9 trap 4',
            'test': lambda: f'if {operand} {self.draw.choice(("<", "="))} {self.draw.choice(NAMES[:4])} goto '
                            f'{self.draw.choice(labels)}',
            'goto': lambda: f'goto {self.draw.choice(labels)}',
            'call': lambda: f'{into} <- {self.draw.choice(units)},({operand},int)',
        }[self.draw.choice(kinds)]()

    def unit(self, name: str, units: list[str], received: list[str]) -> str:
        """A unit that may call these units."""
        count = self.draw.randrange(6, 26)
        labels = [f'L{at}' for at in range(count // 4 + 1)]
        places = {self.draw.randrange(count): label for label in labels}
        lines = [f'{name}: begin', *(f'receive {one}(val)' for one in received)]
        for at in range(count):
            head = f'{places[at]}: ' if at in places else ''
            lines.append(head + self.instruction(units, sorted(places.values())))
        return '\n'.join([*lines, f'return {self.draw.choice(NAMES)}', 'end\n'])

    def program(self) -> str:
        """A program of one to three units, of which each calls later ones alone."""
        names = ['main', 'one', 'two'][:self.draw.randrange(1, 4)]
        units = [self.unit(name, names[at + 1:], ['b'] if at else ['a', 'b', 'c']) for at, name in enumerate(names)]
        return 'global g\n' + ''.join(units)


def drawn_program(number: int) -> str:
    """The program that a number draws."""
    return Drawer(number).program()
