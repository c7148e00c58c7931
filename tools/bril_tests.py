"""Tests of from_bril and to_bril, by runs: those of programs in Bril, by `bril_run.py`, beside those of `mir`."""

import json
import re
import unittest
from typing import NamedTuple, Optional

import bril_cases
import bril_run
import bril_text
import mir_text
from tool_calls import TOP, fewer, module_of, ran, told, tool

EXAMPLES = sorted(TOP.glob('examples/bril/*.bril'))
DRAWN, STEPS = 300, 20_000
INPUTS = ((0, 0, 0), (7, -3, 1), (2 ** 62, 5, 0))
NUMBERS = (0, 1, 2, 7, -1, -7, 63, 64, -64, 1000, 2 ** 63 - 1, -2 ** 63, -2 ** 63 + 1, 2 ** 62)


class Report(NamedTuple):
    """The numbers that a run printed, and its result, or none where a divisor of 0 ended it."""

    printed: list[int]
    result: Optional[int]


def numbered(found: bril_run.Report) -> Optional[Report]:
    """The report of a run in Bril, with 0 and 1 for `bool`; none where it goes on."""
    if found.stopped == 'running':
        return None
    assert found.stopped in (None, 'a division by 0'), found.stopped
    result = None if found.stopped else int(found.result or 0)
    return Report([int(value) for values in found.printed for value in values], result)


class Bril(unittest.TestCase):
    """Programs in Bril that come in and go out."""

    MIR = str(TOP / 'mir')

    def setUp(self):
        """The tools as modules, and the commands that the program has for all passes."""
        self.mir_of, self.bril_of = module_of('from_bril').mir_of, module_of('to_bril').bril_of
        usage = ran([self.MIR]).stderr.decode()
        self.commands = [command for command in ('optimise', 'thorough') if re.search(rf'[ |]{command}\b', usage)]

    def report_of_mir(self, text: str, inputs: tuple[int, ...]) -> Optional[Report]:
        """The report of a run of MIR; None where it goes on."""
        said = ran([self.MIR, 'run', '1000000', *map(str, inputs)], text)
        lines = said.stdout.decode().splitlines()
        self.assertIn(said.returncode, (0, 3, 4), said.stderr)
        if said.returncode == 4:
            return None
        return Report(list(map(int, lines[:-2])), None if said.returncode else int(lines[-2].split()[1]))

    def report_of_bril(self, text: str, inputs: tuple[int, ...], steps: int) -> Optional[Report]:
        """The report of a run in Bril; where `main` takes a `bool` it is given one. None where it goes on."""
        functions = bril_text.program(text)
        main = next(function for function in functions if function.name == 'main')
        given = [bool(value) if of == 'bool' else value for value, (_, of) in zip(inputs, main.args)]
        return numbered(bril_run.Run(functions).report(given, steps))

    def report_of_made(self, text: str, inputs: tuple[int, ...], steps: int = 10 ** 6) -> Optional[Report]:
        """The report of a run of what `to_bril` made, which prints numbers."""
        found = bril_run.Run(bril_text.program(text)).report(list(inputs), steps)
        self.assertNotIn(bool, [type(value) for values in found.printed for value in values], text)
        return numbered(found)

    def optimised(self, text: str, command: str) -> str:
        """What a command makes of a text."""
        said = ran([self.MIR, command], text)
        self.assertEqual(said.returncode, 0, said.stderr)
        return said.stdout.decode('latin-1')

    def check(self, text: str, every: list[tuple[int, ...]], steps: int = STEPS) -> int:
        """A program in Bril, as MIR, optimised, there and back, and there again, does the same; how many runs ended."""
        plain, _ = self.mir_of(text)
        made = [plain, *(self.optimised(plain, command) for command in self.commands)]
        forms = {each: bril_text.program_json(self.bril_of(each)) for each in dict.fromkeys(made)}
        again = self.mir_of(bril_text.program_text(bril_text.program(forms[made[-1]])))[0]
        # the same text is run once
        texts, back = dict.fromkeys([*made, again]), dict.fromkeys(forms.values())
        ended = 0
        for inputs in (each[:mir_text.program(plain)[0].receives()] for each in every):
            wanted = self.report_of_bril(text, inputs, steps)
            for found in texts if wanted else ():
                self.assertEqual(self.report_of_mir(found, inputs), wanted, found)
            for found in back if wanted else ():
                self.assertEqual(self.report_of_made(found, inputs, steps * 30), wanted, found)
            ended += wanted is not None
        return ended

    def test_examples_run_alike(self):
        """Each example, as text and as JSON, with the inputs that it names."""
        self.assertGreaterEqual(len(EXAMPLES), 12)
        for path in EXAMPLES:
            with self.subTest(path.name):
                text = path.read_text()
                inputs = tuple(map(int, re.search('^# ARGS: (.*)$', text, re.MULTILINE)[1].split()))
                form = bril_text.program_json(bril_text.program(text))
                self.assertEqual(self.mir_of(form), self.mir_of(text))
                self.assertEqual(self.check(text, [inputs], 10 ** 6), 1)

    def test_drawn_programs_run_alike(self):
        """Drawn programs, every second one as JSON, with three inputs each; nearly all of the runs end."""
        ended, drawn = 0, fewer(range(DRAWN))
        for number in drawn:
            functions = bril_cases.Drawn(number).functions
            text = (bril_text.program_json if number % 2 else bril_text.program_text)(functions)
            with self.subTest(number):
                ended += self.check(text, INPUTS)
        self.assertGreater(ended, len(drawn) * 2)

    def test_operators(self):
        """Each operator of MIR does in Bril what it does in MIR."""
        made = bril_text.program_json(self.bril_of(bril_cases.OPERATORS))
        for inputs in fewer([(a, b) for a in NUMBERS for b in NUMBERS]):
            with self.subTest(inputs):
                self.assertEqual(self.report_of_made(made, inputs),
                                 self.report_of_mir(bril_cases.OPERATORS, inputs))

    def test_constants_that_no_run_sets(self):
        """A constant that stands where no run comes to is set again behind it."""
        for text in ('main: begin\ngoto L\nprint 5\nL: print 5\nprint 5\nend\n',
                     'main: begin\nif x goto M\nreturn 1\nprint 5\nM: print 5\nend\n',
                     'main: begin\nprint 5\nL: i <- i + 1\nif i < 5 goto L\nprint i\nprint 5\nend\n'):
            self.assertEqual(self.report_of_made(bril_text.program_text(self.bril_of(text)), ()),
                             self.report_of_mir(text, ()))

    def test_examples_of_mir_go_out(self):
        """Each example of MIR without globals and traps with a number does in Bril what it does in MIR."""
        count = 0
        for path in sorted(TOP.glob('examples/*.mir')):
            text = path.read_text(encoding='latin-1')
            if re.search(r'^global |\btrap \d', text, re.MULTILINE):
                continue
            inputs = (3, 2, 5, 1)[:mir_text.program(text)[0].receives()]
            with self.subTest(path.name):
                made = bril_text.program_text(self.bril_of(text))
                self.assertEqual(self.report_of_made(made, inputs), self.report_of_mir(text, inputs))
                count += 1
        self.assertGreater(count, 30)

    def test_names_stay(self):
        """Names and labels that both languages have stay, and others are new."""
        text = '@main(a: int) {\n.l.1:\n.L1:\n  end: int = id a;\n  print end;\n  jmp .done;\n.done:\n}\n@mod {\n}\n'
        made, notes = self.mir_of(text)
        self.assertEqual((made, notes), ('main: begin\nreceive a(val)\nl_1: L1: end_2 <- a\nprint end_2\ndone: end\n'
                                         'mod_2: begin\nend\n', []))
        wanted = ('@main(a: int) {\n.l_1:\n.L1:\n  end_2: int = id a;\n  print end_2;\n.done:\n  ret;\n}\n\n'
                  '@mod_2 {\n}\n')
        self.assertEqual(bril_text.program_text(self.bril_of(made)), wanted)

    def test_what_prints_otherwise_is_told(self):
        """Prints of several values and of a `bool` come through, and are told on standard error."""
        said = ran([tool('from_bril')], '@main(a: int, b: bool) {\n  print a b;\n  print a;\n}\n')
        self.assertEqual(said.stdout.decode().count('print'), 3)
        self.assertEqual(said.stderr.decode().splitlines(),
                         ['from_bril: in @main, instruction 1 (`print a b`): prints one value a line',
                          'from_bril: in @main, instruction 1 (`print a b`): prints a bool as 0 or 1'])

    def test_what_has_no_form_is_refused(self):
        """What has no form gets one line with its function and instruction, the status 1 and no output."""
        for name, cases in (('from_bril', {**bril_cases.REFUSED, **bril_cases.MALFORMED}),
                            ('to_bril', bril_cases.NO_BRIL), ('bril_run.py', bril_cases.NOT_RUN)):
            for text, line in cases.items():
                with self.subTest(line):
                    said = told(name, text=text)
                    found = (said.returncode, said.stdout, said.stderr.decode())
                    self.assertEqual(found, (1, b'', f'{name.removesuffix(".py")}: {line}\n'))

    def test_what_names_no_type_and_what_has_a_dot(self):
        """A constant without a type has that of its value, and a label of JSON with a dot stays another one."""
        said = ran([tool('bril_run.py')], '@main {\n  b = const true;\n  br b .l .m;\n.l:\n  print b;\n.m:\n}\n')
        self.assertEqual((said.returncode, said.stdout), (0, b'true\n'))
        text = bril_cases.json_of({'label': '.a'}, {'label': 'a'}, {'op': 'jmp', 'labels': ['.a']})
        self.assertEqual(self.mir_of(text), ('main: begin\nv_a: a: goto v_a\nend\n', []))

    def test_json_is_that_of_bril(self):
        """The JSON of a program has the keys that Bril's tools have, and the text the same program."""
        text = ('@main(n: int) {\n.l:\n  x: bool = const true;\n  br x .l .m;\n.m:\n  call @f n;\n}\n\n'
                '@f(n: int) {\n  ret;\n}\n')
        made = json.loads(bril_text.program_json(bril_text.program(text)))
        self.assertEqual(made['functions'][0], {
            'name': 'main', 'args': [{'name': 'n', 'type': 'int'}],
            'instrs': [{'label': 'l'}, {'op': 'const', 'dest': 'x', 'type': 'bool', 'value': True},
                       {'op': 'br', 'args': ['x'], 'labels': ['l', 'm']}, {'label': 'm'},
                       {'op': 'call', 'args': ['n'], 'funcs': ['f']}]})
        self.assertEqual(bril_text.program_text(bril_text.program(json.dumps(made))), text)
