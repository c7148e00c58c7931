"""Tests of what the tools read and write as text, of docs/check on pages that are right and wrong, of code that is merged,
and of compiled programs beside `mir run`."""

import contextlib
import importlib.machinery
import importlib.util
import io
import itertools
import random
import re
import shutil
import tempfile
import unittest
import unittest.mock
from pathlib import Path

import kit_code
import mir_text
from tool_calls import BAD, EXAMPLES, GIVEN, ODD, TOP, fewer, module_of, ran, stages_of, told, tool

INPUTS = (-2 ** 63, -3, 0, 1, 2, 7)
STEPS = '100000'


class Reading(unittest.TestCase):
    """The parser of the tools."""

    def test_examples_are_read(self):
        """Each example is read, and so is what the optimiser makes of it, word by word."""
        for path in EXAMPLES:
            with self.subTest(path.name):
                text = mir_text.read_input(str(path))
                self.assertTrue(mir_text.program(text))
                made = ran([GIVEN.mir, 'optimise'], text).stdout.decode('latin-1')
                lines = [line for line in made.splitlines()
                         if not line.endswith(('begin', 'end')) and not line.startswith('global ')]
                read = [mir_text.instruction_text(one) for unit in mir_text.program(made) for one in unit.instructions]
                self.assertEqual([line.split(': ', 1)[-1] for line in lines], read)

    def test_examples_say_what_to_look_for(self):
        """Each example begins with a comment, and has beside it what becomes of it."""
        for path in EXAMPLES:
            with self.subTest(path.name):
                self.assertTrue(path.read_text().startswith('|| '))
                shown = path.with_suffix('.txt').read_text()
                self.assertIn(f'$ ./mir optimise < examples/{path.name}\n', shown)
                self.assertIn('$ ./mir run ', shown)

    def test_stages_are_read(self):
        """The stages of each example are read, from the source to the result."""
        for path in EXAMPLES:
            with self.subTest(path.name):
                found = mir_text.stages(stages_of(mir_text.read_input(str(path))))
                self.assertEqual((found[0].name, found[-1].name), ('source', 'result'))

    def test_faults_are_those_of_mir(self):
        """A text that is no program gets the line that `mir` has for it, on the standard error, and the status 1."""
        for text, line in BAD.items():
            for name in ('graph', 'to_llvm'):
                with self.subTest(text=text, tool=name):
                    said = told(name, text=text)
                    self.assertEqual((said.returncode, said.stderr.decode()), (1, f'{name}: {line}\n'))
            self.assertEqual(ran([GIVEN.mir, 'optimise'], text).stderr.decode(), f'{line}\n')
        for name in ('graph', 'to_llvm'):
            said = ran([tool(name)], 'print 1')
            self.assertEqual((said.returncode, said.stderr.decode()), (1, f'{name}: {BAD["print 1"]}\n'))

    def test_pages_are_made_of_stages_alone(self):
        """A program in the place of stages, and nothing at all, are refused in one line."""
        for text in ('', ODD, 'main: begin\nend\n', '|| source\n?\n', '|| source\nmain: begin\nend\n'):
            said = told('show', text=text)
            self.assertEqual((said.returncode, said.stdout, said.stderr.count(b'\n')), (1, b'', 1))


class Code(unittest.TestCase):
    """Code that is merged before it is compiled."""

    def code(self, *functions: tuple[str, str]) -> bytes:
        """Code with functions of these names that have these lines, and with two constants of one value."""
        return ('head\n@static.1 = private unnamed_addr constant i8 7\n@static.2 = private unnamed_addr constant i8 7\n'
                + ''.join(f'\n; A\ndefine {"" if name == "f" else "internal "}void @"{name}"() {{\n{lines}}}\n'
                          for name, lines in functions) + '\ndeclare void @no()\n').encode()

    def names(self, code: bytes) -> list[str]:
        """The functions of code."""
        return re.findall(r'(?m)^define .*@"(.*?)"', code.decode())

    def test_equal_functions_are_one(self):
        """Of functions with the same body, also by those that they call, one stays; what nothing calls goes."""
        made = kit_code.merged(self.code(
            ('f', 'call @"a"\ncall @"b"\ncall @"other"\n'), ('a', 'call @"site 1"\nload @static.1\n'),
            ('b', 'call @"site 2"\nload @static.2\n'), ('site 1', 'trap\n'), ('site 2', 'trap\n'),
            ('other', 'call @"site 2"\nload 7\n'), ('unused', 'call @"f"\n')), ['"f"'])
        self.assertEqual(len(self.names(made)), 4)
        calls = re.findall(r'call @"(.*?)"', made.decode().partition('@"f"()')[2])
        self.assertEqual((calls[0], calls[2]), (calls[1], 'other'))
        self.assertIn(b'declare void @no()', made)

    def test_circles_stay_whole(self):
        """Each name that is called has a function, also where functions call one another in a circle."""
        circle = [(f'{name} {at}', f'call @"{called} {at}"\n') for at in (1, 2) for name, called in (('up', 'down'), ('down', 'up'))]
        alone = [(f'alone {at}', f'call @"alone {at}"\n') for at in (1, 2)]
        made = kit_code.merged(self.code(('f', ''.join(f'call @"{name}"\n' for name, _ in circle + alone)), *circle, *alone), ['"f"'])
        self.assertEqual(set(re.findall(r'call @"(.*?)"', made.decode())) | {'f'}, set(self.names(made)))
        body = made.decode().partition('@"f"()')[2].partition('}')[0]
        self.assertEqual(len(set(re.findall(r'call @"alone \d"', body))), 1)


class Pages(unittest.TestCase):
    """What docs/check says of a page."""

    def setUp(self):
        """The module of docs/check, which is a program and no file `.py`."""
        loader = importlib.machinery.SourceFileLoader('docs_check', str(TOP / 'docs/check'))
        self.check = importlib.util.module_from_spec(importlib.util.spec_from_loader(loader.name, loader))
        loader.exec_module(self.check)
        self.check.PROGRAMS['MIR_PROGRAM'] = '' if GIVEN.mir == str(TOP / 'mir') else str(Path(GIVEN.mir).resolve())

    def judged(self, *lines: str, write: bool = False) -> tuple[list[bool], str, str]:
        """Which commands of a page are right, what is said of them, and the page as it stands afterwards."""
        with tempfile.TemporaryDirectory() as folder, contextlib.redirect_stdout(io.StringIO()) as said:
            page = Path(folder) / 'page.md'
            page.write_text('\n'.join(lines), encoding='utf-8')
            if write:
                self.check.rewrite(page)
            return list(self.check.judged(page)), said.getvalue(), page.read_text(encoding='utf-8')

    def test_outputs_are_compared(self):
        """A command that writes what is shown is right, another is not, and `--write` puts what it writes."""
        page = ('```text', '$ echo one  $ echo three', 'one         two', '```')
        found, said, _ = self.judged(*page)
        self.assertEqual(found, [True, False])
        self.assertIn(':2: echo three\n', said)
        self.assertEqual(self.judged(*page, write=True)[0], [True, True])

    def test_refusals_are_compared(self):
        """A text with a message in a comment is one that `mir` refuses with it."""
        for line, is_right in (('goto L', True), ('print 1', False)):
            page = ('```text', 'main: begin', f'{line} || line 2: no such label', 'end', '```')
            self.assertEqual(self.judged(*page)[0], [is_right])

    def test_commands_of_the_kit_are_skipped_without_it(self):
        """Where there is no `rt` its commands are neither run nor rewritten, and this is said."""
        page = ('```text', '$ (cd crates && rt try)', 'shown', '```')
        with unittest.mock.patch.object(shutil, 'which', return_value=None):
            found, said, text = self.judged(*page, write=True)
        self.assertEqual((found, text), ([], '\n'.join(page)))
        self.assertIn(':2: there is no rt\n', said)

    def test_commands_are_run_or_left_out(self):
        """Of commands that are not run, those that the head of docs/check names pass, and any other is reported."""
        self.assertEqual(self.judged('```sh', 'rt ci   # all; and more', 'docs/check', '```')[0], [])
        strays = {
            'sh': ('./mir run 1', './mir_tables < x', './mir stages < x', 'rt cinema', 'tools/test_page',
                   'rt ci; ./mir run 1'),
            'text': ('./mir run 1', '  ./mir run 1', '(cd crates && rt try)', 'cat x | ./mir optimise', 'bench/run.py'),
            '': ('cd crates',),
        }
        for mark, line in ((mark, line) for mark, lines in strays.items() for line in lines):
            found, said, _ = self.judged(f'```{mark}', line, '```')
            self.assertEqual(found, [False], line)
            self.assertIn(':2: a command that is neither run nor left out', said)
        self.assertEqual(self.judged('```text', 'rt: a line of output', 'x <- rt', '```')[0], [])
        for words in self.check.NOT_RUN + self.check.OF_TOOLS:
            self.assertIn(words, self.check.__doc__)

    def test_words_are_looked_up_where_they_are_said_to_stand(self):
        """A word is looked up in the crate or the file that is named beside it, and a file in its crate."""
        page = TOP / 'docs/page.md'
        for text, is_right in (('`narrow` of\n`wanted_bits`', True), ('`narrow` and `jump_past` of `wanted_bits`', False),
                               ('`after_call` of `cond_flow/specs/Passing.antt`', True), ('`after_call` of `Wanted.antt`', False),
                               ('`IsNarrowed` (`specs/Narrowed.antt`)', True), ('`IsNarrowed`, `specs/Shifts.antt`', False),
                               ('`narrow` (`specs/Shifts.antt`)', True), ('`narrowing.rt` of `wanted_bits`', True),
                               ('`narrowing.rt` of `copy_flow`', False), ('clause `most` of `narrow_in`', True),
                               ('clause `narrow_in` of `rows_of_narrowing`', False)):
            self.assertEqual(not list(self.check.references.misplaced(page, text)), is_right, text)

    def test_pages_list_what_they_should(self):
        """A page with a row for each crate is asked for each, and the table of what has to be read for just its files."""
        named = self.check.references
        for name, row in named.ROWS.items():
            text = (TOP / name).read_text(encoding='utf-8')
            self.assertEqual(list(named.unlisted(TOP / name, text)), [])
            self.assertEqual(list(named.unlisted(TOP / name, text.replace(row.format('key_rows'), ''))),
                             ['has no row for the crate key_rows'])
        text = (TOP / 'docs/PROOFS.md').read_text(encoding='utf-8')
        for files, said in (('`Units`, `Runs`', []), ('`Units`', ['does not list Runs of mir_base, which has to be read']),
                            ('`Units`, `RunLaws`, `Runs`', ['lists RunLaws of mir_base, which does not have to be read'])):
            self.assertEqual(list(named.unread(TOP / 'docs/PROOFS.md', text.replace('`Units`, `Runs`', files))), said)

    def test_named_tests_are_looked_up(self):
        """Of each remark that a page names there is one in the file that it names, and none of another."""
        text = '*Test*: `row_examples.rt`, "the diamond" and\n"no such remark".'
        found = list(self.check.named_tests('docs/PASSES.md', text))
        with contextlib.redirect_stdout(io.StringIO()):
            self.assertEqual([self.check.is_right(shown) for shown in found], [True, False])


@unittest.skipUnless(shutil.which('clang'), 'clang is not here')
class Compiling(unittest.TestCase):
    """Compiled programs beside `mir run`."""

    def check(self, text: str, program: str, words: list[str]) -> None:
        """A compiled program writes what `mir run` writes but for the evaluations, with the same status."""
        wanted = ran([GIVEN.mir, 'run', STEPS, *words], text)
        if wanted.returncode not in (0, 3):
            return
        said = ran([program, *words])
        report = [line for line in wanted.stdout.decode().splitlines() if not line.startswith('evals ')]
        self.assertEqual((said.returncode, said.stdout.decode().splitlines()), (wanted.returncode, report), words)

    def test_examples_run_alike(self):
        """Each example, and what the optimiser makes of it, for a few inputs."""
        draw = random.Random(7)
        with tempfile.TemporaryDirectory() as folder:
            for path in fewer(EXAMPLES):
                source = mir_text.read_input(str(path))
                texts = (source, ran([GIVEN.mir, 'optimise'], source).stdout.decode('latin-1'))
                # the same code is compiled once
                for code, text in {module_of('to_llvm').llvm(text): text for text in texts}.items():
                    program = str(Path(folder) / 'program')
                    said = ran(['clang', '-O2', '-Wno-override-module', '-x', 'ir', '-', '-o', program], code)
                    self.assertEqual(said.returncode, 0, said.stderr)
                    inputs = list(itertools.product(INPUTS, repeat=mir_text.program(text)[0].receives()))
                    for words in draw.sample(inputs, min(len(inputs), 8)):
                        with self.subTest(path.name, words=words):
                            self.check(text, program, [str(word) for word in words])

    def test_wrong_inputs_are_refused(self):
        """With another number of inputs a compiled program says so, with status 1."""
        with tempfile.TemporaryDirectory() as folder:
            program = str(Path(folder) / 'program')
            self.assertEqual(ran([tool('compile'), str(TOP / 'examples/countdown.mir'), '-o', program]).returncode, 0)
            said = ran([program])
            self.assertEqual((said.returncode, said.stderr), (1, b'wrong inputs: 1 wanted\n'))
