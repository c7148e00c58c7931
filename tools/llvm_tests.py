"""Tests of from_llvm and from_c, by runs: texts of LLVM IR, the constructs of C, and the programs of examples/."""

import random
import re
import shutil
import subprocess
import tempfile
import unittest
from pathlib import Path

import llvm_bit_cases
import llvm_cases
import mir_text
from tool_calls import TOOLS, TOP, module_of, ran, told, tool

STEPS = '100000'
PROGRAMS = sorted(TOP.glob('examples/c/*.c'))
NUMBERS = (0, 1, 2, -1, -3, 5, 7, 31, 33, 100, 127, 128, 200, 255, 256, -128, 32767, -32768, 65535, 2 ** 31 - 1,
           -2 ** 31, 2 ** 31, 2 ** 32 - 1, 2 ** 63 - 1, -2 ** 63, -7)


class ComingIn(unittest.TestCase):
    """LLVM IR as programs."""

    MIR = str(TOP / 'mir')

    def test_texts_run_as_they_should(self):
        """Each text of LLVM IR is a program that prints and ends as its function does."""
        for name, (text, runs) in {**llvm_cases.RUNS, **llvm_bit_cases.RUNS}.items():
            made = told('from_llvm', '--entry', 'f', text=text)
            self.assertEqual(made.returncode, 0, made.stderr)
            source = made.stdout.decode()
            self.assertTrue(mir_text.program(source))
            for inputs, wanted in runs:
                for program in (source, ran([self.MIR, 'optimise'], source).stdout.decode()):
                    with self.subTest(name, inputs=inputs):
                        said = ran([self.MIR, 'run', STEPS, *map(str, inputs)], program)
                        lines = said.stdout.decode().splitlines()[:-1]
                        found = ['trap' if line.startswith('trapped') else int(line.split()[-1]) for line in lines]
                        self.assertEqual(found, wanted)

    def test_what_has_no_form_is_refused(self):
        """What has no form in MIR gets one line with its place and the reason, the status 1 and no output."""
        for text, line in llvm_cases.REFUSED.items():
            with self.subTest(line):
                said = told('from_llvm', text=text)
                self.assertEqual((said.returncode, said.stdout, said.stderr.decode()), (1, b'', f'from_llvm: {line}\n'))

    def test_limits_of_a_unit(self):
        """A unit that would be too long, and one with too many parameters, are refused."""
        sums = ''.join(f'%x{at} = add i64 %a, {at}\n' for at in range(mir_text.INSTRUCTIONS))
        words = ', '.join(f'i64 %a{at}' for at in range(mir_text.RECEIVES + 1))
        for text, words in ((f'define i64 @main(i64 %a) {{\n{sums}ret i64 %a\n}}\n', 'a unit of more than'),
                            (f'define i64 @main({words}) {{\nret i64 %a0\n}}\n', 'more than 16 parameters')):
            said = ran([tool('from_llvm')], text)
            self.assertEqual((said.returncode, said.stdout), (1, b''))
            self.assertIn(f'from_llvm: line 1, in @main: {words}', said.stderr.decode())


@unittest.skipUnless(shutil.which('clang') and shutil.which('opt'), 'clang or opt is not here')
class FromC(unittest.TestCase):
    """C files as programs, beside the native programs that clang makes of them."""

    MIR = str(TOP / 'mir')

    def setUp(self):
        """A folder, and the native program of the constructs."""
        made = tempfile.TemporaryDirectory()
        self.addCleanup(made.cleanup)
        self.folder = Path(made.name)

    def native(self, source: Path, *flags: str, compiler: str = 'clang') -> str:
        """The native program of a C file."""
        program = str(self.folder / f'native_{compiler}')
        said = ran([compiler, '-O0', '-fwrapv', '-w', *flags, str(source), tool('native.c'), '-o', program])
        self.assertEqual(said.returncode, 0, said.stderr)
        return program

    def compiled(self, text: str) -> str:
        """The native program of a text."""
        program = str(self.folder / 'program')
        (self.folder / 'source').write_text(text)
        said = ran([tool('compile'), str(self.folder / 'source'), '-o', program])
        self.assertEqual(said.returncode, 0, said.stderr)
        return program

    def same(self, native: subprocess.CompletedProcess, said: subprocess.CompletedProcess, words: list[str]) -> None:
        """A program prints and ends as the one of C does: a signal is a trap, and so is an exit, with its status."""
        lines = [line for line in said.stdout.decode().splitlines() if not line.startswith('evals ')]
        if native.returncode < 0:
            self.assertEqual((said.returncode, lines[-1].split()[0]), (3, 'trapped'), words)
            lines.pop()
        elif native.returncode > 0:
            self.assertEqual((said.returncode, lines.pop()), (3, f'trapped {native.returncode}'), words)
        else:
            self.assertEqual(said.returncode, 0, words)
        self.assertEqual(lines, native.stdout.decode().splitlines(), words)

    def test_constructs_run_alike(self):
        """Each construct of C, for a few inputs: native, as MIR, and native by MIR; and what LLVM leaves of it."""
        draw, path = random.Random(7), TOOLS / 'constructs.c'
        native = self.native(path, '-DENTRY=construct')
        made = ran([tool('from_c'), '--entry', 'construct', str(path)])
        self.assertEqual(made.returncode, 0, made.stderr)
        text = made.stdout.decode()
        programs = [self.compiled(text)]
        shutil.move(programs[0], f'{programs[0]}_plain')
        left = ran(['opt', '-S', '-passes=default<O2>', '-o', '-', '-'],
                   module_of('from_c').llvm(str(path), []))
        brought = ran([tool('from_llvm'), '--entry', 'construct'], left.stdout.decode('latin-1'))
        self.assertEqual(brought.returncode, 0, brought.stderr)
        programs = [f'{programs[0]}_plain', self.compiled(brought.stdout.decode())]
        for which in range(path.read_text().count('CASE(') + 7 * path.read_text().count('CASES(')):
            pairs = [(draw.choice(NUMBERS), draw.choice(NUMBERS)) for _ in range(3)] + [(7, 0), (-2 ** 31, -1)]
            for words in ([str(which), str(a), str(b)] for a, b in pairs):
                wanted = ran([native, *words])
                self.same(wanted, ran([self.MIR, 'run', STEPS, *words], text), words)
                for program in programs:
                    self.same(wanted, ran([program, *words]), words)

    def test_pointers_without_a_type(self):
        """The same program comes of the same IR with the pointers of later releases."""
        ir = module_of('from_c').llvm(str(TOOLS / 'constructs.c'), [])
        said = ran(['opt', '-S', '-opaque-pointers', '-o', '-', '-'], ir)
        if said.returncode or b'ptr' not in said.stdout:
            self.skipTest('opt has one kind of pointers')
        both = [told('from_llvm', '--entry', 'construct', text=text) for text in (ir, said.stdout.decode('latin-1'))]
        self.assertEqual(*[each.stdout for each in both])

    def test_globals(self):
        """A variable that is stored to is a global, whether one function uses it or two. One more than there may be is
        a variable of the only function that uses it, where this runs once, and is refused elsewhere."""
        names = [f'g{at}' for at in range(mir_text.GLOBALS + 1)]
        variables = ''.join(f'static int {name} = 5;\n' for name in names)
        steps, total = ' '.join(f'{name}++;' for name in names), ' + '.join(names)
        one = 'static int g = 5;\nint main(void) { g += 2; return g; }\n'
        two = 'static int g = 5;\nint next(void) { return ++g; }\nint main(void) { next(); return next() + g; }\n'
        many = f'{variables}int main(void) {{ {steps} return {total}; }}\n'
        for text, result, count in ((one, 7, 1), (two, 14, 1), (many, 6 * len(names), mir_text.GLOBALS)):
            (self.folder / 'g.c').write_text(text)
            made = ran([tool('from_c'), str(self.folder / 'g.c')]).stdout.decode()
            self.assertEqual(made.count('global '), count)
            self.assertEqual(ran([self.MIR, 'run', STEPS], made).stdout.decode().splitlines()[0], f'result {result}')
        (self.folder / 'g.c').write_text(f'{variables}void next(void) {{ {steps} }}\n'
                                         f'int main(void) {{ next(); next(); return {total}; }}\n')
        said = ran([tool('from_c'), str(self.folder / 'g.c')])
        self.assertEqual((said.returncode, said.stdout), (1, b''))
        self.assertIn(b' of the source), in @', said.stderr)
        self.assertIn(b': more global variables than there may be (@g', said.stderr)

    def test_examples_are_what_comes_of_c(self):
        """Each C file of examples/ is the program beside it, which begins with a comment more."""
        from_c, from_llvm = module_of('from_c'), module_of('from_llvm')
        if b'version 14.' not in ran(['clang', '--version']).stdout:
            self.skipTest('another release of clang gives other names')
        for path in sorted(path for path in TOP.glob('examples/*.c') if path.with_suffix('.mir').exists()):
            entry = path.stem if f' {path.stem}(' in path.read_text() else 'main'
            read = from_llvm.module_of(from_c.llvm(str(path), []))
            made = from_llvm.program_text(read, entry)
            self.assertEqual(made, path.with_suffix('.mir').read_text().split('\n', 1)[1])

    def test_exit(self):
        """An exit of the entry is its return, and the status that of the native program."""
        (self.folder / 'e.c').write_text('#include <stdlib.h>\nint main(void) { if (1) exit(42); return 1; }\n')
        run = ran([self.MIR, 'run', STEPS], ran([tool('from_c'), str(self.folder / 'e.c')]).stdout.decode())
        self.assertEqual(run.stdout.decode().splitlines()[0], 'result 42')
        self.assertEqual(ran([self.native(self.folder / 'e.c')]).returncode, 42)

    def test_faults_of_clang_are_one_line(self):
        """A file that clang refuses gets its first error, the status 1 and no output."""
        (self.folder / 'b.c').write_text('int main(void) { return x + y; }\n')
        said = ran([tool('from_c'), str(self.folder / 'b.c')])
        self.assertEqual((said.returncode, said.stdout, said.stderr.count(b'\n')), (1, b'', 1))
        self.assertIn(b"undeclared identifier 'x'", said.stderr)

    def test_programs_of_examples_run_alike(self):
        """Each program of examples/c prints and ends in the same way: native by clang and gcc, as MIR and compiled, as
        it is and optimised, where it evaluates no more."""
        self.assertGreaterEqual(len(PROGRAMS), 5)
        for path in PROGRAMS:
            words = re.search(r'ARGS: ([\d ]*\d)', path.read_text())[1].split()
            made = ran([tool('from_c'), '--entry', path.stem, str(path)])
            self.assertEqual(made.returncode, 0, made.stderr)
            texts = [made.stdout.decode(), ran([self.MIR, 'optimise'], made.stdout.decode()).stdout.decode()]
            native = [self.native(path, f'-DENTRY={path.stem}', '-fno-builtin', compiler=compiler)
                      for compiler in ('clang', 'gcc') if shutil.which(compiler)]
            with self.subTest(path.name):
                wanted = [ran([program, *words]).stdout.decode().splitlines() for program in native]
                runs = [ran([self.MIR, 'run', '1000000', *words], text) for text in texts]
                reports = [run.stdout.decode().splitlines() for run in runs]
                found = [report[:-1] for report in reports]
                found += [ran([self.compiled(text), *words]).stdout.decode().splitlines() for text in texts]
                self.assertTrue(wanted[0][-1].startswith('result '))
                self.assertEqual(wanted + found, wanted[:1] * (len(wanted) + 4))
                counts = [int(report[-1].split()[1]) for report in reports]
                self.assertLessEqual(counts[1], counts[0])
