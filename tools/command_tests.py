"""Tests of the scripts `mir` and `mir_tables`, of what is installed, and of the library for C."""

import importlib
import json
import os
import re
import shutil
import subprocess
import tempfile
import unittest
import unittest.mock
from pathlib import Path

import mir_text
from tool_calls import BAD, EXAMPLES, GIVEN, TOOLS, TOP, fewer, ran, tool


class CommandLine(unittest.TestCase):
    """What the scripts `mir` and `mir_tables` add to the programs, and what tells of them."""

    SUMS = 'sums: begin\nprint 42\nprint 2\nreturn 2\nend\n'

    def setUp(self):
        """A folder, with a link to the program that has no name of its own."""
        made = tempfile.TemporaryDirectory()
        self.addCleanup(made.cleanup)
        self.folder = Path(made.name)

    def script(self, *words: str, text: str = '', name: str = 'mir') -> tuple[int, str, str]:
        """The status and both outputs of a script over the program that is tried."""
        named = {} if GIVEN.mir == str(TOP / 'mir') else {'MIR_PROGRAM': str(Path(GIVEN.mir).resolve())}
        said = subprocess.run([TOP / name, *words], input=text, capture_output=True, encoding='utf-8',
                              env={**os.environ, **named}, cwd=self.folder)
        return said.returncode, said.stdout, said.stderr

    def commands(self) -> list[str]:
        """The commands that the program's usage line has."""
        usage = ran([GIVEN.mir]).stderr.decode()
        return [part.split()[0] for part in usage.removeprefix('usage: mir ').split(' | ')]

    def test_each_command_is_told(self):
        """Help, manual page and completion have the commands of the usage line, and help ends with status 0."""
        status, told, _ = self.script('--help')
        self.assertEqual((status, re.findall(r'(?m)^  ([a-z]+)', told)), (0, self.commands()))
        completed = re.search(r"commands='(.*?)'", (TOOLS / 'completion/mir.bash').read_text())[1]
        self.assertEqual(completed.split(), self.commands())
        page = (TOP / 'man/mir.1').read_text()
        for command in self.commands():
            self.assertRegex(told, rf'(?m)^  {command}\b')
            self.assertRegex(page, rf'(?m)^\.BI? "?{command}\b')

    def test_long_programs_are_written(self):
        """What a pass itself makes is never refused: neither a unit of as many instructions as one may have, nor a text
        that gets longer than one that is read."""
        begins, ends = 'main: begin\n', 'return 0\nend\n'
        longest = begins + 'print 1\n' * (mir_text.INSTRUCTIONS - 1) + ends
        for words in (['passes'], ['passes', 'clean'], ['optimise'], ['move'], ['thorough']):
            with self.subTest(words=words):
                called = ran([GIVEN.mir, *words], longest)
                self.assertEqual((called.returncode, called.stdout.decode()), (0, longest))
        unit = begins + 'x<-y+z\n' * 8_000 + ends
        count = mir_text.BYTES // len(unit)
        text = ''.join(unit.replace('main', f'unit{n}', 1) for n in range(count))
        for words in (['passes'], ['passes', 'clean']):
            with self.subTest(words=words):
                called = ran([GIVEN.mir, *words], text)
                self.assertEqual(called.returncode, 0, called.stderr)
                self.assertGreater(len(called.stdout), mir_text.BYTES)

    def test_each_pass_is_told(self):
        """Help, manual page and completion have the passes of `passes` that docs/LANGUAGE.md tells of, and the program
        takes each of them."""
        _, _, shown = (TOP / 'docs/LANGUAGE.md').read_text().partition('### What `passes` writes')
        passes = [word for row in re.findall(r'(?m)^\| (`.*?) \|', shown.partition('\n### ')[0])
                  for word in re.findall('`(.*?)`', row)]
        completed = re.search(r"passes='(.*?)'", (TOOLS / 'completion/mir.bash').read_text())[1].split()
        told = re.search(r"(?m)^passes='(.*?)'", (TOP / 'mir').read_text())[1].split()
        page = (TOP / 'man/mir.1').read_text().partition('at most 64 of\n')[2].partition('.TP')[0]
        for found in (completed, told, set(re.findall('[a-z]{2,}', page)) - {'and'}):
            self.assertEqual(sorted(found), sorted(passes))
        self.assertIn(f' at most 64: {" ".join(told)} run STEPS ', ' '.join(self.script('--help')[1].split()))
        for word in passes:
            self.assertEqual(self.script('passes', word, str(TOP / 'examples/sums.mir'))[::2], (0, ''))

    def test_each_kind_of_tables_is_told(self):
        """Help, manual page and completion of `mir_tables` have the words of its usage line, and of other words the
        script says which is wrong."""
        if not GIVEN.tables:
            self.skipTest('no --tables was given')
        usage = ran([GIVEN.tables, 'no', 'words']).stderr.decode()
        words = usage.removeprefix('usage: mir_tables [').rstrip(']\n').split(' | ')
        given = {**os.environ, 'MIR_TABLES_PROGRAM': str(Path(GIVEN.tables).resolve())}
        told = ran([TOP / 'mir_tables', '--help']).stdout.decode()
        self.assertEqual(re.findall(r'(?m)^  ([a-z]+)', told), words)
        self.assertEqual(re.search(r"tables='(.*?)'", (TOOLS / 'completion/mir.bash').read_text())[1].split(), words)
        page = (TOP / 'man/mir_tables.1').read_text()
        for word in words:
            self.assertRegex(page, rf'(?m)^\.B {word}$')
        for asked, said in ((['tials'], '`tials` names no tables; the nearest is `tails`; '), (['join', 'x'], '`x` is a word too many; ')):
            found = subprocess.run([TOP / 'mir_tables', *asked], capture_output=True, encoding='utf-8', env=given)
            self.assertEqual((found.returncode, found.stdout, found.stderr),
                             (1, '', f'{usage}mir_tables: {said}a file\'s name has a `.` or a `/`\n'))

    def test_version(self):
        """The version is that of the file VERSION, which the changes have too."""
        version = (TOP / 'VERSION').read_text().strip()
        for name in ('mir', 'mir_tables'):
            status, told, _ = self.script('--version', name=name)
            self.assertEqual((status, told.splitlines()[0]), (0, f'{name} {version}'))
        self.assertIn(f'\n## {version}\n', (TOP / 'CHANGELOG.md').read_text())

    def test_files(self):
        """A last word with a dot or a slash is the file that is read, and -o puts the output into one, whole."""
        example = str(TOP / 'examples/sums.mir')
        self.assertEqual(self.script('optimise', example), (0, self.SUMS, ''))
        self.assertEqual(self.script('run', '1000', '5', str(TOP / 'examples/factorial.mir'))[:2],
                         (0, 'result 120\nevals 8\n'))
        for words in (['-o', 'out', 'optimise', example], ['optimise', example, '-o', 'out'],
                      ['optimise', '-o', 'out', example]):
            self.assertEqual(self.script(*words), (0, '', ''))
            self.assertEqual((self.folder / 'out').read_text(), self.SUMS)
            (self.folder / 'out').unlink()
        (self.folder / 'p.mir').write_text('main: begin\nprint 1 + 1\nend\n')
        self.assertEqual(self.script('optimise', 'p.mir', '-o', 'p.mir')[0], 2)
        self.assertEqual((self.folder / 'p.mir').read_text(), 'main: begin\nprint 1 + 1\nend\n')
        self.assertEqual([path.name for path in self.folder.iterdir()], ['p.mir'])

    def test_files_that_are_not_there(self):
        """A file that is not there, or cannot be written, is told with the status of a failed read or write."""
        for words, status, told in ((['optimise', './x.mir'], 6, 'mir: ./x.mir: there is no such file\n'),
                                    (['optimise', '.'], 6, 'mir: .: it cannot be read\n'),
                                    (['optimise', '-o', 'no/x'], 7, 'mir: no/x: it cannot be written\n'),
                                    (['optimise', '-o'], 1, 'mir: -o wants the name of a file\n')):
            self.assertEqual(self.script(*words), (status, '', told))

    def test_wrong_words(self):
        """Behind the usage line it says which word is wrong, and what is nearest to it."""
        usage = ran([GIVEN.mir]).stderr.decode()
        for words, told in (([], 'a command is wanted; mir --help tells of each'),
                            (['optimize'], '`optimize` is no command; the nearest is `optimise`'),
                            (['rnages'], '`rnages` is no command; the nearest is `ranges`'),
                            (['help'], '`help` is no command; the nearest is `--help`'),
                            (['xyzzy'], '`xyzzy` is no command'),
                            (['--hlep'], '`--hlep` is no option; the nearest is `--help`'),
                            (['move', 'x'], '`x` is a word too many; a file\'s name has a `.` or a `/`'),
                            (['run', 'x'], '`x` is no number'),
                            (['run', '5', '7', '--1'], '`--1` is no number'),
                            (['passes', 'claen', 'x'], '`claen` is no pass; the nearest is `clean`'),
                            (['passes'] + 65 * ['clean'], 'there are more than 64 passes'),
                            (['trial', '7'], '`trial` wants more numbers: mir --help tells how many'),
                            (['run', '1.5', '7'], '`1.5` is no number'),
                            (['p.mir', 'move'], '`p.mir` is not the last word, where the name of a file stands'),
                            (['move', './p', 'q'], '`./p` is not the last word, where the name of a file stands')):
            self.assertEqual(self.script(*words), (1, '', f'{usage}mir: {told}\n'))
        self.assertEqual(self.script('run', '5', '7', text='main: begin\nend\n'), (1, '', 'wrong inputs: 0 wanted\n'))

    @unittest.skipUnless(shutil.which('bash'), 'bash is not here')
    def test_completion(self):
        """bash completes commands, options and files of programs."""
        (self.folder / 'p.mir').touch()
        (self.folder / 'p.txt').touch()
        for words, found in ((['mir', 'op'], 'optimise'), (['mir', '--v'], '--version'), (['mir', 'run', '5', 'p'], 'p.mir'),
                             (['mir_tables', 'p'], 'p.mir'), (['mir', 'stages', '-o', 'p'], 'p.mir p.txt')):
            script = (f'source {TOOLS}/completion/mir.bash; COMP_WORDS=({" ".join(words)}); '
                      f'COMP_CWORD={len(words) - 1}; _mir; echo $(printf "%s\n" "${{COMPREPLY[@]}}" | sort)')
            said = subprocess.run(['bash', '-c', script], capture_output=True, encoding='utf-8', cwd=self.folder)
            self.assertEqual((said.stdout.strip(), said.stderr), (found, ''))

    def test_manual_pages(self):
        """The manual pages have no fault that the readers of such pages know of."""
        tool = next((words for words in (['mandoc', '-T', 'lint'], ['man', '--warnings', '-l']) if shutil.which(words[0])),
                    None)
        if tool is None:
            self.skipTest('there is no mandoc and no man')
        for page in sorted((TOP / 'man').glob('*.1')):
            said = ran(['env', 'LC_ALL=C', *tool, str(page)])
            self.assertEqual((said.returncode, said.stderr), (0, b''))
            if tool[0] == 'mandoc':
                self.assertEqual(said.stdout, b'')

    def test_installed(self):
        """What tools/install puts below a prefix answers, and stands where it is looked for."""
        built = self.folder / 'built'
        built.mkdir()
        for name, program in (('mir', GIVEN.mir), ('mir_tables', GIVEN.tables or GIVEN.mir)):
            shutil.copy(program, built / name)
        (built / 'proof.txt').write_text('mir: as the test has it\n')
        (built / 'play.html').write_text('a page')
        os.utime(built / 'mir', (0, 0))
        said = ran([tool('install'), '--prefix', str(self.folder / 'p'), '--built', str(built)])
        self.assertEqual((said.returncode, said.stderr), (0, b''))
        version = (TOP / 'VERSION').read_text().strip()
        self.assertEqual(ran([str(self.folder / 'p/bin/mir'), '--version']).stdout.decode(),
                         f'mir {version}\nas the test has it\n')
        self.assertEqual(ran([str(self.folder / 'p/bin/mir'), 'optimise', str(TOP / 'examples/sums.mir')]).stdout.decode(),
                         self.SUMS)
        for name in ('share/man/man1/mir_tables.1', 'include/mir.h', 'share/bash-completion/completions/mir',
                     'share/vim/vimfiles/syntax/mir.vim', 'lib/mir/tools/show', 'lib/mir/examples/sums.mir',
                     'lib/mir/play.html'):
            self.assertTrue((self.folder / 'p' / name).exists(), name)


class Library(unittest.TestCase):
    """The library for C, compiled into programs, and by Python."""

    TABLED = ('divisions', 'tails', 'join', 'bounds', 'wanted', 'demanded')
    COMMANDS = (['optimise'], ['stages'], ['move'], ['ranges'], ['divisions'], ['tails'], ['join'], ['thorough'],
                ['passes', 'clean', 'bounds', 'called'], ['run', '1000'], ['run', '50', '3', '5'], ['trial', '7', '3'],
                [], ['no', 'command'], ['run', 'x'], ['passes', 'x'],
                ['tables'], *(['tables', word] for word in ('optimise', *TABLED, 'x')), ['tables', 'tails', 'join'])

    def setUp(self):
        """The library, a folder, and the compilers."""
        if not (GIVEN.library / 'libmir.a').exists():
            self.skipTest(f'there is no libmir.a in {GIVEN.library}; tools/build --library leaves it')
        for name in re.findall(r'(?m)^uint8_t (\w+)\(', (TOP / 'c/mir.h').read_text()):
            if name.encode() not in (GIVEN.library / 'libmir.a').read_bytes():
                self.skipTest(f'the libmir.a in {GIVEN.library} has no {name}')
        self.compilers = [name for name in ('gcc', 'clang') if shutil.which(name)]
        if not self.compilers:
            self.skipTest('there is no gcc and no clang')
        made = tempfile.TemporaryDirectory()
        self.addCleanup(made.cleanup)
        self.folder = Path(made.name)

    def compiled(self, path: Path, compiler: str, *flags: str) -> str:
        """A C file as a program over the library."""
        program = str(self.folder / f'{path.stem}_{compiler}')
        said = ran([compiler, '-std=c11', '-O1', '-Wall', '-Wextra', '-Werror', *flags, '-I', str(TOP / 'c'), str(path),
                    str(GIVEN.library / 'libmir.a'), '-o', program])
        self.assertEqual(said.returncode, 0, said.stderr)
        return program

    def test_example(self):
        """The embedded example prints what `mir` makes of its text, and the report of the run."""
        path = TOP / 'examples/embed.c'
        text = ''.join(json.loads(row) for row in re.findall(r'^    (".*")', path.read_text(), re.MULTILINE))
        target = ran([GIVEN.mir, 'optimise'], text).stdout
        wanted = target + ran([GIVEN.mir, 'run', '100', '3', '5'], target.decode()).stdout
        for compiler in self.compilers:
            said = ran([self.compiled(path, compiler)])
            self.assertEqual((said.returncode, said.stdout, said.stderr), (0, wanted, b''))

    def test_calls_are_as_the_programs(self):
        """Each command on examples and on each refused text has the status and both outputs of the program."""
        program = self.compiled(TOOLS / 'as_mir.c', self.compilers[0])
        for text in [*(path.read_text('latin-1') for path in fewer(EXAMPLES)), *BAD, '', '\xff']:
            for words in self.COMMANDS:
                other = [GIVEN.tables, *words[1:]] if words[:1] == ['tables'] else [GIVEN.mir, *words]
                if other[0]:
                    said, wanted = ran([program, *words], text), ran(other, text)
                    self.assertEqual((said.returncode, said.stdout, said.stderr),
                                     (wanted.returncode, wanted.stdout, wanted.stderr), words)

    def test_memory_is_refused(self):
        """Whichever call for memory is refused, each in its turn, the status is 0, 7 or 8, an output comes with 0
        alone, and all memory is given back."""
        wrapped = [f'-Wl,--wrap={name}' for name in ('malloc', 'realloc', 'free')]
        rows = ran([self.compiled(TOOLS / 'no_memory.c', self.compilers[0], *wrapped)]).stdout.decode().splitlines()
        names = ('optimise', 'tables', *(f'tables {word}' for word in self.TABLED))
        self.assertEqual([row.split(':')[0] for row in rows],
                         [f'{name}, {how}' for name in names for how in ('one alone', 'all from one on')])
        for row in rows:
            self.assertLessEqual(set(re.findall(r'status (\d+)', row)), {'0', '7', '8'})
            self.assertIn('status 8', row)
            self.assertTrue(row.endswith(' wrong lengths 0, blocks lost 0'), row)

    @unittest.skipUnless(shutil.which('valgrind'), 'valgrind is not here')
    def test_memory_is_used_well(self):
        """valgrind finds no wrong access and no lost block, also where each 50th call for memory is refused."""
        wrapped = [f'-Wl,--wrap={name}' for name in ('malloc', 'realloc', 'free')]
        for program in ([self.compiled(TOP / 'examples/embed.c', self.compilers[0])],
                        [self.compiled(TOOLS / 'no_memory.c', self.compilers[0], *wrapped), '50']):
            said = ran(['valgrind', '-q', '--error-exitcode=99', '--leak-check=full', *program])
            self.assertEqual((said.returncode, said.stderr), (0, b''))

    def test_python(self):
        """The functions of tools/mir.py answer as the programs do, and refuse with the line of the text."""
        with unittest.mock.patch.dict(os.environ, {'MIR_LIBRARY': str(GIVEN.library)}):
            mir = importlib.import_module('mir')
        for path in EXAMPLES:
            text = path.read_text('utf-8', 'surrogateescape')
            self.assertEqual(mir.optimise(text), ran([GIVEN.mir, 'optimise'], path.read_text('latin-1')).stdout.decode())
        self.assertEqual(mir.run('main: begin\nreceive a(val)\nx <- a + 1\nreturn x\nend\n', 10, 4), 'result 5\nevals 1\n')
        text = (TOP / 'examples/helpers.mir').read_text()
        for words in ([], *([word] for word in self.TABLED)):
            said = mir.tables(text, *words)
            self.assertEqual(said.split('\n')[0], ' '.join(['tables 1', *words]))
            if GIVEN.tables:
                self.assertEqual(said, ran([GIVEN.tables, *words], text).stdout.decode())
        with self.assertRaises(mir.Refused) as refused:
            mir.tables(text, 'move')
        self.assertEqual((refused.exception.line, refused.exception.status), (None, 1))
        for text, line, status, message in (('main: begin\ngoto L\nend\n', 2, 2, 'line 2: no such label'),
                                            ('', None, 2, 'no unit')):
            with self.assertRaises(mir.Refused) as refused:
                mir.optimise(text)
            self.assertEqual((refused.exception.line, refused.exception.status, str(refused.exception)),
                             (line, status, message))
