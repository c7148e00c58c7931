"""Tests of the verdicts of the page of tables, of its rows and runs, of the tables of divisions, tails and join, and of
exercises: by the scripts of the page that show nothing, in node, beside the graph alone and beside words written by hand."""

import functools
import json
import re
import shutil
import tempfile
import unittest
from pathlib import Path

import mir_cases
import mir_text
import page_tests
import tables_page
import tables_text
from page_tests import by_node, data_on
from tool_calls import EXAMPLES, GIVEN, TOP, fewer, ran, stages_of, told, tool


# Behind the scripts of a page of tables, of many texts by their names: how many sentences of verdicts there are of each
# kind, those that the graph alone does not bear out, what moves with no word on what it saves; and of each row of
# insertions and of replaced uses of a small graph how many bits were turned so that a verdict says something else, and of
# how many that is not found wrong.
VERDICTS = '''
const kinds = {}, wrong = [], silent = [];
let turned = 0, missed = 0;
for (const [name, text] of Object.entries(DATA)) {
  takeProgram({ text, name });
  for (const unit of UNITS) for (const pass of passesOf(unit).filter(one => ['motion', 'sink'].includes(one.name))) {
    for (const { item, sentences } of verdictsOf(pass)) {
      for (const { says } of sentences) kinds[says] = (kinds[says] ?? 0) + 1;
      if (sentences[0].says === 'moves' && !sentences.some(one => one.says === 'again')) silent.push([name, item.text]);
    }
    wrong.push(...unfounded(pass).map(one => [name, unit.name, pass.title, one.item, one.says, one.html]));
    if (pass.name !== 'motion' || pass.before.nodes.length > 12) continue;
    const said = () => JSON.stringify(verdictsOf(pass).map(({ sentences }) => sentences.map(one => one.html)));
    const first = said();
    for (const { rows } of itemsOf(pass)) for (const row of ['inserted', 'replaced']) range(rows[row].length).forEach(n => {
      const was = rows[row];
      rows[row] = was.slice(0, n) + (was[n] === '1' ? '0' : '1') + was.slice(n + 1);
      pass.verdicts = undefined;
      if (said() !== first) {
        turned++;
        if (!unfounded(pass).length) missed++;
      }
      rows[row] = was;
    });
  }
}
console.log(JSON.stringify({ kinds, wrong: wrong.slice(0, 9), silent, turned, missed }));
'''

# So too, of each text by its name: the words of each verdict of code motion, by unit and expression.
WORDS = '''
const plain = html => html.replace(/<[^>]*>/g, '').replaceAll('&lt;', '<').replaceAll('&gt;', '>');
const words = () => Object.fromEntries(UNITS.flatMap(unit => passesOf(unit).filter(pass => pass.name === 'motion')
  .flatMap(pass => verdictsOf(pass).map(({ item, sentences }) => [`${unit.name}: ${item.text}`,
    sentences.map(one => plain(one.html)).join(' ')]))));
console.log(JSON.stringify(Object.fromEntries(Object.entries(DATA).map(([name, text]) => {
  takeProgram({ text, name });
  return [name, words()];
}))));
'''

# So too: of a run the frames at each step, by the names of their units and the numbers of their nodes; how many operators
# it has evaluated before and after code motion at each of these steps; and what a verdict says of it.
FRAMES = '''
const [unit] = UNITS, pass = passesOf(unit).find(one => one.name === 'motion'), args = RUN.map(BigInt);
const [before, after] = walks(unit, args).slice(pass.at - 1), met = together(pass, before, after);
const told = UNITS.flatMap(one => passesOf(one).filter(that => that.name === 'motion').flatMap(that =>
  itemsOf(that).map(item => [item.text, savedIn(one, item, { before, after }).html])));
console.log(JSON.stringify([before.steps.map(step => framesAt(step).map(one => `${one.unit.name} ${one.n}`).join(', ')),
  before.steps.map((step, at) => [step.evals, after.steps[met[at]].evals]), told]));
'''

# So too, of many texts of other commands by their names: the kinds of sentences, those that the graph alone does not bear
# out, how many bits were tried, and of which choice some differ from what the paths show; and in words what is said of
# some examples.
OTHERS = '''
const plain = html => html.replace(/<[^>]*>/g, '').replaceAll('&lt;', '<').replaceAll('&gt;', '>');
const kinds = {}, wrong = [], differing = [], said = {};
let bits = 0;
for (const [name, text] of Object.entries(DATA)) {
  takeProgram({ text, name });
  for (const unit of UNITS) for (const pass of passesOf(unit).filter(one => ['divisions', 'tails', 'join'].includes(one.name))) {
    for (const { item, sentences } of verdictsOf(pass)) {
      for (const { says } of sentences) kinds[says] = (kinds[says] ?? 0) + 1;
      (said[name] ??= []).push(`${unit.name}: ${sentences.map(one => plain(one.html)).join(' ')}`);
    }
    wrong.push(...unfounded(pass).map(one => [name, unit.name, one.item, one.says, one.html]));
    itemsOf(pass).forEach((item, number) => {
      const checked = disagreeing(pass, number);
      bits += checked.bits;
      if (checked.found.length) differing.push([name, unit.name, item.text, checked.found.slice(0, 3)]);
    });
    for (const one of columnsOf(pass, 0)) pass.before.nodes.forEach((_, n) => one.why(n));
  }
}
console.log(JSON.stringify({ kinds, wrong: wrong.slice(0, 9), bits, differing: differing.slice(0, 9), said }));
'''

# So too, with the table, of each text by its name: of each stage of each unit the instructions of its rows, and of those of the last column of the
# pass behind it, what goes left out, with what is new and what the others become.
ORDER = '''
const told = stage => inTextOrder(stage, range(stage.nodes.length)).map(n => stage.nodes[n]);
const texts = nodes => nodes.filter(node => !['start', 'skip'].includes(node[0])).map(node => node[3]);
console.log(JSON.stringify(Object.fromEntries(Object.entries(DATA).map(([name, text]) => {
  takeProgram({ text, name });
  return [name, UNITS.map(unit => passesOf(unit).map(pass => [pass.after.name, texts(told(pass.after)),
    texts(rowsOf(pass, true).flatMap(({ n, m }) => m !== undefined ? [pass.after.nodes[m]] : pass.became[n] === null ? []
      : [pass.after.nodes[pass.became[n]]]))]))];
}))));
'''


@functools.lru_cache(maxsize=None)
def tables_of(text: str) -> str:
    """The tables of a program, which is asked once."""
    said = ran([GIVEN.tables], text)
    assert said.returncode == 0, said.stderr
    return said.stdout.decode('latin-1')


def told_of(texts: dict[str, str], script: str, *parts: str) -> dict:
    """What a script tells of the tables of each of these programs."""
    data = json.dumps({name: tables_of(text) for name, text in texts.items()})
    return by_node((*tables_page.MODEL, *parts), data, script)


@functools.lru_cache(maxsize=None)
def words_of_examples() -> dict:
    """The words of each verdict on each example."""
    return told_of({path.stem: mir_text.read_input(str(path)) for path in EXAMPLES}, WORDS)


@unittest.skipUnless(shutil.which('node'), 'node is not here')
class Verdicts(unittest.TestCase):
    """The verdicts of the page of tables, beside the graph alone and beside words that were written by hand."""

    DRAWN = 500

    # Of some examples what is said of some expressions.
    SAID = {
        'repeat_loop': {
            'main: a + b': 'a + b moves from 1 to 5: there h1 is set, and it is read at 1. Every path from 5 evaluates it '
                           'before it changes an operand or returns. Left where it was, it would be computed again in each '
                           'turn of 1→2→3→6→1. 5 is the earliest node where it may stand: above it is Start.',
            'main: i + 1': 'i + 1 stays at 2. On the path 2→3→6→1→2 2 assigns i, and no other path brings an earlier value '
                           'of it.'},
        'while_loop': {
            'main: a + b': 'a + b stays at 2. It is computed again on 2→3→4→7→1→2, but not every path to 2 has computed it '
                           'before. The earliest node where it may stand is 2: at 1, above it, it is neither available nor '
                           'anticipatable. Along 1→5 the unit returns without having used a + b.'},
        'diamond': {
            'main: a + b': 'a + b is evaluated into h1 before 8 and 3, and read at 5 and 3. Every path from 8 evaluates it '
                           'before it changes an operand or returns. Left where it was, it would be computed twice on '
                           '3→4→9→5: at 3 and at 5. The earliest node where it may stand is 1: above it is Start. It is '
                           'delayed until 8 and no longer: 5 is also entered where it is not delayed. The earliest node '
                           'where it may stand is 1: above it is Start. It is delayed until 3, which needs it.'},
        'division_over_test': {
            'main: a / b': 'a / b stays at 2 and 4: it could trap. divisions may move it, move does not.',
            'main: x + 1': 'x + 1 stays at 3. No path evaluates it twice, so there is nothing to save.'},
        'counter': {
            'main: n - x': 'n - x stays at 3. On the path 3→7→1→2→3 2 assigns x, and no other path brings an earlier value '
                           'of it.',
            'step: calls + 1': 'calls + 1 stays at 1. No path evaluates it twice, so there is nothing to save.'},
    }

    # What is said of each example.
    WORDS = TOP / 'examples/verdicts.txt'

    # A global that a call may change between two uses of it.
    LIMIT = """global limit
main: begin
receive a(val)
x <- a + limit
call note,(x,int)
y <- a + limit
return y
end
note: begin
receive x(val)
print x
end
"""

    def setUp(self):
        """The program that writes tables."""
        if not GIVEN.tables:
            self.skipTest('there is no mir_tables: --tables names one')

    def test_sentences_agree_with_the_definition(self):
        """Each sentence on each example and on drawn programs is what the graph alone shows, by paths; what moves has a
        word on what it saves; and where a bit of what is inserted or replaced is turned, some sentence is found wrong."""
        texts = {path.stem: mir_text.read_input(str(path)) for path in EXAMPLES}
        drawn = fewer(range(self.DRAWN))
        texts.update((f'drawn {number}', mir_cases.drawn_program(number)) for number in drawn)
        found = told_of(texts, VERDICTS)
        self.assertEqual((found['wrong'], found['silent'], found['missed']), ([], [], 0))
        self.assertGreater(found['turned'], 2 * len(drawn))
        for says in ('moves', 'stays', 'anticipatable', 'again', 'earliest', 'waits', 'once', 'changes', 'partly', 'traps',
                     'gone', 'sinks', 'blocks', 'parts'):
            self.assertGreater(found['kinds'].get(says, 0), len(drawn) // 55, says)

    def test_words(self):
        """What is said of each example is what examples/verdicts.txt has, and of some what was written here by hand."""
        found = words_of_examples()
        lines = [[name, *(f'  {what.split(": ")[0]}: {words}' for what, words in verdicts.items())]
                 for name, verdicts in found.items()]
        if GIVEN.write:
            self.WORDS.write_text('\n'.join(sum(lines, [])) + '\n', encoding='utf-8')
        self.assertEqual(self.WORDS.read_text(encoding='utf-8').splitlines(), sum(lines, []))
        for name, said in self.SAID.items():
            self.assertEqual({item: found[name].get(item) for item in said}, said)
        limit = told_of({'limit': self.LIMIT}, WORDS)['limit']
        self.assertEqual(limit['main: a + limit'], 'a + limit stays at 1 and 3. At 1 it stays: no path '
                         'evaluates it twice, so there is nothing to save. At 3 it stays: on the path 1→2→3 2 may change '
                         'limit (a call may change any global), and no other path brings an earlier value of it.')

    def test_every_expression_has_one(self):
        """Each right side of an assignment before code motion that has an operator has a verdict, and only these."""
        texts = {path.stem: mir_text.read_input(str(path)) for path in EXAMPLES}
        for name, found in words_of_examples().items():
            stages = re.findall(r'(?ms)^unit (\w+)$.*?^stage split$(.*?)^pass motion$', tables_of(texts[name]))
            sides = {f'{unit}: {right}' for unit, stage in stages
                     for right in re.findall(r'(?m)^node \d+ assign \d+ \w+ <- (.* .*)$', stage)}
            self.assertEqual(set(found), sides, name)

    def test_frames(self):
        """A run comes through the units that it calls, step by step, with the frames of each step and its counts before
        and after code motion."""
        text = ('main: begin\nreceive a(val)\nL1: x <- twice,(a,int)\ni <- i + 1\nif i < 2 goto L1\nreturn x\nend\n'
                'twice: begin\nreceive a(val)\nprint 0\nif a goto L1\nprint a\ngoto L2\nL1: x <- a * a\nprint x\n'
                'L2: y <- a * a\nreturn y\nend\n')
        data = json.dumps({'text': tables_of(text), 'name': ''})
        frames, counts, told = by_node(tables_page.MODEL, data, f'const RUN = [3];\ntakeProgram(DATA);\n{FRAMES}')
        self.assertEqual(frames[:4], ['main 0', 'main 5', 'main 1', 'main 1, twice 0'])
        self.assertEqual({frame.count(',') for frame in frames}, {0, 1})
        self.assertEqual(counts[0], [0, 0])
        self.assertEqual(counts[-1], [6, 4])
        self.assertIn(['a * a', 'In this run it is evaluated 4 times before the pass and twice after it: it saves 2 of 4.'],
                      told)

    def test_rows_are_in_the_order_of_the_text(self):
        """The rows of each stage have the instructions of the text of `mir stages` in its order, and so have those of the
        last column of a pass, where what is new stands."""
        texts = {path.stem: mir_text.read_input(str(path)) for path in EXAMPLES}
        for example, rows in told_of(texts, ORDER, 'grid.js').items():
            wanted = {}
            for stage in re.split(r'(?m)^\|\| ', stages_of(texts[example]))[1:]:
                name, _, body = stage.partition('\n')
                units = re.split(r'(?m)^(?:\w+: )?end\n', body)[:-1]
                wanted[name] = [[line for line in (re.sub(r' ?\bgoto \w+$', '', re.sub(r'^(\w+: )+', '', line))
                                                  for line in unit.split('\n') if not line.endswith(': begin'))
                                 if line and not re.match('receive |global ', line)] for unit in units]
            for at, stages in enumerate(rows):
                for name, before, behind in stages:
                    self.assertEqual(before, behind, (example, name))
                    if name in wanted and at < len(wanted[name]):
                        self.assertEqual((name, before), (name, wanted[name][at]), example)


@unittest.skipUnless(shutil.which('node'), 'node is not here')
class OtherCommands(unittest.TestCase):
    """The tables of divisions, tails and join on the page, beside the graph alone and beside words written by hand."""

    DRAWN = 500

    # Of each command which sentences there are to be, and what is said of some units of examples.
    SAID = {
        'divisions': (('moves', 'stays', 'sure', 'again', 'earliest', 'waits', 'once', 'changes', 'partly'), {
            'division_out_of_loop': 'main: a / b moves from 1 to 6: there h1 is set, and it is read at 1. Each run from 6 is '
                                    'sure to come to it before anything is seen. Left where it was, it would be computed '
                                    'again in each turn of 1→2→3→7→1. 6 is the earliest node where it may stand: above it is '
                                    'Start.',
            'division_behind_print': 'main: a / b stays at 2. It is computed again on 2→3→4→7→1→2, but not every path to 2 '
                                     'has computed it before. The earliest node where it may stand is 2: at 1, above it, it '
                                     'is neither available nor sure. 1 prints, before a / b.'}),
        'tails': (('loop', 'then', 'global'), {
            'tail_sum': 'main: 4 calls the unit itself, and its answer is returned next: it becomes a jump to the beginning, '
                        'behind assignments of the arguments.',
            'tail_kept': 'main: 3 stays: next comes 4, which does not return its answer.'}),
        'join': (('joined', 'stays', 'leaf', 'none'), {
            'helpers': 'main: 2 calls scaled, a leaf of 5 instructions: the code of it stands there now.',
            'factorial': 'main: 3 stays: main is no leaf, since it calls main.',
            'tail_sum': 'main: main is no leaf, since it calls main.',
            'diamond': 'main: main is a leaf: it has 10 instructions, and calls no unit.'}),
    }

    def setUp(self):
        """The program that writes tables, where it knows the words."""
        if not GIVEN.tables:
            self.skipTest('there is no mir_tables: --tables names one')
        if ran([GIVEN.tables, 'tails'], 'main: begin\nend\n').returncode:
            self.skipTest(f'{GIVEN.tables} writes no tables of other commands')

    def test_sentences_and_bits_agree_with_the_definition(self):
        """Each sentence and each bit on each example and on drawn programs is what the graph alone shows, by paths."""
        texts = {path.stem: mir_text.read_input(str(path)) for path in EXAMPLES}
        drawn = fewer(range(self.DRAWN))
        texts.update((f'drawn {number}', mir_cases.drawn_program(number)) for number in drawn)
        for word, (kinds, said) in self.SAID.items():
            with self.subTest(word):
                data = {name: ran([GIVEN.tables, word], text).stdout.decode('latin-1') for name, text in texts.items()}
                found = by_node(tables_page.MODEL, json.dumps(data), OTHERS)
                self.assertEqual((found['wrong'], found['differing']), ([], []))
                self.assertEqual(found['bits'] > 20 * len(drawn), word == 'divisions')
                for says in kinds:
                    self.assertGreater(found['kinds'].get(says, 0), len(drawn) // 250, says)
                for example, words in said.items():
                    self.assertIn(words, found['said'][example])

    def test_one_page_has_all(self):
        """Texts one after another make one page, of which each reader, here and on the page, finds each; a fault in a later
        one has its line in the whole."""
        text = mir_text.read_input(str(TOP / 'examples/helpers.mir'))
        texts = [ran([GIVEN.tables, *words], text).stdout.decode('latin-1') for words in ([], *([word] for word in self.SAID))]
        made = told('show', '--name', 'helpers', text=''.join(texts))
        self.assertEqual(made.returncode, 0, made.stderr)
        words = by_node(tables_page.MODEL, data_on(made.stdout), '''takeProgram(DATA);
            console.log(JSON.stringify(COMMANDS.map(({ word }, at) => {
              takeCommand(at);
              return [word, UNITS.map(unit => unit.name)];
            })));''')
        self.assertEqual(words, [[word, ['main', 'scaled', 'clamped']] for word in ('optimise', *self.SAID)])
        lines = ''.join(texts).split('\n')
        at = lines.index('tables 1 join') + 1
        said = told('show', text='\n'.join([*lines[:at], 'body main x leaf', *lines[at + 1:]]))
        self.assertEqual((said.returncode, said.stderr.decode()), (1, f'show: line {at + 1}: unexpected\n'))


class Exercises(unittest.TestCase):
    """The exercises of examples/README.md, and what is handed in."""

    @unittest.skipUnless(shutil.which('node'), 'node is not here')
    def test_answers_are_those_of_the_page(self):
        """The answers in examples/ are those that the page gives of the diamond."""
        answers = by_node((*tables_page.MODEL, 'quizzing.js'), json.dumps({'text': page_tests.Tables.TEXT, 'name': 'diamond'}),
                          'takeProgram(DATA); console.log(JSON.stringify(answersOf()));')
        self.assertEqual(answers, (TOP / 'examples/exercise/answers.txt').read_text())
        self.assertIn('main; motion; a + b; latest; 0001000010\n', answers)

    def test_scores(self):
        """Files are counted beside the answers, whatever they say of themselves; what is no such file is refused."""
        answers = str(TOP / 'examples/exercise/answers.txt')
        with tempfile.TemporaryDirectory() as folder:
            handed = Path(folder) / 'one.txt'
            handed.write_text('exercise diamond\nmain; motion; a + b; killed; 0000000000; 10 of 10\n'
                              'main; motion; a + c; killed; 1000000000; 10 of 10\nscore 20 of 20\n')
            said = ran([tool('score'), answers, str(handed)])
            self.assertEqual((said.returncode, said.stdout.decode()), (0, 'one.txt: 9 of 10\n  main; motion; a + b; killed: 9 of '
                             '10\n  main; motion; a + c; killed: not among the answers\n'))
            for words in ([str(handed), answers], [answers, folder], [answers, str(TOP / 'examples/sums.mir')]):
                said = ran([tool('score'), *words])
                self.assertEqual((said.returncode, said.stdout, said.stderr.count(b'\n')), (1, b'', 1))

    def test_each_pass_and_command_has_its_exercises(self):
        """Ten from easy to hard, two for each pass of optimise, one for each command; the programs that they name are
        there."""
        text = (TOP / 'examples/README.md').read_text().split('## Exercises')[1]
        self.assertEqual(re.findall(r'(?m)^(\d+)\. ', text), [str(number) for number in range(1, 11)])
        parts = re.split(r'(?m)^### (?:Two|One) for each .*$', text)[1:]
        for_passes, further, for_commands = (re.findall(r'(?m)^\| `(\w+)` \|', part) for part in parts)
        self.assertEqual(for_passes, [name for name in tables_text.PASSES
                                      if name not in ('divisions', 'tails', 'join', 'bounds', 'wanted', 'demanded')])
        words = re.search(r"local passes='(.*)'", (TOP / 'tools/completion/mir.bash').read_text())[1].split()
        self.assertEqual(set(further), set(words) - {*for_passes, 'optimise'})
        usage = ran([GIVEN.mir]).stderr.decode().removeprefix('usage: mir ').split(' | ')
        self.assertEqual(sorted(for_commands), sorted(form.split()[0] for form in usage))
        examples = {path.stem for path in EXAMPLES}
        for name in ('repeat_loop', 'turned_loop', 'nested_loops', 'jumps', 'sums', 'constants', 'same_value', 'copies',
                     'two_entries', 'partly_dead', 'rounds_behind', 'dead', 'dead_in_turn', 'tail_kept', 'helpers', 'turns'):
            self.assertIn(f'`{name}`', text)
            self.assertIn(name, examples)
