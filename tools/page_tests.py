"""Tests of the pages of `show` and of pictures, without a browser: what stands in them, how graphs are laid out, and
what the scripts that show nothing find out."""

import itertools
import json
import os
import random
import re
import shutil
import subprocess
import sys
import unittest

import mir_text
import stages_page
import tables_graphs
import tables_page
import tables_text
from tool_calls import EXAMPLES, GIVEN, ODD, THREE_UNITS, TOOLS, TOP, ran, stages_of, told, tool


def data_on(page: bytes) -> str:
    """The data on a page of `show`, as JSON."""
    return re.search(r'<script id="data"[^>]*>(.*?)</script>', page.decode())[1]


def by_node(parts: tuple, data: str, script: str):
    """What a script tells in JSON behind parts of a page and its data."""
    texts = [(TOOLS / 'page' / name).read_text().replace('\nopen();\n', '\n') for name in parts]
    said = subprocess.run(['node', '-'], input='\n'.join([*texts, f'const DATA = {data};', script]), capture_output=True,
                          encoding='utf-8')
    if said.returncode:
        raise AssertionError(said.stderr)
    return json.loads(said.stdout)


def stages_by_node(text: str, script: str, *words: str):
    """What a script tells of the page of a text of stages, which has its stages."""
    made = told('show', '--mir', GIVEN.mir, *words, text=text)
    if made.returncode:
        raise AssertionError(made.stderr)
    return by_node(stages_page.SCRIPTS, data_on(made.stdout),
                   f'takeLayouts(DATA.layouts); STAGES = alignedStages(DATA.text);\n{script}')

def places(unit: mir_text.Unit) -> list[str]:
    """The instructions of a unit with places instead of labels."""
    return [unit.name, *(re.sub(r'goto (\w+)$', lambda label: f'goto {unit.labels[label[1]]}',
                                mir_text.instruction_text(one)) for one in unit.instructions)]


class Drawing(unittest.TestCase):
    """Pictures and pages."""

    @unittest.skipUnless(shutil.which('dot'), 'dot is not here')
    def test_dot_accepts_each_graph(self):
        """Graphs of each example and of odd names, by blocks and by instructions, are drawn, one for each unit."""
        for text in [mir_text.read_input(str(path)) for path in EXAMPLES] + [ODD, THREE_UNITS]:
            graphs = [told('graph', *words, text=text).stdout for words in ([], ['--instructions'])]
            for each in graphs:
                self.assertEqual(len(re.findall(rb'(?m)^digraph ', each)), len(mir_text.program(text)))
            drawn = ran(['dot', '-Tsvg'], b''.join(graphs).decode('latin-1'))
            self.assertEqual((drawn.returncode, drawn.stdout.count(b'<svg')),
                             (0, 2 * len(mir_text.program(text))), drawn.stderr)

    def test_page_fetches_nothing(self):
        """A page has its data, one script of its own, and nothing that it would fetch; names in it are never code."""
        for text, words in ((stages_of(THREE_UNITS), ['--run', '100', '3']), (stages_of(ODD), ['--name', 'a <b>'])):
            made = ran([tool('show'), '--mir', GIVEN.mir, *words], text)
            page = made.stdout.decode()
            self.assertEqual(made.returncode, 0, made.stderr)
            self.assertEqual((page.count('<script'), page.count('<!--'), page.count('<b>')), (2, 0, 0))
            for word in ('src=', '<link', '@import'):
                self.assertNotIn(word, page)
        self.assertIn('<h1 id="title">Stages of a &lt;b&gt;</h1>', page)

    @unittest.skipUnless(shutil.which('node'), 'node is not here')
    def test_page_of_a_chain(self):
        """With passes a page has the program and what it is after each of them, how many operators a run evaluates
        then, and which units are gone; words of no pass are refused, and so is a text of no program."""
        text = mir_text.read_input(str(TOP / 'examples/helpers.mir'))
        stages, same, views, notes = stages_by_node(text, '''console.log(JSON.stringify([
            STAGES.map(stage => stage.name), STAGES.map((stage, at) => stage.texts.map((_, unit) => isSame(at, unit))),
            STAGES.map((stage, at) => stage.texts.map((_, unit) => viewAt(at, unit))),
            DATA.notes.map(noteDrawn)]))''', '--passes', 'join optimise called', '--run', '1000', '3', '8')
        self.assertEqual(stages, ['source', 'join', 'optimise', 'called'])
        self.assertEqual(same[1:], [[False, True, True], [False, True, True], [True, False, False]])
        self.assertEqual([sum('it is gone' in view for view in row) for row in views], [0, 0, 0, 2])
        self.assertEqual(notes, [f' <small>{count}</small>' for count in (32, 32, 25, 25)])
        for passes, given, refused in (('join x', text, '--passes has a word of no pass, or more than 64'),
                                       ('clean ' * 65, text, '--passes has a word of no pass, or more than 64'),
                                       ('join', 'main: begin\n', 'text ends inside a unit')):
            said = told('show', '--mir', GIVEN.mir, '--passes', passes, text=given)
            self.assertEqual((said.returncode, said.stdout, said.stderr.decode()), (1, b'', f'show: {refused}\n'))

    @unittest.skipUnless(shutil.which('node'), 'node is not here')
    def test_page_of_three_units(self):
        """A page has each stage, a view of each unit at each, and the reports of a run."""
        stages, views, runs = stages_by_node(stages_of(THREE_UNITS), '''console.log(JSON.stringify([
            STAGES.map(stage => stage.name), STAGES.map((stage, at) => stage.texts.map((_, unit) => viewAt(at, unit))),
            runsDrawn(DATA.runs)]))''', '--run', '100', '3')
        self.assertIn('copies after motion', stages)
        self.assertEqual({len(row) for row in views}, {3})
        for view in itertools.chain(*views):
            self.assertEqual((view.count('<figure'), view.count('<pre') in (1, 2)), (1, True))
        self.assertIn('<td>', runs)

    @unittest.skipUnless(shutil.which('node'), 'node is not here')
    def test_page_marks_new_lines_alone(self):
        """A label that is numbered anew makes no line a new one; a jump that leads elsewhere is one."""
        before = ('global g\nmain: begin\nreceive a(val)\nif a goto L1\nx <- 1\nL1: y <- 2\nif y goto L2\nprint x\n'
                  'L2: return y\nend\n')
        anew = 'global g\nmain: begin\nreceive a(val)\ny <- 2\nif y goto L1\nprint x\nL1: return y\nend\n'
        elsewhere = anew.replace('\nprint', '\nL1: print').replace('L1: return', 'return')
        for now, gone, new in ((anew, ['if a goto L1', 'x <- 1'], []),
                               (elsewhere, ['if a goto L1', 'x <- 1', 'if y goto L2'], ['if y goto L1'])):
            view = stages_by_node(f'|| source\n{before}|| result\n{now}', 'console.log(JSON.stringify(viewAt(1, 0)))')
            found = [re.findall(f'<{mark}>(.*?)</{mark}>', view.replace('&lt;', '<')) for mark in ('del', 'ins')]
            self.assertEqual(found, [gone, new])
            self.assertEqual(re.findall('<rect class="new"[^>]*><text[^>]*>(.*?)</text>', view), new)

    @unittest.skipUnless(shutil.which('node'), 'node is not here')
    def test_page_marks_where_temporaries_live(self):
        """At code motion the edges on which a temporary lives are marked with its name, and at no other stage."""
        views = stages_by_node(stages_of(mir_text.read_input(str(TOP / 'examples/diamond.mir'))),
                               'console.log(JSON.stringify(STAGES.map((_, at) => viewAt(at, 0))))')
        marked = [view for view in views if 'class="edge held"' in view]
        self.assertEqual([view.count('class="edge held"') for view in marked], [2])
        self.assertIn('>h1</text>', marked[0])

    @unittest.skipUnless(shutil.which('node'), 'node is not here')
    def test_names_are_never_code(self):
        """What a comment or a name looks like is text in a view."""
        view = stages_by_node(stages_of(ODD), 'console.log(JSON.stringify(viewAt(0, 0)))')
        self.assertIn('if style &lt; 1 goto', view)

    def test_pages_are_whole_without_graphviz(self):
        """Where there is no `dot` a page is made with no layout by Graphviz: it lays its graphs out by itself."""
        for text in (stages_of(THREE_UNITS), Tables.TEXT):
            made = subprocess.run([sys.executable, tool('show')], input=text.encode(), capture_output=True,
                                  env={**os.environ, 'PATH': ''})
            self.assertEqual(made.returncode, 0, made.stderr)
            self.assertEqual(json.loads(data_on(made.stdout))['layouts'], [])

    @unittest.skipUnless(shutil.which('node'), 'node is not here')
    def test_layouts_are_those_of_the_page(self):
        """The graphs of which Graphviz makes layouts are those for which the page asks."""
        texts = [stages_of(mir_text.read_input(str(path))) for path in EXAMPLES]
        found = by_node(stages_page.SCRIPTS, json.dumps(texts), '''console.log(JSON.stringify(DATA.map(text =>
            stagesOf(text).flatMap(stage => stage.texts.map(unit => {
              const { sizes, ends } = blockGraph(unitOf(linesIn(unit)));
              return [sizes, ends];
            })))));''')
        made = [[stages_page.graph_of(unit) for stage in mir_text.stages(text) for unit in stage.units]
                for text in texts]
        self.assertEqual(found, json.loads(json.dumps(made)))
        for name, text in Tables.TEXTS.items():
            found = by_node(tables_page.MODEL, json.dumps({'text': text, 'name': name}), '''takeProgram(DATA);
                console.log(JSON.stringify(UNITS.flatMap(unit => unit.stages.flatMap(stage => [false, true].map(
                  byBlocks => { const { sizes, ends } = boxesOf(stage, byBlocks); return [sizes, ends]; })))));''')
            made = tables_graphs.graphs_of(tables_text.Reader().read(text))
            self.assertEqual(found, json.loads(json.dumps(made)), name)


@unittest.skipUnless(shutil.which('node'), 'node is not here')
class Layers(unittest.TestCase):
    """The layout of graphs by layers, as the pages have it."""

    def laid_out(self) -> list:
        """Sizes and edges of some graphs, each with its layout."""
        graphs = self.graphs()
        layouts = by_node(('layers.js',), json.dumps(graphs), '''console.log(JSON.stringify(
            DATA.map(graph => new Layers(...graph).layout())));''')
        return [(*graph, layout) for graph, layout in zip(graphs, layouts)]

    def graphs(self) -> list:
        """Sizes and edges of some graphs: loops of one box and of two, two edges between the same boxes, and drawn
        ones, in which a path from box 0 leads to each box."""
        found = [([(60, 30)], [(0, 0)]), ([(60, 30)] * 2, [(0, 1), (1, 0)]), ([(60, 30)] * 2, [(0, 1), (0, 1)])]
        draw = random.Random(7)
        for count in (3, 5, 8, 13, 21, 34):
            sizes = [(draw.randrange(40, 200), draw.randrange(30, 90)) for _ in range(count)]
            edges = [(draw.randrange(box), box) for box in range(1, count)]
            edges += [(draw.randrange(count), draw.randrange(1, count)) for _ in range(count // 2)]
            found.append((sizes, edges))
        return found

    def test_boxes_stand_apart(self):
        """Each box has its place in the picture, and no other box lies over it."""
        for sizes, edges, layout in self.laid_out():
            spans = [(layout['centres'][at][0] - wide / 2, layout['centres'][at][0] + wide / 2,
                      layout['centres'][at][1] - high / 2, layout['centres'][at][1] + high / 2)
                     for at, (wide, high) in enumerate(sizes)]
            for left, right, top, low in spans:
                self.assertTrue(0 <= left and right <= layout['wide'] and 0 <= top and low <= layout['high'])
            for one, other in itertools.combinations(spans, 2):
                self.assertTrue(one[1] <= other[0] or other[1] <= one[0] or one[3] <= other[2] or other[3] <= one[2])

    def test_edges_lead_from_box_to_box(self):
        """Each edge begins at the border of the box that it leaves, and ends at that of the box that it enters."""
        for sizes, edges, layout in self.laid_out():
            for way, boxes in zip(layout['ways'], edges):
                numbers = list(map(float, re.findall(r'-?[\d.]+', way)))
                for (x, y), box in zip((numbers[:2], numbers[-2:]), boxes):
                    (wide, high), (middle, height) = sizes[box], layout['centres'][box]
                    self.assertLess(abs(max(abs(x - middle) / wide, abs(y - height) / high) - 0.5), 0.01)

    def test_edges_pass_no_box(self):
        """No edge lies over a box, but for its two ends, and none goes out of the picture."""
        for sizes, edges, layout in self.laid_out():
            for way, boxes in zip(layout['ways'], edges):
                numbers = list(map(float, re.findall(r'-?[\d.]+', way)))
                points = list(zip(numbers[::2], numbers[1::2]))
                for at in range(0, len(points) - 1, 3):
                    for t in (step / 20 for step in range(21)):
                        parts = ((1 - t) ** 3, 3 * t * (1 - t) ** 2, 3 * t * t * (1 - t), t ** 3)
                        x, y = (sum(part * point[axis] for part, point in zip(parts, points[at:at + 4]))
                                for axis in (0, 1))
                        self.assertTrue(0 <= x <= layout['wide'] and 0 <= y <= layout['high'])
                        for box, (wide, high) in enumerate(sizes):
                            middle, height = layout['centres'][box]
                            self.assertFalse(abs(x - middle) < wide / 2 - 1 and abs(y - height) < high / 2 - 1,
                                             (boxes, box))


# Behind the data and the scripts of a page of tables, without a browser: how its walks compare with the reports of its
# run, and again where the report of the last stage but one counts another number of evaluations.
WALKS = '''
const [unit] = UNITS, [run] = unit.program.runs, found = [besideReports(unit, run)];
run.reports.at(-2).push(run.reports.at(-2).pop() + '0');
console.log(JSON.stringify([...found, besideReports(unit, run)]));
'''


# So too: of the states of `fold` those that are not what the edges bring, and the `?` behind Start with no path that
# shows why: from Start along edges that pass a state, on which no node behind the one that is told sets the variable.
STATES = '''
const wrong = [];
let varying = 0;
for (const pass of passesOf(UNITS[0]).filter(one => one.name === 'fold')) {
  const { states } = pass.facts, { vars } = pass.before, { into } = edgesOf(pass.before);
  states.forEach((state, n) => vars.forEach((name, v) => {
    const from = into[n].filter(p => passesOn(pass, p, n));
    const brought = new Set(from.map(p => setsIn(pass, p, name) ? valueBehind(pass, p, name) : states[p][v]));
    if (n && (state?.[v] ?? null) !== (brought.size > 1 ? '?' : [...brought][0] ?? null)) wrong.push([n, name]);
    if (!n || state?.[v] !== '?') return;
    const why = columnsOf(pass, 0).find(one => one.id === name).why(n), values = new Set();
    for (const path of why.other ? [why.path, why.other] : [why.path]) {
      const last = path?.findLast((p, k) => k < path.length - 1 && setsIn(pass, p, name));
      const leads = path?.every((s, k) => !k || passesOn(pass, path[k - 1], s));
      if (!leads || path[0] !== 0 || path.at(-1) !== n) wrong.push([n, name, 'no path']);
      values.add(valueBehind(pass, last, name));
    }
    varying++;
    if (!values.has('?') && values.size < 2) wrong.push([n, name, 'one value']);
  }));
}
console.log(JSON.stringify([varying, wrong]));
'''


# So too: how many expressions of code motion there are, where their rows differ from what the paths show, and the same
# with the first bit of either row of edges turned.
EDGES = '''
const passes = passesOf(UNITS[0]).filter(one => one.name === 'motion');
const differing = () => passes.flatMap(pass => itemsOf(pass).flatMap((_, number) => {
  delete columnsOf(pass, number).checked;
  return disagreeing(pass, number).found;
}));
const found = [passes.flatMap(itemsOf).length, differing()];
for (const row of ['held', 'busy held']) for (const { edges } of passes.flatMap(itemsOf))
  edges[row] = '10'[edges[row][0]] + edges[row].slice(1);
console.log(JSON.stringify([...found, differing()]));
'''


class Tables(unittest.TestCase):
    """Texts of tables, read and made a page of. The text is what `mir_tables` writes of the diamond in the gate; those
    of some other programs stand in examples/, as docs/check compares them."""

    TEXT = (TOP / 'crates/mir_tables/stdout').read_text()
    TEXTS = {'diamond': TEXT, **{path.stem.removesuffix('_tables'): path.read_text().split('\n', 1)[1]
                                 for path in sorted(TOP.glob('examples/*_tables.txt'))}}

    def data_of(self, text: str, words: list[str]) -> str:
        """The data on the page of a text of tables with a run."""
        made = told('show', '--mir', GIVEN.mir, '--run', *words, text=text)
        self.assertEqual(made.returncode, 0, made.stderr)
        return data_on(made.stdout)

    def found_by_node(self, data: str, script: str):
        """What a script tells in JSON behind the data of a page and those of its scripts that show nothing."""
        return by_node(tables_page.MODEL, data, f'takeProgram(DATA);\n{script}')

    def test_tables_are_read(self):
        """The stages, the rows of code motion, and what is worked out beside them."""
        unit, = tables_text.Reader().read(self.TEXT)
        motion = next(facts for facts in unit['passes'] if facts['name'] == 'motion')
        item, = motion['items']
        self.assertEqual((unit['name'], item['text'], item['temp']), ('main', 'a + b', 'h1'))
        self.assertEqual(item['rows']['latest'], '0001000010')
        self.assertEqual(item['edges'], {'busy held': '0111110011', 'held': '0000110011'})
        self.assertEqual([facts['rows'].get('dead') for facts in unit['passes'] if facts['name'] == 'prune'],
                         ['000000000000001', '00000000000000000'])

    @unittest.skipUnless(shutil.which('node'), 'node is not here')
    def test_readers_agree(self):
        """The page reads of each text what is read here, and makes the same programs of its stages; what it works out
        beside is the number that each node had before."""
        script = '''const { units } = { units: new TablesReader().read(DATA.text) };
            const programs = units[0].stages.map((_, at) => programText(units, at));
            for (const unit of units) for (const stage of unit.stages) delete stage.lines;
            console.log(JSON.stringify([units, programs, UNITS[0].passes[0].old]));'''
        for name, text in self.TEXTS.items():
            units, programs, old = self.found_by_node(json.dumps({'text': text, 'name': name}), script)
            read = tables_text.Reader().read(text)
            self.assertEqual(units, json.loads(json.dumps(read)), name)
            self.assertEqual(programs, [tables_page.program_text(read, at) for at in range(len(read[0]['stages']))])
            if name == 'diamond':
                self.assertEqual(old, [0, 1, 2, 4, 5, 6, 7, 8])

    def test_faults_have_their_line(self):
        """A row that is too short, a node out of order, another first line, and a unit without its last stage."""
        lines = self.TEXT.split('\n')
        row = next(at for at, line in enumerate(lines) if line.startswith('row '))
        node = lines.index('node 1 test 4,2 if a')
        for at, line, fault in ((row, 'row 01 held', row + 1), (node, 'node 2 test 4,2 if a', node + 1),
                                (0, 'tables 2', 1)):
            with self.assertRaisesRegex(mir_text.Fault, f'^line {fault}: '):
                tables_text.Reader().read('\n'.join([*lines[:at], line, *lines[at + 1:]]))
        with self.assertRaisesRegex(mir_text.Fault, 'do not take turns'):
            tables_text.Reader().read(self.TEXT[:self.TEXT.index('stage result')])

    def test_programs_of_stages(self):
        """The text that the page makes of each stage is the program that `mir stages` writes, but for labels."""
        for name, text in self.TEXTS.items():
            units = tables_text.Reader().read(text)
            written = {stage.name: stage.units for stage in
                       mir_text.stages(stages_of((TOP / 'examples' / f'{name}.mir').read_text()))}
            names = [stage['name'] for stage in units[0]['stages']]
            self.assertEqual([one for one in names if not one.startswith('sunk ')], list(written)[1:])
            for at, stage in enumerate(names):
                if stage in written:
                    made = mir_text.program(tables_page.program_text(units, at))
                    self.assertEqual([places(unit) for unit in made], [places(unit) for unit in written[stage]])

    def test_reports_are_those_of_mir(self):
        """The page has for the first and the last stage what `mir run` reports of the source and of the result, after
        these steps or at the end. Words that `mir run` refuses get its line and the status 1."""
        for name, said in (('diamond', '100 1 2'), ('diamond', '100 0 -2'), ('diamond', '2 1 2'),
                           ('repeat_loop', '100 3 5'), ('all_passes', '100 2 5')):
            words = said.split()
            source = (TOP / 'examples' / f'{name}.mir').read_text()
            result = ran([GIVEN.mir, 'optimise'], source).stdout.decode()
            run, = json.loads(self.data_of(self.TEXTS[name], words))['runs']
            self.assertEqual((run['steps'], run['inputs']), (int(words[0]), words[1:]))
            for report, text in ((run['reports'][0], source), (run['reports'][-1], result)):
                self.assertEqual(report, ran([GIVEN.mir, 'run', *words], text).stdout.decode().splitlines())
        for words in (['100', '1'], ['x', '1', '2'], ['1000001', '1', '2'], ['100', '1', 'y']):
            refused = ran([GIVEN.mir, 'run', *words], (TOP / 'examples/diamond.mir').read_text()).stderr.decode()
            said = told('show', '--mir', GIVEN.mir, '--run', *words, text=self.TEXT)
            self.assertEqual((said.returncode, said.stdout, said.stderr.decode()), (1, b'', f'show: {refused}'))

    @unittest.skipUnless(shutil.which('node'), 'node is not here')
    def test_walks_are_as_reported(self):
        """The walks of the page print, end and count at each stage as `mir run` reports, and another report is told.
        Where the steps are too few, nothing is compared."""
        for name, inputs in (('diamond', ['1', '2']), ('diamond', ['0', '-3']), ('all_passes', ['2', '5']),
                             ('all_passes', ['0', '0']), ('while_loop', ['1', '2', '9']), ('isolated', ['4', '7']),
                             ('repeat_loop', ['1', '9'])):
            with self.subTest(name, inputs=inputs):
                data = self.data_of(self.TEXTS[name], ['1000', *inputs])
                stages = [stage['name'] for stage in tables_text.Reader().read(self.TEXTS[name])[0]['stages']]
                found, turned = self.found_by_node(data, WALKS)
                self.assertEqual(found, {'differ': [], 'open': []})
                self.assertEqual(turned, {'differ': stages[-2:-1], 'open': []})
                found, _ = self.found_by_node(self.data_of(self.TEXTS[name], ['1', *inputs]), WALKS)
                self.assertEqual(found, {'differ': [], 'open': stages})

    @unittest.skipUnless(shutil.which('node'), 'node is not here')
    def test_varying_has_a_path(self):
        """The states of constants are what the edges bring, by the rules of the page, and each variable that varies
        has a path on which it is not known, or two on which it has two values."""
        for name, text in self.TEXTS.items():
            with self.subTest(name):
                data = data_on(told('show', text=text).stdout)
                varying, wrong = self.found_by_node(data, STATES)
                self.assertTrue(varying)
                self.assertEqual(wrong, [])

    @unittest.skipUnless(shutil.which('node'), 'node is not here')
    def test_rows_are_as_the_paths_show(self):
        """The rows of code motion and the edges on which temporaries live, of the lazy and of the busy placement, are
        what the page finds by itself, and where one edge is told otherwise it says so."""
        for name, text in self.TEXTS.items():
            with self.subTest(name):
                data = data_on(told('show', text=text).stdout)
                expressions, found, turned = self.found_by_node(data, EDGES)
                self.assertTrue(expressions)
                self.assertEqual(found, [])
                self.assertEqual(turned, [['held', 0], ['busy held', 0]] * expressions)

    def test_page_fetches_nothing(self):
        """The page has the program's name and its data, one script of its own, and nothing that it would fetch."""
        made = ran([tool('show'), '--name', 'a <b> c'], self.TEXT)
        text = made.stdout.decode()
        self.assertEqual(made.returncode, 0, made.stderr)
        self.assertEqual(text.count('<script'), 2)
        self.assertNotIn('<b> c', text)
        for word in ('src=', '<link', '@import'):
            self.assertNotIn(word, text)
