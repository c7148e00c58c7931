"""Scripts that tools/test_page runs on the pages of `show`, and what they are to tell."""

# Presses keys one after the other, and tells the heading after each, and how many views are shown.
PRESS = '''
const seen = [];
for (const key of KEYS_PRESSED) {
  document.dispatchEvent(new KeyboardEvent('keydown', { key, bubbles: true, cancelable: true }));
  seen.push([key, document.querySelector('#stage').textContent, document.querySelectorAll('#view .sides').length]);
}
return seen;
'''

# On a page of tables: asks of each bit of each row whether a path shows it, and turns each bit of a small unit in turn.
WITNESSES = '''
const wrong = [];
let bits = 0, turned = 0;
const each = ask => UNITS.forEach(unit => passesOf(unit).forEach(pass =>
  range(Math.max(itemsOf(pass).length, 1)).forEach(at => ask(pass, at, KIND_OF_ITEM[pass.name] ? at : 0))));
each((pass, at, number) => columnsOf(pass, number).forEach(one => pass.before.nodes.forEach((_, n) => {
  const answer = one.why(n);
  if (one.bits) { bits++; if (answer.yes !== one.bits[n]) wrong.push([pass.title, at, one.id, n]); }
})));
each((pass, at, number) => {
  const item = itemsOf(pass)[at];
  if (!item || pass.before.nodes.length > 17) return;
  const all = [item.rows, item.edges || {}];
  all.forEach(rows => Object.keys(rows).forEach(name => range(rows[name].length).forEach(n => {
    const was = rows[name];
    rows[name] = was.slice(0, n) + (was[n] === '1' ? '0' : '1') + was.slice(n + 1);
    pass.columns = [];
    turned++;
    if (!disagreeing(pass, number).found.length) wrong.push([pass.title, item.text, name, n, 'is turned']);
    rows[name] = was;
    pass.columns = [];
  })));
});
UNITS.forEach(unit => passesOf(unit).forEach(pass => {
  const { rows } = pass.facts, items = range(itemsOf(pass).length);
  if (!items.length || pass.before.nodes.length > 17) return;
  Object.keys(rows).forEach(name => range(rows[name].length).forEach(n => {
    const was = rows[name];
    rows[name] = was.slice(0, n) + (was[n] === '1' ? '0' : '1') + was.slice(n + 1);
    pass.columns = [];
    turned++;
    if (!items.some(item => disagreeing(pass, item).found.length)) wrong.push([pass.title, name, n, 'is turned']);
    rows[name] = was;
    pass.columns = [];
  }));
}));
return [bits, turned, wrong.slice(0, 9)];
'''

# Of each state of a page how wide it is, how large its smallest letters are, and how many graphs it has that are drawn,
# or lines where it has texts alone.
SIZES = '''
function measured(name) {
  let least = 1000, whose = '';
  for (const one of document.querySelectorAll('body *')) {
    const box = one.getBoundingClientRect();
    if (box.width < 2 || !box.height || /^(script|style|title)$/i.test(one.tagName)) continue;
    if (![...one.childNodes].some(node => node.nodeType === 3 && node.data.trim())) continue;
    const size = parseFloat(getComputedStyle(one).fontSize) * (one.ownerSVGElement ? one.getScreenCTM().a : 1);
    if (size < least) [least, whose] = [size, one.textContent.slice(0, 30)];
  }
  const graphs = [...document.querySelectorAll('figure svg')].filter(one => one.getBoundingClientRect().width);
  const drawn = graphs.filter(one => one.querySelector('.node') && !/NaN|undefined/.test(one.outerHTML));
  const lines = document.querySelectorAll('[data-view=text] .texts .line, [data-view=verdicts] .verdicts p');
  return [name, document.documentElement.scrollWidth, least, whose, drawn.length + lines.length];
}
const seen = [];
STATES
return seen;
'''

# All states of a page of stages, and those of a page of tables: each step of each pass as a graph, the other views of
# each pass, a run, a quiz, and the two dialogues.
STATES_OF_STAGES = '''STAGES.forEach((stage, at) => UNIT_NAMES.forEach((name, which) => {
  Object.assign(state, { stage: at, unit: which });
  show();
  seen.push(measured(`stage ${at} of unit ${which}`));
}));'''
STATES_OF_TABLES = '''UNITS.forEach((unit, which) => passesOf(unit).forEach((pass, at) => {
  Object.assign(state, { unit: which, pass: at, view: 'graph', col: 0, node: 1 });
  state.item = bestItem(pass);
  range(Math.max(columnsNow().length, 1)).forEach(col => {
    state.col = col; show();
    seen.push(measured(`${pass.title}, step ${col}`));
  });
  for (const view of ['text', 'both', 'busy', 'verdicts']) {
    state.view = view; show();
    if (state.view === view) seen.push(measured(`${pass.title}, ${view}`));
  }
}));
goUnit(0); state.view = 'graph';
toggleRun(); seen.push(measured('a run')); toggleRun();
toggleQuiz(); seen.push(measured('a quiz')); toggleQuiz();
openKeys(); seen.push(measured('the keys')); $('#keys').close();
openIndex(); seen.push(measured('the index')); $('#index').close();'''

# On a page of tables: what should be there and is not. Each step has a sentence; where something is not so on every
# path, or a variable has no known value, there is such a path; Skips are drawn; a run has its counts, is as `mir run`
# reports where the page has a report, and after a pass it comes to the same nodes; the edges of the lazy placement are
# those of the row; a quiz hides columns; the index has each unit with each pass; the theme turns; and the page has its
# name.
PARTS = '''
const missing = [];
const wanted = (is, what) => { if (!is) missing.push(what); };
const at = (unit, pass, more) => { Object.assign(state, { unit, pass: pass.at, item: bestItem(pass), col: 0, node: 1,
  view: 'graph', ...more }); show(); };
const isPath = (stage, path) => path?.length && path.every((n, k) => !k || stage.nodes[path[k - 1]][1].includes(n));
UNITS.forEach((unit, which) => passesOf(unit).forEach(pass => {
  const name = `${unit.name}, ${pass.title}`, { nodes } = pass.before;
  range(Math.max(itemsOf(pass).length, 1)).forEach(item => columnsOf(pass, item).forEach(one => {
    wanted(one.say, `${name}: no sentence for ${one.id}`);
    const onEvery = one.bits && (pass.name === 'copies' || ['available', 'anticipatable', 'delayed'].includes(one.id));
    if (onEvery) one.bits.forEach((bit, n) => {
      const path = one.why(n).path, end = one.id === 'anticipatable' ? 0 : -1;
      if (!bit && n) wanted(isPath(pass.before, path) && path.at(end) === n, `${name}: no path for ${one.id} at ${n}`);
    });
    if (pass.name === 'fold' && one.values && !one.marks) one.values.forEach((value, n) => {
      if (value !== '?' || !n) return;
      const { path } = one.why(n);
      wanted(isPath(pass.before, path) && path.at(-1) === n, `${name}: no path for ${one.id} at ${n}`);
    });
  }));
  at(which, pass);
  const drawn = document.querySelectorAll('#stage g.node.skip').length;
  if (columnNow()?.id !== 'after') wanted(drawn === nodes.filter(node => node[0] === 'skip').length, `${name}: Skips`);
}));
UNITS.forEach((unit, which) => passesOf(unit).filter(pass => pass.name === 'motion').forEach(pass => {
  itemsOf(pass).forEach((item, number) => {
    at(which, pass, { item: number, view: 'busy', blocks: false });
    const figures = document.querySelectorAll('#stage figure');
    [['busy held', 'busy'], ['held', 'lazy']].forEach(([title, placement], side) =>
      wanted(figures[side]?.querySelectorAll('path.edge.live[marker-end]').length ===
        item.edges[title].replaceAll('0', '').length, `${unit.name}, ${item.text}: the edges of the ${placement} placement`));
  });
  at(which, pass, { quiz: true, col: 1, blocks: null });
  for (const cell of document.querySelectorAll('#grid td[data-col]')) if (columnsNow()[cell.dataset.col].id !== 'after')
    wanted(/veiled|ask/.test(cell.className) === Number(cell.dataset.col) > 0, `${unit.name}: a column of the quiz`);
  state.quiz = false;
}));
UNITS.forEach(unit => passesOf(unit).slice(1).forEach(pass => {
  const [before, after] = walks(unit, unit.stages[0].received.map(() => 1n)).slice(pass.at - 1);
  if (before.running || after.running) return;
  together(pass, before, after).forEach((at, k) => {
    const { n, unit: whose, depth } = before.steps[k], m = pass.became[n], kind = pass.before.nodes[n]?.[0];
    wanted(after.steps[at].depth === depth || kind === 'skip', `${unit.name}, ${pass.title}: the frames of step ${k}`);
    if (whose === unit && m !== null && kind !== 'skip' && pass.after.nodes[m][0] === kind)
      wanted(after.steps[at].n === m, `${unit.name}, ${pass.title}: the run after it at ${n}`);
  });
}));
goUnit(0);
toggleRun();
state.at = 2; show();
wanted(document.querySelectorAll('#stage g.count').length, 'counts of a run');
wanted(/evaluations|before the pass/.test($('#told').textContent), 'evaluations of a run');
wanted(/as mir run reports at each stage/.test($('#told').textContent) === Boolean(UNITS[0].program.runs.length),
  'that the walks are as reported');
toggleRun();
openIndex();
wanted(document.querySelectorAll('#index tbody tr').length === UNITS.length, 'the units of the index');
$('#index').close();
const ground = () => getComputedStyle(document.body).backgroundColor, was = ground();
toggleTheme();
wanted(ground() !== was, 'the other theme');
wanted($('#program').textContent === document.title && document.title === NAME, 'the name');
return [[...new Set(missing)].slice(0, 9)];
'''

# On a page of tables: of each sinking its name, how many nodes are told to change, and the lines of the two texts, each
# with whether it is marked.
MARKS = '''
const seen = [];
const words = line => [...line.lastElementChild.childNodes].filter(part => part.nodeName !== 'B')
  .map(part => part.textContent).join('');
UNITS.forEach((unit, which) => passesOf(unit).filter(pass => pass.name === 'sink').forEach(pass => {
  Object.assign(state, { unit: which, pass: pass.at, view: 'text' });
  show();
  seen.push([pass.title, pass.count, ...[...document.querySelectorAll('#stage .texts pre')].map(text =>
    [...text.querySelectorAll('.line')].map(line => [line.matches('.old, .new, .chg'), words(line)]))]);
}));
return seen;
'''

# Of each sinking of the nested loops the lines that are marked before it and after it; in the third all keep order.
MOVED = {
    'sink 1': (['j <- j + 1', 'x <- h1', 'y <- h2', 's <- s + h2'],
               ['j <- j + 1', 's <- s + h2', *['x <- h1', 'y <- h2', 's <- s + h2'] * 2]),
    'sink 2': (['s <- s + h1'], ['s <- s + h1'] * 3),
    'sink 3': ([], []),
}

# How wide a page may be, and how small its letters, in pixels.
WIDE, SMALL = 1024, 9.9

# On a page of tables: presses keys one after the other, and tells after each what is shown. A dialogue is closed again.
STEPS = '''
const seen = [];
Object.assign(state, { blocks: false, theme: 'light' });
for (const key of KEYS_PRESSED) {
  document.dispatchEvent(new KeyboardEvent('keydown', { key, bubbles: true, cancelable: true }));
  seen.push([passNow().title, columnNow()?.id || '', state.node, state.view, document.body.className,
    $('#run').hidden ? '' : $('#told').textContent.trim(), $('dialog[open]')?.id || '', unitNow().name, state.item,
    state.zoom, state.blocks, document.documentElement.dataset.theme, Boolean(guesses.get(guessKey())?.[state.node]),
    state.quiz && !hidden(state.col)]);
  $('dialog[open]')?.close();
}
return seen;
'''

# Of each key on the page of the diamond, which begins at code motion, and on that of the counter, which of these is then
# so: the pass, the column, the node, the view, whether a quiz runs, what a run tells, which dialogue is open, the unit,
# the number of the expression, the size, whether the graph is by blocks, the theme, and in a quiz whether the node is
# marked and the column is checked. What does not change is left out.
STEPPED = {'diamond': (
    ('ArrowRight', {'column': 'killed'}), ('l', {'column': 'available'}), ('ArrowDown', {'node': 2}), ('k', {'node': 1}),
    ('h', {'column': 'killed'}), ('ArrowLeft', {'column': 'used'}), (']', {'pass': 'copies again', 'column': 'after'}),
    ('[', {'pass': 'motion', 'column': 'used'}), ('{', {'pass': 'source', 'column': ''}),
    ('}', {'pass': 'motion', 'column': 'used'}), ('x', {'view': 'text'}), ('a', {'view': 'both'}), ('b', {'view': 'busy'}),
    ('v', {'view': 'verdicts'}), ('g', {'view': 'graph'}), ('q', {'quiz': 'quizzing'}), ('j', {'node': 2}), ('j', {'node': 8}), (' ', {'marked': True}),
    ('ArrowUp', {'node': 2, 'marked': False}), ('Enter', {'checked': True, 'node': 8, 'marked': True}),
    ('q', {'quiz': '', 'checked': False}), ('Home', {'node': 0, 'marked': False}), ('End', {'node': 9}), ('Home', {'node': 0}),
    ('PageDown', {'column': 'killed'}), ('PageDown', {'column': 'available', 'node': 4}),
    ('PageUp', {'column': 'killed', 'node': 0}), ('c', {'blocks': True}), ('c', {'blocks': False}), ('+', {'size': 1}),
    ('-', {'size': 0}), ('-', {'size': -1}), ('0', {'size': 0}), ('t', {'theme': 'dark'}), ('t', {'theme': 'light'}),
    ('r', {'run': 'step 0 of 7, at 0'}), ('.', {'run': 'step 1 of 7, at 1', 'node': 1}),
    (',', {'run': 'step 0 of 7, at 0', 'node': 0}),
    ('r', {'run': ''}), ('i', {'dialogue': 'index'}), ('?', {'dialogue': 'keys'}),
), 'counter': (
    ('n', {'unit': 'step'}), ('e', {'item': 1}), ('E', {'item': 0}), ('E', {'item': 1}),
    ('p', {'unit': 'main', 'item': 0}), ('p', {'unit': 'step'}), ('n', {'unit': 'main'}),
)}
TOLD = ('pass', 'column', 'node', 'view', 'quiz', 'run', 'dialogue', 'unit', 'item', 'size', 'blocks', 'theme', 'marked',
        'checked')

# Of three programs, one of loops, one of divisions, one of globals and calls, what is read by the keyboard alone: what
# the verdicts of code motion say, after which keys a run is at which frames with which counts before and after the pass,
# and what the bar says of each pass.
READ = {
    'nested_loops': {
        'verdicts': ['a * n moves from 4 to 11: there h1 is set, and it is read at 4.',
                     'a + i moves from 5 to 12', 'The earliest node where it may stand is 2: above it 1 assigns i.',
                     'j + 1 stays at 3. On the path 3→4→5→6→7→8→13→3 3 assigns j'],
        'inputs': ['2', '3'],
        'frames': [('r', 'main at 0 Start', 0, 0), ('.', 'main at 11 skip', 0, 1), ('.', 'main at 1 i <- i + 1', 1, 2)],
        'bar': {'clean': '–', 'split': '–', 'motion': '4'},
    },
    'division_over_test': {
        'verdicts': ['a / b stays at 2 and 4: it could trap. divisions may move it, move does not.',
                     'x + 1 stays at 3. No path evaluates it twice, so there is nothing to save.'],
        'inputs': ['7', '2'],
        'frames': [('r', 'main at 0 Start', 0, 0), ('.', 'main at 1 if a > 9', 0, 0)],
        'bar': {'motion': '–'},
    },
    'counter': {
        'verdicts': ['n - x stays at 3. On the path 3→7→1→2→3 2 assigns x, and no other path brings an earlier value of it.'],
        'inputs': ['5'],
        'frames': [('r', 'main at 0 Start', 0, 0), ('.', 'main at 6 skip', 0, 0), ('.', 'main at 1 if n <= 0', 0, 0),
                   ('.', 'main at 2 x <- step,(n,int)', 0, 0),
                   ('.', 'main at 2 x <- step,(n,int), step at 0 Start', 0, 0),
                   ('.', 'main at 2 x <- step,(n,int), step at 1 calls <- calls + 1', 1, 1)],
        'bar': {'motion': '–'},
    },
}

# What the tables of the other commands say of three programs: with loops and a division, with self tail calls, and with
# leaves; by the key that leads to them, their word, and a part of their verdicts.
COMMANDED = {
    'division_out_of_loop': ('2', 'divisions', 'a / b moves from 1 to 6: there h1 is set, and it is read at 1.'),
    'tail_sum': ('3', 'tails', '4 calls the unit itself, and its answer is returned next'),
    'helpers': ('4', 'join', '2 calls scaled, a leaf of 5 instructions: the code of it stands there now.'),
}

# What is shown at one time: the text of the verdicts, the frames of a run and its two counts, what the bar has, how wide
# the page is, and which cells are cut.
SHOWN = '''(() => {
  const words = one => (one?.textContent ?? '').replace(/\\s+/g, ' ').trim();
  const cut = [...document.querySelectorAll('#grid td.wide')].filter(one => one.scrollWidth > one.clientWidth + 1).map(words);
  return { verdicts: words($('.verdicts')), lesson: words($('#lesson')), frames: [...document.querySelectorAll('.frames li')].map(words).join(', '),
    counts: [...document.querySelectorAll('#told .bar b')].map(one => Number(one.textContent)),
    bar: Object.fromEntries([...document.querySelectorAll('#pipeline button')].map(one => [words(one.querySelector('.name')),
      words(one.querySelector('.less')) || words(one.querySelector('.what')).split(' ')[0]])),
    wide: document.documentElement.scrollWidth, cut, unit: unitNow().name };
})()'''

# The columns that have not a bit or a value for each node.
LACKING = '''UNITS.flatMap(unit => passesOf(unit).flatMap(pass => range(Math.max(itemsOf(pass).length, 1)).flatMap(at =>
  columnsOf(pass, KIND_OF_ITEM[pass.name] ? at : 0).filter(one => (one.bits ?? one.values).length !== pass.before.nodes.length)
    .map(one => `${unit.name}, ${pass.title}: ${one.id}`))))'''

# Whether the row of now, and what stands before it, can be seen whole in the box of the table, and the box in the window.
IN_SIGHT = '''(() => {
  const box = $('#table .scroll').getBoundingClientRect(), head = $('#grid thead th').getBoundingClientRect();
  return [$('tr.here'), $('tr.here').previousElementSibling].filter(Boolean).every(row => {
    const at = row.getBoundingClientRect();
    return at.top >= head.bottom - 1 && at.bottom <= Math.min(box.bottom, window.innerHeight) + 1;
  });
})()'''

# What is handed in once the nodes of the first column of code motion of the diamond are marked by the keyboard, one of
# them wrongly, and a line of the answers.
HANDED_IN = ['exercise diamond_tables', 'main; motion; a + b; used; 0001000010; 8 of 10', 'score 8 of 10', '']
ANSWER = 'main; motion; a + b; used; 0001010000'
