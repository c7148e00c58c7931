// ---- the clicker of a lecturer: column by column, pass by pass, each at a node that tells something

function tellingNode(pass, one) {
  if (!one) return state.node;
  if (!one.bits) {
    const at = pass.change.findIndex((what, n) => one.marks ? what !== 'same' ||
      pass.puts[n].length : one.values[n] !== '' && n > 0 && one.values[n] !== one.values[n - 1]);
    return at < 0 ? state.node : at;
  }
  const bits = name => isMotion(pass) ||
    pass.name === 'sink' ? bitsOf(itemsOf(pass)[state.item].rows, name) : [];
  const skip = n => pass.before.nodes[n][0] === 'skip', used = bits('used'), latest = bits('latest'),
    yes = where(one.bits);
  const wish = { killed: n => n > 0, anticipatable: n => !used[n], latest: skip, inserted: skip,
    isolated: n => latest[n], available: n => !used[n], delayed: n => !bits('earliest')[n] && !used[n],
    blocked: n => n > 0 && bits('delayed')[n] }[one.id] || (() => true);
  const found = yes.find(wish) ?? yes[0] ?? (latest.includes(true) &&
    ['isolated', 'inserted', 'replaced'].includes(one.id) ? latest.indexOf(true) : used.includes(true)
    ? used.indexOf(true) : state.node);
  return one.id === 'isolated' && !yes.some(wish) && latest.includes(true) ? latest.indexOf(true) : found;
}

function click(by) {
  const to = state.col + by;
  if (to >= 0 && to < columnsNow().length) state.col = to;
  else {
    const was = state.pass;
    stepPass(by, true);
    if (state.pass === was) return;
    state.col = by > 0 ? 0 : Math.max(columnsNow().length - 1, 0);
  }
  state.node = tellingNode(passNow(), columnNow());
  show(true);
}

// What was and becomes of a node, from the source to the result.
function story(pass, n) {
  const passes = passesOf(unitNow()), parts = [];
  let at = pass.first ? 0 : pass.at - 1, m = n;
  while (at > 0 && passes[at].old[m] !== null && passes[at].old[m] >= 0) { m = passes[at].old[m]; at--; }
  const born = passes[at].after.nodes[m];
  if (at === 0) parts.push(m ? `node ${m} of the source` : 'Start');
  else parts.push(passes[at].old[m] === null ||
    passes[at].old[m] >= 0 ? `new in ${passes[at].title}` : `what ${passes[at].title} left of an assignment`);
  for (let next = at + 1; next < passes.length; next++) {
    const on = passes[next].became[m], what = passes[next].change[m];
    if (on === null) { parts.push(`gone in ${passes[next].title}`); break; }
    if (what === 'changed') parts.push(`${code(passes[next].after.nodes[on][3])} in ${passes[next].title}`);
    m = on;
    if (next === passes.length - 1) parts.push(`node ${m} of the result`);
  }
  return parts.join('; ');
}

// ---- what is remembered in the address

// Where the reader is.
function placeNow() {
  const pass = passNow(), parts = new URLSearchParams({ unit: unitNow().name, pass: pass.after.name });
  if (state.command) parts.set('of', COMMANDS[state.command].word);
  if (state.item) parts.set('item', state.item);
  if (columnNow()) parts.set('col', columnNow().id);
  parts.set('node', state.node);
  if (state.view !== 'graph') parts.set('view', state.view);
  if (state.quiz) parts.set('quiz', 1);
  if (state.run) { parts.set('from', rootNow().name); parts.set('run', state.run.join(',')); parts.set('at', state.at); }
  if (state.theme) parts.set('theme', state.theme);
  if (state.blocks !== null) parts.set('blocks', Number(state.blocks));
  return parts.toString();
}

function remember() {
  const hash = '#' + placeNow();
  if (location.hash !== hash) try { history.replaceState(null, '', hash); } catch { /* a page without an address */ }
}

// The units of the tables that are shown, to be chosen.
function fillUnits() {
  $('#unit').innerHTML = UNITS.map((unit, at) => `<option value="${at}">${esc(unit.name)}</option>`).join('');
}

// Goes to the tables of another command, at the same unit, or asks for them.
function goCommand(to) {
  if (COMMANDS[to]?.choose) return COMMANDS[to].choose();
  if (to === state.command || !COMMANDS[to]) return;
  const { name } = unitNow();
  state.command = to;
  takeCommand(to);
  fillUnits();
  goUnit(Math.max(UNITS.findIndex(unit => unit.name === name), 0));
}

// What a place has of the tables of its command alone.
const OF_COMMAND = ['pass', 'item', 'col', 'node', 'from', 'run', 'at'];

// Goes to a place, as far as it is there; in the tables of another command than its own, to its unit.
function recall(place) {
  const parts = new URLSearchParams(place), word = parts.get('of') ?? COMMANDS[0].word;
  const own = COMMANDS.findIndex(one => one.word === word && one.text !== null);
  if (own < 0) for (const part of OF_COMMAND) parts.delete(part);
  state.command = own < 0 ? COMMANDS.findIndex(one => one.text !== null) : own;
  takeCommand(state.command);
  fillUnits();
  state.unit = Math.max(UNITS.findIndex(unit => unit.name === parts.get('unit')), 0);
  const passes = passesOf(unitNow()), pass = passes.findIndex(one => one.after.name === parts.get('pass'));
  state.pass = pass >= 0 ? pass : Math.max(passes.findIndex(one => MAIN.includes(one.name)), 0);
  state.item = parts.has('item') ? Number(parts.get('item')) || 0 : bestItem(passNow());
  state.node = Number(parts.get('node') ?? 1) || 0;
  clamp();
  state.col = Math.max(columnsNow().findIndex(one => one.id === parts.get('col')), 0);
  state.view = parts.get('view') || 'graph';
  state.quiz = parts.get('quiz') === '1';
  state.theme = parts.get('theme');
  state.blocks = parts.has('blocks') ? parts.get('blocks') === '1' : null;
  if (parts.has('line')) goLine(parts);
  fillInputs();
  recallRun(parts);
}

// Goes to the reason of a line that a stage of `mir stages` has and the one before has not, or the other way round: there
// a round is one stage, here its assignments sink first.
function goLine(parts) {
  const name = parts.get('pass'), isNew = parts.get('side') === 'after', nth = Number(parts.get('nth')) || 0;
  const text = parts.get('line').replace(/^(\w+: )+/, '').replace(/ ?\bgoto \w+$/, '');
  for (const pass of passesOf(unitNow())) {
    if (![name, name.replace('round', 'sunk')].includes(pass.after.name) || pass.first) continue;
    const found = (isNew ? newLines : goneLines)(pass, text)[nth];
    if (!found) continue;
    Object.assign(state, { pass: pass.at, node: found.n, col: 0 });
    state.item = Math.max(itemsOf(pass).findIndex(item => found.isItem?.(item)), 0);
    const col = columnsNow().findIndex(one => one.id === found.col);
    state.col = col < 0 ? columnsNow().length - 1 : col;
    return;
  }
  goRow(name, text, isNew, nth);
}

// Goes to the row of a line that the tables have as it was, since it stands or leads elsewhere alone. Of a jump that is new
// it is the row of where it leads, of one that goes its own.
function goRow(name, text, isNew, nth) {
  const pass = passesOf(unitNow()).find(one => one.after.name === name && !one.first);
  if (!pass) return;
  const stage = isNew ? pass.after : pass.before, alike = n => stage.nodes[n][3] === text;
  const jumps = linesOf(stage).filter(([n, words]) => words === 'goto' && (isNew ? pass.old : pass.became)[n] === null);
  const found = text ? inTextOrder(stage, range(stage.nodes.length)).filter(alike)[nth] : jumps[nth]?.[isNew ? 2 : 0];
  const n = isNew ? pass.old[found] : found;
  Object.assign(state, { pass: pass.at, node: n >= 0 ? n : state.node });
  state.col = columnsNow().length - 1;
}

// Of a text the nodes that a pass makes anew or changes into it, each with the choice and the column that tell why.
function newLines(pass, text) {
  const made = inTextOrder(pass.after, range(pass.after.nodes.length)).filter(m => pass.after.nodes[m][3] === text);
  const [into] = text.split(' <- ');
  return made.flatMap(m => {
    const n = pass.old[m] ?? pass.puts.findIndex(those => those.includes(m));
    if (n < 0 || pass.old[m] !== null && pass.change[n] === 'same') return [];
    if (isMotion(pass)) return [{ n, isItem: item => item.temp !== null && (item.temp === into ||
      text.endsWith(` <- ${item.temp}`)), col: pass.old[m] === null ? 'inserted' : 'replaced' }];
    return [{ n, isItem: item => pass.name === 'sink' && item.text === text, col: pass.name === 'sink' ? 'inserted' : 'after' }];
  });
}

// Of a text the nodes that a pass changes or drops.
function goneLines(pass, text) {
  const gone = inTextOrder(pass.before, range(pass.before.nodes.length)).filter(n => pass.before.nodes[n][3] === text &&
    pass.change[n] !== 'same');
  const [into, right] = text.split(' <- ');
  const told = { motion: { isItem: item => item.text === right, col: 'replaced' }, sink: { isItem: item => item.text === text,
    col: 'occurs' }, prune: { isItem: item => item.text === into, col: 'dead' }, number: { col: 'holder' } };
  return gone.map(n => ({ n, ...told[pass.name] ?? { col: 'after' } }));
}

// Goes to a step of a run, where the place has one.
function recallRun(parts) {
  state.run = null;
  if (!parts.has('run')) return;
  try { state.run = parts.get('run') ? parts.get('run').split(',').map(one => BigInt(one)) : []; } catch { return; }
  state.at = Number(parts.get('at')) || 0;
  const { unit } = state, root = UNITS.findIndex(one => one.name === parts.get('from'));
  if (root >= 0 && root !== unit) {
    state.unit = root;
    fillInputs();
    state.unit = unit;
  }
  state.run.forEach((value, k) => { const box = $(`#run [name=in${k}]`); if (box) box.value = value; });
}

// ---- what the reader does

function toggleTheme() {
  const dark = state.theme ? state.theme === 'dark' : matchMedia('(prefers-color-scheme: dark)').matches;
  state.theme = dark ? 'light' : 'dark';
  show();
}

function toggleBlocks() { state.blocks = !byBlocks(); show(); }

function toggleRun() {
  if (state.run) { state.run = null; show(); return; }
  const known = unitNow().first && unitNow().program.runs[0];
  startRun(known ? known.inputs.map(BigInt) : readRun());
}

document.addEventListener('click', event => {
  const at = event.target.closest('[data-go], [data-pass], [data-item], [data-col], [data-view], [data-zoom], [data-unit], [data-report], [data-command], g.node, button');
  if (!at) return;
  if (at.dataset.go !== undefined) { state.node = Number(at.dataset.go); show(); }
  else if (at.dataset.pass !== undefined) goPass(Number(at.dataset.pass));
  else if (at.dataset.command !== undefined) goCommand(Number(at.dataset.command));
  else if (at.dataset.item !== undefined) { state.item = Number(at.dataset.item); show(); }
  else if (at.tagName === 'TD') {
    const n = Number(at.parentElement.dataset.n), col = Number(at.dataset.col);
    const asked = state.quiz && col === state.col && hidden(col) && columnsNow()[col].bits;
    state.node = n;
    if (asked) { guessAt(n); return; }
    if (!(state.quiz && hidden(col))) state.col = col;
    show(true);
  } else if (at.dataset.col !== undefined) { state.col = Number(at.dataset.col); show(); }
  else if (at.dataset.view !== undefined) { state.view = at.dataset.view; show();
    $('#views [aria-selected=true]').focus(); }
  else if (at.dataset.zoom !== undefined) { state.zoom = at.dataset.zoom === '0' ? 0
    : state.zoom + Number(at.dataset.zoom); fit(); }
  else if (at.dataset.report !== undefined) startRun(unitNow()
    .program.runs[Number(at.dataset.report)].inputs.map(BigInt));
  else if (at.dataset.unit !== undefined) { $('#index').close(); goUnit(Number(at.dataset.unit));
    goPass(Number(at.dataset.to)); }
  else if (at.classList.contains('node')) {
    const key = at.dataset.k;
    if (key[0] === 'b') {
      const n = Number(key.slice(1));
      if (state.quiz && hidden(state.col) && columnNow()?.bits) guessAt(n); else { state.node = n; show(); }
    }
  } else ({ 'b-index': openIndex, 'b-quiz': toggleQuiz, 'b-run': toggleRun, 'b-theme': toggleTheme,
    'b-keys': openKeys, blocks: toggleBlocks, check, again() { checked.delete(guessKey()); show(); },
    sheet: printSheet, handin: handIn, answers: giveAnswers,
    'b-left': ACTIONS.ArrowLeft, 'b-right': ACTIONS.ArrowRight, back: ACTIONS[','], on: ACTIONS['.'] })[at.id]?.();
});

$('#unit').addEventListener('change', event => goUnit(Number(event.target.value)));
$('#run').addEventListener('submit', event => { event.preventDefault(); startRun(readRun()); });
$('#run').addEventListener('input', event => { if (event.target.id === 'at')
  goStep(Number(event.target.value)); });

// A node under the pointer or with the focus is lit wherever it stands.
function light(event) {
  const key = event.target.closest?.('[data-k]')?.dataset.k;
  for (const one of document.querySelectorAll('.lit')) one.classList.remove('lit');
  const go = event.target.closest?.('[data-go]')?.dataset.go;
  const lit = key || (go !== undefined && 'b' + go);
  if (lit) for (const one of document.querySelectorAll(`[data-k="${lit}"]`)) one.classList.add('lit');
}
document.addEventListener('pointerover', light);
document.addEventListener('focusin', light);

function stepPass(by, skip) {
  const passes = passesOf(unitNow());
  let to = state.pass + by;
  while (skip && to > 0 && to < passes.length - 1 && !passes[to].count) to += by;
  goPass(to);
}

function stepItem(by) {
  const count = itemsOf(passNow()).length;
  if (!KIND_OF_ITEM[passNow().name] || !count) return;
  state.item = (state.item + by + count) % count;
  show(true);
}

// Goes so many rows down the table.
function goNode(rows) {
  state.node = nodeBy(rows);
  show(true);
}

// Does what is for a quiz alone, and what is for a run.
function inQuiz(action) {
  if (!state.quiz) return false;
  action();
  return true;
}
function inRun(action) {
  if (!state.run) return false;
  action();
  return true;
}

const view = id => () => { state.view = state.view === id ? 'graph' : id; show(); };
const ACTIONS = {
  ArrowRight: () => { state.col++; show(true); }, ArrowLeft: () => { state.col--; show(true); },
  ArrowDown: () => goNode(1), ArrowUp: () => goNode(-1), Home: () => goNode(-Infinity), End: () => goNode(Infinity),
  ']': () => stepPass(1), '[': () => stepPass(-1), '}': () => stepPass(1, true), '{': () => stepPass(-1, true),
    PageDown: () => click(1), PageUp: () => click(-1),
  e: () => stepItem(1), E: () => stepItem(-1), n: () => goUnit(state.unit + 1), p: () => goUnit(state.unit - 1),
  c: toggleBlocks, g: view('graph'), x: view('text'), a: view('both'), b: view('busy'), v: view('verdicts'),
    r: toggleRun, q: toggleQuiz, w: printSheet, o: () => inQuiz(handIn), O: () => inQuiz(giveAnswers), t: toggleTheme, i: openIndex, '?': openKeys,
  '.': () => inRun(() => goStep(state.at + 1)), ',': () => inRun(() => goStep(state.at - 1)),
  '>': () => inRun(() => stepOver(1)), '<': () => inRun(() => stepOver(-1)), '+': () => { state.zoom++; fit(); },
    '-': () => { state.zoom--; fit(); }, 0: () => { state.zoom = 0; fit(); },
  ' ': () => { if (state.quiz && hidden(state.col) && columnNow()?.bits) guessAt(state.node); else return false; },
  Enter: () => { if (state.quiz && hidden(state.col)) check(); else return false; },
};
for (const key of '1234567') ACTIONS[key] = () => goCommand(Number(key) - 1);
Object.assign(ACTIONS, { l: ACTIONS.ArrowRight, h: ACTIONS.ArrowLeft, j: ACTIONS.ArrowDown, k: ACTIONS.ArrowUp });
document.addEventListener('keydown', event => {
  if (event.ctrlKey || event.altKey || event.metaKey || $('dialog[open]')) return;
  const at = event.target;
  if (['INPUT', 'SELECT', 'TEXTAREA'].includes(at.tagName)) return;
  if ((event.key === ' ' || event.key === 'Enter') && at.tagName === 'BUTTON') return;
  const action = ACTIONS[event.key];
  if (action && action() !== false) event.preventDefault();
});
window.addEventListener('resize', () => { fit(); inView(); showRowsInSight(); });
window.addEventListener('hashchange', () => { recall(location.hash.slice(1)); show(); });

// What has come into sight is drawn; and all of it where the page is printed.
document.addEventListener('scroll', event => {
  if (event.target === $('#table .scroll')) showRowsInSight();
  else if (event.target.matches?.('#stage .scroll')) drawBands(event.target);
}, true);
window.addEventListener('beforeprint', () => {
  if (!UNITS.length) return;
  showTable(passNow(), { all: true });
  for (const box of document.querySelectorAll('#stage .graph .scroll')) drawBands(box, true);
});

// So many pictures are kept for the next text; and from so many letters on a text takes long enough to be told.
const MOST_PICTURES = 100, LARGE = 16_000_000;

// Takes the tables of a program, and shows them where the reader was, at the same choice where there is one, or at the
// place that comes with them; those of another command at the same unit.
function load(data) { return worked(data.text.length, LARGE, () => taken(data)); }

// What `load` does, once it has told of it.
function taken(data) {
  const place = data.place ?? (UNITS.length ? placeNow() : location.hash.slice(1));
  const chosen = UNITS.length ? itemsOf(passNow())[state.item]?.text : undefined, was = COMMANDS[state.command]?.word;
  takeProgram(data);
  if (PICTURES.size > MOST_PICTURES) PICTURES.clear();
  for (const one of [guesses, checked, firsts]) one.clear();
  document.title = $('#program').textContent = data.name;
  recall(place);
  const isThere = data.place === undefined && COMMANDS[state.command].word === was;
  const same = isThere ? itemsOf(passNow()).findIndex(item => item.text === chosen) : -1;
  if (same >= 0) state.item = same;
  show();
}

const ON_PAGE = $('#data').textContent;
worked(ON_PAGE.length, LARGE, () => {
  const data = JSON.parse(ON_PAGE);
  takeLayouts(data.layouts ?? []);
  if (data.text) taken(data);
});
