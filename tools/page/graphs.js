// ---- what the page is made of

// The units of the program, each with the program: its name, and runs of it with their reports.
let UNITS = [];

// The commands of `mir` whose tables there are, each with its text and the units that are read of it when it is shown.
// Where `words` names commands, all of these are there, though one alone has a text: another is asked for by `choose`,
// which brings its text by another `load`.
let COMMANDS = [];
function takeProgram({ text, name, runs = [], words = null, choose }) {
  const found = textsOf(text).map((one, at) => ({ ...one, program: { name, runs: at ? [] : runs }, units: null }));
  COMMANDS = words?.map(word => ({ ...found.find(one => one.word === word) ?? { word, text: null },
    choose: () => choose(word) })) ?? found;
  takeCommand(COMMANDS.findIndex(one => one.text !== null));
}
function takeCommand(at) {
  const command = COMMANDS[at];
  command.units ??= readTables(command.text).map((unit, number) =>
    Object.assign(unit, { program: command.program, first: number === 0 }));
  UNITS = command.units;
}

// Whether a pass moves evaluations: all that may move, or divisions.
const isMotion = pass => pass.name === 'motion' || pass.name === 'divisions';

// The passes to which the page goes first, in the tables of each command.
const MAIN = ['motion', 'divisions', 'tails', 'join'];
const $ = selector => document.querySelector(selector);
const esc = text => String(text).replace(/[&<>"]/g,
  c => ({ '&': '&amp;', '<': '&lt;', '>': '&gt;', '"': '&quot;' })[c]);
const range = count => [...Array(count).keys()];
const code = text => `<code>${esc(text)}</code>`;
const state = { unit: 0, pass: 0, item: 0, col: 0, node: 1, view: 'graph', quiz: false, run: null, at: 0, root: 0, command: 0, zoom: 0,
  theme: null, blocks: null };

// the passes: what each is called, and what it does in one sentence
const SAY = {
  lower: ['source', 'The unit as a graph: one node for each step. Start gives the received variables their values, and a jump is a Skip.'],
  clean: ['clean', 'Jumps to jumps, tests that make no difference and nodes that are not reached go away.'],
  fold: ['fold', 'What is known to be one constant on every path is read as that constant; a test whose answer is known is decided.'],
  number: ['number', 'A right side whose value some variable already has becomes that variable, under whatever names it was computed.'],
  copies: ['copies', 'Where v is a copy of w, w is read in the place of v, so that the copy may die.'],
  split: ['split', 'Each edge into a join gets a Skip: a place of its own for an evaluation that only this edge needs.'],
  motion: ['motion', 'Each expression is evaluated as late as can be and, on every path, as rarely as any admissible placement can.'],
  divisions: ['divisions', 'Each division is evaluated as late as can be and as rarely as can be, where each run is sure to come to it before anything is seen.'],
  tails: ['tails', 'A call of the unit itself whose answer is returned next becomes a jump to its beginning.'],
  bounds: ['bounds', 'Where the value of a variable lies between two numbers, tests and trap instructions may be decided, and right sides known.'],
  wanted: ['wanted', 'Assignments of which no bit can matter go, and so do operators and shifts that change no bit that can.'],
  demanded: ['demanded', 'The same where of what units hand over to one another no more bits can matter than the others want.'],
  join: ['join', 'A call of a leaf, a small unit that calls none, becomes the code of that unit.'],
  sink: ['sink', 'An assignment is put off along each path to where its value is needed.'],
  prune: ['prune', 'An assignment whose variable nobody reads before it is assigned again goes away.'],
};
const HUES = { used: 212, killed: 2, available: 140, anticipatable: 178, earliest: 30, delayed: 50, latest: 14,
  isolated: 268,
  sure: 178, inserted: 322, replaced: 238, after: 90, held: 150, occurs: 212, blocked: 2, 'live before': 150,
    'live after': 178, dead: 2,
  read: 212, assigned: 30, join: 30, reached: 140 };

// the same as equations, where they are; `in` and `out` are all predecessors and all successors. Code motion and divisions
// share them but for the rule by which an evaluation may stand at a node.
const OF_MOTION = rule => ({ available: 'not Start, and every pred: not killed, and used or available',
  anticipatable: 'used; or not killed, no Return, and every succ: anticipatable',
  earliest: `${rule}, and some pred: killed, or neither available nor ${rule}`,
  delayed: 'earliest; or, not Start, every pred: delayed and not used',
  latest: 'delayed, and used or some succ: not delayed', isolated: 'every succ: latest, or isolated and not used',
  inserted: 'latest and not isolated', replaced: 'used, and not both latest and isolated',
  held: 'an edge to a node that is not inserted, and is replaced with a Return behind it, or has an edge that is held' });
const RULE = {
  motion: OF_MOTION('anticipatable'),
  divisions: { ...OF_MOTION('sure'),
    sure: 'used; or neither killed, nor a print, a trap instruction, a call, a Return or another division, and every succ: sure within fewer nodes' },
  sink: { delayed: 'not Start, and every pred: occurs, or delayed and not blocked',
    inserted: 'delayed, and blocked or some succ: not delayed' },
  prune: { 'live before': 'read, or not assigned and live after', 'live after': 'some succ: live before',
    dead: 'assigned, not live after, and the right side does not divide' },
};

// ---- nodes and graphs

const RELATIONS = new Set(['=', '!=', '<', '<=', '>', '>=']);
const isVar = word => /^[A-Za-z]/.test(word);

// What a node reads, assigns and computes, from its text. A call and a return read the globals, and a call assigns them.
function parsed(node) {
  if (node.parsed) return node.parsed;
  const [kind, , , whole, shared = []] = node, text = kind === 'guard' ? whole.split(' trap ')[0] : whole;
  const found = { kind, into: null, op: null, args: [], callee: null, right: null, shared,
    trap: kind === 'guard' ? Number(whole.split(' trap ')[1]) : 0 };
  if (kind === 'assign' || (kind === 'call' && text.includes('<-'))) {
    const at = text.indexOf(' <- ');
    found.into = text.slice(0, at);
    found.right = text.slice(at + 4);
  }
  if (kind === 'call') {
    const match = /(\w+),\((.*)\)$/.exec(text);
    found.callee = match[1];
    found.args = match[2] ? match[2].split(';').map(one => one.split(',')[0]) : [];
  } else if (kind === 'assign' || kind === 'test' || kind === 'guard') {
    const words = (kind === 'assign' ? found.right : text.slice(3)).split(' ');
    if (words.length === 1) found.args = words;
    else if (words.length === 2) [found.op, found.args] = [words[0], [words[1]]];
    else [found.op, found.args] = [words[1], [words[0], words[2]]];
  } else if (kind === 'print' || kind === 'return') found.args = [text.split(' ')[1]];
  found.reads = [...shared, ...found.args.filter(isVar)];
  found.sets = [...new Set([...(kind === 'call' ? shared : []), ...(found.into ? [found.into] : [])])];
  // which of some variables it assigns
  found.setsOf = names => found.sets.filter(name => names.includes(name));
  Object.defineProperty(node, 'parsed', { value: found });
  return found;
}

// The edges of a stage both ways.
function edgesOf(stage) {
  if (!stage.edges) {
    const into = stage.nodes.map(() => []), out = stage.nodes.map(([, succs]) => succs[0] === succs[1] ? succs.slice(1) : succs);
    out.forEach((those, n) => { for (const s of those) into[s].push(n); });
    Object.defineProperty(stage, 'edges', { value: { out, into } });
  }
  return stage.edges;
}

// A shortest path from a node on which `stop` holds at its last one; `on` says which nodes it may pass.
function pathTo(next, from, stop, on = () => true) {
  const before = new Map([[from, null]]);
  for (const at of before.keys()) {
    if (stop(at)) {
      const path = [];
      for (let n = at; n !== null; n = before.get(n)) path.unshift(n);
      return path;
    }
    if (at === from || on(at)) for (const s of next[at]) if (!before.has(s)) before.set(s, at);
  }
  return null;
}

// A shortest path from some neighbours of a node, as above, with the node first; it may come back to the node itself.
function pathOn(next, from, stop, on) {
  let best = null;
  for (const s of next[from]) {
    const path = stop(s) ? [s] : on(s) ? pathTo(next, s, stop, on) : null;
    if (path && (!best || path.length < best.length)) best = path;
  }
  return best && [from, ...best];
}

// The variables of a right side, and whether it could trap.
const rightVars = right => right.split(' ').filter((word, at,
  all) => isVar(word) && at !== (all.length === 3 ? 1 : all.length === 2 ? 0 : -1));
const divides = one => (one.op === '/' || one.op === 'mod') && (isVar(one.args[1]) || one.args[1] === '0');

// ---- words for the reader

const N = n => `<button type="button" class="n" data-go="${n}" tabindex="-1">${n}</button>`;
const list = (ns, most = 14) => {
  if (!ns.length) return 'none';
  const shown = ns.slice(0, most).map(N);
  if (ns.length > most) return shown.join(', ') + ` and ${ns.length - most} more`;
  return shown.length > 1 ? shown.slice(0, -1).join(', ') + ' and ' + shown.at(-1) : shown[0];
};
// A path; of a long one the ends are told, and the nodes about the one that matters. All of it is lit in the graph.
const arrows = (path, pivot = 0) => path.map((n,
  at) => path.length <= 11 || at < 2 || at > path.length - 3 || Math.abs(at - pivot) < 2 ? N(n) : null)
  .filter((one, at, all) => one || all[at - 1]).map(one => one || '…').join('<span class="to">→</span>');
const many = (count, word) => `${count} ${word}${count === 1 ? '' : 's'}`;
