// ---- what a text of tables does not say, and is worked out beside it: which node of the stage before a node was, ends
// of chains, what is held up, where a pattern occurs and a variable is live behind a node, and the terms of right sides

// Gives an object a value that is made when it is first asked for, and answers the object.
function lazily(object, name, make) {
  return Object.defineProperty(object, name, { configurable: true, enumerable: true, get() {
    const value = make();
    Object.defineProperty(object, name, { value, writable: true, enumerable: true });
    return value;
  } });
}

// The nodes that are still reached where calls become loops or the code of leaves: a loop leads to the first node, and
// code that never returns leads nowhere. The others are dropped, and those that are left are numbered anew.
function reachedBeyondCalls(nodes, calls, units, at) {
  const leads = nodes.map(node => node[SUCCS]), reached = new Set([0]);
  for (const { n, name, position } of calls) {
    const callee = units.find(unit => unit.name === name);
    if (position === 'loop') leads[n] = nodes[0][SUCCS];
    if (position === 'joined' && !callee.stages[at].nodes.some(node => node[KIND] === 'return')) leads[n] = [];
  }
  for (const n of reached) for (const s of leads[n]) reached.add(s);
  return [...reached].sort((one, other) => one - other);
}

// A string of bits, one for each node.
const bitsFor = (nodes, holds) => nodes.map(node => holds(node) ? '1' : '0').join('');

// Puts beside what was read of a pass what the page has at hand, to be made when it is asked for; `old` has of each node
// behind it the number that it had before.
function complete(unit, facts, at, units) {
  const before = unit.stages[at], after = unit.stages[at + 1], { items } = Object.getOwnPropertyDescriptors(facts);
  lazily(facts, 'old', () => oldNumbers(facts, at, unit, units));
  if (facts.name === 'number') lazily(facts, 'rights', () => rightsOf(before, after, facts));
  if (facts.name === 'prune') lazily(facts, 'items', () => items.get()?.map(item => withLiveAfter(before.nodes, item)));
  if (facts.name === 'clean') {
    lazily(facts, 'cleaned', () => cleaned(before.nodes));
    lazily(facts, 'ends', () => facts.cleaned[1]);
  }
  if (facts.name === 'sink') {
    lazily(facts, 'settled', () => settledOf(before.nodes, new Set((facts.items ?? []).map(item => item.text))));
    lazily(facts, 'items', () => items.get()?.map(item => withOccurs(before.nodes, item)));
  }
  return facts;
}

// Of each node behind a pass its number before it, or null where it is new.
function oldNumbers(facts, at, unit, units) {
  const before = unit.stages[at].nodes, after = unit.stages[at + 1].nodes;
  let old = null;
  if (facts.name === 'clean') [old] = facts.cleaned;
  if (['fold', 'bounds'].includes(facts.name)) old = range(before.length).filter(n => facts.states?.[n]);
  if (['tails', 'join'].includes(facts.name) && facts.calls) old = reachedBeyondCalls(before, facts.calls, units, at);
  return after.map((_, number) => (old ? old[number] : number < before.length ? number : null) ?? null);
}

// A pattern with the nodes at which it occurs.
const withOccurs = (nodes, item) =>
  ({ ...item, rows: { occurs: bitsFor(nodes, node => node[TEXT] === item.text), ...item.rows } });

// A variable with the nodes behind which it is live.
function withLiveAfter(nodes, item) {
  const live = item.rows['live before'] ?? '';
  const after = bitsFor(nodes, node => node[SUCCS].some(s => live[s] === '1'));
  return { ...item, rows: { ...item.rows, 'live after': after } };
}

// The end of the chain of Skips from each node; of a chain that turns in a loop the least node of it.
function endsOf(nodes) {
  const ends = [], begun = [];
  nodes.forEach((_, first) => {
    const way = [];
    let n = first;
    while (ends[n] === undefined && begun[n] !== first && nodes[n][KIND] === 'skip') {
      begun[n] = first;
      way.push(n);
      n = nodes[n][SUCCS][0];
    }
    ends[n] ??= begun[n] === first ? Math.min(...way.slice(way.indexOf(n))) : n;
    for (const one of way) ends[one] = ends[n];
  });
  return ends;
}

// The nodes that are left where jumps are cleaned, in order, and the ends of chains at first and at last.
function cleaned(all) {
  const nodes = [...all], first = endsOf(nodes);
  let last = first;
  const isEqual = node => node[KIND] === 'test' && new Set(node[SUCCS].map(s => last[s])).size === 1;
  for (let equal = where(nodes.map(isEqual)); equal.length; equal = where(nodes.map(isEqual))) {
    for (const n of equal) nodes[n] = ['skip', nodes[n][SUCCS].slice(0, 1), ...nodes[n].slice(2)];
    last = endsOf(nodes);
  }
  const reached = new Set([0]);
  for (const n of reached) for (const s of nodes[n][SUCCS]) reached.add(last[s]);
  return [[...reached].sort((one, other) => one - other), { first, last }];
}

// The variables of a right side or a test.
function variablesOf(words) {
  const parts = words.split(' ');
  return [parts, parts.slice(1), [parts[0], parts[2]]][parts.length - 1].filter(isVar);
}

// Whether a right side could trap.
function couldTrap(right) {
  const [, operator, divisor] = right.split(' ');
  return (operator === '/' || operator === 'mod') && divisor !== undefined && (isVar(divisor) || divisor === '0');
}

// What a node reads, and what it sets.
function readsOf(node) {
  const kind = node[KIND], text = node[TEXT];
  if (kind === 'assign') return variablesOf(text.split(' <- ')[1]);
  if (kind === 'test' || kind === 'guard') return variablesOf(text.slice(3).split(' trap ')[0]);
  if (kind === 'call') return [...node[SHARED], ...text.slice(text.indexOf(',(') + 2, -1).split(';')
    .map(one => one.split(',')[0]).filter(isVar)];
  return kind === 'print' || kind === 'return' ? [...node[SHARED], ...variablesOf(text.split(' ')[1])] : [];
}
function setsOf(node) {
  const into = node[TEXT].includes(' <- ') ? [node[TEXT].split(' <- ')[0]] : [];
  return node[KIND] === 'assign' ? into : node[KIND] === 'call' ? [...node[SHARED], ...into] : [];
}

// The node before which an assignment that cannot move is put, or none where it does not come to one that needs it.
function placeOf(nodes, entered, node) {
  const [name, right] = node[TEXT].split(' <- '), own = [name, ...variablesOf(right)];
  let n = node[SUCCS][0];
  for (let steps = 0; steps < nodes.length; steps++) {
    if (n === 0 || readsOf(nodes[n]).includes(name) || setsOf(nodes[n]).some(one => own.includes(one))) return n;
    if (nodes[n][KIND] !== 'skip' || entered[nodes[n][SUCCS][0]] !== 1) return null;
    n = nodes[n][SUCCS][0];
  }
  return null;
}

// The assignments that cannot move, each with the node before which it is put.
function settledOf(nodes, moving) {
  const entered = nodes.map(() => 0), found = new Map();
  for (const node of nodes) for (const s of node[SUCCS]) entered[s]++;
  for (const node of nodes) {
    if (node[KIND] !== 'assign' || moving.has(node[TEXT]) || couldTrap(node[TEXT].split(' <- ')[1])) continue;
    const place = placeOf(nodes, entered, node);
    if (place !== null) found.set(`${place} ${node[TEXT]}`, [place, node[TEXT]]);
  }
  return [...found.values()].sort((one, other) => one[0] - other[0] || (one[1] < other[1] ? -1 : 1));
}

// For each node with a movable right side its number, the number of the term of it, and the variable that is taken.
function rightsOf(before, after, facts) {
  const at = new Map((facts.terms ?? []).map((key, number) => [key.join(' '), number])), found = [];
  const places = new Map(before.vars.map((name, place) => [name, place]));
  before.nodes.forEach((node, n) => {
    const right = node[TEXT].split(' <- ').at(-1), parts = right.split(' ');
    if (node[KIND] !== 'assign' || parts.length === 1 || couldTrap(right)) return;
    const [root, numbers] = facts.before[n];
    const termOf = operand => isVar(operand) ? numbers[places.get(operand)] ?? at.get(`leaf ${operand} ${root}`)
      : at.get(`number ${operand}`);
    const [operator, operands] = parts.length === 2 ? [parts[0], [parts[1]]] : [parts[1], [parts[0], parts[2]]];
    const key = [operator, ...operands.map(operand => termOf(operand) ?? '-')].join(' ');
    const taken = after.nodes[n][TEXT].split(' <- ').at(-1);
    found.push([n, at.get(key) ?? null, taken === right ? null : taken]);
  });
  return found;
}
