// ---- verdicts: what becomes of each expression, moved or not, and why, in sentences that the rows alone tell

// How a node changes some of these variables. A call may change each global, whatever the unit that it calls does.
function changing(node, names) {
  const one = parsed(node), found = one.setsOf(names);
  if (one.kind !== 'call' || found.every(name => name === one.into)) return `assigns ${code(found.join(', '))}`;
  const shared = found.filter(name => name !== one.into);
  return `may change ${code(shared.join(', '))} (a call may change any global)`
    + (found.length > shared.length ? `, and assigns ${code(one.into)}` : '');
}

// A sentence: what it says, of which nodes or along which path, so that it can be tried, and its words.
const sentence = (says, what, html) => ({ says, ...what, html });

// The nodes in the order of the text.
function inTextOrder(stage, nodes) {
  const place = textPlaces(stage);
  return [...nodes].sort((one, other) => place[one] - place[other]);
}

// Of each node of a stage its place in the text.
function textPlaces(stage) {
  if (!stage.places) {
    const order = [...new Set([0, ...linesOf(stage).map(line => line[0])])], place = [];
    order.forEach((n, at) => { place[n] = at; });
    Object.defineProperty(stage, 'places', { value: place });
  }
  return stage.places;
}

// The verdict on an expression at code motion: what moves, why it may, what it saves, and why it stands no earlier; and of
// each use that stays why it does.
function verdictOf(pass, item) {
  const P = problem(pass, item), order = nodes => inTextOrder(pass.before, nodes);
  const inserted = order(where(P.inserted)), replaced = order(where(P.replaced));
  const stay = order(where(P.used).filter(n => !P.replaced[n]));
  const found = inserted.length ? movesIn(pass, item, P, { inserted, replaced }) : [sentence('stays', { nodes: stay },
    `${code(item.text)} stays at ${list(stay)}.`)];
  for (const n of stay) found.push(...whyItStays(pass, item, P, n, inserted.length > 0 || stay.length > 1));
  return found;
}

// What is said of an expression that is inserted somewhere.
function movesIn(pass, item, P, { inserted, replaced }) {
  const e = code(item.text), temp = code(item.temp), goes = !inserted.some(n => P.used[n]);
  const found = [sentence('moves', { inserted, replaced }, goes
    ? `${e} moves from ${list(replaced)} to ${list(inserted)}: there ${temp} is set, and it is read at ${list(replaced)}.`
    : `${e} is evaluated into ${temp} before ${list(inserted)}, and read at ${list(replaced)}.`)];
  const others = inserted.filter(n => !P.used[n]);
  if (others.length) found.push(sentence(P.rule, { nodes: others }, P.rule === 'sure'
    ? `Each run from ${list(others)} is sure to come to it before anything is seen.`
    : `Every path from ${list(others)} evaluates it before it changes an operand or returns.`));
  const again = repeated(P, replaced);
  if (again) found.push(again.at(0) === again.at(-1)
    ? sentence('again', { path: again }, `Left where it was, it would be computed again in each turn of ${arrows(again)}.`)
    : sentence('again', { path: again },
      `Left where it was, it would be computed twice on ${arrows(again)}: at ${N(again[0])} and at ${N(again.at(-1))}.`));
  for (const n of inserted) found.push(...placeOfInsertion(pass, item, P, n));
  return found;
}

// A path on which a use that is replaced would compute what an earlier use has: around a loop where there is one.
function repeated(P, replaced) {
  const from = (n, wish) => P.killed[n] ? null : pathOn(P.out, n, wish, m => !P.killed[m]);
  for (const n of replaced) {
    const around = from(n, m => m === n);
    if (around) return around;
  }
  const paths = where(P.used).map(u => from(u, m => P.replaced[m])).filter(Boolean);
  return paths.sort((one, other) => one.length - other.length)[0] ?? null;
}

// The earliest nodes from which an evaluation before a node has waited.
const earliestFor = (P, n) => P.earliest[n] ? [n]
  : [...reach(P.into, n, m => P.delayed[m] && !P.earliest[m])].filter(m => P.earliest[m]);

// Why an insertion stands where it does: where it could stand at the earliest, why it waits until here, and no longer.
function placeOfInsertion(pass, item, P, n) {
  const from = inTextOrder(pass.before, earliestFor(P, n)), found = [];
  for (const top of from) found.push(...whyNoEarlier(pass, item, P, top, from.length === 1 && top === n
    ? `${N(n)} is the earliest node where it may stand` : `The earliest node where it may stand is ${N(top)}`));
  if (from.length === 1 && from[0] === n) return found;
  const s = P.out[n].find(one => !P.delayed[one]);
  found.push(sentence('waits', { node: n, next: P.used[n] ? null : s }, P.used[n]
    ? `It is delayed until ${N(n)}, which needs it.`
    : `It is delayed until ${N(n)} and no longer: ${N(s)} is also entered where it is not delayed.`));
  return found;
}

// Why an expression can stand no earlier than at an earliest node.
function whyNoEarlier(pass, item, P, top, head) {
  const p = P.into[top].find(one => !P.killed[one] && P.blocking(one)) ?? P.into[top].find(P.blocking);
  if (p === undefined) return [];
  const { nodes } = pass.before;
  if (P.killed[p]) return [sentence('earliest', { node: top, above: p, changed: true }, `${head}: above it ${p
    ? `${N(p)} ${changing(nodes[p], rightVars(item.text))}` : 'is Start'}.`)];
  const why = P.whyDown(p);
  return [sentence('earliest', { node: top, above: p, changed: false, path: why.path },
    `${head}: at ${N(p)}, above it, it is neither available nor ${P.rule}. ${why.html}`)];
}

// Why a use stays as it is.
function whyItStays(pass, item, P, n, isNamed) {
  const head = isNamed ? `At ${N(n)} it stays: ` : '', say = words => head ? head + words
    : words[0].toUpperCase() + words.slice(1);
  const bring = pathOn(P.into, n, p => P.used[p] && !P.killed[p], p => !P.killed[p])?.reverse();
  if (!bring) {
    const other = pathOn(P.into, n, p => P.used[p], () => true)?.reverse();
    if (!other) return [sentence('once', { node: n }, say('no path evaluates it twice, so there is nothing to save.'))];
    const at = other.findLast((m, k) => k < other.length - 1 && P.killed[m]);
    return [sentence('changes', { node: n, path: other, at },
      say(`on the path ${arrows(other)} ${N(at)} ${changing(pass.before.nodes[at], rightVars(item.text))}, and no other path `
        + 'brings an earlier value of it.'))];
  }
  const told = earliestFor(P, n).flatMap(top => whyNoEarlier(pass, item, P, top,
    `The earliest node where it may stand is ${N(top)}`));
  return [sentence('partly', { node: n, path: bring },
    say(`it is computed again on ${arrows(bring)}, but not every path to ${N(n)} has computed it before.`)), ...told];
}

// The divisions of a stage that could trap, by their right sides: code motion leaves them.
function trappingSides(stage) {
  const sides = new Map();
  stage.nodes.forEach((node, n) => {
    if (node[0] !== 'assign' || !divides(parsed(node))) return;
    const { right } = parsed(node);
    sides.set(right, [...sides.get(right) ?? [], n]);
  });
  return [...sides].map(([right, nodes]) => sentence('traps', { nodes, right },
    `${code(right)} stays at ${list(inTextOrder(stage, nodes))}: it could trap. ${code('divisions')} may move it, ${code('move')} does not.`));
}

// The verdict on a pattern where assignments sink: from where to where it goes, and why it goes no further.
function verdictOfPattern(pass, item) {
  const { nodes } = pass.before, { out } = edgesOf(pass.before), order = found => inTextOrder(pass.before, found);
  const [occurs, blocked, delayed, inserted] = ['occurs', 'blocked', 'delayed', 'inserted'].map(name =>
    bitsOf(item.rows, name));
  const from = order(where(occurs)), to = order(where(inserted)), p = code(item.text);
  if (!to.length) return [sentence('gone', { from }, `${p} goes from ${list(from)}: no path from there reads it.`)];
  const found = [sentence('sinks', { from, to }, `${p} sinks from ${list(from)} to ${list(to)}.`)];
  const [x, right] = item.text.split(' <- ');
  for (const n of to) if (blocked[n]) found.push(sentence('blocks', { node: n },
    `${N(n)} ${parsed(nodes[n]).reads.includes(x) ? `reads ${code(x)}` : changing(nodes[n], [x, ...rightVars(right)])}.`));
  else {
    const s = out[n].find(one => !delayed[one]);
    found.push(sentence('parts', { node: n, next: s }, `After ${N(n)} it goes no further: ${N(s)} is also entered without it.`));
  }
  return found;
}

// Why a unit is no leaf.
const noLeaf = ({ name, count, isLong, calls }) => `${code(name)} is no leaf, since ${[
  isLong && `it has ${many(count, 'instruction')}, more than 32`, calls && `it calls ${code(calls)}`].filter(Boolean).join(' and ')}.`;

// The verdict on a unit by the tables of join: whether it is a leaf.
function verdictOfBody(body) {
  const { name, count, isLeaf } = body;
  return { at: null, item: { text: name, rows: {} }, sentences: [sentence(isLeaf ? 'leaf' : 'none', body, isLeaf
    ? `${code(name)} is a leaf: it has ${many(count, 'instruction')}, and calls no unit.` : noLeaf(body))] };
}

// What is told of a call by the tables of tails or of join.
function callTold(pass, { n, name, position, next }) {
  const { out } = edgesOf(pass.before), own = unitOfPass(pass), body = own.bodies.find(one => one.name === name);
  if (position === 'joined' && own.laid && !own.laid.taken) return { html: `${N(n)} stays: with its leaves ${code(own.name)} would have ${many(own.laid.count, 'instruction')}, more than a text may have, so none is joined into it.` };
  if (position === 'joined') return { html: `${N(n)} calls ${code(name)}, a leaf of ${many(body.count, 'instruction')}: the code of it stands there now.` };
  if (position === 'stays') return { html: `${N(n)} stays: ${noLeaf(body)}` };
  if (position === 'loop') return { html: `${N(n)} calls the unit itself, and its answer is returned next: it becomes a jump to the beginning, behind assignments of the arguments.` };
  if (position === 'tail') return { html: `${N(n)} is in tail position, but calls another unit, ${code(name)}: it stays.` };
  if (position === 'dropped') return { html: `${N(n)} stays: its answer goes to no variable, so it is not what is returned.` };
  if (position === 'global') return { html: `${N(n)} stays: its answer goes to a global, and not to a variable of the unit alone.` };
  const path = pathOn(out, n, m => m === next, m => pass.before.nodes[m][0] === 'skip');
  return { html: `${N(n)} stays: next comes ${N(next)}, which does not return its answer.`, path, bad: next };
}

// The unit to which a pass belongs.
const unitOfPass = pass => UNITS.find(unit => passesOf(unit).includes(pass));

// The verdicts of a pass on calls, and of join on the unit before them.
function verdictsOfCalls(pass) {
  const own = unitOfPass(pass), bodies = pass.name === 'join' ? own.bodies.filter(one => one.name === own.name) : [];
  return [...bodies.map(verdictOfBody), ...(pass.facts.calls ?? []).map(call => ({ at: null,
    item: { text: pass.before.nodes[call.n][3], rows: {} }, sentences: [sentence(call.position, call, callTold(pass, call).html)] }))];
}

// What makes the verdict on a choice of a pass.
const VERDICT_OF = { motion: verdictOf, divisions: verdictOf, sink: verdictOfPattern };

// The verdict on a choice of a pass, with its number, made once.
function verdictAt(pass, at) {
  pass.verdicts ??= [];
  const item = itemsOf(pass)[at];
  return pass.verdicts[at] ??= { at, item, sentences: VERDICT_OF[pass.name](pass, item) };
}

// The verdicts on what is no choice: of code motion on divisions, and on calls.
function otherVerdicts(pass) {
  if (pass.name !== 'motion') return verdictsOfCalls(pass);
  return trappingSides(pass.before).map(one => ({ at: null, item: { text: one.right, rows: {} }, sentences: [one] }));
}

// How many choices of a pass have a verdict, and all its verdicts.
const judgedOf = pass => VERDICT_OF[pass.name] ? itemsOf(pass).length : 0;
const verdictsOf = pass => [...range(judgedOf(pass)).map(at => verdictAt(pass, at)), ...otherVerdicts(pass)];

// What the walks of a run say of an expression of a unit: how often it is evaluated before the pass and after it.
function savedIn(unit, item, { before, after }) {
  const count = walked => walked.steps.filter(step => step.unit === unit && step.evaluates
    && parsed(nodeOf(step)).right === item.text).length;
  const [was, is] = [count(before), count(after)];
  return sentence('saves', { before: was, after: is }, was === is ? `In this run it is evaluated ${times(was)}, as before.`
    : `In this run it is evaluated ${times(was)} before the pass and ${times(is)} after it: it saves ${was - is} of ${was}.`);
}
const times = count => ['never', 'once', 'twice'][count] ?? `${count} times`;
