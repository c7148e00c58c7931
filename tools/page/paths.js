// ---- the paths that show why a bit holds or not, and what the page finds by itself

// All that is reached from a node over nodes with `on`, each next one included.
function reach(next, from, on) {
  const seen = new Set(), waiting = [from];
  while (waiting.length) for (const s of next[waiting.pop()]) if (!seen.has(s)) { seen.add(s);
    if (on(s)) waiting.push(s); }
  return seen;
}

// Why a bit holds or not on every path to a node: each node before it is good, bad, or passed on.
function everyPathTo(out, into, n, yes, judge, words) {
  if (n === 0) return { yes: false, html: 'At Start nothing has happened yet.' };
  const path = pathOn(into, n, p => judge(p) === 'bad', p => judge(p) === 'on');
  if (path) {
    const back = path.reverse();
    const start = pathTo(out, 0, m => m === back[0]) || [back[0]];
    return { yes: false,
      html: `Along ${arrows([...start.slice(0, -1), ...back], start.length - 1)}: ${words.bad(back[0])}.`,
      path: [...start.slice(0, -1), ...back], bad: back[0] };
  }
  const region = new Set([n]), edges = [], good = new Set();
  for (const m of region) for (const p of into[m]) {
    edges.push([p, m]);
    if (judge(p) === 'good') good.add(p); else region.add(p);
  }
  return { yes: true, html: good.size
    ? `Every path to ${N(n)} ${words.has}: going back, each way comes to ${list([...good].sort((a, b) => a - b))} first.`
    : `Every path to ${N(n)} ${words.has}.`, edges, good: [...good] };
}

// The rows of an expression, with the answers that need paths.
function problem(pass, item) {
  const { out, into } = edgesOf(pass.before), { nodes } = pass.before;
  const P = { out, into };
  for (const name of ['used', 'killed', 'available', 'anticipatable', 'earliest', 'delayed', 'latest', 'isolated',
      'inserted', 'replaced']) P[name] = bitsOf(item.rows, name);
  const e = code(item.text);
  // by which rule it may stand at a node: code motion asks whether it is anticipatable, that of divisions whether it is sure
  P.rule = pass.name === 'divisions' ? 'sure' : 'anticipatable';
  P.down = bitsOf(item.rows, P.rule);
  P.blocking = p => P.killed[p] || !(P.available[p] || P.down[p]);
  P.whyDown = n => pass.name === 'divisions' ? whySure(pass, item, P, n) : P.everyPathFrom(n);
  P.everyPathFrom = n => {
    if (P.used[n]) return { yes: true, html: `${N(n)} itself uses it.`, good: [n] };
    const bad = m => !P.used[m] && (P.killed[m] || nodes[m][0] === 'return');
    const path = bad(n) ? [n] : pathOn(out, n, bad, m => !P.used[m]);
    if (path) {
      const last = path.at(-1);
      const how = P.killed[last] ? (last ? changing(nodes[last], rightVars(item.text))
        : 'is Start, where the variables get their values') : 'returns';
      return { yes: false, html: path.length > 1
        ? `Along ${arrows(path)} the unit ${how} without having used ${e}.`
        : `${N(n)} ${how}, and does not use ${e} first.`, path, bad: last };
    }
    const region = new Set([n]), edges = [], good = new Set();
    for (const m of region) for (const s of out[m]) {
      edges.push([m, s]);
      if (P.used[s]) good.add(s); else region.add(s);
    }
    return { yes: true, html: good.size
      ? `Every path from ${N(n)} comes to a use first: ${list([...good].sort((a, b) => a - b))}.`
      : 'No path from here comes to a change of an operand or to a Return.', edges, good: [...good] };
  };
  P.whyDelayed = n => {
    if (P.earliest[n]) return { yes: true, html: `${N(n)} is earliest itself.`, good: [n] };
    const judge = p => P.used[p] || p === 0 ? 'bad' : P.earliest[p] ? 'good' : 'on';
    return everyPathTo(out, into, n, P.delayed[n], judge,
      { has: `comes from an earliest node and has not used ${e} since`,
      bad: p => P.used[p] ? `${N(p)} has used ${e} already` : `no node on it is earliest` });
  };
  // which uses read what is inserted before a node, and on which edges it goes there
  P.readsOf = n => {
    const found = new Set(P.replaced[n] ? [n] : []), seen = new Set();
    const waiting = P.killed[n] ? [] : [n];
    while (waiting.length) for (const s of out[waiting.pop()]) {
      if (seen.has(s) || P.inserted[s]) continue;
      seen.add(s);
      if (P.replaced[s]) found.add(s);
      if (!P.killed[s]) waiting.push(s);
    }
    return [...found].sort((a, b) => a - b);
  };
  // on which edges the temporary lives, as the row of the tables says
  const held = item.edges?.held ?? '', firsts = firstEdges(pass.before);
  P.isHeld = (n, s) => nodes[n][1].some((to, slot) => to === s && held[firsts[n] + slot] === '1');
  P.servedEdges = n => {
    const edges = [], seen = new Set([n]), waiting = [n];
    while (waiting.length) {
      const m = waiting.pop();
      for (const s of out[m]) if (P.isHeld(m, s)) { edges.push([m, s]);
        if (!seen.has(s)) { seen.add(s); waiting.push(s); } }
    }
    return edges;
  };
  P.whyHeld = n => {
    if (!out[n].length) return { html: `No edge leaves ${N(n)}.` };
    const returns = comesToReturn(pass.before), edges = [], good = [];
    const told = out[n].map(s => {
      const path = P.inserted[s] ? null : pathTo(out, s, m => P.replaced[m] && returns[m], m => !P.inserted[m]);
      if (!P.isHeld(n, s)) return `On ${N(n)} → ${N(s)} it does not live: ${P.inserted[s] ? `it is set before ${N(s)}`
        : 'no path from there reads it before it is set, and then returns'}.`;
      if (!path) return 'The row says so, but no path comes to a use that reads it.';
      edges.push(...[n, ...path].slice(1).map((to, k) => [[n, ...path][k], to]));
      good.push(path.at(-1));
      return `On ${N(n)} → ${N(s)} it lives: it is read on ${arrows([n, ...path])}, at ${N(path.at(-1))}.`;
    });
    return { html: told.join(' '), edges, good };
  };
  return P;
}

// What of a node would be seen before a division, or happen in its place, were it moved up over the node; or null.
function hindrance(node, right) {
  const one = parsed(node);
  if (['print', 'call', 'return'].includes(node[0])) return { print: 'prints', call: 'calls a unit', return: 'returns' }[node[0]];
  if (node[0] === 'guard') return 'may trap with a number';
  if (node[0] === 'start') return 'is Start';
  if (one.kind === 'assign' && divides(one) && one.right !== right) return `makes another division, ${code(one.right)}`;
  return one.setsOf(rightVars(right)).length ? changing(node, rightVars(right)) : null;
}

// Whether each run from a node is sure to come to a division within some number of nodes, and why.
function whySure(pass, item, P, n) {
  const { nodes } = pass.before, e = code(item.text), stops = m => !P.used[m] && hindrance(nodes[m], item.text) !== null;
  if (P.used[n]) return { yes: true, html: `${N(n)} itself uses it.`, good: [n] };
  const path = stops(n) ? [n] : pathOn(P.out, n, stops, m => !P.used[m]);
  if (path) return { yes: false, html: `${path.length > 1 ? `Along ${arrows(path)} one comes to ${N(path.at(-1))}, which` : N(n)} `
    + `${hindrance(nodes[path.at(-1)], item.text)}, before ${e}.`, path, bad: path.at(-1) };
  const turn = turnFrom(P, n);
  if (turn) return { yes: false, html: `Along ${arrows(turn)} a run may turn for ever, and never come to ${e}.`, path: turn };
  const region = [...reach(P.out, n, m => !P.used[m])].filter(m => P.used[m]);
  return { yes: true, html: `Each run from ${N(n)} comes to ${list(region.sort((a, b) => a - b))} before anything is seen.`,
    good: region };
}

// A path from a node into a loop, and around it, on which nothing is used.
function turnFrom(P, n) {
  const inside = [n, ...reach(P.out, n, m => !P.used[m])].filter(m => !P.used[m]);
  for (const m of inside) {
    const around = pathOn(P.out, m, s => s === m, s => !P.used[s]);
    if (around) return [...pathTo(P.out, n, s => s === m, s => !P.used[s]).slice(0, -1), ...around];
  }
  return null;
}

// The edges of a stage, in order of the node that they leave; of a test the one that is taken stands first.
const allEdges = stage => stage.nodes.flatMap((node, n) => node[1].map(s => [n, s]));

// Of each node of a stage where the first edge that leaves it stands among them.
function firstEdges(stage) {
  let count = 0;
  return stage.nodes.map(node => (count += node[1].length) - node[1].length);
}

// The edges on which the temporary of an expression lives, by a row of the tables: that of the lazy placement, or of the
// busy one.
const heldEdges = (stage, item, row = 'held') => allEdges(stage).filter((_, at) => item.edges?.[row]?.[at] === '1');

// From which nodes of a stage some path comes to a Return.
function comesToReturn(stage) {
  const { into } = edgesOf(stage), found = stage.nodes.map(node => node[0] === 'return'), waiting = where(found);
  while (waiting.length) for (const p of into[waiting.pop()]) if (!found[p]) { found[p] = true; waiting.push(p); }
  return found;
}

// Where a temporary lives, for insertions and replaced uses: on the edges from which some path reads it before it is set,
// and then comes to a Return. The tables say it of both placements, and the page compares.
function livesOn(stage, inserted, replaced) {
  const { into } = edgesOf(stage), returns = comesToReturn(stage);
  const before = stage.nodes.map(() => false), waiting = [];
  const mark = n => { if (!before[n] && !inserted[n]) { before[n] = true; waiting.push(n); } };
  where(replaced).filter(n => returns[n]).forEach(mark);
  while (waiting.length) for (const p of into[waiting.pop()]) mark(p);
  return allEdges(stage).filter(([, s]) => before[s]);
}

// The bits of a choice that no path shows, and the numbers of wanted bits that the rules do not give: where there is one,
// the rows and the rules differ. Large graphs are not tried.
function disagreeing(pass, number) {
  const columns = columnsOf(pass, number);
  if (!columns.checked) {
    const found = [];
    let bits = 0;
    if (pass.before.nodes.length <= 160) for (const one of columns) if (one.bits) one.bits.forEach((bit,
      n) => { bits++; if (one.why(n).yes !== bit) found.push([one.id, n]); });
    const item = itemsOf(pass)[number];
    if (pass.name === 'motion' && item && pass.before.nodes.length <= 160) for (const [name,
        same] of [['busy inserted', 'earliest'], ['busy replaced', 'used']])
      bitsOf(item.rows, name).forEach((bit, n) => { bits++;
          if (bit !== (item.rows[same][n] === '1')) found.push([name, n]); });
    const placements = { motion: ['', 'busy '], divisions: [''] }[pass.name] ?? [];
    if (item && pass.before.nodes.length <= 160) for (const which of placements) {
      const own = new Set(livesOn(pass.before, bitsOf(item.rows, `${which}inserted`),
        bitsOf(item.rows, `${which}replaced`)).map(edge => edge.join('>')));
      allEdges(pass.before).forEach((edge, at) => { bits++;
          if ((item.edges?.[`${which}held`]?.[at] === '1') !== own.has(edge.join('>')))
            found.push([`${which}held`, edge[0]]); });
    }
    if (pass.facts.wanted && pass.before.nodes.length <= 160) leastWanted(pass).forEach((row, n) => row.forEach((least, v) => {
      bits++;
      if (pass.facts.wanted[n][v] !== least) found.push([pass.before.vars[v], n]);
    }));
    columns.checked = { bits, found, what: pass.facts.wanted ? 'number' : 'bit' };
  }
  return columns.checked;
}
