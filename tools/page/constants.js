// ---- constants: what a right side becomes, along which edges a state passes, and why a variable varies

// Numbers that a right side has whatever the value of its variable is.
const IDENTITIES = [[['-', 'xor', '!=', '<', '>'], (a, b) => a === b, '0'], [['=', '<=', '>='], (a, b) => a === b, '1'],
  [['*', 'and'], (a, b) => a === '0' || b === '0', '0'], [['shl', 'shr', 'shra'], a => a === '0', '0'],
  [['mod'], (_, b) => b === '1' || b === '-1', '0'], [['or'], (a, b) => a === '-1' || b === '-1', '-1']];

// The constant that a right side or a test becomes behind a state, or `?`.
function becomes(one, stage, known) {
  const args = one.args.map(word => !isVar(word) || known[stage.vars.indexOf(word)] === '?' ? word
    : known[stage.vars.indexOf(word)]);
  if (args.some(isVar)) return args.length < 2 ? '?'
    : IDENTITIES.find(([ops, holds]) => ops.includes(one.op) && holds(...args))?.[2] ?? '?';
  return String(operated(one.op, ...args.map(BigInt)) ?? '?');
}

// Whether a state passes along an edge: of a decided test the edge that it takes alone.
function passesOn(pass, p, s) {
  const known = pass.facts.states[p], node = pass.before.nodes[p];
  if (known === null) return false;
  const what = node[0] === 'test' ? becomes(parsed(node), pass.before, known) : '?';
  return what === '?' || node[1][what === '0' ? 1 : 0] === s;
}

// Whether a node gives a variable a value, as Start does to all, and the one that it is known to give, or `?`.
const setsIn = (pass, p, name) => p === 0 || parsed(pass.before.nodes[p]).sets.includes(name);
function valueBehind(pass, p, name) {
  const stage = pass.before, one = parsed(stage.nodes[p]);
  if (p === 0) return stage.received.includes(name) || stage.vars.indexOf(name) < stage.shared ? '?' : '0';
  return one.kind === 'assign' ? becomes(one, stage, pass.facts.states[p]) : '?';
}

// A path on which a variable gets a value that is not known, or two with two values.
function whyVarying(pass, name, n) {
  const stage = pass.before, { out, into } = edgesOf(stage), known = pass.facts.states, e = code(name);
  if (n === 0) return { html: `${e} is a global: what it has when the unit begins is not known.` };
  const back = into.map((from, s) => from.filter(p => passesOn(pass, p, s)));
  const on = out.map((to, p) => to.filter(s => passesOn(pass, p, s)));
  const pathOf = wish => {
    const found = pathOn(back, n, p => setsIn(pass, p, name) && wish(valueBehind(pass, p, name)),
      p => !setsIn(pass, p, name))?.reverse();
    const start = found && pathTo(on, 0, m => m === found[0]);
    return start && { at: found[0], path: [...start, ...found.slice(1)], pivot: start.length - 1 };
  };
  const not = pathOf(value => value === '?');
  if (not) {
    const one = parsed(stage.nodes[not.at]), vary = [...new Set(one.args)].filter(word => isVar(word) &&
      known[not.at][stage.vars.indexOf(word)] === '?');
    const what = not.at === 0 ? stage.received.includes(name) ? `what ${N(0)} receives` : `what the global was at ${N(0)}`
      : one.kind === 'call' ? `what the call at ${N(not.at)} leaves in it`
      : vary.length ? `what ${N(not.at)} makes of ${code(vary.join(', '))}, which ${vary.length > 1 ? 'vary' : 'varies'} there`
      : `a quotient by 0, at ${N(not.at)}`;
    return { html: `Before ${N(n)} ${e} varies: along ${arrows(not.path, not.pivot)} it is ${what}.`, path: not.path,
      bad: not.at };
  }
  const one = pathOf(() => true), value = one && valueBehind(pass, one.at, name);
  const two = one && pathOf(other => other !== value);
  if (!two) return { html: 'The state says that it varies, but no path shows it.' };
  const tell = (along, told) => `along ${arrows(along.path, along.pivot)} it is ${told}`;
  return { html: `Before ${N(n)} ${e} varies: ${tell(one, value)}, and ${tell(two, valueBehind(pass, two.at, name))}.`,
    path: one.path, other: two.path, edges: two.path.slice(1).map((s, k) => [two.path[k], s]), good: [one.at, two.at] };
}
