// ---- wanted bits: by the rules of the pass, what each node wants, and along which chain bits are wanted

// How far a shift by a number goes, and how many bits of an operand may be 1.
const distanceOf = word => Number(BigInt.asUintN(6, BigInt(word)));
const lengthOf = word => isVar(word) ? 64 : BigInt.asUintN(64, BigInt(word)).toString(2).replace(/^0/, '').length;

// What operators want of their operands, where k bits of the result are wanted; of the others all, or none where k is 0.
const SAME_BITS = k => [k, k], ALL_BITS = k => [k && 64, k && 64], OF_DIVISION = k => [k && 64, 64];
const OF_RIGHT_SHIFT = (k, _, b) => [isVar(b) ? k && 64 : k && Math.min(k + distanceOf(b), 64), k && 6];
const WANTS = { '+': SAME_BITS, '-': SAME_BITS, '*': SAME_BITS, or: SAME_BITS, xor: SAME_BITS,
  and: (k, a, b) => [Math.min(k, lengthOf(b)), Math.min(k, lengthOf(a))],
  shl: (k, _, b) => [isVar(b) ? k : Math.max(k - distanceOf(b), 0), k && 6], shr: OF_RIGHT_SHIFT, shra: OF_RIGHT_SHIFT,
  '/': OF_DIVISION, mod: OF_DIVISION };

// How many bits of x a right side of one operand or of two wants, of which k bits are wanted.
function wantedOwn({ op, args: [a, b] }, k, x) {
  const [left, right] = op === null ? [k] : (WANTS[op] ?? ALL_BITS)(k, a, b);
  return Math.max(a === x ? left : 0, b === x ? right : 0);
}

// ---- shifts back

// The variable of which a node assigns t so far a shift to the left, by a constant written as this distance, or null.
function shiftedInto(node, t, far) {
  const { kind, into, op, args: [source, by] } = parsed(node);
  const is = kind === 'assign' && into === t && op === 'shl' && isVar(source) && source !== t && !isVar(by);
  return is && BigInt(by) === BigInt(far) ? source : null;
}

// Whether t is so far a shift of a source before a node: on every path to it that is assigned, and neither since.
function holdsShift(stage, n, t, source, far) {
  const { nodes } = stage, is = p => shiftedInto(nodes[p], t, far) === source;
  const ends = p => p === 0 || parsed(nodes[p]).setsOf([t, source]).length > 0;
  return n > 0 && !pathOn(edgesOf(stage).into, n, p => !is(p) && ends(p), p => !is(p) && !ends(p));
}

// What the right side of a node shifts back, with how far, or null.
function backAt(stage, n) {
  if (!stage.backs) Object.defineProperty(stage, 'backs', { value: [] });
  if (stage.backs[n] === undefined) stage.backs[n] = foundBack(stage, n);
  return stage.backs[n];
}
function foundBack(stage, n) {
  const { op, args: [t, by] } = parsed(stage.nodes[n]);
  if (!['shr', 'shra'].includes(op) || !isVar(t) || isVar(by)) return null;
  const far = distanceOf(by), sources = new Set(stage.nodes.map(node => shiftedInto(node, t, far)));
  const source = [...sources].find(one => one !== null && holdsShift(stage, n, t, one, far));
  return source === undefined ? null : { source, far };
}

// ---- what nodes want

// How many bits of x the right side of a node wants, of which k are wanted: where it shifts back, those of the source, and
// its own where they are more than stay.
function wantedOfRight(stage, n, k, x) {
  const one = parsed(stage.nodes[n]), back = backAt(stage, n), own = wantedOwn(one, k, x);
  if (!back) return own;
  return Math.max(back.source === x ? Math.min(k, 64 - back.far) : 0, k + back.far > 64 ? own : 0);
}

// How many bits are asked for of what a call or a Return hands over: the globals and then the arguments or the result.
// Where the tables do not say it, it is all of each.
function askedAt(pass, one) {
  if (one.kind === 'return') return pass.facts.returned;
  const called = one.kind === 'call' ? UNITS.find(unit => unit.name === one.callee) : undefined;
  return called && passesOf(called).find(other => other.name === pass.name)?.facts.entered;
}

// How many bits of x a node needs, whatever is wanted behind it.
function needsOf(pass, n, x) {
  const one = parsed(pass.before.nodes[n]);
  if (one.kind === 'assign') return wantedOfRight(pass.before, n, 0, x);
  if (!one.reads.includes(x)) return 0;
  const asked = askedAt(pass, one);
  return Math.max(0, ...[...one.shared, ...one.args].map((read, at) => read === x ? asked?.[at] ?? 64 : 0));
}

// How many bits of the variable v are wanted before a node, where so many are of each behind it.
function wantedPast(pass, n, v, behind) {
  const { nodes, vars } = pass.before, one = parsed(nodes[n]), x = vars[v];
  const found = [needsOf(pass, n, x)];
  if (one.kind === 'assign') found.push(wantedOfRight(pass.before, n, behind(nodes[n][1][0], vars.indexOf(one.into)), x));
  if (!one.sets.includes(x)) for (const s of nodes[n][1]) found.push(behind(s, v));
  return Math.max(...found);
}

// The least numbers of wanted bits by the rules, as the page finds them.
function leastWanted(pass) {
  const { nodes, vars } = pass.before, found = nodes.map(() => vars.map(() => 0));
  for (let rises = true; rises;) {
    rises = false;
    for (let n = nodes.length - 1; n >= 0; n--) vars.forEach((_, v) => {
      const bits = wantedPast(pass, n, v, (s, y) => found[s][y]);
      if (bits > found[n][v]) { found[n][v] = bits; rises = true; }
    });
  }
  return found;
}

// ---- chains

// The links that a chain may take from one: behind a node that assigns a right side, the fewest bits of its variable for
// which that wants so many; and the same bits behind a node that does not assign the variable.
function linksBehind(pass, { n, v, k }) {
  const { before: stage, facts: { wanted } } = pass, one = parsed(stage.nodes[n]), found = [], x = stage.vars[v];
  if (one.kind === 'assign') {
    const [s] = stage.nodes[n][1], y = stage.vars.indexOf(one.into);
    const m = range(wanted[s][y] + 1).find(bits => wantedOfRight(stage, n, bits, x) >= k);
    if (m > 0) found.push({ n: s, v: y, k: m });
  }
  if (!one.sets.includes(x)) for (const s of edgesOf(stage).out[n]) if (wanted[s][v] >= k) found.push({ n: s, v, k });
  return found;
}

// A shortest chain that shows that the k lowest bits of a variable are wanted before a node: links of a node, a variable
// and how many bits of it are wanted before that node for those of the link before. The node of the last one needs them.
function chainOf(pass, n, v, k) {
  const { vars } = pass.before, links = [{ n, v, k, from: null }], seen = new Set();
  for (const link of links) {
    if (needsOf(pass, link.n, vars[link.v]) >= link.k) {
      const chain = [];
      for (let one = link; one; one = one.from) chain.unshift({ n: one.n, v: one.v, k: one.k });
      return chain;
    }
    for (const next of linksBehind(pass, link)) {
      const key = (next.n * vars.length + next.v) * 65 + next.k;
      if (!seen.has(key)) { seen.add(key); links.push({ ...next, from: link }); }
    }
  }
  return null;
}

// So many bits, in words; and what stands for them.
const bitsTold = k => k === 64 ? 'all bits' : k === 1 ? 'the lowest bit' : `the ${k} lowest bits`;
const themOf = k => k === 1 ? 'it' : 'them';

// So many links of a chain at which it turns to another variable or another number are told at most.
const MOST_TURNS = 6;

// Why so many bits of the variable of this number are wanted before a node: the chain that carries them to a node that
// needs them.
function whyWanted(pass, n, v) {
  const { facts: { wanted = [] }, before: { vars } } = pass, k = wanted[n][v], name = code(vars[v]);
  if (!k) return { html: `Before ${N(n)} no bit of ${name} can matter.` };
  const begun = `Before ${N(n)} ${bitsTold(k)} of ${name} can matter`, chain = chainOf(pass, n, v, k);
  if (!chain) return { html: `${begun}, as the table says; but no chain shows it.` };
  const last = chain.at(-1), path = chain.map(link => link.n), needs = `needs ${themOf(last.k)}.`;
  if (path.length === 1) return { html: `${begun}: ${N(n)} itself ${needs}`, chain, path: null, good: [n] };
  const turns = chain.slice(1).flatMap((link, at) => link.v === chain[at].v && link.k === chain[at].k ? []
    : [`${N(chain[at].n)} makes of ${themOf(chain[at].k)} ${bitsTold(link.k)} of ${code(vars[link.v])}`]);
  const told = turns.length > MOST_TURNS ? [...turns.slice(0, MOST_TURNS - 1), '…', turns.at(-1)] : turns;
  return { html: told.length ? `${begun}, along ${arrows(path)}: ${told.join(', ')}, and ${N(last.n)} ${needs}`
    : `${begun}: along ${arrows(path)} ${k === 1 ? 'it comes' : 'they come'} to ${N(last.n)}, which ${needs}`,
    chain, path, good: [last.n] };
}

// ---- what becomes of a node for it

// Why a pass by wanted bits changes a node, in a sentence; nothing where it stays.
function whyNarrowed(pass, n) {
  const { before: { nodes, vars }, facts: { wanted } } = pass, one = parsed(nodes[n]);
  if (pass.change[n] === 'same') return '';
  if (one.kind !== 'assign') return ' Nobody wants a bit of what is 0 now.';
  const k = wanted[nodes[n][1][0]][vars.indexOf(one.into)], back = backAt(pass.before, n), into = code(one.into);
  if (!k && !divides(one)) return ` Behind it no bit of ${into} can matter.`;
  const which = `${bitsTold(k)} of ${into}`;
  if (back && k + back.far <= 64)
    return ` It shifts back what was shifted to the left: ${which} ${k === 1 ? 'is that' : 'are those'} of ${code(back.source)}.`;
  if (one.op === null) return ` It assigns ${into} to itself.`;
  return ` Its number leaves ${which} as they are, and no other bit can matter behind it.`;
}
