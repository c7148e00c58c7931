// ---- what a sentence of a verdict says, asked of the graph alone: no row is read, each answer is a search for a path

// An expression in a graph: where it is evaluated, and where its operands change.
class Asked {
  constructor(stage, text) {
    Object.assign(this, edgesOf(stage), { nodes: stage.nodes });
    const operands = rightVars(text);
    this.uses = stage.nodes.map(node => node[0] === 'assign' && node[3].split(' <- ')[1] === text);
    this.kills = stage.nodes.map((node, n) => n === 0 || setsOf(node).some(name => operands.includes(name)));
  }

  // Whether each path from a node that comes to a Return or to a change of an operand has evaluated it by then.
  anticipatable(n) {
    const ends = m => !this.uses[m] && (this.kills[m] || this.nodes[m][0] === 'return');
    return !ends(n) && (this.uses[n] || !pathOn(this.out, n, ends, m => !this.uses[m]));
  }

  // Whether each path to a node has evaluated it, with no change of an operand since.
  available(n) {
    return n !== 0 && !pathOn(this.into, n, m => this.kills[m], m => !this.kills[m] && !this.uses[m]);
  }

  // Whether it may stand at a node, and above it not.
  mayStand(n) { return this.anticipatable(n); }
  earliest(n) { return this.mayStand(n) && this.into[n].some(p => this.bars(p)); }
  bars(p) { return this.kills[p] || !this.available(p) && !this.mayStand(p); }

  // Whether a path shows that it must not stand at its first node: it ends in a Return or in a change of an operand, and
  // has not used it.
  showsNot(path) {
    return !path.some(n => this.uses[n]) && path.slice(1).every((n, k) => this.out[path[k]].includes(n))
      && this.endsIll(path);
  }
  endsIll(path) { return this.kills[path.at(-1)] || this.nodes[path.at(-1)][0] === 'return'; }

  // Whether an evaluation can wait until a node: each path comes from an earliest node, and has not used it since.
  delayed(n) {
    return this.earliest(n) || n !== 0 && !pathOn(this.into, n, m => m === 0 || this.uses[m], m => !this.earliest(m));
  }

  // Whether nodes are a path, and whether no operand changes between its ends.
  isPath(path) { return path?.length > 1 && path.every((n, k) => !k || this.out[path[k - 1]].includes(n)); }
  isClear(path) { return this.isPath(path) && !path.slice(0, -1).some(n => this.kills[n]); }
}

// A division in a graph, which moves by a rule of its own.
class AskedOfDivision extends Asked {
  constructor(stage, text) {
    super(stage, text);
    this.stops = stage.nodes.map((node, n) => !this.uses[n] && (this.kills[n] || ['print', 'guard', 'call', 'return'].includes(node[0])
      || node[0] === 'assign' && couldTrap(node[3].split(' <- ')[1])));
  }

  // Whether each run from a node comes to the division within some number of nodes, and nothing stops it before: those
  // that use it do so within none, and a node does where all that may come next do.
  sure(n) {
    if (!this.within) {
      this.within = new Set(where(this.uses));
      const comes = m => !this.within.has(m) && !this.stops[m] && this.out[m].length > 0
        && this.out[m].every(s => this.within.has(s));
      for (let next = [...this.within]; next.length;) {
        next = range(this.nodes.length).filter(comes);
        for (const m of next) this.within.add(m);
      }
    }
    return this.within.has(n);
  }
  mayStand(n) { return this.sure(n); }

  // So too: it ends where something stops it, or in a node that it has passed already.
  endsIll(path) { return this.stops[path.at(-1)] || path.slice(0, -1).includes(path.at(-1)); }
}

// An assignment in a graph, as a pattern that sinks: where it occurs, and which nodes block it.
class Sinking {
  constructor(stage, text) {
    Object.assign(this, edgesOf(stage), { nodes: stage.nodes });
    const [name, right] = text.split(' <- '), own = [name, ...rightVars(right)];
    this.occurs = stage.nodes.map(node => node[0] === 'assign' && node[3] === text);
    this.blocks = stage.nodes.map((node, n) => n === 0 || readsOf(node).includes(name)
      || setsOf(node).some(one => own.includes(one)));
  }

  // Whether each path to a node brings the assignment with it.
  delayed(n) {
    return n !== 0 && !pathOn(this.into, n, m => !this.occurs[m] && this.blocks[m], m => !this.occurs[m]);
  }

  // Whether it stands before a node where its way ends.
  stands(n) { return this.delayed(n) && (this.blocks[n] || this.out[n].some(s => !this.delayed(s))); }
}

const sameNodes = (one, other) => one.length === other.length && [...one].sort((a, b) => a - b)
  .every((n, at) => n === [...other].sort((a, b) => a - b)[at]);

// What each sentence says.
const SAYS = {
  // the graph after the pass has the temporary set before these nodes and read at those, and evaluates the rest as before
  moves(asked, { inserted, replaced }, pass, item) {
    const after = pass.after.nodes, own = pass.before.nodes.length, behind = m => m < own ? m : behind(after[m][1][0]);
    const sets = after.flatMap((node, m) => node[3] === `${item.temp} <- ${item.text}` ? [behind(m)] : []);
    const reads = where(asked.uses).filter(m => after[m][3].split(' <- ')[1] === item.temp);
    return sameNodes(sets, inserted) && sameNodes(reads, replaced)
      && where(asked.uses).every(n => replaced.includes(n) || after[n][3] === pass.before.nodes[n][3]);
  },
  anticipatable: (asked, { nodes }) => nodes.every(n => asked.anticipatable(n)),
  sure: (asked, { nodes }) => nodes.every(n => asked.sure(n)),
  again: (asked, { path }) => asked.isClear(path) && asked.uses[path[0]] && asked.uses[path.at(-1)],
  earliest: (asked, { node, above, changed, path }) => asked.earliest(node) && asked.into[node].includes(above)
    && (changed ? asked.kills[above] : asked.bars(above) && path[0] === above && asked.showsNot(path)),
  waits: (asked, { node, next }) => asked.delayed(node) && (next === null ? asked.uses[node] : asked.out[node].includes(next) && !asked.delayed(next)),
  once: (asked, { node }) => !pathOn(asked.into, node, m => asked.uses[m], () => true),
  changes: (asked, { node, path, at }) => asked.isPath(path) && path.at(-1) === node && asked.uses[path[0]]
    && path.slice(0, -1).includes(at) && asked.kills[at]
    && !pathOn(asked.into, node, m => asked.uses[m] && !asked.kills[m], m => !asked.kills[m]),
  partly: (asked, { node, path }) => asked.isClear(path) && path.at(-1) === node && asked.uses[path[0]]
    && !asked.available(node),
  traps: (asked, { nodes, right }) => sameNodes(nodes, where(asked.uses)) && couldTrap(right),
  gone: (sinking, { from }) => sameNodes(from, where(sinking.occurs)) && !sinking.nodes.some((_, n) => sinking.stands(n))
    && !from.some(n => pathOn(sinking.out, n, m => sinking.blocks[m], () => true)),
  sinks: (sinking, { from, to }) => sameNodes(from, where(sinking.occurs))
    && sameNodes(to, where(sinking.nodes.map((_, n) => sinking.stands(n)))),
  blocks: (sinking, { node }) => sinking.delayed(node) && sinking.blocks[node],
  parts: (sinking, { node, next }) => sinking.delayed(node) && sinking.out[node].includes(next) && !sinking.delayed(next),
};

// What a call is for its unit: whose answer goes where, and what comes behind it.
class Calling {
  constructor(stage, text, unit) {
    Object.assign(this, { ...edgesOf(stage), nodes: stage.nodes, globals: stage.vars.slice(0, stage.shared), unit });
  }

  // The unit that a node calls, the variable that gets its answer, and the node that comes behind Skips.
  at(n) {
    const [, into = null, callee] = this.nodes[n][3].match(/^(?:(\w+) <-|call) (\w+),\(/), seen = new Set();
    let next = this.out[n][0];
    while (this.nodes[next][0] === 'skip' && !seen.has(next)) { seen.add(next); next = this.out[next][0]; }
    return { into, callee, next, returns: this.nodes[next][0] === 'return' && this.nodes[next][3] === `return ${into}` };
  }

  // Whether a unit calls none, by its graph as it is read.
  isCallFree(name) {
    return !UNITS.find(unit => unit.name === name).stages[0].nodes.some(node => node[0] === 'call');
  }
}

// What is said of a unit, by the nodes that are reached, and of a call. Of a unit that is no leaf the call that makes it none
// may be one that is not reached.
Object.assign(SAYS, {
  leaf: (calling, { name, count }) => name === calling.unit.name && calling.isCallFree(name) && count <= 32
    && calling.unit.stages[0].nodes.filter(node => !['start', 'skip', 'return'].includes(node[0])).length <= count,
  none: (calling, { name, count, isLong, calls }) => name === calling.unit.name && isLong === count > 32
    && (isLong || UNITS.some(unit => unit.name === calls)),
  loop: (calling, { n, name }) => (one => one.callee === name && name === calling.unit.name && one.returns
    && !calling.globals.includes(one.into))(calling.at(n)),
  tail: (calling, { n, name }) => (one => one.callee === name && name !== calling.unit.name && one.returns)(calling.at(n)),
  dropped: (calling, { n }) => calling.at(n).into === null,
  global: (calling, { n }) => calling.globals.includes(calling.at(n).into),
  then: (calling, { n, next }) => (one => one.next === next && !one.returns)(calling.at(n)),
  joined: (calling, { n, name }, pass) => calling.at(n).callee === name && calling.isCallFree(name)
    && (pass.became[n] === null || pass.after.nodes[pass.became[n]][3] !== pass.before.nodes[n][3]),
  stays: (asked, said, pass) => asked instanceof Calling
    ? asked.at(said.n).callee === said.name && (pass.became[said.n] === null
      || pass.after.nodes[pass.became[said.n]][3] === pass.before.nodes[said.n][3])
    : sameNodes(said.nodes, where(asked.uses)) && said.nodes.every(n => pass.after.nodes[n][3] === pass.before.nodes[n][3]),
});

// What is asked of the graph before a pass.
const ASKED = { sink: Sinking, divisions: AskedOfDivision, tails: Calling, join: Calling };

// The sentences of the verdicts of a pass that the graph alone does not bear out.
function unfounded(pass) {
  return verdictsOf(pass).flatMap(({ item, sentences }) => {
    const asked = new (ASKED[pass.name] ?? Asked)(pass.before, item.text, unitOfPass(pass));
    return sentences.filter(one => !SAYS[one.says](asked, one, pass, item)).map(one => ({ item: item.text, ...one }));
  });
}
