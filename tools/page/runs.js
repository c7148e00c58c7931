// ---- runs: a walk along the graphs, by the meaning of the language

const WRAP = value => BigInt.asIntN(64, value);
const OPS = { '+': (a, b) => a + b, '-': (a, b) => a - b, '*': (a, b) => a * b, '/': (a, b) => a / b,
  mod: (a, b) => a % b, min: (a, b) => a < b ? a : b,
  max: (a, b) => a > b ? a : b, and: (a, b) => a & b, or: (a, b) => a | b, xor: (a, b) => a ^ b,
    shl: (a, b) => a << (BigInt.asUintN(6, b)),
  shr: (a, b) => BigInt.asUintN(64, a) >> BigInt.asUintN(6, b), shra: (a, b) => a >> BigInt.asUintN(6, b),
    '=': (a, b) => BigInt(a === b), '!=': (a, b) => BigInt(a !== b),
  '<': (a, b) => BigInt(a < b), '<=': (a, b) => BigInt(a <= b), '>': (a, b) => BigInt(a > b),
    '>=': (a, b) => BigInt(a >= b) };

// Where a walk stops: after so many nodes, and with so many frames.
const MOST_STEPS = 20000, MOST_FRAMES = 200;

// What an operator makes of one number or of two; null where it is a division by 0.
const operated = (op, a, b) => op === null ? a : (op === '/' || op === 'mod') && b === 0n ? null
  : WRAP(b === undefined ? (op === '-' ? -a : BigInt(a === 0n)) : OPS[op](a, b));

class Trap extends Error {}
class Enough extends Error {}

// The stage of a unit that stands beside one of this name: a unit with fewer rounds is at its last one.
function stageBeside(unit, name) {
  const at = unit.stages.findIndex(stage => stage.name === name);
  return at < 0 ? unit.stages.length - 2 : at;
}

// The node of a step.
const nodeOf = step => step.unit.stages[step.stage].nodes[step.n];

// A call that is being walked: its unit, its stage, its variables, and the step of the caller.
class Frame {
  constructor(run, unit, args, caller) {
    Object.assign(this, { unit, caller, depth: caller ? caller.depth + 1 : 0, last: null });
    this.stage = stageBeside(unit, run.name);
    const { vars, shared, received } = unit.stages[this.stage];
    this.vars = new Map(vars.map((name, k) => [name, k < shared ? run.globals.get(name) ?? 0n : 0n]));
    received.forEach((name, k) => this.vars.set(name, args[k] ?? 0n));
    this.shared = vars.slice(0, shared);
  }

  value(word) { return isVar(word) ? this.vars.get(word) : BigInt(word); }
  handOver(run) { for (const name of this.shared) run.globals.set(name, this.vars.get(name)); }

  // A step at a node, which knows from where its frame came to it.
  step(run, n) {
    if (this.depth >= MOST_FRAMES) throw new Enough(`${MOST_FRAMES} frames`);
    if (run.steps.length >= MOST_STEPS) throw new Enough(`${MOST_STEPS} steps`);
    const { unit, stage, depth, caller, last } = this;
    this.last = { n, unit, stage, depth, caller, from: last ? last.n : null, evals: run.evals, out: run.out.length,
      vars: [...this.vars.values()], evaluates: false };
    run.steps.push(this.last);
    return this.last;
  }

  // Does what an assignment, a test or a guard does, and answers which way is taken.
  compute(run, step, one) {
    if (one.op && one.kind === 'assign') { run.evals++; step.evaluates = true; }
    const result = operated(one.op, ...one.args.map(word => this.value(word)));
    if (result === null) throw new Trap('zero divisor');
    if (one.kind === 'assign') this.vars.set(one.into, result);
    if (one.kind === 'guard' && result !== 0n) throw new Trap(String(one.trap));
    return one.kind === 'test' && result === 0n ? 1 : 0;
  }

  // Walks the unit that a node calls.
  call(run, step, one) {
    const other = UNITS.find(that => that.program === this.unit.program && that.name === one.callee);
    this.handOver(run);
    const result = new Frame(run, other, one.args.map(word => this.value(word)), step).walk(run);
    for (const name of this.shared) this.vars.set(name, run.globals.get(name) ?? 0n);
    if (one.into) this.vars.set(one.into, result);
  }

  // Walks from the first node to a Return, and answers its value.
  walk(run) {
    for (let n = 0; ;) {
      const step = this.step(run, n), node = nodeOf(step), one = parsed(node);
      let slot = 0;
      if (one.kind === 'assign' || one.kind === 'test' || one.kind === 'guard') slot = this.compute(run, step, one);
      else if (one.kind === 'print') run.out.push(this.value(one.args[0]));
      else if (one.kind === 'call') this.call(run, step, one);
      else if (one.kind === 'return') {
        this.handOver(run);
        return this.value(one.args[0]);
      }
      n = node[1][slot];
    }
  }
}

// Runs a unit at a stage from its arguments, with the units that it calls: all steps, what is printed, and the end.
function walk(unit, at, args) {
  const run = { name: unit.stages[at].name, steps: [], evals: 0, out: [], globals: new Map() };
  try {
    run.result = new Frame(run, unit, args, null).walk(run);
  } catch (fault) {
    if (fault instanceof Trap) run.trap = fault.message;
    else if (fault instanceof Enough) run.running = fault.message;
    else throw fault;
  }
  return run;
}

// The frames that are open at a step, the outermost first, each as the step at which it is.
function framesAt(step) {
  const found = [];
  for (let at = step; at; at = at.caller) found.unshift(at);
  return found;
}

const ended = ran => ran.trap ? `trapped ${ran.trap}` : ran.running ? `the walk stops at ${ran.running}`
  : `result ${ran.result}`;

// The walks of a unit at all stages for some arguments, kept.
function walks(unit, args) {
  const key = args.join(',');
  unit.walked = unit.walked || {};
  if (!unit.walked[key]) unit.walked[key] = unit.stages.map((_, at) => walk(unit, at, args));
  return unit.walked[key];
}

// How the walks of a unit compare with the reports of a run: the stages at which they print, end or count otherwise, and
// those at which they are not compared, since the report or the walk has no end.
function besideReports(unit, run) {
  const ran = walks(unit, run.inputs.map(BigInt)), differ = [], open = [];
  unit.stages.forEach((stage, at) => {
    const own = ran[at], lines = run.reports[at];
    if (own.running || !/^(result|trapped)/.test(lines.at(-2))) open.push(stage.name);
    else if (lines.join() !== [...own.out, ended(own), `evals ${own.evals}`].join()) differ.push(stage.name);
  });
  return { differ, open };
}

// The number that a node of a unit had at an earlier stage, or null where it was not there.
function numberAt(unit, n, from, to) {
  const passes = passesOf(unit);
  for (let at = from; at > to && n !== null; at--) n = passes[at].old[n] < 0 ? null : passes[at].old[n];
  return n;
}

// For each step before a pass, how far the run after it has come: the same old nodes come in the same order in the same
// frames, but for the Skips that an assignment passes where it sinks.
function together(pass, before, after) {
  const found = before.steps.map(() => 0);
  let at = 0;
  after.steps.forEach((step, j) => {
    const was = stageBeside(step.unit, before.name), old = numberAt(step.unit, step.n, step.stage, was);
    if (old === null || (pass.name === 'sink' && nodeOf(step)[0] === 'skip')) return;
    let next = at;
    // where tail calls become loops, what is one frame further in before the pass is in the same frame after it
    const isThis = one => one.n === old && one.unit === step.unit && (one.depth === step.depth || pass.name === 'tails');
    while (next < before.steps.length && !isThis(before.steps[next])) next++;
    if (next < before.steps.length) { at = next; found[at] = j; at++; }
  });
  for (let k = 1; k < found.length; k++) found[k] = Math.max(found[k], found[k - 1]);
  return found;
}
