'use strict';
// ---- a text of tables, as `mir_tables` writes it; docs/TABLES.md has the lines

// Where these stand in a node of a stage: its kind, its successors, its text, and the globals that it reads. What has no
// number of its own may be the same node at many places, so nothing is put into one.
const KIND = 0, SUCCS = 1, TEXT = 3, SHARED = 4;

// The first words of a line, so many, and the rest of it; all words of a line.
function cut(line, count) {
  const parts = [];
  let from = 0;
  for (let at = line.indexOf(' '); parts.length < count && at >= 0; at = line.indexOf(' ', from)) {
    parts.push(line.slice(from, at));
    from = at + 1;
  }
  return [...parts, line.slice(from)];
}
const wordsOf = line => line.split(' ').filter(Boolean);

// The first line of a text, with the word of the command whose tables it has; none stands for `optimise`.
const HEAD = /^tables 1(?: (divisions|tails|join|bounds|wanted|demanded))?$/;

// Reads a text. Its units, stages and passes are found at once; what one of them tells is read when it is asked for.
class TablesReader {
  constructor() { Object.assign(this, { units: [], bodies: [], known: new Map(), globals: '' }); }

  // Finds the units of a whole text, and answers them.
  read(text) {
    this.text = text;
    if (!HEAD.test(text.slice(0, lineEnd(text, 0)))) throw new Error('no tables of version 1');
    const blocks = this.blocks();
    blocks.forEach(({ word, rest, from }, at) =>
      HEADS[word](this, rest, { rest, from, to: blocks[at + 1]?.head ?? text.length }));
    return this.units;
  }

  // The lines that begin a block, each with its word, its rest and where it stands.
  blocks() {
    const { text } = this, found = [];
    for (let at = lineEnd(text, 0) + 1; at < text.length;) {
      const end = lineEnd(text, at), isNode = text.charCodeAt(at) === NODE;
      const word = isNode ? undefined : BLOCKS.find(one => text.startsWith(one, at));
      if (word) found.push({ word: word.trim(), rest: text.slice(at + word.length, end), head: at, from: end + 1 });
      else if (!found.length && end > at) throw new Error(`unexpected: ${text.slice(at, end)}`);
      at = end + 1;
    }
    return found;
  }

  // The stages of a unit. Most of them repeat most lines of the one before; equal lines have one node.
  stages(blocks) {
    let above = NO_NODES;
    return blocks.map(({ rest, from, to }) => {
      const stage = { name: rest, shared: 0, vars: [], received: [], nodes: [] }, { text } = this;
      let at = from;
      for (; at < to && !text.startsWith('node ', at); at = lineEnd(text, at) + 1)
        if (this.isOther(stage, text.slice(at, lineEnd(text, at)))) above = NO_NODES;
      above = this.nodes(stage, at, to, above);
      return stage;
    });
  }

  // Reads the lines of nodes of a stage, beside those of the one above; answers the nodes and where their lines begin.
  nodes(stage, from, to, above) {
    const { nodes } = stage, { text } = this, starts = [from];
    for (let at = from, alone = 0; at < to; at = starts.at(-1)) {
      const n = nodes.length, count = n >= alone && isAsAbove(text, at, above.starts, n, TOGETHER) ? TOGETHER
        : isAsAbove(text, at, above.starts, n, 1) ? 1 : 0;
      if (count < TOGETHER && n >= alone) alone = n + TOGETHER;
      for (let k = 0; k < count; k++) {
        nodes.push(above.nodes[n + k]);
        starts.push(at + above.starts[n + k + 1] - above.starts[n]);
      }
      if (count) continue;
      const end = lineEnd(text, at), line = text.slice(at, end);
      if (line.startsWith('node ')) nodes.push(this.node(stage, line.slice(5)));
      else if (line) throw new Error(`unexpected: ${line}`);
      starts.push(end + 1);
    }
    return { nodes, starts };
  }

  // Takes a line of a stage that is no node; answers whether its globals are others than those of the stage before.
  isOther(stage, line) {
    if (!line) return false;
    const [word, rest = ''] = cut(line, 1);
    if (!Object.hasOwn(OF_STAGE, word)) throw new Error(`unexpected: ${line}`);
    OF_STAGE[word](stage, rest);
    const globals = stage.vars.slice(0, stage.shared).join(' ');
    if (word !== 'vars' || globals === this.globals) return false;
    this.globals = globals;
    this.known.clear();
    return true;
  }

  // The node that a line tells: its kind, its successors, its text, and the globals that it reads.
  node(stage, rest) {
    const line = rest.slice(rest.indexOf(' ') + 1), known = this.known.get(line);
    if (known) return known;
    const [word, succs, text] = cut(line, 2), kind = KINDS[word] ?? word;
    const shared = kind === 'call' || kind === 'return' ? stage.vars.slice(0, stage.shared) : [];
    const made = [kind, succs === '-' ? [] : succs.split(',').map(Number), null, text ?? kind, shared];
    this.known.set(line, made);
    return made;
  }

  // What is told of a pass.
  told({ from, to }) {
    const facts = { rows: {} }, { text } = this;
    for (let at = from, end; at < to; at = end + 1) {
      end = lineEnd(text, at);
      const line = text.slice(at, end), [word] = cut(line, 1);
      if (Object.hasOwn(LINES, word)) LINES[word](facts, line.slice(word.length + 1));
      else if (word) (facts.other ??= []).push(line);   // a later version may say more of a pass
    }
    delete facts.item;
    return facts;
  }
}

// The kinds of nodes, each as one text, which is compared faster than one of each line.
const KINDS = Object.fromEntries(['start', 'skip', 'assign', 'print', 'guard', 'call', 'test', 'return']
  .map(kind => [kind, kind]));

// So many lines are compared at once. Where the line after the last one would begin stands behind those of all lines.
const TOGETHER = 16, NO_NODES = { nodes: [], starts: [] };

// Whether so many lines from a place on are those from one of the stage above on.
function isAsAbove(text, at, starts, n, count) {
  return starts[n + count] !== undefined && text.startsWith(text.slice(starts[n], starts[n + count]), at);
}

// Where the line ends that a place is in.
function lineEnd(text, at) {
  const end = text.indexOf('\n', at);
  return end < 0 ? text.length : end;
}

// The first letter of the line of a node; the words of lines that begin a block.
const NODE = 'n'.charCodeAt(0), BLOCKS = ['stage ', 'pass ', 'unit ', 'body ', 'laid '];

// What the line that begins a block puts, by its word.
const HEADS = {
  unit(reader, name) {
    const unit = { name }, blocks = { stages: [], passes: [] };
    lazily(unit, 'stages', () => reader.stages(blocks.stages));
    lazily(unit, 'passes', () => blocks.passes.map(block => factsOf(reader, block)));
    reader.units.push(unit);
    reader.now = blocks;
  },
  stage(reader, _, block) { reader.now.stages.push(block); },
  pass(reader, _, block) { reader.now.passes.push(block); },
  body(reader, rest) {
    const [name, count, ...why] = wordsOf(rest), at = why.indexOf('calls');
    reader.bodies.push({ name, count: Number(count), isLeaf: why[0] === 'leaf', isLong: why[0] === 'long',
      calls: at < 0 ? null : why[at + 1] });
  },
  laid(reader, rest) {
    const [count, taken] = wordsOf(rest);
    reader.units.at(-1).laid = { count: Number(count), taken: taken === 'taken' };
  },
};

// What lines of a stage put that are no nodes.
const OF_STAGE = {
  globals(stage, rest) { stage.shared = Number(rest); },
  vars(stage, rest) { stage.vars = wordsOf(rest); },
  received(stage, rest) { stage.received = wordsOf(rest); },
};

// What may be told of a pass.
const TOLD = ['rows', 'edges', 'items', 'states', 'wanted', 'entered', 'returned', 'terms', 'before', 'calls', 'other'];

// A pass by its name, and what is told of it, which is read when some of it is asked for.
function factsOf(reader, block) {
  const facts = { name: block.rest }, told = {};
  lazily(told, 'all', () => reader.told(block));
  for (const name of TOLD) lazily(facts, name, () => told.all[name]);
  return facts;
}

// Puts a row of bits, with its title, to the choice of now or to the pass.
function putRow(facts, where, rest) {
  const [bits, name] = cut(rest, 1);
  ((facts.item ?? facts)[where] ??= {})[name] = bits;
}

// Puts an expression, a copy, a pattern or a variable.
function putItem(facts, text, more = {}) {
  facts.item = { text, ...more, rows: {} };
  (facts.items ??= []).push(facts.item);
}

// What each line of a pass puts, by its first word.
const LINES = {
  call(facts, rest) {
    const [n, name, position, next] = wordsOf(rest);
    (facts.calls ??= []).push({ n: Number(n), name, position, next: next === undefined ? null : Number(next) });
  },
  row(facts, rest) { putRow(facts, 'rows', rest); },
  edges(facts, rest) { putRow(facts, 'edges', rest); },
  expression(facts, rest) {
    const [, temp, text] = cut(rest, 2);
    putItem(facts, text, { temp: temp === '-' ? null : temp });
  },
  copy(facts, rest) { putItem(facts, cut(rest, 1)[1]); },
  pattern(facts, rest) { putItem(facts, cut(rest, 1)[1]); },
  variable(facts, rest) { putItem(facts, cut(rest, 1)[1]); },
  state(facts, rest) {
    const values = wordsOf(rest).slice(1);
    (facts.states ??= []).push(values.length === 1 && values[0] === 'unreached' ? null : values);
  },
  wanted(facts, rest) { (facts.wanted ??= []).push(wordsOf(rest).slice(1).map(Number)); },
  entered(facts, rest) { facts.entered = wordsOf(rest).map(Number); },
  returned(facts, rest) { facts.returned = wordsOf(rest).map(Number); },
  term(facts, rest) { (facts.terms ??= []).push(wordsOf(rest).slice(1)); },
  terms(facts, rest) {
    const [, root, ...held] = wordsOf(rest);
    (facts.before ??= []).push([Number(root), held.map(one => one === '-' ? null : Number(one))]);
  },
};

// The units of a text of tables, with what each tells of its neighbours, and what the text tells of whole units.
function readTables(text) {
  const reader = new TablesReader(), units = reader.read(text);
  for (const unit of units) {
    const { passes } = Object.getOwnPropertyDescriptors(unit);
    unit.bodies = reader.bodies;
    lazily(unit, 'passes', () => passes.get().map((facts, at) => complete(unit, facts, at, units)));
  }
  return units;
}

// The texts that stand one after another in one, each with the word of its command.
function textsOf(text) {
  const begins = [0], head = '\ntables 1';
  for (let at = text.indexOf(head); at >= 0; at = text.indexOf(head, at + 1))
    if (HEAD.test(text.slice(at + 1, lineEnd(text, at + 1)))) begins.push(at + 1);
  return begins.map((at, number) => text.slice(at, begins[number + 1])).map(one =>
    ({ word: one.slice(0, lineEnd(one, 0)).match(HEAD)?.[1] ?? 'optimise', text: one }));
}
