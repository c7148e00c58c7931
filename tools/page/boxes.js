// ---- the text of a stage, and its boxes: each is a node or a block, nodes that follow one another, each but the first
// entered by one edge, each but the last leading to the next alone

// The lines of the layout as text, each with its node, its words and the node that is jumped to, by the rules of
// docs/PASSES.md. A Skip has a line that is no instruction.
function laidLines(stage) {
  const { nodes } = stage, placed = new Set(), tests = [];
  const lines = stage.received.map(name => [0, `receive ${name}(val)`, null]);
  if (!lines.length) lines.push([0, null, null]);
  for (let at = nodes[0][SUCCS][0]; at !== undefined;) {
    layChain(nodes, at, { placed, tests, lines });
    const waiting = tests.find(n => !placed.has(nodes[n][SUCCS][0]));
    at = waiting === undefined ? undefined : nodes[waiting][SUCCS][0];
  }
  return lines;
}

// Lays the nodes from one on, up to a Return or to one that is placed, to which a jump then leads.
function layChain(nodes, first, { placed, tests, lines }) {
  let at = first, last = 0;
  while (!placed.has(at)) {
    const [kind, succs, , text] = nodes[at];
    placed.add(at);
    lines.push([at, kind === 'skip' ? null : text + (kind === 'test' ? ' goto' : ''),
      kind === 'test' ? succs[0] : null]);
    if (kind === 'test') tests.push(at);
    if (!succs.length) return;
    last = at;
    at = succs.at(-1);
  }
  if (lines.at(-1)[0] === last && lines.at(-1)[1] === null) lines.pop();
  lines.push([last, 'goto', at]);
}

// The lines of a stage, made once.
const linesOf = stage => stage.lines ??= laidLines(stage);

// How high a box of one node and a line of a box of many is.
const HIGH = 32, ROW = 25;

// What stands in a node.
const labelOf = node => ({ skip: 'skip', start: 'Start' })[node[KIND]] ?? node[TEXT];

// The boxes of a stage: which nodes each has, how large it is, and which edges lead from one to another.
class Boxes {
  constructor({ nodes }, byBlocks) {
    const follows = byBlocks ? followers(nodes) : new Map(), inner = new Set(follows.values());
    this.nodes = nodes;
    this.chains = nodes.flatMap((_, n) => inner.has(n) ? [] : [chainFrom(follows, n)]);
    this.of = new Map(this.chains.flatMap((chain, at) => chain.map(n => [n, at])));
    this.sizes = this.chains.map(chain => [Math.max(...chain.map(n => Math.max(58, 9 * labelOf(nodes[n]).length + 46))),
      chain.length === 1 ? HIGH : ROW * chain.length + 8]);
    this.edges = nodes.flatMap((node, n) => node[SUCCS].flatMap((s, slot) =>
      follows.get(n) === s ? [] : [[this.of.get(n), slot, this.of.get(s), n]]));
    this.ends = this.edges.map(([source, , target]) => [source, target]);
  }

  // How high the picture is.
  high() { return this.height ??= Number(wholes(heightOf(this.sizes, this.ends))); }

  // The places of the nodes, the ways of the edges, and the frames of the blocks of many nodes.
  picture() {
    const { wide, high, centres, ways } = layoutOf(this.sizes, this.ends);
    const made = { w: Number(wholes(wide)), h: Number(wholes(high)), boxes: this.nodes.map(() => null), frames: [],
      edges: [] };
    this.chains.forEach((chain, at) => this.putChain(made, chain, centres[at], this.sizes[at]));
    this.edges.forEach(([, slot, , n], number) => made.edges.push([n, slot, ways[number], 0]));
    return made;
  }

  // Puts the nodes of a box, and where there are many of them the frame around them and the seams between them.
  putChain(made, chain, [x, y], [wide, high]) {
    const isBlock = chain.length > 1, round = number => Number(tenths(number)), left = x - wide / 2 + 4;
    if (isBlock) made.frames.push([round(x - wide / 2), round(y - high / 2), wide, high]);
    chain.forEach((n, place) => {
      const middle = isBlock ? y - high / 2 + 4 + ROW * (place + 0.5) : y;
      made.boxes[n] = [round(x), round(middle), wide, isBlock ? ROW : high];
      if (place) made.edges.push([chain[place - 1], 0,
        `M${tenths(left)} ${tenths(middle - ROW)}L${tenths(left)} ${tenths(middle)}`, 1]);
    });
  }
}

// Of each node of a block but the last the one that follows it.
function followers(nodes) {
  const entered = nodes.map(() => 0);
  for (const node of nodes) for (const s of node[SUCCS]) entered[s]++;
  return new Map(nodes.flatMap((node, n) =>
    node[SUCCS].length === 1 && entered[node[SUCCS][0]] === 1 ? [[n, node[SUCCS][0]]] : []));
}

// The nodes of a block from its first one.
function chainFrom(follows, first) {
  const chain = [first];
  while (follows.has(chain.at(-1))) chain.push(follows.get(chain.at(-1)));
  return chain;
}

// The boxes of a stage, by nodes or by blocks, made once.
const boxesOf = (stage, byBlocks) => (stage.boxes ??= [])[Number(byBlocks)] ??= new Boxes(stage, byBlocks);

// The picture of a stage, by nodes or by blocks, made once; stages with the same boxes have one picture.
const PICTURES = new Map();
function pictureOf(stage, byBlocks) {
  const boxes = boxesOf(stage, byBlocks), key = JSON.stringify([boxes.chains, boxes.sizes, boxes.edges]);
  if (!PICTURES.has(key)) PICTURES.set(key, boxes.picture());
  return PICTURES.get(key);
}

// ---- the programs of stages, which are run

// The text of a unit at a stage: the layout of its graph, with numbers of nodes as labels.
function unitText(unit, stage) {
  const lines = linesOf(stage), targets = new Set(lines.map(line => line[2]));
  let text = `${unit.name}: begin\n`;
  for (const [number, words, target] of lines) {
    if (targets.delete(number)) text += `n${number}:\n`;
    if (words !== null) text += target === null ? `${words}\n` : `${words} n${target}\n`;
  }
  return `${text}end\n`;
}

// The text of a program where its first unit is at its stage of this number. A unit with fewer rounds is at its last one
// where the first unit has more.
function programText(units, at) {
  const stage = units[0].stages[at];
  const globals = stage.vars.slice(0, stage.shared).map(name => `global ${name}\n`).join('');
  return globals + units.map(unit =>
    unitText(unit, unit.stages.find(one => one.name === stage.name) ?? unit.stages.at(-2))).join('');
}
