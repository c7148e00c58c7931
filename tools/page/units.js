// ---- the units of a canonical text, as `mir` writes one: their lines, labels and instructions, and their control flow

// A text as it stands in HTML.
const escaped = text => text.replace(/[&<>"']/g, one =>
  ({ '&': '&amp;', '<': '&lt;', '>': '&gt;', '"': '&quot;', "'": '&#x27;' })[one]);

// The lines of a text, each of which ends.
const linesIn = text => text.split('\n').slice(0, -1);

// The lines of each unit of a canonical text; globals stand with the first one.
function splitUnits(text) {
  const units = [];
  let lines = [];
  for (const line of linesIn(text)) {
    lines.push(line);
    if (line === 'end' || line.endsWith(': end')) {
      units.push(lines);
      lines = [];
    }
  }
  return units;
}

// A unit out of its lines: its name, the place to which each label leads, and its instructions.
function unitOf(lines) {
  const unit = { name: '', labels: new Map(), instructions: [] };
  for (const line of lines) {
    if (line.startsWith('global ')) continue;
    const [, label, text] = line.match(/^(?:(\w+): )?(.*)$/);
    if (text === 'begin') unit.name = label;
    else {
      if (label) unit.labels.set(label, unit.instructions.length);
      if (text !== 'end') unit.instructions.push(text);
    }
  }
  return unit;
}

// The stages that `mir stages` writes: each with its name and the text of each of its units.
function stagesOf(text) {
  if (!text.startsWith('|| source\n')) throw new Error('no stages');
  return text.split(/^\|\| /m).slice(1).map(part => {
    const cut = part.indexOf('\n');
    return { name: part.slice(0, cut), text: part.slice(cut + 1),
      texts: splitUnits(part.slice(cut + 1)).map(lines => `${lines.join('\n')}\n`) };
  });
}

// ---- what an instruction reads and sets

// Whether a word is a name, and the names in a right side or a test.
const isName = word => /^[A-Za-z]/.test(word);
const OPERATORS = new Set(['mod', 'min', 'max', 'shl', 'shr', 'shra', 'and', 'or', 'xor']);
const namesIn = words => words.split(' ').filter(word => isName(word) && !OPERATORS.has(word));

// The variables that an instruction reads, and those that it sets.
function variablesIn(text) {
  const received = text.match(/^receive (\w+)\(val\)$/);
  if (received) return [[], [received[1]]];
  const call = text.match(/^(?:(\w+) <-|call) \w+,\((.*)\)$/);
  if (call) return [call[2].split(';').map(one => one.split(',')[0]).filter(isName), call[1] ? [call[1]] : []];
  const assigned = text.match(/^(\w+) <- (.*)$/);
  if (assigned) return [namesIn(assigned[2]), [assigned[1]]];
  const read = text.match(/^if (.*) (?:goto|trap) \w+$/) ?? text.match(/^(?:print|return) (.*)$/);
  return [read ? namesIn(read[1]) : [], []];
}

// The names of a unit's variables.
const variablesOf = unit => new Set(unit.instructions.flatMap(one => variablesIn(one).flat()));

// ---- the control flow, by basic blocks: each has its first place and the one behind its last

// The edges that leave a place: the place, where it leads, and which way of a test it is.
function edgesFrom(unit, place) {
  const text = unit.instructions[place];
  if (text === undefined || text.startsWith('return ')) return [];
  const jump = text.match(/^(goto|if .* goto) (\w+)$/);
  if (!jump) return [[place, place + 1, '']];
  const target = unit.labels.get(jump[2]);
  return jump[1] === 'goto' ? [[place, target, '']] : [[place, target, 'yes'], [place, place + 1, 'no']];
}

// The places that a path from the first one comes to, in order.
function reachedPlaces(unit) {
  const seen = new Set([0]), waiting = [0];
  while (waiting.length) for (const [, target] of edgesFrom(unit, waiting.pop()))
    if (!seen.has(target)) {
      seen.add(target);
      waiting.push(target);
    }
  return [...seen].sort((one, other) => one - other);
}

// The basic blocks of the reached places, in order; receives stand with what follows them.
function blocksOf(unit) {
  const places = reachedPlaces(unit), heads = new Set([0]), found = [];
  for (const place of places) {
    const leaving = edgesFrom(unit, place), jumps = (unit.instructions[place] ?? '').startsWith('goto ');
    if (leaving.length === 1 && leaving[0][1] === place + 1 && !jumps) continue;
    for (const [, target] of leaving) heads.add(target);
  }
  for (const place of places) {
    if (heads.has(place) || found.at(-1)?.[1] !== place) found.push([place, place + 1]);
    else found.at(-1)[1] = place + 1;
  }
  return found;
}

// The edges between blocks, by their numbers.
function blockEdges(unit, blocks) {
  const number = new Map(blocks.map(([first], at) => [first, at]));
  return blocks.flatMap(([, end], at) =>
    edgesFrom(unit, end - 1).map(([, target, label]) => [at, number.get(target), label]));
}

// The variables that a block reads before it sets them, and those that it sets.
function readBeforeSet(unit, [first, end]) {
  const read = new Set(), written = new Set();
  for (let place = first; place < Math.min(end, unit.instructions.length); place++) {
    const [reads, sets] = variablesIn(unit.instructions[place]);
    for (const one of reads) if (!written.has(one)) read.add(one);
    for (const one of sets) written.add(one);
  }
  return [read, written];
}

// For each edge which of these variables live on it: some path from its target reads them unset.
function liveEdges(unit, blocks, edges, names) {
  if (!names.size) return edges.map(() => names);
  const accesses = blocks.map(block => readBeforeSet(unit, block)), upwards = [...edges].reverse();
  const live = accesses.map(([read]) => new Set([...read].filter(one => names.has(one))));
  for (let changed = true; changed;) {
    changed = false;
    for (const [source, target] of upwards) for (const one of live[target])
      if (!accesses[source][1].has(one) && !live[source].has(one)) {
        live[source].add(one);
        changed = true;
      }
  }
  return edges.map(([, target]) => live[target]);
}

// The lines of a block, with their labels; of labels of one place the first is shown.
function blockLines(unit, [first, end]) {
  const labels = new Map([...unit.labels].reverse().map(([name, place]) => [place, name])), lines = [];
  for (let place = first; place < end; place++) {
    const text = unit.instructions[place] ?? 'end';
    lines.push(labels.has(place) ? `${labels.get(place)}: ${text}` : text);
  }
  return lines;
}
