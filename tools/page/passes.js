// ---- the passes of a unit, each between two stages

function passesOf(unit) {
  if (unit.made) return unit.made;
  const rounds = {};
  const made = unit.stages.map((stage, at) => {
    const facts = at ? unit.passes[at - 1] : { name: 'lower', rows: {} };
    const before = unit.stages[Math.max(at - 1, 0)];
    let title = SAY[facts.name][0];
    if (facts.name === 'sink' || facts.name === 'prune') title += ' ' + stage.name.split(' ').at(-1);
    else if (rounds[title]) title += ' again';
    rounds[title] = true;
    const pass = { at, name: facts.name, title, facts, before, after: stage, became: before.nodes.map(() => null),
      fresh: [],
      change: [], first: at === 0 };
    pass.old = pass.first ? range(stage.nodes.length) : [...facts.old];
    pass.puts = putsOf(pass);
    keepUnmoved(pass);
    pass.old.forEach((old, m) => { if (old === null) pass.fresh.push(m); else if (old >= 0) pass.became[old] = m; });
    pass.change = before.nodes.map((node, n) => {
      const m = pass.became[n];
      if (m === null) return 'gone';
      return stage.nodes[m] === node || stage.nodes[m][3] === node[3] && stage.nodes[m][0] === node[0] ? 'same' : 'changed';
    });
    // what writes text counts: a Skip does not
    const counts = node => node[0] !== 'skip';
    pass.count = pass.first ? 0 : before.nodes.filter((node, n) => pass.change[n] !== 'same' && counts(node))
      .length + pass.fresh.filter(m => counts(stage.nodes[m])).length;
    pass.told = pass.first ? 'as read' : pass.count ? `${pass.count} ${facts.name === 'prune' ? 'dead'
      : facts.name === 'clean' && !pass.change.includes('changed') ? 'dropped' : 'changed'}`
      : isSameText(unit, pass) ? 'no change' : 'jumps alone';
    return pass;
  });
  Object.defineProperty(unit, 'made', { value: made });
  return made;
}

// For each node before a pass, which new assignments stand before it.
function putsOf({ before, after: { nodes }, old }) {
  const puts = before.nodes.map(() => NOTHING);
  nodes.forEach(([kind], m) => {
    if (kind !== 'assign' || old[m] !== null) return;
    let to = m;
    for (let steps = 0; steps <= nodes.length && old[to] === null; steps++) to = nodes[to][1][0];
    // (code that is joined may turn in a loop and come to no node of before)
    if (old[to] !== null) puts[old[to]] = [...puts[old[to]], m];
  });
  return puts;
}
const NOTHING = [];

// Whether a pass that changed no instruction also leaves the text as it was, but for the numbers of labels.
function isSameText(unit, { before, after, old }) {
  const isAsBefore = (node, m) => old[m] === m && before.nodes[m] === node;
  return before.nodes.length === after.nodes.length && after.nodes.every(isAsBefore)
    || instructionsOf(unit, before) === instructionsOf(unit, after);
}

// The text of a stage, in which it makes no difference which number a label has.
function instructionsOf(unit, stage) {
  const numbers = new Map();
  return unitText(unit, stage).replace(/^n\d+(?=:$)|(?<=^goto |^if .* goto )n\d+$/gm, label => {
    if (!numbers.has(label)) numbers.set(label, numbers.size);
    return `n${numbers.get(label)}`;
  });
}

// An assignment that keeps its place among the others is the same one, and stays. Nodes that stay and joins part the
// graph into stretches, before and after alike, and in each of them as many assignments as can be keep their order. The
// Skip that such a one leaves is then of no node before, and its old number is -1.
function keepUnmoved(pass) {
  if (pass.name !== 'sink') return;
  const { nodes } = pass.before, { into } = edgesOf(pass.before), after = pass.after.nodes;
  const stays = n => after[n][0] !== 'skip', begins = n => into[n].length !== 1 || stays(into[n][0]);
  nodes.forEach((_, first) => {
    if (!begins(first)) return;
    let last = first, count = pass.puts[first].length;
    while (!stays(last) && !begins(nodes[last][1][0])) count += pass.puts[last = nodes[last][1][0]].length;
    if (!count) return;
    const stretch = [first];
    while (stretch.at(-1) !== last) stretch.push(nodes[stretch.at(-1)][1][0]);
    const now = stretch.flatMap(n => pass.puts[n]), was = stretch.filter(n => nodes[n][0] === 'assign' && !stays(n));
    for (const [n, m] of inOrder(was, now, (n, m) => nodes[n][3] === after[m][3])) [pass.old[m], pass.old[n]] = [n, -1];
    for (const n of stretch) if (pass.puts[n].length) pass.puts[n] = pass.puts[n].filter(m => pass.old[m] === null);
  });
}

// As many pairs of two lists as can be, in the order of both. Where there is a choice, what stands first has gone on.
function inOrder(left, right, same) {
  if (!left.length || !right.length) return [];
  const most = [...left, null].map(() => new Uint32Array(right.length + 1)), pairs = [];
  for (let a = left.length - 1; a >= 0; a--) for (let b = right.length - 1; b >= 0; b--)
    most[a][b] = same(left[a], right[b]) ? most[a + 1][b + 1] + 1 : Math.max(most[a + 1][b], most[a][b + 1]);
  for (let a = 0, b = 0; a < left.length && b < right.length;)
    if (same(left[a], right[b])) pairs.push([left[a++], right[b++]]);
    else if (most[a + 1][b] >= most[a][b + 1]) a++;
    else b++;
  return pairs;
}

const bitsOf = (rows, name) => Array.from(rows[name] || '', bit => bit === '1');
const where = bits => range(bits.length).filter(n => bits[n]);

// What a value number stands for, as a tree; long ones are cut.
function termText(terms, at, depth = 0) {
  const [kind, ...rest] = terms[at];
  if (kind === 'leaf') return rest[0] + rest[1];
  if (kind === 'node') return `${rest[0]}@${rest[1]}`;
  if (kind === 'number') return rest[0];
  if (depth > 4) return '…';
  const parts = rest.map(one => termText(terms, Number(one), depth + 1));
  return parts.length === 1 ? `${kind}${parts[0]}` : `(${parts[0]} ${kind} ${parts[1]})`;
}

// The choices of a pass: expressions, patterns or variables.
const itemsOf = pass => pass.facts.items || [];
const KIND_OF_ITEM = { motion: 'expression', divisions: 'division', sink: 'pattern', prune: 'variable' };

// The columns of a pass for one choice. A column has for each node a bit or a value, a sentence, and an answer to `why`.
function columnsOf(pass, number) {
  pass.columns = pass.columns || [];
  if (!pass.columns[number]) pass.columns[number] = [...(COLUMNS[pass.name] || (() => []))(pass,
      itemsOf(pass)[number], number),
    ...(pass.first ? [] : [afterColumn(pass)])];
  return pass.columns[number];
}
const column = (id, bits, say, why, label = id) => ({ id, label, bits, say, why, hue: HUES[id] ?? 200 });
const values = (id, texts, say, why, label = id, wide = false) => ({ id, label, values: texts, say, why, wide,
  hue: 200 });

// The last column of each pass: what becomes of the node.
function afterColumn(pass) {
  const told = pass.before.nodes.map((_, n) => pass.change[n] === 'gone'
    ? (pass.before.nodes[n][0] === 'skip' && pass.name !== 'clean' ? '' : '–')
    : (pass.puts[n].length ? '+' + pass.puts[n].length : '')
    + (pass.change[n] === 'changed' ? '✎' : ''));
  const why = n => {
    const puts = pass.puts[n].map(m => code(pass.after.nodes[m][3]));
    const becomes = pass.became[n] === null ? 'It is dropped.' : pass.change[n] === 'changed'
      ? `It becomes ${code(pass.after.nodes[pass.became[n]][3])}.` : 'The node itself stays as it is.';
    const moved = pass.became[n] !== null && pass.became[n] !== n ? ` Its number is now ${pass.became[n]}.` : '';
    const reason = pass.facts.wanted ? whyNarrowed(pass, n) : '';
    return { html: (puts.length ? `Before it stands ${puts.join(' and ')}, new. ` : '') + becomes + reason + moved };
  };
  return lazily({ id: 'after', label: 'rewritten', values: told, marks: true, why, hue: HUES.after }, 'say', () => did(pass));
}

// ---- what a pass did, in a sentence, and why it did nothing

function did(pass) {
  const { nodes } = pass.before, after = pass.after.nodes;
  const changed = where(pass.change.map(one => one === 'changed')),
    gone = where(pass.change.map(one => one === 'gone'));
  const becomes = n => `${N(n)} becomes ${code(after[pass.became[n]][3])}`;
  const some = (ns, tell) => ns.slice(0, 4).map(tell).join('; ') + (ns.length > 4 ? `; and ${ns.length - 4} more` : '');
  const parts = [];
  if (pass.first) return '';
  if (isMotion(pass)) {
    itemsOf(pass).forEach(item => {
      const inserted = where(bitsOf(item.rows, 'inserted')), replaced = where(bitsOf(item.rows, 'replaced'));
      if (inserted.length) parts.push(`${code(item.text)} is evaluated into ${code(item.temp)} before ${list(inserted)}, and read at ${list(replaced)}`);
    });
    return parts.length ? parts.join('; ') + '.' : 'Nothing moves.';
  }
  if (pass.name === 'sink') {
    itemsOf(pass).forEach(item => {
      const occurs = where(bitsOf(item.rows, 'occurs')), inserted = where(bitsOf(item.rows, 'inserted'));
      parts.push(`${code(item.text)} goes from ${list(occurs)} to ${inserted.length ? 'before ' + list(inserted) : 'nowhere: nobody reads it'}`);
    });
    if (!parts.length) return 'No assignment moves past another node.';
    return parts.join('; ') + (pass.count ? '.' : '. They keep their order.');
  }
  if (!pass.count) return 'Nothing changes.';
  if (pass.name === 'prune') return `Dead, and gone: ${list(changed)}.`;
  if (pass.name === 'split') return pass.fresh.map(m => `${m} on the edge ${nodes.findIndex((_, n) => after[n][1].includes(m))} → ${after[m][1][0]}`)
    .join(', ') + ': new Skips.';
  if (changed.length) parts.push(some(changed, becomes));
  if (gone.length) parts.push(`${list(gone)} ${gone.length === 1 ? 'is' : 'are'} dropped`);
  return parts.join('; ') + '.';
}

function whyNothing(pass) {
  if (pass.first || isMotion(pass)) return '';
  if (pass.name === 'sink' && !itemsOf(pass).length) return pass.facts.settled?.length
    ? 'Each assignment is needed by the very node that follows, or by one behind Skips: it is held up and cannot move.'
    : 'There is no assignment that may move.';
  if (pass.count) return '';
  return { clean: 'Each jump here is wanted: every successor is its own end of chain.',
    fold: 'No operand has one known value, no test is decided, and no identity applies.',
    bounds: 'No operand has one value, and no right side, test or trap instruction is decided by the bounds.',
    wanted: 'Of each assignment that can go a bit is wanted, and each operator changes one that is.',
    demanded: 'Of each assignment that can go, and of all that is handed over, a bit is wanted, and each operator changes one that is.',
    number: 'No right side has a term that a variable already has.',
      copies: itemsOf(pass).length ? 'No node reads a variable where it is a copy.' : 'There is no copy in this graph.',
    split: 'No node is entered by more than one edge.',
      tails: 'No call of the unit itself is in tail position.', join: 'No call is one of a leaf.',
      prune: 'Each assigned value is read by somebody.' }[pass.name] || '';
}
