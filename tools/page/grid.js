// ---- the table of nodes: a row for each, in the order of the text, and a column for what is found out

// The rows of a pass: those of the nodes before it, and where its last column is shown also those that are new, where
// they stand in the text behind it. What goes keeps its place behind the row above it.
function rowsOf(pass, withNew) {
  pass.rowsMade ??= [];
  return pass.rowsMade[Number(withNew)] ??= withNew && !pass.first ? rowsWithNew(pass)
    : inTextOrder(pass.before, range(pass.before.nodes.length)).map(n => ({ n }));
}

function rowsWithNew(pass) {
  const shown = inTextOrder(pass.after, range(pass.after.nodes.length)).flatMap(m => pass.old[m] === null ? [{ m }]
    : pass.old[m] >= 0 ? [{ n: pass.old[m] }] : []);
  const before = rowsOf(pass, false), there = new Set(shown.map(row => row.n));
  before.forEach(({ n }, at) => {
    if (there.has(n)) return;
    there.add(n);
    shown.splice(at ? shown.findIndex(row => row.n === before[at - 1].n) + 1 : 0, 0, { n });
  });
  return shown;
}

// Whether the last column of a pass is shown, which has what becomes of each node.
const showsLast = () => columnNow()?.id === 'after';

// The node whose row stands so many rows from that of now; the first or the last one where there is none.
function nodeBy(rows) {
  const nodes = rowsOf(passNow(), showsLast()).flatMap(row => row.n ?? []), at = nodes.indexOf(state.node);
  return nodes[Math.min(Math.max(at + rows, 0), nodes.length - 1)];
}

// The row of a node that is new.
const newRow = (pass, m, wide) => {
  const [kind, succs, , text] = pass.after.nodes[m];
  const does = kind === 'skip' ? `<ins>skip</ins> <span class="quiet">new, → ${succs[0]}</span>`
    : `<ins>${esc(text)}</ins> <span class="quiet">new</span>`;
  return `<tr class="fresh" data-k="a${m}"><th scope="row">${m}</th><td class="does" colspan="${wide}">${does}</td></tr>`;
};

// What a node does, and in the last column what becomes of it.
function doesDrawn(pass, n, last) {
  const node = pass.before.nodes[n], becomes = pass.became[n] === null ? '' : pass.after.nodes[pass.became[n]][3];
  if (last && pass.change[n] === 'gone') return `<del>${esc(node[3])}</del>`;
  if (last && pass.change[n] === 'changed') return `<del>${esc(node[3])}</del> <ins>${esc(becomes)}</ins>`;
  const leads = node[0] === 'test' ? ` <span class="quiet">→ ${node[1][0]}, else ${node[1][1]}</span>`
    : node[0] === 'return' ? '' : ` <span class="quiet">→ ${node[1][0]}</span>`;
  return `${node[0] === 'start' ? 'Start' : node[0] === 'skip' ? '<i>skip</i>' : esc(node[3])}${leads}`;
}

// A cell of a column of bits: in a quiz it may be hidden, or asked.
function bitCell(one, at, n, guess, latest) {
  const base = `data-col="${at}" role="gridcell" tabindex="-1" style="--h:${one.hue}"`, isHidden = hidden(at);
  if (isHidden && at !== state.col) return `<td class="veiled" ${base}><span class="sr">hidden</span></td>`;
  if (isHidden) return `<td class="ask ${guess[n] ? 'guess' : ''}" ${base}>${guess[n] ? '●' : '?'}<span class="sr">${guess[n] ? 'you say yes' : 'your turn'}</span></td>`;
  const wrong = state.quiz && at === state.col && Boolean(guess[n]) !== one.bits[n];
  const faint = one.id === 'isolated' && !latest[n] ? 'faint' : '';
  return `<td class="${one.bits[n] ? 'yes' : 'no'} ${faint} ${wrong ? 'wrong' : ''}" ${base}>${one.bits[n] ? '●' : wrong ? '○' : ''}<span class="sr">${one.bits[n] ? 'yes' : 'no'}</span></td>`;
}

// A cell of a column of values.
function valueCell(one, at, n) {
  const base = `data-col="${at}" role="gridcell" tabindex="-1" style="--h:${one.hue}"`;
  if (hidden(at)) return `<td class="veiled" ${base}>${one.marks ? '' : '?'}</td>`;
  return `<td class="val ${one.wide ? 'wide' : ''} ${one.marks ? 'marks' : ''} ${one.values[n] === '?' ? 'varying' : ''}" ${base} title="${esc(one.values[n])}">${esc(one.values[n])}</td>`;
}

// The rows that are drawn, of all rows of a table from one up to another. Of a long table these are the ones about the row
// of now, or about what is in sight where the reader scrolls.
const drawn = { rows: [], from: 0, to: 0 };
const rowsAbout = () => Math.max(40, Math.ceil(window.innerHeight / 20));

// Chooses which rows are drawn, where one of them is in sight: all of a short table, or of one that is printed.
function chooseRows(rows, at, all) {
  const about = rowsAbout(), { length } = rows;
  const isNear = drawn.from <= Math.max(at - 2, 0) && Math.min(at + 2, length) <= drawn.to;
  if (all || length <= 4 * about) Object.assign(drawn, { rows, from: 0, to: length });
  else if (drawn.rows !== rows || !isNear || drawn.to - drawn.from > 2 * about)
    Object.assign(drawn, { rows, from: Math.max(at - about, 0), to: Math.min(at + about, length) });
}

// A row with the height of so many that are not drawn.
const filler = (count, wide) => count
  ? `<tr class="filler" aria-hidden="true"><td colspan="${wide}" style="height: calc(${count} * 1.75rem)"></td></tr>` : '';

// Draws the rows that have come into sight.
function showRowsInSight() {
  const box = $('#table .scroll'), { rows, from, to } = drawn;
  if (!box || to - from === rows.length) return;
  const { firstElementChild: first, lastElementChild: end } = $('#grid tbody');
  const top = from ? first.offsetTop + first.offsetHeight : -1, low = to < rows.length ? end.offsetTop : Infinity;
  if (box.scrollTop >= top && box.scrollTop + box.clientHeight <= low) return;
  const high = from ? first.offsetHeight / from : end.offsetHeight / (rows.length - to);
  showTable(passNow(), { at: Math.min(Math.floor((box.scrollTop + box.clientHeight / 2) / high), rows.length - 1) });
}

// Draws a table, about the row of now where no other one is in sight.
function showTable(pass, { at, all = false } = {}) {
  const columns = columnsNow(), last = showsLast();
  const heads = columns.map((one,
    at) => `<th scope="col" class="${one.wide ? 'wide' : 'tall'}" data-head="${at}" style="--h:${one.hue}"><button type="button" data-col="${at}" tabindex="-1">${esc(one.label)}</button></th>`)
    .join('');
  const guess = guesses.get(guessKey()) || {}, latest = isMotion(pass) &&
    itemsOf(pass).length ? bitsOf(itemsOf(pass)[state.item].rows, 'latest') : [];
  const known = rowsOf(pass, last && !hidden(state.col)), wide = columns.length + 2;
  chooseRows(known, at ?? known.findIndex(row => row.n === state.node), all);
  const rows = known.slice(drawn.from, drawn.to).map(({ n, m }) => {
    if (n === undefined) return newRow(pass, m, columns.length + 1);
    const cells = columns.map((one, at) => one.bits ? bitCell(one, at, n, guess, latest) : valueCell(one, at, n)).join('');
    return `<tr data-k="b${n}" data-n="${n}" class="${last ? pass.change[n] : ''}"><th scope="row" tabindex="-1">${n}</th><td class="does">${doesDrawn(pass, n, last && !hidden(state.col))}</td>${cells}</tr>`;
  });
  const body = `${filler(drawn.from, wide)}${rows.join('')}${filler(known.length - drawn.to, wide)}`;
  const html = `${quizBar(columns[state.col], guess)}<div class="scroll"><table id="grid" role="grid" class="${columns.some(one => one.wide) ? 'short' : ''}" aria-rowcount="${known.length + 1}" aria-label="nodes of ${esc(pass.before.name)}"><thead><tr><th scope="col" class="corner">node</th><th scope="col" class="corner">what it does</th>${heads}</tr></thead><tbody>${body}</tbody></table></div>`;
  if (at !== undefined) $('#grid tbody').innerHTML = body;   // the box that is scrolled stays
  else if (html !== tableNow) {                             // most keys move the cursor alone
    const kept = $('#table .scroll'), [keptTop, keptLeft] = kept ? [kept.scrollTop, kept.scrollLeft] : [0, 0];
    $('#table').innerHTML = html;
    Object.assign($('#table .scroll'), { scrollTop: keptTop, scrollLeft: keptLeft });
  }
  tableNow = html;
  placeCursor();
}
let tableNow = '';

// Marks the row, the column and the cell of now, and the row of the run.
function placeCursor() {
  const grid = $('#grid'), walked = countsOf(false).now;
  const mark = (name, found) => {
    const wanted = new Set(found);
    for (const one of grid.querySelectorAll('.' + name)) if (!wanted.has(one)) one.classList.remove(name);
    for (const one of wanted) if (one) one.classList.add(name);
  };
  const row = grid.querySelector(`tr[data-n="${state.node}"]`);
  const cell = columnNow() ? row?.querySelector(`td[data-col="${state.col}"]`) : row?.firstElementChild;
  for (const one of grid.querySelectorAll('tbody [tabindex="0"]')) one.tabIndex = -1;
  if (cell) cell.tabIndex = 0;
  mark('here', [row]);
  mark('cursor', [cell]);
  mark('now', grid.querySelectorAll(`th[data-head="${state.col}"], td[data-col="${state.col}"]`));
  mark('walked', walked === null ? [] : [grid.querySelector(`tr[data-n="${walked}"]`)]);
}

// Scrolls the table so that the row and the column of now can be seen whole, the row with what stands beside it.
function inView() {
  const box = $('#table .scroll'), row = $('tr.here'), head = $('th.now') || $('th.corner');
  if (!row) return;
  const headHeight = head.offsetHeight, next = row.nextElementSibling, above = row.previousElementSibling;
  const top = (above ?? row).offsetTop, low = (next ?? row).offsetTop + (next ?? row).offsetHeight;
  if (top < box.scrollTop + headHeight) box.scrollTop = top - headHeight;
  else if (low > box.scrollTop + box.clientHeight) box.scrollTop = low - box.clientHeight;
  const left = head.offsetLeft, right = left + head.offsetWidth, first = $('#grid tbody th')?.offsetWidth ?? 0;
  if (right > box.scrollLeft + box.clientWidth) box.scrollLeft = right - box.clientWidth;
  if (left < box.scrollLeft + first) box.scrollLeft = left - first;
}
