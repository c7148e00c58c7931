// ---- the index and the keys

function openIndex() {
  const names = [];
  for (const unit of UNITS) for (const pass of passesOf(unit)) if (!pass.first &&
    !names.includes(pass.title)) names.push(pass.title);
  const short = names.filter(name => !/ [2-9]|1[0-9]/.test(name) ||
    UNITS.some(unit => passesOf(unit).some(pass => pass.title === name && pass.count)));
  short.sort((a, b) => order(a) - order(b));
  const rows = UNITS.map((unit,
    at) => `<tr><th scope="row"><button type="button" data-unit="${at}" data-to="0">${esc(unit.name)}</button></th>`
    + short.map(name => {
    const pass = passesOf(unit).find(one => one.title === name);
    return `<td>${!pass ? '' : pass.count ? `<button type="button" data-unit="${at}" data-to="${pass.at}" aria-label="${esc(unit.name)}, ${esc(name)}: ${pass.count} changed">${pass.count}</button>` : '<span class="quiet">·</span>'}</td>`;
  }).join('') + `<td class="moves">${passesOf(unit).filter(isMotion).flatMap(pass => itemsOf(pass).filter(item => item.temp).map(item => code(item.text))).join(', ') || '<span class="quiet">–</span>'}</td></tr>`)
    .join('');
  $('#index').innerHTML = `<h2>Which pass changed what</h2><div class="scroll"><table><thead><tr><th scope="col">unit</th>${short.map(name => `<th scope="col" class="tall"><span>${esc(name)}</span></th>`).join('')}<th scope="col">code motion moves</th></tr></thead><tbody>${rows}</tbody></table></div><p class="quiet">The numbers count nodes that changed, went or are new. Choose one to see why.</p><form method="dialog"><button>Close</button></form>`;
  $('#index').showModal();
}
const order = name => { const at = Math.max(...UNITS.map(unit => passesOf(unit)
      .findIndex(pass => pass.title === name))); return at < 0 ? 99 : name === 'clean again' ? 98 : at; };

const KEYS = [['← →', 'step through what a pass finds out', 'ArrowLeft ArrowRight h l'],
  ['↑ ↓', 'another node (also k, j)', ''], ['[ ]', 'the pass before, the next pass', ''],
  ['{ }', 'the same, but those that change nothing are left out', ''],
  ['PageDown PageUp', 'for a clicker: step by step through all passes, each at a node that tells something', ''],
  ['e E', 'another expression, pattern or variable', ''],
  ['n p', 'another unit', ''], ['g x a b', 'graph, text, graphs before and after, busy and lazy', ''],
    ['r', 'a run; . and , walk along it', ''], ['q', 'quiz: columns are asked; space marks a node, Enter checks', ''],
    ['v', 'the verdicts of the pass', ''], ['> <', 'in a run, over the units that are called', ''],
    ['w o O', 'in a quiz: print a sheet, hand in, the answers', ''], ['1 2 3 4 5 6 7', 'the tables of another command, where they are there', ''],
    ['c', 'the graph by blocks or by nodes', ''], ['+ − 0', 'size of the graph', ''], ['t', 'dark or light', ''],
    ['i ?', 'index, keys', '']];
function openKeys() {
  $('#keys').innerHTML = `<h2>Keys</h2><table>${KEYS.map(([keys, what]) => `<tr><th scope="row">${keys.split(' ').map(key => `<kbd>${esc(key)}</kbd>`).join(' ')}</th><td>${what}</td></tr>`).join('')}</table><p class="quiet">A click on a cell asks why it is so: the path that shows it lights up in the graph. Hover or focus a node to find it in text, table and graph. The address of the page remembers what is shown, so a link leads there.</p><form method="dialog"><button>Close</button></form>`;
  $('#keys').showModal();
}
