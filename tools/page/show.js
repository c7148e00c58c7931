// ---- the state of the page

const unitNow = () => UNITS[state.unit];
const passNow = () => passesOf(unitNow())[state.pass];
const columnsNow = () => columnsOf(passNow(), state.item);
const columnNow = () => columnsNow()[state.col];

function clamp() {
  const passes = passesOf(unitNow());
  state.pass = Math.min(Math.max(state.pass, 0), passes.length - 1);
  const items = itemsOf(passNow());
  state.item = KIND_OF_ITEM[passNow().name] ? Math.min(Math.max(state.item, 0), Math.max(items.length - 1, 0)) : 0;
  state.col = Math.min(Math.max(state.col, 0), Math.max(columnsNow().length - 1, 0));
  state.node = Math.min(Math.max(state.node, 0), passNow().before.nodes.length - 1);
  if (state.view === 'busy' && !(passNow().name === 'motion' && items.length)) state.view = 'graph';
}

// Goes to a pass, with the node that is the same one there.
function goPass(to) {
  const passes = passesOf(unitNow());
  to = Math.min(Math.max(to, 0), passes.length - 1);
  let node = state.node;
  for (let at = state.pass; at < to; at++) node = passes[at].became[node] ?? node;
  for (let at = state.pass; at > to; at--) node = Math.max((at - 1 ? passes[at - 1].old[node] : node) ?? node, 0);
  Object.assign(state, { pass: to, node, item: bestItem(passes[to]), col: 0 });
  state.col = isMotion(passes[to]) || passes[to].name === 'sink' ? 0 : columnsNow().length - 1;
  show();
}

// The first choice of a pass with which something happens.
function bestItem(pass) {
  const items = itemsOf(pass);
  const moves = item => item.rows.inserted?.includes('1');
  const does = { motion: moves, divisions: moves, sink: item => item.rows.occurs !== undefined,
    prune: (item, at) => columnsOf(pass, at).find(one => one.id === 'dead').bits.includes(true) }[pass.name];
  return does ? Math.max(items.findIndex(does), 0) : 0;
}

function goUnit(to) {
  const passes = passesOf(UNITS[(to + UNITS.length) % UNITS.length]);
  Object.assign(state, { unit: (to + UNITS.length) % UNITS.length, node: 1, item: 0, col: 0, run: null, at: 0 });
  const same = passes.findIndex(pass => MAIN.includes(pass.name));
  state.pass = Math.max(same, 0);
  state.item = bestItem(passNow());
  fillInputs();
  show();
}

// ---- showing

// What stands in the bar below a pass: how many nodes it changed, or that it wrote the text as it was.
function briefDrawn(pass) {
  if (pass.first) return 'as read';
  if (pass.count) return `${pass.count}<span class="more"> ${pass.told.split(' ')[1]}</span>`;
  return `<span class="more">${pass.told}</span><span class="less" aria-hidden="true">–</span>`;
}

function show(focus = false) {
  clamp();
  const unit = unitNow(), pass = passNow();
  document.body.classList.toggle('quizzing', state.quiz);
  document.documentElement.dataset.theme = state.theme || '';
  $('#unit').value = state.unit;
  $('#heading').innerHTML = `${esc(pass.title)}: <span>${SAY[pass.name][1]}</span>`;
  $('#b-quiz').setAttribute('aria-pressed', state.quiz);
  $('#b-run').setAttribute('aria-pressed', state.run !== null);
  showCommands();
  showPipeline(unit);
  showLesson(pass);
  showTable(pass);
  showRun(unit);
  showViews(pass);
  showGraphs(pass);
  showWhy(pass);
  remember();
  if (focus) $('td.cursor, th.cursor')?.focus({ preventScroll: true });
  inView();
}

// The commands whose tables there are, where there is more than one. The focus stays on the one of now.
function showCommands() {
  const isHeld = document.hasFocus() && $('#commands').contains(document.activeElement);
  $('#commands').hidden = COMMANDS.length < 2;
  $('#commands').innerHTML = COMMANDS.map(({ word }, at) => `<button type="button" data-command="${at}" aria-pressed="${at === state.command}" title="${at + 1}">${esc(word)}</button>`)
    .join('');
  if (isHeld) $('#commands [aria-pressed=true]').focus({ preventScroll: true });
}

function showPipeline(unit) {
  const ran = state.run && walks(rootNow(), state.run);
  $('#pipeline').innerHTML = '<ol>' + passesOf(unit).map((pass, at) => {
    return `<li><button type="button" data-pass="${at}" class="${pass.count || pass.first ? '' : 'idle'}" ${at === state.pass ? 'aria-current="step"' : ''} title="${esc(pass.title)}: ${pass.told}">`
      + `<span class="name">${esc(pass.title)}</span><span class="what">${ran ? many(ran[stageBeside(rootNow(), pass.after.name)].evals, 'eval') : briefDrawn(pass)}</span></button></li>`;
  }).join('') + '</ol>';
  const now = $('#pipeline [aria-current]'), bar = $('#pipeline ol');
  if (now && now.offsetLeft + now.offsetWidth > bar.clientWidth) bar.scrollLeft = now.offsetLeft - bar.clientWidth / 2;
}

// The verdict on the choice of now; where there is none, those on what is no choice.
function verdictDrawn(pass) {
  const found = [...state.item < judgedOf(pass) ? [verdictAt(pass, state.item)] : [], ...otherVerdicts(pass)];
  return found.map(({ at, item, sentences }) => `<p class="verdict">${sentences.map(one => one.html).join(' ')}`
    + `${at === null ? '' : savedDrawn(pass, item)}</p>`).join('');
}

// What a run says of an expression, where one is shown.
function savedDrawn(pass, item) {
  return state.run && isMotion(pass) ? ` ${savedIn(unitNow(), item, runNow()).html}` : '';
}

// The verdicts of a pass, each with what leads to its choice.
function verdictsDrawn(pass) {
  const rows = verdictsOf(pass).map(({ at, item, sentences }) => `<section class="verdict"><h3>${at === null ? code(item.text)
    : `<button type="button" data-item="${at}" aria-pressed="${at === state.item}">${esc(item.text)}</button>`}</h3>`
    + `<p>${sentences.map(one => one.html).join(' ')}${at === null ? '' : savedDrawn(pass, item)}</p></section>`);
  return `<div class="verdicts">${rows.join('')}</div>`;
}

function showLesson(pass) {
  const items = itemsOf(pass), columns = columnsNow(), now = columnNow(), kind = KIND_OF_ITEM[pass.name];
  let html = '';
  if (kind && items.length) html += `<div class="items" role="group" aria-label="${kind}"><span class="quiet">${kind}</span>`
    + items.map((item, at) => {
    const idle = isMotion(pass) ? !item.temp : pass.name === 'prune'
      ? !columnsOf(pass, at).find(one => one.id === 'dead').bits.includes(true) : false;
    return `<button type="button" data-item="${at}" aria-pressed="${at === state.item}" class="${idle ? 'idle' : ''}">${esc(item.text)}</button>`;
  }).join('') + '</div>';
  if (now) {
    let answer = '';
    if (now.bits && !hidden(state.col)) answer = ` <span class="answer">Here: ${list(where(now.bits))}.</span>`;
    html += `<div class="step"><span class="stepper"><button type="button" id="b-left" aria-label="the step before (left)" ${state.col ? '' : 'disabled'}>‹</button><span>${state.col + 1}/${columns.length}</span><button type="button" id="b-right" aria-label="the next step (right)" ${state.col < columns.length - 1 ? '' : 'disabled'}>›</button></span><p class="say">${now.say}${answer}${RULE[pass.name]?.[now.id] ? `<span class="rule">${esc(now.id)} = ${RULE[pass.name][now.id]}</span>` : ''}</p></div>`;
  } else if (pass.first) html += `<p class="say">${many(pass.before.nodes.length, 'node')}. Step right to see what each pass finds out, and why it does what it does.</p>`;
  if (!state.quiz) html += verdictDrawn(pass);
  const none = passesOf(unitNow()).some(one => one.count) ? whyNothing(pass) : `No pass found anything in this unit. ${whyNothing(pass)}`;
  if (none) html += `<p class="none">${none}</p>`;
  if (pass.name === 'sink' &&
    pass.facts.settled?.length) html += `<details><summary>${many(pass.facts.settled.length, 'assignment')} held up by what follows</summary><p>${pass.facts.settled.map(([n, text]) => `${code(text)} before ${N(n)}`).join('; ')}</p></details>`;
  $('#lesson').innerHTML = html;
}

function showViews(pass) {
  const views = [['graph', 'graph'], ['text', 'text']];
  if (!pass.first) views.push(['both', 'before | after']);
  if (pass.name === 'motion' && itemsOf(pass).length) views.push(['busy', 'busy | lazy']);
  if (!state.quiz && (judgedOf(pass) || otherVerdicts(pass).length)) views.push(['verdicts', 'verdicts']);
  if (!views.some(([id]) => id === state.view)) state.view = 'graph';
  $('#views').innerHTML = views.map(([id,
    label]) => `<button type="button" role="tab" aria-selected="${id === state.view}" data-view="${id}" tabindex="${id === state.view ? 0 : -1}">${label}</button>`)
    .join('')
    + (['text', 'verdicts'].includes(state.view) ? ''
      : `<span class="zoom"><button type="button" id="blocks" aria-pressed="${byBlocks()}" title="straight lines of nodes as one block (c)">blocks</button>`
      + '<button type="button" data-zoom="-1" aria-label="smaller">−</button><button type="button" data-zoom="0" aria-label="as it fits">fit</button><button type="button" data-zoom="1" aria-label="larger">+</button></span>');
  document.body.dataset.view = state.view;
}

// How the nodes of the graph before a pass look in a column.
function tellBefore(pass, one, witness) {
  const good = new Set(witness?.good || []), items = itemsOf(pass), item = items[state.item];
  const inserted = isMotion(pass) && item && !state.quiz &&
    ['inserted', 'replaced', 'held'].includes(one?.id) ? bitsOf(item.rows, 'inserted') : [];
  const sunk = pass.name === 'sink' && item && !state.quiz &&
    one?.id === 'inserted' ? bitsOf(item.rows, 'inserted') : [];
  const replaced = isMotion(pass) && item && !state.quiz &&
    ['replaced', 'held'].includes(one?.id) ? bitsOf(item.rows, 'replaced') : [];
  const counts = countsOf(false);
  return n => {
    const yes = one?.bits && !hidden(state.col) ? one.bits[n] : false;
    const guess = hidden(state.col) && (guesses.get(guessKey()) || {})[n];
    const value = one?.values && !one.marks && !one.wide && one.id !== 'held' && one.values[n];
    return { key: 'b' + n, cls: [yes ? 'yes' : '', guess ? 'guess' : '', n === state.node ? 'here' : '',
        good.has(n) ? 'good' : '', witness?.bad === n ? 'bad' : '', counts.now === n ? 'walked' : ''].join(' '),
      style: one ? `--h:${one.hue}` : '', aria: yes ? one.label : '',
        mark: value && value.length < 12 ? value : '', count: counts.at[n],
      pills: inserted[n] ? [`${item.temp} <- ${item.text}`] : sunk[n] ? [item.text] : [],
        text: replaced[n] ? `${parsed(pass.before.nodes[n]).into} <- ${item.temp}` : null };
  };
}

function tellAfter(pass) {
  const fresh = new Set(pass.fresh), counts = countsOf(true);
  return m => {
    const old = pass.old[m] < 0 ? null : pass.old[m];
    return { key: keyOf(pass, m), cls: [fresh.has(m) ? 'new' : '',
        old !== null && pass.change[old] === 'changed' ? 'changed' : '', old === state.node ? 'here' : '',
        counts.now === m ? 'walked' : ''].join(' '), count: counts.at[m],
      style: `--h:${HUES.inserted}` };
  };
}

function witnessNow(pass) {
  const one = columnNow();
  if (!one || !one.why || hidden(state.col)) return null;
  return one.why(state.node);
}

// Whether there is room for the texts beside the graph, as the style of the page has it.
const IS_WIDE = matchMedia('(min-width: 1560px)');
IS_WIDE.addEventListener('change', () => UNITS.length && show());

function showGraphs(pass) {
  const one = columnNow(), stage = $('#stage'), witness = witnessNow(pass), item = itemsOf(pass)[state.item];
  const here = state.node, hereAfter = pass.became[here] ?? 0;
  const hot = witness ? [...(witness.edges || []),
    ...(witness.path || []).slice(1).map((n, k) => [witness.path[k], n])] : [];
  let html = '';
  WAITING.clear();
  if (state.view === 'text') html = texts(pass);
  else if (state.view === 'verdicts') html = verdictsDrawn(pass);
  else if (state.view === 'both') {
    html = `<div class="pair">${draw(pass.before, tellBefore(pass, one?.id === 'after' ? null : one, null), { title: 'before', here, walked: countsOf(false).edges })}${draw(pass.after, tellAfter(pass), { title: 'after', here: hereAfter, walked: countsOf(true).edges })}</div>`;
  } else if (state.view === 'busy') {
    const e = item.text, temp = item.temp || 'h';
    const side = (title, words, inserted, replaced, live) => draw(pass.before,
      n => ({ key: 'b' + n, cls: [inserted[n] ? 'yes' : '', n === state.node ? 'here' : ''].join(' '),
        style: `--h:${HUES.inserted}`, pills: inserted[n] ? [`${temp} <- ${e}`] : [],
        text: replaced[n] ? `${parsed(pass.before.nodes[n]).into} <- ${temp}` : null,
        aria: inserted[n] ? 'inserted before' : '' }),
      { live, here, title: `<b>${title}</b> ${words}: inserts at ${list(where(inserted))}, replaces ${list(where(replaced))}; ${code(temp)} lives on <b>${many(live.length, 'edge')}</b>` });
    const rows = ['busy inserted', 'busy replaced', 'inserted', 'replaced'].map(name => bitsOf(item.rows, name));
    const busy = side('Busy', '(as early as it can)', rows[0], rows[1], heldEdges(pass.before, item, 'busy held'));
    const lazy = side('Lazy', '(as late as it can; taken)', rows[2], rows[3], heldEdges(pass.before, item));
    html = `<div class="pair">${busy}${lazy}</div>`;
  } else {
    const last = one?.id === 'after';
    const live = isMotion(pass) && item && ['inserted', 'replaced', 'held'].includes(one?.id) &&
      !hidden(state.col) ? heldEdges(pass.before, item) : [];
    html = `<div class="beside">${last ? draw(pass.after, tellAfter(pass), { here: hereAfter, walked: countsOf(true).edges }) : draw(pass.before, tellBefore(pass, one, witness), { hot, live, here, walked: countsOf(false).edges })}${IS_WIDE.matches ? `<div class="wideonly">${texts(pass)}</div>` : ''}</div>`;
  }
  stage.innerHTML = html;
  fit();
}

let fitScale = 1;

// Gives each picture its size: as large as fits, but not so small that it cannot be read.
function fit() {
  const boxes = [...document.querySelectorAll('#stage .graph .scroll')].map(box => {
    const svg = box.firstElementChild, w = Number(svg.dataset.w), h = Number(svg.dataset.h);
    const room = Math.max(window.innerHeight - box.getBoundingClientRect()
      .top - window.scrollY - (box.nextElementSibling ? 34 : 10), 260);
    return { box, svg, w, h, room, scale: Math.min(box.clientWidth / w, room / h, 1.35) };
  });
  if (!boxes.length) return;
  const scale = Math.max(LEAST, Math.min(...boxes.map(one => one.scale))) * 1.18 ** state.zoom;
  for (const { box, svg, w, h, room } of boxes) {
    if (scale !== fitScale) {
      svg.setAttribute('width', Math.round(w * scale));
      svg.setAttribute('height', Math.round(h * scale));
    }
    box.style.maxHeight = window.innerWidth >= 900 ? `${room}px` : '';
    bringIntoView(box, box.querySelector('.here'));
    drawBands(box);
  }
  fitScale = scale;
}

function showWhy(pass) {
  const one = columnNow(), witness = witnessNow(pass), node = pass.before.nodes[state.node];
  if (!one) { $('#why').innerHTML = ''; return; }
  if (hidden(state.col)) { $('#why')
    .innerHTML = '<p class="quiet">The answer and its path come when you have checked.</p>'; return; }
  const verdict = one.bits
    ? `<b class="${one.bits[state.node] ? 'yesword' : 'noword'}" style="--h:${one.hue}">${one.bits[state.node] ? 'yes' : 'no'}</b>`
    : '';
  const { bits, found, what } = disagreeing(pass, state.item);
  const agrees = !bits ? '' : found.length
    ? `<p class="bad">✗ ${many(found.length, what)} of the rows ${found.length === 1 ? 'differs' : 'differ'} from what the paths show: ${found.slice(0, 6).map(([id, n]) => `${esc(id)} at ${N(n)}`).join(', ')}.</p>`
    : `<span class="agrees quiet" title="${what === 'bit' ? 'for each bit of this table the page has looked for a path that shows it' : 'the page has found each number of this table by itself'}">✓ ${bits} ${what}s agree with the rules</span>`;
  $('#why').innerHTML = `${agrees}<h2>Node ${state.node} ${code(node[0] === 'start' ? 'Start' : node[3])} <span class="quiet">${esc(one.label)}?</span> ${verdict}</h2><p>${witness?.html || ''}</p>${state.quiz ? '' : `<p class="story quiet">The node: ${story(pass, state.node)}.</p>`}`;
}
