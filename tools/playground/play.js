// ---- the page: at each key a text is judged, and then what the tab of now shows of it is made

const $ = selector => document.querySelector(selector);
const panel = $('#panel'), caller = new Caller(WORKER, PROGRAMS);

// The tabs that are no command, and the keys of the tabs in turn, each held with Alt.
const OWN_TABS = [['stages', 'Stages'], ['tables', 'Tables'], ['run', 'Run']];
const KEYS_OF_TABS = [...'1234567890-='];
const CODES_OF_KEYS = { '-': 'Minus', '=': 'Equal' };

// What does not stand as a tab: it is one already, or is no work on the program.
const NO_TABS = ['stages', 'run', 'trial'];

// More inputs than a unit receives: a run with them is refused once the text is judged, and tells how many are wanted.
const TOO_MANY = Array(17).fill('0');

// What is shown: the tab, the words of its form by tab, and of tables that of their command; the refusal of the text, how
// many inputs its first unit wants, the example that it is, whether it stands there since a link could not be read, and
// of which tab the panel has something.
const state = { tab: 'stages', words: { run: ['1000'], tables: [] }, refusal: null, wanted: 0, example: '',
  damaged: false, seen: '' };

// The tabs, once the program has told its commands; the words that a command takes, by its name, where it takes any; the
// commands that have tables, of which the first is meant with no word; and for tests what was shown last.
let tabs = OWN_TABS, tabled = [], begun = 0;
const WORDS_OF = {};
window.shown = { turn: 0 };

// What is told of a link that is not whole.
const DAMAGED = { message: 'this link is cut off or damaged', line: 0, what: '',
  hint: 'Its program cannot be read. Choose an example, or ask for the whole link.' };

// ---- what a text is

// The names that its first unit receives, as far as they are as many as the program wants; else their numbers.
function inputNames() {
  const unit = text.value.replace(/\|\|.*/g, '').match(/\bbegin\b([\s\S]*?)\bend\b/);
  const names = [...(unit?.[1] ?? '').matchAll(/\breceive\s+(\w+)/g)].map(one => one[1]);
  return names.length === state.wanted ? names : Array.from({ length: state.wanted }, (_, at) => `input ${at + 1}`);
}

// A hint, in which code stands between backquotes.
const hintDrawn = hint => escaped(hint).replace(/`([^`]+)`/g, '<code>$1</code>');

// Tells below the editor whether the text is a program, and marks the line that is not.
function tell(answer) {
  const wanted = answer.status === 1 ? answer.err.match(/^wrong inputs: (\d+) wanted/) : null;
  state.refusal = state.damaged ? DAMAGED : wanted ? null : refusalOf(answer.err);
  state.wanted = wanted ? Number(wanted[1]) : 0;
  const { message, hint } = state.refusal ?? { message: '', hint: '' };
  $('#say').className = state.refusal ? 'bad' : '';
  $('#say').innerHTML = state.refusal ? `<b>${escaped(message)}</b><br><span>${hintDrawn(hint)}</span>`
    : 'This text is a program.';
  markLine(state.refusal);
  panel.classList.toggle('stale', Boolean(state.refusal));
  if (state.refusal && state.seen !== state.tab)
    showWords('<p class="quiet">There is something to show as soon as the text is a program.</p>');
  else state.seen = state.tab;
}

// ---- what is shown of it

// Shows words, and no frame.
function showWords(html) {
  for (const frame of panel.querySelectorAll('iframe')) frame.hidden = true;
  Object.assign($('#words'), { innerHTML: html, hidden: false });
}

// Shows a frame, and no words.
function showFrame(frame) {
  for (const one of panel.querySelectorAll('iframe')) one.hidden = one !== frame;
  $('#words').hidden = true;
}

// The frames, by their pages.
const frames = {};

// The frame of a page, made when it is first wanted. Its page keeps its place as it takes a newer text.
function frameOf(name) {
  frames[name] ??= new Promise(then => {
    const frame = document.createElement('iframe');
    frame.title = name;
    frame.srcdoc = PAGES[name];
    frame.hidden = true;
    frame.onload = () => {
      frame.contentWindow.addEventListener('keydown', onKey);
      then(frame);
    };
    panel.append(frame);
  });
  return frames[name];
}

// Shows a page of a text that the program wrote.
async function showPage(name, answer, turn) {
  const frame = await frameOf(name);
  if (turn !== caller.newest) return;
  showFrame(frame);
  const place = name === 'tables' ? reason : null;
  if (place !== null) reason = null;
  const named = state.example.replace(/\.mir$/, '') || 'program';
  await frame.contentWindow.load({ text: answer.out, name: named, title: `Stages of ${named}`, reasons: 'tables',
    ...name === 'tables' && tabled.length ? { words: tabled, choose: chooseTables } : {},
    ...place === null ? {} : { place } });
}

// Shows the tables of a command.
function chooseTables(word) {
  state.words.tables = wordOfTables(word);
  changed();
}

// The word by which the tables of a command are asked for, where it has any and wants one.
const wordOfTables = word => tabled.indexOf(word) > 0 ? [word] : [];

// Where the page of tables is to go when it is shown next; and how the page of stages leads there.
let reason = null;
window.openReason = place => {
  reason = place;
  state.words.tables = [];
  choose('tables');
};

// How a run ends, by its status.
const ENDS = { 0: 'ended', 3: 'trapped', 4: 'goes on after these steps', 5: 'too many frames' };

// A row of the table of runs.
const runRow = (name, { status, out, err }) => `<tr><th>${name}</th><td>${ENDS[status] ?? `status ${status}`}</td>`
  + `<td>${out.match(/^evals (\d+)$/m)?.[1] ?? '–'}</td><td><pre>${escaped(out || err)}</pre></td></tr>`;

// Whether a text is a program that `mir` wrote.
const isProgram = out => /^(global |\w+: begin$)/m.test(out.slice(0, out.indexOf('\n') + 1));

// Two programs beside each other, or another text.
function besideSource(source, out, name) {
  if (!isProgram(out)) return `<pre>${escaped(out)}</pre>`;
  const heads = { before: 'source', now: escaped(name), alone: `${escaped(name)}: as the source` };
  return `<div class="sides">${compared(out, source, heads).columns}</div>`;
}

// What each tab asks, and shows, in a turn; what stands for the others is that of a command.
const SHOWS = {
  async stages(ask, turn) {
    const answer = await ask('mir', ['stages']);
    if (isRight(answer)) await showPage('stages', answer, turn);
  },
  async tables(ask, turn) {
    const answer = await ask('mir_tables', state.words.tables);
    if (isRight(answer)) await showPage('tables', answer, turn);
  },
  async run(ask) {
    drawForm([['steps', 'steps'], ...inputNames().map(name => [name, name])]);
    const source = await ask('mir', ['run', ...state.words.run]);
    if (source?.status === 1) return showWords(`<p>${escaped(source.err)}</p>`);
    const result = await ask('mir', ['optimise']);
    if (!isRight(result)) return null;
    const after = await ask('mir', ['run', ...state.words.run], bytesOf(result.out));
    return after && showWords('<table class="runs"><tr><th></th><th>run</th><th>evaluations</th><th>report</th></tr>'
      + `${runRow('source', source)}${runRow('result of optimise', after)}</table>`);
  },
  async command(ask, _, name) {
    if (WORDS_OF[name]) drawForm([[name, WORDS_OF[name], 'long']]);
    const words = state.words[name]?.join(' ').split(/\s+/).filter(Boolean) ?? [];
    const answer = await ask('mir', [name, ...words]);
    if (answer?.status === 1) return showWords(`<p>${escaped(answer.err)}</p>`);
    const stages = isRight(answer) && await ask('mir', ['stages']);
    return stages && showWords(besideSource(stages.out.split(/^\|\| .*\n/m)[1], answer.out, name));
  },
};

// Whether an answer is one that has an output; where it is a failure, this is shown.
function isRight(answer) {
  if (!answer) return false;
  if (answer.status) showWords(`<p>${escaped(answer.err)}</p>`);
  return !answer.status;
}

// The fields of a tab: each with its name and a label. They are made anew where they are others.
function drawForm(fields) {
  const form = $('#form'), words = state.words[state.tab] ??= [];
  const html = fields.map(([, label, kind = ''], at) => `<label>${escaped(label)} <input class="${kind}" `
    + `data-at="${at}" spellcheck="false" autocapitalize="off"></label>`).join('');
  form.hidden = false;
  if (state.tab === 'run') state.words.run = fields.map((_, at) => words[at] ?? '0');
  if (form.dataset.made === html) return;
  form.dataset.made = html;
  form.innerHTML = html;
  for (const field of form.elements) field.value = state.words[state.tab][field.dataset.at] ?? '';
}

// Judges the text, and shows what the tab of now makes of it.
async function show() {
  const turn = caller.turn(), bytes = new TextEncoder().encode(text.value), { tab } = state;
  const ask = (program, words, other = bytes) => caller.ask(turn, program, words, other);
  remember();
  const judged = await ask('mir', ['run', '0', ...TOO_MANY]);
  if (!judged) return;
  tell(judged);
  if (tab !== 'run' && !WORDS_OF[tab]) $('#form').hidden = true;
  if (!state.refusal) await (SHOWS[tab] ?? SHOWS.command)(ask, turn, tab);
  if (turn === caller.newest) measured(turn, tab);
}

// Tells how long it took from the key to what is shown, when it is.
function measured(turn, tab) {
  const from = begun;
  requestAnimationFrame(() => setTimeout(() => {
    const took = performance.now() - from;
    $('#time').textContent = `${Math.round(took)} ms`;
    window.shown = { turn, tab, took, refused: Boolean(state.refusal) };
  }));
}

// Shows anew, after something was done now.
function changed() {
  begun = performance.now();
  return show();
}

// ---- what the reader does

// Takes a text, typed or not.
function take(program) {
  if (text.value !== program) text.value = program;
  state.damaged = false;
  typed();
}

// Shows what the text of now is.
function typed() {
  const now = text.value;
  state.example = Object.keys(EXAMPLES).find(name => EXAMPLES[name] === now) ?? '';
  $('#example').value = state.example;
  drawEditor();
  changed();
}

// Chooses a tab.
function choose(tab) {
  state.tab = tab;
  delete $('#form').dataset.made;
  for (const one of $('#tabs').children) {
    const isNow = one.dataset.tab === tab;
    one.setAttribute('aria-selected', isNow);
    one.tabIndex = isNow ? 0 : -1;
    if (isNow) one.scrollIntoView({ block: 'nearest', inline: 'nearest' });
  }
  changed();
}

// What will put the program of now into the address.
let remembering = null;

// Puts it there, a little later.
function remember() {
  clearTimeout(remembering);
  remembering = setTimeout(async () => {
    const hash = await linkOfNow();
    if (hash.length <= MOST_ADDRESS) try { history.replaceState(null, '', hash); } catch { /* a page with no address */ }
  }, 300);
}

// The link to what is shown.
const linkOfNow = () => linkTo({ text: text.value, tab: state.tab, words: state.words[state.tab] ?? [] });

// Goes to what the address holds.
async function recall() {
  const held = await heldBy(location.hash);
  if (held.tab && tabs.some(([name]) => name === held.tab)) state.tab = held.tab;
  if (state.tab === 'tables') state.words.tables = wordOfTables(held.words?.[0]);
  else if (held.words) state.words[state.tab] = WORDS_OF[state.tab] ? [held.words.join(' ')] : held.words;
  take(held.damaged ? '' : held.program ?? EXAMPLES[FIRST_EXAMPLE]);
  state.damaged = held.damaged;
  choose(state.tab);
}

// Copies the link, or shows it where that is not allowed.
async function copyLink() {
  const link = location.href.split('#')[0] + await linkOfNow();
  try {
    await navigator.clipboard.writeText(link);
    $('#say').textContent = link.length > MOST_ADDRESS ? 'The link is copied; it is too long for some browsers.'
      : 'The link is copied.';
  } catch {
    showDialog(`<h2>The link</h2><p><input readonly size="40" aria-label="the link" value="${escaped(link)}"></p>`);
    $('#keys input').select();
  }
}

// Shows a dialogue with a button that closes it.
function showDialog(html) {
  $('#keys').innerHTML = `${html}<form method="dialog"><button>Close</button></form>`;
  if (!$('#keys').open) $('#keys').showModal();
  $('#keys').scrollTop = 0;
}

// Shows the keys, and of what the program in the page was made.
function showKeys() {
  const ofTabs = tabs.slice(0, KEYS_OF_TABS.length).map(([, title], at) => [`Alt ${KEYS_OF_TABS[at]}`, title]);
  const rows = [...ofTabs, ['Alt E', 'the editor'],
    ['Alt R', 'the line that is refused'], ['Alt O', 'the examples'], ['Alt L', 'copy the link'],
    ['Alt K', 'these keys']];
  showDialog(`<h2>Keys</h2><table>${rows.map(([key, what]) =>
    `<tr><th>${key.split(' ').map(one => `<kbd>${one}</kbd>`).join(' ')}</th><td>${escaped(what)}</td></tr>`).join('')}`
    + '</table><p class="quiet">Left and right turn the tabs when one has the focus. The pages of stages and tables '
    + 'have keys of their own; there a ? tells those of tables.</p>'
    + `<p class="quiet">The program in this page: ${escaped(HOW)}. What compiled it for the browser is trusted.</p>`);
}

// What the keys with Alt do, beside those of the tabs.
const ACTIONS = { KeyE: () => text.focus({ preventScroll: true }), KeyL: copyLink, KeyK: showKeys,
  KeyO: () => $('#example').focus(), KeyR: () => state.refusal?.line && goToLine(state.refusal.line) };

// Does what a key asks for, here and in the frames.
function onKey(event) {
  if (!event.altKey || event.ctrlKey || event.metaKey) return;
  const at = KEYS_OF_TABS.findIndex(key => event.code === (CODES_OF_KEYS[key] ?? `Digit${key}`));
  if (!tabs[at] && !ACTIONS[event.code]) return;
  event.preventDefault();
  if (tabs[at]) choose(tabs[at][0]);
  else {
    if (!event.view || event.view !== window) window.focus();
    ACTIONS[event.code]();
  }
}

// Turns to the tab beside the one of now.
function turnTab(event) {
  const by = { ArrowRight: 1, ArrowLeft: -1 }[event.key];
  if (!by) return;
  const at = tabs.findIndex(([name]) => name === state.tab);
  choose(tabs[(at + by + tabs.length) % tabs.length][0]);
  $('#tabs [aria-selected=true]').focus();
}

// ---- how the page begins

// The commands that the program takes, as its own line on its use tells them.
async function commands() {
  const usage = await caller.ask(caller.turn(), 'mir', [], new Uint8Array());
  if (usage.status !== 1) return [];
  const forms = usage.err.replace(/^usage: mir /, '').trim().split(' | ').map(form => form.split(' '));
  const work = forms.filter(([name]) => !NO_TABS.includes(name));
  for (const [name, ...words] of work) if (words.length) WORDS_OF[name] = words.join(' ');
  return work.map(([name]) => name);
}

// The commands that have tables, as the line of the other program on its use tells them; it has no word `?`.
async function commandsOfTables() {
  const usage = await caller.ask(caller.newest, 'mir_tables', ['?'], new Uint8Array());
  return usage.status === 1 ? usage.err.match(/\[(.*)\]/)?.[1].split(' | ') ?? [] : [];
}

// Makes a tab.
function tabDrawn([name, title], at) {
  const tab = document.createElement('button');
  const key = KEYS_OF_TABS[at] ? `Alt+${KEYS_OF_TABS[at]}` : '';
  Object.assign(tab, { type: 'button', role: 'tab', textContent: title, title: key });
  tab.dataset.tab = name;
  tab.addEventListener('click', () => choose(name));
  return tab;
}

// Makes the page answer to the reader, and shows what its address holds.
async function open() {
  for (const name of Object.keys(EXAMPLES)) $('#example').append(new Option(name.replace(/\.mir$/, ''), name));
  tabs = [...OWN_TABS, ...(await commands()).map(name => [name, name])];
  $('#tabs').append(...tabs.map(tabDrawn));
  tabled = await commandsOfTables();
  listen();
  await recall();
}

// Listens to the reader.
function listen() {
  document.addEventListener('keydown', onKey);
  text.addEventListener('input', () => take(text.value));
  $('#form').addEventListener('input', event => {
    state.words[state.tab][event.target.dataset.at] = event.target.value.trim();
    changed();
  });
  $('#form').addEventListener('submit', event => event.preventDefault());
  $('#example').addEventListener('change', event => event.target.value && take(EXAMPLES[event.target.value]));
  $('#link').addEventListener('click', copyLink);
  $('#keys-open').addEventListener('click', showKeys);
  $('#tabs').addEventListener('keydown', turnTab);
  window.addEventListener('hashchange', recall);
}
open();
