'use strict';
// ---- the page of stages: what is shown is made when it is shown, and is kept

const $ = selector => document.querySelector(selector);

// What stands for the page of tables where this page is in a frame of the playground, which has it.
const PARENT = 'tables';

// The stages with the texts of their units; the names of the units; what was made so far; the page of tables that tells
// why, or none; and where the reader is.
let STAGES = [], UNIT_NAMES = [], made = new Map(), REASONS = '';
const state = { stage: 0, unit: 0, folded: true };

// What a unit is at a stage, and what it was at the stage before, where there is one.
const textsAt = (stage, unit) => [STAGES[stage].texts[unit], stage ? STAGES[stage - 1].texts[unit] : null];

// What is kept of two texts; texts that are the same are compared once.
function keptAt(stage, unit) {
  const [now, before] = textsAt(stage, unit), moved = STAGES[stage].name === 'motion';
  const key = `${moved}\n${now}\n${now === before ? '' : before}`;
  if (!made.has(key)) made.set(key, { now, before, moved });
  return made.get(key);
}

// What stands in the place of a unit that a stage dropped.
const GONE = '<p>No call leads to this unit any more: it is gone.</p>';

// The lines of a unit at a stage beside those before it; of a unit that is gone, that it is.
function comparedAt(stage, unit) {
  const kept = keptAt(stage, unit);
  if (kept.now === null) return { columns: GONE, fresh: new Set(), same: kept.before === null };
  return kept.compared ??= compared(kept.now, kept.before);
}

// The temporaries of a unit at code motion, which are all new names.
function temporariesOf(kept, unit) {
  if (!kept.moved) return new Set();
  const old = variablesOf(unitOf(linesIn(kept.before)));
  return new Set([...variablesOf(unit)].filter(name => !old.has(name)));
}

// A unit at a stage as it is shown: two columns of lines, or one, and a figure.
function viewAt(stage, unit) {
  const kept = keptAt(stage, unit), { columns, fresh } = comparedAt(stage, unit);
  if (kept.now === null) return columns;
  if (!kept.view) {
    const now = unitOf(linesIn(kept.now));
    kept.view = `<div class="sides">${columns}${figureOf(now, fresh, temporariesOf(kept, now))}</div>`;
  }
  return kept.view;
}

// What is said of a stage that changed nothing in a unit, and of a unit in which no stage changed anything.
function nothingAt(stage, unit) {
  if (STAGES.every(({ name }, at) => at === 0 || name === 'lower' || isSame(at, unit))) return '<p class="nothing">No pass found anything in this unit.</p>';
  return isSame(stage, unit) ? '<p class="nothing">This pass changed nothing in this unit.</p>' : '';
}

// Makes a link of each marked line, where there is a page of tables, to the place in it that tells why: of the unit and the
// stage of now, the line and which one it is of the lines that are the same but for labels.
function linkReasons() {
  if (!REASONS) return;
  const seen = new Map(), unit = UNIT_NAMES[state.unit], pass = STAGES[state.stage].name;
  for (const line of document.querySelectorAll('#view pre ins, #view pre del')) {
    const side = line.matches('ins') ? 'after' : 'before', text = line.textContent;
    const bare = `${side} ${text.replace(LABEL, '').replace(TARGET, ' goto')}`, nth = seen.get(bare) ?? 0;
    seen.set(bare, nth + 1);
    const place = new URLSearchParams({ unit, pass, line: text, side, nth }).toString(), link = document.createElement('a');
    Object.assign(link, { href: `${REASONS}#${place}`, className: 'reason', title: 'why: in the tables' });
    link.dataset.place = place;
    link.append(...line.childNodes);
    line.append(link);
  }
}

// Whether a unit is at a stage what it was before, but for labels. The first stage is no change.
const isSame = (stage, unit) => stage > 0 && (textsAt(stage, unit)[0] === textsAt(stage, unit)[1]
  || comparedAt(stage, unit).same);

// Shows the stage and the unit of now.
function show() {
  $('#view').innerHTML = nothingAt(state.stage, state.unit) + viewAt(state.stage, state.unit);
  linkReasons();
  document.body.classList.toggle('folded', state.folded);
  $('#fold').checked = state.folded;
  $('#unit').value = state.unit;
  [...$('nav ol').children].forEach((item, at) => {
    item.classList.toggle('same', isSame(at, state.unit));
    item.classList.toggle('here', at === state.stage);
    item.firstElementChild.setAttribute('aria-current', at === state.stage);
  });
  $('#stage').textContent = STAGES[state.stage].name;
  for (const box of [$('nav'), $('nav ol')]) bringIntoView(box, $('nav .here'));
}

// Steps to another stage, over those that are hidden.
function step(by) {
  let next = state.stage + by;
  while (state.folded && next > 0 && next < STAGES.length - 1 && isSame(next, state.unit)) next += by;
  if (next >= 0 && next < STAGES.length) goStage(next);
}

// Goes to a stage.
function goStage(stage) {
  state.stage = stage;
  show();
}

// Goes to a unit.
function goUnit(unit) {
  state.unit = Math.min(Math.max(unit, 0), UNIT_NAMES.length - 1);
  show();
}

// Shows or hides stages that changed nothing.
function fold(folded) {
  state.folded = folded;
  show();
}

// A note as it stands beside a stage.
const noteDrawn = note => note === undefined ? '' : ` <small>${escaped(note)}</small>`;

// The reports of runs, as tables; each has its words and a row for the source and for the result.
const runsDrawn = runs => runs.map(({ words, rows }) => `<table><caption>run ${escaped(words)}</caption>`
  + '<tr><th></th><th>evaluations</th><th>report</th></tr>' + rows.map(({ stage, evaluations, report }) =>
  `<tr><th>${escaped(stage)}</th><td>${escaped(evaluations)}</td><td><pre>${escaped(report)}</pre></td></tr>`).join('')
  + '</table>').join('');

// The stages of a text, each with the text of each unit of the first one, or null for a unit that is gone.
function alignedStages(text) {
  const nameOf = one => unitOf(linesIn(one)).name, found = stagesOf(text), names = found[0].texts.map(nameOf);
  return found.map(stage => {
    const units = new Map(stage.texts.map(one => [nameOf(one), one]));
    return { ...stage, texts: names.map(name => units.get(name) ?? null) };
  });
}

// Takes a text of stages, and shows it where the reader was: at the stage and the unit of these names. A note may stand
// beside each stage.
function load(data) { return worked(data.text.length, LARGE, () => taken(data)); }

// From so many letters on a text takes long enough to be told.
const LARGE = 400_000;

// What `load` does, once it has told of it.
function taken({ text, title, runs = [], notes = [], reasons = '' }) {
  REASONS = reasons;
  const was = STAGES.length ? [STAGES[state.stage].name, UNIT_NAMES[state.unit]] : [];
  STAGES = alignedStages(text);
  UNIT_NAMES = STAGES[0].texts.map(unit => unitOf(linesIn(unit)).name);
  made = new Map();
  state.stage = Math.max(STAGES.findIndex(stage => stage.name === was[0]), 0);
  state.unit = Math.max(UNIT_NAMES.indexOf(was[1]), 0);
  document.title = $('#title').textContent = title;
  $('nav ol').innerHTML = STAGES.map(({ name }, at) =>
    `<li><button type="button">${escaped(name)}</button>${noteDrawn(notes[at])}</li>`).join('');
  $('#unit').innerHTML = UNIT_NAMES.map((name, at) => `<option value="${at}">${escaped(name)}</option>`).join('');
  $('#choice').hidden = UNIT_NAMES.length < 2;
  $('#runs').innerHTML = runsDrawn(runs);
  show();
}

const KEYS = { ArrowDown: () => step(1), j: () => step(1), ArrowUp: () => step(-1), k: () => step(-1),
  Home: () => goStage(0), End: () => goStage(STAGES.length - 1), n: () => goUnit(state.unit + 1),
  p: () => goUnit(state.unit - 1), f: () => fold(!state.folded) };

// Makes the page answer to the reader, and shows what it was given.
function open() {
  $('nav ol').addEventListener('click', event => {
    const item = event.target.closest('li');
    if (item) goStage([...item.parentElement.children].indexOf(item));
  });
  $('#unit').addEventListener('change', event => goUnit(Number(event.target.value)));
  $('#fold').addEventListener('change', event => fold(event.target.checked));
  document.addEventListener('keydown', event => {
    if (event.ctrlKey || event.altKey || event.metaKey || event.target === $('#unit') || !KEYS[event.key]) return;
    event.preventDefault();
    KEYS[event.key]();
  });
  $('#view').addEventListener('click', event => {
    const place = event.target.closest('a.reason')?.dataset.place;
    if (place === undefined || REASONS !== PARENT) return;
    event.preventDefault();
    window.parent.openReason(place);
  });
  const given = $('#data').textContent;
  worked(given.length, LARGE, () => {
    const data = JSON.parse(given);
    takeLayouts(data.layouts ?? []);
    if (data.text) taken(data);
  });
}
open();
