// ---- a run, step by step, also through the units that it calls

// The unit that a run began in, and the pass of it that stands beside the one that is shown.
const rootNow = () => UNITS[state.root] ?? unitNow();
const rootPass = () => passesOf(rootNow())[stageBeside(rootNow(), passNow().after.name)];

// What a run is at: its walks before the pass of now and after it, the step of now, and how far the walk after it has come.
function runNow() {
  if (!state.run) return null;
  const ran = walks(rootNow(), state.run), pass = rootPass(), before = ran[Math.max(pass.at - 1, 0)], after = ran[pass.at];
  state.at = Math.min(Math.max(state.at, 0), before.steps.length - 1);
  pass.met ??= new Map();
  if (!pass.met.has(before)) pass.met.set(before, together(pass, before, after));
  return { ran, pass, before, after, at: state.at, to: pass.met.get(before)[state.at] };
}

// Goes to a step of the run, and to the unit in which it is.
function goStep(at) {
  state.at = at;
  const { before } = runNow(), step = before.steps[state.at], unit = UNITS.indexOf(step.unit);
  if (unit !== state.unit) {
    const { name } = passNow().after;
    Object.assign(state, { unit, item: 0, col: 0 });
    state.pass = stageBeside(step.unit, name);
    state.item = bestItem(passNow());
  }
  state.node = step.n;
  show();
}

// Goes to the next step, or the one before, that is in no frame further in.
function stepOver(by) {
  const { before, at } = runNow() ?? {}, steps = before?.steps ?? [];
  let next = at + by;
  while (steps[next] && steps[next].depth > steps[at].depth) next += by;
  if (steps[next]) goStep(next);
}

// How often a walk has come to each node of the unit of now so far, before or after the pass; along which edges; and at
// which node it is.
function countsOf(isAfter) {
  const run = runNow(), unit = unitNow(), at = [], edges = [];
  if (!run) return { at, now: null, edges };
  const walked = (isAfter ? run.after : run.before).steps.slice(0, (isAfter ? run.to : run.at) + 1);
  for (const step of walked) if (step.unit === unit) {
    at[step.n] = (at[step.n] || 0) + 1;
    if (step.from !== null) edges.push([step.from, step.n]);
  }
  return { at, now: framesAt(walked.at(-1)).findLast(step => step.unit === unit)?.n ?? null, edges };
}

// ---- what is shown of it

function fillInputs() {
  const unit = unitNow(), names = unit.stages[0].received;
  const reports = unit.first ? unit.program.runs : [];
  state.root = state.unit;
  $('#run').innerHTML = `<span class="quiet">run ${esc(unit.name)} with</span>`
    + names.map((name, at) => `<label>${esc(name)} <input name="in${at}" inputmode="numeric" size="4" value="0"></label>`)
    .join('')
    + '<button type="submit">Run</button>' + (reports.length
      ? `<span class="reports">${reports.map((run, at) => `<button type="button" data-report="${at}" title="mir run reports of this run">${esc(run.inputs.join(' ') || 'no input')}</button>`).join('')}</span>`
      : '') + '<button type="button" id="back" aria-label="a step back (,)">◀</button><input type="range" id="at" min="0" value="0" aria-label="step of the run"><button type="button" id="on" aria-label="a step on (.)">▶</button><output id="told"></output>';
}

function startRun(args) {
  state.run = args;
  args.forEach((value, at) => { const box = $(`#run [name=in${at}]`); if (box) box.value = value; });
  goStep(0);
}

function readRun() {
  const names = rootNow().stages[0].received;
  try { return names.map((_, at) => WRAP(BigInt($(`#run [name=in${at}]`).value.trim() || '0')));
    } catch { return names.map(() => 0n); }
}

// How many operators a walk has evaluated once a step is done.
const evalsBehind = (walked, at) => (walked.steps[at + 1] ?? walked).evals;

// A bar of evaluations.
const barDrawn = (label, now, all, most) => `<span class="bar"><span>${label}</span><meter min="0" max="${Math.max(most, 1)}" value="${now}"></meter><b>${now}</b><span class="quiet">of ${all}</span></span>`;

// The frames that are open, the outermost first, each with its node; of the one of now the variables.
function framesDrawn(step) {
  const frames = framesAt(step), least = Math.max(frames.length - 6, 0);
  const rows = frames.slice(least).map((one, at, all) => `<li ${at === all.length - 1 ? 'aria-current="step"' : ''}>`
    + `<b>${esc(one.unit.name)}</b> at ${one.n} ${code(nodeOf(one)[0] === 'start' ? 'Start' : nodeOf(one)[3])}</li>`);
  const more = least ? `<li class="quiet">${many(least, 'frame')} further out</li>` : '';
  return `<ol class="frames" aria-label="${many(frames.length, 'frame')}">${more}${rows.join('')}</ol>`;
}

function showRun(unit) {
  $('#run').hidden = state.run === null;
  if (state.run === null) return;
  const { ran, pass, before, after, at, to } = runNow(), step = before.steps[at], slider = $('#at');
  slider.max = before.steps.length - 1;
  slider.value = at;
  const { vars } = step.unit.stages[step.stage], shown = vars.map((name, v) => `${name}=${step.vars[v]}`).join(' ');
  const isLast = at === before.steps.length - 1;
  const out = before.out.slice(0, isLast ? undefined : before.steps[at + 1].out), most = Math.max(before.evals, after.evals);
  const reported = rootNow().first && unit.program.runs.find(run => run.inputs.join() === state.run.join());
  const left = evalsBehind(before, at), right = evalsBehind(after, to);
  $('#told').innerHTML = `<span>step ${at} of ${before.steps.length - 1}, at ${N(step.n)}</span> ${pass.first ? barDrawn('evaluations', left, before.evals, most) : barDrawn('before the pass', left, before.evals, most) + barDrawn('after', right, after.evals, most)}`
    + ` <span>source <b>${ran[0].evals}</b> → result <b>${ran.at(-1).evals}</b></span> ${reported ? besideRun(rootNow(), reported) : ''}<br>${framesDrawn(step)}<span class="vars">${esc(shown)}</span> ${out.length ? `<span class="vars">printed ${out.slice(-6).join(' ')}</span>` : ''} ${isLast ? `<b>${ended(before)}</b>` : ''}`;
}

// In a few words how the walks compare with the reports of a run.
function besideRun(unit, run) {
  const { differ, open } = besideReports(unit, run), compared = unit.stages.length - open.length;
  if (differ.length) return `<span class="bad">✗ not as mir run reports at ${esc(differ.join(', '))}</span>`;
  const last = run.reports[0].at(-2) ?? run.reports[0][0];
  if (!compared) return `<span class="quiet">not compared: ${walks(unit, run.inputs.map(BigInt))[0].running
    ? 'the walk stops before its end' : `mir run ${run.steps} tells ${code(last)}`}</span>`;
  return `<span class="good">✓ as mir run reports at ${open.length ? `${compared} of ${unit.stages.length} stages` : 'each stage'}</span>`;
}
