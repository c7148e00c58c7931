// ---- the quiz, and exercises that are handed in: columns are hidden and asked, what is said of them is counted, and goes
// into a file; the answers go into another one, for who asks

// What the reader says of a column, by its key; the columns that were checked; and of each how many nodes were right when
// it was checked first.
const guesses = new Map(), checked = new Set(), firsts = new Map();
const guessKey = () => [state.unit, state.pass, state.item, state.col].join('/');

// In a quiz the column of now is asked, and later ones are hidden.
const hidden = at => state.quiz && at >= state.col && !checked.has([state.unit, state.pass, state.item, at].join('/'));

// How many nodes of a column are as the reader says.
const rightIn = (one, guess) => one.bits.filter((bit, n) => bit === Boolean(guess[n])).length;

// The score: of all columns that were checked, how many nodes were right when they were checked first.
function scoreNow() {
  const sums = [...firsts.values()];
  return { right: sums.reduce((sum, one) => sum + one.right, 0), all: sums.reduce((sum, one) => sum + one.all, 0) };
}

// What stands above the table in a quiz.
function quizBar(one, guess) {
  if (!state.quiz) return '';
  const { right, all } = scoreNow(), told = all ? `<span class="score">Score: <b>${right}</b> of ${all}.</span> ` : '';
  const asks = !one?.bits ? '' : checked.has(guessKey()) ? checkedTold(one, guess)
    : `Which nodes are <b>${esc(one.label)}</b>? Click, or press space. <button type="button" id="check">Check <kbd>Enter</kbd></button>`;
  return `<p class="quizbar">${asks} ${told}<span class="handing"><button type="button" id="sheet" title="the table with its columns hidden, to be printed (w)">Print a sheet</button> `
    + '<button type="button" id="handin" title="a file with what you say and your score (o)">Hand in</button> '
    + '<button type="button" id="answers" title="a file with the right answers, for who asks (O)">Answers</button></span></p>'
    + '<p class="onpaper">Name: <span></span> Score: <span></span></p>';
}

// How many nodes are right, once a column is checked.
function checkedTold(one, guess) {
  const right = rightIn(one, guess), all = one.bits.length;
  return right === all ? `<b class="good">All ${all} right.</b> Go on with <kbd>→</kbd>.`
    : `<b class="bad">${right} of ${all} right.</b> The wrong ones are framed: go to one to see why. <button type="button" id="again">Again</button>`;
}

// Marks a node in the column that is asked, or takes the mark away.
function guessAt(n) {
  const guess = guesses.get(guessKey()) || {};
  guess[n] = !guess[n];
  guesses.set(guessKey(), guess);
  state.node = n;
  show(true);
}

// Checks the column that is asked, and goes to the first node that is wrong.
function check() {
  const one = columnNow(), guess = guesses.get(guessKey()) || {};
  if (!one?.bits) return;
  checked.add(guessKey());
  if (!firsts.has(guessKey())) firsts.set(guessKey(), { right: rightIn(one, guess), all: one.bits.length,
    head: headOf(passNow(), state.item, one), bits: bitsSaid(one, guess) });
  const wrong = rowsOf(passNow(), false).find(({ n }) => one.bits[n] !== Boolean(guess[n]));
  if (wrong) state.node = wrong.n;
  show(true);
}

function toggleQuiz() {
  state.quiz = !state.quiz;
  if (state.quiz) for (const one of [checked, guesses, firsts]) one.clear();
  show();
}

// ---- the files: a line for each column, with its unit, pass, choice and name, and a bit for each node

const bitsSaid = (one, guess) => one.bits.map((_, n) => guess[n] ? '1' : '0').join('');
const headOf = (pass, item, one, unit = unitNow()) => [unit.name, pass.title, itemsOf(pass)[item]?.text ?? '-', one.id].join('; ');

// What is handed in: each column as it was checked first, and the score.
function handedIn() {
  const rows = [...firsts.values()].map(one => `${one.head}; ${one.bits}; ${one.right} of ${one.all}`);
  const { right, all } = scoreNow();
  return [`exercise ${UNITS[0].program.name}`, ...rows, `score ${right} of ${all}`, ''].join('\n');
}

// The right answers to all that can be asked of the program.
function answersOf() {
  const rows = UNITS.flatMap(unit => passesOf(unit).flatMap(pass =>
    range(KIND_OF_ITEM[pass.name] ? itemsOf(pass).length : 1).flatMap(item => columnsOf(pass, item).filter(one => one.bits)
      .map(one => `${headOf(pass, item, one, unit)}; ${one.bits.map(bit => bit ? '1' : '0').join('')}`))));
  return [`answers ${UNITS[0].program.name}`, ...rows, ''].join('\n');
}

// Hands a text to the reader as a file.
function giveFile(name, text) {
  const link = document.createElement('a');
  link.href = URL.createObjectURL(new Blob([text], { type: 'text/plain' }));
  link.download = name.replace(/[^\w.-]+/g, '_');
  link.click();
  setTimeout(() => URL.revokeObjectURL(link.href), 60000);
}
const handIn = () => giveFile(`${UNITS[0].program.name}-handed-in.txt`, handedIn());
const giveAnswers = () => giveFile(`${UNITS[0].program.name}-answers.txt`, answersOf());

// Prints the table of the pass of now with its columns hidden.
function printSheet() {
  state.quiz = true;
  state.col = 0;
  show();
  window.print();
}
