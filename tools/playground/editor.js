// ---- the editor: what is typed stands in a field without colour, over lines that have it

const text = document.querySelector('#text');

// What has a colour: comments, words of the language and numbers; and what HTML would read.
const WORDS = 'begin|end|receive|goto|if|call|return|print|mod|min|max|shl|shr|shra|and|or|xor|trap|global';
const COLOURED = new RegExp(`\\|\\|.*|\\b(?:${WORDS})\\b|\\b\\d+\\b|[&<>]`, 'g');

// A part of a line in its colour.
function inColour(part) {
  if (part.startsWith('||')) return `<s>${escaped(part)}</s>`;
  if (/^[a-z]/.test(part)) return `<b>${part}</b>`;
  return /^\d/.test(part) ? `<i>${part}</i>` : escaped(part);
}

// A line as an element.
function lineDrawn(line) {
  const drawn = document.createElement('div');
  drawn.className = 'line';
  drawn.innerHTML = line.replace(COLOURED, inColour);
  return drawn;
}

// The lines as they were drawn last.
let drawnLines = [];

// Draws the lines of the text that are others than those that were drawn last.
function drawEditor() {
  const lines = text.value.split('\n'), all = document.querySelector('#lines'), made = document.createDocumentFragment();
  let from = 0, end = drawnLines.length, next = lines.length;
  while (from < end && from < next && drawnLines[from] === lines[from]) from++;
  while (end > from && next > from && drawnLines[end - 1] === lines[next - 1]) {
    end--;
    next--;
  }
  for (let at = from; at < end; at++) all.children[from].remove();
  for (const line of lines.slice(from, next)) made.append(lineDrawn(line));
  all.insertBefore(made, all.children[from] ?? null);
  if (drawnLines.length !== lines.length)
    document.querySelector('#numbers').innerHTML = lines.map((_, at) => `<span>${at + 1}</span>`).join('');
  drawnLines = lines;
}

// Marks the line of a refusal, with what it says, or none.
function markLine(refusal) {
  for (const one of document.querySelectorAll('#lines .bad, #numbers .bad')) {
    one.classList.remove('bad');
    delete one.dataset.say;
  }
  const at = (refusal?.line || 0) - 1;
  const [line, number] = ['#lines', '#numbers'].map(all => document.querySelector(all).children[at]);
  text.setAttribute('aria-invalid', Boolean(refusal));
  if (!line) return;
  line.classList.add('bad');
  line.dataset.say = refusal.what;
  number.classList.add('bad');
}

// Puts the cursor into a line, all of which is selected and can be seen.
function goToLine(number) {
  const lines = text.value.split('\n'), from = lines.slice(0, number - 1).reduce((sum, one) => sum + one.length + 1, 0);
  const editor = document.querySelector('#editor'), line = document.querySelector('#lines').children[number - 1];
  text.focus({ preventScroll: true });
  text.setSelectionRange(from, from + lines[number - 1].length);
  Object.assign(editor, { scrollLeft: 0, scrollTop: line.offsetTop - editor.clientHeight / 2 });
}
