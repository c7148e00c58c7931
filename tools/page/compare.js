// ---- two texts beside each other: what went, and what is new

// A label before an instruction or `end`, and one to which an instruction jumps.
const LABEL = /(\w+): /g, OWN_LABEL = /^(\w+): /, TARGET = / ?\bgoto (\w+)$/;

// The places at which each line stands in a list.
function placesOf(lines) {
  const places = new Map();
  lines.forEach((line, at) => places.has(line) ? places.get(line).push(at) : places.set(line, [at]));
  return places;
}

// The longest run of equal lines within two stretches, the first of them: where it begins in both, and its length.
function longestRun(before, now, places, [from, to, low, high]) {
  let best = [from, low, 0], lengths = new Map();
  for (let at = from; at < to; at++) {
    const next = new Map();
    for (const place of places.get(before[at]) ?? []) {
      if (place < low) continue;
      if (place >= high) break;
      const length = (lengths.get(place - 1) ?? 0) + 1;
      next.set(place, length);
      if (length > best[2]) best = [at - length + 1, place - length + 1, length];
    }
    lengths = next;
  }
  return best;
}

// The runs of equal lines of two texts: the longest one, and so on to both sides of it.
function equalRuns(before, now) {
  const places = placesOf(now), waiting = [[0, before.length, 0, now.length]], found = [];
  while (waiting.length) {
    const stretch = waiting.pop(), run = longestRun(before, now, places, stretch), [at, place, length] = run;
    if (!length) continue;
    found.push(run);
    const [from, to, low, high] = stretch;
    if (from < at && low < place) waiting.push([from, at, low, place]);
    if (at + length < to && place + length < high) waiting.push([at + length, to, place + length, high]);
  }
  return found.sort((one, other) => one[0] - other[0]);
}

// Two texts by parts: whether the lines are the same, and from where up to where they stand in both.
function partsOf(before, now) {
  const parts = [];
  let left = 0, right = 0;
  const put = (same, to, end) => {
    const last = parts.at(-1);
    if (same && last?.same) Object.assign(last, { to, end });
    else parts.push({ same, from: left, to, start: right, end });
    [left, right] = [to, end];
  };
  for (const [at, place, length] of [...equalRuns(before, now), [before.length, now.length, 0]]) {
    if (left < at || right < place) put(false, at, place);
    if (length) put(true, at + length, place + length);
  }
  return parts;
}

// Lines with a mark, and empty ones up to so many rows.
const markedLines = (lines, mark, rows) => lines.map(line => `<${mark}>${escaped(line)}</${mark}>`).join('')
  + '<span></span>'.repeat(Math.max(0, rows - lines.length));

// A column of lines under a head.
const columnOf = (head, lines) => `<div><h3>${head}</h3><pre tabindex="0">${lines}</pre></div>`;

// Where the labels of a text stand.
function labelsOf(lines) {
  const labels = new Map();
  lines.forEach((line, at) => {
    const label = line.match(OWN_LABEL);
    if (label) labels.set(label[1], at);
  });
  return labels;
}

// Two texts on the way to be compared. Labels are left out of it, since each text numbers its own anew.
class Comparison {
  constructor(before, now) {
    const bare = [before, now].map(lines => lines.map(line => line.replace(LABEL, '').replace(TARGET, ' goto')));
    Object.assign(this, { before, now, parts: partsOf(...bare), labels: [before, now].map(labelsOf) });
  }

  // Whether two lines have no label to which they jump, or the second jumps to where the first did: to that line, or to
  // lines that went from there or are new before it.
  leadsOn(line, other) {
    const [from, to] = [line, other].map(text => text.match(TARGET));
    if (!from || !to) return true;
    const old = this.labels[0].get(from[1]), place = this.labels[1].get(to[1]);
    const at = this.parts.findIndex(part => part.from <= old && old < part.to), part = this.parts[at];
    if (!part.same) return part.start <= place && place <= part.end;
    const due = part.start + old - part.from, above = this.parts[at - 1];
    return place === due || at > 0 && due === part.start && above.start <= place && place < above.end;
  }

  // Both columns, with gone and new lines marked, the places of the new lines, and whether none is marked.
  drawn() {
    const made = { left: '', right: '', fresh: new Set(), gone: false };
    for (const part of this.parts) if (part.same) this.putSame(part, made); else this.putOther(part, made);
    return made;
  }

  // Puts a part whose lines are not the same.
  putOther({ from, to, start, end }, made) {
    const rows = Math.max(to - from, end - start);
    made.left += markedLines(this.before.slice(from, to), 'del', rows);
    made.right += markedLines(this.now.slice(start, end), 'ins', rows);
    made.gone ||= to > from;
    for (let at = start; at < end; at++) made.fresh.add(at);
  }

  // Puts a part whose lines are the same but for labels.
  putSame({ from, to, start }, made) {
    for (let at = 0; at < to - from; at++) {
      const [old, now] = [this.before[from + at], this.now[start + at]], same = this.leadsOn(old, now);
      made.left += markedLines([old], same ? 'span' : 'del', 0);
      made.right += markedLines([now], same ? 'span' : 'ins', 0);
      if (same) continue;
      made.fresh.add(start + at);
      made.gone = true;
    }
  }
}

// The lines of a text beside those before it, where there are any, under these heads; the places of the new lines,
// counted from the first instruction; and whether nothing is marked.
function compared(nowText, beforeText, heads = { before: 'before', now: 'now', alone: 'text' }) {
  const now = linesIn(nowText);
  if (beforeText === null || beforeText === nowText)
    return { columns: columnOf(heads.alone, markedLines(now, 'span', 0)), fresh: new Set(), same: beforeText !== null };
  const { left, right, fresh, gone } = new Comparison(linesIn(beforeText), now).drawn();
  const first = now.findIndex(line => line.endsWith(': begin')) + 1;
  return { columns: columnOf(heads.before, left) + columnOf(heads.now, right), same: !gone && !fresh.size,
    fresh: new Set([...fresh].map(at => at - first)) };
}
