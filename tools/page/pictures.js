// ---- the picture of a graph

const MARKERS = ['plain', 'hot', 'live',
  'walk'].map(name => `<marker id="m-${name}" viewBox="0 0 10 10" refX="9" refY="5" markerWidth="9" markerHeight="9" markerUnits="userSpaceOnUse" orient="auto"><path d="M0 0.6 10 5 0 9.4z" class="m-${name}"/></marker>`)
  .join('');
const edgeKey = (a, b) => `${a}>${b}`;

// No picture is drawn smaller than this by itself, so that its letters can be read.
const LEAST = 0.72;

// A graph of many nodes, which had to be made much smaller to be seen as a whole, is drawn by blocks, unless the reader
// wants it otherwise.
const byBlocks = () => state.blocks ?? [passNow().before,
  passNow().after].some(stage => boxesOf(stage, false).high() * 0.7 > Math.max(window.innerHeight - 200, 300));

// A node in its box, as `own` tells, and what is put before it, which stands over all nodes.
function nodeDrawn(node, n, [x, y, w, h], own) {
  const left = x - w / 2, top = y - h / 2, inside = h < 30;
  const words = own.text ?? { skip: 'skip', start: 'Start' }[node[0]] ?? node[3];
  // what is put before the node; inside a block there is room for the variable alone
  const pills = (own.pills || []).map((pill, k) => {
    const told = '+ ' + (inside ? pill.split(' ')[0] : pill), wide = 8.4 * told.length + (inside ? 8 : 12);
    const [px, py] = inside ? [left + w - wide + 22 - k * (wide + 4), top - 9] : [x - wide / 2, top - 20 - 22 * k];
    return `<g class="pill"><title>${esc(pill)}, put before node ${n}</title><rect x="${px}" y="${py}" width="${wide}" height="${inside ? 18 : 20}" rx="9"/><text x="${px + wide / 2}" y="${py + (inside ? 9 : 10)}" text-anchor="middle" dominant-baseline="central">${esc(told)}</text></g>`;
  }).join('');
  const nodes = `<g class="node ${node[0]} ${inside ? 'inside' : ''} ${own.cls || ''}" data-k="${own.key}" data-n="${n}" ${own.style ? `style="${own.style}"` : ''} role="button" tabindex="-1" aria-label="node ${n}: ${esc(words)}${own.aria ? ', ' + esc(own.aria) : ''}">`
    + `<rect class="box" x="${left}" y="${top}" width="${w}" height="${h}" rx="${inside ? 2 : node[0] === 'skip' ? h / 2 : node[0] === 'start' || node[0] === 'return' ? 12 : 3}"/>`
    + `<text class="num" x="${left + 9}" y="${y}" dominant-baseline="central">${n}</text><text class="words" x="${left + 17 + 8 * String(n).length}" y="${y}" dominant-baseline="central">${esc(words)}</text>`
    + (own.mark ? `<g class="tag"><rect x="${left + w - 6}" y="${top - 8}" width="${8 * own.mark.length + 12}" height="19" rx="4"/><text x="${left + w + 4 * own.mark.length}" y="${top + 1.5}" text-anchor="middle" dominant-baseline="central">${esc(own.mark)}</text></g>`
      : '')
    + (own.count ? `<g class="count"><circle cx="${left - (inside ? 12 : 0)}" cy="${inside ? y : top + h}" r="11"/><text x="${left - (inside ? 12 : 0)}" y="${inside ? y : top + h}" text-anchor="middle" dominant-baseline="central">${own.count}</text></g>`
      : '') + '</g>';
  return { nodes, over: pills };
}

// A picture of more nodes is drawn by bands, of so much height each, as they come into sight.
const MOST_DRAWN = 200, BAND = 800;

// The bands that are not drawn yet, by their numbers.
const WAITING = new Map();
let bandCount = 0;

// The nodes of a picture, by bands; each is drawn by `one`. Those about the node of now are drawn at once.
function bandsOf(picture, one, here) {
  const both = nodes => nodes.map(one).reduce((all, { nodes, over }) => ({ nodes: all.nodes + nodes, over: all.over + over }),
    { nodes: '', over: '' });
  if (picture.boxes.length <= MOST_DRAWN) return [both([...picture.boxes.keys()])];
  const bands = [];
  picture.boxes.forEach(([, y], n) => (bands[Math.max(Math.floor(y / BAND), 0)] ??= []).push(n));
  const now = Math.floor(picture.boxes[here][1] / BAND);
  return [...bands.keys()].filter(at => bands[at]).map(at => {
    const number = ++bandCount, isNow = Math.abs(at - now) < 2, { nodes, over } = isNow ? both(bands[at]) : { nodes: '', over: '' };
    if (!isNow) WAITING.set(String(number), { top: at * BAND, make: () => both(bands[at]) });
    return { nodes: `<g data-band="${number}">${nodes}</g>`, over: `<g data-over="${number}">${over}</g>` };
  });
}

// Draws the bands of a picture that are in sight, or all of them.
function drawBands(box, all = false) {
  const svg = box.firstElementChild, scale = Number(svg.getAttribute('height')) / Number(svg.dataset.h);
  for (const band of svg.querySelectorAll('[data-band]:empty')) {
    const { top, make } = WAITING.get(band.dataset.band) ?? {}, at = (top + 26) * scale - box.scrollTop;
    if (!make || !all && (at > 1.5 * box.clientHeight || at + BAND * scale < -0.5 * box.clientHeight)) continue;
    const { nodes, over } = make();
    WAITING.delete(band.dataset.band);
    band.innerHTML = nodes;
    svg.querySelector(`[data-over="${band.dataset.band}"]`).innerHTML = over;
  }
}

// Draws a stage. `tell` says of each node: classes, style, pills before it, a mark behind it, its key and its text.
function draw(stage, tell, options = {}) {
  const picture = pictureOf(stage, byBlocks()),
    hot = new Set((options.hot || []).map(edge => edgeKey(...edge))),
    live = new Set((options.live || []).map(edge => edgeKey(...edge)));
  const walked = new Set((options.walked || []).map(edge => edgeKey(...edge)));
  const parts = [];
  const seams = [];
  for (const [n, slot, path, inner] of picture.edges) {
    const node = stage.nodes[n], key = edgeKey(n, node[1][slot]);
    const kind = hot.has(key) ? 'hot' : live.has(key) ? 'live' : walked.has(key) ? 'walk' : 'plain';
    if (inner) { if (kind !== 'plain') seams.push(`<path class="edge seam ${kind}" d="${path}"/>`); continue; }
    parts.push(`<path class="edge ${kind}" d="${path}" marker-end="url(#m-${kind})"/>`);
    if (node[0] === 'test') {
      const [x0, y0, x1, y1, x2, y2, x3] = path.match(/-?[\d.]+/g).map(Number), t = 0.3, u = 1 - t;
      const x = u * u * x0 + 2 * u * t * x1 + t * t * x2,
        up = y1 < y0 - 1, far = Math.abs(u * u * y0 + 2 * u * t * y1 + t * t * y2 - y0),
        y = y0 + (up ? -1 : 1) * Math.min(12, Math.max(6, far));
      const other = picture.edges.find(edge => edge[0] === n && edge[1] !== slot),
        [ox] = other[2].match(/-?[\d.]+/g).map(Number);
      const left = Math.abs(ox - x0) > 4 ? x0 < ox : x3 < x0 - 3 || (Math.abs(x3 - x0) <= 3 && slot === 0);
      parts.push(`<text class="way" x="${x + (left ? -7 : 7)}" y="${y}" text-anchor="${left ? 'end' : 'start'}" dominant-baseline="central">${slot ? 'no' : 'yes'}</text>`);
    }
  }
  const bands = bandsOf(picture, n => nodeDrawn(stage.nodes[n], n, picture.boxes[n], tell(n)), options.here ?? 0);
  const legend = [options.hot?.length && ['hot', 'why'], options.live?.length && ['live', 'the temporary lives'],
    options.walked?.length && ['walk', 'the run so far']].filter(Boolean)
    .map(([kind, what]) => `<span><svg width="30" height="8" aria-hidden="true"><path class="edge ${kind}" d="M0 4h30"/></svg> ${what}</span>`)
    .join('');
  return `<figure class="graph">${options.title ? `<figcaption>${options.title}</figcaption>` : ''}<div class="scroll" tabindex="0" aria-label="graph"><svg viewBox="${-26} -26 ${picture.w + 52} ${picture.h + 40}" data-w="${picture.w + 52}" data-h="${picture.h + 40}" width="${Math.round((picture.w + 52) * fitScale)}" height="${Math.round((picture.h + 40) * fitScale)}" role="group" aria-label="control-flow graph"><defs>${MARKERS}</defs>${parts.join('')}${bands.map(one => one.nodes).join('')}${picture.frames.map(([x, y, w, h]) => `<rect class="frame" x="${x}" y="${y}" width="${w}" height="${h}" rx="4"/>`).join('')}${seams.join('')}${bands.map(one => one.over).join('')}</svg></div>${legend ? `<div class="legend">${legend}</div>` : ''}</figure>`;
}

// ---- the text of a stage, laid out; each line has its node, and labels are node numbers

function textOf(stage, key, mark) {
  const targets = new Set(linesOf(stage).flatMap(line => line[2] === null ? [] : [line[2]])), labelled = new Set();
  return linesOf(stage).map(([n, words, to]) => {
    const label = n !== 0 && targets.has(n) && !labelled.has(n) ? `n${n}: ` : '';
    labelled.add(n);
    if (words === null && n === 0) return '';
    const own = words === null ? `<i>skip</i>` : esc(words + (to === null ? '' : ` n${to}`));
    const cls = mark(n, words), here = key(n) === 'b' + state.node ? 'here' : '';
    const tag = cls === 'old' ? 'del' : cls === 'new' || cls === 'chg' ? 'ins' : 'span';
    return `<div class="line ${cls} ${here}" data-k="${key(n)}"><span class="gut" aria-hidden="true">${n}</span><${tag}>${label ? `<b>${label}</b>` : ''}${own}</${tag}></div>`;
  }).join('');
}

function texts(pass) {
  const left = textOf(pass.before, n => 'b' + n,
    (n, words) => pass.change[n] === 'same' || /^(receive|goto)/.test(words) ? (words === null ? 'quiet' : '') : 'old');
  if (pass.first) return `<div class="texts"><section><h3>program</h3><pre>${left}</pre></section></div>`;
  const fresh = new Set(pass.fresh);
  const right = textOf(pass.after, n => keyOf(pass, n), (n, words) => {
    const old = pass.old[n];
    if (fresh.has(n)) return 'new';
    if (old < 0) return 'quiet';
    return words !== null && !/^(receive|goto)/.test(words) &&
      pass.change[old] === 'changed' ? 'chg' : words === null ? 'quiet' : '';
  });
  return `<div class="texts"><section><h3>before</h3><pre>${left}</pre></section><section><h3>after</h3><pre>${right}</pre></section></div>`;
}

// One key for a node before and after a pass.
const keyOf = (pass, m) => pass.old[m] === null || pass.old[m] < 0 ? 'a' + m : 'b' + pass.old[m];
