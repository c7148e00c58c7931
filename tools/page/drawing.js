// ---- the picture of a unit by basic blocks, as SVG whose colours the page sets: a ground of its own behind each new
// line, and thick edges where a temporary lives

// How wide a letter and how high a line is, what a box has beside and over its lines, and how many temporaries an edge
// names; a longer list ends with dots, and stands whole in the title of the edge.
const LETTER = 8.5, LINE = 20, SIDE = 10, OVER = 5, NAMES = 3;

// A unit by blocks: their lines, the edges between them, and the sizes of their boxes.
function blockGraph(unit) {
  const blocks = blocksOf(unit), lines = blocks.map(block => blockLines(unit, block)), edges = blockEdges(unit, blocks);
  const sizes = lines.map(those => [LETTER * Math.max(...those.map(one => one.length)) + 2 * SIDE,
    LINE * those.length + 2 * OVER]);
  return { blocks, lines, edges, sizes, ends: edges.map(([source, target]) => [source, target]) };
}

// The first eight numbers of a way: its beginning, two places that bend it, and where its first bend ends.
const beginOf = way => way.match(/-?[\d.]+/g).slice(0, 8).map(Number);

// A figure of a unit, whose lines at these places are new, and in which edges are marked where these temporaries live.
function figureOf(unit, fresh, temporaries) {
  const graph = blockGraph(unit), held = liveEdges(unit, graph.blocks, graph.edges, temporaries);
  const { wide, high, centres, ways } = layoutOf(graph.sizes, graph.ends);
  const begins = ways.map(beginOf);
  const words = graph.edges.map((_, number) => wordsAt(graph, held[number], begins, number));
  const left = Math.min(0, ...words.map(one => one.far)), right = Math.max(wide, ...words.map(one => one.far));
  const edges = ways.map((way, number) => edgeDrawn(held[number], way));
  const boxes = graph.sizes.map((size, at) => boxDrawn(graph, at, centres[at], fresh));
  const across = right - left + 4, down = high + 4;
  return `<figure tabindex="0"><svg viewBox="${tenths(left - 2)} -2 ${tenths(across)} ${tenths(down)}" `
    + `width="${wholes(across)}" height="${wholes(down)}" role="img" `
    + `aria-label="control-flow graph of ${escaped(unit.name)}">`
    + `${edges.join('')}${boxes.join('')}${words.map(one => one.text).join('')}</svg></figure>`;
}

// A block with its lines; new ones have a ground of their own.
function boxDrawn({ blocks, lines, sizes }, at, [x, y], fresh) {
  const [wide, high] = sizes[at], left = x - wide / 2, top = y - high / 2;
  const made = lines[at].map((line, row) => {
    const low = top + OVER + LINE * row, text = `<text x="${tenths(left + SIDE)}" y="${tenths(low + LINE / 2)}">`;
    const ground = `<rect class="new" x="${tenths(left + 1)}" y="${tenths(low)}" width="${tenths(wide - 2)}" `
      + `height="${LINE}"/>`;
    return `${fresh.has(blocks[at][0] + row) ? ground : ''}${text}${escaped(line)}</text>`;
  });
  return `<g class="node"><rect class="box" x="${tenths(left)}" y="${tenths(top)}" width="${tenths(wide)}" `
    + `height="${tenths(high)}"/>${made.join('')}</g>`;
}

// An edge; it is thick where temporaries live on it.
function edgeDrawn(held, way) {
  const kind = held.size ? 'held' : 'plain';
  const title = held.size > NAMES ? `<title>${escaped([...held].sort().join(' '))} live here</title>` : '';
  return `<g class="edge ${kind}">${title}<path d="${way}" marker-end="url(#head-${kind})"/></g>`;
}

// The words beside an edge near its beginning, as text, and how far they reach; they stand over all lines.
function wordsAt(graph, held, begins, number) {
  const names = [...held].sort(), label = graph.edges[number][2];
  const words = [...label ? [label] : [], ...names.slice(0, NAMES), ...names.length > NAMES ? ['…'] : []].join(' ');
  const [x0, y0, x1, y1, x2, y2] = begins[number];
  if (!words) return { text: '', far: x0 };
  const t = 0.3, along = (a, b, c) => (1 - t) ** 2 * a + 2 * (1 - t) * t * b + t * t * c;
  const down = along(y0, y1, y2) - y0, y = y0 + (y1 < y0 - 1 ? -1 : 1) * Math.min(13, Math.max(8, Math.abs(down)));
  const side = leavesLeft(graph, begins, number) ? -1 : 1, x = along(x0, x1, x2) + 7 * side;
  const text = `<text class="${names.length ? 'way held' : 'way'}" x="${tenths(x)}" y="${tenths(y)}" `
    + `text-anchor="${side < 0 ? 'end' : 'start'}">${escaped(words)}</text>`;
  return { text, far: x + side * LETTER * words.length };
}

// Whether an edge leaves to the left of the other one of its test, which stands beside it in the list.
function leavesLeft({ edges }, begins, number) {
  const other = [number - 1, number + 1].find(at => edges[at]?.[0] === edges[number][0]);
  if (other === undefined) return false;
  const [begin, , , , , , end] = begins[number], [x0, , , , , , x3] = begins[other];
  if (Math.abs(begin - x0) > 4) return begin < x0;
  return end < x3 || end === x3 && number < other;
}
