// ---- the layout of a graph by layers: each box stands below those that lead to it, but for edges that close a loop

// It is what a page takes where it has no layout by Graphviz. Box 0 leads to all others. A long edge has a place of its
// own on each layer between its ends. On a layer all edges run upright, beside the boxes or in such places, and only
// between two layers they go across: so no edge passes a box.

// How far boxes of a layer, and layers, stand from each other; how wide the place of a long edge is; how far from the
// middle of a test its two edges leave; how far beside a box an edge runs that closes a loop; and how often layers are
// put in order, and boxes pulled.
const BESIDE = 28, BELOW = 34, THREAD = 26, ASIDE = 14, AROUND = 14, SORTS = 12, PULLS = 16;

// A number with one digit behind the point; ties go to the even digit.
function tenths(number) {
  if (Object.is(number, -0)) return '-0.0';
  const whole = Math.trunc(Math.abs(number));
  return Math.abs(number) - whole === 0.25 ? `${number < 0 ? '-' : ''}${whole}.2` : number.toFixed(1);
}
// The same with no digit behind the point.
function wholes(number) {
  const whole = Math.trunc(Math.abs(number));
  return Math.abs(number) - whole === 0.5 ? `${number < 0 ? '-' : ''}${whole + whole % 2}` : number.toFixed(0);
}

// The place of a box on its layer, or that of an edge on a layer between its ends: then `box` is its upper end.
const spotOf = (box, edge, layer, wide) => ({ box, edge, layer, wide, x: 0, place: 0, near: [] });

// The mean of what some spots have.
function mean(spots, value) {
  let sum = 0;
  for (const spot of spots) sum += value(spot);
  return sum / spots.length;
}

// A graph on its way to a layout. How high it is, is known before its boxes are put beside each other.
class Layers {
  constructor(sizes, edges) {
    Object.assign(this, { sizes, edges, out: sizes.map(() => []) });
    edges.forEach(([source, target], number) => this.out[source].push([number, target]));
    this.walk();
    this.deepen();
    this.level();
  }

  // The edges that close a loop, by a depth-first walk, and the boxes in the order in which it leaves them, turned.
  walk() {
    const seen = new Set([0]), open = new Set([0]), stack = [[0, 0]];
    this.back = new Set();
    this.order = [];
    while (stack.length) {
      const top = stack.at(-1), [box, at] = top;
      if (at === this.out[box].length) {
        stack.pop();
        open.delete(box);
        this.order.push(box);
        continue;
      }
      top[1]++;
      const [number, target] = this.out[box][at];
      if (open.has(target)) this.back.add(number);
      else if (!seen.has(target)) {
        seen.add(target);
        open.add(target);
        stack.push([target, 0]);
      }
    }
    this.order.reverse();
  }

  // On which layer each box stands: below each that leads to it by an edge that closes no loop.
  deepen() {
    this.depth = this.sizes.map(() => 0);
    for (const box of this.order) for (const [number, target] of this.out[box])
      if (!this.back.has(number)) this.depth[target] = Math.max(this.depth[target], this.depth[box] + 1);
  }

  // Where each layer begins and ends, and how high all is.
  level() {
    const heights = [];
    for (const box of this.order)
      heights[this.depth[box]] = Math.max(heights[this.depth[box]] ?? 0, this.sizes[box][1]);
    this.tops = [];
    this.lows = [];
    for (const height of heights) {
      this.tops.push(this.lows.length ? this.lows.at(-1) + BELOW : 2);
      this.lows.push(this.tops.at(-1) + height);
    }
    this.high = this.lows.at(-1) + 4;
  }

  // Puts the boxes beside each other, and finds the ways of the edges.
  layout() {
    this.spread();
    this.turns(SORTS, layer => this.sort(layer));
    this.across();
    this.left = this.end(-1) - 4;
    this.right = this.end(1);
    const ways = this.edges.map((_, number) => this.back.has(number) ? this.wayUp(number) : this.wayDown(number));
    return { wide: this.right - this.left + 4, high: this.high, ways,
      centres: this.sizes.map((_, box) => this.centre(box)) };
  }

  // The spots of each layer, and those of each edge, from its upper end to its lower one; each knows its neighbours.
  spread() {
    this.layers = this.tops.map(() => []);
    this.spots = this.sizes.map(([wide], box) => spotOf(box, -1, this.depth[box], wide));
    for (const box of this.order) this.layers[this.depth[box]].push(this.spots[box]);
    this.chains = this.edges.map(([source, target], number) => {
      const [top, low] = this.back.has(number) ? [target, source] : [source, target], chain = [this.spots[top]];
      for (let layer = this.depth[top] + 1; layer < this.depth[low]; layer++) {
        const spot = spotOf(top, number, layer, THREAD);
        this.layers[layer].push(spot);
        chain.push(spot);
      }
      return [...chain, this.spots[low]];
    });
    for (const chain of this.chains) for (let at = 0; at + 1 < chain.length; at++) {
      chain[at].near.push(chain[at + 1]);
      chain[at + 1].near.push(chain[at]);
    }
    for (const layer of this.layers) layer.forEach((spot, place) => { spot.place = place; });
  }

  // Does some work on each layer, so many times, downwards and upwards in turn.
  turns(count, work) {
    const upwards = [...this.layers].reverse();
    for (let turn = 0; turn < count; turn++) for (const layer of turn % 2 ? upwards : this.layers) work(layer);
  }

  // Puts a layer in the order of the middles of its neighbours on other layers.
  sort(layer) {
    for (const spot of layer) {
      const beside = spot.near.filter(one => one.layer !== spot.layer);
      spot.wish = beside.length ? mean(beside, one => one.place) : spot.place;
    }
    layer.sort((one, other) => one.wish - other.wish);
    layer.forEach((spot, place) => { spot.place = place; });
  }

  // Where each spot stands across the picture: pulled to its neighbours, as far as there is room.
  across() {
    for (const layer of this.layers) {
      let left = 0;
      for (const spot of layer) {
        spot.x = left + spot.wide / 2;
        left += spot.wide + BESIDE;
      }
    }
    this.turns(PULLS, layer => this.pull(layer));
  }

  // Pulls the spots of a layer to the middles of their neighbours; they keep their order and their room.
  pull(layer) {
    for (const spot of layer) spot.wish = spot.near.length ? mean(spot.near, one => one.x) : spot.x;
    layer.forEach((spot, place) => {
      const before = layer[place - 1];
      spot.x = place ? Math.max(spot.wish, before.x + (before.wide + spot.wide) / 2 + BESIDE) : spot.wish;
    });
    const shift = mean(layer, spot => spot.x - spot.wish);
    for (const spot of layer) spot.x -= shift;
  }

  // On which sides an edge that closes a loop leaves and enters, -1 for left and 1 for right: those of its places
  // between; without these the left, where both ends are the first of their layers, and else the right.
  sides(number) {
    const ends = this.edges[number].map(box => this.spots[box]), inner = this.chains[number].slice(1, -1).reverse();
    if (inner.length) return [inner[0], inner.at(-1)].map((spot, at) => spot.x >= ends[at].x ? 1 : -1);
    const stand = at => ends.every(spot => this.layers[spot.layer].at(at) === spot);
    return stand(0) && !stand(-1) ? [-1, -1] : [1, 1];
  }

  // How far the picture reaches to the left (-1) or to the right (1).
  end(side) {
    let most = -Infinity;
    for (const layer of this.layers) for (const spot of layer) most = Math.max(most, side * spot.x + spot.wide / 2);
    for (const number of this.back) {
      const own = this.sides(number);
      this.edges[number].forEach((box, at) => {
        if (own[at] === side) most = Math.max(most, side * this.spots[box].x + this.sizes[box][0] / 2 + AROUND + 6);
      });
    }
    return side * most;
  }

  // The middle of a box, from the upper left corner; it stands at the top of its layer.
  centre(box) {
    return [this.spots[box].x - this.left, this.tops[this.depth[box]] + this.sizes[box][1] / 2];
  }

  // The way of an edge through the layers between its ends, downwards.
  through(number) {
    return this.chains[number].slice(1, -1).flatMap(spot =>
      [this.tops, this.lows].map(level => [spot.x - this.left, level[spot.layer]]));
  }

  // How far from the middle an edge leaves its box: of the two of a test the left one leaves on the left.
  aside(number) {
    const beside = this.out[this.edges[number][0]].map(([one]) => one);
    if (beside.length !== 2) return 0;
    const [first, second] = beside.map(one => this.chains[one][1].x);
    return number === beside[first <= second ? 0 : 1] ? -ASIDE : ASIDE;
  }

  // The way of an edge from the foot of a box to the head of a lower one.
  wayDown(number) {
    const [source, target] = this.edges[number], [ax, ay] = this.centre(source), [bx, by] = this.centre(target);
    const foot = ay + this.sizes[source][1] / 2, head = by - this.sizes[target][1] / 2, out = ax + this.aside(number);
    return curve([[out, foot], [out, this.lows[this.depth[source]]], ...this.through(number), [bx, head]]);
  }

  // The way of an edge that closes a loop: from the side of a box up to that of a higher one, or of itself.
  wayUp(number) {
    const [source, target] = this.edges[number], [ax, ay] = this.centre(source), [bx, by] = this.centre(target);
    const [out, into] = this.sides(number);
    const begin = ax + out * this.sizes[source][0] / 2, end = bx + into * this.sizes[target][0] / 2;
    if (source === target) {
      const part = this.sizes[source][1] / 4;
      return curve([[begin, ay + part], [begin + out * AROUND, ay], [begin, ay - part]], out, into);
    }
    return curve([[begin, ay], [begin + out * AROUND, this.tops[this.depth[source]]], ...this.through(number).reverse(),
      [end + into * AROUND, this.lows[this.depth[target]]], [end, by]], out, into);
  }
}

// A bent line through points, upright at each; at its ends it lies flat where `out` and `into` are -1 or 1.
function curve(all, out = 0, into = 0) {
  const points = all.filter((point, at) => !at || point[0] !== all[at - 1][0] || point[1] !== all[at - 1][1]);
  let path = `M${tenths(points[0][0])} ${tenths(points[0][1])}`;
  for (let place = 0; place + 1 < points.length; place++) {
    const [px, py] = points[place], [qx, qy] = points[place + 1], bend = 0.45 * (qy - py);
    const one = out && place === 0 ? [px + out * AROUND, py] : [px, py + bend];
    const two = into && place === points.length - 2 ? [qx + into * AROUND, qy] : [qx, qy - bend];
    path += `C${[...one, ...two, qx, qy].map(tenths).join(' ')}`;
  }
  return path;
}

// Layouts by Graphviz, as the page was given them, by their graphs.
const GIVEN = new Map();

// What a graph is known by.
const graphKey = (sizes, edges) => JSON.stringify([sizes, edges]);

// Takes layouts, each with the sizes and edges of its graph, how wide and high it is, its centres and its ways.
function takeLayouts(layouts) {
  for (const { sizes, edges, ...layout } of layouts) GIVEN.set(graphKey(sizes, edges), layout);
}

// The layout of a graph that the page was given, if any.
const givenOf = (sizes, edges) => GIVEN.size ? GIVEN.get(graphKey(sizes, edges)) : undefined;

// The layout of boxes of these sizes, and of edges, each with the box that it leaves and the one that it enters.
const layoutOf = (sizes, edges) => givenOf(sizes, edges) ?? new Layers(sizes, edges).layout();

// How high that layout is.
const heightOf = (sizes, edges) => (givenOf(sizes, edges) ?? new Layers(sizes, edges)).high;
