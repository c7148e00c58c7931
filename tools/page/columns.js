// ---- the columns of each pass: for each node a bit or a value, and why it is so

const COLUMNS = {
  clean(pass) {
    const { first, last } = pass.facts.ends || {};
    const why = ends => n => {
      const path = pathTo(edgesOf(pass.before).out, n, at => at === ends[n],
        at => pass.before.nodes[at][0] !== 'start');
      return { html: ends[n] === n ? `Node ${N(n)} is no jump, so it is its own end of chain.`
        : `From ${N(n)} one comes to ${N(ends[n])} by nothing but jumps.`, path: ends[n] === n ? null : path };
    };
    if (!first || !last) return [];
    return [values('first', first.map(String),
        'The end of a chain is found by following Skips: it is the first node that is none.', why(first),
        'end of chain'),
      values('last', last.map(String),
        'A test whose two ways have one end makes no difference: it becomes a Skip, and chains go on through it.',
        why(last), 'at last')];
  },

  bounds(pass) {
    const states = pass.facts.states || [];
    const reached = column('reached', states.map(one => one !== null),
      'A node is reached where some edge passes a state to it; a test passes one along the ways that it may take.',
      n => ({ yes: states[n] !== null, html: states[n] !== null ? `Node ${N(n)} is reached.`
        : `No edge passes a state to ${N(n)}: it is dropped.` }));
    return [reached, ...pass.before.vars.map((name, v) => values(name, states.map(one => one ? one[v] : ''),
      `Between which numbers the value of ${code(name)} lies before the node; an end that is left out is the least or the greatest number of all.`,
      n => ({ html: states[n] === null ? `No run comes to ${N(n)}.` : `Before ${N(n)} ${code(name)} is ${states[n][v]}.` })))];
  },

  wanted(pass) {
    const wanted = pass.facts.wanted || [];
    return pass.before.vars.map((name, v) => values(name, wanted.map(one => String(one[v])),
      `How many of the lowest bits of ${code(name)} can still matter before the node.`,
      n => whyWanted(pass, n, v)));
  },

  demanded(pass) { return COLUMNS.wanted(pass); },

  fold(pass) {
    const states = pass.facts.states || [];
    const { into } = edgesOf(pass.before);
    const reached = column('reached', states.map(one => one !== null),
      'A node is reached where some edge passes a state to it; a decided test passes one along the way that it takes alone.',
      n => ({ yes: states[n] !== null, html: states[n] !== null ? `Node ${N(n)} is reached.`
        : `No edge passes a state to ${N(n)}: it is dropped.` }));
    return [reached, ...pass.before.vars.map((name, v) => values(name, states.map(one => one ? one[v] : ''),
      `The one value that the rules find for ${code(name)} before the node, or <b>?</b> where it varies: some path has another value, or one that is not known.`,
        n => {
        if (states[n] === null) return { html: `No run comes to ${N(n)}.` };
        if (states[n][v] === '?') return whyVarying(pass, name, n);
        const from = into[n].map(p => states[p] === null ? `${N(p)} is not reached`
          : !passesOn(pass, p, n) ? `${N(p)} takes its other way`
          : setsIn(pass, p, name) ? `${N(p)} makes it ${valueBehind(pass, p, name)}` : `${N(p)} passes ${states[p][v]} on`);
        return { html: `Before ${N(n)} ${code(name)} is ${states[n][v]}${from.length ? ': ' + from.join('; ') : ': all variables are 0 at first'}.`,
          edges: into[n].map(p => [p, n]) };
      }))];
  },

  number(pass) {
    const { terms = [], before = [], rights = [] } = pass.facts;
    const vars = pass.before.vars;
    const right = new Map(rights.map(([n, term, holder]) => [n, { term, holder }]));
    const whole = at => at === null ? 'new' : termText(terms, at).replace(/^\((.*)\)$/, '$1');
    const held = n => vars.flatMap((name, v) => before[n][1][v] === null ? [] : [`${name}: ${whole(before[n][1][v])}`]);
    const wayDown = n => pathTo(edgesOf(pass.before).out, before[n][0], at => at === n);
    return [
      values('root', before.map(one => String(one[0])),
        'A root is Start or a join: there all terms begin anew, as leaves.', n => ({
        html: before[n][0] === n ? `Node ${N(n)} is a root.`
          : `${N(n)} is entered by one edge alone, and so is each node up to the root ${N(before[n][0])}.`,
        path: before[n][0] === n ? null : wayDown(n) })),
      values('terms', before.map((_, n) => held(n).join(', ')),
        'A term says as a tree how a value was computed since the root; <code>a0</code> is what a had at node 0, <code>a@3</code> what node 3 gave it. Variables not named have their own leaf.',
        n => ({ html: held(n).length ? `Since the root ${N(before[n][0])}: ${code(held(n).join(', '))}.`
          : 'Each variable has its own leaf: nothing was assigned since the root.' }), 'terms before it', true),
      values('right', range(before.length).map(n => right.has(n) ? whole(right.get(n).term) : ''),
        'The term of the right side, where it may move: the same tree means the same value.',
        n => ({ html: right.has(n) ? `Its right side has the term ${code(whole(right.get(n).term))}.`
          : 'No movable right side.' }), 'its right side', true),
      values('holder', range(before.length).map(n => right.get(n)?.holder || ''),
        'The least-numbered variable whose term is the same: it is read in the place of the right side.', n => ({
        html: !right.has(n) ? 'There is nothing to ask.' : right.get(n).holder
          ? `${code(right.get(n).holder)} has this value already.` : 'No variable has this value yet.' }), 'held by'),
    ];
  },

  copies(pass) {
    const { out, into } = edgesOf(pass.before);
    return itemsOf(pass).map(item => {
      const [v, w] = item.text.split(' <- ');
      const born = n => pass.before.nodes[n][3] === item.text;
      const stop = n => n === 0 || parsed(pass.before.nodes[n]).setsOf([v, w]).length > 0;
      const bits = bitsOf(item.rows, 'held');
      const one = column('held', bits,
        `${code(item.text)} holds where every path has this assignment, and neither variable is assigned since.`,
        n => everyPathTo(out, into, n, bits[n], p => born(p) ? 'good' : stop(p) ? 'bad' : 'on', { has: 'has this copy',
          bad: p => p === 0 ? 'this copy is not made on it'
            : `${N(p)} ${changing(pass.before.nodes[p], [v, w])}, and the copy is not made again` }),
            item.text);
      one.id = item.text;
      return one;
    });
  },

  split(pass) {
    const { into } = edgesOf(pass.before);
    const count = pass.before.nodes.map((_, n) => pass.before.nodes.reduce((sum, node) =>
        sum + node[1].filter(s => s === n).length, 0));
    return [values('from', into.map(one => one.join(' ')), 'From where the node is entered.',
        n => ({ html: `Entered from ${list(into[n])}.`, edges: into[n].map(p => [p, n]) }), 'entered from'),
      column('join', count.map(one => one > 1),
        'A join is entered by more than one edge. What only one of them needs has no place of its own yet.', n => ({
        yes: count[n] > 1, html: count[n] > 1 ? `${N(n)} is entered by ${count[n]} edges: each gets a Skip.`
          : `${N(n)} is entered by ${many(count[n], 'edge')}.`, edges: into[n].map(p => [p, n]) }))];
  },

  motion(pass, item) {
    if (!item) return [];
    const P = problem(pass, item);
    const e = code(item.text), temp = item.temp ? code(item.temp) : 'a temporary';
    const { nodes } = pass.before, { out, into } = P;
    return [
      column('used', P.used, `A node <b>uses</b> ${e} where it evaluates exactly that.`,
        n => ({ yes: nodes[n][0] === 'assign' && parsed(nodes[n]).right === item.text,
        html: P.used[n] ? `The right side of ${N(n)} is ${e}.`
          : `${N(n)} does not evaluate ${e}${parsed(nodes[n]).op && nodes[n][0] === 'assign' ? ', which is compared as it is written' : ''}.` })),
      column('killed', P.killed,
        `A node <b>kills</b> ${e} where it assigns one of its operands, may change one by a call, or is Start: an older value is worth nothing then.`,
        n => ({ yes: n === 0 || parsed(nodes[n]).setsOf(rightVars(item.text)).length > 0,
        html: P.killed[n]
          ? `${N(n)} ${n ? changing(nodes[n], rightVars(item.text)) : 'is Start'}.`
          : `${N(n)} assigns no operand of ${e}.` })),
      column('available', P.available,
        `${e} is <b>available</b> before a node where every path from Start has evaluated it, with no change of an operand since.`,
        n => everyPathTo(out, into, n, P.available[n], p => P.killed[p] ? 'bad' : P.used[p] ? 'good' : 'on',
          { has: `has evaluated ${e} by then`, bad: p => p
            ? `${N(p)} ${changing(nodes[p], rightVars(item.text))}, and nothing evaluates ${e} after it`
            : `nothing evaluates ${e} on it` })),
      column('anticipatable', P.anticipatable,
        `${e} is <b>anticipatable</b> where every path from the node that comes to a change of an operand, or to a Return, has evaluated it by then.`,
        n => P.everyPathFrom(n)),
      ...pass.name !== 'divisions' ? [] : [column('sure', P.down,
        `${e} is <b>sure</b> where each path from the node comes to it within some number of nodes, and before that nothing is seen, no operand changes and no other division is made.`,
        n => P.whyDown(n))],
      column('earliest', P.earliest,
        `<b>Earliest</b>: ${P.rule} here, but on some edge into the node it could not stand higher up.${pass.name === 'motion' ? ' The busy placement inserts here.' : ''}`,
        n => {
        if (!P.down[n]) return { ...P.whyDown(n), yes: false,
          html: `It is not even ${P.rule}. ${P.whyDown(n).html}` };
        const p = into[n].find(P.blocking);
        if (p === undefined) return { yes: false,
          html: `At each predecessor (${list(into[n])}) it is available or ${P.rule}, and none of them kills it, so it could stand there as well.`,
          edges: into[n].map(q => [q, n]) };
        if (P.killed[p]) return { yes: true,
          html: `At ${N(p)} it would be worth nothing: that node ${p ? changing(nodes[p], rightVars(item.text)) : 'is Start, where the variables get their values'}.`,
          edges: [[p, n]], bad: p };
        const bad = P.whyDown(p);
        return { yes: true,
          html: `It must not stand at ${N(p)}, where it is neither available nor ${P.rule}. ${bad.html}`,
          path: bad.path, edges: [[p, n]], bad: p };
      }),
      column('delayed', P.delayed,
        `<b>Delayed</b>: on every path the node comes at or after an earliest node with no use in between, so the evaluation can wait until here.`,
        n => P.whyDelayed(n)),
      column('latest', P.latest,
        `<b>Latest</b>: it can wait until here and no longer, since the node uses ${e} or some successor is not delayed.`,
        n => {
        if (!P.delayed[n]) return { ...P.whyDelayed(n), yes: false,
          html: `It is not delayed here. ${P.whyDelayed(n).html}` };
        if (P.used[n]) return { yes: true, html: `${N(n)} itself needs the value.`, good: [n] };
        const s = out[n].find(one => !P.delayed[one]);
        if (s === undefined) return { yes: false,
          html: out[n].length ? `It can wait: each successor (${list(out[n])}) is delayed too.`
          : 'It is delayed, and nothing follows.', edges: out[n].map(one => [n, one]) };
        return { yes: true, html: `Its successor ${N(s)} is not delayed. ${P.whyDelayed(s).html}`,
          path: P.whyDelayed(s).path, edges: [[n, s]] };
      }),
      column('isolated', P.isolated,
        `<b>Isolated</b>: no later node would read a temporary set here; it would be read by the node itself alone. This matters at latest nodes only.`,
        n => {
        const path = pathOn(out, n, m => P.used[m] && !P.latest[m], m => !P.latest[m]);
        const stops = path ? [] : [...reach(out, n, m => !P.latest[m])].filter(m => P.latest[m]);
        return path ? { yes: false,
          html: `Not isolated: on ${arrows(path)} comes a use that would read it, at ${N(path.at(-1))}.`, path,
          good: [path.at(-1)] }
          : { yes: true,
            html: `No path from ${N(n)} comes to a use that could read it${stops.length ? `, but through ${list(stops)}, where it is evaluated anew` : ''}.` };
      }),
      column('inserted', P.inserted,
        `<b>Inserted</b>: before each node that is latest and not isolated. There ${e} is evaluated into ${temp}.`,
        n => {
        if (P.inserted[n] && P.latest[n] && !P.isolated[n]) {
          const reads = P.readsOf(n), from = P.earliest[n] ? [n]
            : [...reach(into, n, m => P.delayed[m] && !P.earliest[m])].filter(m => P.earliest[m]);
          return { yes: true,
            html: `${from.length === 1 && from[0] === n ? 'It cannot stand higher up, and can wait no longer' : `It could stand as early as ${list(from)}, and has waited until here`}: ${P.used[n] ? `${N(n)} itself needs the value` : `the next node, ${N(out[n].find(one => !P.delayed[one]))}, is also entered with the value in hand`}. ${temp} is read at ${list(reads)}.`,
            edges: P.servedEdges(n), good: reads };
        }
        return { yes: P.latest[n] && !P.isolated[n],
          html: !P.latest[n] ? `It is not latest here.` : P.isolated[n]
          ? `It is latest here, but isolated: ${temp} would be read by this node alone.`
          : 'It is latest here, and not isolated.' };
      }),
      column('replaced', P.replaced,
        `<b>Replaced</b>: each use reads ${temp}, but one that is both latest and isolated, which stays as it is.`,
        n => {
        if (!P.used[n]) return { yes: false, html: `${N(n)} does not use ${e}.` };
        if (P.latest[n] && P.isolated[n]) return { yes: false, html: `The use stays: nobody else would read ${temp}.` };
        const serves = where(P.inserted).filter(m => P.readsOf(m).includes(n));
        return { yes: true,
          html: `It reads ${temp}, which every path has from an insertion: ${list(serves)}.`,
          edges: serves.flatMap(m => P.servedEdges(m)), good: serves };
      }),
      values('held', nodes.map((node, n) => [...new Set(node[1])].filter(s => P.isHeld(n, s)).map(s => '→' + s).join(' ')),
        `<b>Held</b>: ${temp} lives on an edge where a path leads on to a use that reads it, with no insertion before, and then to a Return. Of all placements that evaluate as little, the lazy one has the fewest such edges.`,
        n => P.whyHeld(n)),
      ...Object.keys(item.rows).filter(name => !(name in HUES) && !name.startsWith('busy '))
        .map(name => column(name, bitsOf(item.rows, name), `The row ${code(name)} of the tables.`,
          () => ({ html: '' }))),
    ];
  },

  divisions(pass, item) { return COLUMNS.motion(pass, item); },

  tails(pass) {
    const of = new Map((pass.facts.calls ?? []).map(call => [call.n, call]));
    const say = { loop: 'loop', tail: 'tail, of another unit', dropped: 'answer dropped', global: 'answer to a global' };
    return [values('position', pass.before.nodes.map((_, n) => !of.has(n) ? '' : say[of.get(n).position] ?? `then ${of.get(n).next}`),
      'A call is in <b>tail position</b> where its answer is returned next. Where it calls the unit itself it becomes a loop.',
      n => of.has(n) ? callTold(pass, of.get(n)) : { html: `${N(n)} is no call.` }, 'position', true)];
  },

  join(pass) {
    const of = new Map((pass.facts.calls ?? []).map(call => [call.n, call]));
    return [values('joined', pass.before.nodes.map((_, n) => of.get(n)?.position ?? ''),
      'A <b>leaf</b> has at most 32 instructions and calls no unit: its code stands in the place of each call.',
      n => of.has(n) ? callTold(pass, of.get(n)) : { html: `${N(n)} is no call.` }, 'becomes', true)];
  },

  sink(pass, item) {
    if (!item) return [];
    const { nodes } = pass.before, { out, into } = edgesOf(pass.before);
    const [occurs, blocked, delayed, inserted] = ['occurs', 'blocked', 'delayed',
      'inserted'].map(name => bitsOf(item.rows, name));
    const p = code(item.text), [x, t] = item.text.split(' <- ');
    const blocks = n => {
      const one = parsed(nodes[n]);
      return n === 0 ? 'is Start' : one.reads.includes(x) ? `reads ${code(x)}`
        : changing(nodes[n], [x, ...rightVars(t)]);
    };
    const whyDelayed = n => everyPathTo(out, into, n, delayed[n],
      q => occurs[q] ? 'good' : blocked[q] ? 'bad' : 'on', { has: `brings ${p} with it`,
      bad: q => q ? `${N(q)} ${blocks(q)}, and ${p} does not occur after it` : `${p} does not occur on it` });
    return [
      column('occurs', occurs,
        `The nodes that assign just this. Each becomes a Skip, and the assignment sets out from there.`,
        n => ({ yes: nodes[n][3] === item.text, html: occurs[n] ? `${N(n)} is ${p}.` : `${N(n)} is not ${p}.` })),
      column('blocked', blocked,
        `A node <b>blocks</b> ${p} where it reads ${code(x)}, or assigns ${code(x)} or what ${code(t)} reads: past it the assignment would mean something else.`,
        n => ({ yes: n === 0 || parsed(nodes[n]).reads.includes(x) ||
          parsed(nodes[n]).setsOf([x, ...rightVars(t)]).length > 0,
          html: blocked[n] ? `${N(n)} ${blocks(n)}.` : `${N(n)} has nothing to do with it, so it passes.` })),
      column('delayed', delayed,
        `<b>Delayed</b>: every path to the node brings the assignment with it, and no node has blocked it on the way.`,
        whyDelayed),
      column('inserted', inserted,
        `<b>Inserted</b> before the node where its way ends: the node blocks it, or not all that follows is delayed.`,
        n => {
        if (!delayed[n]) return { ...whyDelayed(n), yes: false, html: `It does not come here. ${whyDelayed(n).html}` };
        if (blocked[n]) return { yes: true, html: `It comes here, and ${N(n)} ${blocks(n)}.` };
        const s = out[n].find(one => !delayed[one]);
        return s === undefined ? { yes: false,
          html: out[n].length ? `It goes on: each successor (${list(out[n])}) is delayed too.`
          : 'It comes here, nobody reads it, and the unit returns: it is gone.' }
          : { yes: true,
            html: `At ${N(s)} it is not delayed, so it stands on this edge. ${whyDelayed(s).html}`,
            path: whyDelayed(s).path, edges: [[n, s]] };
      }),
    ];
  },

  prune(pass, item) {
    if (!item) return [];
    const { nodes } = pass.before, { out } = edgesOf(pass.before), x = code(item.text);
    const read = nodes.map(node => parsed(node).reads.includes(item.text)),
      sets = nodes.map(node => parsed(node).sets.includes(item.text));
    const before = bitsOf(item.rows, 'live before'), after = bitsOf(item.rows, 'live after'),
      dead = bitsOf(pass.facts.rows, 'dead');
    const ask = (n, path, live) => path ? { yes: true,
      html: `It is read on ${arrows(path)}, at ${N(path.at(-1))}.`, path, good: [path.at(-1)] }
      : { yes: false, html: live ? 'The row says so, but no path comes to a node that reads it.'
        : `On every path it is assigned, or the unit returns, before any node reads it.` };
    const behind = n => pathOn(out, n, m => read[m], m => !sets[m]);
    return [
      column('read', read, `The nodes that read ${x}.`,
        n => ({ yes: read[n], html: read[n] ? `${N(n)} reads ${x}.` : `${N(n)} does not read ${x}.` })),
      column('assigned', sets, `The nodes that assign ${x}.`,
        n => ({ yes: sets[n], html: sets[n] ? `${N(n)} ${changing(nodes[n], [item.text])}.` : `${N(n)} does not assign ${x}.` })),
      column('live before', before,
        `${x} is <b>live</b> before a node where some path reads it before it is assigned.`,
        n => read[n] ? { yes: true, html: `${N(n)} reads it.`, good: [n] }
        : ask(n, sets[n] ? null : behind(n), before[n])),
      column('live after', after, `It is live after a node where it is live before some successor.`,
        n => ask(n, behind(n), after[n])),
      column('dead', dead.map((bit, n) => bit && (sets[n] || !parsed(nodes[n]).sets.length)),
        `An assignment of ${x} is <b>dead</b> where it is not live after it and its right side does not divide.`, n => {
        const one = parsed(nodes[n]), path = behind(n);
        if (!sets[n]) return { yes: false, html: `${N(n)} does not assign ${x}.` };
        if (path) return { ...ask(n, path, after[n]), yes: false,
          html: `The value is wanted. ${ask(n, path, after[n]).html}` };
        return one.kind === 'assign' && !divides(one)
          ? { yes: true, html: `Nobody reads ${x} after ${N(n)} before it is assigned again: the assignment goes.` }
          : { yes: false, html: 'It may trap, or is a call, and so it stays.' };
      }),
    ];
  },
};
