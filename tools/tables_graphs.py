"""The graphs of a text of tables, as the page asks for their layouts, and the text of a stage, which is run."""

from layouts import Graph
from tables_text import KIND, SUCCS, TEXT

# ---- the layout of a graph as text: lines of [node, words, node that is jumped to]

def laid(stage):
    """The lines of the layout, by the rules of docs/PASSES.md; a Skip has a line that is no instruction."""
    nodes, placed, tests = stage['nodes'], set(), []
    lines = [[0, f'receive {name}(val)', None] for name in stage['received']]
    if not lines:
        lines.append([0, None, None])
    at = nodes[0][SUCCS][0]
    while True:
        last = 0
        while at not in placed:
            placed.add(at)
            kind, succs, text = nodes[at][KIND], nodes[at][SUCCS], nodes[at][TEXT]
            lines.append([at, None if kind == 'skip' else text + (' goto' if kind == 'test' else ''),
                          succs[0] if kind == 'test' else None])
            tests += [at] if kind == 'test' else []
            last = at
            if not succs:
                break
            at = succs[-1]
        else:
            if lines[-1][0] == last and lines[-1][1] is None:
                lines[-1] = [last, 'goto', at]
            else:
                lines.append([last, 'goto', at])
        waiting = [nodes[n][SUCCS][0] for n in tests if nodes[n][SUCCS][0] not in placed]
        if not waiting:
            return lines
        at = waiting[0]


# ---- boxes: each is a node or a block, nodes that follow one another, each but the first entered by one edge, each but
# the last leading to the next alone

HEIGHT, LINE = 32, 25


def label(node):
    """What stands in a node."""
    return {'skip': 'skip', 'start': 'Start'}.get(node[KIND], node[TEXT])


def graph_of(nodes, by_blocks):
    """The boxes of nodes, and the edges between them, as `page/boxes.js` has them."""
    entered = [0] * len(nodes)
    for node in nodes:
        for s in node[SUCCS]:
            entered[s] += 1
    follows = {n: node[SUCCS][0] for n, node in enumerate(nodes)
               if by_blocks and len(node[SUCCS]) == 1 and entered[node[SUCCS][0]] == 1}
    inner, chains = set(follows.values()), []
    for n in (n for n in range(len(nodes)) if n not in inner):
        chains.append([n])
        while chains[-1][-1] in follows:
            chains[-1].append(follows[chains[-1][-1]])
    of = {n: at for at, chain in enumerate(chains) for n in chain}
    sizes = [(max(max(58, 9 * len(label(nodes[n])) + 46) for n in chain),
              HEIGHT if len(chain) == 1 else LINE * len(chain) + 8) for chain in chains]
    return Graph(sizes, [(of[n], of[s]) for n, node in enumerate(nodes) for s in node[SUCCS] if follows.get(n) != s])


def graphs_of(units):
    """The graphs of all stages, by nodes and by blocks."""
    return [graph_of(stage['nodes'], by_blocks)
            for unit in units for stage in unit['stages'] for by_blocks in (False, True)]
