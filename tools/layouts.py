"""Layouts by Graphviz (`dot`) for the pages of `show`, and how a page is put together. Where a page is given no layout
of a graph, it lays it out by itself, by layers (`page/layers.js`)."""

import json
import re
import shutil
import subprocess
from pathlib import Path
from typing import NamedTuple, Optional

PARTS = Path(__file__).resolve().parent / 'page'
SECONDS = 300


class Graph(NamedTuple):
    """The sizes of the boxes of a graph, and its edges, each with the box that it leaves and the one that it enters."""

    sizes: list
    edges: list


def page_with(kind: str, title: str, data: dict, scripts: tuple) -> str:
    """A page of a kind with its title as HTML, its data and the parts of its script. No text of the data is code."""
    body, style, *texts = ((PARTS / file).read_text('utf-8') for file in (f'{kind}.html', f'{kind}.css', *scripts))
    packed = json.dumps(data, separators=(',', ':')).replace('<', '\\u003c')
    parts = {'TITLE': title, 'STYLE': style, 'DATA': packed, 'SCRIPT': '\n'.join(texts)}
    return re.sub(r'\{\{(\w+)\}\}', lambda match: parts[match.group(1)], body)


def given_layouts(graphs: list) -> list:
    """The layouts by Graphviz of the different ones of these graphs, each with its graph; none where it is not here."""
    distinct = list({json.dumps(graph): graph for graph in graphs}.values())
    return [{'sizes': graph.sizes, 'edges': graph.edges, **layout}
            for graph, layout in zip(distinct, by_dot(distinct) or [])]


def by_dot(graphs: list) -> Optional[list]:
    """The layouts by Graphviz, or None where it is missing or fails."""
    dot = shutil.which('dot')
    if dot is None:
        return None
    source = ''.join(map(words_of, graphs))
    try:
        ran = subprocess.run([dot, '-Tplain'], input=source, capture_output=True, text=True, timeout=SECONDS)
    except (OSError, subprocess.SubprocessError):
        return None
    parts = ran.stdout.split('\nstop')[:-1]
    if ran.returncode or len(parts) != len(graphs):
        return None
    return [of_plain(part, graph) for part, graph in zip(parts, graphs)]


def words_of(graph: Graph) -> str:
    """A graph in Graphviz's language."""
    lines = ['digraph { graph [ranksep=0.46 nodesep=0.4]; node [shape=box fixedsize=true label=""]; edge [dir=none];']
    lines += [f'{box} [width={wide / 72:.3f} height={high / 72:.3f}];' for box, (wide, high) in enumerate(graph.sizes)]
    lines += [f'{source} -> {target};' for source, target in graph.edges]
    return '\n'.join(lines + ['}', ''])


def of_plain(text: str, graph: Graph) -> dict:
    """A layout out of what Graphviz writes of it: how wide and high it is, the middle of each box, and the way of each
    edge as a path of SVG."""
    ways: dict = {}
    centres, wide, high = {}, 0.0, 0.0

    def place(x: str, y: str) -> tuple:
        """A place, counted from the upper left corner."""
        return round(float(x) * 72, 1), round((high - float(y)) * 72, 1)

    for line in text.strip().split('\n'):
        word, *rest = line.split()
        if word == 'graph':
            wide, high = float(rest[1]), float(rest[2])
        elif word == 'node':
            centres[int(rest[0])] = place(*rest[1:3])
        elif word == 'edge':
            points = [place(*rest[at:at + 2]) for at in range(3, 3 + 2 * int(rest[2]), 2)]
            path = f'M{points[0][0]} {points[0][1]}C' + ' '.join(f'{x} {y}' for x, y in points[1:])
            ways.setdefault((int(rest[0]), int(rest[1])), []).append(path)
    return {'wide': wide * 72, 'high': high * 72, 'centres': [centres[box] for box in range(len(graph.sizes))],
            'ways': [ways[edge].pop(0) for edge in graph.edges]}
