"""The control flow of a unit, by instructions and by basic blocks, and its picture in Graphviz's language."""

from typing import Iterator, NamedTuple

from mir_text import Goto, If, Receive, Return, Unit, instruction_text, variables_in


class Edge(NamedTuple):
    """From a place or block to another; `label` says which way of a test it is."""

    source: int
    target: int
    label: str


class Block(NamedTuple):
    """The places `first` up to before `end`, of which the first alone is jumped to."""

    first: int
    end: int


def text_at(unit: Unit, place: int) -> str:
    """The instruction at a place, or the return at the end of the unit."""
    if place == len(unit.instructions):
        return 'end'
    return instruction_text(unit.instructions[place])


def edges_of(unit: Unit, place: int) -> list[Edge]:
    """The edges that leave a place."""
    if place == len(unit.instructions):
        return []
    instruction = unit.instructions[place]
    if isinstance(instruction, Return):
        return []
    if isinstance(instruction, Goto):
        return [Edge(place, unit.labels[instruction.label], '')]
    if isinstance(instruction, If):
        return [Edge(place, unit.labels[instruction.label], 'yes'), Edge(place, place + 1, 'no')]
    return [Edge(place, place + 1, '')]


def reached(unit: Unit) -> list[int]:
    """The places that a path from the first one comes to, in order."""
    seen, waiting = {0}, [0]
    while waiting:
        for edge in edges_of(unit, waiting.pop()):
            if edge.target not in seen:
                seen.add(edge.target)
                waiting.append(edge.target)
    return sorted(seen)


def blocks(unit: Unit) -> list[Block]:
    """The basic blocks of the reached places, in order; receives stand with what follows them."""
    places = reached(unit)
    heads = {0}
    for place in places:
        leaving = edges_of(unit, place)
        falls_through = len(leaving) == 1 and leaving[0].target == place + 1 and not isinstance(
            unit.instructions[place], Goto)
        heads |= set() if falls_through else {edge.target for edge in leaving}
    found: list[Block] = []
    for place in places:
        if place in heads or not found or found[-1].end != place:
            found.append(Block(place, place + 1))
        else:
            found[-1] = Block(found[-1].first, place + 1)
    return found


def single(unit: Unit) -> list[Block]:
    """Each reached place as a block of its own."""
    return [Block(place, place + 1) for place in reached(unit)]


def block_edges(unit: Unit, parts: list[Block]) -> Iterator[Edge]:
    """The edges between blocks, by their numbers."""
    number = {block.first: at for at, block in enumerate(parts)}
    for at, block in enumerate(parts):
        for edge in edges_of(unit, block.end - 1):
            yield Edge(at, number[edge.target], edge.label)


def read_before_set(unit: Unit, block: Block) -> tuple[set[str], set[str]]:
    """The variables that a block reads before it sets them, and those that it sets."""
    read: set[str] = set()
    written: set[str] = set()
    for place in range(block.first, min(block.end, len(unit.instructions))):
        reads, sets = variables_in(unit.instructions[place])
        read |= reads - written
        written |= sets
    return read, written


def live_blocks(unit: Unit, parts: list[Block]) -> list[set[str]]:
    """For each block which variables live before it: some path from it reads them unset."""
    edges = list(block_edges(unit, parts))
    accesses = [read_before_set(unit, block) for block in parts]
    live = [read for read, _ in accesses]
    changed = True
    while changed:
        changed = False
        for edge in reversed(edges):
            more = live[edge.target] - accesses[edge.source][1] - live[edge.source]
            live[edge.source] |= more
            changed |= bool(more)
    return live


def live_edges(unit: Unit, parts: list[Block], names: frozenset) -> list[frozenset]:
    """For each edge between blocks which of these variables live on it."""
    live = live_blocks(unit, parts)
    return [names & live[edge.target] for edge in block_edges(unit, parts)]


def quoted(text: str) -> str:
    """A text as a string of Graphviz's language."""
    return '"' + text.replace('\\', '\\\\').replace('"', '\\"') + '"'


def lines_of(unit: Unit, block: Block) -> list[str]:
    """The lines of a block, with their labels."""
    names = {place: name for name, place in reversed(list(unit.labels.items()))}
    return [f'{names[place]}: {text_at(unit, place)}' if place in names else text_at(unit, place)
            for place in range(block.first, block.end)]


def picture(unit: Unit, parts: list[Block]) -> str:
    """The control-flow graph of a unit in Graphviz's language; the lines of a block are set to the left."""
    lines = [f'digraph {quoted(unit.name)} {{', '  node [shape=box, fontname="monospace", margin="0.12,0.06"];',
             '  edge [fontname="monospace"];']
    for at, block in enumerate(parts):
        label = quoted('\n'.join(lines_of(unit, block)) + '\n').replace('\n', '\\l')
        lines.append(f'  b{at} [label={label}];')
    for edge in block_edges(unit, parts):
        label = f' [label={quoted(edge.label)}]' if edge.label else ''
        lines.append(f'  b{edge.source} -> b{edge.target}{label};')
    return '\n'.join(lines + ['}', ''])
