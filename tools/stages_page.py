"""The page of a text of stages: what each pass did to a program; and that of a chain of passes, which is shown likewise.
`show` writes them; what is shown is made by the page."""

import html
import re
import subprocess

import flow
from layouts import Graph, given_layouts, page_with
from mir_text import Fault, Stage, Unit, program

# The parts of the script, in the order in which they stand on the page.
SCRIPTS = ('units.js', 'layers.js', 'compare.js', 'drawing.js', 'scroll.js', 'loading.js', 'stages.js')

# How wide a letter and how high a line is, and what a box has beside and over its lines, as in `drawing.js`.
LETTER, LINE, SIDE, OVER = 8.5, 20, 10, 5


def graph_of(unit: Unit) -> Graph:
    """The graph of a unit by blocks, as the page asks for its layout."""
    parts = flow.blocks(unit)
    lines = [flow.lines_of(unit, part) for part in parts]
    sizes = [(LETTER * max(map(len, those)) + 2 * SIDE, LINE * len(those) + 2 * OVER) for those in lines]
    return Graph(sizes, [(edge.source, edge.target) for edge in flow.block_edges(unit, parts)])


def called(mir: str, words: list[str], text: str) -> subprocess.CompletedProcess:
    """What `mir` does with these words and a text."""
    try:
        return subprocess.run([mir, *words], input=text.encode('latin-1'), capture_output=True)
    except OSError as error:
        raise Fault(f'{mir}: {error.strerror}') from None


def report_of(stage: Stage, words: list[str], mir: str) -> dict:
    """What a run of a stage reports, with the evaluations that it counts."""
    ran = called(mir, ['run', *words], stage.text)
    told = (ran.stdout or ran.stderr).decode('latin-1')
    evaluations = re.findall(r'^evals (\d+)$', told, re.MULTILINE)
    return {'stage': stage.name, 'evaluations': evaluations[-1] if evaluations else '-', 'report': told}


def page_of(text: str, found: list[Stage], name: str, words: list[str], mir: str, reasons: str = '') -> str:
    """The whole page of a text of stages, of a program whose name may be empty. With words of a run it has the reports
    of the source and of the result; with the name of a page of tables its marked lines lead there."""
    title = f'Stages of {name}' if name else 'Stages'
    rows = [report_of(stage, words, mir) for stage in (found[0], found[-1])] if words else []
    data = {'text': text, 'title': title, 'runs': [{'words': ' '.join(words), 'rows': rows}] if words else [],
            'reasons': reasons, 'layouts': given_layouts([graph_of(unit) for stage in found for unit in stage.units])}
    return page_with('stages', html.escape(title), data, SCRIPTS)


def chain(text: str, words: list[str], mir: str) -> list[Stage]:
    """A program, and what the first of these passes makes of it, the first two, and so on."""
    found = []
    for count in range(len(words) + 1):
        made = called(mir, ['passes', *words[:count]], text)
        if made.returncode:
            told = made.stderr.decode('latin-1').strip()
            raise Fault('--passes has a word of no pass, or more than 64' if told.startswith('usage') else told)
        target = made.stdout.decode('latin-1')
        found.append(Stage(words[count - 1] if count else 'source', target, program(target)))
    return found


def page_of_chain(found: list[Stage], name: str, words: list[str], mir: str) -> str:
    """The whole page of a chain of passes on a program. With words of a run it has the report of the source and of what
    each pass makes, and beside each pass how many operators the run evaluates after it."""
    title = f'Passes of {name}' if name else 'Passes'
    rows = [report_of(stage, words, mir) for stage in found] if words else []
    data = {'text': ''.join(f'|| {stage.name}\n{stage.text}' for stage in found), 'title': title,
            'runs': [{'words': ' '.join(words), 'rows': rows}] if words else [],
            'notes': [row['evaluations'] for row in rows],
            'layouts': given_layouts([graph_of(unit) for stage in found for unit in stage.units])}
    return page_with('stages', html.escape(title), data, SCRIPTS)
