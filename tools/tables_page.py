"""The page of a text of tables: what the passes find out, and why code moves. `show` writes it."""

import html
import subprocess

from layouts import given_layouts, page_with
from mir_text import Fault
from tables_graphs import graphs_of, laid
from tables_text import read_all

# The parts of the script, in the order in which they stand on the page: those that show nothing, and the others.
MODEL = ('layers.js', 'tables.js', 'beside.js', 'boxes.js', 'graphs.js', 'passes.js', 'columns.js', 'paths.js',
         'bits.js', 'constants.js', 'runs.js', 'verdicts.js', 'definitions.js')
SCRIPTS = (*MODEL, 'pictures.js', 'scroll.js', 'loading.js', 'show.js', 'grid.js', 'quizzing.js', 'running.js',
           'contents.js', 'reader.js')

# As many prints of a report stand on the page: no walk has more steps.
PRINTS = 20_000


def unit_text(unit: dict, stage: dict) -> str:
    """The text of a unit at a stage: the layout of its graph, with numbers of nodes as labels."""
    lines = laid(stage)
    targets = {target for _, _, target in lines} - {None}
    text = f'{unit["name"]}: begin\n'
    for number, words, target in lines:
        if number in targets:
            targets.remove(number)
            text += f'n{number}:\n'
        if words is not None:
            text += words + ('\n' if target is None else f' n{target}\n')
    return text + 'end\n'


def program_text(units: list[dict], at: int) -> str:
    """The text of a program where its first unit is at its stage of this number. A unit with fewer rounds is at its
    last one where the first unit has more."""
    stage = units[0]['stages'][at]
    text = ''.join(f'global {name}\n' for name in stage['vars'][:stage['shared']])
    for unit in units:
        there = next((one for one in unit['stages'] if one['name'] == stage['name']), unit['stages'][-2])
        text += unit_text(unit, there)
    return text


def report_of(text: str, words: list[str], mir: str) -> list[str]:
    """The lines of the report that `mir run` writes of a program, or the one that it has for too many frames."""
    try:
        ran = subprocess.run([mir, 'run', *words], input=text.encode('latin-1'), capture_output=True)
    except OSError as error:
        raise Fault(f'{mir}: {error.strerror}') from None
    if ran.returncode not in (0, 3, 4, 5):
        raise Fault(ran.stderr.decode('latin-1').strip().split('\n')[0])
    lines = (ran.stdout or ran.stderr).decode('latin-1').splitlines()
    return lines[:-2][:PRINTS] + lines[-2:]


def run_of(units: list[dict], words: list[str], mir: str) -> dict:
    """A run with its words and, for each stage of the first unit, the report of the program there."""
    stages = units[0]['stages']
    texts = [program_text(units, at) for at in range(len(stages))]
    reports = {text: report_of(text, words, mir) for text in dict.fromkeys(texts)}
    inputs = [str(int(word)) for word in words[1:]]
    return {'steps': int(words[0]), 'inputs': inputs, 'reports': [reports[text] for text in texts]}


def page_of(text: str, name: str, words: list[str], mir: str) -> str:
    """The whole page of a text of tables, or of several one after another, of several commands. With words of a run it
    offers this run of the first, and has what `mir run` reports."""
    commands = read_all(text)
    data = {'name': name, 'text': text, 'runs': [run_of(commands[0], words, mir)] if words else [],
            'layouts': given_layouts([graph for units in commands for graph in graphs_of(units)])}
    return page_with('tables', html.escape(name), data, SCRIPTS)
