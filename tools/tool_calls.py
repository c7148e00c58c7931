"""Calls of the tools, for their tests and for bench/: as programs, and as modules; and what their tests share."""

import contextlib
import functools
import importlib.machinery
import importlib.util
import io
import subprocess
import sys
import types
import unittest.mock
from pathlib import Path
from typing import Sequence

TOOLS = Path(__file__).resolve().parent
TOP = TOOLS.parent

# The programs that are tried, the folder of the library for C, whether fewer texts of a kind do, and whether what a page says
# of the examples is put there.
GIVEN = types.SimpleNamespace(mir=str(TOP / 'mir'), tables='', library=TOP / 'build', few=False, write=False)

EXAMPLES = sorted(TOP.glob('examples/*.mir'))

THREE_UNITS = '''main: begin
receive n(val)
again: if n <= 0 goto done
x <- twice,(n,int)
call show,(x,int)
n <- n - 1
goto again
done: return n
end
twice: begin
receive a(val)
b <- a + a
return b
end
show: begin
receive a(val)
print a
end
'''

# Comments and names that would be something else in a page or a picture.
ODD = '''|| <script>alert(1)</script> "]; evil -> b0; <!--
script: begin
receive style(val)
if style < 1 goto digraph
print style
digraph: end
'''

BAD = {
    'print 1': 'line 1: unexpected',
    '': 'no unit',
    'main: begin\n?\nend': 'line 2: bad byte',
    'main: begin\nx <- 9223372036854775808\nend': 'line 2: bad number',
    'main: begin\ngoto L\nend': 'line 2: no such label',
    'main: begin\nprint 1\nreceive a(val)\nend': 'line 3: late receive',
    'main: begin\nx <- main,(x,int)\nend': 'line 2: wrong number of arguments',
    'global g\nglobal g\nmain: begin\nend': 'line 2: global named twice',
    ''.join(f'global g{at}\n' for at in range(65)) + 'main: begin\nend': 'line 65: too many globals',
    'global g\nmain: begin\nreceive g(val)\nend': 'line 3: global received',
    'main: begin\nif 1 trap -1\nend': 'line 2: bad trap number',
    'main: begin\nif 1 trap x\nend': 'line 2: unexpected',
    'global': 'line 1: unexpected',
    'global g': 'no unit',
    'main: begin': 'text ends inside a unit',
}


def ran(words: list[str], text: str = '') -> subprocess.CompletedProcess:
    """A finished call, its streams as text."""
    return subprocess.run(words, input=text.encode('latin-1'), capture_output=True, timeout=600)


def fewer(texts: Sequence) -> Sequence:
    """Texts of a kind: where fewer do, each fifth of them."""
    return texts[::5] if GIVEN.few else texts


def tool(name: str) -> str:
    """The path of a tool."""
    return str(TOOLS / name)


@functools.lru_cache(maxsize=None)
def module_of(name: str):
    """A tool as a module, which is a program and no file `.py`."""
    loader = importlib.machinery.SourceFileLoader(name, tool(name))
    made = importlib.util.module_from_spec(importlib.util.spec_from_loader(name, loader))
    loader.exec_module(made)
    return made


def told(name: str, *words: str, text: str = '') -> subprocess.CompletedProcess:
    """What a tool in Python answers, as `ran` has it, where it is called in this process: to start Python takes longer than
    most of what a tool is asked."""
    streams = [io.TextIOWrapper(io.BytesIO(given), encoding='utf-8', newline='\n')
               for given in (text.encode('latin-1'), b'', b'')]
    with unittest.mock.patch.multiple(sys, argv=[name, *words], stdin=streams[0]), \
            contextlib.redirect_stdout(streams[1]), contextlib.redirect_stderr(streams[2]):
        try:
            status = module_of(name).main()
        except SystemExit as end:
            status = end.code
        written = [stream.flush() or stream.buffer.getvalue() for stream in streams[1:]]
    return subprocess.CompletedProcess([name, *words], status or 0, *written)


@functools.lru_cache(maxsize=None)
def stages_of(text: str) -> str:
    """What `mir stages` writes for a text, for which it is asked once."""
    said = ran([GIVEN.mir, 'stages'], text)
    assert said.returncode == 0, said.stderr
    return said.stdout.decode('latin-1')
