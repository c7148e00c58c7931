"""The library for C as functions of Python, by ctypes.

    import mir
    mir.optimise('main: begin\\nx <- 2 + 3\\nreturn x\\nend\\n')    'main: begin\\nreturn 5\\nend\\n'
    mir.optimise('main: begin\\ngoto L\\nend\\n')                  mir.Refused: line 2: no such label

It loads `libmir.so` from the folder that MIR_LIBRARY names, from that of this file, or from `build/`, where
`tools/build --library` leaves it.
"""

import ctypes
import functools
import os
import re
from pathlib import Path
from typing import Optional

HERE = Path(__file__).resolve().parent
FOLDERS = (os.environ.get('MIR_LIBRARY', HERE), HERE, HERE.parent / 'lib', HERE.parent / 'build')


class Refused(ValueError):
    """Words or a text that `mir` refuses, or that there was no memory: the status, and the line of the text or None."""

    def __init__(self, status: int, message: str):
        super().__init__(message)
        found = re.match(r'line (\d+): ', message)
        self.status, self.line = status, int(found[1]) if found else None


@functools.lru_cache(None)
def library() -> ctypes.CDLL:
    """The shared library, loaded once."""
    for folder in FOLDERS:
        if (Path(folder) / 'libmir.so').exists():
            return ctypes.CDLL(str(Path(folder) / 'libmir.so'))
    raise FileNotFoundError(f'there is no libmir.so in {", ".join(dict.fromkeys(map(str, FOLDERS)))}')


def asked(name: str, text: str, words: tuple, room: int = 1 << 16) -> str:
    """The output of a call of the library with these words and this text."""
    texts = [b''.join(str(word).encode() + b'\0' for word in words), text.encode('utf-8', 'surrogateescape')]
    out, line, lengths = ctypes.create_string_buffer(room), ctypes.create_string_buffer(200), (ctypes.c_size_t * 2)()
    given = [it for one in texts for it in (one, ctypes.c_size_t(len(one)))]
    status = getattr(library(), name)(*given, out, ctypes.c_size_t(room), ctypes.byref(lengths, 0), line,
                                      ctypes.c_size_t(200), ctypes.byref(lengths, ctypes.sizeof(ctypes.c_size_t)))
    if status & 255 not in (0, 3, 4):
        raise Refused(status & 255, line.raw[:lengths[1]].decode('utf-8', 'replace').strip())
    if lengths[0] > room:
        return asked(name, text, words, lengths[0])
    return out.raw[:lengths[0]].decode('utf-8', 'surrogateescape')


def call(text: str, *words) -> str:
    """What `mir` writes for a text and these words."""
    return asked('mir_call', text, words)


def optimise(text: str) -> str:
    """The text of the program after all passes."""
    return call(text, 'optimise')


def run(text: str, steps: int, *inputs: int) -> str:
    """The report of a run of at most so many steps with these inputs."""
    return call(text, 'run', steps, *inputs)


def tables(text: str, word: Optional[str] = None) -> str:
    """What each pass finds out about each node, as `mir_tables` writes it with no word, or with the word that is given."""
    return asked('mir_tables_call', text, () if word is None else (word,))
