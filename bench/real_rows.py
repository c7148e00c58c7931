"""What became of the programs of bench/real.py: a line of JSON for each C file, written as soon as it was judged, so that
a call that is cut off goes on where it was."""

import hashlib
import json
from dataclasses import asdict, dataclass, field
from pathlib import Path

from native_times import Prepared, Times


@dataclass
class Outcome:
    """What became of a program: `same`, `different` or why it is not compared; the operators of its runs; whether in one of
    them what `thorough` makes evaluates more than what `optimise` makes; and whether csmith's arithmetic is called."""

    name: str
    state: str
    shown: list[str] = field(default_factory=list)
    evals: dict[str, int] = field(default_factory=dict)
    is_long: bool = False
    is_more: bool = False
    is_called: bool = False

    def has_both(self) -> bool:
        """Whether the operators of all its runs were counted under `optimise` and under `thorough`."""
        return {'optimise', 'thorough'} <= set(self.evals)


class Rows:
    """The lines of a file that are of one `mir`, by the names of the C files that they are of."""

    def __init__(self, path: Path, mir: Path):
        """Reads what stands in the file. Lines of another `mir` stay there and count for nothing, and so does a last one
        that was cut off."""
        self.path, self.mir = path, hashlib.sha256(mir.read_bytes()).hexdigest()
        self.found: dict[str, list[Outcome]] = {}
        self.prepared: dict[str, list[Prepared]] = {}
        self.times: dict[str, list[Times]] = {}
        for line in path.read_text(encoding='utf-8').splitlines() if path.exists() else ():
            try:
                row = json.loads(line)
            except ValueError:
                continue
            if row['mir'] == self.mir and 'outcomes' in row:
                self.found[row['file']] = [Outcome(**each) for each in row['outcomes']]
            elif row['mir'] == self.mir and 'prepared' in row:
                self.prepared[row['file']] = [Prepared(**each) for each in row['prepared']]
            elif row['mir'] == self.mir:
                self.times[row['file']] = [Times(**each) for each in row['times']]

    def keep(self, name: str, outcomes: list[Outcome]) -> None:
        """Writes down what became of a file's programs, if it was judged."""
        if outcomes:
            self.found[name] = outcomes
            self.write(name, 'outcomes', [asdict(each) for each in outcomes])

    def keep_prepared(self, name: str, found: list[Prepared]) -> None:
        """Writes down what is to be measured of a file's programs, if they were made."""
        if found:
            self.prepared[name] = found
            self.write(name, 'prepared', [each._asdict() for each in found])

    def keep_times(self, name: str, times: list[Times]) -> None:
        """Writes down the times of a file's programs."""
        self.times[name] = times
        self.write(name, 'times', [each._asdict() for each in times])

    def write(self, name: str, what: str, found: list[dict]) -> None:
        """Writes a line."""
        with open(self.path, 'a', encoding='utf-8') as file:
            print(json.dumps({'mir': self.mir, 'file': name, what: found}), file=file)
