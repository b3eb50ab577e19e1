"""Reads the shortcuts of `shortcuts.txt`, and the edits that turn each one off."""

import sys
from dataclasses import dataclass, field
from pathlib import Path

BENCH = Path(__file__).resolve().parent
ROOT = BENCH.parent
sys.path.append(str(ROOT))

from tests.mutants.mutant_files import Pair  # noqa: E402

EDITS = BENCH / "shortcuts.txt"
WORDS = ("shortcut", "call", "file", "after", "old", "new")


@dataclass
class Shortcut:
    """A shortcut: the calls that it serves, and the edits that turn it off."""

    name: str
    calls: list = field(default_factory=list)
    pairs: list = field(default_factory=list)

    def texts(self):
        """Returns the edited files by their paths. `ValueError` if an old text doesn't occur once."""
        found = {}
        for pair in self.pairs:
            text = found.get(pair.file) or (ROOT / pair.file).read_text(encoding="utf-8")
            found[pair.file] = pair.applied(text)
        return found


def shortcuts(file=EDITS):
    """Returns the shortcuts of a file."""
    found, parts = [], {}
    for line in file.read_text(encoding="utf-8").splitlines():
        word, _, rest = line.partition(": ")
        if not line or line.startswith("#"):
            continue
        if word not in WORDS:
            raise ValueError(f"a line starts with none of {', '.join(WORDS)}: {line}")
        if word == "shortcut":
            found.append(Shortcut(rest))
        elif word == "call":
            found[-1].calls.append(rest)
        elif word == "file":
            parts = {"file": rest}
        elif word == "new":
            found[-1].pairs.append(Pair(new=rest, **parts))
            parts = {"file": parts["file"]}
        else:
            parts[word] = rest
    return found
