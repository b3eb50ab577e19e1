"""The baseline: a file of findings that are known, so that only others are reported.

A finding is known by its file, its kind, its call, its directive, and what is wrong on which platforms, and by how many
there are: not by its line, which moves, nor by its message, which depends on the options and the version.
"""

import collections
import json
import os
from pathlib import Path
from typing import Any, Counter, Dict, Iterable, Set, Tuple

from ..fitting.judging import Fit
from ..fitting.reporting import SILENT
from ..frame.findings import Finding
from ..frame.interrupting import temporary_folder
from ..source.files import Unreadable, read_file

# The version of the form of the file.
FORM = 2
NAMES = ("file", "kind", "function", "macro", "format", "directive", "type", "wrong")
COUNT = "count"
Entry = Tuple[Any, ...]


class Baseline:
    """The findings that a file has, and those of a run. If there is no file, or to update it, the run is recorded."""

    def __init__(self, path: str, is_update: bool) -> None:
        self.path, self.folder = path, os.path.dirname(os.path.realpath(path))
        self.is_there = os.path.lexists(path)
        self.is_recorded = is_update or not self.is_there
        if not os.path.isdir(self.folder):
            raise Unreadable(f"{path}: there is no folder for it")
        self.known = self.read() if self.is_there else collections.Counter()
        self.missing = self.known.copy()
        self.found: Counter[Entry] = collections.Counter()
        # The files that were judged as a whole.
        self.judged: Set[str] = set()

    def read(self) -> Counter[Entry]:
        try:
            found = json.loads(read_file(self.path, is_given=True).data)
            if found["form"] != FORM:
                raise ValueError(f"its form is {found['form']!r}, and not {FORM}")
            return collections.Counter({tuple(it.get(name) for name in NAMES): it[COUNT] for it in found["findings"]})
        except OSError as error:
            raise Unreadable(f"{self.path}: {error.strerror or error}") from error
        except (ValueError, TypeError, KeyError, AttributeError) as error:
            raise Unreadable(f"{self.path} isn't a baseline: {error!r}") from error

    def name_of(self, file: str) -> str:
        """Returns the name of a file as seen from the folder of the baseline."""
        return os.path.relpath(os.path.realpath(file), self.folder)

    def add_judged(self, file: str) -> None:
        self.judged.add(self.name_of(file))

    def is_new(self, finding: Finding) -> bool:
        """Returns whether a finding isn't known, and notes it."""
        if finding.kind in SILENT:
            return True
        # The uses of a macro may have several formats.
        details = {**finding.details, "format": None} if "macro" in finding.details else finding.details
        fits = {name: it["fit"] for name, it in details.get("platforms", {}).items()}
        wrong = ", ".join(f"{name}: {it}" for name, it in fits.items() if it != Fit.EQUAL.value) or None
        entry = (self.name_of(finding.file), finding.kind, *(details.get(it) for it in NAMES[2:-1]), wrong)
        self.found[entry] += 1
        self.missing[entry] -= 1
        return self.missing[entry] < 0

    def end(self) -> str:
        """Records the run if it is to be, and returns what is said of that or of what isn't there any more."""
        if self.is_recorded:
            # What wasn't judged stays as it is; so does what a header has in other units.
            kept = {it: count for it, count in self.known.items() if it[0] not in self.judged}
            self.write({**kept, **{it: max(count, kept.get(it, 0)) for it, count in self.found.items()}})
            return f"{self.path}: {sum(self.found.values())} recorded"
        gone = sum(count for it, count in self.missing.items() if count > 0 and it[0] in self.judged)
        return f"{self.path}: {gone} not there any more (--update-baseline)" if gone else ""

    def write(self, counts: Dict[Entry, int]) -> None:
        """Writes the file as a whole: a new one only if none is there by now."""
        text = text_of(counts).encode("utf-8", "surrogateescape")
        if not self.is_there:
            with open(self.path, "xb") as stream:
                stream.write(text)
            return
        with temporary_folder(prefix=".fmtcanon-", dir=self.folder) as folder:
            made = Path(folder, "baseline")
            made.write_bytes(text)
            made.chmod(os.stat(self.path).st_mode & 0o777)
            os.replace(made, os.path.realpath(self.path))


def text_of(counts: Dict[Entry, int]) -> str:
    """Returns the text of a baseline: a line for each finding, sorted, so that versions of it can be compared."""
    listed = sorted(counts.items(), key=lambda it: tuple(map(str, it[0])))
    lines = [json.dumps({**given(entry), COUNT: count}, ensure_ascii=False) for entry, count in listed]
    return f'{{"form": {FORM}, "findings": [\n' + ",\n".join(lines) + "\n]}\n"


def given(entry: Iterable[Any]) -> Dict[str, Any]:
    return {name: it for name, it in zip(NAMES, entry) if it is not None}
