"""Judges the places of files, several files at a time. Nothing is replaced before all are judged."""

import difflib
import os
from concurrent.futures import ThreadPoolExecutor
from typing import List, Mapping, NamedTuple, Optional, Sequence, Union

from ..compiling.functions import Functions
from ..compiling.left import Left
from ..compiling.sources import Files, Name
from ..compiling.stand_ins import Original, original
from ..compiling.targets import check_model
from ..frame.findings import Finding
from ..frame.progress import Progress
from ..models import Model
from ..source.respelling import LiteralRun, respelled
from .rewritten_files import Change, File
from .units import Units, units_of


class Report(NamedTuple):
    """What is found in a file, the file and its new bytes, its unified diff, whether it wasn't judged, and whether
    there was an error.
    """

    name: str
    findings: Sequence[Finding] = ()
    original: Optional[Original] = None
    after: bytes = b""
    diff: bytes = b""
    is_skipped: bool = False
    error: str = ""


class Scanned(NamedTuple):
    """A file that was read, with what is to be done with its places."""

    name: str
    original: Original
    changes: List[Change]

    def is_open(self) -> bool:
        """Returns whether a place may be replaced."""
        return any(not it.why_left for it in self.changes)


class Rewriter:
    """Changes places in files, several files at a time. A kind of it says which places, and how each is reported."""

    name = ""
    rules: Mapping[str, str] = {}

    def __init__(self, files: Files, functions: Functions, models: Sequence[Model], with_diff: bool) -> None:
        self.files, self.functions, self.models, self.with_diff = files, functions, models, with_diff
        self.units = Units([])
        self.progress = Progress()

    def changes_in(self, name: Name, source: bytes) -> List[Change]:
        """Returns the places of a source about which something is to be said."""
        raise NotImplementedError

    def findings_of(self, name: str, source: bytes, changes: Sequence[Change]) -> Sequence[Finding]:
        """Returns what is said of the places of a file that were judged."""
        raise NotImplementedError

    def left(self, name: str, why: str) -> Report:
        """Returns the report on a file that is left as a whole."""
        raise NotImplementedError

    def reports(self, names: Sequence[Name], pool: ThreadPoolExecutor) -> List[Report]:
        """Returns what is to be reported of each file, and done with it."""
        scanned = list(pool.map(self.scanned, names))
        if any(isinstance(it, Scanned) and it.is_open() for it in scanned):
            commands = [it for found in self.files.database.values() for it in found]
            self.units = units_of(commands, pool.map)
        self.progress.expect(len(scanned))
        return list(self.progress.each(pool.map(self.report_on, scanned)))

    def scanned(self, name: Name) -> Union[Scanned, Report]:
        """Reads a file, and returns its places about which something is to be said."""
        try:
            read = original(name.path)
        except OSError as error:
            return Report(name.shown, error=f"{name.shown}: {error.strerror or error}")
        changes = self.changes_in(name, read.source)
        return Scanned(name.shown, read, changes) if changes else Report(name.shown)

    def report_on(self, scanned: Union[Scanned, Report]) -> Report:
        """Judges the places of a file."""
        if isinstance(scanned, Report):
            return scanned
        name, read, changes = scanned
        after = read.source
        try:
            if scanned.is_open():
                after = self.judged(read, changes)
        except Left as left:
            return self.left(name, str(left))
        except OSError as error:
            return Report(name, error=f"{name}: {error.strerror or error}")
        findings = self.findings_of(name, read.source, changes)
        diff = unified_diff(name, read.source, after) if self.with_diff else b""
        return Report(name, findings, read if after != read.source else None, after, diff)

    def judged(self, read: Original, changes: List[Change]) -> bytes:
        """Returns a file with what is right replaced. Raises Left if that is nothing."""
        commands = self.files.commands(read.path)
        self.units.check(read.path)
        for command in commands:
            check_model(command, self.models)
        return File(read, changes, self.functions).result(commands)


def change_to(place: LiteralRun, text: bytes) -> Change:
    """Returns the change of a place to another text."""
    source = respelled(place, text)
    if source is None:
        return Change(place, place.source, "a line break within its literals would be lost")
    return Change(place, source)


def unified_diff(file: str, before: bytes, after: bytes) -> bytes:
    """Returns the changes of a file as a unified diff."""
    name = os.fsencode(file)
    lines = difflib.diff_bytes(difflib.unified_diff, before.splitlines(True), after.splitlines(True), name, name)
    return b"".join(it if it.endswith(b"\n") else it + b"\n\\ No newline at end of file\n" for it in lines)
