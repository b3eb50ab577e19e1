"""Writes what is proposed, by the verified rewriting of fmtcanon-replace."""

from typing import Any, Dict, List, Sequence, Union

from ..compiling.closure import Wrappers
from ..compiling.functions import Functions
from ..compiling.sources import Files, Name
from ..fitting.checking import Answer, Found
from ..fitting.reporting import RULES, as_fixed, as_not_written, shown_file, with_source
from ..frame.findings import Finding, leveled
from ..models import Model
from ..rewriting.rewritten_files import Change
from ..rewriting.rewriter import Report, Rewriter, Scanned, change_to
from ..source.respelling import runs_in
from .check_options import NAME


class Fixer(Rewriter):
    """Replaces formats by those that fit everywhere. All findings of a file are reported with it, fixed or not."""

    name, rules = NAME, RULES

    def __init__(self, options: Any, files: Files, answers: Sequence[Answer], wrappers: Wrappers) -> None:
        found = wrappers if options.attribute else {}
        functions = Functions(dict(options.function), options.attribute, found, options.attribute)
        super().__init__(files, functions, [Model.LP64], options.diff)
        self.fail_on = options.fail_on
        self.answers = {shown_file(it.file): it for it in answers}

    def names(self) -> List[Name]:
        return [Name(shown, it.file) for shown, it in self.answers.items()]

    def scanned(self, name: Name) -> Union[Scanned, Report]:
        """Reads a file only if there is something to write."""
        return super().scanned(name) if self.answers[name.shown].fixes else self.report(name.shown, {})

    def changes_in(self, name: Name, source: bytes) -> List[Change]:
        fixes = self.answers[name.shown].fixes
        changes = []
        for place in runs_in(source):
            text, why = fixes.get(place.start, (None, ""))
            if text is not None:
                changes.append(change_to(place, text))
            elif why:
                changes.append(Change(place, place.source, why))
        return changes

    def findings_of(self, name: str, source: bytes, changes: Sequence[Change]) -> Sequence[Finding]:
        return self.report(name, {it.place.start: it.why_left for it in changes}).findings

    def left(self, name: str, why: str) -> Report:
        return self.report(name, {it: why for it in self.answers[name].fixes})

    def report(self, name: str, left: Dict[int, str]) -> Report:
        """Returns the report on a file, by why the places with new texts are left; an empty reason if one isn't."""
        found = [with_fix(it, left) for it in self.answers[name].found.values()]
        findings = [with_source(leveled(it, self.fail_on)) for it in found]
        return Report(name, findings)


def with_fix(found: Found, left: Dict[int, str]) -> Finding:
    """Returns a finding, or that it was fixed, or why it wasn't."""
    if found.place is None or found.place not in left:
        return found.finding
    why = left[found.place]
    return as_not_written(found.finding, why) if why else as_fixed(found.finding)
