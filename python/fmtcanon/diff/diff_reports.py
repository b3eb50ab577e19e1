"""Reports on a file that changed: the verdicts on its places and, where it is compiled, whether the new calls fit."""

from dataclasses import replace
from typing import Iterator, Mapping, NamedTuple, Optional, Sequence

from ..compiling.git import FileChange
from ..fitting.reporting import KIND, RULES as OF_CALLS, SIZE, with_source
from ..formats.verdicts import PairKind, types_of
from ..frame.command_line import model_names
from ..frame.findings import ERROR, WARNING, Finding, leveled
from ..models import Model
from ..source.places import Place, Source
from . import pair_judging
from .call_fitting import Compiled, Fitting
from .pair_judging import is_judged, judge, may_be_format
from .pairing import Pair, Pairing, paired

RULES = {**pair_judging.RULES, **{it: OF_CALLS[it] for it in (SIZE, KIND)}}
FAULTS = (*pair_judging.FAULTS, SIZE, KIND)


class DiffReport(NamedTuple):
    """What is found in a file; how many places came and went; how many of those that came are formats that a call may
    have, and of how many it was judged; and why the file couldn't be read, if so.
    """

    findings: Sequence[Finding] = ()
    came: int = 0
    went: int = 0
    formats: int = 0
    judged: int = 0
    error: str = ""


class DiffQuestion(NamedTuple):
    """What is asked of each file: the data models, the kinds of findings that are errors, whether findings are to have
    excerpts, the index of the format of functions that the options name, or None if they take none, and what says
    whether calls fit.
    """

    models: Sequence[Model]
    fail_on: Sequence[str] = FAULTS
    is_shown: bool = False
    functions: Mapping[bytes, Optional[int]] = {}
    fitting: Optional[Fitting] = None


def report_on(change: FileChange, question: DiffQuestion) -> DiffReport:
    """Judges the places of a file that changed."""
    if change.error:
        return DiffReport(error=change.error)
    if change.why_not:
        return DiffReport([not_compared(change, question)])
    old, new = (Source(b"" if it is None else it) for it in (change.old, change.new))
    if change.old is None or change.new is None:
        pairs = Pairing([], new.read().places, old.read().places)
    else:
        pairs = paired(old, new)
    changed = [it for it in pairs.changed if is_judged(*it, question.functions)]
    added = [it for it in pairs.added if it.has_specification() and may_be_format(it, question.functions)]
    found = Judge(change.name, question)
    findings = list(found.of_pairs(changed))
    if not question.fitting or not added:
        return DiffReport(findings, pairs.came, pairs.went)
    findings += found.of_added(added)
    judged = sum(bool(found.compiled.uses_in(*it.span())) for it in added)
    return DiffReport(findings, pairs.came, pairs.went, len(added), judged)


def report_without(change: FileChange, how: str) -> DiffReport:
    """Reports on a file that ends each process that reads it, as a crash of libclang does."""
    return DiffReport(error=f"{change.name}: it can't be read: the process that read it {how}")


def not_compared(change: FileChange, question: DiffQuestion) -> Finding:
    """Returns the finding of something that changed and isn't compared."""
    kind = PairKind.UNJUDGED.value
    level = ERROR if kind in question.fail_on else WARNING
    return Finding(change.name, 0, None, kind, level, change.why_not, models=model_names(question.models))


class Judge:
    """Judges the places of a file."""

    def __init__(self, name: str, question: DiffQuestion) -> None:
        self.name, self.question = name, question
        self.asked: Optional[Compiled] = None

    @property
    def compiled(self) -> Compiled:
        """What the compile commands say of the new file, once it is needed."""
        if self.asked is None:
            assert self.question.fitting
            self.asked = self.question.fitting.of(self.name)
        return self.asked

    def of_pairs(self, pairs: Sequence[Pair]) -> Iterator[Finding]:
        """Yields the findings on pairs of places."""
        for pair in pairs:
            names = self.defined(pair)
            models = [Model.LP64] if names else self.question.models
            finding = judge(self.name, pair, models, self.question.fail_on, self.question.is_shown)
            if finding and self.question.fitting and finding.kind in (PairKind.TYPES.value, PairKind.UNJUDGED.value):
                finding = self.noted(pair, finding)
            if finding and names:
                listed = b" and ".join(names).decode(errors="backslashreplace")
                finding = replace(finding, message=f"{finding.message}; with {listed} as it is compiled here")
            if finding:
                yield finding

    def defined(self, pair: Pair) -> Sequence[bytes]:
        """Gives a pair of places the macros that only the compiler knows, with their text in LP64, if it knows all.
        Returns their names.
        """
        names = sorted(pair[0].unknown_names() | pair[1].unknown_names())
        if not names or not self.question.fitting or Model.LP64 not in self.question.models:
            return ()
        macros = self.question.fitting.macros_of(self.name)
        if not macros.keys() >= set(names):
            return ()
        for place in pair:
            place.define(macros, Model.LP64)
        return names

    def noted(self, pair: Pair, finding: Finding) -> Optional[Finding]:
        """Returns a finding with what is known of the new call, or None if no call has it as its format."""
        texts = [it.text(Model.LP64)[0] for it in pair]
        if finding.kind == PairKind.UNJUDGED.value:
            return None if None not in texts and self.compiled.is_not_format(*pair[1].span()) else finding
        types = [types_of(it or b"", Model.LP64) for it in texts]
        return self.compiled.noted(finding, types[0], types[1])

    def of_added(self, places: Sequence[Place]) -> Iterator[Finding]:
        """Yields the errors that fmtcanon-check finds in places that were added."""
        for place in places:
            for one in self.compiled.errors_in(*place.span()):
                found = leveled(replace(one, file=self.name), self.question.fail_on)
                yield with_source(found) if self.question.is_shown else found
