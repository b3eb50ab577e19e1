"""Checks a file as each of its compile commands compiles it."""

import collections
import functools
from dataclasses import replace
from typing import Any, Counter, Dict, FrozenSet, Hashable, Iterator, List, NamedTuple, Optional, Sequence, Tuple

from ..compiling.calls import Call
from ..compiling.compile_commands import CompileCommand
from ..compiling.left import Left, own_trouble
from ..compiling.platforms import LLP64
from ..frame.findings import NOTE, WARNING, Finding
from ..models import Model
from . import reporting
from .composing import is_composed
from .fixing import WRONG, Fixes, fixes_of, merged
from .judging import ErrnoFormat, Fault, Judged, judged
from .locating import Located, located
from .fault_macros import Macros
from .proposals import proposal
from .reporting import COMPOSED, ERRNO, LOST, RANK, SIGN, SIZE, UNREAD, UNUSED, Spot
from .silencing import Silences
from .unit import Settings, Unit


class Question(NamedTuple):
    """What is asked: the data models, the kinds of findings and of fixes that only an option adds, and how units are
    read.
    """

    models: Sequence[Model]
    added: Sequence[str]
    settings: Settings


class JudgedUnit:
    """A unit of a file as it was judged, where its formats are, and the comments that silence what is found."""

    def __init__(self, unit: Unit, result: Judged, question: Question, silences: Silences) -> None:
        self.unit, self.result, self.question, self.silences = unit, result, question, silences

        self.spots: Dict[Hashable, Spot] = {}

    @functools.cached_property
    def models(self) -> Sequence[Model]:
        """The data models that are asked about, without that of 64-bit Windows among others if the unit can't be there.
        """
        asked = self.question.models
        rest = [it for it in asked if it is not LLP64.model]
        return rest if rest and len(rest) < len(asked) and self.unit.is_abroad() else asked

    @functools.cached_property
    def where(self) -> Optional[Located]:
        return located(self.unit)

    @functools.cached_property
    def macros(self) -> Macros:
        return Macros(self.unit.definitions(), self.unit.command.folder, self.silences.texts)

    def spot_of(self, fault: Fault) -> Spot:
        key = fault.key, fault.format, fault.number, fault.span.start
        if key not in self.spots:
            self.spots[key] = reporting.spot_of(fault, self.where, lambda it: self.macros.of(it))
        return self.spots[key]

    def format_lines(self, fault: Fault) -> Iterator[Tuple[str, int, int]]:
        """Yields the lines of the literals of a fault's format, and of the definitions of macros that may have them."""
        file, line = fault.call.formats[fault.format].place
        yield file, line, line
        pieces = self.where.pieces_of(fault) if self.where else []
        for piece in pieces:
            first = piece.place.line
            yield self.unit.command.file, first, first + piece.place.source.count(b"\n")
        yield from () if pieces else self.macros.lines_with(fault)

    def is_silenced(self, fault: Fault, kind: str) -> bool:
        """Returns whether a comment at the directive or at the call silences a finding."""
        spot = self.spot_of(fault)
        return self.silences.cover([(spot.file, spot.line), (fault.call.file, fault.call.line)], kind)

    def kind_in(self, fault: Fault, models: Sequence[Model]) -> Optional[str]:
        """Returns the kind of a fault in these data models, or None."""
        return reporting.kind_of(fault, models, lambda it: is_composed(it, self.unit, lambda: self.where))

    def kind_of(self, fault: Fault) -> Optional[str]:
        """Returns the kind of the finding of a fault, or None if it isn't reported."""
        kind = self.kind_in(fault, self.models)
        if kind is None or (kind in (RANK, SIGN, COMPOSED) and kind not in self.question.added):
            return None
        return None if self.is_silenced(fault, kind) else kind

    def is_only_abroad(self, fault: Fault) -> bool:
        """Returns whether a fault would be an error if the unit could be one of 64-bit Windows."""
        kind = self.kind_in(fault, self.question.models)
        return kind in reporting.ERRORS and not self.is_silenced(fault, kind)

    def use_comments(self) -> None:
        """Notes which comments silence something, also if it isn't asked about."""
        for fault in self.result.faults:
            kind = self.kind_in(fault, list(Model))
            if kind:
                self.is_silenced(fault, kind)
        for call, finding in findings_of_calls(self.result, list(Model)):
            self.silences.cover([(call.file, call.line)], finding.kind)
        for call in self.unit.unread:
            self.silences.cover([(call.file, call.line)], UNREAD)
        for errno in self.result.errnos:
            self.silences.cover([(errno.call.file, errno.call.line)], ERRNO)


class CallLines(NamedTuple):
    """A call in which something is found: its file, its first and its last line, and which of the calls there it is."""

    file: str
    line: int
    last: int
    number: int


class Found(NamedTuple):
    """A finding, where the place starts whose new text makes it go away, if it has one, the calls that have it, and the
    lines of these and of their formats: a file, the first and the last.
    """

    finding: Finding
    place: Optional[int] = None
    uses: FrozenSet[CallLines] = frozenset()
    lines: FrozenSet[Tuple[str, int, int]] = frozenset()

    def with_uses(self, other: "Found") -> "Found":
        """Returns what is found here and there. What it says of one call is that of the first."""
        first = min(self, other, key=lambda it: min(it.uses))
        return first._replace(uses=self.uses | other.uses, lines=self.lines | other.lines)

    def counted(self) -> "Found":
        """Returns the finding with the calls that use the macro that it is in, if it is in one."""
        if "macro" not in self.finding.details:
            return self
        calls = [{"file": reporting.shown_file(it.file), "line": it.line} for it in sorted(self.uses)]
        details = {**self.finding.details, "uses": len(calls), "calls": calls}
        return self._replace(finding=replace(self.finding, details=details))


class Answer(NamedTuple):
    """What is found in a file. `found` are the findings by what tells them apart in all units, `counts` how many
    formats and arguments were judged and calls weren't read, `others` the calls of functions that aren't known, by the
    option for each, and `fixes` new texts for the places of the file; and whether all of its units were read.
    `called` are the keys of functions and pointers of other files that are called, or given formats. `included` are the
    files in it that it was asked about.
    """

    file: str
    found: Dict[str, Found]
    counts: Counter[str]
    others: Counter[str]
    fixes: Fixes
    is_whole: bool = False
    called: FrozenSet[str] = frozenset()
    included: FrozenSet[str] = frozenset()


class Job(NamedTuple):
    """A file, its compile commands or why it has none, what is asked of it, and why it is skipped, if it is; the text
    to read instead of its own; files, if it is judged only if it includes one of them; and what the preprocessor makes
    of it by each command, if that is known; and files: the answer says which of these it includes.
    """

    file: str
    commands: Sequence[CompileCommand]
    question: Question
    why_left: str = ""
    why_skipped: str = ""
    source: Optional[bytes] = None
    among: FrozenSet[str] = frozenset()
    texts: Sequence[bytes] = ()
    told: FrozenSet[str] = frozenset()

    def does_include(self) -> bool:
        return not self.among or any(self.among & it.included() for it in self.commands)


def empty_answer(job: Job) -> Answer:
    return Answer(job.file, {}, collections.Counter(files=1), collections.Counter(), {})


def answer_without(job: Job, how: str) -> Answer:
    """Returns the answer about a file that ends each process that reads it, as a crash of libclang does."""
    result = empty_answer(job)
    add_left(result, job.question, f"it can't be read: the process that read it {how}")
    return result


def answer(job: Job) -> Answer:
    """Checks a file. An exception leaves it."""
    texts = {} if job.source is None else {job.file: job.source}
    result, silences = empty_answer(job), Silences(texts)
    if job.why_skipped:
        result.counts.clear()
        result.found[key_in(job.file)] = Found(reporting.skipped(job.file, job.why_skipped, job.question.models, NOTE))
        return result
    fixes: List[Fixes] = []
    try:
        if job.why_left:
            raise Left(job.why_left)
        if not job.does_include():
            result.counts.clear()
            return result
        with own_trouble():
            fixes, units = fixes_in(result, job, silences)
            called = frozenset(it for one in units for it in one.needed())
            included = frozenset(it for one in units for it in job.told & one.files()) if job.told else job.told
            result = result._replace(is_whole=True, called=called, included=included)
    except Left as why:
        add_left(result, job.question, str(why))
    if len(fixes) < len(job.commands):
        return result
    written = {start: text for start, (text, _) in merged(fixes).items() if text is not None}
    for key, found in result.found.items():
        if found.place in written:
            result.found[key] = found._replace(finding=reporting.as_verified(found.finding))
    return result._replace(fixes=merged(fixes))


def fixes_in(result: Answer, job: Job, silences: Silences) -> Tuple[List[Fixes], List[Unit]]:
    """Adds what is found in the units of a file, and returns the fixes of each and these. Raises Left once these are
    added that could be read.
    """
    units: List[JudgedUnit] = []
    left: Optional[Left] = None
    for number, command in enumerate(job.commands):
        try:
            with own_trouble():
                text = job.texts[number] if job.texts else None
                unit = Unit(command, job.question.settings, job.source, text)
                units.append(JudgedUnit(unit, judged(unit.calls), job.question, silences))
        except Left as why:
            left = why
            break
    is_reported = any(one.kind_of(fault) for one in units for fault in one.result.faults)
    fixes: List[Fixes] = []
    for one in units:
        add(result, one)
        if is_reported and one.where:
            is_any = WRONG in job.question.added
            fixes.append(fixes_of(one.unit, one.result.faults, one.where, one.kind_of, is_any))
    if left:
        raise left
    add_unused(result, job, units, silences)
    return fixes, [it.unit for it in units]


def add_unused(result: Answer, job: Job, units: Sequence[JudgedUnit], silences: Silences) -> None:
    """Adds the comments of a file that silence nothing, if all of it was judged."""
    if units and silences.comments_of(job.file) and not result.counts["left"]:
        for one in units:
            one.use_comments()
        for finding in silences.unused(job.file):
            result.found[key_in(UNUSED, job.file, finding.line, finding.column)] = Found(finding)


def add_left(answer: Answer, question: Question, why: str) -> None:
    """Adds that a file, or a part of it, is left."""
    answer.found[key_in(answer.file, why)] = Found(reporting.skipped(answer.file, why, question.models, WARNING))
    answer.counts["left"] += 1


def add(answer: Answer, one: JudgedUnit) -> None:
    """Adds what is found in a unit."""
    unit, result, models = one.unit, one.result, one.question.models
    faults = (it for it in result.faults if not one.kind_of(it) and one.is_only_abroad(it))
    abroad = {key_of(it, SIZE, one.spot_of(it)) for it in faults}
    answer.counts["abroad"] += len(abroad)
    answer.counts.update(formats=result.formats, arguments=result.arguments, unread_calls=len(unit.unread))
    answer.others.update(unit.others)
    if unit.why_left:
        add_left(answer, one.question, f"libclang can't parse a part of it: {unit.why_left}")
    for fault in result.faults:
        kind = one.kind_of(fault)
        if kind:
            spot = one.spot_of(fault)
            finding = reporting.with_wrapper(reporting.finding_of(fault, kind, spot, one.models), unit.wrappers)
            use = use_of(fault)
            lines = frozenset([use[:3], *one.format_lines(fault)])
            found = Found(finding, place_of(fault, one.where), frozenset([use]), lines)
            key = key_of(fault, kind, spot)
            answer.found[key] = answer.found[key].with_uses(found) if key in answer.found else found
    for call, finding in findings_of_calls(result, models):
        if not one.silences.cover([(call.file, call.line)], finding.kind):
            lines = frozenset([(call.file, call.line, call.last)])
            said = reporting.with_wrapper(finding, unit.wrappers)
            answer.found[key_in(call.file, call.line, finding.message)] = Found(said, lines=lines)
    for call in unit.unread if UNREAD in one.question.added else ():
        finding, lines = reporting.unread_finding(call, models), frozenset([(call.file, call.line, call.last)])
        if not one.silences.cover([(call.file, call.line)], UNREAD):
            answer.found[key_in(UNREAD, call.file, call.line, call.function)] = Found(finding, lines=lines)
    add_errnos(answer, one)


def add_errnos(answer: Answer, one: JudgedUnit) -> None:
    """Adds that formats have `%m`: once for each file, at its first call that no comment silences."""
    found: Dict[str, List[ErrnoFormat]] = {}
    for errno in one.result.errnos if LLP64.model in one.question.models else ():
        if not one.silences.cover([(errno.call.file, errno.call.line)], ERRNO):
            found.setdefault(errno.call.file, []).append(errno)
    if found and LLP64.model not in one.models:
        answer.counts["abroad"] += len(found)
        return
    for file, listed in found.items():
        listed.sort(key=lambda it: it.call.line)
        lines = frozenset((it.call.file, it.call.line, it.call.last) for it in listed)
        finding = reporting.errno_finding(listed[0], len(listed) - 1)
        answer.found[key_in(ERRNO, file)] = Found(finding, lines=lines)


def findings_of_calls(result: Judged, models: Sequence[Model]) -> Iterator[Tuple[Call, Finding]]:
    """Yields what is found of calls as a whole."""
    for call, names in result.lost:
        message = f"the call of {call.function} isn't there{reporting.listed(names)}"
        yield call, reporting.finding_of_call(call, LOST, message, models)
    for call, count, text in result.surplus:
        yield call, reporting.surplus_finding(call, count, text, models)
    for call, text, span in result.undefined:
        yield call, reporting.undefined_finding(call, text, span, models)
    for refused in result.refused:
        yield refused.call, reporting.refused_finding(refused, models)


def use_of(fault: Fault) -> CallLines:
    return CallLines(fault.call.file, fault.call.line, fault.call.last, fault.key[2])


def place_of(fault: Fault, where: Optional[Located]) -> Optional[int]:
    """Returns where the place of a fault starts, if a new text of it is all that is proposed."""
    written = proposal(fault)
    piece = where.piece_of(fault, fault.span.start) if where and written and written.is_plain else None
    return piece.place.start if piece else None


def key_in(*parts: object) -> str:
    """Returns what tells a finding apart, as a text that can be kept."""
    return repr(parts)


def key_of(fault: Fault, kind: str, spot: Spot) -> str:
    """Returns what tells a finding apart: all uses of a directive with one type of argument are one finding, and so are
    all directives that one macro of `#if` makes wrong in a file.
    """
    what: Tuple[Any, ...] = (fault.directive, reporting.name_of(fault), fault.is_star)
    return key_in(kind, spot.file, *what) if kind == COMPOSED else key_in(kind, *spot, *what)
