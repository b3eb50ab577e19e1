"""What compiling finds in a source while it is typed: it moves with the text, and says what may be written instead."""

import re
import time
from typing import Any, Dict, Iterable, Iterator, List, NamedTuple, Optional, Sequence, Tuple, TypeVar

from ..compiling.platforms import COMPILED
from ..fitting.judging import Fit
from ..fitting.reporting import UNJUDGED
from ..formats.verdicts import shared_back, shared_front
from ..frame.findings import Finding
from ..source.written import WrittenSource, trimmed
from .diagnosing import LEVELS, NOT_BY_CLANG, Diagnosis, SourceFix, TextEdit
from .including import include_edit

# Seconds after the last change until a source is compiled.
SOON = 0.2
# An argument before which a cast can be put as it is: what is named, called or in brackets, after unary operators.
SIMPLE = re.compile(rb"[*&!~+-]*(?:[\w$]+|\([^()]*\))(?:(?:\.|->)[\w$]+|\[[^][]*\]|\([^()]*\))*")
NUMBER = re.compile(r"\d+")
# How many lines a call goes at most whose format the text knows, too.
LINES_OF_A_CALL = 50
# What has a start and an end in a text.
Spanning = TypeVar("Spanning", "FindingAt", Diagnosis)


class TextChange(NamedTuple):
    """What changed in a text: the offsets of what was replaced, and by how much it is longer now."""

    start: int
    end: int
    growth: int

    def moved(self, one: Spanning) -> Optional[Spanning]:
        """Returns what is said of a part of the text, after the change, or None if it is about what changed."""
        if one.end <= self.start:
            return one
        if one.start < self.end:
            return None
        return one._replace(start=one.start + self.growth, end=one.end + self.growth)


class FindingAt(NamedTuple):
    """A finding of fmtcanon-check, and its offsets in a document."""

    start: int
    end: int
    finding: Finding

    @property
    def is_by_clang(self) -> bool:
        """Whether clang says the same: what is wrong where it compiles, and most of the formats that are rejected."""
        finding = self.finding
        if finding.kind == UNJUDGED:
            return not any(it.words in NAMES_NOT_BY_CLANG for it in finding.excerpts)
        here = finding.details.get("platforms", {}).get(COMPILED.name)
        return here is not None and here["fit"] != Fit.EQUAL.value


class CompiledAnswer(NamedTuple):
    """What was found in a text of a document, and why a part of it wasn't judged."""

    uri: str
    found: Tuple[FindingAt, ...]
    why_left: str


# How the excerpts of findings name what clang says nothing of.
NAMES_NOT_BY_CLANG = {it.name.title().replace("_", "") for it in NOT_BY_CLANG}


def change_between(old: bytes, new: bytes) -> TextChange:
    """Returns what changed between two texts, as one piece."""
    start = shared_front(old, new)
    return TextChange(start, len(old) - shared_back(old, new, start), len(new) - len(old))


def after(found: Iterable[Spanning], changes: Sequence[TextChange]) -> List[Spanning]:
    """Returns what is said of a text after changes of it, without what is about that which changed."""
    listed: List[Spanning] = []
    for one in found:
        now: Optional[Spanning] = one
        for change in changes:
            now = change.moved(now) if now is not None else None
        listed += [now] if now is not None else []
    return listed


class CompiledPart:
    """What compiling found in a document, and when that is to be done again."""

    def __init__(self, data: bytes) -> None:
        self.data = data
        self.found: List[FindingAt] = []
        self.due: Optional[float] = time.monotonic()
        # What changed since the text that is being compiled.
        self.changes: List[TextChange] = []
        # Why a part wasn't judged; None before the first answer.
        self.why_left: Optional[str] = None
        # Whether that is to be said: once the document is opened or saved, and not of each text in between.
        self.is_to_say = True

    def changed(self, data: bytes) -> TextChange:
        """Notes that the document has another text, and returns what changed."""
        change = change_between(self.data, data)
        self.changes.append(change)
        self.data, self.found = data, after(self.found, [change])
        self.due = time.monotonic() + SOON
        return change

    def saved(self) -> None:
        """Notes that files may be others now."""
        self.due, self.is_to_say = time.monotonic(), True

    def asked(self) -> None:
        """Notes that the text is being compiled as it is now."""
        self.due, self.changes = None, []

    def take(self, answer: CompiledAnswer) -> str:
        """Takes what was found. If a part can't be judged for another reason than before, what was found before stays.
        Returns the reason if it is to be said.
        """
        why = NUMBER.sub("", answer.why_left)
        if not why or self.why_left is None or why == self.why_left:
            self.found, self.why_left = after(answer.found, self.changes), why
        said = answer.why_left if self.is_to_say else ""
        self.is_to_say = False
        return said


def diagnosis_of(one: FindingAt) -> Diagnosis:
    """Returns a finding as a fault of a document."""
    finding = one.finding
    help = f" {finding.help}" if finding.help else ""
    said = f"{finding.message}{help}"
    return Diagnosis(one.start, one.end, LEVELS[finding.level], finding.kind, said, is_by_clang=one.is_by_clang)


def is_said_by(one: FindingAt, rejected: Dict[str, List[int]], line: int) -> bool:
    """Returns whether a finding is only that a format is rejected, which the text says, too, in a line soon after that
    of the call.
    """
    if one.finding.kind != UNJUDGED:
        return False
    lines = rejected.get(one.finding.details.get("format", ""), ())
    return any(line <= it < line + LINES_OF_A_CALL for it in lines)


def fixes_of(one: FindingAt, written: WrittenSource, data: bytes) -> Iterator[SourceFix]:
    """Yields what may be done about a finding: another directive, a cast of its argument, and the header they need."""
    proposed: Optional[Dict[str, Any]] = one.finding.details.get("fix")
    if proposed is None:
        return
    text, cast, edits = proposed["text"], proposed["cast"], []
    if text:
        edits.append(TextEdit(one.start, one.end, text.encode()))
    if cast:
        argument = argument_of(one, written, data)
        if argument is None:
            return
        edits.append(cast_edit(data, *argument, cast))
    header = include_edit(data, proposed["include"], one.start) if proposed["include"] else None
    more = (*edits[1:], *([header] if header else []))
    title = " and ".join([*([f"write {text}"] if text else []), *([f"cast to {cast}"] if cast else [])])
    yield SourceFix(title[:1].upper() + title[1:], *edits[0], more)


def argument_of(one: FindingAt, written: WrittenSource, data: bytes) -> Optional[Tuple[int, int]]:
    """Returns where the argument of a finding is, or None if the text doesn't show that."""
    format = written.at(one.start)
    directive = format.directive_at(one.start) if format else None
    number = one.finding.details["argument"] - 1
    if format is None or directive is None or not directive.takes(number):
        return None
    listed = written.arguments(format)
    start, end = trimmed(data, *listed[number]) if number < len(listed) else (0, 0)
    return (start, end) if start < end else None


def cast_edit(data: bytes, start: int, end: int, type: str) -> TextEdit:
    """Returns the change that casts an argument."""
    text = data[start:end]
    inside = text if SIMPLE.fullmatch(text) else b"(" + text + b")"
    return TextEdit(start, end, b"(" + type.encode() + b")" + inside)
