"""Says of changed places whether their new formats fit their calls, for fmtcanon-diff."""

import functools
import os
from dataclasses import replace
from typing import Any, Dict, List, NamedTuple, Optional, Sequence, Set, Tuple

from ..compiling.calls import Key
from ..compiling.compile_commands import SOURCES, CompileCommand, commands_in, default_command
from ..compiling.left import Left, own_trouble
from ..compiling.platforms import PLATFORMS
from ..compiling.sources import NO_COMMAND
from ..fitting.checking import Answer, Job, JudgedUnit, Question, add, answer
from ..fitting.judging import SIGNED, Fault, Fit, judged
from ..fitting.locating import Located
from ..fitting.reporting import message_of
from ..fitting.silencing import Silences
from ..fitting.unit import Settings, Unit
from ..formats.verdicts import shown
from ..frame.findings import ERROR, NOTE, Finding
from ..kinds import Type
from ..models import Model
from ..source.macros import PlacePart, definitions
from ..source.places import column_of

# A line and a column, from 1.
Position = Tuple[int, int]


class JudgedUse(NamedTuple):
    """A call that has a place in its format: what doesn't fit in it, and whether it was judged."""

    faults: Sequence[Fault]
    is_judged: bool

    def fits(self, before: bytes, count: int, models: Sequence[Model]) -> bool:
        """Returns whether the arguments have the types that the format takes. A sign may be another if the format that
        was there, whose types are given, took the same sign.
        """
        return self.is_judged and self.first_fault(before, count, models) is None

    def first_fault(self, before: bytes, count: int, models: Sequence[Model]) -> Optional[Fault]:
        """Returns the first argument that doesn't fit, or None."""
        for fault in self.faults:
            fits = [fit for fit, it in zip(fault.fits, PLATFORMS) if it.model in models and fit is not Fit.EQUAL]
            if any(fit is not Fit.SIGN or not is_as_before(fault, before, count) for fit in fits):
                return fault
        return None


def is_as_before(fault: Fault, before: bytes, count: int) -> bool:
    """Returns whether a format took an argument of the same sign before, of the same number of arguments."""
    if count != len(before):
        return False
    return (Type(before[fault.number]) in SIGNED) == (fault.wanted[0] in SIGNED)


class Compiled:
    """What the compile commands of a file say of its literals."""

    def __init__(self, path: str, commands: Sequence[CompileCommand], question: Question) -> None:
        self.why_not = "" if commands else NO_COMMAND
        self.models = question.models
        # Where literals are that are compiled, and the uses of those that are in formats.
        self.compiled: Set[Position] = set()
        self.uses: Dict[Position, List[JudgedUse]] = {}
        # What fmtcanon-check finds in the file.
        self.found: Answer = answer(Job(path, (), question))
        for command in commands:
            try:
                with own_trouble():
                    self.add(Unit(command, question.settings), question)
            except Left as left:
                self.why_not = str(left)

    def add(self, unit: Unit, question: Question) -> None:
        """Adds what one compile command says."""
        checked = JudgedUnit(unit, judged(unit.calls), question, Silences())
        result, where = checked.result, checked.where
        if where is None:
            raise Left("its literals can't be found")
        add(self.found, checked)
        self.compiled.update(position_of(where, start) for start in where.compiled)
        faults: Dict[Tuple[Key, int], List[Fault]] = {}
        for one in result.faults:
            faults.setdefault((one.key, one.format), []).append(one)
        for start, uses in where.uses().items():
            found = [(faults.get((it.key, it.format), []), (it.key, it.format) in result.fitting) for it in uses]
            listed = self.uses.setdefault(position_of(where, start), [])
            listed += [JudgedUse(it, is_fitting or bool(it)) for it, is_fitting in found]

    def uses_in(self, start: Position, end: Position) -> List[JudgedUse]:
        return [it for at, uses in self.uses.items() if start <= at < end for it in uses]

    def is_compiled(self, start: Position, end: Position) -> bool:
        return any(start <= at < end for at in self.compiled)

    def why_unused(self, start: Position, end: Position) -> str:
        """Returns why it isn't known whether a call fits, or nothing."""
        if self.uses_in(start, end):
            return ""
        if self.why_not:
            return f"the call isn't judged: {self.why_not}"
        if self.is_compiled(start, end):
            return "no call of a known function has it as its format"
        return "the call isn't compiled here"

    def is_not_format(self, start: Position, end: Position) -> bool:
        """Returns whether literals are compiled, and no call of a known function has them as its format."""
        return not self.why_not and not self.uses_in(start, end) and self.is_compiled(start, end)

    def noted(self, finding: Finding, old: bytes, new: bytes) -> Finding:
        """Returns a finding of other types with what is known of the new call: it is a note if the call fits. The types
        are those that the two formats take.
        """
        if finding.column is None or finding.end is None:
            return finding
        span = (finding.line, finding.column), finding.end
        why = self.why_unused(*span)
        if why:
            return replace(finding, message=f"{finding.message}; {why}")
        uses = self.uses_in(*span)
        if all(it.fits(old, len(new), self.models) for it in uses):
            return as_note(finding)
        fault = next(filter(None, (it.first_fault(old, len(new), self.models) for it in uses)), None)
        said = message_of(fault, self.models) if fault else ""
        return replace(finding, message=f"{finding.message}; in the call {said}") if said else finding

    def errors_in(self, start: Position, end: Position) -> List[Finding]:
        """Returns the errors that fmtcanon-check finds in a place."""
        found = [it.finding for it in self.found.found.values() if it.finding.level == ERROR]
        return [it for it in found if it.column is not None and start <= (it.line, it.column) < end]


class Fitting:
    """Answers for the files of a compile_commands.json, or for those that `cc` compiles with some flags."""

    def __init__(self, options: Any, headers: Sequence[str], models: Sequence[Model]) -> None:
        self.listed = commands_in(options.database) if options.database else None
        self.flags: Sequence[str] = options.flag
        self.question = Question(models, (), Settings(headers, dict(options.function), {}))

    def commands(self, path: str) -> Sequence[CompileCommand]:
        """Returns the compile commands of a file."""
        if self.listed is not None:
            return self.listed.get(path, ())
        return [default_command(path, self.flags)] if SOURCES.fullmatch(path) else ()

    def of(self, path: str) -> Compiled:
        """Returns what the compile commands of a file say of its literals."""
        path = os.path.realpath(path)
        return Compiled(path, self.commands(path), self.question)

    @functools.lru_cache(maxsize=1)
    def macros_of(self, path: str) -> Dict[bytes, Tuple[PlacePart, ...]]:
        """Returns the string literals that macros are where a file is compiled."""
        for command in self.commands(os.path.realpath(path)):
            try:
                return definitions(command.run(None, "-E", "-dM", "-w").stdout)
            except Left:
                continue
        return {}


def position_of(where: Located, offset: int) -> Position:
    source = where.file.source
    return source.count(b"\n", 0, offset) + 1, column_of(source, offset)


def as_note(finding: Finding) -> Finding:
    """Returns that the types differ, and the call fits."""
    old, new = (shown(it.encode("utf-8", "surrogateescape")) for it in finding.formats)
    details = {**finding.details, "fits": True}
    return replace(finding, level=NOTE, message=f"types differ, and the call fits: {old} and {new}", details=details)
