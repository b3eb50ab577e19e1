"""Says in words what is found, and where."""

import os
import re
from dataclasses import replace
from typing import Any, Callable, Dict, List, NamedTuple, Optional, Sequence, Tuple

from .. import Refused, Specification
from ..compiling.calls import Call
from ..compiling.closure import Wrappers
from ..compiling.platforms import LLP64, PLATFORMS
from ..formats.rejections import advice_on, refused_span
from ..frame.command_line import counted, model_names
from ..frame.excerpts import Excerpt, literal_excerpt
from ..frame.findings import ERROR, NOTE, WARNING, Finding
from ..kinds import TYPE_NAMES, Type
from ..models import Model
from ..source.files import known_bytes, lines_in
from ..source.places import column_of
from .judging import MISSING, ORDER, SIGNED, ErrnoFormat, Fault, Fit, RefusedFormat
from .locating import Located
from .fault_macros import Definition, macro_at, span_of
from .proposals import fitting, proposal

SIZE, KIND, RANK, SIGN, COMPOSED = "size", "kind", "rank", "sign", "composed"
LOST, ERRNO, UNJUDGED, SKIPPED, UNUSED, FIXED = "lost", "errno", "unjudged", "skipped", "unused", "fixed"
SURPLUS, UNREAD, UNDEFINED = "surplus", "unread", "undefined"
RULES = {
    SIZE: "An argument has another size than its directive takes on some platform.",
    KIND: "An argument is missing, or of another kind than its directive takes, as a double for %d.",
    RANK: "An argument has the size that its directive takes, and another type, on some platform.",
    SIGN: "An argument is signed and its directive takes an unsigned one, or the other way round.",
    COMPOSED: "An argument doesn't fit a directive whose length modifier may have been chosen by #if.",
    SURPLUS: "A call has more arguments than its format takes.",
    UNDEFINED: "A directive is undefined in C, as %Lx, and judged as some C libraries take it.",
    LOST: "A call is only there on some platforms.",
    ERRNO: "A format of the C library has %m, which that of 64-bit Windows lacks; in syslog it is POSIX's.",
    UNREAD: "The format of a call isn't a literal, and isn't read.",
    UNJUDGED: "What may be the format of a call isn't accepted.",
    SKIPPED: "A file, or a part of it, wasn't judged; or not by itself, as a header.",
    UNUSED: "A comment that silences findings silences none.",
    FIXED: "A directive was replaced by one that fits on every platform.",
}
# The kinds for which the status is 1, unless --fail-on names others.
ERRORS = (SIZE, KIND)
# Those that no comment silences.
SILENT = (SKIPPED, UNUSED, FIXED)
FITS = {Fit.SIZE: "wrong size", Fit.RANK: "wrong type", Fit.SIGN: "wrong sign"}
# What the platforms are called.
NAMES_OF_SYSTEMS = ["64-bit Unix", "32-bit systems", "32-bit systems with a 64-bit time_t", "64-bit Windows"]
TITLES = dict(zip([it.name for it in PLATFORMS], NAMES_OF_SYSTEMS))
VOWELS = re.compile(r"[aeio]|un[^_]")
# The signed and the unsigned type whose length modifier or end of a PRI macro this is.
NAMES = {"z": ("ssize_t", "size_t"), "t": ("ptrdiff_t", "size_t"), "64": ("int64_t", "uint64_t")}


# The types of integers by the names that they have in C.
PLAIN_TYPES = {name: it for it, name in TYPE_NAMES.items() if it in (*SIGNED, *SIGNED.values())}
# The headers of the types that casts name.
HEADERS = dict.fromkeys(["intmax_t", "uintmax_t", "int64_t", "uint64_t", "uintptr_t"], "stdint.h")
HEADERS.update(size_t="stddef.h", wint_t="wchar.h")


class Spot(NamedTuple):
    """A position: a file, a line, and a column, an end and the offsets of both if they are known; and the macro in
    whose definition it is.
    """

    file: str
    line: int
    column: Optional[int] = None
    end: Optional[Tuple[int, int]] = None
    offsets: Optional[Tuple[int, int]] = None
    macro: str = ""


def shown_file(path: str) -> str:
    """Returns the name of a file as it is shown: relative, if it is below the current folder."""
    name = os.path.relpath(path)
    return path if name.startswith("..") else name


def spot_of(fault: Fault, where: Optional[Located], definition_of: Callable[[Fault], Optional[Definition]]) -> Spot:
    """Returns where the directive of a fault is: in the source of the unit, in the definition of a macro that a header
    has, or else its call.
    """
    first, after = fault.range
    start = where.offset_of(fault, first) if where else None
    if where is not None and start is not None:
        last, source = where.offset_of(fault, after - 1), where.file.source
        return spot_in(where.file.path, source, start, last, macro_at(source, start))
    definition = definition_of(fault)
    if definition is None:
        return Spot(fault.call.file, fault.call.line)
    span = span_of(definition, fault)
    if span is None:
        return Spot(definition.file, definition.line, macro=definition.name)
    return spot_in(definition.file, *span, definition.name)


def spot_in(file: str, source: bytes, start: int, last: Optional[int], macro: str) -> Spot:
    """Returns the position of what begins at an offset of a source, and whose last byte is known."""
    line = source.count(b"\n", 0, start) + 1
    end = (source.count(b"\n", 0, last) + 1, column_of(source, last) + 1) if last is not None else None
    offsets = (start, last + 1) if last is not None else None
    return Spot(file, line, column_of(source, start), end, offsets, macro)


def kind_of(fault: Fault, models: Sequence[Model], composed: Callable[[Fault], bool]) -> Optional[str]:
    """Returns the kind of a finding, by the data models that are asked about; None if there is no fault in these."""
    fits = [fit for fit, it in zip(fault.fits, PLATFORMS) if it.model in models]
    worst = max(fits, key=ORDER.index)
    if worst is Fit.EQUAL:
        return None
    return COMPOSED if worst is not Fit.SIGN and composed(fault) else worst.value


def type_name(type: Optional[Type], spelling: str) -> str:
    return spelling if type is None else TYPE_NAMES[type]


def taken(fault: Fault) -> str:
    """Returns what a directive takes, by platforms if that isn't the same on all."""
    names: Dict[str, List[str]] = {}
    for type, platform in zip(fault.wanted, PLATFORMS):
        names.setdefault(TYPE_NAMES[type], []).append(platform.name)
    if len(names) == 1:
        return a(TYPE_NAMES[fault.wanted[0]])
    return ", ".join(f"{a(name)}{listed(platforms)}" for name, platforms in names.items())


def a(name: str) -> str:
    """Returns the name of a type with its article."""
    return f"an {name}" if VOWELS.match(name) else f"a {name}"


def message_of(fault: Fault, models: Sequence[Model]) -> str:
    """Returns what is said of a fault: the directive and the argument, what is wrong where, and what to write."""
    what = f"the * of {fault.shown}" if fault.is_star else fault.shown
    if fault.given[0] is MISSING:
        return f"no argument for {what}"
    groups: Dict[Fit, List[str]] = {}
    for fit, platform in zip(fault.fits, PLATFORMS):
        if platform.model in models and fit is not Fit.EQUAL:
            groups.setdefault(fit, []).append(platform.name)
    kinds = [it for it in reversed(ORDER) if it in groups and it in FITS]
    wrong = [f"{FITS[it]}{listed(groups[it])}{where_else(fault, groups[it])}" for it in kinds]
    if Fit.KIND in groups:
        wrong.append(f"it takes {taken(fault)}")
    return f"{what} for {a(name_of(fault))}: {', '.join(wrong)}{advice(fault)}"


def advice(fault: Fault) -> str:
    written = proposal(fault)
    return f"; use {written}" if written else ""


def listed(names: Sequence[str]) -> str:
    """Returns on which platforms something is so, in words; nothing if it is so on all. Both 32-bit systems are named
    once.
    """
    if len(names) == len(PLATFORMS):
        return ""
    shown = [TITLES[it] for it in names if not any(it.startswith(f"{other} ") for other in names)]
    return " on " + " and ".join(filter(None, [", ".join(shown[:-1]), shown[-1]]))


def name_of(fault: Fault) -> str:
    """Returns the type of an argument as the source names it, or as it would: that of `sizeof` has no name in clang."""
    argument, end = fault.given[0], fitting(fault)
    if argument.name == argument.spelling and is_named_by(argument.part, fault):
        return argument.part
    if argument.name != argument.spelling or end not in NAMES or len(set(fault.given)) == 1:
        return argument.name
    return NAMES[end][argument.type in SIGNED]


def is_named_by(name: str, fault: Fault) -> bool:
    """Returns whether a typedef has the type of the argument on each platform: a difference of times is a time_t."""
    types = [PLAIN_TYPES.get(it.types.get(name, "")) for it in PLATFORMS]
    return types == [it.type for it in fault.given] and None not in types


def where_else(fault: Fault, platforms: Sequence[str]) -> str:
    """Returns what the argument is on these platforms, if that is another type than its name says."""
    named = PLAIN_TYPES.get(name_of(fault))
    types = {it.type for it, platform in zip(fault.given, PLATFORMS) if platform.name in platforms}
    other = types.pop() if len(types) == 1 else named
    return f", where it is {a(TYPE_NAMES[other])}" if named and other and other is not named else ""


def details_of(fault: Fault) -> Dict[str, Any]:
    platforms = {
        it.name: {"takes": TYPE_NAMES[wanted], "is": type_name(given.type, given.spelling) or None, "fit": fit.value}
        for it, wanted, given, fit in zip(PLATFORMS, fault.wanted, fault.given, fault.fits)
    }
    written = proposal(fault)
    return {
        "format": fault.text.decode(errors="backslashreplace"),
        "directive": fault.shown,
        "function": fault.call.function,
        "argument": fault.number + 1,
        "type": None if fault.given[0] is MISSING else name_of(fault),
        "platforms": platforms,
        "proposal": str(written) if written else None,
        **({"wrapper": fault.call.key} if fault.call.key else {}),
    }


def finding_of(fault: Fault, kind: str, spot: Spot, models: Sequence[Model]) -> Finding:
    wrong = {it.model for it, fit in zip(PLATFORMS, fault.fits) if fit is not Fit.EQUAL and it.model in models}
    details: Dict[str, Any] = {**details_of(fault), "fix": fix_of(fault, spot)}
    message = message_of(fault, models)
    if spot.macro:
        details["macro"], message = spot.macro, f"{message}; in the macro {spot.macro}"
    return Finding(
        shown_file(spot.file),
        spot.line,
        spot.column,
        kind,
        ERROR if kind in ERRORS else NOTE,
        message,
        spot.end,
        (details["format"],),
        model_names(sorted(wrong)),
        details,
    )


def with_wrapper(finding: Finding, known: Wrappers) -> Finding:
    """Returns a finding that says why its function prints as `printf` does, if that is one of these that hand their
    formats on.
    """
    listed = known.get(finding.details.get("wrapper", ""), ())
    if not listed:
        return finding
    # Functions of one name in several programs do the same.
    name, one = finding.details["function"], listed[0]
    how = "may be" if one.is_given else "hands its format to"
    why = f"{name} {how} {one.to} at {shown_file(one.file)}:{one.line}"
    return replace(finding, message=f"{finding.message} ({why})", details={**finding.details, "wrapper": why})


def fix_of(fault: Fault, spot: Spot) -> Optional[Dict[str, Any]]:
    """Returns what may be written instead of the bytes of the source from `start` to `end`, for JSON: `cast` is what
    the argument needs, and `include` a header. `verified` is whether --fix writes it. None if no place or text is
    known.
    """
    written = proposal(fault)
    if written is None or spot.offsets is None:
        return None
    text = written.directive or None
    include = "inttypes.h" if text and '" PRI' in text else HEADERS.get(written.cast)
    start, end = spot.offsets
    return {
        "start": start,
        "end": end,
        "text": text,
        "cast": written.cast or None,
        "include": include,
        "verified": False,
    }


def as_verified(finding: Finding) -> Finding:
    """Returns a finding whose fix --fix writes."""
    fix = finding.details.get("fix")
    return replace(finding, details={**finding.details, "fix": {**fix, "verified": True}}) if fix else finding


def as_fixed(finding: Finding) -> Finding:
    """Returns the finding of a directive that was replaced by what a finding proposes."""
    details = finding.details
    message = f"{details['directive']} is now {details['proposal']}, for {a(details['type'])}"
    return replace(finding, kind=FIXED, level=NOTE, message=message)


def as_not_written(finding: Finding, why: str) -> Finding:
    return replace(finding, message=f"{finding.message}; not written: {why}")


def refused_finding(refused: RefusedFormat, models: Sequence[Model]) -> Finding:
    """Returns the finding of a format that isn't accepted, with the format and what helps."""
    call, text, why = refused
    finding = finding_of_call(call, UNJUDGED, f"not judged: {why} of a format of {call.function}", models, text)
    if not isinstance(why, Refused):
        return finding
    excerpt = literal_excerpt("format", text, *refused_span(text, why), why.name)
    return replace(finding, excerpts=(excerpt,), help=advice_on(text, why, models[0]))


def errno_finding(found: ErrnoFormat, others: int = 0) -> Finding:
    """Returns the finding of a format with `%m`, on the platform whose C library lacks it, and how many others the file
    has.
    """
    call, text, at = found
    more = f", and in {others} more of the file" if others else ""
    message = f"%m in a format of {call.function}{more}: missing on {TITLES[LLP64.name]}; use %s and strerror(errno)"
    excerpt = literal_excerpt("format", text, at, at + 2, "")
    return replace(finding_of_call(call, ERRNO, message, [LLP64.model], text), excerpts=(excerpt,))


def surplus_finding(call: Call, count: int, text: bytes, models: Sequence[Model]) -> Finding:
    """Returns the finding of a call with arguments that its format doesn't take, and how many."""
    takes = "its format takes" if len(call.formats) == 1 else "any of its formats takes"
    message = f"{counted(count, 'argument')} of {call.function} more than {takes}"
    return finding_of_call(call, SURPLUS, message, models, text)


def undefined_finding(call: Call, text: bytes, span: Specification, models: Sequence[Model]) -> Finding:
    """Returns the finding of a directive that C leaves undefined, and that is judged as the C library of GNU takes it.
    """
    directive = text[span.start : span.end].decode(errors="backslashreplace")
    written = text[span.start : span.modifier_at] + b"ll" + text[span.end - 1 : span.end]
    message = (
        f"{directive} in a format of {call.function}: undefined in C, and judged as the {written.decode()} that it is "
        f"in the C libraries of GNU and musl; use {written.decode()}"
    )
    excerpt = literal_excerpt("format", text, span.start, span.end, "")
    return replace(finding_of_call(call, UNDEFINED, message, models, text), excerpts=(excerpt,))


def unread_finding(call: Call, models: Sequence[Model]) -> Finding:
    """Returns the note of a call whose format isn't read."""
    found = finding_of_call(call, UNREAD, f"not read: the format of {call.function}, which isn't a literal", models)
    return replace(found, level=NOTE)


def finding_of_call(call: Call, kind: str, message: str, models: Sequence[Model], format: bytes = b"") -> Finding:
    """Returns a finding of a call as a whole, or of its format."""
    known = {"format": format.decode(errors="backslashreplace")} if format else {}
    return Finding(
        shown_file(call.file),
        call.line,
        None,
        kind,
        WARNING,
        message,
        models=model_names(models),
        details={"function": call.function, **known, **({"wrapper": call.key} if call.key else {})},
    )


def skipped(path: str, why: str, models: Sequence[Model], level: str) -> Finding:
    """Returns the finding of a file that isn't judged, as a whole or in part: a note if nothing is wrong with that."""
    return Finding(shown_file(path), 0, None, SKIPPED, level, f"not judged: {why}", models=model_names(models))


def with_source(finding: Finding) -> Finding:
    """Returns a finding with its line of the source, if that is known, and what is meant in it."""
    source = known_bytes(finding.file)
    lines = lines_in(source)[finding.line - 1 : finding.line] if source else []
    if not lines or finding.column is None:
        return finding
    line = lines[0].decode(errors="surrogateescape").rstrip("\r")
    is_short = finding.end is not None and finding.end[0] == finding.line
    end = finding.end[1] if finding.end and is_short else finding.column + 1
    written = finding.details.get("proposal")
    words = f"use {written}" if written and finding.kind != FIXED else ""
    return replace(finding, excerpts=(Excerpt(str(finding.line), line, finding.column - 1, end - 1, words),))
