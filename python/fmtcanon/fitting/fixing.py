"""What may be written instead of a format: a text that prints the same where the unit is compiled, and whose changed
directives fit their arguments on every platform.
"""

from typing import Callable, Dict, Iterable, List, Mapping, Optional, Sequence, Tuple

from .. import Refused, same
from ..compiling.calls import Key
from ..compiling.platforms import PLATFORMS
from ..formats.items import specification_alone
from ..models import Model
from ..source.respelling import LiteralRun
from .judging import Fault, Fit, PlatformText, faults_of, spans_in
from .locating import Located, Use
from .proposals import proposal
from .unit import Unit

# The new text of a place by where the place starts, or why it has none.
Fixes = Dict[int, Tuple[Optional[bytes], str]]
# What tells an argument of a call apart: the call, which of its formats, and the index.
Converted = Tuple[Key, int, int]

# With this among what a question adds, directives that are wrong where the unit is compiled get new texts, too.
WRONG = "wrong"
NOT_THE_SAME = "its new text prints something else; --wrong writes it"
NOT_WHOLE = "it is only a part of a format"
NOT_EVERYWHERE = "another use of it would be wrong"
NOT_FROM_NAME = "its length modifier names a type that each platform chooses"


def fixes_of(
    unit: Unit, faults: Sequence[Fault], where: Located, kind_of: Callable[[Fault], Optional[str]], is_any: bool = False
) -> Fixes:
    """Returns the new texts of places of a unit's file, which fix the faults that have a kind: with `is_any` also where
    the program prints something else then, since it is wrong where it is compiled.
    """
    places: Dict[int, Tuple[LiteralRun, List[Fault]]] = {}
    for fault in faults:
        piece = where.piece_of(fault, fault.span.start)
        if piece:
            places.setdefault(piece.place.start, (piece.place, []))[1].append(fault)
    uses = where.uses()
    fixes: Fixes = {start: (None, "") for start in uses}
    for start, (place, listed) in places.items():
        asked = [it for it in listed if kind_of(it)]
        fixes[start] = fix_of(unit, place, listed, asked, uses.get(start, []), is_any)
    return fixes


def fix_of(
    unit: Unit,
    place: LiteralRun,
    faults: Sequence[Fault],
    asked: Sequence[Fault],
    uses: Sequence[Use],
    is_any: bool = False,
) -> Tuple[Optional[bytes], str]:
    """Returns the new text of a place, or why it has none; no reason if nothing is to be changed. Some of its faults
    are asked about.
    """
    written = {it.span.start: (it, proposal(it)) for it in asked if it.worst in (Fit.RANK, Fit.SIZE)}
    edits = {start: (it, new.directive) for start, (it, new) in written.items() if new and new.is_plain}
    if not edits:
        return None, ""
    # What is wrong where the unit is compiled prints nothing that is to stay.
    here = {start: it for start, it in edits.items() if is_any and it[0].fits[0] is not Fit.EQUAL}
    kept = [it for start, it in edits.items() if start not in here]
    if any(names_type(it.directive) and not names_type(new) for it, new in kept):
        return None, NOT_FROM_NAME
    if not all(it.is_whole for it in uses):
        return None, NOT_WHOLE
    text = edited(place.text, edits)
    if not is_same(edited(place.text, here), text):
        return None, NOT_THE_SAME
    before = {converted(it) for it in faults}
    fixed = {converted(fault) for fault, _ in edits.values()}
    after = {converted(it) for it in faults_with(unit, text, uses)}
    return (text, "") if after <= before - fixed else (None, NOT_EVERYWHERE)


def edited(text: bytes, edits: Mapping[int, Tuple[Fault, str]]) -> bytes:
    """Returns a format with other directives, by where each starts."""
    for start, (fault, directive) in sorted(edits.items(), reverse=True):
        text = text[:start] + directive.encode() + text[fault.span.end :]
    return text


def names_type(directive: str) -> bool:
    """Returns whether a directive has one of the length modifiers z, j and t."""
    one = specification_alone(directive.encode())
    return one is not None and one.modifier in ("z", "j", "t")


def is_same(old: bytes, new: bytes) -> bool:
    """Returns whether two formats print the same where the unit is compiled."""
    try:
        return same(old, new, model=Model.LP64, whole=True)
    except Refused:
        return False


def converted(fault: Fault) -> Converted:
    return fault.key, fault.format, fault.number


def faults_with(unit: Unit, text: bytes, uses: Iterable[Use]) -> Iterable[Fault]:
    """Yields the faults, worse than a sign, that the calls with a place have with another text of it."""
    texts = [PlatformText(text, spans_in(text, it.model)) for it in PLATFORMS]
    for use in uses:
        calls = [it[use.key] for it in unit.calls if use.key in it]
        if len(calls) == len(PLATFORMS):
            yield from (it for it in faults_of(use.key, calls, use.format, texts) if it.worst is not Fit.SIGN)


def merged(listed: Sequence[Fixes]) -> Fixes:
    """Returns the fixes on which all compile commands of a file agree, of those that use a place."""
    found: Fixes = {}
    for fixes in listed:
        for start, fix in fixes.items():
            known = found.setdefault(start, fix)
            if known[0] != fix[0]:
                found[start] = (None, NOT_EVERYWHERE)
    return {start: fix for start, fix in found.items() if fix != (None, "")}
