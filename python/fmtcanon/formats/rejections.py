"""Says what a rejection means, and what to write instead, by the table of words."""

from __future__ import annotations

from typing import Any, Iterator, Mapping, Optional, Sequence, Tuple

import fmtcanon
from fmtcanon import Kind, Model, Refused, Specification

from ..kinds import Part
from ..specification import NAMES, SpelledSpecification
from ..words import WORDS

# What is said of each kind, and done about it; docs/REFUSALS.md has more for each.
REFUSALS: Mapping[Kind, Mapping[str, Any]] = {Kind(int(number)): it for number, it in WORDS["refusals"].items()}


def help_on(kind: Kind, conversion: str = WORDS["conversion"]) -> str:
    """Returns what a kind means in the whole language, with the conversion that it is about."""
    return str(REFUSALS[kind]["help"]).format(conversion=conversion)


def refused_in(text: bytes, refusal: Refused) -> Optional[SpelledSpecification]:
    """Returns what is known of the specification in which a text is rejected; None outside of one."""
    found = refusal.specification or asked(text, refusal)
    return None if found is None else SpelledSpecification(found, text)


def asked(text: bytes, refusal: Refused) -> Optional[Specification]:
    """Returns the specification in which a text is rejected, or of an accepted one, that has the byte."""
    try:
        found = fmtcanon.specifications(text)
    except Refused as other:
        return other.specification if other.byte == refusal.byte else None
    return next((it for it in found if it.start <= refusal.byte < it.end), None)


def refused_span(text: bytes, refusal: Refused) -> Tuple[int, int]:
    """Returns where a specification begins that is rejected, and the offset after the byte at which it is."""
    one = refused_in(text, refusal)
    if one and refusal.kind is Kind.MISSING_ARGUMENT:
        return one.found.start, one.found.end
    return one.found.start if one else refusal.byte, refusal.byte + 1


def sentence(text: bytes, refusal: Refused) -> str:
    """Returns what a refusal of a text means, with the conversion or the specification that it is about."""
    one = refused_in(text, refusal)
    row = name_in(one, refusal.kind) if one else None
    if row:
        return str(row[-1])
    if one and one.found.argument is not None and "found" in REFUSALS[refusal.kind]:
        known = {"argument": one.found.argument + 1, "specification": one.text.decode()}
        return str(REFUSALS[refusal.kind]["found"]).format(**known)
    conversion = text[refusal.byte : refusal.byte + 1].decode("latin-1")
    is_named = conversion.isalpha() and conversion.isascii()
    return help_on(refusal.kind, f"`{conversion}`") if is_named else help_on(refusal.kind)


def advice_on(text: bytes, refusal: Refused, model: Model) -> str:
    """Returns what a refusal of a text means, and what to write instead, if that is known."""
    instead = instead_of(text, refusal, model)
    return sentence(text, refusal) + (f" Write {instead.decode(errors='backslashreplace')}." if instead else "")


def is_accepted(text: bytes, model: Model) -> bool:
    """Returns whether a text is accepted, whatever arguments come before its own."""
    try:
        fmtcanon.arguments(text, model=model)
    except Refused as refusal:
        return refusal.kind is Kind.MISSING_ARGUMENT
    return True


def name_in(one: SpelledSpecification, kind: Kind) -> Optional[Sequence[str]]:
    """Returns the row of the name that another system has for a length modifier, if that is what is rejected."""
    if kind not in (Kind.UNEXPECTED, Kind.LENGTH_UNDEFINED):
        return None
    rest = one.format[one.found.modifier_at :]
    for row in WORDS["names"]:
        letters = [(row[1] + letter).encode() for letter in row[0]]
        if rest.startswith(tuple(letters)):
            return list(row)
    return None


def candidates(kind: Kind, one: SpelledSpecification) -> Iterator[bytes]:
    """Yields what may be written instead of a specification that is rejected."""
    row, name = REFUSALS[kind], name_in(one, kind)
    if name is not None:
        at = one.found.modifier_at
        end = at + len(name[1])
        yield one.format[one.found.start : at] + name[2].encode() + one.format[end : end + 1]
    if "without" in row:
        yield one.without(Part(sum(part for part, it in NAMES.items() if it in row["without"])))
    elif "write" in row and (kind is Kind.BAD_PERCENT or one.text == b"%"):
        yield row["write"].encode()
    elif kind is Kind.UNEXPECTED and one.format[one.found.end : one.found.end + 1] == b"m" and one.text[1:].strip():
        yield WORDS["errno"]["write"].encode()


def instead_of(text: bytes, refusal: Refused, model: Model) -> Optional[bytes]:
    """Returns what to write instead of the specification that is rejected, if that is accepted and one is known."""
    one = refused_in(text, refusal)
    listed = candidates(refusal.kind, one) if one else ()
    return next((it for it in listed if is_accepted(it, model)), None)


def instead_span(text: bytes, refusal: Refused) -> Tuple[int, int]:
    """Returns where what `instead_of` returns is written: the specification with the byte at which it is rejected, up
    to the conversion after the name that another system has for a length modifier.
    """
    start, end = refused_span(text, refusal)
    one = refused_in(text, refusal)
    name = name_in(one, refusal.kind) if one else None
    if one and name:
        end = one.found.modifier_at + len(name[1]) + 1
    return start, min(max(end, one.found.end if one else 0), len(text))
