"""What is known of the specification in which a format is rejected: by calls about parts of the format."""

from __future__ import annotations

import re
from typing import Optional

import fmtcanon

from .kinds import Kind, Part
from .specification import Specification, moved

# The number of an argument, after the percent sign or a `*`. In a format that can be read, nothing else is so spelled.
NUMBER = re.compile(rb"(?<=[%*])([0-9]+)\$")
SPECIFICATION = re.compile(rb"%%|%[-+ #0-9'.*$]*")
LENGTHS = b"hljztL"
# A specification of these kinds can be read up to its end, also if it isn't defined, or takes what another one does.
UNDEFINED = (
    Kind.ALT_UNDEFINED,
    Kind.ZERO_UNDEFINED,
    Kind.GROUP_UNDEFINED,
    Kind.PRECISION_UNDEFINED,
    Kind.LENGTH_UNDEFINED,
    Kind.COUNT_UNDEFINED,
)
READABLE = (*UNDEFINED, Kind.MISSING_ARGUMENT, Kind.TWO_TYPES)
# Nothing is known of it.
NOTHING = Specification(0, 0, 0, 0, 0, 0, None, None, None, None, None, None, Part(0), Part(0), Part(0))


def specification_in(text: bytes, refusal: fmtcanon.Refused) -> Optional[Specification]:
    """Returns what is known of the specification in which a text is rejected, as `Specification` has it; None outside.
    """
    if refusal.kind is Kind.MISSING_ARGUMENT:
        return leaving_out(text)
    at = refusal.byte
    front = refusal_of(text[:at])
    if front is None or front.kind is not Kind.TRUNCATED:
        return None
    begin = text.rfind(b"%", 0, at)
    return read_from(text, begin) or moved(NOTHING, lambda _: at)._replace(start=begin)


def leaving_out(text: bytes) -> Specification:
    """Returns the first specification of a text that takes an argument after one that none takes, with that one."""
    taken = [(it.start(), [int(number) - 1 for number in NUMBER.findall(it[0])]) for it in SPECIFICATION.finditer(text)]
    numbers = {number for _, some in taken for number in some}
    missing = next(number for number in range(len(numbers) + 1) if number not in numbers)
    found = read_from(text, next(start for start, some in taken if any(number > missing for number in some)))
    assert found is not None
    return found._replace(argument=missing)


def read_from(text: bytes, begin: int) -> Optional[Specification]:
    """Returns the offsets of the specification that begins at a percent sign, if it can be read up to its end."""
    alone = re.split(rb"[%\0]", text[begin + 1 :], maxsplit=1)[0]
    alone = b"%" + alone
    refusal = refusal_of(alone)
    if refusal and refusal.kind not in READABLE:
        return None
    plain = NUMBER.sub(b"", alone)
    found = offsets_in(plain)

    def place_of(offset: int) -> int:
        """The offset in the text: with the numbers of arguments that aren't in `plain`."""
        for number in NUMBER.finditer(alone):
            if number.start() <= offset:
                offset += len(number[0])
        return begin + offset

    parts = moved(found, place_of)
    return moved(NOTHING, lambda _: begin)._replace(
        end=parts.end,
        flags_at=parts.flags_at,
        width_at=parts.width_at,
        precision_at=parts.precision_at,
        modifier_at=parts.modifier_at,
    )


def offsets_in(plain: bytes) -> Specification:
    """Returns the specification without numbers of arguments that begins a text."""
    refusal = refusal_of(plain)
    if refusal is None:
        return fmtcanon.specifications(plain)[0]
    # Every flag, width and precision is defined with the conversion `g`.
    found = fmtcanon.specifications(plain[: refusal.byte].rstrip(LENGTHS) + b"g")[0]
    return found._replace(end=refusal.byte + 1)


def refusal_of(text: bytes) -> Optional[fmtcanon.Refused]:
    """Returns why a text is rejected; None if it isn't."""
    try:
        fmtcanon.arguments(text)
    except fmtcanon.Refused as refusal:
        return refusal
    return None
