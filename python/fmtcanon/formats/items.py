"""What begins with a percent sign in a text, which the library may not accept as it is: macros of <inttypes.h>.

The library says what is a specification. Here it is only known where one may end.
"""

import re
from typing import Iterator, List, NamedTuple, Optional

import fmtcanon

from ..specification import SpelledSpecification

# A macro of <inttypes.h> comes in angle brackets, as xgettext writes it. Its name has its conversion (C11 7.8.1). d and
# i take one type, and so do o, u, x and X.
MACRO = re.compile(rb"<PRI([dioxXu])(?:(?:LEAST|FAST)?(?:8|16|32|64)|MAX|PTR)>")
# What a specification may have before its conversion, also outside of C: the flag I of translations, and what comes
# before a macro or `m`. It only finds where such an item may end; the library says what it is.
ITEM = re.compile(rb"%([-+ #0-9'I$*.hljztL]*)(" + MACRO.pattern.replace(b"([", b"(?:[") + rb"|[\s\S]|\Z)")
LENGTHS = b"hljztL"


class Item(NamedTuple):
    """What begins with a percent sign: its bytes before the first that can't be inside of a specification, that byte or
    the macro there, and the offset of its percent sign.
    """

    start: int
    inner: bytes
    last: bytes

    @property
    def has_length(self) -> bool:
        """Whether a length modifier comes before the last byte."""
        return self.inner != b"" and self.inner[-1:] in LENGTHS

    @property
    def text(self) -> bytes:
        return b"%" + self.inner + self.last


def items_of(text: bytes) -> Iterator[Item]:
    """Yields what begins with a percent sign."""
    for found in ITEM.finditer(text):
        yield Item(found.start(), found[1], found[2])


def errnos_of(text: bytes) -> List[int]:
    """Returns where `%m` is, which prints the message of errno and takes no argument."""
    return [it.start for it in items_of(text) if it.text == b"%m"] if b"m" in text else []


def specification_alone(text: bytes) -> Optional[SpelledSpecification]:
    """Returns the specification that a text is, whatever arguments come before its own; None if it isn't one."""
    try:
        found = fmtcanon.specifications(text)
    except fmtcanon.Refused as refusal:
        is_one = refusal.kind in (fmtcanon.Kind.MISSING_ARGUMENT, fmtcanon.Kind.TWO_TYPES)
        found = [refusal.specification] if is_one and refusal.specification else []
    return SpelledSpecification(found[0], text) if len(found) == 1 else None


def is_unexpected(text: bytes) -> bool:
    """Returns whether a byte of a specification can't continue it."""
    try:
        fmtcanon.directives(text)
    except fmtcanon.Refused as refusal:
        return refusal.kind is fmtcanon.Kind.UNEXPECTED
    return False
