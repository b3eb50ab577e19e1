"""What the macros of <inttypes.h> expand to in each data model (C11 7.8.1), and the macros of a file."""

import re
from typing import Dict, NamedTuple, Optional, Tuple

from ..models import Model
from .tokens import COMMENT, NAME, STRING

PRI = re.compile(rb"PRI([dioxXubB])(LEAST|FAST)?(8|16|32|64|MAX|PTR)")
# The length modifiers of 64 bits, and of a pointer. In the GNU C library FAST16 and FAST32 have that of a pointer.
LONG = {Model.LP64: b"l", Model.ILP32: b"ll", Model.LLP64: b"ll"}
POINTER = {Model.LP64: b"l", Model.ILP32: b"", Model.LLP64: b"ll"}
FAST = {Model.LP64: b"l", Model.ILP32: b"", Model.LLP64: b""}
# A part of a macro's text. A name ends where no more of it follows, so that each text matches in one way only.
PART = rb"(?:" + STRING + rb"|" + NAME + rb"(?![\w$\x80-\xff]))"
DEFINITION = re.compile(
    rb"#[ \t]*define[ \t]+(" + NAME + rb")[ \t]+(\(?" + PART + rb"(?:[ \t]*" + PART + rb")*\)?)[ \t\r]*(?=\n|\Z|"
    + COMMENT + rb")"
)
PARTS = re.compile(rb"(?P<string>" + STRING + rb")|(?P<name>" + NAME + rb")")


class PlacePart(NamedTuple):
    """A part of a place: "string", "raw", "wide" or "name", and its source, or of a raw string its bytes."""

    kind: str
    source: bytes

    @property
    def literal(self) -> bytes:
        """The source of a string without the prefix for UTF-8."""
        return self.source[2:] if self.source.startswith(b"u8") else self.source


def expansion(name: bytes, model: Model) -> Optional[bytes]:
    """Returns the conversion that a macro of <inttypes.h> expands to in a data model, or None for another name."""
    found = PRI.fullmatch(name)
    if found is None:
        return None
    letter, how, size = found.groups()
    if size in (b"64", b"MAX"):
        return LONG[model] + letter
    if size == b"PTR":
        return POINTER[model] + letter
    return (FAST[model] if how == b"FAST" and size != b"8" else b"") + letter


def definitions(text: bytes) -> Dict[bytes, Tuple[PlacePart, ...]]:
    """Returns the macros that a source without spliced lines defines as string literals, with their parts.

    One that is defined in several ways is left out.
    """
    found: Dict[bytes, Tuple[PlacePart, ...]] = {}
    several = set()
    for definition in DEFINITION.finditer(text):
        name, body = definition.groups()
        parts = tuple(PlacePart(str(it.lastgroup), it.group()) for it in PARTS.finditer(body))
        if all(it.kind == "name" and not PRI.fullmatch(it.source) for it in parts):
            continue
        if found.setdefault(name, parts) != parts:
            several.add(name)
    return {name: parts for name, parts in found.items() if name not in several}
