"""Says whether `#if` may have chosen the length modifier of a directive: it is in several literals, and none of these
is a PRI macro that the source names next to it, or a macro of the program that `#if` chooses has both.
"""

import re
from typing import Callable, Optional, Set

from ..source.directives import definition_at
from ..source.tokens import GAP, NAME, STRING
from .judging import Fault
from .locating import Located
from .unit import Unit

NEXT_NAME = re.compile(GAP + rb"(" + NAME + rb")")
# A macro that is literals and names alone, as formats and parts of these are.
DEFINITION = re.compile(rb"^#define (\w+)((?:[ \t]+(?:" + STRING + rb"|[A-Za-z_]\w*))+)[ \t]*$", re.MULTILINE)


def is_composed(fault: Fault, unit: Unit, located: Callable[[], Optional[Located]]) -> bool:
    """Returns whether `#if` may have chosen the length modifier of a directive."""
    tokens = [it for it, _, _ in fault.tokens]
    macros = {it.macro.encode() for it in tokens if it.macro}
    if len(tokens) < 2 or not macros:
        return len(tokens) > 1
    where = located()
    piece = where.piece_of(fault, fault.span.start) if where else None
    if where is None or piece is None:
        return bool(own_macros(unit, macros))
    source = where.file.source
    after = NEXT_NAME.match(source, piece.place.end)
    if after is None or after[1] in macros:
        definition = definition_at(source, piece.place.start)
        return definition is not None and definition.depth > 0
    return after[1] in own_macros(unit, macros)


def own_macros(unit: Unit, macros: Set[bytes]) -> Set[bytes]:
    """Returns the macros of the program that one of these PRI macros is a part of."""
    bodies = {it[1]: it[2] for it in DEFINITION.finditer(unit.definitions())}
    found: Set[bytes] = set()
    names = macros
    while names:
        pattern = re.compile(rb"\b(?:" + b"|".join(names) + rb")\b")
        names = {name for name, body in bodies.items() if pattern.search(body)} - found
        found |= names
    return found
