"""Finds where the directives of a unit are in its source, by a marker that is put before each string literal."""

import bisect
import functools
import itertools
import re
from typing import AbstractSet, Dict, List, NamedTuple, Optional, Sequence, Tuple

from .. import BadLiteral, decode_literal, source_offset
from ..compiling.calls import Key
from ..compiling.formats import Format
from ..compiling.left import Left
from ..compiling.markers import Marker
from ..compiling.parsing import OTHER_BYTES
from ..compiling.stand_ins import Original
from ..source.respelling import LiteralRun, runs_in
from ..source.tokens import STRING, plain_literals
from .judging import Fault
from .unit import Unit


class Use(NamedTuple):
    """A call that has a place in what may be its format, and whether that is the whole format."""

    key: Key
    format: int
    is_whole: bool


class Piece(NamedTuple):
    """Where the text of a place begins in a format."""

    place: LiteralRun
    at: int


class Located(NamedTuple):
    """The source of a unit, of each format the text and the pieces that are in the source, and where the places start
    that are compiled.
    """

    file: Original
    formats: Dict[Tuple[Key, int], Tuple[bytes, List[Piece]]]
    compiled: AbstractSet[int] = frozenset()

    def offset_of(self, fault: Fault, index: int) -> Optional[int]:
        """Returns where the byte of this index of a fault's format is in the source, or None."""
        piece = self.piece_of(fault, index)
        if piece is None:
            return None
        at = offset_in(piece.place.source, index - piece.at)
        return None if at is None else piece.place.start + at

    def piece_of(self, fault: Fault, index: int) -> Optional[Piece]:
        text, pieces = self.formats.get((fault.key, fault.format), (b"", []))
        if text != fault.text:
            return None
        return next((it for it in pieces if it.at <= index < it.at + len(it.place.text)), None)

    def pieces_of(self, fault: Fault) -> List[Piece]:
        """Returns the pieces of a fault's format that are in the source."""
        return self.formats.get((fault.key, fault.format), (b"", []))[1]

    def uses(self) -> Dict[int, List[Use]]:
        """Returns the uses of places by where these start."""
        found: Dict[int, List[Use]] = {}
        for (key, number), (text, pieces) in self.formats.items():
            for piece in pieces:
                is_whole = len(pieces) == 1 and in_ascii(piece.place.text) == in_ascii(text)
                found.setdefault(piece.place.start, []).append(Use(key, number, is_whole))
        return found


def offset_in(source: bytes, index: int) -> Optional[int]:
    """Returns where the byte of an index of the text of string literals is in their source, or None."""
    plain, offsets = plain_literals(source)
    literals, starts = literals_in(plain)
    number = bisect.bisect_right(starts, index) - 1
    at = source_offset(literals[number].group(), index - starts[number]) if number >= 0 else None
    return None if at is None else offsets[literals[number].start() + at]


@functools.lru_cache(maxsize=16)
def literals_in(plain: bytes) -> Tuple[List["re.Match[bytes]"], List[int]]:
    """Returns the literals in the plain source of some, and where the text of each begins in that of all."""
    literals = list(re.finditer(STRING, plain))
    sizes = (len(decode_literal(it.group())) for it in literals)
    return literals, list(itertools.accumulate(sizes, initial=0))[:-1]


def located(unit: Unit) -> Optional[Located]:
    """Returns where the formats of a unit are, or None if its file can't be preprocessed with markers."""
    try:
        file = unit.original()
        places = [it for it in runs_in(file.source) if b"%" in it.text]
        marker = Marker()
        text = unit.text(with_markers(file.source, places, marker))
        calls = unit.marked(text)
    except (Left, OSError):
        return None
    pattern = re.compile(f"fmtcanon_{marker.tag}_(\\d+)_".encode())
    compiled = {places[int(it)].start for it in pattern.findall(text.encode())}
    found = {}
    for key, call in calls.items():
        for number, format in enumerate(call.formats):
            one = unmarked(format, pattern, places)
            if one:
                found[key, number] = one
    return Located(file, found, compiled)


def with_markers(source: bytes, places: Sequence[LiteralRun], marker: Marker) -> bytes:
    """Returns a source with a marker before each place."""
    parts, done = [], 0
    for number, place in enumerate(places):
        parts += [source[done : place.start], marker.literal(number), b" "]
        done = place.start
    return b"".join([*parts, source[done:]])


def unmarked(
    format: Format, pattern: "re.Pattern[bytes]", places: Sequence[LiteralRun]
) -> Optional[Tuple[bytes, List[Piece]]]:
    """Returns the text of a format without its markers, and what comes after them."""
    try:
        text = decode_literal(format.source.encode("utf-8", "surrogateescape"))
    except BadLiteral:
        return None
    parts, pieces, done = [], [], 0
    for found in pattern.finditer(text):
        parts.append(text[done : found.start()])
        done = found.end()
        pieces.append(Piece(places[int(found[1])], sum(map(len, parts)) - format.skipped))
    return b"".join([*parts, text[done:]])[format.skipped :], pieces


def in_ascii(text: bytes) -> bytes:
    """Returns a text in which `_` replaces each byte that libclang may not have got."""
    return OTHER_BYTES.sub(b"_", text)
