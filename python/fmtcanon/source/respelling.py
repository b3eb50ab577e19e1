"""The string literals of a source, and how one is spelled for another text."""

import difflib
import re
from dataclasses import dataclass
from typing import Iterator, List, Optional, Sequence, Tuple

from .. import BadLiteral, decode_literal, encode_literal
from ..formats.verdicts import shared_back, shared_front
from .places import Source
from .tokens import STRING, plain_literals

ELEMENT = re.compile(rb"\\x[0-9A-Fa-f]+|\\[0-7]{1,3}|\\[\s\S]|[^\\]")
# A longer difference is replaced as a whole.
LONGEST = 2_000


@dataclass(frozen=True)
class LiteralRun:
    """String literals without prefixes side by side: where they are in the source, and their bytes."""

    start: int
    end: int
    line: int
    source: bytes
    text: bytes


def runs_in(data: bytes) -> Iterator[LiteralRun]:
    """Yields the string literals of a source that can be decoded."""
    source = Source(data).read()
    for place in source.places:
        for start, end in place.runs():
            text = decoded(data[start:end])
            if text is not None:
                yield LiteralRun(start, end, source.line_of(start), data[start:end], text)


def decoded(source: bytes) -> Optional[bytes]:
    """Returns the bytes of string literals, or None if they can't be decoded."""
    try:
        return decode_literal(plain_literals(source)[0])
    except BadLiteral:
        return None


def literals_of(source: bytes) -> List[bytes]:
    """Returns the string literals of a source as a preprocessor prints them."""
    return [it.group() for it in re.finditer(STRING, plain_literals(source)[0])]


def element_spans(plain: bytes) -> List[Tuple[int, int]]:
    """Returns where the element of each byte begins and ends, in literals without spliced lines."""
    found = []
    for literal in re.finditer(STRING, plain):
        start = literal.start() + 1
        for element in ELEMENT.finditer(literal.group()[1:-1]):
            found.append((start + element.start(), start + element.end()))
    return found


def span_in(place: LiteralRun, start: int, end: int) -> Tuple[int, int]:
    """Returns where a part of a place's text, by its bytes, is in the source; or the place, if it isn't in one piece.
    """
    plain, offsets = plain_literals(place.source)
    spans = element_spans(plain)
    if len(spans) != len(place.text):
        return place.start, place.end
    return place.start + offsets[spans[start][0]], place.start + offsets[spans[end - 1][1] - 1] + 1


Edit = Tuple[int, int, int, int]


def edits_between(old: bytes, new: bytes) -> Iterator[List[Edit]]:
    """Yields ways to make one text of the other: lists of ranges of the old text, with the ranges of the new that
    replace them.
    """
    front = shared_front(old, new)
    back = shared_back(old, new, front)
    if max(len(old), len(new)) - front - back <= LONGEST:
        matcher = difflib.SequenceMatcher(
            None, old[front : len(old) - back], new[front : len(new) - back], autojunk=False
        )
        found = [
            (a + front, b + front, c + front, d + front) for tag, a, b, c, d in matcher.get_opcodes() if tag != "equal"
        ]
        yield found
    for before, after in [(0, 0), (1, 0), (0, 1), (1, 1)]:
        start, end = max(front - before, 0), max(back - after, 0)
        yield [(start, len(old) - end, start, len(new) - end)]


def respelled(place: LiteralRun, new: bytes) -> Optional[bytes]:
    """Returns the place's source with another text, in which the parts that both texts share keep their spelling.

    None if it can't be spelled so without the loss of a line break.
    """
    if place.text == new:
        return place.source
    plain, offsets = plain_literals(place.source)
    spans = element_spans(plain)
    if len(spans) != len(place.text):
        return None
    for edits in edits_between(place.text, new):
        source = edited(
            place.source, [range_of(spans, offsets, edit) for edit in edits], [new[edit[2] : edit[3]] for edit in edits]
        )
        if source is not None and source.count(b"\n") == place.source.count(b"\n") and decoded(source) == new:
            return source
    return None


def range_of(spans: List[Tuple[int, int]], offsets: Sequence[int], edit: Edit) -> Optional[Tuple[int, int]]:
    """Returns the range of the source that an edit replaces, or None if it isn't within one literal."""
    start, end = edit[:2]
    if start == end:
        # An empty literal has its end after the quote.
        at = spans[start][0] if start < len(spans) else spans[-1][1] if spans else 1
        return offsets[at], offsets[at]
    inside = spans[start:end]
    if any(one[1] != other[0] for one, other in zip(inside, inside[1:])):
        return None
    return offsets[inside[0][0]], offsets[inside[-1][1] - 1] + 1


def edited(source: bytes, ranges: List[Optional[Tuple[int, int]]], texts: List[bytes]) -> Optional[bytes]:
    """Returns a source with these ranges replaced by these texts, encoded; None if a range isn't known."""
    parts, done = [], 0
    for found, text in zip(ranges, texts):
        if found is None:
            return None
        parts += [source[done : found[0]], encode_literal(text)[1:-1]]
        done = found[1]
    return b"".join([*parts, source[done:]])
