"""Shows a finding on a terminal: its line, then the lines of the source with carets under what is wrong."""

from __future__ import annotations

from typing import Iterator, List, NamedTuple, Sequence

from .. import encode_literal
from .terminals import LEVELS, PLACE, Style, beside, columns, wrapped
from .visible import visible

# What is left out of a long line, and how much of a line comes before what is marked.
DOTS, BEFORE = "..", 20
TAB = "    "
# The narrowest room for words next to carets.
ROOM = 24


class Excerpt(NamedTuple):
    """A line with a part of it marked: what is written to the left of it, which is its number or its name; the line;
    the part, by its first character and the one after its last; and what is said of the part.
    """

    label: str
    line: str
    start: int
    end: int
    words: str = ""


def line_of(data: bytes, offset: int) -> str:
    """Returns the line of a source that has the byte at an offset."""
    end = data.find(b"\n", offset)
    line = data[data.rfind(b"\n", 0, offset) + 1 : len(data) if end < 0 else end]
    return line.decode(errors="surrogateescape").rstrip("\r")


def literal_excerpt(label: str, text: bytes, start: int, end: int, words: str = "") -> Excerpt:
    """Returns a text as a string literal, with a part of it marked, by its bytes."""
    before, whole = (encode_literal(text[:it])[:-1].decode(errors="surrogateescape") for it in (start, end))
    return Excerpt(label, encode_literal(text).decode(errors="surrogateescape"), len(before), len(whole), words)


def shown_line(line: str) -> str:
    """Returns a line as a terminal shows it: with spaces for a tab, and an escape for what can't be seen."""
    return TAB.join(map(visible, line.split("\t")))


def window(excerpt: Excerpt, width: int) -> Excerpt:
    """Returns an excerpt as it is shown: a line that is too long without what is far from the mark."""
    parts = excerpt.line[: excerpt.start], excerpt.line[excerpt.start : excerpt.end], excerpt.line[excerpt.end :]
    before, inside, after = map(shown_line, parts)
    if columns(before + inside + after) > width:
        if columns(inside) > width - BEFORE:
            inside, after = inside[: width - BEFORE - 2 * len(DOTS)], DOTS
        room = max(width - columns(inside) - 2 * len(DOTS), 0)
        kept = min(len(before), max(BEFORE, room - len(after)))
        if kept < len(before):
            before = DOTS + before[len(before) - kept :]
        rest = max(width - columns(before + inside) - len(DOTS), 0)
        if len(after) > rest:
            after = after[:rest] + DOTS
    return excerpt._replace(line=before + inside + after, start=len(before), end=len(before + inside))


def excerpt_lines(excerpts: Sequence[Excerpt], style: Style, colour: str) -> Iterator[str]:
    """Yields the lines of excerpts, with their labels in front and carets below."""
    gutter = max((len(it.label) for it in excerpts), default=0)
    for one in excerpts:
        shown = window(one, style.width - gutter - 4)
        yield f" {one.label:>{gutter}} | {shown.line}".rstrip()
        front = f" {'':>{gutter}} | "
        begin = len(front) + columns(shown.line[: shown.start])
        count = max(columns(shown.line[shown.start : shown.end]), 1)
        mark = front + " " * (begin - len(front)) + style.carets(count, colour)
        if not one.words or style.width - begin - count - 1 >= min(ROOM, len(one.words)):
            first, *rest = beside(mark, begin + count, begin + count + 1, [one.words] * bool(one.words), style.width)
            yield first
            yield from (front + it[len(front) :] for it in rest)
        else:
            yield mark
            yield from (front + it for it in wrapped(one.words, style.width - len(front)))


def shown_finding(
    place: str, message: str, level: str, excerpts: Sequence[Excerpt], help: str, style: Style
) -> List[str]:
    """Returns the lines of a finding: its place and message, its excerpts, and what helps."""
    lines = wrapped(f"{place} {message}", style.width, TAB) if style.is_terminal else [f"{place} {message}"]
    if lines and lines[0].startswith(place):
        lines[0] = style.painted(place, PLACE) + lines[0][len(place) :]
    lines += excerpt_lines(excerpts, style, LEVELS[level])
    if help:
        lines += wrapped(f"{TAB}help: {help}", style.width, TAB + "      ")
    return lines
