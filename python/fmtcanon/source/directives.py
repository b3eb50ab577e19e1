"""The directives of a source, as `#if` and `#define`."""

import functools
import re
from typing import NamedTuple, Optional, Sequence

from .tokens import CHARACTER, COMMENT, OPEN, RAW, STRING

# What may have the text of a directive in it, and the lines of directives.
LINE = re.compile(
    rb"|".join([RAW, STRING, CHARACTER, COMMENT, OPEN])
    + rb"|^[ \t]*#[ \t]*(?P<word>\w+)[ \t]*(?P<name><[^>\n]*>|\w+)?(?:[^\\\n/]|\\[\s\S]|/(?![/*])|"
    + COMMENT
    + rb")*(?:\n|\Z)",
    re.MULTILINE,
)


class SourceDirective(NamedTuple):
    """A directive: its word; the name that comes after it, or in angle brackets a header; where its line begins, and
    that after its last one; and in how many `#if` it is.
    """

    word: bytes
    name: bytes
    start: int
    end: int
    depth: int


@functools.lru_cache(maxsize=16)
def directives_in(source: bytes) -> Sequence[SourceDirective]:
    """Returns the directives of a source."""
    found, depth = [], 0
    for line in LINE.finditer(source):
        word = line["word"]
        if word is not None:
            depth -= word == b"endif"
            found.append(SourceDirective(word, line["name"] or b"", line.start(), line.end(), depth))
            depth += word.startswith(b"if")
    return found


def definition_at(source: bytes, offset: int) -> Optional[SourceDirective]:
    """Returns the definition of a macro that has an offset of a source."""
    found = (it for it in directives_in(source) if it.start <= offset < it.end)
    return next((it for it in found if it.word == b"define"), None)
