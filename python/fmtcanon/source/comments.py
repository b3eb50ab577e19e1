"""The comments of C source that silence findings: `fmtcanon: ok`, alone or with the kinds that it is for."""

import re
from typing import Iterator, List, NamedTuple, Tuple

from .places import column_of
from .tokens import CHARACTER, COMMENT, OPEN, RAW, STRING

MARK = b"fmtcanon:"
TOKEN = re.compile(rb"|".join([RAW, STRING, CHARACTER, rb"(?P<comment>" + COMMENT + rb")", OPEN]))
OK = re.compile(r"/[/*][\s*/]*fmtcanon:\s*ok(?![\w-])(?P<kinds>.*)", re.DOTALL)
# What begins the reason after the kinds.
REASON = "--"
OTHER_COMMENT = re.compile(COMMENT)


class OkComment(NamedTuple):
    """A comment that silences findings of these kinds, or of all if it names none: its line and column, and the first
    and the last line that it is for.
    """

    line: int
    column: int
    first: int
    last: int
    kinds: Tuple[str, ...]

    def is_for(self, line: int, kind: str) -> bool:
        return self.first <= line <= self.last and (not self.kinds or kind in self.kinds)


def ok_comments(source: bytes) -> List[OkComment]:
    """Returns the comments of a source that silence findings."""
    return list(found_in(source)) if MARK in source else []


def found_in(source: bytes) -> Iterator[OkComment]:
    counted, lines_before = 0, 1
    for token in TOKEN.finditer(source):
        text = token["comment"]
        found = OK.match(text.decode(errors="replace")) if text else None
        if found:
            kinds = found["kinds"].rstrip("*/").partition(REASON)[0].replace(",", " ").split()
            lines_before += source.count(b"\n", counted, token.start())
            counted, line = token.start(), lines_before
            last = line + text.count(b"\n")
            lines = (line, last) if has_code(source, token.start(), token.end()) else (last + 1, last + 1)
            yield OkComment(line, column_of(source, token.start()), *lines, tuple(kinds))


def has_code(source: bytes, start: int, end: int) -> bool:
    """Returns whether the lines of a comment have more than comments and the backslash that continues a line."""
    line_end = source.find(b"\n", end)
    before = source[source.rfind(b"\n", 0, start) + 1 : start]
    after = source[end : len(source) if line_end < 0 else line_end]
    return bool(OTHER_COMMENT.sub(b"", before + b" " + after).strip(b" \t\v\f\r\\"))
