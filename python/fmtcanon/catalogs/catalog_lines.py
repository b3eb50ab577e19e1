"""Finds where the texts of a message are in a .po file, to show a part of one with the line that has it."""

from __future__ import annotations

import re
from itertools import accumulate
from typing import Iterator, List, NamedTuple, Optional, Tuple

from ..frame.excerpts import Excerpt, literal_excerpt
from .catalog_tokens import ESCAPE, BadCatalog, Token, tokens, unquoted

# How many lines before a translation its message begins at most, and how many bytes after that are read.
LINES, BYTES = 1_000, 100_000
# A line without text is between messages.
EMPTY_LINE = re.compile(rb"\n[ \t\r]*\n")
# A place in the program. Marks are around a name with blanks.
WITHOUT_ISOLATES = {0x2068: None, 0x2069: None}
REFERENCE = re.compile("\u2068[^\u2069]*\u2069\\S*|\\S+")


class Mark(NamedTuple):
    """A part of a text of a message: the name of the text, its bytes, the part's offsets, and what is said of it."""

    name: str
    text: bytes
    start: int
    end: int
    words: str


class CatalogString(NamedTuple):
    """A string of a catalog in UTF-8: its source without quotes, with its offset; the name of the text that it is in,
    and that text, with how many bytes come before the string.
    """

    source: bytes
    start: int
    name: str
    text: bytes
    before: int

    @property
    def is_translation(self) -> bool:
        return self.name.startswith("msgstr")


class CatalogSource:
    """The lines of a .po file in UTF-8."""

    def __init__(self, data: bytes) -> None:
        self.lines = data.split(b"\n")

    def references(self, line: int) -> List[str]:
        """Returns the places in the program, by the comments `#:`, of the message whose translation is in this line."""
        at = self.begin_of(line)
        while at and not self.lines[at - 1].lstrip().startswith((b"#", b"msgstr", b"msgid")):
            at -= 1
        listed: List[str] = []
        while at and self.lines[at - 1].lstrip().startswith(b"#"):
            at -= 1
            found = REFERENCE.findall(self.lines[at].lstrip()[2:].decode(errors="surrogateescape"))
            listed[:0] = found if self.lines[at].lstrip().startswith(b"#:") else []
        return [it.translate(WITHOUT_ISOLATES) for it in listed]

    def excerpt(self, line: int, mark: Mark) -> Excerpt:
        """Returns the line with a part of a text of the message whose translation begins in this line, or the text."""
        return self.found(line, mark) or literal_excerpt(*mark)

    def found(self, line: int, mark: Mark) -> Optional[Excerpt]:
        """Returns the line with the part, or None if it can't be found."""
        try:
            return self.searched(line, mark)
        except BadCatalog:
            return None

    def searched(self, line: int, mark: Mark) -> Optional[Excerpt]:
        begin = self.begin_of(line)
        if begin is None:
            return None
        rest = len(mark.text[: mark.start])
        for token in strings_of(b"\n".join(self.lines[begin : line + LINES])[:BYTES], mark.name):
            size = len(ends_of(token.text))
            if rest < size:
                return self.marked(begin + token.line, token, rest, mark)
            rest -= size
        return None

    def begin_of(self, line: int) -> Optional[int]:
        """Returns the index of the line in which the message begins whose translation is in this line, from 1."""
        for at in range(min(line, len(self.lines)) - 1, max(line - LINES, 0) - 1, -1):
            if self.lines[at].lstrip().startswith(b"msgid") and b"msgid_plural" not in self.lines[at][:20]:
                return at
        return None

    def marked(self, line: int, token: Token, start: int, mark: Mark) -> Optional[Excerpt]:
        """Returns a line with the part that begins at this byte of a string in it; None if other bytes are there."""
        ends = ends_of(token.text)
        # The column is that of the quote.
        front = token.column
        first = front + (ends[start - 1] if start else 0)
        last = front + ends[min(start + mark.end - mark.start, len(ends)) - 1]
        whole = self.lines[line - 1]
        part = whole[first:last]
        # Of another charset than UTF-8, an escape by number may be of more bytes.
        if b"\\" not in part and not mark.text[mark.start : mark.end].startswith(part):
            return None
        begin, end = (len(whole[:it].decode(errors="surrogateescape")) for it in (first, last))
        return Excerpt(str(line), whole.decode(errors="surrogateescape").rstrip("\r"), begin, end, mark.words)


def ends_of(string: bytes) -> List[int]:
    """Returns where the source of each byte of a string ends, in the string without its quotes."""
    ends: List[int] = []
    done = 0
    for escape in ESCAPE.finditer(string):
        ends += range(done + 1, escape.start() + 1)
        ends.append(escape.end())
        done = escape.end()
    return [*ends, *range(done + 1, len(string) + 1)]


def tokens_of(text: bytes) -> Iterator[Tuple[str, Token]]:
    """Yields the strings in a part of a catalog, each with the name of its text, such as `msgstr[1]`."""
    current = ""
    for token in tokens(text):
        if token.kind == "keyword":
            current = token.text.decode()
        elif token.kind == "form":
            current += "[" + token.text.strip(b"[] \t").decode() + "]"
        elif token.kind == "string":
            yield current, token


def strings_of(text: bytes, name: str) -> List[Token]:
    """Returns the strings of the first text of this name in a part of a catalog."""
    found: List[Token] = []
    for current, token in tokens_of(text):
        if current == name:
            found.append(token)
        elif found:
            break
    return found


def part_around(data: bytes, offset: int) -> Tuple[int, int]:
    """Returns where the part of a catalog is, between lines without text, that has an offset."""
    begin, end = max(0, offset - BYTES), min(len(data), offset + BYTES)
    before, after = list(EMPTY_LINE.finditer(data, begin, offset)), EMPTY_LINE.search(data, offset, end)
    if before:
        begin = before[-1].end()
    elif begin:
        begin = data.find(b"\n", begin, offset) + 1
    return begin, after.start() if after else end


def string_at(data: bytes, offset: int) -> Optional[CatalogString]:
    """Returns the string of a catalog in UTF-8 at an offset; None if no string begins there, or it can't be read."""
    begin, end = part_around(data, offset)
    part, found, name, text = data[begin:end], None, "", b""
    lines = list(accumulate((len(it) + 1 for it in part.split(b"\n")), initial=begin))
    try:
        for current, token in tokens_of(part):
            if current != name:
                if found:
                    break
                name, text = current, b""
            start = lines[token.line - 1] + token.column
            if start <= offset <= start + len(token.text):
                found = CatalogString(token.text, start, name, b"", len(text))
            text += unquoted(token.text, None, token.line)
    except BadCatalog:
        # The part may end within a string, and the rest be right.
        pass
    return found._replace(text=text) if found else None
