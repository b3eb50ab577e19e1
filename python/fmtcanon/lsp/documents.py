"""Documents that an editor has open: their bytes in UTF-8, and positions in them as editors count."""

import bisect
import os
import re
from itertools import accumulate
from typing import Any, Dict, List, Mapping, Optional
from urllib.parse import unquote, urlsplit

UTF_8, UTF_16 = "utf-8", "utf-16"
# The end of a line, and what of UTF-16 is the first half of a pair.
END_OF_LINE = re.compile(rb"\r\n|\n|\r")
FIRST_HALVES = range(0xD800, 0xDC00)

EditorPosition = Mapping[str, int]
EditorRange = Dict[str, Dict[str, int]]


def path_of(uri: str) -> Optional[str]:
    """Returns the path that the URI of a file names, or None."""
    try:
        parts = urlsplit(uri)
    except ValueError:
        return None
    return os.path.abspath(unquote(parts.path)) if parts.scheme == "file" and "\0" not in unquote(parts.path) else None


def bytes_of(text: str) -> bytes:
    return text.encode("utf-8", "surrogatepass")


class Document:
    """A text that the editor has open, in a language of the editor's."""

    def __init__(self, uri: str, language: str, text: str, version: Any, encoding: str) -> None:
        self.uri, self.language, self.version, self.encoding = uri, language, version, encoding
        self.path = path_of(uri)
        self.set(bytes_of(text))

    def set(self, data: bytes) -> None:
        self.data = data
        if b"\r" in data:
            self.starts: List[int] = [0, *(it.end() for it in END_OF_LINE.finditer(data))]
        else:
            self.starts = [0, *accumulate(len(it) + 1 for it in data.split(b"\n"))][:-1]

    def change(self, change: Mapping[str, Any]) -> None:
        """Applies a change, which is of the whole text if it has no range."""
        new = bytes_of(change["text"])
        if change.get("range"):
            start, end = (self.offset(change["range"][it]) for it in ("start", "end"))
            self.replace(start, max(start, end), new)
        else:
            self.set(new)

    def replace(self, start: int, end: int, new: bytes) -> None:
        """Replaces what is between two offsets. Only the lines there are read again."""
        data = self.data[:start] + new + self.data[end:]
        if b"\r" in new or b"\r" in self.data[max(0, start - 1) : end + 1]:
            # A line may end with two characters.
            self.set(data)
            return
        first, last = (bisect.bisect_right(self.starts, it) for it in (start, end))
        growth = len(new) - (end - start)
        lines = [start + it.end() for it in END_OF_LINE.finditer(new)]
        self.starts[first:] = [*lines, *(it + growth for it in self.starts[last:])]
        self.data = data

    def line_of(self, offset: int) -> int:
        """Returns the number of the line that has an offset, from 0."""
        return bisect.bisect_right(self.starts, offset) - 1

    def line(self, number: int) -> bytes:
        """Returns a line, counted from 0, without its end; an empty one after the last."""
        if number >= len(self.starts):
            return b""
        end = self.starts[number + 1] if number + 1 < len(self.starts) else len(self.data)
        return self.data[self.starts[number] : end].rstrip(b"\r\n")

    def offset(self, position: EditorPosition) -> int:
        """Returns the offset of a position. One after the end of a line is its end, and one after the last line that of
        the text.
        """
        number, count = max(0, position["line"]), max(0, position["character"])
        if number >= len(self.starts):
            return len(self.data)
        line = self.line(number)
        if self.encoding == UTF_8 or line.isascii():
            return self.starts[number] + min(count, len(line))
        units = line.decode("utf-8", "surrogatepass").encode("utf-16-le", "surrogatepass")
        if 0 < 2 * count < len(units) and int.from_bytes(units[2 * count - 2 : 2 * count], "little") in FIRST_HALVES:
            # A position within a character is that of its beginning.
            count -= 1
        return self.starts[number] + len(bytes_of(units[: 2 * count].decode("utf-16-le", "surrogatepass")))

    def position(self, offset: int) -> Dict[str, int]:
        number = self.line_of(offset)
        front = self.data[self.starts[number] : offset]
        if self.encoding == UTF_8 or front.isascii():
            return {"line": number, "character": len(front)}
        text = front.decode("utf-8", "surrogatepass" if is_whole(front) else "ignore")
        return {"line": number, "character": len(text.encode("utf-16-le", "surrogatepass")) // 2}

    def range(self, start: int, end: int) -> EditorRange:
        return {"start": self.position(start), "end": self.position(end)}

    def offset_of_column(self, line: int, column: int) -> int:
        """Returns the offset of a line and a column, both from 0, where the column counts characters as Python does."""
        number = min(line, len(self.starts) - 1)
        text = self.line(number).decode("utf-8", "surrogateescape")[:column]
        return self.starts[number] + len(text.encode("utf-8", "surrogateescape"))


def is_whole(text: bytes) -> bool:
    """Returns whether a text ends with a whole character."""
    try:
        text.decode("utf-8", "surrogatepass")
    except UnicodeDecodeError:
        return False
    return True
