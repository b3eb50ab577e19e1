"""How lines are laid out: how wide they are, and what is in colour. On a terminal a finding has its source below it."""

from __future__ import annotations

import os
import shutil
import textwrap
import unicodedata
from typing import Any, Iterator, List, NamedTuple, Optional, Sequence

# How many columns a line has that is not for a terminal, and at least.
WIDTH, NARROWEST = 104, 40
PLAIN, CARETS, PLACE = "\x1b[0m", "\x1b[1;36m", "\x1b[1m"
# The colours of findings, by their levels.
LEVELS = {"error": "\x1b[1;31m", "warning": "\x1b[1;35m", "note": "\x1b[1;36m"}
COLORS = ("auto", "always", "never")


class Style(NamedTuple):
    """How many columns a line has, whether there are colours, and whether a terminal shows it."""

    width: int
    is_coloured: bool
    is_terminal: bool = False

    def painted(self, text: str, colour: str) -> str:
        return f"{colour}{text}{PLAIN}" if self.is_coloured and text else text

    def carets(self, count: int, colour: str = CARETS) -> str:
        return self.painted("^" * max(count, 1), colour)


def style_of(color: str, stream: Optional[Any]) -> Style:
    """Returns how lines are laid out on a stream, by the value of --color."""
    is_terminal = stream is not None and stream.isatty()
    # A terminal of 80 columns has room for 79 characters and the cursor.
    width = max(shutil.get_terminal_size().columns - 1, NARROWEST) if is_terminal else WIDTH
    is_coloured = color == "always" or (color == "auto" and is_terminal and not os.environ.get("NO_COLOR"))
    return Style(width, is_coloured, is_terminal)


def columns(text: str) -> int:
    """Returns how many columns of a terminal a text takes."""
    wide = sum(unicodedata.east_asian_width(it) in "WF" for it in text)
    return len(text) + wide - sum(bool(unicodedata.combining(it)) for it in text)


def wrapped(text: str, width: int, indent: str = "") -> List[str]:
    """Returns a text as lines, all but the first indented. A word that is too long keeps its line."""
    return textwrap.wrap(
        text, max(width, NARROWEST), subsequent_indent=indent, break_long_words=False, break_on_hyphens=False
    )


def beside(mark: str, mark_columns: int, start: int, words: Sequence[str], width: int) -> Iterator[str]:
    """Yields a mark, with wrapped words to its right that begin in a column."""
    lines = [line for it in words for line in wrapped(it, width - start)] or [""]
    yield f"{mark}{' ' * (start - mark_columns)}{lines[0]}".rstrip()
    for line in lines[1:]:
        yield " " * start + line
