"""Says on a terminal how far long work is: files done, of how many. Nothing is said into a pipe or in the first second.
"""

from __future__ import annotations

import sys
import time
from typing import Iterable, Iterator, TypeVar

from .output import Unwritable, write

# After how many seconds something is said, and how often.
BEGIN, EVERY = 1.0, 0.2
CLEAR = b"\r\x1b[K"
_Item = TypeVar("_Item")


class Progress:
    """A line on standard error that is written again and again, while results of files come."""

    def __init__(self) -> None:
        self.count = 0
        self.is_shown = False
        self.is_terminal = sys.stderr is not None and sys.stderr.isatty()

    def expect(self, more: int) -> None:
        """Notes that there are more files, or fewer, to be done."""
        self.count += more

    def each(self, results: Iterable[_Item]) -> Iterator[_Item]:
        """Yields results, one of each file, and says after each how many files are done."""
        following = time.monotonic() + BEGIN
        try:
            for done, one in enumerate(results, 1):
                yield one
                if self.is_terminal and time.monotonic() >= following:
                    following = time.monotonic() + EVERY
                    self.is_shown = True
                    self.put(CLEAR + f"{done} of {max(self.count, done)} files done".encode())
        finally:
            self.clear()

    def clear(self) -> None:
        """Takes the line away, before another is written and at the end."""
        if self.is_shown:
            self.is_shown = False
            self.put(CLEAR)

    def put(self, data: bytes) -> None:
        try:
            write(sys.stderr, data)
        except (BrokenPipeError, Unwritable):
            self.is_terminal = False
