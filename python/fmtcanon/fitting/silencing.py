"""Which findings the comments of the sources silence, and which of these comments silence nothing."""

import collections
import functools
from typing import Dict, Iterable, Iterator, List, Mapping, Sequence, Set, Tuple

from ..frame.findings import NOTE, Finding
from ..source.comments import OkComment, ok_comments
from ..source.files import bytes_of
from .reporting import RULES, SILENT, UNUSED, shown_file

# A line of a file.
Line = Tuple[str, int]


@functools.lru_cache(maxsize=64)
def comments_of(path: str) -> List[OkComment]:
    """Returns the comments of a file that silence findings; none if it can't be read."""
    return ok_comments(bytes_of(path))


class Silences:
    """The comments that silence what is found in the units of a file, and which of them do."""

    def __init__(self, texts: Mapping[str, bytes] = {}) -> None:
        # What is read instead of these files.
        self.texts = texts
        self.used: Set[Tuple[str, OkComment]] = set()
        self.by_line: Dict[str, Dict[int, List[OkComment]]] = {}

    def comments_of(self, path: str) -> List[OkComment]:
        return ok_comments(self.texts[path]) if path in self.texts else comments_of(path)

    def comments_at(self, path: str, line: int) -> List[OkComment]:
        """Returns the comments that are for a line of a file."""
        if path not in self.by_line:
            self.by_line[path] = collections.defaultdict(list)
            for one in self.comments_of(path):
                for number in range(one.first, one.last + 1):
                    self.by_line[path][number].append(one)
        return self.by_line[path].get(line, [])

    def cover(self, lines: Iterable[Line], kind: str) -> bool:
        """Returns whether comments silence a finding of a kind that has these lines, and notes which."""
        found = {(path, it) for path, line in lines for it in self.comments_at(path, line) if it.is_for(line, kind)}
        self.used |= found
        return bool(found)

    def unused(self, path: str) -> Iterator[Finding]:
        """Yields a note for each comment of a file that silences nothing."""
        for comment in self.comments_of(path):
            others = [it for it in comment.kinds if it not in RULES or it in SILENT]
            if others or (path, comment) not in self.used:
                yield unused_finding(path, comment, others)


def unused_finding(path: str, comment: OkComment, others: Sequence[str]) -> Finding:
    if others:
        message = f"the comment names {others[0]!r}, which isn't a kind of findings that it can silence"
    elif comment.first <= comment.line:
        message = "the comment silences nothing: after code it is for its line, and alone for the next"
    else:
        message = "the comment silences nothing: alone in its line, it is for the next"
    return Finding(shown_file(path), comment.line, comment.column, UNUSED, NOTE, message)
