"""What a change of a git repository adds: only what is found in its lines, or in calls and formats that have one of
these, is reported.
"""

import collections
import difflib
import os
import re
import sys
from typing import Any, Dict, Iterable, Iterator, List, Set, Tuple

from ..compiling.git import FileChange, Git
from ..fitting.checking import Answer, Found
from ..source.files import SOURCES, Unreadable, bytes_of

# The first and the last of lines that a change adds. If it removes some and adds none, the last is before the first.
Lines = Tuple[int, int]
MERGE_BASE = "..."
# All lines of a file.
WHOLE = [(1, sys.maxsize)]
# What may be a directive that gives lines other numbers, in a text without spliced lines, and a splice. A comment may
# be before it and in it; what it hides isn't looked at.
LINE_DIRECTIVE = re.compile(
    rb"^(?:[^\n]*\*/)?[ \t\v\f]*(?:#|%:|\?\?=)[ \t\v\f]*(?:line(?![\w$])|\d|/\*)", re.MULTILINE
)
SPLICE = re.compile(rb"(?:\\|\?\?/)[ \t\v\f\r]*\n")
# How many pairs of equal lines are looked at. A line that comes too often for that says nothing about where a change
# is.
PAIRS = 200_000


class GitChange:
    """The files that changed, and their lines."""

    def __init__(self, changes: Iterable[FileChange], is_cached: bool) -> None:
        self.lines: Dict[str, List[Lines]] = {}
        # Those that may give lines other numbers.
        self.renumbered: Set[str] = set()
        # The texts to judge instead of those of the work tree.
        self.staged: Dict[str, bytes] = {}
        # What isn't compared, by its path.
        self.others: Dict[str, FileChange] = {}
        for one in changes:
            path = os.path.realpath(one.name)
            if one.error and not SOURCES.fullmatch(path):
                # A unit may include it all the same.
                self.lines[path] = WHOLE
            elif one.error or one.why_not:
                self.others[path] = one
            elif one.new is not None:
                self.lines[path] = list(changed_lines(one.old or b"", one.new))
                if is_renumbered(one.new):
                    self.renumbered.add(path)
                if is_cached and bytes_of(path) != one.new:
                    self.staged[path] = one.new

    def has(self, found: Found) -> bool:
        """Returns whether a finding is in lines that changed. One of a file as a whole is in all of them."""
        if not found.finding.line:
            return True
        own = os.path.realpath(found.finding.file), found.finding.line, found.finding.line
        return any(self.touches(*it) for it in (own, *found.lines))

    def touches(self, path: str, first: int, last: int) -> bool:
        return any(first <= end and start <= last for start, end in self.lines.get(path, ()))

    def part_of(self, answer: Answer) -> Answer:
        """Returns what an answer has in lines that changed, with the fixes for that: all of it if a file that changed,
        or that is included and did, may give lines other numbers.
        """
        is_all = not self.renumbered.isdisjoint({answer.file, *answer.included})
        found = {key: it for key, it in answer.found.items() if is_all or self.has(it)}
        places = {it.place for it in found.values()}
        return answer._replace(found=found, fixes={it: fix for it, fix in answer.fixes.items() if it in places})


def is_renumbered(text: bytes) -> bool:
    """Returns whether a text may have a directive that gives lines other numbers."""
    return bool(LINE_DIRECTIVE.search(SPLICE.sub(b"", text)))


def changed_lines(old: bytes, new: bytes) -> Iterator[Lines]:
    """Yields the lines of a text that another one hasn't, and where it lacks lines of that."""
    first, second = old.split(b"\n"), new.split(b"\n")
    front, most = 0, min(len(first), len(second))
    while front < most and first[front] == second[front]:
        front += 1
    back = 0
    while back < most - front and first[-1 - back] == second[-1 - back]:
        back += 1
    first, second = (it[front : len(it) - back] for it in (first, second))
    counts, most = collections.Counter(second), PAIRS // (len(second) + 1) + 1
    for kind, _, _, start, end in difflib.SequenceMatcher(lambda it: counts[it] > most, first, second).get_opcodes():
        if kind != "equal":
            yield front + start + 1, front + end


def change_of(options: Any) -> GitChange:
    """Returns the change that the options ask about: from a revision, or from where HEAD left it, to the work tree or
    to what is staged.
    """
    git, revision = Git(), options.git
    if os.path.lexists(revision) and not git.has(revision):
        # The word after --git is a file.
        options.files, revision = [revision, *options.files], "HEAD"
    if revision.endswith(MERGE_BASE):
        revision = git.merge_base(revision[: -len(MERGE_BASE)] or "HEAD", "HEAD")
    if ".." in revision:
        raise Unreadable(f"{revision}: give one revision, or REV... for where HEAD left it")
    changes = git.changes([revision], [], options.exclude, options.cached, is_source=lambda _: True)
    return GitChange(changes, options.cached)
