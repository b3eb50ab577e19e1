"""The files that are judged, and what is left or skipped, and why."""

import os
from typing import Any, Iterable, Iterator, Optional

from ..compiling.compile_commands import SOURCES
from ..compiling.sources import NO_COMMAND, Files
from ..fitting.asking import job_of
from ..fitting.checking import Answer, Job, Question
from ..source.files import SOURCES as WITH_HEADERS
from .changes import GitChange

of_source = WITH_HEADERS.fullmatch
UNSTAGED = "a header has changes that aren't staged"


def jobs_of(files: Files, question: Question, change: Optional[GitChange] = None) -> Iterator[Job]:
    """Yields what is to be done: for all files, or for those that a change has or that include what it has."""
    if change is None:
        yield from (job_of(files, name, question) for name in files.names())
        return
    names, told = list(files.names()), frozenset(change.renumbered | change.staged.keys())
    included = frozenset(change.lines.keys() - {it.path for it in names if not files.why_skipped(it)})
    for name in names:
        if name.path in change.lines:
            job = job_of(files, name, question, change.staged.get(name.path))
            yield job._replace(told=told)
        elif included and not files.why_skipped(name):
            yield job_of(files, name, question, among=included)._replace(told=told)
    for path in sorted(filter(of_source, included & change.staged.keys())):
        yield Job(path, (), question, UNSTAGED)
    if not files.options.files:
        for path in sorted(filter(SOURCES.fullmatch, included)):
            yield Job(path, (), question, why_skipped=NO_COMMAND)
    for path, one in change.others.items():
        yield Job(path, (), question, one.error, one.why_not)


def jobs_of_included(answers: Iterable[Answer], question: Question, change: Optional[GitChange]) -> Iterator[Job]:
    """Yields the files of other endings that are judged as the work tree has them, and not as they are staged."""
    included = frozenset(path for one in answers for path in one.included)
    for path in sorted(included & change.staged.keys()) if change else ():
        if not of_source(path):
            yield Job(path, (), question, UNSTAGED)


def name_files(options: Any, change: GitChange) -> None:
    """Has the files of a change read if the options name none."""
    if not options.files and not options.database:
        options.files = sorted(os.path.relpath(it) for it in filter(of_source, change.lines))
