"""Checks the C formats of message catalogs: a translation must take the arguments of its message."""

import collections
import errno
import functools
import os
import sys
from typing import Any, Dict, Hashable, Iterator, List, NamedTuple, Optional, Sequence, Set, Tuple, Union

from ..frame.command_line import MODELS, Parser, counted, status_of
from ..frame.findings import Finding, Printer, by_place
from ..frame.output import Unwritable
from ..frame.processes import in_order
from ..models import Model
from ..source import files as source_files
from ..catalogs.catalog_checking import RULES, UNJUDGED, Checker, Right

NAME = "fmtcanon-po"
# Up to fewer catalogs than these are read by one process.
FEW = 8
DESCRIPTION = """\
Checks the C formats of message catalogs.

FILE is a .po or .mo file, or - for standard input. Each translated message with the flag c-format or \
possible-c-format is checked, except fuzzy and obsolete ones. The translation must take arguments of the same types, \
in the same order. A plural form and msgid must take those of msgid_plural. A form that is used for at most four \
numbers, as 'one file' is, may leave out the last arguments. There must be as many forms as nplurals of the header \
says, and its expression must give no other. Message and translation must agree on a leading and a trailing newline.

A .mo file doesn't say which messages are C formats. Each one with a % is checked, and a fault that only a C format \
has is a warning unless --c-format is given. Messages of a .mo file have numbers instead of lines.

Formats are those of POSIX fprintf, with numbered arguments, *, floating conversions, %p and %n. %m takes no argument. \
The argument of a macro of <inttypes.h>, such as %<PRIu64>, has its own type."""
EPILOG = """\
Examples:
  fmtcanon-po po/*.po
  fmtcanon-po --model lp64 --output sarif -j 4 po/*.po > po.sarif

A fault is reported on standard error, as by `msgfmt -c`: the file, the line, the reason and the message. A terminal \
also shows the lines of the catalog. Arguments are counted from 1, as in %1$d. If only the message is not a C format, \
its translation can't be judged, which is a warning, once for all catalogs. It is a warning, too, if a translation \
prints an int as something else, as %c for %d, or if some of its plural forms are empty. The last lines count the \
messages that were judged and that were not, the faults, and the messages with formats of other languages, which are \
not judged.

Exit status:
  0  there is no fault
  1  there is a fault, or a file can't be read
  2  usage error"""


def parser() -> Parser:
    """Returns the definition of the command line."""
    made = Parser(NAME, "fmtcanon-po [OPTION]... FILE...", DESCRIPTION, EPILOG)
    made.add_model("in which the types must be the same, since %%zu is not a translation of %%lu on every machine")
    made.add_argument(
        "--c-format",
        action="store_true",
        help="check every message that has a %%, except those with the flag no-c-format",
    )
    made.add_argument("--strict", action="store_true", help="exit with status 1 also if something could not be judged")
    made.add_output()
    made.add_color()
    made.add_jobs("catalogs")
    made.add_argument("files", metavar="FILE", nargs="*", help="a catalog, or - for standard input")
    return made


class Checked(NamedTuple):
    """What was found in a catalog, and how many messages were judged, not judged, faulty, or of another language."""

    findings: Sequence[Finding]
    judged: int
    unjudged: int
    faults: int
    others: Dict[str, int]


# The name of a catalog. Of standard input also its bytes, or why they can't be read.
Given = Tuple[str, Union[bytes, str, None]]


def catalogs(files: Sequence[str]) -> Iterator[Given]:
    """Yields the catalogs. Standard input is read here, since other processes don't have it."""
    for file in files:
        yield file, standard_input() if file == "-" else None


def standard_input() -> Union[bytes, str]:
    try:
        if sys.stdin is None:
            raise OSError(errno.EBADF, os.strerror(errno.EBADF))
        return sys.stdin.buffer.read()
    except OSError as error:
        return str(error.strerror)


def read_file(file: str) -> Union[bytes, str]:
    """Returns the bytes of a file, or why it can't be read."""
    try:
        return source_files.read_file(file, is_given=True).data
    except OSError as error:
        return str(error.strerror)


def check_catalog(catalog: Given, models: Sequence[Model], is_all: bool, is_shown: bool = False) -> Checked:
    file, given = catalog
    findings: List[Finding] = []
    checker = Checker(findings.append, models, is_all, remembered(tuple(models)), is_shown)
    data = read_file(file) if given is None else given
    if isinstance(data, str):
        checker.report(file, 0, f"it can't be read: {data}")
    else:
        checker.check_data(file, data)
    return Checked(findings, checker.judged, checker.unjudged, checker.faults, checker.others)


@functools.lru_cache(maxsize=1)
def remembered(models: Tuple[Model, ...]) -> Right:
    """Returns what this process has found right in these data models, for its next catalogs."""
    return set()


def main(words: Optional[Sequence[str]] = None) -> int:
    made = parser()
    options, more = made.parsed(words)
    if not options.files + more:
        made.error("give the catalogs")
    return status_of(NAME, lambda: check(options, [*options.files, *more]))


def check(options: Any, files: Sequence[str]) -> int:
    """Checks the catalogs, and returns the exit status."""
    if options.output == "text" and sys.stderr is None:
        raise Unwritable("standard error is closed")
    stream = sys.stderr if options.output == "text" else None
    printer = Printer(NAME, options.output, RULES, stream, options.color)
    is_shown = printer.has_excerpts
    work = functools.partial(check_catalog, models=MODELS[options.model], is_all=options.c_format, is_shown=is_shown)
    judged = unjudged = faults = repeated = 0
    others: Dict[str, int] = collections.Counter()
    seen: Set[Hashable] = set()
    printer.progress.expect(len(files))
    for one in printer.progress.each(in_order(work, catalogs(files), options.jobs, FEW)):
        for finding in by_place(one.findings):
            message = finding.details.get("msgid") if finding.kind == UNJUDGED else None
            if message is not None and (message, finding.formats) in seen:
                repeated += 1
                continue
            seen.add((message, finding.formats))
            printer.add(finding)
        judged, unjudged, faults = judged + one.judged, unjudged + one.unjudged, faults + one.faults
        for flag, count in one.others.items():
            others[flag] += count
    printer.end()
    printer.say(f"{counted(judged, 'message')} judged, {unjudged} not judged")
    if repeated:
        printer.say(f"{counted(repeated, 'more warning')} about the same messages")
    if faults:
        printer.say(f"found {counted(faults, 'fatal error')}")
    if others:
        listed = ", ".join(f"{count} {flag}" for flag, count in sorted(others.items()))
        printer.say(f"{counted(sum(others.values()), 'message')} of other formats not judged: {listed}")
    return 1 if faults or (options.strict and unjudged) else 0
