"""Says what a change of C source does to its printf formats."""

import collections
import functools
import os
from typing import Any, Callable, Dict, Iterable, Iterator, Optional, Sequence

from ..compiling.git import FileChange, Git
from ..compiling.libclang import MISSING, cindex
from ..compiling.options import add_compiling, add_fail_on
from ..compiling.retargeting import write_headers
from ..formats.verdicts import PairKind
from ..frame.command_line import MODELS, USAGE, Parser, counted, status_of
from ..frame.findings import ERROR, Printer, by_place
from ..frame.interrupting import temporary_folder
from ..frame.processes import in_order
from ..frame.visible import visible
from ..source.files import Unreadable
from .call_fitting import Fitting
from .diff_reports import FAULTS, RULES, DiffQuestion, DiffReport, report_on, report_without
from .trees import changes_of

NAME = "fmtcanon-diff"
DESCRIPTION = """\
Finds the string literals of C source that changed, and says of each that has a conversion specification whether the \
new format takes the same arguments and prints the same bytes as the old.

OLD and NEW are two files or two folders. With --git it compares two revisions, a revision and the work tree, or HEAD \
and the work tree; with --cached, what is staged instead of the work tree. PATHs are those of git. In folders, hidden \
files and folders and files that git ignores are left out."""
EPILOG = f"""\
Examples:
  fmtcanon-diff old.c new.c
  fmtcanon-diff --git main -- src
  fmtcanon-diff --fail-on types,rejected release-1.0 release-1.1

A place is one or more adjacent string literals, with macros of <inttypes.h> and those that the file defines as \
literals. Other macros and wide literals are not judged. Arguments of puts, fputs, asm, and of functions such as scanf \
and strftime are not formats. Arguments are counted from 1, as in %1$d. Literals that were added or removed are \
counted. Files are compared one by one, renamed ones too. A submodule that changed is named.

The kinds of findings are {', '.join(RULES)}.

Exit status:
  0  no finding has a kind that --fail-on names
  1  a finding has one
  2  usage error, or a file or git can't be read"""


def parser() -> Parser:
    """Returns the definition of the command line."""
    usage = "fmtcanon-diff [OPTION]... OLD NEW\n       fmtcanon-diff [OPTION]... --git [REV [REV]] [-- PATH...]"
    made = Parser(NAME, usage, DESCRIPTION, EPILOG)
    made.add_argument("--git", action="store_true", help="compare what git has")
    made.add_argument(
        "--cached", action="store_true", help="with --git, compare what is staged with a revision or HEAD"
    )
    fits = " of the new tree: other types are a note if the new call fits, and added formats are judged in their calls"
    add_compiling(made, fits)
    made.add_argument(
        "--not-printf",
        action="append",
        default=[],
        metavar="NAME",
        help="a function whose arguments are not formats of printf; may be given more than once",
    )
    made.add_argument("--verbose", action="store_true", help="also report what is the same")
    add_fail_on(made, tuple(RULES), FAULTS)
    made.add_model("in which the formats are compared")
    made.add_output()
    made.add_color()
    made.add_jobs("files")
    made.add_argument(
        "operands", metavar="OLD NEW", nargs="*", help="two files or two folders; with --git at most two revisions"
    )
    return made


def changes_for(options: Any, paths: Sequence[str], expect: Callable[[int], None]) -> Iterator[FileChange]:
    """Returns what the operands say is to be compared."""
    if options.git:
        return Git().changes(options.operands or ["HEAD"], paths, options.exclude, options.cached, expect)
    old, new = options.operands
    return changes_of(old, new, options.exclude, expect)


def fitting_in(options: Any, folder: str) -> Optional[Fitting]:
    """Returns what says whether new formats fit their calls, if it is asked for. The folder gets its headers."""
    if not options.database and not options.flag:
        return None
    if cindex is None:
        raise Unreadable(MISSING)
    try:
        return Fitting(options, write_headers(folder), MODELS[options.model])
    except OSError as error:
        raise Unreadable(str(error)) from error


def functions_of(options: Any) -> Dict[bytes, Optional[int]]:
    """Returns the index of the format of each function that the options name, or None if it takes none."""
    given: Dict[bytes, Optional[int]] = {os.fsencode(name): shape.format for name, shape in options.function}
    return {**given, **dict.fromkeys(map(os.fsencode, options.not_printf))}


def summary(counts: Dict[str, int]) -> str:
    """Returns what is said at the end: how many formats were judged, with what verdict, and how many came and went."""
    fitting = f", {counts['fits']} of them fitting" if counts["fits"] else ""
    judged = ", ".join(
        f"{counts[it.value]} {text}"
        for it, text in [
            (PairKind.SAME, "equivalent"),
            (PairKind.WORDS, "with other words"),
            (PairKind.DIFFERENT, "printing differently"),
            (PairKind.TYPES, f"taking different types{fitting}"),
            (PairKind.DIRECTIVES, "with other directives"),
            (PairKind.REJECTED, "rejected now"),
            (PairKind.UNJUDGED, "not judged"),
        ]
        if counts[it.value]
    )
    changed = sum(counts[it.value] for it in PairKind)
    came = f"{counts['came']} literals added"
    if counts["formats"]:
        came += f", with {counts['judged']} of {counts['formats']} formats judged in their calls"
    return f"{counted(changed, 'format')} changed{judged and ': '}{judged}; {came}, {counts['went']} removed"


def run(changes: Iterable[DiffReport], printer: Printer, counts: Dict[str, int], is_verbose: bool) -> int:
    """Prints the reports, counts what they have, and returns the exit status."""
    status = 0
    for report in changes:
        for finding in by_place(report.findings):
            # What isn't compared as a whole isn't a place.
            counts[finding.kind] += finding.line > 0
            counts["fits"] += "fits" in finding.details
            if is_verbose or finding.kind != PairKind.SAME.value or finding.level == ERROR:
                printer.add(finding)
            if finding.level == ERROR:
                status = max(status, 1)
        for name in ("came", "went", "formats", "judged"):
            counts[name] += getattr(report, name)
        if report.error:
            printer.say(f"{NAME}: {visible(report.error)}")
            status = USAGE
    return status


def main(words: Optional[Sequence[str]] = None) -> int:
    made = parser()
    options, more = made.parsed(words)
    if not options.git:
        options.operands, more = [*options.operands, *more], []
    if options.git and len(options.operands) > 2:
        made.error("--git takes at most two revisions; give paths after --")
    if options.cached and (not options.git or len(options.operands) > 1):
        made.error("--cached needs --git, and takes at most one revision")
    if not options.git and len(options.operands) != 2:
        made.error("give OLD and NEW, or --git")
    if (options.database or options.flag) and options.git and not is_of_work_tree(options):
        made.error(f"{'-p' if options.database else '--flag'} needs the work tree as the new one")
    return status_of(NAME, lambda: diff(options, more))


def is_of_work_tree(options: Any) -> bool:
    """Returns whether git compares with the work tree."""
    return not options.cached and len(options.operands) < 2 and ".." not in "".join(options.operands)


def diff(options: Any, paths: Sequence[str]) -> int:
    """Compares what the operands name, and returns the exit status."""
    printer = Printer(NAME, options.output, RULES, color=options.color)
    counts: Dict[str, int] = collections.Counter()
    try:
        with temporary_folder() as folder:
            fitting = fitting_in(options, folder)
            models, functions = MODELS[options.model], functions_of(options)
            question = DiffQuestion(models, options.fail_on, printer.has_excerpts, functions, fitting)
            work = functools.partial(report_on, question=question)
            changes = changes_for(options, paths, printer.progress.expect)
            # Only libclang may end a process.
            reports = in_order(work, changes, options.jobs, instead=report_without if fitting else None)
            found = printer.progress.each(reports)
            status = run(found, printer, counts, options.verbose)
    except Unreadable as error:
        printer.say(f"{NAME}: {visible(str(error))}")
        status = USAGE
    printer.end()
    if sum(counts.values()):
        printer.say(summary(counts))
    return status
