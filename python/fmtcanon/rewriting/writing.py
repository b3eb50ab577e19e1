"""Reports what is found, and then replaces the files: so nothing is replaced that wasn't reported, and when the command
is ended early it says what was.
"""

import sys
from concurrent.futures import ThreadPoolExecutor, wait
from typing import Any, Callable, Iterable, Iterator, List, NoReturn, Sequence, TypeVar

from ..compiling.left import Left
from ..compiling.sources import Name
from ..frame.command_line import USAGE
from ..frame.findings import Printer, by_place
from ..frame.interrupting import LOOK, Interrupted, Signals, clean, end, interruptible
from ..frame.output import Unwritable, complain, write
from ..rewriting.rewriter import Report
from .rewritten_files import put_in_place
from .rewriter import Rewriter

_Result = TypeVar("_Result")


class Threads(ThreadPoolExecutor):
    """Threads whose results can be waited for with an end by a signal."""

    def map(self, fn: Callable[..., _Result], *iterables: Iterable[Any], **_: Any) -> Iterator[_Result]:
        for future in [self.submit(fn, *it) for it in zip(*iterables)]:
            while not future.done():
                wait([future], LOOK)
            yield future.result()


def replace(options: Any, replacer: Rewriter, names: Sequence[Name]) -> int:
    """Judges the files, reports each in its order, and replaces them. Returns the exit status."""
    pool = Threads(max(options.jobs, 1))
    changed: List[str] = []
    with interruptible() as signals:
        try:
            with signals.raised():
                reports = [as_it_is(replacer, it) for it in replacer.reports(names, pool)]
                print_reports(options, replacer, reports)
                status = max((status_of(it, options.fail_on) for it in reports), default=0)
                if options.dry_run or options.diff:
                    return status
                return max(status, put_all_in_place(reports, signals, changed))
        except Interrupted as interrupted:
            replacer.progress.clear()
            end_early(pool, replacer.name, interrupted.number, changed)
        finally:
            pool.shutdown(wait=False)


def status_of(report: Report, fail_on: Sequence[str]) -> int:
    """Returns the exit status of the report on a file."""
    return USAGE if report.error or report.is_skipped else int(any(it.kind in fail_on for it in report.findings))


def as_it_is(replacer: Rewriter, report: Report) -> Report:
    """Returns the report on a file, or on one that has changed since it was read."""
    try:
        is_as_read = report.original is None or report.original.is_as_read()
    except OSError:
        is_as_read = False
    return report if is_as_read else replacer.left(report.name, "it was changed meanwhile")


def print_reports(options: Any, replacer: Rewriter, reports: Sequence[Report]) -> None:
    """Prints the reports. Raises Unwritable before a file is replaced."""
    stream = sys.stderr if options.diff else None
    printer = Printer(replacer.name, options.output, replacer.rules, stream, options.color)
    try:
        for report in reports:
            if report.diff:
                write(sys.stdout, report.diff)
            for finding in by_place(report.findings):
                printer.add(finding)
            if report.error:
                complain(report.error)
        printer.end()
    except Unwritable as error:
        raise Unwritable(f"{error}; no file was changed") from error


def put_all_in_place(reports: Sequence[Report], signals: Signals, changed: List[str]) -> int:
    """Replaces the files, and notes their names. Returns the exit status."""
    status = 0
    for report in reports:
        if report.original is not None:
            with signals.held():
                try:
                    put_in_place(report.original, report.after)
                    changed.append(report.name)
                except (Left, OSError) as error:
                    complain(f"{report.name}: it couldn't be replaced: {getattr(error, 'strerror', None) or error}")
                    status = USAGE
    return status


def end_early(pool: ThreadPoolExecutor, name: str, number: int, changed: Sequence[str]) -> NoReturn:
    """Ends the command early, without its copies of files, and says what was changed."""
    pool.shutdown(wait=False)
    clean()
    complain(f"{name}: interrupted; " + (f"changed: {', '.join(changed)}" if changed else "no file was changed"))
    end(number)
