"""Replaces printf formats in C source by others that mean the same."""

import sys
from typing import Any, Iterator, List, Optional, Sequence

from ..compiling.libclang import MISSING, cindex
from ..compiling.sources import Files, Name
from ..formats.explaining import reject
from ..formats.layout import rejection_lines
from ..frame.command_line import MODELS, USAGE, status_of
from ..frame.findings import Printer
from ..frame.output import complain, put
from ..frame.terminals import style_of
from ..models import Model
from ..rewriting.writing import replace
from ..source.files import Unreadable, read
from . import listing
from .replace_options import NAME, parsed
from .pairs import Wrong
from .replacer import Replacer

NO_FILES = "give files or folders, or the folder of a compile_commands.json"


def list_formats(options: Any, names: Sequence[Name]) -> int:
    """Prints the formats of the files, or the functions that they are arguments of. Returns the exit status."""
    models, status = MODELS[options.model], 0
    listed: List[listing.Listed] = []
    for name in names:
        try:
            listed += listing.listed_in(name.shown, read(name.shown), models)
        except Unreadable as error:
            complain(str(error))
            status = USAGE
    if options.list_functions:
        given = dict(options.function)
        lines = [line for line, _ in listing.functions(listed, given)] if names else listing.known_functions(given)
        for line in lines:
            put(sys.stdout, line)
        return status
    printer = Printer(NAME, options.output, listing.RULES, color=options.color)
    for number, group in enumerate(listing.groups(listed)):
        if options.output == "text":
            put(sys.stdout, ("\n" if number else "") + listing.heading(group))
        for one in group:
            printer.add(listing.finding_of(one, models))
    printer.end()
    return status


def run(options: Any) -> int:
    is_list = options.list or options.list_functions
    if cindex is None and (options.database or not is_list):
        raise Wrong(MISSING)
    files = Files(options)
    names = list(files.names(is_list))
    if not names and not options.files and not options.list_functions:
        raise Wrong(NO_FILES)
    return list_formats(options, names) if is_list else replace(options, Replacer(options, files), names)


def main(words: Optional[Sequence[str]] = None) -> int:
    return status_of(NAME, lambda: guarded(parsed(words)))


def guarded(options: Any) -> int:
    """Runs the command, and returns the exit status, also if it can't be run."""
    try:
        return run(options)
    except BrokenPipeError:
        raise
    except (Wrong, Unreadable, OSError) as error:
        complain(f"{NAME}: {error}")
        for line in refused_lines(error, options.color) if isinstance(error, Wrong) else ():
            complain(line)
        return USAGE


def refused_lines(wrong: Wrong, color: str) -> Iterator[str]:
    """Yields, for a terminal, the format that is rejected with a caret under its byte, and what helps."""
    style = style_of(color, sys.stderr)
    if wrong.refusal is not None and style.is_terminal:
        yield from rejection_lines(reject(wrong.format, wrong.refusal, Model.LP64), Model.LP64, style)
