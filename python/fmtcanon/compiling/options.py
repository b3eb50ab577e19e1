"""The options of the commands that read C source: a word has one meaning in all of them. Arguments count from 1."""

import argparse
import re
from typing import Sequence, Tuple

from ..frame.command_line import Parser
from ..source.known import Shape

FUNCTION = re.compile(r"([A-Za-z_]\w*):(\d+)(?::(\d+))?")
FUNCTION_HELP = """\
NAME takes a format as its argument FORMAT, which converts those from FIRST on: counted from 1, as in the attribute \
format(printf, m, n). Without FIRST, those after FORMAT; 0 is for a va_list"""


def add_compiling(made: Parser, database: str) -> None:
    """Adds the options that say how files are compiled, which functions take formats, and which files are left out.
    `database` is what -p does besides.
    """
    folder = f"the folder of compile_commands.json{database}"
    made.add_argument("-p", metavar="DIR", dest="database", help=folder)
    flag = "without -p, a flag of the compile command, which is cc: --flag=-Iinclude"
    made.add_argument("--flag", action="append", default=[], metavar="FLAG", help=flag)
    form = "NAME:FORMAT[:FIRST]"
    made.add_argument("--function", action="append", default=[], type=function_of, metavar=form, help=FUNCTION_HELP)
    exclude = "leave out files and folders whose name or path matches; may be given more than once"
    made.add_argument("--exclude", action="append", default=[], metavar="GLOB", help=exclude)


def add_fail_on(made: Parser, kinds: Sequence[str], default: Sequence[str]) -> None:
    """Adds the option for the kinds of findings that set the status."""

    def kinds_of(text: str) -> Tuple[str, ...]:
        found = tuple(filter(None, text.split(",")))
        for kind in found:
            if kind not in kinds:
                raise argparse.ArgumentTypeError(f"{kind!r} is not a kind: use {', '.join(kinds)}")
        return found

    help = f"the kinds of findings for which the status is 1; by default {','.join(default)}"
    made.add_argument("--fail-on", type=kinds_of, default=tuple(default), metavar="KIND,..", help=help)


def add_writing(made: Parser, fix: str) -> None:
    """Adds the options that say what is written; `fix` is what --fix does."""
    attribute = "also write formats of functions that only the attribute format(printf, m, n) makes known"
    made.add_argument("--attribute", action="store_true", help=attribute)
    modes = made.add_mutually_exclusive_group()
    modes.add_argument("--fix", action="store_true", help=fix)
    modes.add_argument("--dry-run", action="store_true", help="report what --fix would do, and change no file")
    diff = "print what --fix would do as a unified diff, and change no file; findings go to standard error"
    modes.add_argument("--diff", action="store_true", help=diff)


def function_of(word: str) -> Tuple[str, Shape]:
    """Returns the name and the indexes that `NAME:FORMAT[:FIRST]` gives."""
    found = FUNCTION.fullmatch(word)
    format, first = (int(found[2]), int(found[3] or int(found[2]) + 1)) if found else (0, 0)
    if not found or not format or (first and first <= format):
        raise argparse.ArgumentTypeError(f"{word!r} isn't NAME:FORMAT[:FIRST], counted from 1")
    return found[1], Shape(format - 1, first - 1 if first else None)
