"""The command line of fmtcanon-check."""

import argparse
import os
import re
from typing import Any, Optional, Sequence, Tuple

from ..compiling.options import add_compiling, add_fail_on, add_writing
from ..compiling.platforms import COMPILED
from ..fitting.reporting import ERRORS, RULES
from ..frame.command_line import Parser

NAME = "fmtcanon-check"
USAGE = """\
fmtcanon-check [OPTION]... -p DIR [FILE...]
       fmtcanon-check [OPTION]... FILE...
       fmtcanon-check [OPTION]... --git [REV] [FILE...]"""
DESCRIPTION = """\
For each call of a printf function in C source, it reports whether the arguments match the format: where it is \
compiled, on 32-bit systems, also with a 64-bit time_t, and on 64-bit Windows. It proposes a directive that is right \
on all of them.

Each file is preprocessed by its own compiler, for 64-bit Unix. In that text, the types of the C library get those of \
each platform, and libclang (the package python3-clang) parses it for that platform, whose headers are not needed.

FILE is a file or a folder, whose C and C++ files are all read. Without one, all files of the compile commands in -p \
are read."""
EPILOG = f"""\
Examples:
  fmtcanon-check src/*.c
  fmtcanon-check -p build --model ilp32
  fmtcanon-check -p build --diff
  fmtcanon-check -p build --git main...

Functions of the C library's printf family, as its headers declare them, and those with the attribute \
format(printf, m, n) are known; and those that hand their format and their further arguments on to a function that \
prints as vprintf does, in any file of the compile commands, or else of the folders of the files. Integers are \
compared by size, rank and sign; other arguments must have the type that the directive takes. Arguments are counted \
from 1, as in %1$d.

Calls whose formats can't be read are counted in the last line. It names the other variadic functions that get ten \
literals with % or more, with the option --function for each.

The kinds of findings are {', '.join(RULES)}.

Exit status:
  0  no finding has a kind that --fail-on names
  1  a finding has one
  2  usage error, a file wasn't judged, or an output can't be written

A header that is given is judged with the files that include it."""
# Types of C that --type may name, apart from typedefs of the C library.
INTEGER = re.compile(r"(?:(?:un)?signed )?(?:char|short|int|long|long long)")


def parser() -> Parser:
    """Returns the definition of the command line."""
    made = Parser(NAME, USAGE, DESCRIPTION, EPILOG)
    made.add_model("that are reported, while a proposal fits all of them")
    add_compiling(made, "; without FILE all its files are read")
    type = "the typedef NAME is TYPE, an integer type or one of the C library, whatever #if chose"
    made.add_argument("--type", action="append", default=[], type=type_of, metavar="NAME=TYPE", help=type)
    for option, text in [
        ("--rank", "also report arguments of the right size and the wrong type, as long and long long"),
        ("--sign", "also report arguments that differ only in signedness"),
        ("--composed", "also report directives of several literals, once for each file and type"),
        ("--unread", "also list the calls whose formats can't be read"),
    ]:
        made.add_argument(option, action="store_true", help=text)
    git = "report only what is in lines that differ from REV, or HEAD, and in calls and formats that have such lines; \
REV... is where HEAD left REV"
    made.add_argument("--git", nargs="?", const="HEAD", metavar="REV", help=git)
    made.add_argument("--cached", action="store_true", help="with --git, judge what is staged instead of the work tree")
    shard = "judge the I-th of N parts of the files, which together are all"
    made.add_argument("--shard", type=shard_of, default=(1, 1), metavar="I/N", help=shard)
    baseline = "report only what FILE doesn't have; if it isn't there, all that is found is reported and recorded in it"
    made.add_argument("--baseline", metavar="FILE", help=baseline)
    update = "record what is found now in the FILE of --baseline"
    made.add_argument("--update-baseline", action="store_true", help=update)
    add_fail_on(made, tuple(RULES), ERRORS)
    add_writing(made, "write what is proposed where only a length modifier changes and the program prints the same")
    wrong = "with --fix, also write what is wrong where it is compiled: there the program prints something else then"
    made.add_argument("--wrong", action="store_true", help=wrong)
    made.add_argument("--no-cache", action="store_true", help="keep nothing, and judge again what is kept")
    made.add_output()
    made.add_color()
    made.add_jobs("files")
    made.add_argument("files", metavar="FILE", nargs="*", help="files or folders")
    return made


def type_of(word: str) -> Tuple[str, str]:
    """Returns the two names of `NAME=TYPE`."""
    found = re.fullmatch(r"([A-Za-z_]\w*)=([\w ]+)", word)
    if not found:
        raise argparse.ArgumentTypeError(f"{word!r} isn't NAME=TYPE")
    if found[2] not in COMPILED.types and not INTEGER.fullmatch(found[2]):
        raise argparse.ArgumentTypeError(f"{found[2]!r} is neither an integer type nor a typedef of the C library")
    return found[1], found[2]


def shard_of(word: str) -> Tuple[int, int]:
    """Returns the two numbers of `I/N`."""
    found = re.fullmatch(r"([1-9]\d*)/([1-9]\d*)", word)
    if not found or int(found[1]) > int(found[2]):
        raise argparse.ArgumentTypeError(f"{word!r} isn't I/N, as 1/4 to 4/4")
    return int(found[1]), int(found[2])


def parsed(words: Optional[Sequence[str]]) -> Any:
    """Returns the options, with `files`. A usage error ends the command."""
    made = parser()
    options, more = made.parsed(words)
    options.files += more
    check_combination(made, options)
    return options


def check_combination(made: Parser, options: Any) -> None:
    """Ends the command with a usage error if options don't go together."""
    if options.cached and not options.git:
        made.error("--cached needs --git")
    if options.cached and is_writing(options):
        made.error("--cached isn't for --fix, --dry-run and --diff")
    if not options.files and not options.database and not options.git:
        made.error("give files or folders, or the folder of a compile_commands.json, or --git")
    if options.update_baseline and not options.baseline:
        made.error("--update-baseline needs --baseline")
    if options.baseline and is_writing(options):
        made.error("--baseline isn't for --fix, --dry-run and --diff")
    is_recorded = options.baseline and (options.update_baseline or not os.path.lexists(options.baseline))
    if is_recorded and (options.git or options.shard != (1, 1)):
        made.error("a baseline is recorded without --git and --shard")


def is_writing(options: Any) -> bool:
    """Returns whether fixes are asked for, and not findings alone."""
    return bool(options.fix or options.diff or options.dry_run)
