"""The command line of fmtcanon-replace."""

import os
from typing import Any, List, Optional, Sequence, Tuple

from ..compiling.options import add_compiling, add_fail_on, add_writing
from ..frame.command_line import Parser
from .pairs import Wrong, format_of, pairs_in

NAME = "fmtcanon-replace"
REPLACED, SKIPPED = "replaced", "skipped"
RULES = {
    REPLACED: "A format was replaced by another of the same meaning.",
    SKIPPED: "A format was skipped, or a file wasn't judged.",
}
USAGE = """\
fmtcanon-replace [OPTION]... OLD NEW [FILE...]
       fmtcanon-replace [OPTION]... --pairs FILE [FILE...]
       fmtcanon-replace [OPTION]... --list [FILE...]
       fmtcanon-replace [OPTION]... --list-functions [FILE...]"""
DESCRIPTION = """\
Replaces printf formats by others in C source. Nothing is replaced unless both take the same arguments and print the \
same bytes for all of them.

OLD and NEW are formats as C has them between the quotes, so '%i\\n' ends in a newline. A literal is one or more \
adjacent string literals that make up OLD. It is replaced if it is the format of a call of the C library's printf \
family, of a function given by --function, or, with --attribute, of one that is declared with the attribute \
format(printf, m, n). The file's own compiler preprocesses it, and libclang (the package python3-clang) finds the \
calls in that text. The result is preprocessed again, and checked with the warnings of the compile command: only the \
replaced literals may differ. Parts that OLD and NEW share keep their spelling.

FILE is a file or a folder, whose C and C++ files are all read; links out of it are not followed. Without one, all \
files of the compile commands in -p are read. All files are reported before the first is replaced."""
EPILOG = f"""\
Examples:
  fmtcanon-replace --dry-run '%i items' '%d items' src
  fmtcanon-replace -p build --diff '%5.5d' '%.5d'
  fmtcanon-replace --list src

It reports each literal, and says whether it was replaced and, if not, why. It also reports each literal that means \
the same as OLD and is spelled differently, except for one that is already NEW. Arguments are counted from 1, as in \
%1$d.

The kinds of findings are {', '.join(RULES)}.

Exit status:
  0  no finding has a kind that --fail-on names
  1  a finding has one: a literal was skipped
  2  usage error, a rejected format, a file that wasn't judged, or an output
     that can't be written"""
# What isn't a pair of formats and files.
MODES = ("pairs", "list", "list_functions")


def parser() -> Parser:
    """Returns the definition of the command line."""
    made = Parser(NAME, USAGE, DESCRIPTION, EPILOG)
    add_compiling(made, "; without FILE all its files are read")
    made.add_model("in which OLD and NEW must mean the same")
    add_modes(made)
    add_fail_on(made, tuple(RULES), [SKIPPED])
    add_writing(made, "replace the formats: this is the default")
    made.add_output()
    made.add_color()
    made.add_jobs("files")
    made.add_argument("operands", metavar="OLD NEW FILE", nargs="*", help="two formats, and files or folders")
    return made


def add_modes(made: Parser) -> None:
    """Adds the options that say what is done."""
    locale = "the program prints in the POSIX locale only; otherwise a format with the flag ' is skipped"
    formats = "print all formats of the files, grouped by their meaning, and change no file"
    functions = "print the functions that take the formats of the files, or without files those whose formats are known"
    for option, text in [("--posix-locale", locale), ("--list", formats), ("--list-functions", functions)]:
        made.add_argument(option, action="store_true", help=text)
    pairs = "replace the formats of a file that has an OLD and a NEW on each line, with a tab between"
    made.add_argument("--pairs", metavar="FILE", help=pairs)


def parsed(words: Optional[Sequence[str]]) -> Any:
    """Returns the options, with `formats`, the pairs, and `files`. A usage error ends the command."""
    made = parser()
    options, more = made.parsed(words)
    operands: List[str] = [*options.operands, *more]
    modes = [it for it in MODES if getattr(options, it)]
    if len(modes) > 1:
        made.error(f"give one of --{modes[0]} and --{modes[1]}".replace("_", "-"))
    options.formats, options.files = [], operands
    if options.pairs:
        try:
            options.formats = pairs_in(options.pairs)
        except Wrong as wrong:
            made.error(str(wrong))
    elif not modes:
        options.formats, options.files = [pair_of(made, operands)], operands[2:]
    return options


def pair_of(made: Parser, operands: Sequence[str]) -> Tuple[bytes, bytes]:
    """Returns OLD and NEW."""
    if len(operands) < 2:
        made.error(f"the following arguments are required: {', '.join(['OLD', 'NEW'][len(operands):])}")
    formats = []
    for name, operand in zip(("OLD", "NEW"), operands):
        text = format_of(os.fsencode(operand))
        if text is None:
            made.error(f"argument {name}: {operand!r} isn't a format as C has it between the quotes")
        formats.append(text)
    return formats[0], formats[1]
