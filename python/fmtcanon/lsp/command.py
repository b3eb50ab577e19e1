"""Starts the server, which speaks the language server protocol over standard input and output."""

from typing import Optional, Sequence

from .. import version
from ..frame.command_line import Parser, status_of
from .server import Server

NAME = "fmtcanon-lsp"
USAGE_LINES = "fmtcanon-lsp [OPTION]"
DESCRIPTION = """\
A language server for printf formats in C, C++ and message catalogs, over standard input and output.

It says what each directive does and which argument it takes, what is rejected, which parts have no effect, and what \
is wrong with a translation. With libclang it also says what fmtcanon-check finds: then it runs the preprocessors of \
compilers, and writes to a temporary folder."""
EPILOG = """\
Options of the editor, as initializationOptions:
  model          the data models: lp64, ilp32, llp64, both, or all, the default;
                 the types of the first are named first
  beside_clangd  true: what clangd says is not said again
  functions      functions that take formats, each as NAME:FORMAT[:FIRST],
                 counted from 1
  compile        false: nothing is compiled
  database       the folder of a compile_commands.json; otherwise the next one
                 above a file, or in a folder build there
  flags          flags of the compile command, cc, for files without one
  added          kinds of findings to add: rank, sign, composed
  seconds        how long compiling a text may take; 60 otherwise

docs/EDITORS.md says how editors start it.

Exit status:
  0  the editor asked the server to shut down
  1  it did not
  2  the usage is wrong, or the library is missing"""


def parser() -> Parser:
    """Returns the definition of the command line."""
    made = Parser(NAME, USAGE_LINES, DESCRIPTION, EPILOG)
    made.add_argument("--stdio", action="store_true", help="use standard input and output, as it always does")
    return made


def main(words: Optional[Sequence[str]] = None) -> int:
    made = parser()
    _, more = made.parsed(words)
    if more:
        made.error("it takes no operands")
    return status_of(NAME, run)


def run() -> int:
    """Runs the server, if the library is there."""
    version()
    return Server().run()
