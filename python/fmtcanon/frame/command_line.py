"""What the command lines of the commands have in common."""

from __future__ import annotations

import argparse
import os
import signal
import sys
import textwrap
from typing import IO, Callable, Dict, List, NoReturn, Optional, Sequence, Tuple, Union

from .. import Model, __version__
from .findings import OUTPUTS
from .interrupting import Interrupted, end, interruptible
from .output import Unwritable, complain, drop, occupy, write
from .processes import Ended
from .terminals import COLORS

MODELS: Dict[str, List[Model]] = {
    "lp64": [Model.LP64],
    "ilp32": [Model.ILP32],
    "llp64": [Model.LLP64],
    "both": [Model.LP64, Model.ILP32],
    "all": list(Model),
}
# What each value of --model means.
MODEL_WORDS = {
    "lp64": "lp64, 64-bit Unix",
    "ilp32": "ilp32, 32-bit systems",
    "llp64": "llp64, 64-bit Windows",
    "both": "both, the first two",
    "all": "all",
}
USAGE = 2


class Formatter(argparse.HelpFormatter):
    """Wraps each paragraph of a text. Lines that are indented, such as examples, stay as they are."""

    def _fill_text(self, text: str, width: int, indent: str) -> str:
        return "\n\n".join(self._filled(it, width) for it in text.split("\n\n"))

    @staticmethod
    def _filled(paragraph: str, width: int) -> str:
        if "\n  " in paragraph:
            return paragraph
        return textwrap.fill(paragraph, width, break_long_words=False, break_on_hyphens=False)


class Parser(argparse.ArgumentParser):
    """A command line with --help and --version. After a usage error, which is named, the status is 2."""

    def __init__(self, name: str, usage: str, description: str, epilog: str) -> None:
        super().__init__(
            prog=name,
            usage=usage,
            description=description,
            epilog=epilog,
            formatter_class=Formatter,
            allow_abbrev=False,
            add_help=False,
        )
        self.add_argument("-h", "--help", action="help", help="print this text")
        self.add_argument("--version", action="version", version=f"fmtcanon {__version__}", help="print the version")

    def add_model(self, what: str, default: str = "all", choices: Sequence[str] = tuple(MODELS)) -> None:
        """Adds --model; `what` says what its data models are for."""
        listed = "; ".join(MODEL_WORDS[it] + (", the default" if it == default else "") for it in choices)
        noun = "the data models" if "all" in choices else "the data model"
        self.add_argument("--model", choices=choices, default=default, metavar="MODEL", help=f"{noun} {what}: {listed}")

    def add_color(self) -> None:
        self.add_argument(
            "--color",
            choices=COLORS,
            default="auto",
            metavar="WHEN",
            help="when to use colour: auto, the default, on a terminal unless NO_COLOR is set; always; or never",
        )

    def add_jobs(self, what: str) -> None:
        """Adds -j, which says how many of what are read at a time. The output doesn't depend on it."""
        count = os.cpu_count() or 1
        text = f"how many {what} are read at a time"
        self.add_argument("-j", "--jobs", type=int, default=count, metavar="N", help=text)

    def add_output(self) -> None:
        self.add_argument(
            "--output",
            choices=OUTPUTS,
            default="text",
            metavar="FORM",
            help="how findings are printed: text, the default; json, one object per line; "
            "sarif, a log of SARIF 2.1.0; or github, commands of a workflow",
        )

    def parsed(self, words: Optional[Sequence[str]]) -> Tuple[argparse.Namespace, List[str]]:
        """Returns the options and operands, and the arguments after `--`."""
        listed = list(sys.argv[1:] if words is None else words)
        at = listed.index("--") if "--" in listed else len(listed)
        try:
            return self.parse_intermixed_args(listed[:at]), listed[at + 1 :]
        except (BrokenPipeError, Unwritable) as error:
            sys.exit(status_of_output(self.prog, error))

    def _print_message(self, message: str, file: Optional[IO[str]] = None) -> None:
        """Writes the help text or the version as every other line, so that a closed or full output is noticed."""
        write(sys.stderr if file is sys.stderr else sys.stdout, message.encode())

    def error(self, message: str) -> NoReturn:
        complain(f"{self.format_usage()}{self.prog}: {message}")
        sys.exit(USAGE)


def status_of(name: str, run: Callable[[], int]) -> int:
    """Runs a command. Returns its exit status, also if it can't write or the library is missing. A signal ends it."""
    occupy()
    try:
        with interruptible() as signals:
            try:
                with signals.raised():
                    return run()
            except Interrupted as interrupted:
                # The signals are still taken, so that no second one keeps this from ending.
                end(interrupted.number)
    except (BrokenPipeError, Unwritable) as error:
        return status_of_output(name, error)
    except (Ended, ImportError) as error:
        complain(f"{name}: {error}")
        return USAGE


def status_of_output(name: str, error: Union[BrokenPipeError, Unwritable]) -> int:
    """Returns the exit status for output that can't be written, and says so unless nobody reads it any more."""
    if isinstance(error, Unwritable):
        complain(f"{name}: {error}")
    drop(sys.stdout)
    drop(sys.stderr)
    return USAGE if isinstance(error, Unwritable) else 128 + signal.SIGPIPE


def counted(count: int, word: str) -> str:
    """Returns a number with what it counts."""
    return f"{count} {word}" if count == 1 else f"{count} {word}s"


def model_names(models: Sequence[Model]) -> Tuple[str, ...]:
    return tuple(it.name.lower() for it in models)
