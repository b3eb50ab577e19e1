"""The files to read, by the operands and the compile commands, and how each is compiled."""

import os
from typing import Any, Dict, Iterator, List, NamedTuple

from ..source.files import Unreadable, files_below, is_excluded
from .compile_commands import SOURCES, CompileCommand, commands_in, default_command
from .left import Left
from .stand_ins import is_stand_in


NO_COMMAND = "compile_commands.json has no command for it"


class Name(NamedTuple):
    """A file as the operands name it, and its path without links."""

    shown: str
    path: str


class Files:
    """The files that the operands and the compile commands name."""

    def __init__(self, options: Any) -> None:
        self.database: Dict[str, List[CompileCommand]] = commands_in(options.database) if options.database else {}
        self.options = options

    def names(self, with_headers: bool = False) -> Iterator[Name]:
        """Yields the files to read, each once. Of a folder, they are those that are compiled, or with what they
        include. A copy that a killed run left is not read.
        """
        seen = set()
        for name in self.named(with_headers):
            is_read = not is_stand_in(name.path) and not is_excluded(name.shown, self.options.exclude)
            if name.path not in seen and is_read:
                seen.add(name.path)
                yield name

    def named(self, with_headers: bool) -> Iterator[Name]:
        if not self.options.files:
            yield from (Name(it, it) for it in sorted(self.database) if SOURCES.fullmatch(it))
        for operand in self.options.files:
            if os.path.isdir(operand):
                yield from names_below(operand, with_headers)
            else:
                yield Name(operand, os.path.realpath(operand))

    def why_skipped(self, name: Name) -> str:
        """Returns why a file isn't read by itself although nothing is wrong: it is a header, or isn't C; or it is of a
        folder, and isn't compiled. An empty text if it is read.
        """
        if os.path.isfile(name.path) and not SOURCES.fullmatch(name.path):
            return "it isn't compiled by itself; a header is judged with the files that include it"
        is_given = not self.options.files or name.shown in self.options.files
        if not is_given and self.options.database and name.path not in self.database:
            return NO_COMMAND
        return ""

    def commands(self, path: str) -> List[CompileCommand]:
        """Returns the compile commands of a file."""
        if not os.path.exists(path):
            raise Left("there is no such file")
        if not os.path.isfile(path):
            raise Left("it isn't a regular file")
        if not SOURCES.fullmatch(path):
            raise Left("a header, or a part of a file, isn't compiled by itself")
        if not self.options.database:
            return [default_command(path, self.options.flag)]
        if path not in self.database:
            raise Left(NO_COMMAND)
        return self.database[path]


def names_below(folder: str, with_headers: bool) -> Iterator[Name]:
    """Yields the files below a folder. A link to a file outside of it is not followed."""
    found, errors = files_below(folder)
    if errors:
        raise Unreadable(errors[0])
    top = os.path.join(os.path.realpath(folder), "")
    for name in sorted(found):
        path = os.path.realpath(os.path.join(folder, name))
        if path.startswith(top) and (with_headers or SOURCES.fullmatch(name)):
            yield Name(os.path.join(folder, name), path)
