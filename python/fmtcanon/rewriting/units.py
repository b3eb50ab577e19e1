"""The units of a compile_commands.json together: which files another unit includes, too, and what changes printf for
all of them.
"""

import functools
import os
import re
from typing import Callable, Dict, Iterable, NamedTuple, Optional, Set

from ..compiling.compile_commands import CompileCommand
from ..compiling.left import Left
from ..source.files import bytes_of

# The endings of what a compiler of C reads.
OF_C = re.compile(r".*\.(?:c|cc|cp|cpp|cxx|c\+\+|C|CPP|m|mm|M|S|sx|i|ii)", re.DOTALL)
REGISTERS = re.compile(rb"\bregister_printf_(?:function|specifier|modifier|type)\b")


class Inclusions(NamedTuple):
    """What a unit includes, which of that changes printf for the whole program, and why it isn't known, if so."""

    file: str
    included: Set[str]
    registers: str = ""
    why_unknown: str = ""


def asked(command: CompileCommand) -> Optional[Inclusions]:
    """Asks the compiler what a unit includes. None for a unit that isn't there, or isn't C."""
    if not OF_C.fullmatch(command.file) or not os.path.isfile(command.file):
        return None
    try:
        included, folders = command.included(), tuple(f"{it}/" for it in command.system_folders())
    except Left as left:
        return Inclusions(command.file, set(), why_unknown=str(left))
    own = sorted(it for it in {command.file, *included} if not it.startswith(folders))
    return Inclusions(command.file, included, next(filter(None, map(name_that_registers, own)), ""))


@functools.lru_cache(maxsize=None)
def name_that_registers(file: str) -> str:
    """Returns the file and the name in it of a function that gives a conversion another meaning, or nothing."""
    found = REGISTERS.search(bytes_of(file))
    return f"{os.path.relpath(file)} names {found.group().decode()}" if found else ""


class Units:
    """What all units of a program say of one another."""

    def __init__(self, answers: Iterable[Optional[Inclusions]]) -> None:
        self.includers: Dict[str, str] = {}
        self.unknown: Dict[str, str] = {}
        self.registers = ""
        for answer in filter(None, answers):
            for path in answer.included:
                self.includers.setdefault(path, answer.file)
            if answer.why_unknown:
                self.unknown.setdefault(answer.file, answer.why_unknown)
            self.registers = self.registers or answer.registers

    def check(self, path: str) -> None:
        """Raises Left if another unit has an effect on what the formats of a file do, or may have one."""
        if self.registers:
            raise Left(self.registers)
        if path in self.includers:
            raise Left(f"{os.path.relpath(self.includers[path])} includes it, too")
        for file, why in self.unknown.items():
            if file != path:
                raise Left(f"{os.path.relpath(file)} may include it: {why}")


def units_of(commands: Iterable[CompileCommand], run: Callable[..., Iterable[Optional[Inclusions]]]) -> Units:
    """Asks all units, by a `map` that may ask several at a time."""
    return Units(run(asked, commands))
