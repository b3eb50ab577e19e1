"""How a source that is open is compiled: the compile_commands.json for it, and whose compilers are run."""

import argparse
import os
import re
import shutil
from typing import Dict, Optional, Sequence, Tuple

from ..compiling.compile_commands import DATABASE as FILE, CompileCommand
from ..compiling.left import Left
from ..compiling.sources import Files

# Where it is looked for in each folder above a source.
FOLDERS = ("", "build")
# Programs that are compilers, also for another machine or of a version.
COMPILER = re.compile(r"(?:[\w.]+-)*(?:cc|gcc|clang|c\+\+|g\+\+|clang\+\+)(?:-[\d.]+)?")


def folder_above(path: str) -> Optional[str]:
    """Returns the folder of the compile_commands.json that is next to a file or above it, as clangd finds it."""
    folder = os.path.dirname(path)
    while True:
        for name in FOLDERS:
            if os.path.isfile(os.path.join(folder, name, FILE)):
                return os.path.join(folder, name)
        if folder == os.path.dirname(folder):
            return None
        folder = os.path.dirname(folder)


def check_owner(database: str, path: str) -> None:
    """Raises Left for a database that nobody named and that is neither the user's, root's nor of the file's owner."""
    owners = {0, os.geteuid(), *(os.stat(it).st_uid for it in [path] if os.path.exists(it))}
    if not {os.stat(database).st_uid, os.lstat(database).st_uid} <= owners:
        raise Left(f"{database} belongs to another user: name its folder in the option database")


def check_program(command: CompileCommand) -> None:
    """Raises Left unless the program of a compile command that nobody named is a compiler of PATH: a folder that is
    opened runs nothing of its own.
    """
    program = command.words[0]
    folder, name = os.path.split(program)
    is_there = folder in absolute_path().split(os.pathsep) if folder else shutil.which(name, path=absolute_path())
    if not (COMPILER.fullmatch(name) and is_there):
        raise Left(f"{program} isn't a compiler of PATH: name the folder of its {FILE} in the option database")


def absolute_path() -> str:
    """Returns the folders of PATH that are the same wherever a program runs."""
    return os.pathsep.join(filter(os.path.isabs, os.environ.get("PATH", os.defpath).split(os.pathsep)))


class Databases:
    """The compile commands of files, which stay as long as their compile_commands.json is as it was."""

    def __init__(self) -> None:
        self.known: Dict[str, Tuple[Tuple[int, int, int], Files]] = {}

    def files(self, path: str, folder: Optional[str], flags: Sequence[str]) -> Files:
        """Returns the files that are compiled as one is: by the database of a folder, or of one above the file, or else
        with these flags. Raises `OSError` or Left.
        """
        where = folder or folder_above(path)
        if where and not folder:
            check_owner(os.path.join(where, FILE), path)
        if where is None:
            return Files(argparse.Namespace(database=None, files=[path], exclude=[], flag=list(flags)))
        status = os.stat(os.path.join(where, FILE))
        state = (status.st_mtime_ns, status.st_size, status.st_ino)
        if self.known.get(where, ((), None))[0] != state:
            self.known[where] = state, Files(argparse.Namespace(database=where, files=[path], exclude=[], flag=[]))
        files = self.known[where][1]
        for command in files.database.get(path, []) if not folder else ():
            check_program(command)
        return files
