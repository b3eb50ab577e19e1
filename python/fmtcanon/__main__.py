"""Runs the program: `python -m fmtcanon`, and the command `fmtcanon` that a wheel installs."""

import errno
import os
import shutil
import sys
from typing import NoReturn

from .program import not_run, program

# The exit status if there is no program to run, as in a shell.
NOT_FOUND = 127


def found(name: str) -> str:
    """Returns the file of the program. Raises `FileNotFoundError` if it isn't there, or if it is this command itself.
    """
    file = shutil.which(name)
    if file is None or (os.path.exists(sys.argv[0]) and os.path.samefile(file, sys.argv[0])):
        raise FileNotFoundError(errno.ENOENT, os.strerror(errno.ENOENT))
    return file


def main() -> NoReturn:
    """Replaces this process by the program, with the same arguments."""
    name = program()
    try:
        os.execv(os.fsencode(found(name)), [b"fmtcanon", *map(os.fsencode, sys.argv[1:])])
    except OSError as error:
        print(f"fmtcanon: {not_run(name, error).strerror}", file=sys.stderr)
        sys.exit(NOT_FOUND)


if __name__ == "__main__":
    main()
