"""The program `fmtcanon`: which file it is, and what is said if it can't be run.

Only `python -m fmtcanon` runs it. It is the one that the environment variable FMTCANON_PROGRAM names,
otherwise the file `program` next to this module, where an installation puts it, otherwise `fmtcanon` on the search
path.
"""

import os
from pathlib import Path

_NEED = "`python -m fmtcanon` needs the program, which is for x86-64: install it, or name its file by FMTCANON_PROGRAM"


def program() -> str:
    """Returns the program: the one of FMTCANON_PROGRAM, the one next to this module, or a name to search for."""
    beside = Path(__file__).parent / "program"
    return os.environ.get("FMTCANON_PROGRAM") or (str(beside) if beside.exists() else "fmtcanon")


def not_run(name: str, error: OSError) -> OSError:
    """Returns the exception to raise if the program of this name can't be run: of the same number, with what to do."""
    return OSError(error.errno, f"{name} can't be run: {error.strerror}; {_NEED}")
