"""Says which systems a command needs."""

import sys


def require_posix(name: str) -> None:
    """Ends a command with a sentence where there are no process groups and signals, by which it ends what it started.
    """
    if sys.platform == "win32":
        sys.exit(f"{name}: it needs Linux or macOS: Windows has no process groups, by which it ends compilers and git")
