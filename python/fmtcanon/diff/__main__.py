"""Says what a change of C source does to its printf formats: the command fmtcanon-diff."""

import sys

from ..frame.systems import require_posix


def main() -> int:
    require_posix("fmtcanon-diff")
    # What it imports isn't there on other systems.
    from .command import main as run

    return run()


if __name__ == "__main__":
    sys.exit(main())
