"""Prints what fmtcanon-check says of source trees: a table in Markdown.

Usage: python3 -m tests.field.checks DIR..

Each DIR has a `compile_commands.json`. No file is changed, and nothing is kept. It needs the module fmtcanon with its
library, and libclang. Whether an error is true is for a reader of the source to say.
"""

import re
import subprocess
import sys
from pathlib import Path

# The last line of the command: the sums, and how many findings of each kind.
LAST = re.compile(r"(\d+) files?, (\d+) formats?, (\d+) arguments?(?:: (.*))?$")
ERRORS = re.compile(r"(\d+) (?:size|kind)\b")


def row(folder):
    words = [sys.executable, "-m", "fmtcanon.checker", "--no-cache", "-p", folder]
    done = subprocess.run(words, capture_output=True, text=True, check=False)
    found = [LAST.match(line) for line in (done.stdout + done.stderr).splitlines()]
    [(*sums, kinds)] = [it.groups() for it in found if it]
    return [Path(folder).resolve().name, *sums, sum(map(int, ERRORS.findall(kinds or "")))]


def main(folders):
    if not folders:
        sys.exit(__doc__)
    print("| Program | Files | Formats | Arguments | Errors |\n|---|---|---|---|---|")
    for folder in folders:
        name, *counts = row(folder)
        print(f"| {name} | " + " | ".join(f"{int(it):,}" for it in counts) + " |", flush=True)


if __name__ == "__main__":
    main(sys.argv[1:])
