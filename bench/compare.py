#!/usr/bin/env python3
"""Instructions of `fmtcanon same`, by callgrind, on long formats: what a comparison costs, and that it is linear.

Usage: bench/compare.py PROGRAM
"""

import re
import subprocess
import sys

PAIRS = {
    "`%d`, and `%i` at the end": lambda n: ("%d" * n, "%d" * (n - 1) + "%i"),
    "`%d`, and `%5d` at the end": lambda n: ("%d" * n, "%d" * (n - 1) + "%5d"),
    "`%d`, and at the end `% 10d` and `%10d`": lambda n: ("%d" * (n - 1) + "% 10d", "%d" * (n - 1) + "%10d"),
    "`%5d` at the front, then `%d`": lambda n: ("%5d" + "%d" * (n - 1), "%d" * n),
    "`%d`, and `%u` at the end": lambda n: ("%d" * n, "%d" * (n - 1) + "%u"),
    "`%s`, and `%.4095s` at the end": lambda n: ("%s" * n, "%s" * (n - 1) + "%.4095s"),
}


def instructions(program, first, second):
    """Instructions of a whole process."""
    words = ["valgrind", "--tool=callgrind", "--callgrind-out-file=/dev/null", program, "same", first, second]
    output = subprocess.run(words, capture_output=True, check=False).stderr.decode(errors="replace")
    return int(re.search(r"Collected : (\d+)", output).group(1))


def main():
    if len(sys.argv) != 2:
        sys.exit(__doc__)
    program = sys.argv[1]
    start = instructions(program, "a", "a")
    print("| Directives, the two formats | 1,000 | 10,000 | a byte |\n|---|---|---|---|")
    for name, pair in PAIRS.items():
        few = instructions(program, *pair(1_000)) - start
        first, second = pair(10_000)
        many = instructions(program, first, second) - start
        print(f"| {name} | {few:,} | {many:,} | {many / (len(first) + len(second)):.0f} |")
    first, second = PAIRS["`%s`, and `%.4095s` at the end"](50_000)
    print(f"50,000 `%s`: {instructions(program, first, second) - start:,}")


if __name__ == "__main__":
    main()
