#!/usr/bin/env python3
"""How many calls of the library a processor second has time for: from C, from Python, and a process each.

Usage: bench/calls.py PROGRAM FOLDER [FILE]

FOLDER has libfmtcanon.a and libfmtcanon.so, as `make library` leaves them. FILE has formats, each terminated by NUL.
Without it the calls of the profile are counted over bench/shapes.nul, and those of the whole language over the same
formats with one directive each that the profile lacks. Each figure is the best of five. `same`, `same_models` and
`compare` take each format and itself. It needs gcc.
"""

import os
import subprocess
import sys
import tempfile
import time
from pathlib import Path

sys.dont_write_bytecode = True

from formats import records, shapes, whole_shapes  # noqa: E402

BENCH = Path(__file__).resolve().parent
TOP = BENCH.parent
TIMES = 5
SECONDS = 0.5
CALLS = ["check", "is_canonical", "canonical", "types", "same", "same_models", "compare"]
WHOLE_CALLS = ["canonical", "same", "same_models", "compare"]
PAIRS = {"same", "same_models", "compare"}


def rate_in_c(driver, call, file, words=()):
    found = [
        subprocess.run([driver, call, file, *words], stdout=subprocess.PIPE, check=True).stdout for _ in range(TIMES)
    ]
    return max(map(int, found))


def rate_in_python(function, rows, options):
    """As calls.c counts: whole rounds, for at least half a processor second."""
    best = 0.0
    for _ in range(TIMES):
        calls, start = 0, time.process_time()
        while time.process_time() - start < SECONDS:
            for row in rows:
                function(*row, **options)
            calls += len(rows)
        best = max(best, calls / (time.process_time() - start))
    return best


def shown(number):
    """Three digits of a number: the others aren't the same in the next run."""
    return f"{int(float(f'{number:.3g}')):,}"


def row(module, driver, call, formats, file, is_whole):
    """The row of a call of the profile or of the whole language over these formats, for which there is a file."""
    file.write_bytes(records(formats))
    function = getattr(module, "same_in" if call == "same_models" else call)
    texts = [(one, one) if call in PAIRS else (one,) for one in formats]
    in_c = shown(rate_in_c(driver, f"whole_{call}" if is_whole else call, file))
    in_python = shown(rate_in_python(function, texts, {"whole": True} if is_whole else {}))
    return f"| `{call}`{', whole language' if is_whole else ''} | {in_c} | {in_python} |"


def main():
    if len(sys.argv) not in (3, 4):
        sys.exit(__doc__)
    program, folder = os.path.abspath(sys.argv[1]), Path(sys.argv[2]).resolve()
    given = Path(sys.argv[3]).read_bytes().split(b"\0")[:-1] if sys.argv[3:] else None
    formats, whole_formats = given or shapes(), given or whole_shapes()
    os.environ["FMTCANON_LIBRARY"] = str(folder / "libfmtcanon.so")
    sys.path.insert(0, str(TOP / "python"))
    import fmtcanon

    with tempfile.TemporaryDirectory() as work:
        driver, file = Path(work) / "calls", Path(work) / "formats"
        words = [
            "gcc",
            "-std=gnu11",
            "-Wall",
            "-Wextra",
            "-O2",
            f"-I{TOP / 'include'}",
            BENCH / "calls.c",
            folder / "libfmtcanon.a",
        ]
        subprocess.run([*words, "-o", driver], check=True)
        print("| Call | From C | From Python |\n|---|---|---|")
        for call in WHOLE_CALLS:
            print(row(fmtcanon, driver, call, whole_formats, file, True), flush=True)
        for call in CALLS:
            print(row(fmtcanon, driver, call, formats, file, False), flush=True)
        print(f"| `parse_printf_format` | {shown(rate_in_c(driver, 'parse_printf_format', file))} | |")
        for command in ["canon", "types"]:
            words = [program, command, "--"]
            print(
                f"| a process of `{command}` each | {shown(rate_in_c(driver, 'process', file, words))} | |", flush=True
            )


if __name__ == "__main__":
    main()
