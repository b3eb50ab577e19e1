#!/usr/bin/env python3
"""Counts the instructions of runs over records beside a C loop over the library, and of calls about string literals.

Usage: bench/records.py PROGRAM FOLDER

FOLDER has libfmtcanon.a, as `make library` leaves it. It needs gcc and valgrind. What start and end of a process take
isn't in a count: it is the difference of the records twice over and once. The two write the same bytes, or it stops.
Then it prints the resident memory of a run over 1 MB, 100 MB and 1 GB of records.
"""

import os
import re
import subprocess
import sys
import tempfile
from pathlib import Path

sys.dont_write_bytecode = True

from formats import records as as_records, shapes, whole_shapes  # noqa: E402

BENCH = Path(__file__).resolve().parent
TOP = BENCH.parent
SHAPES, WHOLE_SHAPES = as_records(shapes()), as_records(whole_shapes())
MEGABYTES = [1, 100, 1000]
# Texts of so many bytes, for calls about literals.
SIZES = [33, 1_000, 10_000]
# Long copies by `rep movsb` would count once for each byte.
ENVIRONMENT = {**os.environ, "GLIBC_TUNABLES": "glibc.cpu.x86_rep_movsb_threshold=1000000000"}


def counted(words, text):
    """The instructions of a whole process over this standard input, and what it writes."""
    words = ["valgrind", "--tool=callgrind", "--callgrind-out-file=/dev/null", *words]
    done = subprocess.run(
        words, input=text, stdout=subprocess.PIPE, stderr=subprocess.PIPE, check=False, env=ENVIRONMENT
    )
    return int(re.search(rb"Collected : (\d+)", done.stderr).group(1)), done.stdout


def cost(words, text):
    """What the records cost once more, by record."""
    once, said = counted(words, text)
    twice, more = counted(words, 2 * text)
    assert more == 2 * said
    return (twice - once) / text.count(b"\0"), said


def twins(formats):
    """Records of each format and itself."""
    return as_records(text for text in formats for _ in range(2))


def records(program, driver):
    """The table of runs over records.

    Under `same` each format is compared with itself, and every other one with the next.
    """
    texts = [
        ("canon", [], "", SHAPES),
        ("same", [], ", a format and itself", twins(shapes())),
        ("same", [], ", a format and the next one", SHAPES),
        ("canon", ["whole"], "", WHOLE_SHAPES),
        ("types", ["whole"], "", WHOLE_SHAPES),
        ("same", ["whole"], ", a format and itself", twins(whole_shapes())),
        ("same", ["whole"], ", a format and the next one", WHOLE_SHAPES[: WHOLE_SHAPES.rindex(b"\0", 0, -1) + 1]),
    ]
    print(
        f"{len(shapes()):,} formats as records, with `--whole` those with a directive that the profile lacks; "
        f"instructions a record:\n"
    )
    print("| Command | `fmtcanon` | A C loop over the library | Ratio |\n|---|---|---|---|")
    for command, more, name, text in texts:
        options = [f"--{it}" for it in more]
        ours, said = cost([program, command, "-z", *options], text)
        theirs, wanted = cost([driver, command, *more], text)
        named = " ".join([command, "-z", *options])
        if said != wanted:
            sys.exit(f"{named}{name}: the two don't write the same")
        print(f"| `{named}`{name} | {ours:,.0f} | {theirs:,.0f} | {ours / theirs:.2f} |")


def literals(driver):
    """The table of calls about literals, for text without escape sequences, and for text with many."""
    print("\nInstructions a byte of the source or of the text:\n")
    print("| Call | Text |" + "".join(f" {size:,} bytes |" for size in SIZES) + "\n|---|---|" + "---|" * len(SIZES))
    for call in ["decode", "encode"]:
        for name, unit in [("plain", b"x"), ("a newline in 20 bytes", b"nineteen bytes long\n")]:
            cells = []
            for size in SIZES:
                text = (unit * size)[:size]
                if call == "decode":
                    text = b'"' + text.replace(b"\n", b"\\n") + b'"'
                once, more = counted([driver, call, "10"], text)[0], counted([driver, call, "110"], text)[0]
                cells.append(f" {(more - once) / 100 / len(text):.2f} |")
            print(f"| `{call}` | {name} |" + "".join(cells))


def memory(program):
    """The resident memory of runs over more and more records."""
    print("\n| Records | Resident memory |\n|---|---|")
    for megabytes in MEGABYTES:
        text = SHAPES * (1_000_000 // len(SHAPES) + 1)
        text = text[: text.rindex(b"\0", 0, 1_000_000) + 1]
        with subprocess.Popen([program, "canon", "-z"], stdin=subprocess.PIPE, stdout=subprocess.DEVNULL) as run:
            for _ in range(megabytes):
                run.stdin.write(text)
            run.stdin.flush()
            # What it held at the most, once all but the last few records were read.
            status = Path(f"/proc/{run.pid}/status").read_text()
            run.stdin.close()
            run.wait()
        held = int(re.search(r"VmHWM:\s+(\d+)", status).group(1))
        print(f"| {megabytes:,} MB | {held:,} kB |")


def main():
    if len(sys.argv) != 3:
        sys.exit(__doc__)
    program, folder = Path(sys.argv[1]).resolve(), Path(sys.argv[2]).resolve()
    memory(program)
    with tempfile.TemporaryDirectory() as name:
        driver = Path(name) / "records"
        words = ["gcc", "-std=gnu11", "-Wall", "-Wextra", "-O2", f"-I{TOP / 'include'}", BENCH / "records.c"]
        subprocess.run([*words, folder / "libfmtcanon.a", "-Wl,-z,now", "-o", driver], check=True)
        print()
        records(program, driver)
        literals(driver)


if __name__ == "__main__":
    main()
