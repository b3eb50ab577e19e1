#!/usr/bin/env python3
"""Counts the instructions of a call on each path through the C library, and fails if one costs twice what it did.

    bench/paths.py FOLDER

FOLDER has libfmtcanon.a, as `make library` leaves it. It needs gcc and valgrind. A path may give up, and then the next
one finds the same answer. So nothing but its cost shows that a path is never taken. Its last line is 'N passed, M
failed', and it exits with 1 where M isn't 0.
"""
import sys
import tempfile
from concurrent.futures import ThreadPoolExecutor
from pathlib import Path

sys.dont_write_bytecode = True

from library import build, count

sys.path.append(str(Path(__file__).resolve().parent.parent))

from tests.frame.cases import Trials

# How often a format stands in the file, and how much more than it did a call may cost.
COPIES, MORE = 100, 2
WORDS = b"Total: %d of %u files in %s\n"
FLAGS = b"%-5d|%05u|%+.3ld\n"
LONG = b"some words, " * 20 + WORDS
# Each path: a call, a format that takes it, and the instructions of the call.
PATHS = {
    "the marks of a short text": ("check", WORDS, 136),
    "the runs of a long text": ("check", LONG, 1096),
    "specifications with flags": ("check", FLAGS, 412),
    "known types, by marks": ("types", WORDS, 240),
    "known types, by runs": ("types", LONG, 1200),
    "types of other specifications": ("types", FLAGS, 569),
    "arguments of the profile": ("arguments", WORDS, 260),
    "arguments with flags": ("arguments", FLAGS, 562),
    "a text that is known to be canonical": ("is_canonical", WORDS, 172),
    "a front that stays": ("canonical", WORDS, 206),
    "letters that change": ("canonical", b"%i: %li of %hhi\n", 1106),
    "widths that become spaces": ("canonical", b"%5c|%-5c|%3s\n", 1573),
    "precisions that are filled": ("canonical", b"%05u|%.3d|%08x\n", 960),
    "a small buffer on the stack": ("canonical", b"%20d" * 20, 18638),
    "a large buffer on the stack": ("canonical", b"%20i" * 100, 33808),
    "a length that is counted": ("canonical_length", FLAGS, 1113),
    "two equal texts": ("same, itself", LONG, 1368),
    "an early difference": ("same, first byte changed", b"x" + WORDS, 402),
    "a late difference": ("same, last byte changed", WORDS, 318),
    "equal types": ("fits, itself", WORDS, 300),
    "the smallest and the largest number": ("bounds", WORDS, 810),
}


def cost(driver, work, number, call, text):
    """The instructions of one call."""
    file = work / f"{number}.nul"
    file.write_bytes((text + b"\0") * COPIES)
    one, empty = (count(driver, it, "3", file) - count(driver, it, "1", file) for it in (call, "nothing"))
    return (one - empty) / 2 / COPIES


def main(folder):
    trials = Trials()
    with tempfile.TemporaryDirectory() as work, ThreadPoolExecutor() as workers:
        driver = build(folder, Path(work), "library")
        rows = list(PATHS.items())
        costs = workers.map(lambda it: cost(driver, Path(work), it[0], *it[1][1][:2]), enumerate(rows))
        for (path, (call, _, known)), now in zip(rows, costs):
            trials.expect(
                f"{call}: {path}: {now:.0f} instructions, at most {MORE} times {known}", now <= MORE * known, True
            )
    print(trials)
    return 1 if trials.failed else 0


if __name__ == "__main__":
    sys.exit(main(Path(sys.argv[1]).resolve()))
