#!/usr/bin/env python3
"""Counts the instructions of the C library's calls over real formats, compared with `parse_printf_format`.

    bench/library.py FOLDER [OTHER]

FOLDER has libfmtcanon.a, as `make library` leaves it. If OTHER has another build of it, this prints one table alone,
of a few calls of both. The formats are those of shapes.nul, and those of them alone that
have a directive with a flag, a width, a precision, `i`, or a length modifier other than `h`, `hh`, `l` and `ll`. The calls
of the whole language are counted over formats that each have a directive that the profile lacks. It needs gcc and
valgrind, and prints the first tables of RESULTS.md. The last one is of `printing.c`.
"""
import re
import subprocess
import sys
import tempfile
from concurrent.futures import ThreadPoolExecutor
from pathlib import Path

sys.dont_write_bytecode = True

from formats import records, shapes, whole_shapes

BENCH = Path(__file__).resolve().parent
HEADERS = BENCH.parent / "include"
ONE = ["check", "types", "bounds", "arguments", "is_canonical", "canonical", "canonical_length"]
TWO = ["fits, itself", "fits_fewer, itself", "fits_fewer, the last directive left out", "same, itself", "same, first byte changed", "same, a byte appended", "same, last byte changed"]
WHOLE = ["arguments", "directives", "specifications", "whole_canonical", "whole_canonical_length"]
# Counted for a shortcut alone: pairs that go on alike up to their ends, and are both accepted.
ALIKE = ["same, last conversion changed", "same, `%%` appended", "whole_same, last conversion changed"]
# Counted for two builds of the library.
OF_BOTH = ["check", "types", "canonical", "same, itself"]
WHOLE_TWO = ["fits, itself", "whole_same, itself", "whole_same, a byte appended"]
# The formats of printing.c, in its order.
PRINTED = ["%d %s", r"Total: %5d of %-8s.\n", "%300d %s"]
PLAIN = re.compile(rb"(?:[^%]|%(?:%|#?(?:hh?|ll?)?[duoxXbcs]))*")
BARE = re.compile(rb"(?:[^%]|%[%diuoxXbcs])*")


def build(folder, work, name):
    driver = work / name
    words = ["gcc", "-std=gnu11", "-Wall", "-Wextra", "-O2", f"-I{HEADERS}", BENCH / f"{name}.c", folder / "libfmtcanon.a"]
    subprocess.run([*words, "-Wl,-z,now", "-o", driver], check=True)
    return driver


def count(*words):
    """The instructions of a whole process."""
    words = ["valgrind", "--tool=callgrind", "--callgrind-out-file=/dev/null", *words]
    done = subprocess.run(words, capture_output=True, text=True, check=True)
    return int(re.search(r"Collected : (\d+)", done.stderr).group(1))


def per_call(driver, call, number):
    """The instructions of one call that prints a format of printing.c."""
    return (count(driver, call, str(number), "1100") - count(driver, call, str(number), "100")) / 1000


def printing_table(driver):
    """The lines that compare the calls that print."""
    yield "\n| Format | `fmtcanon_render` | `snprintf` | Ratio |\n|---|---|---|---|"
    for number, format in enumerate(PRINTED):
        ours, theirs = (per_call(driver, call, number) for call in ("fmtcanon_render", "snprintf"))
        yield f"| `{format}` | {ours:,.0f} | {theirs:,.0f} | {ours / theirs:.2f} |"


def named(call):
    name, comma, rest = call.partition(",")
    return f"`{name}`{comma}{rest}"


def costs(driver, file, formats, calls):
    """The instructions of each call for a format, on average."""
    file.write_bytes(records(formats))
    every = ["nothing", *calls]
    with ThreadPoolExecutor() as workers:
        counts = workers.map(lambda call: (count(driver, call, "3", file) - count(driver, call, "1", file)) / 2, every)
        found = dict(zip(every, counts))
    return {call: (found[call] - found["nothing"]) / len(formats) for call in calls}


def calls_table(driver, file, texts):
    """The lines that compare calls with the one of the C library, over all formats and those that aren't plain."""
    sets = [texts, [text for text in texts if not PLAIN.fullmatch(text)]]
    found = [costs(driver, file, it, ["parse_printf_format", *ONE, *TWO]) for it in sets]
    yield f"| Call | {len(sets[0]):,} formats | Ratio | {len(sets[1])} of them | Ratio |\n|---|---|---|---|---|"
    for call in [*ONE, *TWO, "parse_printf_format"]:
        known = [cost["parse_printf_format"] * (2 if call in TWO else 1) for cost in found]
        cells = [f"{cost[call]:,.0f} | {cost[call] / base:.2f}" for cost, base in zip(found, known)]
        yield f"| {named(call)} | {' | '.join(cells)} |"


def whole_table(driver, file, texts):
    """The lines that compare calls with the one of the C library, over formats that the profile lacks."""
    formats = whole_shapes()
    cost = costs(driver, file, formats, ["parse_printf_format", *WHOLE, *WHOLE_TWO])
    yield f"\n| Call | {len(formats):,} formats of the whole language | Ratio |\n|---|---|---|"
    for call in [*WHOLE, *WHOLE_TWO, "parse_printf_format"]:
        known = cost["parse_printf_format"] * (2 if call in WHOLE_TWO else 1)
        yield f"| {named(call)} | {cost[call]:,.0f} | {cost[call] / known:.2f} |"


def builds_table(folders, work, texts):
    """The lines that compare the library of one folder with that of another."""
    drivers = []
    for number, folder in enumerate(folders):
        place = work / str(number)
        place.mkdir()
        drivers.append(build(Path(folder), place, "library"))
    first, second = (costs(driver, work / "formats.nul", texts, OF_BOTH) for driver in drivers)
    yield "| Call | Proved | By cargo | Ratio |\n|---|---|---|---|"
    for call in OF_BOTH:
        yield f"| {named(call)} | {first[call]:,.0f} | {second[call]:,.0f} | {second[call] / first[call]:.2f} |"


def bounds_table(driver, file, texts):
    """The lines that compare `bounds` with `types`, over the formats of bare directives and over the others."""
    yield "\n| Formats | `types` | `bounds` | Ratio |\n|---|---|---|---|"
    for name, is_bare in (("of bare directives", True), ("with others", False)):
        formats = [text for text in texts if bool(BARE.fullmatch(text)) == is_bare]
        cost = costs(driver, file, formats, ["types", "bounds"])
        types, bounds = cost["types"], cost["bounds"]
        yield f"| {len(formats):,} {name} | {types:,.0f} | {bounds:,.0f} | {bounds / types:.2f} |"


def main(words):
    if len(words) not in (1, 2):
        sys.exit(__doc__)
    texts = shapes()
    with tempfile.TemporaryDirectory() as work:
        work = Path(work)
        if len(words) == 2:
            print(*builds_table(words, work, texts), sep="\n")
            return
        driver, printing = (build(Path(words[0]), work, name) for name in ("library", "printing"))
        for table in (calls_table, whole_table, bounds_table):
            print(*table(driver, work / "formats.nul", texts), sep="\n")
        print(*printing_table(printing), sep="\n")


if __name__ == "__main__":
    main(sys.argv[1:])
