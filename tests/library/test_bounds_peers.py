"""Compares `bounds` with what the C library prints at the extremes, and with the numbers of gcc's -Wformat-overflow.

It needs a Linux system with gcc.
"""

import random
import re
from itertools import product

from tests.frame.cases import tests_of
from tests.frame.harness import TOP
from tests.library.test_library import lines_of

FLAGS = ["", "-", "+", " ", "#", "0", "-+", "+0", " 0", "#0", "-#", "+#"]
WIDTHS = ["", "1", "7", "26", "70"]
PRECISIONS = ["", ".", ".1", ".9", ".30"]
MODIFIERS = ["", "hh", "h", "l", "ll", "j", "z", "t"]
SIGNED, UNSIGNED = "di", "uoxXb"
# The flags that have no meaning with a conversion, and for which a directive is rejected (C11 7.21.6.1p6).
WITHOUT = {**dict.fromkeys("diu", "#"), **dict.fromkeys("cs", "#0")}
# The longest string that printed.c prints.
LONGEST = 5000
WHOLE = 3_000
# gcc is asked about every third directive of one conversion each.
STEP = 3
ASKED = "dux"
NAMED = {
    "hh": "signed char",
    "h": "short",
    "": "int",
    "l": "long",
    "ll": "long long",
    "j": "__INTMAX_TYPE__",
    "z": "__PTRDIFF_TYPE__",
    "t": "__PTRDIFF_TYPE__",
}
UNSIGNED_NAMED = {**{name: f"unsigned {it}" for name, it in NAMED.items()}, "hh": "unsigned char"}
UNSIGNED_NAMED.update({"j": "__UINTMAX_TYPE__", "z": "__SIZE_TYPE__", "t": "__SIZE_TYPE__"})


def directives():
    """Each directive with the kind of its argument, as printed.c knows it."""
    for flags, width, precision in product(FLAGS, WIDTHS, PRECISIONS):
        for conversion in SIGNED + UNSIGNED + "cs":
            if set(flags) & set(WITHOUT.get(conversion, "")) or (conversion == "c" and precision):
                continue
            sign = "signed" if conversion in SIGNED else "unsigned"
            for modifier in [""] if conversion in "cs" else MODIFIERS:
                kind = {"c": "character", "s": "string"}.get(conversion, f"{sign} {modifier}")
                yield kind, f"%{flags}{width}{precision}{modifier}{conversion}"


def printed(compiler, rows, work):
    """The smallest and the largest number of bytes that the C library prints for each row."""
    program, file = work / "printed", work / "rows.nul"
    words = [*compiler, "-Wall", "-Wextra", "-Werror", "-Wno-format-nonliteral", "-o", program]
    status, output = lines_of([*words, TOP / "tests/library/printed.c"])
    if status != 0:
        return output
    file.write_bytes(b"".join(f"{kind} {text}".encode() + b"\0" for kind, text in rows))
    return [tuple(map(int, line.split())) for line in lines_of([program, file])[1].splitlines()]


def wanted_bounds(kind, least, most):
    """A string that prints as many bytes as the longest one has prints more for a longer one."""
    return least, None if kind == "string" and most >= LONGEST else most


def compiler():
    return ["gcc", "-std=c11"]


def model():
    return "lp64"


def test_printed(module, compiler, model, trials, work):
    """The numbers of single directives are those of the C library, and those of formats are their sums."""
    rows = list(directives())
    found = printed(compiler, rows, work)
    trials.expect(f"{compiler}: numbers of bytes", len(found), len(rows))
    if len(found) != len(rows):
        return
    known = {text: wanted_bounds(kind, *numbers) for (kind, text), numbers in zip(rows, found)}
    for text, wanted in known.items():
        trials.expect(f"bounds of {text!r} in {model}", tuple(module.bounds(text, model=model)), wanted)
    chosen = random.Random(3)
    for _ in range(WHOLE):
        parts = chosen.choices(list(known), k=chosen.randrange(1, 6))
        plain = ["".join(chosen.choices(["a", "é", "%%", "\n"], k=chosen.randrange(4))) for _ in parts]
        words = sum(len(text.replace("%%", "%").encode()) for text in plain)
        most = [known[part][1] for part in parts]
        wanted = (words + sum(known[part][0] for part in parts), None if None in most else words + sum(most))
        text = "".join(word + part for word, part in zip(plain, parts))
        trials.expect(f"bounds of {text!r} in {model}", tuple(module.bounds(text, model=model)), wanted)


def asked():
    """Directives of integers about which gcc is asked, each with the C type of its argument."""
    rows = [(kind.partition(" "), text) for kind, text in directives() if text[-1] in ASKED]
    for (sign, _, modifier), text in rows[::STEP]:
        yield (NAMED if sign == "signed" else UNSIGNED_NAMED)[modifier], text


def gcc_numbers(rows, work):
    """What gcc says of the bytes that each row prints with its NUL, by the row's number; none where it says nothing."""
    source = work / "overflow.c"
    lines = [f'void f{at}({kind} x) {{ sprintf(out, "{text}", x); }}' for at, (kind, text) in enumerate(rows)]
    source.write_text("#include <stdio.h>\nextern char out[1];\n" + "\n".join(lines) + "\n")
    words = ["gcc", "-std=gnu2x", "-O2", "-Wformat-overflow=2", "-Wno-format", "-c", "-o", work / "object", source]
    output = lines_of(words)[1]
    found = {}
    for number, least, _, most in re.findall(
        r"overflow\.c:(\d+):\d+: note: .sprintf. output (?:between )?(\d+)( and (\d+))? bytes", output
    ):
        found[int(number) - 3] = (int(least) - 1, int(most or least) - 1)
    return found


def test_overflow(module, trials, work):
    """The numbers are those of gcc's warnings, where it gives both."""
    rows = list(asked())
    found = gcc_numbers(rows, work)
    trials.expect(
        f"gcc gives numbers for {len(found)} of {len(rows)} directives", len(found) * 10 > len(rows) * 9, True
    )
    for at, numbers in found.items():
        trials.expect(f"gcc's numbers of {rows[at]}", tuple(module.bounds(rows[at][1])), numbers)


Tests = tests_of(globals())
