"""Compares `fits --fewer` with `fmtcheck` of libbsd.

Each difference has a reason, which docs/C.md names. Formats that are rewritten without their reasons are judged alike.
"""

import random
import re
from itertools import product

from tests.frame.cases import tests_of
from tests.frame.harness import TOP
from tests.library.test_library import lines_of

MODIFIERS = ["", "hh", "h", "l", "ll", "j", "z", "t", "L"]
CONVERSIONS = "diouxXbcsfFeEgGaApnCS"
OTHERS = [
    "", "%%", "%", "%5%", "%y", "%m", "%*d", "%.*s", "%*.*f", "%-5d", "%+s", "%1$d", "%#d", "%0s", "%.3c", "%5000d"
]
# The reasons, as docs/C.md names them: a pattern, and what takes its place in a format without the reason.
REASONS = [
    ("numbered arguments", r"%(\d)\$", "%"),
    ("`%b`", "b$|b(?=%)", "x"),
    ("`j`, `z` and `t`", "[jzt]", "l"),
    ("`*`", r"%(\*?)\.?(\*?)([dsf])", lambda it: "%d" * len(it[1] + it[2]) + f"%{it[3]}"),
    ("signed and unsigned", "[ouxX]", "d"),
    ("combinations without a meaning", r"%(?:#(?=d)|0(?=s)|\.3(?=c)|5000(?=d))", "%"),
]
# It has no pattern: we judge both formats, and libbsd reads the second one as far as the first.
REJECTED = "a rejected format of your own"
RANDOM = 20_000


def pairs():
    """Each two specifications, and lists of up to three that are accepted."""
    known = [f"%{modifier}{conversion}" for modifier, conversion in product(MODIFIERS, CONVERSIONS)]
    yield from product([*known, *OTHERS], repeat=2)
    chosen = random.Random(11)
    parts = ["%d", "%u", "%lu", "%zu", "%s", "%f", "%*d", "%c", "%n", "%p", "%ld", "%jd"]
    for _ in range(RANDOM):
        own = chosen.choices(parts, k=chosen.randrange(4))
        given = chosen.choice([own, own[: chosen.randrange(4)], chosen.choices(parts, k=chosen.randrange(4))])
        yield "".join(given), "".join(own)


def without_reasons(text):
    for _, pattern, other in REASONS:
        text = re.sub(pattern, other, text)
    return text


def theirs(program, rows, work):
    """Whether libbsd returns the first of each two."""
    file = work / "pairs.nul"
    file.write_bytes(b"".join(text.encode() + b"\0" for row in rows for text in row))
    return [line == "1" for line in lines_of([program, file])[1].split()]


def is_fit(module, own, given):
    try:
        return module.fits(own, given, fewer=True)
    except module.Refused:
        return False


def is_rejected(module, text):
    try:
        module.arguments(text)
    except module.Refused:
        return True
    return False


def reason_for(module, given, own, ours):
    """The reason for a difference, or None."""
    for name, pattern, _ in REASONS:
        if re.search(pattern, given) or re.search(pattern, own):
            return name
    return REJECTED if not ours and is_rejected(module, own) else None


def test_fmtcheck(module, trials, work):
    """Both judge alike, except for reasons that the page names."""
    program = work / "fmtcheck"
    words = ["gcc", "-std=c11", "-Wall", "-Wextra", "-Werror", "-o", program, TOP / "tests/library/fmtcheck.c", "-lbsd"]
    status, output = lines_of(words)
    trials.expect(f"libbsd is there: the package libbsd-dev has it: {output}", status, 0)
    if status != 0:
        return
    rows = list(pairs())
    others = [tuple(map(without_reasons, row)) for row in rows]
    page = (TOP / "docs/C.md").read_text(encoding="utf-8")
    found = dict.fromkeys([*(name for name, _, _ in REASONS), REJECTED], 0)
    for (given, own), (plain, plain_own), first, second in zip(
        rows, others, theirs(program, rows, work), theirs(program, others, work)
    ):
        ours = is_fit(module, own, given)
        reason = reason_for(module, given, own, ours) if ours != first else ""
        trials.expect(f"a reason why {given!r} for {own!r} is {first} to fmtcheck", reason is None, False)
        if reason:
            found[reason] += 1
        if not is_rejected(module, plain_own):
            trials.expect(f"{plain!r} for {plain_own!r} without reasons", is_fit(module, plain_own, plain), second)
    for name, count in found.items():
        trials.expect(f"{count} pairs differ by {name}, which docs/C.md names", (count > 0, name in page), (True, True))


Tests = tests_of(globals())
