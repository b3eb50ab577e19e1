"""Formats and pairs for the tests of the module: those of the rows, and random ones."""

import json
import random
from functools import lru_cache

from tests.frame.harness import TOP

ROWS = TOP / "tests/rows"
FLAGS = ["", "-", "+", " ", "#", "0", "'", "-0", "+ ", "0#", "00", "-+ #0'"]
WIDTHS = ["", "", "1", "2", "5", "11", "20", "4095", "4096", "*"]
PRECISIONS = ["", "", ".", ".0", ".1", ".2", ".7", ".20", ".4096", ".*"]
MODIFIERS = ["", "", "hh", "h", "l", "ll", "j", "z", "t", "L", "I64", "q", "Z"]
CONVERSIONS = "diuoxXbcsfFeEgGaApnCSm%"
WORDS = ["", " ", "a", "0", "%%", "of ", "\n", "\xc3\xbc", "\xff", "\0", "%m", "x" * 20]
LETTERS = "%%%%%ddiuoxXcsfeghlLjztn-+ #0'.*$1234567890ab\n"


def texts_in(value):
    """The texts in a row that have a percent sign, with one byte in each character."""
    if isinstance(value, str):
        return [value.encode("utf-8", "surrogateescape").decode("latin-1")] if "%" in value else []
    inside = value.values() if isinstance(value, dict) else value if isinstance(value, list) else []
    return [it for one in inside for it in texts_in(one)]


def rows():
    """The formats of the rows of the tests."""
    for path in sorted(ROWS.iterdir()):
        lines = path.read_text(encoding="utf-8").splitlines()
        for line in lines:
            yield from texts_in(json.loads(line) if path.suffix == ".jsonl" else [line.split("\t")[0]])
    yield from (TOP / "bench/shapes.nul").read_bytes().decode("latin-1").split("\0")


def number(pick):
    return f"{pick.randrange(1, 4)}$"


def specification(pick):
    """A specification; one in eight has numbers."""
    parts = [pick.choice(it) for it in (FLAGS, WIDTHS, PRECISIONS, MODIFIERS, CONVERSIONS)]
    if pick.randrange(8) > 0:
        return "%" + "".join(parts)
    return f"%{number(pick)}" + "".join(it.replace("*", f"*{number(pick)}") for it in parts)


def made(pick):
    """A format: words and specifications in turn, or letters."""
    if pick.randrange(4) == 0:
        return "".join(pick.choice(LETTERS) for _ in range(pick.randrange(24)))
    return "".join(
        pick.choice(WORDS) + specification(pick) for _ in range(pick.choice([1, 1, 1, 2, 3, 5]))
    ) + pick.choice(WORDS)


@lru_cache(maxsize=None)
def formats(count):
    """The formats of the rows, and this number of random ones."""
    pick = random.Random(6)
    return list(dict.fromkeys([*rows(), *(made(pick) for _ in range(count))]))


def mutated(text, pick):
    """A format that differs little: with one specification or one byte changed."""
    at = pick.randrange(len(text) + 1)
    return text[:at] + pick.choice([pick.choice(LETTERS), specification(pick), ""]) + text[at + pick.randrange(3) :]


def pairs(count):
    """Pairs of formats: some that only a long string tells apart, and each with one that differs little, or with
    another.
    """
    for length in (9, 20, 300, 4095):
        for front in ("", "a%d", "%5c %-3s "):
            yield f"{front}%.{length}s", f"{front}%s"
            yield f"{front}%{length}s%.1s", f"b{front}%{length - 1}s%.1s"
    pick, known = random.Random(7), formats(count)
    for _ in range(count):
        text = pick.choice(known)
        yield text, mutated(text, pick) if pick.randrange(3) else pick.choice(known)
