"""Tests of `show`: its pieces are those that the program prints."""

import random
import subprocess

import fmtcanon
from fmtcanon import Model, Refused
from fmtcanon.program import program

from tests.commands.module import needs_program
from tests.frame.cases import tests_of


FORMATS = 2000
WORDS = ["a", "%%", "  ", "0", "\u00e9", "\n", "a%%%%"]
WIDTHS = ["", "1", "5", "12", "20", "33", "70", "100", "4095", "005"]
PRECISIONS = ["", ".", ".0", ".1", ".3", ".11", ".32", ".64", ".005", ".4095"]
LENGTHS = ["", "hh", "h", "l", "ll", "j", "z", "t"]


def directive(chosen):
    flags = "".join(chosen.choices("-+ #0'", k=chosen.randrange(4)))
    return f"%{flags}{''.join(map(chosen.choice, [WIDTHS, PRECISIONS, LENGTHS]))}{chosen.choice('diuoxXbcs')}"


def formats():
    """Random formats: about half are accepted."""
    chosen = random.Random(5)
    for _ in range(FORMATS):
        parts = (
            directive(chosen) if chosen.random() < 0.7 else chosen.choice(WORDS) for _ in range(chosen.randrange(4))
        )
        yield "".join(parts)


def line(piece):
    """How the program prints a piece."""
    if isinstance(piece, fmtcanon.Text):
        return f"text {piece.length}"
    if isinstance(piece, fmtcanon.Percent):
        return "percent"
    return f"directive {piece.spelling}: {piece.type}: {piece.spaces} {piece.zeros} {piece.core} {piece.trail}"


@needs_program
def test_random_formats(case):
    for model in Model:
        accepted, texts = 0, list(formats())
        words = [program(), "show", "--null", "--model", model.name.lower()]
        records = b"".join(it.encode() + b"\0" for it in texts)
        replies = subprocess.run(words, input=records, stdout=subprocess.PIPE, check=False).stdout.split(b"\0")
        case.assertEqual(len(replies), len(texts) + 1)
        for text, reply in zip(texts, replies):
            try:
                found = "0 " + "\n".join(map(line, fmtcanon.show(text, model=model)))
                accepted += 1
            except Refused as refusal:
                found = f"2 {refusal}"
            case.assertEqual(found.encode(), reply, text)
        case.assertGreater(accepted, FORMATS // 3)


Tests = tests_of(globals())
