"""The formats that the bench counts over: shapes of real programs, and the same with directives that the profile lacks.
"""

import re
from pathlib import Path

SHAPES = Path(__file__).resolve().parent / "shapes.nul"
# A directive of the profile, or `%%`.
DIRECTIVE = re.compile(rb"%(?:%|[-+ #0']*[0-9]*(?:\.[0-9]*)?(?:hh|h|ll|l|j|z|t)?[diouxXcs])")
# Directives that the profile lacks, in the order in which they replace others.
OPAQUE = [b"%f", b"%p", b"%*d", b"%.2f", b"%.*s", b"%lf", b"%-*s", b"%g"]
# Pairs of formats of one directive each.
DIRECTIVE_PAIRS = [
    ("% 10d", "%10d"),
    ("%s", "%.4095s"),
    ("%x", "%X"),
    ("%d", "%5d"),
    ("%c", "%5c"),
    ("%lu", "%#lx"),
    ("%4095d", "%.4095d"),
    ("%4095s", "%-4095s"),
    ("%4095c", "%4094c"),
    ("%4095c", "%4095d"),
    ("%04095x", "%04095X"),
    ("%.4095lu", "%.4095lx"),
    ("%04095d", "%.4095d"),
    ("%-4095d", "%-4094d"),
    ("%4095.4000s", "%4095s"),
    ("%d", "%i"),
    ("%0.3d", "%.3d"),
    ("%-.4095ld", "%0.4095ld"),
    ("% 4095d", "%4095d"),
    ("%-+04095.0ld", "%0-+04095.0ld"),
]


def shapes():
    """The shapes of real formats. All are of the profile."""
    return SHAPES.read_bytes().split(b"\0")[:-1]


def whole_shapes():
    """The same shapes, each with one of its directives replaced by one that the profile lacks: the first, the second
    and so on in turn. Shapes without directives are left out."""
    found = []
    for text in shapes():
        places = [it.span() for it in DIRECTIVE.finditer(text) if it.group() != b"%%"]
        if places:
            number = len(found)
            begin, end = places[number % len(places)]
            found.append(text[:begin] + OPAQUE[number % len(OPAQUE)] + text[end:])
    return found


def records(texts):
    """These texts, each terminated by NUL."""
    return b"".join(text + b"\0" for text in texts)
