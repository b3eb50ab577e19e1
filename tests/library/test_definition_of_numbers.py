"""Compares the definition of what a directive prints for a number with printf of the C library.

The functions say again, one by one, what crates/pf_values/specs/meaning/Printing.antt defines: `from_zero`,
`sign_or_prefix`, `zeros`, `PrintsNumber` and `field`. The code isn't run here.
"""

import ctypes
import itertools
from collections import namedtuple

from tests.frame.cases import tests_of

Specification = namedtuple("Specification", "flags width precision conversion")

BASES = {"d": 10, "i": 10, "u": 10, "o": 8, "x": 16, "X": 16}
FLAGS = "-+ #0"
WIDTHS = (0, 1, 2, 3, 5, 9, 12, 25)
PRECISIONS = (None, 0, 1, 2, 5, 11, 13)
SIGNED = (0, 1, -1, 7, 8, 9, 255, -(2**31), 2**31 - 1)
UNSIGNED = (0, 1, 7, 8, 9, 64, 511, 255, 2**32 - 1)
COUNT = 72_576


def numeral(specification, magnitude):
    """Returns the digits of a number, at least as many as the precision, which is 1 if none is given."""
    base, digits = BASES[specification.conversion], ""
    while magnitude:
        magnitude, digit = divmod(magnitude, base)
        digits = "0123456789abcdef"[digit] + digits
    if specification.conversion == "X":
        digits = digits.upper()
    return digits.rjust(1 if specification.precision is None else specification.precision, "0")


def from_zero(digits):
    """Returns digits with a `0` before them, unless they begin with one."""
    return digits if digits.startswith("0") else "0" + digits


def sign_or_prefix(specification, value):
    """Returns the bytes before the digits."""
    flags, conversion = specification.flags, specification.conversion
    if conversion in "di":
        return "-" if value < 0 else "+" if "+" in flags else " " if " " in flags else ""
    return "0" + conversion if "#" in flags and conversion in "xX" and value else ""


def zeros(specification, text):
    """Returns the zeros that pad a text to the width, if the flag `0` counts."""
    flags, width = specification.flags, specification.width
    counts = "0" in flags and "-" not in flags and specification.precision is None
    return "0" * (width - len(text)) if counts else ""


def printed(specification, value):
    """Returns what a directive prints for a number."""
    digits = numeral(specification, abs(value))
    if specification.conversion == "o" and "#" in specification.flags:
        digits = from_zero(digits)
    front = sign_or_prefix(specification, value)
    body = front + zeros(specification, front + digits) + digits
    left = "-" in specification.flags
    return body.ljust(specification.width) if left else body.rjust(specification.width)


def spelled(specification):
    """Returns a directive."""
    width, precision = specification.width or "", specification.precision
    return f"%{specification.flags}{width}{'' if precision is None else f'.{precision}'}{specification.conversion}"


def specifications():
    """Yields those of each conversion with each set of flags that it defines, in these widths and precisions."""
    sets = ["".join(flags) for count in range(len(FLAGS) + 1) for flags in itertools.combinations(FLAGS, count)]
    for conversion, flags, width, precision in itertools.product(BASES, sets, WIDTHS, PRECISIONS):
        if "#" not in flags or conversion not in "diu":
            yield Specification(flags, width, precision, conversion)


def printed_by_library(directive, argument, room=64):
    """Returns what printf of the C library prints."""
    out = ctypes.create_string_buffer(room)
    ctypes.CDLL(None).snprintf(out, ctypes.c_size_t(room), directive.encode(), argument)
    return out.value.decode()


def test_printed(trials):
    """What is defined is what printf prints."""
    tried = 0
    for it in specifications():
        signed = it.conversion in "di"
        for value in SIGNED if signed else UNSIGNED:
            argument = ctypes.c_int(value) if signed else ctypes.c_uint(value)
            trials.expect(f"{spelled(it)} of {value}", printed(it, value), printed_by_library(spelled(it), argument))
            tried += 1
    trials.expect("directives and numbers", tried, COUNT)


Tests = tests_of(globals())
