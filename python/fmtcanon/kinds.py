"""Why texts are rejected, types of arguments, and verdicts, with the numbers that the library uses."""

import enum

from .words import WORDS


class Kind(enum.IntEnum):
    """Why a format is rejected."""

    NUL_BYTE = 1
    TRUNCATED = 2
    UNEXPECTED = 3
    BAD_PERCENT = 4
    STAR = 5
    NUMBERED = 6
    WIDTH_TOO_LARGE = 7
    PRECISION_TOO_LARGE = 8
    FLOAT = 9
    POINTER = 10
    COUNT = 11
    WIDE = 12
    ALT_UNDEFINED = 13
    ZERO_UNDEFINED = 14
    GROUP_UNDEFINED = 15
    PRECISION_UNDEFINED = 16
    LENGTH_UNDEFINED = 17
    TOO_LONG = 18
    # Of the whole language alone.
    COUNT_UNDEFINED = 19
    MIXED = 20
    MISSING_ARGUMENT = 21
    TWO_TYPES = 22


class LiteralKind(enum.IntEnum):
    """Why a text is not string literals of C source."""

    NO_LITERAL = 201
    UNTERMINATED = 202
    BAD_ESCAPE = 203
    ESCAPE_TOO_LARGE = 204
    ZERO_BYTE = 205
    TRIGRAPH = 206


class Type(enum.IntEnum):
    """The type of an argument."""

    INT = 1
    UINT = 2
    LONG = 3
    ULONG = 4
    LONG_LONG = 5
    ULONG_LONG = 6
    STRING = 7
    # Of the whole language alone.
    DOUBLE = 8
    LONG_DOUBLE = 9
    WIDE_CHAR = 10
    WIDE_STRING = 11
    POINTER_TO_VOID = 12
    POINTER_TO_SCHAR = 13
    POINTER_TO_SHORT = 14
    POINTER_TO_INT = 15
    POINTER_TO_LONG = 16
    POINTER_TO_LONG_LONG = 17


class Verdict(enum.IntEnum):
    """How two formats compare."""

    SAME = 1
    TYPES = 2
    DIFFERENT = 3
    # Of the whole language alone.
    DIRECTIVES = 4


class Part(enum.IntFlag):
    """A part that a conversion specification can be without, and a set of them."""

    MINUS = 1
    PLUS = 2
    SPACE = 4
    ALT = 8
    ZERO = 16
    GROUP = 32
    WIDTH = 64
    PRECISION = 128
    MODIFIER = 256


# The names of types that all commands use.
TYPE_NAMES = {Type(int(number)): str(name) for number, name in WORDS["types"].items()}
