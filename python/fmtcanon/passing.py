"""Arguments of formats, as the library takes them."""

from __future__ import annotations

import ctypes
from typing import Any, Sequence

from .kinds import Type
from .prototypes import CArgument

_SIGNED = (Type.INT, Type.LONG, Type.LONG_LONG)
# The program accepts no number of more digits.
_MOST_DIGITS = 20


def passed(arguments: Sequence[Any], kinds: Sequence[Type]) -> "ctypes.Array[CArgument]":
    """Returns the arguments with the types that a format takes, one for each.

    Raises `TypeError` for one that isn't an int, str or bytes, and `ValueError` for one that no argument of its type
    is. Numbers out of a type's range are passed, except those that 64 bits can't hold.
    """
    if len(arguments) != len(kinds):
        raise ValueError(f"argument count: wanted {len(kinds)}, given {len(arguments)}")
    pairs = zip(arguments, kinds)
    return (CArgument * len(kinds))(*[_passed(index, *pair) for index, pair in enumerate(pairs)])


def _passed(index: int, argument: Any, kind: Type) -> CArgument:
    if isinstance(argument, int):
        if abs(argument) >= 10**_MOST_DIGITS:
            raise ValueError(f"argument {index}: not an argument")
        least = -(2**63) if kind in _SIGNED else 0
        if kind is Type.STRING or not least <= argument < least + 2**64:
            raise ValueError(f"argument {index}: wrong type")
        return CArgument(kind, argument % 2**64, None, 0)
    string = _string(argument)
    if kind is not Type.STRING:
        raise ValueError(f"argument {index}: wrong type")
    return CArgument(kind, 0, string, len(string))


def _string(argument: Any) -> bytes:
    if not isinstance(argument, (str, bytes, bytearray, memoryview)):
        raise TypeError(f"an argument is an int, a str or bytes, not {type(argument).__name__}")
    string = argument.encode() if isinstance(argument, str) else bytes(argument)
    if b"\0" in string:
        raise ValueError("a string argument of a C program has no NUL byte")
    return string
