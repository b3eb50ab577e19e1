"""What to write instead of a directive: one whose type on each platform is the argument's."""

import functools
import re
from typing import Dict, Iterator, NamedTuple, Optional, Tuple

from .. import directives
from ..compiling.platforms import PLATFORMS, Platform
from ..formats.items import specification_alone
from ..kinds import Part, Type
from ..models import Model
from ..specification import NO_PART
from .judging import SIGNED, Fault, Fit, fit_of

LENGTHS = ("", "l", "ll", "z", "t", "j")
MACROS = ("64", "PTR")
# Typedefs whose types the standards leave open: no directive fits them everywhere.
OPEN = re.compile(
    r"\b(?:__)?(?:time|off|ino|dev|nlink|blkcnt|blksize|suseconds|useconds|rlim|clock|fsblkcnt|fsfilcnt|id|key|pid"
    r"|uid|gid|mode|socklen)_t\b"
)
# What is tried first for a type, by its name.
FIRST = {"size_t": "z", "ssize_t": "z", "ptrdiff_t": "t", "intmax_t": "j", "uintmax_t": "j"}
FIRST.update(intptr_t="PTR", uintptr_t="PTR")
# The unsigned types that length modifiers and the ends of PRI macros take, by which a cast can name them.
UNSIGNED = {"": "unsigned int", "l": "unsigned long", "ll": "unsigned long long", "z": "size_t", "j": "uintmax_t"}
UNSIGNED.update({"64": "uint64_t", "PTR": "uintptr_t"})
MACRO = re.compile(r'" PRI([diouxX])(\w+) "$')


class Proposal(NamedTuple):
    """What to write instead of a directive, as source has it between the quotes; whether only a length modifier
    changes; and the cast that the argument needs, if it needs one.
    """

    directive: str
    is_plain: bool
    cast: str = ""

    def __str__(self) -> str:
        cast = f"a cast to {self.cast}"
        return (f"{self.directive} with {cast}" if self.directive else cast) if self.cast else self.directive


@functools.lru_cache(maxsize=None)
def candidates() -> Dict[str, Tuple[Type, ...]]:
    """Returns the signed types that length modifiers and the ends of PRI macros take on each platform."""
    lengths = {it: (it,) * len(PLATFORMS) for it in LENGTHS}
    macros = {it: tuple(platform.modifiers[it] for platform in PLATFORMS) for it in MACROS}
    return {
        name: tuple(directives(f"%{length}d", model=it.model)[0].type for length, it in zip(found, PLATFORMS))
        for name, found in {**lengths, **macros}.items()
    }


def fitting(fault: Fault) -> Optional[str]:
    """Returns the length modifier or the end of a PRI macro that fits the argument on each platform, or None."""
    types = tuple(SIGNED.get(it.type, it.type) if it.type else None for it in fault.given)
    found = [name for name, taken in candidates().items() if taken == types]
    if not found or OPEN.search(fault.given[0].name):
        return None
    words = fault.given[0].name.split()
    other = "z" if "unsigned" in words else "t" if "long" in words else "64"
    first = next((FIRST[it] for it in words if it in FIRST), other)
    return first if first in found else found[0]


def proposal(fault: Fault) -> Optional[Proposal]:
    """Returns what to write instead of a directive whose argument doesn't fit, or None: a directive that the library
    accepts and that the argument, or a cast of it, fits on every platform; or a cast alone.
    """
    if Fit.KIND in fault.fits:
        return None
    if fault.is_star:
        return Proposal("", False, "int")
    return next((it for it in proposals(fault) if is_right(fault, it)), None)


def proposals(fault: Fault) -> Iterator[Proposal]:
    """Yields what may be written instead of a directive, the best first."""
    one, end = fault.specification, fitting(fault)
    letter = one.conversion
    is_unsigned, is_sign = fault.given[0].type in SIGNED, fault.worst is Fit.SIGN
    if letter in "cC":
        yield Proposal("", False, "int" if one.modifier + letter == "c" else "wint_t")
        return
    # Flags for a sign do nothing if it is unsigned.
    signs = Part.PLUS | Part.SPACE if letter in "di" and is_unsigned else NO_PART
    bare = one.without(signs | Part.MODIFIER)[:-1].decode()
    if letter in "diu" and (is_unsigned or is_sign):
        letter = "u" if is_unsigned else "d"
    if end in MACROS:
        yield Proposal(f'{bare}" PRI{letter}{end} "', False)
    elif end is not None:
        yield Proposal(f"{bare}{end}{letter}", True)
    if is_sign and end in UNSIGNED:
        yield Proposal("", False, UNSIGNED[end])
    letter = letter if letter not in "diu" else "u" if is_unsigned else "d"
    yield Proposal(f"{bare}j{letter}", False, "intmax_t" if letter == "d" else "uintmax_t")


def is_right(fault: Fault, made: Proposal) -> bool:
    """Returns whether the library accepts a proposal, and it fits on every platform and differs from what is there."""
    if not made.directive:
        return True
    types = [type_of(made.directive, it) for it in PLATFORMS]
    if made.cast:
        return None not in types
    allowed = (Fit.EQUAL,) if fault.worst is Fit.SIGN else (Fit.EQUAL, Fit.SIGN)
    pairs = zip(types, fault.given, PLATFORMS)
    does_fit = all(type is not None and fit_of(type, given, it.model) in allowed for type, given, it in pairs)
    return does_fit and made.directive != fault.shown


def type_of(directive: str, platform: Platform) -> Optional[Type]:
    """Returns the type that a directive takes, without the numbers of arguments, or None if it isn't accepted."""
    one = specification_alone(MACRO.sub(lambda it: f"{platform.modifiers[it[2]]}{it[1]}", directive).encode())
    return taken(one.alone(), platform.model) if one else None


@functools.lru_cache(maxsize=None)
def taken(directive: bytes, model: Model) -> Type:
    return directives(directive, model=model)[0].type
