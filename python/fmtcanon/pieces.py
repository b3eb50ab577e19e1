"""The pieces of a format, and the parts that a directive prints the same as."""

from __future__ import annotations

import re
from typing import Iterator, NamedTuple, Union

from .kinds import TYPE_NAMES, Type
from .specification import FLAGS, SpelledSpecification


class Text(NamedTuple):
    """A run of `length` literal bytes."""

    length: int


class Percent(NamedTuple):
    """A `%%`."""

    spelling: str = "%%"


class Directive(NamedTuple):
    """A directive, and parts that print the same.

    `spelling` has the flags in one order, and `type` is the C name of its argument's type, or "string".
    The directive prints the same as `spaces` spaces, `zeros` zeros, the directive `core` and `trail` spaces.
    """

    spelling: str
    type: str
    spaces: int
    zeros: int
    core: str
    trail: int


Shown = Union[Text, Percent, Directive]
_WORDS = re.compile(rb"%%|[^%]+")


def words_of(text: bytes) -> Iterator[Union[Text, Percent]]:
    """Yields the pieces of a text without directives."""
    for run in _WORDS.findall(text):
        yield Percent() if run == b"%%" else Text(len(run))


def directive_of(one: SpelledSpecification, core: SpelledSpecification) -> Directive:
    """Returns a directive of the profile, by the one in its canonical text."""
    type, front, trail = one.found.type, core.format[: core.found.start], len(core.format) - core.found.end
    assert type is not None
    return Directive(_spelling(one), TYPE_NAMES[type], front.count(b" "), front.count(b"0"), core.text.decode(), trail)


def _spelling(one: SpelledSpecification) -> str:
    """Returns how the program spells a directive: each flag once, and the precision without zeros in front."""
    flags = "".join(flag for flag, part in FLAGS.items() if part & one.found.parts)
    precision = "" if one.found.precision is None else f".{one.found.precision}"
    return f"%{flags}{one.found.width or ''}{precision}{one.modifier}{one.conversion}"
