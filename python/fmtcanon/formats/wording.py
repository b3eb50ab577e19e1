"""Says in the words of the standard what a conversion specification prints (C11 7.21.6.1), by the table of words."""

from __future__ import annotations

from typing import Any, Dict, Optional, Set, Tuple

from ..kinds import Part
from ..specification import NAMES, SpelledSpecification
from ..words import WORDS, phrase


def tokens_of(one: SpelledSpecification, parts: int) -> Set[str]:
    """Returns what the rows of the table ask of a specification that has only these parts: the names of the parts, `w5`
    and `p0` for these numbers or `width*` and `precision*` for arguments, and the length modifier.
    """
    found, tokens = one.found, {name for part, name in NAMES.items() if part & parts}
    for name, number in (("width", found.width), ("precision", found.precision)):
        if name in tokens:
            tokens.add(f"{name}*" if number is None else f"{name[0]}{number}")
    return tokens | {one.modifier} if Part.MODIFIER & parts else tokens


def filled(words: str, one: SpelledSpecification, parts: int, part: str = "") -> str:
    """Returns words with what they have in braces."""
    if "{" not in words:
        return words
    found, letter = one.found, one.conversion
    values: Dict[str, Any] = {name: of.get(letter) for name, of in WORDS["values"].items()}
    if found.precision is not None and Part.PRECISION & parts:
        values["precision"] = found.precision
    stars = {"w": found.width_argument, "p": found.precision_argument}
    numbers = {name: it + 1 for name, it in stars.items() if it is not None}
    return words.format(**values, **numbers, conversion=letter, width=found.width, part=part)


def effective(one: SpelledSpecification) -> int:
    """Returns the parts of a specification that are left without those that have no effect."""
    return int(one.found.parts) & ~int(one.found.together)


def meaning(one: SpelledSpecification) -> str:
    """Returns what a specification prints."""
    parts, letter = effective(one), one.conversion
    tokens = tokens_of(one, parts)
    phrases = (phrase(rows, letter, tokens) for rows in WORDS["meaning"])
    return filled(", ".join(filter(None, phrases)), one, parts)


def meaning_of_number(one: SpelledSpecification, number: int) -> Optional[str]:
    """Returns what an integer conversion does with the sign of a number, which tells zeros from digits; or None."""
    parts = effective(one)
    if number >= 0 and not parts & (Part.PLUS | Part.SPACE):
        return None
    return filled(phrase(WORDS["sign"], one.conversion, tokens_of(one, parts)), one, parts) or None


def notes(one: SpelledSpecification) -> Tuple[str, ...]:
    """Returns why parts have no effect, which the library has said, and which flags are there more than once."""
    parts, needless, together = (int(it) for it in one.found[-3:])
    flags, listed, tokens = one.flags, [], tokens_of(one, parts) if needless else set()
    for part, name in NAMES.items():
        if part & needless:
            words = phrase(WORDS["needless"][name], one.conversion, tokens) if part & together else WORDS["either"]
            listed.append(filled(words, one, parts, name if name in flags else one.piece(part).decode()))
    twice = [it for it in dict.fromkeys(flags) if flags.count(it) > 1]
    return (*listed, *(filled(WORDS["twice"], one, parts, it) for it in twice))


def type_name(one: SpelledSpecification) -> str:
    """Returns the name that C has for the type of a specification's argument in all data models, if there is one."""
    return phrase(WORDS["typedefs"], one.conversion, {one.modifier})
