"""Explains formats: what each directive prints, and how two formats differ.

Every fact comes from a call of the library, also which parts of a directive have no effect.
"""

from __future__ import annotations

from typing import Dict, List, Mapping, NamedTuple, Optional, Sequence, Tuple, Union

import fmtcanon
from fmtcanon import Kind, Model, Refused, Specification, Type

from ..kinds import TYPE_NAMES
from ..specification import SpelledSpecification
from ..words import WORDS
from .items import errnos_of
from .rejections import instead_of, sentence
from .verdicts import (
    Argument,
    PairKind,
    PairVerdict,
    canonical,
    compared,
    compared_by_types,
    printed_by,
    taker_of,
    telling_arguments,
)
from .wording import meaning, meaning_of_number, notes, type_name


class ExplainedDirective(NamedTuple):
    """A directive of a format: where it is, its text, its argument from 1, its type by data model, and in words what it
    prints, which of its parts have no effect, and the name of its type in C if it has one in all data models; and the
    specification. `%m` has no argument, no types and no specification.
    """

    start: int
    end: int
    text: bytes
    argument: Optional[int]
    types: Dict[Model, Type]
    meaning: str
    notes: Tuple[str, ...]
    type_name: str = ""
    specification: Optional[SpelledSpecification] = None


class Marked(NamedTuple):
    """A part of a format, by its offsets, and what is said of it."""

    start: int
    end: int
    words: str


class Explanation(NamedTuple):
    """What a format does. `canonical` is empty if its arguments are numbered, and `bounds` None outside the profile."""

    format: bytes
    parts: Tuple[ExplainedDirective, ...]
    canonical: Dict[Model, bytes]
    bounds: Optional[fmtcanon.Bounds]


class Difference(NamedTuple):
    """How two formats compare.

    `arguments` are some that they print differently, and `printed` is what each prints for them, if it can be had.
    `at` is the index from 0 of the first argument at which their types or directives differ. `parts` are the
    directives there: of each format one, or None.
    """

    formats: Tuple[bytes, bytes]
    verdict: PairKind
    canonical: Dict[Model, bytes] = {}
    arguments: Tuple[Argument, ...] = ()
    printed: Tuple[bytes, ...] = ()
    at: Optional[int] = None
    parts: Tuple[Optional[ExplainedDirective], ...] = ()


class Rejection(NamedTuple):
    """Why a format is rejected: the refusal, what it means, and what to write instead of the specification.

    `side` is the index of the format, if two are compared. `types` is how their types compare, if numbered arguments
    are all that is rejected. `at` is the offset of the byte as the program prints it: in string literals, if the format
    was given as these.
    """

    format: bytes
    refusal: Refused
    help: str
    instead: Optional[bytes]
    side: Optional[int] = None
    types: Optional[Difference] = None
    at: Optional[int] = None

    def __str__(self) -> str:
        at = self.refusal.byte if self.at is None else self.at
        return str(Refused(self.refusal.kind, self.refusal.name, at))


def explain(text: bytes, model: Model, texts: Optional[Mapping[Model, bytes]] = None) -> Explanation:
    """Explains a format of the whole language, which may be another text in other data models. Raises `Refused`."""
    found, texts = fmtcanon.specifications(text, model=model), texts or dict.fromkeys(Model, text)
    types = {it: types_in(other, it) for it, other in texts.items()}
    by_model = [{it: known[at] for it, known in types.items() if known} for at in range(len(found))]
    effects = found if model is Model.LP64 else effects_of(found, text, texts[Model.LP64])
    parts = [part_of(text, one, other, it) for one, other, it in zip(found, effects, by_model)]
    parts += [errno_part(at) for at in errnos_of(text)]
    parts.sort(key=lambda it: it.start)
    return Explanation(text, tuple(parts), canonical_by_model(texts), bounds_of(text, model))


def types_in(text: bytes, model: Model) -> List[Type]:
    """Returns the type of each directive's argument, or none if the format is rejected in this data model."""
    try:
        return [it.type for it in fmtcanon.directives(text, model=model)]
    except Refused:
        return []


def effects_of(found: Sequence[Specification], text: bytes, other: bytes) -> List[Specification]:
    """Returns the specifications of a format in LP64, where it is another text, each alone if it is rejected there.

    No type is shorter in LP64 than elsewhere. So a part without an effect there has none in any data model.
    """
    try:
        return fmtcanon.specifications(other)
    except Refused:
        return fmtcanon.specifications(b"".join(SpelledSpecification(it, text).alone() for it in found))


def canonical_by_model(texts: Mapping[Model, bytes]) -> Dict[Model, bytes]:
    """Returns the canonical text in each data model; none if arguments are numbered."""
    try:
        return {model: canonical(text, model) for model, text in texts.items()}
    except Refused:
        return {}


def unlike_key(texts: Mapping[Model, bytes], model: Model) -> List[Model]:
    """Returns the data models in which the canonical text in one, of these in each, isn't the same as the format."""
    key = texts[model]
    return [it for it, other in texts.items() if other != key and other != canonical(key, it)]


def bounds_of(text: bytes, model: Model) -> Optional[fmtcanon.Bounds]:
    """Returns how many bytes a format of the profile prints."""
    try:
        return fmtcanon.bounds(text, model=model)
    except Refused:
        return None


def part_of(
    text: bytes, found: Specification, effects: Specification, types: Dict[Model, Type]
) -> ExplainedDirective:
    """Returns a directive, whose types are these, with what it prints; what has no effect has none in any data model.
    """
    one = SpelledSpecification(found._replace(needless=effects.needless, together=effects.together), text)
    argument = None if found.argument is None else found.argument + 1
    said = meaning(one), notes(one), type_name(one)
    return ExplainedDirective(found.start, found.end, one.text, argument, types, *said, one)


def errno_part(at: int) -> ExplainedDirective:
    """Returns the `%m` at an offset."""
    words = WORDS["errno"]
    text = words["write"].encode()
    return ExplainedDirective(at, at + len(text), text, None, {}, words["meaning"], (words["note"],))


def reject(text: bytes, refusal: Refused, model: Model, side: Optional[int] = None) -> Rejection:
    """Returns what a refusal of a format means."""
    return Rejection(text, refusal, sentence(text, refusal), instead_of(text, refusal, model), side)


def compare(
    first: bytes, second: bytes, model: Model, texts: Optional[Mapping[Model, bytes]] = None
) -> Union[Difference, Rejection]:
    """Compares two formats. The first may be another text in other data models."""
    formats = (first, second)
    try:
        found = compared(first, second, model)
    except Refused as refusal:
        rejection = reject(formats[refusal.side], refusal, model, refusal.side)
        is_numbered = refusal.kind is Kind.NUMBERED
        return rejection._replace(types=by_types(formats, model, refusal)) if is_numbered else rejection
    if found.kind is PairKind.SAME:
        return Difference(formats, found.kind, canonical=canonical_by_model(texts or dict.fromkeys(Model, first)))
    if found.kind is PairKind.DIFFERENT:
        return printed_unlike(formats, found.arguments, model)
    parts = (unlike_at if found.kind is PairKind.DIRECTIVES else parts_at)(formats, found.at, model)
    return Difference(formats, found.kind, at=found.at, parts=parts)


def by_types(formats: Tuple[bytes, bytes], model: Model, refusal: Refused) -> Optional[Difference]:
    """Compares the types of two formats if one has numbered arguments; returns None if one is rejected."""
    found = compared_by_types(*formats, model, refusal)
    if found.kind is PairKind.TYPES:
        return Difference(formats, found.kind, at=found.at, parts=parts_at(formats, found.at, model))
    are_same = found.kind is PairKind.SAME or found.refusal is refusal
    return Difference(formats, PairKind.SAME) if are_same else None


def parts_at(formats: Sequence[bytes], index: int, model: Model) -> Tuple[Optional[ExplainedDirective], ...]:
    """Returns the directive of each format that takes the argument of this index."""
    return tuple(part_at(it, index, model) for it in formats)


def unlike_at(formats: Sequence[bytes], index: int, model: Model) -> Tuple[Optional[ExplainedDirective], ...]:
    """Returns the directive of each format that takes the argument of this index, or a `%m` in front of it that the
    other format lacks.
    """
    errnos = [errnos_at(it, index, model) for it in formats]
    shared = min(map(len, errnos))
    return tuple(own[shared] if own[shared:] else part_at(it, index, model) for own, it in zip(errnos, formats))


def errnos_at(text: bytes, index: int, model: Model) -> List[ExplainedDirective]:
    """Returns each `%m` that comes after this number of arguments."""
    found: List[ExplainedDirective] = []
    taken = 0
    for part in explain(text, model).parts:
        if part.argument is not None:
            taken = part.argument
        elif taken == index:
            found.append(part)
    return found


def part_at(text: bytes, index: int, model: Model) -> Optional[ExplainedDirective]:
    """Returns the directive that takes the argument of this index, converted or as a `*`."""
    taker = taker_of(text, index, model)
    return next((it for it in explain(text, model).parts if taker and it.start == taker.start), None)


def printed_unlike(formats: Tuple[bytes, bytes], arguments: Tuple[Argument, ...], model: Model) -> Difference:
    """Returns what two formats print for arguments that show a difference, and the first directives that do."""
    arguments = telling_arguments(*formats, arguments, model)
    printed = tuple(it for it in (printed_by(it, arguments, model) for it in formats) if it is not None)
    first, second = ([part for part in explain(it, model).parts if part.argument] for it in formats)
    unlike = ((one, two) for one, two in zip(first, second) if not is_alike(one, two, arguments, model))
    parts = tuple(about_argument(it, arguments) for it in next(unlike, ()))
    return Difference(formats, PairKind.DIFFERENT, arguments=arguments, printed=printed, parts=parts)


def about_argument(part: ExplainedDirective, arguments: Sequence[Argument]) -> ExplainedDirective:
    """Returns a directive. If its argument is a number with a sign, its meaning is that for this number."""
    argument = argument_of(part, arguments)
    one = part.specification
    said = meaning_of_number(one, argument) if one and isinstance(argument, int) else None
    return part._replace(meaning=said or part.meaning)


def marked_parts(formats: Tuple[bytes, bytes], verdict: PairVerdict, model: Model) -> Sequence[Optional[Marked]]:
    """Returns the directive of each of two formats that a verdict is about, with its type or what it prints; nothing if
    the verdict is about none.
    """
    if verdict.kind is PairKind.TYPES:
        takers = [taker_of(it, verdict.at, model) for it in formats]
        return [it and Marked(it.start, it.end, TYPE_NAMES[it.type]) for it in takers]
    parts: Sequence[Optional[ExplainedDirective]] = ()
    if verdict.kind is PairKind.DIRECTIVES:
        parts = unlike_at(formats, verdict.at, model)
    elif verdict.kind is PairKind.DIFFERENT:
        parts = printed_unlike(formats, verdict.arguments, model).parts
    return [it and Marked(it.start, it.end, it.meaning) for it in parts]


def argument_of(part: ExplainedDirective, arguments: Sequence[Argument]) -> Argument:
    """Returns the argument of a directive, which isn't `%m`."""
    return arguments[(part.argument or 1) - 1]


def is_alike(
    first: ExplainedDirective, second: ExplainedDirective, arguments: Sequence[Argument], model: Model
) -> bool:
    """Returns whether two directives print the same for their arguments."""
    if argument_of(first, arguments) is None:
        return True
    one, two = (printed_by(it.text, [argument_of(it, arguments)], model) for it in (first, second))
    return one == two
