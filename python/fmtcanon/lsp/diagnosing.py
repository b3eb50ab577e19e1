"""Says what is wrong with the formats of a source as it is written, and what may be written instead."""

from typing import Iterator, NamedTuple, Optional, Tuple

from .. import Kind, Model, Refused
from ..formats.layout import as_source
from ..formats.rejections import advice_on, instead_of, instead_span, refused_span
from ..frame import findings
from ..kinds import Part
from ..source.written import WrittenDirective, WrittenFormat
from ..specification import SpelledSpecification

# The levels of the protocol, and its tag for what has no effect.
ERROR, WARNING, INFORMATION, HINT = 1, 2, 3, 4
UNNECESSARY = 1
LEVELS = {findings.ERROR: ERROR, findings.WARNING: WARNING, findings.NOTE: INFORMATION}
NO_EFFECT = "no-effect"
# The only rejections that clang says nothing of.
NOT_BY_CLANG = (Kind.WIDTH_TOO_LARGE, Kind.PRECISION_TOO_LARGE, Kind.TOO_LONG)
# The conversions for which clang takes `+` and a space.
WITH_SIGN = "difFeEgGaA"


class TextEdit(NamedTuple):
    """The offsets of what is replaced in a document, and the new bytes."""

    start: int
    end: int
    new: bytes


class SourceFix(NamedTuple):
    """A change of a document: its title, the offsets of what is replaced, the new bytes, and what else changes."""

    title: str
    start: int
    end: int
    new: bytes
    more: Tuple[TextEdit, ...] = ()


class Related(NamedTuple):
    """Another place of a document that a diagnosis is about."""

    start: int
    end: int
    words: str


class Diagnosis(NamedTuple):
    """A fault of a document: its offsets, level, kind and words, what may be done, whether clang says the same, and the
    format if it is rejected.
    """

    start: int
    end: int
    level: int
    kind: str
    words: str
    fixes: Tuple[SourceFix, ...] = ()
    related: Tuple[Related, ...] = ()
    is_by_clang: bool = False
    format: Optional[bytes] = None


def diagnoses_of(format: WrittenFormat, model: Model) -> Iterator[Diagnosis]:
    """Yields what is wrong with a format."""
    if isinstance(format.explanation, Refused):
        yield rejected(format, format.explanation, model)
        return
    for directive in format.directives:
        if directive.part.notes and directive.part.specification:
            yield without_effect(directive)


def rejected(format: WrittenFormat, refusal: Refused, model: Model) -> Diagnosis:
    """Returns that a format is rejected, at the directive that is."""
    text = format.text
    first, last = refused_span(text, refusal)
    start, end = format.range_of(first, min(last, len(text)))[:2] if first < len(text) else (format.start, format.end)
    fixes = tuple(instead(format, refusal, model))
    words = advice_on(text, refusal, model)
    is_by_clang = refusal.kind not in NOT_BY_CLANG
    return Diagnosis(start, end, WARNING, refusal.name, words, fixes, is_by_clang=is_by_clang, format=text)


def instead(format: WrittenFormat, refusal: Refused, model: Model) -> Iterator[SourceFix]:
    """Yields what may be written instead of the specification that is rejected, if one literal has that."""
    new = instead_of(format.text, refusal, model)
    if new is not None:
        start, end, is_whole = format.range_of(*instead_span(format.text, refusal))
        if is_whole:
            yield fix(start, end, new)


def without_effect(directive: WrittenDirective) -> Diagnosis:
    """Returns that parts of a directive have no effect, with the change that removes them."""
    one, part = directive.part.specification, directive.part
    assert one is not None
    fixes: Tuple[SourceFix, ...] = ()
    new = one.without(one.found.together)
    if directive.is_whole and new != part.text:
        fixes = (fix(directive.start, directive.end, new),)
    words = f"{as_source(part.text)}: {'; '.join(part.notes)}"
    by_clang = is_ignored_by_clang(one)
    return Diagnosis(directive.start, directive.end, HINT, NO_EFFECT, words, fixes, is_by_clang=by_clang)


def is_ignored_by_clang(one: SpelledSpecification) -> bool:
    """Returns whether clang warns of the parts without effect: a `0` with `-`, a space with `+`, and both signs of a
    conversion that has none.
    """
    parts, needless = one.found.parts, one.found.needless
    said = Part.ZERO if parts & Part.MINUS else Part(0)
    said |= Part.SPACE if parts & Part.PLUS else Part(0)
    said |= Part(0) if one.conversion in WITH_SIGN else Part.PLUS | Part.SPACE
    return not needless & ~said


def fix(start: int, end: int, new: bytes) -> SourceFix:
    return SourceFix(f"Write {as_source(new)}", start, end, new)
