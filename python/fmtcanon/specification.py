"""A conversion specification of a format, and its bytes, by the offsets that the library gives."""

from __future__ import annotations

from typing import Callable, Dict, List, NamedTuple, Optional

from .kinds import Part, Type
from .words import WORDS

# How flags are spelled, and how the words name other parts, by the bits of Part.
NAMES: Dict[int, str] = {1 << bit: name for bit, name in enumerate(WORDS["parts"])}
FLAGS = {name: part for part, name in NAMES.items() if part < Part.WIDTH}
NO_PART = Part(0)


class Specification(NamedTuple):
    """A conversion specification of a format with its parts.

    Its bytes are those from `start` to `end`. Its flags begin at `flags_at`, its width at `width_at`, its
    precision at `precision_at` and its length modifier at `modifier_at`: each is the bytes up to the next offset,
    none if it isn't there, and the conversion is the last byte. `width` and `precision` are numbers, None if there
    is none or a `*`. The arguments and the type are those of a `DirectiveSpan`.

    `parts` are the parts that it has. Of these, `needless` are those that have no effect: `same` with `whole` is
    True for the specification alone, and it without this one part. `together` are those of these without which
    it is True together, too: in the order of `Part`, each that has no effect together with those before it.

    Of one in which a format is rejected, the offsets are known, as far as it can be read to its end; otherwise they
    are where it is rejected. `argument` is the one that the format leaves out, if it does. The rest is None or 0.
    """

    start: int
    end: int
    flags_at: int
    width_at: int
    precision_at: int
    modifier_at: int
    type: Optional[Type]
    argument: Optional[int]
    width_argument: Optional[int]
    precision_argument: Optional[int]
    width: Optional[int]
    precision: Optional[int]
    parts: Part
    needless: Part
    together: Part


def moved(found: Specification, place_of: Callable[[int], int]) -> Specification:
    """Returns a specification with the offsets in another text."""
    return found._replace(
        start=place_of(found.start),
        end=place_of(found.end),
        flags_at=place_of(found.flags_at),
        width_at=place_of(found.width_at),
        precision_at=place_of(found.precision_at),
        modifier_at=place_of(found.modifier_at),
    )


class SpelledSpecification(NamedTuple):
    """A conversion specification, and the format in which it is."""

    found: Specification
    format: bytes

    @property
    def text(self) -> bytes:
        return self.format[self.found.start : self.found.end]

    @property
    def conversion(self) -> str:
        return self.format[self.found.end - 1 : self.found.end].decode("latin-1")

    @property
    def modifier(self) -> str:
        return self.piece(Part.MODIFIER).decode()

    @property
    def flags(self) -> str:
        return self.format[self.found.flags_at : self.found.width_at].decode()

    def piece(self, part: int) -> bytes:
        """Returns the bytes of its width, its precision or its length modifier."""
        found = self.found
        if part == Part.WIDTH:
            return self.format[found.width_at : found.precision_at]
        if part == Part.PRECISION:
            return self.format[found.precision_at : found.modifier_at]
        return self.format[found.modifier_at : found.end - 1]

    def without(self, parts: Part) -> bytes:
        """Returns its bytes without these parts."""
        return self.format[self.found.start : self.found.flags_at] + b"".join(self.pieces(parts))

    def alone(self, without: Part = NO_PART) -> bytes:
        """Returns a format of its own, without the numbers of arguments, and without these parts."""
        flags, *numbers, modifier, conversion = self.pieces(without)
        width, precision = (b"".join(it.partition(b"*")[:2]) for it in numbers)
        return b"%" + flags + width + precision + modifier + conversion

    def pieces(self, without: Part) -> List[bytes]:
        """Returns the bytes of its flags, its width, its precision, its length modifier and its conversion."""
        # Translations have the flag I, too.
        flags = "".join(it for it in self.flags if not FLAGS.get(it, 0) & without).encode()
        others = (Part.WIDTH, Part.PRECISION, Part.MODIFIER)
        return [flags, *(b"" if it & without else self.piece(it) for it in others), self.conversion.encode("latin-1")]
