"""The types of the arguments of a message, in the whole language of printf with macros of <inttypes.h>."""

import bisect
import re
from typing import Dict, Iterator, List, NamedTuple, Optional

import fmtcanon

from ..formats.items import MACRO, Item, is_unexpected, items_of, specification_alone
from ..formats.rejections import asked
from ..kinds import TYPE_NAMES, Part
from ..specification import SpelledSpecification, moved
from ..words import WORDS, phrase

# The conversions for which the GNU C library has the flag I, other digits. It is for translations, and changes no type.
WITH_OTHER_DIGITS = b"diufFeEgG"
PERCENT = ord("%")

# How an argument of the types int and unsigned int is used, as bits. The last row of the table has what is usual.
KINDS = {words: 1 << bit for bit, (_, _, words) in enumerate(reversed(WORDS["uses"]))}
NUMBER, WIDTH = (KINDS[phrase(WORDS["uses"], conversion, set())] for conversion in "d*")
# What of a specification has another type in another data model (C11 7.21.6.1p7).
DEPENDENT = re.compile(rb"[jzt]")
# The shape of a longer text isn't looked for.
LONG = 1_000
# Without one of these bytes an int is only used as a number.
OTHER_KINDS = re.compile(rb"[ch*]")


class Edit(NamedTuple):
    """A part of a text that the library gets in other words: its item, its macro, if it is one, where the new words
    begin in the plain format, and how many more bytes these are.
    """

    item: Item
    macro: Optional[bytes]
    start: int
    new: bytes

    @property
    def growth(self) -> int:
        return len(self.new) - len(self.item.text)


class ArgumentUse(NamedTuple):
    """A use of an argument: its number from 0, what it is printed as, the macro that gives its type, if any, and its
    specification in the text, with where that begins.
    """

    argument: int
    kind: int
    macro: Optional[bytes]
    specification: bytes
    start: int


class MessageFormat:
    """A format of a message: its bytes, with what the library doesn't know replaced."""

    def __init__(self, text: bytes, is_translation: bool = False) -> None:
        self.text = text
        self.is_translation = is_translation
        self.edits: List[Edit] = []
        out = bytearray()
        done = 0
        for item in items_of(text):
            new = replacement(item, is_translation)
            if new is not None:
                out += text[done : item.start]
                self.edits.append(Edit(item, macro_type(item.last), len(out), new))
                out += new
                done = item.start + len(item.text)
        self.plain = bytes(out + text[done:]) if done else text
        self.starts = [it.start for it in self.edits]

    def place_of(self, byte: int) -> int:
        """Returns the offset in the text of a byte of the plain format."""
        index = bisect.bisect_right(self.starts, byte) - 1
        if index < 0:
            return byte
        edit = self.edits[index]
        is_after = byte >= edit.start + len(edit.new)
        return byte - (edit.start - edit.item.start) - (edit.growth if is_after else 0)

    def uses(self, model: fmtcanon.Model) -> Iterator[ArgumentUse]:
        """Yields each use of an argument. The format must be accepted in this data model."""
        # A `%m` with stars has become a directive for each.
        edits = {it.start + at: it for it in self.edits for at, byte in enumerate(it.new) if byte == PERCENT}
        for span in fmtcanon.specifications(self.plain, model=model):
            one, edit = SpelledSpecification(span, self.plain), edits.get(span.start)
            text, start = (edit.item.text, edit.item.start) if edit else (one.text, self.place_of(span.start))
            for star in (span.width_argument, span.precision_argument):
                if star is not None:
                    yield ArgumentUse(star, WIDTH, None, text, start)
            is_star = edit is not None and edit.item.last == b"m"
            kind = WIDTH if is_star else KINDS[phrase(WORDS["uses"], one.conversion, {one.modifier})]
            assert span.argument is not None
            yield ArgumentUse(span.argument, kind, edit.macro if edit else None, text, start)

    def codes(self, model: fmtcanon.Model) -> bytes:
        """Returns the number of each argument's type. Raises `Refused` with the offset in the text."""
        try:
            return fmtcanon._argument_codes(self.plain, model)
        except fmtcanon.Refused as refusal:
            found = fmtcanon.Refused(refusal.kind, refusal.name, self.place_of(refusal.byte))
            one = asked(self.plain, refusal)
            found.specification = moved(one, self.place_of) if one else None
            raise found from None

    def two_types(self, model: fmtcanon.Model) -> Optional[str]:
        """Says which argument two macros, or a macro and a conversion, give different types.

        The library sees no macros.
        """
        found: Dict[int, ArgumentUse] = {}
        for use in self.uses(model) if b"<" in self.text else ():
            other = found.setdefault(use.argument, use)
            if other.macro != use.macro:
                both = " and ".join(it.specification.decode() for it in (other, use))
                return f"{both} give argument {use.argument + 1} different types"
        return None

    def macros(self, model: fmtcanon.Model) -> Dict[int, bytes]:
        """Returns the type of each argument that a macro prints."""
        if b"<" not in self.text:
            return {}
        return {use.argument: use.macro for use in self.uses(model) if use.macro is not None}

    def takers(self, argument: int, model: fmtcanon.Model) -> List[bytes]:
        """Returns the specifications that take an argument, each once."""
        return list(dict.fromkeys(it.specification for it in self.uses(model) if it.argument == argument))

    def kinds(self, count: int, model: fmtcanon.Model) -> bytearray:
        """Returns how each of the arguments is used."""
        if OTHER_KINDS.search(self.text) is None:
            return bytearray([NUMBER]) * count
        kinds = bytearray(count)
        for use in self.uses(model):
            kinds[use.argument] |= use.kind
        return kinds


def shape_of(text: bytes) -> Optional[bytes]:
    """Returns the items of a text side by side, which decide what is said of it; None if that isn't certain.

    The library reads a specification by its own bytes alone, and rejects a NUL.
    """
    if len(text) > LONG or b"\0" in text:
        return None
    return b"".join(it.text for it in items_of(text))


def replacement(item: Item, is_translation: bool) -> Optional[bytes]:
    """Returns what the library is given for an item, or None for the item itself."""
    inner, last = item.inner, item.last
    if last == b"m":
        return only_stars(item) if inner else None
    macro = MACRO.fullmatch(last)
    if macro and not item.has_length:
        last = macro[1]
    new = b"%" + inner + last
    if is_translation and b"I" in inner and last != b"" and last in WITH_OTHER_DIGITS:
        with_flag = b"%" + inner.replace(b"I", b"-") + last
        # After the flags, I is what is rejected.
        new = new if is_unexpected(with_flag) else with_flag
    return None if new == item.text else new


def only_stars(item: Item) -> Optional[bytes]:
    """Returns what replaces a `%m` with flags, a width or a precision, which the GNU C library has: it takes an int for
    each `*`, and no other argument. None if it isn't one.
    """
    if item.has_length:
        return None
    # `f` has all flags, and needs no length modifier; the flag I does nothing. A number is only there for that of a
    # `*`.
    inner = item.inner.replace(b"I", b"-") + b"f"
    found = next(filter(None, map(specification_alone, [b"%" + inner, b"%1$" + inner])), None)
    if found is None:
        return None
    stars = [found.piece(it).decode().partition("*") for it in (Part.WIDTH, Part.PRECISION)]
    return "".join(f"%{number}d" for _, star, number in stars if star).encode() or b"%%"


def macro_type(last: bytes) -> Optional[bytes]:
    """Returns what names the type of a macro's argument, or None if it is not a macro."""
    if last[:1] != b"<":
        return None
    return last[:4] + (b"d" if last[4:5] in b"di" else b"u") + last[5:]


def shown_type(code: int, macro: Optional[bytes]) -> str:
    """Returns the name of an argument's type for a report: of a macro, that of <stdint.h>."""
    if macro is None:
        return TYPE_NAMES[fmtcanon.Type(code)]
    size = macro[5:-1].decode().lower()
    named = f"_{size}" if size.startswith(("least", "fast")) else size
    return f"{'u' if macro[4:5] == b'u' else ''}int{named}_t"


def shown_kinds(kinds: int) -> str:
    return " and ".join(name for name, bit in KINDS.items() if kinds & bit)
