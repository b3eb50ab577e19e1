"""Asks how two formats compare in a data model, and where a format takes an argument.

All that is asked of the library about a pair is asked here: its comparison in the whole language, and `fits` for the
types of formats with numbered arguments, which the comparison rejects.
"""

import enum
from typing import AnyStr, Callable, Iterator, List, NamedTuple, Optional, Sequence, Tuple, Union

import fmtcanon
from fmtcanon import Model

from ..frame.visible import visible
from ..kinds import TYPE_NAMES
from ..rejected import refusal_of

# How many percent signs are tried as the beginning of the back that two long formats share.
MOST_SIGNS = 8
# How much of a text is shown, and how much of that comes before the first difference.
SHOWN, BEFORE = 60, 20
# Strings up to the first length are not shortened, and up to the second they are shown; how many arguments are shown.
SHORT, LONGEST, ARGUMENTS = 8, 20, 8


class PairKind(enum.Enum):
    """How two formats compare."""

    SAME = "same"
    WORDS = "words"
    DIFFERENT = "different"
    TYPES = "types"
    DIRECTIVES = "directives"
    REJECTED = "rejected"
    UNJUDGED = "unjudged"


# An argument: a number, a string, or None for one that may be anything.
Argument = Union[int, bytes, None]


class PairVerdict(NamedTuple):
    """How two formats compare.

    `at` is the index of the first argument at which the types or the directives differ. The two print `arguments`
    differently. `reason` says why there is no verdict, or why the second format is rejected and the first isn't, and
    `refusal` is the one that it is about, if there is one.
    """

    kind: PairKind
    at: int = 0
    arguments: Tuple[Argument, ...] = ()
    reason: str = ""
    refusal: Optional[fmtcanon.Refused] = None


class Span(NamedTuple):
    """Where a specification is in a format: the offsets of its `%` and of what follows it; and its width and precision.
    """

    start: int
    end: int
    width: Optional[int]
    precision: Optional[int]


class Taker(NamedTuple):
    """The specification that takes an argument: where it is, how it is spelled, and the argument's type."""

    start: int
    end: int
    text: bytes
    type: fmtcanon.Type

    def __str__(self) -> str:
        return f"{self.text.decode()} takes {TYPE_NAMES[self.type]}"


def shared_front(first: AnyStr, second: AnyStr) -> int:
    """Returns how long the front is that two texts share."""
    return longest(min(len(first), len(second)), lambda low, it: first[low:it] == second[low:it])


def shared_back(first: bytes, second: bytes, front: int) -> int:
    """Returns how long the back is that two texts share after a front of this length."""
    a, b = len(first), len(second)
    return longest(min(a, b) - front, lambda low, it: first[a - it : a - low] == second[b - it : b - low])


def longest(size: int, is_equal: Callable[[int, int], bool]) -> int:
    """Returns how far two texts are equal, up to a size, if it is known of each part of them."""
    low, high = 0, size
    while low < high:
        middle = (low + high + 1) // 2
        low, high = (middle, high) if is_equal(low, middle) else (low, middle - 1)
    return low


def is_cut(front: bytes) -> bool:
    """Returns whether a front of a format ends within a specification."""
    refusal = refusal_of(front)
    return refusal is not None and refusal.kind is fmtcanon.Kind.TRUNCATED


def narrowed(old: bytes, new: bytes) -> Tuple[int, int]:
    """Returns the lengths of a front and of a back that two accepted formats share. Neither ends within a
    specification. Without them the formats are the same if and only if they are with them.
    """
    shared = shared_front(old, new)
    front = old.rfind(b"%", 0, shared) if is_cut(old[:shared]) else shared
    back = shared_back(old, new, front)
    for _ in range(MOST_SIGNS):
        sign = old.find(b"%", len(old) - back)
        back = len(old) - sign if sign >= 0 else 0
        if not back or not any(is_cut(it[: len(it) - back]) for it in (old, new)):
            return front, back
        back -= 1
    return front, 0


def canonical(text: bytes, model: Model) -> bytes:
    """Returns the canonical text of a format of the whole language. Raises `Refused`."""
    return fmtcanon.canonical(text, model=model, whole=True)


def verdict_on(old: bytes, new: bytes, model: Model) -> PairVerdict:
    try:
        return compared(old, new, model)
    except fmtcanon.Refused as refusal:
        return compared_by_types(old, new, model, refusal)


def compared(old: bytes, new: bytes, model: Model) -> PairVerdict:
    """Returns the verdict. Raises `Refused` for a format that the comparison rejects."""
    found = fmtcanon.compare(old, new, model=model, whole=True)
    at = (found.types_differ_at, found.directives_differ_at)
    index = next((it for it in at if it is not None), 0)
    return PairVerdict(PairKind[found.verdict.name], at=index, arguments=found.arguments or ())


def compared_by_types(old: bytes, new: bytes, model: Model, refusal: fmtcanon.Refused) -> PairVerdict:
    """Returns the verdict on formats if the comparison rejects one of them: only their types can be judged."""
    if old == new:
        return PairVerdict(PairKind.SAME)
    reason = f"{refusal} of {shown([old, new][refusal.side])}"
    unjudged = PairVerdict(PairKind.UNJUDGED, reason=reason, refusal=refusal)
    try:
        if fmtcanon.fits(old, new, model=model):
            return unjudged
    except fmtcanon.Refused as other:
        kind = PairKind.REJECTED if other.side else PairKind.UNJUDGED
        return PairVerdict(kind, reason=f"{other} of {shown([old, new][other.side])}", refusal=other)
    return PairVerdict(PairKind.TYPES, at=shared_front(types_of(old, model), types_of(new, model)))


def types_of(text: bytes, model: Model) -> bytes:
    """Returns the types of the arguments of a format that is accepted, as the number of each."""
    return fmtcanon._argument_codes(text, model)


def printed_by(text: bytes, arguments: Sequence[Argument], model: Model) -> Optional[bytes]:
    """Returns what a format prints, with placeholders, or None if it can't be had."""
    try:
        return fmtcanon.printed(text, arguments, model=model)
    except (ValueError, MemoryError):
        return None


def taker_of(text: bytes, argument: int, model: Model) -> Optional[Taker]:
    """Returns the specification that takes the argument of this index, converted or as a `*`; None if none does."""
    for one in fmtcanon.directives(text, model=model):
        if argument == one.argument:
            return Taker(one.start, one.end, text[one.start : one.end], one.type)
        if argument in (one.width_argument, one.precision_argument):
            return Taker(one.start, one.end, text[one.start : one.end], fmtcanon.Type.INT)
    return None


def argument_words(index: int) -> str:
    """Returns how an argument is named: by its number from 1, as in `%1$d`."""
    return f"argument {index + 1}"


def both_take(takers: Sequence[Optional[Taker]]) -> str:
    """Returns what the specifications of two formats take as one argument."""
    return " and ".join("no argument" if it is None else str(it) for it in takers)


def directives_in(text: bytes) -> Iterator[Span]:
    """Yields where a text has specifications, also if it is not a format: then those before and after what is rejected.
    """
    done = 0
    # Most texts have none.
    while text.find(b"%", done) >= 0:
        try:
            found = fmtcanon.specifications(text[done:])
        except fmtcanon.Refused as refusal:
            one = refusal.specification
            front, end = (one.start, one.end) if one else (refusal.byte, refusal.byte)
            for it in directives_in(text[done : done + front]):
                yield it._replace(start=it.start + done, end=it.end + done)
            # It is accepted by itself.
            found = [one] if one and refusal.kind is fmtcanon.Kind.MISSING_ARGUMENT else []
        else:
            end = len(text)
        yield from (Span(it.start + done, it.end + done, it.width, it.precision) for it in found)
        done += max(end, 1)


def specifications(text: bytes) -> bytes:
    """Returns the specifications of a text without the words between them."""
    return b"".join(text[it.start : it.end] for it in directives_in(text))


def without_specifications(text: bytes) -> bytes:
    """Returns the words of a text, with each specification as `%`."""
    parts, done = [], 0
    for one in directives_in(text):
        parts.append(text[done : one.start])
        done = one.end
    return b"%".join([*parts, text[done:]])


def only_words_differ(old: bytes, new: bytes, model: Model) -> bool:
    """Returns whether two formats that differ have the same directives."""
    found = verdict_on(specifications(old), specifications(new), model)
    return found.kind is PairKind.SAME


def telling_arguments(
    old: bytes, new: bytes, arguments: Tuple[Argument, ...], model: Model
) -> Tuple[Argument, ...]:
    """Returns short arguments that two formats print differently.

    If the words differ, too, they are arguments that the specifications print differently, if there are such.
    """
    if without_specifications(old) != without_specifications(new):
        inner = specifications(old), specifications(new)
        verdict = verdict_on(*inner, model)
        if verdict.kind is PairKind.DIFFERENT:
            found = shortened(*inner, verdict.arguments, model)
            if is_told_apart(old, new, found, model):
                return found
    return shortened(old, new, arguments, model)


def is_told_apart(old: bytes, new: bytes, arguments: Sequence[Argument], model: Model) -> bool:
    """Returns whether it is known that two formats print these arguments differently."""
    first, second = (printed_by(it, arguments, model) for it in (old, new))
    return first is not None and second is not None and first != second


def shortened(
    old: bytes, new: bytes, arguments: Tuple[Argument, ...], model: Model
) -> Tuple[Argument, ...]:
    """Returns arguments whose long strings are as short as can be, so that the formats still print differently.

    A width or a precision makes a difference at its own number or at the next.
    """
    fields = [it for text in (old, new) for one in directives_in(text) for it in (one.width, one.precision)]
    numbers = sorted({it + more for it in fields if it is not None for more in (0, 1)} | {0, 1})
    found = list(arguments)
    for at, argument in enumerate(arguments):
        if not isinstance(argument, bytes) or len(argument) <= SHORT:
            continue
        for length in numbers:
            if length >= len(argument):
                break
            tried = [*found[:at], argument[:length], *found[at + 1 :]]
            if is_told_apart(old, new, tried, model):
                found = tried
                break
    return tuple(found)


def shown_argument(argument: Argument) -> str:
    if argument is None:
        return "any"
    if isinstance(argument, int):
        return str(argument)
    return shown(argument) if len(argument) <= LONGEST else f'{shown(argument[:4])[:-1]}.." of {len(argument)} bytes'


def shown_arguments(arguments: Sequence[Argument]) -> str:
    """Returns a list of arguments, cut after `ARGUMENTS` of them."""
    listed = [shown_argument(it) for it in arguments[:ARGUMENTS]]
    return ", ".join([*listed, ".."] if len(arguments) > ARGUMENTS else listed)


def shown(text: bytes) -> str:
    """Returns a text as a string literal. What can't be seen, as a space that doesn't break, is an escape."""
    return visible(fmtcanon.encode_literal(text).decode(errors="backslashreplace"))


def cut(first: str, second: str) -> List[str]:
    """Returns two texts cut short, so that each shows where they begin to differ."""
    at = shared_front(first, second)
    found = []
    for text in (first, second):
        start = max(at - BEFORE, 0) if max(len(first), len(second)) > SHOWN else 0
        piece = text[start : start + SHOWN]
        found.append((".." if start else "") + piece + (".." if start + SHOWN < len(text) else ""))
    return found
