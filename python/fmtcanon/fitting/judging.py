"""Judges the calls of a unit: whether each argument has the type that its directive takes, on every platform."""

import bisect
import enum
import functools
import re
from typing import Dict, Iterator, List, Mapping, NamedTuple, Optional, Sequence, Set, Tuple, Union

from .. import BadLiteral, Kind, Refused, Specification, decode_literal, specifications
from ..compiling.calls import Argument, Call, Key
from ..compiling.formats import Format, Literal
from ..compiling.platforms import PLATFORMS, Platform
from ..formats.items import errnos_of
from ..kinds import Type
from ..models import Model
from ..specification import SpelledSpecification

SIGNED = {Type.UINT: Type.INT, Type.ULONG: Type.LONG, Type.ULONG_LONG: Type.LONG_LONG}
INTEGERS = (*SIGNED.values(), *SIGNED)
# What C calls the types that aren't integers, without qualifiers.
POINTERS = {
    Type.POINTER_TO_SCHAR: "(?:signed )?char",
    Type.POINTER_TO_SHORT: "short",
    Type.POINTER_TO_INT: "int",
    Type.POINTER_TO_LONG: "long",
    Type.POINTER_TO_LONG_LONG: "long long",
}
OTHERS = {
    Type.DOUBLE: re.compile("double"),
    Type.LONG_DOUBLE: re.compile("long double"),
    Type.STRING: re.compile(r"(?:(?:un)?signed )?char \*"),
    Type.POINTER_TO_VOID: re.compile(r".*\*.*"),
    **{type: re.compile(rf"(?:unsigned )?{name} \*") for type, name in POINTERS.items()},
}
QUALIFIER = re.compile(r"\b(?:const|volatile|restrict) ?|(?<=\*)(?:const|volatile|restrict)\b")
# What the C libraries of GNU and musl take for `ll` before these letters, and the types by those of `j`.
OF_LONG_LONG = {f"L{letter}".encode() for letter in "diouxX"}
LONG_LONG: Dict[Optional[Type], Type] = {it: Type.LONG_LONG for it in SIGNED.values()}
LONG_LONG.update((it, Type.ULONG_LONG) for it in SIGNED)
# What the data models have for `long` and for `wchar_t`, which may be signed or not.
LONG_BITS = {Model.LP64: 64, Model.ILP32: 32, Model.LLP64: 32}
WIDE_STRINGS = {
    model: re.compile(rf"(?:unsigned )?{type} \*")
    for model, type in [(Model.LP64, "int"), (Model.ILP32, "long"), (Model.LLP64, "short")]
}


class Fit(enum.Enum):
    """How an argument fits its directive, the worst last. An argument of another kind may be no integer, or missing."""

    EQUAL = "equal"
    SIGN = "sign"
    RANK = "rank"
    KIND = "kind"
    SIZE = "size"


ORDER = list(Fit)
# The functions for which POSIX has `%m`.
WITH_ERRNO = ("syslog", "vsyslog")
MISSING = Argument(None, "", "missing")


class Fault(NamedTuple):
    """An argument that doesn't fit on some platform. `fits`, `wanted` and `given` are of each platform in PLATFORMS.

    `span` is the directive in `text`, the format in LP64. `number` is the index of the argument in what the format
    converts. `tokens` are the literals that the directive is in, with where the bytes of each are in the text.
    """

    key: Key
    call: Call
    format: int
    text: bytes
    span: Specification
    number: int
    fits: Tuple[Fit, ...]
    wanted: Tuple[Type, ...]
    given: Tuple[Argument, ...]
    tokens: Tuple[Tuple[Literal, int, int], ...]

    @property
    def worst(self) -> Fit:
        return max(self.fits, key=ORDER.index)

    @property
    def is_star(self) -> bool:
        """Whether the argument is that of a `*`."""
        return self.number != self.span.argument

    @property
    def range(self) -> Tuple[int, int]:
        """Where what takes the argument is in the text: the directive, or a `*` of it."""
        if not self.is_star:
            return self.span.start, self.span.end
        # The `*` of a precision comes after its point.
        at = self.span.width_at if self.number == self.span.width_argument else self.span.precision_at + 1
        return at, at + 1

    @property
    def specification(self) -> SpelledSpecification:
        return SpelledSpecification(self.span, self.text)

    @property
    def directive(self) -> str:
        return self.specification.text.decode(errors="backslashreplace")

    @property
    def shown(self) -> str:
        """The directive as the source has it between quotes: with the names of PRI macros."""
        if not any(token.macro for token, _, _ in self.tokens):
            return self.directive
        parts = []
        for token, start, end in self.tokens:
            part = self.text[max(start, self.span.start) : min(end, self.span.end)]
            is_named = token.macro.startswith("PRI")
            parts.append(f'" {token.macro} "' if is_named else part.decode(errors="backslashreplace"))
        return "".join(parts)


class RefusedFormat(NamedTuple):
    """A format that isn't accepted: its call, its text if that is known, and why."""

    call: Call
    text: bytes
    why: Union[Refused, BadLiteral]


class ErrnoFormat(NamedTuple):
    """A format with `%m` of a function whose `%m` some platform's C library lacks: its call, its text, and where that
    is. What the functions of a program do with it is theirs.
    """

    call: Call
    text: bytes
    at: int


class Judged(NamedTuple):
    """What is found in a unit: its faults, the formats that fit their calls except in a sign, the calls that a platform
    lacks, the formats with `%m`, those that aren't accepted, how many formats and arguments were judged, and the calls
    with more arguments than any of their formats takes, with how many more; and the directives that C leaves undefined,
    with their calls and formats.
    """

    faults: List[Fault]
    fitting: Set[Tuple[Key, int]]
    lost: List[Tuple[Call, List[str]]]
    errnos: List[ErrnoFormat]
    refused: List[RefusedFormat]
    formats: int
    arguments: int
    surplus: List[Tuple[Call, int, bytes]]
    undefined: List[Tuple[Call, bytes, Specification]]


def bits_of(type: Type, model: Model) -> int:
    return {Type.INT: 32, Type.LONG: LONG_BITS[model], Type.LONG_LONG: 64}[SIGNED.get(type, type)]


def fit_of(wanted: Type, given: Argument, model: Model) -> Fit:
    """Returns how an argument fits what a directive takes."""
    if wanted is Type.WIDE_CHAR:
        fit = fit_of(Type.UINT, given, model)
        return Fit.EQUAL if fit is Fit.SIGN else fit
    if wanted not in INTEGERS or given.type is None:
        pattern = WIDE_STRINGS[model] if wanted is Type.WIDE_STRING else OTHERS.get(wanted)
        is_right = pattern is not None and pattern.fullmatch(QUALIFIER.sub("", given.spelling).strip())
        return Fit.EQUAL if is_right else Fit.KIND
    if wanted is given.type:
        return Fit.EQUAL
    if SIGNED.get(wanted, wanted) is SIGNED.get(given.type, given.type):
        return Fit.SIGN
    return Fit.RANK if bits_of(wanted, model) == bits_of(given.type, model) else Fit.SIZE


class PlatformText(NamedTuple):
    """A format on a platform: its text, and its directives."""

    text: bytes
    spans: Sequence[Specification]


def text_of(format: Format, platform: Platform) -> PlatformText:
    """Returns the text of a format. Raises `Refused` or `BadLiteral`."""
    text = bytes_of(format)
    return PlatformText(text, spans_in(text, platform.model))


@functools.lru_cache(maxsize=4096)
def spans_in(text: bytes, model: Model) -> Sequence[Specification]:
    """Returns the directives of a format, with `%Lx` as the C libraries of GNU and musl take it: as `%llx`. Raises
    `Refused`.
    """
    places, read = set(), text
    while True:
        try:
            found = specifications(read, model=model)
        except Refused as why:
            at = undefined_at(read, why)
            if at is None:
                raise
            # A length modifier of one byte moves nothing.
            read = read[:at] + b"j" + read[at + 1 :]
            places.add(at)
        else:
            return [it._replace(type=LONG_LONG[it.type]) if it.modifier_at in places else it for it in found]


def undefined_at(text: bytes, why: Refused) -> Optional[int]:
    """Returns where the `L` of a conversion to an integer is, for which the library rejects a format, or None."""
    one = why.specification
    if why.kind is not Kind.LENGTH_UNDEFINED or one is None:
        return None
    return one.modifier_at if text[one.modifier_at : one.end] in OF_LONG_LONG else None


def undefined_in(text: bytes, spans: Sequence[Specification]) -> Iterator[Specification]:
    """Yields the directives of a format that C leaves undefined, and that are judged all the same."""
    return (it for it in spans if text[it.modifier_at : it.end] in OF_LONG_LONG)


def bytes_of(format: Format) -> bytes:
    """Returns the text of a format. Raises `BadLiteral`."""
    return decode_literal(format.source.encode("utf-8", "surrogateescape"))[format.skipped :]


def arguments_of(spans: Sequence[Specification]) -> Iterator[Tuple[int, int, Type]]:
    """Yields the arguments that directives take: the index of the directive, that of the argument, and its type."""
    for index, span in enumerate(spans):
        for star in (span.width_argument, span.precision_argument):
            if star is not None:
                yield index, star, Type.INT
        if span.argument is not None and span.type is not None:
            yield index, span.argument, span.type


def faults_of(key: Key, calls: Sequence[Call], number: int, texts: Sequence[PlatformText]) -> Iterator[Fault]:
    """Yields the arguments of a call, as it is on each platform, that don't fit one of its formats."""
    listed = [list(arguments_of(it.spans)) for it in texts]
    tokens: List[Tuple[Literal, int, int]] = []
    starts: List[int] = []
    ends: List[int] = []
    for found in zip(*listed):
        index, argument, _ = found[0]
        given = tuple(it.arguments[argument] if argument < len(it.arguments) else MISSING for it in calls)
        wanted = tuple(type for _, _, type in found)
        text, spans = texts[0]
        # The argument of h and hh is converted to a type of this sign.
        span = spans[index]
        is_short = argument == span.argument and SpelledSpecification(span, text).modifier in ("h", "hh")
        fits = tuple(
            Fit.EQUAL if fit is Fit.SIGN and (is_short or had.is_unsigned) else fit
            for fit, had in zip(map(fit_of, wanted, given, [it.model for it in PLATFORMS]), given)
        )
        if set(fits) != {Fit.EQUAL}:
            if not tokens:
                tokens = spans_of(calls[0].formats[number])
                starts, ends = [it[1] for it in tokens], [it[2] for it in tokens]
            span = spans[index]
            own = tokens[bisect.bisect_right(ends, span.start) : bisect.bisect_left(starts, span.end)]
            yield Fault(key, calls[0], number, text, span, argument, fits, wanted, given, tuple(own))


def judged(units: Sequence[Mapping[Key, Call]]) -> Judged:
    """Judges the calls of a unit, which are those of each platform."""
    result = Judged([], set(), [], [], [], 0, 0, [], [])
    formats = arguments = 0
    for key, call in units[0].items():
        calls = [it[key] for it in units if key in it and len(it[key].formats) == len(call.formats)]
        if len(calls) < len(units):
            missing = [it.name for it, unit in zip(PLATFORMS, units) if key not in unit]
            result.lost.append((call, missing or [it.name for it in PLATFORMS[1:]]))
            continue
        # How many arguments each format takes.
        taken: List[int] = []
        for number in range(len(call.formats)):
            texts, text = [], b""
            try:
                for it, platform in zip(calls, PLATFORMS):
                    text = bytes_of(it.formats[number])
                    texts.append(PlatformText(text, spans_in(text, platform.model)))
            except (Refused, BadLiteral) as why:
                result.refused.append(RefusedFormat(call, text, why))
                continue
            if call.is_library and call.function not in WITH_ERRNO:
                result.errnos.extend(ErrnoFormat(call, texts[0].text, at) for at in errnos_of(texts[0].text)[:1])
            formats += 1
            result.undefined.extend((call, texts[0].text, it) for it in undefined_in(texts[0].text, texts[0].spans))
            found = [number for _, number, _ in arguments_of(texts[0].spans)]
            arguments += len(found)
            taken.append(max(found, default=-1) + 1)
            faults = list(faults_of(key, calls, number, texts))
            result.faults.extend(faults)
            if all(it.worst is Fit.SIGN for it in faults):
                result.fitting.add((key, number))
        if call.is_all and taken and len(taken) == len(call.formats) and max(taken) < len(call.arguments):
            text = b"\n".join(map(bytes_of, call.formats))
            result.surplus.append((call, len(call.arguments) - max(taken), text))
    return result._replace(formats=formats, arguments=arguments)


def spans_of(format: Format) -> List[Tuple[Literal, int, int]]:
    """Returns the literals of a format, with where the bytes of each are in its text."""
    at, found = -format.skipped, []
    for token in format.tokens:
        size = len(decode_literal(token.source.encode("utf-8", "surrogateescape")))
        found.append((token, at, at + size))
        at += size
    return found
