"""Lays out explanations as lines of text, with carets under what they speak of."""

from __future__ import annotations

from itertools import zip_longest
from typing import Dict, Iterator, List, Optional

import fmtcanon
from fmtcanon import Kind, Model, Type

from ..frame.terminals import Style, beside, columns
from ..frame.visible import visible
from ..kinds import TYPE_NAMES
from ..words import WORDS, phrase
from .explaining import Difference, ExplainedDirective, Explanation, Rejection, unlike_key
from .rejections import refused_span
from .verdicts import PairKind, argument_words, cut, shared_front, shown_argument, shown_arguments

# Formats up to this many columns have the words next to the carets; the words of others are on lines of their own.
BESIDE, GAP, INDENT = 40, 3, 4
# Of formats of more columns, each directive is shown by itself, without what comes before it.
LONGEST = 500
SIDES = ("first: ", "second: ")


def as_source(text: bytes) -> str:
    """Returns a text as C source has it between quotes: what can't be seen is an escape, UTF-8 is as it is."""
    return visible(fmtcanon.encode_literal(text)[1:-1].decode(errors="backslashreplace"))


def column_of(text: bytes, offset: int) -> int:
    """Returns the column at which the byte at an offset is shown."""
    return columns(as_source(text[:offset]))


def type_names(part: ExplainedDirective, model: Model) -> List[str]:
    """Returns the type of an argument, after its name if it has one in all data models, and the types that it has in
    other data models, each with these; none of `%m`.
    """
    if part.argument is None:
        return [WORDS["errno"]["type"]]
    others: Dict[Type, List[str]] = {}
    for other, kind in part.types.items():
        if kind is not part.types[model]:
            others.setdefault(kind, []).append(other.name)
    listed = [f"{TYPE_NAMES[kind]} in {' and '.join(names)}" for kind, names in others.items()]
    own = TYPE_NAMES[part.types[model]]
    return [f"{part.type_name}: {own}" if part.type_name else own, *listed]


def type_words(part: ExplainedDirective, model: Model) -> str:
    """Returns the type of an argument, and in brackets the types that it has in other data models."""
    own, *others = type_names(part, model)
    return f"{own} ({', '.join(others)})" if others else own


def part_words(part: ExplainedDirective, model: Model) -> List[str]:
    taken = "no argument" if part.argument is None else f"argument {part.argument}, {type_words(part, model)}"
    words = [f"{taken}: {part.meaning}"]
    return [*words, "; ".join(part.notes)] if part.notes else words


def explanation_lines(found: Explanation, model: Model, style: Style) -> Iterator[str]:
    """Yields the format, each directive with its words, the canonical text, and how many bytes are printed."""
    shown = as_source(found.format)
    yield shown
    is_short, is_long = columns(shown) <= BESIDE, columns(shown) > LONGEST
    for part in found.parts:
        if is_long:
            yield f"{as_source(part.text)} at byte {part.start}"
            yield from beside("", 0, INDENT, part_words(part, model), style.width)
            continue
        begin = column_of(found.format, part.start)
        count = column_of(found.format, part.end) - begin
        mark = " " * begin + style.carets(count)
        start = columns(shown) + GAP if is_short else INDENT
        if is_short:
            yield from beside(mark, begin + count, start, part_words(part, model), style.width)
        else:
            yield mark
            yield from beside("", 0, start, part_words(part, model), style.width)
    yield from key_lines(found.canonical, model)
    if found.bounds is not None:
        yield bounds_words(found.bounds)


def key_lines(canonical: Dict[Model, bytes], model: Model) -> Iterator[str]:
    """Yields the canonical text in a data model, and where it isn't the same as the format; nothing if there is none.
    """
    if not canonical:
        return
    is_one = len(set(canonical.values())) == 1
    yield WORDS["key" if is_one else "key_in_model"].format(key=as_source(canonical[model]), model=model.name)
    others = [it.name for it in unlike_key(canonical, model)]
    if others:
        yield WORDS["not_a_rewrite"].format(models=" and ".join(others))


def bounds_words(bounds: fmtcanon.Bounds) -> str:
    """Returns how many bytes a format prints."""
    tokens = {f"least{bounds.least}", "unbounded" if bounds.greatest is None else "bounded"}
    tokens |= {"exact"} if bounds.greatest == bounds.least else set()
    return phrase(WORDS["bytes"], "", tokens).format(least=bounds.least, most=bounds.greatest)


def rejection_lines(found: Rejection, model: Model, style: Style) -> Iterator[str]:
    """Yields the error line, the format with a caret under the byte that is rejected, or carets under the specification
    that takes an argument after a missing one, and what to write.
    """
    yield f"{'' if found.side is None else SIDES[found.side]}{found}"
    yield as_source(found.format)
    start, end = found.refusal.byte, found.refusal.byte + 1
    if found.refusal.kind is Kind.MISSING_ARGUMENT:
        start, end = refused_span(found.format, found.refusal)
    begin = column_of(found.format, start)
    count = max(column_of(found.format, end) - begin, 1)
    more = [f"Write {as_source(found.instead)}."] if found.instead else []
    words = " ".join([found.help, *more])
    if begin <= BESIDE:
        yield from beside(" " * begin + style.carets(count), begin + count, begin + count + 1, [words], style.width)
    else:
        yield " " * begin + style.carets(count)
        yield from beside("", 0, INDENT, [words], style.width)
    if found.types is not None:
        yield from types_lines(found.types, model, style)


def types_lines(found: Difference, model: Model, style: Style) -> Iterator[str]:
    """Yields how the types of two formats compare, if one has numbered arguments."""
    if found.verdict is PairKind.SAME:
        yield "only the types of the arguments can be compared: they are the same"
    else:
        yield from apart_lines(found, model, style)


def difference_lines(found: Difference, model: Model, style: Style) -> Iterator[str]:
    """Yields how two formats compare."""
    if found.verdict is PairKind.SAME:
        yield from same_lines(found, model)
    elif found.verdict is PairKind.DIFFERENT:
        yield from printed_lines(found, style)
    else:
        yield from apart_lines(found, model, style)


def same_lines(found: Difference, model: Model) -> Iterator[str]:
    yield "same"
    for text in found.formats:
        yield f"  {as_source(text)}"
    yield from key_lines(found.canonical, model)


def printed_lines(found: Difference, style: Style) -> Iterator[str]:
    """Yields what two formats print for some arguments, with a caret under the first byte that differs."""
    given = " and ".join(map(shown_argument, found.arguments)) if len(found.arguments) < 3 else ""
    yield f"different: for {given or shown_arguments(found.arguments)} they print" if found.arguments else "different:"
    if len(found.printed) < len(found.formats):
        yield "  other bytes, which can't be shown"
        return
    shown = cut(*map(as_source, found.printed))
    width = max(map(columns, shown))
    for part, line in zip(found.parts or (None, None), shown):
        words = f"{as_source(part.text)}: {part.meaning}" if part else ""
        yield from beside(f"  {line}", 2 + columns(line), 2 + width + INDENT, [words] if words else [], style.width)
    same = shown[0][: shared_front(*shown)]
    yield "  " + " " * columns(same) + style.carets(1)


def apart_lines(found: Difference, model: Model, style: Style) -> Iterator[str]:
    """Yields the two formats side by side, with carets under the directives whose types, or which themselves, differ.

    They are one below the other if a line has no room for both.
    """
    what = "types" if found.verdict is PairKind.TYPES else "directives"
    yield f"{what} differ at {argument_words(found.at or 0)}"
    cells = [cell(text, part, model) for text, part in zip(found.formats, found.parts)]
    widths = [max(map(columns, it)) for it in cells]
    if sum(widths) + INDENT + GAP <= style.width:
        cells = [
            [
                f"{one}{' ' * (widths[0] - columns(one))}{' ' * GAP}{two}"
                for one, two in zip_longest(*cells, fillvalue="")
            ]
        ]
    for lines in cells:
        for line in lines:
            marks = line.strip(" ^") == "" and style.is_coloured
            yield f"  {line.replace('^', style.carets(1)) if marks else line}".rstrip()


def cell(text: bytes, part: Optional[ExplainedDirective], model: Model) -> List[str]:
    """Returns the lines of a format: itself, carets under a directive, and the types that this takes."""
    if part is None:
        return [as_source(text), "", "takes no such argument"]
    begin, end = (column_of(text, it) for it in (part.start, part.end))
    return [as_source(text), " " * begin + "^" * (end - begin), *type_names(part, model)]
