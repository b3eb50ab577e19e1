"""The formats of a source as it is being written: its tokens say which these are, and no compiler does."""

import bisect
import functools
import re
from typing import Dict, Iterator, List, Mapping, NamedTuple, Optional, Tuple, Union

from .. import Model, Refused, source_offset
from ..formats.explaining import ExplainedDirective, Explanation, explain
from .declared import LIBRARY, Shapes, declared_in
from .macros import PlacePart
from .places import ANY_COMMENT, NOT_FORMATS, SPACE, Place, Source
from .tokens import CHARACTER, OPEN, RAW, STRING

MARKS = re.compile(rb"(?P<mark>[()\[\]{},;])|" + rb"|".join([RAW, STRING, CHARACTER, ANY_COMMENT, OPEN]) + rb"|[\s\S]")
PREPROCESSED_LINE = re.compile(rb"\n[ \t]*#")
# How far a call goes at most, before its format and after it.
BEFORE, AFTER = 2_000, 20_000
# How many calls are tried around an offset.
MOST = 100
# Of a longer format no directive is looked for in the source.
LONG = 10_000
# How much is read before and after an offset.
AROUND = 50_000


class Stretch(NamedTuple):
    """Bytes of a format, by their offsets, that one part of a place gives, and where that is in the text. `literal` is
    its source if it is a string literal.
    """

    start: int
    end: int
    at: int
    stop: int
    literal: Optional[bytes]


class WrittenDirective(NamedTuple):
    """A directive of a format, and its offsets in the file. `is_whole` is whether one literal has it and nothing else.
    """

    part: ExplainedDirective
    start: int
    end: int
    is_whole: bool

    def takes(self, index: int) -> bool:
        """Returns whether it takes the argument of this index."""
        return index in self.arguments

    @property
    def arguments(self) -> List[int]:
        """The indexes of the arguments that it takes: those of `*` first."""
        one = self.part.specification
        listed = [one.found.width_argument, one.found.precision_argument, one.found.argument] if one else []
        return [it for it in listed if it is not None]


@functools.lru_cache(maxsize=5_000)
def explained(texts: Tuple[bytes, ...], model: Model) -> Union[Explanation, Refused]:
    """Explains a format with these texts in the data models, or returns why it is rejected."""
    try:
        return explain(texts[model], model, dict(zip(Model, texts)))
    except Refused as refusal:
        return refusal


class WrittenFormat:
    """A format in a source: its bytes, what is said of it, and its offsets in the file."""

    def __init__(self, written: "WrittenSource", place: Place, texts: Tuple[bytes, ...]) -> None:
        self.written, self.place, self.text = written, place, texts[written.model]
        self.explanation = explained(texts, written.model)
        self.start, self.end = written.offset(place.start), written.end_of(place.end)
        self.stretches: List[Stretch] = list(self.stretches_of_parts()) if len(self.text) <= LONG else []

    @functools.cached_property
    def directives(self) -> List[WrittenDirective]:
        found = self.explanation
        listed = found.parts if isinstance(found, Explanation) else ()
        return [WrittenDirective(it, *self.range_of(it.start, it.end)) for it in listed]

    def stretches_of_parts(self) -> Iterator[Stretch]:
        source, model = self.written.source, self.written.model
        done, at = 0, self.place.start
        for part in self.place.parts:
            at = SPACE.match(source.plain, at).end()  # type: ignore[union-attr]
            stop = at + len(part.source)
            text = Place(source, at, stop, at, (part,), self.place.call).text(model)[0]
            if text is None or part.kind == "raw":
                # The offsets of what follows a raw string aren't looked for.
                return
            literal = part.literal if part.kind == "string" else None
            yield Stretch(done, done + len(text), stop - len(literal) if literal else at, stop, literal)
            done, at = done + len(text), stop

    def offset_of(self, index: int, after: bool) -> Optional[int]:
        """Returns the offset in the text of what gives the byte of an index, or the one after that."""
        one = next((it for it in self.stretches if it.start <= index < it.end), None)
        if one is None or one.literal is None:
            return None if one is None else one.stop if after else one.at
        found = source_offset(one.literal, index - one.start + after)
        return None if found is None else one.at + found

    def range_of(self, start: int, end: int) -> Tuple[int, int, bool]:
        """Returns where bytes are in the file, or the whole format if that isn't known; and whether one literal has
        them.
        """
        first, last = self.offset_of(start, False), self.offset_of(max(end - 1, start), True)
        if first is None or last is None:
            return self.start, self.end, False
        is_whole = any(it.literal is not None and it.start <= start and end <= it.end for it in self.stretches)
        return self.written.offset(first), self.written.end_of(last), is_whole

    def directive_at(self, offset: int) -> Optional[WrittenDirective]:
        """Returns the directive that has an offset of the file."""
        return next((it for it in self.directives if it.start <= offset < it.end), None)


class WrittenCall(NamedTuple):
    """A call with a format: where its arguments are in the file that the format converts, with the space around them;
    and the number of the one that is asked for, from 0.
    """

    format: WrittenFormat
    arguments: List[Tuple[int, int]]
    number: int


class WrittenSource:
    """A source, or the part around an offset, in a data model. `shapes` are functions besides those of the C library:
    if they aren't given, those that the text declares. `macros` are what other parts define.
    """

    def __init__(
        self,
        data: bytes,
        model: Model,
        shapes: Optional[Shapes] = None,
        near: Optional[int] = None,
        macros: Optional[Mapping[bytes, Tuple[PlacePart, ...]]] = None,
    ) -> None:
        self.model = model
        self.base, end = (0, len(data)) if near is None else window(data, near)
        self.source = Source(data[self.base : end])
        self.source.macros = {**(macros or {}), **self.source.macros}
        self.source.read()
        self.shapes: Shapes = {**LIBRARY, **(declared_in(self.source.plain) if shapes is None else shapes)}
        self.starts = [self.offset(it.start) for it in self.source.places]
        self.known: Dict[int, Optional[WrittenFormat]] = {}

    def offset(self, at: int) -> int:
        """Returns the offset in the file of an offset in the text that is read."""
        return self.base + self.source.offset(at)

    def end_of(self, at: int) -> int:
        """Returns the offset in the file after what ends at an offset in the text."""
        return self.offset(at - 1) + 1

    def is_called(self, place: Place) -> bool:
        """Returns whether a place is the format of a function that is known to take one."""
        shape = self.shapes.get(place.call.function)
        return shape is not None and shape.format == place.call.argument

    def format_of(self, place: Place) -> Optional[WrittenFormat]:
        """Returns the format that a place is; None if its bytes aren't known, or no percent sign is among them."""
        key = id(place)
        if key not in self.known:
            texts = tuple(text for text in (place.text(it)[0] for it in Model) if text is not None and b"%" in text)
            self.known[key] = WrittenFormat(self, place, texts) if len(texts) == len(Model) else None
        return self.known[key]

    def formats(self) -> Iterator[WrittenFormat]:
        """Yields the formats of functions that are known to take one, in the order of the text."""
        for place in self.source.places:
            found = self.format_of(place) if self.is_called(place) else None
            if found is not None:
                yield found

    def at(self, offset: int) -> Optional[WrittenFormat]:
        """Returns the format at an offset of the file. Without a call that is known it has a directive, at least."""
        index = bisect.bisect_right(self.starts, offset) - 1
        place = self.source.places[index] if index >= 0 else None
        is_there = place and offset < self.end_of(place.end) and place.call.function not in NOT_FORMATS
        found = self.format_of(place) if place and is_there else None
        return found if found and (found.directives or self.is_called(found.place)) else None

    def arguments(self, format: WrittenFormat) -> List[Tuple[int, int]]:
        """Returns where the arguments are in the file that a format converts, with the space around them; none if they
        aren't known.
        """
        place, text = format.place, self.source.plain
        name, begin = place.call.function, max(0, format.place.start - BEFORE)
        shape = self.shapes.get(name) if self.is_called(place) else None
        if shape is None or shape.first is None:
            return []
        calls = re.finditer(rb"(?<![\w$])" + re.escape(name) + rb"\s*\(", text[begin : place.start])
        for call in reversed(list(calls)):
            listed = split(text, begin + call.end())
            number = next((at for at, (a, b) in enumerate(listed) if a <= place.start < b), None)
            if number == place.call.argument:
                # With an `#if` between them it isn't known which are there.
                is_known = PREPROCESSED_LINE.search(text, begin + call.end(), listed[-1][1]) is None
                return [(self.offset(a), self.offset(b)) for a, b in listed[shape.first :]] if is_known else []
        return []

    def call_at(self, offset: int) -> Optional[WrittenCall]:
        """Returns the innermost call that has an argument of a format at an offset of the file."""
        last = bisect.bisect_right(self.starts, offset)
        for index in range(last - 1, max(last - 1 - MOST, -1), -1):
            place = self.source.places[index]
            if self.starts[index] <= offset - AFTER:
                break
            format = self.format_of(place) if self.is_called(place) else None
            listed = self.arguments(format) if format else []
            for at, (start, end) in enumerate(listed):
                if format and start <= offset <= end:
                    return WrittenCall(format, listed, at)
        return None


def window(data: bytes, near: int) -> Tuple[int, int]:
    """Returns what is read around an offset: from a line that begins with `}` to the next one, as far as these are
    near.
    """
    begin, end = data.rfind(b"\n}", max(0, near - AROUND), near), data.find(b"\n}", near, near + AROUND)
    line = data.find(b"\n", max(0, near - AROUND), near) + 1 if near > AROUND else 0
    return begin + 2 if begin >= 0 else line, end + 2 if end >= 0 else min(len(data), near + AROUND)


def split(text: bytes, at: int) -> List[Tuple[int, int]]:
    """Returns where the arguments of a call are, by the offset after its bracket, up to its end or that of a statement.
    """
    found, depth, begin = [], 0, at
    for token in MARKS.finditer(text, at, at + AFTER):
        mark = token["mark"]
        if mark is None:
            continue
        if mark in b"([{":
            depth += 1
        elif mark in b")]}" and depth:
            depth -= 1
        elif mark in b"),;]}" and not depth:
            found.append((begin, token.start()))
            begin = token.end()
            if mark != b",":
                return found
    return [*found, (begin, min(len(text), at + AFTER))]


def trimmed(data: bytes, start: int, end: int) -> Tuple[int, int]:
    """Returns where an argument is without the space around it."""
    text = data[start:end]
    return start + len(text) - len(text.lstrip()), max(start, end - len(text) + len(text.rstrip()))
