"""Finds the format at a place of a source, for editors without a server, and that of a call that is pasted."""

import os
import re
import sys
from typing import List, Optional, Tuple

from ..models import Model
from ..source.declared import declared_for
from ..source.files import as_text, read
from ..source.written import WrittenFormat, WrittenSource, split

PLACE = re.compile(r"(?P<file>.+):(?P<line>\d+):(?P<column>\d+)", re.DOTALL)
# The name of standard input.
INPUT = "-"
# What is before a call that is a statement of its own, without the space around it, and after its arguments.
BEFORE_CALL = re.compile(rb"(?:\(void\)|return|[\w.>*\[\] -]+\+?=)?")
AFTER_CALL = re.compile(rb"\)?\s*;?\s*")


class NoFormat(Exception):
    """There is no format at a place, and why."""


def format_at(word: str, model: Model) -> Tuple[WrittenFormat, List[str]]:
    """Returns the format at FILE:LINE:COLUMN and the source of its arguments. Raises `NoFormat` or `Unreadable`."""
    place = PLACE.fullmatch(word)
    if place is None:
        raise NoFormat(f"{word!r} isn't FILE:LINE:COLUMN, counted from 1")
    name = place["file"]
    data = as_text("standard input", sys.stdin.buffer.read()) if name == INPUT else read(name)
    offset = offset_of(data, int(place["line"]), int(place["column"]))
    shapes = declared_for(os.path.abspath("a.c" if name == INPUT else name), data)
    written = WrittenSource(data, model, shapes)
    format = None if offset is None else written.at(offset)
    if format is None:
        raise NoFormat(f"{word}: there is no format")
    return format, sources_of(data, written, format)


def format_in_call(data: bytes, model: Model) -> Optional[Tuple[WrittenFormat, List[str]]]:
    """Returns the format of a text that is one call, as it is pasted from a source, and the source of its arguments;
    None for all other texts.
    """
    written = WrittenSource(data, model, {}) if b'"' in data else None
    formats = list(written.formats()) if written else []
    if not written or len(formats) != 1:
        return None
    text, place = written.source.plain, formats[0].place
    call = re.search(rb"(?<![\w$])" + re.escape(place.call.function) + rb"\s*\(", text)
    if call is None or not BEFORE_CALL.fullmatch(text[: call.start()].strip()):
        return None
    if not AFTER_CALL.fullmatch(text, split(text, call.end())[-1][1]):
        return None
    return formats[0], sources_of(data, written, formats[0])


def sources_of(data: bytes, written: WrittenSource, format: WrittenFormat) -> List[str]:
    """Returns the source of each argument of a format in one line."""
    ranges = written.arguments(format)
    return [" ".join(data[start:end].decode(errors="surrogateescape").split()) for start, end in ranges]


def offset_of(data: bytes, line: int, column: int) -> Optional[int]:
    """Returns the offset of a line and a column in characters, as findings have them; None if there is no such place.
    """
    lines = data.split(b"\n")
    if not 1 <= line <= len(lines) or column < 1:
        return None
    front = lines[line - 1].decode("utf-8", "surrogateescape")[: column - 1]
    return sum(len(it) + 1 for it in lines[: line - 1]) + len(front.encode("utf-8", "surrogateescape"))
