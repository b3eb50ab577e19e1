"""The functions that take formats by an attribute, as the text of a file and of its headers declares them: no compiler
says so.
"""

import functools
import itertools
import os
import re
from typing import Dict, Iterator, List, Mapping, Optional, Set, Tuple

from .attributes import FORMAT, arguments_in, constant_of, printf_indexes
from .files import bytes_of
from .known import KNOWN, Shape
from .tokens import NAME

# Where functions have their formats, by their names.
Shapes = Mapping[bytes, Shape]
LIBRARY: Shapes = {name.encode(): Shape(it.index, it.first) for name, it in KNOWN.items()}
# The attribute, and macros that make it of two numbers, as kernels, BSD, GLib and gnulib name them.
MACROS = "__printf|(?:__)?printflike|PRINTF_ATTRIBUTE|G_GNUC_PRINTF|_GL_ATTRIBUTE_FORMAT_PRINTF(?:_STANDARD|_SYSTEM)?"
ATTRIBUTE = re.compile(rf"(?<!\w)(?:{FORMAT.pattern}|(?P<macro>{MACROS})\s*\()")
NAME_BEFORE_BRACKET = re.compile(NAME.decode("latin-1") + r"(?=\s*\()")
# How far from its attribute the name of a function is at most.
NEAR = 1_000
# How long the arguments of an attribute are at most, and how many attributes are read of one text.
LONG, MOST_ATTRIBUTES = 200, 5_000
INCLUDE = re.compile(rb'(?m)^[ \t]*#[ \t]*include[ \t]*"([^"\n]+)"')
# How many headers are read for one file, and how large each may be.
MOST, LARGEST = 200, 1_000_000
# How many headers are kept as they were read.
KEPT = 2_000


def declared_in(data: bytes) -> Dict[bytes, Shape]:
    """Returns the functions that a text declares with the attribute `format`, which comes after or before the name."""
    text = data.decode("latin-1")
    found: Dict[bytes, Shape] = {}
    for attribute in itertools.islice(ATTRIBUTE.finditer(text), MOST_ATTRIBUTES):
        shape = shape_of(text, attribute)
        name = declared_at(text, attribute.start(), attribute.end()) if shape else None
        if shape and name:
            found.setdefault(name.encode("latin-1"), shape)
    return found


def shape_of(text: str, attribute: "re.Match[str]") -> Optional[Shape]:
    """Returns where an attribute says that a format is; None if it isn't one of printf."""
    if attribute["macro"]:
        numbers = [constant_of(it) for it in arguments_in(text[attribute.end() : attribute.end() + LONG], 0)]
        format, first = numbers if len(numbers) == 2 else (None, None)
    else:
        format, first = printf_indexes(text[attribute.start() : attribute.end() + LONG]) or (None, None)
    return Shape(format - 1, first - 1 if first else None) if format else None


def declared_at(text: str, start: int, end: int) -> Optional[str]:
    """Returns the name of the function whose declaration has an attribute between these offsets."""
    front = text[max(0, start - NEAR) : start]
    begin = max(map(front.rfind, ";}{#")) + 1
    before = [it for it in NAME_BEFORE_BRACKET.findall(front, begin) if not it.startswith("__attribute")]
    after = text[end : end + NEAR].partition(";")[0]
    return next((it for it in [*before[:1], *NAME_BEFORE_BRACKET.findall(after)] if not it.startswith("__")), None)


def declared_for(path: str, data: bytes) -> Dict[bytes, Shape]:
    """Returns the functions that a source and the headers declare that it includes in quotes, near it among the files.
    """
    found: Dict[bytes, Shape] = {}
    folder = os.path.dirname(path)
    seen: Set[str] = set()
    waiting = [(folder, it) for it in INCLUDE.findall(data)]
    while waiting and len(seen) < MOST:
        header = next(headers_named(*waiting.pop(), folder), None)
        if header and header[0] not in seen:
            seen.add(header[0])
            functions, included = read_of(*header)
            found.update(functions)
            waiting += [(os.path.dirname(header[0]), it) for it in included]
    return {**found, **declared_in(data)}


def headers_named(here: str, name: bytes, folder: str) -> Iterator[Tuple[str, int]]:
    """Yields the files that a name in quotes may mean, with their times: next to the file that includes it first."""
    above = os.path.dirname(folder)
    for place in (here, folder, above, os.path.join(above, "include")):
        path = os.path.realpath(os.path.join(place, os.fsdecode(name)))
        try:
            status = os.stat(path)
        except (OSError, ValueError):
            continue
        if os.path.isfile(path) and status.st_size <= LARGEST:
            yield path, status.st_mtime_ns


@functools.lru_cache(maxsize=KEPT)
def read_of(path: str, time: int) -> Tuple[Dict[bytes, Shape], List[bytes]]:
    """Returns the functions of a header of this time, and what it includes."""
    data = bytes_of(path)
    return declared_in(data), INCLUDE.findall(data)
