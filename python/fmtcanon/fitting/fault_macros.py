"""Finds the macro whose definition has the directive of a fault: all its uses are one finding."""

import re
from typing import Dict, Iterator, List, Mapping, NamedTuple, Optional, Sequence, Set, Tuple

from .. import source_offset
from ..compiling.calls import Call
from ..compiling.line_markers import parts_in, path_in
from ..source.directives import SourceDirective, definition_at
from ..source.files import known_bytes, lines_in
from ..source.tokens import NAME
from .judging import Fault

# A definition in preprocessed text.
DEFINED = re.compile(rb"^#define (\w+)(.*)$", re.MULTILINE)
SYSTEM = b"3"
WORD = re.compile(NAME)


class Definition(NamedTuple):
    """A definition of a macro: its name, the file and the line where it is, what the macro expands to, and whether it
    is in a header of the system.
    """

    name: str
    file: str
    line: int
    body: bytes
    is_system: bool = False


def definitions_in(text: bytes, folder: str) -> Iterator[Definition]:
    """Yields the definitions of macros in preprocessed text."""
    for marker, start, end in parts_in(text):
        file, is_system = path_in(marker[2], folder), SYSTEM in marker[3].split()
        for found in DEFINED.finditer(text, start, end):
            line = int(marker[1]) + text.count(b"\n", start + 1, found.start())
            yield Definition(found[1].decode(), file, line, found[2], is_system)


class Macros:
    """The macros of a unit, by the text of it that has their definitions."""

    def __init__(self, text: bytes, folder: str, texts: Mapping[str, bytes] = {}) -> None:
        # What is read instead of files.
        self.texts = texts
        self.known: Dict[str, List[Definition]] = {}
        # Those of system headers, too.
        self.all: Dict[str, List[Definition]] = {}
        for one in definitions_in(text, folder):
            for known in (self.all,) if one.is_system else (self.known, self.all):
                known.setdefault(one.name, []).append(one)

    def of(self, fault: Fault) -> Optional[Definition]:
        """Returns the only definition with the directive's literal among the macros that the lines of the call name,
        and those that these are made of; None if there is none, or the lines have the literal, too.
        """
        literal = fault.tokens[0][0].source.encode()
        text = self.lines_of(fault.call)
        if literal in text:
            return None
        found = {it for it in self.reached(text, self.known) if literal in it.body}
        return found.pop() if len(found) == 1 else None

    def lines_with(self, fault: Fault) -> Iterator[Tuple[str, int, int]]:
        """Yields the lines of all definitions, also of the system, that may have the directive's literal: a file, the
        first and the last.
        """
        literal = fault.tokens[0][0].source.encode()
        listed = self.reached(self.lines_of(fault.call), self.all)
        yield from ((it.file, it.line, last_line(known_bytes(it.file), it.line)) for it in listed if literal in it.body)

    def lines_of(self, call: Call) -> bytes:
        """Returns the lines of a call."""
        source = self.texts[call.file] if call.file in self.texts else known_bytes(call.file)
        return b"\n".join(lines_in(source)[call.line - 1 : call.last])

    @staticmethod
    def reached(text: bytes, known: Mapping[str, Sequence[Definition]]) -> Iterator[Definition]:
        """Yields the definitions of the macros that a text names, and of those that these are made of."""
        waiting: Set[str] = {it.decode(errors="replace") for it in WORD.findall(text)}
        found: Set[str] = set()
        while waiting:
            found |= waiting
            listed = [it for name in waiting & known.keys() for it in known[name]]
            yield from listed
            waiting = {it.decode(errors="replace") for one in listed for it in WORD.findall(one.body)} - found


def definition_in(source: bytes, line: int) -> Optional[SourceDirective]:
    """Returns the definition of a macro that begins in a line of a source."""
    return definition_at(source, sum(map(len, lines_in(source)[: line - 1])) + line - 1)


def last_line(source: bytes, line: int) -> int:
    """Returns the last line of a definition that begins in a line."""
    found = definition_in(source, line)
    return line + (source.count(b"\n", found.start, found.end - 1) if found else 0)


def macro_at(source: bytes, offset: int) -> str:
    """Returns the name of the macro in whose definition an offset is, or an empty one."""
    found = definition_at(source, offset)
    return found.name.decode() if found else ""


def span_of(definition: Definition, fault: Fault) -> Optional[Tuple[bytes, int, Optional[int]]]:
    """Returns the source that has a definition, where the directive of a fault is in it, and its last byte, if that is
    in the same literal; None if the definition hasn't its literal once.
    """
    source = known_bytes(definition.file)
    found = definition_in(source, definition.line)
    literal, begin, end = fault.tokens[0]
    plain = literal.source.encode()
    if found is None or source.count(plain, found.start, found.end) != 1:
        return None
    first, after = fault.range
    at = source.index(plain, found.start)
    offset = source_offset(plain, first - begin)
    last = source_offset(plain, after - 1 - begin) if after <= end else None
    return None if offset is None else (source, at + offset, None if last is None else at + last)
