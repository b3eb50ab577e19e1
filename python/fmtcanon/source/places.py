"""The places of a C source: string literals and macros side by side, each with the call that it is an argument of."""

import bisect
import functools
import itertools
import re
from typing import Any, Dict, Iterator, List, NamedTuple, Optional, Set, Tuple

from .. import BadLiteral, decode_literal, source_offset
from ..formats.verdicts import without_specifications
from ..frame.excerpts import line_of
from ..models import Model
from .known import GETTEXT
from .macros import PlacePart, definitions, expansion
from .tokens import CHARACTER, COMMENT, NAME, NUMBER, OPEN, SPLICE, STRING

# A comment that isn't closed goes to the end.
ANY_COMMENT = COMMENT + rb"|/\*[\s\S]*"
RAW_START = rb"(?P<prefix>u8|[uUL])?R\"(?P<delimiter>[^()\\\s\"]{0,16})\("
RAW_BEGIN = re.compile(RAW_START)
RAW_END = re.compile(rb"\)([^()\\\s\"]{0,16})\"")
# What is of no interest. Each part goes as far as it can, so that a text matches in one way only. Their number has a
# bound, since a match keeps a state for each.
MARKLESS = rb"[^\w\"'/(),;{}#$\x80-\xff]"
PLAIN = MARKLESS + rb"+(?!" + MARKLESS + rb")|" + NUMBER + rb"(?![\w.])|/(?![/*])"
OTHER_NAME = NAME + rb"(?![\w$\x80-\xff])(?!\s*[(\"])"
OTHER_DIRECTIVE = rb"(?!define\b)(?:[^\n/\"]|\"(?:[^\"\\\n]|\\.)*\"|/(?!\*)|\")*"
DIRECTIVE = rb"#[ \t]*(?:define[ \t]+(?P<defined>" + NAME + rb")|" + OTHER_DIRECTIVE + rb")"
TOKEN = (
    rb"(?P<mark>[(),;{}])|(?P<call>" + NAME + rb")\s*\("
    rb"|(?P<string>(?:u8)?" + STRING + rb")|(?P<raw>" + RAW_START + rb")|(?P<wide>[uUL]" + STRING + rb")"
    rb"|(?P<name>" + NAME + rb")|" + DIRECTIVE + rb"|" + ANY_COMMENT + rb"|" + CHARACTER + rb"|" + OPEN
)
# Statements after the end of another that have nothing of interest: what was before them is over.
OTHER_STATEMENTS = rb"(?P<over>(?<=[;{}])(?:[^\"'/#;{}]{0,400}[;{}]){1,64})|"
# Names that are followed by a literal are tokens, and all names if the file has macros that may be formats.
FEW_TOKENS, ALL_TOKENS = (
    re.compile(front + rb"(?:" + plain + rb"){0,64}(?:" + TOKEN + rb")|(?:" + plain + rb"){1,64}|[\s\S]")
    for front, plain in ((OTHER_STATEMENTS, PLAIN + rb"|" + OTHER_NAME), (b"", PLAIN))
)
GAP = rb"(?:[ \t\n\v\f\r]|" + COMMENT + rb")*"
SPACE = re.compile(GAP)
NEXT = re.compile(
    GAP + rb"(?:(?P<raw>" + RAW_START + rb")|(?P<wide>[uUL]" + STRING + rb")|(?P<string>(?:u8)?" + STRING + rb")"
    rb"|(?P<name>" + NAME + rb"))"
)
KEYWORDS = frozenset(
    b"if else while for do switch case default return sizeof typeof _Alignof defined extern".split()
    + b"and or not xor throw operator co_return co_yield".split()
)
# What is given to them isn't a format of printf. A word of an asm comes directly before the bracket.
NOT_FORMATS = frozenset(
    b"puts fputs puts_unlocked fputs_unlocked _Pragma".split()
    + b"scanf fscanf sscanf vscanf vfscanf vsscanf scanf_s fscanf_s sscanf_s vscanf_s vfscanf_s vsscanf_s".split()
    + b"wscanf fwscanf swscanf vwscanf vfwscanf vswscanf".split()
    + b"strftime strftime_l wcsftime strptime strptime_l strfmon strfmon_l put_time get_time".split()
    + b"asm __asm __asm__ volatile __volatile __volatile__ goto inline".split()
)
# The group that a token begins with, if that isn't the last one.
GROUPS = {"prefix": "raw", "delimiter": "raw"}
# What ends a place without a look at what follows.
QUOTE = ord('"')
ENDS = frozenset([b",", b")", b";", b"}"])
# Of a longer text only so much is compared.
LONG = 100_000
# How deep macros may be defined by macros, and how much of what follows a place is compared.
DEPTH, REST = 20, 300


class EnclosingCall(NamedTuple):
    """The function that a literal is an argument of, the argument's index, and which of a message's forms it is."""

    function: bytes = b""
    argument: int = 0
    form: int = 0


class Position(NamedTuple):
    """A line and a column, both from 1. A column counts characters, or bytes where the line isn't UTF-8."""

    line: int
    column: int


class Place:
    """String literals and macros side by side in a source, by their offsets in the text without spliced lines."""

    __slots__ = ("source", "start", "end", "quote", "parts", "call", "_texts", "_words", "_rest")

    def __init__(
        self, source: "Source", start: int, end: int, quote: int, parts: Tuple[PlacePart, ...], call: EnclosingCall
    ) -> None:
        self.source, self.start, self.end, self.quote, self.parts, self.call = source, start, end, quote, parts, call
        self._texts: Optional[Dict[Model, Tuple[Optional[bytes], str]]] = None
        # Kept, since a place is compared with many others.
        self._words: Optional[bytes] = None
        self._rest: Optional[bytes] = None

    def text(self, model: Model) -> Tuple[Optional[bytes], str]:
        """Returns the bytes in a data model; or None, and why they aren't known."""
        if self._texts is None:
            self._texts = {}
        if model not in self._texts:
            self._texts[model] = joined(self.parts, self.source.macros, model)
        return self._texts[model]

    def unknown_names(self) -> Set[bytes]:
        """Returns the macros in it whose text isn't known."""
        names = {it.source for it in self.parts if it.kind == "name"}
        return {it for it in names if it not in self.source.macros and expansion(it, Model.LP64) is None}

    def define(self, macros: Dict[bytes, Tuple[PlacePart, ...]], model: Model) -> None:
        """Makes the text in a data model with more macros than those of the file."""
        self._texts = {model: joined(self.parts, {**macros, **self.source.macros}, model)}
        self._words = None

    @property
    def key(self) -> bytes:
        """The source of the parts, without what is between them."""
        return b" ".join(it.source for it in self.parts)

    @property
    def words(self) -> bytes:
        """The text with each specification as `%`, to see whether two places are one."""
        if self._words is None:
            text = self.text(Model.LP64)[0]
            if text is not None and len(text) > LONG:
                self._words = text[:LONG]
            else:
                self._words = self.key if text is None else without_specifications(text)
        return self._words

    @property
    def rest(self) -> bytes:
        """What follows in the statement, or in the definition of a macro, without white space."""
        if self._rest is None:
            following = self.source.plain[self.end : self.end + REST]
            end = b"\n" if self.call.function.startswith(b"#") else b";"
            self._rest = b"".join(following.partition(end)[0].split())
        return self._rest

    def span(self) -> Tuple[Position, Position]:
        """Returns the position of the first quote, and that after the last part."""
        start, last = self.source.position(self.quote), self.source.position(self.end - 1)
        return start, Position(last.line, last.column + 1)

    def offset_of(self, index: int) -> Optional[int]:
        """Returns the offset in the source of what gives the byte of this index, or None if there are other parts."""
        if any(it.kind != "string" for it in self.parts):
            return None
        found = source_offset(b" ".join(it.literal for it in self.parts), index)
        at = self.start
        for part in self.parts:
            at = SPACE.match(self.source.plain, at).end()  # type: ignore[union-attr]
            at += len(part.source)
            if found is not None and found < len(part.literal):
                return at - len(part.literal) + found
            found = None if found is None else found - len(part.literal) - 1
        return None

    def runs(self) -> Iterator[Tuple[int, int]]:
        """Yields where in the file literals without a prefix stand side by side."""
        plain, offset = self.source.plain, self.source.offset
        first, last = -1, self.start
        for part in self.parts:
            at = SPACE.match(plain, last).end()  # type: ignore[union-attr]
            is_plain = part.kind == "string" and plain[at] == QUOTE
            if first >= 0 and not is_plain:
                yield offset(first), offset(last - 1) + 1
            first = at if is_plain and first < 0 else first if is_plain else -1
            last = end_of_raw(plain, at) if part.kind == "raw" else at + len(part.source)
        if first >= 0:
            yield offset(first), offset(last - 1) + 1

    def has_specification(self) -> bool:
        """Returns whether there is a `%` that isn't doubled, in the text or, if that isn't known, in the source."""
        text = self.text(Model.LP64)[0]
        return b"%" in (self.key if text is None else text).replace(b"%%", b"")

    def shown(self) -> str:
        """Returns the source of the parts, as text."""
        return self.key.decode(errors="backslashreplace")


def joined(
    parts: Tuple[PlacePart, ...], macros: Dict[bytes, Tuple[PlacePart, ...]], model: Model, depth: int = 0
) -> Tuple[Optional[bytes], str]:
    """Returns the bytes of parts; or None, and why they aren't known."""
    out = b""
    for kind, run in itertools.groupby(parts, key=lambda it: it.kind):
        listed = list(run)
        if kind == "wide":
            return None, "a wide string literal"
        if kind == "raw":
            out += b"".join(it.source for it in listed)
        elif kind == "string":
            try:
                out += decode_literal(b" ".join(it.literal for it in listed))
            except BadLiteral as bad:
                return None, str(bad)
        else:
            for name in (it.source for it in listed):
                text = expansion(name, model)
                if text is None:
                    if name not in macros or depth == DEPTH:
                        return None, f"the macro {name.decode(errors='backslashreplace')} is part of it"
                    text, why = joined(macros[name], macros, model, depth + 1)
                    if text is None:
                        return None, why
                out += text
    return out, ""


def column_of(source: bytes, offset: int) -> int:
    """Returns the column of an offset, from 1, in characters, or in bytes where the line isn't UTF-8."""
    return len(source[source.rfind(b"\n", 0, offset) + 1 : offset].decode(errors="surrogateescape")) + 1


def end_of_raw(text: bytes, start: int) -> int:
    """Returns where a raw string ends that starts at an offset."""
    begin = RAW_BEGIN.match(text, start)
    assert begin is not None
    return text.index(b")" + begin["delimiter"] + b'"', begin.end()) + len(begin["delimiter"]) + 2


class Source:
    """A source: its text without spliced lines, the macros that it defines, and its places, once it is read."""

    def __init__(self, data: bytes) -> None:
        self.data = data
        self.splices: List[Tuple[int, int]] = []
        self.plain = data if b"\\\n" not in data and b"\\\r\n" not in data else self.without_splices()
        self.macros = definitions(self.plain) if b"define" in data else {}
        self.places: List[Place] = []
        # Up to where lines were counted, and how many there are.
        self.counted, self.lines = 0, 1

    def read(self) -> "Source":
        """Reads the places."""
        self.places = Reader(self).places()
        return self

    def without_splices(self) -> bytes:
        """Returns the text without spliced lines. Notes where each was in it, and how much was taken out by then."""
        parts, done, taken = [], 0, 0
        for splice in SPLICE.finditer(self.data):
            parts.append(self.data[done : splice.start()])
            self.splices.append((splice.start() - taken, taken + len(splice.group())))
            done, taken = splice.end(), taken + len(splice.group())
        return b"".join([*parts, self.data[done:]])

    def offset(self, at: int) -> int:
        """Returns the offset in the file of an offset in the text."""
        index = bisect.bisect_right(self.splices, (at, len(self.data))) if self.splices else 0
        return at + self.splices[index - 1][1] if index else at

    def position(self, at: int) -> Position:
        """Returns the position of an offset in the text."""
        offset = self.offset(at)
        return Position(self.line_of(offset), column_of(self.data, offset))

    def line_of(self, offset: int) -> int:
        """Returns the line of an offset in the file, from 1."""
        if offset < self.counted:
            self.counted, self.lines = 0, 1
        self.lines += self.data.count(b"\n", self.counted, offset)
        self.counted = offset
        return self.lines

    def line(self, at: int) -> str:
        """Returns the line of the file that has an offset in the text."""
        return line_of(self.data, self.offset(at))

    def raw(self, start: int, end: int) -> bytes:
        """Returns the bytes of the file between two offsets in the text: in a raw string no line is spliced."""
        return (
            self.data[self.offset(start) : self.offset(end - 1) + 1]
            if self.splices and end > start
            else self.plain[start:end]
        )


def lone_place(data: bytes) -> Optional[Place]:
    """Returns the place that a source is, without anything next to it; None if it is something else."""
    source = Source(data).read()
    place = source.places[0] if len(source.places) == 1 else None
    is_alone = place is not None and not (source.plain[: place.start] + source.plain[place.end :]).strip()
    return place if is_alone else None


@functools.lru_cache(maxsize=1000)
def is_gettext(function: bytes) -> bool:
    return GETTEXT.fullmatch(function.decode("latin-1")) is not None


class Reader:
    """Reads the tokens of a source, and keeps the brackets that are open."""

    def __init__(self, source: Source) -> None:
        self.source, self.text = source, source.plain
        # The name before each bracket that is open, if it may be a function, and how many commas came since.
        self.brackets: List[List[Any]] = []
        self.found: List[Place] = []
        # Where the definition of a macro ends that is being read, and its name.
        self.limit, self.defined = len(self.text), b""
        # Macros that may be a format by themselves.
        self.formats: Set[bytes] = {
            name
            for name, parts in source.macros.items()
            if b"%" in (joined(parts, source.macros, Model.LP64)[0] or b"")
        }
        # Where a raw string of each delimiter may end for the last time, once it is needed.
        self.raw_ends: Optional[Dict[bytes, int]] = None

    def places(self) -> List[Place]:
        done: Optional[int] = 0
        while done is not None:
            done = self.read(done)
        return self.found

    def read(self, begin: int) -> Optional[int]:
        """Reads tokens from an offset on. Returns the end of the first place of several tokens, or None."""
        text, brackets = self.text, self.brackets
        for token in (ALL_TOKENS if self.formats else FEW_TOKENS).finditer(text, begin):
            kind = token.lastgroup
            if kind is None:
                continue
            start = token.start(GROUPS.get(kind, kind))
            if start >= self.limit:
                self.clear(len(text), b"")
            if kind == "mark":
                mark = token["mark"]
                if mark == b"(":
                    brackets.append([b"", 0])
                elif mark == b")":
                    del brackets[-1:]
                elif mark != b",":
                    # No half of an `#if` spoils what follows the statement.
                    brackets.clear()
                elif brackets:
                    brackets[-1][1] += 1
            elif kind == "over":
                brackets.clear()
            elif kind == "call":
                name = token["call"]
                brackets.append([b"" if name in KEYWORDS else name, 0])
            elif kind == "string" and text[start] == QUOTE and text[token.end() : token.end() + 1] in ENDS:
                self.add(start, token.end(), start, (PlacePart("string", token["string"]),))
            elif kind == "defined":
                end = text.find(b"\n", token.end())
                self.clear(len(text) if end < 0 else end, token["defined"])
            elif kind != "name" or self.may_begin(token["name"], token.end()):
                end = self.place(token, start)
                if end > token.end():
                    return end
        return None

    def add(self, start: int, end: int, quote: int, parts: Tuple[PlacePart, ...]) -> None:
        self.found.append(Place(self.source, start, end, quote, parts, self.call()))

    def clear(self, limit: int, defined: bytes) -> None:
        self.brackets.clear()
        self.limit, self.defined = limit, defined

    def may_begin(self, name: bytes, end: int) -> bool:
        """Returns whether a place begins with a name: a macro before a literal, or an argument that may be a format."""
        if name in KEYWORDS:
            return False
        if name in self.formats:
            return bool(self.call().function)
        following = NEXT.match(self.text, end)
        return following is not None and following.lastgroup != "name"

    def call(self) -> EnclosingCall:
        """Returns the call around what is read, through brackets and through functions that look up messages."""
        form = 0
        for name, commas in reversed(self.brackets):
            if name and not is_gettext(name):
                return EnclosingCall(name, commas, form)
            form = form or (commas if name else 0)
        return EnclosingCall(b"#define " + self.defined if self.defined else b"", 0, form)

    def place(self, token: "re.Match[bytes]", first: int) -> int:
        """Adds the place that begins with a token at this offset, and returns its end."""
        parts: List[PlacePart] = []
        quote: Optional[int] = None
        following: Optional["re.Match[bytes]"] = token
        end = token.end()
        while following is not None:
            kind = str(following.lastgroup)
            start = following.start(GROUPS.get(kind, kind))
            part, end_of_part = self.part(following, kind) if start < self.limit else (None, end)
            if part is None:
                break
            if part.kind != "name" and quote is None:
                quote = self.text.index(b'"', start)
            parts.append(part)
            end = end_of_part
            following = None if self.text[end : end + 1] in ENDS else NEXT.match(self.text, end)
        if parts:
            self.add(first, end, first if quote is None else quote, tuple(parts))
        return end

    def part(self, token: "re.Match[bytes]", kind: str) -> Tuple[Optional[PlacePart], int]:
        """Returns the part of a place that a token of a kind is, or None, and its end."""
        if kind not in ("wide", "string", "name"):
            delimiter = token["delimiter"]
            if self.raw_ends is None:
                self.raw_ends = {it[1]: it.start() for it in RAW_END.finditer(self.text)}
            if self.raw_ends.get(delimiter, -1) < token.end():
                return None, token.end()
            end = self.text.index(b")" + delimiter + b'"', token.end())
            is_wide = token["prefix"] in (b"u", b"U", b"L")
            return PlacePart("wide" if is_wide else "raw", self.source.raw(token.end(), end)), end + len(delimiter) + 2
        if kind == "name" and token["name"] in KEYWORDS:
            return None, token.start("name")
        return PlacePart(kind, token[kind]), token.end()
