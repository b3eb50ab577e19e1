"""The calls of functions that print as printf does, in the text of a unit on a platform: the literals that may be the
format, and the types of the arguments after promotion.
"""

import collections
import os
import re
from typing import Any, Counter, Dict, List, NamedTuple, Optional, Sequence, Set, Tuple

from .. import encode_literal
from ..kinds import Type
from ..models import Model
from ..source.files import known_bytes, lines_in
from ..source.known import Shape
from .call_sites import call_sites, names_in
from .closure import Candidate, own_among, without_defined
from .compile_commands import CompileCommand
from .declared_types import is_declared_long, part_name, typedef_of
from .formats import AROUND, Format, Formats
from .functions import Callee, Callees, Functions, Wrapper, is_system
from .overloads import Overloads
from .parsing import CALL_EXPR, UNREADABLE, VISIT_INSIDE, Parsed
from .platforms import COMPILED, Platform
from .pointers import given_in, has_pointers, names_among
from .retargeting import TYPE_MARK, own_spans
from .wrappers import candidates_in

# Types that gcc has, and no directive takes: each is another than what it is in memory. Where there is no `__int128`,
# no compiler reads what names it.
OF_GCC = [f"-D{it}=__float128" for it in ("_Float32", "_Float32x", "_Float64", "_Float64x")]
WITHOUT_INT128 = ["-D__int128=long long", "-D__int128_t=long long", "-D__uint128_t=unsigned long long"]
TEMPLATE = re.compile(r"template\s*<")
# Up to what is next in another line of preprocessed text; and the last line of a call after which nothing is.
NEXT_LINE = re.compile(rb"(?:[ \t]*\n(?:# \d+ [^\n]*(?=\n))*)+(?P<space>[ \t]*)(?P<next>[^\n]*)")
END = 1 << 30
ARRAYS = ("CONSTANTARRAY", "INCOMPLETEARRAY", "VARIABLEARRAY")
INTEGERS = {
    "INT": Type.INT,
    "UINT": Type.UINT,
    "LONG": Type.LONG,
    "ULONG": Type.ULONG,
    "LONGLONG": Type.LONG_LONG,
    "ULONGLONG": Type.ULONG_LONG,
}
# The types that may be a typedef's where a unit is compiled, and elsewhere.
LONGS, LONGER = ("LONG", "ULONG"), ("LONGLONG", "ULONGLONG")
OF_LIBRARY = re.compile(r"\b__(\w+_t)\b")
# Those whose values are never negative. A bit-field of the last may be promoted to int.
UNSIGNED = ("BOOL", "CHAR_U", "UCHAR", "USHORT", "UINT")


class Argument(NamedTuple):
    """An argument of a call: its type after promotion, if that is an integer, the same in C, its type as the source
    names it, whether it is an int that can't be negative: a literal, or of an unsigned type before promotion; whether
    the source declares it as `long`, which it is on every platform then; the typedef of the C library that the source
    declares it with, if that is `long` where it is compiled; and one that a part of it is declared with, as in a sum.
    """

    type: Optional[Type]
    spelling: str
    name: str
    is_unsigned: bool = False
    is_long: bool = False
    typedef: str = ""
    part: str = ""


class Call(NamedTuple):
    """A call: the file and the line where it begins, its function, what may be its format, what that converts, and the
    line where it ends; what tells its function apart, if that is known because it hands its format on; whether that is
    the C library's own; and whether its format may be nothing else.
    """

    file: str
    line: int
    function: str
    formats: Tuple[Format, ...]
    arguments: Tuple[Argument, ...]
    last: int = 0
    key: str = ""
    is_library: bool = True
    is_all: bool = True


# The line of the text that a call is in, its function, and which of such calls it is: one key on all platforms.
Key = Tuple[int, str, int]


class Calls(Parsed):
    """The calls in preprocessed text, with one rule for which functions are known. A kind of it says what is noted."""

    def __init__(self, command: CompileCommand, text: bytes, functions: Functions, words: Sequence[str] = ()) -> None:
        super().__init__(command, text, words)
        self.callees = Callees(self, functions)
        # The names of variadic functions, and of pointers to such if there are any.
        self.names: Set[str] = set()

    def candidates_among(self, functions: Functions, spans: Sequence[Tuple[int, int]]) -> List[Candidate]:
        """Returns the functions that may hand their formats on in parts of the text, and what pointers to such are
        given there.
        """
        # What is known of other units may mean other functions.
        callees = Callees(self, functions._replace(found={}))
        found = list(candidates_in(self, callees, spans))
        if has_pointers(self.text.decode("latin-1"), spans):
            self.names = names_among(self.text.decode("latin-1"), spans)
            found += given_in(self, callees, self.names, spans)
        return found


class FormatCalls(Calls):
    """The calls with formats in the text of a unit on a platform, by their keys."""

    def __init__(
        self,
        command: CompileCommand,
        text: bytes,
        platform: Platform,
        functions: Functions,
        source: Optional[bytes] = None,
    ) -> None:
        # The source of the file, if it is another than the file has.
        self.source = source
        super().__init__(command, text, functions, words_for(platform))
        self.formats = Formats(self)
        self.found: Dict[Key, Call] = {}
        # How many calls of a function are in a line.
        self.in_line: Counter[Tuple[int, str]] = collections.Counter()
        # The calls whose format isn't read; and how many there are of functions that aren't known, by the options for
        # these.
        self.unread: List[Call] = []
        self.others: Counter[str] = collections.Counter()
        # Whether all calls are the same elsewhere, if their arguments have the types there that are declared.
        self.is_settled = True
        # The arguments that are integers.
        self.integers: List[Any] = []
        self.overloads = Overloads(self) if command.is_cxx() else None
        # The functions of the unit that hand their formats on. On other platforms they are the same, and known.
        self.own: Dict[str, Tuple[Wrapper, ...]] = {}
        self.known = functions.found
        self.candidates: List[Candidate] = []
        # The keys of the variadic functions and pointers that aren't known and are called.
        self.called: Set[str] = set()
        # The names of functions that may have formats. They are the same on each platform.
        self.callable = functions.callable
        # One character for each byte.
        plain = self.text.decode("latin-1")
        spans = own_spans(plain)
        if platform is COMPILED:
            self.candidates = self.candidates_among(functions, spans)
            self.own = own_among(self.candidates, functions.found)
            self.known = {**without_defined(functions.found, self.candidates), **self.own}
            self.callees = Callees(self, functions._replace(found=self.known))
        self.note_calls(functions, plain, spans)

    def note_calls(self, functions: Functions, plain: str, spans: Sequence[Tuple[int, int]]) -> None:
        """Notes the calls in these parts of the text."""
        if self.command.is_cxx() and any(TEMPLATE.search(plain, *it) for it in spans):
            self.walk()
            return
        given = (it.encode().decode("latin-1") for it in functions.given)
        self.callable = functions.callable or names_in(plain, spans, given)
        for at in call_sites(plain, spans, self.callable):
            self.note(self.cursor_at(at))

    def walk(self) -> None:
        """Notes the calls outside of system headers. What libclang finds at a place in a template may be what was made
        of that for some types.
        """
        for cursor in self.unit.cursor.get_children():
            if not is_system(cursor):
                self.note(cursor)
                self.visit(self.note, cursor)

    def note(self, cursor: Any) -> int:
        """Notes a cursor, if it is a call. Returns that what is inside is visited, too."""
        if cursor._kind_id == CALL_EXPR:
            self.note_call(cursor)
        return VISIT_INSIDE

    def note_call(self, cursor: Any) -> None:
        callee = self.callees.callee(cursor)
        if callee is None:
            return
        if callee.shape is UNREADABLE:
            self.note_unread(cursor, callee)
        elif callee.shape is None:
            self.note_other(cursor, callee)
        elif callee.shape.first is not None:
            arguments = list(cursor.get_arguments())
            if len(arguments) > callee.shape.format:
                self.note_format(cursor, callee, callee.shape, arguments)

    def note_format(self, cursor: Any, callee: Callee, shape: Shape, arguments: Sequence[Any]) -> None:
        """Notes the call of a function that has a format."""
        name = callee.name
        if self.overloads and self.is_settled:
            self.is_settled = self.overloads.is_settled(cursor)
        read = list(self.formats.read(arguments[shape.format]))
        if None in read:
            self.note_unread(cursor, callee)
        given = [argument_of(it, self) for it in arguments[shape.first :]]
        self.integers += [it for it, one in zip(arguments[shape.first :], given) if one.type]
        line = cursor.location.line
        number = self.in_line[line, name]
        self.in_line[line, name] += 1
        self.found[line, name, number] = Call(
            *self.place_of(cursor.location),
            name,
            tuple(it for it in read if it),
            tuple(given),
            self.last_line(cursor.extent.end),
            callee.key,
            callee.is_library,
            None not in read,
        )

    def last_line(self, end: Any) -> int:
        """Returns the last line that a call may have which ends at a location: a compiler puts all that a macro makes
        into its first line, and only the next line with a token is in its place again. That is the last one if the
        source has more before that token: the compiler writes it in its column.
        """
        file, line = self.presumed(end)
        found = NEXT_LINE.match(self.text, max(self.text.find(b"\n", end.offset), 0))
        if found is None or not found["next"]:
            return END
        next_file, next_line = self.presumed(self.location_at(found.start("next")))
        if next_file == file:
            path = self.file_of(end)
            given = self.source if path == self.command.file else None
            lines = lines_in(known_bytes(path) if given is None else given)
            source = lines[next_line - 1] if next_line <= len(lines) else b""
            return max(line, next_line - int(len(found["space"]) <= len(source) - len(source.lstrip())))
        # A header is between.
        name = encode_literal(os.fsencode(file))
        after = re.compile(rb"^# (\d+) " + re.escape(name), re.MULTILINE).search(self.text, found.end())
        return max(line, int(after[1]) - 1 if after else END)

    def note_other(self, cursor: Any, callee: Callee) -> None:
        """Notes the call of another function that is given a literal with a percent sign: if it has no prototype, and a
        name of the C library; or as its last parameter, before more arguments.
        """
        if not callee.has_prototype:
            if any(map(self.has_percent, cursor.get_arguments())):
                self.note_unread(cursor, callee)
        elif callee.last is not None:
            self.called.update(callee.keys)
            given = list(cursor.get_arguments())[callee.last : callee.last + 1]
            if given and self.has_percent(given[0]):
                self.others[f"{callee.name}:{callee.last + 1}"] += 1

    def note_unread(self, cursor: Any, callee: Callee) -> None:
        """Notes a call whose format isn't read."""
        end = self.line_of(cursor.extent.end)
        self.unread.append(Call(*self.place_of(cursor.location), callee.name, (), (), end, callee.key))

    def has_percent(self, argument: Any) -> bool:
        """Returns whether an argument is a literal with a percent sign."""
        return any("%" in it.source for it in self.formats.read(argument) if it)


def words_for(platform: Platform) -> Sequence[str]:
    """Returns the words of a command with which libclang parses text as it is on a platform."""
    words = WITHOUT_INT128 if platform.model is Model.ILP32 else []
    return [f"--target={platform.target}", *OF_GCC, *words]


def argument_of(cursor: Any, unit: Parsed) -> Argument:
    type = cursor.type.get_canonical()
    if type.kind.name == "ENUM":
        type = type.get_declaration().enum_type.get_canonical()
    inside, children = cursor, [cursor]
    while inside.kind.name in AROUND and len(children) == 1:
        children = list(inside.get_children())
        inside = children[0] if len(children) == 1 else inside
    # A parameter that is declared as an array is a pointer.
    spelling = f"{type.element_type.spelling} *" if type.kind.name in ARRAYS else type.spelling
    is_natural = inside.kind.name == "INTEGER_LITERAL" or inside.type.get_canonical().kind.name in UNSIGNED
    is_unsigned = type.kind.name == "INT" and is_natural
    is_any_long = type.kind.name in LONGS
    is_long = is_any_long and inside.type.kind == type.kind and is_declared_long(inside)
    typedef = typedef_of(inside, unit) if is_any_long and not is_long else ""
    name = OF_LIBRARY.sub(bare_name, inside.type.spelling.replace(TYPE_MARK, ""))
    part = part_name(inside) if is_any_long or type.kind.name in LONGER else ""
    return Argument(INTEGERS.get(type.kind.name), spelling, name, is_unsigned, is_long, typedef, part)


def bare_name(found: "re.Match[str]") -> str:
    """Returns the name of a typedef without what the C library's own headers put before it."""
    return found[1] if found[1] in COMPILED.types else found[0]
