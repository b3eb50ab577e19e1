"""Preprocessed text as libclang parses it: its cursors, and the files and lines that its line markers name.

The text is the one that the file's own compiler made, so no macro, branch or flag is left to judge.
"""

import ctypes
import os
import re
from typing import Any, Callable, Dict, List, Optional, Sequence, Tuple

from ..source.attributes import printf_indexes
from ..source.known import Known, Shape
from .compile_commands import CompileCommand
from .left import Left
from .libclang import cindex
from .line_markers import SPACE

# What the headers of gcc have and an older clang hasn't.
SHIMS = [
    "-D_Float128=__float128",
    "-D_Float64x=long double",
    "-D_Float64=double",
    "-D_Float32x=double",
    "-D_Float32=float",
    "-D__malloc__(...)=__malloc__",
    "-D__builtin_va_arg_pack()=0",
    "-D__builtin_va_arg_pack_len()=0",
    *(f"-D__builtin_{it}_overflow_p(a,b,c)=(sizeof((a)+(b)+(c))==0)" for it in ("add", "sub", "mul")),
]
FLAGS = ["-undef", "-nostdinc", "-w", "-ferror-limit=0", "-fdouble-square-bracket-attributes"]
# In an attribute, gcc's name of the language of formats, which an older clang hasn't.
GNU_PRINTF = re.compile(
    rb"(?<![\w$])((?:__)?format(?:__)?%(gap)b\(%(gap)b)(?:__)?gnu_printf(?:__)?(?=%(gap)b,)" % {b"gap": SPACE.encode()}
)
OTHER_BYTES = re.compile(rb"[\x80-\xff]")
LINE_MARKER = re.compile(r"(?m)^# \d+ .*")
# The kinds of cursors and the answers of a visitor, as the C interface of libclang numbers them.
FUNCTION_DECL, TYPEDEF_DECL, CALL_EXPR, VISIT_NEXT, VISIT_INSIDE = 8, 20, 103, 1, 2
# A struct, a union, an enumeration and a typedef.
TYPES = (2, 3, 5, TYPEDEF_DECL)
ERROR = 3
MEMBERS = ("CXX_METHOD", "CONSTRUCTOR")
# Where a declaration is that isn't at file scope.
SCOPES = ("NAMESPACE", "CLASS_DECL", "STRUCT_DECL", "CLASS_TEMPLATE", "UNION_DECL")


def as_utf8(text: bytes) -> bytes:
    """Returns preprocessed text for libclang, which takes UTF-8: other bytes, which are in literals, comments and names
    alone, become `_`.
    """
    try:
        text.decode()
        return text
    except UnicodeDecodeError:
        return OTHER_BYTES.sub(b"_", text)


def without_gnu_printf(text: bytes) -> bytes:
    """Returns a text in which attributes name the language of formats as clang does."""
    # Looking for the word first takes a tenth of the time.
    return GNU_PRINTF.sub(rb"\1printf", text) if b"gnu_printf" in text else text


# That of a function whose attribute has numbers that aren't constants of numbers.
UNREADABLE = Shape(-1, None)


class Parsed:
    """The translation unit of preprocessed text."""

    def __init__(self, command: CompileCommand, text: bytes, words: Sequence[str] = ()) -> None:
        self.command = command
        self.folders = tuple(f"{it}/" for it in command.system_folders())
        self.files: Dict[str, str] = {}
        self.text = without_gnu_printf(as_utf8(text))
        language = "-xc++" if command.is_cxx() else "-xc"
        kept = [
            it.replace("gnu23", "gnu2x").replace("c23", "c2x")
            for it in command.words
            if it.startswith(("-std=", "-m32", "-mx32", "-funsigned-char"))
        ]
        files = [("/unit", self.text.decode())]
        try:
            self.unit = cindex.Index.create().parse("/unit", [language, *FLAGS, *kept, *SHIMS, *words], files)
        except (cindex.LibclangError, cindex.TranslationUnitLoadError) as error:
            raise Left(f"libclang: {error}") from error
        self.file = self.unit.get_file(self.unit.spelling)

    def errors(self) -> List[str]:
        """Returns what libclang can't parse outside of the compiler's own headers."""
        return [
            f"{os.path.basename(self.file_of(it.location))}:{self.line_of(it.location)}: {it.spelling}"
            for it in self.unit.diagnostics
            if it.severity >= ERROR and not self.file_of(it.location).startswith(self.folders)
        ]

    def presumed(self, location: Any) -> Tuple[str, int]:
        """Returns the name of the file and the line of a location, as line markers have them."""
        name, line, column = cindex._CXString(), ctypes.c_uint(), ctypes.c_uint()
        library = cindex.conf.lib
        library.clang_getPresumedLocation(location, ctypes.byref(name), ctypes.byref(line), ctypes.byref(column))
        return library.clang_getCString(name), line.value

    def file_of(self, location: Any) -> str:
        """Returns the path of the file that a location is in."""
        return self.place_of(location)[0]

    def place_of(self, location: Any) -> Tuple[str, int]:
        """Returns the path of the file that a location is in, and the line."""
        name, line = self.presumed(location)
        name = os.fsdecode(name) if isinstance(name, bytes) else str(name)
        if name not in self.files:
            self.files[name] = os.path.realpath(os.path.join(self.command.folder, name))
        return self.files[name], line

    def line_of(self, location: Any) -> int:
        return int(self.presumed(location)[1])

    def text_of(self, cursor: Any) -> str:
        return self.text[cursor.extent.start.offset : cursor.extent.end.offset].decode()

    def operator_of(self, operands: Sequence[Any]) -> str:
        """Returns the operator that is between two operands."""
        first, second = operands
        between = self.text[first.extent.end.offset : second.extent.start.offset]
        return LINE_MARKER.sub("", between.decode(errors="replace")).strip()

    def attributes_of(self, declaration: Any) -> List[str]:
        """Returns the texts of the attributes about formats, for which libclang has no kind, without line markers."""
        extent = declaration.extent
        # They may be before or after what libclang takes for the declaration.
        start, end = self.text.rfind(b";", 0, extent.start.offset), self.text.find(b";", extent.end.offset)
        if self.text.find(b"format", max(start, 0), end if end >= 0 else len(self.text)) < 0:
            return []
        return [
            LINE_MARKER.sub("", self.text_of(it))
            for it in declaration.get_children()
            if it.kind.name == "UNEXPOSED_ATTR"
        ]

    def format_by_attribute(self, declaration: Any) -> Optional[Shape]:
        """Returns what the attribute `format(printf, ..)` of a declaration says, or None."""
        found = next(filter(None, map(printf_indexes, self.attributes_of(declaration))), None)
        if found is None:
            return None
        format, first = found
        if format is None or first is None:
            return UNREADABLE
        # Attributes of a member count the object, and its calls don't.
        is_member = declaration.kind.name in MEMBERS and not declaration.is_static_method()
        before = 2 if is_member else 1
        return Shape(format - before, first - before if first else None)

    def is_own_header(self, file: str, header: "re.Pattern[str]") -> bool:
        """Returns whether a file is the C library's header of this name."""
        return any(file.startswith(it) and header.fullmatch(file[len(it) :]) for it in self.folders)

    def why_another(self, function: Any, known: Known) -> Optional[str]:
        """Returns why a function with the name of one of the C library isn't that, or None."""
        name, first = function.spelling, function.canonical
        if not self.is_own_header(self.file_of(first.location), known.header):
            where = os.path.basename(self.file_of(first.location)) or "no file"
            return f"{name} is declared in {where}, and not in the C library's header"
        if first.semantic_parent.kind.name in SCOPES:
            return f"{name} isn't at file scope"
        return None if has_prototype(first, known) else f"{name} has another prototype"

    def location_at(self, offset: int) -> Any:
        return cindex.conf.lib.clang_getLocationForOffset(self.unit, self.file, offset)

    def cursor_at(self, offset: int) -> Any:
        """Returns the innermost cursor at an offset of the text."""
        cursor = cindex.conf.lib.clang_getCursor(self.unit, self.location_at(offset))
        cursor._tu = self.unit
        return cursor

    def visit(self, function: Callable[[Any], int], top: Any = None) -> None:
        """Calls a function for each cursor, or each in one, which returns whether to go on inside of it.

        ctypes would only print an exception of the function, and go on: the first is kept, and raised at the end.
        """
        failures: List[BaseException] = []

        def called(cursor: Any, _parent: Any, _data: Any) -> int:
            cursor._tu = self.unit
            try:
                return 0 if failures else function(cursor)
            except BaseException as failure:
                failures.append(failure)
                return 0

        library = cindex.conf.lib
        library.clang_visitChildren(top or self.unit.cursor, library.clang_visitChildren.argtypes[1](called), None)
        if failures:
            raise failures[0]


def has_prototype(function: Any, known: Known) -> bool:
    """Returns whether the parameters of a function are those of one of the C library."""
    if function.type.get_canonical().kind.name != "FUNCTIONPROTO":
        return False
    types = [it.get_canonical().spelling for it in function.type.get_canonical().argument_types()]
    is_right = len(types) == known.parameters and "const char *" in types[known.index]
    return is_right and function.type.is_function_variadic() == known.is_variadic
