"""Brings printf formats to a canonical text, and says whether two are interchangeable.

This is a binding of the C library `libfmtcanon` by ctypes.

A format is a `str` or bytes. A `str` is passed in UTF-8, and offsets count bytes. Pass bytes if a format isn't
UTF-8. Each call raises `Refused` if the format is rejected, `MemoryError` if it is out of memory, and
`TypeError` if the argument is not a format.

The meaning of a format depends on the data model of the machine on which it is used. `model` is a `Model` or
its name, "lp64", "ilp32" or "llp64", in upper or lower case. The default is LP64. An invalid model raises
`ValueError`.

In C source, a format is written as string literals. `decode_literal` returns their bytes, `encode_literal`
builds one literal of bytes, and `source_offset` returns the offset in the source of a byte. A text that is not
string literals raises `BadLiteral`.

`whole=True` asks `canonical`, `same`, `same_in` and `compare` about the whole language of POSIX `fprintf`
without numbered arguments. A directive that they otherwise reject, as `%f`, makes a call: its normal spelling
and its arguments. Two formats are the same if they also make the same calls.

A `str` with a lone surrogate, as file names may have it, has no UTF-8, and raises `UnicodeEncodeError`. Pass
the bytes that `os.fsencode` returns instead.

The library is loaded by the first call that needs it, which raises `ImportError` if it isn't there. It is the
one that the environment variable FMTCANON_LIBRARY names, otherwise the one next to this module, where an
installation puts it, otherwise `libfmtcanon.so.1`, where the system looks for libraries; on macOS that is
`libfmtcanon.dylib`, and on Windows `fmtcanon.dll`.

    >>> import fmtcanon
    >>> fmtcanon.canonical("Total: %i of %u%%")
    'Total: %d of %u%%'
    >>> fmtcanon.same("%5c", "    %c")
    True
    >>> fmtcanon.compare("%05d", "%.5d").arguments
    (-1,)
    >>> fmtcanon.canonical("%zu", model="ilp32")
    '%u'
    >>> fmtcanon.canonical("%i: %-08.6lf", whole=True)
    '%d: %-8f'
    >>> fmtcanon.compare("%f%05d", "%f%.5d", whole=True).arguments
    (None, -1)
    >>> fmtcanon.printed("%.6f%05d", (None, -1)), fmtcanon.printed("%f%.5d", (None, -1))
    (b'%f-0001', b'%f-00001')
    >>> [model.name for model in fmtcanon.same_in("%zu", "%lu")]
    ['LP64']
    >>> fmtcanon.format("%-4s|%+05d", "ab", 42)
    b'ab  |+0042'
    >>> fmtcanon.fits("%.2f of %s", "%2$s: %1$.2f")
    True
    >>> [model.name for model in fmtcanon.fits_in("%zu", "%lu")]
    ['LP64']
    >>> fmtcanon.fits("%d files in %s", "one file", fewer=True)
    True
    >>> fmtcanon.bounds("%+d: %.3s")
    Bounds(least=4, greatest=16)
    >>> fmtcanon.directives("%2$*1$d")
    [DirectiveSpan(start=0, end=7, type=<Type.INT: 1>, argument=1, width_argument=0, precision_argument=None)]
    >>> found = fmtcanon.specifications("%-05ld")[0]
    >>> found.width, found.needless == fmtcanon.Part.ZERO
    (5, True)
    >>> fmtcanon.decode_literal('"Total: %i" "\\\\n"')
    b'Total: %i\\n'
    >>> fmtcanon.encode_literal(fmtcanon.canonical(b"\\x01%#o"))
    b'"\\\\0010%.0o"'
    >>> fmtcanon.show("%20d")
    [Directive(spelling='%20d', type='int', spaces=9, zeros=0, core='%11d', trail=0)]
"""

from __future__ import annotations

import ctypes
import functools
import operator
import os
import sys
from pathlib import Path
from typing import Any, Callable, List, NamedTuple, Optional, Sequence, Tuple, TypeVar, Union

from .kinds import Kind, LiteralKind, Part, Type, Verdict
from .models import DataModel, Model, model_of
from .passing import passed
from .pieces import Directive, Percent, Shown, Text, directive_of, words_of
from .prototypes import CALLS, CBounds, CComparison, CDirective, CError, CSpecification
from .rejected import specification_in as _specification_in
from .specification import Specification, SpelledSpecification

__all__ = [
    "BadLiteral",
    "Bounds",
    "Comparison",
    "Directive",
    "DirectiveSpan",
    "Kind",
    "LiteralKind",
    "Model",
    "Part",
    "Percent",
    "Refused",
    "Specification",
    "Text",
    "Type",
    "Verdict",
    "__version__",
    "arguments",
    "bounds",
    "canonical",
    "check",
    "compare",
    "decode_literal",
    "directives",
    "encode_literal",
    "fits",
    "fits_in",
    "format",
    "is_canonical",
    "printed",
    "same",
    "same_in",
    "show",
    "source_offset",
    "specifications",
    "types",
    "version",
]

# The version of this module, and of the library that comes with it; version() returns that of the one that is loaded.
__version__ = "1.1.0"

Format = Union[str, bytes, bytearray, memoryview]
# An argument that a format prints.
_Argument = Union[int, str, bytes]
_Text = TypeVar("_Text", str, bytes)

# The library must have the same major and minor version; only the patch may be another.
_VERSION = tuple(map(int, __version__.split(".")))[:2]
# The library's file, on systems where it isn't `libfmtcanon.so.1`.
_NAMES = {"darwin": "libfmtcanon.dylib", "win32": "fmtcanon.dll"}
_NO_MEMORY = -100
_NO_PLACE = -102
_WRONG_TYPE = -104
# An argument, a number or an offset that isn't there.
_NONE = 2**64 - 1
_UNBOUNDED = 2**64 - 1
_LONGEST_NAME = 18
# The room of `format` at first, which is enough for most lines.
_FIRST_ROOM = 256


class Refused(ValueError):
    """A format is rejected.

    `kind` says why, `name` is the name of the kind as the program prints it, and `byte` is the offset, counted
    from 0. `side` is 1 if it is the second of two formats, and 0 otherwise. `specification`, from `specifications`
    alone, is what is known of the specification in which it is rejected; None outside of one.
    """

    specification: Optional[Specification] = None

    def __init__(self, kind: Kind, name: str, byte: int, side: int = 0) -> None:
        super().__init__(kind, name, byte, side)
        self.kind = kind
        self.name = name
        self.byte = byte
        self.side = side

    def __str__(self) -> str:
        return f"refused {int(self.kind)} {self.name} at byte {self.byte}"


class BadLiteral(ValueError):
    """A text is not string literals of C source.

    `kind` says why, `name` is the name of the kind as the program prints it, and `byte` is the offset, counted
    from 0.
    """

    def __init__(self, kind: LiteralKind, name: str, byte: int) -> None:
        super().__init__(kind, name, byte)
        self.kind = kind
        self.name = name
        self.byte = byte

    def __str__(self) -> str:
        return f"literal {int(self.kind) - 200} {self.name} at byte {self.byte}"


class Comparison(NamedTuple):
    """How two formats compare.

    For `Verdict.TYPES`, `types_differ_at` is the index of the first argument whose types differ. For
    `Verdict.DIFFERENT`, `arguments` are arguments that the two print differently, numbers and bytes; None among
    them is an argument that may be any. For `Verdict.DIRECTIVES`, `directives_differ_at` is the smaller index of
    the first argument of the directives at the first place at which they differ. Otherwise they are None.
    """

    verdict: Verdict
    types_differ_at: Optional[int] = None
    arguments: Optional[Tuple[Union[int, bytes, None], ...]] = None
    directives_differ_at: Optional[int] = None


class Bounds(NamedTuple):
    """How many bytes a format prints: the smallest number, and the largest, which is None if there is no largest.

    A number above 2**64 - 2 is given as that.
    """

    least: int
    greatest: Optional[int]


class DirectiveSpan(NamedTuple):
    """A conversion specification of a format: its bytes, and the arguments that it takes.

    Its bytes are those from `start` to `end`, without the one at `end`. `argument` is the index of the
    argument that it converts, and `type` is the type of that argument. `width_argument` and
    `precision_argument` are the indexes of the arguments of `*`. Each is None if there is no `*` there.
    """

    start: int
    end: int
    type: Type
    argument: int
    width_argument: Optional[int]
    precision_argument: Optional[int]


def _library_name() -> str:
    beside = Path(__file__).parent / _NAMES.get(sys.platform, f"libfmtcanon.so.{_VERSION[0]}")
    return os.environ.get("FMTCANON_LIBRARY") or (str(beside) if beside.exists() else beside.name)


@functools.lru_cache(maxsize=None)
def _library() -> ctypes.CDLL:
    name = _library_name()
    try:
        library = ctypes.CDLL(name)
    except OSError as error:
        hint = "install it, or name its file by FMTCANON_LIBRARY"
        raise ImportError(f"the library of fmtcanon isn't there: {error}; {hint}") from error
    for call, (arguments, result) in CALLS.items():
        function = getattr(library, f"fmtcanon_{call}", None)
        if function is None:
            raise ImportError(f"{name} is another library or version: it has no fmtcanon_{call}")
        function.argtypes, function.restype = arguments, result
    found = _parts(library.fmtcanon_version())
    if found[:2] != _VERSION:
        have, need = (".".join(map(str, it)) for it in (found, _VERSION))
        raise ImportError(f"{name} has the version {have}, and the module needs {need}")
    return library


def _call(name: str, whole: bool) -> Any:
    """Returns a call of the library, or its counterpart for the whole language."""
    return getattr(_library(), f"fmtcanon_{'whole_' if whole else ''}{name}")


def _parts(version: int) -> Tuple[int, int, int]:
    return version >> 16, version >> 8 & 255, version & 255


def _bytes(format: Format) -> bytes:
    if isinstance(format, str):
        return format.encode()
    if isinstance(format, (bytes, bytearray, memoryview)):
        return bytes(format)
    raise TypeError(f"a format is a str or bytes, not {type(format).__name__}")


def _name(kind: int) -> str:
    out = ctypes.create_string_buffer(_LONGEST_NAME + 1)
    _library().fmtcanon_kind_name(kind, out, len(out))
    return out.value.decode()


def _answer(result: int, error: CError) -> int:
    if result >= 0:
        return result
    if result == _NO_MEMORY:
        raise MemoryError("fmtcanon is out of memory")
    if error.kind in LiteralKind.__members__.values():
        raise BadLiteral(LiteralKind(error.kind), _name(error.kind), error.at)
    raise Refused(Kind(error.kind), _name(error.kind), error.at, error.side)


def _filled(call: Callable[..., int], room: int, *arguments: Any) -> bytes:
    """Returns what a call writes into a buffer, which is made larger if it is too small."""
    while True:
        error, out = CError(), ctypes.create_string_buffer(room)
        size = _answer(call(*arguments, out, room, error), error)
        if size <= room:
            return out.raw[:size]
        room = size


def check(format: Format) -> None:
    """Returns if the format is accepted, and raises `Refused` otherwise."""
    text, error = _bytes(format), CError()
    _answer(_library().fmtcanon_check(text, len(text), error), error)


def is_canonical(format: Format, *, model: DataModel = Model.LP64) -> bool:
    """Returns whether the format is its own canonical text."""
    text, error = _bytes(format), CError()
    return _answer(_library().fmtcanon_is_canonical(model_of(model), text, len(text), error), error) == 1


def canonical(format: _Text, *, model: DataModel = Model.LP64, whole: bool = False) -> _Text:
    """Returns the canonical text: a `str` if the format is one, otherwise bytes.

    Two formats have the same canonical text if and only if they take arguments of the same types and print the same
    bytes for all of them. With `whole`, the format may be of the whole language without numbered arguments.
    """
    text, error, number = _bytes(format), CError(), model_of(model)
    size = _answer(_call("canonical_length", whole)(number, text, len(text), error), error)
    out = ctypes.create_string_buffer(size + 1)
    _answer(_call("canonical", whole)(number, text, len(text), out, len(out), error), error)
    # Bytes that print themselves stay as they are, so UTF-8 stays UTF-8.
    return out.raw[:size].decode() if isinstance(format, str) else out.raw[:size]


def types(format: Format, *, model: DataModel = Model.LP64) -> List[Type]:
    """Returns the types of the arguments, in order."""
    text = _bytes(format)
    room = text.count(b"%") + 1
    codes = _filled(_library().fmtcanon_types, room, model_of(model), text, len(text))
    return [Type(code) for code in codes]


def _argument_codes(format: Format, model: DataModel) -> bytes:
    """Returns the types of the arguments of a format of the whole language, one byte each."""
    text = _bytes(format)
    # A specification takes three arguments at most.
    room = 3 * text.count(b"%") + 1
    return _filled(_library().fmtcanon_arguments, room, model_of(model), text, len(text))


def arguments(format: Format, *, model: DataModel = Model.LP64) -> List[Type]:
    """Returns the types of the arguments of a format of the whole language, in order.

    The whole language is POSIX `fprintf` with the `b` of C23. It has numbered arguments, `*`, floating and wide
    conversions, `p` and `n`.
    """
    return [Type(code) for code in _argument_codes(format, model)]


def bounds(format: Format, *, model: DataModel = Model.LP64) -> Bounds:
    """Returns the smallest and the largest number of bytes that the format prints, over all arguments of its types."""
    text, error, found = _bytes(format), CError(), CBounds()
    _answer(_library().fmtcanon_bounds(model_of(model), text, len(text), found, error), error)
    return Bounds(found.least, None if found.greatest == _UNBOUNDED else found.greatest)


def fits(first: Format, second: Format, *, model: DataModel = Model.LP64, fewer: bool = False) -> bool:
    """Returns whether the second format takes exactly the arguments of the first, by their types.

    Both may be of the whole language. Ask this of a translation. With `fewer`, the second may also take only some
    arguments at the beginning of the first's. Ask this of a format from outside.
    """
    f, g, error = _bytes(first), _bytes(second), CError()
    result = _fits_call("", fewer)(model_of(model), f, len(f), g, len(g), error)
    return _answer(result, error) == 1


def fits_in(first: Format, second: Format, *, fewer: bool = False) -> List[Model]:
    """Returns the data models in which the second format fits the first, as `fits` has it, LP64 first.

    Raises `Refused` if one of the formats is rejected in any data model.
    """
    f, g, error = _bytes(first), _bytes(second), CError()
    found = _answer(_fits_call("_models", fewer)(f, len(f), g, len(g), error), error)
    return _models(found)


def _fits_call(name: str, fewer: bool) -> Any:
    return getattr(_library(), f"fmtcanon_fits{'_fewer' if fewer else ''}{name}")


def _models(found: int) -> List[Model]:
    return [model for model in Model if found & 1 << model]


def directives(format: Format, *, model: DataModel = Model.LP64) -> List[DirectiveSpan]:
    """Returns the conversion specifications of a format of the whole language, in the order of the text, without
    `%%`.
    """
    text, error = _bytes(format), CError()
    # Each has a percent sign.
    room = text.count(b"%")
    records = (CDirective * room)()
    result = _library().fmtcanon_directives(model_of(model), text, len(text), records, room, error)
    return [_span(record) for record in records[: _answer(result, error)]]


def _span(record: CDirective) -> DirectiveSpan:
    width, precision = _index(record.width_argument), _index(record.precision_argument)
    return DirectiveSpan(record.begin, record.end, Type(record.kind), record.argument, width, precision)


def _index(number: int) -> Optional[int]:
    return None if number == _NONE else number


def specifications(format: Format, *, model: DataModel = Model.LP64) -> List[Specification]:
    """Returns the conversion specifications of a format of the whole language with their parts, in the order of the
    text, without `%%`.
    """
    text, error = _bytes(format), CError()
    room = text.count(b"%")
    records = (CSpecification * room)()
    result = _library().fmtcanon_specifications(model_of(model), text, len(text), records, room, error)
    try:
        return [_specification(record) for record in records[: _answer(result, error)]]
    except Refused as refusal:
        refusal.specification = _specification_in(text, refusal)
        raise


def _specification(record: CSpecification) -> Specification:
    return Specification(
        record.begin,
        record.end,
        record.flags_at,
        record.width_at,
        record.precision_at,
        record.modifier_at,
        Type(record.kind) if record.kind else None,
        _index(record.argument),
        _index(record.width_argument),
        _index(record.precision_argument),
        _index(record.width),
        _index(record.precision),
        Part(record.parts),
        Part(record.needless),
        Part(record.together),
    )


def same(first: Format, second: Format, *, model: DataModel = Model.LP64, whole: bool = False) -> bool:
    """Returns whether two formats take the same types and print the same bytes for all arguments.

    With `whole`, they also make the same calls. A C library may print the same for calls that differ.
    """
    f, g, error = _bytes(first), _bytes(second), CError()
    result = _call("same", whole)(model_of(model), f, len(f), g, len(g), error)
    return _answer(result, error) == 1


def same_in(first: Format, second: Format, *, whole: bool = False) -> List[Model]:
    """Returns the data models in which two formats are the same, LP64 first."""
    f, g, error = _bytes(first), _bytes(second), CError()
    found = _answer(_call("same_models", whole)(f, len(f), g, len(g), error), error)
    return _models(found)


def _told(word: bytes) -> Union[int, bytes, None]:
    if word == b"any":
        return None
    return int(word[2:]) if word.startswith(b"n:") else word[2:]


def compare(first: Format, second: Format, *, model: DataModel = Model.LP64, whole: bool = False) -> Comparison:
    """Returns how two formats compare, with arguments that they print differently."""
    f, g, answer = _bytes(first), _bytes(second), CComparison()

    def call(*arguments: Any) -> int:
        *texts, out, room, error = arguments
        size: int = _call("compare", whole)(*texts, out, room, answer, error)
        return size

    words = _filled(call, 4096, model_of(model), f, len(f), g, len(g))
    verdict = Verdict(answer.verdict)
    if verdict is Verdict.TYPES:
        return Comparison(verdict, types_differ_at=answer.number)
    if verdict is Verdict.DIRECTIVES:
        return Comparison(verdict, directives_differ_at=answer.number)
    if verdict is Verdict.DIFFERENT:
        return Comparison(verdict, arguments=tuple(map(_told, words.split(b"\0")[:-1])))
    return Comparison(verdict)


def decode_literal(source: Format) -> bytes:
    """Returns the bytes of one or more string literals of C source (C11 6.4.5).

    White space may come before, between and after them. Raises `BadLiteral` for anything else.
    """
    text, error = _bytes(source), CError()
    # No element gives more bytes than it has.
    out = ctypes.create_string_buffer(len(text) + 1)
    size = _answer(_library().fmtcanon_decode_literal(text, len(text), out, len(out), error), error)
    return out.raw[:size]


def encode_literal(format: _Text) -> _Text:
    """Returns the string literal of a text, with its quotes: a `str` if the text is one, otherwise bytes.

    A NUL is written as `\\000`, at which a C string would end.
    """
    text = _bytes(format)
    # No byte is written with more than four.
    out = ctypes.create_string_buffer(4 * len(text) + 3)
    size = _answer(_library().fmtcanon_encode_literal(text, len(text), out, len(out)), CError())
    return out.raw[:size].decode() if isinstance(format, str) else out.raw[:size]


def source_offset(source: Format, index: int) -> Optional[int]:
    """Returns the offset in string literals of the character or escape that gives the byte of this index.

    If the index is the number of bytes, it is the offset of the last closing quote. Returns None if there
    is no such byte, and if the text is not string literals. Raises `TypeError` if the index is not an integer.
    """
    text, at = _bytes(source), operator.index(index)
    # ctypes would cut a number that has more bits than the parameter.
    if not 0 <= at <= len(text):
        return None
    place: int = _library().fmtcanon_source_offset(text, len(text), at)
    return None if place == _NO_PLACE else place


def format(format: Format, *arguments: _Argument, model: DataModel = Model.LP64) -> bytes:
    """Returns the bytes that `printf` prints for the format and these arguments, in the POSIX locale.

    Pass an `int` for each integer argument, and a `str` or bytes for a string. Raises `ValueError` if the
    arguments don't fit the format: by their count, by a type, or by a number that its type can't hold.
    """
    return _output(_bytes(format), arguments, model_of(model))


def _output(text: bytes, arguments: Sequence[_Argument], model: Model) -> bytes:
    given = passed(arguments, types(text, model=model))
    room = _FIRST_ROOM
    while True:
        error, out = CError(), ctypes.create_string_buffer(room)
        size = _library().fmtcanon_render(model, text, len(text), given, len(given), out, room, error)
        if size == _WRONG_TYPE:
            raise ValueError(f"argument {error.at}: wrong type")
        if _answer(size, error) < room:
            return out.raw[:size]
        room = size + 1


def _is_in_profile(specification: bytes) -> bool:
    try:
        check(specification)
    except Refused:
        return False
    return True


def printed(format: Format, arguments: Sequence[Optional[_Argument]], *, model: DataModel = Model.LP64) -> bytes:
    """Returns what `printf` prints for a format of the whole language, with placeholders.

    A directive that only the whole language has prints its normal spelling, as `%f`. So does one whose argument is
    None. The arguments are those that `compare` returns with `whole=True`, or others of the types that `arguments`
    returns. It raises what `format` raises.
    """
    text, number = _bytes(format), model_of(model)
    canonical(text, model=number, whole=True)
    count = len(_argument_codes(text, number))
    if len(arguments) != count:
        raise ValueError(f"the format takes {count} arguments, and not {len(arguments)}")
    words, known, given = _parts_of(text, arguments, number)
    return _output(_alternated(words, known), given, number)


def _parts_of(
    text: bytes, arguments: Sequence[Optional[_Argument]], model: Model
) -> Tuple[List[bytes], List[bytes], List[_Argument]]:
    """Returns the words of a format, the directives between them, with `%s` for each placeholder, and what they take.
    """
    words: List[bytes] = []
    known: List[bytes] = []
    given: List[_Argument] = []
    done = 0
    for one in directives(text, model=model):
        spelling, argument = text[one.start : one.end], arguments[one.argument]
        if argument is None or not _is_in_profile(spelling):
            spelling, argument = b"%s", canonical(spelling, model=model, whole=True)
        words.append(text[done : one.start])
        known.append(spelling)
        given.append(argument)
        done = one.end
    return [*words, text[done:]], known, given


def _alternated(words: List[bytes], others: List[bytes]) -> bytes:
    return b"".join(it for pair in zip(words, [*others, b""]) for it in pair)


def show(format: Format, *, model: DataModel = Model.LP64) -> List[Shown]:
    """Returns the pieces of the format in order. Each is a `Text`, a `Percent` or a `Directive`."""
    text, number = _bytes(format), model_of(model)
    check(text)
    shown: List[Shown] = []
    done = 0
    for found in specifications(text, model=number):
        one = SpelledSpecification(found, text)
        reduced = canonical(one.text, model=number)
        [core] = specifications(reduced, model=number)
        shown += [*words_of(text[done : found.start]), directive_of(one, SpelledSpecification(core, reduced))]
        done = found.end
    return [*shown, *words_of(text[done:])]


def version() -> Tuple[int, int, int]:
    """Returns the version of the library: major, minor and patch."""
    return _parts(_library().fmtcanon_version())
