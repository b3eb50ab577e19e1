"""Says what the calls of a unit are on every platform, by what they are where it is compiled: if their types are the
same elsewhere or declared as typedefs of the C library, and nothing else chooses them, one parse is enough.
"""

import functools
import itertools
import os
import re
from typing import Any, Dict, FrozenSet, Iterator, List, Optional, Sequence, Tuple

from .. import BadLiteral, Refused, decode_literal, encode_literal
from ..compiling.calls import Argument, Call, FormatCalls, Key
from ..compiling.formats import Format, Literal
from ..compiling.functions import typedefs_of
from ..compiling.parsing import LINE_MARKER
from ..compiling.platforms import COMPILED, PLATFORMS, Platform
from ..compiling.retargeting import BIT_FIELD, TYPE_MARK, own_spans
from ..kinds import Type
from ..models import Model
from .judging import Fit, arguments_of, fit_of, text_of

# Types of integers, and of what directives take, that are the same everywhere. `long` may be the type of a typedef.
INTEGERS = (Type.INT, Type.UINT, Type.LONG_LONG, Type.ULONG_LONG)
TYPES = (*INTEGERS, Type.LONG, Type.ULONG, Type.DOUBLE, Type.LONG_DOUBLE, Type.STRING, Type.POINTER_TO_VOID)
# What may choose one of several types.
CHOOSING = ("_Generic", "__builtin_choose_expr", "__builtin_types_compatible_p", "__builtin_classify_type")
# An array and the address of its first element have different types everywhere.
IS_ARRAY = re.compile(
    r"__builtin_types_compatible_p\s*\(\s*(?:__)?typeof(?:__)?\s*\((?P<array>[^()]*)\)\s*,"
    r"\s*(?:__)?typeof(?:__)?\s*\(\s*&\s*\((?P=array)\)\s*\[0\]\s*\)\s*\)"
)
# The kinds of types that a unit gives no name, and of integers that aren't `long`.
UNNAMED = ("UNEXPOSED", "AUTO")
OTHER_INTEGERS = ("INT", "UINT", "SHORT", "USHORT", "LONGLONG", "ULONGLONG")
# Structs of the C library whose members are all `long` where they have other types elsewhere.
OF_LONG = {"stat64", "r_debug", "link_map", "dl_phdr_info", "imaxdiv_t", "sigcontext", "timex", "_IO_FILE"}
OF_LONG |= {"_G_fpos_t", "timeval", "dirent"}
LONG = re.compile(r"(?<!long )\blong\b(?! long)|\dU?L\b")
TYPE_NAMES = {
    "int": Type.INT,
    "unsigned int": Type.UINT,
    "unsigned": Type.UINT,
    "long": Type.LONG,
    "unsigned long": Type.ULONG,
    "long long": Type.LONG_LONG,
    "unsigned long long": Type.ULONG_LONG,
}
# A macro for a length modifier with its letter, or for one alone.
PRI_NAME = re.compile(r"PRI([diouxX])(\w+)|__PRI(\w+)_PREFIX")
# What of C++ may choose a type or a function by types.
OF_TEMPLATES = re.compile(
    r"\b(?:conditional|enable_if|is_same|common_type|numeric_limits|decltype|requires|concept|constexpr\s*\()"
    r"|template\s*<\s*>|\b(?:struct|class|union)\s+\w+\s*<"
)
# A literal, without what is before its quotes.
LITERAL = re.compile(r"""\"[^"\\\n]*(?:\\.[^"\\\n]*)*\"|'[^'\\\n]*(?:\\.[^'\\\n]*)*'""")
WIDE, PLAIN = "fmtcanon_wide_literal", '""'


def differing(kind: str) -> Iterator[str]:
    """Yields the names of typedefs or constants that aren't `long` where a unit is compiled, and others elsewhere."""
    there = getattr(COMPILED, kind)
    for name in {name for it in PLATFORMS for name in getattr(it, kind)}:
        values = {getattr(it, kind).get(name, there.get(name)) for it in PLATFORMS}
        # A suffix makes a constant `long`.
        is_long = name.endswith("_C") or (name in there and LONG.search(there[name]))
        if name not in there or (len(values) > 1 and not is_long):
            yield name


@functools.lru_cache(maxsize=None)
def choosing_names() -> "re.Pattern[str]":
    """Returns the pattern of what makes a unit another one on some platform."""
    types, constants = sorted(differing("types")), sorted(differing("constants"))
    built_in = [f"{TYPE_MARK}{it}" for it in types]
    names = [*CHOOSING, *types, *built_in, *(f"fmtcanon_{it}" for it in constants), WIDE]
    return re.compile(rf"\b(?:{'|'.join(names)})\b")


@functools.lru_cache(maxsize=None)
def choosing_types() -> FrozenSet[str]:
    """Returns the names of the typedefs among these."""
    return frozenset(it for name in differing("types") for it in (name, TYPE_MARK + name))


@functools.lru_cache(maxsize=None)
def structs() -> "re.Pattern[str]":
    """Returns the pattern of structs whose members may have other types elsewhere."""
    names = sorted({name for it in PLATFORMS for name in it.members} - OF_LONG)
    tags, typedefs = "|".join(names), "|".join(it for it in names if it.endswith("_t"))
    return re.compile(rf"\bstruct\s+(?:{tags})\b|\b(?:{typedefs})\b")


def calls_on_all(unit: FormatCalls, text: str) -> Optional[List[Dict[Key, Call]]]:
    """Returns the calls on each platform of a unit with this text, or None if they aren't known by those where it is
    compiled.
    """
    if unit.formats.is_computed or not unit.is_settled:
        return None
    calls = {key: call_on_all(call) for key, call in unit.found.items()}
    own = own_text(text)
    if None in calls.values() or does_choose(unit, own) or structs().search(own) or BIT_FIELD.search(text):
        return None
    if unit.command.is_cxx() and OF_TEMPLATES.search(own):
        return None
    return [{key: it[at] for key, it in calls.items() if it} for at in range(len(PLATFORMS))]


def does_choose(unit: FormatCalls, own: str) -> bool:
    """Returns whether something in a text chooses what its calls are: a typedef does so only in arguments, in C."""
    found, types = set(choosing_names().findall(own)), choosing_types()
    if not found <= types or unit.command.is_cxx():
        return bool(found)
    return bool(found) and any(is_named(it, types) for it in unit.integers)


def is_named(expression: Any, names: FrozenSet[str]) -> bool:
    """Returns whether a part of an expression has a type that one of these typedefs names, or that has no name."""
    waiting = [expression]
    while waiting:
        part = waiting.pop()
        function = part.referenced if part.kind.name == "CALL_EXPR" else None
        types = [part.type, *([function.result_type] if function is not None else [])]
        if any(it.kind.name in UNNAMED and it.get_canonical().kind.name in OTHER_INTEGERS for it in types):
            return True
        if any(it.spelling in names for type in types for it in typedefs_of(type)):
            return True
        waiting += part.get_children()
    return False


def own_text(text: str) -> str:
    """Returns a text without what is of system headers, without markers, without literals, except a name for each wide
    one, and without what asks whether an expression is an array.
    """
    own = LINE_MARKER.sub("", "".join(text[start:end] for start, end in own_spans(text)))
    own = LITERAL.sub(lambda it: f" {WIDE} " if own[it.start() - 1 : it.start()] == "L" else PLAIN, own)
    return IS_ARRAY.sub(PLAIN, own)


def call_on_all(call: Call) -> Optional[Sequence[Call]]:
    """Returns a call on each platform, or None if it isn't known what its arguments are and what its formats take."""
    try:
        formats = [[format_on(it, platform) for it in call.formats] for platform in PLATFORMS]
        taken = [[taken_by(it, platform) for it in of] for of, platform in zip(formats, PLATFORMS)]
    except (Refused, BadLiteral):
        return None
    for of_all in zip(*taken):
        # The arguments of a format, and their types on each platform.
        for found in itertools.zip_longest(*of_all):
            if None in found or len({number for _, number, _ in found}) > 1:
                return None
            if not all(takes_known(call.arguments, number, type) for _, number, type in found):
                return None
    on = [tuple(argument_on(it, platform) for it in call.arguments) for platform in PLATFORMS]
    return [call._replace(formats=tuple(of), arguments=given) for of, given in zip(formats, on)]


def taken_by(format: Format, platform: Platform) -> List[Tuple[int, int, Type]]:
    return list(arguments_of(text_of(format, platform).spans))


def takes_known(arguments: Sequence[Argument], number: int, wanted: Type) -> bool:
    return wanted in TYPES and number < len(arguments) and is_known(arguments[number], wanted)


def is_known(argument: Argument, wanted: Type) -> bool:
    """Returns whether it is known what type an argument has on each platform, or whether it is any other that fits."""
    if argument.type is None:
        return fit_of(wanted, argument, Model.LP64) is Fit.EQUAL
    return argument.is_long or bool(argument.typedef) or argument.type in INTEGERS


def argument_on(argument: Argument, platform: Platform) -> Argument:
    """Returns an argument as it is on a platform."""
    if not argument.typedef or platform is COMPILED:
        return argument
    spelling = platform.types[argument.typedef]
    name = spelling if argument.name == argument.spelling else argument.name
    return argument._replace(type=TYPE_NAMES[spelling], spelling=spelling, name=name)


def format_on(format: Format, platform: Platform) -> Format:
    """Returns a format as it is on a platform: with the PRI macros that it has there. Raises `BadLiteral`."""
    if platform is COMPILED or not any(it.macro for it in format.tokens):
        return format
    tokens = tuple(token_on(it, platform) for it in format.tokens)
    return Format(os.fsdecode(encode_literal(joined(tokens))), tokens, format.skipped)


def token_on(token: Literal, platform: Platform) -> Literal:
    found = PRI_NAME.fullmatch(token.macro)
    if not found:
        return token
    letter, end = found[1] or "", found[2] or found[3]
    return Literal(f'"{platform.modifiers[end]}{letter}"', token.macro)


def joined(tokens: Sequence[Literal]) -> bytes:
    return b"".join(decode_literal(it.source.encode("utf-8", "surrogateescape")) for it in tokens)
