"""Makes the preprocessed text of a unit another platform's.

Headers of its own keep the macros of the compiler, <inttypes.h>, <stdint.h>, <limits.h> and others as names in the
text. In `#if` such a name is 0, and in a constant it is added to the value, so that the preprocessor reads what it
reads without these headers.
"""

import functools
import os
import re
from pathlib import Path
from typing import Iterator, List, Mapping, NamedTuple, Tuple

from ..models import Model
from .line_markers import SPACE, markers
from .platforms import COMPILED, FILE_TYPES, OF_FILES, Platform

# White space and line markers, which stay.
GAP = f"({SPACE})"
# The flags of a marker where a system header begins.
ENTERED = " 1 3"
# A typedef of a name, which may be an array.
TYPEDEF = r"typedef(?<!\wtypedef)(?P<words>\s+[A-Za-z_][\w\s]*?[\s*]+)(?P<name>\w+)(?=\s*(?:\[[^;]*\])?;)"
# A struct with at most one in another, which has a name or which a typedef names; and a member of it.
STRUCT = re.compile(r"\bstruct\s*(\w*)\s*\{[^{}]*(?:\{[^{}]*\}[^{}]*)*\}\s*(\w*)")
MEMBER = re.compile(rf"([{{;]{SPACE})((?:\w+\s+)+)(\w+)(?=\s*(?:\[[^;]*\])?;)")
PRI = re.compile(r'"fmtcanon:(\w*):(\w+)"')
# What is put after the length modifier of a PRI macro: its name.
PRI_MARK = r"/\*((?:__)?PRI\w+)\*/"
# Patterns that begin with a plain word are found several times faster than those that begin with anything else.
TYPE_MARK = "fmtcanon_type_"
SIGNED_TYPE = re.compile(rf"signed\s+{TYPE_MARK}(\w+)")
# An expression in a constant, with parentheses in parentheses.
NUMBER = r"(?:[^()]|\((?:[^()]|\([^()]*\))*\))*?"
CONSTANT = re.compile(rf"\(fmtcanon_(?P<name>\w+){GAP}\+{GAP}(?:(?P<number>{NUMBER})[uU]?[lL]*|-\s*\w+\s*-\s*1){GAP}\)")
# gcc takes atomic types for its atomic functions, and clang doesn't. Without the word, the types are the same. The
# headers of clang have functions of its own.
ATOMIC = re.compile(r"_Atomic(?<!\w_Atomic)\b(\s*\()?")
OF_CLANG = "__c11_atomic_"
# The definition that is there on 64-bit systems, too, if a unit asks for 64-bit offsets in files.
LARGE_FILES = re.compile(r"typedef\s+__off64_t\s+off_t\s*;")
# A bit-field of 32 bits. Where that is all of `long`, gcc takes it for one, and clang for `int`.
BIT_FIELD = re.compile(r"(long(?<!\wlong)(?<!long\slong)(?:\s+(?:int|unsigned|signed))*\s+(?!long\b)\w+)\s*:\s*32\b")
# A function of the GNU C library whose result has another type in that of Windows.
CHARACTER_SIZE = re.compile(r"size_t(\s+__ctype_get_mb_cur_max\b)")
LETTERS = "diouxX"
# The types that compilers have macros for, and the constants of each header.
BUILT_IN = (
    "size ptrdiff wchar wint intmax uintmax intptr uintptr int64 uint64 int_least64 uint_least64 int_fast16 "
    "uint_fast16 int_fast32 uint_fast32 int_fast64 uint_fast64"
)
OF_HEADERS = {
    "limits.h": "LONG_MAX LONG_MIN ULONG_MAX SSIZE_MAX",
    "time.h": "CLOCKS_PER_SEC",
    "wchar.h": "WCHAR_MAX WCHAR_MIN WEOF",
    "wctype.h": "WEOF",
}
# The header of the compiler's macros.
OF_COMPILER = "fmtcanon_macros.h"


def redefined(macros: Mapping[str, str]) -> List[str]:
    """Returns lines that redefine those macros that are defined."""
    lines = []
    for macro, value in macros.items():
        plain = macro.partition("(")[0]
        lines += [f"#ifdef {plain}", f"#undef {plain}", f"#define {macro} {value}", "#endif"]
    return lines


def header(name: str, macros: Mapping[str, str]) -> str:
    """Returns a header that includes the next of its name, and redefines those of its macros that this defines."""
    return "\n".join([f"#include_next <{name}>", *redefined(macros)]) + "\n"


def headers() -> Iterator[Tuple[str, str]]:
    """Yields the names and the texts of the headers."""
    texts = {f"PRI{letter}{end}": f'"fmtcanon:{letter}:{end}"' for letter in LETTERS for end in COMPILED.modifiers}
    prefixes = {"__PRI64_PREFIX": '"fmtcanon::64"', "__PRIPTR_PREFIX": '"fmtcanon::PTR"'}
    yield "inttypes.h", header("inttypes.h", {**texts, **prefixes})
    constants, built_in = {}, {}
    for name, value in COMPILED.constants.items():
        if name.endswith("_C"):
            constants[f"{name}(c)"] = built_in[f"__{name}(c)"] = f"(fmtcanon_{name} + c ## {value})"
        else:
            constants[name] = f"(fmtcanon_{name} + {value})"
            built_in[name if name.startswith("__") else f"__{name}__"] = constants[name]
    yield "stdint.h", header("stdint.h", {**constants, **{it: built_in[it] for it in built_in if it.endswith("(c)")}})
    for file, names in OF_HEADERS.items():
        yield file, header(file, {it: constants[it] for it in names.split()})
    yield "math.h", header("math.h", {"__FP_LONG_MAX": constants["LONG_MAX"]})
    types = {f"__{name.upper()}_TYPE__": f"{TYPE_MARK}{name}_t" for name in BUILT_IN.split()}
    yield OF_COMPILER, "\n".join(redefined({**types, **built_in})) + "\n"


def write_headers(folder: str) -> List[str]:
    """Writes the headers, and returns the words of a compile command that find them before all others."""
    os.makedirs(folder, exist_ok=True)
    for name, text in headers():
        Path(folder, name).write_text(text, encoding="utf-8")
    return [f"-I{folder}", "-imacros", os.path.join(folder, OF_COMPILER)]


def chunks(text: str) -> Iterator[Tuple[bool, str]]:
    """Yields the parts of a text that system headers have in turn with those that others have, and which these are."""
    done, is_system = 0, False
    for start, _, _, flags in markers(text):
        if ("3" in flags) != is_system:
            yield is_system, text[done:start]
            done, is_system = start, not is_system
    yield is_system, text[done:]


def own_spans(text: str) -> List[Tuple[int, int]]:
    """Returns where the parts of a text begin and end that no system header has, by the markers where these are
    entered: later ones may lack the flag, and those of the file itself have it where it uses a macro of such a header.
    """
    found = markers(text)
    system = {file for _, _, file, flags in found if flags.startswith(ENTERED)}
    spans: List[Tuple[int, int]] = []
    for (start, end, file, _), next_start in zip(found, [*(it[0] for it in found[1:]), len(text)]):
        if file not in system:
            is_next = spans and spans[-1][1] == start
            spans.append((spans.pop()[0] if is_next else end, next_start))
    return spans


def macro_of(letter: str, end: str) -> str:
    return f"PRI{letter}{end}" if letter else f"__PRI{end}_PREFIX"


@functools.lru_cache(maxsize=None)
def names_pattern(names: Tuple[str, ...]) -> "re.Pattern[str]":
    """Returns the pattern of a typedef, and of these names elsewhere."""
    return re.compile(rf"{TYPEDEF}|\b(?P<other>{'|'.join(names)})\b" if names else TYPEDEF)


def with_types(text: str, types: Mapping[str, str], wider: Mapping[str, str]) -> str:
    """Returns a text with other types for typedefs, and with other types instead of these elsewhere."""

    def changed(found: "re.Match[str]") -> str:
        words, name = found["words"], found["name"]
        if name is None:
            return wider[found["other"]]
        if name not in types or "struct" in words or "__attribute__" in words:
            return f"typedef{within(words)}{name}"
        return f"typedef {types[name]} " + "\n" * words.count("\n") + name

    def within(words: str) -> str:
        return re.sub(r"\w+", lambda it: wider.get(it[0], it[0]), words)

    return names_pattern(tuple(wider)).sub(changed, text)


def with_members(text: str, structs: Mapping[str, Mapping[str, str]]) -> str:
    """Returns a text with other types for members of structs."""

    def changed(found: "re.Match[str]") -> str:
        types = structs.get(found[1] or found[2], {})

        def member(one: "re.Match[str]") -> str:
            if one[3] not in types:
                return one[0]
            return f"{one[1]}{types[one[3]]} " + "\n" * one[2].count("\n") + one[3]

        return MEMBER.sub(member, found[0]) if types else found[0]

    return STRUCT.sub(changed, text) if structs else text


def declarations(platform: Platform) -> str:
    """Returns the line that declares the types that compilers have macros for."""
    return "".join(f"typedef {platform.types[f'{it}_t']} {TYPE_MARK}{it}_t;" for it in BUILT_IN.split()) + "\n"


def retargeted(text: str, platform: Platform, own: Mapping[str, str]) -> str:
    """Returns the text of a unit as it is on a platform, with the same lines, after one of declarations if it needs
    these. `own` are types of typedefs anywhere; typedefs and structs of the C library are changed in system headers
    only.
    """
    types, wider = {**platform.types, **own}, platform.wider

    def constant(found: "re.Match[str]") -> str:
        number = found["number"] if found["name"].endswith("_C") else ""
        return f"({found[2]}{found[3]}{number}{platform.constants[found['name']]}{found[5]})"

    text = PRI.sub(lambda it: f'"{platform.modifiers[it[2]]}{it[1]}"/*{macro_of(it[1], it[2])}*/', text)
    if OF_CLANG not in text:
        text = ATOMIC.sub(lambda it: f"__typeof__{it[1]}" if it[1] else "", text)
    text = SIGNED_TYPE.sub(lambda it: f"signed {platform.types[it[1]]}", CONSTANT.sub(constant, text))
    if platform.model is Model.ILP32 and LARGE_FILES.search(text):
        types, wider = {**types, **FILE_TYPES}, {**wider, **OF_FILES}
    if platform.model is not Model.LP64:
        text = BIT_FIELD.sub(r"\1", text)
    if platform.model is Model.LLP64:
        text = CHARACTER_SIZE.sub(r"int\1", text)
    parts = []
    for is_system, part in chunks(text):
        if is_system:
            part = with_types(with_members(part, platform.members), types, wider)
        parts.append(with_types(part, own, {}) if own and not is_system else part)
    text = "".join(parts)
    return declarations(platform) + text if TYPE_MARK in text else text
