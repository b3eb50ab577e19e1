"""Where preprocessed text may call a function that has a format, found by the names that such functions can have: only
there libclang is asked what is called, so that nobody walks its trees.
"""

import re
from typing import AbstractSet, Iterable, Iterator, List, Sequence, Set, Tuple

from ..source.known import BUILT_IN_PREFIX, KNOWN
from .line_markers import SPACE

# Bytes above ASCII are in names alone.
LETTER, BYTE = r"[A-Za-z_$\x80-\xff]", r"[\w$\x80-\xff]"
WORD = rf"(?<!{BYTE}){LETTER}{BYTE}*"
NAME, REST = re.compile(WORD), re.compile(rf"{BYTE}*")
# The end of the parameters of a variadic function, or in C++ of a pack of arguments; what is before the former.
VARIADIC = re.compile(rf"\.\.\.{SPACE}\)")
BEFORE_DOTS, LONGEST_SPACE = (",", "("), 80
ATTRIBUTE = re.compile(r"format(?:__)?\s*\(")
# What is between declarations and statements.
BETWEEN = ";{}"
PARENTHESIS = re.compile(r"[()]")
# A name before a parenthesis, or before the end of one and another, as in `(*name[2])(`,
# also with attributes, as in `name [[cold]] (`.
BEFORE = re.compile(rf"({WORD})(?:{SPACE}\[+[^\]]*\]+)*(?:{SPACE}\))*{SPACE}\(")
# What gives a name the type of something else; and what comes after it, up to its end or its value.
DEDUCING = [re.compile(rf"{it}(?:__)?") for it in ("auto", "typeof", "decltype")]
DECLARED = re.compile(r"[^;{}()=]*")
ALIAS = re.compile(rf"\busing\s+({WORD})")
# The parenthesis of what may be a call, after what may have a function as its value, or after any name.
AFTER_VALUE = re.compile(rf"[)\]>}}]{SPACE}\(")
OPENING = re.compile(rf"{SPACE}\(")
AFTER_NAME = re.compile(rf"{WORD}{SPACE}\(")
KEYWORDS = frozenset(
    "if while for switch return sizeof int char void long short unsigned signed float double const format __format__ "
    "__attribute__ asm __asm__ catch static_cast reinterpret_cast const_cast dynamic_cast".split()
)
# How many declarations before it a list of parameters may begin in: values of parameters may have braces.
FURTHER = 4

Span = Tuple[int, int]


def names_in(text: str, spans: Sequence[Span], given: Iterable[str]) -> AbstractSet[str]:
    """Returns the names of functions that may have a format, in these parts of a text: those that are given, are known,
    or are declared as variadic or with the attribute in the text.
    """
    return {*given, *KNOWN, *(BUILT_IN_PREFIX + it for it in KNOWN), *declared_names(text, spans)}


def call_sites(text: str, spans: Sequence[Span], names: AbstractSet[str]) -> List[int]:
    """Returns where the parentheses of calls are, in these parts of a text, that may call a function with one of these
    names.
    """
    stems = stems_of(names)
    found: Set[int] = set()
    for start, end in spans:
        own = text[start:end]
        found.update(start + it.end() - 1 for it in AFTER_VALUE.finditer(own))
        found.update(start + it for it in after_names(own, names, stems))
    return sorted(found)


def after_names(own: str, names: AbstractSet[str], stems: Sequence[str]) -> Iterator[int]:
    """Yields where parentheses are in a text after these names, which have these stems; or after any, if operators are
    among them.
    """
    if "operator" in names:
        yield from (it.end() - 1 for it in AFTER_NAME.finditer(own))
    # To look for one text after another takes a tenth of the time of a pattern of all.
    for stem in stems:
        at = own.find(stem)
        while at >= 0:
            # Most names are not called: where one begins is looked for last.
            found = REST.match(own, at)
            end = found.end() if found else at + len(stem)
            opening = OPENING.match(own, end)
            if opening and own[start_of(own, at) : end] in names:
                yield opening.end() - 1
            at = own.find(stem, end)


def stems_of(names: Iterable[str]) -> List[str]:
    """Returns the shortest of these names, so that each has one of them in it."""
    stems: List[str] = []
    for name in sorted(names, key=len):
        if not any(it in name for it in stems):
            stems.append(name)
    return stems


def start_of(text: str, at: int) -> int:
    """Returns where the name begins that has this offset in it."""
    while at and is_byte(text[at - 1]):
        at -= 1
    return at


def is_byte(character: str) -> bool:
    """Returns whether a character may be in a name."""
    return character.isalnum() or character in "_$" or character >= "\x80"


def declared_names(text: str, spans: Sequence[Span]) -> Set[str]:
    """Returns the names in a text that may be those of functions with formats, or of what calls one."""
    names: Set[str] = set()
    types: Set[str] = set()
    for found in VARIADIC.finditer(text):
        at = found.start()
        if text[max(0, at - LONGEST_SPACE) : at].rstrip().endswith(BEFORE_DOTS) or is_in(spans, at):
            start, declared = declarators(text, at)
            note(text[start:at], declared, names, types)
    for found in ATTRIBUTE.finditer(text):
        start, end = beginning(text, found.start()), ending(text, found.end())
        if "..." not in text[start:end]:
            note(text[start:end], BEFORE.findall(text, start, end), names, types)
    for start, end in spans:
        for pattern in DEDUCING:
            for found in pattern.finditer(text, start, end):
                after = DECLARED.match(text, after_parentheses(text, found.end()))
                names.update(NAME.findall(after[0]) if after else ())
    add_of_types(text, names, types)
    return names - KEYWORDS


def add_of_types(text: str, names: Set[str], types: Set[str]) -> None:
    """Adds the names that are declared with these types, or with types that are named by them."""
    seen: Set[str] = set()
    while types - seen - KEYWORDS:
        pattern = "|".join(map(re.escape, sorted(types - seen - KEYWORDS)))
        seen |= types
        for found in re.finditer(rf"(?<!{BYTE})(?:{pattern})(?!{BYTE})", text):
            start, end = beginning(text, found.start()), ending(text, found.end())
            note(text[start : found.start()], NAME.findall(text, found.end(), end), names, types)


def note(front: str, declared: List[str], names: Set[str], types: Set[str]) -> None:
    """Notes the names that a declaration declares, which are those of types if it begins so."""
    alias = ALIAS.search(front)
    if alias:
        types.add(alias[1])
    elif "typedef" in front:
        types.update(declared)
    names.update(declared)


def declarators(text: str, end: int) -> Tuple[int, List[str]]:
    """Returns where the declaration begins that has a list of parameters which ends there, and the names before that
    list: more than one if it comes after a parenthesis, as in `int (*name(int x))(`.
    """
    start, depth, at = beginning(text, end), 0, end
    for _ in range(FURTHER):
        for found in reversed(list(PARENTHESIS.finditer(text, start, at))):
            depth += 1 if found[0] == ")" else -1
            if depth < 0:
                names = BEFORE.findall(text, start, found.end())
                is_after = text[start : found.start()].rstrip().endswith(")")
                return start, names if is_after else names[-1:]
        start, at = beginning(text, max(start - 1, 0)), start
    return start, BEFORE.findall(text, start, end)


def after_parentheses(text: str, at: int) -> int:
    """Returns where what is in parentheses ends that begins there, after space, or this place."""
    opening, depth = OPENING.match(text, at), 0
    for found in PARENTHESIS.finditer(text, at) if opening else ():
        depth += 1 if found[0] == "(" else -1
        if depth == 0:
            return found.end()
    return at


def is_in(spans: Sequence[Span], at: int) -> bool:
    return any(start <= at < end for start, end in spans)


def beginning(text: str, at: int) -> int:
    """Returns where the declaration or statement begins that has this offset."""
    start = 0
    for it in BETWEEN:
        start = max(start, text.rfind(it, start, at) + 1)
    return start


def ending(text: str, at: int) -> int:
    """Returns where it ends."""
    end = len(text)
    for it in BETWEEN:
        found = text.find(it, at, end)
        end = found if found >= 0 else end
    return end
